"""`go.mod`: the required modules. A replaced module is read as its replacement; one that a folder replaces has no
version."""
from __future__ import annotations

import re
from collections.abc import Iterator

from . import golang
from .software_list import SoftwareList
from .texts import Line, Packages, Text

CALLED = "go.mod"
_MODULE = re.compile(r"module\s+\S+")
_COMMENT = re.compile(r"(?:^|(?<=\s))//.*")
_SAYS = re.compile(r"go\s+[0-9]|require[\s(]")
_BLOCK = re.compile(r"(?P<word>[a-z]+)\s*\(")
_REQUIRED = re.compile(rf"(?P<path>{golang.PATH})\s+(?P<version>{golang.VERSION})")
_REPLACED = re.compile(
    rf"(?P<path>{golang.PATH})(?:\s+(?P<version>{golang.VERSION}))?\s+=>\s+"
    rf"(?:(?P<by>{golang.PATH})\s+(?P<as>{golang.VERSION})|(?P<folder>\.{{1,2}}/\S*|/\S*|\.{{1,2}}))"
)
# Words that name no module of a build.
_OTHERS = frozenset({"module", "go", "toolchain", "exclude", "retract", "godebug", "tool", "ignore"})


def fits(text: Text) -> bool:
    first = next((bare for line in text.lines if (bare := _bare(line.text))), "")
    return _MODULE.fullmatch(first) is not None and text.any(_SAYS.match)


def read(text: Text, software_list: SoftwareList) -> None:
    packages = Packages(text, software_list, CALLED)
    required: list[tuple[str, str]] = []
    replaced: dict[tuple[str, str], tuple[str, str]] = {}
    for line, word, words in _statements(text):
        found = (
            {"require": _REQUIRED, "replace": _REPLACED}[word].fullmatch(words)
            if word in ("require", "replace")
            else None
        )
        if found is None:
            if word not in _OTHERS:
                packages.odd(line)
        elif word == "require":
            required.append((found["path"], found["version"]))
        else:
            replaced[found["path"], found["version"] or ""] = (found["by"] or found["path"], found["as"] or "")
    for path, version in required:
        by = replaced.get((path, version)) or replaced.get((path, ""))
        packages.put(golang.package(*(by or (path, version))))
    packages.end()


def _statements(text: Text) -> Iterator[tuple[Line, str, str]]:
    """The lines that say something, each with its word, which that of a block is in the block."""
    block = ""
    for line in text.lines:
        words = _bare(line.text).replace('"', "").replace("`", "")
        begun = _BLOCK.fullmatch(words)
        if begun:
            block = begun["word"]
        elif words == ")":
            block = ""
        elif block and words:
            yield line, block, words
        elif words:
            word, _, rest = words.partition(" ")
            yield line, word, rest.strip()


def _bare(text: str) -> str:
    return _COMMENT.sub("", text).strip()
