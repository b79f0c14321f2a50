"""The table of `dpkg -l`, with its head or without it: state, name, version, architecture and description.

A terminal may have cut names and versions: dpkg makes both columns equally wide for one. What fills such a column is
said.
"""
from __future__ import annotations

import re

from . import debs
from .software_list import SoftwareList
from .texts import Packages, Text

CALLED = "dpkg -l"
_ROW = re.compile(
    rf"(?P<state>[uihrp][ncHUFWti])[R ]? +(?P<name>{debs.NAME}){debs.ARCH} +(?P<version>{debs.VERSION}|<none>)"
    r"(?: +(?P<table_arch>[a-z0-9-]+|<none>))?(?: +.*)?"
)
# The lines of the head begin so in all languages.
_HEAD = re.compile(r"[^ |+]\S*=\S+/.*|\| \S+=.*|\|/ \S+=?.*|\|\|/ .*|\+\+\+-=.*")
_RULE = re.compile(r"\+\+\+-(?P<name>=+)-(?P<version>=+)(?:-(?P<arch>=+))?-(?P<about>=+)-?")
_CUT = "its name or version may be cut off, since it fills its column: use dpkg-query -W"
_ARCH_OF_TERMINALS = 12


def fits(text: Text) -> bool:
    has_head = any(
        one.text.startswith("||/ ") and two.text.startswith("+++-=") for one, two in zip(text.lines, text.lines[1:])
    )
    # (without its head it has all four columns)
    return has_head or text.most(lambda line: (found := _ROW.fullmatch(line)) and found["table_arch"])


def read(text: Text, software_list: SoftwareList) -> None:
    packages, found = Packages(text, software_list, CALLED), []
    rules = [rule for line in text.lines if (rule := _RULE.fullmatch(line.text))]
    width = _width_of_terminal(rules[0]) if rules else 0
    has_arch = not rules or rules[0]["arch"] is not None
    for line, row in packages.each(_ROW, {_HEAD: ""}):
        why = debs.state_of(row["state"][1]) or (debs.state_of("n") if row["version"] == "<none>" else "")
        if why:
            packages.absent(why)
            continue
        if (
            width
            and max(_length(row, "name", "arch" if row["arch"] else "name"), _length(row, "version", "version"))
            >= width
        ):
            packages.odd(line, _CUT)
            continue
        table_arch = row["table_arch"] if has_arch and row["table_arch"] != "<none>" else ""
        found.append(debs.Deb(row["name"], row["version"], row["arch"] or table_arch or ""))
    debs.put(found, packages, software_list)
    packages.end()


def _length(row: re.Match[str], first: str, last: str) -> int:
    return row.end(last) - row.start(first)


def _width_of_terminal(rule: re.Match[str]) -> int:
    """How wide the columns of name and version are that a terminal gave them; 0 if each is as wide as what is in
    it."""
    name, version, arch = (len(rule[key] or "") for key in ("name", "version", "arch"))
    return name if name == version and arch in (0, _ARCH_OF_TERMINALS) else 0
