"""Package URLs: their parts, and how they are written, both ways by the purl specification.

`pkg:deb/debian/bind9@1%3A9.18?arch=amd64` has the type, a namespace, a name, a version and qualifiers. What is read may
be spelled in any way that the specification lets pass, such as `:` and `%3A`; what is written is spelled in one.
"""
from __future__ import annotations

import re
from collections.abc import Iterator
from dataclasses import dataclass, replace
from urllib.parse import quote, unquote

_SCHEME = re.compile(r"pkg:/*", re.IGNORECASE)
_TYPE = re.compile(r"[A-Za-z][A-Za-z0-9.+-]*")
_KEY = re.compile(r"[A-Za-z][A-Za-z0-9._-]*")
_BAD_PERCENT = re.compile(r"%(?![0-9A-Fa-f]{2})")
_ODD = re.compile(r"[\s\x00-\x1f\x7f]")
# The types of packages that distributions build from source packages.
_BUILT = ("deb", "rpm", "apk")
# A package URL as nearly all tools write it, of which nothing has to be looked at to see that it is one.
_VALUE = r"[\w:.,/~+-]*(?:%[0-9A-Fa-f]{2}[\w:.,/~+-]*)*"
_COMMON = re.compile(
    r"pkg:[a-z]+(?:/(?:\w|%40)[\w.~+-]*(?:%[0-9A-Fa-f]{2}[\w.~+-]*)*)+(?:@[\w:.~+-]*(?:%[0-9A-Fa-f]{2}[\w:.~+-]*)*)?"
    rf"(?P<behind>\?[a-z]+={_VALUE}(?:&[a-z]+={_VALUE})*)?",
    re.ASCII,
)
_KEYS = re.compile(r"[?&][a-z]+=")
# What a segment has as it is, beside letters, digits, and `_.-~`.
_SAFE = ":"


class PurlFault(Exception):
    """Why a text is no package URL."""


@dataclass(frozen=True, slots=True)
class Purl:
    """A package URL in its parts, each without percent-encoding. Parts that it doesn't have are empty."""

    type: str
    name: str
    namespace: str = ""
    version: str = ""
    qualifiers: tuple[tuple[str, str], ...] = ()
    subpath: str = ""

    def qualifier(self, key: str) -> str:
        return next((value for one, value in self.qualifiers if one == key), "")

    def full_version(self) -> str:
        """The version with the epoch, which rpm's packages have as a qualifier, and Trivy's of Debian too."""
        epoch = self.qualifier("epoch")
        has_one = epoch.isdecimal() and epoch.strip("0") and self.version and ":" not in self.version
        return f"{epoch}:{self.version}" if has_one else self.version

    def text(self) -> str:
        """How it is written."""
        path = "/".join(quote(one, safe=_SAFE) for one in (self.type, *_segments(self.namespace), self.name))
        version = f"@{quote(self.version, safe=_SAFE)}" if self.version else ""
        pairs = sorted((key, value) for key, value in self.qualifiers if value)
        behind = "&".join(f"{key}={quote(value, safe=_SAFE)}" for key, value in pairs)
        subpath = "/".join(quote(one, safe=_SAFE) for one in _segments(self.subpath))
        return f"pkg:{path}{version}{f'?{behind}' if behind else ''}{f'#{subpath}' if subpath else ''}"


def check(text: str) -> None:
    """Raises PurlFault, with the reason, if a text is no package URL."""
    # (the parts of each of thousands would take longer than all else of a list)
    found = _COMMON.fullmatch(text)
    keys = [key[1:] for key in _KEYS.findall(found["behind"])] if found and found["behind"] else []
    if found is None or len(set(keys)) != len(keys):
        parse(text)


def with_upstream(text: str, source: str) -> str:
    """The package URL of a distribution's package with its source package, `name` or `name@version`, if it is another
    and isn't there. A text that is no package URL stays as it is."""
    if not source or not text:
        return text
    try:
        purl = parse(text)
    except PurlFault:
        return text
    name, _, version = source.partition("@")
    is_of_version = version in ("", purl.version, purl.full_version())
    if purl.type not in _BUILT or purl.qualifier("upstream") or name == purl.name and is_of_version:
        return text
    upstream = name if is_of_version else source
    return replace(purl, qualifiers=(*purl.qualifiers, ("upstream", upstream))).text()


def parse(text: str) -> Purl:
    """The parts of a package URL. PurlFault, with the reason, if the text is none."""
    found = _SCHEME.match(text)
    _needs(found is not None, "it doesn't begin as one")
    _needs(not _ODD.search(text), "a space or a control character is in it")
    _needs(not _BAD_PERCENT.search(text), "a percent sign has no two digits behind it")
    rest, _, subpath = text[found.end() :].partition("#")
    rest, _, behind = rest.partition("?")
    kind, _, path = rest.partition("/")
    _needs(_TYPE.fullmatch(kind) is not None, "it has no type")
    path = path.strip("/")
    # (an @ may begin a namespace of npm, as people write it, and no version has a / as it is)
    before, at, version = path.rpartition("@")
    if not at or not before or "/" in version:
        before, version = path, ""
    namespace, _, name = before.rpartition("/")
    _needs(unquote(name).strip() != "", "it has no name")
    inner = "/".join(unquote(one) for one in _segments(subpath) if one not in (".", ".."))
    spaces = "/".join(unquote(one) for one in _segments(namespace))
    return Purl(kind.lower(), unquote(name), spaces, unquote(version), tuple(_qualifiers(behind)), inner)


def _qualifiers(text: str) -> Iterator[tuple[str, str]]:
    keys = set()
    for one in filter(None, text.split("&")):
        key, equals, value = one.partition("=")
        _needs(equals == "=" and _KEY.fullmatch(key) is not None, "a qualifier isn't a key and a value")
        _needs(key.lower() not in keys, f"the qualifier {key.lower()} is there twice")
        keys.add(key.lower())
        if value:
            yield key.lower(), unquote(value)


def _segments(path: str) -> list[str]:
    return [one for one in path.split("/") if one]


def _needs(is_right: bool, reason: str) -> None:
    if not is_right:
        raise PurlFault(reason)
