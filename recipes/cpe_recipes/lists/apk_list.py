"""What `apk list --installed` and `apk info -v` write: name, version and release with hyphens between, and in the
former architecture, origin in braces, licence and state. The origin is the package of which it was built."""
from __future__ import annotations

import re
from collections.abc import Sequence
from dataclasses import dataclass

from ..purls import Purl
from . import origins
from .software_list import SoftwareList
from .texts import Package, Packages, Text

CALLED = "apk list"
_NAME = r"(?P<name>[A-Za-z0-9_][A-Za-z0-9_.+-]*?)"
_VERSION = r"(?P<version>[0-9][A-Za-z0-9._~]*-r[0-9]+)"
_LISTED = re.compile(
    rf"{_NAME}-{_VERSION} (?P<arch>[a-z0-9_]+) \{{(?P<origin>[^{{}}]*)\}} \(.*\)(?: \[(?P<state>[^\[\]]*)\])?"
)
_INFO = re.compile(rf"{_NAME}-{_VERSION}(?: - .*)?")
_FROM = re.compile(rf"upgradable from: {_NAME}-{_VERSION}")
# What a build named to remove it again, such as .build-deps-20240101.120000.
_VIRTUAL = re.compile(r"\.[A-Za-z0-9_.+-]+-[0-9].*")


@dataclass(frozen=True, slots=True)
class _Apk:
    name: str
    version: str
    arch: str = ""
    origin: str = ""

    def purl(self, distribution: origins.Origin) -> Purl:
        upstream = self.origin if self.origin != self.name else ""
        qualifiers = (("arch", self.arch), *distribution.distro(), ("upstream", upstream))
        return Purl(
            "apk", self.name, distribution.namespace, self.version, tuple(pair for pair in qualifiers if pair[1])
        )


def fits(text: Text) -> bool:
    return any(text.any(one.fullmatch) and text.most(lambda line: _is_of(line, one)) for one in (_LISTED, _INFO))


def _is_of(line: str, form: re.Pattern[str]) -> bool:
    return bool(form.fullmatch(line) or _VIRTUAL.fullmatch(line))


def read(text: Text, software_list: SoftwareList) -> None:
    packages, found = Packages(text, software_list, CALLED), []
    for _, line in packages.each(
        _LISTED if text.any(_LISTED.fullmatch) else _INFO, {_VIRTUAL: "virtual, with nothing in them"}
    ):
        parts = line.groupdict()
        version = _installed(parts) if "arch" in parts else parts["version"]
        if version:
            found.append(_Apk(parts["name"], version, parts.get("arch") or "", parts.get("origin") or ""))
        else:
            packages.absent("not installed")
    _put(found, packages, software_list)
    packages.end()


def _installed(parts: dict[str, str]) -> str:
    """The installed version; empty if there is none. Without --installed the list also has available versions."""
    state = parts["state"] or ""
    older = _FROM.fullmatch(state)
    if older:
        return older["version"]
    return parts["version"] if state.startswith("installed") else ""


def _put(found: Sequence[_Apk], packages: Packages, software_list: SoftwareList) -> None:
    distribution = origins.of_apk({one.name: one.version for one in found})
    distribution.put(software_list)
    for one in found:
        packages.put(Package(one.purl(distribution)))
