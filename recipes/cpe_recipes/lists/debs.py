"""Debian's packages, as dpkg's lists have them: which of them are there, and their package URLs."""
from __future__ import annotations

import re
from collections.abc import Sequence
from dataclasses import dataclass

from ..purls import Purl
from . import origins
from .software_list import SoftwareList
from .texts import Package, Packages, Text

NAME = r"[a-z0-9][a-z0-9+.-]*"
ARCH = r"(?::(?P<arch>[a-z0-9-]+))?"
VERSION = r"(?:[0-9]+:)?[0-9][A-Za-z0-9.+~:-]*"
# What is known of a package, by the second letter of dpkg's states. All others have files on the disk.
_ABSENT = {"c": "removed, with its configuration left", "n": "not installed"}
_WORDS = {"config-files": "c", "not-installed": "n"}
# Names and versions that only lists of Debian and its children have.
_MARK = re.compile(
    r"(?:^|[ \t])(?:base-files|dpkg|libc6|libc-bin|apt)(?::[a-z0-9-]+)?[ \t]+[0-9]"
    r"|:(?:amd64|arm64|armhf|armel|i386|ppc64el|riscv64|s390x|mips64el)[ \t]"
    r"|[ \t][0-9][^ \t]*(?:[+~]deb[0-9]+u[0-9]|ubuntu[0-9]|[+~]dfsg|~bpo[0-9])"
)


@dataclass(frozen=True, slots=True)
class Deb:
    """A package: its name, version and architecture, and its source package if the list has it."""

    name: str
    version: str
    arch: str = ""
    source: str = ""
    source_version: str = ""

    def purl(self, origin: origins.Origin) -> Purl:
        behind = f"@{self.source_version}" if self.source_version and self.source_version != self.version else ""
        upstream = f"{self.source}{behind}" if self.source and (self.source != self.name or behind) else ""
        qualifiers = (("arch", self.arch), *origin.distro(), ("upstream", upstream))
        return Purl("deb", self.name, origin.namespace, self.version, tuple(pair for pair in qualifiers if pair[1]))


def is_marked(text: Text) -> bool:
    """Whether lines of names and versions are of Debian or one of its children."""
    return text.any(_MARK.search)


def state_of(word: str) -> str:
    """Why a package isn't installed, in words, by dpkg's state or its abbreviation; empty if it is installed."""
    return _ABSENT.get(_WORDS.get(word, word), "")


def put(debs: Sequence[Deb], packages: Packages, software_list: SoftwareList) -> None:
    """Adds packages, and the distribution that they show."""
    origin = origins.of_deb({one.name: one.version for one in debs})
    origin.put(software_list)
    for one in debs:
        packages.put(Package(one.purl(origin)))
