"""What `rpm -qa` writes: in each line name, version, release and architecture, with hyphens and a dot between
(`bash-5.1.8-6.el9.x86_64`).

With `--qf '%{NAME} %{EPOCHNUM}:%{VERSION}-%{RELEASE} %{ARCH} %{SOURCERPM}\\n'` there are columns; name and version are
enough of them.
"""
from __future__ import annotations

import re
from collections.abc import Sequence
from dataclasses import dataclass

from ..purls import Purl
from . import debs, origins
from .software_list import SoftwareList
from .texts import Package, Packages, Text

CALLED = "rpm -qa"
_NAME = r"(?P<name>[A-Za-z0-9_][A-Za-z0-9_.+-]*)"
_EPOCH = r"(?:(?P<epoch>[0-9]+|\(none\)):)?"
_PART = r"[A-Za-z0-9_.+~^]+"
_ARCHES = r"x86_64|x86_64_v2|noarch|i[3-6]86|athlon|aarch64|armv[567]\w*|ppc64|ppc64le|ppc|s390|s390x|riscv64|loongarch64|mips64el|\(none\)"
_JOINED = re.compile(rf"{_NAME}-{_EPOCH}(?P<version>{_PART})-(?P<release>{_PART})\.(?P<arch>{_ARCHES})")
_COLUMNS = re.compile(
    rf"{_NAME}[ \t]+{_EPOCH}(?P<version>{_PART})(?:-(?P<release>{_PART}))?"
    rf"(?:[ \t]+(?P<arch>{_ARCHES})(?:[ \t]+(?P<source>\S+\.src\.rpm|\(none\)))?)?"
)
# Keys, which rpm lists as if they were packages.
_KEY = re.compile(r"gpg-pubkey[- \t]\S.*")
# What only lists of rpm have: an architecture, a distribution's tag, and packages that each of its systems has.
_MARK = re.compile(
    rf"[ \t](?:{_ARCHES})(?:[ \t]|$)|-[^- \t]*\.(?:el|fc|amzn|oe|ph|mga|cm|azl|lp)[0-9]"
    r"|^(?:setup|rpm|rpm-libs|gpg-pubkey|glibc-common)[ \t]"
)


@dataclass(frozen=True, slots=True)
class _Rpm:
    name: str
    epoch: str
    version: str
    arch: str
    source: str

    def purl(self, origin: origins.Origin) -> Purl:
        qualifiers = (("arch", self.arch), *origin.distro(), ("epoch", self.epoch), ("upstream", self.source))
        return Purl("rpm", self.name, origin.namespace, self.version, tuple(pair for pair in qualifiers if pair[1]))


def fits(text: Text) -> bool:
    if text.most(lambda line: _JOINED.fullmatch(line) or _KEY.fullmatch(line)):
        return text.any(_JOINED.fullmatch)
    is_table = text.most(lambda line: _COLUMNS.fullmatch(line) or _KEY.fullmatch(line))
    return is_table and text.any(_MARK.search) and not debs.is_marked(text)


def read(text: Text, software_list: SoftwareList) -> None:
    packages, found = Packages(text, software_list, CALLED), []
    pattern = _JOINED if text.any(_JOINED.fullmatch) else _COLUMNS
    for _, line in packages.each(pattern, {_KEY: "keys, which are no software"}):
        found.append(_rpm(line))
    _put(found, packages, software_list)
    packages.end()


def _rpm(line: re.Match[str]) -> _Rpm:
    parts = line.groupdict()
    version = f"{parts['version']}-{parts['release']}" if parts["release"] else parts["version"]
    # (an epoch of 0 is none)
    told = {key: "" if parts.get(key) in (None, "(none)", "0") else parts[key] for key in ("epoch", "arch", "source")}
    return _Rpm(parts["name"], told["epoch"], version, told["arch"], told["source"])


def _put(found: Sequence[_Rpm], packages: Packages, software_list: SoftwareList) -> None:
    origin = origins.of_rpm({one.name: one.version for one in found})
    origin.put(software_list)
    for one in found:
        packages.put(Package(one.purl(origin)))
