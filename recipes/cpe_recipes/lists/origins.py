"""Which distribution the packages of a list are of, where the list says it by a package of its own: `base-files`,
`fedora-release`, `alpine-release`. Else it is left open, since `openssl 3.0.7-24.el9` may be of Red Hat, Rocky or
Alma."""
from __future__ import annotations

import re
from collections.abc import Mapping
from dataclasses import dataclass

from .software_list import Draft, SoftwareList


@dataclass(frozen=True, slots=True)
class Origin:
    """A distribution: the namespace of its package URLs, its id in os-release, and its release; all empty if it
    isn't known."""

    namespace: str = ""
    id: str = ""
    release: str = ""

    def distro(self) -> tuple[tuple[str, str], ...]:
        """The qualifier of package URLs that says it."""
        return (("distro", f"{self.id}-{self.release}" if self.release else self.id),) if self.id else ()

    def put(self, software_list: SoftwareList) -> None:
        """Makes it the platform of a list."""
        if self.id:
            draft = Draft(software_list, f"{self.id} {self.release}".rstrip())
            draft.add_system(self.id, self.release)
            software_list.put(draft, is_platform=True)


OPEN = Origin()
_DEBIAN = re.compile(r"(?P<release>[0-9]+)(\.[0-9]+)*(\+deb[0-9]+u(?P<point>[0-9]+))?")
_NUMBERS = re.compile(r"[0-9]+(\.[0-9]+)*")
# By the package that says the release of a distribution: the namespace, and the id in os-release.
_RPM = {
    "almalinux-release": ("almalinux", "almalinux"),
    "amazon-linux-release": ("amazon", "amzn"),
    "azurelinux-release": ("azurelinux", "azurelinux"),
    "centos-release": ("centos", "centos"),
    "centos-linux-release": ("centos", "centos"),
    "centos-stream-release": ("centos", "centos"),
    "fedora-release-common": ("fedora", "fedora"),
    "fedora-release": ("fedora", "fedora"),
    "mariner-release": ("mariner", "mariner"),
    "openSUSE-release": ("opensuse", "opensuse-leap"),
    "Leap-release": ("opensuse", "opensuse-leap"),
    "oraclelinux-release": ("oracle", "ol"),
    "photon-release": ("photon", "photon"),
    "redhat-release": ("redhat", "rhel"),
    "redhat-release-server": ("redhat", "rhel"),
    "rocky-release": ("rocky", "rocky"),
    "sles-release": ("suse", "sles"),
}
_APK = {
    "alpine-release": ("alpine", "alpine"),
    "alpine-base": ("alpine", "alpine"),
    "chainguard-baselayout": ("chainguard", "chainguard"),
    "wolfi-baselayout": ("wolfi", "wolfi"),
}


def of_deb(versions: Mapping[str, str]) -> Origin:
    """The distribution of Debian's packages, of which these are the versions by name."""
    base = versions.get("base-files", "")
    if "ubuntu" in base:
        # (12ubuntu4.6 doesn't say which release it is)
        return Origin("ubuntu", "ubuntu")
    found = _DEBIAN.fullmatch(base)
    if found is None:
        return OPEN
    return Origin("debian", "debian", f"{found['release']}.{found['point']}" if found["point"] else found["release"])


def of_rpm(versions: Mapping[str, str]) -> Origin:
    return _by_package(_RPM, versions)


def of_apk(versions: Mapping[str, str]) -> Origin:
    return _by_package(_APK, versions)


def _by_package(table: Mapping[str, tuple[str, str]], versions: Mapping[str, str]) -> Origin:
    for name, (namespace, id) in table.items():
        if name in versions:
            found = _NUMBERS.match(versions[name])
            is_release = found is not None and name.endswith(("-release", "-server", "-common", "-base"))
            return Origin(namespace, id, found[0] if is_release else "")
    return OPEN
