"""Names of operating systems that lists call by their id in os-release, such as `debian` 12.

Most lists say of their machine which operating system it is, and few give a name for it. The table has those of which
the names in NVD's feeds are well known. NVD names a release by its first number or its first two, and often with `.0`
behind a single one, so a system has several names: Debian 12.4 is `debian_linux` 12.4, 12 and 12.0. An id that isn't
here gets no name.
"""
from __future__ import annotations

import re

from ..names import PREFIX, quote

# By id, in Syft's words and Trivy's: the vendor, the product, and how many numbers of its version name a release.
_SYSTEMS = {
    "alpine": ("alpinelinux", "alpine_linux", 2),
    "centos": ("centos", "centos", 1),
    "debian": ("debian", "debian_linux", 1),
    "fedora": ("fedoraproject", "fedora", 1),
    "ol": ("oracle", "linux", 1),
    "oracle": ("oracle", "linux", 1),
    "opensuse-leap": ("opensuse", "leap", 2),
    "opensuse.leap": ("opensuse", "leap", 2),
    "photon": ("vmware", "photon_os", 2),
    "redhat": ("redhat", "enterprise_linux", 1),
    "rhel": ("redhat", "enterprise_linux", 1),
    "ubuntu": ("canonical", "ubuntu_linux", 2),
}
_VERSION = re.compile(r"\d+(\.\d+)*")


def names_of(id: object, version: object) -> list[str]:
    """The names of a system; none if it isn't known, or if its version doesn't begin with a number."""
    found = _VERSION.match(version) if isinstance(version, str) else None
    if not isinstance(id, str) or id.lower() not in _SYSTEMS or found is None:
        return []
    vendor, product, count = _SYSTEMS[id.lower()]
    release = found[0].split(".")[:count]
    versions = [found[0], ".".join(release), *([f"{release[0]}.0"] if len(release) == 1 else [])]
    return [f"{PREFIX}o:{vendor}:{product}:{quote(one)}:*:*:*:*:*:*:*" for one in dict.fromkeys(versions)]
