"""npm's `package-lock.json` and `npm-shrinkwrap.json`: of version 2 and 3 `packages`, of version 1 `dependencies` and
those within.

A key ends in the name of its package, unless the package has another, as an alias has. The root (the project itself) is
no component, nor is a link to a folder that is listed. A version that is a URL or a folder is none.
"""
from __future__ import annotations

import re
from collections.abc import Iterator

from ..feeds import FeedFault, Json
from ..purls import Purl
from .software_list import Draft, SoftwareList
from .texts import NO_VERSION

# (URLs of packages, which are no package URLs)
PASSED: frozenset[str] = frozenset()
_WITHIN = "node_modules/"
_VERSION = re.compile(r"v?[0-9][A-Za-z0-9.+-]*")
_ALIAS = re.compile(r"npm:(?P<name>(?:@[^/@]+/)?[^/@]+)@(?P<version>.+)")


def identify(value: dict[str, Json]) -> str | None:
    if "lockfileVersion" not in value:
        return None
    return f"package-lock.json of version {value['lockfileVersion']}"


def is_read(value: dict[str, Json]) -> bool:
    version = value.get("lockfileVersion")
    return isinstance(version, int) and not isinstance(version, bool) and version in (1, 2, 3)


def read(value: dict[str, Json], software_list: SoftwareList) -> None:
    key = "dependencies" if value["lockfileVersion"] == 1 else "packages"
    found = value.get(key, {} if key == "dependencies" else None)
    if not isinstance(found, dict):
        raise FeedFault(f"it has no {key}" if found is None else f"its {key} are no object")
    for place, name, one in _dependencies(found) if key == "dependencies" else _packages(found):
        if isinstance(one, dict):
            _put(place, name, one, software_list)
        else:
            software_list.put_odd(place, "no object")


def _packages(found: dict[str, Json]) -> Iterator[tuple[str, str, Json]]:
    for place, one in found.items():
        if place and not (isinstance(one, dict) and one.get("link") is True and one.get("resolved") in found):
            # (what is in no such folder is the project's own, and called as its folder is)
            yield place, place.rpartition(_WITHIN)[2] if _WITHIN in place else place.rpartition("/")[2], one


def _dependencies(found: dict[str, Json]) -> Iterator[tuple[str, str, Json]]:
    """The packages of version 1 and those within them, in their order."""
    waiting = [(f"{_WITHIN}{name}", name, one) for name, one in reversed(found.items())]
    while waiting:
        place, name, one = waiting.pop()
        yield place, name, one
        within = one.get("dependencies") if isinstance(one, dict) else None
        if isinstance(within, dict):
            waiting.extend((f"{place}/{_WITHIN}{inner}", inner, each) for inner, each in reversed(within.items()))


def _put(place: str, name: str, one: dict[str, Json], software_list: SoftwareList) -> None:
    given, version = one.get("name", name), one.get("version")
    draft = Draft(software_list, place)
    if not isinstance(one.get("dependencies", {}), dict):
        software_list.put_odd(place, "its dependencies are no object")
    if not isinstance(given, str) or not given:
        software_list.put_odd(place, "its name is no text")
        return
    if version is not None and not isinstance(version, str):
        software_list.put_odd(place, "its version is no text")
        version = None
    alias = _ALIAS.fullmatch(version or "")
    if alias:
        given, version = alias["name"], alias["version"]
    is_version = _VERSION.fullmatch(version or "") is not None
    namespace, _, last = given.rpartition("/")
    draft.purl = Purl("npm", last, namespace, version if is_version else "").text()
    software_list.put(draft)
    if not is_version:
        software_list.put_odd(place, NO_VERSION)
