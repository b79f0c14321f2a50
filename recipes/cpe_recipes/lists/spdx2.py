"""SPDX 2.x as JSON: of each package the locators of its `externalRefs` of the types cpe23Type, cpe22Type and purl,
which may be written as URLs. A package with the `primaryPackagePurpose` OPERATING-SYSTEM is the platform."""
from __future__ import annotations

import re

from ..feeds import Json
from .software_list import Draft, SoftwareList, list_at

# (no member refers to packages by what may look like a name)
PASSED: frozenset[str] = frozenset()

_NAME_TYPE = re.compile(r"(^|/)cpe2[23]Type$")
_PURL_TYPE = re.compile(r"(^|/)purl$")
# What Trivy writes of a package: of which source package it was built, and of a file in which it found packages.
_BUILT = re.compile(r"built package from: (?P<name>\S+)(?: (?P<version>\S+))?")
_CLASSES = ("Class: lang-pkgs", "Class: os-pkgs")


def identify(value: dict[str, Json]) -> str | None:
    version = value.get("spdxVersion")
    return version if isinstance(version, str) else None


def is_read(value: dict[str, Json]) -> bool:
    return str(value.get("spdxVersion")).startswith("SPDX-2")


def read(value: dict[str, Json], software_list: SoftwareList) -> None:
    for place, package in enumerate(list_at(value, "packages", is_needed=False), 1):
        id = f"package {place} of {software_list.feed}"
        if not isinstance(package, dict):
            software_list.put_odd(id)
            continue
        if _is_place(package):
            continue
        given = package.get("SPDXID")
        draft = Draft(software_list, given if isinstance(given, str) and given else id)
        for reference in draft.each(package, "externalRefs"):
            _add(reference, draft)
        _add_source(package.get("sourceInfo"), draft)
        is_platform = package.get("primaryPackagePurpose") == "OPERATING-SYSTEM"
        if is_platform:
            draft.add_system(package.get("name"), package.get("versionInfo"))
        software_list.put(draft, is_platform)


def _is_place(package: dict[str, Json]) -> bool:
    """Whether it is a file in which Trivy found packages, such as a lock, and no software itself."""
    if package.get("primaryPackagePurpose") != "APPLICATION" or package.get("externalRefs"):
        return False
    notes = [package.get("attributionTexts"), package.get("annotations")]
    texts = (
        one.get("comment") if isinstance(one, dict) else one for each in notes if isinstance(each, list) for one in each
    )
    return any(text in _CLASSES for text in texts)


def _add_source(text: Json, draft: Draft) -> None:
    found = _BUILT.fullmatch(text) if isinstance(text, str) else None
    if found:
        draft.add_source(found["name"], found["version"] or "")


def _add(reference: dict[str, Json], draft: Draft) -> None:
    kind, locator = reference.get("referenceType"), reference.get("referenceLocator")
    if not isinstance(kind, str):
        draft.faults.append("the type of a reference is no text")
    elif _NAME_TYPE.search(kind):
        draft.add_name(locator, "the locator of a reference")
    elif _PURL_TYPE.search(kind):
        draft.add_purl(locator, "the locator of a reference")
