"""Trivy's own JSON: of each package of the `Results` its `Identifier.PURL`, its `Type` or that of its result, and its
source package (`SrcName`); the platform is `Metadata.OS`. Trivy gives no names of products, so each package is one
without a name."""
from __future__ import annotations

from collections.abc import Mapping

from ..feeds import FeedFault, Json
from . import kinds
from .software_list import Draft, SoftwareList, list_at, text_of

# What was found in packages, which refers to them, and references to other packages.
PASSED = frozenset(("Vulnerabilities", "BOMRef", "DependsOn", "Relationships"))
# The classes of results that have packages.
_CLASSES = ("os-pkgs", "lang-pkgs")


def identify(value: dict[str, Json]) -> str | None:
    is_one = isinstance(value.get("SchemaVersion"), int) and (
        "ArtifactName" in value or "ArtifactType" in value or "Results" in value
    )
    return "Trivy's JSON" if is_one else None


def is_read(value: dict[str, Json]) -> bool:
    return True


def read(value: dict[str, Json], software_list: SoftwareList) -> None:
    _read_system(value.get("Metadata"), software_list)
    results = list_at(value, "Results")
    if not any(isinstance(one, dict) and "Packages" in one for one in results):
        raise FeedFault("it has no Packages: run trivy with --format json --list-all-pkgs")
    for place, result in enumerate(results, 1):
        id = f"result {place} of {software_list.feed}"
        if not isinstance(result, dict):
            software_list.put_odd(id)
        elif result.get("Packages") is not None:
            _read_packages(result, text_of(result, ("Target",)) or id, software_list)
        elif result.get("Class") in _CLASSES:
            software_list.put_odd(text_of(result, ("Target",)) or id, "it has no Packages")


def _read_packages(result: dict[str, Json], target: str, software_list: SoftwareList) -> None:
    packages = result["Packages"]
    if not isinstance(packages, list):
        software_list.put_odd(target, "its Packages are no list")
        return
    for place, package in enumerate(packages, 1):
        id = f"package {place} of {target}"
        if not isinstance(package, dict):
            software_list.put_odd(id)
            continue
        draft = Draft(software_list, text_of(package, ("ID",)) or text_of(package, ("Name", "Version")) or id)
        draft.kind = kinds.of_tool(result.get("Type"))
        identifier = package.get("Identifier")
        if isinstance(identifier, dict):
            draft.add_purl(identifier.get("PURL"), "its PURL")
        elif identifier is not None:
            draft.faults.append("its Identifier is no object")
        draft.add_source(*source_of(package))
        software_list.put(draft)


def source_of(told: Mapping[str, Json]) -> tuple[str, str]:
    """The name of the source package of a package, and its version with epoch and release; empty if the list doesn't
    have them."""
    name, version, release = (
        text if isinstance(text := told.get(key), str) else "" for key in ("SrcName", "SrcVersion", "SrcRelease")
    )
    epoch = told.get("SrcEpoch")
    # (a number in its own JSON, a text in CycloneDX)
    front = f"{epoch}:" if version and isinstance(epoch, (int, str)) and epoch not in (0, "", "0") else ""
    return name, f"{front}{version}-{release}" if version and release else f"{front}{version}"


def _read_system(metadata: Json, software_list: SoftwareList) -> None:
    if metadata is None:
        return
    system = metadata.get("OS") if isinstance(metadata, dict) else metadata
    if system is None:
        return
    if not isinstance(system, dict):
        software_list.put_odd(software_list.feed, "its Metadata.OS is no object")
        return
    draft = Draft(software_list, text_of(system, ("Family", "Name")))
    draft.add_system(system.get("Family"), system.get("Name"))
    if draft.id:
        software_list.put(draft, is_platform=True)
