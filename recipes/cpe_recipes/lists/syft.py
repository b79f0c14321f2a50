"""Syft's own JSON: of each of the `artifacts` its `cpes`, which are texts in older lists and objects with `cpe` in
newer ones, `purl` and `type`; the platform is `distro`, with its `cpeName` where it has one."""
from __future__ import annotations

from ..feeds import Json
from . import kinds
from .software_list import Draft, SoftwareList, list_at, text_of

# Members that refer to artifacts by their ids, and the settings of Syft.
PASSED = frozenset(("artifactRelationships", "descriptor"))


def identify(value: dict[str, Json]) -> str | None:
    schema, descriptor = value.get("schema"), value.get("descriptor")
    of_schema = isinstance(schema, dict) and "/syft/" in str(schema.get("url"))
    of_tool = isinstance(descriptor, dict) and descriptor.get("name") == "syft"
    return "Syft's JSON" if of_schema or of_tool else None


def is_read(value: dict[str, Json]) -> bool:
    return True


def read(value: dict[str, Json], software_list: SoftwareList) -> None:
    _read_distro(value.get("distro"), software_list)
    for place, artifact in enumerate(list_at(value, "artifacts"), 1):
        id = f"artifact {place} of {software_list.feed}"
        if not isinstance(artifact, dict):
            software_list.put_odd(id)
            continue
        draft = Draft(software_list, text_of(artifact, ("name", "version")) or id)
        draft.kind = kinds.of_tool(artifact.get("type"))
        draft.add_purl(artifact.get("purl"), "its purl")
        _add_names(artifact.get("cpes"), draft)
        software_list.put(draft)


def _add_names(cpes: Json, draft: Draft) -> None:
    if cpes is None:
        return
    if not isinstance(cpes, list):
        draft.faults.append("its cpes are no list")
        return
    for one in cpes:
        draft.add_name(one.get("cpe") if isinstance(one, dict) else one, "one of its cpes")


def _read_distro(distro: Json, software_list: SoftwareList) -> None:
    if not distro:
        return
    if not isinstance(distro, dict):
        software_list.put_odd(software_list.feed, "its distro is no object")
        return
    draft = Draft(
        software_list,
        text_of(distro, ("id", "versionID")) or text_of(distro, ("prettyName",)) or text_of(distro, ("name",)),
    )
    draft.add_name(distro.get("cpeName"), "the cpeName of its distro")
    draft.add_system(distro.get("id"), distro.get("versionID"))
    if draft.id or draft.names:
        software_list.put(draft, is_platform=True)
