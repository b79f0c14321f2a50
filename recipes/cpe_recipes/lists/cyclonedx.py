"""CycloneDX 1.x as JSON.

Of each component, of those within components, and of the one that the list is about (`metadata.component`) these are
read: `cpe`; each value of `properties` that begins as a name does, such as Syft's `syft:cpe23`; of `evidence.identity`,
which is an object in 1.5 and a list in 1.6, the `concludedValue` and each `methods[].value` that begin so; and `purl`.
A component of type `operating-system` is the platform.
"""
from __future__ import annotations

from collections.abc import Iterator

from ..feeds import Json
from . import kinds, trivy
from .software_list import Draft, SoftwareList, list_at, text_of
from .unread_texts import is_name

# Members that refer to components by their ids, which may be package URLs, and the tools that wrote the list.
PASSED = frozenset(("bom-ref", "dependencies", "compositions", "annotations", "vulnerabilities", "tools"))
# Properties in which tools write the kind of a package.
_KINDS = ("syft:package:type", "aquasecurity:trivy:PkgType")
# What Trivy's properties begin with, of which one says in which kind of file packages were found.
_TRIVY = "aquasecurity:trivy:"
_CLASS = f"{_TRIVY}Class"


def identify(value: dict[str, Json]) -> str | None:
    """The name of this form; None if the document has another form."""
    return f"CycloneDX {value.get('specVersion', '1')}" if value.get("bomFormat") == "CycloneDX" else None


def is_read(value: dict[str, Json]) -> bool:
    version = value.get("specVersion", "1")
    return isinstance(version, str) and version.split(".")[0] == "1"


def read(value: dict[str, Json], software_list: SoftwareList) -> None:
    within = list_at(value, "components", is_needed=False)
    metadata = value.get("metadata")
    if metadata is not None and not isinstance(metadata, dict):
        software_list.put_odd(software_list.feed, "its metadata are no object")
    place = 0
    if isinstance(metadata, dict) and metadata.get("component") is not None:
        about, *others = _nested([metadata["component"]])
        # (what a list is about may well have no name, and that is nothing to say)
        place = _put(about, 0, software_list, is_about=True)
        for one in others:
            place = _put(one, place, software_list)
    for one in _nested(within):
        place = _put(one, place, software_list)


def _nested(components: list[Json]) -> Iterator[Json]:
    """Components and those within them, and so on, in their order."""
    waiting = list(reversed(components))
    while waiting:
        one = waiting.pop()
        yield one
        within = one.get("components") if isinstance(one, dict) else None
        if isinstance(within, list):
            waiting.extend(reversed(within))


def _put(one: Json, place: int, software_list: SoftwareList, is_about: bool = False) -> int:
    """Adds a component after `place` others, and returns how many there are then."""
    if not isinstance(one, dict):
        software_list.put_odd(f"component {place + 1} of {software_list.feed}")
        return place + 1
    given = one.get("bom-ref")
    id = given if isinstance(given, str) and given else text_of(one, ("group", "name", "version"))
    draft = Draft(software_list, id or f"component {place + 1} of {software_list.feed}")
    draft.add_name(one.get("cpe"), "its cpe")
    draft.add_purl(one.get("purl"), "its purl")
    _add_properties(one, draft)
    _add_evidence(one.get("evidence"), draft)
    if not isinstance(one.get("components", []), list):
        draft.faults.append("its components are no list")
    is_platform = one.get("type") == "operating-system"
    if is_platform:
        draft.add_system(one.get("name"), one.get("version"))
    if (is_about or _is_place(one, draft)) and not is_platform and not draft.names and not draft.faults:
        return place
    software_list.put(draft, is_platform)
    return place + 1


def _is_place(one: dict[str, Json], draft: Draft) -> bool:
    """Whether it is a file in which Trivy found packages, such as a lock, and no software itself."""
    properties = one.get("properties") if one.get("type") == "application" and not draft.purl else None
    return isinstance(properties, list) and any(
        isinstance(each, dict) and each.get("name") == _CLASS for each in properties
    )


def _add_properties(one: dict[str, Json], draft: Draft) -> None:
    told: dict[str, Json] = {}
    for each in draft.each(one, "properties"):
        value = each.get("value")
        if isinstance(value, str) and is_name(value):
            draft.add_name(value, "")
        name = each.get("name")
        # (a package URL in a property may be that of another package)
        if name in _KINDS:
            draft.kind = kinds.of_tool(value)
        if isinstance(name, str) and name.startswith(_TRIVY):
            told[name.removeprefix(_TRIVY)] = value
    if told:
        draft.add_source(*trivy.source_of(told))


def _add_evidence(evidence: Json, draft: Draft) -> None:
    """Adds the names of what was looked at for an identity."""
    if evidence is None:
        return
    if not isinstance(evidence, dict):
        draft.faults.append("its evidence is no object")
        return
    identity = evidence.get("identity")
    found = {"identity": [identity] if isinstance(identity, dict) else identity}
    for one in draft.each(found, "identity"):
        draft.add_text(one.get("concludedValue"))
        for method in draft.each(one, "methods"):
            draft.add_text(method.get("value"))
