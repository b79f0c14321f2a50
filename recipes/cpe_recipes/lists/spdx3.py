"""SPDX 3 as JSON-LD: of each package of the `@graph` the `identifier` of each `externalIdentifier` of the types
`cpe22`, `cpe23` and `packageUrl`, and `software_packageUrl`. A package whose `software_primaryPurpose` is
`operatingSystem` is the platform."""
from __future__ import annotations

from collections.abc import Mapping

from ..feeds import Json
from .software_list import Draft, SoftwareList, list_at, text_of

# Members that refer to other elements by their ids.
PASSED = frozenset(("spdxId", "@id", "from", "to", "element", "rootElement", "subject", "namespaceMap"))

# Types of elements that are packages, as the context shortens them; without it each is a URL that ends in the word
# after `_`.
_PACKAGES = ("software_Package", "ai_AIPackage", "dataset_DatasetPackage")
_ENDS = ("/Software/Package", "/AI/AIPackage", "/Dataset/DatasetPackage")
_NAMES = ("cpe22", "cpe23")


def identify(value: dict[str, Json]) -> str | None:
    return "SPDX 3" if "spdx.org/rdf/3" in str(value.get("@context")) else None


def is_read(value: dict[str, Json]) -> bool:
    return True


def read(value: dict[str, Json], software_list: SoftwareList) -> None:
    # (a document of one element has no graph)
    elements = list_at(value, "@graph") if "@graph" in value or not _is_package(value) else [value]
    by_id = {one["@id"]: one for one in elements if isinstance(one, dict) and isinstance(one.get("@id"), str)}
    for place, element in enumerate(elements, 1):
        if not isinstance(element, dict):
            software_list.put_odd(f"element {place} of {software_list.feed}")
        elif _is_package(element):
            _put(element, f"element {place} of {software_list.feed}", by_id, software_list)


def _is_package(element: dict[str, Json]) -> bool:
    kinds = element.get("type", element.get("@type"))
    return any(
        isinstance(one, str) and (one in _PACKAGES or one.endswith(_ENDS))
        for one in (kinds if isinstance(kinds, list) else [kinds])
    )


def _put(
    element: dict[str, Json], other: str, by_id: Mapping[str, dict[str, Json]], software_list: SoftwareList
) -> None:
    given = element.get("spdxId", element.get("@id"))
    draft = Draft(
        software_list,
        given if isinstance(given, str) and given else text_of(element, ("name", "software_packageVersion")) or other,
    )
    draft.add_purl(element.get("software_packageUrl"), "its software_packageUrl")
    identifiers = element.get("externalIdentifier")
    # (JSON-LD may write a list of one as that one, and an object by its id)
    all_of = identifiers if isinstance(identifiers, list) or identifiers is None else [identifiers]
    found = None if all_of is None else [by_id.get(one, one) if isinstance(one, str) else one for one in all_of]
    for one in draft.each({"externalIdentifier": found}, "externalIdentifier"):
        _add(one, draft)
    is_platform = str(element.get("software_primaryPurpose")).endswith("operatingSystem")
    if is_platform:
        draft.add_system(element.get("name"), element.get("software_packageVersion"))
    software_list.put(draft, is_platform)


def _add(identifier: dict[str, Json], draft: Draft) -> None:
    kind, text = identifier.get("externalIdentifierType"), identifier.get("identifier")
    if not isinstance(kind, str):
        draft.faults.append("the type of an externalIdentifier is no text")
        return
    word = kind.rpartition("/")[2]
    if word in _NAMES:
        draft.add_name(text, "an externalIdentifier")
    elif word == "packageUrl":
        draft.add_purl(text, "an externalIdentifier")
