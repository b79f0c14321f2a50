"""CVE records of format 5 (cvelistV5), as advisories of NVD's form: a record's own statement of the names that it
concerns.

- `cpeApplicability` of a container (`cna`, or one of `adp`) has the form of NVD's configurations, and is used
  unchanged.
- If a container has none, each of its `affected` with `cpes` becomes a configuration. An affected version becomes the
  product with this version as both bounds. A range becomes the product with its bounds, if its `versionType` names an
  order. In all other cases the product is asked for, and its versions stay UNKNOWN. These are: no order is named
  (`custom`, `git`, or nothing), the entry has `changes`, it follows an entry of another status, or it is for some
  platforms only. The versions that a record doesn't list stay UNKNOWN too, unless its `defaultStatus` is `unaffected`.
- An `affected` without `cpes` has no name to ask for. A record with nothing else counts as not analysed.

All containers are joined by OR.
"""
from __future__ import annotations

import re
from collections.abc import Iterator, Mapping

from .feeds import FormFault, Json, member, members, text_at

STATUS, NO_NAMES = "CVE record", "CVE record without names"
# The member of a match that says why it stays UNKNOWN.
DOUBT = "doubt"
# Types of versions whose order is stated by a specification.
_ORDERED = ("semver", "maven", "python", "rpm", "deb", "npm", "gem", "apk", "nuget")
_ALL, _BEGINNING, _NO_VERSION = ("*", "all"), ("0", "*"), ("n/a", "unspecified", "-", "unknown", "")
_METRICS = {
    "cvssV4_0": "cvssMetricV40",
    "cvssV3_1": "cvssMetricV31",
    "cvssV3_0": "cvssMetricV30",
    "cvssV2_0": "cvssMetricV2",
}
# What is read as a version, and not as words about some, such as `<2.0`, `1.x` or `1.0-1.5`.
_PLAIN = re.compile(r"[0-9A-Za-z][0-9A-Za-z._+~:-]{0,255}")
_SOME = re.compile(r"(^|[._-])[xX]($|[._-])|^v?\d+(\.\d+)+-v?\d+(\.\d+)+$")
_VERSION_OF = re.compile(r"cpe:2\.3:(?:(?:[^:\\]|\\.)*:){3}((?:[^:\\]|\\.)*)", re.IGNORECASE)
_VERSION_OF_URI = re.compile(r"cpe:/[^:]*(?::[^:]*){2}(?::([^:]*))?", re.IGNORECASE)


def id_of(record: Json) -> Json:
    metadata = record.get("cveMetadata") if isinstance(record, dict) else None
    return metadata.get("cveId") if isinstance(metadata, dict) else None


def modified_of(record: Json) -> Json:
    metadata = record.get("cveMetadata")
    found = [metadata.get(key) for key in ("dateUpdated", "datePublished")] if isinstance(metadata, dict) else []
    return next((one for one in found if one), None)


def vulnerability(record: Json) -> Json:
    """The record as an advisory of NVD's form. What isn't of the published form there isn't of it here either."""
    id, modified = id_of(record), modified_of(record)
    cve: dict[str, Json] = {"id": id, "vulnStatus": STATUS, "lastModified": modified}
    try:
        metadata, containers = member(record, "cveMetadata"), member(record, "containers") or {}
        if text_at(metadata, "state") == "REJECTED":
            return {"cve": cve | {"vulnStatus": "Rejected"}}
        cna = member(containers, "cna") or {}
        all_of = [cna, *members(containers, "adp")]
        cve["configurations"] = [configuration for container in all_of for configuration in _configurations(container)]
        cve["vulnStatus"] = STATUS if cve["configurations"] else NO_NAMES
    except FormFault as fault:
        return {"cve": cve | {"configurations": str(fault) or "not of the published form"}}
    return {"cve": cve | {"published": metadata.get("datePublished")} | _details(cna, all_of)}


def _details(cna: Json, containers: list[Json]) -> dict[str, Json]:
    """What people want to know of it, in NVD's form."""
    texts = (
        [one for one in cna.get("descriptions") or () if isinstance(one, dict)]
        if _is_list(cna.get("descriptions"))
        else []
    )
    described = [{"lang": str(one.get("lang")).split("-")[0], "value": one.get("value")} for one in texts]
    title = (
        [{"lang": "en", "value": cna["title"]}] if isinstance(cna.get("title"), str) and cna["title"].strip() else []
    )
    metrics: dict[str, list[Json]] = {}
    for number, container in enumerate(containers):
        for metric in container["metrics"] if _is_list(container.get("metrics")) else ():
            for name, called in _METRICS.items():
                if isinstance(metric, dict) and name in metric:
                    metrics.setdefault(called, []).append(
                        {"type": "Secondary" if number else "Primary", "cvssData": metric[name]}
                    )
    return {"descriptions": [*title, *described], "metrics": metrics, "references": cna.get("references") or []}


def _is_list(value: Json) -> bool:
    return isinstance(value, list)


def _configurations(container: Json) -> list[Json]:
    """What a container says of names."""
    given = members(container, "cpeApplicability")
    if given:
        return given
    found = []
    for affected in members(container, "affected"):
        matches = list(_matches(affected))
        if matches:
            found.append({"nodes": [{"operator": "OR", "negate": False, "cpeMatch": matches}]})
    return found


def _matches(affected: Json) -> Iterator[Json]:
    """The matches of what is affected: those that are decided, and of each name that stays open beside them one with
    the reasons."""
    platforms = ", ".join(str(one) for one in members(affected, "platforms"))
    for name in dict.fromkeys(_texts(members(affected, "cpes"))):
        doubts: dict[str, None] = {}
        for bounds, doubt in _versions(affected, name):
            if platforms:
                doubt = doubt or f"it is affected on {platforms}"
            if doubt:
                doubts[doubt] = None
            else:
                yield {"vulnerable": True, "criteria": name, **bounds}
        if doubts:
            yield {"vulnerable": True, "criteria": name, DOUBT: "; ".join(doubts)}


def _texts(values: list[Json]) -> list[str]:
    if not all(isinstance(value, str) for value in values):
        raise FormFault
    return values


def _versions(affected: Json, name: str) -> Iterator[tuple[Mapping[str, str], str]]:
    """The affected versions of this name: bounds of NVD's form, or why they aren't known."""
    default, entries = text_at(affected, "defaultStatus") or "unknown", members(affected, "versions")
    own = _own_version(name)
    if own:
        is_listed = any(
            _is_single(one) and text_at(one, "version") == own and text_at(one, "status") == "affected"
            for one in entries
        )
        is_sure = is_listed or default == "affected" and not entries
        yield {}, "" if is_sure else "the record doesn't say which of its versions are affected"
        return
    is_first = True
    for entry in entries:
        status = text_at(entry, "status")
        if status == "affected":
            bounds, doubt = _bounds(entry)
            yield bounds, doubt or ("" if is_first else "versions of another status are before it")
        else:
            is_first = False
            if status != "unaffected":
                yield {}, "the status of some versions is unknown"
    if default == "affected":
        yield {}, "all versions but those that the record lists are affected" if entries else ""
    elif default != "unaffected":
        yield {}, "the status of versions that the record doesn't list is unknown"


def _is_single(entry: Json) -> bool:
    return member(entry, "lessThan") is None and member(entry, "lessThanOrEqual") is None


def _bounds(entry: Json) -> tuple[Mapping[str, str], str]:
    """The bounds of an affected version or range, or why there are none that can be asked for."""
    version, type = text_at(entry, "version") or "", text_at(entry, "versionType") or ""
    before, to = text_at(entry, "lessThan"), text_at(entry, "lessThanOrEqual")
    if members(entry, "changes"):
        return {}, f"its status changes within the versions from {version}"
    if before is None and to is None:
        if version in _ALL:
            return {}, ""
        if not _is_version(version):
            return {}, f"its versions are given as {version or 'nothing'}"
        return {"versionStartIncluding": version, "versionEndIncluding": version}, ""
    end = before if before is not None else to or ""
    if type not in _ORDERED:
        return {}, f"no order is stated of its versions from {version} to {end} ({type or 'no versionType'})"
    if not (version in _BEGINNING or _is_version(version)) or not (end == "*" or _is_version(end)):
        return {}, f"its versions are given as {version} to {end}"
    bounds = {} if version in _BEGINNING else {"versionStartIncluding": version}
    if end != "*":
        bounds["versionEndExcluding" if before is not None else "versionEndIncluding"] = end
    return bounds, ""


def _is_version(text: str) -> bool:
    return text not in _NO_VERSION and _PLAIN.fullmatch(text) is not None and _SOME.search(text) is None


def _own_version(name: str) -> str:
    """The version in the name itself; empty if it is ANY."""
    found = _VERSION_OF.match(name) or _VERSION_OF_URI.match(name)
    version = found[1] if found else None
    return "" if version in (None, "", "*") else re.sub(r"\\(.)", r"\1", version or "")
