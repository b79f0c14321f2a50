"""A result as VEX in CycloneDX 1.5: a vulnerability for each advisory and claim (claims.py), which affects the machines
as components.

An affected machine is `exploitable`, the word of CycloneDX; one under investigation is `in_triage`. The properties of
the metadata list what was left out, how many advisories aren't analysed, and which packages have no sure name.
"""
from __future__ import annotations

from collections.abc import Mapping, Sequence

from ..feeds import Json, json_text
from .claims import Claim, Claims, State, claims_of
from .gaps import Gaps
from .links import address
from .openvex import content_id
from .stamp import published

_STATES = {State.AFFECTED: "exploitable", State.NOT_AFFECTED: "not_affected", State.UNDER_INVESTIGATION: "in_triage"}
_SEVERITIES = ("critical", "high", "medium", "low", "none")
_PROPERTY = "cpe:scan"


def lines(value: Mapping[str, Json], time: str, is_all: bool) -> list[str]:
    return [json_text(document(value, time, is_all))]


def document(value: Mapping[str, Json], time: str, is_all: bool) -> dict[str, Json]:
    gaps = Gaps(value)
    claims = claims_of(value, gaps, is_all)
    made = {
        "version": 1,
        "metadata": _metadata(value, gaps, time),
        "components": [{"type": "application", "bom-ref": _ref(name), "name": name} for name in gaps.machines],
        "vulnerabilities": _vulnerabilities(claims),
    }
    return {"bomFormat": "CycloneDX", "specVersion": "1.5", "serialNumber": content_id(made), **made}


def _ref(machine: str) -> str:
    return f"machine:{machine}"


def _metadata(value: Mapping[str, Json], gaps: Gaps, time: str) -> dict[str, Json]:
    # (a result that is whole says that too)
    found = [("isWhole", "false" if gaps.left_out else "true")]
    found += [("leftOut", words) for words in gaps.words()]
    found += [("notAnalysed", note) for note in (gaps.note(),) if note]
    found += [("withoutSureName", f"{machine}: {words}") for machine, words in gaps.unnamed.items()]
    for kind in ("kev", "epss"):
        found += [(f"{kind}.{key}", str(one)) for key, one in value.get(kind, {}).items()]
    properties = [{"name": f"{_PROPERTY}:{name}", "value": one} for name, one in found]
    return {
        "timestamp": time,
        "tools": {"components": [{"type": "application", "name": "scan.py", "group": "cpe"}]},
        "properties": properties,
    }


def _vulnerabilities(claims: Claims) -> list[Json]:
    numbers: dict[str, int] = {}
    found = []
    for claim, machines in claims.machines.items():
        numbers[claim.id] = numbers.get(claim.id, 0) + 1
        found.append(_vulnerability(claim, numbers[claim.id], machines, claims.details[claim.id]))
    return found


def _vulnerability(claim: Claim, number: int, machines: Sequence[str], details: Mapping[str, Json]) -> dict[str, Json]:
    analysis = {"state": _STATES[claim.state]} | ({"detail": claim.reason} if claim.reason else {})
    known = {
        "source": _source(details),
        "ratings": _ratings(details),
        "description": details.get("title"),
        "published": published(details.get("published")),
    }
    return {
        "bom-ref": f"advisory:{claim.id}#{number}",
        "id": claim.id,
        **{key: one for key, one in known.items() if one},
        "analysis": analysis,
        "affects": [{"ref": _ref(name)} for name in machines],
        **_properties(details),
    }


def _source(details: Mapping[str, Json]) -> Json:
    url = address(details.get("url"))
    return {"url": url} if url else None


def _ratings(details: Mapping[str, Json]) -> list[Json]:
    score, severity = details.get("score"), str(details.get("severity") or "").lower()
    rating = ({} if score is None else {"score": score}) | ({"severity": severity} if severity in _SEVERITIES else {})
    return [rating] if rating else []


def _properties(details: Mapping[str, Json]) -> dict[str, Json]:
    """What is known of how it is exploited, for which CycloneDX 1.5 has no members."""
    found = [(f"{kind}.{key}", str(one)) for kind in ("kev", "epss") for key, one in details.get(kind, {}).items()]
    return {"properties": [{"name": f"{_PROPERTY}:{name}", "value": one} for name, one in found]} if found else {}
