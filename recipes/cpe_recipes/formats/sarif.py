"""A result as SARIF 2.1.0: a rule for each advisory that has results, and a result for each machine and verdict.

TRUE is of the kind `fail`, with a level by its score; UNKNOWN and ERROR are `open`; FALSE, which is written if it is
asked for, is `pass`, or `open` where claims.py has it under investigation. What is accepted has a suppression with its
reason; what is settled has its reason in the properties, and the verdict before. A machine is a logical location, and
by its name also an artifact, since some readers show nothing without one.

What was left out is a notification of the invocation, which is no successful one then. How many advisories aren't
analysed is one too, and so are the packages of each machine that have no sure name.
"""
from __future__ import annotations

import urllib.parse
from collections.abc import Iterator, Mapping

from ..feeds import Json, json_text
from .claims import reasons_of, settled_words
from .gaps import Gaps
from .links import address

SCHEMA = "https://docs.oasis-open.org/sarif/sarif/v2.1.0/errata01/os/schemas/sarif-schema-2.1.0.json"
# The level of a score from these on; an advisory without a score may be as bad as any.
_LEVELS = ((7.0, "error"), (4.0, "warning"), (0.0, "note"))
_KINDS = {"TRUE": "fail", "FALSE": "pass"}
_EXPLOITED = "known-exploited"


def lines(value: Mapping[str, Json], time: str, _is_all: bool) -> list[str]:
    return [json_text(log(value, time))]


def log(value: Mapping[str, Json], time: str) -> dict[str, Json]:
    """The log, of one run."""
    rules, gaps = _Rules(), Gaps(value)
    doubted = gaps.doubted()
    results = [
        _result(machine["name"], verdict, doubted.get(machine["name"], ""), rules)
        for machine in value["machines"]
        for verdict in machine.get("verdicts", ())
    ]
    run = {
        "tool": {"driver": {"name": "cpe scan.py", "rules": rules.found}},
        "invocations": [_invocation(gaps, time)],
        "results": results,
    }
    about = {key: value[key] for key in ("kev", "epss") if key in value}
    return {"$schema": SCHEMA, "version": "2.1.0", "runs": [run | ({"properties": about} if about else {})]}


class _Rules:
    """The rules, one for each advisory, in the order of their first results."""

    def __init__(self) -> None:
        self.found: list[Json] = []
        self._places: dict[str, int] = {}

    def place(self, verdict: Mapping[str, Json]) -> int:
        place = self._places.get(verdict["id"])
        if place is None:
            place = self._places[verdict["id"]] = len(self.found)
            self.found.append(_rule(verdict))
        return place


def _rule(verdict: Mapping[str, Json]) -> dict[str, Json]:
    score, title, url = verdict.get("score"), verdict.get("title"), address(verdict.get("url"))
    rule: dict[str, Json] = {"id": verdict["id"]}
    if title:
        rule["shortDescription"] = _text(title)
    if url:
        rule["helpUri"] = url
    properties: dict[str, Json] = {"tags": ["security", *([_EXPLOITED] if "kev" in verdict else [])]}
    if score is not None:
        properties["security-severity"] = f"{float(score):.1f}"
    return rule | {"properties": properties | {key: verdict[key] for key in ("kev", "epss") if key in verdict}}


def _text(text: str) -> dict[str, str]:
    """A message that shows this text: brackets would be links in it, and braces places of arguments."""
    for one, spelled in (("{", "{{"), ("}", "}}"), ("[", "\\["), ("]", "\\]")):
        text = text.replace(one, spelled)
    return {"text": text}


def _result(machine: str, verdict: Mapping[str, Json], doubt: str, rules: _Rules) -> dict[str, Json]:
    truth, reasons, settled = verdict["verdict"], reasons_of(verdict), settled_words(verdict)
    if truth == "FALSE" and doubt and not reasons and not settled:
        reasons = [doubt]
    kind = "open" if truth == "FALSE" and reasons and not settled else _KINDS.get(truth, "open")
    reasons = [*settled, *reasons]
    words = f"{machine}: {verdict['id']} is {truth}{reasons and '; ' or ''}{'; '.join(reasons)}"
    result: dict[str, Json] = {
        "ruleId": verdict["id"],
        "ruleIndex": rules.place(verdict),
        "kind": kind,
        "level": _level(verdict.get("score")) if kind == "fail" else "none",
        "message": _text(words),
        "locations": [_location(machine)],
        "partialFingerprints": {"machineAndAdvisory/v1": f"{machine} {verdict['id']}"},
        "properties": {"verdict": truth} | {key: verdict[key] for key in ("settled", "before") if key in verdict},
    }
    if "accepted" in verdict:
        result["suppressions"] = [{"kind": "external", "justification": verdict["accepted"]}]
    return result


def _level(score: float | None) -> str:
    return "error" if score is None else next(level for least, level in _LEVELS if score >= least)


def _location(machine: str) -> dict[str, Json]:
    artifact = {"uri": urllib.parse.quote(machine, safe=""), "description": _text(f"the machine {machine}")}
    return {
        "physicalLocation": {"artifactLocation": artifact},
        "logicalLocations": [{"name": machine, "fullyQualifiedName": machine, "kind": "resource"}],
    }


def _invocation(gaps: Gaps, time: str) -> dict[str, Json]:
    return {
        "executionSuccessful": not gaps.left_out,
        "endTimeUtc": time,
        "toolExecutionNotifications": list(_notifications(gaps)),
    }


def _notifications(gaps: Gaps) -> Iterator[Json]:
    for words in gaps.words():
        yield {"level": "error", "message": _text(words)}
    for note in gaps.notes():
        yield {"level": "note", "message": _text(note)}
