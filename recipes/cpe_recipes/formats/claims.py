"""The claims of VEX about each advisory and machine of a result: affected, not affected, or under investigation.

- TRUE is affected.
- An accepted verdict (--suppress) is not affected, with the user's reason.
- A settled verdict (--settled) is affected or not, as the user settled it, with the user's reason.
- FALSE is written if all advisories are listed (--all). It is not affected only if the machine's whole list was read,
  each of its packages has a sure name, and nothing else that may concern it was left out. Otherwise it is under
  investigation. A verdict doesn't show whether the component is missing or only has another version, so the claim
  doesn't either.
- UNKNOWN and ERROR are under investigation. So is an advisory that was left out, on all machines; one that isn't
  analysed, if all advisories are listed; and each other advisory on a machine without items.
"""
from __future__ import annotations

from collections.abc import Iterator, Mapping
from dataclasses import dataclass
from enum import Enum

from ..feeds import Json
from ..verdicts import Settlement
from .gaps import Gaps

FALSE_REASON = (
    "By the feeds and the list that were read, the configurations of the advisory don't hold for this machine."
)
BARE_REASON = "No items of the machine are known, so no verdict is."


class State(Enum):
    AFFECTED = "affected"
    NOT_AFFECTED = "not_affected"
    UNDER_INVESTIGATION = "under_investigation"


@dataclass(frozen=True)
class Claim:
    """A claim about an advisory, with its reason in words if there is one."""

    id: str
    state: State
    reason: str


@dataclass(frozen=True)
class Claims:
    """The claims with their machines, and the details of the advisories."""

    machines: dict[Claim, list[str]]
    details: dict[str, Mapping[str, Json]]


def reasons_of(verdict: Mapping[str, Json]) -> list[str]:
    """The words beside a verdict."""
    return [text for key in ("hangsOn", "remarks", "decidedBy") for text in verdict.get(key, ())]


def settled_words(verdict: Mapping[str, Json]) -> list[str]:
    """How a verdict is settled, if it is."""
    return [Settlement(verdict["verdict"], verdict["settled"]).words()] if "settled" in verdict else []


def claims_of(value: Mapping[str, Json], gaps: Gaps, is_all: bool) -> Claims:
    """The claims of a result, in the order of its machines and of their verdicts."""
    doubted = gaps.doubted()
    found = Claims({}, {})
    for machine in value["machines"]:
        for verdict in machine.get("verdicts", ()):
            claim = Claim(verdict["id"], *_of_verdict(verdict, doubted.get(machine["name"], "")))
            found.machines.setdefault(claim, []).append(machine["name"])
            found.details.setdefault(verdict["id"], verdict)
    for id in list(found.details) if gaps.bare else ():
        found.machines.setdefault(Claim(id, State.UNDER_INVESTIGATION, BARE_REASON), []).extend(gaps.bare)
    for id, reason in _without_verdicts(gaps, is_all):
        found.machines[Claim(id, State.UNDER_INVESTIGATION, reason)] = gaps.machines
        found.details.setdefault(id, {"id": id})
    return found


def _of_verdict(verdict: Mapping[str, Json], doubt: str) -> tuple[State, str]:
    truth, settled = verdict["verdict"], settled_words(verdict)
    reasons = "; ".join([*settled, *reasons_of(verdict)])
    if "accepted" in verdict:
        return State.NOT_AFFECTED, f"accepted, verdict {truth}: {verdict['accepted']}"
    if truth == "TRUE":
        return State.AFFECTED, reasons
    if truth == "FALSE" and settled:
        return State.NOT_AFFECTED, settled[0]
    if truth == "FALSE":
        why = reasons or doubt
        return (State.UNDER_INVESTIGATION, f"verdict FALSE, but {why}") if why else (State.NOT_AFFECTED, FALSE_REASON)
    return State.UNDER_INVESTIGATION, f"verdict {truth}{reasons and ': '}{reasons}"


def _without_verdicts(gaps: Gaps, is_all: bool) -> Iterator[tuple[str, str]]:
    yield from gaps.advisories().items()
    if is_all:
        yield from ((id, f"not analysed: {status}") for id, status in gaps.unanalysed.items())
