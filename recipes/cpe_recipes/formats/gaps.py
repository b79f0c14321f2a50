"""What isn't known for a result, for the forms in which it has no member of its own: the words of it, the advisories
that have no verdict by it, and the machines on which a FALSE is no all-clear by it. That is what was left out, and
packages without a sure name: the one of which an advisory speaks may be among them."""
from __future__ import annotations

import re
from collections.abc import Iterator, Mapping, Sequence
from dataclasses import dataclass

from ..feeds import Json
from ..kev import CVE
from ..table import format_count

# A statement of an advisory of several has its id with a number.
_ADVISORY = re.compile(rf"{CVE.pattern}(#[0-9]+)?")
# What has no id is called by its place, and that may begin as a machine is called.
_PLACE = re.compile(r".* [0-9]+ of .+|.+ line [0-9]+", re.DOTALL)


@dataclass(frozen=True)
class LeftOut:
    """Something that was not read: its id, why, and perhaps its place in a file."""

    id: str
    reason: str
    place: str = ""

    def words(self) -> str:
        return f"left out {self.id}{self.place and ', '}{self.place}: {self.reason}"

    def fronts(self, most: int) -> Iterator[str]:
        """The names, of at most this many letters, of the machine whose list may contain it: its id begins with such a
        name and a space."""
        end = self.id.find(" ", 0, most + 1)
        while end >= 0:
            yield self.id[:end]
            end = self.id.find(" ", end + 1, most + 1)
        yield self.id


class Gaps:
    """What isn't known, of the value of a result."""

    def __init__(self, value: Mapping[str, Json]) -> None:
        self.left_out = [LeftOut(one["id"], one["reason"], one.get("place", "")) for one in value["leftOut"]]
        self.machines = [machine["name"] for machine in value["machines"]]
        self.bare = [machine["name"] for machine in value["machines"] if "verdicts" not in machine]
        self.unanalysed: dict[str, str] = {
            id: status for status, ids in value.get("notAnalysed", {}).items() for id in ids
        }
        self.unnamed: dict[str, str] = {
            machine["name"]: words for machine in value["machines"] if (words := _unnamed(machine))
        }
        self._asked = set(value.get("asked", ()))

    def words(self) -> list[str]:
        return [one.words() for one in self.left_out]

    def note(self) -> str:
        """How many advisories aren't analysed, in words; empty if all are."""
        number = len(self.unanalysed)
        return f"not analysed: {number:,} {'advisory' if number == 1 else 'advisories'}" if number else ""

    def notes(self) -> Iterator[str]:
        """What isn't known though nothing was left out, in words."""
        yield from filter(None, [self.note()])
        yield from (f"{machine}: {words}" for machine, words in self.unnamed.items())

    def advisories(self) -> dict[str, str]:
        """The advisories that have no verdict since they were left out, each with the reason."""
        found: dict[str, str] = {}
        for one in self.left_out:
            if self._is_advisory(one) and one.id not in self._asked:
                found.setdefault(one.id.partition("#")[0], f"left out: {one.reason}")
        return {id: reason for id, reason in found.items() if id not in self._asked}

    def doubted(self) -> dict[str, str]:
        """The machines on which a FALSE is no all-clear, each with why: what was not read of its own list, or of what
        may concern each; or its packages without a sure name. (Of an advisory that is asked for, what can't be read is
        UNKNOWN in it.)"""
        by_machine: dict[str, list[LeftOut]] = {name: [] for name in self.machines}
        longest = max(map(len, by_machine), default=0)
        of_each: list[LeftOut] = []
        for one in self.left_out:
            owners = [name for name in one.fronts(longest) if name in by_machine]
            for name in owners:
                by_machine[name].append(one)
            if _PLACE.fullmatch(one.id) or not owners and not self._is_advisory(one):
                of_each.append(one)
        whys = {name: [_some(found)] if (found := of_it or of_each) else [] for name, of_it in by_machine.items()}
        for name, words in self.unnamed.items():
            whys[name].append(words)
        return {name: "; ".join(why) for name, why in whys.items() if why}

    def _is_advisory(self, one: LeftOut) -> bool:
        return one.id in self._asked or _ADVISORY.fullmatch(one.id) is not None


def _some(left_out: Sequence[LeftOut]) -> str:
    more = f"; and {len(left_out) - 1} more" if len(left_out) > 1 else ""
    return left_out[0].words() + more


def _unnamed(machine: Mapping[str, Json]) -> str:
    """The packages of a machine that have no sure name, in words; empty if there are none."""
    candidates = [one["id"] for one in machine.get("candidates", ())]
    packages = [*machine.get("withoutCandidates", ()), *candidates]
    if not packages:
        return ""
    more = f" and {len(packages) - 1:,} more" if len(packages) > 1 else ""
    return f"{format_count(len(packages), 'package')} without a sure name: {packages[0]}{more}"
