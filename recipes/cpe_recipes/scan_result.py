"""The result of `scan.py --json` or of a fleet, as a page shows it: each advisory with its rows, and each machine with
its counts.

A row is a machine and an advisory that isn't FALSE there. Parts for people, such as titles, may be missing. If a member
is missing that has a verdict, or says what was left out, reading fails, and the message names the first such place.
"""
from __future__ import annotations

from collections import Counter
from collections.abc import Iterable, Iterator
from dataclasses import dataclass, field

from .console import Fatal, shorten
from .feeds import FeedFault, Json, name_of, read_feed, values_of
from .scores import score_of
from .verdicts import TRUTHS

ACCEPTED, SETTLED = "ACCEPTED", "SETTLED"
# What people decided: those that they accepted, and those that they settled as FALSE.
BY_PEOPLE = (ACCEPTED, SETTLED)
# The groups of the rows of an advisory, in their order.
GROUPS = (*(truth for truth in TRUTHS if truth != "FALSE"), *BY_PEOPLE)
NO_ITEMS = "no items"
_ONE_OF = {"leftOut": "leftOut", "machines": "machine", "verdicts": "verdict"}
_WORDS = {str: "text", int: "number", list: "list", dict: "object", (int, float): "number"}


@dataclass(frozen=True, slots=True)
class Row:
    """A machine on which an advisory isn't FALSE, and what is known of why."""

    machine: str
    reasons: tuple[str, ...]


def group_reasons(truth: str, reasons: list[str], accepted: str | None, settled: str | None) -> tuple[str, list[str]]:
    """The group of a row, and its reasons, with why people accepted it or settled it."""
    if settled is not None:
        reasons = [f"settled as {truth}: {settled}", *reasons]
    if accepted is not None:
        return ACCEPTED, [f"{truth}: {accepted}", *reasons]
    return (SETTLED if truth == "FALSE" else truth), reasons


@dataclass
class Advisory:
    """An advisory, its details in the feed, the day since when it is known exploited and its EPSS if they are known,
    and its rows by their groups."""

    id: str
    title: str
    score: float | None
    severity: str
    published: str
    url: str
    exploited: str = ""
    epss: float | None = None
    rows: dict[str, list[Row]] = field(default_factory=lambda: {group: [] for group in GROUPS})

    def is_open(self) -> bool:
        """Whether a row isn't accepted, nor settled as FALSE."""
        return any(rows for group, rows in self.rows.items() if group not in BY_PEOPLE)

    def order(self) -> tuple[bool, bool, float, float, tuple[int, ...], str]:
        """The order of a page: known exploited advisories are first, then the highest score, the highest EPSS, and more
        machines; those without a score, and then those that are only accepted, are last."""
        counts = tuple(-len(rows) for rows in self.rows.values())
        score, epss = (1.0 if value is None else -value for value in (self.score, self.epss))
        return not self.is_open(), not self.exploited, score, epss, counts, self.id


@dataclass
class Machine:
    """A machine, how many items it has where that is known, how many rows of each group, and the highest score of those
    that aren't accepted."""

    name: str
    items: int | None
    has_verdicts: bool
    counts: Counter[str] = field(default_factory=Counter)
    highest: float | None = None
    perhaps: int = 0
    unlisted: int = 0
    removed: int = 0
    nameless: int = 0

    def order(self) -> tuple[bool, float, tuple[int, ...]]:
        return (
            not self.has_verdicts,
            -1.0 if self.highest is None else -self.highest,
            tuple(-self.counts[group] for group in GROUPS),
        )

    def note(self, group: str, score: float | None) -> None:
        self.counts[group] += 1
        if score is not None and group not in BY_PEOPLE:
            self.highest = score if self.highest is None else max(self.highest, score)


@dataclass
class ScanResult:
    """All of it: how many advisories were asked for, those that have rows, the machines, what was left out, and how
    many advisories aren't analysed, and so have no verdict."""

    asked: int
    advisories: list[Advisory]
    machines: list[Machine]
    left_out: list[tuple[str, str]]
    unanalysed: int = 0

    def counts(self) -> Counter[str]:
        """How many rows of each group there are, and how many verdicts are FALSE."""
        counts: Counter[str] = Counter()
        for machine in self.machines:
            counts.update(machine.counts)
            counts["FALSE"] += self.asked - machine.counts.total() if machine.has_verdicts else 0
        return counts

    def bare(self) -> list[Machine]:
        """The machines of which no verdict is known."""
        return [machine for machine in self.machines if not machine.has_verdicts]


def in_order(
    asked: int, advisories: Iterable[Advisory], machines: Iterable[Machine], left_out: list[tuple[str, str]]
) -> ScanResult:
    """What a page shows of these, what is worst first."""
    shown = [one for one in advisories if any(one.rows.values())]
    return ScanResult(asked, sorted(shown, key=Advisory.order), sorted(machines, key=Machine.order), left_out)


def read_scan_result(path: str | None) -> ScanResult:
    """The result of scan.py at this path, of standard input if there is none. Fatal if it is none."""
    feed = name_of(path)
    try:
        data = read_feed(path)
    except FeedFault as fault:
        raise Fatal(f"{feed}: {fault}") from fault
    return parse_scan_result(data, feed)


def parse_scan_result(data: bytes, feed: str) -> ScanResult:
    """The result of scan.py, of a feed of this name. Fatal if it is none."""
    try:
        values = list(values_of(data))
    except FeedFault as fault:
        raise Fatal(f"{feed}: {fault}") from fault
    if len(values) != 1:
        raise Fatal(f"{feed}: there are {len(values)} values, where scan.py --json writes one")
    return _Reader(feed).read(values[0])


class _Reader:
    def __init__(self, feed: str) -> None:
        self._feed = feed
        self._advisories: dict[str, Advisory] = {}

    def read(self, value: Json) -> ScanResult:
        asked = self._number(value, "advisories", "the table")
        left_out = [
            (self._needed(one, "id", str, where), self._needed(one, "reason", str, where))
            for where, one in self._list(value, "leftOut", "the table")
        ]
        machines: dict[str, Machine] = {}
        for where, row in self._list(value, "machines", "the table"):
            machine = self._machine(row, where)
            if machine.name in machines:
                raise self._fault(where, f"is there twice: {machine.name}")
            machines[machine.name] = machine
        if len(self._advisories) > asked:
            raise self._fault("the table", f"has {len(self._advisories)} advisories, where {asked} were asked for")
        scanned = in_order(asked, self._advisories.values(), machines.values(), left_out)
        by_status = self._given(value, "notAnalysed", dict, "the table") or {}
        scanned.unanalysed = sum(len(self._needed(by_status, status, list, "the table")) for status in by_status)
        return scanned

    def _machine(self, row: Json, where: str) -> Machine:
        name = self._needed(row, "name", str, where)
        if not name:
            raise self._fault(where, "has an empty name")
        machine = Machine(name, self._number(row, "items", where), "verdicts" in row)
        if machine.has_verdicts:
            machine.perhaps = len(self._needed(row, "perhaps", list, where))
            machine.unlisted = len(self._needed(row, "notInDictionary", list, where))
            machine.removed = len(self._needed(row, "underRemovedName", list, where))
            machine.nameless = len(self._given(row, "withoutCandidates", list, where) or ())
            seen: set[str] = set()
            for place, one in self._list(row, "verdicts", where):
                id = self._verdict(one, machine, place)
                if id in seen:
                    raise self._fault(place, f"is there twice: {id}")
                seen.add(id)
        elif machine.items:
            raise self._fault(where, "has no verdicts")
        return machine

    def _verdict(self, one: Json, machine: Machine, where: str) -> str:
        id, truth = self._needed(one, "id", str, where), self._needed(one, "verdict", str, where)
        if truth not in TRUTHS:
            raise self._fault(where, f"is no verdict: {truth[:100]}")
        advisory = self._advisories.get(id)
        if advisory is None:
            advisory = self._advisories[id] = self._advisory(id, one, where)
        settled = self._given(one, "settled", str, where)
        if truth != "FALSE" or settled is not None:
            reasons = [text for key in ("hangsOn", "remarks", "decidedBy") for text in self._texts(one, key, where)]
            group, reasons = group_reasons(truth, reasons, self._given(one, "accepted", str, where), settled)
            advisory.rows[group].append(Row(machine.name, tuple(reasons)))
            machine.note(group, advisory.score)
        return id

    def _advisory(self, id: str, one: Json, where: str) -> Advisory:
        title, severity, published, url = (
            self._given(one, key, str, where) or "" for key in ("title", "severity", "published", "url")
        )
        score = score_of(one.get("score"))
        kev, epss = (self._given(one, key, dict, where) for key in ("kev", "epss"))
        exploited = "" if kev is None else self._needed(kev, "dateAdded", str, where)
        probability = None if epss is None else self._probability(epss, where)
        return Advisory(
            id, title, None if score is None else float(score), severity, published, url, exploited, probability
        )

    def _probability(self, epss: Json, where: str) -> float:
        found = self._needed(epss, "epss", (int, float), where)
        if not 0 <= found <= 1:
            raise self._fault(where, f"has the EPSS {shorten(found)}, which is no number from 0 to 1")
        return float(found)

    def _texts(self, one: Json, key: str, where: str) -> list[str]:
        """The texts of a list that may be missing."""
        texts = self._given(one, key, list, where) or []
        if not all(isinstance(text, str) for text in texts):
            raise self._fault(where, f"has in {key} what is no text")
        return list(texts)

    def _given(self, value: Json, key: str, kind: type | tuple[type, ...], where: str) -> Json:
        """What an object has under a key, None if it has none."""
        if not isinstance(value, dict):
            raise self._fault(where, "is no object")
        found = value.get(key)
        if found is not None and (not isinstance(found, kind) or isinstance(found, bool)):
            raise self._fault(where, f"has a member {key} that is no {_WORDS[kind]}")
        return found

    def _needed(self, value: Json, key: str, kind: type | tuple[type, ...], where: str) -> Json:
        found = self._given(value, key, kind, where)
        if found is None:
            raise self._fault(where, f"has no member {key}")
        return found

    def _number(self, value: Json, key: str, where: str) -> int:
        found = self._needed(value, key, int, where)
        if found < 0:
            raise self._fault(where, f"has a member {key} below 0")
        return int(found)

    def _list(self, value: Json, key: str, where: str) -> Iterator[tuple[str, Json]]:
        """The members of a list, each with words for its place."""
        inside = "" if where == "the table" else f" of {where}"
        for place, one in enumerate(self._needed(value, key, list, where), 1):
            yield f"{_ONE_OF[key]} {place}{inside}", one

    def _fault(self, where: str, what: str) -> Fatal:
        return Fatal(f"{self._feed}: it isn't what scan.py --json writes: {where} {what}")
