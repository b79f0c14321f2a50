"""Written verdicts: the table at the end of `cpe evaluate`, the lines of a fleet, or the output of `scan.py --json`.

Each has its own length (`verdicts COUNT` above the table, `machines COUNT` after the lines, the end of the JSON), so
one that is cut off is noticed and refused. Statements that are parts of one advisory, `CVE-..`, `CVE-..#2` and so on,
are joined by the OR of their truths.
"""
from __future__ import annotations

from collections.abc import Sequence
from dataclasses import dataclass, field

from .advisories import base_id
from .console import Fatal
from .feeds import FeedFault, FormFault, Json, member, members, name_of, read_feed, text_at, values_of

# In the order of OR: the first that occurs among its children.
TRUTHS = ("TRUE", "ERROR", "UNKNOWN", "FALSE")
_RANK = {truth: rank for rank, truth in enumerate(TRUTHS)}


class Statements:
    """The ids of statements, and of which advisory each is a part. How many there are may be known without them."""

    def __init__(self, ids: Sequence[str], count: int | None = None) -> None:
        self.ids = list(ids)
        all_ids = set(ids)
        # (an id is that of a part where the first part is there)
        self.whole = {id: base_id(id) if base_id(id) in all_ids else id for id in self.ids}
        self.advisories = dict.fromkeys(self.whole.values())
        self.count = len(self.advisories) if count is None else count

    @staticmethod
    def of_advisories(ids: Sequence[str]) -> Statements:
        """Those of which it is known that they were asked for, whatever parts they had."""
        found = Statements([], len(ids))
        found.advisories = dict.fromkeys(ids)
        return found

    def has(self, advisory: str) -> bool:
        return advisory in self.advisories


def _order(truth: str, is_perhaps: bool) -> int:
    """The rank in the order of OR; an UNKNOWN that depends on an item that says too little is after the others, and
    such a FALSE before them."""
    return 2 * _RANK[truth] + (is_perhaps if truth == "UNKNOWN" else not is_perhaps)


@dataclass(frozen=True, slots=True)
class Settlement:
    """What a user settled of a verdict: the truth, the reason, and what it is by the feeds and lists."""

    truth: str
    reason: str
    before: str = "UNKNOWN"

    def words(self) -> str:
        return f"settled as {self.truth}: {self.reason}"


@dataclass
class Machine:
    """The verdicts of a machine, which has no name in a table of one inventory. Only those that aren't FALSE are shown,
    where not all are asked for, and those that are settled. Those in `perhaps` are another where an item says less than
    is asked for."""

    name: str | None
    statements: Statements = field(default_factory=lambda: Statements([]))
    shown: dict[str, str] = field(default_factory=dict)
    has_items: bool = True
    perhaps: set[str] = field(default_factory=set)
    settled: dict[str, Settlement] = field(default_factory=dict)

    def settle(self, advisory: str, settlement: Settlement) -> None:
        """Replaces a verdict by the settled one."""
        self.shown[advisory] = settlement.truth
        self.settled[advisory] = settlement
        self.perhaps.discard(advisory)

    def whole(self, id: str) -> str:
        """The advisory of a statement."""
        return self.statements.whole.get(id, id)

    def put(self, id: str, truth: str, is_perhaps: bool = False) -> None:
        whole = self.whole(id)
        if _order(truth, is_perhaps) < _order(self.shown.get(whole, "FALSE"), whole in self.perhaps):
            if truth != "FALSE":
                self.shown[whole] = truth
            (self.perhaps.add if is_perhaps and truth in ("UNKNOWN", "FALSE") else self.perhaps.discard)(whole)

    def kind(self, advisory: str) -> str:
        """Its verdict, or `perhaps` where it is UNKNOWN since an item says too little."""
        truth = self.shown.get(advisory, "FALSE")
        return "perhaps" if truth == "UNKNOWN" and advisory in self.perhaps else truth

    def rank(self, advisory: str) -> int:
        """Its place in the order of verdicts."""
        return _order(self.shown.get(advisory, "FALSE"), advisory in self.perhaps)

    def show_all(self) -> None:
        """Keeps those that are FALSE too."""
        for advisory in self.statements.advisories:
            self.shown.setdefault(advisory, "FALSE")

    def truth(self, advisory: str) -> str | None:
        """The verdict of an advisory, None if there is none."""
        return self.shown.get(advisory) or ("FALSE" if self.statements.has(advisory) else None)


@dataclass
class Verdicts:
    """The machines in their order, and how many lines of the records were refused. For an advisory without a verdict
    `states` says that it isn't analysed or is rejected, and `reasons` why it was left out. `doubts` are why a FALSE
    could be another verdict."""

    machines: list[Machine]
    refused: int = 0
    has_machines: bool = True
    reasons: dict[str, str] = field(default_factory=dict)
    states: dict[str, str] = field(default_factory=dict)
    doubts: list[str] = field(default_factory=list)
    asked_of: str = "it isn't among the advisories that were asked for"

    def why_none(self, advisory: str) -> str:
        """Why there is no verdict of an advisory on a machine with items."""
        return self.states.get(advisory) or self.reasons.get(advisory) or self.asked_of

    def is_told_of(self, advisory: str) -> bool:
        """Whether an advisory without a verdict is in the feeds, as one that has none."""
        return advisory in self.states


def read_verdicts(path: str | None) -> Verdicts:
    """The verdicts at this path, of standard input if there is none. Fatal if they aren't whole."""
    feed = name_of(path)
    try:
        data = read_feed(path)
        if data.startswith(b"{"):
            return _scan(list(values_of(data)))
    except FeedFault as fault:
        raise Fatal(f"{feed}: {fault}") from fault
    except FormFault as fault:
        raise Fatal(f"{feed}: it isn't what scan.py writes") from fault
    return verdicts_of(data, feed)


def verdicts_of(data: bytes, feed: str) -> Verdicts:
    """The verdicts of a table or of a fleet, of a feed of this name. Fatal if they aren't whole."""
    lines = data.decode(errors="backslashreplace").split("\n")
    try:
        if lines.pop():
            raise ValueError("its last line has no end")
        if lines and _count(lines[-1], "machines") is not None:
            return Verdicts(_Fleet().read(lines))
        return _table(lines)
    except ValueError as fault:
        raise Fatal(f"{feed}: no whole table of verdicts: {fault}") from fault


def _count(line: str, word: str) -> int | None:
    words = line.split(" ")
    return int(words[1]) if len(words) == 2 and words[0] == word and words[1].isdecimal() else None


def _verdict(text: str) -> tuple[str, str]:
    id, _, truth = text.partition(" ")
    if truth not in _RANK:
        raise ValueError(f"{text[:100]} is no verdict")
    return id, truth


def _machine(name: str | None, statements: Statements, rows: list[tuple[str, str]]) -> Machine:
    machine = Machine(name, statements)
    for id, truth in rows:
        machine.put(id, truth)
    return machine


def _scan(values: Sequence[Json]) -> Verdicts:
    """The result of one scan. FormFault if it is none."""
    count = member(values[0], "advisories")
    if len(values) != 1 or not isinstance(count, int):
        raise FormFault
    rows = members(values[0], "machines")
    told = [text_at(one, "id") or "" for row in rows for one in members(row, "verdicts")]
    statements = Statements([*_texts(members(values[0], "asked")), *told], count)
    machines: dict[str, Machine] = {}
    for row in rows:
        name = text_at(row, "name")
        if not name or name in machines:
            raise FormFault
        machines[name] = Machine(name, statements if "verdicts" in row else Statements([]), has_items="verdicts" in row)
        for one in members(row, "verdicts"):
            id, truth = text_at(one, "id"), text_at(one, "verdict")
            if id is None or truth not in _RANK:
                raise FormFault
            machines[name].put(id, truth)
            reason = text_at(one, "settled")
            if reason is not None:
                machines[name].settled[id] = Settlement(truth, reason)
    return _with_reasons(Verdicts(list(machines.values())), values[0])


def _with_reasons(verdicts: Verdicts, value: Json) -> Verdicts:
    """Adds why advisories of a scan have no verdicts, and why a FALSE could be another verdict."""
    if not isinstance(value.get("asked"), list):
        verdicts.asked_of = "which advisories were asked for isn't said there"
    else:
        verdicts.asked_of = "it isn't in the feeds"
    for one in members(value, "leftOut"):
        verdicts.reasons[text_at(one, "id") or ""] = f"left out: {text_at(one, 'reason')}"
    by_status = member(value, "notAnalysed") or {}
    for status in by_status if isinstance(by_status, dict) else ():
        verdicts.states |= dict.fromkeys(_texts(members(by_status, status)), f"not analysed: {status}")
    verdicts.states |= dict.fromkeys(_texts(members(value, "rejected")), "rejected")
    for one in members(value, "missing"):
        total, feed, given = member(one, "total"), text_at(one, "feed"), member(one, "given")
        if feed != "vulnerabilities":
            verdicts.doubts.append(f"of {total} {feed} {given} were given")
    return verdicts


def _texts(values: list[Json]) -> list[str]:
    if not all(isinstance(value, str) for value in values):
        raise FormFault
    return values


def _table(lines: list[str]) -> Verdicts:
    """The table at the end of the output of `cpe evaluate`; above it are answers to questions, and refused lines."""
    place = next((place for place, line in enumerate(lines) if _count(line, "verdicts") is not None), None)
    if place is None:
        raise ValueError("cpe evaluate, or a fleet, has not ended")
    rows = [_verdict(line.removeprefix("verdict ")) for line in lines[place + 1 :]]
    wanted = _count(lines[place], "verdicts")
    if len(rows) != wanted:
        raise ValueError(f"there are {len(rows)} of {wanted} verdicts")
    refused = sum(line.startswith("refused ") for line in lines[:place])
    return Verdicts([_machine(None, Statements([id for id, _ in rows]), rows)], refused, has_machines=False)


class _Fleet:
    """Reads the lines of a fleet, or of several fleets one after the other."""

    def __init__(self) -> None:
        self._machines: dict[str | None, Machine] = {}
        self._statements: Statements | None = None
        self._name: str | None = None
        self._rows: list[tuple[str, str]] = []

    def read(self, lines: list[str]) -> list[Machine]:
        before = 0
        for line in lines:
            wanted = _count(line, "machines")
            if wanted is None:
                self._take(line)
                continue
            self._close()
            if len(self._machines) - before != wanted:
                raise ValueError(f"there are {len(self._machines) - before} of {wanted} machines")
            before, self._statements = len(self._machines), None
        return list(self._machines.values())

    def _take(self, line: str) -> None:
        name, _, rest = line.partition(" ")
        if rest == "no items":
            self._close()
            self._put(Machine(name, has_items=False))
            return
        if name != self._name:
            self._close()
            self._name = name
        self._rows.append(_verdict(rest))

    def _close(self) -> None:
        """All verdicts of a machine are there; each machine has the same statements."""
        if self._name is None:
            return
        ids = [id for id, _ in self._rows]
        if self._statements is None:
            self._statements = Statements(ids)
        if ids != self._statements.ids:
            raise ValueError(f"{self._name} has {len(ids)} verdicts, which aren't those of the machines before it")
        self._put(_machine(self._name, self._statements, self._rows))
        self._name, self._rows = None, []

    def _put(self, machine: Machine) -> None:
        if machine.name in self._machines:
            raise ValueError(f"{machine.name} is there twice")
        self._machines[machine.name] = machine
