"""The result of a scan for each machine, for people and programs: the table, the JSON, and the messages."""
from __future__ import annotations

from collections.abc import Callable, Iterable, Mapping, Sequence
from dataclasses import dataclass, field

from . import affected, names, verdicts
from .cases import FeedData, Product, Statement
from .components import Machine
from .console import Messages
from .earlier_scans import EarlierVerdict
from .feeds import Json
from .item_names import ItemName
from .leads import Lead
from .package_names import UnnamedPackages
from .range_checks import CheckResults
from .statement_rewriter import LONG
from .table import format_count

# How many lines that are alike are said before only their number is.
MOST_ALIKE = 20


@dataclass(frozen=True)
class PossibleMatch:
    """A statement, an item, and a fact that the item may be, because it lacks an attribute."""

    id: str
    item: str
    fact: str


@dataclass
class MachineOutcome:
    """The result of a scan for one machine.

    `leads` are the leads of all names in its list. `components` are those of each component with a name that cpe
    accepts, and `unlisted` those of components of which the dictionary has no name. `item_names` are all names of its
    items, and `asked` those over which its statements are evaluated. `check_results` are the results of its checks, and
    `truths` its evaluated verdicts, by the places of statements. `less` are the places whose verdict differs because an
    item says less than a fact, and `perhaps` the items and facts of these. `partly` are the reasons of UNKNOWN by items
    that may be meant. `backports` are packages of distributions that alone make a verdict TRUE, and perhaps are fixed.
    `explanations` are the items that make verdicts TRUE, if --why asks for them.
    """

    machine: Machine
    leads: list[Lead]
    components: list[list[Lead]] = field(default_factory=list)
    unlisted: list[list[Lead]] = field(default_factory=list)
    item_names: list[ItemName] = field(default_factory=list)
    asked: list[ItemName] = field(default_factory=list)
    check_results: CheckResults = field(default_factory=CheckResults)
    truths: dict[int, str] = field(default_factory=dict)
    less: set[int] = field(default_factory=set)
    perhaps: dict[PossibleMatch, None] = field(default_factory=dict)
    partly: dict[int, list[str]] = field(default_factory=dict)
    backports: dict[int, list[str]] = field(default_factory=dict)
    explanations: dict[int, list[str]] | None = None

    def note_backports(self, statements: Sequence[Statement], named: Callable[[str], str]) -> None:
        """Notes of statements that are TRUE by packages of distributions which these are; `named` is how cpe writes a
        fact."""
        released = {
            _versioned(it.name): f"backported? {it.item}: release {it.release}"
            for it in self.item_names
            if it.release and it.is_sure()
        }
        if not released and not self.check_results.backports:
            return
        for place in self.places_of("TRUE"):
            statement = statements[place]
            inside = [key for key in statement.checks if self.check_results.truths.get(key)]
            remarks = [remark for key in inside for remark in self.check_results.backports.get(key, ())]
            # (a range that has another item is reason enough)
            if all(key in self.check_results.backports for key in inside):
                remarks += [released[key] for fact in statement.facts if (key := _versioned(named(fact))) in released]
                if remarks:
                    self.backports[place] = list(dict.fromkeys(remarks))

    def has_items(self) -> bool:
        return bool(self.components)

    def places_of(self, truth: str) -> list[int]:
        """The places of the evaluated statements with this truth, in order."""
        return sorted(place for place, one in self.truths.items() if one == truth)

    def removed_items(self) -> list[str]:
        """Its items under removed names, which lead nowhere."""
        return [lead.name for lead in self.leads if lead.is_removed()]


def _versioned(name: str) -> tuple[str, ...]:
    """The vendor, the product and the version of a name."""
    return tuple(names.components(name)[names.VENDOR : names.UPDATE])


# The verdicts that are those of an earlier scan, by the machines.
EarlierRows = Mapping[str, Sequence[EarlierVerdict]]


class OutcomeReasons:
    """The reasons and remarks of the machines' verdicts."""

    def __init__(
        self, feed_data: FeedData, outcomes: Iterable[MachineOutcome], taken: EarlierRows | None = None
    ) -> None:
        self._feed_data = feed_data
        self._outcomes = {one.machine.name: one for one in outcomes}
        self._parts = feed_data.parts
        self._taken = {name: {row.id: row for row in rows} for name, rows in (taken or {}).items()}
        self._order = {id: number for number, id in enumerate(feed_data.order)} if taken else {}

    def row(self, advisory: str, machine: str | None) -> EarlierVerdict | None:
        """The verdict, if it is from an earlier scan."""
        return self._taken.get(machine or "", {}).get(advisory)

    def perhaps(self, one: MachineOutcome, machine: verdicts.Machine) -> dict[str, list[Sequence[str]]]:
        """The items and facts of what is another verdict where an item says less, by the advisories in the order of the
        feeds."""
        found: dict[str, list[Sequence[str]]] = {}
        for it in one.perhaps:
            found.setdefault(machine.whole(it.id), []).append((it.item, it.fact))
        rows = self._taken.get(one.machine.name, {})
        found |= {row.id: list(row.perhaps) for row in rows.values() if row.perhaps}
        ids = sorted(found, key=self._order.__getitem__) if rows else found
        return {id: found[id] for id in ids if id in machine.perhaps}

    def on(self, advisory: str, machine: str | None) -> list[str]:
        """The reasons, in words, without repeats."""
        row, one = self.row(advisory, machine), self._outcomes[machine or ""]
        if row is not None:
            return list(row.hangs)
        reasons: dict[str, None] = {}
        for place in self._parts.get(advisory, ()):
            reasons.update(dict.fromkeys(one.partly.get(place, ())))
            for key in self._feed_data.statements[place].checks:
                if key in one.check_results.doubts:
                    reasons[one.check_results.doubts[key].words()] = None
                elif key == LONG:
                    reasons["its logic is longer than a line as it is asked"] = None
                elif key in self._feed_data.stand_ins:
                    reasons[self._feed_data.stand_ins[key]] = None
        return list(reasons)

    def remarks(self, advisory: str, machine: str | None) -> list[str]:
        """The packages of distributions that alone make it TRUE, each once."""
        row, one = self.row(advisory, machine), self._outcomes[machine or ""]
        if row is not None:
            return list(row.remarks)
        if not one.backports:
            return []
        found = [one.backports.get(place) for place in self._parts.get(advisory, ()) if one.truths.get(place) == "TRUE"]
        return list(dict.fromkeys(remark for remarks in found for remark in remarks or ())) if all(found) else []


def machines_with_verdicts(
    feed_data: FeedData, bare: Sequence[str], outcomes: Iterable[MachineOutcome], taken: EarlierRows | None = None
) -> list[verdicts.Machine]:
    """The machines with their verdicts that aren't FALSE, in the order of the feeds; the parts of an advisory are
    joined by OR."""
    without_items = {place: truth for place, truth in enumerate(bare) if truth != "FALSE"}
    order = {id: number for number, id in enumerate(feed_data.order)} if taken else {}
    machines = []
    for one in outcomes:
        if not one.has_items():
            # (no verdict is known of it, so none is counted)
            machines.append(verdicts.Machine(one.machine.name, has_items=False))
            continue
        machine = verdicts.Machine(one.machine.name, feed_data.ids)
        truths = sorted({**without_items, **one.truths}.items())
        rows = [
            (feed_data.statements[place].id, truth, place in one.less)
            for place, truth in truths
            if truth != "FALSE" or place in one.less
        ]
        earlier = taken.get(one.machine.name, ()) if taken else ()
        if earlier:
            rows += [(row.id, row.truth, row.is_perhaps) for row in earlier]
            rows.sort(key=lambda row: order[machine.whole(row[0])])
        for row in rows:
            machine.put(*row)
        machines.append(machine)
    return machines


def report_items(
    outcomes: Iterable[MachineOutcome],
    refused: Mapping[str, str],
    successors: Mapping[Product, Sequence[Product]],
    messages: Messages,
    hint: str,
) -> None:
    """Reports what the verdicts don't show: invalid items, and items that the dictionary doesn't have. `hint` is the
    command that lists the latter."""
    strange, where = set(), set()
    for one in outcomes:
        name = one.machine.name
        for item in dict.fromkeys(one.machine.asked_names()):
            if item in refused:
                messages.leave_out(name, f"{refused[item]}: {item}")
        if not one.has_items():
            messages.leave_out(name, "no items")
        unlisted = {lead.name for leads in one.unlisted for lead in leads}
        firsts = {leads[0].name for leads in one.unlisted}
        for lead in one.leads:
            goes_on = successors.get(names.product_of(lead.name))
            if lead.is_removed():
                messages.remark(f"under a removed name {name} {lead.name}")
            elif lead.name in unlisted and goes_on:
                messages.remark(
                    f"not in the dictionary {name} {lead.name} now called {' '.join(map(':'.join, goes_on))}"
                )
            elif lead.name in firsts:
                strange.add(lead.name)
                where.add(name)
    if strange:
        items, machines = format_count(len(strange), "item"), format_count(len(where), "machine")
        messages.hint(f"not in the dictionary: {items}, on {machines}", hint)


def json_of(
    feed_data: FeedData,
    outcomes: Sequence[MachineOutcome],
    machines: Sequence[verdicts.Machine],
    about: affected.AdvisoryContext,
    unnamed: UnnamedPackages | None = None,
    verdict_reasons: OutcomeReasons | None = None,
) -> dict[str, Json]:
    """The result as one value, with the shown verdicts, and the packages without a sure name."""
    verdict_reasons = verdict_reasons or OutcomeReasons(feed_data, outcomes)
    of_machines = [
        _machine_json(one, machine, about, feed_data.parts, verdict_reasons) for one, machine in zip(outcomes, machines)
    ]
    for row in of_machines if unnamed is not None else ():
        row |= unnamed.json(row["name"])
    return {"advisories": len(feed_data.ids.advisories), "machines": of_machines}


def _machine_json(
    one: MachineOutcome,
    machine: verdicts.Machine,
    about: affected.AdvisoryContext,
    parts: Mapping[str, Sequence[int]],
    verdict_reasons: OutcomeReasons,
) -> Json:
    row: dict[str, Json] = {"name": machine.name, "items": len(one.components)}
    if machine.has_items:
        row["verdicts"] = [
            _verdict_json(id, truth, machine, about)
            | _deciding_json(deciding_items(one, id, truth, parts, verdict_reasons))
            for id, truth in _in_order(machine, about)
        ]
        perhaps = verdict_reasons.perhaps(one, machine)
        row["perhaps"] = [
            {"id": id, "item": item, "fact": fact} for id, pairs in perhaps.items() for item, fact in pairs
        ]
        row["notInDictionary"] = [leads[0].name for leads in one.unlisted]
        row["underRemovedName"] = one.removed_items()
    return row


def deciding_items(
    one: MachineOutcome, id: str, truth: str, parts: Mapping[str, Sequence[int]], verdict_reasons: OutcomeReasons
) -> list[str] | None:
    """The items that make a verdict TRUE, in words; None if --why isn't given."""
    row, places = verdict_reasons.row(id, one.machine.name), parts.get(id, ())
    if row is not None:
        return None if row.decided_by is None else list(row.decided_by)
    if truth != "TRUE" or one.explanations is None or not any(place in one.explanations for place in places):
        return None
    return list(dict.fromkeys(reason for place in places for reason in one.explanations.get(place, ())))


def _deciding_json(reasons: list[str] | None) -> dict[str, Json]:
    return {} if reasons is None else {"decidedBy": reasons}


def _in_order(machine: verdicts.Machine, about: affected.AdvisoryContext) -> list[tuple[str, str]]:
    """What is shown, in the order of the table."""
    return sorted(machine.shown.items(), key=lambda row: (machine.rank(row[0]), about.cells(row[0]).order))


def _verdict_json(id: str, truth: str, machine: verdicts.Machine, about: affected.AdvisoryContext) -> dict[str, Json]:
    known = {key: value for key, value in about.details.get(id, {}).items() if key != "id"}
    row: dict[str, Json] = {"id": id, "verdict": truth, **known, **about.threats.json(id)}
    settled = machine.settled.get(id)
    if truth == "UNKNOWN" or settled is not None and settled.before == "UNKNOWN":
        row["hangsOn"] = about.verdict_reasons.on(id, machine.name)
    if settled is not None:
        row |= {"settled": settled.reason, "before": settled.before}
    remarks = about.verdict_reasons.remarks(id, machine.name) if truth == "TRUE" else []
    if remarks:
        row["remarks"] = remarks
    if id in machine.perhaps:
        row["perhaps"] = True
    reason = about.accepted_for(id, truth, machine.name)
    return row if reason is None else {**row, "accepted": reason}
