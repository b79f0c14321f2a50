"""What the fleets over GNU parallel and over Dask share: their input, the questions for each machine, and the messages.
`parallel.py` describes the input and the output."""
from __future__ import annotations

import json
from collections.abc import Iterator, Mapping, Sequence
from dataclasses import dataclass, field

from . import completeness, hints, matches, unlisted
from .advisories import Range
from .arguments import FLAG, MANY, ONE, Arguments, read_arguments
from .components import Machine
from .console import Fatal, Messages
from .feeds import FeedFault, name_of, read_feed, record_text
from .item_names import Certainty, ItemName
from .leads import Lead, leads_in, leads_of, read_entries
from .machines import read_machines
from .name_finder import FactAttributes, NameFinder, group_matches_by_name
from .negations import Negations, has_hardware
from .package_names import name_machines, read_names
from .program import FULL, Program
from .range_checks import CheckResults, MatchLists, RangeIndex, decide_checks, follow, read_ranges
from .session import FleetData, MachineQuestion
from .statement_rewriter import Negation, facts_of, rewrite_statement
from .store_reader import StoreReader
from .versions import LETTERS_FILE, read_letters

OPTIONS = {
    "--store": ONE,
    "--ranges": ONE,
    "--matches": MANY,
    "--letters": ONE,
    "--decided": ONE,
    "--names": ONE,
    "--strict": FLAG,
    "--hardware": ONE,
}
USAGE = (
    "RECORDS MACHINES [--names FILE] [--strict] [--hardware none] [--ranges FILE [--letters FILE] [--matches FILE..] | --decided FILE], "
    "or --store FOLDER MACHINES [--names FILE] [--strict] [--hardware none] [--letters FILE]"
)
# What a store has itself.
_STORED = ("--ranges", "--matches", "--decided")
MACHINES_MISSING = 5
# What other recipes do with the truths that a fleet writes.
_OVER_IT = "affected.sh and report.py take it for what a fleet wrote"
_ELSEWHERE = {
    **dict.fromkeys(("--suppress", "--settled", "--kev", "--epss"), _OVER_IT),
    "--fail-on": "scan.py takes it",
    "--since": "scan.py takes it; changes.sh compares what fleets wrote",
    "--format": "scan.py takes it",
}


def read_fleet_words(words: Sequence[str], options: Mapping[str, int], usage: str) -> Arguments:
    """The command line of a fleet. Fatal if it has an option of another recipe, because a fleet writes only truths."""
    found = next((word for word in words if word in _ELSEWHERE), None)
    if found is not None:
        raise Fatal(f"{found} is no option of a fleet, which writes truths alone: {_ELSEWHERE[found]}")
    arguments = read_arguments(words, options, usage)
    is_right = (
        len(arguments.files) == 1 and not any(map(arguments.has, _STORED))
        if arguments.has("--store")
        else len(arguments.files) == 2
    )
    if not is_right:
        raise Fatal(f"usage: {usage}")
    return arguments


def read_text(path: str) -> str:
    """The text of a file; a byte that is no UTF-8 is written as its number, so that cpe refuses its line. Fatal if the
    file can't be read."""
    try:
        return read_feed(path).decode(errors="backslashreplace")
    except FeedFault as fault:
        raise Fatal(f"{name_of(path)}: {fault}") from fault


@dataclass(frozen=True)
class Records:
    """The records of a fleet, the keys of NVD's checks that have a result among them, the facts of the statements, and
    what is negated there."""

    fleet_data: FleetData
    results: set[str]
    facts: list[str] = field(default_factory=list)
    negated: list[Negation] = field(default_factory=list)


def read_records(program: Program, path: str, messages: Messages) -> Records:
    """The records at this path. A record that cpe refuses is reported. Fatal if there is no statement, or an item:
    items belong to machines."""
    return records_of(program, name_of(path), read_text(path), messages)


def records_of(program: Program, feed: str, text: str, messages: Messages) -> Records:
    """The same of the records in a text."""
    answers = program.run(["evaluate"], _lines_of(text))
    table = next((place for place, line in enumerate(answers) if line.startswith("verdicts ")), None)
    if table is None:
        raise Fatal(f"{feed}: cpe evaluate wrote no table")
    for line in answers[:table]:
        if line.startswith("refused "):
            _, refused, reason = line.split(" ", 2)
            if reason.startswith(FULL):
                raise Fatal(
                    f"{feed} line {refused}: cpe takes no more at once: {reason}; products.sh cuts advisories to those of the machines"
                )
            messages.leave_out(f"{feed} line {refused}", reason)
    statements = [line.split(" ")[1] for line in answers[table + 1 :]]
    if not statements:
        raise Fatal(f"{feed}: no statements in it")
    results: set[str] = set()
    facts: dict[str, None] = {}
    negated: dict[str, Negation] = {}
    lines: list[str] = []
    for number, line in enumerate(_lines_of(text), 1):
        _note_state(feed, number, line, results)
        lines.append(_asked_line(line, facts, negated))
    data = "".join(f"{line}\n" for line in lines).encode(errors="replace")
    return Records(FleetData(data, table, statements), results, list(facts), list(negated.values()))


def _asked_line(line: str, facts: dict[str, None], negated: dict[str, Negation]) -> str:
    """A line of the records in the form for the workers: a statement is rewritten. Its facts and negations are
    noted."""
    if '"statement"' not in line:
        return line
    try:
        record = json.loads(line)
    except (ValueError, RecursionError):
        return line
    if not isinstance(record, dict) or record.get("do") != "statement":
        return line
    facts.update(dict.fromkeys(facts_of(record.get("test"))))
    return rewrite_statement(record, negated)[1]


def _lines_of(text: str) -> Iterator[str]:
    """The lines of a text, one at a time, so that a dictionary isn't in memory twice."""
    start = 0
    while start < len(text):
        end = text.find("\n", start)
        end = len(text) if end < 0 else end
        yield text[start:end]
        start = end + 1


def _note_state(feed: str, number: int, line: str, results: set[str]) -> None:
    if '"item"' not in line and 'check"' not in line:
        return
    try:
        record = json.loads(line)
    except (ValueError, RecursionError):
        return
    word = record.get("do") if isinstance(record, dict) else None
    if word == "item":
        raise Fatal(f"{feed} line {number}: an item is among the records; items belong to machines")
    if word in ("check", "drop-check") and (record.get("system"), record.get("href")) == ("NVD", "cpeMatch"):
        key = record.get("id")
        if isinstance(key, str):
            (results.add if word == "check" else results.discard)(key)


# Of machines by name: the ids of checks, with TRUE or FALSE.
ResultsByMachine = dict[str, list[tuple[str, str]]]


def read_results(path: str) -> ResultsByMachine:
    """What `decide.py` wrote."""
    decided: ResultsByMachine = {}
    for number, line in enumerate(_lines_of(read_text(path)), 1):
        parts = line.rstrip("\r").split("\t")
        if len(parts) != 3 or parts[2] not in ("TRUE", "FALSE"):
            raise Fatal(
                f"{name_of(path)} line {number}: it is not MACHINE, KEY and TRUE or FALSE with tabs between them"
            )
        decided.setdefault(parts[0], []).append((parts[1], parts[2]))
    return decided


@dataclass(frozen=True)
class Fleet:
    """The input of a fleet: the records, and the machines."""

    fleet_data: FleetData
    machines: list[MachineQuestion]

    def blocks(self, most: int) -> list[list[MachineQuestion]]:
        """The machines in blocks of at most this many."""
        return [self.machines[first : first + most] for first in range(0, len(self.machines), most)]


@dataclass(frozen=True)
class _FleetInput:
    """What a fleet is given: its records, and the entries among them, the ranges of versions, what the match feed lists
    for these, and the machines."""

    records: Records
    entries: list[str]
    ranges: dict[str, Range]
    listed: dict[str, list[str]]
    machines: list[Machine]


def read_fleet(program: Program, arguments: Arguments, messages: Messages) -> Fleet:
    """What the words of a fleet name."""
    given = (
        _of_store(program, arguments, messages) if arguments.has("--store") else _of_files(program, arguments, messages)
    )
    before = _results_before(arguments, given.machines, messages)
    names = _Names(program, arguments, given)
    asked = []
    for machine in given.machines:
        item_names = names.item_names(machine)
        check_results = names.check_results(machine, item_names, before)
        _report_doubts(machine, check_results, given.ranges, messages)
        names.report(machine, messages)
        own = {lead.name for lead in names.items(machine).values()}
        others = list(dict.fromkeys(one.name for one in item_names if one.name not in own))
        asked.append(
            MachineQuestion(
                machine.name, names.put(machine), _without(given.records.results, _results(check_results)), others
            )
        )
    return Fleet(given.records.fleet_data, asked)


def _of_files(program: Program, arguments: Arguments, messages: Messages) -> _FleetInput:
    records_path, machines_path = arguments.files
    records = read_records(program, records_path, messages)
    machines = read_machines(machines_path, messages)
    ranges = read_ranges(arguments.many("--ranges"), messages)
    entries = read_entries([records_path])
    hint = hints.command("unlisted.sh", [*arguments.files, *hints.table_words(arguments)])
    name_machines(machines, read_names(arguments.many("--names"), machines), entries).report(messages, hint)
    feed = (
        completeness.pages(arguments.many("--matches"), messages, matches.KINDS, strict=True)
        if arguments.has("--matches")
        else []
    )
    return _FleetInput(records, entries, ranges, matches.read_match_lists(feed, ranges.keys(), messages), machines)


def _of_store(program: Program, arguments: Arguments, messages: Messages) -> _FleetInput:
    """What concerns the machines. (Workers read no store: they are given what was read of it.)"""
    folder, path = str(arguments.only("--store")), arguments.files[0]
    machines = read_machines(path, messages)
    tables = read_names(arguments.many("--names"), machines)
    with StoreReader(folder, program, messages, completeness.ReadingPolicy()).open() as store:
        unnamed = store.name_packages(machines, tables)
        extract = store.take(machines, (), is_all=False)
        listed = store.match_lists(extract.feed_data.ranges.keys())
    feed_data = extract.feed_data
    unnamed.report(
        messages, hints.command("unlisted.sh", ["--store", folder, "--machines", path, *hints.table_words(arguments)])
    )
    text = "".join(f"{line}\n" for line in (*feed_data.entries, *feed_data.records))
    records = records_of(program, folder, text, messages)
    if feed_data.elsewhere:
        count = len(feed_data.elsewhere)
        messages.remark(
            f"{count:,} of {count + len(feed_data.records):,} advisories name no product of these machines: they are FALSE there, and not written"
        )
    return _FleetInput(records, feed_data.entries, dict(feed_data.ranges), listed, machines)


def _results_before(arguments: Arguments, machines: list[Machine], messages: Messages) -> ResultsByMachine | None:
    """The results that decide.py wrote, if --decided gives them."""
    path = arguments.one("--decided")
    if path is None:
        return None
    before = read_results(path)
    here = {machine.name for machine in machines}
    for name in before:
        if name not in here:
            messages.remark(f"{name} has decided ranges, and is no machine here")
    return before


def _without(results: set[str], decided: list[tuple[str, str]]) -> list[tuple[str, str]]:
    """A key that has a result among the records keeps that one."""
    return [(key, result) for key, result in decided if key not in results]


class _Names:
    """Where the names of items lead, the names of items, and the results of checks by these."""

    def __init__(self, program: Program, arguments: Arguments, given: _FleetInput) -> None:
        records, entries, ranges, machines = given.records, given.entries, given.ranges, given.machines
        items = dict.fromkeys(name for machine in machines for name in machine.asked_names())
        facts = dict.fromkeys([*records.facts, *(one.criteria for one in ranges.values())])
        self.leads = leads_of(program, entries, items, dict.fromkeys([*facts, *unlisted.deprecated_names(entries)]))
        self._successors = unlisted.successors(entries, self.leads)
        self._lists = MatchLists(program, given.listed)
        named = [self.leads.found[fact].name for fact in facts if fact in self.leads.found]
        own = {lead.name: lead for item in items if (lead := self.leads.found.get(item))}
        by_feed = group_matches_by_name(self._lists, ranges, self.leads)
        letters = read_letters(arguments.one("--letters") or LETTERS_FILE)
        old = [self.leads.found[name] for name in unlisted.deprecated_names(entries) if name in self.leads.found]
        name_finder = NameFinder(
            program, entries, self.leads, old, own.values(), by_feed, FactAttributes(named), letters
        )
        self._is_strict, self._name_finder = arguments.has("--strict"), name_finder
        self._components = {machine.name: list(self._leads_of(machine)) for machine in machines}
        item_names = name_finder.of_components(leads for of in self._components.values() for leads in of)
        names = list(dict.fromkeys(one.name for one in item_names))
        self._range_index = RangeIndex(program, ranges.values(), self.leads, names, letters)
        self._negations = Negations(
            program, records.negated, self.leads, names, self._range_index, self._lists, has_hardware(arguments)
        )

    def items(self, machine: Machine) -> dict[str, Lead]:
        """The leads of its items; invalid items are reported when they are put."""
        return {item: self.leads.found[item] for item in dict.fromkeys(machine.items) if item not in self.leads.refused}

    def put(self, machine: Machine) -> list[str]:
        """The names that are put as the machine's items: all, or those of its components if none of these is an item.
        Names that components perhaps have are put as names that are known in part."""
        own = machine.own_items()
        if any(item in self.leads.found for item in own):
            return machine.items
        perhaps = [lead for leads in self._components[machine.name] for lead in leads if lead.why]
        return [*machine.items, *(one.name for lead in perhaps for one in follow(lead))] if perhaps else own

    def item_names(self, machine: Machine) -> list[ItemName]:
        found = self._name_finder.of_components(self._components[machine.name])
        return [one for one in found if not self._is_strict or one.certainty is not Certainty.LESS]

    def _leads_of(self, machine: Machine) -> Iterator[list[Lead]]:
        """Where the names of its components lead."""
        return (leads_in(self.leads, one) for one in machine.all())

    def check_results(
        self, machine: Machine, item_names: Sequence[ItemName], before: ResultsByMachine | None
    ) -> CheckResults:
        """The results of a machine's checks; those of ranges are from decide.py, if --decided gives them."""
        if before is None:
            check_results = decide_checks(item_names, self._range_index, self._lists)
        else:
            check_results = CheckResults({key: result == "TRUE" for key, result in before.get(machine.name, ())})
        self._negations.put(self._components[machine.name], item_names, check_results)
        return check_results

    def report(self, machine: Machine, messages: Messages) -> None:
        """What the dictionary doesn't lead on is remarked."""
        for item, lead in self.items(machine).items():
            goes_on = "" if lead.is_entry else unlisted.describe_successors(lead, self._successors)
            if goes_on:
                messages.remark(f"not in the dictionary {machine.name} {item}{goes_on}")
        for item, lead in self.items(machine).items():
            if lead.is_removed():
                messages.remark(f"under a removed name {machine.name} {item}")


def _report_doubts(machine: Machine, check_results: CheckResults, ranges: dict[str, Range], messages: Messages) -> None:
    """The ranges that have no answer; what hangs on another name of an item is remarked, once each."""
    reasons: dict[str, None] = {}
    for key, unsure in check_results.doubts.items():
        if key in ranges and unsure.end:
            messages.leave_out(
                machine.name, f"{unsure.end} in {ranges[key].criteria} {ranges[key].words()}: {unsure.reason}"
            )
        elif key in ranges:
            reasons[unsure.reason] = None
    for reason in reasons:
        messages.remark(f"{machine.name}: {reason}")


def _results(check_results: CheckResults) -> list[tuple[str, str]]:
    return [(key, "TRUE" if truth else "FALSE") for key, truth in check_results.truths.items()]


def report_answer(messages: Messages, machine: str, has_items: bool, left_out: list[tuple[str, str]]) -> None:
    for name, reason in left_out:
        messages.leave_out(f"{machine} {name}", reason)
    if not has_items:
        messages.leave_out(machine, "no items")


def report_missing(messages: Messages, machines: list[MachineQuestion], why: str) -> None:
    """Machines whose worker did not end."""
    names = machines[0].name if len(machines) == 1 else f"{machines[0].name} to {machines[-1].name}"
    messages.leave_out(names, f"{len(machines)} machines, {why}" if len(machines) > 1 else why)
