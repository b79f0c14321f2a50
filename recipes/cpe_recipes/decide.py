"""Decides in which ranges of versions a machine has an item. Each decision is the result of a check that advisories.py
writes for a range.

A range is decided for a machine if the range's name covers an item of the machine, or a name to which the dictionary
leads the item.

1. The range is TRUE if the match feed lists one of these names for this range.
2. Else the range is TRUE if one of these names has a version that is in the range by all orders that this version may
   have. The range is FALSE if the versions of all these names are outside the range by all their orders.
3. Else the orders differ. Then the check has no result and stays UNKNOWN, which is reported (versions.py).

The kind of a component decides which order its version has. Without a kind, the order of `cpe advise` is one of the
possible orders, and the recipe asks cpe for the result by this order.

An item is known in part if its name has a pattern. A range whose name may cover this name is FALSE if all versions that
begin like the pattern are outside the range. Otherwise there is no result.

    python3 decide.py --ranges FILE.. --records FILE.. --machines FILE [--names FILE] [--matches FILE..] [--letters FILE]

--ranges names files that `advisories.sh --ranges` wrote. --records names files with the entries and deprecations of a
dictionary. --machines names a file with a line for each machine: its name, and the names of its items. A line is
written for each decided check of a machine: the machine, the check's id, and TRUE or FALSE, separated by tabs.
"""
from __future__ import annotations

from collections.abc import Mapping, Sequence

from . import completeness, hints, matches
from .advisories import Range
from .arguments import MANY, ONE, read_arguments
from .components import Machine
from .console import Fatal, Messages, Output
from .leads import Lead, Leads, leads_in, leads_of, read_entries
from .machines import read_machines
from .package_names import name_machines, read_names
from .program import Program
from .range_checks import CheckResults, MatchLists, RangeIndex, decide_checks, follow, read_ranges
from .versions import LETTERS_FILE, read_letters

USAGE = "decide.py --ranges FILE.. --records FILE.. --machines FILE [--names FILE] [--matches FILE..] [--letters FILE]"


def run(words: Sequence[str]) -> int:
    options = {
        "--ranges": MANY,
        "--records": MANY,
        "--machines": ONE,
        "--names": ONE,
        "--matches": MANY,
        "--letters": ONE,
    }
    arguments = read_arguments(words, options, USAGE)
    machines_path = arguments.one("--machines")
    if arguments.files or machines_path is None or not arguments.has("--ranges") or not arguments.has("--records"):
        raise Fatal(f"usage: {USAGE}")
    messages, output, program = Messages(), Output(), Program()
    ranges, records = read_ranges(arguments.many("--ranges"), messages), read_entries(arguments.many("--records"))
    machines = read_machines(machines_path, messages)
    unnamed = name_machines(machines, read_names(arguments.many("--names"), machines), records)
    unnamed.report(messages, hints.unlisted_command(arguments))
    feed = (
        completeness.pages(arguments.many("--matches"), messages, matches.KINDS, strict=True)
        if arguments.has("--matches")
        else []
    )
    lists = MatchLists(program, matches.read_match_lists(feed, ranges.keys(), messages))
    items = {name: None for machine in machines for name in machine.asked_names()}
    leads = leads_of(program, records, items, (one.criteria for one in ranges.values()))
    item_names = {
        machine.name: [one for lead in _leads_of_machine(machine, leads, messages) for one in follow(lead)]
        for machine in machines
    }
    ends = [one.name for of_machine in item_names.values() for one in of_machine]
    range_index = RangeIndex(
        program, ranges.values(), leads, ends, read_letters(arguments.one("--letters") or LETTERS_FILE)
    )
    for one in ranges.values():
        if one.criteria in leads.refused:
            messages.leave_out(one.key, f"{leads.refused[one.criteria]}: {one.criteria}")
    for machine in machines:
        _write(machine, decide_checks(item_names[machine.name], range_index, lists), ranges, output, messages)
    output.end()
    return messages.status()


def _leads_of_machine(machine: Machine, leads: Leads, messages: Messages) -> list[Lead]:
    """The leads of a machine's items; invalid items are reported."""
    for item in machine.asked_names():
        if item in leads.refused:
            messages.leave_out(machine.name, f"{leads.refused[item]}: {item}")
    return [lead for component in machine.all() for lead in leads_in(leads, component)]


def _write(
    machine: Machine, check_results: CheckResults, ranges: Mapping[str, Range], output: Output, messages: Messages
) -> None:
    for key, one in check_results.doubts.items():
        messages.leave_out(machine.name, f"{one.end} in {ranges[key].criteria} {ranges[key].words()}: {one.reason}")
    for key in ranges:
        if key in check_results.truths:
            output.line(f"{machine.name}\t{key}\t{'TRUE' if check_results.truths[key] else 'FALSE'}")
