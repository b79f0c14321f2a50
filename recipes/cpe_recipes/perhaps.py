"""Lists the items that say less than an advisory asks for, and so may be the product that the advisory names.

    sh perhaps.sh RECORDS MACHINES [--names FILE] [--ranges FILE [--letters FILE]]

RECORDS are those of a dictionary and of advisories. MACHINES has a line for each machine: its name, and the names of
its items. The recipe compares each fact of a statement with each item of the same vendor and product. If the item's
name covers the fact's name, and the names aren't equal, the recipe writes

    perhaps MACHINE ID ITEM FACT

By NIST IR 7696 such a fact is FALSE. For example, `log4j:2.0` in any update isn't known to be `log4j:2.0` without an
update, and `log4j` in any version isn't known to be 2.0. In mode plain the names are compared, in mode follow their
ends.

The fact of a range has no version, so an item with a version says more in this attribute. The item may say less in
another attribute, such as a plugin without its platform. Then neither name covers the other. With --ranges, the file of
`advisories.sh`, such an item is compared by its version. The item is listed unless its version is surely outside the
range. The option --letters is that of `decide.py`.
"""
from __future__ import annotations

import json
from collections.abc import Iterable, Iterator, Mapping, Sequence
from dataclasses import dataclass

from . import hints, names
from .advisories import MATCH, SYSTEM, Range, base_id
from .arguments import ONE, read_arguments
from .components import Machine
from .console import Fatal, Messages, Output, escape
from .feeds import Json
from .fleet import read_text
from .leads import Lead, Leads, leads_of, read_entries
from .machines import read_machines
from .package_names import name_machines, read_names
from .program import Program
from .range_checks import RangeIndex, read_ranges
from .unlisted import report_items
from .versions import LETTERS_FILE, Letters, read_letters

USAGE = "perhaps.sh RECORDS MACHINES [--names FILE] [--ranges FILE [--letters FILE]]"


@dataclass(frozen=True)
class Fact:
    """A fact of an advisory: the name, as it was written, the id of the check of its range, and whether it follows
    deprecations."""

    id: str
    name: str
    key: str | None
    follows: bool


@dataclass(frozen=True)
class Pair:
    """A fact and an item's name, or an end of it, with the name of the fact that is compared: perhaps in the item's
    version."""

    fact: Fact
    compared: str
    other: str
    is_in_version: bool


def run(words: Sequence[str]) -> int:
    arguments = read_arguments(words, {"--ranges": ONE, "--letters": ONE, "--names": ONE}, USAGE)
    if len(arguments.files) != 2:
        raise Fatal(f"usage: {USAGE}")
    messages, output, program = Messages(), Output(), Program()
    records, machines = read_entries(arguments.files[:1]), read_machines(arguments.files[1], messages)
    hint = hints.command("unlisted.sh", [*arguments.files, *hints.table_words(arguments)])
    name_machines(machines, read_names(arguments.many("--names"), machines), records).report(messages, hint)
    facts = facts_of(read_text(arguments.files[0]).split("\n"))
    if not facts:
        raise Fatal("no facts of statements in the records")
    ranges, letters = read_ranges(arguments.many("--ranges"), messages), read_letters(
        arguments.one("--letters") or LETTERS_FILE
    )
    items = dict.fromkeys(name for machine in machines for name in machine.asked_names())
    leads = leads_of(program, records, items, (fact.name for fact in facts))
    report_items(machines, leads, messages)
    pairs = Pairs(program, facts, leads, ranges, letters)
    output.lines(list(pairs.perhaps(machines)))
    output.end(escape)
    return messages.status()


def facts_of(records: Iterable[str]) -> list[Fact]:
    """The facts of the statements, each once, in their order."""
    statements = [record for record in map(_statement, records) if record is not None]
    ids = {record["id"] for record in statements}
    found: dict[Fact, None] = {}
    for record in statements:
        id = base_id(record["id"]) if base_id(record["id"]) in ids else record["id"]
        for name, key in _names(record.get("test")):
            found[Fact(id, name, key, record.get("mode") == "follow")] = None
    return list(found)


def _statement(line: str) -> Json:
    """The statement of a line, None if there is none."""
    if '"statement"' not in line:
        return None
    try:
        record = json.loads(line)
    except (ValueError, RecursionError):
        return None
    is_one = isinstance(record, dict) and record.get("do") == "statement" and isinstance(record.get("id"), str)
    return record if is_one else None


def _names(test: Json) -> Iterator[tuple[str, str | None]]:
    """The facts of a test, each with the id of the check that an AND asks for beside it, if that is one of NVD's
    matches."""
    waiting: list[tuple[Json, str | None]] = [(test, None)]
    while waiting:
        one, key = waiting.pop()
        if not isinstance(one, dict):
            continue
        children = one.get("of")
        if "op" in one and isinstance(children, list):
            beside = _key(children) if one["op"] == "AND" and len(children) == 2 else None
            waiting.extend((child, beside) for child in reversed(children))
        elif isinstance(one.get("fact"), str):
            yield one["fact"], key


def _key(children: list[Json]) -> str | None:
    check = children[1].get("check") if isinstance(children[1], dict) else None
    if not isinstance(check, dict) or (check.get("system"), check.get("href")) != (SYSTEM, MATCH):
        return None
    return check["id"] if isinstance(check.get("id"), str) else None


class Pairs:
    """Facts and items of one vendor and product, both of them plain."""

    def __init__(
        self, program: Program, facts: Iterable[Fact], leads: Leads, ranges: Mapping[str, Range], letters: Letters
    ) -> None:
        self._program, self._leads, self._ranges, self._letters = program, leads, ranges, letters
        self._facts: dict[tuple[str, str], list[tuple[Fact, list[str]]]] = {}
        for fact in facts:
            lead = leads.found.get(fact.name)
            for name in _compared(lead, fact) if lead is not None else ():
                product = names.product_of(name)
                if all(map(names.is_plain, product)):
                    self._facts.setdefault(product, []).append((fact, names.components(name)))

    def perhaps(self, machines: Sequence[Machine]) -> Iterator[str]:
        """The lines, in the order of the machines, items and facts."""
        items = dict.fromkeys(item for machine in machines for item in machine.items if item not in self._leads.refused)
        near = {item: list(self._near(self._leads.found[item])) for item in items}
        covered = self._covered(dict.fromkeys(pair for pairs in near.values() for pair in pairs))
        for machine in machines:
            for item in dict.fromkeys(machine.items):
                for id, name in dict.fromkeys(
                    (pair.fact.id, pair.fact.name) for pair in near.get(item, ()) if pair in covered
                ):
                    yield f"perhaps {machine.name} {id} {item} {name}"

    def _near(self, lead: Lead) -> Iterator[Pair]:
        """The pairs of this item in which it is ANY wherever the fact isn't the same. Only these are asked for, since a
        product may have thousands of facts."""
        for other in dict.fromkeys((lead.name, *lead.ends)):
            parts = names.components(other)
            for fact, wanted in self._facts.get(names.product_of(other), ()):
                is_in_version = fact.key in self._ranges and wanted[names.VERSION] == names.ANY != parts[names.VERSION]
                if is_in_version:
                    wanted = [*wanted[: names.VERSION], parts[names.VERSION], *wanted[names.VERSION + 1 :]]
                is_near = parts != wanted and all(part in (names.ANY, want) for part, want in zip(parts, wanted))
                if is_near and other in _compared(lead, fact):
                    yield Pair(fact, names.join(wanted), other, is_in_version)

    def _covered(self, pairs: Iterable[Pair]) -> set[Pair]:
        """Those in which the item's name covers the fact's, and isn't surely outside its range."""
        asked = list(pairs)
        lines = self._program.run(["compare"], (f"{pair.compared} {pair.other}" for pair in asked)) if asked else []
        found = {pair for pair, line in zip(asked, lines) if line.split(" ", 1)[0] == "SUBSET"}
        versions = {pair.compared: Lead(pair.compared, False, (pair.compared,)) for pair in found if pair.is_in_version}
        if not versions:
            return found
        ranges = [
            self._ranges[key] for key in dict.fromkeys(pair.fact.key for pair in found if pair.is_in_version) if key
        ]
        criteria = {one.criteria for one in ranges} & self._leads.found.keys()
        leads = Leads(versions | {name: self._leads.found[name] for name in criteria})
        range_index = RangeIndex(self._program, ranges, leads, list(versions), self._letters)
        # (an end outside of the range isn't covered by it)
        outside = {
            pair
            for pair in found
            if pair.is_in_version and not range_index.memberships(pair.compared).get(pair.fact.key or "")
        }
        return found - outside


def _compared(lead: Lead, fact: Fact) -> tuple[str, ...]:
    return lead.ends if fact.follows else (lead.name,)
