"""Where a dictionary leads from names: to the entries of their chains, and to their ends."""
from __future__ import annotations

import itertools
from collections.abc import Iterable, Iterator, Sequence
from dataclasses import dataclass, field, replace

from .components import Component
from .console import Fatal
from .feeds import FeedFault, name_of, read_feed, record_text, text_lines
from .program import Program

# The edits that decide where names lead. (Within a text of JSON, the quotes of such a word have a backslash.)
_LEADING = ('"entry"', '"deprecate"', '"amend"', '"restore"')


@dataclass(frozen=True)
class Lead:
    """Where a name leads: its text as cpe writes it, whether it is an entry, its ends, and the names on the way,
    including itself. For an item also the kind of its component, if the list has it, and the reason if the item only
    perhaps has the name."""

    name: str
    is_entry: bool
    ends: tuple[str, ...]
    steps: tuple[str, ...] = ()
    kind: str = ""
    why: str = ""

    def is_removed(self) -> bool:
        """Whether it leads nowhere, because a name was removed from the dictionary."""
        return self.is_entry and not self.ends


@dataclass
class Leads:
    """The leads of names, by their written texts; the reasons of refused names; and for searched names how many active
    entries they cover."""

    found: dict[str, Lead] = field(default_factory=dict)
    refused: dict[str, str] = field(default_factory=dict)
    active: dict[str, int] = field(default_factory=dict)


def leads_of(
    program: Program, records: Sequence[str], items: Iterable[str], facts: Iterable[str], searched: Sequence[str] = ()
) -> Leads:
    """Where these names lead by these records. (Records that cpe refuses are reported by the code that evaluates
    them.)"""
    asked = [*((name, True) for name in dict.fromkeys(items)), *((name, False) for name in dict.fromkeys(facts))]
    reasons: dict[int, str] = {}
    chains: list[tuple[str, bool, list[str], list[str]]] = []
    searches = [record_text({"do": "search", "name": name, "active": True}) for name in searched]
    counts: list[int] = []
    for line in program.over(records, itertools.chain(_questions(asked), searches)):
        word, rest = line.split(" ", 1)
        if word == "refused":
            number, reason = rest.split(" ", 1)
            reasons[int(number)] = reason
        elif word == "chain":
            name, steps, _ = rest.rsplit(" ", 2)
            chains.append((name, steps != "0", [], []))
        elif word == "end":
            chains[-1][2].append(rest)
        elif word == "step":
            chains[-1][3].append(rest.partition(" ")[0])
        elif word == "search":
            counts.append(int(rest.rpartition(" ")[2]))
    leads, answers = Leads(active=dict(zip(searched, counts, strict=True))), iter(chains)
    for place, (name, is_item) in enumerate(asked):
        first = 1 + 3 * place
        if first in reasons:
            leads.refused[name] = reasons[first]
            continue
        written, is_entry, ends, steps = next(answers)
        # (the edits that try an item follow the question)
        if is_item and first + 1 in reasons:
            leads.refused[name] = reasons[first + 1]
        else:
            leads.found[name] = Lead(written, is_entry, tuple(ends), tuple(steps))
    return leads


def _questions(asked: Iterable[tuple[str, bool]]) -> Iterator[str]:
    """Three lines for each name, two of them empty for a fact."""
    for name, is_item in asked:
        yield record_text({"do": "chain", "name": name})
        # (the item is removed again, so that there is never more than one)
        yield record_text({"do": "item", "name": name}) if is_item else ""
        yield record_text({"do": "drop-item", "name": name}) if is_item else ""


def leads_in(leads: Leads, component: Component) -> list[Lead]:
    """The leads of a component's names, each once, whatever its spelling: first of the names that it has, then of those
    that it perhaps has."""
    if component.is_name_alone() and not component.supposed:
        # (most components have one name and nothing else)
        lead = leads.found.get(component.names[0])
        return [] if lead is None else [lead]
    found = {lead.name: lead for name in component.names if (lead := leads.found.get(name))}
    kind = component.kind
    sure = [replace(lead, kind=kind) if kind else lead for lead in found.values()]
    perhaps = {
        lead.name: replace(lead, kind=kind, why=one.why)
        for one in component.supposed
        if (lead := leads.found.get(one.name))
    }
    return [*sure, *(lead for lead in perhaps.values() if lead.name not in found)]


def read_entries(paths: Sequence[str]) -> list[str]:
    """The lines of these files that decide where names lead: no statements, checks, items or questions."""
    lines: list[str] = []
    for path in paths:
        try:
            data = read_feed(path)
        except FeedFault as fault:
            raise Fatal(f"{name_of(path)}: {fault}") from fault
        lines.extend(text_lines(data.decode(errors="replace")))
    return [line for line in lines if any(word in line for word in _LEADING)]
