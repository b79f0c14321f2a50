"""Why verdicts are UNKNOWN because of what an item may be: the item, the fact that it may be, and the attributes that
aren't known.

`cpe` lists for a fact the items that it covers, and those that it may cover. One run, without the dictionary, gets all
item names of the machines with such verdicts, and the facts of the statements that are UNKNOWN there.
"""
from __future__ import annotations

from collections.abc import Iterable, Iterator
from dataclasses import dataclass, field

from . import names
from .cases import FeedData
from .item_names import Certainty, ItemName
from .leads import Leads
from .outcome import MachineOutcome, PossibleMatch
from .program import Program
from .range_checks import ItemsByFact, match_items


@dataclass
class _OpenMachine:
    """A machine, and the facts of its statements that depend on what its items may be, by their places. Each fact has
    whether the reason of its range says all."""

    outcome: MachineOutcome
    facts: dict[int, list[tuple[str, bool]]] = field(default_factory=dict)


class Reasons:
    """Finds on what UNKNOWN verdicts of machines depend."""

    def __init__(self, program: Program, feed_data: FeedData, leads: Leads) -> None:
        self._program, self._feed_data, self._leads = program, feed_data, leads

    def put(self, outcomes: Iterable[MachineOutcome]) -> None:
        """Records in words, by the places of the statements, which items may be meant by which facts."""
        asked = [_OpenMachine(one, self._facts(one)) for one in outcomes]
        asked = [one for one in asked if one.facts]
        if not asked:
            return
        items = dict.fromkeys(it.name for one in asked for it in one.outcome.item_names)
        facts = dict.fromkeys(fact for one in asked for of in one.facts.values() for fact, _ in of)
        covered, may_be = match_items(self._program, items, facts)
        for one in asked:
            self._put(one, covered, may_be)

    def _put(self, asked: _OpenMachine, covered: ItemsByFact, may_be: ItemsByFact) -> None:
        one = asked.outcome
        for place, facts in asked.facts.items():
            item_names = {it.name: it for it in (one.item_names if place in one.less else one.asked)}
            # (in the order of this machine, whichever others there are)
            places = {name: number for number, name in enumerate(item_names)}
            reasons: dict[str, None] = {}
            for fact, is_told in facts:
                if any(name in item_names for name in covered[fact]):
                    continue
                for it in (
                    item_names[name] for name in sorted(item_names.keys() & may_be[fact], key=places.__getitem__)
                ):
                    if it.certainty is Certainty.LESS and place in one.less:
                        one.perhaps[PossibleMatch(self._feed_data.statements[place].id, it.item, fact)] = None
                    if not is_told:
                        reasons[_words(it, fact)] = None
            if reasons:
                one.partly[place] = list(reasons)

    def _facts(self, one: MachineOutcome) -> dict[int, list[tuple[str, bool]]]:
        """The facts of the statements that depend on what items may be, except facts of ranges that are outside."""
        found: dict[int, list[tuple[str, bool]]] = {}
        places = sorted({*one.places_of("UNKNOWN"), *one.less})
        if not places or not any(names.is_known_in_part(it.name) for it in one.item_names):
            return found
        for place in places:
            facts = list(self._facts_of(one, place))
            if facts:
                found[place] = facts
        return found

    def _facts_of(self, one: MachineOutcome, place: int) -> Iterator[tuple[str, bool]]:
        statement = self._feed_data.statements[place]
        check_results = one.check_results
        for fact in statement.facts:
            yield self._leads.found[fact].name, False
        for key in statement.ranges:
            if check_results.truths.get(key) is not False or place in one.less:
                yield self._leads.found[self._feed_data.ranges[key].criteria].name, key in check_results.doubts


def _words(one: ItemName, fact: str) -> str:
    """Why it isn't sure that this is what the fact names."""
    return one.words(fact) if not one.is_sure() else f"{one.item} is known in part, and may be {fact}"
