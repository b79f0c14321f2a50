"""The results of the checks that statement_rewriter.py puts into statements, for negated tests and for parts that a
list doesn't name.

A negated test is a fact or a range. Its check is TRUE if a component meets it by each name that the list gives for it,
by the written name and by those to which it leads. It is FALSE if no name that an item has or perhaps has may meet it.
Otherwise the check has no result, so the negation is UNKNOWN.

The check of a part is FALSE if the list names an item of that part, an operating system or hardware. Otherwise it has
no result, and neither has the check of a negated test on such a part. With --hardware none, hardware counts as named.
"""
from __future__ import annotations

from collections.abc import Collection, Iterable, Mapping, Sequence
from operator import itemgetter

from . import names
from .arguments import Arguments
from .console import Fatal
from .item_names import ItemName
from .leads import Lead, Leads
from .program import Program
from .range_checks import Backport, CheckResults, Doubt, MatchLists, Membership, RangeIndex, match_items
from .statement_rewriter import OF_DEVICES, PARTS, Negation

# The leads of a machine's components.
Components = Sequence[Sequence[Lead]]


_SILENT = {"o": "no operating system is listed", "h": "no hardware is listed"}


class Negations:
    """Decides these checks for machines; `items` are all names that their items have or perhaps have."""

    def __init__(
        self,
        program: Program,
        negated: Collection[Negation],
        leads: Leads,
        items: Iterable[str],
        range_index: RangeIndex,
        lists: MatchLists,
        has_hardware: bool = True,
    ) -> None:
        self._range_index, self._lists = range_index, lists
        self._parts = [part for part in PARTS if has_hardware or part != "h"]
        # (a name that cpe refuses is in no statement that cpe accepts)
        self._facts = {one.key: leads.found[one.fact].name for one in negated if one.fact in leads.found}
        self._ends = {one.key: leads.found[one.fact].ends for one in negated if one.fact in leads.found}
        self._negated = [one for one in negated if one.key in self._facts]
        asked = dict.fromkeys([*self._facts.values(), *(end for ends in self._ends.values() for end in ends)])
        covered, may_be = match_items(program, items, asked) if self._negated else ({}, {})
        self._covered = {fact: set(found) for fact, found in covered.items()}
        self._near = {fact: [*found, *may_be[fact]] for fact, found in covered.items()}

    def put(self, components: Components, item_names: Sequence[ItemName], check_results: CheckResults) -> None:
        """Records the results of these checks on a machine whose items have these names."""
        # (with their places, so that reasons have the order of this machine, whatever other machines there are)
        here: dict[str, list[tuple[int, ItemName]]] = {}
        for place, one in enumerate(item_names):
            here.setdefault(one.name, []).append((place, one))
        listed = {names.part_of(name) for name in here}
        silent = [part for part in self._parts if part not in listed]
        for keys, is_told in ((PARTS, True), (OF_DEVICES, not listed.isdisjoint(PARTS))):
            for part, key in keys.items():
                if part in silent and is_told:
                    check_results.doubts[key] = Doubt(key, "", _SILENT[part])
                else:
                    check_results.truths[key] = False
        by_name: dict[str, list[Sequence[Lead]]] = {}
        for leads in components if self._negated else ():
            for lead in leads:
                by_name.setdefault(lead.name, []).append(leads)
        for negated in self._negated:
            self._put_negated(negated, by_name, here, check_results, silent)

    def _put_negated(
        self,
        one: Negation,
        by_name: Mapping[str, Sequence[Sequence[Lead]]],
        here: Mapping[str, Sequence[tuple[int, ItemName]]],
        check_results: CheckResults,
        silent: Sequence[str],
    ) -> None:
        """Records the result of a negated test on a machine with these names (`here`), and components by their names
        (`by_name`)."""
        fact = self._facts[one.key]
        placed = [
            pair
            for name in self._near[fact]
            if name in here
            for pair in here[name]
            if self._stand(one, pair[1]) is not False
        ]
        near = [it for _, it in sorted(placed, key=itemgetter(0))]
        if not near and names.part_of(fact) in silent:
            check_results.doubts[one.key] = Doubt(one.key, "", _SILENT[names.part_of(fact)])
        # (if each name of a component meets it, one of these names is near)
        elif near and not any(
            all(self._is_met(one, lead) for lead in leads) for it in near for leads in by_name.get(it.name, ())
        ):
            words = "; ".join(dict.fromkeys(words for it in near if (words := self._words(one, it))))
            check_results.doubts[one.key] = Doubt(one.key, "", words)
        else:
            check_results.truths[one.key] = bool(near)

    def _is_met(self, one: Negation, lead: Lead) -> bool:
        """Whether a name surely meets it, both as written and by the names to which it leads."""
        if lead.why:
            return False
        ends = self._ends[one.key]
        if one.range is not None and ends != (self._facts[one.key],):
            return False
        follows = any(self._meets(one, fact, end, lead.kind) for fact in ends for end in lead.ends)
        return follows and self._meets(one, self._facts[one.key], lead.name, lead.kind)

    def _meets(self, one: Negation, fact: str, name: str, kind: str) -> bool:
        if name not in self._covered[fact]:
            return False
        return one.range is None or self._in_range(one.range, name, name, kind) is True

    def _stand(self, one: Negation, item_name: ItemName) -> Membership:
        """Whether a name is in the range of a negated test; True if the test has no range."""
        return True if one.range is None else self._in_range(one.range, item_name.name, item_name.meant, item_name.kind)

    def _in_range(self, key: str, name: str, meant: str, kind: str) -> Membership:
        if key in self._lists.keys(meant):
            return True
        membership = self._range_index.memberships(name, kind).get(key, "nothing is said of its range")
        # (a fix by the distribution doesn't change the version)
        return True if isinstance(membership, Backport) else membership

    def _words(self, one: Negation, item_name: ItemName) -> str:
        """Why it isn't sure whether this name meets the negated test."""
        fact = self._facts[one.key]
        if not item_name.is_sure():
            return item_name.words(fact)
        membership = self._stand(one, item_name)
        if isinstance(membership, str):
            return f"{item_name.name}: {membership}"
        if item_name.name not in self._covered[fact]:
            return f"{item_name.item} is known in part, and may be {fact}"
        return f"{item_name.item} may have another name than {item_name.meant}, and {fact} is negated"


def has_hardware(arguments: Arguments) -> bool:
    """Whether machines have hardware, by the command line."""
    said = arguments.one("--hardware")
    if said not in (None, "none"):
        raise Fatal(f"--hardware is {said}, and it can only be none")
    return said is None
