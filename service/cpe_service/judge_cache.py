"""Keeps what was learned about a ground and about judged machines, so that the next machine needs only its own new
work.

Several runs of `cpe` stay open: one with the dictionary, one or more with the statements, one or more with the ranges
of versions, and one without records, for questions about items alone. The items of a machine are put into a run and
removed after the answers. These answers are the same for each machine, so they are kept: where a name leads, which
ranges have it, the truth of a statement over given items, and which items decide it.
"""
from __future__ import annotations

from collections.abc import Callable, Collection, Hashable, Iterable, Iterator, Sequence
from dataclasses import replace

from cpe_recipes import names, unlisted
from cpe_recipes.advisories import Range
from cpe_recipes.cases import (
    FeedData,
    Index,
    Items,
    Results,
    lines_of_cases,
    lines_of_statements,
    names_by_product,
    portions_of,
    questions_of,
    verdicts_of,
)
from cpe_recipes.console import Fatal
from cpe_recipes.explanations import BatchExplainer, ExplanationRequest
from cpe_recipes.feeds import record_text
from cpe_recipes.item_names import ItemName
from cpe_recipes.leads import Leads, leads_of
from cpe_recipes.name_finder import FactAttributes, NameFinder, group_matches_by_name
from cpe_recipes.near_products import Product
from cpe_recipes.persistent_run import PersistentProgram
from cpe_recipes.product_index import ByName
from cpe_recipes.program import Program
from cpe_recipes.progress import Progress
from cpe_recipes.range_checks import CheckResults, End, RangeIndex, oddness, rewrite_range
from cpe_recipes.scan import Scan
from cpe_recipes.versions import Letters

from .ground import Ground
from .resident_run import ResidentRun

# How many cases, and how many names, are kept at most.
_MOST_CASES, _MOST_NAMES = 300_000, 100_000
# How many ranges a run gets. (cpe takes 100,000.)
_MOST_RANGES = 90_000

# Ranges by the vendor and product of their names; under None those that may concern any product.
ByProduct = dict[Product | None, list[Range]]


class NameCache:
    """The entries of a ground, where names lead by them, and the names of items."""

    def __init__(self, ground: Ground, dictionary: ResidentRun) -> None:
        """`dictionary` is a run that has the entries."""
        self._dictionary, self._letters = dictionary, ground.letters
        facts, old = ground.feed_data.facts(), unlisted.deprecated_names(ground.entries)
        self.entries = ByName(ground.entries)
        self.fixed = leads_of(dictionary, [], (), dict.fromkeys([*facts, *old]))
        self.successors = unlisted.successors(ground.entries, self.fixed)
        self._old = [self.fixed.found[name] for name in old if name in self.fixed.found]
        self.feed = group_matches_by_name(ground.lists, ground.feed_data.ranges, self.fixed)
        self.fact_attributes = FactAttributes(self.fixed.found[fact].name for fact in dict.fromkeys(facts))
        self._forget()

    def _forget(self) -> None:
        """Removes all items."""
        self.leads = Leads(dict(self.fixed.found), dict(self.fixed.refused))
        self._items: set[str] = set()
        self._name_finder = NameFinder(
            self._dictionary, [], self.leads, self._old, None, self.feed, self.fact_attributes, self._letters
        )

    def lead(self, items: Iterable[str]) -> NameFinder:
        """Finds the names of these items; afterwards `leads` has the leads of the items."""
        if len(self._items) > _MOST_NAMES:
            self._forget()
        new = [item for item in items if item not in self._items]
        if new:
            found = leads_of(self._dictionary, [], new, ())
            # (as in one run over all, in which facts override items)
            for mine, more in ((self.leads.found, found.found), (self.leads.refused, found.refused)):
                mine.update((name, one) for name, one in more.items() if name not in mine)
            self._items.update(new)
            self._name_finder.add(lead for item in new if (lead := self.leads.found.get(item)))
        return self._name_finder


class RangeRuns:
    """Finds the ranges of a version, by runs of `cpe advise` that have all ranges."""

    def __init__(self, resident: Callable[[], ResidentRun], ranges: Sequence[Range]) -> None:
        self._ranges, self._by_name = ranges, dict[str, list[Range]]()
        for one in ranges:
            self._by_name.setdefault(one.criteria, []).append(one)
        self._names = list(self._by_name)
        # (a name without bounds has all versions)
        rows = [Range(f"name-{number}", name) for number, name in enumerate(self._names)]
        rows += [replace(one, key=f"range-{number}") for number, one in enumerate(ranges)]
        self._runs: list[ResidentRun] = []
        for first in range(0, len(rows), _MOST_RANGES):
            self._runs.append(resident())
            for line in self._runs[-1].lines(
                ["advise"], (record_text(one.record()) for one in rows[first : first + _MOST_RANGES])
            ):
                raise Fatal(f"cpe advise wrote {line}")

    def of(self, items: Sequence[str]) -> dict[str, list[tuple[Range, bool]]]:
        """For each item the ranges whose names cover it, each with whether the item is inside."""
        covering: dict[str, list[Range]] = {item: [] for item in items}
        inside: dict[str, set[str]] = {item: set() for item in items}
        for run in self._runs:
            for item, id in _answers(
                items, run.lines(["advise"], (record_text({"do": "advisories", "name": item}) for item in items))
            ):
                word, _, number = id.partition("-")
                if word == "name":
                    covering[item] += self._by_name[self._names[int(number)]]
                else:
                    inside[item].add(self._ranges[int(number)].key)
        return {item: [(one, one.key in inside[item]) for one in covering[item]] for item in items}


def _answers(items: Sequence[str], lines: Iterable[str]) -> Iterator[tuple[str, str]]:
    """The ids in the answers about items, each with its item."""
    count = 0
    for line in lines:
        word, _, rest = line.partition(" ")
        if word == "advisories" and count < len(items):
            count += 1
        elif word == "advisory" and count:
            yield items[count - 1], rest
        else:
            raise Fatal(f"cpe advise wrote {line}")
    if count != len(items):
        raise Fatal(f"cpe advise answered {count} of {len(items)} items")


class CachedScan(Scan):
    """A scan that keeps its answers for the next machines."""

    def __init__(self, program: Program, ground: Ground, whole: CachedScan | None = None) -> None:
        """If `whole` is given, it is the scan over all advisories, of which this ground has some. Its names and items
        are used."""
        self._asking = PersistentProgram(program.path)
        super().__init__(self._asking, ground.feed_data, ground.lists, ground.letters, Progress(is_shown=False))
        self._residents: list[ResidentRun] = []
        try:
            self.names = whole.names if whole else NameCache(ground, self._resident(ground.entries))
            self._leads = self.names.fixed
            self._read_ranges()
            self._read_statements()
        except BaseException:
            self.end()
            raise
        self.explainer = CachedExplainer(self._asking, ground.feed_data, lambda: self._leads, self.index)

    def _read_ranges(self) -> None:
        """Reads the ranges, and finds those about which cpe can't be asked."""
        of_all, plain, odd = list(self._feed_data.ranges.values()), list[Range](), list[Range]()
        self._criteria: dict[str, str] = {}
        for one in of_all:
            if (lead := self._leads.found.get(one.criteria)) is None:
                continue
            self._criteria[one.key] = lead.name
            asked = rewrite_range(replace(one, criteria=lead.name), self._letters)
            if oddness(asked):
                odd.append(one)
            else:
                plain.append(asked)
        self._advising = RangeRuns(lambda: self._resident((), "advise"), plain)
        self._ranges, self._odd = _by_product(of_all, self._leads), _by_product(odd, self._leads)
        self._forget_ends()

    def _read_statements(self) -> None:
        """Reads the statements, and evaluates them without items."""
        feed_data = self._feed_data
        self.index = Index(feed_data, self._leads)
        self._truths: dict[tuple[Items, Results, int], str] = {}
        self._portions: list[tuple[dict[int, str], ResidentRun]] = []
        for portion in portions_of(feed_data):
            asks, run = questions_of(feed_data, portion), self._resident(())
            self.bare += verdicts_of(run.lines(["resolve"], lines_of_statements(feed_data, asks)))
            self._portions.append((asks, run))

    def _resident(self, records: Iterable[str], word: str = "resolve") -> ResidentRun:
        self._residents.append(ResidentRun(self._program.path, records, word))
        return self._residents[-1]

    def _lead(self, items: Collection[str]) -> NameFinder:
        calling = self.names.lead(items)
        self._leads, self.successors = self.names.leads, self.names.successors
        return calling

    def _index(self) -> Index:
        return self.index

    def _forget_ends(self) -> None:
        self._ends: set[str] = set()
        self._range_index = RangeIndex(self._program, (), self._leads, (), self._letters)
        self._range_index.criteria = self._criteria

    def _decider(self, ends: Iterable[str]) -> RangeIndex:
        """The ranges of a name are the same on each machine, so they are kept."""
        if len(self._ends) > _MOST_NAMES:
            self._forget_ends()
        new = [end for end in dict.fromkeys(ends) if end not in self._ends]
        if new:
            self._add_ends(new)
            self._ends.update(new)
        return self._range_index

    def _add_ends(self, new: Sequence[str]) -> None:
        """Adds the ranges of these names. A RangeIndex of their own finds them for names that are known in part, and
        for ranges about which cpe can't be asked; the runs with all ranges find the others."""
        sure, in_part = list[str](), list[str]()
        for end in new:
            (in_part if names.is_known_in_part(end) else sure).append(end)
        for some, ranges in ((in_part, self._ranges), (sure, self._odd)):
            near = _near(some, ranges)
            if near:
                self._range_index.add(RangeIndex(self._program, near, self._leads, some, self._letters))
        asked = [End.of(end, self._letters) for end in sure]
        covering = self._advising.of(list(dict.fromkeys(one.asked for one in asked)))
        for one in asked:
            if covering[one.asked]:
                self._range_index.put_ranges(one, covering[one.asked])

    def _ask(self, cases: Sequence[tuple[Items, Results, int, int]]) -> dict[int, str]:
        """The truth of a statement over the same items and results is kept."""
        if len(self._truths) > _MOST_CASES:
            self._truths.clear()
        new = [case for case in cases if case[:3] not in self._truths]
        for asks, run in self._portions if new else ():
            of_portion = [case for case in new if case[2] in asks]
            lines = run.lines(["resolve"], lines_of_cases(of_portion, asks))
            self._truths.update(zip((case[:3] for case in of_portion), verdicts_of(lines), strict=True))
        return {number: self._truths[items, results, place] for items, results, place, number in cases}

    def end(self) -> None:
        """Ends the runs."""
        for one in (*self._residents, self._asking):
            one.end()


class CachedExplainer(BatchExplainer):
    """Explains verdicts, and keeps the explanations, which are the same over the same item names and results."""

    def __init__(self, program: Program, feed_data: FeedData, leads: Callable[[], Leads], index: Index) -> None:
        super().__init__(program, feed_data, leads)
        self._index = index
        self._kept: dict[Hashable, list[str]] = {}

    def explain_machines(self, asked: Iterable[ExplanationRequest]) -> Iterator[dict[int, list[str]]]:
        return map(self._of_machine, asked)

    def _of_machine(self, asked: ExplanationRequest) -> dict[int, list[str]]:
        if len(self._kept) > _MOST_CASES:
            self._kept.clear()
        keys = dict(zip(asked.places, self._keys(*asked)))
        new = [place for place in asked.places if keys[place] not in self._kept]
        if new:
            (found,) = super().explain_machines([asked._replace(places=new)])
            self._kept.update((keys[place], reasons) for place, reasons in found.items())
        return {place: self._kept[key] for place, key in keys.items()}

    def _keys(
        self, item_names: Sequence[ItemName], check_results: CheckResults, places: Iterable[int]
    ) -> Iterator[Hashable]:
        """What the explanation of each statement depends on: the names that its facts may cover, in their order and
        with their items, and the truths of its checks, with the items that decide these."""
        items = {one.name: one.item for one in reversed(item_names)}
        order = {name: number for number, name in enumerate(items)}
        by_product, all_items = names_by_product(item_names), tuple(items)
        # (mostly many statements have the same names)
        in_order: dict[Items, tuple[tuple[str, str], ...]] = {}
        for place in places:
            near = self._index.items(place, by_product, all_items)
            if near not in in_order:
                in_order[near] = tuple((name, items[name]) for name in sorted(near, key=order.__getitem__))
            checks = [
                (check_results.truths.get(key), check_results.inside.get(key))
                for key in self._feed_data.statements[place].checks
            ]
            yield place, in_order[near], tuple(checks)


def _by_product(ranges: Iterable[Range], leads: Leads) -> ByProduct:
    found: ByProduct = {}
    for one in ranges:
        lead = leads.found.get(one.criteria)
        product = None if lead is None else names.product_of(lead.name)
        is_plain = product is not None and all(map(names.is_plain, product))
        found.setdefault(product if is_plain else None, []).append(one)
    return found


def _near(ends: Sequence[str], ranges: ByProduct) -> list[Range]:
    """The ranges that may cover these names."""
    products = dict.fromkeys(map(names.product_of, ends))
    is_any = any(names.has_special(text) for product in products for text in product)
    keys = list(ranges) if is_any else [*products, None] if products else []
    return [one for key in keys for one in ranges.get(key, ())]
