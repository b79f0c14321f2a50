"""Which statements are evaluated for which machine, and over which items, so that a run of cpe does no needless work.

Statements are evaluated in mode plain, over all names of the items (name_finder.py), the written ones and those to
which the dictionary leads.

For a machine only those statements are evaluated whose verdict may differ from that of a machine without items. Such a
statement has a fact with the vendor, product and version of a name of the machine's items, or a fact in which these
aren't plain. A range counts only if it is TRUE or UNKNOWN on the machine: if all versions are outside, it is FALSE, as
without items. A statement may ask for a part that a list doesn't name (statement_rewriter.py), and also have a negated
or open test. Then it may be UNKNOWN on a machine that has none of its names, so it is evaluated for each machine.

A statement is evaluated only over the names that may fit its facts, and once for all machines that have the same of
these names. A name whose vendor is a pattern may fit any fact with its product; one whose product is a pattern, any
with its vendor.
"""
from __future__ import annotations

import functools
import json
from collections.abc import Collection, Iterable, Iterator, Mapping, Sequence
from dataclasses import dataclass, field

from . import names
from .advisories import Range, base_id
from .console import Fatal
from .feeds import Json, record_text
from .item_names import Certainty, ItemName
from .leads import Leads
from .name_finder import FactAttributes
from .near_products import Item, NearProducts, Product, item_of, keys_of, version_key
from .portions import portions, size_of
from .range_checks import CheckResults, check_record, drop_record
from .statement_rewriter import OF_DEVICES, PARTS, Negation, range_of, rewrite_statement
from .verdicts import Statements

# One or several items, and results of checks, over which a statement is evaluated.
Items = tuple[str, ...]
Results = tuple[tuple[str, bool], ...]
# The ids of the checks of parts that a list may not name.
_OF_PARTS = frozenset({*PARTS.values(), *OF_DEVICES.values()})


@dataclass(frozen=True)
class Statement:
    """The parts of a statement that decide where it is evaluated: its id, its facts outside of ranges, the ids of its
    ranges' checks, and the ids of all its checks."""

    id: str
    facts: tuple[str, ...]
    ranges: tuple[str, ...]
    checks: tuple[str, ...]

    @staticmethod
    def of(value: Json, ranges: Mapping[str, Range]) -> Statement:
        facts: dict[str, None] = {}
        ranged: dict[str, None] = {}
        checks: dict[str, None] = {}
        waiting = [value["test"]]
        while waiting:
            one = waiting.pop()
            key = range_of(one)
            if key is not None and key in ranges:
                ranged[key] = checks[key] = None
            elif "op" in one:
                waiting.extend(reversed(one["of"]))
            elif "fact" in one:
                facts[one["fact"]] = None
            else:
                checks[one["check"]["id"]] = None
        return Statement(value["id"], tuple(facts), tuple(ranged), tuple(checks))

    def may_be_unknown_of_parts(self) -> bool:
        """Whether it may be UNKNOWN on a machine that has none of its names, because the list doesn't name a part."""
        others = set(self.checks).difference(self.ranges)
        return not _OF_PARTS.isdisjoint(others) and not _OF_PARTS.issuperset(others)


@dataclass(frozen=True, slots=True)
class RewrittenStatement:
    """A statement as cpe evaluates it, its line, and its negations."""

    statement: Statement
    line: str
    negated: tuple[Negation, ...]


@dataclass
class FeedData:
    """The contents of the feeds, prepared for a scan. `lines` are the statements as cpe gets them, and `negated` are
    the negated tests in them.

    `elsewhere` are the advisories that name no product of the machines, so that they are FALSE without being evaluated.
    Each has whether all its names are of operating systems. `order` has the ids of all advisories, in the order of the
    feeds, if `elsewhere` isn't empty. `cached` has statements that a store keeps rewritten, by their records. `beside`
    are names of the machines' products in advisories of `elsewhere`.
    """

    entries: list[str]
    records: list[str]
    ranges: Mapping[str, Range]
    details: dict[str, dict[str, Json]]
    stand_ins: Mapping[str, str]
    elsewhere: Mapping[str, bool] = field(default_factory=dict)
    order: Sequence[str] = ()
    cached: Mapping[str, RewrittenStatement] = field(default_factory=dict)
    beside: Sequence[str] = ()
    statements: list[Statement] = field(init=False)
    lines: list[str] = field(init=False)
    negated: dict[str, Negation] = field(init=False)

    def __post_init__(self) -> None:
        self.statements, self.lines, self.negated = [], [], {}
        for record in self.records:
            made = self.cached.get(record) or self._rewrite(record)
            self.statements.append(made.statement)
            self.lines.append(made.line)
            self.negated.update((one.key, one) for one in made.negated)

    def _rewrite(self, record: str) -> RewrittenStatement:
        negated: dict[str, Negation] = {}
        value, line = rewrite_statement(json.loads(record), negated)
        return RewrittenStatement(Statement.of(value, self.ranges), line, tuple(negated.values()))

    def advisories(self) -> list[str]:
        """The ids of the advisories that have verdicts, in the order of the feeds."""
        found = self.ids.advisories
        return list(dict.fromkeys([*(id for id in self.order if id in found), *found]))

    @functools.cached_property
    def parts(self) -> dict[str, list[int]]:
        """The places of the statements of each advisory, by its id and by those of its parts."""
        parts: dict[str, list[int]] = {}
        for place, statement in enumerate(self.statements):
            for id in {statement.id, base_id(statement.id)}:
                parts.setdefault(id, []).append(place)
        return parts

    @functools.cached_property
    def ids(self) -> Statements:
        """The ids of all advisories with verdicts, evaluated or not."""
        return Statements([*(statement.id for statement in self.statements), *self.elsewhere])

    def facts(self) -> list[str]:
        """The names in statements and ranges."""
        facts = [fact for statement in self.statements for fact in statement.facts]
        return [
            *facts,
            *(one.fact for one in self.negated.values()),
            *(one.criteria for one in self.ranges.values()),
            *self.beside,
        ]


class Index:
    """The statements by vendor and product of their facts, and by their ranges."""

    def __init__(self, feed_data: FeedData, leads: Leads) -> None:
        self._near: NearProducts[int] = NearProducts()
        self._by_range: dict[str, list[int]] = {}
        self._of_each = [
            place for place, statement in enumerate(feed_data.statements) if statement.may_be_unknown_of_parts()
        ]
        # (for each statement the products that its facts may fit, and whether it may fit others too)
        self._products: list[tuple[set[Product], bool]] = []
        self._keys: dict[int, tuple[Product, ...]] = {}
        # (the names in each statement, which are needed if an item lacks an attribute; most are never needed)
        self._names: list[list[str]] = []
        self._wanted: dict[int, FactAttributes] = {}
        for place, statement in enumerate(feed_data.statements):
            facts = [leads.found[fact].name for fact in statement.facts]
            plain, is_all = _products(facts)
            self._near.put(place, _items(facts, plain), is_all)
            negated = [feed_data.negated[key] for key in statement.checks if key in feed_data.negated]
            for key in (*statement.ranges, *(one.key for one in negated)):
                self._by_range.setdefault(key, []).append(place)
            criteria = [leads.found[feed_data.ranges[key].criteria].name for key in statement.ranges]
            ranged, is_all_ranged = _products(criteria)
            self._products.append((plain | ranged, is_all or is_all_ranged))
            self._names.append([*facts, *criteria, *(leads.found[one.fact].name for one in negated)])

    def find_concerned(self, items: Iterable[Item], check_results: CheckResults) -> list[int]:
        """The places, in order, of the statements that may have another verdict than without items of these products
        and versions."""
        found = self._near.near(items)
        found.update(self._of_each)
        for key in [*(key for key, is_inside in check_results.truths.items() if is_inside), *check_results.doubts]:
            found.update(self._by_range.get(key, ()))
        return sorted(found)

    def asks_for_more(self, place: int, less: Mapping[Product, frozenset[int]]) -> bool:
        """Whether a fact of this statement has a value in an attribute that names of these products lack."""
        fact_attributes = self._wanted.get(place)
        if fact_attributes is None:
            fact_attributes = self._wanted[place] = FactAttributes(self._names[place])
        return fact_attributes.are_any() and any(
            not unsaid.isdisjoint(fact_attributes.places(product)) for product, unsaid in less.items()
        )

    def items(self, place: int, by_product: Mapping[Product, Items], all_items: Items) -> Items:
        """The items that may fit the facts of a statement, in order; `by_product` has the items in order."""
        products, is_all = self._products[place]
        if is_all:
            return all_items
        keys = self._keys.get(place)
        if keys is None:
            keys = self._keys[place] = tuple(dict.fromkeys(key for product in products for key in keys_of(product)))
        found = [by_product[key] for key in keys if key in by_product]
        # (mostly there is one product)
        return found[0] if len(found) == 1 else tuple(sorted({item for items in found for item in items}))


def _products(facts: Iterable[str]) -> tuple[set[Product], bool]:
    """The plain products of these names, and whether there is one that isn't plain."""
    products = set(map(names.product_of, facts))
    plain = {product for product in products if all(map(names.is_plain, product))}
    return plain, len(plain) < len(products)


def _items(facts: Iterable[str], plain: Collection[Product]) -> Iterator[Item]:
    """The plain products of these names, with their versions."""
    for parts in map(names.components, facts):
        if (product := (parts[names.VENDOR], parts[names.PRODUCT])) in plain:
            yield product, version_key(parts[names.VERSION])


def names_by_product(item_names: Iterable[ItemName]) -> dict[Product, Items]:
    """Names by the keys of their products, in order."""
    found: dict[Product, set[str]] = {}
    for one in item_names:
        found.setdefault(item_of(one.name)[0], set()).add(one.name)
    return {product: tuple(sorted(items)) for product, items in found.items()}


class Cases:
    """Statements with the item names and check results over which they are evaluated; equal cases are there once."""

    def __init__(self, feed_data: FeedData, index: Index, is_all_asked: bool = False) -> None:
        self._feed_data, self._index, self._is_all_asked = feed_data, index, is_all_asked
        self._numbers: dict[tuple[Items, Results, int], int] = {}

    def put(self, item_names: Sequence[ItemName], check_results: CheckResults) -> dict[int, int]:
        """The cases of a machine whose items have these names, by the places of its statements."""
        by_product = names_by_product(item_names)
        if self._is_all_asked:
            places = list(range(len(self._feed_data.statements)))
        else:
            places = self._index.find_concerned({item_of(one.name) for one in item_names}, check_results)
        # (an item that lacks an attribute is evaluated again, only for statements in which a fact has the attribute)
        less = _unsaid_places(item_names)
        if less and not self._is_all_asked:
            places = [place for place in places if self._index.asks_for_more(place, less)]
        all_items = tuple(sorted({one.name for one in item_names}))
        truths, cases = check_results.truths, {}
        for place in places:
            items = all_items if self._is_all_asked else self._index.items(place, by_product, all_items)
            results = tuple([(key, truths[key]) for key in self._feed_data.statements[place].checks if key in truths])
            cases[place] = self._numbers.setdefault((items, results, place), len(self._numbers))
        return cases

    def in_order(self) -> list[tuple[Items, Results, int, int]]:
        """The cases with their numbers; cases with the same items follow each other."""
        return sorted((*case, number) for case, number in self._numbers.items())


def _unsaid_places(item_names: Iterable[ItemName]) -> dict[Product, frozenset[int]]:
    """The attributes that items lack, by their products."""
    found: dict[Product, frozenset[int]] = {}
    for one in item_names:
        if one.certainty is Certainty.LESS:
            product = names.product_of(one.name)
            found[product] = found.get(product, frozenset()) | one.lacks
    return found


def portions_of(feed_data: FeedData) -> Iterator[range]:
    """The places of the statements, in portions that cpe can take at once."""
    negated = (sum(key in feed_data.negated for key in statement.checks) for statement in feed_data.statements)
    return portions(size_of(line, checks) for line, checks in zip(feed_data.lines, negated))


def lines_of(feed_data: FeedData, portion: range, cases: Iterable[tuple[Items, Results, int, int]]) -> Iterator[str]:
    """The lines for a portion: its statements, a question for each, and then its cases."""
    asks = questions_of(feed_data, portion)
    yield from lines_of_statements(feed_data, asks)
    yield from lines_of_cases(cases, asks)


def questions_of(feed_data: FeedData, portion: Iterable[int]) -> dict[int, str]:
    """The question for each statement of a portion, by its place."""
    return {place: record_text({"do": "verdict", "id": feed_data.statements[place].id}) for place in portion}


def lines_of_statements(feed_data: FeedData, asks: Mapping[int, str]) -> Iterator[str]:
    """The statements that have questions, and the questions while there is no item. There is no entry, because in mode
    plain no name leads anywhere."""
    yield from (feed_data.lines[place] for place in asks)
    # While there is no item, each check that stands for a negated test or for a part is FALSE.
    negated = dict.fromkeys(
        key for place in asks for key in feed_data.statements[place].checks if key in feed_data.negated
    )
    nothing = [*negated, *PARTS.values(), *OF_DEVICES.values()]
    yield from (check_record(key, False) for key in nothing)
    yield from asks.values()
    yield from (drop_record(key) for key in nothing)


def lines_of_cases(cases: Iterable[tuple[Items, Results, int, int]], asks: Mapping[int, str]) -> Iterator[str]:
    """The question for each case, over its items and results. At the end the rows are as before."""
    here: Items = ()
    for items, results, place, _ in cases:
        if items != here:
            yield from _drops(here)
            yield from (record_text({"do": "item", "name": item}) for item in items)
            here = items
        yield from (check_record(key, is_true) for key, is_true in results)
        yield asks[place]
        yield from (drop_record(key) for key, _ in reversed(results))
    yield from _drops(here)


def _drops(items: Items) -> Iterator[str]:
    # (the last first, so that no other item has to move up)
    return (record_text({"do": "drop-item", "name": item}) for item in reversed(items))


def verdicts_of(lines: Iterable[str]) -> Iterator[str]:
    """The truths of the answers."""
    for line in lines:
        word, _, rest = line.partition(" ")
        if word != "verdict":
            raise Fatal(f"cpe resolve wrote {line}")
        yield rest.rpartition(" ")[2]
