"""The part of a store (store_file.py) that a scan reads: the entries of its machines' products, and of products that
deprecations connect with these; the advisories that concern these products; and the lists of their matches. Everything
else is only counted: it is FALSE."""
from __future__ import annotations

import contextlib
import hashlib
import json
from collections.abc import Collection, Iterable, Iterator, Mapping, Sequence
from dataclasses import dataclass

from . import advisories, names
from .advisory_states import States
from .cases import FeedData, RewrittenStatement
from .completeness import MissingPages, ReadingPolicy
from .components import Machine
from .concern import plain_product, products_named
from .console import DeferredMessages, Fatal, Messages, NoMessages
from .feeds import ADVISORIES, Json, Page, Source
from .leads import leads_of
from .matches import key_of_name
from .names_table import Tables
from .near_products import OPEN, Product, key_of, keys_of
from .package_names import UnnamedPackages, name_machines, wanted_names
from .page_rows import in_form, record_of
from .product_index import squeeze
from .program import Candidate, Program
from .statement_cache import CachedStatements, decode
from .store_file import ADD_AGAIN, StoreFile, page_and_number, place_of
from .store_findings import (
    candidates_of,
    current_findings,
    report_faults,
    report_unended_runs,
    report_unread_files,
    rows_of_products,
)
from .store_writer import NO_PRODUCT, StoreWriter, is_of_these_recipes

_COUNTS = "is_passed = 0 AND state IS NULL"
_TRIES = 10


@dataclass(frozen=True)
class StoreExtract:
    """The data of a store for a scan, and the places of the plain advisories by their ids. If `is_whole` is False, the
    statements of some advisories depend on other advisories."""

    feed_data: FeedData
    states: States
    placed: Mapping[str, int]
    is_whole: bool


@dataclass(frozen=True)
class AdvisoryPart:
    """The advisories that are read: their places, their statements, the cached ones among these rewritten, the
    advisories without a verdict, the numbers of the wanted products, and the names of these products in other
    advisories. `is_raw` says that no cached statement was used, because two advisories have different ranges under the
    same id of a match."""

    places: list[int]
    found: advisories.Advisories
    rewritten: dict[str, RewrittenStatement]
    states: States
    wanted: set[int]
    beside: list[str]
    is_raw: bool

    def cached_ids(self) -> set[str]:
        """The ids of the cached statements."""
        return {one.statement.id for one in self.rewritten.values()}


@dataclass(frozen=True)
class TouchedProducts:
    """The products whose items may have other names than before: by their numbers, and those without a number."""

    numbers: set[int]
    products: set[Product]


class StoreReader:
    """Reads a store for a scan."""

    def __init__(self, folder: str, program: Program, messages: Messages, reading: ReadingPolicy) -> None:
        self._file, self._program, self._messages, self._reading = StoreFile(folder), program, messages, reading
        # (the places of the advisories with a match that lists names of the wanted products)
        self._listing: set[int] = set()
        # (the ids of matches whose faults were reported)
        self._faulty: set[str] = set()
        # (the kinds of feeds whose findings were reported, and whether those of advisories were)
        self._reported: set[str] = set()
        self._has_reported = False
        self._differs: bool | None = None

    @contextlib.contextmanager
    def open(self) -> Iterator[StoreReader]:
        """Everything that is read within is of one moment. Nothing is written, unless other recipes filled the
        store."""
        try:
            for _ in range(_TRIES):
                self._derive_again()
                with self._file.read_transaction():
                    # (a run of other recipes may have changed the store meanwhile)
                    if is_of_these_recipes(self._file):
                        report_unended_runs(self._file, self._messages)
                        report_unread_files(self._file, self._messages)
                        yield self
                        return
            raise Fatal(f"{self._file.folder}: other recipes write to the store; scan when that is done")
        finally:
            self._file.close()

    def _derive_again(self) -> None:
        try:
            StoreWriter(self._file, self._messages).derive_again()
        except Fatal as fault:
            raise Fatal(
                f"{fault}; other recipes filled the store, so all that they derived must be derived again: {ADD_AGAIN}"
            ) from fault

    def _report_findings(self, kind: str) -> None:
        """Reports the findings about the feeds of a kind, once."""
        if kind in self._reported:
            return
        self._reported.add(kind)
        for one in current_findings(self._file, self._program, kind):
            if "missing" in one:
                self._reading.judge([MissingPages(*one["missing"])], self._messages, " (--partial lets it pass)")
            elif "remark" in one:
                self._messages.remark(one["remark"])
            else:
                self._messages.leave_out(*one["left"])

    def take(self, asked: Sequence[Machine], ids: Iterable[str], is_all: bool) -> StoreExtract:
        """The data that concerns these machines, and the advisories with these ids, or all advisories."""
        wanted = self._near(self._products_of(asked))
        part = self._part(wanted, self._places(wanted, ids, is_all), is_all)
        return self.collect(part, part.found.candidates)

    def read_part(self, products: Collection[Product]) -> AdvisoryPart:
        """The advisories that name these products, or a product that deprecations connect with them, whether they
        require it or not; and those that every scan reads."""
        wanted = self._near(products)
        places = {place for (place,) in self._file.rows_of("SELECT place FROM beside WHERE product IN {}", wanted)}
        return self._part(
            wanted, sorted(places - self._superseded() | set(self._places(wanted, (), is_all=False))), is_all=True
        )

    def _part(self, wanted: set[int], places: list[int], is_all: bool) -> AdvisoryPart:
        self._report_findings(ADVISORIES)
        # (such a match may list names of the wanted products, even if its advisory isn't read)
        query = "SELECT DISTINCT key FROM faults WHERE kind = 'matchStrings' AND key IN (SELECT key FROM ranged)"
        self._faulty |= {key for (key,) in self._file.rows(query)}
        messages = NoMessages() if self._has_reported else self._messages
        self._has_reported = True
        report_faults(self._file, "matchStrings", self._faulty, messages)
        made = self._cached(places)
        beside = [] if is_all else self._names_beside(wanted, places)
        for some in (made, {}):
            states, deferred = self._states(), DeferredMessages()
            with contextlib.suppress(advisories.RangeConflict):
                found = advisories.convert(
                    self._pages(places, some), self._program, deferred, is_decided=True, states=states
                )
                deferred.pass_on(messages)
                asked = {record: asked for one in some.values() for record, asked in one.asked.items()}
                return AdvisoryPart(places, found, asked, states, wanted, beside, len(some) < len(made))
        raise AssertionError("nothing was made before")

    def collect(
        self, part: AdvisoryPart, candidates: Iterable[Candidate], entries: Sequence[str] | None = None
    ) -> StoreExtract:
        """The data for the statements of these candidates; all other advisories are elsewhere. The entries are read,
        unless they are given."""
        found, states = part.found, part.states
        records = self._program.accept_statements(candidates, self._messages)
        order, elsewhere = self._in_order(part.places)
        if not records and not elsewhere:
            none = f"; not analysed: {len(states.unanalysed):,}" if states.unanalysed else ""
            raise Fatal(f"{self._file.folder}: no advisory that can have a verdict is in the store{none}")
        feed_data = FeedData(
            [], records, found.ranges, found.details, found.stand_ins, elsewhere, order, part.rewritten, part.beside
        )
        feed_data.entries += self.entries(part, feed_data) if entries is None else entries
        made = part.cached_ids()
        placed = {id: place for id, place in self.plain_places().items() if id in made}
        return StoreExtract(feed_data, states, placed, not part.is_raw and not self.has_range_conflict(found.stand_ins))

    def entries(self, part: AdvisoryPart, feed_data: FeedData) -> list[str]:
        """The entries of the wanted products, and of negated names, because it matters where these lead."""
        keys = (key_of_name(one.fact) for one in feed_data.negated.values())
        return self._entries(self._around(part.wanted | self._numbers(key for key in keys if key is not None)))

    def _names_beside(self, wanted: Collection[int], places: Collection[int]) -> list[str]:
        """The names of these products in other advisories, beside the products that these advisories require. (An item
        may have the spelling of such a name. Its verdicts may not depend on the other machines of the scan.)"""
        rows = self._file.rows_of("SELECT place, product FROM beside WHERE product IN {}", wanted)
        others = {place for place, _ in rows}.difference(places, self._superseded())
        numbers = {number for place, number in rows if place in others}
        keys = set(self._file.rows_of("SELECT vendor, product FROM names WHERE number IN {}", numbers))
        found: dict[str, None] = {}
        for made in self._cached(sorted(others)).values():
            facts = [fact for one in made.asked.values() for fact in one.statement.facts]
            found.update(
                (name, None) for name in (*facts, *(one.criteria for one in made.ranges)) if plain_product(name) in keys
            )
        return list(found)

    def _superseded(self) -> set[int]:
        """The places of the advisories that don't count, because the other feed has a record of the id."""
        return {place for (place,) in self._file.each("SELECT place FROM advisories WHERE is_passed = 1")}

    def _cached(self, places: Iterable[int]) -> dict[int, CachedStatements]:
        """The cached statements of the advisories at these places."""
        query = "SELECT place, data FROM made WHERE place IN {}"
        doubled = {
            place for (place,) in self._file.rows(f"SELECT place FROM advisories WHERE is_doubled = 1 AND {_COUNTS}")
        }
        return {
            place: self._file.read(decode, data)
            for place, data in self._file.rows_of(query, places)
            if place not in doubled
        }

    def dictionary(self, asked: Sequence[Machine], tables: Tables) -> tuple[list[str], UnnamedPackages]:
        """The entries that concern these machines."""
        unnamed = self.name_packages(asked, tables)
        return self._entries(self._around(self._near(self._products_of(asked)))), unnamed

    def name_packages(self, asked: Sequence[Machine], tables: Tables) -> UnnamedPackages:
        """Adds names to the machines' packages."""
        self._report_findings("products")
        if self._file.one("SELECT 1 FROM products LIMIT 1") is None:
            raise Fatal(f"{self._file.folder}: no product of a dictionary is in the store")
        return name_machines(asked, tables, self._entries_by_name(wanted_names(asked, tables)))

    def _entries_by_name(self, wanted: Iterable[str]) -> list[str]:
        """The entries of the products with these names, whatever separates their words."""
        keys = set(map(squeeze, wanted))
        numbers = {number for (number,) in self._file.rows_of("SELECT number FROM names WHERE squeezed IN {}", keys)}
        # (a deprecation is read if its successor is)
        return self._entries(self._around(numbers)) if keys else []

    def _entries(self, numbers: Iterable[int]) -> list[str]:
        """The entries and deprecations of these products. (What cpe refuses of them is reported elsewhere.)"""
        candidates = candidates_of(self._file, rows_of_products(self._file, numbers))
        return self._program.accept_entries(candidates, NoMessages())

    def _products_of(self, asked: Iterable[Machine]) -> set[Product]:
        """The keys of the products of all names of the machines."""
        items = dict.fromkeys(name for machine in asked for name in machine.asked_names())
        leads = leads_of(self._program, (), items, ())
        return {key_of(names.product_of(lead.name)) for lead in leads.found.values()}

    def _numbers(self, products: Iterable[Product]) -> set[int]:
        """The numbers of the products that have these keys."""
        found: set[int] = set()
        for vendor, product in products:
            if OPEN not in (vendor, product):
                query, values = "vendor = ? AND product = ?", (vendor, product)
            elif vendor != OPEN:
                query, values = "vendor = ?", (vendor,)
            elif product != OPEN:
                query, values = "product = ?", (product,)
            else:
                query, values = "?", (True,)
            found.update(number for (number,) in self._file.rows(f"SELECT number FROM names WHERE {query}", values))
        return found

    def _near(self, products: Collection[Product]) -> set[int]:
        """The numbers of the products that names of these products may have: those that deprecations connect with them,
        and those of matches that list names of these. Notes the advisories of such matches."""
        there = self._reach(self._numbers(products), "successor", "product")
        found = self._reach(there, "product", "successor")
        query = "SELECT DISTINCT ranged.place, ranged.product FROM listing CROSS JOIN ranged USING (key) WHERE listing.product IN {}"
        beside = self._file.rows_of(query, [NO_PRODUCT, *found])
        self._listing = {place for place, _ in beside}
        keys = self._file.rows_of(
            "SELECT vendor, product FROM names WHERE number IN {}", {number for _, number in beside} - found
        )
        return found | self._numbers(keys)

    def _around(self, numbers: Collection[int]) -> set[int]:
        """These products, and those to which deprecations lead from them, so that each chain is complete."""
        return self._reach(numbers, "successor", "product")

    def _reach(self, numbers: Iterable[int], there: str, here: str) -> set[int]:
        """These numbers, and all that can be reached from them."""
        found, new = set(numbers), set(numbers)
        while new:
            new = {
                number for (number,) in self._file.rows_of(f"SELECT {there} FROM leads WHERE {here} IN {{}}", new)
            } - found
            found |= new
        return found

    def _places(self, wanted: Collection[int], ids: Iterable[str], is_all: bool) -> list[int]:
        """The places of the advisories that may concern these products, of those that aren't plain, and of those with
        these ids."""
        if is_all:
            return [
                place for (place,) in self._file.each(f"SELECT place FROM advisories WHERE {_COUNTS} ORDER BY place")
            ]
        found = {
            place
            for (place,) in self._file.rows(f"SELECT place FROM advisories WHERE (is_odd OR is_doubled) AND {_COUNTS}")
        }
        found.update(
            place
            for (place,) in self._file.rows_of(f"SELECT place FROM advisories WHERE id IN {{}} AND {_COUNTS}", ids)
        )
        concerned = {place for (place,) in self._file.rows_of("SELECT place FROM concerns WHERE product IN {}", wanted)}
        concerned |= self._listing
        return sorted(found | concerned - self._superseded())

    def _pages(self, places: Sequence[int], made: Mapping[int, CachedStatements]) -> list[Page]:
        """The records at these places, or their cached statements, on the pages that had them."""
        raw = dict(
            self._file.rows_of(
                "SELECT place, data FROM advisories WHERE place IN {}", (one for one in places if one not in made)
            )
        )
        query = "SELECT number, name, is_of_records FROM pages"
        named = {number: (name, bool(is_of_records)) for number, name, is_of_records in self._file.rows(query)}
        found: dict[int, Page] = {}
        for place in places:
            page, number = page_and_number(place)
            if page not in found:
                name, is_of_records = self._file.read(named.__getitem__, page)
                found[page] = Page(name, ADVISORIES, [], numbers=[], is_of_records=is_of_records)
            found[page].records.append(
                made[place]
                if place in made
                else in_form(self._file.read(record_of, raw[place]), found[page].is_of_records)
            )
            found[page].numbers.append(number + 1)  # type: ignore[union-attr]
        return list(found.values())

    def _states(self) -> States:
        """The advisories that have no verdict."""
        states = States()
        for id, state in self._file.each(
            "SELECT id, state FROM advisories WHERE is_passed = 0 AND state IS NOT NULL ORDER BY place"
        ):
            states.put(id, state)
        return states

    def _in_order(self, places: Iterable[int]) -> tuple[list[str], dict[str, bool]]:
        """The ids of all advisories that can have a verdict, in their order; and of those at other places, each with
        whether all its names are of operating systems."""
        here = set(places)
        order: list[str] = []
        elsewhere: dict[str, bool] = {}
        for place, id, is_of_systems in self._file.each(
            f"SELECT place, id, is_of_systems FROM advisories WHERE {_COUNTS} ORDER BY place"
        ):
            order.append(id or self._label(place))
            if place not in here:
                elsewhere[id] = bool(is_of_systems)
        return order, elsewhere

    def _label(self, place: int) -> str:
        """The words for an advisory without an id."""
        page, number = page_and_number(place)
        (name,) = self._file.rows("SELECT name FROM pages WHERE number = ?", (page,))[0]
        return Source(advisories.CALLED, name).place(number + 1)

    def plain_places(self) -> dict[str, int]:
        """The places of the advisories that are plain, by their ids."""
        query = f"SELECT id, place FROM advisories WHERE {_COUNTS} AND is_odd = 0 AND is_doubled = 0 AND id IS NOT NULL"
        return dict(self._file.each(query))

    def details(self, places: Collection[int]) -> dict[str, dict[str, Json]]:
        """The details of the plain advisories at these places."""
        return {made.id: made.details for made in self._cached(sorted(places)).values()}

    def pages(self) -> tuple[int, str]:
        """The number of the last page, and a checksum of all pages up to it, by which the store can be recognised."""
        rows = self._file.rows("SELECT number, key, added FROM pages ORDER BY number")
        return (rows[-1][0] if rows else 0), _checksum(rows)

    def has_prefix(self, last: int, checksum: str) -> bool:
        """Whether the pages up to this number have this checksum."""
        return (
            _checksum(
                self._file.rows("SELECT number, key, added FROM pages WHERE number <= ? ORDER BY number", (last,))
            )
            == checksum
        )

    def has_range_conflict(self, stand_ins: Collection[str] = ()) -> bool:
        """Whether two advisories have different ranges under the same id of a match, or a stand-in for one of these.
        Then their statements depend on each other."""
        if self._differs is None:
            self._differs = (
                self._file.one("SELECT 1 FROM ranged GROUP BY key HAVING min(range) != max(range) LIMIT 1") is not None
            )
        query = "SELECT 1 FROM ranged JOIN advisories USING (place) WHERE is_odd = 0 AND is_doubled = 0 AND key IN {} LIMIT 1"
        return self._differs or bool(self._file.rows_of(query, stand_ins))

    def ids_since(self, last: int) -> set[str]:
        """The ids of the advisories that were added after this page."""
        query = "SELECT DISTINCT id FROM advisories WHERE place >= ? AND id IS NOT NULL"
        return {id for (id,) in self._file.rows(query, (place_of(last + 1, 0),))}

    def matches_since(self, last: int) -> set[str]:
        """The ids of the matches whose lists were added after this page."""
        return {
            key
            for (key,) in self._file.rows("SELECT DISTINCT key FROM matches WHERE place >= ?", (place_of(last + 1, 0),))
        }

    def touched_since(self, last: int) -> TouchedProducts | None:
        """The products about which pages after this one have something new: entries and deprecations, added, replaced
        or superseded advisories, and lists of matches. None if these may be any products."""
        first = place_of(last + 1, 0)
        found = {
            number for (number,) in self._file.rows("SELECT DISTINCT product FROM products WHERE place >= ?", (first,))
        }
        found.update(
            number for (number,) in self._file.rows("SELECT DISTINCT product FROM gone WHERE page > ?", (last,))
        )
        keys = self.matches_since(last)
        for table in ("listing", "ranged"):
            found.update(
                number
                for (number,) in self._file.rows_of(f"SELECT DISTINCT product FROM {table} WHERE key IN {{}}", keys)
            )
        named: set[Product | None] = set()
        for data, is_of_records in self._file.each(
            "SELECT data, is_of_records FROM advisories WHERE place >= ?", (first,)
        ):
            named |= products_named(in_form(self._file.read(record_of, data), is_of_records))
        if None in named or NO_PRODUCT in found:
            return None
        numbers = self.numbers_of(one for one in named if one is not None)
        found.update(number for number in numbers.values() if number is not None)
        if self._are_open(found):
            return None
        reached = self._find_reached(found)
        return (
            None
            if reached is None
            else TouchedProducts(reached, {one for one, number in numbers.items() if number is None})
        )

    def _are_open(self, numbers: Collection[int]) -> bool:
        """Whether one of these products has a vendor or product that may be any text."""
        rows = self._file.rows_of("SELECT vendor, product FROM names WHERE number IN {}", numbers)
        return any(OPEN in row for row in rows)

    def _find_reached(self, touched: Collection[int]) -> set[int] | None:
        """The numbers of the products whose names lead to one of these: the inverse of `_near`. None if these may be
        any products."""
        rows = self._file.rows_of("SELECT vendor, product FROM names WHERE number IN {}", touched)
        keys = {key for row in rows for key in keys_of(row)}
        criteria = set(touched).union(number for number in self.numbers_of(keys).values() if number is not None)
        query = "SELECT DISTINCT listing.product FROM ranged JOIN listing USING (key) WHERE ranged.product IN {}"
        listed = {number for (number,) in self._file.rows_of(query, criteria)}
        if NO_PRODUCT in listed:
            return None
        there = self._reach(listed | set(touched), "successor", "product")
        return self._reach(there, "product", "successor")

    def numbers_of(self, products: Iterable[Product]) -> dict[Product, int | None]:
        """The numbers of these products; None for one that the store doesn't have."""
        query = "SELECT number FROM names WHERE vendor = ? AND product = ?"
        return {one: row[0] if (row := self._file.one(query, one)) else None for one in set(products)}

    def match_lists(self, keys: Collection[str]) -> dict[str, list[str]]:
        """The names in the match feed's lists of these matches."""
        self._report_findings("matchStrings")
        report_faults(self._file, "matchStrings", set(keys) - self._faulty, self._messages)
        self._faulty.update(keys)
        found: dict[str, list[str]] = {}
        for _, key, listed in sorted(
            self._file.rows_of("SELECT place, key, listed FROM matches WHERE key IN {}", keys)
        ):
            found.setdefault(key, []).extend(self._file.read(json.loads, listed))
        return found


def _checksum(rows: Iterable[tuple]) -> str:
    return hashlib.blake2b(json.dumps(list(rows)).encode(), digest_size=16).hexdigest()
