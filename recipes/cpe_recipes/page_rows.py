"""The rows of a page before it is put into a store (store_writer.py), made from its records alone, so that other
processes can make them.

Products have no numbers here: store_writer.py gives them, in the order of the pages.
"""
from __future__ import annotations

import contextlib
import functools
import hashlib
import json
import re
import zlib
from array import array
from collections.abc import Callable, Iterable, Iterator, Sequence
from dataclasses import dataclass
from datetime import date
from typing import NamedTuple, Protocol

from . import completeness, cve5, matches
from .advisory_states import state_of
from .concern import Concern, concern_of, plain_name, ranges_of
from .dictionary import NO_FORM, Product, product_id
from .feeds import ADVISORIES, RECORDS, FormFault, Json, Page, PlacedRecord, member, record_text, text_at
from .matches import key_of_name
from .near_products import Product as Key
from .statement_cache import encode

# What a page of another kind than NVD's counts as.
_KIND = {RECORDS: ADVISORIES}
_LONGEST = 10_000
_DAY = re.compile(r"[0-9]{4}-[0-9]{2}-[0-9]{2}")


class ProductRow(NamedTuple):
    """The row of a product, with its number in the page, the key of its product if its name is plain, and the products
    that its deprecations connect."""

    number: int
    name: str | None
    modified: str
    title: str | None
    day: str | None
    id: str | None
    change: str | None
    odd: str | None
    fault: str | None
    key: Key | None = None
    leads: Sequence[tuple[Key | None, Key | None]] = ()


class AdvisoryRow(NamedTuple):
    """An advisory: its id, its time of modification, its record as bytes, and the rows that are derived from it."""

    number: int
    id: str | None
    modified: str
    data: bytes
    derived: DerivedRows


class MatchRow(NamedTuple):
    """A match: its id, its place in words, its time of modification, its listed names, and their products. If it can't
    be read it has no list."""

    number: int
    id: str
    place: str
    modified: str
    listed: str | None
    products: Sequence[Key | None] = ()


@dataclass(frozen=True, slots=True)
class PageRows:
    """A page: its name, its kind, its number of records, its part of the feed or why this isn't known, numbers in place
    of ids, a checksum that equal pages share, and the rows of its records."""

    name: str
    kind: str
    is_of_records: bool
    count: int
    fault: str = ""
    span: completeness.Span | None = None
    ids: bytes | None = None
    copy: str | None = None
    records: Sequence[ProductRow | AdvisoryRow | MatchRow] = ()


def convert_page(page: Page) -> PageRows:
    kind, is_of_records, fault = _KIND.get(page.kind, page.kind), page.kind == RECORDS, completeness.fault_of(page)
    found = PageRows(page.name, kind, is_of_records, len(page.records), fault)
    if fault:
        return found
    records = {"products": _products, ADVISORIES: _advisories, "matchStrings": _matches}[kind](page)
    if "totalResults" not in page.counts:
        return PageRows(page.name, kind, is_of_records, found.count, records=list(records))
    span, stamps = completeness.span_of(page), completeness.stamps_of(page)
    ids, copy = _numbers_of(id for id, *_ in stamps), None if span.is_alone() else _copy_of(stamps)
    return PageRows(page.name, kind, is_of_records, found.count, "", span, ids, copy, list(records))


def _products(page: Page) -> Iterator[ProductRow]:
    for placed in page.each("product", product_id):
        try:
            yield _product(placed, Product.of(placed))
        except FormFault:
            yield ProductRow(placed.number - 1, None, "null", None, None, placed.id, None, None, NO_FORM)


def _product(placed: PlacedRecord, product: Product) -> ProductRow:
    name = product.name if isinstance(product.name, str) else None
    plain = plain_name(name) if name is not None and name.islower() else None
    is_plain, change = plain is not None and _is_plain(product), product.change
    leads: list[tuple[Key | None, Key | None]] = []
    if change is not None:
        own = _key_of(name)
        leads = [*((own, _key_of(one)) for one in change.by), *((_key_of(one), own) for one in change.of)]
    return ProductRow(
        placed.number - 1,
        name,
        record_text(product.modified),
        product.title if is_plain else None,
        product.day if is_plain else None,
        placed.id if change is not None or not is_plain else None,
        None if change is None else record_text([change.name, change.is_old, change.date, change.by, change.of]),
        None if is_plain else product.entry(),
        None,
        None if plain is None else plain[1],
        leads,
    )


def _key_of(name: Json) -> Key | None:
    return key_of_name(name) if isinstance(name, str) else None


def _advisories(page: Page) -> Iterator[AdvisoryRow]:
    for number, record in enumerate(page.records):
        data = zlib.compress(
            json.dumps(record, ensure_ascii=False, separators=(",", ":")).encode(errors="surrogatepass"), 1
        )
        form = in_form(record, page.kind == RECORDS)
        yield AdvisoryRow(number, *id_and_time(form), data, DerivedRows.of(form))


def _matches(page: Page) -> Iterator[MatchRow]:
    for placed in page.each("match string", lambda it: text_at(member(it, "matchString"), "matchCriteriaId")):
        number, place = placed.number - 1, placed.source.place(placed.number)
        modified = "null"
        try:
            match_string = member(placed.record, "matchString")
            listed = matches.names_of(match_string)
            modified = record_text(matches.modified_of(match_string))
        except FormFault:
            with contextlib.suppress(FormFault):
                modified = record_text(matches.modified_of(member(placed.record, "matchString")))
            yield MatchRow(number, placed.id, place, modified, None)
            continue
        yield MatchRow(
            number, placed.id, place, modified, record_text(listed), in_order(matches.products_of(match_string))
        )


def in_order(products: set[Key | None]) -> list[Key | None]:
    """Products in an order that is the same in each run."""
    return sorted(products, key=lambda one: one or ("", ""))


def in_form(record: Json, is_of_records: bool) -> Json:
    """The record of an advisory in NVD's form."""
    return cve5.vulnerability(record) if is_of_records else record


def id_and_time(record: Json) -> tuple[str | None, str]:
    """The id of an advisory, if it has one, and its time of modification, as JSON."""
    cve = record.get("cve") if isinstance(record, dict) else None
    if not isinstance(cve, dict):
        return None, "null"
    id = cve.get("id")
    return id if isinstance(id, str) else None, record_text(cve.get("lastModified"))


class RowSink(Protocol):
    """Takes rows: the file of a store, or a buffer."""

    def put(self, query: str, rows: Iterable[Sequence[object]]) -> None:
        ...


@dataclass(frozen=True, slots=True)
class DerivedRows:
    """What a store keeps beside the record of an advisory: whether it has configurations, why it has no verdict, the
    products that it concerns and its statements if it is plain, and its matches with bounds if it has a verdict."""

    has_names: bool
    state: str | None
    concern: Concern | None
    statements: bytes | None
    ranges: frozenset[tuple[str, Key, int]]

    @staticmethod
    def of(record: Json) -> DerivedRows:
        cve = record.get("cve") if isinstance(record, dict) else None
        has_names = isinstance(cve, dict) and bool(cve.get("configurations"))
        state = state_of(record)
        concern = concern_of(record) if state is None else None
        made = encode(record) if concern is not None else None
        # (of what something would be reported, that is read by every scan)
        ranges = ranges_of(record) if state is None else frozenset()
        return DerivedRows(has_names, state, None if made is None else concern, made, ranges)

    def columns(self) -> tuple[bool, str | None, bool, bool]:
        """Whether it has configurations, its state, whether it isn't plain, and whether all its names are of operating
        systems."""
        is_odd = self.state is None and self.concern is None
        return self.has_names, self.state, is_odd, self.concern is not None and self.concern.is_of_systems()

    def put(self, sink: RowSink, place: int, number_of: Callable[[Key], int]) -> None:
        """Adds its products, its matches with bounds, and its statements."""
        # (in an order that is the same at each run, so that products get the same numbers)
        ranges = [(key, place, number_of(product), number) for key, product, number in sorted(self.ranges)]
        sink.put("INSERT INTO ranged VALUES (?, ?, ?, ?)", ranges)
        if self.concern is not None:
            sink.put(
                "INSERT INTO concerns VALUES (?, ?)",
                [(number_of(product), place) for product in sorted(self.concern.products)],
            )
            sink.put(
                "INSERT INTO beside VALUES (?, ?)",
                [(number_of(product), place) for product in sorted(self.concern.beside)],
            )
            sink.put("INSERT INTO made VALUES (?, ?)", [(place, self.statements)])


def record_of(data: bytes) -> Json:
    """The kept record of an advisory, in the form in which the feed had it."""
    return json.loads(zlib.decompress(data).decode(errors="surrogatepass"))


def _is_plain(product: Product) -> bool:
    """Whether cpe surely accepts the entry of a product with a plain name."""
    if product.title is not None and (not isinstance(product.title, str) or len(product.title) > _LONGEST):
        return False
    return len(product.name) < _LONGEST and (product.day is None or _is_day(product.day))


@functools.lru_cache(maxsize=1 << 14)
def _is_day(text: Json) -> bool:
    try:
        return isinstance(text, str) and _DAY.fullmatch(text) is not None and date.fromisoformat(text).year > 1900
    except ValueError:
        return False


def _numbers_of(ids: Iterable[Json]) -> bytes:
    """Numbers in place of ids, as bytes; 0 for a record without one."""
    return array("Q", map(_id_number, ids)).tobytes()


def _copy_of(stamps: Sequence[tuple[Json, ...]]) -> str:
    """What two pages have alike that have the same records, each modified at the same time."""
    return hashlib.blake2b(json.dumps(stamps).encode(), digest_size=16).hexdigest()


def _id_number(id: Json) -> int:
    if not isinstance(id, str):
        return 0
    return int.from_bytes(hashlib.blake2b(id.encode(errors="surrogatepass"), digest_size=8).digest(), "little") or 1
