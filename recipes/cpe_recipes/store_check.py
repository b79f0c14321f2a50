"""Reads a whole store, and compares what store_writer.py and store_findings.py derived with what can be derived again.

This is: the data beside advisories, the products of the dictionary's names, where deprecations lead, which records of
an id count, the findings about all pages, and the products in lists. For each page it compares the number of its rows,
and the sum of their checksums, with those when they were added.
"""
from __future__ import annotations

import json
import zlib
from collections.abc import Iterator

from .advisory_states import id_of
from .completeness import CALLED
from .concern import Concern, plain_name, plain_product
from .console import Messages
from .feeds import Json
from .matches import key_of_name
from .page_rows import DerivedRows, id_and_time, in_form, record_of
from .product_index import squeeze
from .program import Program
from .statement_cache import recipes_checksum
from .store_file import StoreFile, page_and_number
from .store_findings import compute_findings, stored_findings
from .store_writer import KINDS, NO_PRODUCT, Sums, marks_of


def check(file: StoreFile, program: Program, messages: Messages) -> int:
    """Reports what is wrong, and returns how many records were read."""
    for (text,) in file.rows("PRAGMA integrity_check"):
        if text != "ok":
            messages.leave_out("the file", text)
    numbers = {
        number: (vendor, product) for number, vendor, product in file.rows("SELECT number, vendor, product FROM names")
    }
    pages = dict(file.rows("SELECT number, records FROM pages"))
    count = 0
    for place, wrong in (*_products(file, numbers), *_advisories(file, numbers), *_matches(file, numbers)):
        page, number = page_and_number(place)
        count += 1
        if page not in pages or number >= pages[page]:
            messages.leave_out(f"record {number + 1} of page {page}", "no such page is in the store")
        elif wrong:
            messages.leave_out(f"record {number + 1} of page {page}", wrong)
    for place, wrong in (*_leads(file, numbers), *_marks(file)):
        page, number = page_and_number(place)
        messages.leave_out(f"record {number + 1} of page {page}", wrong)
    _check_sums(file, messages)
    if not messages.left:
        _check_together(file, program, messages)
    for product, place in file.rows(
        "SELECT product, place FROM concerns WHERE place NOT IN (SELECT place FROM advisories)"
    ):
        messages.leave_out(f"product {product}", f"it has an advisory at {place}, which isn't there")
    return count


def _products(file: StoreFile, numbers: dict[int, tuple[str, str]]) -> Iterator[tuple[int, str]]:
    for place, product, name, odd, fault in file.each("SELECT place, product, name, odd, fault FROM products"):
        plain = plain_name(name) if name is not None and name.islower() else None
        is_right = (plain[1] if plain else None) == numbers.get(product) and (
            odd is not None or fault is not None or plain is not None
        )
        yield place, "" if is_right else "it is kept with another product"


def _advisories(file: StoreFile, numbers: dict[int, tuple[str, str]]) -> Iterator[tuple[int, str]]:
    products: dict[int, set[tuple[str, str]]] = {}
    for product, place in file.each("SELECT product, place FROM concerns"):
        products.setdefault(place, set()).add(numbers.get(product, ("", "")))
    beside: dict[int, set[tuple[str, str]]] = {}
    for product, place in file.each("SELECT product, place FROM beside"):
        beside.setdefault(place, set()).add(numbers.get(product, ("", "")))
    ranges: dict[int, set[tuple[str, tuple[str, str], int]]] = {}
    for key, place, product, number in file.each("SELECT key, place, product, range FROM ranged"):
        ranges.setdefault(place, set()).add((key, numbers.get(product, ("", "")), number))
    is_of_these = file.rows("SELECT digest FROM maker") == [(recipes_checksum(),)]
    columns_of = "place, id, modified, is_of_records, a.data, made.data, has_names, state, is_odd, is_of_systems"
    for place, id, modified, is_of_records, data, made, *columns in file.each(
        f"SELECT {columns_of} FROM advisories a LEFT JOIN made USING (place)"
    ):
        try:
            record = in_form(record_of(data), is_of_records)
        except (ValueError, zlib.error):
            yield place, "its record can't be read"
            continue
        derived = DerivedRows.of(record)
        concern = derived.concern or Concern(frozenset(), frozenset(), frozenset())
        is_right = (id, modified) == id_and_time(record) and tuple(columns) == derived.columns()
        is_right = (
            is_right and products.get(place, set()) == concern.products and ranges.get(place, set()) == derived.ranges
        )
        is_right = is_right and beside.get(place, set()) == concern.beside
        is_right = is_right and (made == derived.statements or not is_of_these)
        yield place, "" if is_right else f"what is kept beside {id_of(record) or 'it'} is of another record"


def _leads(file: StoreFile, products: dict[int, tuple[str, str]]) -> Iterator[tuple[int, str]]:
    """The places of deprecations whose products aren't kept as connected."""
    numbers = {product: number for number, product in products.items()}
    there = set(file.rows("SELECT product, successor FROM leads"))

    def number_of(name: Json) -> int | None:
        key = key_of_name(name) if isinstance(name, str) else None
        return NO_PRODUCT if key is None else numbers.get(key)

    for place, text in file.each("SELECT place, change FROM products WHERE change IS NOT NULL"):
        try:
            name, _, _, by, of = json.loads(text)
        except ValueError:
            yield place, "its deprecation can't be read"
            continue
        own = number_of(name)
        if not there.issuperset([*((own, number_of(one)) for one in by), *((number_of(one), own) for one in of)]):
            yield place, "it isn't kept where its deprecation leads"


def _marks(file: StoreFile) -> Iterator[tuple[int, str]]:
    """The advisories whose marks don't fit the other records of their id."""
    of_ids: dict[object, list[tuple[int, int, int]]] = {}
    marks = {}
    for place, id, is_of_records, has_names, is_passed, is_doubled in file.each(
        "SELECT place, id, is_of_records, has_names, is_passed, is_doubled FROM advisories"
    ):
        of_ids.setdefault(place if id is None else id, []).append((place, is_of_records, has_names))
        marks[place] = (bool(is_passed), bool(is_doubled))
    for rows in of_ids.values():
        for place, wanted in marks_of(rows).items():
            if marks[place] != wanted:
                yield place, "its marks are those of one beside other records of its id"


def _check_sums(file: StoreFile, messages: Messages) -> None:
    """Reports the pages of which a record is missing or changed."""
    sums = Sums()
    for table, columns in (
        ("products", "*"),
        ("advisories", "place, data"),
        ("matches", "place, key, modified, listed"),
    ):
        for row in file.each(f"SELECT {columns} FROM {table}"):
            sums.put(*row)
    found = {page: of_page for page, *of_page in sums.of()}
    for number, name, count, total in file.rows(
        "SELECT number, name, coalesce(count, 0), coalesce(sum, 0) FROM pages LEFT JOIN sums ON page = number"
    ):
        there = found.get(number, [0, 0])
        if there != [count, total]:
            what = (
                f"{there[0]:,} of {count:,} records that count are there"
                if there[0] != count
                else "a record isn't as it was added"
            )
            messages.leave_out(name, f"{what}; remove the store, and add the pages again")


def _check_together(file: StoreFile, program: Program, messages: Messages) -> None:
    for number, product, words in file.rows("SELECT number, product, squeezed FROM names"):
        if squeeze(product) != words:
            messages.leave_out(f"product {number}", "it is kept with other words")
    unsettled = {kind for (kind,) in file.rows("SELECT kind FROM unsettled")}
    for kind in KINDS:
        if kind not in unsettled and list(stored_findings(file, kind)) != json.loads(
            json.dumps(compute_findings(file, program, kind))
        ):
            messages.leave_out(CALLED[kind], "what is kept of their pages together is of other pages")


def _matches(file: StoreFile, numbers: dict[int, tuple[str, str]]) -> Iterator[tuple[int, str]]:
    """The matches whose list can't be read, or whose listed products aren't kept."""
    there: dict[str, set[int]] = {}
    for product, key in file.each("SELECT product, key FROM listing"):
        there.setdefault(key, set()).add(product)
    of_products = {product: number for number, product in numbers.items()}
    for place, key, listed in file.each("SELECT place, key, listed FROM matches"):
        try:
            products = set(map(plain_product, json.loads(listed)))
        except (ValueError, TypeError, AttributeError):
            yield place, "its list can't be read"
            continue
        wanted = {NO_PRODUCT if one is None else of_products.get(one) for one in products}
        yield place, "" if wanted <= there.get(key, set()) else "it isn't kept which products it lists"
