"""Adds pages of feeds to a store (store_file.py), each in one transaction.

Of several records with one id the last modified counts, as in latest_records.py and dictionary.py. So a page of changes
replaces older records, and an older page changes nothing. Beside each record the store keeps the products that it
concerns, by which a scan finds it, and its statements (page_rows.py). Every scan reads the records that aren't plain
(concern.py).
"""
from __future__ import annotations

import json
import os
import zlib
from array import array
from collections import Counter
from collections.abc import Callable, Iterable, Iterator, Sequence
from datetime import datetime, timezone

from .concern import concern_of, products_named, ranges_of
from .console import Messages
from .dictionary import NO_FORM, Change
from .feeds import ADVISORIES, Json, Part, PlacedRecord
from .latest_records import time_of
from .near_products import Product as Key
from .page_rows import (
    AdvisoryRow,
    DerivedRows,
    MatchRow,
    PageRows,
    ProductRow,
    id_and_time,
    in_form,
    in_order,
    record_of,
)
from .product_index import squeeze
from .statement_cache import recipes_checksum
from .store_file import StoreFile, page_and_number, place_of

KINDS = ("products", "vulnerabilities", "matchStrings")
# The kind of a fault of a file. The kind of a record's fault is that of its page.
FILES = "files"
# The number for a product that isn't known.
NO_PRODUCT = 0


class Sums:
    """How many records of each page count, and the sum of a checksum of each, so that a lost or changed record is
    noticed."""

    def __init__(self) -> None:
        self._counts: Counter[int] = Counter()
        self._sums: Counter[int] = Counter()

    def put(self, *row: object, times: int = 1) -> None:
        """Adds a row, whose first value is its place."""
        page, _ = page_and_number(row[0])  # type: ignore[arg-type]
        self._counts[page] += times
        self._sums[page] += times * number_of_row(row)

    def drop(self, *row: object) -> None:
        self.put(*row, times=-1)

    def of(self) -> Iterator[tuple[int, int, int]]:
        """The pages with their counts and sums."""
        return ((page, count, self._sums[page]) for page, count in sorted(self._counts.items()))

    def write(self, file: StoreFile) -> None:
        """Writes the changes of the sums."""
        edit = "INSERT INTO sums VALUES (?, ?, ?) ON CONFLICT (page) DO UPDATE SET count = count + excluded.count, sum = sum + excluded.sum"
        file.put(edit, self.of())
        self._counts.clear()
        self._sums.clear()


def number_of_row(row: Sequence[object]) -> int:
    """A checksum of the kept row at a place."""
    place, last = row[0], row[-1]
    if isinstance(place, int) and isinstance(last, bytes):
        return zlib.crc32(last, place & 0xFFFFFFFF)
    return zlib.crc32(repr(row).encode(errors="surrogatepass"))


class StoreWriter:
    """Adds pages one after the other."""

    def __init__(self, file: StoreFile, messages: Messages) -> None:
        self._file, self._messages = file, messages
        self._numbers: dict[Key, int] = {}
        self._new: dict[Key, int] = {}
        self._part, self._in_part = "", 0
        self._run = 0
        self._sums = Sums()
        self._place: tuple[str, str] | None = None
        self._is_faulty = False
        self._faulty: set[str] = set()
        self.there = 0

    def begin(self, paths: Iterable[str]) -> None:
        """Notes that a run begins to add these files. If it is stopped, each scan reports that until all these files
        are added."""
        with self._file.write_transaction():
            self._run = (self._file.one("SELECT coalesce(max(number), 0) FROM runs") or (0,))[0] + 1
            self._file.put(
                "INSERT INTO runs VALUES (?, ?, ?)", [(self._run, _now(), json.dumps(list(map(_path, paths))))]
            )

    def finish(self, paths: Iterable[str]) -> None:
        """Notes that these files are added, and ends each earlier run that had no other files."""
        ended = set(map(_path, paths))
        with self._file.write_transaction():
            runs = self._file.rows("SELECT number, paths FROM runs WHERE paths IS NOT NULL")
            whole_ones = [(number,) for number, text in runs if ended.issuperset(json.loads(text))]
            self._file.put("UPDATE runs SET paths = NULL WHERE number = ?", whole_ones)
            # (a file that can be read now has no faulty members)
            good = ((FILES, path) for path in ended - self._faulty)
            self._file.put("DELETE FROM faults WHERE kind = ? AND key = ?", good)

    def forget(self, paths: Iterable[str]) -> set[str]:
        """Forgets that these files could not be read or added, and returns those for which that was known."""
        gone = set(map(_path, paths))
        with self._file.write_transaction():
            known = gone.intersection(
                key for (key,) in self._file.rows("SELECT key FROM faults WHERE kind = ?", (FILES,))
            )
            self._file.put("DELETE FROM faults WHERE kind = ? AND key = ?", ((FILES, path) for path in gone))
            for number, text in self._file.rows("SELECT number, paths FROM runs WHERE paths IS NOT NULL"):
                left = [path for path in json.loads(text) if path not in gone]
                known |= gone.intersection(json.loads(text))
                self._file.put(
                    "UPDATE runs SET paths = ? WHERE number = ?", [(json.dumps(left) if left else None, number)]
                )
        return known

    def is_there(self, part: Part) -> bool:
        """Whether a file or member with these bytes was added, whole."""
        return self._file.one("SELECT 1 FROM parts WHERE digest = ?", (part.digest,)) is not None

    def is_passed(self, part: Part) -> bool:
        """Begins a file or member, and returns whether its bytes were added before, whole."""
        self._end_part()
        self._part, self._in_part = part.digest, 0
        self._place, self._is_faulty = (_path(part.path), part.place), False
        found = self.is_there(part)
        if found:
            self.there += 1
            with self._file.write_transaction():
                self._give(
                    self._file.rows(
                        "SELECT number, kind FROM pages WHERE key BETWEEN ? AND ?", (f"{self._part}#", f"{self._part}$")
                    )
                )
        return found

    def _give(self, pages: Iterable[tuple[int, str]]) -> None:
        """Notes that this run has these pages too."""
        for number, kind in pages:
            if self._file.one("SELECT 1 FROM given WHERE run = ? AND page = ?", (self._run, number)) is None:
                self._file.put("INSERT INTO given VALUES (?, ?)", [(self._run, number)])
                self._file.put("INSERT OR IGNORE INTO unsettled VALUES (?)", [(kind,)])

    def fault(self, path: str | None, place: str, reason: str) -> None:
        """Notes that a file or member can't be read, or not to its end."""
        if self._place == (_path(path), place):
            self._is_faulty = True
        self._faulty.add(_path(path))
        self._file.put(
            "INSERT OR REPLACE INTO faults VALUES (?, ?, ?, ?, ?)", [(FILES, _path(path), place, reason, "null")]
        )

    def _end_part(self) -> None:
        if self._part and not self._is_faulty:
            self._file.put("INSERT OR IGNORE INTO parts VALUES (?)", [(self._part,)])
            self._file.put(
                "DELETE FROM faults WHERE kind = ? AND key = ? AND place = ?",
                [(FILES, *self._place)] if self._place else [],
            )

    def end(self) -> None:
        """Notes that the last file was read to its end."""
        self._end_part()
        self._part = ""

    def put(self, page: PageRows) -> int | None:
        """Adds a page, whole or nothing of it, and returns how many of its records are new or later; None if the page
        is known, or was left out."""
        key = f"{self._part}#{self._in_part}"
        self._in_part += 1
        if page.fault:
            self.fault(self._place[0] if self._place else None, page.name, page.fault)
            self._messages.leave_out(page.name, page.fault)
            return None
        with self._file.write_transaction():
            known = self._file.rows("SELECT number, kind FROM pages WHERE key = ?", (key,))
            if known:
                self.there += 1
                self._give(known)
                return None
            self._read_numbers()
            changed = self._put_page(page, key)
            self._put_numbers()
            self._sums.write(self._file)
        self._numbers.update(self._new)
        return changed

    def _put_page(self, page: PageRows, key: str) -> int:
        counts = (page.span.start, page.span.said, page.span.total) if page.span else (None, None, None)
        number = (self._file.one("SELECT max(number) FROM pages") or (None,))[0]
        number = 1 if number is None else number + 1
        self._sums = Sums()
        row = (number, key, page.name, page.kind, page.is_of_records, _now(), page.count, *counts, page.ids, page.copy)
        self._file.put("INSERT INTO pages VALUES (?, ?, ?, ?, ?, ?, ?, ?, ?, ?, ?, ?)", [row])
        self._give([(number, page.kind)])
        putting = {"products": self._put_products, ADVISORIES: self._put_advisories, "matchStrings": self._put_matches}
        return putting[page.kind](page, number)

    def derive_again(self) -> None:
        """Derives again all that is kept beside the records of advisories, if other recipes derived it."""
        if is_of_these_recipes(self._file):
            return
        with self._file.write_transaction():
            # (another run may have done it meanwhile)
            if is_of_these_recipes(self._file):
                return
            self._read_numbers()
            for table in ("maker", "concerns", "beside", "ranged", "made"):
                self._file.put(f"DELETE FROM {table} WHERE ?", [(True,)])
            edit = "UPDATE advisories SET id = ?, modified = ?, has_names = ?, state = ?, is_odd = ?, is_of_systems = ? WHERE place = ?"
            for (place,) in self._file.rows("SELECT place FROM advisories"):
                data, is_of_records = self._file.rows(
                    "SELECT data, is_of_records FROM advisories WHERE place = ?", (place,)
                )[0]
                record = in_form(self._file.read(record_of, data), is_of_records)
                derived = DerivedRows.of(record)
                self._file.put(edit, [(*id_and_time(record), *derived.columns(), place)])
                derived.put(self._file, place, self._number)
            self._put_numbers()
            self._mark_again()
            self._file.put("INSERT INTO maker VALUES (?)", [(recipes_checksum(),)])

    def _mark_again(self) -> None:
        self._file.put("UPDATE advisories SET is_passed = ?, is_doubled = ?", [(False, False)])
        for (id,) in self._file.rows("SELECT id FROM advisories WHERE id IS NOT NULL GROUP BY id HAVING count(*) > 1"):
            _mark(self._file, id)

    def _put_numbers(self) -> None:
        names = [(number, *product, squeeze(product[1])) for product, number in self._new.items()]
        self._file.put("INSERT INTO names VALUES (?, ?, ?, ?)", names)

    def _read_numbers(self) -> None:
        """Reads the numbers of products again, if another run has added some."""
        self._new.clear()
        if (self._file.one("SELECT count(*) FROM names") or (0,))[0] != len(self._numbers):
            rows = self._file.each("SELECT number, vendor, product FROM names")
            self._numbers = {(vendor, product): number for number, vendor, product in rows}

    def _number(self, product: Key) -> int:
        """The number of a product; a new one if it has none yet."""
        found = self._numbers.get(product) or self._new.get(product)
        if found is None:
            found = self._new[product] = len(self._numbers) + len(self._new) + 1
        return found

    def _number_of(self, key: Key | None) -> int:
        return NO_PRODUCT if key is None else self._number(key)

    def _put_products(self, page: PageRows, page_number: int) -> int:
        latest = _LatestProducts(self._file, self._sums, page_number, len(self._numbers))
        leads: dict[tuple[int, int], None] = {}
        for one in page.records:
            assert isinstance(one, ProductRow)
            number, *columns = one[: -len(("key", "leads"))]
            latest.put((place_of(page_number, number), self._number_of(one.key), *columns))
            leads.update(((self._number_of(old), self._number_of(new)), None) for old, new in one.leads)
        self._file.put("INSERT OR IGNORE INTO leads VALUES (?, ?)", leads)
        return latest.end()

    def _put_advisories(self, page: PageRows, page_number: int) -> int:
        latest = _LatestAdvisories(self._file, self._sums, page_number, page.is_of_records, self._number)
        for one in page.records:
            assert isinstance(one, AdvisoryRow)
            latest.put(one)
        return latest.end()

    def _put_matches(self, page: PageRows, page_number: int) -> int:
        changed = 0
        found: dict[tuple[int, str], None] = {}
        faulty = {key for (key,) in self._file.rows("SELECT DISTINCT key FROM faults WHERE kind = ?", (page.kind,))}
        for one in page.records:
            assert isinstance(one, MatchRow)
            if one.listed is None:
                self._put_faulty_match(one)
                faulty.add(one.id)
                continue
            if one.id in faulty:
                self._drop_faults(one.id, one.modified)
            found.update(((self._number_of(product), one.id), None) for product in one.products)
            changed += self._put_match(place_of(page_number, one.number), one.id, one.modified, one.listed)
        self._file.put("INSERT OR IGNORE INTO listing VALUES (?, ?)", found)
        return changed

    def _put_faulty_match(self, match: MatchRow) -> None:
        """Reports a match that can't be read, and keeps the fault, unless there is a later list."""
        self._messages.leave_out(match.id, NO_FORM, match.place)
        known = self._file.rows("SELECT modified FROM matches WHERE key = ?", (match.id,))
        if match.modified == "null" or not any(_time(match.modified) < _time(one) for (one,) in known):
            row = ("matchStrings", match.id, match.place, NO_FORM, match.modified)
            self._file.put("INSERT OR REPLACE INTO faults VALUES (?, ?, ?, ?, ?)", [row])

    def _drop_faults(self, key: str, modified: str) -> None:
        """Removes the faults of a match, if they aren't later than this time."""
        rows = self._file.rows("SELECT place, modified FROM faults WHERE kind = 'matchStrings' AND key = ?", (key,))
        older = [(key, place) for place, before in rows if _time(before) <= _time(modified)]
        self._file.put("DELETE FROM faults WHERE kind = 'matchStrings' AND key = ? AND place = ?", older)

    def _put_match(self, place: int, key: str, modified: str, listed: str) -> bool:
        """Adds the list of a match, unless a later one or the same is kept."""
        known = self._file.rows("SELECT place, modified, listed FROM matches WHERE key = ?", (key,))
        if known:
            now, before = _time(modified), _time(known[0][1])
            if now < before or now == before and any(one[2] == listed for one in known):
                return False
            if now > before:
                self._file.put("DELETE FROM matches WHERE place = ?", [one[:1] for one in known])
                for there, time, names in known:
                    self._sums.drop(there, key, time, names)
        self._file.put("INSERT INTO matches VALUES (?, ?, ?, ?)", [(place, key, modified, listed)])
        self._sums.put(place, key, modified, listed)
        return True


def is_of_these_recipes(file: StoreFile) -> bool:
    """Whether these recipes derived what is kept beside records."""
    return file.rows("SELECT digest FROM maker") == [(recipes_checksum(),)]


class _LatestProducts:
    """The products of a page that count, and replace older ones (as in dictionary.Products)."""

    def __init__(self, file: StoreFile, sums: Sums, page_number: int, last_number: int) -> None:
        self._file, self._sums, self._first = file, sums, place_of(page_number, 0)
        # (a product with a later number has no rows yet)
        self._last_number = last_number
        # (by name: the rows that were kept before, and those of this page)
        self._known: dict[str, list[tuple]] = {}
        self._dropped: list[tuple] = []
        self._nameless: list[tuple] = []

    def put(self, row: tuple) -> None:
        name, modified = row[2], row[3]
        if name is None:
            self._nameless.append(row)
            return
        known = self._known.get(name)
        if known is None:
            known = self._known[name] = self._there(row[1], name)
        if known and known[0][3] != modified:
            if _time(modified) < _time(known[0][3]):
                return
            self._dropped += [one for one in known if one[0] < self._first]
            known.clear()
        if not any(one[7] == row[7] for one in known):
            known.append(row)

    def _there(self, product: int, name: str) -> list[tuple]:
        if product > self._last_number:
            return []
        return self._file.rows("SELECT * FROM products WHERE product = ? AND name = ?", (product, name))

    def end(self) -> int:
        """Writes the products, and returns how many are new."""
        new = [*self._nameless, *(one for of_name in self._known.values() for one in of_name if one[0] >= self._first)]
        self._file.put("DELETE FROM products WHERE place = ?", (one[:1] for one in self._dropped))
        self._file.put("INSERT INTO products VALUES (?, ?, ?, ?, ?, ?, ?, ?, ?, ?)", new)
        for one in self._dropped:
            self._sums.drop(*one)
        for one in new:
            self._sums.put(*one)
        return len(new)


class _RowBuffer:
    """Rows that are kept until many can be written at once."""

    def __init__(self) -> None:
        self._rows: dict[str, list[Sequence[object]]] = {}

    def put(self, query: str, rows: Iterable[Sequence[object]]) -> None:
        self._rows.setdefault(query, []).extend(rows)

    def write(self, file: StoreFile) -> None:
        for query, rows in self._rows.items():
            file.put(query, rows)
        self._rows.clear()


class _LatestAdvisories:
    """The advisories of a page that count, and replace older ones (as in latest_records.py)."""

    def __init__(
        self, file: StoreFile, sums: Sums, page_number: int, is_of_records: bool, number_of: Callable[[Key], int]
    ) -> None:
        self._file, self._sums, self._page_number, self._is_of_records, self._number_of = (
            file,
            sums,
            page_number,
            is_of_records,
            number_of,
        )
        self._changed = 0
        # (most ids have one record, and are written at the end of the page)
        self._new, self._new_ids = _RowBuffer(), set[str]()

    def put(self, one: AdvisoryRow) -> None:
        id, modified = one.id, one.modified
        if id is None:
            self._insert(one)
            return
        if id in self._new_ids:
            self._write()
        there = self._file.rows("SELECT place, modified, data, is_of_records FROM advisories WHERE id = ?", (id,))
        known = [row[:3] for row in there if bool(row[3]) == self._is_of_records]
        if known:
            now, before = _time(modified), _time(known[0][1])
            if (
                now < before
                or now == before
                and any(self._form_of(data) == self._form_of(one.data) for _, _, data in known)
            ):
                return
            if now > before:
                self._delete(known)
        for _, _, data, is_of_records in there:
            self._note_replaced(in_form(self._file.read(record_of, data), is_of_records))
        self._insert(one)
        if there:
            self._write()
            _mark(self._file, id)
        else:
            self._new_ids.add(id)

    def _write(self) -> None:
        self._new.write(self._file)
        self._new_ids.clear()

    def _form_of(self, data: bytes) -> Json:
        return in_form(self._file.read(record_of, data), self._is_of_records)

    def _note_replaced(self, record: Json) -> None:
        """Notes the products of a record that this page replaces or supersedes, so that verdicts that depend on it are
        decided again. The match feed may list names of other products for its ranges; these products are noted too."""
        products = {self._number_of(one) if one else NO_PRODUCT for one in in_order(products_named(record))}
        keys = {key for key, _, _ in ranges_of(record)}
        products.update(
            number for (number,) in self._file.rows_of("SELECT DISTINCT product FROM listing WHERE key IN {}", keys)
        )
        self._file.put(
            "INSERT OR IGNORE INTO gone VALUES (?, ?)", ((self._page_number, number) for number in sorted(products))
        )

    def _insert(self, one: AdvisoryRow) -> None:
        place = place_of(self._page_number, one.number)
        row = (place, one.id, self._is_of_records, one.modified, *one.derived.columns(), False, False, one.data)
        self._new.put("INSERT INTO advisories VALUES (?, ?, ?, ?, ?, ?, ?, ?, ?, ?, ?)", [row])
        one.derived.put(self._new, place, self._number_of)
        self._sums.put(place, one.data)
        self._changed += 1

    def _delete(self, known: Iterable[tuple[int, str, bytes]]) -> None:
        for place, _, data in known:
            record = self._form_of(data)
            self._sums.drop(place, data)
            concern = concern_of(record)
            if concern is not None:
                products = [(self._number_of(product), place) for product in sorted(concern.products)]
                self._file.put("DELETE FROM concerns WHERE product = ? AND place = ?", products)
                beside = [(self._number_of(product), place) for product in sorted(concern.beside)]
                self._file.put("DELETE FROM beside WHERE product = ? AND place = ?", beside)
            self._file.put(
                "DELETE FROM ranged WHERE key = ? AND place = ?",
                sorted({(key, place) for key, _, _ in ranges_of(record)}),
            )
            for table in ("advisories", "made"):
                self._file.put(f"DELETE FROM {table} WHERE place = ?", [(place,)])

    def end(self) -> int:
        """Writes the advisories, and returns how many are new."""
        self._write()
        return self._changed


def _mark(file: StoreFile, id: str) -> None:
    """Marks the records of an id that the other feed supersedes, and those of which it isn't known which is the
    latest."""
    rows = file.rows("SELECT place, is_of_records, has_names FROM advisories WHERE id = ?", (id,))
    if len(rows) > 1:
        edits = ((*marks, place) for place, marks in marks_of(rows).items())
        file.put("UPDATE advisories SET is_passed = ?, is_doubled = ? WHERE place = ?", edits)


def marks_of(rows: Sequence[tuple[int, int, int]]) -> dict[int, tuple[bool, bool]]:
    """For the places of all records of an id: whether the other feed supersedes it, and whether it isn't known which is
    the latest. Each row has a place, whether it is a CVE record, and whether it has names."""
    nvd, records = ([row for row in rows if bool(row[1]) == is_of_records] for is_of_records in (False, True))
    passed: Sequence[tuple[int, int, int]] = []
    if nvd and records:
        is_analysed, has_names = any(row[2] for row in nvd), any(row[2] for row in records)
        passed = records if is_analysed or not has_names else nvd
    is_doubled = len(rows) - len(passed) > 1
    return {row[0]: (row in passed, is_doubled) for row in rows}


def change_of(text: str, placed: PlacedRecord) -> Change:
    """The kept deprecation of a product."""
    name, is_old, date, by, of = json.loads(text)
    return Change(placed, name, is_old, date, tuple(by), tuple(of))


def _path(path: str | None) -> str:
    return "" if path is None else os.path.abspath(path)


def _now() -> str:
    return datetime.now(timezone.utc).isoformat(timespec="seconds")


def _time(modified: str) -> datetime:
    return time_of(json.loads(modified))


def ids_of(data: bytes) -> Iterator[int | None]:
    """The numbers that replace the ids of a page's records."""
    numbers = array("Q")
    numbers.frombytes(data)
    return (number or None for number in numbers)
