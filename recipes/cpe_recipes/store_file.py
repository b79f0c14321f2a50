"""The file of a store, by SQLite of Python's standard library: its tables, its version, its transactions, and its
faults in words.

While a run adds to the store, readers see the state at their beginning (a write-ahead log). Unfinished work of a killed
run isn't visible.
"""
from __future__ import annotations

import contextlib
import os
import re
import sqlite3
import zlib
from collections.abc import Callable, Iterable, Iterator, Sequence
from pathlib import Path
from typing import TypeVar
from urllib.parse import quote

from .console import Fatal, describe_fault

Kind, Read = TypeVar("Kind"), TypeVar("Read")

FILE = "feeds.sqlite"
# (increase it if the tables change, or the rows of products and matches; what is derived from advisories is derived
# again anyway)
VERSION = 4
ADD_AGAIN = "run store.py add --store FOLDER as one who can write there"
# This number in SQLite's header marks the file as a store.
_APPLICATION = 0x43504553
_SECONDS_TO_WAIT = 10
# Kilobytes of the file that a run keeps in memory. A scan reads most of the file only once.
_WRITER_CACHE, _READER_CACHE = 65_536, 8_192
# A query over many values is split into queries over this many.
_AT_ONCE = 500
# SQLite can't keep half a surrogate pair, which JSON and names of files can have; it is kept as its number after this
# sign.
_SIGN = "\x1a"
_KEPT_BY_NUMBER = re.compile(f"[{_SIGN}\ud800-\udfff]")
_NUMBER = re.compile(f"{_SIGN}([0-9a-f]{{4}})")
# The place of a record: the number of its page, and in the lower bits its number in the page, from 0.
_BITS = 24

_TABLES = """
CREATE TABLE pages (
    number INTEGER PRIMARY KEY, key TEXT NOT NULL UNIQUE, name TEXT NOT NULL, kind TEXT NOT NULL, is_of_records INTEGER NOT NULL,
    added TEXT NOT NULL, records INTEGER NOT NULL, start INTEGER, said INTEGER, total INTEGER, ids BLOB, copy TEXT
);
CREATE TABLE runs (number INTEGER PRIMARY KEY, began TEXT NOT NULL, paths TEXT);
CREATE TABLE given (run INTEGER NOT NULL, page INTEGER NOT NULL, PRIMARY KEY (run, page)) WITHOUT ROWID;
CREATE TABLE sums (page INTEGER PRIMARY KEY, count INTEGER NOT NULL, sum INTEGER NOT NULL);
CREATE TABLE parts (digest TEXT PRIMARY KEY) WITHOUT ROWID;
CREATE TABLE faults (
    kind TEXT NOT NULL, key TEXT NOT NULL, place TEXT NOT NULL, reason TEXT NOT NULL, modified TEXT NOT NULL, PRIMARY KEY (kind, key, place)
) WITHOUT ROWID;
CREATE TABLE names (
    number INTEGER PRIMARY KEY, vendor TEXT NOT NULL, product TEXT NOT NULL, squeezed TEXT NOT NULL, UNIQUE (vendor, product)
);
CREATE INDEX names_by_product ON names (product);
CREATE INDEX names_by_squeezed ON names (squeezed);
CREATE TABLE products (
    place INTEGER PRIMARY KEY, product INTEGER NOT NULL, name TEXT, modified TEXT NOT NULL, title TEXT, day TEXT, id TEXT, change TEXT,
    odd TEXT, fault TEXT
);
CREATE INDEX products_by_name ON products (product, name);
CREATE INDEX products_with_change ON products (place) WHERE change IS NOT NULL;
CREATE INDEX odd_products ON products (place) WHERE odd IS NOT NULL OR fault IS NOT NULL;
CREATE TABLE leads (product INTEGER NOT NULL, successor INTEGER NOT NULL, PRIMARY KEY (product, successor)) WITHOUT ROWID;
CREATE INDEX leads_back ON leads (successor, product);
CREATE TABLE advisories (
    place INTEGER PRIMARY KEY, id TEXT, is_of_records INTEGER NOT NULL, modified TEXT NOT NULL, has_names INTEGER NOT NULL, state TEXT,
    is_odd INTEGER NOT NULL, is_of_systems INTEGER NOT NULL, is_passed INTEGER NOT NULL, is_doubled INTEGER NOT NULL, data BLOB NOT NULL
);
CREATE INDEX advisories_by_id ON advisories (id);
CREATE INDEX advisories_in_order ON advisories (is_passed, state, place, id, is_of_systems, is_odd, is_doubled);
CREATE TABLE made (place INTEGER PRIMARY KEY, data BLOB NOT NULL);
CREATE TABLE maker (digest TEXT NOT NULL);
CREATE TABLE concerns (product INTEGER NOT NULL, place INTEGER NOT NULL, PRIMARY KEY (product, place)) WITHOUT ROWID;
CREATE TABLE beside (product INTEGER NOT NULL, place INTEGER NOT NULL, PRIMARY KEY (product, place)) WITHOUT ROWID;
CREATE TABLE gone (page INTEGER NOT NULL, product INTEGER NOT NULL, PRIMARY KEY (page, product)) WITHOUT ROWID;
CREATE TABLE matches (place INTEGER PRIMARY KEY, key TEXT NOT NULL, modified TEXT NOT NULL, listed TEXT NOT NULL);
CREATE INDEX matches_by_key ON matches (key);
CREATE TABLE ranged (
    key TEXT NOT NULL, place INTEGER NOT NULL, product INTEGER NOT NULL, range INTEGER NOT NULL, PRIMARY KEY (key, place, product, range)
) WITHOUT ROWID;
CREATE TABLE listing (product INTEGER NOT NULL, key TEXT NOT NULL, PRIMARY KEY (product, key)) WITHOUT ROWID;
CREATE INDEX listing_by_key ON listing (key);
CREATE TABLE unsettled (kind TEXT PRIMARY KEY) WITHOUT ROWID;
CREATE TABLE told (kind TEXT NOT NULL, number INTEGER NOT NULL, text TEXT NOT NULL, PRIMARY KEY (kind, number)) WITHOUT ROWID;
"""


def place_of(page: int, number: int) -> int:
    """The place of a record of a page, which is after those of all earlier pages."""
    return page << _BITS | number


def page_and_number(place: int) -> tuple[int, int]:
    return place >> _BITS, place & (1 << _BITS) - 1


class StoreFile:
    """The file of a store, in a folder. Fatal if it can't be read or written, is no store, or has another version."""

    def __init__(self, folder: str, is_made: bool = False) -> None:
        self.folder = folder
        self._path = Path(folder) / FILE
        if not is_made and not self._path.is_file():
            raise Fatal(f"{folder}: no store is there; store.py add makes one")
        if is_made:
            try:
                Path(folder).mkdir(parents=True, exist_ok=True)
            except OSError as fault:
                raise Fatal(f"{folder}: no store can be made there: {describe_fault(fault)}") from fault
        # (the state of the file before a transaction in which writers can't be noticed)
        self._before: tuple[int, int] | None = None
        with self._translate_faults():
            self._connection = self._connect(is_made)
            self._connection.text_factory = _read_text
            try:
                self._open(is_made)
            except BaseException:
                self._connection.close()
                raise

    def _connect(self, is_made: bool) -> sqlite3.Connection:
        """The opened file. If the folder can't be written, the file is opened for reading only."""
        if is_made or os.access(self.folder, os.W_OK, effective_ids=os.access in os.supports_effective_ids):
            return sqlite3.connect(self._path, timeout=_SECONDS_TO_WAIT, isolation_level=None)
        uri = f"file:{quote(os.path.abspath(self._path))}?mode=ro"
        connection = sqlite3.connect(uri, timeout=_SECONDS_TO_WAIT, isolation_level=None, uri=True)
        try:
            connection.execute("SELECT count(*) FROM sqlite_master").fetchone()
        except sqlite3.OperationalError as fault:
            # (this fails if nobody writes to the store; then the file has everything)
            connection.close()
            if os.path.exists(f"{self._path}-wal") and os.path.getsize(f"{self._path}-wal"):
                raise Fatal(
                    f"{self.folder}: it can't be written, and a run that added pages was stopped; {ADD_AGAIN}"
                ) from fault
            self._before = self._state()
            connection = sqlite3.connect(f"{uri}&immutable=1", isolation_level=None, uri=True)
        return connection

    def _state(self) -> tuple[int, int]:
        found = os.stat(self._path)
        return found.st_mtime_ns, found.st_size

    def _open(self, is_made: bool) -> None:
        pragma = {
            name: self._connection.execute(f"PRAGMA {name}").fetchone()[0]
            for name in ("application_id", "user_version")
        }
        if self._is_empty() and is_made and pragma["application_id"] in (0, _APPLICATION):
            self._connection.execute("PRAGMA journal_mode = WAL")
            self._make()
        elif self._is_empty():
            raise Fatal(f"{self.folder}: the store has no page yet; store.py add adds them")
        elif pragma["application_id"] != _APPLICATION:
            raise Fatal(f"{self._path}: it is no store of these recipes")
        elif pragma["user_version"] != VERSION:
            version = pragma["user_version"]
            raise Fatal(
                f"{self.folder}: a store of version {version}, and {VERSION} is what is read: remove it, and add the pages again"
            )
        # (if the machine loses its power, the last commits may be lost; the file stays whole)
        self._connection.execute("PRAGMA synchronous = NORMAL")
        self._connection.execute(f"PRAGMA cache_size = -{_WRITER_CACHE if is_made else _READER_CACHE}")

    def _make(self) -> None:
        """Creates all tables, or none."""
        with self.write_transaction():
            # (another run may have created them meanwhile)
            if self._is_empty():
                for statement in filter(str.strip, _TABLES.split(";")):
                    self._connection.execute(statement)
                self._connection.execute(f"PRAGMA application_id = {_APPLICATION}")
                self._connection.execute(f"PRAGMA user_version = {VERSION}")

    def _is_empty(self) -> bool:
        return not self._connection.execute("SELECT count(*) FROM sqlite_master").fetchone()[0]

    def close(self) -> None:
        with self._translate_faults():
            self._connection.close()

    @contextlib.contextmanager
    def read_transaction(self) -> Iterator[None]:
        """Everything that is read within is of one moment."""
        with self._translate_faults():
            self._connection.execute("BEGIN")
            try:
                yield
            finally:
                self._connection.execute("ROLLBACK")
        if self._before not in (None, self._state()):
            raise Fatal(f"{self.folder}: another run added pages meanwhile; scan when that is done")

    @contextlib.contextmanager
    def write_transaction(self) -> Iterator[None]:
        """Everything that is written within is kept at the end, or nothing of it."""
        with self._translate_faults():
            self._connection.execute("BEGIN IMMEDIATE")
            try:
                yield
                self._connection.execute("COMMIT")
            except BaseException:
                # (SQLite may have ended the transaction by itself)
                with contextlib.suppress(sqlite3.Error):
                    self._connection.execute("ROLLBACK")
                raise

    def rows(self, query: str, values: Sequence[object] = ()) -> list[tuple]:
        """All rows of a query."""
        with self._translate_faults():
            return self._connection.execute(query, _encode(values)).fetchall()

    def one(self, query: str, values: Sequence[object] = ()) -> tuple | None:
        with self._translate_faults():
            return self._connection.execute(query, _encode(values)).fetchone()

    def each(self, query: str, values: Sequence[object] = ()) -> Iterator[tuple]:
        """The rows of a query, one at a time."""
        with self._translate_faults():
            yield from self._connection.execute(query, _encode(values))

    def rows_of(self, query: str, values: Iterable[object]) -> list[tuple]:
        """The rows of a query for all these values, which replace `{}`."""
        found, all_values = [], list(values)
        for first in range(0, len(all_values), _AT_ONCE):
            some = all_values[first : first + _AT_ONCE]
            found += self.rows(query.replace("{}", f"({','.join('?' * len(some))})"), some)
        return found

    def put(self, query: str, rows: Iterable[Sequence[object]]) -> None:
        """Executes an edit once for each of these rows."""
        with self._translate_faults():
            self._connection.executemany(query, map(_encode, rows))

    def read(self, reader: Callable[[Kind], Read], data: Kind) -> Read:
        """Decodes kept data. Fatal if it can't be decoded."""
        try:
            return reader(data)
        except (ValueError, TypeError, KeyError, zlib.error) as fault:
            raise Fatal(f"{self._path}: {_WORDS[sqlite3.SQLITE_CORRUPT]} ({fault})") from fault

    @contextlib.contextmanager
    def _translate_faults(self) -> Iterator[None]:
        """Raises faults of SQLite as Fatal, in words."""
        try:
            yield
        except sqlite3.Error as fault:
            raise Fatal(f"{self._path}: {_words(fault)}") from fault
        except (UnicodeError, OverflowError) as fault:
            raise Fatal(f"{self._path}: the store has, or is asked for, what can not be kept: {fault}") from fault


def _encode(values: Sequence[object]) -> Sequence[object]:
    """Values in the form in which SQLite keeps them."""
    texts = "".join([one for one in values if isinstance(one, str)])
    if texts.isascii() and _SIGN not in texts:
        return values
    return [
        _KEPT_BY_NUMBER.sub(lambda found: f"{_SIGN}{ord(found[0]):04x}", one) if isinstance(one, str) else one
        for one in values
    ]


def _read_text(data: bytes) -> str:
    text = data.decode()
    return _NUMBER.sub(lambda found: chr(int(found[1], 16)), text) if _SIGN in text else text


# By SQLite's codes.
_WORDS = {
    sqlite3.SQLITE_BUSY: "another run is writing to the store; nothing was changed, try it again when that is done",
    sqlite3.SQLITE_LOCKED: "another run is writing to the store; nothing was changed, try it again when that is done",
    sqlite3.SQLITE_FULL: "the disk is full; the pages that were added before are kept",
    sqlite3.SQLITE_CORRUPT: "the store is torn: remove it, and add the pages again",
    sqlite3.SQLITE_NOTADB: "it is no store of these recipes, or torn: remove it, and add the pages again",
    sqlite3.SQLITE_IOERR: "it can not be read or written, such as where a disk is full or broken; the pages that were added before are kept",
    sqlite3.SQLITE_READONLY: "the store can not be written",
    sqlite3.SQLITE_CANTOPEN: "the store can not be opened, or not written",
}


def _words(fault: sqlite3.Error) -> str:
    code = getattr(fault, "sqlite_errorcode", None)
    told = _WORDS.get(code & 0xFF, "") if isinstance(code, int) else ""
    return f"{told} ({fault})" if told else f"the store can not be used: {fault}"
