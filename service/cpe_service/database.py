"""The database: what was accepted, the verdicts, and which verdicts changed when.

Everything that was accepted is an edit: a list that was put or deleted, a feed, or a table of settings. The numbers of
edits grow. The ground is everything except lists. A machine has the edit of its list (`put`). Its verdicts have two
edits: that of their list (`judged_put`), and that of their ground (`judged_ground`). The machine waits while one of
these is older than the current one. So the database always has the remaining work, and a restarted process continues
with it. If judging had no result, the shown verdicts are those of two earlier edits (`result_put`, `result_ground`).
"""
from __future__ import annotations

import contextlib
import fcntl
import sqlite3
import time
import zlib
from collections.abc import Iterator
from pathlib import Path
from typing import IO

NAME, TURN = "service.db", "turn"
VERSION = 3
# How long a writer waits for another one.
_SECONDS = 300

# The kinds of edits that change the ground.
GROUND = ("feed", "names", "letters", "suppression", "settled")

# The number of machines for each kind of verdict is kept up to date by triggers, because there may be millions of
# verdicts.
_ONE_MORE = "INSERT INTO affected VALUES (new.advisory, new.kind, 1) ON CONFLICT DO UPDATE SET machines = machines + 1;"
_ONE_LESS = (
    "UPDATE affected SET machines = machines - 1 WHERE advisory = old.advisory AND kind = old.kind; "
    "DELETE FROM affected WHERE advisory = old.advisory AND kind = old.kind AND machines = 0;"
)
_SCHEMA = """
CREATE TABLE edits (
    id INTEGER PRIMARY KEY AUTOINCREMENT, at REAL NOT NULL, kind TEXT NOT NULL, what TEXT NOT NULL, client TEXT NOT NULL);
CREATE INDEX edits_of_ground ON edits (id) WHERE kind IN ('feed', 'names', 'letters', 'suppression', 'settled');
CREATE TABLE machines (
    id INTEGER PRIMARY KEY AUTOINCREMENT, name TEXT NOT NULL UNIQUE, shard INTEGER NOT NULL, put INTEGER NOT NULL,
    judged_put INTEGER NOT NULL DEFAULT 0, judged_ground INTEGER NOT NULL DEFAULT 0, result_put INTEGER NOT NULL DEFAULT 0,
    result_ground INTEGER NOT NULL DEFAULT 0, judged_at REAL, counts TEXT NOT NULL DEFAULT '{}',
    fault TEXT NOT NULL DEFAULT '', said TEXT NOT NULL, list BLOB NOT NULL, result BLOB);
CREATE INDEX machines_by_ground ON machines (judged_ground);
CREATE INDEX machines_with_new_list ON machines (put) WHERE put <> judged_put;
CREATE TABLE advisories (id TEXT PRIMARY KEY, asked INTEGER, state TEXT NOT NULL, details TEXT NOT NULL) WITHOUT ROWID;
CREATE TABLE verdicts (
    machine INTEGER NOT NULL, advisory TEXT NOT NULL, kind TEXT NOT NULL, since REAL NOT NULL, PRIMARY KEY (machine, advisory))
    WITHOUT ROWID;
CREATE INDEX verdicts_by_advisory ON verdicts (advisory, kind, since);
CREATE TABLE affected (advisory TEXT NOT NULL, kind TEXT NOT NULL, machines INTEGER NOT NULL, PRIMARY KEY (advisory, kind)) WITHOUT ROWID;
CREATE TRIGGER verdict_begins AFTER INSERT ON verdicts BEGIN {ONE_MORE} END;
CREATE TRIGGER verdict_ends AFTER DELETE ON verdicts BEGIN {ONE_LESS} END;
CREATE TRIGGER verdict_changes AFTER UPDATE OF kind ON verdicts WHEN old.kind <> new.kind BEGIN {ONE_LESS} {ONE_MORE} END;
CREATE TABLE history (
    id INTEGER PRIMARY KEY AUTOINCREMENT, at REAL NOT NULL, machine TEXT NOT NULL, advisory TEXT NOT NULL, before TEXT NOT NULL,
    after TEXT NOT NULL, cause TEXT NOT NULL, edit INTEGER NOT NULL, reason TEXT NOT NULL);
CREATE INDEX history_by_time ON history (at);
CREATE INDEX history_by_machine ON history (machine, id);
CREATE INDEX history_by_advisory ON history (advisory, id);
CREATE TABLE feeds (
    id INTEGER PRIMARY KEY AUTOINCREMENT, kind TEXT NOT NULL, name TEXT NOT NULL, is_whole INTEGER NOT NULL, at REAL NOT NULL,
    edit INTEGER, state TEXT NOT NULL);
CREATE TABLE pages (feed INTEGER NOT NULL, sum TEXT NOT NULL, name TEXT NOT NULL, span TEXT NOT NULL, PRIMARY KEY (feed, sum));
CREATE TABLE records (
    id INTEGER PRIMARY KEY AUTOINCREMENT, feed INTEGER NOT NULL, kind TEXT NOT NULL, key TEXT NOT NULL, modified TEXT NOT NULL,
    number INTEGER NOT NULL, body BLOB NOT NULL);
CREATE INDEX records_by_key ON records (kind, key);
CREATE INDEX records_by_feed ON records (feed);
CREATE TABLE tables (name TEXT PRIMARY KEY, text TEXT NOT NULL);
CREATE TABLE notes (name TEXT PRIMARY KEY, text TEXT NOT NULL);
""".replace(
    "{ONE_MORE}", _ONE_MORE
).replace(
    "{ONE_LESS}", _ONE_LESS
)
_STATEMENTS = [one for one in _SCHEMA.split(";\n") if one.strip()]
# The statements that make this version of the database from version 2.
_SINCE_2 = [
    "DROP INDEX verdicts_by_advisory",
    *(one for one in _STATEMENTS if "verdicts_by_advisory" in one or "affected" in one),
    "INSERT INTO affected SELECT advisory, kind, count(*) FROM verdicts GROUP BY advisory, kind",
]


class Database(sqlite3.Connection):
    """A connection; if it writes, also the file whose lock is its turn to write."""

    turn: IO[bytes] | None = None

    def close(self) -> None:
        super().close()
        if self.turn is not None:
            self.turn.close()


class OtherVersion(Exception):
    """The data folder is of another version of the service."""


def connect(folder: Path, is_reader: bool = False) -> Database:
    """A connection to the database of a data folder. A writer's commits are on the disk."""
    mode = "ro" if is_reader else "rwc"
    found = sqlite3.connect(
        f"{(folder / NAME).resolve().as_uri()}?mode={mode}",
        _SECONDS,
        uri=True,
        isolation_level=None,
        check_same_thread=False,
        factory=Database,
    )
    found.row_factory = sqlite3.Row
    if not is_reader:
        found.turn = (folder / TURN).open("ab")
        found.execute("PRAGMA journal_mode = WAL")
        found.execute("PRAGMA synchronous = FULL")
        found.execute("PRAGMA foreign_keys = ON")
    return found


def create(folder: Path) -> None:
    """Creates the database of a data folder, if there is none, or converts one of the earlier version."""
    with contextlib.closing(connect(folder)) as database, write_transaction(database):
        version = database.execute("PRAGMA user_version").fetchone()[0]
        if version == VERSION:
            return
        if version not in (0, 2):
            raise OtherVersion(f"the database has version {version}, and this service reads {VERSION}")
        for statement in _SINCE_2 if version else _STATEMENTS:
            database.execute(statement)
        database.execute(f"PRAGMA user_version = {VERSION}")


@contextlib.contextmanager
def write_transaction(database: Database) -> Iterator[Database]:
    """A transaction that writes: all of it, or nothing if an exception ends it."""
    with _in_turn(database.turn):
        with _transaction(database):
            yield database


@contextlib.contextmanager
def _in_turn(turn: IO[bytes] | None) -> Iterator[None]:
    """Waits for the turn to write. (SQLite itself only polls for a writer's end, so among frequent writers one may wait
    for long. If a process ends, the system releases its lock.)"""
    if turn is None:
        yield
        return
    fcntl.flock(turn, fcntl.LOCK_EX)
    try:
        yield
    finally:
        fcntl.flock(turn, fcntl.LOCK_UN)


@contextlib.contextmanager
def _transaction(database: Database) -> Iterator[None]:
    database.execute("BEGIN IMMEDIATE")
    try:
        yield
    except BaseException:
        # (a full disk may have ended the transaction already)
        with contextlib.suppress(sqlite3.Error):
            database.execute("ROLLBACK")
        raise
    database.execute("COMMIT")


@contextlib.contextmanager
def read_transaction(database: sqlite3.Connection) -> Iterator[sqlite3.Connection]:
    """A transaction in which everything that is read is of one moment."""
    database.execute("BEGIN")
    try:
        yield database
    finally:
        with contextlib.suppress(sqlite3.Error):
            database.execute("COMMIT")


def new_edit(database: sqlite3.Connection, kind: str, what: str, client: str) -> int:
    """The number of a new edit."""
    row = "INSERT INTO edits (at, kind, what, client) VALUES (?, ?, ?, ?)"
    number = database.execute(row, (time.time(), kind, what, client)).lastrowid
    assert number is not None
    return number


def ground_of(database: sqlite3.Connection) -> int:
    """The number of the last edit of the ground, 0 if there is none."""
    marks = ", ".join(f"'{kind}'" for kind in GROUND)
    return database.execute(f"SELECT coalesce(max(id), 0) FROM edits WHERE kind IN ({marks})").fetchone()[0]


def write_note(database: sqlite3.Connection, name: str, text: str) -> None:
    """Keeps a text under a name."""
    database.execute(
        "INSERT INTO notes VALUES (?, ?) ON CONFLICT (name) DO UPDATE SET text = excluded.text", (name, text)
    )


def read_note(database: sqlite3.Connection, name: str, otherwise: str = "") -> str:
    """The text under a name."""
    row = database.execute("SELECT text FROM notes WHERE name = ?", (name,)).fetchone()
    return otherwise if row is None else row[0]


def pack(data: bytes) -> bytes:
    """Bytes as the database keeps them."""
    return zlib.compress(data, 3)


def unpack(data: bytes) -> bytes:
    """Bytes that the database keeps."""
    return zlib.decompress(data)
