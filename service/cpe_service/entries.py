"""The dictionary for searches: a separate file, which the first worker writes again after each change of the
dictionary."""
from __future__ import annotations

import contextlib
import hashlib
import json
import os
import re
import sqlite3
from collections.abc import Iterable, Sequence
from pathlib import Path

from cpe_recipes import names
from cpe_recipes.feeds import Json, record_text
from cpe_recipes.program import Program

from .texts import whole

NAME = "names.db"
_WORD = re.compile(r"\w+")
# At most this many steps of deprecations of a chain are followed.
_MOST_STEPS = 1_000


def write(folder: Path, records: Sequence[str]) -> None:
    """Writes the file, unless it already has these records. Readers see the old file or the new one, whole."""
    digest = hashlib.sha256()
    for record in records:
        digest.update(record.encode(errors="replace"))
    sum, path = digest.hexdigest(), folder / NAME
    if path.exists():
        with contextlib.closing(open_entries(folder)) as before, contextlib.suppress(sqlite3.Error):
            if before.execute("SELECT sum FROM about").fetchone()[0] == sum:
                return
    beside = folder / f".{NAME}.{os.getpid()}"
    beside.unlink(missing_ok=True)
    try:
        with contextlib.closing(sqlite3.connect(beside, isolation_level=None)) as database:
            _fill(database, records, sum)
        os.replace(beside, path)
    finally:
        beside.unlink(missing_ok=True)


def _fill(database: sqlite3.Connection, records: Iterable[str], sum: str) -> None:
    database.execute("PRAGMA journal_mode = OFF")
    database.execute("BEGIN")
    database.execute("CREATE TABLE about (sum TEXT NOT NULL)")
    database.execute(
        "CREATE TABLE entries (id INTEGER PRIMARY KEY, name TEXT NOT NULL, title TEXT NOT NULL, record TEXT NOT NULL, change TEXT)"
    )
    database.execute("CREATE VIRTUAL TABLE words USING fts5 (text, content = '', tokenize = 'unicode61')")
    numbers: dict[str, int] = {}
    for record in records:
        value = json.loads(record)
        name = value["name"]
        if value["do"] == "entry":
            number = numbers[name] = len(numbers) + 1
            title = whole(value.get("title", ""))
            database.execute("INSERT INTO entries VALUES (?, ?, ?, ?, NULL)", (number, name, title, whole(record)))
            database.execute("INSERT INTO words (rowid, text) VALUES (?, ?)", (number, f"{title} {_words_of(name)}"))
        elif name in numbers:
            database.execute("UPDATE entries SET change = ? WHERE id = ?", (record, numbers[name]))
    database.execute("CREATE INDEX entries_by_name ON entries (name)")
    database.execute("INSERT INTO about VALUES (?)", (sum,))
    database.execute("COMMIT")


def _words_of(name: str) -> str:
    """The words of a name, for the search."""
    parts = names.components(name) if name.startswith(names.PREFIX) else [name]
    return " ".join(part.replace("\\", "").replace("_", " ") for part in parts if part not in (names.ANY, names.NA))


def open_entries(folder: Path) -> sqlite3.Connection:
    """Opens the file for reading."""
    found = sqlite3.connect(f"{(folder / NAME).resolve().as_uri()}?mode=ro", uri=True, check_same_thread=False)
    found.row_factory = sqlite3.Row
    return found


def search(folder: Path, text: str, limit: int, offset: int) -> tuple[list[dict[str, Json]], int]:
    """The entries with all these words, or with words that begin with them, best first; and how many there are."""
    words = _WORD.findall(text.replace("_", " ").lower())
    if not words or not (folder / NAME).exists():
        return [], 0
    wanted = " ".join(f'"{word}"*' for word in words)
    with contextlib.closing(open_entries(folder)) as database:
        rows = database.execute(
            "SELECT name, title, change FROM words JOIN entries ON entries.id = words.rowid WHERE words MATCH ? "
            "ORDER BY change IS NOT NULL, bm25(words), name LIMIT ? OFFSET ?",
            (wanted, limit, offset),
        ).fetchall()
        count = database.execute("SELECT count(*) FROM words WHERE words MATCH ?", (wanted,)).fetchone()[0]
        return [_found(row) for row in rows], count


def _found(row: sqlite3.Row) -> dict[str, Json]:
    found = {"name": row["name"], "title": row["title"], "deprecated": row["change"] is not None}
    return found | ({"successors": _successors(row["change"])} if row["change"] else {})


def chain(folder: Path, program: Program, name: str) -> tuple[dict[str, list[str]], list[str]]:
    """The successors of deprecated names, and the answer of `cpe resolve` about the chain of a name, over the entries
    to which it may lead."""
    found: dict[str, str] = {}
    changes: dict[str, str] = {}
    if (folder / NAME).exists():
        with contextlib.closing(open_entries(folder)) as database:
            _follow(database, name, found, changes)
    lines = program.run(["resolve"], [*found.values(), *changes.values(), record_text({"do": "chain", "name": name})])
    return {here: _successors(change) for here, change in changes.items()}, lines


def _follow(database: sqlite3.Connection, name: str, found: dict[str, str], changes: dict[str, str]) -> None:
    """Adds the entries of a chain, and its deprecations."""
    waiting = [name]
    while waiting and len(found) < _MOST_STEPS:
        here = waiting.pop()
        row = (
            None
            if here in found
            else database.execute("SELECT record, change FROM entries WHERE name = ?", (here,)).fetchone()
        )
        if row is not None:
            found[here] = row["record"]
            if row["change"]:
                changes[here] = row["change"]
                waiting.extend(_successors(row["change"]))


def _successors(change: str) -> list[str]:
    return [one for one in json.loads(change).get("successors", ()) if isinstance(one, str)]
