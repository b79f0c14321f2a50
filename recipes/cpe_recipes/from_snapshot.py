"""The records of a snapshot that `cpe save` wrote: sh from-snapshot.sh SNAPSHOT. Add new records after them to continue
the saved session:

    { sh from-snapshot.sh inventory.snapshot; cat new.jsonl; } | cpe watch

`cpe save` makes the same snapshot of these records. Deprecations are written after all entries; a successor's
deprecation is before the deprecation of the entry that it replaces. A deprecation is written from the last notes of its
entry. A deprecated entry without a note of its deprecation is left out; no session of `cpe` makes such an entry. An
entry is left out too if its notes make its record too long for a line.

If the file is no snapshot, nothing is written, and the status is 2. The recipe doesn't test whether the rows are
lawful. If a row isn't lawful, `cpe` refuses its record, and `cpe load` refuses the snapshot.
"""
from __future__ import annotations

from collections.abc import Callable, Iterator
from pathlib import Path
from typing import Any, NamedTuple, TypeVar

from .arguments import read_arguments
from .console import Fatal, Messages, describe_fault, write_all
from .feeds import record_text

USAGE = "from-snapshot.sh SNAPSHOT"
MARK = b"CPESNAP1"
KINDS = (None, "NAME_CORRECTION", "NAME_REMOVAL", "ADDITIONAL_INFORMATION")
NOTES = ("ORIGINAL_RECORD", "AUTHORITY_CHANGE", "DEPRECATION", "DEPRECATION_MODIFICATION")
TRUTHS = ("TRUE", "FALSE", "ERROR", "UNKNOWN")
# The bytes of the longest line that `cpe` reads, and how many records are written at once.
MOST_BYTES = 65_536
PIECE = 10_000

Row = dict[str, Any]
Part = TypeVar("Part")


class NotSnapshot(Exception):
    """No rows are spelled so."""


class Rows(NamedTuple):
    """The rows of a snapshot. An entry's successors are the places of entries, from 0."""

    entries: list[Row]
    items: list[str]
    statements: list[Row]
    results: list[Row]


def run(words: list[str]) -> int:
    paths = read_arguments(words, {}, USAGE).files
    if len(paths) != 1:
        raise Fatal(f"usage: {USAGE}")
    try:
        rows = read(Path(paths[0]).read_bytes())
    except OSError as fault:
        raise Fatal(f"{paths[0]} could not be read: {describe_fault(fault)}") from fault
    except NotSnapshot as fault:
        raise Fatal(f"{paths[0]} is no snapshot") from fault
    messages = Messages()
    lines: list[str] = []
    for record in records(rows, messages):
        line = record_text(record)
        if len(line.encode()) > MOST_BYTES:
            messages.leave_out(record.get("name") or record["id"], "its record is longer than a line may be")
            continue
        lines.append(f"{line}\n")
        if len(lines) == PIECE:
            _write(lines)
    _write(lines)
    return messages.status()


def _write(lines: list[str]) -> None:
    write_all(1, "".join(lines).encode(), "the output")
    lines.clear()


# ---- reading


class _Source:
    """Bytes of which one part after the other is taken."""

    def __init__(self, data: bytes) -> None:
        self._data, self._at = data, 0

    def is_at_end(self) -> bool:
        return self._at == len(self._data)

    def take(self, count: int) -> bytes:
        if count > len(self._data) - self._at:
            raise NotSnapshot
        self._at += count
        return self._data[self._at - count : self._at]

    def number(self) -> int:
        return int.from_bytes(self.take(4), "big")

    def one_of(self, kinds: tuple[Part, ...]) -> Part:
        number = self.take(1)[0]
        if number >= len(kinds):
            raise NotSnapshot
        return kinds[number]

    def text(self) -> str:
        return _text(self.take(self.number()))

    def some(self, part: Callable[[], Part]) -> list[Part]:
        # (each part has at least a byte, so a count that is too great ends at the end of the bytes)
        return [part() for _ in range(self.number())]

    def note(self) -> Row:
        return {"kind": self.one_of(NOTES), "date": _text(self.take(10)), "comment": self.text()}

    def entry(self) -> Row:
        row: Row = {"name": self.text(), "title": self.text(), "submitter": self.text(), "authority": self.text()}
        row["changes"] = self.some(self.note)
        row["kind"] = self.one_of(KINDS)
        row["successors"] = [] if row["kind"] is None else self.some(self.number)
        return row

    def key(self) -> Row:
        return {"system": self.text(), "href": self.text(), "id": self.text()}

    def test(self) -> Row:
        match self.one_of(("logic", "fact", "check")):
            case "fact":
                return {"fact": self.text()}
            case "check":
                return {"check": self.key()}
        return {"op": self.one_of(("AND", "OR")), "negate": self.one_of((False, True)), "of": self.some(self.test)}

    def statement(self) -> Row:
        return {"id": self.text(), "title": self.text(), "mode": self.one_of(("plain", "follow")), "test": self.test()}

    def result(self) -> Row:
        return {**self.key(), "result": self.one_of(TRUTHS)}


def _text(data: bytes) -> str:
    try:
        return data.decode()
    except UnicodeDecodeError:
        raise NotSnapshot from None


def read(data: bytes) -> Rows:
    """The rows that the bytes spell."""
    source = _Source(data)
    if source.take(len(MARK)) != MARK:
        raise NotSnapshot
    counts = [source.number() for _ in range(4)]
    parts = (source.entry, source.text, source.statement, source.result)
    try:
        rows = Rows(*([part() for _ in range(count)] for part, count in zip(parts, counts)))
    except RecursionError:
        # (a test is no deeper than 32)
        raise NotSnapshot from None
    if not source.is_at_end() or any(place >= len(rows.entries) for row in rows.entries for place in row["successors"]):
        raise NotSnapshot
    return rows


# ---- records


def records(rows: Rows, messages: Messages) -> Iterator[Row]:
    """Records that leave these rows."""
    cuts = [_first_change(row) for row in rows.entries]
    for row, cut in zip(rows.entries, cuts):
        if cut is None:
            messages.leave_out(row["name"], "it is deprecated, and no note says so")
            continue
        provenance = {"submitter": row["submitter"], "authority": row["authority"], "changes": row["changes"][:cut]}
        yield {"do": "entry", "name": row["name"], "title": row["title"], "provenance": provenance}
    for place in _successors_first(rows.entries):
        yield from _changes(rows.entries, place, cuts[place])
    yield from ({"do": "item", "name": name} for name in rows.items)
    yield from ({"do": "statement", **row} for row in rows.statements)
    yield from ({"do": "check", **row} for row in rows.results)


def _first_change(row: Row) -> int | None:
    """The place of the note of the deprecation that an entry has, or how many notes there are if it has none."""
    changes = row["changes"]
    if row["kind"] is None:
        return len(changes)
    place = len(changes) - 1
    while place >= 0 and changes[place]["kind"] == "DEPRECATION_MODIFICATION":
        place -= 1
    return place if place >= 0 and changes[place]["kind"] == "DEPRECATION" else None


def _changes(entries: list[Row], place: int, cut: int | None) -> Iterator[Row]:
    """What deprecates an entry, and then changes that as often as its notes say."""
    row = entries[place]
    if row["kind"] is None or cut is None:
        return
    named = {"kind": row["kind"], "successors": [entries[it]["name"] for it in row["successors"]]}
    for number, note in enumerate(row["changes"][cut:]):
        word = "deprecate" if number == 0 else "amend"
        yield {"do": word, "name": row["name"], **named, "date": note["date"], "comment": note["comment"]}


def _successors_first(entries: list[Row]) -> Iterator[int]:
    """The places of all entries, those of an entry's successors before its own; of a cycle in any order."""
    seen = [False] * len(entries)
    for first in range(len(entries)):
        if seen[first]:
            continue
        seen[first] = True
        waiting = [(first, iter(entries[first]["successors"]))]
        while waiting:
            place, rest = waiting[-1]
            following = next((it for it in rest if not seen[it]), None)
            if following is None:
                yield waiting.pop()[0]
            else:
                seen[following] = True
                waiting.append((following, iter(entries[following]["successors"])))
