"""The findings about a store after its pages are added, which each scan reports: the missing pages of a feed, and the
records of the dictionary that `cpe` refuses. Only deprecations, and the names in them, are tried with cpe again,
because cpe accepts every other plain entry."""
from __future__ import annotations

import json
import os
from collections.abc import Collection, Iterable, Iterator

from . import completeness
from .concern import plain_name
from .console import Messages, RecordedMessages
from .dictionary import Product, deprecations_of
from .feeds import Json, PlacedRecord, Source
from .matches import key_of_name
from .program import Candidate, Program, candidate_at
from .store_file import StoreFile, page_and_number
from .store_writer import FILES, KINDS, change_of, ids_of

_COLUMNS = "place, name, title, day, id, change, odd, fault"


class _CollectedMessages(RecordedMessages):
    """Messages that are kept and not written."""

    def __init__(self) -> None:
        super().__init__()
        self.remarks_noted: list[str] = []

    def remark(self, text: str, id: str = "") -> None:
        self.remarks_noted.append(text)

    def _write(self, line: str, is_whole: bool = False) -> None:
        pass


def update_findings(file: StoreFile, program: Program) -> None:
    """Computes the findings, if pages were added since the last time."""
    if is_up_to_date(file):
        return
    with file.write_transaction():
        for (kind,) in file.rows("SELECT kind FROM unsettled"):
            found = compute_findings(file, program, kind)
            file.put("DELETE FROM told WHERE kind = ?", [(kind,)])
            file.put(
                "INSERT INTO told VALUES (?, ?, ?)",
                ((kind, number, json.dumps(one)) for number, one in enumerate(found)),
            )
        file.put("DELETE FROM unsettled WHERE ?", [(True,)])


def compute_findings(file: StoreFile, program: Program, kind: str) -> list[dict[str, Json]]:
    """The findings about all pages of a kind."""
    found = list(_findings_of_pages(file, kind))
    return found + _findings_of_dictionary(file, program) if kind == "products" else found


def current_findings(file: StoreFile, program: Program, kind: str) -> Iterable[dict[str, Json]]:
    """The findings as they are now, kept or not. Nothing is written."""
    is_unsettled = file.one("SELECT 1 FROM unsettled WHERE kind = ?", (kind,)) is not None
    return compute_findings(file, program, kind) if is_unsettled else stored_findings(file, kind)


def is_up_to_date(file: StoreFile) -> bool:
    """Whether no page was added since the findings were computed."""
    return file.one("SELECT 1 FROM unsettled") is None


def report_unended_runs(file: StoreFile, messages: Messages) -> None:
    """Reports the runs of store.py add that have not ended; the pages that they didn't reach are missing."""
    for began, paths in file.rows("SELECT began, paths FROM runs WHERE paths IS NOT NULL ORDER BY number"):
        some = completeness.some_of(list(map(os.path.basename, json.loads(paths))))
        messages.leave_out(
            some,
            f"store.py add of this began at {began} and has not ended: pages may be missing until it is run again, to its end",
        )


def report_unread_files(file: StoreFile, messages: Messages) -> None:
    """Reports the files, and members of archives, that could not be read when they were added."""
    for path, place, reason in file.rows(
        "SELECT key, place, reason FROM faults WHERE kind = ? ORDER BY key, place", (FILES,)
    ):
        messages.leave_out(place, f"{reason}; it isn't in the store, until a good one is added from {path}")


def report_faults(file: StoreFile, kind: str, keys: Collection[str] | None, messages: Messages) -> None:
    """Reports the records of these ids, or of all, that could not be read when their pages were added."""
    for key, place, reason in file.rows(
        "SELECT key, place, reason FROM faults WHERE kind = ? ORDER BY key, place", (kind,)
    ):
        if keys is None or key in keys:
            messages.leave_out(key, reason, place)


def stored_findings(file: StoreFile, kind: str) -> Iterator[dict[str, Json]]:
    """The kept findings about the feeds of a kind: missing pages, remarks, and what was left out."""
    return (json.loads(text) for (text,) in file.rows("SELECT text FROM told WHERE kind = ? ORDER BY number", (kind,)))


def _findings_of_pages(file: StoreFile, kind: str) -> Iterator[dict[str, Json]]:
    collected = _CollectedMessages()
    spans, uncounted = {}, []
    copies: dict[tuple[object, ...], completeness.Span] = {}
    for number, name, is_of_records, count, start, said, total, ids, copy in file.rows(
        "SELECT number, name, is_of_records, records, start, said, total, ids, copy FROM pages WHERE kind = ? ORDER BY number",
        (kind,),
    ):
        if total is not None:
            span = completeness.Span(name, start, count, said, total, [] if ids is None else list(ids_of(ids)))
            # (the same page may have other bytes)
            spans[number] = copies.setdefault((start, count, said, total, copy), span) if copy else span
        elif not is_of_records:
            uncounted.append(name)
    runs: dict[int, list[completeness.Span]] = {}
    for run, page in file.rows("SELECT run, page FROM given ORDER BY run, page"):
        if page in spans:
            runs.setdefault(run, []).append(spans[page])
    completeness.report_uncounted(uncounted, collected)
    for one in completeness.missing_of_runs(kind, runs.values(), collected):
        yield {"missing": [one.kind, one.files, one.total, one.given, one.where]}
    yield from ({"remark": text} for text in collected.remarks_noted)


def _findings_of_dictionary(file: StoreFile, program: Program) -> list[dict[str, Json]]:
    """What cpe refuses of the dictionary, and what can't be read of it."""
    collected = _CollectedMessages()
    program.accept_entries(candidates_of(file, _rows_of_deprecations(file)), collected)
    return [{"left": list(one)} for one in collected.noted]


def _rows_of_deprecations(file: StoreFile) -> list[tuple]:
    """The products with deprecations, those that aren't plain, and those that deprecations name."""
    rows = {row[0]: row for row in file.rows(f"SELECT {_COLUMNS} FROM products WHERE change IS NOT NULL")}
    rows |= {row[0]: row for row in odd_rows(file)}
    for name in _names_in(row[5] for row in rows.values() if row[5] is not None):
        query = f"SELECT {_COLUMNS} FROM products WHERE product = (SELECT number FROM names WHERE vendor = ? AND product = ?)"
        key = key_of_name(name)
        if plain_name(name) is not None and key is not None:
            rows |= {row[0]: row for row in file.rows(f"{query} AND name = ?", (*key, name.lower()))}
        elif key is not None:
            # (a name in another spelling may be any entry of its product)
            rows |= {row[0]: row for row in file.rows(query, key)}
    return [rows[place] for place in sorted(rows)]


def _names_in(changes: Iterable[str]) -> list[str]:
    """The names in these deprecations."""
    found: dict[str, None] = {}
    for text in changes:
        name, _, _, by, of = json.loads(text)
        found.update(dict.fromkeys(one for one in (name, *by, *of) if isinstance(one, str)))
    return list(found)


def odd_rows(file: StoreFile) -> list[tuple]:
    return file.rows(f"SELECT {_COLUMNS} FROM products WHERE odd IS NOT NULL OR fault IS NOT NULL")


def rows_of_products(file: StoreFile, numbers: Iterable[int]) -> list[tuple]:
    """The rows of the products with these numbers, and of those that aren't plain, in their order."""
    found = file.rows_of(f"SELECT {_COLUMNS} FROM products WHERE product IN {{}}", numbers)
    return sorted({row[0]: row for row in [*found, *odd_rows(file)]}.values())


def candidates_of(file: StoreFile, rows: Iterable[tuple]) -> Iterator[Candidate]:
    """The records of these products: first the entries, then the deprecations."""
    sources = {
        number: Source("product", name)
        for number, name in file.rows("SELECT number, name FROM pages WHERE kind = ?", KINDS[:1])
    }
    changes = []
    for place, name, title, day, id, change, odd, fault in rows:
        page, number = page_and_number(place)
        placed = PlacedRecord(id or "", None, file.read(sources.__getitem__, page), number + 1)
        if fault is not None:
            yield candidate_at(placed, placed.id, reason=fault)
            continue
        yield candidate_at(placed, placed.id, odd if odd is not None else Product(name, None, title, day).entry())
        if change is not None:
            changes.append(change_of(change, placed))
    yield from deprecations_of(changes).candidates()
