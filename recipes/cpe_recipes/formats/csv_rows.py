"""A result as CSV (RFC 4180), a row for each machine and advisory, with a header.

All cells are quoted, and lines end with CR LF. A spreadsheet takes a cell that begins with `=`, `+`, `-` or `@` for a
formula, and runs it: so such a cell has a `'` before it, and so has one that begins with `'`, so that nothing is lost.
What can't be printed is written by its number.

CSV has only rows. So each thing that was left out is a row with the verdict LEFT OUT. All advisories that aren't
analysed are one row, NOT ANALYSED. Each machine's packages without a sure name are one row, NO NAME.
"""
from __future__ import annotations

import csv
import io
from collections.abc import Iterator, Mapping

from ..console import escape
from ..feeds import Json
from .claims import reasons_of
from .gaps import Gaps

LEFT_OUT, NOT_ANALYSED, NO_NAME = "LEFT OUT", "NOT ANALYSED", "NO NAME"
_FORMULAS = ("=", "+", "-", "@", "\uff1d", "\uff0b", "\uff0d", "\uff20", "'")
_COLUMNS = (
    *("machine", "verdict", "advisory", "score", "severity", "kev", "epss", "title", "published", "url"),
    *("depends_on", "accepted", "settled"),
)
# The columns that a result has only if their files were given.
_GIVEN = ("kev", "epss")


def lines(value: Mapping[str, Json], _time: str = "", _is_all: bool = False) -> list[str]:
    """The lines, without the LF at their ends."""
    columns = [column for column in _COLUMNS if column not in _GIVEN or column in value]
    text = io.StringIO()
    writer = csv.writer(text, quoting=csv.QUOTE_ALL, lineterminator="\r\n")
    writer.writerow(columns)
    for row in _rows(value):
        writer.writerow([safe(row.get(column, "")) for column in columns])
    return text.getvalue().removesuffix("\n").split("\n")


def safe(text: str) -> str:
    """A cell that no spreadsheet takes for a formula."""
    cell = escape(text)
    return f"'{cell}" if cell.startswith(_FORMULAS) else cell


def _rows(value: Mapping[str, Json]) -> Iterator[dict[str, str]]:
    for machine in value["machines"]:
        for verdict in machine.get("verdicts", ()):
            yield {"machine": machine["name"], **_cells(verdict)}
    gaps = Gaps(value)
    for one in gaps.left_out:
        where = "machine" if one.id in gaps.machines else "advisory"
        yield {where: one.id, "verdict": LEFT_OUT, "depends_on": one.reason, "title": one.place}
    if gaps.unanalysed:
        yield {"verdict": NOT_ANALYSED, "depends_on": gaps.note()}
    yield from ({"machine": name, "verdict": NO_NAME, "depends_on": words} for name, words in gaps.unnamed.items())


def _cells(verdict: Mapping[str, Json]) -> dict[str, str]:
    cells = {key: verdict.get(key) for key in ("severity", "title", "published", "url", "accepted", "settled")}
    found = {key: text for key, text in cells.items() if isinstance(text, str)}
    numbers = {"score": verdict.get("score"), "epss": verdict.get("epss", {}).get("epss")}
    found |= {key: str(number) for key, number in numbers.items() if number is not None}
    found["kev"] = verdict.get("kev", {}).get("dateAdded", "")
    return found | {
        "verdict": verdict["verdict"],
        "advisory": verdict["id"],
        "depends_on": "; ".join(reasons_of(verdict)),
    }
