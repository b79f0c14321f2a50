"""CISA's list of vulnerabilities that are known to be exploited (KEV), as CISA publishes it:
`known_exploited_vulnerabilities.json`, or the same as CSV.

A list that is cut off, or another file, is refused: a lost advisory would look as if nobody exploited it. The JSON has
the number of its vulnerabilities (`count`). The CSV hasn't, so a last line without an end is reported.
"""
from __future__ import annotations

import csv
import io
import re
from collections.abc import Iterator
from dataclasses import dataclass

from .console import Fatal, Messages, shorten
from .feeds import FeedFault, Json, name_of, read_feed, values_of

CVE = re.compile(r"CVE-[0-9]{4}-[0-9]{4,}")
_DATE = re.compile(r"[0-9]{4}-[0-9]{2}-[0-9]{2}")
_NEEDED = ("cveID", "dateAdded")
_OTHERS = ("dueDate", "knownRansomwareCampaignUse")


@dataclass(frozen=True, slots=True)
class KevEntry:
    """What the list has of a vulnerability: the days when it was added and when it is due, and whether ransomware is
    known to use it."""

    added: str
    due: str
    ransomware: str

    def json(self) -> dict[str, Json]:
        members = {"dateAdded": self.added, "dueDate": self.due, "knownRansomwareCampaignUse": self.ransomware}
        return {key: value for key, value in members.items() if value}


@dataclass(frozen=True)
class Kev:
    """The list: its file, its version if it has one, and the vulnerabilities by their ids."""

    name: str
    version: str
    found: dict[str, KevEntry]

    def json(self) -> dict[str, Json]:
        """The members at the top of a result."""
        return {"file": self.name, "count": len(self.found)} | (
            {"catalogVersion": self.version} if self.version else {}
        )


def read_kev(path: str, messages: Messages) -> Kev:
    """The list at this path. Fatal if it is none, or isn't whole."""
    name = name_of(path)
    try:
        data = read_feed(path)
        version, rows = _of_json(data) if data.lstrip().startswith(b"{") else ("", _of_csv(data, name, messages))
        found: dict[str, KevEntry] = {}
        for place, row in rows:
            id, exploited = _row(place, row)
            if found.setdefault(id, exploited) is not exploited:
                messages.remark(f"{name}: {id} is there twice, and its first {place.split()[0]} counts")
    except FeedFault as fault:
        raise Fatal(f"{name}: it isn't CISA's list of known exploited vulnerabilities: {fault}") from fault
    if not found:
        raise Fatal(f"{name}: no known exploited vulnerability is in it")
    return Kev(name, version, found)


def _of_json(data: bytes) -> tuple[str, Iterator[tuple[str, Json]]]:
    """The version of a list as JSON, and what it has, with words for the places."""
    values = list(values_of(data, is_strict=True))
    if len(values) != 1:
        raise FeedFault(f"it has {len(values)} values in place of one")
    rows, count, version = (values[0].get(key) for key in ("vulnerabilities", "count", "catalogVersion"))
    if not isinstance(rows, list):
        raise FeedFault("it has no list of vulnerabilities")
    if isinstance(count, bool) or not isinstance(count, int):
        raise FeedFault("it has no count that is a number")
    if count != len(rows):
        raise FeedFault(f"its count is {count:,}, and it has {len(rows):,}")
    return version if isinstance(version, str) else "", (
        (f"vulnerability {place}", row) for place, row in enumerate(rows, 1)
    )


def _of_csv(data: bytes, name: str, messages: Messages) -> Iterator[tuple[str, Json]]:
    """What a list as CSV has, with words for the places."""
    try:
        text = data.decode("utf-8-sig")
        rows = list(csv.reader(io.StringIO(text, newline=""), strict=True))
    except UnicodeDecodeError as fault:
        raise FeedFault(f"it is no UTF-8 at byte {fault.start + 1}") from fault
    except csv.Error as fault:
        raise FeedFault(f"no CSV: {fault}") from fault
    header = rows[0] if rows else []
    if any(header.count(key) != 1 for key in _NEEDED):
        raise FeedFault(f"neither its JSON nor its CSV, whose first line has {' and '.join(_NEEDED)}")
    if not text.endswith("\n"):
        messages.leave_out(name, "its last line has no end, and others may be cut off")
    return _csv_rows(header, rows[1:])


def _csv_rows(header: list[str], rows: list[list[str]]) -> Iterator[tuple[str, Json]]:
    for number, row in enumerate(rows, 1):
        if len(row) != len(header):
            raise FeedFault(f"row {number} has {len(row)} cells in place of {len(header)}")
        yield f"row {number}", dict(zip(header, row))


def _row(place: str, row: Json) -> tuple[str, KevEntry]:
    if not isinstance(row, dict):
        raise FeedFault(f"{place} is no object")
    id, added = (row.get(key) for key in _NEEDED)
    if not isinstance(id, str) or not CVE.fullmatch(id):
        raise FeedFault(f"the cveID of {place} is {shorten(id)}, which is no id of a CVE")
    if not isinstance(added, str) or not _DATE.fullmatch(added):
        raise FeedFault(f"the dateAdded of {place} is {shorten(added)}, which is no day")
    others = [row.get(key) or "" for key in _OTHERS]
    for key, value in zip(_OTHERS, others):
        if not isinstance(value, str):
            raise FeedFault(f"the {key} of {place} is {shorten(value)}, which is no text")
    return id, KevEntry(added, *others)
