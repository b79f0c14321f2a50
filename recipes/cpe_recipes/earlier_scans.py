"""The decisions of an earlier scan from a store, kept beside the store, so that the next scan decides again only what
may have changed.

A file has the record of one scan: its machines by their names, each with the verdicts that aren't FALSE, and the leads
and names of their items. It also has the basis of all this (`ScanBasis`), and the changes from scan to scan, with
times. difference.py lists on what verdicts depend, and finds which are decided again.

A file gets its name after it is written whole, so a killed scan leaves the earlier file. A file that can't be read, or
has another basis, isn't used; then everything is decided.
"""
from __future__ import annotations

import gzip
import hashlib
import json
import os
import shutil
import sys
import zlib
from collections.abc import Collection, Iterable, Iterator, Mapping, Sequence
from dataclasses import dataclass, field
from datetime import datetime, timezone
from pathlib import Path
from typing import NamedTuple

from .console import Fatal, Messages, describe_fault
from .feeds import Json
from .item_names import Certainty, ItemName
from .leads import Lead, Leads
from .near_products import Product
from .program import Program
from .statement_cache import recipes_checksum
from .versions import Letters

FOLDER = "verdicts"
_VERSION = 1
_ENDING = ".gz"
# Of a fleet as many lines are kept of what changed, and in all as many fleets.
MOST_CHANGES, MOST_FLEETS = 100_000, 200
# The name of an item as cpe writes it, the kind of its component, and in words why it only perhaps has this name.
Key = tuple[str, str, str]


class EarlierVerdict(NamedTuple):
    """A verdict that isn't FALSE, or that differs because an item lacks an attribute (`is_perhaps`). `place` is that of
    the advisory in the store, or 0 if each scan decides the verdict. The other members are written beside it: the
    reasons of an UNKNOWN, remarks, the items and facts of `perhaps`, and the items that decide."""

    id: str
    place: int
    truth: str
    is_perhaps: bool = False
    hangs: Sequence[str] = ()
    remarks: Sequence[str] = ()
    perhaps: Sequence[Sequence[str]] = ()
    decided_by: Sequence[str] | None = None


@dataclass(frozen=True)
class EarlierMachine:
    """A machine: its names in their order, the parts of these, and its verdicts."""

    keys: Sequence[Key]
    parts: str
    rows: Sequence[EarlierVerdict]
    has_items: bool


@dataclass(frozen=True)
class ScanBasis:
    """What all verdicts of a scan depend on: a checksum of the recipes, of the program, of the table of letters and of
    the options; and the pages of the store, by the number of the last page and a checksum."""

    checksum: str
    last: int
    pages: str


@dataclass
class EarlierScan:
    """The record of a scan of some machines."""

    basis: ScanBasis
    time: str
    leads: Leads = field(default_factory=Leads)
    item_names: dict[Key, tuple[ItemName, ...]] = field(default_factory=dict)
    successors: dict[Product, list[Product]] = field(default_factory=dict)
    machines: dict[str, EarlierMachine] = field(default_factory=dict)
    changes: list[Sequence[str]] = field(default_factory=list)
    # (the ids of the advisories that had a verdict)
    advisories: Sequence[str] = ()
    # (if two advisories have other ranges under the same id of a match, what each becomes depends on both)
    is_whole: bool = True


def current_time() -> str:
    return datetime.now(timezone.utc).isoformat(timespec="seconds")


def checksum_of(program: Program, letters: Letters, options: Sequence[Json]) -> str:
    """A checksum of what changes verdicts, except feeds and lists."""
    found = hashlib.sha256(json.dumps([_VERSION, recipes_checksum(), sys.version, list(options)]).encode())
    try:
        found.update(Path(shutil.which(program.path) or program.path).read_bytes())
    except OSError as fault:
        raise Fatal(f"{program.path} can not be read: {describe_fault(fault)}") from fault
    for product, words in sorted(letters.products.items()):
        found.update(json.dumps([*product, *sorted(words)]).encode())
    return found.hexdigest()


class EarlierScans:
    """The records of scans beside a store."""

    def __init__(self, folder: str) -> None:
        self._folder = Path(folder) / FOLDER

    def _paths(self) -> list[Path]:
        try:
            return sorted(path for path in self._folder.iterdir() if path.name.endswith(_ENDING))
        except OSError:
            return []

    def all(self) -> Iterator[EarlierScan]:
        """All records that can be read."""
        for path in self._paths():
            found = _read(path)
            if found is not None:
                yield found

    def of(self, checksum: str, names: Collection[str]) -> tuple[Path, EarlierScan] | None:
        """The record that has most of these machines, if it has the same basis; the latest of several."""
        wanted, best = set(names), (0, "", Path())
        for path in self._paths():
            head = _head(path)
            if head is not None and head["checksum"] == checksum:
                best = max(best, (len(wanted.intersection(head["machines"])), head["time"], path))
        count, _, path = best
        found = _read(path) if count else None
        return None if found is None else (path, found)

    def put(self, fleet: EarlierScan, before: Path | None, messages: Messages) -> None:
        """Keeps a record, in place of the one before. If it can't be kept, the next scan decides everything; this is
        remarked, if the folder can be written at all."""
        if not os.access(self._folder.parent, os.W_OK, effective_ids=os.access in os.supports_effective_ids):
            return
        path = self._folder / f"{_file_name(fleet)}{_ENDING}"
        beside = path.with_name(f".{path.name}.{os.getpid()}")
        try:
            self._folder.mkdir(exist_ok=True)
            try:
                _write(beside, fleet)
                os.replace(beside, path)
            finally:
                beside.unlink(missing_ok=True)
            if before not in (None, path):
                before.unlink(missing_ok=True)
            for old in sorted(self._paths(), key=lambda one: one.stat().st_mtime)[:-MOST_FLEETS]:
                old.unlink(missing_ok=True)
        except OSError as fault:
            messages.remark(
                f"{self._folder}: the verdicts could not be kept ({describe_fault(fault)}), so the next scan decides all of them"
            )


def _file_name(fleet: EarlierScan) -> str:
    """The name of the file of a fleet."""
    text = json.dumps([fleet.basis.checksum, sorted(fleet.machines)])
    return hashlib.blake2b(text.encode(), digest_size=12).hexdigest()


def _write(path: Path, fleet: EarlierScan) -> None:
    with open(path, "wb") as file, gzip.GzipFile("", "wb", compresslevel=1, fileobj=file, mtime=0) as packed:
        count = 0
        for count, line in enumerate(_lines(fleet), 1):
            packed.write(f"{json.dumps(line, separators=(',', ':'))}\n".encode())
        packed.write(f"{count}\n".encode())


def _lines(fleet: EarlierScan) -> Iterator[Json]:
    basis, leads = fleet.basis, fleet.leads
    head = {
        "version": _VERSION,
        "checksum": basis.checksum,
        "last": basis.last,
        "pages": basis.pages,
        "time": fleet.time,
    }
    yield {**head, "isWhole": fleet.is_whole, "machines": list(fleet.machines)}
    yield fleet.changes
    yield list(fleet.advisories)
    yield list(leads.refused.items())
    yield [[*product, *others] for product, others in fleet.successors.items()]
    yield [[name, one.name, one.is_entry, one.ends, one.steps] for name, one in leads.found.items()]
    keys = {key: place for place, key in enumerate(fleet.item_names)}
    yield [[key, [_row_of_name(one) for one in item_names]] for key, item_names in fleet.item_names.items()]
    for name, one in fleet.machines.items():
        yield [name, [keys[key] for key in one.keys], one.parts, one.has_items, [_short(row) for row in one.rows]]


def _short(row: EarlierVerdict) -> Json:
    """A row without the members that most rows don't have."""
    return row if any(row[3:]) or row.decided_by is not None else row[:3]


def _row_of_name(one: ItemName) -> Json:
    return [
        one.name,
        one.item,
        one.meant,
        one.certainty.name,
        one.why,
        sorted(one.lacks),
        one.kind,
        one.is_spelled,
        one.release,
    ]


def _name_of_row(row: Json) -> ItemName:
    name, item, meant, sure, reason, lacks, kind, is_spelled, release = row
    return ItemName(name, item, meant, Certainty[sure], reason, frozenset(lacks), kind, is_spelled, release)


_FAULTS = (OSError, EOFError, ValueError, KeyError, TypeError, IndexError, AttributeError, zlib.error, RecursionError)


def _head(path: Path) -> Mapping[str, Json] | None:
    """The first line of a file; None if it can't be read, or is of another version."""
    try:
        with gzip.open(path, "rb") as packed:
            head = json.loads(packed.readline())
        return (
            head
            if head["version"] == _VERSION and isinstance(head["machines"], list) and isinstance(head["time"], str)
            else None
        )
    except _FAULTS:
        return None


def _read(path: Path) -> EarlierScan | None:
    """A fleet; None if its file isn't whole."""
    try:
        with gzip.open(path, "rb") as packed:
            lines = packed.read().splitlines()
        return _fleet_of([json.loads(line) for line in lines[:-1]]) if int(lines[-1]) == len(lines) - 1 else None
    except _FAULTS:
        return None


def _fleet_of(lines: Sequence[Json]) -> EarlierScan:
    head, changes, advisories, refused, successors, leads, called, *machines = lines
    found = {name: Lead(written, is_entry, tuple(ends), tuple(steps)) for name, written, is_entry, ends, steps in leads}
    keys = [tuple(key) for key, _ in called]
    products = {(vendor, name): list(map(tuple, others)) for vendor, name, *others in successors}
    basis = ScanBasis(head["checksum"], head["last"], head["pages"])
    fleet = EarlierScan(basis, head["time"], Leads(found, dict(refused)), is_whole=head["isWhole"])
    fleet.item_names = {key: tuple(map(_name_of_row, rows)) for key, (_, rows) in zip(keys, called)}
    fleet.successors, fleet.changes, fleet.advisories = products, changes, advisories
    for name, places, parts, has_items, rows in machines:
        fleet.machines[name] = EarlierMachine(
            [keys[place] for place in places], parts, [EarlierVerdict(*row) for row in rows], has_items
        )
    return fleet
