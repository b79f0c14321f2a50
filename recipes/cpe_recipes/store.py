"""Keeps feeds in a store: each page is read once, and a scan reads from the store what concerns its machines.

    python3 store.py add --store FOLDER [--large] [--jobs NUMBER] [PAGES..]
    python3 store.py status --store FOLDER
    python3 store.py check --store FOLDER
    python3 store.py changes --store FOLDER [--since TIME]
    python3 store.py forget --store FOLDER FILES..

- add: adds pages of NVD's API 2.0 or its feeds (products, advisories, matches), and CVE records of format 5, plain,
  packed or in archives. The folder is made if needed. If there are several versions of a record, the version that was
  modified last is used. So pages of changes replace older records, older pages change nothing, and a known page is
  ignored. Each page is added whole or not at all. If a run was stopped or killed, or the disk was full, run add again
  with the same pages. Until then each scan reports these pages as left out. Each scan also reports what could not be
  read, until you add a good page. Without pages, `add` only derives again what other recipes derived, and what pages
  say together. --jobs is the number of further processes that read pages.
- status: writes how much is in the store, and when something was last added. It lists missing pages, unfinished runs of
  add, and what could not be read.
- check: reads the whole store. It compares the derived tables with the records, and the records of each page with a
  checksum of the added records.
- changes: writes which verdicts differ from the scan before, in the form of changes.sh, with the time of each scan. The
  verdicts are those by feeds and lists alone, without --settled. --since leaves out scans before this time. Scans with
  --all aren't compared, because the store doesn't keep their verdicts.
- forget: ends the reports about these files. Use forget for files that could not be read or added, and that you can't
  add again.

`scan.py --store FOLDER` scans from the store (store_file.py, store_writer.py and store_reader.py say how). The status
is 0 if add added all, or if another command found nothing missing or wrong. Status 1, with a report, means that
something was left out, is missing or is wrong. Status 2 means that there is no store, or the store can't be read or
written.
"""
from __future__ import annotations

import json
import os
from collections.abc import Callable, Iterator, Mapping, Sequence

from . import feeds, store_check
from .arguments import FLAG, ONE, Arguments, read_arguments
from .completeness import CALLED, MissingPages
from .console import Fatal, Messages, Output, escape
from .earlier_scans import EarlierScans
from .latest_records import time_of
from .page_readers import PageReaders
from .program import Program
from .progress import Progress
from .store_file import StoreFile
from .store_findings import report_faults, report_unended_runs, report_unread_files, stored_findings, update_findings
from .store_writer import KINDS, StoreWriter
from .table import format_count
from .unpack import HINTING_LIMITS, LARGE

USAGE = (
    "store.py add --store FOLDER [--large] [--jobs NUMBER] [PAGES..] | store.py status --store FOLDER | store.py check --store FOLDER | "
    "store.py changes --store FOLDER [--since TIME] | store.py forget --store FOLDER FILES.."
)
# What each word takes beside the folder: options, and whether it takes files.
_TAKES: Mapping[str, tuple[Mapping[str, int], bool | None]] = {
    "add": ({"--large": FLAG, "--jobs": ONE}, None),
    "status": ({}, False),
    "check": ({}, False),
    "changes": ({"--since": ONE}, False),
    "forget": ({}, True),
}


def run(words: Sequence[str]) -> int:
    verbs: Mapping[str, Callable[[str, Arguments, Messages, Output], None]] = {
        "add": _add,
        "status": _status,
        "check": _check,
        "changes": _changes,
        "forget": _forget,
    }
    if not words or words[0] not in verbs:
        raise Fatal(f"usage: {USAGE}")
    options, takes_files = _TAKES[words[0]]
    arguments = read_arguments(words[1:], {"--store": ONE, **options}, USAGE)
    folder = arguments.only("--store")
    if folder is None or takes_files not in (None, bool(arguments.files)):
        raise Fatal(f"usage: {USAGE}")
    messages, output = Messages(), Output()
    verbs[words[0]](folder, arguments, messages, output)
    output.end()
    return messages.status()


def _add(folder: str, arguments: Arguments, messages: Messages, output: Output) -> None:
    # (of a word that was mistyped nothing is noted)
    jobs = _jobs(arguments)
    for path in arguments.files:
        if not os.path.exists(path):
            raise Fatal(f"{path}: there is no such file; nothing was added")
    program = Program()
    with Progress() as progress:
        file = StoreFile(folder, is_made=True)
        adding = StoreWriter(file, messages)
        adding.derive_again()
        count = changed = 0
        if arguments.files:
            adding.begin(arguments.files)
            count, changed = _put(adding, arguments, jobs, messages, progress)
        progress.step("reading what the pages say together")
        update_findings(file, program)
        if arguments.files:
            adding.finish(arguments.files)
        file.close()
    were = f"; {adding.there} were there" if adding.there else ""
    output.line(f"added {format_count(count, 'page')}: {format_count(changed, 'record')} new or later{were}")


def _put(
    adding: StoreWriter, arguments: Arguments, jobs: int, messages: Messages, progress: Progress
) -> tuple[int, int]:
    """Adds the pages: how many they are, and how many of their records are new or later."""
    limits = LARGE if arguments.has("--large") else HINTING_LIMITS
    count = changed = 0
    progress.step("adding pages")
    with PageReaders(jobs, adding.is_there) as preparing:
        parts = preparing.ahead(feeds.parts(arguments.files, limits))
        for page in feeds.read_parts(parts, len(arguments.files), messages, preparing.pages, follower=adding):
            added = adding.put(page)
            if added is not None:
                count, changed = count + 1, changed + added
                progress.step(f"adding pages, {count} so far")
    adding.end()
    return count, changed


def _jobs(arguments: Arguments) -> int:
    given = arguments.only("--jobs")
    if given is not None and (not given.isdecimal() or int(given) == 0):
        raise Fatal(f"--jobs is {given}, and a number of processes is expected")
    return int(given or 1)


def _status(folder: str, arguments: Arguments, messages: Messages, output: Output) -> None:
    file = StoreFile(folder)
    with file.read_transaction():
        output.lines(list(_lines(file, messages)))
    file.close()


def _lines(file: StoreFile, messages: Messages) -> Iterator[str]:
    (pages, last) = file.rows("SELECT count(*), max(added) FROM pages")[0]
    yield f"{format_count(pages, 'page')}, the last one added {last}" if pages else "no page"
    for kind, table, more in (
        ("products", "products", ""),
        ("vulnerabilities", "advisories", " AND is_passed = 0"),
        ("matchStrings", "matches", ""),
    ):
        count = file.rows(f"SELECT count(*) FROM {table} WHERE 1{more}")[0][0]
        yield f"{CALLED[kind]}: {count:,}{_last(file, f'SELECT DISTINCT modified FROM {table} WHERE 1{more}')}"
    rejected, unanalysed = file.rows(
        "SELECT sum(state = 'Rejected'), sum(state != 'Rejected') FROM advisories WHERE is_passed = 0 AND state IS NOT NULL"
    )[0]
    yield f"of these rejected: {rejected or 0:,}, not analysed: {unanalysed or 0:,}"
    report_unended_runs(file, messages)
    report_unread_files(file, messages)
    report_faults(file, "matchStrings", None, messages)
    for (kind,) in file.rows("SELECT kind FROM unsettled"):
        messages.leave_out(
            CALLED[kind],
            "what their pages say together was not worked out by the run that added them; run store.py add",
        )
    for kind in KINDS:
        for one in stored_findings(file, kind):
            if "missing" in one:
                missing = MissingPages(*one["missing"])
                messages.leave_out(missing.files, f"{missing.words()}; {missing.where}")
            elif "remark" in one:
                messages.remark(one["remark"])


def _last(file: StoreFile, query: str) -> str:
    """The last of these times, in words; nothing if none is one."""
    times = (json.loads(modified) for (modified,) in file.each(query))
    last = max(
        ((time_of(one), one) for one in times if isinstance(one, str) and time_of(one) > time_of("")), default=None
    )
    return f", the last modified {last[1]}" if last else ""


def _check(folder: str, arguments: Arguments, messages: Messages, output: Output) -> None:
    file = StoreFile(folder)
    with file.read_transaction():
        count = store_check.check(file, Program(), messages)
    file.close()
    output.line(f"{format_count(count, 'record')} read again, {messages.left} wrong")


def _changes(folder: str, arguments: Arguments, messages: Messages, output: Output) -> None:
    since = arguments.only("--since")
    first = time_of(since or "")
    if since is not None and first == time_of(""):
        raise Fatal(f"--since is {since}, and a time is expected, such as 2026-12-31 or 2026-12-31T12:00:00+00:00")
    # (so that what is no store is said)
    StoreFile(folder).close()
    found = {
        (time, line)
        for fleet in EarlierScans(folder).all()
        for time, _, line in fleet.changes
        if time_of(time) >= first
    }
    output.lines([escape(f"{time} {line}") for time, line in sorted(found)])


def _forget(folder: str, arguments: Arguments, messages: Messages, output: Output) -> None:
    file = StoreFile(folder)
    known = StoreWriter(file, messages).forget(arguments.files)
    file.close()
    for path in arguments.files:
        if os.path.abspath(path) not in known:
            messages.leave_out(path, "it is no file that could not be read, or not be added to its end")
    output.line(f"forgot {format_count(len(known), 'file')}")
