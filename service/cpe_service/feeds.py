"""The accepted feeds, record by record. Of several records with one id the one counts that the recipes would use
(cpe_recipes.latest_records).

A page may be a part of its feed. Then the client names the fetch to which it belongs. The records of this fetch wait
until its pages are complete (cpe_recipes.completeness); then all of them count, in one transaction. So no verdict is
ever based on a part of a feed, or on pages of two fetches. If no page of a feed arrives for an hour, the feed is
removed, and the service reports it.
"""
from __future__ import annotations

import contextlib
import hashlib
import itertools
import json
import sqlite3
import tempfile
import time
from collections.abc import Callable, Iterable, Iterator, Mapping
from dataclasses import asdict, dataclass, field
from pathlib import Path

from cpe_recipes import advisories, completeness, dictionary, matches
from cpe_recipes.completeness import Span
from cpe_recipes.console import Fatal
from cpe_recipes.feeds import RECORDS, Json, Page
from cpe_recipes.feeds import pages as read_pages
from cpe_recipes.latest_records import LatestRecords, time_of
from cpe_recipes.unpack import Limits

from .database import new_edit, pack, read_transaction, unpack, write_transaction
from .message_list import MessageList

# The members of pages, with their names in the API.
CALLED = {"products": "dictionary", "vulnerabilities": "advisories", RECORDS: "advisories", "matchStrings": "matches"}
KINDS = tuple(dict.fromkeys((*dictionary.KINDS, *advisories.KINDS, *matches.KINDS)))
ARRIVING, WAITING, COUNTS = "arriving", "waiting", "counts"
_CHUNK = 2_000
# How long a feed waits for its next page; and how many finished feeds keep the checksums of their pages, to recognise
# pages that are sent again.
_SECONDS_WAITING, _KNOWN = 3_600, 1_000
# To how many bytes a page may unpack, and all pages of an archive. (All of NVD's matches are some GB.)
_LIMITS = Limits(most=1 << 30, most_of_all=8 << 30)


@dataclass(frozen=True)
class Offer:
    """A feed that a client sends: the name of the fetch to which its pages belong, and whether it replaces all feeds of
    its kind."""

    name: str
    is_whole: bool
    client: str


@dataclass
class ArrivingFile:
    """A file of pages while it is read: its checksum, the number of the feed that has its records meanwhile, its kind,
    and its parts of the feed. `is_unsaid` if a page doesn't have the total of its feed."""

    sum: str
    feed: int = 0
    kind: str = ""
    called: str = ""
    spans: list[Span] = field(default_factory=list)
    is_unsaid: bool = False


class Feeds:
    """Takes pages of feeds."""

    def __init__(self, database: sqlite3.Connection) -> None:
        self._database, self.messages = database, MessageList()

    def take(
        self, data: bytes, offer: Offer, keep: Callable[[dict[str, Json]], None] = lambda answer: None
    ) -> dict[str, Json]:
        """Takes the pages of a file. Fatal if one can't be read; then nothing is kept. `keep` writes the answer in the
        same transaction."""
        self.messages = MessageList()
        file = ArrivingFile(hashlib.sha256(data).hexdigest())
        try:
            for page in _pages_in(data, self.messages):
                self._arrive(file, page, offer)
            if offer.is_whole and not any(span.total for span in file.spans):
                raise Fatal("whole=true with no record would remove all of its kind")
            if file.is_unsaid:
                self.messages.remark("no totalResults, so it isn't known whether this is all of the feed")
            missing = _missing_of(file.kind, file.spans, self.messages)
            if missing and not offer.name:
                # (pages without a name could belong to two fetches)
                raise Fatal(
                    f"{missing[0]}: give the pages of a fetch a name (?feed=NAME), or put all of them into one file"
                )
            with write_transaction(self._database):
                self._give_up_old()
                if self._database.execute("SELECT 1 FROM feeds WHERE id = ?", (file.feed,)).fetchone() is None:
                    raise Fatal("reading it took too long, and what was read is given up: send it again")
                answer = self._put_part(file, offer) if missing else self._finished(file.feed, file.called, offer)
                answer |= {"remarks": self.messages.lines}
                keep(answer)
        except BaseException:
            # (what a full disk leaves behind is removed later)
            with contextlib.suppress(sqlite3.Error), write_transaction(self._database):
                self._drop(file.feed)
            raise
        return answer

    def _arrive(self, file: ArrivingFile, page: Page, offer: Offer) -> None:
        """Keeps a page of a file, which doesn't count yet. Fatal if it can't be read, or if the feed is declared as
        whole and the page
            can't have all of it.

            It is compressed before it is written, and written in pieces, so that other writers don't wait for long.
        """
        called = CALLED[page.kind]
        if file.called and called != file.called:
            raise Fatal(f"pages of {' and of '.join(sorted((called, file.called)))} are in it, and a feed has one kind")
        if not file.called:
            file.called = called
            with write_transaction(self._database):
                file.feed = self._new(called, offer)
        if "totalResults" in page.counts:
            span = completeness.span_of(page)
            for one in completeness.odd_of(page.kind, [span]):
                raise Fatal(f"{one.words()}; {one.where}")
            file.kind = page.kind
            file.spans.append(span)
        elif offer.is_whole:
            raise Fatal(
                "whole=true needs pages with totalResults, since it isn't known otherwise whether this is all of the feed"
            )
        elif page.kind != RECORDS:
            # (each CVE record is a feed of its own)
            file.is_unsaid = True
        rows = _rows(file.feed, page)
        while some := list(itertools.islice(rows, _CHUNK)):
            with write_transaction(self._database):
                self._database.execute("UPDATE feeds SET at = ? WHERE id = ?", (time.time(), file.feed))
                self._database.executemany(
                    "INSERT INTO records (feed, kind, key, modified, number, body) VALUES (?, ?, ?, ?, ?, ?)", some
                )

    def _put_part(self, file: ArrivingFile, offer: Offer) -> dict[str, Json]:
        """Adds pages that are a part of a named feed."""
        database, called, sum = self._database, file.called, file.sum
        finished = self._named(called, offer, COUNTS)
        if finished is not None:
            if database.execute("SELECT 1 FROM pages WHERE feed = ? AND sum = ?", (finished["id"], sum)).fetchone():
                # (the client didn't get the answer, and sends the pages again)
                self._drop(file.feed)
                return self._about(finished["id"], called) | {"state": COUNTS, "new": 0, "edit": finished["edit"]}
            raise Fatal(
                f"all pages of {offer.name} were there, as feed {finished['id']}: another fetch needs another name"
            )
        row = self._named(called, offer, WAITING)
        if row is not None and self._is_fetched_again(row["id"], file.spans, sum):
            row = None
        feed = file.feed if row is None else row["id"]
        database.execute(
            "UPDATE feeds SET state = ?, name = ?, at = ? WHERE id = ?", (WAITING, offer.name, time.time(), feed)
        )
        if database.execute("SELECT 1 FROM pages WHERE feed = ? AND sum = ?", (feed, sum)).fetchone() is None:
            text = json.dumps([asdict(span) for span in file.spans])
            database.execute("INSERT INTO pages VALUES (?, ?, ?, ?)", (feed, sum, offer.name, text))
            database.execute("UPDATE records SET feed = ? WHERE feed = ?", (feed, file.feed))
        if feed != file.feed:
            self._drop(file.feed)
        rows = database.execute("SELECT span FROM pages WHERE feed = ?", (feed,)).fetchall()
        missing = _missing_of(
            file.kind, [Span(**one) for row in rows for one in json.loads(row["span"])], self.messages
        )
        if missing:
            return self._about(feed, called) | {"state": WAITING, "missing": missing}
        return self._finished(feed, called, offer)

    def _finished(self, feed: int, called: str, offer: Offer) -> dict[str, Json]:
        """Makes a feed count, because all its pages are there."""
        answer = self._about(feed, called)
        self._count(feed, called, offer.is_whole)
        new = self._records(feed)
        edit = new_edit(self._database, "feed", f"{called} {feed}", offer.client) if new or offer.is_whole else None
        self._database.execute(
            "UPDATE feeds SET state = ?, edit = ?, at = ? WHERE id = ?", (COUNTS, edit, time.time(), feed)
        )
        # (the checksum recognises a page that is sent again)
        self._database.execute("UPDATE pages SET span = '[]' WHERE feed = ?", (feed,))
        self._database.execute(
            "DELETE FROM pages WHERE feed IN (SELECT id FROM feeds WHERE state = ? ORDER BY id DESC LIMIT -1 OFFSET ?)",
            (COUNTS, _KNOWN),
        )
        return answer | {"state": COUNTS, "new": new, "edit": edit}

    def _about(self, feed: int, called: str) -> dict[str, Json]:
        return {"feed": feed, "kind": called, "records": self._records(feed)}

    def _records(self, feed: int) -> int:
        return self._database.execute("SELECT count(*) FROM records WHERE feed = ?", (feed,)).fetchone()[0]

    def _new(self, called: str, offer: Offer) -> int:
        """The number of a new feed, whose pages arrive."""
        row = called, offer.is_whole, ARRIVING, time.time()
        number = self._database.execute(
            "INSERT INTO feeds (kind, name, is_whole, state, at) VALUES (?, '', ?, ?, ?)", row
        ).lastrowid
        assert number is not None
        return number

    def _named(self, called: str, offer: Offer, state: str) -> sqlite3.Row | None:
        """The number of the feed with this name. Fatal if its earlier pages were sent with another `whole`."""
        question = "SELECT id, is_whole, edit FROM feeds WHERE kind = ? AND name = ? AND state = ?"
        row = self._database.execute(question, (called, offer.name, state)).fetchone()
        if row is not None and bool(row["is_whole"]) != offer.is_whole:
            raise Fatal(
                f"the other pages of {offer.name} were sent {'with' if row['is_whole'] else 'without'} whole=true"
            )
        return row

    def _is_fetched_again(self, feed: int, spans: list[Span], sum: str) -> bool:
        """Whether a page of a waiting feed arrives with other records. Then the waiting pages are removed, which is
        reported."""
        rows = self._database.execute("SELECT span FROM pages WHERE feed = ? AND sum <> ?", (feed, sum)).fetchall()
        starts = {one["start"] for row in rows for one in json.loads(row["span"])}
        if starts.isdisjoint(span.start for span in spans):
            return False
        self._give_up(feed, "since a page of it arrives with other records")
        return True

    def _give_up_old(self) -> None:
        """Removes the feeds of which no page arrived for long."""
        question = "SELECT id, state FROM feeds WHERE state IN (?, ?) AND at < ?"
        for row in self._database.execute(question, (WAITING, ARRIVING, time.time() - _SECONDS_WAITING)).fetchall():
            if row["state"] == WAITING:
                self._give_up(row["id"], f"since no page of it arrived for {_SECONDS_WAITING // 60} minutes")
            else:
                # (a process ended while it wrote the feed, and no client had an answer)
                self._drop(row["id"])

    def _give_up(self, feed: int, why: str) -> None:
        self.messages.remark(f"feed {feed}, of which pages are missing, is given up, {why}")
        self._drop(feed)

    def _drop(self, feed: int) -> None:
        for table, column in (("pages", "feed"), ("records", "feed"), ("feeds", "id")):
            self._database.execute(f"DELETE FROM {table} WHERE {column} = ?", (feed,))

    def drop(self, feed: int, keep: Callable[[], None] = lambda: None) -> bool:
        """Removes a waiting feed. False if no feed with this number waits. `keep` writes the answer in the same
        transaction."""
        with write_transaction(self._database):
            is_there = (
                self._database.execute("SELECT 1 FROM feeds WHERE id = ? AND state = ?", (feed, WAITING)).fetchone()
                is not None
            )
            if is_there:
                self._drop(feed)
                keep()
        return is_there

    def _count(self, feed: int, called: str, is_whole: bool) -> None:
        """Makes the records of a feed count: of each key the later ones, and those of the same time that differ."""
        database = self._database
        kinds = [kind for kind, name in CALLED.items() if name == called]
        if is_whole:
            marks = ", ".join("?" * len(kinds))
            database.execute(
                f"DELETE FROM records WHERE feed <> ? AND kind IN ({marks}) AND {_COUNTING}", (feed, *kinds)
            )
        database.execute(f"DELETE FROM records WHERE id IN ({_OLDER})", {"feed": feed})
        twice = database.execute(
            "SELECT DISTINCT kind, key FROM records new WHERE feed = ? AND key <> '' AND EXISTS (SELECT 1 FROM records old WHERE old.kind = new.kind "
            f"AND old.key = new.key AND old.id <> new.id AND (old.feed = new.feed OR {_COUNTING_OLD}))",
            (feed,),
        ).fetchall()
        for row in twice:
            self._drop_older(row["kind"], row["key"], feed)
        # (a record without a key is kept once, and reported when it is read)
        database.execute(
            "DELETE FROM records WHERE feed = ? AND key = '' AND EXISTS (SELECT 1 FROM records old WHERE old.kind = records.kind "
            "AND old.key = '' AND old.id < records.id AND old.body = records.body)",
            (feed,),
        )

    def _drop_older(self, kind: str, key: str, feed: int) -> None:
        rows = self._database.execute(
            f"SELECT id, modified, body FROM records WHERE kind = ? AND key = ? AND (feed = ? OR {_COUNTING}) ORDER BY id",
            (kind, key, feed),
        ).fetchall()
        latest = LatestRecords()
        for row in rows:
            latest.put(key, row["modified"], unpack(row["body"]), (0, row["id"]))
        self._database.executemany("DELETE FROM records WHERE id = ?", [(number,) for _, number in latest.dropped])


_COUNTING = f"feed IN (SELECT id FROM feeds WHERE state = '{COUNTS}')"
_COUNTING_OLD = f"old.feed IN (SELECT id FROM feeds WHERE state = '{COUNTS}')"

# The older of each two records of a key, if the database can compare their times; cpe_recipes.latest_records decides
# the rest.
_TIME = "strftime('%Y-%m-%dT%H:%M:%fZ', {0}.modified, '+0 days') = rtrim({0}.modified, 'Z') || 'Z' AND {0}.modified > '0001'"
_OLDER = f"""
WITH keys AS (SELECT DISTINCT kind, key FROM records WHERE feed = :feed AND key <> ''),
two AS (
    SELECT min(one.id) first, max(one.id) last FROM keys JOIN records one ON one.kind = keys.kind AND one.key = keys.key
    WHERE one.feed = :feed OR one.{_COUNTING} GROUP BY keys.kind, keys.key HAVING count(*) = 2)
SELECT CASE WHEN rtrim(old.modified, 'Z') < rtrim(new.modified, 'Z') THEN old.id ELSE new.id END
FROM two JOIN records old ON old.id = first JOIN records new ON new.id = last
WHERE old.modified = new.modified AND old.body = new.body
OR rtrim(old.modified, 'Z') <> rtrim(new.modified, 'Z') AND {_TIME.format('old')} AND {_TIME.format('new')}
"""


def _pages_in(data: bytes, messages: MessageList) -> Iterator[Page]:
    """The pages of a file with these bytes, which may be packed. (The recipes read files, so the bytes are written to
    one.)"""
    with tempfile.TemporaryDirectory(prefix="cpe-service-") as folder:
        path = Path(folder, "page")
        path.write_bytes(data)
        try:
            yield from read_pages([str(path)], messages, KINDS, strict=True, limits=_LIMITS)
        except Fatal as fault:
            raise Fatal(str(fault).removeprefix(f"{path.name}: ")) from fault


def _missing_of(kind: str, spans: list[Span], messages: MessageList) -> list[str]:
    """The missing pages of the feed of these pages, in words."""
    return [f"{one.words()}; {one.where}" for one in completeness.missing_of(kind, spans, messages)]


def _rows(feed: int, page: Page) -> Iterator[tuple]:
    key_of = _KEYS[page.kind]
    for number, record in enumerate(page.records, 1):
        key, modified = key_of(record)
        body = json.dumps(record, ensure_ascii=False, separators=(",", ":"), sort_keys=False)
        yield feed, page.kind, key, modified, number, pack(body.encode(errors="surrogatepass"))


def _text(value: Json) -> str:
    return value if isinstance(value, str) and "\0" not in value and value.isprintable() else ""


def _inner(record: Json, name: str) -> Mapping[str, Json]:
    found = record.get(name) if isinstance(record, dict) else None
    return found if isinstance(found, dict) else {}


def _of_advisory(record: Json) -> tuple[str, str]:
    cve = _inner(record, "cve")
    return _text(cve.get("id")), _text(cve.get("lastModified"))


def _of_record(record: Json) -> tuple[str, str]:
    about = _inner(record, "cveMetadata")
    return _text(about.get("cveId")), _text(about.get("dateUpdated"))


def _of_product(record: Json) -> tuple[str, str]:
    product = _inner(record, "cpe")
    return _text(product.get("cpeName")), _text(product.get("lastModified"))


def _of_match(record: Json) -> tuple[str, str]:
    match = _inner(record, "matchString")
    # (a list changes with the dictionary, even if its match doesn't)
    modified = max((_text(match.get(key)) for key in ("lastModified", "cpeLastModified")), key=time_of)
    return _text(match.get("matchCriteriaId")), modified


_KEYS = {"products": _of_product, "vulnerabilities": _of_advisory, RECORDS: _of_record, "matchStrings": _of_match}


def pages_of(database: sqlite3.Connection, called: str) -> Iterator[Page]:
    """The records that count, as pages with the names of their feeds."""
    kinds = [kind for kind, name in CALLED.items() if name == called]
    marks = ", ".join("?" * len(kinds))
    rows = database.execute(
        f"SELECT feed, kind, number, body FROM records WHERE kind IN ({marks}) AND {_COUNTING} ORDER BY id", kinds
    )
    for (feed, kind), some in _grouped(rows):
        records = [json.loads(unpack(row["body"]).decode(errors="surrogatepass")) for row in some]
        yield Page(f"feed {feed}", kind, records, numbers=[row["number"] for row in some])


def _grouped(rows: Iterable[sqlite3.Row]) -> Iterator[tuple[tuple[int, str], list[sqlite3.Row]]]:
    """Groups consecutive rows of the same feed and kind, at most `_CHUNK` together."""
    key, some = None, []
    for row in rows:
        here = row["feed"], row["kind"]
        if some and (here != key or len(some) >= _CHUNK):
            yield key, some
            some = []
        key = here
        some.append(row)
    if some:
        yield key, some


def waiting_feeds(database: sqlite3.Connection) -> list[dict[str, Json]]:
    """The feeds that wait for pages."""
    with read_transaction(database):
        rows = database.execute(
            "SELECT id, kind, name, at FROM feeds WHERE state = ? ORDER BY id", (WAITING,)
        ).fetchall()
    return [dict(row) for row in rows]
