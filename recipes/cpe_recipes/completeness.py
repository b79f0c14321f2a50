"""Whether all pages of a feed are there. A missing page ends the recipe with an error; with --partial it is reported.

A page of NVD's API 2.0 has the number of records of its feed (`totalResults`), the index of its first record
(`startIndex`, from 0), and its own number of records (`resultsPerPage`). The order of pages doesn't matter. A page that
has all records of its feed is a feed of its own, such as that of a year. The others are of one feed if they have the
same total. A feed may grow by at most a hundredth while it is fetched. Then later pages have a higher total, and no
record may be there twice in place of another.
"""
from __future__ import annotations

from collections import Counter
from collections.abc import Iterable, Iterator, Sequence
from dataclasses import dataclass, field, replace

from . import feeds
from .arguments import FLAG, Arguments
from .console import Fatal, Messages, NoMessages
from .feeds import Json, Page
from .unpack import HINTING_LIMITS, LARGE, LIMITS, Limits

OPTIONS = {"--partial": FLAG, "--large": FLAG}
# What the records of a page are called.
CALLED = {"products": "products", "vulnerabilities": "advisories", "matchStrings": "match strings"}
# The members in which records have their ids.
_IDS = {
    "products": ("cpe", "cpeNameId"),
    "vulnerabilities": ("cve", "id"),
    "matchStrings": ("matchString", "matchCriteriaId"),
}
_MOST_TOLD = 3
_GROWTH = 100


@dataclass(frozen=True)
class MissingPages:
    """A feed of which something is missing: the member of its records, its files, how many it has and how many were
    given."""

    kind: str
    files: str
    total: int
    given: int
    where: str

    def words(self) -> str:
        """How much is there, in words."""
        return f"the feed has {self.total:,} {CALLED[self.kind]}, {self.given:,} were given"

    def json(self) -> dict[str, Json]:
        return {"feed": self.kind, "files": self.files, "total": self.total, "given": self.given}


@dataclass(frozen=True)
class ReadingPolicy:
    """How feeds are read: whether parts of them may be missing, and which are; and to how much a page may unpack."""

    is_partial: bool = False
    limits: Limits = LIMITS
    missing: list[MissingPages] = field(default_factory=list)

    @staticmethod
    def of(arguments: Arguments) -> ReadingPolicy:
        return ReadingPolicy(arguments.has("--partial"), LARGE if arguments.has("--large") else HINTING_LIMITS)

    def again(self) -> ReadingPolicy:
        """The same policy without the missing pages, for a feed whose missing pages are reported elsewhere."""
        return ReadingPolicy(self.is_partial, self.limits)

    def judge(self, missing: Iterable[MissingPages], messages: Messages, hint: str = "") -> None:
        """Notes missing pages, and reports them. Fatal if none may be missing."""
        for one in missing:
            if not self.is_partial:
                raise Fatal(f"{one.files}: {one.words()}; {one.where}{hint}")
            self.missing.append(one)
            messages.leave_out(one.files, f"{one.words()}; {one.where}")

    def doubts(self) -> list[str]:
        """Why a verdict that is FALSE could be another one: names may lead elsewhere, and matches may list more. (An
        advisory that is missing has no verdict.)"""
        return [one.words() for one in self.missing if one.kind != "vulnerabilities"]

    def mark(self, value: dict[str, Json]) -> dict[str, Json]:
        """The result of a scan, with what is missing, and with marks at each FALSE that could be another verdict by
        that."""
        doubts = self.doubts()
        for machine in value["machines"] if doubts else ():
            for one in machine.get("verdicts", ()):
                if one["verdict"] == "FALSE" and "settled" not in one:
                    one["hangsOn"] = doubts
        return value | ({"missing": [one.json() for one in self.missing]} if self.missing else {})

    def lines(self) -> Iterator[str]:
        """The lines below a table."""
        for one in self.missing:
            what = (
                "the others are not asked for"
                if one.kind == "vulnerabilities"
                else "so each FALSE may be another verdict"
            )
            yield f"not whole: {one.words()}; {what}"


@dataclass(frozen=True)
class Span:
    """A page as a part of its feed: the index of its first record, how many records it has, how many it claims to have,
    and the total of the feed. If it is only a part of its feed, or is kept in a store, it has the ids of its records
    too, or numbers in place of the ids."""

    name: str
    start: int
    count: int
    said: int
    total: int
    ids: Sequence[Json]

    def end(self) -> int:
        return self.start + self.count

    def is_alone(self) -> bool:
        return self.start == 0 and self.count == self.said == self.total


def pages(
    paths: Sequence[str],
    messages: Messages,
    kinds: Sequence[str],
    strict: bool = False,
    reading: ReadingPolicy | None = None,
) -> Iterator[Page]:
    """The pages at these paths, as feeds.pages yields them. After the last page, missing pages are reported, or are
    Fatal if none may be missing."""
    how = reading or ReadingPolicy()
    spans: dict[str, list[Span]] = {}
    unsaid: list[str] = []
    for page in feeds.pages(paths, messages, kinds, strict, how.limits):
        if page.kind in CALLED:
            if "totalResults" in page.counts:
                spans.setdefault(page.kind, []).append(span_of(page))
            else:
                unsaid.append(page.name)
        yield page
    report_uncounted(unsaid, messages)
    for kind, of_kind in spans.items():
        # (a recipe without the option gives no way to read)
        how.judge(
            missing_of(kind, of_kind, messages), messages, " (--partial lets it pass)" if reading is not None else ""
        )


def report_uncounted(names: Sequence[str], messages: Messages) -> None:
    """Remarks the pages that don't have the number of records of their feed."""
    if names:
        messages.remark(f"{some_of(names)}: no totalResults, so it isn't known whether this is all of the feed")


def missing_of(kind: str, spans: Sequence[Span], messages: Messages) -> list[MissingPages]:
    """What is missing of the feeds that have these pages. What is there twice is remarked."""
    return [*odd_of(kind, spans), *_missing(kind, spans, messages)]


def fault_of(page: Page) -> str:
    """Why it isn't known which part of its feed a page is; nothing if it is known, or if it doesn't say how many its
    feed has."""
    count, total = len(page.records), page.counts.get("totalResults")
    if total is None or "startIndex" in page.counts or count == total:
        return ""
    return f"it has {count:,} of {total:,} {CALLED[page.kind]}, and no startIndex that says which"


def span_of(page: Page) -> Span:
    fault = fault_of(page)
    if fault:
        raise Fatal(f"{page.name}: {fault}")
    count, total = len(page.records), page.counts["totalResults"]
    start, said = page.counts.get("startIndex", 0), page.counts.get("resultsPerPage", count)
    # (the last page may claim as many records as a full page has)
    said = min(said, max(total - start, 0))
    span = Span(page.name, start, count, said, total, ())
    return span if span.is_alone() else replace(span, ids=ids_of(page))


def ids_of(page: Page) -> list[Json]:
    """The ids of the records of a page; None for a record without one."""
    return [_id(record, page.kind) for record in page.records]


def _id(record: Json, kind: str) -> Json:
    outer, inner = _IDS[kind]
    found = record.get(outer) if isinstance(record, dict) else None
    id = found.get(inner) if isinstance(found, dict) else None
    return id if isinstance(id, str) else None


def stamps_of(page: Page) -> list[tuple[Json, Json, Json]]:
    """The ids of the records of a page, each with the times at which it was modified."""
    outer, _ = _IDS[page.kind]
    found = []
    for record in page.records:
        inner = record.get(outer) if isinstance(record, dict) else None
        times = (inner.get("lastModified"), inner.get("cpeLastModified")) if isinstance(inner, dict) else (None, None)
        found.append((_id(record, page.kind), *times))
    return found


def odd_of(kind: str, spans: Iterable[Span]) -> Iterator[MissingPages]:
    """Pages whose number of records isn't the claimed one, or that end after the end of their feed."""
    for span in spans:
        if span.count and span.end() > span.total:
            yield MissingPages(
                kind, span.name, span.total, span.count, f"it begins at startIndex {span.start:,}, and ends behind them"
            )
        elif span.count != span.said:
            yield MissingPages(kind, span.name, span.total, span.count, f"it says that it has {span.said:,} of them")


def missing_of_runs(kind: str, runs: Iterable[Sequence[Span]], messages: Messages) -> list[MissingPages]:
    """What is missing of feeds of which runs gave pages, one after the other. What a run gave is judged by itself, and
    if it isn't whole, with what is left of the runs before. It is no longer missing if a later feed is whole, as large,
    and has all that was given of it. The feeds of one page each that a run gave, such as those of years, count as one
    feed for that."""
    feeds_of_runs = _Runs(kind, messages)
    for spans in runs:
        feeds_of_runs.put(spans)
    found = {id(span): span for span in feeds_of_runs.odd}.values()
    return [*odd_of(kind, found), *_missing(kind, feeds_of_runs.left, messages)]


class _Runs:
    """What is left of the feeds of runs: pages that are odd, and those of feeds that aren't whole."""

    def __init__(self, kind: str, messages: Messages) -> None:
        self._kind, self._messages = kind, messages
        self.odd: list[Span] = []
        self.left: list[Span] = []
        # (by a page, the number of the last run that gave it)
        self._last: dict[int, int] = {}
        self._runs = 0
        # (pages of feeds that were whole, and those of them that were given again: they may belong to a later feed too,
        # and open none)
        self._closed: set[int] = set()
        self._spare: dict[tuple[int, int], Span] = {}

    def put(self, spans: Sequence[Span]) -> None:
        """Adds the pages of a run."""
        self._runs += 1
        self._last.update((id(span), self._runs) for span in spans)
        found, others = _parted(self._kind, spans)
        self._spare |= {(span.total, span.start): span for span in others if id(span) in self._closed}
        joined, self.left = _parted(
            self._kind, _each_once([*self.left, *(span for span in others if id(span) not in self._closed)])
        )
        if self.left and self._spare:
            filled, rest = _parted(self._kind, [*self.left, *self._spare.values()])
            joined += [feed for feed in filled if any(id(span) not in self._closed for span in feed)]
            self.left = [span for span in rest if id(span) not in self._closed]
        self.odd += [span for span in spans if any(odd_of(self._kind, [span]))]
        for feed in [*found, *joined]:
            self._end(feed)
        self._drop([span for span in spans if span.is_alone()], self._runs)

    def _end(self, feed: Sequence[Span]) -> None:
        """Takes a feed that is whole, and with it what it ends."""
        list(_judged(self._kind, feed, self._messages))
        self._closed.update(map(id, feed))
        self._spare = {key: span for key, span in self._spare.items() if all(span is not one for one in feed)}
        self._drop(feed, min(self._last[id(span)] for span in feed))

    def _drop(self, feed: Sequence[Span], since: int) -> None:
        """Drops what a feed ends that was given since this run."""
        self.odd = [span for span in self.odd if not self._is_ended([span], feed, since)]
        left = [span for span in self.left if id(span) not in self._closed]
        self.left = [span for group in _feeds(left) if not self._is_ended(group, feed, since) for span in group]

    def _is_ended(self, group: Sequence[Span], feed: Sequence[Span], since: int) -> bool:
        return max(self._last[id(span)] for span in group) < since and _ends(feed, group)


def _each_once(spans: Iterable[Span]) -> list[Span]:
    return list({id(span): span for span in spans}.values())


def _parted(kind: str, spans: Sequence[Span]) -> tuple[list[list[Span]], list[Span]]:
    """The feeds that are whole, and the pages of the others."""
    whole_ones: list[list[Span]] = []
    others: list[Span] = []
    for feed in _feeds(spans):
        if any(_judged(kind, feed, NoMessages())):
            others.extend(feed)
        else:
            whole_ones.append(feed)
    return whole_ones, others


def _ends(feed: Sequence[Span], other: Sequence[Span]) -> bool:
    """Whether a feed that is whole is as large as another one, and has all that was given of it."""
    given = {id for span in other for id in span.ids}
    is_as_large = _size(feed) >= max(span.total for span in other)
    return bool(given) and None not in given and is_as_large and given.issubset(id for span in feed for id in span.ids)


def _size(feed: Sequence[Span]) -> int:
    """How many records a feed that is whole has; those of feeds of one page each are counted together, each once."""
    if all(span.is_alone() for span in feed):
        return len({id for span in feed for id in span.ids} - {None})
    return max(span.total for span in feed)


def _missing(kind: str, spans: Sequence[Span], messages: Messages) -> Iterator[MissingPages]:
    """The feeds that aren't whole. What is there twice is remarked."""
    for feed in _feeds(spans):
        yield from _judged(kind, feed, messages)


def _feeds(spans: Sequence[Span]) -> Iterator[list[Span]]:
    """The pages of each feed, or of all that say the same total."""
    groups: dict[int, list[Span]] = {}
    for span in spans:
        if not span.is_alone() and span.end() <= span.total:
            groups.setdefault(span.total, []).append(span)
    grown: list[Span] = []
    for total, group in sorted(groups.items()):
        if not _gaps(group, total, _times(group, total)):
            yield group
        elif _is_growing([*grown, *group]):
            grown = [*grown, *group]
        else:
            if grown:
                yield grown
            grown = group
    if grown:
        yield grown


def _times(spans: Sequence[Span], total: int) -> int:
    """Of how many feeds these are pages, at least, if each has this many records."""
    # (a record without an id can't be recognised a second time)
    return max(1, -(-len({id for span in spans for id in span.ids} - {None}) // max(total, 1)))


def _is_growing(spans: Sequence[Span]) -> bool:
    """Whether these may be pages of one feed that grew while it was fetched. (Of two feeds there are more records than
    one has.)"""
    totals = [span.total for span in sorted(spans, key=lambda span: (span.start, span.total))]
    grew = totals[-1] - totals[0]
    return totals == sorted(totals) and grew * _GROWTH <= max(totals[-1], _GROWTH) and _distinct(spans) <= totals[-1]


def _judged(kind: str, spans: Sequence[Span], messages: Messages) -> Iterator[MissingPages]:
    """What is missing of one feed."""
    total, least = max(span.total for span in spans), min(span.total for span in spans)
    files = some_of([span.name for span in spans])
    times = _times(spans, total)
    gaps = _gaps(spans, total, times)
    if gaps and times > 1:
        where = f"they are pages of {times} feeds of {total:,} each, and in one those of startIndex {_ranges(gaps)} are missing"
        yield MissingPages(kind, files, total * times, _distinct(spans), where)
        return
    if gaps:
        given = total - sum(end - start for start, end in gaps)
        yield MissingPages(kind, files, total, given, f"those of startIndex {_ranges(gaps)} are missing")
        return
    distinct = _distinct(spans)
    if distinct < total and times == 1:
        yield MissingPages(kind, files, total, distinct, "others are there twice in their place")
        return
    if least < total:
        messages.remark(f"{files}: the feed grew from {least:,} to {total:,} {CALLED[kind]} while it was fetched")
    twice = sum(span.count for span in spans) - total * times
    if twice > 0:
        messages.remark(f"{files}: pages overlap, {twice:,} {CALLED[kind]} are there twice")


def _ranges(gaps: Sequence[tuple[int, int]]) -> str:
    """The first of these gaps in words, and how many more there are."""
    more = f" and {len(gaps) - _MOST_TOLD:,} more parts" if len(gaps) > _MOST_TOLD else ""
    return ", ".join(f"{start:,} to {end - 1:,}" for start, end in gaps[:_MOST_TOLD]) + more


def _gaps(spans: Iterable[Span], total: int, times: int = 1) -> list[tuple[int, int]]:
    """The indexes that fewer pages have than this, as begins and ends."""
    edges: Counter[int] = Counter()
    for span in spans:
        edges[span.start] += 1
        edges[span.end()] -= 1
    found: list[tuple[int, int]] = []
    begin = depth = 0
    for end in sorted({*edges, total}):
        if depth < times and end > begin:
            is_next = found and found[-1][1] == begin
            found.append((found.pop()[0] if is_next else begin, end))
        depth, begin = depth + edges[end], end
    return found


def _distinct(spans: Iterable[Span]) -> int:
    """How many records there are, each once; one without an id is one of its own."""
    ids = [id for span in spans for id in span.ids]
    return len(set(ids) - {None}) + ids.count(None)


def some_of(names: Sequence[str]) -> str:
    """The first of these names, each once, and how many more there are."""
    found = list(dict.fromkeys(names))
    more = f" and {len(found) - _MOST_TOLD:,} more" if len(found) > _MOST_TOLD else ""
    return ", ".join(found[:_MOST_TOLD]) + more
