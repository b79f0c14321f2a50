"""Which of several records with one id counts, for example of an advisory in the file of a year and in that of modified
ones: the record that was modified last, whatever the order of the files.

If two different records have the same time, or none has one, both are kept, because it isn't known which of them
counts.
"""
from __future__ import annotations

from collections.abc import Iterable, Sequence
from datetime import datetime, timezone

from . import cve5
from .console import Messages
from .feeds import ADVISORIES, RECORDS, Json, Page

_NEVER = datetime.min.replace(tzinfo=timezone.utc)
# The number of a page, and that of a record in its list.
Place = tuple[int, int]


def time_of(text: Json) -> datetime:
    """The time of a text of ISO 8601, in UTC if it names no zone; the earliest possible time if the text is none."""
    try:
        found = datetime.fromisoformat(text)
        return found.replace(tzinfo=timezone.utc) if found.tzinfo is None else found.astimezone(timezone.utc)
    except (TypeError, ValueError, OverflowError):
        return _NEVER


class LatestRecords:
    """Finds which records of an id count. They are put one after the other."""

    def __init__(self) -> None:
        self._found: dict[str, list[tuple[Json, Json, Place]]] = {}
        self._older: set[str] = set()
        self.dropped: set[Place] = set()

    def put(self, id: Json, modified: Json, record: Json, place: Place) -> None:
        """Adds a record. Afterwards `dropped` has the places of records that don't count."""
        if not isinstance(id, str):
            return
        known = self._found.setdefault(id, [])
        known.append((record, modified, place))
        if len(known) > 1:
            self._found[id] = self._kept(id, known)

    def _kept(self, id: str, known: Sequence[tuple[Json, Json, Place]]) -> list[tuple[Json, Json, Place]]:
        last = max(time_of(modified) for _, modified, _ in known)
        kept: list[tuple[Json, Json, Place]] = []
        for one in known:
            is_older = time_of(one[1]) < last
            if is_older or any(one[0] == other[0] for other in kept):
                self.dropped.add(one[2])
            else:
                kept.append(one)
            if is_older:
                self._older.add(id)
        return kept

    def ids(self) -> set[str]:
        return set(self._found)

    def of(self, id: str) -> list[tuple[Json, Place]]:
        """The records of an id that count, with their places."""
        return [(record, place) for record, _, place in self._found[id]]

    def report(self, messages: Messages) -> None:
        if self._older:
            messages.remark(describe_older(len(self._older), "advisory", "advisories"))


def describe_older(count: int, one: str, more: str) -> str:
    """The sentence that this many records are there more than once."""
    return f"{count:,} {f'{one} is' if count == 1 else f'{more} are'} there more than once: the last modified counts"


def advisories(pages: Iterable[Page], messages: Messages) -> list[Page]:
    """The pages with only those advisories that count, CVE records among them in NVD's form. How many have older
    records is remarked.

    If NVD has analysed an advisory, its CVE record doesn't count. Otherwise NVD's doesn't count if the CVE record has
    names.
    """
    found = [_in_form(page) if page.kind == RECORDS else page for page in pages]
    latest, records = LatestRecords(), LatestRecords()
    for number, page in enumerate(found):
        of_page = records if page.is_of_records else latest
        for place, record in enumerate(page.records):
            cve = record.get("cve") if isinstance(record, dict) else None
            if isinstance(cve, dict):
                of_page.put(cve.get("id"), cve.get("lastModified"), record, (number, place))
    latest.report(messages)
    records.report(messages)
    return _without(found, latest.dropped | records.dropped | _passed_over(latest, records))


def _in_form(page: Page) -> Page:
    return Page(page.name, ADVISORIES, [cve5.vulnerability(record) for record in page.records], is_of_records=True)


def _passed_over(latest: LatestRecords, records: LatestRecords) -> set[Place]:
    """Of advisories that both have, the places of those that don't count."""
    passed: set[Place] = set()
    for id in records.ids() & latest.ids():
        is_analysed = any(record["cve"].get("configurations") for record, _ in latest.of(id))
        has_names = any(record["cve"].get("configurations") for record, _ in records.of(id))
        passed.update(place for _, place in (records if is_analysed or not has_names else latest).of(id))
    return passed


def _without(pages: Sequence[Page], dropped: set[Place]) -> list[Page]:
    touched = {number for number, _ in dropped}
    return [
        page.only([k for k in range(len(page.records)) if (number, k) not in dropped]) if number in touched else page
        for number, page in enumerate(pages)
    ]
