"""Advisories of the feeds without a verdict: not analysed yet, so without configurations, or rejected.

What isn't analysed concerns perhaps every machine, and is neither TRUE nor FALSE on one: it is counted in one remark,
listed where all is asked for, and is no reason for another status. A verdict that was TRUE before is `none` then, and
never FALSE.
"""
from __future__ import annotations

from collections.abc import Iterable, Iterator
from dataclasses import dataclass, field

from .console import Messages, escape, shorten
from .feeds import Json, Page

REJECTED = "Rejected"
# The state of an advisory whose record has no status.
_NO_STATUS = "of no status"


@dataclass
class States:
    """The advisories without verdicts, by their ids."""

    unanalysed: dict[str, str] = field(default_factory=dict)
    rejected: dict[str, None] = field(default_factory=dict)

    def sort(self, pages: Iterable[Page]) -> list[Page]:
        """The pages with those alone that can have a verdict, or that can't be read. The others are noted."""
        found = []
        for page in pages:
            kept = [place for place, record in enumerate(page.records) if not self._note(record)]
            found.append(page if len(kept) == len(page.records) else page.only(kept))
        return found

    def _note(self, record: Json) -> bool:
        """Notes an advisory that has no verdict."""
        state = state_of(record)
        if state is not None:
            self.put(record["cve"]["id"], state)
        return state is not None

    def put(self, id: str, state: str) -> None:
        """Adds an advisory that has no verdict."""
        if state == REJECTED:
            self.rejected[id] = None
        else:
            self.unanalysed[id] = state

    def drop(self, ids: Iterable[str]) -> None:
        """Removes the advisories that have a verdict after all, because another record of the same id has one."""
        for id in ids:
            self.unanalysed.pop(id, None)
            self.rejected.pop(id, None)

    def report(self, messages: Messages) -> None:
        for id in self.rejected:
            messages.remark("rejected", id)
        if self.unanalysed:
            number = len(self.unanalysed)
            messages.remark(f"not analysed: {number:,} {'advisory' if number == 1 else 'advisories'}")

    def lines(self) -> Iterator[str]:
        """A line for each advisory that isn't analysed, for people."""
        return (escape(f"not analysed {shorten(id)}: {shorten(status)}") for id, status in self.unanalysed.items())

    def json(self, asked: Iterable[str]) -> dict[str, Json]:
        """The ids of those that have a verdict, and of those that have none, by their statuses."""
        by_status: dict[str, list[str]] = {}
        for id, status in self.unanalysed.items():
            by_status.setdefault(status, []).append(id)
        return {"asked": list(asked), "notAnalysed": by_status, "rejected": list(self.rejected)}


def state_of(record: Json) -> str | None:
    """Why an advisory has no verdict: that it was rejected, or its status if it isn't analysed. None of any other."""
    cve = record.get("cve") if isinstance(record, dict) else None
    if not isinstance(cve, dict):
        return None
    id, status = cve.get("id"), cve.get("vulnStatus")
    if not isinstance(id, str) or not id or not (status is None or isinstance(status, str)):
        return None
    if status == REJECTED:
        return REJECTED
    return (status or _NO_STATUS) if cve.get("configurations") in (None, [], False) else None


def is_rejected(record: Json) -> bool:
    """Whether a record is that of an advisory that was rejected."""
    cve = record.get("cve") if isinstance(record, dict) else None
    return isinstance(cve, dict) and cve.get("vulnStatus") == REJECTED


def id_of(record: Json) -> str | None:
    """The id of an advisory, if it has one."""
    cve = record.get("cve") if isinstance(record, dict) else None
    id = cve.get("id") if isinstance(cve, dict) else None
    return id if isinstance(id, str) and id else None
