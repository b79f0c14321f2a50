"""Advisories that people have accepted, each with a reason: lines `ID MACHINE REASON` of a file, where * is every
machine.

An accepted advisory isn't shown among those that affect a machine; it is listed with its reason.
"""
from __future__ import annotations

from collections.abc import Sequence
from dataclasses import dataclass

from .console import Fatal, Messages
from .feeds import FeedFault, name_of, read_feed

EVERY = "*"


@dataclass
class SuppressionLine:
    """A line of the file, and whether something was accepted by it."""

    place: str
    id: str
    machine: str
    reason: str
    is_used: bool = False


class Suppressions:
    """What is accepted."""

    def __init__(self, lines: list[SuppressionLine]) -> None:
        self._lines = lines
        self._found: dict[tuple[str, str], SuppressionLine] = {}
        for line in lines:
            self._found.setdefault((line.id, line.machine), line)

    def ids(self) -> set[str]:
        """The advisories that are accepted."""
        return {line.id for line in self._lines}

    def reason(self, id: str, machine: str | None) -> str | None:
        """Why this verdict is accepted, None if it isn't."""
        line = self._found.get((id, machine or "")) or self._found.get((id, EVERY))
        if line is None:
            return None
        line.is_used = True
        return line.reason

    def report_unused(self, messages: Messages) -> None:
        for line in self._lines:
            if not line.is_used:
                messages.remark(f"{line.place}: nothing is accepted by it: {line.id} {line.machine}")


def read_suppressions(paths: Sequence[str], messages: Messages) -> Suppressions:
    """What the files at these paths accept; a line that is none accepts nothing, and is said."""
    lines = []
    for path in paths:
        feed = name_of(path)
        try:
            text = read_feed(path).decode("utf-8-sig", errors="backslashreplace")
        except FeedFault as fault:
            raise Fatal(f"{feed}: {fault}") from fault
        for number, line in enumerate(text.split("\n"), 1):
            words = line.split(None, 2)
            if not words or words[0].startswith("#"):
                continue
            place = f"{feed} line {number}"
            if len(words) < 3:
                messages.leave_out(place, "it is not an id, a machine or *, and a reason")
            else:
                lines.append(SuppressionLine(place, words[0], words[1], words[2].strip()))
    return Suppressions(lines)
