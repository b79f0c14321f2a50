"""Verdicts that a user settled, each with a reason: lines `MACHINE ADVISORY TRUE|FALSE REASON` of a file, where * is
every machine.

A line settles an UNKNOWN: the verdict becomes the one in the line, and is written as settled, with the reason. If feeds
and lists decide a verdict by themselves, it isn't settled, and a remark names each line that differs from it:

- TRUE stays TRUE, so a line never hides a machine;
- FALSE becomes TRUE if a line with TRUE names the machine, and is written as settled. A line for every machine (`*`)
  never turns FALSE into TRUE.

A line for a machine has precedence over one for every machine. If lines contradict each other, none of them counts. A
wrong line is reported, and settles nothing. A line that settles nothing is remarked.
"""
from __future__ import annotations

from collections.abc import Iterable, Sequence
from dataclasses import dataclass

from .console import Fatal, Messages
from .feeds import FeedFault, name_of, read_feed, text_lines
from .suppressions import EVERY
from .verdicts import Machine, Settlement

_TRUTHS = ("TRUE", "FALSE")


@dataclass
class SettlementLine:
    """A line of a file, and whether it settled a verdict or was remarked."""

    place: str
    machine: str
    id: str
    truth: str
    reason: str
    is_used: bool = False


class Settlements:
    """The settlements of files."""

    def __init__(self, lines: Iterable[SettlementLine], messages: Messages) -> None:
        self._lines: dict[tuple[str, str], SettlementLine] = {}
        self._doubled: list[SettlementLine] = []
        odd: set[tuple[str, str]] = set()
        for line in lines:
            key = line.machine, line.id
            before = self._lines.setdefault(key, line)
            if before is not line and before.truth != line.truth:
                messages.leave_out(
                    line.place, f"it contradicts {before.place}, and neither settles {line.id} on {line.machine}"
                )
                odd.add(key)
            elif before is not line:
                self._doubled.append(line)
        for key in odd:
            del self._lines[key]
        self._of_machines: dict[str, list[SettlementLine]] = {}
        for line in self._lines.values():
            self._of_machines.setdefault(line.machine, []).append(line)

    def ids(self) -> set[str]:
        """The advisories that some line settles."""
        return {id for _, id in self._lines}

    def settle(self, machines: Iterable[Machine], messages: Messages) -> None:
        """Settles verdicts of machines; remarks lines that differ from a decided verdict, and lines that settle
        nothing."""
        for machine in machines:
            name = machine.name or ""
            for id, truth in list(machine.shown.items()):
                line = self._lines.get((name, id)) or self._lines.get((EVERY, id))
                if line is not None and truth == "UNKNOWN":
                    _put(machine, line)
                elif line is not None and truth != line.truth:
                    _report(line, name, truth, f"it stays {truth}", messages)
            self._settle_false(machine, messages)
        for line in [*self._lines.values(), *self._doubled]:
            if not line.is_used:
                messages.remark(f"{line.place}: nothing is settled by it: {line.machine} {line.id}")

    def _settle_false(self, machine: Machine, messages: Messages) -> None:
        """Settles verdicts that are FALSE by feeds and lists, and TRUE by a line for this machine."""
        for line in self._of_machines.get(machine.name or "", ()):
            if line.truth == "TRUE" and machine.truth(line.id) == "FALSE" and line.id not in machine.settled:
                _report(line, machine.name or "", "FALSE", "it is TRUE as settled", messages)
                _put(machine, line, "FALSE")


def _put(machine: Machine, line: SettlementLine, before: str = "UNKNOWN") -> None:
    line.is_used = True
    machine.settle(line.id, Settlement(line.truth, line.reason, before))


def _report(line: SettlementLine, machine: str, truth: str, so: str, messages: Messages) -> None:
    line.is_used = True
    where = f" on {machine}" if machine else ""
    messages.remark(
        f"{line.place}: {line.id}{where} is settled as {line.truth}, and is {truth} by the feeds and lists; {so}"
    )


def read_settlements(paths: Sequence[str], messages: Messages) -> Settlements:
    """The settlements in the files at these paths; a wrong line settles nothing, and is reported."""
    lines = []
    for path in paths:
        feed = name_of(path)
        try:
            text = read_feed(path).decode("utf-8-sig", errors="backslashreplace")
        except FeedFault as fault:
            raise Fatal(f"{feed}: {fault}") from fault
        for number, line in enumerate(text_lines(text), 1):
            words = line.split(None, 3)
            if not words or words[0].startswith("#"):
                continue
            place = f"{feed} line {number}"
            if len(words) < 4 or words[2] not in _TRUTHS:
                messages.leave_out(place, "it is not a machine or *, an advisory, TRUE or FALSE, and a reason")
            else:
                lines.append(SettlementLine(place, words[0], words[1], words[2], words[3].strip()))
    return Settlements(lines, messages)
