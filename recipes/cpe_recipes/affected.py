"""A readable table of verdicts, from the output of `cpe evaluate` or of a fleet.

    sh affected.sh [--details FILE] [--suppress FILE] [--settled FILE] [--records FILE] [--ranges FILE] [--decided FILE]
        [--kev FILE] [--epss FILE] [FILE]

For each machine the table has the advisories that are TRUE, and then those that are ERROR or UNKNOWN. The last line
counts the verdicts of each kind. A machine without items is reported.

- --details: the file of scores and titles that `advisories.sh --details` wrote. With this file the verdicts with the
  highest scores are first.
- --suppress: accepted advisories, lines `ID MACHINE REASON`; * is every machine. Accepted advisories are written below
  the table.
- --settled: UNKNOWNs that a user settled, lines `MACHINE ID TRUE|FALSE REASON`; * is every machine (settlements.py).
- --records: the records that were evaluated. With them the table says what an UNKNOWN depends on: the checks of its
  statement that have no result in the records.
- --decided: the output of `decide.py`, which has results of further checks.
- --ranges: the file that `advisories.sh --ranges` wrote. With it the table has the product and bounds of a range that
  isn't decided.
- --kev, --epss: CISA's list of known exploited vulnerabilities, and EPSS (threats.py). Each option adds a column. Known
  exploited advisories are then first. Among equal scores the highest EPSS is first.

Each option except --kev and --epss may be given several times. The status is 1 if a record was refused, a machine has
no items, or a line of --suppress or --settled is wrong. If the verdicts are cut off, the status is 2, and nothing is
written.
"""
from __future__ import annotations

from collections import Counter
from collections.abc import Iterator
from dataclasses import dataclass, field
from typing import Protocol

from . import threats
from .arguments import ONE, Arguments, read_arguments
from .console import Fatal, Messages, Output, escape
from .feeds import Json
from .fleet import ResultsByMachine, read_results
from .open_checks import OpenChecks, json_lines, read_range_list, records_with_checks
from .scores import score_of
from .settlements import read_settlements
from .suppressions import Suppressions, read_suppressions
from .table import cut, format_count, table
from .threats import Threats
from .verdicts import TRUTHS, Machine, Verdicts, read_verdicts

USAGE = (
    "affected.sh [--details FILE] [--suppress FILE] [--settled FILE] [--records FILE] [--ranges FILE] [--decided FILE] "
    "[--kev FILE] [--epss FILE] [FILE]"
)
OPTIONS = (
    dict.fromkeys(("--details", "--suppress", "--settled", "--records", "--ranges", "--decided"), ONE) | threats.OPTIONS
)
# The columns of a table, before and behind those of what is exploited.
HEADER = (("MACHINE", "VERDICT", "ADVISORY", "SCORE"), ("TITLE", "DEPENDS ON"))
_TITLE_WIDTH = 60
_MOST_HANGING = 3


class VerdictReasons(Protocol):
    """Knows, in words, on what an UNKNOWN of a machine depends, and the remarks about a TRUE."""

    def on(self, advisory: str, machine: str | None) -> list[str]:
        ...

    def remarks(self, advisory: str, machine: str | None) -> list[str]:
        ...


@dataclass(frozen=True, slots=True)
class AdvisoryCells:
    """The score of an advisory, below 0 if it has none, its place among others of the same verdict, and its cells in a
    table: the score, what is known of how it is exploited, and the title."""

    score: float
    order: tuple[bool, float, float]
    score_cell: str
    threat_cells: tuple[str, ...]
    title_cell: str


@dataclass
class AdvisoryContext:
    """Everything that is written beside the verdicts of advisories; `doubts` are why a FALSE could be another
    verdict."""

    details: dict[str, Json]
    suppressions: Suppressions
    verdict_reasons: VerdictReasons
    doubts: list[str] = field(default_factory=list)
    threats: Threats = Threats()
    accepted: list[tuple[str | None, str, str, str]] = field(default_factory=list)
    _cells: dict[str, AdvisoryCells] = field(default_factory=dict)

    def cells(self, id: str) -> AdvisoryCells:
        """The cells of an advisory in the table, which are the same for each machine."""
        found = self._cells.get(id)
        if found is None:
            detail = self.details.get(id, {})
            score = score_of(detail.get("score"))
            title = cut(str(detail.get("title") or ""), _TITLE_WIDTH)
            number, cell = (-1.0, "") if score is None else (float(score), str(score))
            found = self._cells[id] = AdvisoryCells(
                number, self.threats.order(id, number), cell, self.threats.cells(id), title
            )
        return found

    def accepted_for(self, id: str, truth: str, machine: str | None) -> str | None:
        """Why this verdict is accepted; None if it isn't. A FALSE is never accepted."""
        return None if truth == "FALSE" else self.suppressions.reason(id, machine)


def run(words: list[str]) -> int:
    arguments = read_arguments(words, OPTIONS, USAGE)
    if len(arguments.files) > 1:
        raise Fatal(f"usage: {USAGE}")
    messages, output = Messages(), Output()
    verdicts = read_verdicts(arguments.files[0] if arguments.files else None)
    about = about_of(arguments, messages)
    read_settlements(arguments.many("--settled"), messages).settle(verdicts.machines, messages)
    output.lines(table_of(verdicts, about))
    output.end()
    report_left_out(verdicts, about, messages)
    return messages.status()


def report_left_out(verdicts: Verdicts, about: AdvisoryContext, messages: Messages) -> None:
    """What the verdicts know nothing of."""
    about.suppressions.report_unused(messages)
    # (most machines share theirs)
    statements = {id(machine.statements): machine.statements for machine in verdicts.machines}.values()
    about.threats.report(
        {advisory for one in statements for advisory in one.advisories}, (), messages, "not among the statements"
    )
    if verdicts.refused:
        messages.leave_out("the records", f"{format_count(verdicts.refused, 'line')} refused")
    for machine in verdicts.machines:
        if not machine.has_items:
            messages.leave_out(machine.name or "", "no items")


def about_of(arguments: Arguments, messages: Messages) -> AdvisoryContext:
    """The scores, titles and reasons that the options name."""
    details = {}
    for record in json_lines(arguments.many("--details")):
        if not isinstance(record, dict) or not isinstance(record.get("id"), str):
            raise Fatal("--details: a line has no id")
        details[record["id"]] = record
    decided: ResultsByMachine = {}
    for path in arguments.many("--decided"):
        for machine, results in read_results(path).items():
            decided.setdefault(machine, []).extend(results)
    verdict_reasons = OpenChecks(
        records_with_checks(arguments.many("--records")), read_range_list(arguments.many("--ranges")), decided
    )
    return AdvisoryContext(
        details,
        read_suppressions(arguments.many("--suppress"), messages),
        verdict_reasons,
        threats=Threats.of(arguments, messages),
    )


def table_of(verdicts: Verdicts, about: AdvisoryContext) -> Iterator[str]:
    """The lines of the table, and those below it."""
    rows = [row for machine in verdicts.machines for row in _rows(machine, about)]
    columns = (*HEADER[0], *about.threats.header(), *HEADER[1])
    header = columns if verdicts.has_machines else columns[1:]
    if not verdicts.has_machines:
        rows = [row[1:] for row in rows]
    yield from table(header, rows, optional=("SCORE", "TITLE", "DEPENDS ON"))
    yield ""
    yield from (_accepted_line(*one) for one in about.accepted)
    yield _count(verdicts, about)


def _rows(machine: Machine, about: AdvisoryContext) -> Iterator[list[str]]:
    name = machine.name or ""
    if not machine.has_items:
        yield [name, "", "no items", "", *("" for _ in about.threats.header()), "", ""]
    shown = sorted(machine.shown.items(), key=lambda row: (machine.rank(row[0]), about.cells(row[0]).order))
    for id, truth in shown:
        reason = about.accepted_for(id, truth, machine.name)
        if reason is not None:
            about.accepted.append((machine.name, id, truth, reason))
            continue
        told = about.cells(id)
        yield [
            name,
            truth,
            id,
            told.score_cell,
            *told.threat_cells,
            told.title_cell,
            _some(_cells_of(machine, id, truth, about)),
        ]


def _cells_of(machine: Machine, id: str, truth: str, about: AdvisoryContext) -> list[str]:
    """The words in the last column of a row."""
    if id in machine.settled:
        return [machine.settled[id].words()]
    if truth == "FALSE":
        return about.doubts
    tells = {"UNKNOWN": about.verdict_reasons.on, "TRUE": about.verdict_reasons.remarks}
    return tells[truth](id, machine.name) if truth in tells else []


def _some(texts: list[str]) -> str:
    more = f"; and {len(texts) - _MOST_HANGING} more" if len(texts) > _MOST_HANGING else ""
    return "; ".join(texts[:_MOST_HANGING]) + more


def _accepted_line(machine: str | None, id: str, truth: str, reason: str) -> str:
    where = "" if machine is None else f"{machine} "
    return escape(f"accepted {where}{id} {truth}: {reason}")


def _count(verdicts: Verdicts, about: AdvisoryContext) -> str:
    counts: Counter[str] = Counter()
    for machine in verdicts.machines:
        counts.update(machine.kind(id) for id in machine.shown)
        counts["FALSE"] += machine.statements.count - len(machine.shown)
        counts["strict"] += sum(machine.kind(id) == "FALSE" for id in machine.perhaps)
    by_name = {machine.name: machine for machine in verdicts.machines}
    counts.subtract(by_name[name].kind(id) for name, id, _, _ in about.accepted)
    numbers = ", ".join(f"{counts[truth]} {truth}" for truth in TRUTHS if truth != "FALSE")
    numbers += f", {counts['perhaps']} perhaps" if counts["perhaps"] else ""
    numbers += f", {counts['FALSE']} FALSE" + (f", of which {counts['strict']} perhaps" if counts["strict"] else "")
    accepted = f", {len(about.accepted)} accepted" if about.accepted else ""
    settled = sum(len(machine.settled) for machine in verdicts.machines)
    accepted += f", {settled} settled" if settled else ""
    if not verdicts.has_machines:
        return f"{format_count(verdicts.machines[0].statements.count, 'statement')}: {numbers}{accepted}"
    bare = sum(not machine.has_items for machine in verdicts.machines)
    of_these = f", {bare} without items" if bare else ""
    return f"{format_count(len(verdicts.machines), 'machine')}{of_these}: {numbers}{accepted}"
