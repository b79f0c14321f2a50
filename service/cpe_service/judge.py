"""Judges machines by a ground, by the steps of `scan.py`; the steps that are the same for all machines are done once
(judge_cache.py).

If a machine was judged by an older ground, only the advisories are evaluated that changed since then
(ground_changes.py).
"""
from __future__ import annotations

import functools
from collections.abc import Sequence
from dataclasses import dataclass, replace

from cpe_recipes import affected
from cpe_recipes.components import Machine
from cpe_recipes.explanations import Explainer
from cpe_recipes.feeds import Json
from cpe_recipes.outcome import MachineOutcome, OutcomeReasons, json_of, machines_with_verdicts
from cpe_recipes.package_names import name_machines, wanted_names
from cpe_recipes.program import Program
from cpe_recipes.verdicts import Machine as Verdicts

from .ground import Ground
from .ground_changes import Basis, GroundChange, Order, part_of
from .judge_cache import CachedScan
from .message_list import MessageList

ACCEPTED = "accepted"


@dataclass(frozen=True)
class MachineResult:
    """The result of a machine: its row as in `scan.py --json --why`, what was left out, the kinds of its verdicts by
    their advisories, except FALSE, and the judge. If `ids` is given, it has only the verdicts of these advisories, and
    all others are unchanged."""

    name: str
    row: dict[str, Json]
    said: dict[str, list]
    kinds: dict[str, str]
    has_items: bool
    judge: Judge
    ids: frozenset[str] | None = None


class Judge:
    """Judges machines by a ground."""

    def __init__(self, program: Program, ground: Ground, whole: Judge | None = None) -> None:
        """If `whole` is given, it judges by all advisories, and this ground has some of them."""
        self.ground, self._program = ground, program
        self._scan = CachedScan(program, ground, whole._scan if whole else None)
        self._explainer = self._scan.explainer
        self._about = affected.AdvisoryContext(
            ground.feed_data.details, ground.suppressions, OutcomeReasons(ground.feed_data, ())
        )
        self._asked = frozenset(ground.feed_data.ids.advisories)
        self._parts: dict[frozenset[str], Judge] = {}
        self._basis: Basis | None = None

    @property
    def basis(self) -> Basis | None:
        """The data of the ground that is kept for comparisons."""
        if self._basis is None:
            self._basis = Basis.of(self.ground, self._scan.names.fact_attributes, self._scan.names.feed)
        return self._basis

    @functools.cached_property
    def order(self) -> Order:
        """The order of the verdicts of a machine."""
        return Order(self.ground, self._about)

    def judge(self, machines: Sequence[Machine], asked: Explainer | None = None) -> list[MachineResult]:
        """The results of the machines. `asked`, if given, explains the verdicts."""
        messages = MessageList()
        return [self._result_of(*of_one, messages) for of_one in zip(*self._rows(machines, messages, asked))]

    def judge_changed(self, machines: Sequence[Machine], changed: GroundChange) -> list[MachineResult | None]:
        """The results for the advisories that changed since the machines were judged. None for a machine that has to be
        judged again completely."""
        messages, part = MessageList(), self._part(changed.ids)
        outcomes, *rest = part._rows(machines, messages, None)
        return [
            None
            if changed.may_rename(one, self.ground.letters)
            else replace(part._result_of(one, *of_one, messages), judge=self, ids=changed.ids)
            for one, *of_one in zip(outcomes, *rest)
        ]

    def _part(self, ids: frozenset[str]) -> Judge:
        """A judge of these advisories alone."""
        if ids not in self._parts:
            self._end_parts()
            self._parts[ids] = Judge(self._program, part_of(self.ground, ids), self)
        return self._parts[ids]

    def _rows(
        self, machines: Sequence[Machine], messages: MessageList, asked: Explainer | None
    ) -> tuple[list[MachineOutcome], list[Verdicts], list[Json]]:
        """The outcomes of the machines, their verdicts, and their rows."""
        ground = self.ground
        self._scan.explainer = asked or self._explainer
        unnamed = name_machines(
            machines, ground.names, self._scan.names.entries.of(wanted_names(machines, ground.names))
        )
        outcomes = self._scan.machines(machines)
        self._scan.report_items(outcomes, messages, "")
        verdicts = machines_with_verdicts(ground.feed_data, self._scan.bare, outcomes)
        # (lines that settle nothing can only be found with all machines, so they aren't reported here)
        ground.settlements.settle(verdicts, MessageList())
        self._about.verdict_reasons = OutcomeReasons(ground.feed_data, outcomes)
        return outcomes, verdicts, json_of(ground.feed_data, outcomes, verdicts, self._about, unnamed)["machines"]

    def _result_of(
        self, outcome: MachineOutcome, machine: Verdicts, row: dict[str, Json], messages: MessageList
    ) -> MachineResult:
        kinds = {
            one["id"]: ACCEPTED if "accepted" in one else machine.kind(one["id"]) for one in row.get("verdicts", ())
        }
        kinds = {id: kind for id, kind in kinds.items() if kind != "FALSE"}
        name = outcome.machine.name
        left_out = [{"id": id, "reason": reason} for id, reason, _ in messages.noted if id == name]
        return MachineResult(name, row, {"leftOut": left_out, "remarks": []}, kinds, outcome.has_items(), self)

    def current_verdict(self, advisory: str, has_items: bool) -> tuple[str, str]:
        """The verdict of an advisory that isn't among a machine's kinds: FALSE, or none with the reason."""
        if not has_items:
            return "none", "no items"
        return ("FALSE", "") if advisory in self._asked else ("none", self.ground.why_none(advisory))

    def _end_parts(self) -> None:
        for part in self._parts.values():
            part.end()
        self._parts.clear()

    def end(self) -> None:
        """Ends the runs of cpe."""
        self._end_parts()
        self._scan.end()
