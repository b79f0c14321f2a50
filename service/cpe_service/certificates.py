"""The certificate of a verdict, made on request, and the answer of `cpe check` to it."""
from __future__ import annotations

from collections.abc import Sequence

from cpe_recipes.components import Machine
from cpe_recipes.explanations import Explainer
from cpe_recipes.item_names import ItemName
from cpe_recipes.program import Program
from cpe_recipes.range_checks import CheckResults
from cpe_recipes.why import describe_proof, proof_of, read_context

from .frames import Message
from .judge import Judge

# A machine may have many items, so the words of a certificate are cut after this many lines.
_MOST_LINES = 200_000


class RecordCollector(Explainer):
    """Keeps the records over which a machine's statements are evaluated, and explains nothing."""

    def __init__(self, program: Program, judge: Judge, places: Sequence[int]) -> None:
        super().__init__(program, judge.ground.feed_data)
        self._places = places
        self.records: list[str] = []

    def explain(
        self, item_names: Sequence[ItemName], check_results: CheckResults, _places: Sequence[int]
    ) -> dict[int, list[str]]:
        self.records = list(self.lines(dict.fromkeys(one.name for one in item_names), check_results, self._places))
        return {}


def make_certificate(judge: Judge, machine: Machine, advisory: str) -> Message:
    """The records of a machine for an advisory, the certificates over them, the answer of cpe check, and the
    certificates in words."""
    places = judge.ground.feed_data.parts.get(advisory, [])
    if not places:
        return {"missing": _why_none(judge, machine, advisory)}
    program = Program(is_tried=False)
    asked = RecordCollector(program, judge, places)
    judge.judge([machine], asked)
    if not asked.records:
        return {"missing": _without_items(machine)}
    proofs = program.run(["explain"], asked.records)
    answers = program.run(["check"], [*asked.records, *proofs])
    context = read_context(program, "".join(f"{record}\n" for record in asked.records).encode(errors="replace"))
    words = [line for proof in map(proof_of, proofs) if proof is not None for line in describe_proof(proof, context)]
    return {"records": asked.records, "certificates": proofs, "check": answers, "words": words[:_MOST_LINES]}


def _why_none(judge: Judge, machine: Machine, advisory: str) -> str:
    """Why an advisory that isn't evaluated has no certificate."""
    ground = judge.ground
    if ground.lacks:
        return f"nobody can be judged yet: {ground.lacks}"
    if advisory not in ground.feed_data.elsewhere:
        return f"there is no verdict of {advisory}: {ground.why_none(advisory)}"
    if not judge.judge([machine])[0].has_items:
        return _without_items(machine)
    return f"there is no certificate of {advisory}: it concerns no product of these machines, so it is FALSE"


def _without_items(machine: Machine) -> str:
    return f"{machine.name} has no items, so it has no verdict"
