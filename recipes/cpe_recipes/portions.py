"""Statements in portions that `cpe` takes at once. No statement depends on another, so portions have the verdicts of
one run.

`cpe` takes 100,000 statements, with 1,000,000 facts together, and 100,000 results of checks. What all rows weigh has a
limit too, of which the bytes of the statements' lines keep a portion far away.
"""
from __future__ import annotations

from collections.abc import Iterable, Iterator
from dataclasses import dataclass

_FACT = '"fact"'


@dataclass(frozen=True)
class Size:
    """How much of what `cpe` takes: statements, their facts, the results of checks, and the bytes of the lines."""

    statements: int
    facts: int
    checks: int
    bytes: int

    def __add__(self, other: Size) -> Size:
        return Size(
            self.statements + other.statements,
            self.facts + other.facts,
            self.checks + other.checks,
            self.bytes + other.bytes,
        )

    def is_within(self, most: Size) -> bool:
        return (
            self.statements <= most.statements
            and self.facts <= most.facts
            and self.checks <= most.checks
            and self.bytes <= most.bytes
        )


# (the other results of checks are those of one statement, or of the parts of names)
MOST = Size(statements=100_000, facts=1_000_000, checks=90_000, bytes=100_000_000)


def size_of(line: str, checks: int = 0) -> Size:
    """The size of the line of a statement. (A text may have the word of a fact too: then a portion is smaller than it
    could be.)"""
    return Size(1, line.count(_FACT), checks, len(line))


def portions(sizes: Iterable[Size], most: Size | None = None) -> Iterator[range]:
    """The places of these sizes, in ranges that are within what `cpe` takes. A size that is over it alone is a portion
    of its own."""
    most = most or MOST
    begin = end = 0
    portion = Size(0, 0, 0, 0)
    for size in sizes:
        if end > begin and not (portion + size).is_within(most):
            yield range(begin, end)
            begin, portion = end, Size(0, 0, 0, 0)
        portion += size
        end += 1
    if end > begin:
        yield range(begin, end)
