"""The operating systems of machines: the one that `--platform` gives those whose lists name none, and what is FALSE
without one.

An advisory that asks for an operating system beside something else is UNKNOWN on a machine whose list names none
(statement_rewriter.py). One on an operating system alone would be UNKNOWN there however many there are, and is FALSE;
so the number of these is said.
"""
from __future__ import annotations

from collections.abc import Iterable, Sequence

from . import names
from .cases import FeedData
from .components import Component, Machine
from .console import Fatal, Messages

_SYSTEM = "o"


def give(machines: Iterable[Machine], name: str) -> None:
    """Gives an operating system to each machine whose list names none. Fatal if the name is of none."""
    if names.part_of(name) != _SYSTEM:
        raise Fatal(f"--platform is {name}, which is no name of an operating system (part o)")
    for machine in silent(machines):
        machine.platform = Component(names=(name,))


def silent(machines: Iterable[Machine]) -> list[Machine]:
    """The machines whose lists name no operating system."""
    return [machine for machine in machines if all(names.part_of(name) != _SYSTEM for name in machine.items)]


def remark_silent(machines: Sequence[Machine], feed_data: FeedData, messages: Messages) -> None:
    """Says how many advisories are FALSE on machines because their lists name no operating system."""
    count, alone = len(silent(machines)), _alone(feed_data)
    if count and alone:
        are = (
            "advisory on an operating system alone is" if alone == 1 else "advisories on an operating system alone are"
        )
        on = "1 machine lists" if count == 1 else f"{count:,} machines list"
        messages.remark(f"{on} no operating system: {alone:,} {are} FALSE there; --platform NAME gives it")


def _alone(feed_data: FeedData) -> int:
    """How many advisories have facts on operating systems and no others."""
    ids = {id for id, is_of_systems in feed_data.elsewhere.items() if is_of_systems}
    for statement in feed_data.statements:
        facts = [*statement.facts, *(feed_data.ranges[key].criteria for key in statement.ranges)]
        if facts and all(names.part_of(fact) == _SYSTEM for fact in facts):
            ids.add(statement.id.partition("#")[0])
    return len(ids)
