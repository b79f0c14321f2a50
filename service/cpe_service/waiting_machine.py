"""A waiting machine, as a worker reads it from the database."""
from __future__ import annotations

from dataclasses import dataclass

from cpe_recipes.components import Machine
from cpe_recipes.machines import machine_of_list

from .database import unpack
from .message_list import MessageList


@dataclass(frozen=True)
class WaitingMachine:
    """A machine that waits for its verdicts. `since` is the ground of its result, if the result is of the same list and
    has verdicts, otherwise 0."""

    id: int
    name: str
    put: int
    list: bytes
    since: int = 0

    def machine(self) -> Machine:
        """The machine of its list. (What isn't read of the list was reported when it was put.)"""
        return machine_of_list(self.name, self.name, unpack(self.list), MessageList())
