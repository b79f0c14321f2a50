"""What an order of versions is: a name for people, how it reads a text, and how it compares two that were read."""
from __future__ import annotations

from collections.abc import Callable
from dataclasses import dataclass
from typing import Generic, TypeVar

LESS, EQUAL, GREATER = -1, 0, 1
# How many versions an order keeps as it read them, since the same ones are compared again and again.
KEPT = 1 << 14

Read = TypeVar("Read")


@dataclass(frozen=True)
class Order(Generic[Read]):
    """An order of versions. `read` gives None for a text that is no version of this order."""

    name: str
    read: Callable[[str], Read | None]
    between: Callable[[Read, Read], int]

    def compare(self, one: str, other: str) -> int | None:
        """LESS, EQUAL or GREATER; None if one of the two is no version of this order."""
        left, right = self.read(one), self.read(other)
        return None if left is None or right is None else self.between(left, right)


def numbers(one: str, other: str) -> int:
    """Two runs of digits, by what they are worth. (They may be longer than numbers are read.)"""
    return by_value(worth(one), worth(other))


def worth(digits: str) -> tuple[int, str]:
    """What a run of digits is worth, as values that compare so: the length without the zeros before it, and the
    digits."""
    text = digits.lstrip("0")
    return len(text), text


def by_value(one: Read, other: Read) -> int:
    """Two values that Python compares, such as tuples of numbers."""
    return (one > other) - (one < other)  # type: ignore[operator]
