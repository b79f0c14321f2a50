"""Maven's order of versions (ComparableVersion of maven-artifact 3.8).

A version is a list of numbers, words and lists. A dot ends an item. A hyphen, or a change between digits and other
characters, begins a list within the list. Items without worth at the end of a list are removed, so 1.0 is 1. Known
words have their own order, in which the release is nothing. All other words are after them.
"""
from __future__ import annotations

import functools
import re
from dataclasses import dataclass
from itertools import zip_longest
from typing import Union

from .order import EQUAL, GREATER, KEPT, LESS, Order, by_value, numbers

_VERSION = re.compile(r"[!-~]{1,256}")
_RANKS = {word: str(rank) for rank, word in enumerate(("alpha", "beta", "milestone", "rc", "snapshot", "", "sp"))}
_ALIASES = {"ga": "", "final": "", "release": "", "cr": "rc"}
_BEFORE_DIGITS = {"a": "alpha", "b": "beta", "m": "milestone"}
_RELEASE = _RANKS[""]


@dataclass(frozen=True)
class Number:
    digits: str


@dataclass(frozen=True)
class Word:
    """A word by its rank, a text that is compared alphabetically: unknown words have the highest rank, followed by the
    word."""

    rank: str


Item = Union[Number, Word, "list[Item]"]


def _word(text: str, is_before_digits: bool = False) -> Word:
    text = _BEFORE_DIGITS.get(text, text) if is_before_digits else text
    text = _ALIASES.get(text, text)
    return Word(_RANKS.get(text) or f"{len(_RANKS)}-{text}")


@functools.lru_cache(maxsize=KEPT)
def read(text: str) -> list[Item] | None:
    """The list of such a version; None if it has other characters than ASCII's, or too many."""
    return _Reader(text.lower()).whole if _VERSION.fullmatch(text) else None


class _Reader:
    """Reads a version from its beginning; all lists that began are in `lists`."""

    def __init__(self, text: str) -> None:
        self.whole: list[Item] = []
        self.lists = [self.whole]
        self._text, self._start, self._is_number = text, 0, False
        for place, one in enumerate(text):
            if one in ".-":
                self._end_item(place)
                if one == "-":
                    self._begin()
            elif one.isdigit() != self._is_number:
                self._turn(place)
        if len(text) > self._start:
            if not self._is_number and self.lists[-1]:
                self._begin()
            self._add(self._item(len(text)))
        for found in reversed(self.lists):
            _drop_worthless(found)

    def _turn(self, place: int) -> None:
        """Between digits and others."""
        if place > self._start:
            if not self._is_number:
                if self.lists[-1]:
                    self._begin()
                self._add(_word(self._text[self._start : place], is_before_digits=True))
            else:
                self._add(self._item(place))
            self._start = place
            self._begin()
        self._is_number = not self._is_number

    def _end_item(self, place: int) -> None:
        self._add(Number("0") if place == self._start else self._item(place))
        self._start = place + 1

    def _item(self, place: int) -> Item:
        text = self._text[self._start : place]
        return Number(text) if self._is_number else _word(text)

    def _add(self, item: Item) -> None:
        self.lists[-1].append(item)

    def _begin(self) -> None:
        new: list[Item] = []
        self.lists[-1].append(new)
        self.lists.append(new)


def _drop_worthless(items: list[Item]) -> None:
    for place in range(len(items) - 1, -1, -1):
        if _is_worthless(items[place]):
            del items[place]
        elif not isinstance(items[place], list):
            return


def _is_worthless(item: Item) -> bool:
    if isinstance(item, Number):
        return not item.digits.strip("0")
    return not item if isinstance(item, list) else item.rank == _RELEASE


def between(one: list[Item], other: list[Item]) -> int:
    """The order of two lists that were read."""
    # (loops, since a version may have a list in each of 256 lists)
    for left, right in zip_longest(one, other):
        found = _items(left, right)
        if found:
            return found
    return EQUAL


def _items(one: Item | None, other: Item | None) -> int:
    if one is None:
        return EQUAL if other is None else -_to_nothing(other)
    if other is None:
        return _to_nothing(one)
    if _kind(one) != _kind(other):
        return LESS if _kind(one) < _kind(other) else GREATER
    if isinstance(one, Number) and isinstance(other, Number):
        return numbers(one.digits, other.digits)
    if isinstance(one, Word) and isinstance(other, Word):
        return by_value(one.rank, other.rank)
    return between(one, other) if isinstance(one, list) and isinstance(other, list) else EQUAL


def _kind(item: Item) -> int:
    """A word is less than a list, and that is less than a number."""
    return 2 if isinstance(item, Number) else 1 if isinstance(item, list) else 0


def _to_nothing(item: Item) -> int:
    """The order of an item to what isn't there."""
    if isinstance(item, Number):
        return GREATER if item.digits.strip("0") else EQUAL
    if isinstance(item, Word):
        return by_value(item.rank, _RELEASE)
    for one in item:
        found = _to_nothing(one)
        if found:
            return found
    return EQUAL


ORDER: Order[list[Item]] = Order("Maven", read, between)
