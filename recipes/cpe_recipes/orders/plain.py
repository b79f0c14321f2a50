"""The order of `cpe advise`: runs of digits and runs of letters; all other characters only separate.

At the first difference, a word is less than nothing, and nothing is less than a number. Numbers are compared by value,
words alphabetically.
"""
from __future__ import annotations

import functools
import re

from .order import KEPT, Order, by_value, worth

_PIECE = re.compile(r"[0-9]+|[a-z]+")
# (a word is less than the end, and that is less than a number)
_WORD, _END, _NUMBER = 0, 1, 2

Piece = tuple[int, int, str]


@functools.lru_cache(maxsize=KEPT)
def read(text: str) -> tuple[Piece, ...]:
    """The pieces and the end."""
    found = [(_NUMBER, *worth(one)) if one[0].isdigit() else (_WORD, 0, one) for one in _PIECE.findall(text.lower())]
    return (*found, (_END, 0, ""))


ORDER: Order[tuple[Piece, ...]] = Order("cpe", read, by_value)
