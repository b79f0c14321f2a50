"""rpm's order of versions (rpmvercmp): [epoch:]version[-release].

A part is cut into runs of digits and of letters, and the marks `~` and `^`; all other characters only separate. A
number is newer than letters, and a version that continues is newer. But `~` is before the end, and `^` right after it.
"""
from __future__ import annotations

import functools
import re
from itertools import zip_longest

from .order import EQUAL, GREATER, KEPT, LESS, Order, by_value, numbers

_VERSION = re.compile(r"(?:(?P<epoch>[0-9]*):)?(?P<version>[A-Za-z0-9._+~^]+)(?:-(?P<release>[A-Za-z0-9._+~^]+))?")
_RUN = re.compile(r"[0-9]+|[A-Za-z]+|[~^]")
# The order of two runs of different kinds: the lesser kind is first.
_TILDE, _END, _CARET, _LETTERS, _DIGITS = range(5)

Run = tuple[int, str]
Part = tuple[Run, ...]


@functools.lru_cache(maxsize=KEPT)
def read(text: str) -> tuple[Part, Part, Part] | None:
    """The epoch, the version and the release; None if it is no version of an RPM package."""
    match = _VERSION.fullmatch(text)
    return match and (_part(match["epoch"] or "0"), _part(match["version"]), _part(match["release"] or ""))


def _part(text: str) -> Part:
    return tuple((_kind(run), run) for run in _RUN.findall(text))


def _kind(run: str) -> int:
    return {"~": _TILDE, "^": _CARET}.get(run[0], _DIGITS if run[0].isdigit() else _LETTERS)


def between(one: tuple[Part, Part, Part], other: tuple[Part, Part, Part]) -> int:
    """The order of two that were read: the epoch decides first, and the release last."""
    return next((found for left, right in zip(one, other) if (found := _parts(left, right))), EQUAL)


def _parts(one: Part, other: Part) -> int:
    for (kind, run), (other_kind, other_run) in zip_longest(one, other, fillvalue=(_END, "")):
        if kind != other_kind:
            return LESS if kind < other_kind else GREATER
        found = numbers(run, other_run) if kind == _DIGITS else by_value(run, other_run)
        if found:
            return found
    return EQUAL


ORDER: Order[tuple[Part, Part, Part]] = Order("rpm", read, between)
