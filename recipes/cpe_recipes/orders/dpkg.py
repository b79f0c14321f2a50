"""dpkg's order of versions, by deb-version(7): [epoch:]upstream[-revision].

A part is cut into runs of other characters and runs of digits in turn. In a run of other characters, `~` is before the
end of the run, the end is before letters, and letters are before all else.
"""
from __future__ import annotations

import functools
import re
from itertools import zip_longest

from .order import EQUAL, KEPT, Order, by_value, numbers

# (the last hyphen is the one before the revision)
_VERSION = re.compile(
    r"(?:(?P<epoch>[0-9]+):)?(?:(?P<upstream>[A-Za-z0-9.+~:-]+)-(?P<revision>[A-Za-z0-9.+~]+)|(?P<alone>[A-Za-z0-9.+~:]+))"
)
_RUNS = re.compile(r"([^0-9]*)([0-9]*)")

# Of a part its runs in turn: what the other characters are worth, and digits.
Part = tuple[tuple[tuple[int, ...], str], ...]


@functools.lru_cache(maxsize=KEPT)
def read(text: str) -> tuple[Part, Part, Part] | None:
    """The epoch, the upstream version and the revision; None if it is no version of a Debian package."""
    match = _VERSION.fullmatch(text)
    if match is None:
        return None
    upstream = match["upstream"] or match["alone"]
    # (the upstream version may contain a colon if there is an epoch)
    if match["epoch"] is None and ":" in upstream:
        return None
    return _part(match["epoch"] or ""), _part(upstream), _part(match["revision"] or "")


def _part(text: str) -> Part:
    return tuple((_worth(other), digits) for other, digits in _RUNS.findall(text) if other or digits)


def _worth(run: str) -> tuple[int, ...]:
    """What the characters of a run are worth, with its end, which is 0."""
    return (*(-1 if one == "~" else ord(one) if one.isalpha() else ord(one) + 256 for one in run), 0)


def between(one: tuple[Part, Part, Part], other: tuple[Part, Part, Part]) -> int:
    """The order of two that were read: the epoch decides first, and the revision last."""
    return next((found for left, right in zip(one, other) if (found := _parts(left, right))), EQUAL)


def _parts(one: Part, other: Part) -> int:
    # (what is missing is an empty run, and the number 0)
    for (run, digits), (other_run, other_digits) in zip_longest(one, other, fillvalue=((0,), "")):
        found = by_value(run, other_run) or numbers(digits, other_digits)
        if found:
            return found
    return EQUAL


ORDER: Order[tuple[Part, Part, Part]] = Order("dpkg", read, between)
