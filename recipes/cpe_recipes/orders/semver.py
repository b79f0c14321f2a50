"""The order of Semantic Versioning 2.0.0: MAJOR.MINOR.PATCH[-before.release][+build], in which a build decides
nothing."""
from __future__ import annotations

import functools
import re

from .order import KEPT, Order, by_value, worth

_NUMBER = r"(?:0|[1-9][0-9]*)"
_WORD = rf"(?:{_NUMBER}|[0-9]*[A-Za-z-][0-9A-Za-z-]*)"
_VERSION = re.compile(
    rf"(?P<core>{_NUMBER}\.{_NUMBER}\.{_NUMBER})(?:-(?P<before>{_WORD}(?:\.{_WORD})*))?(?:\+[0-9A-Za-z-]+(?:\.[0-9A-Za-z-]+)*)?"
)

# What is compared: the three numbers, whether it is a release, and the identifiers before one, each as Python compares
# it.
Key = tuple[object, ...]


@functools.lru_cache(maxsize=KEPT)
def read(text: str) -> Key | None:
    """What such a version is compared by; None if it is none."""
    match = _VERSION.fullmatch(text)
    return match and key(match["core"].split("."), match["before"])


def key(core: list[str], before: str | None) -> Key:
    """The key by which versions are compared: the numbers, and the words before the release."""
    words = before.split(".") if before is not None else []
    return (
        *map(worth, core),
        before is None,
        tuple((0, worth(word)) if word.isdigit() else (1, word) for word in words),
    )


ORDER: Order[Key] = Order("SemVer", read, by_value)
