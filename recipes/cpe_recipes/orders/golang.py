"""The order of Go modules: Semantic Versioning, perhaps with a v at the beginning, and perhaps with only one or two
numbers.

A pseudo version (v0.0.0-20191109021931-daa7c04131f5) is before its release; its first word is a date.
"""
from __future__ import annotations

import functools
import re

from . import semver
from .order import KEPT, Order, by_value

_SHORT = re.compile(r"(?:0|[1-9][0-9]*)(?:\.(?:0|[1-9][0-9]*))?")


@functools.lru_cache(maxsize=KEPT)
def read(text: str) -> semver.Key | None:
    """What such a version is compared by; None if it is none."""
    bare = text.removeprefix("v")
    if _SHORT.fullmatch(bare):
        return semver.key([*bare.split("."), "0", "0"][:3], None)
    return semver.read(bare)


ORDER: Order[semver.Key] = Order("Go", read, by_value)
