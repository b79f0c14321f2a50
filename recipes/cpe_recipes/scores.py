"""Scores of CVSS: what is none is left out, and its advisory isn't."""
from __future__ import annotations

from typing import Any

HIGHEST = 10


def score_of(value: Any) -> int | float | None:
    """The score, or None if this is no number from 0 to 10."""
    if isinstance(value, bool) or not isinstance(value, (int, float)):
        return None
    # (what is no number, as Python has it, is neither)
    return value if 0 <= value <= HIGHEST else None
