"""Texts of the database and the answers."""
from __future__ import annotations

import re

_HALF = re.compile("[\ud800-\udfff]")


def whole(text: str) -> str:
    """The text in a form that has bytes: half a surrogate pair, which JSON can have, is written as `scan.py` writes
    it."""
    return text if text.isascii() else _HALF.sub("\ufffd", text)
