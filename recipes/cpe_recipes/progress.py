"""The progress of a recipe, shown on a terminal; otherwise nothing is written."""
from __future__ import annotations

import contextlib
import os
import time

_CLEAR = "\r\x1b[K"
_PAUSE = 0.2


class Progress:
    """One line on the terminal, which is overwritten, and removed at the end of the recipe, whatever ends it."""

    def __init__(self, descriptor: int = 2, is_shown: bool | None = None) -> None:
        self._descriptor = descriptor
        self._is_shown = os.isatty(descriptor) if is_shown is None else is_shown
        self._next = 0.0
        self._is_there = False

    def __enter__(self) -> Progress:
        return self

    def __exit__(self, *_: object) -> None:
        self.clear()

    def step(self, text: str) -> None:
        """What is done now."""
        self._next = time.monotonic() + _PAUSE
        self._write(f"{_CLEAR}{text} ..")

    def count(self, text: str, done: int, of: int) -> None:
        """How much of it is done; not more often than anyone can read."""
        if self._is_shown and time.monotonic() >= self._next:
            self.step(f"{text}, {done} of {of}")

    def clear(self) -> None:
        """Removes the line, before something else is written."""
        if self._is_there:
            self._write(_CLEAR)
            self._is_there = False

    def _write(self, text: str) -> None:
        if self._is_shown:
            # (a closed terminal is no reason to end)
            with contextlib.suppress(OSError):
                os.write(self._descriptor, text.encode(errors="replace"))
            self._is_there = True
