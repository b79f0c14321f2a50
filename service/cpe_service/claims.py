"""Which machines a worker judges at this moment, so no other worker judges the same ones. A claim ends with its process
at the latest."""
from __future__ import annotations

import fcntl
import os
from collections.abc import Iterable
from pathlib import Path

NAME = "claims"


class Claims:
    """The claims of a process: locks on bytes of a file; the place of a byte is the number of a machine."""

    def __init__(self, folder: Path) -> None:
        self._file = os.open(folder / NAME, os.O_RDWR | os.O_CREAT, 0o600)
        self._held: set[int] = set()

    def take(self, ids: Iterable[int], most: int) -> list[int]:
        """Claims some of these machines, those that no other process has, in their order."""
        found: list[int] = []
        for id in ids:
            if len(found) == most:
                break
            try:
                fcntl.lockf(self._file, fcntl.LOCK_EX | fcntl.LOCK_NB, 1, id)
            except (BlockingIOError, PermissionError):
                continue
            found.append(id)
            self._held.add(id)
        return found

    def end(self) -> None:
        """Ends all claims."""
        for id in self._held:
            fcntl.lockf(self._file, fcntl.LOCK_UN, 1, id)
        self._held.clear()
