"""A run of `cpe` that stays open: it has read records, and answers further lines.

Each user has to leave its rows as they were for the next user.
"""
from __future__ import annotations

from collections.abc import Iterable, Iterator, Sequence
from pathlib import Path

from cpe_recipes.console import Fatal
from cpe_recipes.persistent_run import PersistentRun
from cpe_recipes.program import Program


class ResidentRun(Program):
    """A run under one word. For each user the numbers of lines begin at 1, as in a run of its own."""

    def __init__(self, path: str, records: Iterable[str], word: str = "resolve") -> None:
        """Fatal if the run can't begin, or ends while it reads the records."""
        super().__init__(path, is_tried=False)
        self._word, self._run = word, PersistentRun(self.path, word)
        try:
            for _ in self.lines([word], records):
                pass
        except BaseException:
            self.end()
            raise

    def lines(self, words: Sequence[str], records: Iterable[str]) -> Iterator[str]:
        """The output for these lines. Fatal if the run ends early."""
        if list(words) != [self._word]:
            raise ValueError(f"a run of cpe {self._word} can't answer as {' '.join(words)}")
        return self._run.lines(records)

    def end(self) -> None:
        """Ends the run."""
        self._run.end()
