"""Reads pages for a store in several processes: each reads a file, or a member of an archive, while another is added.

    python3 run.py page_readers

Such a process reads parts from its standard input until the input ends, and writes what becomes of each part. The
process that started it unpacks the files, adds the pages to the store, and reports, all in the order of the files. So
neither the store nor the reports depend on the number of processes.
"""
from __future__ import annotations

import pickle
import subprocess
import sys
from collections import deque
from collections.abc import Callable, Iterable, Iterator, Sequence
from typing import IO

from . import feeds, workers
from .console import DONE, Fatal, write_all
from .feeds import Part
from .page_rows import PageRows, convert_page
from .store_writer import KINDS

# The result of a part: its pages, and the fault that ended it.
_Read = tuple[list[PageRows], Exception | None]


def run(words: Sequence[str]) -> int:
    try:
        while True:
            write_all(1, pickle.dumps(_read(Part(None, *pickle.load(sys.stdin.buffer)))), "what pages become")
    except (EOFError, Fatal, pickle.UnpicklingError):
        # (who started this has ended)
        return DONE


def _read(part: Part) -> _Read:
    pages: list[PageRows] = []
    try:
        pages.extend(_pages_of(part))
    except Exception as fault:  # noqa: BLE001 (it is raised again by who asked)
        return pages, fault
    return pages, None


def _pages_of(part: Part) -> Iterator[PageRows]:
    return map(convert_page, feeds.pages_of(part, KINDS))


class PageReaders:
    """Reads the parts of files in `jobs` processes, or in this process if there is one job. Parts that `is_there` knows
    are not read ahead."""

    def __init__(self, jobs: int, is_there: Callable[[Part], bool]) -> None:
        self._jobs, self._is_there = jobs, is_there
        self._processes: list[_ReaderProcess] = []
        self._idle: list[_ReaderProcess] = []
        self._waiting: deque[tuple[Part, _ReaderProcess | None]] = deque()
        # (of the part whose turn it is, if another process read it)
        self._read: _Read | None = None

    def __enter__(self) -> PageReaders:
        return self

    def __exit__(self, *_: object) -> None:
        for process in self._processes:
            process.end()

    def ahead(self, parts: Iterable[Part]) -> Iterator[Part]:
        """The parts in their order, of which the next ones are being read meanwhile."""
        if self._jobs == 1:
            yield from parts
            return
        left = iter(parts)
        self._begin(left)
        while self._waiting:
            part, process = self._waiting.popleft()
            self._read = None if process is None else process.take()
            if process is not None:
                self._idle.append(process)
            self._begin(left)
            yield part

    def _begin(self, left: Iterator[Part]) -> None:
        """Gives the next parts to the processes that have none."""
        while len(self._waiting) < 2 * self._jobs and (self._idle or len(self._processes) < self._jobs):
            part = next(left, None)
            if part is None:
                break
            process = self._process() if self._is_to_read(part) else None
            if process is not None:
                process.give(part)
            self._waiting.append((part, process))

    def _is_to_read(self, part: Part) -> bool:
        if not part.data or any(part.digest == other.digest for other, _ in self._waiting):
            return False
        return not self._is_there(part)

    def _process(self) -> _ReaderProcess:
        if not self._idle:
            self._processes.append(_ReaderProcess())
            self._idle.append(self._processes[-1])
        return self._idle.pop()

    def pages(self, part: Part) -> Iterator[PageRows]:
        """The pages of the part whose turn it is."""
        if self._read is None:
            yield from _pages_of(part)
            return
        (pages, fault), self._read = self._read, None
        yield from pages
        if fault is not None:
            raise fault


class _ReaderProcess:
    """A process that reads parts, one after the other."""

    def __init__(self) -> None:
        self._run = subprocess.Popen(
            workers.python_worker("page_readers"), stdin=subprocess.PIPE, stdout=subprocess.PIPE
        )

    def give(self, part: Part) -> None:
        try:
            pickle.dump((part.place, part.data), self._pipe(self._run.stdin))
            self._pipe(self._run.stdin).flush()
        except OSError as fault:
            raise self._fault() from fault

    def take(self) -> _Read:
        try:
            return pickle.load(self._pipe(self._run.stdout))
        except (EOFError, OSError, pickle.UnpicklingError) as fault:
            raise self._fault() from fault

    @staticmethod
    def _pipe(pipe: IO[bytes] | None) -> IO[bytes]:
        assert pipe is not None
        return pipe

    def _fault(self) -> Fatal:
        status = self._run.wait()
        how = f"was ended by signal {-status}" if status < 0 else f"ended with status {status}"
        return Fatal(
            f"a process that reads pages {how}; the pages that were added before are kept: run it again with the same files"
        )

    def end(self) -> None:
        self._run.kill()
        with self._run:
            pass
