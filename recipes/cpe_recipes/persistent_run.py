"""A run of `cpe resolve` that stays open during a scan, so that entries are read once, and all questions are asked of
the same run.

Each user of the run leaves its rows as they were, except for entries. Entries stay, and no other answer depends on
them. The answers about a name depend on the order of the entries, so a new run begins if other entries are wanted. If
there are very many entries, another run has the statements and items, because cpe limits the weight of all rows
together.
"""
from __future__ import annotations

import contextlib
import json
import queue
import subprocess
import threading
import uuid
from collections.abc import Iterable, Iterator, Sequence

from .console import Fatal, describe_fault
from .portions import MOST
from .program import BARRIERS, _MOST_ANSWER, _SECONDS, Candidate, Program, _id_of, _pipe, pieces

# These bytes of entries, with those of a portion, are far from the weight that cpe takes.
_MOST_BYTES = 2 * MOST.bytes


class PersistentRun:
    """A run of `cpe` under a word. For each question the numbers of lines begin at 1, as in a run of its own."""

    def __init__(self, path: str, word: str = "resolve") -> None:
        self.path, self._word, self._verb = path, word, BARRIERS[word]
        try:
            self._run = subprocess.Popen([path, word], stdin=subprocess.PIPE, stdout=subprocess.PIPE)
        except OSError as fault:
            raise Fatal(f"{path} can not be run: {describe_fault(fault)}") from fault
        self._input, self._output, self._last = _pipe(self._run.stdin), _pipe(self._run.stdout), 0
        # (who writes to a pipe and doesn't read from the other one may wait for ever, so another thread writes)
        self._waiting: queue.SimpleQueue[Iterable[str] | None] = queue.SimpleQueue()
        self._fault: BaseException | None = None
        threading.Thread(target=self._write, daemon=True).start()

    def is_of_cpe(self) -> bool:
        """Whether it answers as cpe does. (A program that never ends, or writes without end, isn't cpe either.)"""
        alarm = threading.Timer(_SECONDS, self._run.kill)
        alarm.start()
        id = uuid.uuid4().hex
        self._waiting.put(self._count((), self._barrier(id)))
        line = self._output.readline(_MOST_ANSWER)
        alarm.cancel()
        return line == self._end_of(id)

    def lines(self, records: Iterable[str]) -> Iterator[str]:
        """What it writes over these lines. Fatal if it ends before, or refuses a line that it wasn't given."""
        id, before = uuid.uuid4().hex, self._last
        end = self._end_of(id)
        self._waiting.put(self._count(records, self._barrier(id)))
        while (line := self._output.readline()) != end:
            if not line.endswith(b"\n"):
                self._end_early()
            yield self._renumber(line[:-1].decode(errors="backslashreplace"), before)

    def _end_early(self) -> None:
        if self._fault is not None:
            raise self._fault
        status = self._run.wait()
        if status in (0, 1):
            raise Fatal(f"{self.path} {self._word} answered too few lines: the last answer isn't there")
        raise Fatal(f"{self.path} {self._word} ended with status {status}")

    def _barrier(self, id: str) -> str:
        return f'{{"do":"{self._verb}","id":"{id}"}}'

    def _end_of(self, id: str) -> bytes:
        """The answer about an id that nobody has put."""
        return f"{self._verb} {id} absent\n".encode()

    def _count(self, records: Iterable[str], barrier: str) -> Iterator[str]:
        for record in records:
            self._last += 1
            yield record
        self._last += 1
        yield barrier

    def _renumber(self, line: str, before: int) -> str:
        """An answer; the number of a refused line is counted from the first line of this question."""
        if not line.startswith("refused "):
            return line
        word, number, reason = line.split(" ", 2)
        if not number.isdecimal() or not before < int(number) <= self._last:
            raise Fatal(f"{self.path} {self._word} refused another line than those that it was given: {line[:200]}")
        return f"{word} {int(number) - before} {reason}"

    def _write(self) -> None:
        while (records := self._waiting.get()) is not None:
            try:
                for piece in pieces(records):
                    self._input.write(piece)
                self._input.flush()
            except (OSError, ValueError):
                # (a run that has ended takes no more lines; its status says why)
                return
            except BaseException as fault:  # noqa: BLE001 (of the records; raised where the answers are read)
                self._fault = fault
                self._run.kill()
                return

    def end(self) -> None:
        """Ends the run."""
        self._waiting.put(None)
        self._run.kill()
        self._run.wait()
        self._output.close()
        with contextlib.suppress(OSError):
            self._input.close()


class PersistentProgram(Program):
    """The program, with a run of `resolve` that stays open. Other words have runs of their own."""

    def __init__(self, path: str | None = None) -> None:
        super().__init__(path, is_tried=False)
        self._runs: list[PersistentRun] = []
        # (the entries of the run, and the reasons why others that were fed with them are refused, by their places)
        self._entries: dict[str, None] = {}
        self._fed: list[str] = []
        self._reasons: dict[int, str] = {}
        self._bytes = 0
        # (entries of which it is known that they were fed)
        self._known: Sequence[str] = ()

    def __enter__(self) -> PersistentProgram:
        """Begins the run. Fatal if it isn't cpe."""
        if not self._of_entries().is_of_cpe():
            self.end()
            self._try()
            raise Fatal(f"{self.path} isn't cpe: it doesn't answer resolve")
        return self

    def __exit__(self, *_: object) -> None:
        self.end()

    def end(self) -> None:
        """Ends the runs."""
        for run in self._runs:
            run.end()
        self._runs.clear()

    def _of_entries(self) -> PersistentRun:
        if not self._runs:
            self._runs.append(PersistentRun(self.path))
        return self._runs[0]

    def _of_others(self) -> PersistentRun:
        run = self._of_entries()
        if self._bytes <= _MOST_BYTES:
            return run
        if len(self._runs) == 1:
            self._runs.append(PersistentRun(self.path))
        return self._runs[1]

    def lines(self, words: Sequence[str], records: Iterable[str]) -> Iterator[str]:
        return self._of_others().lines(records) if list(words) == ["resolve"] else super().lines(words, records)

    def over(self, entries: Sequence[str], questions: Iterable[str]) -> Iterator[str]:
        if entries is not self._known and not all(one in self._entries for one in entries):
            self._feed(list(entries))
        self._known = entries
        return self._of_entries().lines(questions)

    def _feed(self, records: list[str]) -> None:
        """Sends entries and deprecations to a run without others."""
        if self._fed:
            self.end()
        self._entries, self._fed, self._reasons = {}, records, {}
        for line in self._of_entries().lines(records):
            if line.startswith("refused "):
                _, number, reason = line.split(" ", 2)
                self._reasons[int(number)] = reason
        self._entries = {record: None for number, record in enumerate(records, 1) if number not in self._reasons}
        self._bytes, self._known = sum(map(len, self._entries)), ()

    def find_refused(self, kept: Sequence[Candidate], are_entries: bool) -> dict[int, str]:
        if are_entries:
            records = [one.record for one in kept]
            if records != self._fed:
                self._feed(records)
            return self._reasons
        reasons = super().find_refused(kept, are_entries)
        taken = (_id_of(one.record) for number, one in enumerate(kept, 1) if one.record and number not in reasons)
        # (the statements were only tried, so they are removed)
        for line in self.lines(["resolve"], (f'{{"do":"drop-statement","id":{id}}}' for id in taken)):
            raise Fatal(f"{self.path} resolve wrote {line}")
        return reasons


def drop_lines(statements: Iterable[str]) -> Iterator[str]:
    """Lines that remove the statements with these ids."""
    return (f'{{"do":"drop-statement","id":{json.dumps(id)}}}' for id in statements)
