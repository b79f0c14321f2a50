"""How the recipes run cpe, which is what the variable CPE names, or cpe on PATH."""
from __future__ import annotations

import contextlib
import itertools
import os
import re
import shutil
import subprocess
import threading
import uuid
from collections.abc import Collection, Iterable, Iterator, Sequence
from dataclasses import dataclass, replace
from typing import IO

from .console import Fatal, Messages, describe_fault, shorten
from .feeds import PlacedRecord, Source
from .portions import portions, size_of
from .table import format_count

# Lines are handed over in pieces of about this many bytes.
_PIECE = 1 << 16
# By what a program is known to be cpe: a line of `compare`, and its answer.
_PAIR = "cpe:/a:gnu cpe:/a:gnu:gnutls"
_ANSWER = "SUPERSET EQUAL EQUAL SUPERSET" + " EQUAL" * 8
_SECONDS, _MOST_ANSWER = 60, 4096
# What is asked at the end of a run, about an id that nobody has put, so that it is seen whether its answers are all
# there. Under other words each line has one answer.
BARRIERS = {"resolve": "verdict", "advise": "affected"}
_BY_LINES = ("compare", "unbind", "bind", "convert")
# What the reason begins with if a limit of cpe is met.
FULL = "full "
_ID = re.compile(r'\{"do":"statement","id":("(?:[^"\\]|\\.)*")')


@dataclass(frozen=True, slots=True)
class Candidate:
    """The result of a feed's record with an id: a record for cpe, or else the reason why there is none; perhaps with
    its place."""

    id: str
    record: str = ""
    reason: str = ""
    source: Source | None = None
    number: int = 0

    def place(self) -> str:
        return "" if self.source is None else self.source.place(self.number)


def candidate_at(placed: PlacedRecord, id: str, record: str = "", reason: str = "") -> Candidate:
    """The result of a record at its place."""
    return Candidate(id, record, reason, placed.source, placed.number)


class Program:
    """The program cpe; Fatal if it isn't there."""

    def __init__(self, path: str | None = None, is_tried: bool | None = None) -> None:
        """The program at this path, or else that which is to be found; whether it is cpe is tried where it was
        found."""
        self.path = path or os.environ.get("CPE") or "cpe"
        if shutil.which(self.path) is None:
            raise Fatal(f"there is no {self.path}")
        if is_tried if is_tried is not None else path is None:
            self._try()

    def _try(self) -> None:
        try:
            run = subprocess.Popen(
                [self.path, "compare"], stdin=subprocess.PIPE, stdout=subprocess.PIPE, stderr=subprocess.DEVNULL
            )
        except OSError as fault:
            raise Fatal(f"{self.path} can not be run: {describe_fault(fault)}") from fault
        with run:
            # (what never ends, or writes for ever, is no cpe either)
            alarm = threading.Timer(_SECONDS, run.kill)
            alarm.start()
            with contextlib.suppress(OSError), _pipe(run.stdin) as to_run:
                to_run.write(f"{_PAIR}\n".encode())
            answer = _pipe(run.stdout).read(_MOST_ANSWER).decode(errors="replace")
            if len(answer) >= _MOST_ANSWER:
                run.kill()
            alarm.cancel()
        if answer != f"{_ANSWER}\n":
            lines = answer.splitlines()
            told = f", {shorten(lines[0])}" if lines else ""
            raise Fatal(
                f"{self.path} isn't cpe: it answers one line of compare with {format_count(len(lines), 'line')}{told}, not with {_ANSWER}"
            )

    def lines(self, words: Sequence[str], records: Iterable[str]) -> Iterator[str]:
        """Runs the program with these words over these lines, and yields what it writes. Fatal if it fails, or if
        answers are missing."""
        verb = BARRIERS.get(words[0]) if words else None
        if verb is None:
            yield from self._by_lines(words, records) if words and words[0] in _BY_LINES else self._lines(
                words, records
            )
            return
        asked, id, answered, last = _LineCounter(records), uuid.uuid4().hex, 0, ""
        for line in self._lines(words, itertools.chain(asked, [f'{{"do":"{verb}","id":"{id}"}}'])):
            if answered:
                yield self._checked(words, last, asked.count)
            answered, last = answered + 1, line
        if last != f"{verb} {id} absent":
            raise self._short(words, answered, asked.count)

    def _by_lines(self, words: Sequence[str], records: Iterable[str]) -> Iterator[str]:
        """The answers of a word that has one for each line."""
        asked, answered = _LineCounter(records), 0
        for answered, line in enumerate(self._lines(words, asked), 1):
            if line.startswith("refused ") and line.split(" ", 2)[1] != str(answered):
                raise Fatal(f"{self.path} {' '.join(words)} answered line {answered:,} with {shorten(line)}")
            yield line
        if answered != asked.count:
            raise self._short(words, answered, asked.count)

    def _checked(self, words: Sequence[str], line: str, count: int) -> str:
        """A line of the output. Fatal if it refuses a line that was not written."""
        if line.startswith("refused "):
            number = line.split(" ", 2)[1]
            if not number.isdecimal() or not 1 <= int(number) <= count:
                raise Fatal(
                    f"{self.path} {' '.join(words)} refused another line than the {count:,} that it was given: {shorten(line)}"
                )
        return line

    def _short(self, words: Sequence[str], answered: int, count: int) -> Fatal:
        what = f"it wrote {answered:,} lines over {count:,}, and the last answer isn't there"
        return Fatal(f"{self.path} {' '.join(words)} answered too few lines: {what}")

    def _lines(self, words: Sequence[str], records: Iterable[str]) -> Iterator[str]:
        try:
            run = subprocess.Popen([self.path, *words], stdin=subprocess.PIPE, stdout=subprocess.PIPE)
        except OSError as fault:
            raise Fatal(f"{self.path} can not be run: {describe_fault(fault)}") from fault
        with run:
            # (who writes to a pipe and doesn't read from the other one may wait for ever, so another thread writes)
            writer = _Writer(run, records)
            writer.start()
            try:
                for line in _pipe(run.stdout):
                    yield line.rstrip(b"\n").decode(errors="backslashreplace")
            except BaseException:
                # (a run that nobody reads to its end)
                run.kill()
                raise
            writer.join()
        if writer.fault is not None:
            raise writer.fault
        if run.returncode not in (0, 1):
            raise Fatal(f"{self.path} {' '.join(words)} ended with status {run.returncode}")

    def run(self, words: Sequence[str], records: Iterable[str]) -> list[str]:
        """What the program writes under these words over these lines."""
        return list(self.lines(words, records))

    def answers(self, words: Sequence[str], questions: Iterable[str]) -> list[str]:
        """The answers to questions of which each has one line, in their order. Fatal if one is missing, or
        another's."""
        asked = _LineCounter(questions)
        found = self.run(words, asked)
        if len(found) != asked.count:
            raise Fatal(f"{self.path} {' '.join(words)} answered {len(found):,} of {asked.count:,} questions")
        for number, line in enumerate(found, 1):
            if line.startswith("refused ") and line.split(" ", 2)[1] != str(number):
                raise Fatal(f"{self.path} {' '.join(words)} answered question {number:,} with {shorten(line)}")
        return found

    def bytes(self, words: Sequence[str], data: bytes) -> bytes:
        """What the program writes under these words over these bytes."""
        try:
            run = subprocess.run([self.path, *words], input=data, stdout=subprocess.PIPE, check=False)
        except OSError as fault:
            raise Fatal(f"{self.path} can not be run: {describe_fault(fault)}") from fault
        if run.returncode not in (0, 1):
            raise Fatal(f"{self.path} {' '.join(words)} ended with status {run.returncode}")
        return run.stdout

    def over(self, entries: Sequence[str], questions: Iterable[str]) -> Iterator[str]:
        """What the program writes over questions behind these entries. A refused line is counted from the first
        question."""
        for line in self.lines(["resolve"], itertools.chain(entries, questions)):
            if line.startswith("refused "):
                _, number, reason = line.split(" ", 2)
                if int(number) > len(entries):
                    yield f"refused {int(number) - len(entries)} {reason}"
            else:
                yield line

    def find_refused(self, kept: Sequence[Candidate], are_entries: bool) -> dict[int, str]:
        """Why records are refused, by their numbers, of entries and what leads them on, or of others."""
        return refusals(self.lines(["resolve"], (one.record for one in kept)))

    def accept_entries(self, candidates: Iterable[Candidate], messages: Messages) -> list[str]:
        """The records of a dictionary that cpe accepts. Of several records of an entry the first one counts."""
        return self.accept(candidates, messages, unsaid="exists", are_entries=True)

    def accept(
        self, candidates: Iterable[Candidate], messages: Messages, unsaid: str = "", are_entries: bool = False
    ) -> list[str]:
        """The records that cpe accepts, each after those before it. The others are reported, except those that cpe
        refuses for the reason `unsaid`."""
        kept = list(candidates)
        # (what cpe refuses changes nothing, so the records that are left do the same without it; an empty line has a
        # number)
        reasons = self.find_refused(kept, are_entries)
        records = []
        for number, one in enumerate(kept, 1):
            if not one.record:
                messages.leave_out(one.id, one.reason, one.place())
            elif number not in reasons:
                records.append(one.record)
            elif reasons[number].startswith(FULL):
                raise Fatal(
                    f"{self.path} takes no more: {reasons[number]} at record {number:,} of {len(kept):,}, {prefix_of(one.record)}"
                )
            elif reasons[number] != unsaid:
                messages.leave_out(one.id, f"{reasons[number]}: {prefix_of(one.record)}", one.place())
        return records

    def accept_statements(self, candidates: Iterable[Candidate], messages: Messages) -> list[str]:
        """The same of statements, of which there may be more than cpe takes at once. So they are tried in portions."""
        kept, records, ids = list(candidates), [], set[str]()
        for portion in portions(size_of(one.record) for one in kept):
            some = [_unless_there(kept[place], ids) for place in portion]
            accepted = self.accept(some, messages)
            ids.update(map(_id_of, accepted))
            records += accepted
        return records


def _unless_there(one: Candidate, ids: Collection[str]) -> Candidate:
    """A statement, or the reason of cpe if one before it has its id."""
    if not one.record or _id_of(one.record) not in ids:
        return one
    return replace(one, record="", reason=f"exists: {prefix_of(one.record)}")


def _id_of(statement: str) -> str:
    """The id of a statement as its record has it, in JSON; the record itself if it begins otherwise."""
    found = _ID.match(statement)
    return statement if found is None else found[1]


class _LineCounter:
    """Lines, and how many of them were given so far."""

    def __init__(self, lines: Iterable[str]) -> None:
        self._lines, self.count = lines, 0

    def __iter__(self) -> Iterator[str]:
        for line in self._lines:
            self.count += 1
            yield line


class _Writer(threading.Thread):
    """Hands lines over to a run, and closes its input."""

    def __init__(self, run: subprocess.Popen[bytes], records: Iterable[str]) -> None:
        super().__init__(daemon=True)
        self._run, self._records = run, records
        self.fault: BaseException | None = None

    def run(self) -> None:
        # (a run that has ended takes no more lines; its status says why)
        with contextlib.suppress(BrokenPipeError), _pipe(self._run.stdin) as to_run:
            try:
                for piece in pieces(self._records):
                    to_run.write(piece)
            except BrokenPipeError:
                raise
            except BaseException as fault:  # noqa: BLE001 (of the records; told where the answers are read)
                self.fault = fault
                self._run.kill()


def _pipe(stream: IO[bytes] | None) -> IO[bytes]:
    assert stream is not None, "the run was asked for pipes"
    return stream


def pieces(records: Iterable[str]) -> Iterator[bytes]:
    """Lines as they are handed over."""
    gathered: list[str] = []
    size = 0
    for record in records:
        gathered.append(record)
        size += len(record) + 1
        if size >= _PIECE:
            yield "".join(f"{line}\n" for line in gathered).encode(errors="replace")
            gathered.clear()
            size = 0
    yield "".join(f"{line}\n" for line in gathered).encode(errors="replace")


def refusals(lines: Iterable[str]) -> dict[int, str]:
    """The reasons of the lines that were refused, by their numbers."""
    found = {}
    for line in lines:
        if line.startswith("refused "):
            _, number, reason = line.split(" ", 2)
            found[int(number)] = reason
    return found


def prefix_of(record: str) -> str:
    """A record, or its beginning if it is long."""
    return shorten(record)
