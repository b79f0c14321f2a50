"""The messages of a recipe, its output, and its status.

Two kinds of lines are written to standard error: `left out ID: REASON` if something was not read, and `remark TEXT` if
nothing is lost. The status is 1 if something was left out, and 2 if there is no result; then one plain sentence says
why.
"""
from __future__ import annotations

import contextlib
import gc
import os
import re
import signal
import sys
import tempfile
import traceback
from collections import Counter
from collections.abc import Callable, Iterator
from pathlib import Path
from typing import NoReturn

DONE, LEFT_OUT, NO_RESULT, STOPPED = 0, 1, 2, 130
# If this variable is set, a fault of a recipe is written with its traceback.
TRACEBACK = "CPE_TRACEBACK"
# How many bytes of the input a message quotes at most.
MOST_QUOTED = 200
_WORD = re.compile(r"\S{50,}")
_MOST_BEHIND = 8

if sys.version_info < (3, 11):
    print(
        f"{sys.argv[0]}: this python3 is {sys.version.split()[0]}, and the recipes need 3.11 or newer", file=sys.stderr
    )
    sys.exit(NO_RESULT)


class Fatal(Exception):
    """Why there is no result, as one plain sentence. Nothing of a table was written then."""


def escape(text: str) -> str:
    """The text in one line that a terminal shows as it is: what can't be printed is written by its number."""
    if text.isprintable():
        return text
    return "".join(one if one.isprintable() else _by_number(one) for one in text)


def _by_number(one: str) -> str:
    number = ord(one)
    return f"\\u{number:04x}" if number < 0x10000 else f"\\U{number:08x}"


def shorten(value: object, most: int = MOST_QUOTED) -> str:
    """The text that a message quotes, cut if it has more bytes than this."""
    text = value if isinstance(value, str) else str(value)
    if len(text) * 4 <= most:
        return text
    data = text.encode(errors="backslashreplace")
    return text if len(data) <= most else f"{data[:most].decode(errors='ignore')}..."


def cut_words(text: str, most: int = MOST_QUOTED) -> str:
    """A message whose words, such as quoted names, are cut if they are longer than this."""
    return text if len(text) * 4 <= most else _WORD.sub(lambda found: _cut_word(found[0], most), text)


def _cut_word(word: str, most: int) -> str:
    # (the punctuation after a name belongs to the message, and so does the end of one that is cut already)
    name = word.rstrip(".,;:)")
    return shorten(name, most) + word[len(name) :] if len(word) - len(name) <= _MOST_BEHIND else shorten(word, most)


def describe_fault(fault: OSError) -> str:
    """What the system says of a fault."""
    return fault.strerror or str(fault)


def write_all(descriptor: int, data: bytes, what: str) -> None:
    """Writes all of it, or is Fatal: a full disk and a closed pipe are no end of a result."""
    view = memoryview(data)
    try:
        while view:
            view = view[os.write(descriptor, view) :]
    except OSError as fault:
        raise Fatal(f"{what} could not be written: {describe_fault(fault)}") from fault


class Messages:
    """Writes messages to standard error, and counts what was left out.

    `before` is called before each line, to clear the progress line. Of lines that differ only in their id, the first
    `most_alike` are written, and report_others writes how many more there are. Without `most_alike` all are written.
    """

    def __init__(
        self, descriptor: int = 2, before: Callable[[], None] | None = None, most_alike: int | None = None
    ) -> None:
        self._descriptor, self._before, self._most_alike = descriptor, before, most_alike
        self._alike: Counter[str] = Counter()
        self.left = 0
        self.remarks = 0

    def leave_out(self, id: str, reason: str, place: str = "") -> None:
        """Reports something that was not read or is no record; `place` is where it is in a file, unless the id says
        so."""
        self.left += 1
        where = f", {place}" if place and place != id else ""
        self._write_some(f"left out {shorten(id)}{where}: {reason}", f"left out {{}} more: {reason}")

    def hint(self, text: str, command: str) -> None:
        """A remark that ends with the command that lists its items. The command isn't cut, so that it can be copied."""
        self.remarks += 1
        self._write(f"remark {text}; to list them: {command}", is_whole=True)

    def remark(self, text: str, id: str = "") -> None:
        """Reports something worth knowing by which nothing is lost."""
        self.remarks += 1
        self._write_some(f"remark {id}: {text}" if id else f"remark {text}", f"remark {{}} more: {text}")

    def report_others(self) -> None:
        """Writes how many lines were not written because they are like others."""
        for line, count in self._alike.items():
            if self._most_alike is not None and count > self._most_alike:
                self._write(line.replace("{}", str(count - self._most_alike), 1))
        self._alike.clear()

    def status(self) -> int:
        return LEFT_OUT if self.left else DONE

    def _write_some(self, line: str, others: str) -> None:
        self._alike[others] += 1
        if self._most_alike is None or self._alike[others] <= self._most_alike:
            self._write(line)

    def _write(self, line: str, is_whole: bool = False) -> None:
        if self._before is not None:
            self._before()
        write_all(
            self._descriptor,
            f"{escape(line if is_whole else cut_words(line))}\n".encode(errors="replace"),
            "what was left out",
        )


class RecordedMessages(Messages):
    """Writes messages, and keeps what was left out with ids, reasons and places, because the result lists it too."""

    def __init__(
        self, descriptor: int = 2, before: Callable[[], None] | None = None, most_alike: int | None = None
    ) -> None:
        super().__init__(descriptor, before, most_alike)
        self.noted: list[tuple[str, str, str]] = []

    def leave_out(self, id: str, reason: str, place: str = "") -> None:
        self.noted.append((id, reason, place))
        super().leave_out(id, reason, place)

    def json(self) -> list[dict[str, str]]:
        """What was left out, as the result lists it."""
        return [
            {"id": id, "reason": reason} | ({"place": place} if place and place != id else {})
            for id, reason, place in self.noted
        ]


class NoMessages(Messages):
    """Writes nothing, for input that is reported elsewhere."""

    def _write(self, line: str, is_whole: bool = False) -> None:
        pass


class DeferredMessages(Messages):
    """Keeps messages until it is known whether they are right; then they are passed on, or dropped."""

    def __init__(self) -> None:
        super().__init__()
        self._calls: list[tuple[str, tuple[str, ...]]] = []

    def leave_out(self, id: str, reason: str, place: str = "") -> None:
        self._calls.append(("leave_out", (id, reason, place)))

    def remark(self, text: str, id: str = "") -> None:
        self._calls.append(("remark", (text, id)))

    def hint(self, text: str, command: str) -> None:
        self._calls.append(("hint", (text, command)))

    def pass_on(self, messages: Messages) -> None:
        """Says it."""
        for name, given in self._calls:
            getattr(messages, name)(*given)


class Output:
    """Standard output. The lines are kept until the end, so that nothing is written if there is no result."""

    def __init__(self, descriptor: int = 1) -> None:
        self._descriptor = descriptor
        self._lines: list[str] = []

    def line(self, text: str) -> None:
        self._lines.append(text)

    def lines(self, texts: Iterator[str] | list[str]) -> None:
        self._lines.extend(texts)

    def end(self, as_shown: Callable[[str], str] | None = None) -> None:
        """Writes all that was gathered, each line perhaps as it is shown; the result is whole after this."""
        lines = self._lines if as_shown is None else map(as_shown, self._lines)
        data = "".join(f"{line}\n" for line in lines).encode(errors="replace")
        self._lines.clear()
        write_all(self._descriptor, data, "the output")


def write_file(path: str, lines: Iterator[str] | list[str]) -> None:
    """A file of these lines, whole or not there at all: it gets its name when all of it is written."""
    target = Path(path)
    data = "".join(f"{line}\n" for line in lines).encode(errors="replace")
    try:
        if target.exists() and not target.is_file():
            # (a device or a pipe can't be put in place of itself)
            target.write_bytes(data)
            return
        beside = target.with_name(f".{target.name}.{os.getpid()}")
        try:
            beside.write_bytes(data)
            os.replace(beside, target)
        finally:
            beside.unlink(missing_ok=True)
    except OSError as fault:
        raise Fatal(f"{path} could not be written: {describe_fault(fault)}") from fault


@contextlib.contextmanager
def temporary_folder() -> Iterator[Path]:
    """A folder for temporary files, which is removed at the end, also if a signal ends the recipe."""
    try:
        made = tempfile.TemporaryDirectory(prefix="cpe-recipe-")
    except OSError as fault:
        raise Fatal(f"there is no room for temporary files: {describe_fault(fault)}") from fault
    with made as folder:
        yield Path(folder)


def _stop(_number: int, _frame: object) -> NoReturn:
    # (as an exception, so that open files are closed and temporary files are removed)
    raise SystemExit(STOPPED)


def _fault(fault: Exception) -> str:
    """A fault of the recipe itself, in words, with its place in the code."""
    if os.environ.get(TRACEBACK):
        with contextlib.suppress(OSError):
            os.write(2, "".join(traceback.format_exception(fault)).encode(errors="replace"))
    frames = traceback.extract_tb(fault.__traceback__)
    place = f" in {Path(frames[-1].filename).name} line {frames[-1].lineno}" if frames else ""
    return f"there is no result, since the recipe has a fault{place}: {type(fault).__name__} {fault}; {TRACEBACK}=1 shows more"


def _end(name: str, reason: str) -> int:
    with contextlib.suppress(OSError, Fatal):
        write_all(2, f"{name}: {escape(cut_words(reason))}\n".encode(errors="replace"), "the reason")
    return NO_RESULT


def _help(run: Callable[[list[str]], int]) -> int:
    output = Output()
    output.line((sys.modules[run.__module__].__doc__ or "").rstrip("\n"))
    output.end()
    return DONE


def main(run: Callable[[list[str]], int], name: str, words: list[str]) -> NoReturn:
    """Runs a recipe with its words, and ends with its status. With --help the recipe writes its description."""
    for number in (signal.SIGHUP, signal.SIGINT, signal.SIGTERM):
        # (what whoever started it lets pass, such as nohup, passes here too)
        if signal.getsignal(number) is not signal.SIG_IGN:
            signal.signal(number, _stop)
    sys.argv[0] = name
    # (a recipe keeps what it reads to its end, and makes no circles of it, so looking for these takes a fifth of its
    # time for nothing)
    gc.disable()
    try:
        status = _help(run) if words in (["--help"], ["-h"]) else run(words)
    except Fatal as fault:
        status = _end(name, str(fault))
    except MemoryError:
        status = _end(name, "memory ran out")
    except (
        Exception
    ) as fault:  # noqa: BLE001 (by Python's own status, 1, it would pass for a result with something left out)
        status = _end(name, _fault(fault))
    sys.exit(status)
