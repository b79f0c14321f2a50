"""What the tests of the built program share: runs of it, and what a run has to write."""
import collections
import contextlib
import os
import re
import shutil
import subprocess
import tempfile
import threading
import unittest
from collections.abc import Iterable, Iterator
from pathlib import Path

ROOT = Path(__file__).resolve().parents[2]
VECTORS = "tests/vectors"
# The program that is tested: the one that the variable CPE names, or the one that the gate built.
CPE = shutil.which(os.path.abspath(os.environ.get("CPE", ROOT / "build" / "cpe")))
# A program that hangs is stopped after so many seconds. (A busy machine doesn't need them for what takes seconds.)
LONGEST = 240
# How a program ends: if lines were refused, at wrong words, at a fault of a read, of a write, of memory, and at a word
# that is no text.
SOME_REFUSED, USAGE, READ_FAULT, WRITE_FAULT, MEMORY_FAULT, WORDS_FAULT = 1, 2, 3, 4, 5, 7
SHOWN_LINES, SHOWN_BYTES = 6, 200

# An input is a file below the root, or bytes that come through a pipe.
Input = str | Path | bytes
# How a run ended: its status, what it wrote, and what it wrote to standard error.
Ended = collections.namedtuple("Ended", "status output said")


@contextlib.contextmanager
def opened(path: Path) -> Iterator[int]:
    """The number of a file that is open for reading. (It may be a folder, at which each read fails.)"""
    number = os.open(path, os.O_RDONLY)
    try:
        yield number
    finally:
        os.close(number)


def write_all(end: int, data: bytes) -> None:
    """Writes all of these bytes into a pipe."""
    left = memoryview(data)
    while left:
        left = left[os.write(end, left) :]


@contextlib.contextmanager
def fed(pieces: Iterable[bytes]) -> Iterator[int]:
    """The end of a pipe into which a thread writes these pieces, one after the other, until nobody reads."""
    source, end = os.pipe()

    def feed() -> None:
        try:
            for piece in pieces:
                write_all(end, piece)
        except BrokenPipeError:
            pass
        finally:
            os.close(end)

    thread = threading.Thread(target=feed)
    thread.start()
    try:
        yield source
    finally:
        os.close(source)
        thread.join()


def shortened(line: bytes) -> str:
    """A line as it is shown: the beginning of a long one."""
    more = f" and {len(line) - SHOWN_BYTES} bytes more" if len(line) > SHOWN_BYTES else ""
    return repr(line[:SHOWN_BYTES]) + more


def difference(expected: bytes, found: bytes) -> str:
    """The first lines in which two outputs differ, as both have them, and how long both are."""
    wanted, written = expected.split(b"\n"), found.split(b"\n")
    differ = (at for at, (one, other) in enumerate(zip(wanted, written)) if one != other)
    same = next(differ, min(len(wanted), len(written)))
    lines = [f"they differ from line {same + 1} on; expected are {len(expected)} bytes, and found are {len(found)}:"]
    lines += [f"  expected: {shortened(line)}" for line in wanted[same : same + SHOWN_LINES]]
    lines += [f"  found:    {shortened(line)}" for line in written[same : same + SHOWN_LINES]]
    return "\n".join(lines)


def refused_status(output: bytes) -> int:
    """The status of a run that writes this, and that nothing breaks off."""
    return SOME_REFUSED if any(line.startswith(b"refused ") for line in lines_of(output)) else 0


def lines_of(data: bytes) -> list[bytes]:
    """The lines of an input or an output, without their newlines. The last line may have none."""
    lines = data.split(b"\n")
    return lines if lines[-1] else lines[:-1]


def joined(lines: Iterable[bytes]) -> bytes:
    """These lines, each with its newline."""
    return b"".join(line + b"\n" for line in lines)


def without(start: bytes, data: bytes) -> bytes:
    """The bytes of the lines that don't begin with this."""
    return re.sub(b"^" + re.escape(start) + rb".*\n?", b"", data, flags=re.MULTILINE)


def parted(output: bytes) -> tuple[bytes, bytes]:
    """What stands before the table of verdicts, and the table."""
    found = re.search(rb"^verdicts ", output, re.MULTILINE)
    at = found.start() if found else len(output)
    return output[:at], output[at:]


def bounded(kib: int, command: list) -> list:
    """The command in an address space of so many KiB."""
    return ["sh", "-c", 'ulimit -v "$0" && exec "$@"', str(kib), *command]


def can_be_bounded() -> bool:
    """Whether an address space can be bounded here."""
    return subprocess.run(["sh", "-c", "ulimit -v 65536"], stderr=subprocess.DEVNULL, check=False).returncode == 0


class OwnCase(unittest.TestCase):
    """A test with a folder of its own. Each of its checks is a subtest, which has the name of the check."""

    program = CPE
    root = ROOT

    def setUp(self):
        self.assertTrue(self.program, "there is no program to test: run make build first")
        (ROOT / "build").mkdir(exist_ok=True)
        folder = tempfile.TemporaryDirectory(prefix="own.", dir=ROOT / "build")
        self.addCleanup(folder.cleanup)
        self.room = Path(folder.name)

    def bytes_of(self, given: Input) -> bytes:
        """The bytes of an input or of an expected output."""
        return given if isinstance(given, bytes) else (self.root / given).read_bytes()

    def file(self, name: str, data: bytes) -> Path:
        """A file with these bytes in the test's own folder."""
        path = self.room / name
        path.write_bytes(data)
        return path

    def vectors(self, folder: str) -> list[Path]:
        """The inputs of a folder of vectors, of which there are some."""
        found = sorted((self.root / VECTORS / folder).glob("*.in"))
        self.assertTrue(found, f"there are no vectors in {folder}")
        return found

    def needs(self, *tools: str) -> None:
        """Skips what follows if a tool is missing here."""
        for tool in tools:
            if not shutil.which(tool):
                self.skipTest(f"there is no {tool}")

    def needs_bounds(self) -> None:
        if not can_be_bounded():
            self.skipTest("the address space can not be bounded")

    def ended(self, command: list, given: Input = os.devnull, output=subprocess.PIPE, **how) -> Ended:
        """How a command ends over an input."""
        how = {"stdout": output, "stderr": subprocess.PIPE, "cwd": self.root, "timeout": LONGEST, "check": False, **how}
        if isinstance(given, bytes):
            run = subprocess.run(command, input=given, **how)
        else:
            with opened(self.root / given) as source:
                run = subprocess.run(command, stdin=source, **how)
        return Ended(run.returncode, run.stdout or b"", run.stderr)

    def run_cpe(self, words: Iterable, given: Input = os.devnull, **how) -> Ended:
        """How the program ends under these words over an input."""
        return self.ended([self.program, *words], given, **how)

    def run_in_pieces(self, words: Iterable, data: bytes) -> Ended:
        """How the program ends if each write gives it one byte, so that lines come in pieces."""
        with fed(data[at : at + 1] for at in range(len(data))) as source:
            how = {"capture_output": True, "cwd": self.root, "timeout": LONGEST, "check": False}
            run = subprocess.run([self.program, *words], stdin=source, **how)
        return Ended(run.returncode, run.stdout, run.stderr)

    def judge(self, run: Ended, status: int, output: Input) -> None:
        """Fails if a run ended otherwise, wrote something else, or wrote to standard error."""
        expected, wrong = self.bytes_of(output), []
        if run.status != status:
            wrong.append(f"status {run.status} in place of {status}")
        if run.output != expected:
            wrong.append(f"it writes something else: {difference(expected, run.output)}")
        if run.said:
            wrong.append(f"it writes to standard error: {shortened(run.said)}")
        if wrong:
            self.fail("\n".join(wrong))

    def answers(self, what: str, given: Input, output: Input, status: int, *words) -> None:
        """A check of what the program writes under these words over this input."""
        with self.subTest(what):
            self.judge(self.run_cpe(words, given), status, output)
