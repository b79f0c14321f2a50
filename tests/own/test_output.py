"""How outputs go: to a full device, into a file that has no more room, to a reader that goes away, and nowhere."""
import itertools
import os
import subprocess
import tempfile
import threading
import unittest
from pathlib import Path

from inputs import GOES_AWAY, INPUTS, REPEATED
from made_dictionaries import Dictionary, Families
from made_statements import Inventory, Statements, Watched
from made_versions import Advised, Covered
from own_case import LONGEST, WRITE_FAULT, Ended, OwnCase, fed, lines_of
from repeated import repeated, repeated_answers

FULL = Path("/dev/full")
# The room of a file, in the blocks of 512 bytes that ulimit counts, and in bytes.
BLOCKS, ROOM = 128, 65_536
# (if the signal is ignored that a full file sends, its write fails)
IN_A_FULL_FILE = f"trap '' XFSZ; ulimit -f {BLOCKS} && exec \"$@\""


class FullDevice(OwnCase):
    def write_fails(self, what, words, given):
        with self.subTest(f"a write that fails ends with status 4: {what}"):
            if not os.access(FULL, os.W_OK):
                self.skipTest("there is no /dev/full")
            with FULL.open("wb") as output:
                self.judge(self.run_cpe(words, given, output=output), WRITE_FAULT, b"")

    def test_a_write_that_fails_ends_with_status_4(self):
        for words, given in INPUTS.items():
            self.write_fails(" ".join(words), words, given)
        self.write_fails("evaluate, an empty input", ["evaluate"], b"")
        self.write_fails("unbound", ["unbound"], b"")
        for words in (["make", "100"], ["make", "100000"], ["drill", "100"]):
            self.write_fails(" ".join(words), words, b"")


class FullFile(OwnCase):
    def write_fails(self, words, given, expected):
        """A check that a file without more room takes a prefix of the output."""
        written = self.room / "written"
        with written.open("wb") as output:
            command = ["sh", "-c", IN_A_FULL_FILE, "sh", self.program, *words]
            run = self.ended(command, self.file("many", given), output=output)
        data = written.read_bytes()
        self.assertTrue(0 < len(data) <= ROOM, f"{len(data)} bytes were written")
        self.judge(run._replace(output=data), WRITE_FAULT, expected[: len(data)])

    def test_a_prefix_of_the_answers_is_written_before_a_write_fails(self):
        for words, (given, output) in REPEATED.items():
            with self.subTest(f"a write that fails in mid-stream ends with status 4: {' '.join(words)}"):
                data = self.bytes_of(given)
                self.write_fails(words, repeated(2_000, data), repeated_answers(2_000, data, self.bytes_of(output)))

    def test_a_prefix_of_long_outputs_is_written_before_a_write_fails(self):
        inputs = (
            ("resolve", Dictionary(20_000)),
            ("resolve", Families(100)),
            ("evaluate", Inventory(2_000)),
            ("evaluate", Statements(5_000)),
            ("watch", Watched(1_500)),
            ("advise", Advised(1_000)),
            ("cover", Covered(3_000)),
        )
        for word, made in inputs:
            with self.subTest(f"a write that fails in mid-stream ends with status 4: {word}, {type(made).__name__}"):
                self.write_fails([word], made.input(), made.output())


class Readers(OwnCase):
    def run_for_few(self, words, pieces, count) -> Ended:
        """A run of which a reader takes so many lines, and then goes away."""
        with tempfile.TemporaryFile(dir=self.room) as said, fed(pieces) as source:
            streams = {"stdin": source, "stdout": subprocess.PIPE, "stderr": said}
            child = subprocess.Popen([self.program, *words], cwd=self.root, **streams)
            timer = threading.Timer(LONGEST, child.kill)
            timer.start()
            with child.stdout:
                taken = b"".join(itertools.islice(child.stdout, count))
            child.wait()
            timer.cancel()
            said.seek(0)
            return Ended(child.returncode, taken, said.read())

    def test_a_reader_that_goes_away_ends_the_program_with_status_4(self):
        for words, (given, output) in GOES_AWAY.items():
            with self.subTest(f"a reader that goes away ends the program with status 4: {' '.join(words)}"):
                pieces = itertools.repeat(repeated(100, self.bytes_of(given)), 200)
                expected = lines_of(self.bytes_of(output))[0] + b"\n"
                self.judge(self.run_for_few(words, pieces, 1), WRITE_FAULT, expected)
        with self.subTest("a reader that goes away ends the program with status 4: make"):
            self.judge(self.run_for_few(["make", "800000"], [], 8), WRITE_FAULT, "tests/vectors/make/8.out")


class Closed(OwnCase):
    def test_a_closed_output_is_a_write_that_fails(self):
        for words, given in [*INPUTS.items(), (("make", "16"), b"")]:
            with self.subTest(f"a closed standard output ends with status 4: {' '.join(words)}"):
                run = self.ended(["sh", "-c", 'exec "$@" >&-', "sh", self.program, *words], given)
                self.judge(run, WRITE_FAULT, b"")


if __name__ == "__main__":
    unittest.main()
