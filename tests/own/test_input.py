"""How inputs come: in pieces, line by line, at volume, none at all, and with reads that fail."""
import select
import subprocess
import sys
import tempfile
import time
import unittest

from inputs import AT_ONCE, IN_PIECES, INPUTS, REPEATED
from made_dictionaries import Dictionary, Families
from made_statements import Inventory, Watched
from made_versions import Advised, Covered
from own_case import READ_FAULT, SOME_REFUSED, Ended, OwnCase, bounded, refused_status
from own_case import joined, lines_of, parted, without
from repeated import repeated, repeated_answers

# How long a test waits for a line that has to come.
PATIENCE = 60
# How many lines come at volume.
LINES = 300_000
# What tests/failing_read.py ends with if no pipe holds an input.
NO_PIPE = 77


def line_from(stream) -> bytes:
    """The next line that comes, or what came of it in time."""
    end, line = time.monotonic() + PATIENCE, b""
    while not line.endswith(b"\n") and select.select([stream], [], [], max(0, end - time.monotonic()))[0]:
        byte = stream.read(1)
        if not byte:
            break
        line += byte
    return line


class Pieces(OwnCase):
    def test_lines_that_come_in_single_bytes_are_answered_as_at_once(self):
        for words, (given, output) in IN_PIECES.items():
            with self.subTest(f"an input that comes in single bytes: {' '.join(words)}"):
                self.judge(self.run_in_pieces(words, self.bytes_of(given)), SOME_REFUSED, output)


class AtOnce(OwnCase):
    def asked_by_lines(self, words, lines) -> Ended:
        """A run in which the next line is sent only when the answer to the one before is there."""
        with tempfile.TemporaryFile(dir=self.room) as said:
            streams = {"stdin": subprocess.PIPE, "stdout": subprocess.PIPE, "stderr": said, "bufsize": 0}
            child = subprocess.Popen([self.program, *words], cwd=self.root, **streams)
            try:
                answers = [self.asked(child, line) for line in lines]
                rest, _ = child.communicate(timeout=PATIENCE)
            finally:
                child.kill()
                child.communicate()
            said.seek(0)
            return Ended(child.returncode, b"".join([*answers, rest]), said.read())

    def asked(self, child, line) -> bytes:
        """The answer to a line, which has to come while no further line is sent."""
        try:
            child.stdin.write(line + b"\n")
        except BrokenPipeError:
            self.fail(f"the program is gone before the line {line!r} is sent")
        answer = line_from(child.stdout)
        late = f"no whole answer to {line!r} comes within {PATIENCE} seconds, but {answer!r}"
        self.assertTrue(answer.endswith(b"\n"), late)
        return answer

    def test_an_answer_comes_before_the_next_line_is_sent(self):
        """A table comes after the last line."""
        for words, (given, output, status) in AT_ONCE.items():
            with self.subTest(f"an answer comes before the next line is sent: {' '.join(words)}"):
                answers, table = parted(self.bytes_of(output))
                expected = joined(lines_of(answers)[:2]) + table
                self.judge(self.asked_by_lines(words, lines_of(self.bytes_of(given))[:2]), status, expected)


class Volume(OwnCase):
    def test_so_many_lines_pass_in_little_memory(self):
        """There are good lines and refused ones."""
        for words, (given, output) in REPEATED.items():
            with self.subTest(f"{LINES:,} lines: {' '.join(words)}"):
                data = self.bytes_of(given)
                times = LINES // len(lines_of(data)) + 1
                run = self.ended(bounded(65_536, [self.program, *words]), repeated(times, data))
                self.judge(run, SOME_REFUSED, repeated_answers(times, data, self.bytes_of(output)))


class Nothing(OwnCase):
    def test_an_empty_input_is_answered(self):
        outputs = dict.fromkeys(("unbind", "resolve", "watch", "convert", "explain", "check", "advise", "cover"), b"")
        outputs |= {"evaluate": b"verdicts 0\n", "load": b"refused snapshot\n"}
        for word, output in outputs.items():
            self.answers(f"an empty input: {word}", b"", output, refused_status(output), word)

    def test_a_closed_input_is_a_read_that_fails(self):
        for words in INPUTS:
            with self.subTest(f"a closed standard input ends with status 3: {' '.join(words)}"):
                self.judge(self.ended(["sh", "-c", 'exec "$@" <&-', "sh", self.program, *words]), READ_FAULT, b"")

    def test_drill_leaves_a_closed_input_unread(self):
        with self.subTest("a closed standard input is not read: drill"):
            run = self.ended(["sh", "-c", 'exec "$@" <&-', "sh", self.program, "drill", "16"])
            self.judge(run, 0, "tests/vectors/drill/16.out")


class FailingReads(OwnCase):
    def read_fails(self, words, data, expected):
        """A check that a read that fails after these bytes ends the program, which has written this."""
        many = self.file("many", data)
        run = self.ended([sys.executable, "-B", self.root / "tests" / "failing_read.py", many, self.program, *words])
        if run.status == NO_PIPE:
            self.skipTest("no pipe here is large enough")
        self.judge(run, READ_FAULT, expected)

    def test_a_first_read_that_fails_ends_with_status_3(self):
        """The input is a folder."""
        for words in INPUTS:
            self.answers(f"a read that fails ends with status 3: {' '.join(words)}", ".", b"", READ_FAULT, *words)

    def test_what_whole_lines_are_answered_is_written_before_a_read_fails(self):
        """A prefix of one more line came too."""
        for words, (given, output) in REPEATED.items():
            with self.subTest(f"a read that fails in mid-stream ends with status 3: {' '.join(words)}"):
                data = self.bytes_of(given)
                expected = repeated_answers(300, data, self.bytes_of(output))
                self.read_fails(words, repeated(300, data) + b"cpe:2.3:a:torn", expected)

    def test_a_line_that_is_torn_off_is_no_line(self):
        """It is a whole record here. No table and no list is written."""
        torn = (
            ("resolve", Dictionary(4_000), b'{"do":"lookup","name":"cpe:/a:v:p0:0"}'),
            ("resolve", Families(150), b'{"do":"chain","name":"cpe:/a:family:f0:0"}'),
            ("evaluate", Inventory(200), b'{"do":"verdict","id":"s0"}'),
            ("watch", Watched(1_000), b'{"do":"drop-statement","id":"s0"}'),
            ("advise", Advised(200), b'{"do":"affected","id":"a0"}'),
            ("cover", Covered(200), b"cpe:/a:v:p"),
        )
        for word, made, line in torn:
            with self.subTest(f"a read that fails in mid-stream ends with status 3: {word}, {type(made).__name__}"):
                before, _ = parted(made.output())
                if word == "cover":
                    before = without(b"cpe:", before)
                self.read_fails([word], made.input() + line, before)


if __name__ == "__main__":
    unittest.main()
