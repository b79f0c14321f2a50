"""Each read and each write that fails in short sessions, and a word that is no text."""
import re
import sys
import unittest

from own_case import WORDS_FAULT, OwnCase

WHAT = "each read and each write that fails"
# What tests/failing_calls.py writes for a session, or for all of them.
WRITTEN = re.compile(r"(ok|FAILED|SKIPPED): ([^:]*): (.*)")


class Calls(OwnCase):
    def session(self, kind, name, said):
        """A check of what is written for one session."""
        with self.subTest(f"{WHAT}: {name}" if kind != "SKIPPED" else WHAT):
            if kind == "SKIPPED":
                self.skipTest(said)
            if kind == "FAILED":
                self.fail(said)

    def test_each_call_that_fails_ends_a_session(self):
        run = self.ended([sys.executable, "-B", self.root / "tests" / "failing_calls.py", self.program])
        written = [WRITTEN.fullmatch(line) for line in run.output.decode().splitlines()]
        for one in written:
            self.assertTrue(one, run.output)
            self.session(*one.groups())
        # (if it breaks off, nothing is written for the sessions that are left)
        is_failed = any(one[1] == "FAILED" for one in written)
        self.assertEqual((run.status, bool(written)), (1 if is_failed else 0, True), run.said.decode()[-500:])

    def test_a_word_that_is_no_text_ends_with_status_7(self):
        with self.subTest("a word that is no text ends with status 7"):
            self.judge(self.run_cpe([b"unbind\377"], "examples/names.txt"), WORDS_FAULT, b"")


if __name__ == "__main__":
    unittest.main()
