"""How cpe is run, with programs in its place."""
import os
import sys
import tempfile
import unittest
from pathlib import Path
from unittest import mock

sys.path.insert(0, str(Path(__file__).resolve().parents[2] / "recipes"))
sys.path.insert(0, str(Path(__file__).resolve().parent))

from cpe_recipes.console import Fatal  # noqa: E402
from cpe_recipes.program import Candidate, Program, refusals  # noqa: E402
from stand_in import Heard  # noqa: E402


# The answer to the question at the end of a run.
BARRIER = """echo "$last" | sed 's/.*"do":"\\([a-z]*\\)","id":"\\([0-9a-f]*\\)".*/\\1 \\2 absent/'"""


class Runs(unittest.TestCase):
    def setUp(self):
        folder = tempfile.TemporaryDirectory()
        self.addCleanup(folder.cleanup)
        self.path = Path(folder.name) / "program"

    def program(self, text):
        self.path.write_text(f"#!/bin/sh\n{text}\n")
        self.path.chmod(0o755)
        return Program(str(self.path))

    def test_a_program_that_is_not_there_is_fatal(self):
        for path in (str(self.path), str(self.path.parent)):
            with self.assertRaises(Fatal):
                Program(path)
        with mock.patch.dict(os.environ, {"CPE": "/no/cpe"}), self.assertRaises(Fatal) as caught:
            Program()
        self.assertEqual(str(caught.exception), "there is no /no/cpe")

    def test_lines_go_in_and_out_without_waiting(self):
        # (more in each direction than pipes hold)
        records = [f"line {number} {'x' * 100}" for number in range(20000)]
        self.assertEqual(self.program("cat").run(["any"], records), records)

    def test_a_status_above_one_is_fatal_whatever_was_written(self):
        self.assertEqual(self.program("echo one; exit 1").run(["evaluate"], []), ["one"])
        for end in ("exit 2", "exit 5", "kill -9 $$"):
            with self.subTest(end), self.assertRaises(Fatal):
                self.program(f"echo one; {end}").run(["evaluate"], ["a"] * 100000)

    def test_what_is_no_cpe_is_told_with_what_it_answers(self):
        pair = "SUPERSET EQUAL EQUAL SUPERSET EQUAL EQUAL EQUAL EQUAL EQUAL EQUAL EQUAL EQUAL"
        bad = {
            "isn't cpe: it answers one line of compare with 0 lines, not with": "cat > /dev/null",
            "isn't cpe: it answers one line of compare with 1 line, cpe:/a:gnu cpe:/a:gnu:gnutls, not with": "cat",
            "isn't cpe: it answers one line of compare with 2 lines, SUPERSET": f"echo {pair}; echo more",
            "isn't cpe: it answers one line of compare with 2048 lines, y, not with": "yes",
        }
        for told, text in bad.items():
            with self.subTest(text), mock.patch.dict(os.environ, {"CPE": self.program(text).path}):
                with self.assertRaises(Fatal) as caught:
                    Program()
                self.assertIn(told, str(caught.exception))
        with mock.patch.dict(os.environ, {"CPE": self.program(f"echo {pair}").path}):
            Program()

    def test_too_few_answers_are_fatal_with_how_many(self):
        records = ["one", "two", "three"]
        for text, wrote in (("cat > /dev/null", 0), ("head -n 2", 2), ("cat", 4)):
            with self.subTest(text), self.assertRaises(Fatal) as caught:
                self.program(text).run(["resolve"], records)
            wanted = f"resolve answered too few lines: it wrote {wrote} lines over 3, and the last answer isn't there"
            self.assertTrue(str(caught.exception).endswith(wanted), caught.exception)
        whole = self.program(f"tee {self.path}.in > /dev/null; last=$(tail -n 1 {self.path}.in); head -n 3 {self.path}.in; {BARRIER}")
        for word in ("resolve", "advise"):
            self.assertEqual(whole.run([word], records), records)
        for text, answered in (("head -n 2", 2), ("cat; echo more", 4)):
            with self.subTest(text), self.assertRaises(Fatal) as caught:
                self.program(text).run(["compare"], records)
            self.assertIn(f"compare answered too few lines: it wrote {answered} lines over 3", str(caught.exception))

    def test_an_answer_to_another_line_is_fatal(self):
        for words, number in ((["compare"], 2), (["resolve"], 4), (["resolve"], 0), (["resolve"], "x")):
            program = self.program(f"last=$(tail -n 1); echo refused {number} name; {BARRIER}")
            with self.subTest(words, number=number), self.assertRaisesRegex(Fatal, "refused|answered"):
                program.run(words, ["one", "two", "three"])
        program = self.program(f"last=$(tail -n 1); echo lookup a; echo refused 1 name; {BARRIER}")
        with self.assertRaisesRegex(Fatal, "resolve answered question 2 with refused 1 name"):
            program.answers(["resolve"], ["one", "two"])
        with self.assertRaisesRegex(Fatal, "resolve answered 2 of 3 questions"):
            program.answers(["resolve"], ["one", "two", "three"])

    def test_faults_of_the_records_are_told(self):
        def records():
            yield "one"
            raise KeyError("two")

        with self.assertRaises(KeyError):
            self.program("cat").run([], records())

    def test_a_run_that_is_not_read_to_its_end_is_ended(self):
        lines = self.program("yes").lines([], [])
        self.assertEqual(next(lines), "y")
        lines.close()

    def test_accepted_are_in_order_and_the_others_said(self):
        told = "echo refused 2 exists; echo refused 4 name name 9"
        program = self.program(f"last=$(tail -n 1); {told}; {BARRIER}; exit 1")
        messages = Heard()
        candidates = [Candidate("a", "{1}"), Candidate("b", "{2}"), Candidate("c", reason="rejected"), Candidate("d", "{" + "4" * 200)]
        self.assertEqual(program.accept(candidates, messages), ["{1}"])
        told = ["left out b: exists: {2}", "left out c: rejected", "left out d: name name 9: {" + "4" * 199 + "..."]
        self.assertEqual(messages.told, told)
        messages = Heard()
        self.assertEqual(program.accept(candidates, messages, "exists"), ["{1}"])
        self.assertEqual(messages.told, told[1:])

    def test_refusals_have_their_numbers(self):
        self.assertEqual(refusals(["chain x", "refused 12 name fact 2 7", "refused 30 long"]), {12: "name fact 2 7", 30: "long"})


if __name__ == "__main__":
    unittest.main()
