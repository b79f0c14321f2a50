"""What run.py writes of checks that pass, fail, are skipped, or lose their process, and its status."""
import os
import sys
import unittest

from own_case import ROOT, OwnCase

RUN = [sys.executable, "-B", ROOT / "tests" / "own" / "run.py"]
# Tests in which a check passes, one fails, one is skipped, or the process is gone, and one that has no check.
TESTS = """
import os, unittest

class Passes(unittest.TestCase):
    def test_one_and_one(self):
        with self.subTest("one"):
            pass
        with self.subTest("and one"):
            pass

class Fails(unittest.TestCase):
    def test_a_check_fails(self):
        with self.subTest("it is two"):
            self.assertEqual(1, 2)
        with self.subTest("it is one"):
            self.assertEqual(1, 1)

    def test_what_was_not_foreseen(self):
        open("/none/such")

class Skips(unittest.TestCase):
    def test_a_check_is_skipped(self):
        with self.subTest("it needs a tool"):
            self.skipTest("there is no tool")

class Dies(unittest.TestCase):
    def test_the_process_is_gone(self):
        os._exit(0)

class Empty(unittest.TestCase):
    @unittest.expectedFailure
    def test_nothing(self):
        self.fail()
"""


class Runner(OwnCase):
    def run_tests(self, *names):
        """The status and the lines of run.py over some of these tests."""
        self.file("tried.py", TESTS.encode())
        run = self.ended([*RUN, self.program, *names], env={**os.environ, "PYTHONPATH": str(self.room)})
        self.assertEqual(run.said, b"")
        return run.status, run.output.decode().splitlines()

    def test_checks_that_pass_are_counted(self):
        status, lines = self.run_tests("tried.Passes")
        self.assertEqual(status, 0)
        self.assertRegex(lines[-1], r"own checks: 2 passed, 0 failed, 0 skipped, in \d+ s")

    def test_a_check_that_fails_is_named_at_the_end_and_shown_above(self):
        status, lines = self.run_tests("tried.Passes", "tried.Fails")
        self.assertEqual(status, 1)
        self.assertIn("    1 != 2", lines)
        self.assertTrue(any("No such file or directory: '/none/such'" in line for line in lines), lines)
        named = {
            "FAILED: it is two (tried.Fails.test_a_check_fails)",
            "FAILED: what was not foreseen (tried.Fails.test_what_was_not_foreseen)",
        }
        self.assertEqual(set(lines[-3:-1]), named)
        self.assertRegex(lines[-1], "own checks: 3 passed, 2 failed, 0 skipped")

    def test_a_check_that_is_skipped_is_named_at_the_end(self):
        status, lines = self.run_tests("tried.Skips")
        self.assertEqual(status, 0)
        self.assertEqual(lines[-3], "OWN CHECKS SKIPPED, which show nothing here:")
        self.assertEqual(lines[-2], "  it needs a tool: there is no tool")
        self.assertRegex(lines[-1], "own checks: 0 passed, 0 failed, 1 skipped")

    def test_a_process_that_is_gone_fails(self):
        status, lines = self.run_tests("tried.Dies")
        self.assertEqual(status, 1)
        self.assertEqual(lines[-2], "FAILED: each test has a check (tried.Dies.test_the_process_is_gone)")

    def test_a_test_without_a_check_fails(self):
        status, lines = self.run_tests("tried.Empty")
        self.assertEqual(status, 1)
        self.assertEqual(lines[-2], "FAILED: each test has a check (tried.Empty.test_nothing)")

    def test_a_test_that_is_not_there_fails(self):
        run = self.ended([*RUN, self.program, "test_names.NoSuch"])
        self.assertEqual((run.status, run.output), (1, b""))
        self.assertIn(b"has no attribute 'NoSuch'", run.said)

    def test_without_a_program_the_status_is_2(self):
        run = self.ended([*RUN, self.room / "none"])
        self.assertEqual((run.status, run.output), (2, b""))
        self.assertIn(b"is no program: run make build first", run.said)


if __name__ == "__main__":
    unittest.main()
