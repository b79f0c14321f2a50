"""Tests that each wrong implementation fails in exactly the sections of its rule."""

import argparse
import shlex
import sys
import tempfile
import unittest
from pathlib import Path

import conformance
from conformance import CASES, MODEL, run
from wrong import WRONG

WORDS = argparse.Namespace(limit=30, places=False)


def bad(source):
    """The sections in which the model with this source fails."""
    model = conformance.made(source)
    return {" ".join(run.section_of(it)) for it in CASES if not conformance.is_passed(model, it)}


def bad_as_adapter(source):
    """The same by the runner, with the model as an adapter."""
    with tempfile.TemporaryDirectory() as folder:
        path = Path(folder) / "wrong.py"
        path.write_text(source, encoding="utf-8")
        found = run.run(shlex.join([sys.executable, "-B", str(path)]), CASES, WORDS)
    return {" ".join(run.section_of(it.case)) for it in found.bad()}


class WrongImplementations(unittest.TestCase):
    def test_the_right_one_fails_nowhere(self):
        self.assertEqual(bad_as_adapter(MODEL), set())

    def test_each_wrong_one_fails_in_the_sections_of_its_rule(self):
        for it in WRONG:
            with self.subTest(it.rule):
                self.assertEqual(MODEL.count(it.right), 1)
                self.assertEqual(bad(MODEL.replace(it.right, it.wrong)), it.sections)

    def test_the_runner_finds_the_same(self):
        """Of one wrong implementation for each report."""
        of_reports = {next(iter(it.sections))[:4]: it for it in WRONG}
        self.assertEqual(of_reports.keys(), {"7695", "7696", "7697", "7698"})
        for it in of_reports.values():
            self.assertEqual(bad_as_adapter(MODEL.replace(it.right, it.wrong)), it.sections, it.rule)


if __name__ == "__main__":
    unittest.main()
