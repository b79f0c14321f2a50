"""Tests that RESULTS.md says what the adapters give: its numbers, and the ids of the cases that don't pass.

An adapter whose library isn't here is skipped, and so is a library of another version than that on the page.
"""

import argparse
import ctypes.util
import os
import re
import shlex
import shutil
import subprocess
import sys
import unittest
import unittest.mock
from collections import Counter

from conformance import ADAPTERS, CASES, SUITE, TOP, run

import cpe_program

PAGE = (SUITE / "RESULTS.md").read_text(encoding="utf-8")
LIBRARY = TOP / "build" / "libcpe.a"
OUTCOMES = (run.Outcome.PASSED, run.Outcome.FAILED, run.Outcome.REFUSED, run.Outcome.NOT_OFFERED, run.Outcome.DIED)


def row(name):
    """The version of an implementation, and its numbers, as the page has them."""
    found = re.search(rf"(?m)^\| {re.escape(name)} \| (\S+) \| ([\d |]+) \|$", PAGE)
    return found[1], [int(it) for it in found[2].split(" | ")]


def column(name):
    """What the table by section has for an implementation."""
    rows = [line.strip("| ").split(" | ") for line in PAGE.split("\n| Section |")[1].split("\n\n")[0].splitlines()]
    place = ["Cases", *rows[0][1:]].index(name)
    return {it[0]: it[1 + place] for it in rows[2:]}


def listed(name):
    """The ids in the section of an implementation, each as often as it is there."""
    section = PAGE.split(f"\n## {name}\n")[1].split("\n## ")[0]
    ids = Counter()
    for group, first, last in re.findall(r"`([a-z]+(?:-[a-z]+)+)-(\d{3})(?:\.\.(\d{3}))?`", section):
        ids.update(f"{group}-{number:03}" for number in range(int(first), int(last or first) + 1))
    return ids


def version_of(package):
    """The version of a package of Debian that is installed; or nothing."""
    if not shutil.which("dpkg-query"):
        return ""
    words = ["dpkg-query", "--showformat=${Version}", "--show", package]
    return subprocess.run(words, capture_output=True, text=True).stdout


class Results(unittest.TestCase):
    def run_it(self, *words, **given):
        with unittest.mock.patch.dict(os.environ, given):
            return run.run(shlex.join([str(it) for it in words]), CASES, argparse.Namespace(limit=60, places=True))

    def check_rows(self, name, found):
        """The row of an implementation, and its column in the table by section."""
        reports = [it for it in found.judged if not it.case["own"]]
        counts = Counter(it.outcome for it in reports)
        self.assertEqual([len(reports), *(counts[it] for it in OUTCOMES)], row(name)[1])
        passed = Counter(run.section_of(it.case) for it in reports if it.outcome is run.Outcome.PASSED)
        offered = Counter(run.section_of(it.case) for it in reports if it.outcome is not run.Outcome.NOT_OFFERED)
        cells = {
            ", ".join(it): f"{passed[it]} of {offered[it]}" if offered[it] else "-"
            for it in {run.section_of(each.case) for each in reports}
        }
        self.assertEqual(cells, column(name))

    def check_other(self, name, package, *words):
        version = version_of(package)
        if version != row(name)[0]:
            self.skipTest(f"{package} {row(name)[0]} is not installed")
        found = self.run_it(*words)
        self.check_rows(name, found)
        self.assertEqual(Counter(it.case["id"] for it in found.bad() if not it.case["own"]), listed(name))

    def check_all(self, *words, **given):
        """All cases pass, those of own rules and all places too."""
        found = self.run_it(*words, **given)
        self.assertEqual([it.case["id"] for it in found.judged if it.outcome is not run.Outcome.PASSED], [])
        return found

    @unittest.skipUnless(shutil.which(cpe_program.PROGRAM), "there is no program: make program")
    def test_the_program(self):
        found = self.check_all(sys.executable, "-B", ADAPTERS / "cpe_program.py")
        self.check_rows("`cpe`", found)
        refused = [it for it in found.judged if "place" in it.case["expect"]]
        self.assertEqual([it.case["id"] for it in refused if not it.is_place_right], [])

    @unittest.skipUnless(LIBRARY.is_file(), "the library is not built: make library")
    def test_the_library_from_python(self):
        self.check_all(sys.executable, "-B", ADAPTERS / "cpe_python.py", CPE_LIBRARY=str(LIBRARY.with_suffix(".so")))

    @unittest.skipUnless(LIBRARY.is_file(), "the library is not built: make library")
    @unittest.skipUnless(shutil.which("go") and shutil.which("cc"), "there is no go, or no cc")
    def test_the_library_from_go(self):
        self.check_all("sh", ADAPTERS / "cpe_go.sh")

    @unittest.skipUnless(shutil.which("go"), "there is no go")
    def test_go_cpe(self):
        self.check_other("go-cpe", "golang-github-knqyf263-go-cpe-dev", "sh", ADAPTERS / "go_cpe.sh")

    @unittest.skipUnless(ctypes.util.find_library("openscap"), "there is no libopenscap")
    def test_openscap(self):
        self.check_other("OpenSCAP", "libopenscap25", sys.executable, "-B", ADAPTERS / "openscap.py")

    def test_each_listed_id_is_a_case_of_the_reports(self):
        known = {it["id"] for it in CASES if not it["own"]}
        for name in ("go-cpe", "OpenSCAP"):
            self.assertLessEqual(listed(name).keys(), known)

    def test_the_pages_have_the_version_and_the_number_of_cases(self):
        version = (SUITE / "cases" / "VERSION").read_text().strip()
        reports = sum(not it["own"] for it in CASES)
        self.assertIn(f"set {version}: {reports:,} cases of the reports", " ".join(PAGE.split()))
        self.assertIn(f"{len(CASES):,} cases as data", " ".join((SUITE / "README.md").read_text().split()))


if __name__ == "__main__":
    unittest.main()
