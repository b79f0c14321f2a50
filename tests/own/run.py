#!/usr/bin/env python3
"""Checks of the built program from outside, on real streams.

usage: run.py [--verbose] [PROGRAM [TEST ..]]

PROGRAM is build/cpe if left out. A TEST is a module, a class or a test, such as test_names, or test_names.Usage; all
are run if none is named. As many processes as there are processors run them. A check whose tool or device is missing
here is SKIPPED, and doesn't count as passed. The last lines name each check that was skipped or failed. Ends with
status 0 if no check failed, and with 2 if there is no program. Nothing is written but below build/.
"""
import argparse
import collections
import concurrent.futures
import os
import sys
import time
import unittest
from pathlib import Path

sys.dont_write_bytecode = True

HERE = Path(__file__).resolve().parent
# These take longest, so they begin first.
FIRST = ("test_calls", "test_can_fail", "test_generated", "test_input", "test_memory", "test_records", "test_bench")

KINDS = ("passed", "failed", "skipped")

# How a check ended, by one of these words; its name, the test that has it, and what is said of it.
Check = collections.namedtuple("Check", "how name test said")
# What became of a test: its checks, and the seconds that it took.
Outcome = collections.namedtuple("Outcome", "test checks seconds")


class Checks(unittest.TestResult):
    """Stores how each check of a test ended. A test without subtests is one check."""

    def __init__(self) -> None:
        super().__init__()
        self.checks: list[Check] = []

    def add(self, how: str, test: unittest.TestCase, said: str = "") -> None:
        is_subtest = hasattr(test, "test_case")
        of = test.test_case if is_subtest else test
        name = f"{test._message}" if is_subtest else of.id().rpartition(".")[2].removeprefix("test_").replace("_", " ")
        self.checks.append(Check(how, name, of.id(), said))

    def add_failed(self, test: unittest.TestCase, error: tuple) -> None:
        """A check that failed, with what the test says of it, or with the calls that led to an error."""
        is_judged = issubclass(error[0], unittest.TestCase.failureException)
        self.add("failed", test, str(error[1]) if is_judged else self._exc_info_to_string(error, test))

    def addSuccess(self, test):
        if not any(check.test == test.id() for check in self.checks):
            self.add("passed", test)

    def addFailure(self, test, err):
        self.add_failed(test, err)

    def addError(self, test, err):
        self.add_failed(test, err)

    def addSkip(self, test, reason):
        self.add("skipped", test, reason)

    def addSubTest(self, test, subtest, err):
        if err is None:
            self.add("passed", subtest)
        else:
            self.add_failed(subtest, err)


def run_test(id: str) -> Outcome:
    """Runs one test."""
    began, result = time.monotonic(), Checks()
    unittest.defaultTestLoader.loadTestsFromName(id).run(result)
    return Outcome(id, result.checks, time.monotonic() - began)


def tests_of(suite: unittest.TestSuite) -> list[unittest.TestCase]:
    return [test for part in suite for test in (tests_of(part) if isinstance(part, unittest.TestSuite) else [part])]


def found_tests(names: list[str]) -> list[str]:
    """The tests of these names, or all; those first that take longest."""
    loader = unittest.TestLoader()
    suite = loader.loadTestsFromNames(names) if names else loader.discover(str(HERE))
    if loader.errors:
        sys.exit("\n".join(loader.errors))
    ids = [test.id() for test in tests_of(suite)]
    return sorted(ids, key=lambda id: FIRST.index(id.split(".")[0]) if id.split(".")[0] in FIRST else len(FIRST))


def indented(text: str) -> str:
    return "".join(f"    {line}\n" for line in text.splitlines())


def show(outcome: Outcome, is_verbose: bool) -> None:
    """Writes what became of a test, and why checks of it failed."""
    counts = collections.Counter(check.how for check in outcome.checks)
    said = ", ".join(f"{counts[how]} {how}" for how in KINDS if counts[how])
    head = "FAILED" if counts["failed"] else "ok"
    print(f"{head}: {outcome.test}: {said}, {outcome.seconds:.1f} s", flush=True)
    for check in outcome.checks:
        if check.how == "failed":
            print(f"  FAILED: {check.name}:\n{indented(check.said)}", end="", flush=True)
        elif is_verbose or check.how == "skipped":
            print(f"  {check.how}: {check.name}{': ' if check.said else ''}{check.said}")


def without_check(test: str, said: str) -> Outcome:
    """The outcome of a test of which there is no check."""
    return Outcome(test, [Check("failed", "each test has a check", test, said)], 0)


def run_all(tests: list[str], is_verbose: bool) -> list[Check]:
    """Runs these tests side by side."""
    checks: list[Check] = []
    with concurrent.futures.ProcessPoolExecutor(os.cpu_count()) as pool:
        waiting = {pool.submit(run_test, test): test for test in tests}
        for one in concurrent.futures.as_completed(waiting):
            test, error = waiting[one], one.exception()
            outcome = without_check(test, f"its process is gone: {error!r}") if error else one.result()
            outcome = outcome if outcome.checks else without_check(test, "it has none")
            show(outcome, is_verbose)
            checks += outcome.checks
    return checks


def summed_up(checks: list[Check], seconds: float) -> int:
    """The status. Writes the last lines: the names of checks that were skipped or failed, and how many there are."""
    of = {how: [check for check in checks if check.how == how] for how in KINDS}
    if of["skipped"]:
        print("OWN CHECKS SKIPPED, which show nothing here:")
    for check in of["skipped"]:
        print(f"  {check.name}: {check.said}")
    for check in of["failed"]:
        print(f"FAILED: {check.name} ({check.test})")
    counts = ", ".join(f"{len(found)} {how}" for how, found in of.items())
    print(f"own checks: {counts}, in {seconds:.0f} s")
    return 1 if of["failed"] or not checks else 0


def main() -> int:
    parser = argparse.ArgumentParser(description=__doc__, formatter_class=argparse.RawDescriptionHelpFormatter)
    parser.add_argument("--verbose", action="store_true", help="name each check, those too that passed")
    parser.add_argument("program", nargs="?", default=HERE.parents[1] / "build" / "cpe", type=Path)
    parser.add_argument("tests", nargs="*")
    given = parser.parse_args()
    program = given.program.resolve()
    if not os.access(program, os.X_OK) or not program.is_file():
        parser.error(f"{program} is no program: run make build first")
    # (the tests are imported in processes of their own, too)
    os.environ["CPE"] = str(program)
    sys.path.insert(0, str(HERE))
    os.chdir(HERE.parents[1])
    began = time.monotonic()
    return summed_up(run_all(found_tests(given.tests), given.verbose), time.monotonic() - began)


if __name__ == "__main__":
    sys.exit(main())
