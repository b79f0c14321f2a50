#!/usr/bin/env python3
"""Refuses each allocation of short sessions in turn: refused-memory.py [PROGRAM [TESTS]].

PROGRAM is build/cpe if left out, and TESTS the program of the tests in crates/engine_tests, as the gate builds it. A
session is a command on one of the vectors beside this file. The allocations of a whole run are counted. Then there are
two runs for each of them: one in which it alone is refused, and one in which all after it are refused too. In each of
these the input is read as usual, or in single bytes; then every answer must be written before the next line is read. A
run must end with status 5 and a prefix of the output, in whole lines; or with status 7 and no output, if the words of
the command line find no memory; or as the whole run, if the program can do without the memory. Standard error must be
empty. In TESTS, the test of an engine that continues must pass whichever allocation is refused alone. The status is 0
if all of this holds. Without a C compiler all is SKIPPED, and without TESTS that test; this is reported, and doesn't
count as passed.
"""
import collections
import concurrent.futures
import itertools
import os
import pathlib
import subprocess
import sys
import tempfile

sys.dont_write_bytecode = True

from preloaded import TOP, compiled, run  # noqa: E402

# The program and the tests where none are named.
FOUND = (TOP / "build" / "cpe", TOP / "crates" / "engine_tests" / "out" / "engine_tests_tests")
# Between them they have each kind of edit and question, the table of verdicts, and edits that are refused.
SESSIONS = (
    "resolve/a-chain-that-is-edited",
    "watch/one-statement",
    "watch/a-name-that-is-deprecated",
    "evaluate/dictionary-and-advisories",
    "watch/deprecate-amend-restore",
    "watch/statements-put-and-dropped",
    "advise/nothing-is-left",
    "cover/bindings-and-letter-case",
)
# The test of an engine that gets each record once more for which it found no memory.
GOES_ON = "again::an_engine_continues_after_memory_ran_out"
SOME_REFUSED, MEMORY, NO_WORDS = 1, 5, 7
READS = {"as they come": {}, "in single bytes": {"READ_MOST": "1"}}
MODES = {"alone": {}, "and all behind it": {"REFUSE_ON": "1"}}


class Session:
    """A command on its vector, and what it should write."""

    def __init__(self, program, shim, vector):
        self.words = [program, vector.split("/")[0]]
        self.path = TOP / "tests" / "vectors" / f"{vector}.in"
        self.shim, self.wanted = shim, self.path.with_suffix(".out").read_bytes()

    def run(self, **told):
        with open(self.path, "rb") as lines:
            return run(self.words, self.shim, lines, told)

    def kind(self, ended, whole):
        """How a run ended of which something was refused; none of the ways in which it may is None."""
        if not ended.refused:
            return None
        if ended.status == MEMORY and self.wanted.startswith(ended.output) and (not ended.output or ended.output.endswith(b"\n")):
            return "out of memory"
        if ended.status == NO_WORDS and not ended.output:
            return "without words"
        if (ended.status, ended.output) == (whole.status, self.wanted):
            return "done without it"
        return None


def judge_whole(session, whole):
    """What is wrong with a run of which nothing is refused, or None."""
    wanted = SOME_REFUSED if any(line.startswith(b"refused ") for line in session.wanted.splitlines()) else 0
    if (whole.status, whole.output) != (wanted, session.wanted):
        return f"with all memory it ends with status {whole.status} and other output"
    return None


def tried(session, pool):
    """How often the runs ended in each way, and which ended in another."""
    kinds, fronts, wrong, count = collections.Counter(), set(), [], 0
    for (way, most), (mode, stays) in itertools.product(READS.items(), MODES.items()):
        whole = session.run(**most)
        found = judge_whole(session, whole)
        if found:
            return kinds, fronts, [found], whole.allocations
        count = max(count, whole.allocations)
        runs = pool.map(lambda number, most=most, stays=stays: session.run(REFUSE_AT=str(number), **most, **stays), range(1, whole.allocations + 1))
        for number, ended in enumerate(runs, 1):
            kind = session.kind(ended, whole)
            kinds[kind] += 1
            fronts.add(ended.output)
            if not kind:
                wrong.append(f"allocation {number} refused {mode}, bytes {way}: status {ended.status}, {ended.output[-200:]!r}")
    return kinds, fronts, wrong, count


def tell(vector, kinds, fronts, wrong, count):
    if wrong:
        print(f"FAILED: {vector}: {wrong[0]}" + (f"; {len(wrong) - 1} more" if wrong[1:] else ""), flush=True)
        return
    ways = ", ".join(f"{number} {kind}" for kind, number in sorted(kinds.items()))
    print(f"ok: {vector}: {count} allocations, {sum(kinds.values())} runs: {ways}; {len(fronts)} fronts of the output", flush=True)


def goes_on(tests, shim, pool):
    """Whether the test passes whichever of its allocations is refused alone."""
    if not tests.is_file():
        print(f"SKIPPED: {GOES_ON}: there is no {tests}: run make test first")
        return True
    words = [tests, GOES_ON]
    whole = run(words, shim, subprocess.DEVNULL, {})
    runs = pool.map(lambda number: run(words, shim, subprocess.DEVNULL, {"REFUSE_AT": str(number)}), range(1, whole.allocations + 1))
    failed = [number for number, ended in enumerate(runs, 1) if ended.status or ended.refused != 1]
    if whole.status or not whole.allocations or failed:
        print(f"FAILED: {GOES_ON}: status {whole.status} with all memory; allocations whose refusal it doesn't pass: {failed[:10]}")
        return False
    print(f"ok: {GOES_ON}: {whole.allocations} allocations, each refused alone", flush=True)
    return True


def skip(why):
    print(f"REFUSED MEMORY SKIPPED, all of it: {why}")
    sys.exit(0)


def main(words):
    if len(words) > 2:
        sys.exit(__doc__)
    program, tests = [pathlib.Path(it).resolve() for it in (*words, *FOUND[len(words) :])]
    if not os.access(program, os.X_OK) or not program.is_file():
        sys.exit(f"{program} is no program: run make build first")
    os.makedirs(TOP / "build", exist_ok=True)
    is_wrong = False
    with tempfile.TemporaryDirectory(dir=TOP / "build") as room, concurrent.futures.ThreadPoolExecutor(os.cpu_count()) as pool:
        shim = compiled(room)
        if not shim:
            skip("there is no C compiler")
        for vector in SESSIONS:
            session = Session(program, shim, vector)
            if not session.run().allocations:
                skip("the program's allocations are not those of the GNU C library")
            kinds, fronts, wrong, count = tried(session, pool)
            tell(vector, kinds, fronts, wrong, count)
            is_wrong = is_wrong or bool(wrong)
        is_wrong = not goes_on(tests, shim, pool) or is_wrong
    return 1 if is_wrong else 0


if __name__ == "__main__":
    sys.exit(main(sys.argv[1:]))
