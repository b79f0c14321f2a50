#!/usr/bin/env python3
"""Measures `cpe convert` beside `cpe resolve`, which reads the same records and keeps them, and beside `jq -c -S .`,
which reads them as JSON and writes them with sorted keys.

Prints a table, and says of each target whether it is met. README.md beside this file says how to read it.
"""
import argparse
import os
import pathlib
import shlex
import shutil
import sys

sys.dont_write_bytecode = True
import run

# The targets: of the time of `resolve`, and of that of jq.
MOST_OF_RESOLVE, MOST_OF_JQ = 1.3, 1.0
COMMAND, RESOLVE, JQ = "cpe convert", "cpe resolve", "jq -c -S ."


def check_order(program, paths):
    """Ends this run where jq would write what is written in another way: its keys are sorted, and nothing is left to
    write shorter."""
    if not shutil.which("jq"):
        return
    sorted_again = f"{shlex.quote(str(program))} convert | {{ grep -v '^refused ' || :; }} | {JQ}"
    plain = f"{shlex.quote(str(program))} convert | {{ grep -v '^refused ' || :; }}"
    found = [(path, run.difference(["sh", "-c", plain], ["sh", "-c", sorted_again], path)) for path in paths]
    for path, difference in found:
        if difference:
            print(f"{JQ} changes what {COMMAND} writes for {path.name}: {difference}")
    if any(difference for _, difference in found):
        sys.exit(1)


def measure(programs, path, rounds):
    """The best times of the programs on these lines."""
    times = run.best_times(programs, path, rounds)
    lines = path.read_bytes().count(b"\n")
    print(f"\n{path.name}: {lines:,} lines, {path.stat().st_size / 1e6:.1f} MB, best of {rounds}, output to /dev/null")
    print(f"{'program':<14}{'seconds':>9}{'ratio':>8}{'us a line':>11}{'peak KiB':>10}")
    for name, words in programs.items():
        ratio, most = times[name] / times[COMMAND], run.in_kib(run.peak(words, path))
        print(f"{name:<14}{times[name]:>9.3f}{ratio:>8.2f}{times[name] / lines * 1e6:>11.2f}{most:>10}", flush=True)
    return times


def said():
    parser = argparse.ArgumentParser(description=__doc__)
    parser.add_argument("program", nargs="?", default=run.TOP / "build" / "cpe", type=pathlib.Path, help="the program cpe (build/cpe)")
    parser.add_argument("--lines", type=int, default=1_000_000, help="as many as bench/run.py is given (1000000)")
    parser.add_argument("--rounds", type=int, default=5, help="runs of each program on each input (5)")
    given = parser.parse_args()
    if not os.access(given.program, os.X_OK) or not given.program.is_file():
        parser.error(f"{given.program} is no program: run make build first")
    if given.lines < 100 or given.rounds < 1:
        parser.error("it takes at least 100 lines and one round")
    return given


def main():
    given = said()
    program = given.program.resolve()
    if not run.knows([program, "convert"]):
        print(f"the program has no command {COMMAND}: nothing is measured")
        return
    programs = {COMMAND: [program, "convert"], RESOLVE: [program, "resolve"]}
    if shutil.which("jq"):
        programs[JQ] = JQ.split()
    else:
        print("jq is not on PATH: it is left out")
    paths = [run.made("entry", run.entries_of(given.lines)), run.made("statement", max(1, given.lines // 10))]
    check_order(program, paths)
    print(f"load before: {os.getloadavg()[0]:.1f} on {os.cpu_count()} processors")
    found = [(path, measure(programs, path, given.rounds)) for path in paths]
    print(f"\n{'target':<58}{'bound':>9}{'measured':>10}")
    for path, times in found:
        for other, bound in ((RESOLVE, MOST_OF_RESOLVE), (JQ, MOST_OF_JQ)):
            if other in times:
                figure = times[COMMAND] / times[other]
                print(f"{f'{path.stem}: of the time of {other}':<58}{bound:>9}{figure:>10.2f}  {'met' if figure <= bound else 'MISSED'}")
    print(f"\nload behind: {os.getloadavg()[0]:.1f}")


if __name__ == "__main__":
    main()
