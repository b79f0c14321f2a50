#!/usr/bin/env python3
"""Measures `cpe save` and `cpe load` beside reading the records of the same rows: their time, their memory, and the
bytes of a snapshot.

Prints a table, and says of each target whether it is met. README.md beside this file says how to read it.
"""
import argparse
import os
import pathlib
import subprocess
import sys

sys.dont_write_bytecode = True
import run

# The targets: the speed of `load` compared with reading the records, and its memory compared with theirs; the time of
# `save` compared with `resolve`, and the bytes of a snapshot compared with those of the records.
LEAST_SPEED, MOST_MEMORY, MOST_OF_RESOLVE, MOST_BYTES = 3.0, 1.2, 1.1, 0.7


def snapshot_of(program, path):
    """The snapshot of the rows that the records of a file leave, in a file beside it."""
    into = path.with_suffix(".snapshot")
    with path.open("rb") as records, into.open("wb") as out:
        subprocess.run([program, "save"], stdin=records, stdout=out, check=False)
    return into


def peak(words, path):
    """The most memory that the program held at once, in KiB. `load` holds most after its input has ended, so the system
    is asked after the program has ended. The memory of this script when it started the program, some 20 MB, is the
    least that can be reported."""
    with path.open("rb") as source:
        child = subprocess.Popen(words, stdin=source, stdout=subprocess.DEVNULL)
        _, _, used = os.wait4(child.pid, 0)
    child.returncode = 0
    return used.ru_maxrss


def measure(program, path, reader, rounds):
    """What the targets speak of, for the records of a file, which are read under this word."""
    into = snapshot_of(program, path)
    read = {word: [program, word] for word in dict.fromkeys(("resolve", "save", reader))}
    loaded = {"load": [program, "load"]}
    times = {**run.best_times(read, path, rounds), **run.best_times(loaded, into, rounds)}
    peaks = {word: peak(words, into if word == "load" else path) for word, words in {**read, **loaded}.items()}
    size, rows = path.stat().st_size, into.stat().st_size
    print(f"\n{path.name}: {path.read_bytes().count(10):,} lines, {size / 1e6:.1f} MB; snapshot {rows / 1e6:.1f} MB; best of {rounds}")
    print(f"{'word':<10}{'seconds':>9}{'of ' + reader:>14}{'peak KiB':>12}")
    for word, seconds in times.items():
        print(f"{word:<10}{seconds:>9.3f}{seconds / times[reader]:>14.2f}{run.in_kib(peaks[word]):>12}", flush=True)
    return [
        (f"load: times as fast as {reader}", times[reader] / times["load"], LEAST_SPEED, True),
        (f"load: memory of {reader}", peaks["load"] / peaks[reader], MOST_MEMORY, False),
        ("save: of the time of resolve", times["save"] / times["resolve"], MOST_OF_RESOLVE, False),
        ("snapshot: of the bytes of the records", rows / size, MOST_BYTES, False),
    ]


def made_by(program, count):
    """The records of `cpe make`, in a file."""
    into = run.TOP / "build" / "bench" / f"made-{count}.txt"
    into.parent.mkdir(parents=True, exist_ok=True)
    with into.open("wb") as out:
        subprocess.run([program, "make", str(count)], stdout=out, check=True)
    return into


def said():
    parser = argparse.ArgumentParser(description=__doc__)
    parser.add_argument("program", nargs="?", default=run.TOP / "build" / "cpe", type=pathlib.Path, help="the program cpe (build/cpe)")
    parser.add_argument("--lines", type=int, default=2_000_000, help="how many entries (2000000)")
    parser.add_argument("--made", type=int, default=200_000, help="how many records of `cpe make` (200000)")
    parser.add_argument("--rounds", type=int, default=3, help="runs of each program on each input (3)")
    given = parser.parse_args()
    if not os.access(given.program, os.X_OK) or not given.program.is_file():
        parser.error(f"{given.program} is no program: run make build first")
    if given.lines < 100 or given.made < 1 or given.rounds < 1:
        parser.error("it takes at least 100 lines, one record and one round")
    return given


def main():
    given = said()
    program = given.program.resolve()
    if not run.knows([program, "load"]):
        print("the program has no command cpe load: nothing is measured")
        return
    print(f"load before: {os.getloadavg()[0]:.1f} on {os.cpu_count()} processors")
    inputs = [(run.made("entry", given.lines), "resolve"), (made_by(program, given.made), "evaluate")]
    found = [(path, measure(program, path, reader, given.rounds)) for path, reader in inputs]
    print(f"\n{'target':<62}{'bound':>8}{'measured':>10}")
    for path, targets in found:
        for what, figure, bound, is_least in targets:
            met = figure >= bound if is_least else figure <= bound
            print(f"{f'{path.stem}: {what}':<62}{bound:>8}{figure:>10.2f}  {'met' if met else 'MISSED'}")
    print(f"\nload behind: {os.getloadavg()[0]:.1f}")


if __name__ == "__main__":
    main()
