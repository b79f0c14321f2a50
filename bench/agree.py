#!/usr/bin/env python3
"""Compares what `cpe` and its unproved twins write on the vectors of each command, and measures nothing.

    python3 bench/agree.py [PROGRAM]

A twin that writes something else is no measure of the program. Ends with status 1 if one does, and with 2 if there is
no rustc to build the twins with.
"""
import argparse
import os
import pathlib
import shutil
import sys

sys.dont_write_bytecode = True
import run

# The commands, each with those whose vectors it is tried on: what reads records reads all of them.
RECORDS = (run.RESOLVE, run.EVALUATE, run.WATCH)
TRIED_ON = {it: RECORDS if it in RECORDS else (it,) for it in run.TWINS}


def main():
    parser = argparse.ArgumentParser(description=__doc__)
    parser.add_argument("program", nargs="?", default=run.TOP / "build" / "cpe", type=pathlib.Path, help="the program cpe (build/cpe)")
    given = parser.parse_args()
    if not os.access(given.program, os.X_OK) or not given.program.is_file():
        parser.error(f"{given.program} is no program: run make build first")
    if not shutil.which("rustc"):
        parser.error("rustc is not on PATH, so there are no twins")
    twins = run.built_twins(dict.fromkeys(twin for twins in run.TWINS.values() for twin in twins))
    for command, tried_on in TRIED_ON.items():
        paths = run.vectors_of(*tried_on)
        run.check_twins(command, run.side_by_side(given.program.resolve(), command, twins), paths)
        print(f"{', '.join(run.TWINS[command])}: as {command} on {len(paths)} vectors")


if __name__ == "__main__":
    main()
