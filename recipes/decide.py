#!/usr/bin/env python3
"""Decides in which ranges of versions a machine has an item: the code is cpe_recipes/decide.py.

    python3 decide.py --ranges FILE.. --records FILE.. --machines FILE [--matches FILE..] [--letters FILE]
"""
import sys

sys.dont_write_bytecode = True  # (run.py says why)
from cpe_recipes import console, decide

if __name__ == "__main__":
    console.main(decide.run, "decide.py", sys.argv[1:])
