#!/usr/bin/env python3
"""Keeps feeds in a store, which scan.py can read: the code is cpe_recipes/store.py.

    python3 store.py add --store FOLDER PAGES.. | status --store FOLDER | check --store FOLDER
"""
import sys

sys.dont_write_bytecode = True  # (run.py says why)
from cpe_recipes import console, store

if __name__ == "__main__":
    console.main(store.run, "store.py", sys.argv[1:])
