#!/usr/bin/env python3
"""Runs a recipe of the package beside this file: python3 run.py NAME WORDS.. The scripts NAME.sh call it.

(They pass -B to Python. Without it, Python writes broken compiled files on a full disk, and reads them again later.)
"""
import importlib
import sys

from cpe_recipes import console

if __name__ == "__main__":
    name = sys.argv[1]
    console.main(importlib.import_module(f"cpe_recipes.{name.replace('-', '_')}").run, f"{name}.sh", sys.argv[2:])
