#!/usr/bin/env python3
"""Writes which advisories affect which machine, from feeds and software lists: the code is cpe_recipes/scan.py.

    python3 scan.py --dictionary FILE.. --advisories FILE.. [--matches FILE..] --machines FILE | --lists FILE.. [--json]
"""
import sys

sys.dont_write_bytecode = True  # (run.py says why)
from cpe_recipes import console, scan

if __name__ == "__main__":
    console.main(scan.run, "scan.py", sys.argv[1:])
