#!/usr/bin/env python3
"""Makes a page of HTML from the output of scan.py --json: the code is cpe_recipes/report.py.

    python3 report.py [--title TEXT] [FILE] > page.html
"""
import sys

sys.dont_write_bytecode = True  # (run.py says why)
from cpe_recipes import console, report

if __name__ == "__main__":
    console.main(report.run, "report.py", sys.argv[1:])
