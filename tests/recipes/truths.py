#!/usr/bin/env python3
"""Counts what `scan.py --json` says of each pair of machine and advisory against its truth: python3 truths.py TRUTHS <
JSON.

The status is 0 if no affected pair is FALSE, no other one TRUE, and at most a tenth of all UNKNOWN.
"""
import json
import sys
from collections import Counter

MOST_UNKNOWN = 0.1


def read_truths(path):
    """The machines, and those that are affected by each advisory."""
    machines, affected = None, {}
    with open(path, encoding="utf-8") as file:
        for line in file:
            words = line.split()
            if not words or words[0].startswith("#"):
                continue
            if words[0] == "machines":
                machines = words[1:]
            else:
                affected[words[0]] = set(words[1:])
    if not machines or not affected or not all(names <= set(machines) for names in affected.values()):
        sys.exit(f"{path}: no truths")
    return machines, affected


def count(result, machines, affected):
    """How many pairs there are of each truth and verdict, and those that are wrong."""
    if result["advisories"] != len(affected) or sorted(row["name"] for row in result["machines"]) != sorted(machines):
        sys.exit("these are verdicts of other machines or advisories")
    counts, wrong = Counter(), []
    for row in result["machines"]:
        if "verdicts" not in row:
            sys.exit(f"{row['name']} has no verdicts")
        said = {one["id"]: one["verdict"] for one in row["verdicts"]}
        if not said.keys() <= affected.keys():
            sys.exit(f"{row['name']} has verdicts of other advisories")
        for id, names in affected.items():
            is_affected, verdict = row["name"] in names, said.get(id, "FALSE")
            counts[is_affected, verdict] += 1
            if verdict == ("FALSE" if is_affected else "TRUE"):
                wrong.append(f"{row['name']} {id} is {verdict}, and {'affected' if is_affected else 'not affected'}")
    return counts, wrong


def main():
    machines, affected = read_truths(sys.argv[1])
    try:
        result = json.load(sys.stdin)
    except ValueError as fault:
        sys.exit(f"no verdicts: {fault}")
    counts, wrong = count(result, machines, affected)
    pairs, unknown = sum(counts.values()), counts[True, "UNKNOWN"] + counts[False, "UNKNOWN"]
    for is_affected in (True, False):
        numbers = ", ".join(f"{counts[is_affected, verdict]} {verdict}" for verdict in ("TRUE", "UNKNOWN", "FALSE"))
        print(f"{'affected' if is_affected else 'not affected'}: {numbers}")
    print(f"{pairs} pairs, {unknown} UNKNOWN")
    for line in wrong:
        print(line)
    if unknown > MOST_UNKNOWN * pairs:
        print("too many are UNKNOWN")
    sys.exit(bool(wrong) or unknown > MOST_UNKNOWN * pairs or any(verdict == "ERROR" for _, verdict in counts))


if __name__ == "__main__":
    main()
