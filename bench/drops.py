#!/usr/bin/env python3
"""Measures what drops from the front take of `cpe resolve` by how many rows there are: items, statements, results of
checks.

Half of the rows are dropped, the first one first. All times are of the processor. Prints a table, and says of each kind
whether its growth is within the target: what a line costs is to be about the same for few and for many. README.md
beside this file says how to read it.

usage: drops.py PROGRAM
"""
import json
import sys

sys.dont_write_bytecode = True
import near

SIZES = (5_000, 10_000, 20_000, 40_000)
# The target: what a line takes among most rows beside one among fewest.
MOST_GROWTH = 1.3
TIMES = 5


def name(number):
    return f"cpe:2.3:a:vendor:product{number}:1.0:*:*:*:*:*:*:*"


def item(number, word):
    return {"do": word, "name": name(number)}


def statement(number, word):
    if word == "drop-statement":
        return {"do": word, "id": f"s{number}"}
    return {"do": word, "id": f"s{number}", "mode": "plain", "test": {"op": "OR", "of": [{"fact": name(number)}]}}


def check(number, word):
    key = {"do": word, "system": "s", "href": "h", "id": f"c{number}"}
    return key if word == "drop-check" else {**key, "result": "TRUE"}


KINDS = {"item": item, "statement": statement, "check": check}


def lines_of(records):
    return near.text(json.dumps(it).encode() for it in records)


def drops(program, kind, count):
    """The processor time to remove half of this many rows, in seconds."""
    row = KINDS[kind]
    put = lines_of(row(number, kind) for number in range(count))
    dropped = lines_of(row(number, f"drop-{kind}") for number in range(count // 2))
    found = []
    for _ in range(TIMES):
        with near.Session(program, "resolve") as session:
            session.accepts(put)
            found.append(session.accepts(dropped))
    return min(found)


def main(words):
    if len(words) != 1:
        sys.exit(__doc__)
    found = {}
    print(f"{'dropped':10} {'rows':>7} {'seconds':>8} {'us a drop':>10} {'growth':>7}")
    for kind in KINDS:
        first = None
        for count in SIZES:
            took = drops(words[0], kind, count)
            each = took * 2 / count
            first = first or each
            print(f"{kind:10} {count:7} {took:8.2f} {each * 1e6:10.2f} {each / first:7.2f}", flush=True)
        found[kind] = each / first
    print(f"\n{'target: the most growth of a drop':<40}{'most':>6}{'measured':>10}")
    for kind, growth in found.items():
        print(f"{kind:<40}{MOST_GROWTH:>6}{growth:>10.2f}  {'met' if growth <= MOST_GROWTH else 'MISSED'}")


if __name__ == "__main__":
    main(sys.argv[1:])
