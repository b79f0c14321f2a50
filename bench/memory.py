#!/usr/bin/env python3
"""Measures the memory of the program: python3 bench/memory.py [PROGRAM]. PROGRAM is build/cpe if left out.

At first, names are added and removed: nothing is kept, so the memory has to stay the same however many there were. Then
rows of each kind that only the weight limits, or that need much memory for their weight. It prints MiB, bytes for each
unit of the weight, and the memory of such rows at the full weight of 536,870,912, or at their greatest number if that
is reached first. The status is 1 if removed names are kept, or if a kind would take more than `--most` GiB (without it,
there is no limit).
"""
import argparse
import json
import subprocess
import sys

FULL_WEIGHT = 536_870_912
LONG = 60_000


def memory(pid):
    """The most memory that a process had, in bytes, since its program began."""
    with open(f"/proc/{pid}/status", encoding="ascii") as status:
        for line in status:
            if line.startswith("VmHWM:"):
                return int(line.split()[1]) * 1024
    raise RuntimeError("no VmHWM")


def taken(program, verb, rows):
    """The weight of the rows that were put, and the memory after the last of them."""
    # (an unknown name is asked for last, and its answer shows that all rows were read)
    process = subprocess.Popen([program, verb], stdin=subprocess.PIPE, stdout=subprocess.PIPE)
    weight = 0
    for row, weighs in rows:
        process.stdin.write(row.encode() + b"\n")
        weight += weighs
    ask = {"do": "lookup", "name": "cpe:/a:none"} if verb == "resolve" else {"do": "affected", "id": "none"}
    process.stdin.write(json.dumps(ask).encode() + b"\n")
    process.stdin.flush()
    answer = process.stdout.readline().decode().rstrip()
    if not answer.endswith(" absent"):
        raise RuntimeError(f"a row was refused: {answer}")
    most = memory(process.pid)
    process.stdin.close()
    process.wait()
    return weight, most


def text(**members):
    return json.dumps(members, separators=(",", ":"))


def name(product):
    return f"cpe:2.3:a:v:{product}:*:*:*:*:*:*:*:*"


def named(product):
    return 32 + len(name(product))


def come_and_go(count, ends):
    for number in range(count):
        long = str(number) + "x" * LONG
        yield text(do="item", name=name(long)), 0
        if ends:
            yield text(do="drop-item", name=name(long)), 0


def entries(count):
    for number in range(count):
        yield text(do="entry", name=name(f"p{number}")), named(f"p{number}")


def items(count):
    for number in range(count):
        yield text(do="item", name=name(f"p{number}")), named(f"p{number}")


def results(count):
    for number in range(count):
        yield text(do="check", system="", href="", id=str(number), result="TRUE"), 32 + len(str(number))


def titles(count):
    for number in range(count):
        yield text(do="entry", name=name(f"p{number}"), title="x" * 1000), named(f"p{number}") + 1000


def notes(each):
    note = {"kind": "ORIGINAL_RECORD", "date": "2024-01-01"}

    def rows(count):
        for number in range(count):
            yield text(do="entry", name=name(f"p{number}"), provenance={"changes": [note] * each}), named(f"p{number}") + 42 * each

    return rows


def successors(each):
    def rows(count):
        for number in range(each):
            yield text(do="entry", name=name(f"s{number}")), named(f"s{number}")
        others = [name(f"s{number}") for number in range(each)]
        for number in range(count):
            yield text(do="entry", name=name(f"p{number}")), named(f"p{number}")
            # (the note that it leaves weighs 42)
            yield (
                text(do="deprecate", name=name(f"p{number}"), kind="ADDITIONAL_INFORMATION", successors=others, date="2024-01-01"),
                42 + sum(named(f"s{other}") for other in range(each)),
            )

    return rows


def statements(child, weighs, each):
    def rows(count):
        for number in range(count):
            yield text(do="statement", id=str(number), test={"op": "OR", "of": [child] * each}), 64 + len(str(number)) + weighs * each

    return rows


CHECK = {"check": {"system": "", "href": "", "id": ""}}
SHORT_CHECK = {"check": {"system": "s", "href": "h", "id": "i"}}
FACT = {"fact": "cpe:/"}

# what, the rows of a number of records, that number, and the greatest number of rows if there is one
KINDS = [
    ("entries", entries, 100_000, 2_000_000),
    ("entries, a title of 1,000 bytes each", titles, 20_000, 2_000_000),
    ("items", items, 100_000, 1_000_000),
    ("results of checks", results, 50_000, 100_000),
    ("statements, one check each", statements(CHECK, 32, 1), 40_000, 100_000),
    ("statements, 1,000 checks each", statements(CHECK, 32, 1_000), 300, None),
    ("statements, 1,000 checks of three bytes each", statements(SHORT_CHECK, 35, 1_000), 300, None),
    ("statements, 500 logical tests of one check each", statements({"op": "OR", "of": [CHECK]}, 64, 500), 300, None),
    ("statements, 1,000 facts each", statements(FACT, 61, 1_000), 100, 1_000),
    ("statements, 500 logical tests of one fact each", statements({"op": "OR", "of": [FACT]}, 93, 500), 200, 2_000),
    ("entries, one note each", notes(1), 50_000, 2_000_000),
    ("entries, 500 notes each", notes(500), 300, None),
    ("entries, one successor each", successors(1), 50_000, 2_000_000),
    ("entries, two successors each", successors(2), 50_000, 2_000_000),
    ("entries, three successors each", successors(3), 50_000, 2_000_000),
    ("entries, five successors each", successors(5), 20_000, 2_000_000),
    ("entries, 16 successors each", successors(16), 10_000, 2_000_000),
]


def main():
    parser = argparse.ArgumentParser()
    parser.add_argument("program", nargs="?", default="build/cpe")
    parser.add_argument("--most", type=float, help="GiB that the full weight of a kind may take")
    options = parser.parse_args()
    failed = False

    print(f"{'what':48} {'rows':>9} {'MiB':>8}")
    for verb in ("resolve", "advise"):
        for ends in (True, False):
            seen = []
            for count in (500, 2_000):
                _, most = taken(options.program, verb, come_and_go(count, ends))
                seen.append(most)
                what = f"{verb}: items of {LONG:,} bytes" + (", each dropped at once" if ends else "")
                print(f"{what:48} {count:9,} {most / 2**20:8.1f}", flush=True)
            if ends and seen[1] > seen[0] + 2**20:
                failed = True
                print("FAILED: names that are gone are kept")

    print()
    print(f"{'what':48} {'rows':>9} {'MiB':>8} {'a unit':>8} {'GiB, full':>10}")
    for what, rows, count, limit in KINDS:
        few = taken(options.program, "resolve", rows(count))
        more = taken(options.program, "resolve", rows(2 * count))
        unit = (more[1] - few[1]) / (more[0] - few[0])
        most = FULL_WEIGHT
        if limit:
            most = min(most, limit * (more[0] - few[0]) / count)
        full = unit * most
        print(f"{what:48} {2 * count:9,} {more[1] / 2**20:8.1f} {unit:8.2f} {full / 2**30:10.2f}", flush=True)
        if options.most and full > options.most * 2**30:
            failed = True
            print(f"FAILED: more than {options.most} GiB")
    return 1 if failed else 0


if __name__ == "__main__":
    sys.exit(main())
