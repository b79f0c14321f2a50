#!/usr/bin/env python3
"""Measures `cpe explain` beside `cpe evaluate`, which keeps the same rows and writes a table, and `cpe check` beside
`cpe explain`; and how what they do at the end, and for each certificate, grows with items that are near no fact.
Also how the certificate of a fact grows with the chain of deprecations from the fact to the item.

Prints a table, and says of each target whether it is met. README.md beside this file says how to read it.
"""
import argparse
import os
import pathlib
import subprocess
import sys

sys.dont_write_bytecode = True
import make_lines
import run

# The targets: of the time of `evaluate`, of the time that making takes beside reading the records, and of the growth.
MOST_OF_EVALUATE, MOST_OF_MAKING, MOST_GROWTH = 3.0, 3.0, 1.3
# Of the time for each entry of a chain.
MOST_CHAIN_GROWTH = 2.0
SHORT, LONG = 20_000, 160_000
STATEMENTS = 1000
FEW, MANY = 10_000, 100_000
# Many statements share the near names: a thousand certificates take less than what reading 100,000 items differs by
# from run to run.
NEAR_STATEMENTS = 20_000
NEAR = 5
PROOF = b'{"do":"proof",'


def fs(product, version=b"*"):
    return make_lines.PREFIX + b"a:v:%s:%s" % (product, version) + b":*" * 7


def statements(product, mode):
    """Statements of three facts, each of which has a few items near it."""
    for number in range(NEAR_STATEMENTS):
        facts = b",".join(b'{"fact":%s}' % make_lines.spelled(fs(b"%s%d" % (product, (number + step) % STATEMENTS))) for step in range(3))
        yield b'{"do":"statement","id":"s%d","mode":"%s","test":{"op":"AND","of":[%s]}}' % (number, mode, facts)


def far_items(far):
    """Items that are near no fact."""
    return (make_lines.record(b"item", fs(b"far%d" % number, b"1")) for number in range(far))


def near_lines(far):
    """Statements in mode plain and the items near them; before these, statements that are near no fact."""
    yield from far_items(far)
    for number in range(STATEMENTS):
        for version in range(NEAR):
            yield make_lines.record(b"item", fs(b"near%d" % number, b"%d" % version))
    yield from statements(b"near", b"plain")


def led_lines(far):
    """The same in mode follow, where each near item has a name that was deprecated in favour of one that is near."""
    yield from far_items(far)
    for number in range(STATEMENTS):
        for version in range(NEAR):
            old, new = fs(b"old%d" % number, b"%d" % version), fs(b"near%d" % number, b"%d" % version)
            yield make_lines.record(b"entry", old, b',"title":"old"')
            yield make_lines.record(b"entry", new, b',"title":"near"')
            yield make_lines.record(b"deprecate", old, b',"kind":"NAME_CORRECTION","successors":[%s],"date":"2024-01-01"' % make_lines.spelled(new))
            yield make_lines.record(b"item", old)
    yield from statements(b"near", b"follow")


def chain_lines(entries):
    """Entries of which each but the last is deprecated in favour of the next, and a statement whose fact is the first and
    whose item is the last."""
    names = [fs(b"p%d" % number, b"1") for number in range(entries)]
    yield from (make_lines.record(b"entry", name, b',"title":"entry"') for name in names)
    for old, new in reversed(list(zip(names, names[1:]))):
        yield make_lines.record(b"deprecate", old, b',"kind":"NAME_CORRECTION","successors":[%s],"date":"2024-01-01"' % make_lines.spelled(new))
    yield make_lines.record(b"item", names[-1])
    yield b'{"do":"statement","id":"s","mode":"follow","test":{"op":"OR","of":[{"fact":%s}]}}' % make_lines.spelled(names[0])


def seconds_of_chain(program, entries, rounds):
    """What the certificate of a fact at the beginning of a chain takes for each entry, beside reading the records."""
    path = file_of(f"chain-{entries}.txt", chain_lines(entries))
    best = run.best_times({word: [program, word] for word in ("resolve", "explain")}, path, rounds)
    print(f"{path.name:<28}{best['resolve']:>9.3f}{'':>10}{best['explain']:>9.3f}", flush=True)
    return (best["explain"] - best["resolve"]) / entries


def file_of(name, lines):
    run.BUILD.mkdir(parents=True, exist_ok=True)
    path = run.BUILD / name
    path.write_bytes(b"".join(line + b"\n" for line in lines))
    return path


def with_proofs(program, path):
    """The same records, and after them the certificates of their statements."""
    with open(path, "rb") as source:
        written = subprocess.run([program, "explain"], stdin=source, stdout=subprocess.PIPE, check=False).stdout
    proofs = [line for line in written.split(b"\n") if line.startswith(PROOF)]
    return file_of(f"{path.stem}-proofs.txt", [*path.read_bytes().rstrip(b"\n").split(b"\n"), *proofs])


def measured(program, path, statements, rounds):
    """What evaluate, making and checking take in seconds: the first as a whole, the others beside reading the
    records."""
    best = run.best_times({word: [program, word] for word in ("resolve", "evaluate", "explain")}, path, rounds)
    check = run.best_times({"check": [program, "check"]}, with_proofs(program, path), rounds)["check"]
    found = best["evaluate"], best["explain"], best["explain"] - best["resolve"], check - best["resolve"]
    print(f"{path.name:<28}{best['resolve']:>9.3f}{found[0]:>10.3f}{found[1]:>9.3f}{check:>9.3f}"
          f"{found[2] / statements * 1e6:>12.1f}{found[3] / statements * 1e6:>12.1f}", flush=True)
    return found


def said():
    parser = argparse.ArgumentParser(description=__doc__)
    parser.add_argument("program", nargs="?", default=run.TOP / "build" / "cpe", type=pathlib.Path, help="the program cpe (build/cpe)")
    parser.add_argument("--rounds", type=int, default=5, help="runs of each word on each input (5)")
    given = parser.parse_args()
    if not os.access(given.program, os.X_OK) or not given.program.is_file():
        parser.error(f"{given.program} is no program: run make build first")
    if given.rounds < 1:
        parser.error("it takes at least one round")
    return given


def main():
    given = said()
    program = given.program.resolve()
    if not run.knows([program, "explain"]):
        print("the program has no command cpe explain: nothing is measured")
        return
    print(f"load before: {os.getloadavg()[0]:.1f} on {os.cpu_count()} processors")
    print(f"\nseconds, best of {given.rounds}, output to /dev/null; behind them microseconds a certificate, beside reading the records")
    print(f"{'input':<28}{'resolve':>9}{'evaluate':>10}{'explain':>9}{'check':>9}{'making':>12}{'checking':>12}")
    # (a run over few rows is short, and bears noise worse)
    table, whole, making, checking = measured(program, run.made("evaluated", STATEMENTS), STATEMENTS, 20 * given.rounds)
    grown = {}
    for name, lines in (("near", near_lines), ("led", led_lines)):
        grown[name] = [measured(program, file_of(f"{name}-{far}.txt", lines(far)), NEAR_STATEMENTS, given.rounds) for far in (FEW, MANY)]
    targets = [
        ("certificates: of the time of cpe evaluate", MOST_OF_EVALUATE, whole / table),
        ("checking: of the time of making", MOST_OF_MAKING, checking / making),
    ]
    for name, mode in (("near", "plain"), ("led", "follow")):
        few, many = grown[name]
        targets.append((f"making in mode {mode}: growth from {FEW:,} to {MANY:,} items", MOST_GROWTH, many[2] / few[2]))
        targets.append((f"checking in mode {mode}: growth from {FEW:,} to {MANY:,} items", MOST_GROWTH, many[3] / few[3]))
    short, long = (seconds_of_chain(program, entries, given.rounds) for entries in (SHORT, LONG))
    targets.append((f"an entry of a chain: growth from {SHORT:,} to {LONG:,} entries", MOST_CHAIN_GROWTH, long / short))
    print(f"\n{'target':<58}{'bound':>9}{'measured':>10}")
    for name, bound, figure in targets:
        print(f"{name:<58}{bound:>9}{figure:>10.2f}  {'met' if figure <= bound else 'MISSED'}")
    print(f"\nload behind: {os.getloadavg()[0]:.1f}")


if __name__ == "__main__":
    main()
