#!/usr/bin/env python3
"""Measures what an edit of a deprecation takes of `cpe resolve` where many entries hang together, by how many they are:
in layers, in chains, and where many have one successor.

All times are of the processor. Prints a table, and says of each shape whether its growth is within the target.
README.md beside this file says how to read it.
"""
import argparse
import os
import pathlib
import random
import sys

sys.dont_write_bytecode = True
import make_lines
import near
import run

SIZES = (1_600, 3_200, 6_400, 12_800)
# How many entries a layer has, each of which has all of the next layer as successors.
WIDTH = 16
# The target: what an edit takes among the most entries beside one among the fewest.
MOST_GROWTH = 1.3
DATE = b"2020-01-01"


def name(number):
    return make_lines.PREFIX + b"a:vendor:product:%d" % number + b":*" * 7


def entries(count):
    return [make_lines.record(b"entry", name(it)) for it in range(count)]


def change(verb, number, successors):
    named = b",".join(make_lines.spelled(name(it)) for it in successors)
    more = b',"kind":"ADDITIONAL_INFORMATION","successors":[%s],"date":"%s"' % (named, DATE)
    return make_lines.record(verb, name(number), more)


def deprecate(number, *successors):
    return change(b"deprecate", number, successors)


def restore(number):
    return make_lines.record(b"restore", name(number), b',"date":"%s"' % DATE)


def shuffled(numbers):
    return random.Random(1).sample(numbers, len(numbers))


def layers(count):
    """From the front: each entry of a layer gets all of the next layer as successors."""
    firsts = [it - it % WIDTH + WIDTH for it in range(count - WIDTH)]
    return [], [deprecate(number, *range(first, first + WIDTH)) for number, first in enumerate(firsts)]


def layers_from_the_back(count):
    none, edits = layers(count)
    return none, edits[::-1]


def chain(count):
    """From the front: each entry gets the next one as its successor."""
    return [], [deprecate(number, number + 1) for number in range(count - 1)]


def side_end(count):
    """The same, and each entry gets the last one too."""
    return [], [deprecate(number, number + 1, count - 1) for number in range(count - 2)]


def gathered(count):
    """All entries have the last one as their successor, and are restored in the order in which they were deprecated."""
    return [deprecate(number, count - 1) for number in range(count - 1)], [restore(number) for number in range(count - 1)]


def gathered_from_the_back(count):
    edits, restored = gathered(count)
    return edits, restored[::-1]


def gathered_at_random(count):
    edits, restored = gathered(count)
    return edits, shuffled(restored)


SHAPES = {
    "layers": layers,
    "layers, from the back": layers_from_the_back,
    "chain": chain,
    "chain with a side end": side_end,
    "restored in order": gathered,
    "restored from the back": gathered_from_the_back,
    "restored at random": gathered_at_random,
}


def inputs(shape, count):
    """The lines before the timed edits, the lines of these edits, and how many edits there are."""
    before, edits = SHAPES[shape](count)
    return near.text(entries(count) + before), near.text(edits), len(edits)


def seconds(program, before, edits):
    """The processor time for the edits, each of which is accepted, after the lines before them."""
    with near.Session(program, "resolve") as session:
        session.accepts(before)
        return session.accepts(edits)


def measure(program, shape, rounds):
    """The microseconds of an edit among the most entries beside one among the fewest; short runs are made more
    often."""
    each = []
    for count in SIZES:
        before, edits, edited = inputs(shape, count)
        took = min(seconds(program, before, edits) for _ in range(rounds * SIZES[-1] // count))
        each.append(took / edited * 1e6)
        growth = f"{each[-1] / each[-2]:>8.2f}" if len(each) > 1 else ""
        print(f"{shape:<24}{count:>8,}{took:>10.3f}{each[-1]:>14.2f}{growth}", flush=True)
    return each[-1] / each[0]


def said():
    parser = argparse.ArgumentParser(description=__doc__)
    parser.add_argument("program", nargs="?", default=run.TOP / "build" / "cpe", type=pathlib.Path, help="the program cpe (build/cpe)")
    parser.add_argument("--rounds", type=int, default=5, help="how often the longest run of a shape is timed (5)")
    given = parser.parse_args()
    if not os.access(given.program, os.X_OK) or not given.program.is_file():
        parser.error(f"{given.program} is no program: run make build first")
    if given.rounds < 1:
        parser.error("it takes at least one round")
    return given


def main():
    given = said()
    program = given.program.resolve()
    if not run.knows([program, "resolve"]):
        print(f"the program has no command {run.RESOLVE}: nothing is measured")
        return
    print(f"load before: {os.getloadavg()[0]:.1f} on {os.cpu_count()} processors")
    print(f"\n{run.RESOLVE}, processor time of the edits alone, best of {given.rounds} and more")
    print(f"{'shape':<24}{'entries':>8}{'seconds':>10}{'us an edit':>14}{'growth':>8}")
    found = {shape: measure(program, shape, given.rounds) for shape in SHAPES}
    print(f"\n{'target: an edit among the most, by the fewest':<40}{'most':>6}{'measured':>10}")
    for shape, growth in found.items():
        print(f"{shape:<40}{MOST_GROWTH:>6}{growth:>10.2f}  {'met' if growth <= MOST_GROWTH else 'MISSED'}")


if __name__ == "__main__":
    main()
