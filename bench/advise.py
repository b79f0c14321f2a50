#!/usr/bin/env python3
"""Measures `cpe advise` against an unproved Rust program that writes the same, on the same lines: what an item, an
advisory and the questions of both kinds take, by the number of items and advisories, each of which is asked once.

Prints a table, and says of each target whether it is met. README.md beside this file says how to read it.
"""
import argparse
import itertools
import os
import pathlib
import sys

sys.dont_write_bytecode = True
import make_lines
import run

# The targets: of a line, of a line beside one where all is a tenth of it, and of the twin's speed.
MOST_MICROSECONDS, MOST_RATIO, LEAST_SPEED = 10, 1.5, 0.7
# The most that are kept.
MOST_ITEMS, MOST_ADVISORIES = 1_000_000, 100_000
# How many items are of one product, and how many questions are asked beside advisories of a pattern.
VERSIONS, QUESTIONS = 5, 5_000
COMMAND = run.ADVISE
(TWIN,) = run.TWINS[COMMAND]
# What a session has, one after the other; the words of its lines, and what a line of it is called.
PARTS = {"item": "an item", "advisory": "an advisory", "affected": "affected", "advisories": "advisories"}
# The share of ranges with both bounds, and with only an upper bound, of ten.
BOUNDS = ("both", "both", "both", "both", "both", "both", "end", "end", "end", "start")


def products(count):
    """This many names with part, vendor and product of the sample, and a number after the product; they end before the
    version."""
    names = [make_lines.components_of(it)[:3] for it in make_lines.sample()]
    for number, (part, vendor, product) in zip(range(count), itertools.cycle(names), strict=False):
        yield make_lines.PREFIX + b":".join((part, vendor, product + b"_%d" % number)) + b":"


def version_of(number, place):
    """A version of a product, of which the place rises; one in eight has letters after it."""
    draw = (number * 2_654_435_761 + place * 40_503) >> 7
    words = (b"", b"", b"", b"", b"", b"", b"a", b"beta2")
    return b"%d.%d.%d" % (number % 7, 4 * place + draw % 4, draw % 30) + words[draw // 32 % 8]


def items_of(size):
    """Each next one is of another product, as in an inventory that isn't sorted."""
    for number in range(size.items):
        place, product = divmod(number, len(size.products))
        yield make_lines.record(b"item", size.products[product] + version_of(product, place) + b":*" * 7)


def id_of(number):
    return b"CVE-%d-%05d" % (1999 + number // 4000, 10_000 + number)


def advisories_of(size):
    for number in range(size.advisories):
        product = number % len(size.products)
        low, high = sorted((number // 3 % VERSIONS, number // 7 % VERSIONS))
        form, more = BOUNDS[number % len(BOUNDS)], b""
        if form != "end":
            more += b',"start":"%s"' % version_of(product, low)
        if form != "start":
            more += b',"end":"%s"' % version_of(product, high) + (b',"end-excluded":true' if number % 4 else b"")
        name = make_lines.spelled(size.products[product] + b"*" + b":*" * 7)
        yield b'{"do":"advisory","id":"%s","name":%s%s}' % (id_of(number), name, more)


def affected_of(size):
    return (b'{"do":"affected","id":"%s"}' % id_of(number) for number in range(size.advisories))


def asked_of(size):
    return (it.replace(b'"do":"item"', b'"do":"advisories"', 1) for it in items_of(size))


MADE = {"item": items_of, "advisory": advisories_of, "affected": affected_of, "advisories": asked_of}


class Size:
    """A number of items and advisories, and their inputs: one for each part, which also has the parts before it."""

    def __init__(self, items, advisories):
        self.items, self.advisories = items, advisories
        self.products = list(products(items // VERSIONS))
        self.lines = {"item": items, "advisory": advisories, "affected": advisories, "advisories": items}
        self.paths = [self.made(list(PARTS)[: count + 1]) for count in range(len(PARTS))]

    def made(self, parts):
        path = run.BUILD / f"advise-{self.items}-{self.advisories}-{parts[-1]}.txt"
        if run.is_older(path, pathlib.Path(__file__), pathlib.Path(make_lines.__file__), make_lines.SAMPLE):
            write(path, itertools.chain.from_iterable(MADE[it](self) for it in parts))
        return path


def write(path, lines):
    """A run that is broken off leaves no file of this name."""
    path.parent.mkdir(parents=True, exist_ok=True)
    half = path.with_name(path.name + ".half")
    with open(half, "wb") as out:
        out.writelines(line + b"\n" for line in lines)
    half.replace(path)


def best_times(programs, paths, rounds):
    """The best time of each program for each input. The programs take turns, because differences of these times are
    reported."""
    turns = [[run.best_times(programs, it, 1) for it in paths] for _ in range(rounds)]
    return {name: [min(turn[at][name] for turn in turns) for at in range(len(paths))] for name in programs}


def by_part(size, times):
    """The seconds of a line of each part: a run, less one without this part."""
    return {part: (behind - before) / size.lines[part] for part, before, behind in zip(PARTS, times, times[1:], strict=False)}


def mean(of_part, size):
    """A line on average, with as many of each part as this size has."""
    return sum(of_part[it] * size.lines[it] for it in PARTS) / sum(size.lines.values())


def measure(programs, sizes, rounds):
    """What a line takes, by its part and the size; gives that in seconds for each program."""
    print(f"\n{COMMAND}, microseconds a line, best of {rounds}; all inputs take turns")
    heads = "".join(f"{it:>13}" for it in PARTS.values())
    print(f"{'program':<14}{'items':>10}{'advisories':>12}{heads}{'seconds':>10}{'ratio':>7}{'peak KiB':>12}")
    found = {}
    for size in sizes:
        # (the largest takes long, and bears noise)
        often = rounds if size.items <= sizes[1].items else min(3, rounds)
        times = best_times(programs, [pathlib.Path(os.devnull), *size.paths], often)
        for name, words in programs.items():
            found[name, size] = by_part(size, times[name])
            figures = "".join(f"{it * 1e6:>13.2f}" for it in found[name, size].values())
            took, ratio = times[name][-1], times[name][-1] / times[COMMAND][-1]
            peak = run.in_kib(run.peak(words, size.paths[-1]))
            print(f"{name:<14}{size.items:>10,}{size.advisories:>12,}{figures}{took:>10.2f}{ratio:>7.2f}{peak:>12}", flush=True)
    return found


def measure_patterns(programs, size, rounds):
    """What a question takes beside advisories whose product is a pattern, each of which may be of any item."""
    print(f"\n{COMMAND}, microseconds of `advisories` beside advisories of a pattern, {size.items:,} items, best of {rounds}")
    print(f"{'program':<14}{'patterns':>10}{'a question':>13}")
    for count in (1, 10, 100):
        patterns = [b'{"do":"advisory","id":"p%d","name":"cpe:2.3:a:*:*_%d7:*:*:*:*:*:*:*:*","end":"3"}' % (it, it) for it in range(count)]
        paths = [run.BUILD / f"advise-patterns-{count}{it}.txt" for it in ("", "-asked")]
        for path, asked in zip(paths, (0, QUESTIONS), strict=True):
            write(path, itertools.chain(items_of(size), advisories_of(size), patterns, itertools.islice(asked_of(size), asked)))
        run.check_twins(COMMAND, programs, paths[1:])
        for name, (none, behind) in best_times(programs, paths, rounds).items():
            print(f"{name:<14}{count:>10}{(behind - none) / QUESTIONS * 1e6:>13.1f}", flush=True)


def targets(found, sizes):
    """Each target: what it is of, the bound, the figure, and whether it is met."""
    base = sizes[1]
    ours = {size: mean(found[COMMAND, size], base) for size in sizes}
    yield f"us a line, {base.items:,} items", MOST_MICROSECONDS, ours[base] * 1e6, ours[base] * 1e6 <= MOST_MICROSECONDS
    for small, large in itertools.pairwise(sizes):
        ratio = ours[large] / ours[small]
        yield f"a line with {large.items:,} items beside {small.items:,}", MOST_RATIO, ratio, ratio <= MOST_RATIO
    for size in sizes:
        if (TWIN, size) in found:
            speed = mean(found[TWIN, size], base) / ours[size]
            yield f"speed beside {TWIN}, {size.items:,} items", LEAST_SPEED, speed, speed >= LEAST_SPEED


def tell_targets(rows):
    print(f"\n{'target':<58}{'bound':>9}{'measured':>10}")
    for what, bound, figure, is_met in rows:
        print(f"{what:<58}{bound:>9}{figure:>10.2f}  {'met' if is_met else 'MISSED'}")


def said():
    parser = argparse.ArgumentParser(description=__doc__)
    parser.add_argument("program", nargs="?", default=run.TOP / "build" / "cpe", type=pathlib.Path, help="the program cpe (build/cpe)")
    parser.add_argument("--items", type=int, default=100_000, help="items, of which five are of one product and for two of which there is an advisory (100000)")
    parser.add_argument("--rounds", type=int, default=5, help="runs of each program on each input (5), at the largest size three at most")
    given = parser.parse_args()
    if not os.access(given.program, os.X_OK) or not given.program.is_file():
        parser.error(f"{given.program} is no program: run make build first")
    if not 1_000 <= given.items <= 200_000 or given.items % 100 or given.rounds < 1:
        parser.error("it takes 1000 to 200000 items, in hundreds, and at least one round")
    return given


def main():
    given = said()
    words = [given.program.resolve(), "advise"]
    if not run.knows(words):
        print(f"the program has no command {COMMAND}: nothing is measured")
        return
    programs = {COMMAND: words, **run.built_twins(run.TWINS[COMMAND])}
    counts = [(given.items // 10, given.items // 20), (given.items, given.items // 2), (10 * given.items, 5 * given.items)]
    sizes = [Size(min(items, MOST_ITEMS), min(advisories, MOST_ADVISORIES)) for items, advisories in counts]
    run.check_twins(COMMAND, programs, [*run.vectors_of(COMMAND), *(it.paths[-1] for it in sizes)])
    print(f"load before: {os.getloadavg()[0]:.1f} on {os.cpu_count()} processors")
    found = measure(programs, sizes, given.rounds)
    measure_patterns(programs, sizes[1], min(3, given.rounds))
    tell_targets(targets(found, sizes))
    print(f"\nload behind: {os.getloadavg()[0]:.1f}")


if __name__ == "__main__":
    main()
