#!/usr/bin/env python3
"""Measures `cpe cover` against an unproved Rust program that writes the same, on the same lists: what a name takes, by
the number of names; and by the shares of a list for which it is slow.

Prints a table, and says of each target whether it is met. README.md beside this file says how to read it.
"""
import argparse
import itertools
import os
import pathlib
import sys

sys.dont_write_bytecode = True
import make_lines
import run

# The targets: of a name, and of a name beside one where all is a tenth of it.
MOST_MICROSECONDS, MOST_RATIO = 10, 1.5
# The most names that are kept.
MOST_NAMES = 1_000_000
# The share of names with a special, and of products in any version.
ONE_PATTERN, ONE_PRODUCT = 50, 20
# How many names are of one product.
VERSIONS = 5
COMMAND = run.COVER


def listed(count):
    """Names as such lists have them: five of each product, which is one of the sample with a number after it; some
    products in any version, and some patterns."""
    names = [make_lines.components_of(it) for it in make_lines.sample()]
    for number in range(count):
        place, product = divmod(number, count // VERSIONS)
        parts = list(names[product % len(names)])
        parts[2] += b"_%d" % (product // len(names))
        draw = (number * 2_654_435_761) >> 7
        if number % ONE_PATTERN == 1:
            parts[3:] = [b"%d.*" % (draw % 10)] + [b"*"] * 7
        elif number % ONE_PRODUCT == 2:
            parts[3:] = [b"*"] * 8
        else:
            parts[3] = b"%d.%d.%d" % (draw % 10, place, draw // 10 % 30)
        yield make_lines.PREFIX + b":".join(parts)


def of_one_product(count):
    """The worst list without specials: each name is near all others."""
    return (b"cpe:2.3:a:v:p:%d:*:*:*:*:*:*:*" % number for number in range(count))


def beside_patterns(count, patterns):
    """The worst with specials: each of them is near all names."""
    return itertools.chain((b"cpe:2.3:a:v:p:x%d*:*:*:*:*:*:*:*" % number for number in range(patterns)), of_one_product(count - patterns))


def of_many_shapes(count):
    """For each product a name of each of 127 shapes, none of which covers another."""
    for number in range(count):
        product, shape = divmod(number, 127)
        parts = [b"%d" % shape if shape + 1 >> bit & 1 else b"*" for bit in range(7)]
        # (the language is ANY)
        yield make_lines.PREFIX + b"a:v:p%d:" % product + b":".join([*parts[:3], b"*", *parts[3:]])


def made(name, lines):
    path = run.BUILD / f"cover-{name}.txt"
    if run.is_older(path, pathlib.Path(__file__), pathlib.Path(make_lines.__file__), make_lines.SAMPLE):
        path.parent.mkdir(parents=True, exist_ok=True)
        half = path.with_name(path.name + ".half")
        with open(half, "wb") as out:
            out.writelines(line + b"\n" for line in lines)
        half.replace(path)
    return path


def measure(programs, lists, rounds):
    """Measures the seconds per name of each list, and prints them at once."""
    print(f"\n{COMMAND}, best of {rounds}")
    print(f"{'program':<14}{'list':<34}{'names':>11}{'seconds':>10}{'us a name':>11}{'peak KiB':>12}")
    found = {}
    for what, count, path in lists:
        times = run.best_times(programs, path, rounds)
        for name, words in programs.items():
            found[name, what, count] = times[name] / count
            peak = run.in_kib(run.peak(words, path))
            print(f"{name:<14}{what:<34}{count:>11,}{times[name]:>10.2f}{times[name] / count * 1e6:>11.2f}{peak:>12}", flush=True)
    return found


def said():
    parser = argparse.ArgumentParser(description=__doc__)
    parser.add_argument("program", nargs="?", default=run.TOP / "build" / "cpe", type=pathlib.Path, help="the program cpe (build/cpe)")
    parser.add_argument("--names", type=int, default=100_000, help="names of the smaller list; the larger has ten times as many (100000)")
    parser.add_argument("--rounds", type=int, default=3, help="runs of each program on each list (3)")
    given = parser.parse_args()
    if not os.access(given.program, os.X_OK) or not given.program.is_file():
        parser.error(f"{given.program} is no program: run make build first")
    if not 1_000 <= given.names <= MOST_NAMES // 10 or given.rounds < 1:
        parser.error("it takes 1000 to 100000 names, and at least one round")
    return given


def main():
    given = said()
    words = [given.program.resolve(), "cover"]
    if not run.knows(words):
        print(f"the program has no command {COMMAND}: nothing is measured")
        return
    programs = {COMMAND: words, **run.built_twins(run.TWINS[COMMAND])}
    few, many = given.names, 10 * given.names
    usual = [("as lists are", count, made(f"listed-{count}", listed(count))) for count in (few, many)]
    slow = [
        ("of one product", many, made(f"product-{many}", of_one_product(many))),
        ("of 127 shapes", few, made(f"shapes-{few}", of_many_shapes(few))),
        ("100 patterns for one product", few, made(f"patterns-{few}", beside_patterns(few, 100))),
    ]
    run.check_twins(COMMAND, programs, [*run.vectors_of(COMMAND), *(path for _, _, path in usual + slow)])
    print(f"load before: {os.getloadavg()[0]:.1f} on {os.cpu_count()} processors")
    found = measure(programs, usual + slow, given.rounds)
    most = found[COMMAND, "as lists are", many] * 1e6
    growth = found[COMMAND, "as lists are", many] / found[COMMAND, "as lists are", few]
    print(f"\n{'target':<58}{'bound':>9}{'measured':>10}")
    for what, bound, figure in ((f"us a name, {many:,} names", MOST_MICROSECONDS, most), (f"a name of {many:,} beside one of {few:,}", MOST_RATIO, growth)):
        print(f"{what:<58}{bound:>9}{figure:>10.2f}  {'met' if figure <= bound else 'MISSED'}")
    print(f"\nload behind: {os.getloadavg()[0]:.1f}")


if __name__ == "__main__":
    main()
