#!/usr/bin/env python3
"""Whether crates.txt lists no edge that other edges imply.

usage: edges.py

A crate lists the crates whose functions its code calls, and those of WORDS. It gets the types, words and lemmas of
crates further below through one of these, by `pub use`. rt checks each edge again on each path that leads to it. Ends
with status 0 if no edge can be left out, and with 1 and the edges that can otherwise.
"""

import collections
import pathlib
import re
import sys

sys.dont_write_bytecode = True

import areas  # noqa: E402

TOP = pathlib.Path(__file__).resolve().parent.parent
# Crates of which nearly all of a crate's words and types are: whoever uses them lists them.
WORDS = {"out_of_memory", "cpe_rows", "name_index"}
# These hand on what most crates above need, so they list each crate that they hand on.
HANDING = {"cpe_relation", "cpe_rows", "name_index"}
USE = re.compile(r"\b(?:pub )?use ([a-z_]+)::([^;]*);")
PATH = re.compile(r"(?<![\w:.])([a-z_]+)::((?:\w+::)*\w+)")


def code(path: pathlib.Path) -> str:
    """The lines of a source that are code."""
    lines = path.read_text(encoding="utf-8").splitlines()
    return "\n".join(line for line in lines if not re.match(r"\s*(//|ghost use)", line))


def called(crate: str) -> set[str]:
    """The crates of which the code names a function or a module, and not only types, constants and traits."""
    found = collections.defaultdict(set)
    for path in (TOP / "crates" / crate / "src").rglob("*.rt"):
        text = code(path)
        for below, items in USE.findall(text):
            found[below] |= set(re.findall(r"\w+(?:::\w+)*", items))
        for below, item in PATH.findall(USE.sub("", text)):
            found[below].add(item)
    return {below for below, items in found.items() if any(it[0].islower() for it in items)}


def reach(crate: str, uses: dict[str, list[str]]) -> set[str]:
    """The crates below a crate."""
    below: set[str] = set()
    todo = list(uses.get(crate, []))
    while todo:
        it = todo.pop()
        if it not in below:
            below.add(it)
            todo += uses.get(it, [])
    return below


def spare_edges(uses: dict[str, list[str]]) -> list[str]:
    """The edges that can be left out."""
    below = {crate: reach(crate, uses) for crate in uses}
    found = []
    for crate, used in uses.items():
        needed = called(crate) | WORDS
        for it in used:
            is_given = any(it in below[other] for other in used if other != it and other in uses)
            if it in uses and it not in needed and is_given and crate not in HANDING:
                found.append(f"{crate} lists {it}, of which its code calls no function")
    return found


def main(words: list[str]) -> int:
    if words:
        sys.exit(__doc__)
    found = spare_edges(areas.crates())
    print("\n".join(found), end="\n" if found else "")
    return 1 if found else 0


if __name__ == "__main__":
    sys.exit(main(sys.argv[1:]))
