#!/usr/bin/env python3
"""docs/CITATIONS.md: which lemmas of crates below the proofs of each crate cite.

usage: citations.py [--write]

Ends with status 0 if docs/CITATIONS.md is what the sources say, and with 1 if it isn't; --write writes it.
"""

import collections
import pathlib
import re
import sys
import textwrap

TOP = pathlib.Path(__file__).resolve().parent.parent
PAGE = TOP / "docs" / "CITATIONS.md"
HEAD = """# Lemmas that proofs of other crates cite

`python3 tests/citations.py --write` writes this file from the sources, and the gate checks it.

A proof cites laws, and the contracts of the calls below it. If both crates have one subject, a proof also cites lemmas
in `proofs/` of a crate below. If such a lemma changes, the citing proofs may have to change too. Each item below begins
with the citing crate; the files of lemmas are in brackets. The crates are listed from the bottom up. The proofs of

"""
# The crate and the file of lemmas, or the crate that hands on the lemmas of another one, that one, and the file.
CITED = re.compile(r"\bRattle\.(\w+)\.proofs\.(\w+)(?:\.(\w+))?")


def crates():
    """The crates, from the bottom up."""
    lines = (TOP / "crates.txt").read_text(encoding="utf-8").splitlines()
    return [line.split(":")[0].split()[0] for line in lines if ":" in line and not line.startswith("#")]


def citations(crate, ours):
    """The files of lemmas, by the crate below whose they are."""
    found = collections.defaultdict(set)
    for path in sorted((TOP / "crates" / crate).rglob("*.*t")):
        if path.suffix in (".antt", ".rt") and "out" not in path.relative_to(TOP).parts:
            for below, lemmas, further in CITED.findall(path.read_text(encoding="utf-8")):
                if below != crate and lemmas in ours:
                    below, lemmas = lemmas, further
                # (a line that hands on all lemmas of a crate cites none)
                if below != crate and below in ours and lemmas:
                    found[below].add(lemmas)
    return found


def rows():
    """An item for each crate whose proofs cite lemmas of crates below."""
    ours = crates()
    made = []
    for crate in ours:
        found = citations(crate, ours)
        if found:
            cited = [f"`{below}` ({', '.join(f'`{it}`' for it in sorted(found[below]))})" for below in ours if below in found]
            made.append(textwrap.fill(f"- `{crate}` cite {', '.join(cited)}", 118, subsequent_indent="  ", break_on_hyphens=False) + "\n")
    return "".join(made)


def main(words):
    if words not in ([], ["--write"]):
        sys.exit(__doc__)
    made = HEAD + rows()
    if words:
        PAGE.write_text(made, encoding="utf-8")
    elif not PAGE.exists() or PAGE.read_text(encoding="utf-8") != made:
        sys.exit(f"{PAGE}: it is not what the sources say; tests/citations.py --write writes it")


if __name__ == "__main__":
    main(sys.argv[1:])
