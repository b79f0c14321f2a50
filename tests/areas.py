#!/usr/bin/env python3
"""Whether the areas in docs/ARCHITECTURE.md have each crate of crates.txt once, and its map has the lines between them.

usage: areas.py

Ends with status 0 if all of this holds, and with 1 and the differences otherwise:
- each area of the table below the map has a section, and each crate of crates.txt is in the list of exactly one;
- each of these lists is in the order of crates.txt;
- no area uses itself through others;
- between the areas there are the lines of LINES, which the map draws, and no others.
"""

import pathlib
import re
import sys

TOP = pathlib.Path(__file__).resolve().parent.parent
PAGE = TOP / "docs" / "ARCHITECTURE.md"
# The lines of the map: an area, and those that it uses without another one between. Change the drawing with it.
LINES = {
    "ground": set(),
    "names": {"ground"},
    "session": {"ground"},
    "rows": {"names"},
    "records": {"rows"},
    "index": {"names"},
    "dictionary": {"index", "rows"},
    "verdicts": {"dictionary"},
    "certificates": {"records"},
    "engine": {"verdicts", "certificates"},
    "snapshots": {"engine"},
    "own lists": {"dictionary", "records", "session"},
    "commands": {"snapshots", "own lists"},
    "C": {"commands"},
    "tests": {"commands"},
}


def crates() -> dict[str, list[str]]:
    """Each crate with what it uses, from the bottom up."""
    uses = {}
    for line in (TOP / "crates.txt").read_text(encoding="utf-8").splitlines():
        if ":" in line and not line.startswith("#"):
            name, used = line.split(":", 1)
            uses[name.split()[0]] = used.split()
    return uses


def cells(text: str) -> list[list[str]]:
    """The cells of each row of the tables in a text."""
    return [[it.strip() for it in line.strip("|").split("|")] for line in text.splitlines() if line.startswith("| ")]


def areas(text: str) -> dict[str, list[str]]:
    """The crates of each area of the table below the map, as the list of its section has them."""
    lists = {title: re.findall(r"(?m)^- `(\w+)`: ", body) for title, _, body in (it.partition("\n") for it in text.split("\n### ")[1:])}
    front = text.split("\n## ", 1)[0]
    return {row[0]: lists.get(row[0], []) for row in cells(front)[1:]}


def lines(uses: dict[str, list[str]], area_of: dict[str, str]) -> dict[str, set[str]]:
    """For each area those that it uses without another one between."""
    below: dict[str, set[str]] = {area: set() for area in area_of.values()}
    for crate, used in uses.items():
        here = area_of[crate]
        below[here] |= {area_of[it] for it in used if it in area_of} - {here}
    far: dict[str, set[str]] = {}
    while len(far) < len(below):
        ready = [area for area in below if area not in far and below[area] <= far.keys()]
        if not ready:
            sys.exit(f"{PAGE}: some of these areas stand on themselves: {sorted(below.keys() - far.keys())}")
        for area in ready:
            far[area] = below[area].union(*(far[it] for it in below[area]))
    return {area: {it for it in near if not any(it in far[via] for via in near - {it})} for area, near in below.items()}


def main() -> None:
    uses = crates()
    text = PAGE.read_text(encoding="utf-8")
    said: list[str] = []
    area_of: dict[str, str] = {}
    of_area = areas(text)
    for area, named in of_area.items():
        for crate in named:
            if crate in area_of or crate not in uses:
                said.append(f"{crate}: in two areas, or no crate of crates.txt")
            area_of[crate] = area
    said += [f"{crate}: in no area" for crate in uses if crate not in area_of]
    if said:
        sys.exit("\n".join(f"{PAGE}: {it}" for it in said))

    for area, listed in of_area.items():
        wanted = [it for it in uses if area_of[it] == area]
        if listed != wanted:
            said.append(f"the section {area} has {listed}, and not {wanted}")
    found = lines(uses, area_of)
    for area in sorted(found.keys() | LINES.keys()):
        if found.get(area) != LINES.get(area):
            said.append(f"{area} stands on {sorted(found.get(area, ()))}, and the map has {sorted(LINES.get(area, ()))}")
    if said:
        sys.exit("\n".join(f"{PAGE}: {it}" for it in said))


if __name__ == "__main__":
    main()
