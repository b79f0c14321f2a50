#!/usr/bin/env python3
"""Whether the lines and cells of all documents are short enough, and their links lead somewhere.

usage: documents.py

Ends with status 0 if no line of a document has more than 120 letters, except in tables and examples, no cell of a table
has more than 200, and each link within the repository has its file and heading; and with 1 and the places otherwise. A
cell that is one example, in backquotes alone, may be longer.
"""

import pathlib
import re
import sys
from collections.abc import Iterator

TOP = pathlib.Path(__file__).resolve().parent.parent
PLACES = ("*.md", "docs/*.md", "bench/*.md", "recipes/*.md", "examples/*.md", "bindings/*/*.md", "conformance/*.md", "crates/*/*.md")
MOST_LINE = 120
MOST_CELL = 200
# A cell of examples: code, and what parts it.
EXAMPLE = re.compile(r"(?:`[^`]*`(?:<br>)?)+(?: ?\.\.)?")


def cells(line: str) -> list[str]:
    """The cells of a row; a bar in code or behind a backslash is no border."""
    return [it.strip() for it in re.split(r"(?<!\\)\|(?=(?:[^`]*`[^`]*`)*[^`]*$)", line.strip().strip("|"))]


def faults(text: str) -> Iterator[tuple[int, str]]:
    """The number of each line that is too long, or has a cell that is, with what is wrong."""
    is_fenced = is_example = False
    before = ""
    for number, line in enumerate(text.splitlines(), 1):
        is_example = line.startswith("    ") and (is_example or not before.strip())
        before = line
        if line.lstrip().startswith("```"):
            is_fenced = not is_fenced
        elif is_fenced or is_example:
            continue
        elif line.startswith("|"):
            for cell in cells(line):
                if len(cell) > MOST_CELL and not EXAMPLE.fullmatch(cell):
                    yield number, f"a cell of {len(cell)} letters: {cell[:50]}.."
        elif len(line) > MOST_LINE:
            yield number, f"{len(line)} letters"


def headings(path: pathlib.Path) -> set[str]:
    """The headings of a document, as links name them."""
    found = re.findall(r"(?m)^#+ (.*)$", path.read_text(encoding="utf-8"))
    return {re.sub(r"[^\w\- ]", "", it.lower()).replace(" ", "-") for it in found}


def lost_links(path: pathlib.Path, text: str) -> Iterator[str]:
    """The links that lead to no file, or to no heading of one."""
    for link in re.findall(r"\]\(([^)\s]+)\)", text):
        if "://" in link:
            continue
        name, _, heading = link.partition("#")
        led = (path.parent / name).resolve() if name else path
        if not led.exists():
            yield f"no such file: {link}"
        elif heading and led.suffix == ".md" and heading not in headings(led):
            yield f"no such heading: {link}"


def main() -> None:
    said = []
    for path in sorted({it for place in PLACES for it in TOP.glob(place)}):
        text = path.read_text(encoding="utf-8")
        said += [f"{path.relative_to(TOP)}:{number}: {it}" for number, it in faults(text)]
        said += [f"{path.relative_to(TOP)}: {it}" for it in lost_links(path, text)]
    if said:
        sys.exit("\n".join(said))


if __name__ == "__main__":
    main()
