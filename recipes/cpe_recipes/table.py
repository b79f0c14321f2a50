"""Tables for people: columns of texts, as wide as they must be."""
from __future__ import annotations

from collections.abc import Iterator, Sequence

from .console import escape


def table(header: Sequence[str], rows: Sequence[Sequence[str]], optional: Sequence[str] = ()) -> Iterator[str]:
    """The lines of a table. An optional column in which no row has anything is left out."""
    printable = [[escape(cell) for cell in row] for row in rows]
    kept = [place for place, word in enumerate(header) if word not in optional or any(row[place] for row in printable)]
    widths = {place: max(len(row[place]) for row in [header, *printable]) for place in kept}
    for row in [header, *printable]:
        yield "  ".join(row[place].ljust(widths[place]) for place in kept).rstrip()


def format_count(number: int, word: str) -> str:
    return f"{number} {word}" if number == 1 else f"{number} {word}s"


def cut(text: str, most: int) -> str:
    """A text in one line, cut where it is long."""
    return text if len(text) <= most else f"{text[: most - 3].rstrip()}..."
