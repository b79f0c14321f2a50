"""Which products of NVD packages are: the table names.txt, and the one that a user keeps beside it (`--names FILE`).

A line has a package, and what NVD calls it:

    line     = [ package 1*SP ( "-" / choice *( 1*SP choice ) ) ] [ comment ]
    package  = "pkg:" type "/" [ namespace "/" ] name       ; a package URL without version and qualifiers
    choice   = product *( "," product )
    product  = [ part ":" ] vendor ":" product              ; spelled as in a CPE name; the part is a, o or h, and a if left out
    comment  = "#" and what is behind it                    ; at the beginning of a line, or behind a space

- `-`: NVD has no product for it, so no name is looked for.
- Choices, with spaces between them, are alternatives, of which the right one isn't known: FALSE only if all of them
  are, else UNKNOWN.
- Products with commas between them are all names of it, as where NVD has it under two vendors: one of them is enough.
- A namespace that is left out is any, as of `pkg:deb/openssl`, which is Debian's and Ubuntu's. Only for npm, golang,
  composer and swift, where a package with a namespace is another one, it is none.
- A `*` in a name is a number, perhaps with dots or hyphens in it: `postgresql-*` is postgresql-15, and not
  postgresql-common.
- A package is looked for by its own name first, and then by that of its source package; a line with its namespace
  counts before one without, one with its whole name before one with a `*`, and those of the user's table before all of
  the other.

A line that is none is refused with its place, and so are two lines of one package that say different things.
"""
from __future__ import annotations

import re
from collections.abc import Iterable, Iterator, Sequence
from dataclasses import dataclass
from pathlib import Path

from . import names
from .console import Fatal, shorten
from .feeds import FeedFault, FormFault, name_of, read_feed, text_lines
from .package_urls import Package, PackageUrl, package_of

TABLE = str(Path(__file__).resolve().parents[1] / "names.txt")

_WITH_NAMESPACE = frozenset({"npm", "golang", "composer", "swift"})
_COMMENT = re.compile(r"(^|\s)#.*")
_NUMBER = re.compile(r"[0-9]+(?:[.-][0-9]+)*")
_PRODUCT = re.compile(
    r"(?:(?P<part>[aoh]):)?(?P<vendor>(?:[a-z0-9._-]|\\[!-~])+):(?P<product>(?:[a-z0-9._-]|\\[!-~])+)"
)


@dataclass(frozen=True, slots=True)
class Product:
    """A product of NVD: its part, its vendor and its name, spelled as in CPE names."""

    part: str
    vendor: str
    name: str

    def words(self) -> str:
        front = "" if self.part == "a" else f"{self.part}:"
        return f"{front}{self.vendor}:{self.name}"


# All names of a product that NVD has.
Choice = tuple[Product, ...]


@dataclass(frozen=True, slots=True)
class Line:
    """A line of a table: its place, its package, and the choices, none if NVD has no product."""

    place: str
    package: Package
    choices: tuple[Choice, ...]

    def products(self) -> Iterator[Product]:
        """The products of all choices."""
        return (product for choice in self.choices for product in choice)


@dataclass(frozen=True, slots=True)
class TableAnswer:
    """The line of a table for a package, and whether it is for the source package."""

    line: Line
    is_of_source: bool = False


class Tables:
    """The lines of tables, those of the first before those of the others."""

    def __init__(self, tables: Iterable[Iterable[Line]]) -> None:
        self._tables = [{line.package: line for line in lines} for lines in tables]

    def find(self, purl: PackageUrl) -> TableAnswer | None:
        """The answer for a package; None if no line has it."""
        for table in self._tables:
            for package in (purl.package, purl.source):
                for key in _keys(package) if package is not None else ():
                    line = table.get(key)
                    if line is not None:
                        return TableAnswer(line, package is purl.source)
        return None


def _keys(package: Package) -> Iterator[Package]:
    """The packages of lines that have this one, those that say most first."""
    numbered = [f"{package.name[: one.start()]}*{package.name[one.end() :]}" for one in _NUMBER.finditer(package.name)]
    namespaces = [package.namespace]
    if package.namespace and package.type not in _WITH_NAMESPACE:
        namespaces.append("")
    for name in (package.name, *numbered):
        for namespace in namespaces:
            yield Package(package.type, namespace, name)


def read_tables(paths: Iterable[str], are_needed: bool = True) -> Tables:
    """The user's tables, and names.txt if it is needed. Fatal if a line is none."""
    return Tables([*map(read_table, paths), *([read_table(TABLE)] if are_needed else [])])


def read_table(path: str) -> list[Line]:
    try:
        data = read_feed(path)
        lines = text_lines(data.decode("utf-8-sig"))
    except FeedFault as fault:
        raise Fatal(f"{name_of(path)}: {fault}") from fault
    except UnicodeDecodeError as fault:
        raise Fatal(f"{name_of(path)}: it is no UTF-8 at byte {fault.start + 1}") from fault
    return list(_lines(lines, name_of(path)))


def _lines(lines: Sequence[str], feed: str) -> Iterator[Line]:
    known: dict[Package, Line] = {}
    for number, text in enumerate(lines, 1):
        words = _COMMENT.sub("", text).split()
        if not words:
            continue
        place = f"{feed} line {number}"
        try:
            line = _line(words, place)
        except FormFault as fault:
            raise Fatal(f"{place}: {fault}") from fault
        before = known.setdefault(line.package, line)
        if before.choices != line.choices:
            raise Fatal(f"{place}: {line.package.path()} is in {before.place} too, with other names")
        if before is line:
            yield line


def _line(words: Sequence[str], place: str) -> Line:
    """The line with these words. FormFault if the words are no line."""
    if any(mark in words[0] for mark in "?#") or words[0].rfind("@") > words[0].rfind("/") + 1:
        raise FormFault(f"a package has neither a version nor qualifiers here: {shorten(words[0])}")
    package = package_of(words[0])
    if package.name.count("*") > 1 or "*" in package.namespace:
        raise FormFault(f"the name of a package has one * at most: {shorten(words[0])}")
    if len(words) == 1:
        raise FormFault(f"there is no product and no - after {shorten(words[0])}")
    return Line(place, package, () if words[1:] == ["-"] else tuple(map(_choice, words[1:])))


def _choice(word: str) -> Choice:
    # (a comma of a name has a backslash before it)
    return tuple(dict.fromkeys(map(_product, re.split(r"(?<!\\),", word))))


def _product(text: str) -> Product:
    match = _PRODUCT.fullmatch(text.lower())
    if match is None or names.NA in (match["vendor"], match["product"]):
        raise FormFault(f"no vendor:product: {shorten(text)}")
    return Product(match["part"] or "a", match["vendor"], match["product"])
