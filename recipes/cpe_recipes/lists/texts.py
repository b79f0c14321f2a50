"""What the readers of texts share: the lines of a list, and packages that become components.

A list that is no JSON says by its lines which tool wrote it. A form fits if nearly all of its lines are of it, so that
a text of another kind isn't taken for it. A line that its form doesn't read is said with its number.
"""
from __future__ import annotations

import re
from collections import Counter
from collections.abc import Callable, Iterator, Mapping, Sequence
from dataclasses import dataclass

from ..purls import Purl
from .software_list import Draft, SoftwareList

# Of ten lines this many have to be of a form.
_MOST = 9
NO_VERSION = "it has no version"
CUT_OFF = "its last line has no line end, so it may be cut off"


@dataclass(frozen=True, slots=True)
class Line:
    """A line that isn't empty, without the line end, and its number in the file."""

    number: int
    text: str


@dataclass(frozen=True, slots=True)
class Text:
    """The lines of a list that aren't empty, and whether the last one has a line end."""

    lines: Sequence[Line]
    is_ended: bool

    def most(self, matches: Callable[[str], object]) -> bool:
        """Whether nearly all lines are such that this finds something in them."""
        missing = sum(1 for line in self.lines if not matches(line.text))
        return bool(self.lines) and missing * 10 <= len(self.lines) * (10 - _MOST)

    def any(self, matches: Callable[[str], object]) -> bool:
        return any(matches(line.text) for line in self.lines)


def text_of(data: str) -> Text:
    lines = (line.rstrip("\r ") for line in data.split("\n"))
    return Text([Line(number, line) for number, line in enumerate(lines, 1) if line.strip()], data.endswith("\n"))


@dataclass(frozen=True, slots=True)
class Package:
    """A package of a list: its package URL, and its name in the list, if that isn't its name and version."""

    purl: Purl
    called: str = ""

    def id(self) -> str:
        return self.called or f"{self.purl.name} {self.purl.version}".rstrip()


class Packages:
    """Adds the packages of a text, reports the lines that aren't read, and counts packages that aren't installed."""

    def __init__(self, text: Text, software_list: SoftwareList, form: str) -> None:
        self._text, self._software_list, self._form = text, software_list, form
        self._absent: Counter[str] = Counter()

    def each(
        self, pattern: re.Pattern[str], passed: Mapping[re.Pattern[str], str] | None = None
    ) -> Iterator[tuple[Line, re.Match[str]]]:
        """The lines that match this pattern. Lines that match one of the patterns `passed` are no packages, and are
        counted by their first group, if it has text. All others are reported."""
        for line in self._text.lines:
            why = next((why for one, why in passed.items() if one.fullmatch(line.text)), None) if passed else None
            found = pattern.fullmatch(line.text) if why is None else None
            if found:
                yield line, found
            elif why is None:
                self.odd(line)
            elif why:
                self.absent(why)

    def put(self, package: Package) -> None:
        draft = Draft(self._software_list, package.id())
        draft.purl = package.purl.text()
        self._software_list.put(draft)
        if not package.purl.version:
            self._software_list.put_odd(draft.id, NO_VERSION)

    def odd(self, line: Line, reason: str = "") -> None:
        self._software_list.put_odd(
            f"line {line.number} of {self._software_list.feed}", reason or f"no line of {self._form}"
        )

    def absent(self, why: str) -> None:
        """Counts a package that isn't installed, though the list has a line for it."""
        self._absent[why] += 1

    def end(self) -> None:
        """Says what was counted, and whether the list may be cut off."""
        for why, count in self._absent.items():
            self._software_list.remarks.append(
                f"{self._software_list.feed}: {why}: {count} {'package' if count == 1 else 'packages'}"
            )
        if not self._text.is_ended:
            self._software_list.put_odd(self._software_list.feed, CUT_OFF)
