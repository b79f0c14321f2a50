"""EPSS: how probable it is that a vulnerability is exploited in the next thirty days, as FIRST publishes it each day as
CSV, plain or packed by gzip.

    #model_version:v2023.03.01,score_date:2024-01-15T00:00:00+0000
    cve,epss,percentile
    CVE-2021-44228,0.97565,0.99996

A file of another form is refused with the line where it is, and so is one whose last line has no end: it was cut off.
"""
from __future__ import annotations

import re
from collections.abc import Sequence
from dataclasses import dataclass
from typing import NamedTuple

from .console import Fatal, Messages, shorten
from .feeds import FeedFault, Json, name_of, read_feed
from .kev import CVE

_COMMENT = re.compile(r"#model_version:([^,\s]+),score_date:([^,\s]+)")
_HEADER = "cve,epss,percentile"
_NUMBER = re.compile(r"[0-9]+(?:\.[0-9]*)?(?:[eE][-+]?[0-9]{1,3})?")
_ROW = re.compile(rf"({CVE.pattern}),({_NUMBER.pattern}),({_NUMBER.pattern})")


class Probability(NamedTuple):
    """The probability of a vulnerability, and the part of all that have no higher one."""

    epss: float
    percentile: float

    def json(self) -> dict[str, Json]:
        return {"epss": self.epss, "percentile": self.percentile}


@dataclass(frozen=True)
class Epss:
    """The probabilities: their file, its model and day if the file has them, and each probability by its id."""

    name: str
    model: str
    day: str
    found: dict[str, Probability]

    def json(self) -> dict[str, Json]:
        """The members at the top of a result."""
        told = {"modelVersion": self.model, "scoreDate": self.day} if self.model else {}
        return {"file": self.name, "count": len(self.found), **told}


def read_epss(path: str, messages: Messages) -> Epss:
    """The probabilities at this path. Fatal if there are none, or if they aren't whole."""
    name = name_of(path)
    try:
        lines = _lines(read_feed(path))
        told = _COMMENT.fullmatch(lines[0])
        behind = 1 if lines[0].startswith("#") else 0
        if lines[behind : behind + 1] != [_HEADER]:
            raise FeedFault(f"line {behind + 1} isn't {_HEADER}")
        found = _probabilities(lines, behind + 1, name, messages)
    except FeedFault as fault:
        raise Fatal(f"{name}: it isn't EPSS as FIRST publishes it: {fault}") from fault
    if not found:
        raise Fatal(f"{name}: no probability is in it")
    if told is None:
        messages.remark(f"{name}: no model_version and score_date, so its day isn't known")
    return Epss(name, told[1] if told else "", told[2] if told else "", found)


def _lines(data: bytes) -> list[str]:
    try:
        text = data.decode("utf-8-sig")
    except UnicodeDecodeError as fault:
        raise FeedFault(f"it is no UTF-8 at byte {fault.start + 1}") from fault
    if not text:
        raise FeedFault("it is empty")
    if not text.endswith("\n"):
        raise FeedFault("its last line has no end, so it is cut off")
    return text.removesuffix("\n").replace("\r\n", "\n").removesuffix("\r").split("\n")


def _probabilities(lines: Sequence[str], behind: int, name: str, messages: Messages) -> dict[str, Probability]:
    found: dict[str, Probability] = {}
    for number, line in enumerate(lines[behind:], behind + 1):
        row = _ROW.fullmatch(line)
        if row is None:
            raise _fault(line, number)
        id, epss, percentile = row[1], float(row[2]), float(row[3])
        if not (epss <= 1 and percentile <= 1):
            raise _fault(line, number)
        if id in found:
            if found[id] != (epss, percentile):
                raise FeedFault(f"line {number} has {id} again, with other numbers")
            messages.remark(f"{name}: {id} is there twice, with the same numbers")
        found[id] = Probability(epss, percentile)
    return found


def _fault(line: str, number: int) -> FeedFault:
    """Why a line is no row."""
    cells = line.split(",")
    if len(cells) != 3:
        return FeedFault(f"line {number} has {len(cells)} cells in place of 3")
    if not CVE.fullmatch(cells[0]):
        return FeedFault(f"line {number} has {shorten(cells[0])}, which is no id of a CVE")
    odd = next(cell for cell in cells[1:] if not (_NUMBER.fullmatch(cell) and float(cell) <= 1))
    return FeedFault(f"line {number} has {shorten(odd)}, which is no number from 0 to 1")
