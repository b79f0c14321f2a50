"""The forms in which scan.py writes a result (--format): the table for people, its own JSON, and forms that other tools
read.

All forms except the table are made from the value of the JSON, so each has the same contents. If a form has no place
for something, the messages and the status still report it. gaps.py lists, for each form, what was not read.
"""
from __future__ import annotations

import importlib
from collections.abc import Mapping
from dataclasses import dataclass

from ..arguments import FLAG, ONE, Arguments
from ..console import Fatal, shorten
from ..feeds import Json, json_text
from .stamp import TIME, stamp

FORMAT, JSON = "--format", "--json"
OPTIONS = {FORMAT: ONE, JSON: FLAG, TIME: ONE}
TABLE, OWN = "table", "json"
# The modules of the others, of which a scan loads the one that it needs. Those that are JSON have the time when they
# were made.
_MODULES = {"csv": "csv_rows", "sarif": "sarif", "cyclonedx-vex": "cyclonedx_vex", "openvex": "openvex"}
_UNSTAMPED = (TABLE, OWN, "csv")
NAMES = (TABLE, OWN, *_MODULES)


@dataclass(frozen=True)
class Form:
    """A form: its name, the time in the result, and whether all advisories are listed."""

    name: str
    time: str
    is_all: bool

    @staticmethod
    def of(arguments: Arguments) -> Form:
        """What the options ask for. Fatal if there is no such form, or if they ask for two."""
        given = arguments.only(FORMAT)
        name = given if given is not None else OWN if arguments.has(JSON) else TABLE
        if name not in NAMES:
            raise Fatal(f"{FORMAT} is {shorten(name)}, which is none of {', '.join(NAMES)}")
        if arguments.has(JSON) and name != OWN:
            raise Fatal(f"{JSON} is {FORMAT} {OWN}, and {FORMAT} {name} is given beside it")
        return Form(name, "" if name in _UNSTAMPED else stamp(arguments), arguments.has("--all"))

    def is_table(self) -> bool:
        return self.name == TABLE

    def lines(self, value: Mapping[str, Json]) -> list[str]:
        """The lines of a result. Fatal if the form has none for it."""
        if self.name == OWN:
            return [json_text(value)]
        return list(importlib.import_module(f".{_MODULES[self.name]}", __name__).lines(value, self.time, self.is_all))
