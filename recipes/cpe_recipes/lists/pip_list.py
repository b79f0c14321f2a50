"""What `pip list` writes: a table whose first two columns are Package and Version."""
from __future__ import annotations

import re

from . import pythons
from .software_list import SoftwareList
from .texts import Packages, Text

CALLED = "pip list"
_HEAD = re.compile(r"Package +(?P<column>Version)(?: +.*)?")
_RULE = re.compile(r"-+(?: +-+)+")
_ROW = re.compile(rf"(?P<name>{pythons.NAME}) +(?P<version>{pythons.VERSION})(?: +.*)?")


def fits(text: Text) -> bool:
    return any(_HEAD.fullmatch(one.text) and _RULE.fullmatch(two.text) for one, two in zip(text.lines, text.lines[1:]))


def read(text: Text, software_list: SoftwareList) -> None:
    packages = Packages(text, software_list, CALLED)
    columns = {found.start("column") for line in text.lines if (found := _HEAD.fullmatch(line.text))}
    for line, row in packages.each(_ROW, {_HEAD: "", _RULE: ""}):
        if row.start("version") in columns:
            packages.put(pythons.package(row["name"], row["version"]))
        else:
            packages.odd(line)
    packages.end()
