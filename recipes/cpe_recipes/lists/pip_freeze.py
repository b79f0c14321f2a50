"""The output of `pip freeze`: `name==version`. Packages from elsewhere are `name @ URL` or `-e URL`, without a version.
A comment before an editable package may have its version."""
from __future__ import annotations

import re
from urllib.parse import unquote

from . import pythons
from .software_list import SoftwareList
from .texts import Packages, Text

CALLED = "pip freeze"
_PINNED = rf"(?P<name>{pythons.NAME})={{2,3}}(?P<version>{pythons.VERSION})"
_FROM = rf"(?P<from>{pythons.NAME}) @ \S.*"
_EDITABLE = r"-e (?P<place>\S.*)"
_LINE = re.compile(rf"{_PINNED}|{_FROM}|{_EDITABLE}")
_COMMENT = re.compile(rf"\s*#(?: Editable .*\((?P<name>{pythons.NAME})==(?P<version>{pythons.VERSION})\))?.*")
_EGG = re.compile(rf".*[#&]egg=(?P<name>{pythons.NAME})(?:&.*)?")


def fits(text: Text) -> bool:
    is_one = text.most(lambda line: _LINE.fullmatch(line) or _COMMENT.fullmatch(line))
    return is_one and text.any(lambda line: (found := _LINE.fullmatch(line)) and not found["place"])


def read(text: Text, software_list: SoftwareList) -> None:
    packages = Packages(text, software_list, CALLED)
    # (of an editable package the comment is the line before it)
    editable = {
        line.number + 1: told for line in text.lines if (told := _COMMENT.fullmatch(line.text)) and told["name"]
    }
    for line, found in packages.each(_LINE, {_COMMENT: ""}):
        told = editable.get(line.number)
        egg = _EGG.fullmatch(unquote(found["place"] or ""))
        if found["name"] or found["from"]:
            packages.put(pythons.package(found["name"] or found["from"], found["version"] or ""))
        elif told:
            packages.put(pythons.package(told["name"], told["version"]))
        elif egg:
            packages.put(pythons.package(egg["name"], ""))
        else:
            packages.odd(line, "an editable package without a name")
    packages.end()
