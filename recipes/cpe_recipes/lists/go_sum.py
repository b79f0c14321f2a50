"""`go.sum`: in each line a module, its version and its checksum. If a version ends with `/go.mod`, only the
requirements of the module were read. A module with only such lines is in no build, and is counted."""
from __future__ import annotations

import re

from . import golang
from .software_list import SoftwareList
from .texts import Packages, Text

CALLED = "go.sum"
_LINE = re.compile(
    rf"(?P<path>{golang.PATH}) (?P<version>{golang.VERSION}?)(?P<read>/go\.mod)? h[0-9]+:[A-Za-z0-9+/]+=*"
)


def fits(text: Text) -> bool:
    return text.most(_LINE.fullmatch)


def read(text: Text, software_list: SoftwareList) -> None:
    packages = Packages(text, software_list, CALLED)
    built: dict[tuple[str, str], bool] = {}
    for _, line in packages.each(_LINE):
        key = (line["path"], line["version"])
        built[key] = built.get(key, False) or not line["read"]
    for (path, version), is_built in built.items():
        if is_built:
            packages.put(golang.package(path, version))
        else:
            packages.absent("only the requirements were read")
    packages.end()
