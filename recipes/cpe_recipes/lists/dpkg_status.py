"""`/var/lib/dpkg/status`: of each paragraph `Package`, `Status`, `Version`, `Architecture` and `Source`."""
from __future__ import annotations

import re
from collections.abc import Iterator

from . import debs
from .software_list import SoftwareList
from .texts import Line, Packages, Text

CALLED = "/var/lib/dpkg/status"
_FIELD = re.compile(r"(?P<key>[A-Za-z][A-Za-z0-9-]*):(?: (?P<value>.*))?|[ \t].*")
_STATUS = re.compile(r"Status: (?:unknown|install|hold|deinstall|purge) (?:ok|reinstreq) [a-z-]+")
_SOURCE = re.compile(rf"(?P<source>{debs.NAME})(?: \((?P<version>{debs.VERSION})\))?")
_KEYS = ("Package", "Status", "Version", "Architecture", "Source")


def fits(text: Text) -> bool:
    # (an index of packages that may be had has no Status)
    return text.lines[0].text.startswith("Package: ") and text.any(_STATUS.fullmatch)


def read(text: Text, software_list: SoftwareList) -> None:
    packages, found = Packages(text, software_list, CALLED), []
    for line, fields in _paragraphs(packages):
        name, version = fields.get("Package", ""), fields.get("Version", "")
        if (
            not re.fullmatch(debs.NAME, name)
            or "Status" not in fields
            or version
            and not re.fullmatch(debs.VERSION, version)
        ):
            packages.odd(line, "a paragraph without a good Package, Status or Version begins there")
            continue
        why = debs.state_of(fields["Status"].rpartition(" ")[2])
        if why:
            packages.absent(why)
            continue
        source = _SOURCE.fullmatch(fields.get("Source", ""))
        names = (source["source"], source["version"] or "") if source else ("", "")
        found.append(debs.Deb(name, version, fields.get("Architecture", ""), *names))
    debs.put(found, packages, software_list)
    packages.end()


def _paragraphs(packages: Packages) -> Iterator[tuple[Line, dict[str, str]]]:
    """The first line of each paragraph, which has Package, and the fields that are looked at."""
    begin: Line | None = None
    fields: dict[str, str] = {}
    for line, field in packages.each(_FIELD):
        if field["key"] == "Package" or begin is None:
            if begin is not None:
                yield begin, fields
            begin, fields = line, {}
        if field["key"] in _KEYS:
            fields.setdefault(field["key"], (field["value"] or "").strip())
    if begin is not None:
        yield begin, fields
