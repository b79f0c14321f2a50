"""The output of `dpkg-query -W`: in each line the name of a package, perhaps with its architecture, a tab, and its
version.

With `-f '${db:Status-Abbrev}\\t${binary:Package}\\t${Version}\\t${source:Package}\\t${source:Version}\\n'` the state is
the first column, and the source package is behind the version. The source package often has the name of the product.
"""
from __future__ import annotations

import re

from . import debs
from .software_list import SoftwareList
from .texts import Packages, Text

CALLED = "dpkg-query -W"
_LINE = re.compile(
    rf"(?:(?P<state>[uihrp][ncHUFWti])[R ]?\t)?(?P<name>{debs.NAME}){debs.ARCH}\t(?P<version>{debs.VERSION})?"
    rf"(?:\t(?P<source>{debs.NAME})?(?:\t(?P<source_version>{debs.VERSION})?)?)?"
)


def fits(text: Text) -> bool:
    return text.most(_LINE.fullmatch) and debs.is_marked(text)


def read(text: Text, software_list: SoftwareList) -> None:
    packages, found = Packages(text, software_list, CALLED), []
    for _, line in packages.each(_LINE):
        # (dpkg has a name without a version only of what isn't installed)
        why = debs.state_of((line["state"] or "ii")[1]) or ("" if line["version"] else debs.state_of("n"))
        if why:
            packages.absent(why)
        else:
            found.append(
                debs.Deb(
                    line["name"],
                    line["version"],
                    line["arch"] or "",
                    line["source"] or "",
                    line["source_version"] or "",
                )
            )
    debs.put(found, packages, software_list)
    packages.end()
