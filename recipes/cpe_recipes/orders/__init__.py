"""The orders of versions, each by its own specification, and the orders of each kind of package."""
from __future__ import annotations

from collections.abc import Mapping
from typing import Any

from . import apk, dpkg, golang, maven, pep440, plain, rpm, semver
from .order import EQUAL, GREATER, LESS, Order

# The possible orders of a version without a kind, that of `cpe advise` last. (Go's isn't among them: it is SemVer's,
# with numbers that may be left out.)
ALL: tuple[Order[Any], ...] = (
    dpkg.ORDER,
    rpm.ORDER,
    pep440.ORDER,
    semver.ORDER,
    maven.ORDER,
    golang.ORDER,
    apk.SECOND,
    apk.THIRD,
    plain.ORDER,
)

# The orders of what a list says a component is: the type of a package URL.
OF_KIND: Mapping[str, tuple[Order[Any], ...]] = {
    "deb": (dpkg.ORDER,),
    "rpm": (rpm.ORDER,),
    "apk": (apk.SECOND, apk.THIRD),
    "pypi": (pep440.ORDER,),
    "npm": (semver.ORDER,),
    "cargo": (semver.ORDER,),
    "golang": (golang.ORDER,),
    "maven": (maven.ORDER,),
}

__all__ = ["ALL", "EQUAL", "GREATER", "LESS", "OF_KIND", "Order"]
