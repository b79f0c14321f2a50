"""The packages of package URLs, as lists give them for components; purls.py reads and writes package URLs.

Names are compared by the rules of their types: in lower case, and for Python packages with `-` in place of `_` and `.`.
Of a Go module's name, `/v2` (or another number) at the end is dropped. The qualifier `epoch` belongs to the version.
`upstream` names the source package of a binary package, in Syft's form: `openssl`, `util-linux@2.38.1-5` or
`openssl-3.0.7-24.el9.src.rpm`.
"""
from __future__ import annotations

import functools
import re
from dataclasses import dataclass

from .console import shorten
from .feeds import FormFault
from .purls import Purl, PurlFault, parse

_SEPARATORS = re.compile(r"[-_.]+")
# The last segment of a Go module from its second major version on.
_MAJOR = re.compile(r"v[0-9]+")
_SOURCE_ENDS = (".src.rpm", ".nosrc.rpm")
# How many package URLs are kept, since many machines have the same packages.
_KEPT = 1 << 16


@dataclass(frozen=True, slots=True)
class Package:
    """A package without its version: its type, its namespace (such as a distribution, or the group of Maven), and its
    name."""

    type: str
    namespace: str
    name: str

    def path(self) -> str:
        """The package URL without a version."""
        return "/".join(part for part in (f"pkg:{self.type}", self.namespace, self.name) if part)


@dataclass(frozen=True, slots=True)
class PackageUrl:
    """What a package URL says: the package with its version, and the source package that it was made of, whose version
    is empty if it isn't said."""

    package: Package
    version: str
    source: Package | None = None
    source_version: str = ""

    def words(self) -> str:
        """The package and its version, for people."""
        return f"{self.package.path()}@{self.version}" if self.version else self.package.path()


@functools.lru_cache(maxsize=_KEPT)
def read(text: str) -> PackageUrl:
    """The contents of a package URL. FormFault if the text is none."""
    purl = _parse(text)
    package = _package(purl)
    source, source_version = _source(purl.qualifier("upstream"), package)
    return PackageUrl(package, purl.full_version(), source, source_version)


def package_of(path: str) -> Package:
    """The package of a package URL without a version. FormFault if the text is none."""
    return _package(_parse(path))


def _parse(text: str) -> Purl:
    try:
        return parse(text.strip())
    except PurlFault as fault:
        raise FormFault(f"it is no package URL, since {fault}: {shorten(text)}") from fault


def _package(purl: Purl) -> Package:
    segments = [*filter(None, purl.namespace.split("/")), purl.name]
    if purl.type == "golang" and len(segments) > 1 and _MAJOR.fullmatch(segments[-1]):
        segments.pop()
    return Package(purl.type, "/".join(segments[:-1]).lower(), _named(purl.type, segments[-1]))


def _named(kind: str, name: str) -> str:
    return _SEPARATORS.sub("-", name.lower()) if kind == "pypi" else name.lower()


def _source(upstream: str, package: Package) -> tuple[Package | None, str]:
    """The source package, and its version if it is there."""
    # (of several the first is that of the package itself)
    first = upstream.split(",")[0].strip()
    end = next((end for end in _SOURCE_ENDS if first.endswith(end)), "")
    if end:
        parts = first.removesuffix(end).rsplit("-", 2)
        name, version = (parts[0], "-".join(parts[1:])) if len(parts) == 3 else (first.removesuffix(end), "")
    else:
        name, _, version = first.partition("@")
    return (Package(package.type, package.namespace, name.lower()), version) if name else (None, "")
