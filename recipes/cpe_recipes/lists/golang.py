"""Go's modules: what their paths and versions look like, and their package URLs."""
from __future__ import annotations

from ..purls import Purl
from .texts import Package

PATH = r"[A-Za-z0-9_.~-]+(?:/[A-Za-z0-9_.~+-]+)*"
VERSION = r"v[0-9]+\.[0-9]+\.[0-9]+[A-Za-z0-9.+-]*"


def package(path: str, version: str) -> Package:
    """A Go module, in lower case as in package URLs."""
    namespace, _, name = path.lower().rpartition("/")
    return Package(Purl("golang", name, namespace, version), f"{path} {version}".rstrip())
