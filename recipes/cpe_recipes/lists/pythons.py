"""Python's packages: what their names and versions look like, and their package URLs."""
from __future__ import annotations

from ..purls import Purl
from .texts import Package

NAME = r"[A-Za-z0-9](?:[A-Za-z0-9._-]*[A-Za-z0-9])?"
VERSION = r"[A-Za-z0-9][A-Za-z0-9.!+_-]*"


def package(name: str, version: str) -> Package:
    """A package, in lower case and with hyphens, as package URLs have Python's names."""
    return Package(Purl("pypi", name.lower().replace("_", "-"), version=version), f"{name} {version}".rstrip())
