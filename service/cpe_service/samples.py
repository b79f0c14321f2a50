"""The samples of the recipes, with which a service may begin."""
from __future__ import annotations

from pathlib import Path

from . import RECIPES

_FOLDER = RECIPES / "samples" / "ranges"
_FORMS = (".cdx.json", ".spdx.json", "-1.txt", "-2.txt")


def feeds() -> list[Path]:
    """The feeds of the samples."""
    return [_FOLDER / f"{name}.json" for name in ("dictionary", "advisories", "matches")]


def lists() -> list[Path]:
    """The software lists of the samples; each belongs to a machine with the name of its file."""
    return sorted(path for path in _FOLDER.iterdir() if path.name.endswith(_FORMS))
