"""Commands that remarks name, as they work when they are copied: with the files that the user gave, and quoted for the
shell."""
from __future__ import annotations

import os
import shlex
from collections.abc import Sequence
from pathlib import Path

from .arguments import Arguments

_RECIPES = Path(__file__).resolve().parents[1]
# The options by which unlisted.sh is given what scan.py was given.
_SHARED = ("--store", "--dictionary", "--records", "--machines", "--lists")
_FLAGS = ("--partial", "--large")


def unlisted_command(arguments: Arguments) -> str:
    """The command that lists what the dictionary doesn't have, by the words of scan.py."""
    given = [word for option in _SHARED if arguments.has(option) for word in (option, *arguments.many(option))]
    return command("unlisted.sh", [*given, *table_words(arguments), *(flag for flag in _FLAGS if arguments.has(flag))])


def command(recipe: str, words: Sequence[str]) -> str:
    """The command of a short recipe with these words."""
    return shlex.join(["sh", _from_here(_RECIPES / recipe), *words])


def table_words(arguments: Arguments) -> list[str]:
    """The words by which a recipe is given tables of names."""
    return [word for path in arguments.many("--names") for word in ("--names", path)]


def _from_here(path: Path) -> str:
    """A path from the working folder, if it is below it."""
    try:
        here = os.path.relpath(path)
    except (OSError, ValueError):
        return str(path)
    return str(path) if here.startswith(os.pardir) else here
