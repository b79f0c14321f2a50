"""Replacements for the program and for standard error in the tests of the recipes."""
import json
import re
import sys
from pathlib import Path

RECIPES = Path(__file__).resolve().parents[2] / "recipes"
sys.path.insert(0, str(RECIPES))

from cpe_recipes.console import Messages  # noqa: E402

# Names as the tests write them: formatted strings in which nothing is quoted.
_NAME = re.compile(r"cpe:2\.3(:[^: ]+){11}")


class Heard(Messages):
    """Keeps all messages."""

    def __init__(self):
        super().__init__()
        self.told = []

    def _write(self, line, is_whole=False):
        self.told.append(line)


class Names:
    """Replaces the program: it refuses texts that are no names, and accepts all else."""

    def lines(self, words, records):
        assert words == ["resolve"]
        for number, line in enumerate(records, 1):
            if not _NAME.fullmatch(json.loads(line)["name"]):
                yield f"refused {number} name name 9"
