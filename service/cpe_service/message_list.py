"""The messages of recipes, kept for the answer and the page."""
from __future__ import annotations

import re

from cpe_recipes.console import RecordedMessages, cut_words, escape

# (addresses of the web have two slashes)
_PATH = re.compile(r"(?<![\w./:~-])/(?:[^\s/'\":,;()]+/)+([^\s/'\":,;()]+)")


def strip_paths(text: str) -> str:
    """A text for clients, in which each path is replaced by its last name."""
    return _PATH.sub(r"\1", text)


class MessageList(RecordedMessages):
    """Keeps what was left out and what was remarked."""

    def __init__(self) -> None:
        super().__init__()
        self.lines: list[str] = []

    def _write(self, line: str, is_whole: bool = False) -> None:
        text = escape(line if is_whole else cut_words(line))
        if text.startswith("remark "):
            self.lines.append(text.removeprefix("remark "))

    def as_json(self) -> dict[str, list]:
        """What was left out, and the remarks."""
        return {"leftOut": self.json(), "remarks": self.lines}
