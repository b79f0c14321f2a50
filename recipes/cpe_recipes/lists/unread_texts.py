"""Which texts of a document look like CPE names or package URLs, and no reader read them.

A tool may write a name in an unexpected place. So the whole document is searched. A text that begins with `cpe:` or
`pkg:` is counted, unless a reader read it, or it is in a member that only refers to components.
"""
from __future__ import annotations

from collections.abc import Collection, Iterator

from ..feeds import Json

_FRONTS = ("cpe:", "pkg:")
_HOLDERS = (dict, list)
# A value of a document, with its key and the place of its container.
_Place = tuple["_Place | None", "str | int", Json]


def is_name(text: str) -> bool:
    """Whether a text begins as a name does."""
    return text[:4].lower() == "cpe:"


def is_purl(text: str) -> bool:
    """Whether a text begins as a package URL does."""
    return text[:4].lower() == "pkg:"


class UnreadTexts:
    """Counts the texts that were not read, and keeps the place of the first one."""

    def __init__(self) -> None:
        self.count = 0
        self._first = ""
        # (by identity, because an equal text may be elsewhere in the document)
        self._read: set[int] = set()

    def note(self, text: str) -> None:
        """Notes that this text was read."""
        self._read.add(id(text))

    def look_at(self, value: Json, passed: Collection[str]) -> None:
        """Counts the texts of a document that no reader read, except those in members of the names `passed`."""
        # (most documents have none, so where they are is looked for where there are some)
        count = sum(1 for _ in self._texts(value, passed))
        if count and not self.count:
            self._first = _path(next(self._places(value, passed)))
        self.count += count
        # (texts of another document may get the same identities)
        self._read.clear()

    def _texts(self, value: Json, passed: Collection[str]) -> Iterator[str]:
        """The texts that were not read."""
        read = self._read
        waiting = [value]
        while waiting:
            holder = waiting.pop()
            for key, one in holder.items() if type(holder) is dict else enumerate(holder):
                if type(one) is str:
                    if one[3:4] == ":" and one[:4].lower() in _FRONTS and id(one) not in read and key not in passed:
                        yield one
                elif type(one) in _HOLDERS and key not in passed:
                    waiting.append(one)

    def _places(self, value: Json, passed: Collection[str]) -> Iterator[_Place]:
        """Where these texts are, in the order of the document."""
        waiting: list[_Place] = [(None, "", value)]
        while waiting:
            place = waiting.pop()
            _, key, one = place
            if isinstance(one, str):
                if one[:4].lower() in _FRONTS and id(one) not in self._read:
                    yield place
            elif isinstance(one, dict):
                waiting.extend((place, name, inner) for name, inner in reversed(one.items()) if name not in passed)
            elif isinstance(one, list):
                waiting.extend((place, number, one[number]) for number in reversed(range(len(one))))

    def words(self) -> str:
        what = "1 text that begins" if self.count == 1 else f"{self.count} texts that begin"
        where = "is where none is read, at" if self.count == 1 else "are where none is read, the first at"
        return f"{what} with cpe: or pkg: {where} {self._first}"


def _path(place: _Place) -> str:
    """Where something is in a document, in words."""
    keys: list[str | int] = []
    at: _Place | None = place
    while at is not None:
        keys.append(at[1])
        at = at[0]
    texts = (f"[{key}]" if isinstance(key, int) else f".{key}" for key in reversed(keys))
    return "".join(texts).lstrip(".")
