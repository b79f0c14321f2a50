"""A name of an item, and how sure it is that the item has it; name_finder.py finds the names.

A name that an item perhaps has becomes a name that is known in part: no fact covers it, and some may cover it. So cpe
itself finds which verdicts depend on this name, also under a negation.
"""
from __future__ import annotations

from collections.abc import Iterator
from dataclasses import dataclass, replace
from enum import Enum

from . import names

_OTHER = names.ATTRIBUTES.index("other")


class Certainty(Enum):
    """How sure it is that an item has a name."""

    SURELY = "by its list, the dictionary or the match feed"
    RENAMED = "by the dictionary, with another version"
    PERHAPS = "perhaps"
    LESS = "the item says less"


@dataclass(frozen=True, slots=True)
class ItemName:
    """A name of an item: the text that cpe gets, the item, the name without marks, how sure it is, the reason of a
    doubt, the places of attributes that aren't known, and the kind of the component. `is_spelled` marks a name whose
    version only has the spelling of a fact: ranges, and negated facts, are decided without it. `release` is the
    distribution's release of a package with this version."""

    name: str
    item: str
    meant: str
    certainty: Certainty
    why: str = ""
    lacks: frozenset[int] = frozenset()
    kind: str = ""
    is_spelled: bool = False
    release: str = ""

    def is_sure(self) -> bool:
        return self.certainty in (Certainty.SURELY, Certainty.RENAMED)

    def mark_doubt(self) -> ItemName:
        """The name as cpe gets it: known in part if there is a reason to doubt it."""
        return replace(self, name=names.blank(self.meant, (_OTHER,)), certainty=Certainty.PERHAPS) if self.why else self

    def asks_for_more(self, fact: str) -> bool:
        """Whether a fact has a value in an attribute that the item lacks."""
        return next(find_unsaid(self.meant, fact), None) is not None

    def words(self, fact: str) -> str:
        """Why it isn't sure that a fact covers the item."""
        if self.certainty is not Certainty.LESS:
            return self.why
        lacks = ", ".join(f"{attribute}: {text}?" for attribute, text in find_unsaid(self.meant, fact))
        return "; ".join(part for part in (f"{self.item}: {lacks}" if lacks else "", self.why) if part)


def find_unsaid(name: str, fact: str) -> Iterator[tuple[str, str]]:
    """The attributes that are ANY in this name and have a value in the fact, each with that value."""
    for place, (here, wanted) in enumerate(zip(names.components(name), names.components(fact))):
        if here == names.ANY and wanted != names.ANY:
            yield names.ATTRIBUTES[place], wanted if (text := names.body(wanted)) is None else text
