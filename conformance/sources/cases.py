"""What a case is, and short ways to write its texts and names. The modules beside this one choose the cases."""

from collections.abc import Iterable, Iterator
from dataclasses import dataclass

Json = dict[str, object]

ATTRIBUTES = ("part", "vendor", "product", "version", "update", "edition", "language", "sw_edition", "target_sw", "target_hw", "other")
# The attributes whose values have no rule of their own.
FREE = tuple(it for it in ATTRIBUTES if it not in ("part", "language"))
# The components of a URI; the last four attributes are packed into the edition.
COMPONENTS = ATTRIBUTES[:7]
PACKED = ("edition", "sw_edition", "target_sw", "target_hw", "other")

LETTERS = "abcdefghijklmnopqrstuvwxyz"
DIGITS = "0123456789"
# What a formatted string quotes; a name quotes the full stop and the hyphen too.
QUOTED_IN_TEXTS = "!\"#$%&'()*+,/:;<=>?@[\\]^`{|}~"
QUOTED_IN_NAMES = QUOTED_IN_TEXTS + ".-"

# Marks, in a refused text, where it fails.
CARET = "\N{CARET}"


@dataclass(frozen=True)
class Case:
    """What is given and expected, and what the case decides."""

    given: Json
    expect: Json
    why: str


@dataclass(frozen=True)
class Group:
    """Cases of one section and kind. They are numbered in their order, so add new ones at the end."""

    report: str
    id: str
    section: str
    kind: str
    cases: Iterable[Case]
    is_own: bool = False

    def records(self) -> Iterator[Json]:
        for number, it in enumerate(self.cases, 1):
            yield {
                "id": f"{self.id}-{number:03}",
                "report": self.report,
                "section": self.section,
                "kind": self.kind,
                "input": it.given,
                "expect": it.expect,
                "own": self.is_own,
                "why": it.why,
            }


def fs(**components: str) -> str:
    """The formatted string of a small application with these components, as they are written there."""
    known = {"part": "a", "vendor": "v", "product": "p"} | components
    return "cpe:2.3:" + ":".join(known.get(it, "*") for it in ATTRIBUTES)


def name(**values: str | None) -> dict[str, str | None]:
    """The same name as values: None is NA, and what is left out is ANY."""
    return {"part": "a", "vendor": "v", "product": "p"} | values


def uri(*components: str) -> str:
    return "cpe:/" + ":".join(components)


def read(text: str, values: Json, why: str) -> Case:
    return Case({"text": text}, {"name": values}, why)


def refused(marked: str, why: str) -> Case:
    """A text that no name has. The caret marks where it fails."""
    before, caret, rest = marked.partition(CARET)
    assert caret, marked
    return Case({"text": before + rest}, {"refused": True, "place": len(before.encode())}, why)


def written(values: Json, text: str, why: str) -> Case:
    return Case({"name": values}, {"text": text}, why)


def no_name(values: Json, why: str) -> Case:
    return Case({"name": values}, {"refused": True}, why)


def quoted(character: str) -> str:
    return "\\" + character


def percent(character: str) -> str:
    return f"%{ord(character):02x}"
