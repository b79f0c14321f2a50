"""What recipes look at in names: formatted strings as cpe writes them, in lower case. What is a name, and which covers
which, cpe alone says."""
from __future__ import annotations

import functools
import re
from collections.abc import Iterable

PREFIX = "cpe:2.3:"
ANY, NA = "*", "-"
VENDOR, PRODUCT, VERSION, UPDATE = 1, 2, 3, 4
# The attributes in their order, as NIST IR 7695 calls them.
ATTRIBUTES = (
    "part",
    "vendor",
    "product",
    "version",
    "update",
    "edition",
    "language",
    "sw_edition",
    "target_sw",
    "target_hw",
    "other",
)
# The value of an attribute that a list doesn't name. It is a pattern, so the name is known in part, and no name covers
# it.
UNSAID = "unsaid?"

_COMPONENT = re.compile(r"(?:[^:\\]|\\.)+")
_QUOTED = re.compile(r"\\(.)")
_SPECIAL = re.compile(r"(?:[^*?\\]|\\.)*[*?]")
_BEGINNING = re.compile(r"((?:[^*?\\]|\\.)+)[*?]+")
_BARE = re.compile(r"[A-Za-z0-9_.\-]")


def components(name: str) -> list[str]:
    """The eleven components of a formatted string, as they are spelled there."""
    text = name[len(PREFIX) :]
    return _COMPONENT.findall(text) if "\\" in text else text.split(":")


def join(parts: list[str]) -> str:
    """The formatted string with these components."""
    return PREFIX + ":".join(parts)


def is_plain(component: str) -> bool:
    """Whether a component is a text without specials: neither ANY nor NA, nor with a `*` or `?` that isn't quoted."""
    return component != NA and not _has_special(component)


def _has_special(component: str) -> bool:
    # (nearly none has such a letter at all)
    return ("*" in component or "?" in component) and _SPECIAL.match(component) is not None


def body(component: str) -> str | None:
    """The text of a plain component without its quoting; None if it isn't plain."""
    if not is_plain(component):
        return None
    return _QUOTED.sub(r"\1", component) if "\\" in component else component


def has_special(component: str) -> bool:
    """Whether a component is a pattern: a text with a `*` or `?` that isn't quoted."""
    return component != ANY and _has_special(component)


def is_known_in_part(name: str) -> bool:
    """Whether a name has a pattern. Then an item with this name is known in part."""
    return any(map(has_special, components(name)))


def beginning(component: str) -> str | None:
    """The beginning of a pattern before its specials, without quoting; None if the pattern begins with a special."""
    match = _BEGINNING.fullmatch(component)
    return body(match[1]) if match else None


def quote(text: str) -> str:
    """A plain text as a component."""
    return "".join(one if _BARE.match(one) else f"\\{one}" for one in text)


def blank(name: str, places: Iterable[int]) -> str:
    """The name with these attributes marked as not known."""
    parts = components(name)
    for place in places:
        parts[place] = UNSAID
    return join(parts)


def part_of(name: str) -> str:
    """The part of a name in either binding, in lower case."""
    text = name.lower()
    if text.startswith(PREFIX):
        # (a part has nothing quoted)
        return text[len(PREFIX) :].partition(":")[0]
    return text[len("cpe:/") : len("cpe:/") + 1] if text.startswith("cpe:/") else ""


@functools.lru_cache(maxsize=1 << 17)
def product_of(name: str) -> tuple[str, str]:
    """The vendor and the product of a name, as components."""
    parts = components(name)
    return parts[VENDOR], parts[PRODUCT]
