"""The products of a dictionary by their names, for those names alone that are looked for, in one pass over its
records."""
from __future__ import annotations

import functools
import json
import re
from collections.abc import Collection, Iterable, Iterator
from dataclasses import dataclass, field

from . import names
from .names_table import Product

# An entry of a dictionary whose name has nothing quoted before its version, in lower case.
_PLAIN = re.compile(r'\{"do":"entry","name":"cpe:2\.3:[aoh]:[^:"\\A-Z]+:([^:"\\A-Z]+):')
_FRONT = re.compile(r"[0-9]+(?:\.[0-9]+)?")

# The first two numbers of a version, by which two versions are of one line.
Front = tuple[int, ...]


_NAME_AT = len('{"do":"entry","name":"')
_SEPARATORS = str.maketrans("", "", "-_.")


def squeeze(name: str) -> str:
    """A product's name without separators, because NVD writes `mbed_tls` for mbedtls."""
    return name.translate(_SEPARATORS)


@functools.lru_cache(maxsize=1 << 16)
def front_of(version: str) -> Front:
    """The first two numbers of a version; none if it doesn't begin with a number."""
    found = _FRONT.match(version)
    return tuple(map(int, found[0].split("."))) if found else ()


@dataclass
class IndexedProduct:
    """A product of the dictionary: how many entries it has, of which lines these are, and their target_sw."""

    product: Product
    count: int = 0
    fronts: set[Front] = field(default_factory=set)
    targets: set[str] = field(default_factory=set)

    def has_line_of(self, front: Front) -> bool:
        """Whether an entry has a version of this line: the same first two numbers, or the first if there is no
        second."""
        return bool(front) and any(front[: len(one)] == one[: len(front)] for one in self.fronts)


class ByName:
    """The records of a dictionary by the names of their products, so that those of some names can be had over and
    over."""

    def __init__(self, records: Iterable[str]) -> None:
        self._by_name: dict[str, list[str]] = {}
        for record in records:
            found = _PLAIN.match(record)
            parts = None if found else names.components(_named(record).lower())
            name = found[1] if found else parts[names.PRODUCT] if parts and len(parts) > names.PRODUCT else ""
            self._by_name.setdefault(squeeze(name), []).append(record)

    def of(self, wanted: Iterable[str]) -> Iterator[str]:
        """The records of products of these names, spelled with any separators."""
        return (record for name in dict.fromkeys(map(squeeze, wanted)) for record in self._by_name.get(name, ()))


class ProductIndex:
    """The applications (part a) of a dictionary whose product is one of these names, or another one only in what
    separates its words."""

    def __init__(self, records: Iterable[str], wanted: Iterable[str]) -> None:
        self._by_name: dict[str, dict[Product, IndexedProduct]] = {}
        keys = set(map(squeeze, wanted))
        for parts in _applications(records, keys) if keys else ():
            product = Product(*parts[:3])
            found = self._by_name.setdefault(squeeze(parts[names.PRODUCT]), {})
            listed = found.get(product)
            if listed is None:
                listed = found[product] = IndexedProduct(product)
            listed.count += 1
            listed.fronts.add(front_of(parts[names.VERSION]))
            listed.targets.add(parts[_TARGET] if len(parts) > _TARGET else names.ANY)

    def of(self, name: str) -> list[IndexedProduct]:
        """The products of this name, spelled as in CPE names, with any separators."""
        return list(self._by_name.get(squeeze(name), {}).values())

    def has(self, vendor: str, name: str) -> bool:
        """Whether this vendor has a product of this name."""
        return Product("a", vendor, name) in self._by_name.get(squeeze(name), ())


_TARGET = names.ATTRIBUTES.index("target_sw")


def _applications(records: Iterable[str], wanted: Collection[str]) -> Iterator[list[str]]:
    """The components of the names of these records, whose product is wanted, without separators."""
    look = _PLAIN.match
    for record in records:
        # (nearly all of a million are so, and most are of products that nobody looks for)
        found = look(record)
        if found is None:
            yield from _wanted(_named(record), wanted)
        elif found[1].translate(_SEPARATORS) in wanted:
            name = record[_NAME_AT : record.find('"', _NAME_AT)]
            yield from _wanted(_named(record) if "\\" in name else name, wanted)


def _wanted(name: str, wanted: Collection[str]) -> Iterator[list[str]]:
    parts = names.components(name.lower())
    if len(parts) == len(names.ATTRIBUTES) and parts[0] == "a" and squeeze(parts[names.PRODUCT]) in wanted:
        yield parts


def _named(record: str) -> str:
    """The name in a record, as a formatted string; empty if it has none."""
    try:
        value = json.loads(record)
    except (ValueError, RecursionError):
        return ""
    name = value.get("name") if isinstance(value, dict) else None
    if isinstance(name, dict):
        return names.join([str(name.get(attribute, names.ANY)) for attribute in names.ATTRIBUTES])
    return format_name(name) if isinstance(name, str) else ""


_ENCODED = re.compile(r"%([0-9a-f]{2})")


def format_name(name: str) -> str:
    """The vendor, product and version of a name in either binding, as a formatted string; empty if it is none.
    (`cpe` says what a name is; here it is enough to see which product it has.)"""
    text = name.lower()
    if text.startswith(names.PREFIX):
        return text
    if not text.startswith("cpe:/"):
        return ""
    parts = [
        _ENCODED.sub(lambda found: names.quote(chr(int(found[1], 16))), part) or names.ANY
        for part in text[5:].split(":")[:4]
    ]
    return names.join([*parts, *[names.ANY] * (len(names.ATTRIBUTES) - len(parts))])
