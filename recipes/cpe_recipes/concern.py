"""Which products an advisory concerns, read from its record alone: no statement is made, and `cpe` isn't run.

That is known only if all in the advisory is plain: its names are spelled as `cpe` writes them, in any letter case
behind their parts, with a plain vendor and product; its bounds are ranges; and nothing of it will be reported. Then it
is FALSE on each machine that has none of these products. Any other advisory is one that may concern every machine.

A configuration of which all vulnerable names are of applications is FALSE without one of these. If one is of an
operating system, of firmware or of hardware, a list may be silent of it (statement_rewriter.py). Then the configuration
may be UNKNOWN by any other of its names, so it concerns the products of all. If something is negated beside such a
name, no product is needed, and it may concern every machine.
"""
from __future__ import annotations

import hashlib
import re
from collections.abc import Collection, Iterator
from dataclasses import dataclass
from typing import NamedTuple

from . import cve5, names
from .advisories import BOUNDS, MOST_NODES_DEEP, SCORES, is_bound
from .feeds import Json
from .near_products import OPEN, Product, keys_of
from .scores import score_of

# A component as cpe writes it. (A point, a hyphen and an underscore aren't quoted, and specials make a pattern.)
_TEXT = r"(?:[a-z0-9._\-]|\\[!\"#$%&'()+,/:;<=>@\[\]^`{|}~])+"
_PLAIN = rf"(?!-:){_TEXT}"
_ANY = rf"(?:\*|{_TEXT})"
_NAME = re.compile(
    rf"cpe:2\.3:([aho]):({_PLAIN}):({_PLAIN}):{_ANY}:{_ANY}:{_ANY}:(?:[*-]|[a-z]{{2,3}}):{_ANY}:{_ANY}:{_ANY}:{_ANY}"
)
_FRONTS = tuple(f"{names.PREFIX}{part}:" for part in "aho")
_FRONT = re.compile(rf"cpe:2\.3:[aho]:({_PLAIN}):({_PLAIN}):")
_COMPONENT = re.compile(_PLAIN)
# (a number behind # is that of a part of an advisory)
_ID = re.compile(r"[!-\"$-~]{1,64}")
_BOUNDS_OF_A_KIND = (("versionStartIncluding", "versionStartExcluding"), ("versionEndIncluding", "versionEndExcluding"))
# A longer test may have to be split, or replaced by a check without a result, so that it fits into a line. The further
# numbers are the bytes of a match beside its name and its id, of the check of a part beside it, and of a node.
_MOST_BYTES, _BESIDE, _OF_PART, _OF_NODE = 60_000, 100, 100, 200


def plain_name(name: str) -> tuple[str, Product] | None:
    """The part and the product of a name that is spelled as cpe writes it, or in other letter case behind its part;
    None of any other."""
    # (the front of a formatted string has small letters)
    found = _NAME.fullmatch(name.lower()) if name.isascii() and name.startswith(_FRONTS) else None
    return (found[1], (found[2], found[3])) if found else None


def plain_product(name: str) -> Product | None:
    """The product of a name, if the product is plain; the rest of the name may be anything."""
    found = _FRONT.match(name.lower()) if name.isascii() and name.startswith(_FRONTS) else None
    return (found[1], found[2]) if found else None


def open_product(name: str) -> Product:
    """The product of a name, as a key of near_products.py: what isn't plain in it is open, so that it may be any."""
    parts = names.components(name.lower()) if name.isascii() and name.startswith(_FRONTS) else []
    if len(parts) <= names.PRODUCT:
        return OPEN, OPEN
    vendor, product = (
        one if one != names.NA and _COMPONENT.fullmatch(one) else OPEN for one in parts[names.VENDOR : names.VERSION]
    )
    return vendor, product


class _Odd(Exception):
    """Something in an advisory isn't plain."""


# The ids of matches, each with the product of its name as a key.
Named = frozenset[tuple[str, Product]]


@dataclass(frozen=True, slots=True)
class Concern:
    """What a plain advisory concerns: products without which it is FALSE. `parts` are the parts of the names for which
    its statement asks, such as `o` for operating systems, and `named` are its matches that have bounds, with their
    products. `beside` are the products of its other names."""

    products: frozenset[Product]
    parts: frozenset[str]
    named: Named
    beside: frozenset[Product] = frozenset()

    @property
    def ranges(self) -> set[str]:
        """The ids of its matches that have bounds."""
        return {key for key, _ in self.named}

    def meets(self, wanted: Collection[Product], listing: Collection[str] = ()) -> bool:
        """Whether it may concern items of these products (keys of near_products.py), or has one of the matches that
        list some."""
        if any(key in wanted for product in self.products for key in keys_of(product)):
            return True
        return bool(listing) and any(key in listing for key, _ in self.named)

    def is_of_systems(self) -> bool:
        """Whether all names for which it asks are of operating systems."""
        return self.parts == {"o"}


def concern_of(record: Json) -> Concern | None:
    """What the advisory of a record concerns; None if not all in it is plain."""
    reading = _ConcernReader()
    try:
        cve = record["cve"]
        _needs(isinstance(cve.get("id"), str) and _ID.fullmatch(cve["id"]) is not None)
        _needs(isinstance(cve.get("vulnStatus", ""), str))
        reading.read(cve["configurations"])
        _needs(all(score_of(score) is not None for score in _scores(cve)))
    except (_Odd, KeyError, TypeError, AttributeError):
        return None
    beside = frozenset(reading.all_products - reading.products)
    return Concern(frozenset(reading.products), frozenset(reading.parts), frozenset(reading.named), beside)


def named_of(record: Json) -> Named:
    """The matches of any advisory that have bounds, wherever in it they are, by their ids, with the products of their
    names."""
    found = set()
    for match in _all_matches(record):
        key, criteria = match.get("matchCriteriaId"), match.get("criteria")
        if _is_key(key) and isinstance(criteria, str) and any(match.get(name) is not None for name in BOUNDS):
            found.add((key, open_product(criteria)))
    return frozenset(found)


def ranges_of(record: Json) -> frozenset[tuple[str, Product, int]]:
    """The same matches, each with a number that represents its name and its bounds."""
    found = set()
    for match in _all_matches(record):
        key, criteria = match.get("matchCriteriaId"), match.get("criteria")
        if _is_key(key) and isinstance(criteria, str) and any(match.get(name) is not None for name in BOUNDS):
            text = repr([criteria, *map(match.get, BOUNDS)]).encode(errors="surrogatepass")
            number = int.from_bytes(hashlib.blake2b(text, digest_size=8).digest(), "little", signed=True)
            found.add((key, open_product(criteria), number))
    return frozenset(found)


def products_named(record: Json) -> set[Product | None]:
    """The products of all names of the matches of any advisory, wherever in it they are; None for a name that isn't
    plain."""
    return {
        plain_product(one) if isinstance(one := match.get("criteria"), str) else None for match in _all_matches(record)
    }


def _all_matches(record: Json) -> Iterator[dict[str, Json]]:
    """The matches of the parts of an advisory's record that are of the published form."""
    cve = record.get("cve") if isinstance(record, dict) else None
    configurations = cve.get("configurations") if isinstance(cve, dict) else None
    nodes = [(node, 0) for one in _dicts(configurations) for node in _dicts(one.get("nodes"))]
    while nodes:
        node, depth = nodes.pop()
        yield from _dicts(node.get("cpeMatch"))
        if depth < MOST_NODES_DEEP:
            nodes.extend((child, depth + 1) for child in _dicts(node.get("children")))


def _is_key(key: Json) -> bool:
    """Whether the check of a match may have this id, by which its list is found (advisories.py)."""
    return isinstance(key, str) and key.isprintable() and " " not in key and key != ""


def _dicts(value: Json) -> list[dict[str, Json]]:
    return [one for one in value if isinstance(one, dict)] if isinstance(value, list) else []


class _Match(NamedTuple):
    """What is read of a match, and how long it is in a statement."""

    part: str
    product: Product
    is_vulnerable: bool
    bytes: int


class _Node(NamedTuple):
    is_and: bool
    is_negated: bool
    matches: list[_Match]

    def needs_vulnerable(self) -> bool:
        flags = (match.is_vulnerable for match in self.matches)
        return not self.is_negated and (any(flags) if self.is_and else all(flags))

    def bytes(self) -> int:
        return _OF_NODE + sum(match.bytes + _OF_PART * self.is_and for match in self.matches)


class _ConcernReader:
    """What is read of the configurations of an advisory."""

    def __init__(self) -> None:
        self.products: set[Product] = set()
        self.all_products: set[Product] = set()
        self.parts: set[str] = set()
        self.named: set[tuple[str, Product]] = set()
        self._bytes = 0

    def read(self, configurations: Json) -> None:
        for configuration in _filled(configurations):
            self._configuration(configuration)
        _needs(self._bytes <= _MOST_BYTES)

    def _configuration(self, configuration: Json) -> None:
        """Reads a configuration. What is negated in it becomes a check, so only the other names are facts of its
        statement. If its logic could hold without a vulnerable product, the vulnerable ones are facts beside it."""
        is_and, is_negated = _logic(configuration)
        nodes = [self._node(node) for node in _filled(configuration["nodes"])]
        matches = [match for node in nodes for match in node.matches]
        self.all_products.update(match.product for match in matches)
        vulnerable = [match for match in matches if match.is_vulnerable]
        # (one without a vulnerable product is reported)
        _needs(bool(vulnerable))
        needed = [node.needs_vulnerable() for node in nodes]
        is_needed = not is_negated and (any(needed) if is_and else all(needed))
        facts = [match for node in nodes if node.is_negated == is_negated for match in node.matches]
        self.parts.update(match.part for match in (facts if is_needed else [*facts, *vulnerable]))
        if any(match.part != "a" for match in vulnerable):
            _needs(not is_negated and not any(node.is_negated for node in nodes))
            self.products.update(match.product for match in matches)
        else:
            self.products.update(match.product for match in vulnerable)
        self._bytes += _copies(nodes, is_needed) * (_OF_NODE + sum(node.bytes() for node in nodes))

    def _node(self, node: Json) -> _Node:
        is_and, is_negated = _logic(node)
        _needs(not node.get("children"))
        return _Node(is_and, is_negated, [self._match(match) for match in _filled(node["cpeMatch"])])

    def _match(self, match: Json) -> _Match:
        criteria = match["criteria"]
        found = plain_name(criteria)
        key, is_vulnerable = match.get("matchCriteriaId"), match.get("vulnerable", False)
        if found is None or not isinstance(is_vulnerable, bool) or cve5.DOUBT in match:
            raise _Odd
        _needs(key is None or isinstance(key, str))
        for one, other in _BOUNDS_OF_A_KIND:
            _needs(match.get(one) is None or match.get(other) is None)
        bounds = [match[name] for name in BOUNDS if match.get(name) is not None]
        _needs(all(map(is_bound, bounds)))
        part, product = found
        if bounds and _is_key(key):
            self.named.add((key, product))
        # (the id of a check is that of its match, or its name with its bounds; a quoted letter has a backslash more in
        # a line)
        size = _BESIDE + len(criteria) + criteria.count("\\")
        if bounds:
            size += max(
                4 * len(key or ""), 2 * (len(criteria) + sum(len(bound) + len(" behind, ") for bound in bounds))
            )
        return _Match(part, product, is_vulnerable, size)


def _copies(nodes: list[_Node], is_needed: bool) -> int:
    """How often each name of a configuration is in its rewritten statement at most (statement_rewriter.py)."""
    if not is_needed:
        return 2 if {match.part for node in nodes for match in node.matches} == {"a"} else 4
    of_nodes = [{match.part for match in node.matches} for node in nodes if not node.is_negated]
    parts = set().union(*of_nodes)
    if len(parts) == 1 or any(found.isdisjoint("oh") for found in of_nodes):
        return 1
    return 2 if "a" in parts or any(len(found) > 1 for found in of_nodes) else 1


def _scores(cve: Json) -> Iterator[Json]:
    """All scores of an advisory."""
    metrics = cve.get("metrics") or {}
    for version in SCORES:
        for metric in metrics.get(version) or ():
            yield metric["cvssData"]["baseScore"]


def _logic(value: Json) -> tuple[bool, bool]:
    """Whether a configuration or a node is an AND, and whether it is negated."""
    operator, is_negated = value.get("operator"), value.get("negate")
    _needs(operator in (None, "AND", "OR") and (is_negated is None or isinstance(is_negated, bool)))
    return operator == "AND", is_negated is True


def _filled(value: Json) -> list[Json]:
    _needs(isinstance(value, list) and bool(value))
    return value


def _needs(is_plain: bool) -> None:
    if not is_plain:
        raise _Odd
