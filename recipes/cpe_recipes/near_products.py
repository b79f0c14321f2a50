"""Which items a fact may cover, by their vendors, products and versions alone.

A fact of a plain vendor and product may cover items of the same ones. Of an item that is known in part the vendor or
the product may be a pattern, and then that may be any: so it may be covered by each fact of the same product, or of the
same vendor, and of no other one. Only if both are patterns may every fact cover it. A fact of one version covers an
item of this version alone.
"""
from __future__ import annotations

import functools
from collections.abc import Iterable, Iterator, Mapping
from typing import Generic, TypeVar

from . import names

Product = tuple[str, str]
# In place of a vendor or product that is a pattern.
OPEN = ""
What = TypeVar("What")


def key_of(product: Product) -> Product:
    """The vendor and product of an item, each of them open if it is a pattern."""
    vendor, name = product
    return (OPEN if names.has_special(vendor) else vendor, OPEN if names.has_special(name) else name)


def keys_of(product: Product) -> tuple[Product, ...]:
    """The keys of the items that a fact of this plain vendor and product may cover."""
    vendor, name = product
    return product, (OPEN, name), (vendor, OPEN), (OPEN, OPEN)


def version_key(version: str) -> str:
    """The version of a fact or an item, as components are compared: in small letters, without quoting; open if it has a
    special."""
    if version in (names.ANY, names.NA):
        return version
    text = names.body(version)
    return OPEN if text is None else text.lower()


# The product of an item, and its version, as keys.
Item = tuple[Product, str]


@functools.lru_cache(maxsize=1 << 17)
def item_of(name: str) -> Item:
    """The keys of the name of an item. (Many machines have the same ones.)"""
    parts = names.components(name)
    return key_of((parts[names.VENDOR], parts[names.PRODUCT])), version_key(parts[names.VERSION])


class NearProducts(Generic[What]):
    """What has facts, such as statements, by the vendors, products and versions of these."""

    def __init__(self) -> None:
        self._all: list[What] = []
        self._of_any: list[What] = []
        self._by_product: dict[Product, dict[str, list[What]]] = {}
        # (mostly no item is a pattern, so these are made when one is)
        self._by_vendor: dict[str, list[Product]] | None = None
        self._by_name: dict[str, list[Product]] = {}

    def put(self, what: What, products: Iterable[Item], is_of_any: bool) -> None:
        """Puts something with facts of these plain products and versions, and perhaps with one whose vendor or product
        isn't plain."""
        self._all.append(what)
        for product, version in products:
            self._by_product.setdefault(product, {}).setdefault(version, []).append(what)
        if is_of_any:
            self._of_any.append(what)
        self._by_vendor = None

    def near(self, items: Iterable[Item]) -> set[What]:
        """What has a fact that may cover an item of these keys."""
        found = set(self._of_any)
        for key, version in items:
            if key == (OPEN, OPEN):
                return set(self._all)
            for product in self._products(key):
                found.update(*self._of_version(self._by_product.get(product, {}), version))
        return found

    @staticmethod
    def _of_version(by_version: Mapping[str, list[What]], version: str) -> Iterable[list[What]]:
        """What has a fact of a product that may cover an item of this version."""
        if version == OPEN:
            return by_version.values()
        # (a fact of any version, or of a pattern, may cover each; any other one covers its own version alone)
        return (by_version.get(key, []) for key in dict.fromkeys((names.ANY, OPEN, version)))

    def _products(self, key: Product) -> Iterator[Product]:
        """The products whose facts may cover an item of this key."""
        vendor, name = key
        if OPEN not in key:
            yield key
            return
        if self._by_vendor is None:
            self._by_vendor, self._by_name = {}, {}
            for product in self._by_product:
                self._by_vendor.setdefault(product[0], []).append(product)
                self._by_name.setdefault(product[1], []).append(product)
        yield from self._by_name.get(name, ()) if vendor == OPEN else self._by_vendor.get(vendor, ())
