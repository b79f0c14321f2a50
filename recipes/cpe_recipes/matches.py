"""The match feed of NVD's API 2.0 (/rest/json/cpematch/2.0, matchStrings): of a match, which names of the dictionary it
has."""
from __future__ import annotations

import contextlib
from collections.abc import Collection, Iterable

from . import names
from .concern import plain_product
from .console import Fatal, Messages
from .feeds import FormFault, Json, Page, member, members, text_at
from .latest_records import time_of
from .near_products import Product, key_of, keys_of
from .product_index import format_name

KINDS = ("matchStrings",)


def read_match_lists(feed: Iterable[Page], wanted: Collection[str], messages: Messages) -> dict[str, list[str]]:
    """Of the wanted matches, by their ids, the names that the feed lists for them, as they are written there. Fatal
    where there are pages, and none has anything."""
    found: dict[str, tuple[Json, list[str]]] = {}
    empty_pages, is_empty = [], True
    for page in feed:
        if not page.records:
            empty_pages.append(page.name)
        is_empty = is_empty and not page.records
        for placed in page.each("match string", lambda it: text_at(member(it, "matchString"), "matchCriteriaId")):
            try:
                if placed.id in wanted:
                    _put(found, placed.id, member(placed.record, "matchString"))
            except FormFault:
                messages.leave_out(placed.id, "not of the published form", placed.source.place(placed.number))
    if empty_pages and is_empty:
        raise Fatal(f"no matchStrings are in {', '.join(empty_pages)}")
    for name in empty_pages:
        messages.remark(f"{name}: no matchStrings in it")
    return {id: listed for id, (_, listed) in found.items()}


def products_of(match_string: Json) -> set[Product | None]:
    """The products of the names that a match lists; None for one that isn't plain, and may be of any.

    An item that is listed for a match has the name of that match too, by the advisory that asks for it. What the feed
    itself says of that name is not looked at, since it may be missing, or an older one.
    """
    return set(map(plain_product, names_of(match_string)))


def find_listing_matches(feed: Iterable[Page], wanted: Collection[Product]) -> set[str]:
    """The ids of the matches that list items of these products (keys of near_products.py), or some of which that isn't
    known."""
    found: set[str] = set()
    for page in feed:
        for record in page.records:
            with contextlib.suppress(FormFault):
                match_string = member(record, "matchString")
                key = text_at(match_string, "matchCriteriaId")
                if key and any(
                    one is None or any(near in wanted for near in keys_of(one)) for one in products_of(match_string)
                ):
                    found.add(key)
    return found


def key_of_name(name: str) -> Product | None:
    """The key of the product of a name as it is written; None if it is none."""
    parts = names.components(format_name(name) or names.PREFIX)
    return key_of((parts[names.VENDOR], parts[names.PRODUCT])) if len(parts) > names.PRODUCT else None


def modified_of(match_string: Json) -> Json:
    """When the list of a match was modified. (It changes when the dictionary does, and its match needn't.)"""
    return max((member(match_string, key) for key in ("lastModified", "cpeLastModified")), key=time_of)


def _put(found: dict[str, tuple[Json, list[str]]], id: str, match_string: Json) -> None:
    """Adds the list of a match. Of several lists of a match the last modified counts; lists of the same time are
    joined."""
    listed, modified = names_of(match_string), modified_of(match_string)
    known = found.get(id)
    if known is None or time_of(modified) > time_of(known[0]):
        found[id] = modified, listed
    elif time_of(modified) == time_of(known[0]):
        known[1].extend(listed)


def names_of(match_string: object) -> list[str]:
    found = [text_at(one, "cpeName") for one in members(match_string, "matches")]
    return [name for name in found if name]
