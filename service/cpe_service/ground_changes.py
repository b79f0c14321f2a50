"""What changed between two grounds, so that a machine that was judged by the older one isn't judged again completely.

A verdict depends on the advisory in the feeds, and on the names of the machine's items. The names depend on the
dictionary and the tables, on the lists of the match feed for all ranges, and on the versions and attributes that all
advisories name for a product (name_finder.py). So if only advisories changed, and the items have the same names, the
verdicts of all other advisories are the same. If it isn't sure that the items have the same names, the whole machine is
judged again.
"""
from __future__ import annotations

import functools
import hashlib
import json
from collections.abc import Iterable, Mapping, Sequence
from dataclasses import dataclass, replace

from cpe_recipes import affected, names, verdicts
from cpe_recipes.cases import FeedData
from cpe_recipes.feeds import Json
from cpe_recipes.item_names import Certainty, ItemName
from cpe_recipes.name_finder import FactAttributes
from cpe_recipes.near_products import Product
from cpe_recipes.outcome import MachineOutcome
from cpe_recipes.versions import Letters

from .ground import Ground


@dataclass(frozen=True)
class Basis:
    """The data of a ground that is kept for a comparison with the next one: its edit, a checksum of each advisory, the
    attributes in the facts, and the names of matches by the names that they list."""

    edit: int
    sums: dict[str, bytes]
    fact_attributes: FactAttributes
    feed: Mapping[str, Sequence[str]]

    @staticmethod
    def of(ground: Ground, fact_attributes: FactAttributes, feed: Mapping[str, Sequence[str]]) -> Basis | None:
        """None if the ground was cut to some machines, has settlements, or can't be used for judging."""
        if ground.lacks or ground.cut_at is not None or ground.settlements.ids():
            return None
        return Basis(ground.edit, _sums(ground.feed_data), fact_attributes, feed)


def _sums(feed_data: FeedData) -> dict[str, bytes]:
    """A checksum of each advisory, by its id: its statements, their ranges, why checks have no result, and its
    details."""
    found = {id: hashlib.blake2b(_bytes(feed_data.details.get(id)), digest_size=16) for id in feed_data.ids.advisories}
    for record, statement in zip(feed_data.records, feed_data.statements):
        one = found[feed_data.ids.whole[statement.id]]
        one.update(record.encode(errors="surrogatepass"))
        for key in statement.checks:
            of_negated = feed_data.negated[key].range if key in feed_data.negated else key
            one.update(_bytes([key, feed_data.stand_ins.get(key), repr(feed_data.ranges.get(of_negated or ""))]))
    return {id: one.digest() for id, one in found.items()}


def _bytes(value: Json) -> bytes:
    return json.dumps(value, sort_keys=True).encode()


@dataclass(frozen=True)
class GroundChange:
    """What changed since a ground: the advisories, the attributes in the facts then and now, the products for which
    these differ, and the items that the match feed lists differently."""

    ids: frozenset[str]
    before: FactAttributes
    now: FactAttributes
    products: frozenset[Product]
    listed: frozenset[str]

    @staticmethod
    def between(before: Basis, after: Basis) -> GroundChange | None:
        """None if items of any machine may have other names. (Only advisories may differ between the two.)"""
        products = after.fact_attributes.changed_products(before.fact_attributes)
        if products is None:
            return None
        ids = {id for id in {**before.sums, **after.sums} if before.sums.get(id) != after.sums.get(id)}
        feeds = before.feed, after.feed
        listed = {
            name for name in {**before.feed, **after.feed} if len({frozenset(one.get(name, ())) for one in feeds}) > 1
        }
        return GroundChange(
            frozenset(ids), before.fact_attributes, after.fact_attributes, frozenset(products), frozenset(listed)
        )

    def join(self, later: GroundChange) -> GroundChange:
        """This change followed by a later one."""
        return GroundChange(
            self.ids | later.ids, self.before, later.now, self.products | later.products, self.listed | later.listed
        )

    def may_rename(self, outcome: MachineOutcome, letters: Letters) -> bool:
        """Whether items of a machine may have other names than before."""
        of_items = {
            name for leads in outcome.components for lead in leads for name in (lead.name, *lead.ends, *lead.steps)
        }
        if not self.listed.isdisjoint(of_items):
            return True
        return any(self._are_other(one, letters) for one in outcome.item_names if one.certainty is not Certainty.LESS)

    def _are_other(self, item_name: ItemName, letters: Letters) -> bool:
        """Whether other names are found for this name."""
        product = names.product_of(item_name.meant)
        if product not in self.products and not any(map(names.has_special, product)):
            return False
        if dict(self.before.blank_unsaid(item_name.name, item_name.meant)) != dict(
            self.now.blank_unsaid(item_name.name, item_name.meant)
        ):
            return True
        before, now = (one.respell(item_name.meant, item_name.kind, letters) for one in (self.before, self.now))
        return not item_name.is_spelled and dict(before) != dict(now)


def part_of(ground: Ground, ids: Iterable[str]) -> Ground:
    """The ground with only these advisories."""
    feed_data, wanted = ground.feed_data, frozenset(ids)
    records = [
        record
        for record, statement in zip(feed_data.records, feed_data.statements)
        if feed_data.ids.whole[statement.id] in wanted
    ]
    part = FeedData(feed_data.entries, records, feed_data.ranges, feed_data.details, feed_data.stand_ins)
    keys = {key for statement in part.statements for key in statement.checks} | {
        one.range for one in part.negated.values()
    }
    part.ranges = {key: one for key, one in feed_data.ranges.items() if key in keys}
    return replace(ground, feed_data=part)


class Order:
    """The order of a machine's verdicts, as in a scan: by kind, by score, and then by place in the feeds."""

    def __init__(self, ground: Ground, about: affected.AdvisoryContext) -> None:
        self._about = about
        self._places = {id: places[0] for id, places in ground.feed_data.parts.items()}

    def place(self, id: str) -> int:
        """Where an advisory is in the feeds."""
        return self._places[id]

    def key(self, verdict: Mapping[str, Json]) -> tuple[int, tuple[bool, float, float], int]:
        id = verdict["id"]
        return _rank(verdict["verdict"], "perhaps" in verdict), self._about.cells(id).order, self.place(id)


@functools.cache
def _rank(truth: str, is_perhaps: bool) -> int:
    """The place of a verdict in the order of verdicts."""
    return verdicts.Machine(None, shown={"": truth}, perhaps={""} if is_perhaps else set()).rank("")


def merge(before: str, row: dict[str, Json], ids: frozenset[str], order: Order) -> str:
    """The stored result of a machine (queries.py): the earlier one, with the verdicts of these advisories from the
    row."""
    head, *lines = before.split("\n")
    rest = [one for one in json.loads(head)["perhaps"] if one["id"] not in ids]
    perhaps = sorted([*rest, *row["perhaps"]], key=lambda one: order.place(one["id"]))
    found = [(order.key(verdict), line) for line in lines if (verdict := json.loads(line))["id"] not in ids]
    found += [(order.key(verdict), json.dumps(verdict, ensure_ascii=False)) for verdict in row["verdicts"]]
    first = json.dumps(
        {key: value for key, value in row.items() if key != "verdicts"} | {"perhaps": perhaps}, ensure_ascii=False
    )
    return "\n".join([first, *(line for _, line in sorted(found))])
