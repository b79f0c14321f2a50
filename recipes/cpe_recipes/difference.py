"""Which verdicts a scan from a store decides again, and which it takes from an earlier scan of the same machines
(earlier_scans.py).

The verdict of a machine and an advisory depends on:

1. The recipes, the program, Python, the letters, and the options that change verdicts. One checksum covers these for
   all verdicts of a scan.
2. The record of the advisory. A changed record has another place in the store, so a place belongs to one record alone.
   If a record with the same id is added, all records of that id are decided again, because another one may count.
3. The names of the machine's items (`ItemName`) that are of the advisory's products, in their order; and those of the
   products that the match feed lists for the advisory's matches.
4. The lists of the match feed for the advisory's matches.
5. The parts (operating systems, hardware) of which the machine has any item, because a list may not name them.
6. Where the dictionary leads from negated names. An advisory with such a name isn't plain, and each scan decides it.
7. The other advisories that have one of its ids, or another range under the id of one of its matches. If the store has
   such ranges, all is decided again. Each scan decides again the advisories whose id has several records.

Besides 1, the names of an item depend on:

a. The entries and deprecations of its product, and of the products that deprecations connect with it.
b. The names of these products in all advisories. An item also has its version in the spelling of a fact, and a fact may
   have an attribute that the item lacks. Names that may be of any product count for every item.
c. The lists of the match feed that have the item, and the names of these matches; and b. for the products of these
   names.
d. The machine's own list: the item's names, its kind, and the names that it perhaps has by its package URL. Each scan
   reads the list, and finds these again.

So an added page touches products: those of its entries, of the names in its advisories and in the records that these
replace, of its lists and their matches, and of the lists that the replaced records asked for. The items of a product
that isn't touched, by a. and c., have the names of the earlier scan. For all other items, and for items that a machine
didn't have before, everything that they depend on is read, with the advisories of their earlier names, and their names
are found again. A verdict is decided again

- if its advisory or one of its lists changed, or its advisory isn't plain;
- if its advisory names a product of which the machine has a new item, has lost an item, or has an item with other
  names;
- on each machine that now has items of other parts, or its items in another order.

Nothing is taken from the earlier scan if a page that it used is missing, or if an added name may be of any product. A
verdict of one machine never depends on the items of other machines. (For b., names in advisories that concern none of
the machines count too.)
"""
from __future__ import annotations

from collections.abc import Collection, Iterable, Mapping, Sequence
from dataclasses import dataclass, replace

from . import names, unlisted
from .advisories import Range
from .cases import FeedData, Statement
from .components import Machine
from .concern import plain_product
from .console import NoMessages
from .earlier_scans import EarlierMachine, EarlierScan, EarlierVerdict, Key
from .item_names import ItemName
from .leads import Lead, Leads, leads_in, leads_of
from .name_finder import FactAttributes, NameFinder, group_matches_by_name
from .near_products import OPEN, Product, item_of, key_of, keys_of
from .program import Program
from .range_checks import MatchLists
from .store_reader import StoreExtract, StoreReader, TouchedProducts
from .versions import Letters


@dataclass(frozen=True)
class ScanPlan:
    """What a scan decides again, over items with known names; and the verdicts that it takes, by machines."""

    extract: StoreExtract
    lists: MatchLists
    leads: Leads
    name_finder: NameFinder
    successors: dict[Product, list[Product]]
    rows: Mapping[str, Sequence[EarlierVerdict]]


def key_of_lead(lead: Lead) -> Key:
    return lead.name, lead.kind, lead.why


def leads_of_machine(leads: Leads, machine: Machine) -> list[Lead]:
    """The leads of a machine's names, in the order of its components; none if no component has a valid name."""
    if not any(name in leads.found for name in machine.own_names()):
        return []
    return [lead for component in machine.all() for lead in leads_in(leads, component)]


def parts_of(item_names: Iterable[ItemName]) -> str:
    """The parts of names, such as `ao`."""
    return "".join(sorted({names.part_of(one.name) for one in item_names}))


def _product(name: str) -> Product:
    return key_of(names.product_of(name))


class Difference:
    """Finds what has to be decided again since an earlier scan."""

    def __init__(
        self, store: StoreReader, earlier: EarlierScan, asked: Sequence[Machine], program: Program, letters: Letters
    ) -> None:
        self.store, self.earlier, self.asked, self.program, self.letters = store, earlier, asked, program, letters
        # (the names of items as they were written: those of which all is known, and where the others lead without a
        # dictionary)
        self.known: dict[str, Lead] = {}
        self.bare = Leads()
        # (of each machine the names of its items, and those among them of which the names are made)
        self.keys: dict[str, list[Key]] = {}
        self.open: set[str] = set()

    def plan(self, ids: Collection[str]) -> ScanPlan | None:
        """What is decided again, with the details of the advisories of these ids; None if everything is."""
        basis = self.earlier.basis
        if not self.earlier.is_whole or not self.store.has_prefix(basis.last, basis.pages):
            return None
        touched = self.store.touched_since(basis.last)
        if touched is None:
            return None
        self._lead(touched)
        whole: set[str] = set()
        while True:
            taken = _Rescan(self, whole)
            if taken.is_of_any():
                return None
            taken.find_names()
            others = taken.of_other_parts()
            if others <= whole:
                return taken.plan(ids)
            whole |= others

    def _lead(self, touched: TouchedProducts) -> None:
        """Finds which names of items are known."""
        leads = self.earlier.leads
        numbers = self.store.numbers_of(_product(lead.name) for lead in leads.found.values())

        def is_known(lead: Lead) -> bool:
            product = _product(lead.name)
            return OPEN not in product and product not in touched.products and numbers[product] not in touched.numbers

        asked = dict.fromkeys(name for machine in self.asked for name in machine.asked_names())
        known = {name: lead for name in asked if (lead := leads.found.get(name)) is not None and is_known(lead)}
        refused = {name: leads.refused[name] for name in asked if name in leads.refused}
        bare = leads_of(self.program, (), [name for name in asked if name not in known and name not in refused], ())
        self.open = {lead.name for lead in bare.found.values()}
        self.bare = Leads(bare.found | known, bare.refused | refused)
        for machine in self.asked:
            self.keys[machine.name] = [key_of_lead(lead) for lead in leads_of_machine(self.bare, machine)]
        self.open |= {key[0] for keys in self.keys.values() for key in keys if key not in self.earlier.item_names}
        self.known = {name: lead for name, lead in known.items() if lead.name not in self.open}


class _Rescan:
    """The data that is read to decide again; the machines in `whole` are decided completely."""

    def __init__(self, of: Difference, whole: Collection[str]) -> None:
        self._of = of
        # (the items that a machine gained or lost, whatever their names are)
        self._others: set[Key] = set()
        for machine in of.asked:
            earlier_machine = of.earlier.machines.get(machine.name)
            self._others |= _others(earlier_machine, of.keys[machine.name], machine.name in whole)
        products = {_product(name) for name in (*of.open, *(key[0] for key in self._others))}
        # (also of names that items had before: nothing in the store may lead to these any more)
        before = (
            item_names for key, item_names in of.earlier.item_names.items() if key[0] in of.open or key in self._others
        )
        products.update(item_of(one.name)[0] for item_names in before for one in item_names)
        self._part = of.store.read_part(products)
        self._leads = Leads()
        self._successors: dict[Product, list[Product]] = {}
        self._item_names: dict[Key, tuple[ItemName, ...]] = {}
        self._of_machines: dict[str, list[Key]] = {}

    def is_of_any(self) -> bool:
        """Whether the statements of some advisory depend on advisories that aren't read."""
        return self._part.is_raw or self._of.store.has_range_conflict(self._part.found.stand_ins)

    def find_names(self) -> None:
        """Finds the names of the items that aren't known."""
        of, part = self._of, self._part
        others = [one for one in part.found.candidates if one.record not in part.rewritten]
        records = [*part.rewritten, *of.program.accept_statements(others, NoMessages())]
        self._statements = FeedData([], records, part.found.ranges, {}, part.found.stand_ins, cached=part.rewritten)
        entries = self._entries = of.store.entries(part, self._statements)
        old = unlisted.deprecated_names(entries)
        facts = self._statements.facts()
        items = [name for name in of.bare.found if name not in of.known]
        found = leads_of(of.program, entries, items, dict.fromkeys([*facts, *old]))
        self._leads = Leads(found.found | of.known, found.refused | of.bare.refused)
        own = {lead.name: lead for name in items if (lead := self._leads.found.get(name)) is not None}
        self._put_successors(unlisted.successors(entries, self._leads), own)
        self._listed = of.store.match_lists(part.found.ranges.keys())
        self.lists = MatchLists(of.program, self._listed)
        feed = group_matches_by_name(self.lists, part.found.ranges, self._leads)
        fact_attributes = FactAttributes(self._leads.found[fact].name for fact in dict.fromkeys(facts))
        before = [self._leads.found[name] for name in old if name in self._leads.found]
        self.name_finder = NameFinder(
            of.program, entries, self._leads, before, own.values(), feed, fact_attributes, of.letters
        )
        self.name_finder.put(
            {key: item_names for key, item_names in of.earlier.item_names.items() if key[0] not in of.open}
        )
        for machine in of.asked:
            leads = leads_of_machine(self._leads, machine)
            self._of_machines[machine.name] = list(map(key_of_lead, leads))
            self._item_names.update((key_of_lead(lead), self.name_finder.of(lead)) for lead in leads)

    def _put_successors(self, found: Mapping[Product, list[Product]], own: Collection[str]) -> None:
        products = set(map(names.product_of, own))
        self._successors = {one: others for one, others in self._of.earlier.successors.items() if one not in products}
        self._successors |= {one: found[one] for one in products if one in found}

    def of_other_parts(self) -> set[str]:
        """The machines whose items have other parts than before."""
        parts = {key: {names.part_of(one.name) for one in item_names} for key, item_names in self._item_names.items()}
        found = set()
        for name, keys in self._of_machines.items():
            earlier_machine = self._of.earlier.machines.get(name)
            if earlier_machine is not None and earlier_machine.parts != "".join(
                sorted(set().union(*(parts[key] for key in keys)))
            ):
                found.add(name)
        return found

    def plan(self, ids: Collection[str]) -> ScanPlan:
        """What is decided again: of the advisories that were made before those whose names or lists have changed, and
        all others."""
        of, part = self._of, self._part
        again = _ChangedStatements(of.store, of.earlier.basis.last, self._products(), self._listed)
        chosen, left = [], set()
        for one in part.found.candidates:
            asked = part.rewritten.get(one.record)
            if asked is None or again.has(asked.statement, part.found.ranges):
                chosen.append(one)
            else:
                left.add(asked.statement.id)
        made = part.cached_ids() - left
        placed = of.store.plain_places()
        elsewhere = {placed[id] for id in left}
        here = replace(part, places=[place for place in part.places if place not in elsewhere])
        extract = of.store.collect(here, chosen, self._entries)
        rows = {machine.name: self._rows(machine, placed, made) for machine in of.asked}
        shown = {row.place for of_machine in rows.values() for row in of_machine} | {
            placed[id] for id in ids if id in placed
        }
        extract.feed_data.details.update(of.store.details(shown))
        return ScanPlan(extract, self.lists, self._leads, self.name_finder, self._successors, rows)

    def _products(self) -> set[Product]:
        """The products of the items that a machine gained or lost, or that have other names now."""
        before, now = self._of.earlier.item_names, self._item_names
        keys = self._others | {
            key for key, item_names in now.items() if key[0] in self._of.open and before.get(key) != item_names
        }
        return {item_of(one.name)[0] for key in keys for one in (*before.get(key, ()), *now.get(key, ()))}

    def _rows(self, machine: Machine, placed: Mapping[str, int], again: Collection[str]) -> list[EarlierVerdict]:
        """The verdicts of a machine that are taken from the earlier scan."""
        earlier_machine = self._of.earlier.machines.get(machine.name)
        rows = earlier_machine.rows if earlier_machine is not None else ()
        return [row for row in rows if row.place and placed.get(row.id) == row.place and row.id not in again]


class _ChangedStatements:
    """Which statements of plain advisories are decided again."""

    def __init__(
        self, store: StoreReader, last: int, products: Collection[Product], listed: Mapping[str, Sequence[str]]
    ) -> None:
        self._products, self._ids = products, store.ids_since(last)
        changed = store.matches_since(last)
        self._ranges = {key for key, of_key in listed.items() if key in changed or any(map(self._is_of, of_key))}

    def has(self, statement: Statement, ranges: Mapping[str, Range]) -> bool:
        if statement.id in self._ids or any(key in self._ranges for key in statement.ranges):
            return True
        return any(map(self._is_of, (*statement.facts, *(ranges[key].criteria for key in statement.ranges))))

    def _is_of(self, name: str) -> bool:
        """Whether a name may be of one of the products."""
        product = plain_product(name)
        return product is None or any(key in self._products for key in keys_of(product))


def _others(earlier_machine: EarlierMachine | None, keys: Sequence[Key], is_whole: bool) -> set[Key]:
    """The items that a machine gained or lost; all items if their order changed."""
    old, new = set(earlier_machine.keys if earlier_machine is not None else ()), set(keys)
    is_as_before = earlier_machine is not None and [key for key in earlier_machine.keys if key in new] == [
        key for key in keys if key in old
    ]
    return old ^ new if is_as_before and not is_whole else old | new
