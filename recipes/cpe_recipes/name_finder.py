"""Which names an item has, so that a statement finds it by the written names and by those to which the dictionary
leads.

An item surely has the name in its list, the names to which the dictionary leads from it, and the old names that lead to
one of these. If the end of an old name covers only a part of a product, the item's own text fills the attributes that
are ANY there. If the match feed lists a name of the item for a match, the item has the name of the match too. So an old
name in a list is found by criteria over the new one, a new name by criteria over the old one, and each by its own.

An item perhaps has other names. cpe gets such a name as one that is known in part: no fact covers it, and some facts
may cover it. So cpe itself finds which verdicts depend on the name, also under a negation. These names are:

- if no entry has the item's name: the name under each product to which entries of the item's product lead;
- if no entry leads to the item: the name under each product of which at least half of the entries lead to the item's
  product. If all of them do, and keep the rest of the name, the product was renamed as a whole, and the name is sure;
- if an attribute of the item is ANY, and a fact on its product has a value there: a name in which it isn't known.
"""
from __future__ import annotations

from collections.abc import Iterable, Iterator, Mapping, Sequence
from dataclasses import dataclass, replace

from . import names
from .advisories import Range
from .item_names import Certainty, ItemName
from .leads import Lead, Leads, leads_of
from .program import Program
from .range_checks import MatchLists
from .versions import Letters, Same, Sameness, Upward, same

Product = tuple[str, str]
# The attributes after the product, which a fact may have and an item may lack.
_SAID = range(names.VERSION, len(names.ATTRIBUTES))
_LANGUAGE, OTHER = map(names.ATTRIBUTES.index, ("language", "other"))


class FactAttributes:
    """For each vendor and product the attributes after the product in which some fact has a value."""

    def __init__(self, facts: Iterable[str]) -> None:
        self._by_product: dict[Product, set[int]] = {}
        self._of_all: set[int] = set()
        # (by the product of a fact; under None those of facts that may be of any product)
        self._languages: dict[Product | None, dict[str, None]] = {}
        self._versions: dict[Product, dict[tuple[str, str], None]] = {}
        for fact in facts:
            parts = names.components(fact)
            product = parts[names.VENDOR], parts[names.PRODUCT]
            said = [place for place in _SAID if parts[place] != names.ANY]
            is_plain = all(map(names.is_plain, product))
            if not is_plain:
                self._of_all.update(said)
            elif said:
                self._by_product.setdefault(product, set()).update(said)
            if names.is_plain(parts[names.VERSION]):
                self._versions.setdefault(product, {})[parts[names.VERSION], parts[names.UPDATE]] = None
            if _LANGUAGE in said:
                self._languages.setdefault(product if is_plain else None, {})[parts[_LANGUAGE]] = None

    def places(self, product: Product) -> frozenset[int]:
        if any(map(names.has_special, product)):
            return frozenset(self._of_all.union(*self._by_product.values()))
        return frozenset(self._by_product.get(product, ())) | self._of_all

    def _languages_of(self, product: Product) -> Iterable[str]:
        """The languages in facts on a product."""
        products = self._languages if any(map(names.has_special, product)) else (product, None)
        return sorted({language for one in products for language in self._languages.get(one, ())})

    def changed_products(self, before: FactAttributes) -> set[Product] | None:
        """The products whose items may have other names by these facts than by those before; None if any product
        may."""
        if self._of_all != before._of_all or self._languages != before._languages:
            return None
        pairs = ((self._by_product, before._by_product), (self._versions, before._versions))
        return {
            product for one, other in pairs for product in {**one, **other} if one.get(product) != other.get(product)
        }

    def respell(self, name: str, kind: str, letters: Letters) -> Iterator[tuple[str, Same]]:
        """The name in the spelling of each version in the facts that equals its own, or perhaps does, each with how
        sure that is."""
        parts = names.components(name)
        product = parts[names.VENDOR], parts[names.PRODUCT]
        version, rest = _version(parts[names.VERSION], parts[names.UPDATE], product, letters)
        if version is None:
            return
        upward = Upward(letters, product) if letters.has(product) else None
        # (in an order that doesn't depend on the order of the facts)
        for wanted, update in sorted(self._versions.get(product, ())):
            text, rest_of_fact = _version(wanted, update, product, letters)
            if text is None or wanted == parts[names.VERSION]:
                continue
            found = same(upward.rewrite(version) if upward else version, text, kind, upward)
            if found.sameness is not Sameness.UNEQUAL:
                parts_so = [*parts[: names.VERSION], wanted, parts[names.UPDATE], *parts[names.UPDATE + 1 :]]
                if rest != parts[names.UPDATE] or rest_of_fact != update:
                    parts_so[names.UPDATE] = update if rest == names.ANY or rest_of_fact != update else rest
                yield names.join(parts_so), found

    def blank_unsaid(self, name: str, meant: str) -> Iterator[tuple[str, frozenset[int]]]:
        """The names in which some attributes aren't known: those that are ANY in `meant`, and have a value in some
        fact. Each name has these attributes; it is known in part."""
        parts = names.components(meant)
        lacks = frozenset(place for place in self.places(names.product_of(meant)) if parts[place] == names.ANY)
        others = lacks - {_LANGUAGE}
        if others:
            yield names.blank(name, others), others
        if _LANGUAGE in lacks:
            # (a language can't be a pattern, so there is a name for each language in the facts)
            parts = names.components(names.blank(name, others | {OTHER}))
            for language in self._languages_of(names.product_of(meant)):
                yield names.join([*parts[:_LANGUAGE], language, *parts[_LANGUAGE + 1 :]]), lacks

    def are_any(self) -> bool:
        return bool(self._by_product or self._of_all)


def _version(version: str, update: str, product: Product, letters: Letters) -> tuple[str | None, str]:
    """The version of these attributes, and the rest of the update, if its letters belong to the version."""
    text = names.body(version)
    if text is None or not letters.has(product):
        return text, update
    text, rest = letters.with_update(product, text, names.body(update))
    return text, update if rest is not None or names.body(update) is None else names.ANY


class OldNames:
    """The old names of names: those whose end covers a name, with that name's own text in attributes that are ANY."""

    def __init__(self, old: Iterable[Lead], wanted: Iterable[Product] | None) -> None:
        """Keeps the old names of these products, or of all products if `wanted` is None."""
        products = None if wanted is None else set(wanted)
        # (by the version of the end too, because a product may have thousands of entries)
        self._pairs: dict[tuple[Product, str], list[tuple[list[str], list[str]]]] = {}
        for lead in old:
            for end in dict.fromkeys((*lead.steps, *lead.ends)):
                if end != lead.name and (products is None or names.product_of(end) in products):
                    there = names.components(end)
                    key = names.product_of(end), there[names.VERSION]
                    self._pairs.setdefault(key, []).append((there, names.components(lead.name)))

    def names_of(self, name: str) -> Iterator[tuple[str, bool]]:
        """The old names of this name, each with whether its version is another one."""
        parts = names.components(name)
        product, version = (parts[names.VENDOR], parts[names.PRODUCT]), parts[names.VERSION]
        for there, old in self._near(product, version):
            if all(
                want in (names.ANY, have) or have == names.ANY or names.has_special(have)
                for want, have in zip(there, parts)
            ):
                found = [_old_part(*one) for one in zip(there, old, parts)]
                yield names.join(found), old[names.VERSION] not in (there[names.VERSION], names.ANY)

    def _near(self, product: Product, version: str) -> Iterator[tuple[list[str], list[str]]]:
        if names.is_plain(version) or version == names.NA:
            versions: Iterable[str] = dict.fromkeys((version, names.ANY))
        else:
            versions = [there for of, there in self._pairs if of == product]
        for one in versions:
            yield from self._pairs.get((product, one), ())


def _old_part(there: str, old: str, have: str) -> str:
    """An attribute of an old name, if its end has the value `there`, and an item `have`."""
    if there == have or there == names.ANY and old != names.ANY:
        return old
    return have


def _join(*whys: str) -> str:
    return "; ".join(why for why in whys if why)


def _put(found: dict[str, ItemName], one: ItemName) -> None:
    """Adds a name; it becomes known in part if there is a reason to doubt it."""
    one = one.mark_doubt()
    found.setdefault(one.name, one)


@dataclass
class _ProductMove:
    """How many entries of a product lead to another product, and whether all of them keep the attributes after the
    product."""

    count: int = 0
    is_same: bool = True


class NameFinder:
    """Finds the names of items, by a dictionary, the lists of the match feed and the facts of the feeds."""

    def __init__(
        self,
        program: Program,
        entries: Sequence[str],
        leads: Leads,
        old: Sequence[Lead],
        items: Iterable[Lead] | None,
        feed: Mapping[str, Sequence[str]],
        fact_attributes: FactAttributes,
        letters: Letters,
    ) -> None:
        """`entries` decide where names lead, `leads` are the known leads, and `old` those of deprecated names. `items`
        are None if any item may be added later."""
        own = list(items or ())
        self._program, self._entries = program, entries
        self._feed, self._fact_attributes, self._letters = feed, fact_attributes, letters
        self._found: dict[tuple[str, str, str], tuple[ItemName, ...]] = {}
        self._before = OldNames(
            old, None if items is None else {names.product_of(name) for lead in own for name in (lead.name, *lead.ends)}
        )
        self._moved, self._all_moved = _moves(old)
        self._back: dict[Product, list[Product]] = {}
        for product, others in self._moved.items():
            for other in others:
                self._back.setdefault(other, []).append(product)
        self._beside: dict[str, Lead] = {}
        self._active: dict[Product, int] = {}
        self.add(own)

    def of_components(self, components: Iterable[Sequence[Lead]]) -> list[ItemName]:
        """The names of components, each of which perhaps has several names in its list. A name that two components have
        in different ways is there twice."""
        found = (one for leads in components for lead in leads for one in self.of(lead))
        return list({(one.name, one.kind, one.certainty, one.is_spelled): one for one in found}.values())

    def put(self, found: Mapping[tuple[str, str, str], tuple[ItemName, ...]]) -> None:
        """Adds known names of items, each by its name, its kind and the reason why it only perhaps has that name."""
        self._found.update(found)

    def of(self, lead: Lead) -> tuple[ItemName, ...]:
        """The names of the item with this lead, first those that are sure."""
        key = lead.name, lead.kind, lead.why
        found = self._found.get(key)
        if found is None:
            found = self._found[key] = tuple(self._names_of(lead))
        return found

    def _names_of(self, lead: Lead) -> Iterator[ItemName]:
        found: dict[str, ItemName] = {}
        for name, sure in self._sure(lead):
            _put(found, ItemName(name, lead.name, name, sure, lead.why, kind=lead.kind))
        for name, why in list(self._possible_names(lead, found)):
            if name not in found:
                _put(found, ItemName(name, lead.name, name, Certainty.SURELY, _join(lead.why, why), kind=lead.kind))
        for one in list(found.values()):
            for name, same_as in self._fact_attributes.respell(one.meant, lead.kind, self._letters):
                if name not in found:
                    whys = _join(one.why, f"{lead.name}: {same_as.why}" if same_as.why else "")
                    known = ItemName(
                        name, lead.name, name, Certainty.SURELY, whys, frozenset(), lead.kind, True, same_as.release
                    )
                    _put(found, known)
        yield from found.values()
        for one in found.values():
            for name, lacks in self._fact_attributes.blank_unsaid(one.name, one.meant):
                yield replace(one, name=name, certainty=Certainty.LESS, lacks=lacks)

    def _sure(self, lead: Lead) -> Iterator[tuple[str, Certainty]]:
        yield lead.name, Certainty.SURELY
        known = dict.fromkeys((lead.name, *lead.ends, *lead.steps))
        version = names.components(lead.name)[names.VERSION]
        for name in known:
            if name != lead.name:
                yield name, Certainty.SURELY
        for name in known:
            for criteria in sorted(set(self._feed.get(name, ()))):
                yield _fill(criteria, name), Certainty.SURELY
        for name in dict.fromkeys((lead.name, *lead.ends)):
            for old, is_renamed in self._before.names_of(name):
                is_other = is_renamed and names.components(old)[names.VERSION] != version
                yield old, Certainty.RENAMED if is_other else Certainty.SURELY

    def _possible_names(self, lead: Lead, sure: Mapping[str, ItemName]) -> Iterator[tuple[str, str]]:
        """The names that it may have, each with the reason of the doubt; the reason is empty if it surely has the
        name."""
        for name in self._forward(lead):
            why = f"{lead.name} is not in the dictionary, and may be {name}"
            beside = self._beside.get(name)
            for one in dict.fromkeys((name, *(beside.ends if beside else ()))):
                yield one, why
        sure_products = {names.product_of(name) for name in sure}
        for end in dict.fromkeys((lead.name, *lead.ends)):
            for name, product, moved in self._backward(end):
                beside = self._beside.get(name)
                active = self._active.get(product, 0)
                if product in sure_products or beside is None or beside.is_entry or active > moved.count:
                    continue
                is_whole = not active and moved.is_same and self._all_moved[product] == moved.count
                yield name, "" if is_whole else f"{lead.name} may be {name}, since the dictionary calls others of that product so"

    def _forward(self, lead: Lead) -> Iterator[str]:
        if not lead.is_entry:
            for product in self._moved_to(names.product_of(lead.name)):
                yield _under(product, lead.name)

    def _moved_to(self, product: Product) -> Iterable[Product]:
        return self._moved.get(product, {})

    def _backward(self, name: str) -> Iterator[tuple[str, Product, _ProductMove]]:
        product = names.product_of(name)
        for before in self._back.get(product, ()):
            yield _under(before, name), before, self._moved[before][product]

    def add(self, items: Iterable[Lead]) -> None:
        """Asks cpe where the possible names of these items lead, and how many active entries the products have that
        they perhaps had before."""
        new: dict[str, None] = {}
        before: dict[Product, None] = {}
        for lead in items:
            new.update(dict.fromkeys(self._forward(lead)))
            for end in dict.fromkeys((lead.name, *lead.ends)):
                for name, product, _ in self._backward(end):
                    new[name] = before[product] = None
        if new:
            found = leads_of(self._program, self._entries, new, (), list(map(_search, before)))
            self._active.update((product, found.active[_search(product)]) for product in before)
            self._beside.update(found.found)


def _moves(old: Iterable[Lead]) -> tuple[dict[Product, dict[Product, _ProductMove]], dict[Product, int]]:
    """For products with deprecated entries the products to which these lead, and how many entries are deprecated."""
    found: dict[Product, dict[Product, _ProductMove]] = {}
    counts: dict[Product, int] = {}
    for lead in old:
        product = names.product_of(lead.name)
        counts[product] = counts.get(product, 0) + 1
        for other in dict.fromkeys(map(names.product_of, lead.ends)):
            if other != product:
                moved = found.setdefault(product, {}).setdefault(other, _ProductMove())
                moved.count += 1
                moved.is_same = moved.is_same and _under(other, lead.name) in lead.ends
    return found, counts


def _search(product: Product) -> str:
    """The name that covers all names of a product."""
    return names.join([names.ANY, *product, *[names.ANY] * len(_SAID)])


def _under(product: Product, name: str) -> str:
    """The name with another vendor and product."""
    parts = names.components(name)
    parts[names.VENDOR], parts[names.PRODUCT] = product
    return names.join(parts)


def _fill(criteria: str, name: str) -> str:
    """The name of a match, with the item's own values in attributes that are ANY."""
    return names.join(
        [have if want == names.ANY else want for want, have in zip(names.components(criteria), names.components(name))]
    )


def group_matches_by_name(lists: MatchLists, ranges: Mapping[str, Range], leads: Leads) -> dict[str, list[str]]:
    """For each listed name the names of the matches that list it, except matches whose name covers it unchanged."""
    found: dict[str, list[str]] = {}
    for name, keys in lists.by_name():
        for key in keys:
            lead = leads.found.get(ranges[key].criteria) if key in ranges else None
            if lead is not None and _fill(lead.name, name) != name:
                found.setdefault(name, []).append(lead.name)
    return found
