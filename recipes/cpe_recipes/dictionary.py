"""Turns products (/rest/json/cpes/2.0) or match strings (/rest/json/cpematch/2.0) of NVD's API 2.0 into records `entry`
and `deprecate`, all entries first.

    sh dictionary.sh [--partial] [--large] [FILE..] > records

- A product becomes an entry with its English title. The entry has a note ORIGINAL_RECORD with the day on which the
  product was created. The names that a match string matches become entries without a title. A name is written once, and
  its repetitions are not reported. If there are several records of a product, the record with the latest `lastModified`
  is used.
- The successors of a deprecated product are those of its own `deprecatedBy`, and the products that say that they
  deprecate this product. The API doesn't say the kind of a deprecation. The recipe writes NAME_REMOVAL if there is no
  successor, NAME_CORRECTION for one successor, and ADDITIONAL_INFORMATION for several. Nor does the API say the date,
  so the recipe writes the date of the product's last change.
- A match string itself, with its range of versions, is no name of a dictionary. So only the names that it matches are
  read.

If something is left out, it is reported, and the status is 1. A feed without any record is refused, and so is a feed
with missing pages. With --partial missing pages are only reported. --large accepts pages that unpack to any size
(unpack.py).
"""
from __future__ import annotations

from collections.abc import Iterable, Iterator, Sequence
from dataclasses import dataclass, field

from . import completeness
from .arguments import read_arguments
from .console import Fatal, Messages, Output, shorten
from .feeds import FormFault, Json, Page, PlacedRecord, member, members, printable, quoted_text, record_text, text_at
from .latest_records import describe_older, time_of
from .program import Candidate, Program, candidate_at

USAGE = "dictionary.sh [--partial] [--large] [FILE..]"
NO_FORM = "not of the published form"
KINDS = ("products", "matchStrings")


def run(words: list[str]) -> int:
    arguments = read_arguments(words, completeness.OPTIONS, USAGE)
    messages, output, program = Messages(), Output(), Program()
    candidates = candidates_of(arguments.files, messages, reading=completeness.ReadingPolicy.of(arguments))
    output.lines(program.accept(candidates, messages, unsaid="exists"))
    output.end()
    return messages.status()


def candidates_of(
    paths: Sequence[str], messages: Messages, strict: bool = False, reading: completeness.ReadingPolicy | None = None
) -> Iterator[Candidate]:
    """What the records of these feeds become: first the entries, and then the deprecations."""
    yield from candidates_in(completeness.pages(paths, messages, KINDS, strict, reading), messages)


def candidates_in(pages: Iterable[Page], messages: Messages) -> Iterator[Candidate]:
    """The same of pages."""
    products = Products()
    empty, is_empty = [], True
    for page in pages:
        if not page.records:
            empty.append(f"{page.name}: no {page.kind} in it")
            continue
        is_empty = False
        for candidate in _products(page, products) if page.kind == "products" else _match_strings(page):
            products.candidates.append(candidate)
    if is_empty:
        raise Fatal("; ".join(empty))
    for text in empty:
        messages.remark(text)
    if products.older:
        messages.remark(describe_older(len(products.older), "product", "products"))
    yield from (one for one in products.candidates if one is not None)
    yield from products.deprecations().candidates()


@dataclass(frozen=True, slots=True)
class Change:
    """What a product's record says about deprecations: whether it is deprecated itself, since when, by which names, and
    which names it replaces."""

    placed: PlacedRecord = field(compare=False)
    name: Json
    is_old: bool
    date: Json
    by: tuple[Json, ...]
    of: tuple[Json, ...]


class Products:
    """The entries in their order, and what their records say about deprecations. Of each name the records that were
    modified last count."""

    def __init__(self) -> None:
        self.candidates: list[Candidate | None] = []
        self.older: set[str] = set()
        self._changes: dict[int, Change] = {}
        # (of each name when it was modified, and the places of the records that count; several if their times are
        # equal)
        self._places: dict[str, tuple[Json, tuple[int, ...]]] = {}

    def put(self, name: Json, modified: Json, entry: Candidate, change: Change | None) -> None:
        """Adds a product of this name, unless a later one is there."""
        # (one without a name is said, and is no other's)
        known = self._places.get(name) if isinstance(name, str) else None
        if known is not None and modified != known[0]:
            self.older.add(name)
            if time_of(modified) < time_of(known[0]):
                return
            for place in known[1]:
                self.candidates[place] = None
                self._changes.pop(place, None)
            known = None
        places = () if known is None else known[1]
        if any(self._changes.get(place) == change for place in places):
            return
        place = len(self.candidates)
        self.candidates.append(entry)
        if isinstance(name, str):
            self._places[name] = modified, (*places, place)
        if change is not None:
            self._changes[place] = change

    def deprecations(self) -> Deprecations:
        """The deprecations that follow from all of them."""
        return deprecations_of(self._changes[place] for place in sorted(self._changes))


def deprecations_of(changes: Iterable[Change]) -> Deprecations:
    """The deprecations that follow from these changes, which are in the order of their products."""
    found = Deprecations()
    for change in changes:
        if change.is_old:
            found.put(change.placed, change.name, change.date)
        for successor in change.by:
            found.put_successor(change.placed, change.name, successor)
        for old in change.of:
            found.put_successor(change.placed, old, change.name)
    return found


@dataclass
class OldProduct:
    """A deprecated product: its own record, or the record that mentions it, the date of the deprecation, and whether
    its own record is there."""

    placed: PlacedRecord
    date: Json = None
    is_here: bool = False
    successors: dict[str, Json] = field(default_factory=dict)


class Deprecations:
    """The deprecated products, and those that only other records call deprecated, in the order of the feeds."""

    def __init__(self) -> None:
        self._old: dict[str, OldProduct] = {}
        self._names: dict[str, Json] = {}
        # (a product that is mentioned before its own record keeps the earlier place)
        self._here: dict[str, None] = {}

    def _of(self, placed: PlacedRecord, name: Json) -> OldProduct:
        key = record_text(name)
        self._names.setdefault(key, name)
        return self._old.setdefault(key, OldProduct(placed))

    def put(self, placed: PlacedRecord, name: Json, date: Json) -> None:
        old = self._of(placed, name)
        old.placed, old.date, old.is_here = placed, date, True
        self._here.setdefault(record_text(name))

    def put_successor(self, placed: PlacedRecord, name: Json, successor: Json) -> None:
        self._of(placed, name).successors.setdefault(record_text(successor), successor)

    def candidates(self) -> Iterator[Candidate]:
        for key in self._here:
            old = self._old[key]
            yield candidate_at(old.placed, old.placed.id, record_text(_deprecation(self._names[key], old)))
        for key, old in self._old.items():
            if not old.is_here:
                by = ", ".join(str(successor) for successor in old.successors.values())
                reason = f"no deprecated product here, though said to be deprecated by {shorten(by)}"
                yield candidate_at(old.placed, str(self._names[key]), reason=reason)


def _deprecation(name: Json, old: OldProduct) -> Json:
    successors = list(old.successors.values())
    kind = ("NAME_REMOVAL", "NAME_CORRECTION", "ADDITIONAL_INFORMATION")[min(len(successors), 2)]
    named = {"successors": successors} if successors else {}
    return {"do": "deprecate", "name": name, "kind": kind, **named, "date": old.date}


def _products(page: Page, products: Products) -> Iterator[Candidate]:
    """Adds the products of a page, and yields those that can't be read."""
    for placed in page.each("product", product_id):
        try:
            product = Product.of(placed)
        except FormFault:
            yield candidate_at(placed, placed.id, reason=NO_FORM)
            continue
        entry = candidate_at(placed, placed.id, product.entry())
        products.put(product.name, product.modified, entry, product.change)


def product_id(record: Json) -> Json:
    product = member(record, "cpe")
    return member(product, "cpeNameId") or member(product, "cpeName")


@dataclass(frozen=True, slots=True)
class Product:
    """A product of a feed: its name, when it was modified, its title and day of creation, if it has them, and what its
    record says about deprecations."""

    name: Json
    modified: Json
    title: Json
    day: Json
    change: Change | None = None

    @staticmethod
    def of(placed: PlacedRecord) -> Product:
        """The product of a record. FormFault if it isn't of the published form."""
        product = member(placed.record, "cpe")
        name, modified, created = member(product, "cpeName"), product.get("lastModified"), product.get("created")
        titles = members(product, "titles")
        english = [title for title in titles if member(title, "lang") == "en"]
        title = next((member(one, "title") for one in (english or titles)[:1]), None) or None
        by = tuple(member(one, "cpeName") for one in members(product, "deprecatedBy"))
        of = tuple(member(one, "cpeName") for one in members(product, "deprecates"))
        is_old = bool(product.get("deprecated"))
        date = _day(modified or created) if is_old else None
        # (its place alone is kept of it)
        change = Change(placed._replace(record=None), name, is_old, date, by, of) if is_old or by or of else None
        return Product(name, modified, title, _day(created) if created else None, change)

    def entry(self) -> str:
        """The record of its entry."""
        texts = self.name, self.title, self.day
        if not all(one is None or type(one) is str for one in texts) or self.name is None:
            provenance = (
                {"provenance": {"changes": [{"kind": "ORIGINAL_RECORD", "date": self.day}]}} if self.day else {}
            )
            title = {} if self.title is None else {"title": self.title}
            return record_text({"do": "entry", "name": self.name, **title, **provenance})
        # (nearly all of a million are so, and of these the form is known)
        title = "" if self.title is None else f',"title":{quoted_text(self.title)}'
        date = (
            f',"provenance":{{"changes":[{{"kind":"ORIGINAL_RECORD","date":{quoted_text(self.day)}}}]}}'
            if self.day
            else ""
        )
        return printable(f'{{"do":"entry","name":{quoted_text(self.name)}{title}{date}}}')


def _day(date: Json) -> Json:
    return date[:10] if isinstance(date, str) else date


def _match_strings(page: Page) -> Iterator[Candidate]:
    for placed in page.each("match string", lambda it: text_at(member(it, "matchString"), "matchCriteriaId")):
        try:
            names = [member(match, "cpeName") for match in members(member(placed.record, "matchString"), "matches")]
        except FormFault:
            yield candidate_at(placed, placed.id, reason=NO_FORM)
            continue
        for name in names:
            yield candidate_at(placed, placed.id, record_text({"do": "entry", "name": name}))
