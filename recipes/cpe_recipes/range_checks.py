"""Which checks of ranges are TRUE or FALSE on a machine: in which ranges its items are.

A check of a range is decided by a name of the machine's items that the range's name covers, or by a name to which the
dictionary leads from it. decide.py lists the rules.
"""
from __future__ import annotations

import functools
import itertools
from collections.abc import Collection, Iterable, Iterator, Mapping, Sequence
from dataclasses import dataclass, field, replace

from . import names
from .advisories import MATCH, SYSTEM, Range, is_bound
from .console import Fatal, Messages
from .feeds import FeedFault, FormFault, name_of, read_feed, record_text, values_of
from .item_names import Certainty, ItemName
from .leads import Lead, Leads
from .near_products import Product, key_of, keys_of
from .program import Program
from .readings import without_v
from .versions import Letters, Position, Upward, is_inside_plainly, is_outside_from, locate, sure_beginning

# The same check is written for many machines.
_CACHED = 1 << 17


@dataclass(frozen=True)
class Backport:
    """The membership of a distribution's package whose upstream version is in the range: it is in the range, unless the
    distribution fixed it in this release."""

    release: str


# Whether an end is in a range, or the reason why that isn't sure.
Membership = bool | str | Backport


@dataclass(frozen=True)
class Doubt:
    """Why the check of a range has no result on a machine: an end that the range covers (empty if the reason names it),
    and what can't be trusted there."""

    key: str
    end: str
    reason: str

    def words(self) -> str:
        return f"{self.end}: {self.reason}" if self.end else self.reason


@dataclass
class CheckResults:
    """The results of checks on a machine: `truths` by the ids of checks, `doubts` of checks without a result, and
    `inside`, the first item that makes a check TRUE. If only packages of distributions make it TRUE, which may be fixed
    without a new version, `backports` has a remark for each."""

    truths: dict[str, bool] = field(default_factory=dict)
    doubts: dict[str, Doubt] = field(default_factory=dict)
    inside: dict[str, str] = field(default_factory=dict)
    backports: dict[str, dict[str, None]] = field(default_factory=dict)

    def put(self, key: str, is_inside: bool, item: str) -> None:
        """Records whether an item is in the range of a check."""
        self.truths[key] = self.truths.get(key, False) or is_inside
        if is_inside:
            self.inside.setdefault(key, item)
            self.backports.pop(key, None)

    def put_backport(self, key: str, item: str, release: str) -> None:
        """Records that a distribution's package of this release is in a range by the version of its upstream."""
        if not self.truths.get(key) or key in self.backports:
            self.backports.setdefault(key, {})[f"backported? {item}: release {release}"] = None
        self.truths[key] = True
        self.inside.setdefault(key, item)

    def join(self, other: CheckResults) -> CheckResults:
        """The results where both hold: TRUE if it is TRUE in one, otherwise no result if it has none in one."""
        unsure = {key: one for key, one in {**other.doubts, **self.doubts}.items() if not self.truths.get(key)}
        truths = {key: truth for key, truth in {**other.truths, **self.truths}.items() if key not in unsure}
        return CheckResults(truths, unsure, self.inside, self.backports)

    def clear(self) -> None:
        """Frees the truths and items, which the verdicts have too."""
        self.truths.clear()
        self.inside.clear()


class RangeIndex:
    """In which ranges each end of the machines is, of the ranges that may concern it."""

    def __init__(
        self, program: Program, ranges: Collection[Range], leads: Leads, ends: Iterable[str], letters: Letters
    ) -> None:
        self._program, self._letters = program, letters
        # (for each end the ranges with plain names that cover it, and whether cpe says that it is inside)
        self._covering: dict[str, tuple[End, list[tuple[Range, bool]]]] = {}
        self._others: dict[str, dict[str, Membership]] = {}
        # (for each end that is known in part the ranges whose facts may cover it)
        self._may_cover: dict[str, list[Range]] = {}
        self._memberships: dict[tuple[str, str], dict[str, Membership]] = {}
        self.criteria: dict[str, str] = {}
        sure: list[str] = []
        in_part: list[str] = []
        for end in dict.fromkeys(ends):
            (in_part if names.is_known_in_part(end) else sure).append(end)
        near, near_in_part = _EndsByProduct(sure), _EndsByProduct(in_part)
        plain: list[Range] = []
        odd: list[tuple[Range, str]] = []
        asked_of_patterns: list[Range] = []
        # (many ranges share a name)
        is_near: dict[str, tuple[bool, bool]] = {}
        for one in ranges:
            lead = leads.found.get(one.criteria)
            if lead is None:
                continue
            self.criteria[one.key] = lead.name
            if lead.name not in is_near:
                is_near[lead.name] = bool(near.ends(lead.name)), bool(near_in_part.ends(lead.name))
            if not any(is_near[lead.name]):
                continue
            # (by its name as cpe writes it, because vendor and product can be read from that alone)
            asked = rewrite_range(one if one.criteria == lead.name else replace(one, criteria=lead.name), letters)
            is_asked, is_asked_in_part = is_near[lead.name]
            if is_asked_in_part:
                asked_of_patterns.append(asked)
            if is_asked:
                reason = oddness(asked)
                if reason:
                    odd.append((asked, reason))
                else:
                    plain.append(asked)
        if plain:
            self._ask_advise(sure, plain)
        if odd:
            self._ask_compare(near, odd)
        if asked_of_patterns:
            self._ask_items(in_part, asked_of_patterns)

    def add(self, other: RangeIndex) -> None:
        """Adds the ends of another index."""
        self._covering |= other._covering
        self._others |= other._others
        self._may_cover |= other._may_cover
        self.criteria |= other.criteria

    def put_ranges(self, end: End, ranges: Iterable[tuple[Range, bool]]) -> None:
        """Adds ranges whose names cover an end, in the form in which cpe gets them, each with whether cpe says that the
        end is inside."""
        self._covering.setdefault(end.name, (end, []))[1].extend(ranges)

    def memberships(self, end: str, kind: str = "") -> Mapping[str, Membership]:
        """The ranges that cover this end, as a component of this kind, each with whether the end is in it, by the ids
        of their checks."""
        found = self._memberships.get((end, kind))
        if found is None:
            found = self._memberships[end, kind] = {**self._others.get(end, {})}
            covered = self._covering.get(end)
            if covered is not None:
                for one, is_inside in covered[1]:
                    found[one.key] = self._membership(covered[0], kind, one, is_inside)
            for one in self._may_cover.get(end, ()):
                found[one.key] = False if self._is_outside(end, one, kind) else "it is known in part"
        return found

    def _put(self, end: str, key: str, membership: Membership) -> None:
        self._others.setdefault(end, {})[key] = membership

    def _ask_advise(self, ends: Sequence[str], ranges: Sequence[Range]) -> None:
        """Asks cpe which ranges with plain names cover the ends, and which ends are inside."""
        asked: dict[str, list[End]] = {}
        for name in ends:
            end = End.of(name, self._letters)
            asked.setdefault(end.asked, []).append(end)
        criteria = list(dict.fromkeys(one.criteria for one in ranges))
        answers = _answers(self._program.lines(["advise"], _advise(asked, criteria, ranges)))
        # (by name, because many ranges share a name)
        covered = {name: [end for item in items for end in asked[item]] for name, items in zip(criteria, answers)}
        count = 0
        for one, items in zip(ranges, answers):
            inside, count = set(items), count + 1
            for end in covered[one.criteria]:
                self.put_ranges(end, [(one, end.asked in inside)])
        if count != len(ranges) or next(answers, None) is not None:
            raise Fatal(f"cpe advise answered {count} of {len(ranges)} ranges")

    def _membership(self, end: End, kind: str, one: Range, is_inside: bool) -> Membership:
        if end.version is None:
            return "its version isn't known"
        if end.upward and names.product_of(one.criteria) != end.product:
            return "letters count upward in its versions, and the range is of more than its product"
        found = locate(end.version, end.update, one, kind, end.upward)
        # (the order of its kind may give another answer than cpe; but then this module has to compute cpe's own answer,
        # too)
        if is_inside != (found.position is Position.INSIDE) and is_inside != is_inside_plainly(
            end.asked_version(), one
        ):
            return "cpe orders its version otherwise than this recipe"
        if found.position is Position.UNSURE:
            return found.why
        return Backport(found.release) if found.release else found.position is Position.INSIDE

    def _ask_compare(self, near: _EndsByProduct, odd: Sequence[tuple[Range, str]]) -> None:
        """Records why ranges can't be asked for, for the ends that their facts cover."""
        ends = dict.fromkeys(end for one, _ in odd for end in near.ends(one.criteria))
        covered, _ = match_items(self._program, ends, dict.fromkeys(one.criteria for one, _ in odd))
        for one, reason in odd:
            for end in covered[one.criteria]:
                self._put(end, one.key, reason)

    def _ask_items(self, ends: Sequence[str], ranges: Sequence[Range]) -> None:
        """Finds which ranges may cover ends that are known in part."""
        _, may_be = match_items(self._program, ends, dict.fromkeys(one.criteria for one in ranges))
        for one in ranges:
            for end in may_be[one.criteria]:
                self._may_cover.setdefault(end, []).append(one)

    def _is_outside(self, end: str, one: Range, kind: str) -> bool:
        """Whether an end that is known in part, of a component of this kind, is outside a range in all versions that it
        may have."""
        parts, product = names.components(end), names.product_of(end)
        if (
            not all(map(names.is_plain, product))
            or self._letters.has(product)
            and names.product_of(one.criteria) != product
        ):
            return False
        version = End.of(end, self._letters).version
        if version is not None:
            upward = Upward(self._letters, product) if self._letters.has(product) else None
            update = parts[names.UPDATE] if parts[names.UPDATE] not in (names.ANY, names.NA) else None
            return locate(version, update, one, kind, upward).position is Position.OUTSIDE
        text = names.beginning(parts[names.VERSION])
        if text is None:
            return False
        known = sure_beginning(text)
        return is_outside_from(self._letters.rewrite(product, known) if self._letters.has(product) else known, one)


ItemsByFact = dict[str, list[str]]


def match_items(program: Program, items: Iterable[str], facts: Iterable[str]) -> tuple[ItemsByFact, ItemsByFact]:
    """For each of these facts the items that it covers, and those that are known in part and that it may cover."""
    asked, put = list(facts), list(items)
    records = [record_text({"do": "item", "name": item}) for item in put]
    records += [record_text({"do": "items", "name": fact}) for fact in asked]
    # (the last first, so that no other item has to move up)
    records += [record_text({"do": "drop-item", "name": item}) for item in reversed(put)]
    covered: list[list[str]] = []
    may_be: list[list[str]] = []
    for line in program.lines(["resolve"], records):
        word, _, rest = line.partition(" ")
        if word == "items":
            covered.append([])
            may_be.append([])
        elif word in ("item", "maybe") and covered:
            (covered if word == "item" else may_be)[-1].append(rest)
        else:
            raise Fatal(f"cpe resolve wrote {line}")
    if len(covered) != len(asked):
        raise Fatal(f"cpe resolve answered {len(covered)} of {len(asked)} questions for items")
    return dict(zip(asked, covered)), dict(zip(asked, may_be))


class _EndsByProduct:
    """Ends by vendor and product; a vendor or product may be a pattern."""

    def __init__(self, ends: Iterable[str]) -> None:
        self._all = list(ends)
        self._by_product: dict[Product, list[str]] = {}
        for end in self._all:
            self._by_product.setdefault(key_of(names.product_of(end)), []).append(end)

    def ends(self, fact: str) -> list[str]:
        """The ends that this name may cover; all ends if its vendor or product isn't plain."""
        product = names.product_of(fact)
        if not all(map(names.is_plain, product)):
            return self._all
        return [end for key in keys_of(product) for end in self._by_product.get(key, ())]


@dataclass(frozen=True)
class End:
    """An end: its name, its name as cpe gets it, its vendor and product, its version and update if they are plain, and
    its letters if these count upward."""

    name: str
    asked: str
    product: tuple[str, str]
    version: str | None
    update: str | None
    upward: Upward | None = None

    @staticmethod
    def of(name: str, letters: Letters) -> End:
        parts = names.components(name)
        product = parts[names.VENDOR], parts[names.PRODUCT]
        version, update = names.body(parts[names.VERSION]), names.body(parts[names.UPDATE])
        if version is None:
            return End(name, name, product, version, update)
        upward = Upward(letters, product) if letters.has(product) else None
        if upward:
            version, update = letters.with_update(product, version, update)
        asked = upward.rewrite(version) if upward else without_v(version)
        if asked != version:
            parts[names.VERSION] = names.quote(asked)
        return End(name, names.join(parts) if asked != version else name, product, version, update, upward)

    def asked_version(self) -> str:
        """The version in the name that cpe gets."""
        return names.body(names.components(self.asked)[names.VERSION]) or ""


def rewrite_range(one: Range, letters: Letters) -> Range:
    """The range with its bounds in the form in which cpe gets the versions of its product."""
    product = names.product_of(one.criteria)
    spell = Upward(letters, product).rewrite if letters.has(product) else without_v
    start, end = (bound and spell(bound) for bound in (one.start, one.end))
    return one if (start, end) == (one.start, one.end) else replace(one, start=start, end=end)


def oddness(asked: Range) -> str:
    """Why cpe can't be asked about a range; empty if it can."""
    if names.components(asked.criteria)[names.VERSION] != names.ANY:
        return f"{asked.criteria} has a version beside its bounds"
    if not all(is_bound(bound) for bound in (asked.start, asked.end) if bound is not None):
        return "a bound is no version that cpe takes"
    return ""


def _advise(items: Iterable[str], criteria: Iterable[str], ranges: Iterable[Range]) -> Iterator[str]:
    """The lines for `cpe advise`: the items, then a question for each name, which items it covers, and for each range,
    which items are in it."""
    for item in items:
        yield record_text({"do": "item", "name": item})
    for asked in itertools.chain((Range("r", name) for name in criteria), (replace(one, key="r") for one in ranges)):
        yield record_text(asked.record())
        yield '{"do":"affected","id":"r"}'
        # (removed again, so that there is never more than one)
        yield '{"do":"drop-advisory","id":"r"}'


def _answers(lines: Iterable[str]) -> Iterator[list[str]]:
    """The items of each answer."""
    items: list[str] | None = None
    for line in lines:
        word, rest = line.split(" ", 1)
        if word == "affected":
            if items is not None:
                yield items
            items = []
        elif word == "item" and items is not None:
            items.append(rest)
        else:
            raise Fatal(f"cpe advise wrote {line}")
    if items is not None:
        yield items


class MatchLists:
    """The names in the lists of the match feed, as cpe writes them, with the ids of their matches."""

    def __init__(self, program: Program, found: Mapping[str, Sequence[str]]) -> None:
        written = list(dict.fromkeys(name for listed in found.values() for name in listed))
        lines = (
            program.lines(["resolve"], (record_text({"do": "lookup", "name": name}) for name in written))
            if written
            else []
        )
        # (an answer begins with the name; a refused text is neither a name nor an item)
        told = dict(zip(written, (line.split(" ")[1] if line.startswith("lookup ") else None for line in lines)))
        self._keys: dict[str, list[str]] = {}
        for key, listed in found.items():
            for name in dict.fromkeys(told[name] for name in listed):
                if name is not None:
                    self._keys.setdefault(name, []).append(key)

    def keys(self, name: str) -> Sequence[str]:
        """The ids of the matches whose lists have this name."""
        return self._keys.get(name, ())

    def by_name(self) -> Iterable[tuple[str, Sequence[str]]]:
        """Each listed name, with the ids of the matches that list it."""
        return self._keys.items()


def decide_checks(item_names: Iterable[ItemName], range_index: RangeIndex, lists: MatchLists) -> CheckResults:
    """The results of the checks of ranges on a machine whose items have these names."""
    check_results = CheckResults()
    for one in item_names:
        if one.is_spelled:
            continue
        for key in lists.keys(one.meant) if one.certainty is not Certainty.LESS else ():
            if one.is_sure():
                check_results.put(key, True, one.item)
            else:
                check_results.doubts.setdefault(key, Doubt(key, "", one.why))
        memberships = range_index.memberships(one.name, one.kind)
        if one.certainty is Certainty.SURELY:
            _put_sure(check_results, one, memberships)
        else:
            _put_doubtful(check_results, one, memberships, range_index.criteria)
    for key in [key for key in check_results.doubts if check_results.truths.get(key)]:
        del check_results.doubts[key]
    for key in check_results.doubts:
        check_results.truths.pop(key, None)
    return check_results


def _put_sure(check_results: CheckResults, one: ItemName, memberships: Mapping[str, Membership]) -> None:
    """Records in which ranges an item is by a name that it surely has."""
    truths = check_results.truths
    for key, membership in memberships.items():
        if membership is True:
            check_results.put(key, True, one.item)
        elif membership is False:
            truths.setdefault(key, False)
        elif isinstance(membership, str):
            check_results.doubts.setdefault(key, Doubt(key, one.name, membership))
        else:
            check_results.put_backport(key, one.item, membership.release)


def _put_doubtful(
    check_results: CheckResults, one: ItemName, memberships: Mapping[str, Membership], criteria: Mapping[str, str]
) -> None:
    """The same for an item that perhaps has this name, or that has another version under this name."""
    for key, membership in memberships.items():
        # (if the item has the attribute, another of its names decides)
        if one.certainty is Certainty.LESS and not one.asks_for_more(criteria[key]):
            continue
        if membership is False:
            check_results.truths.setdefault(key, False)
        elif one.certainty is Certainty.RENAMED:
            why = f"{one.item} is {one.meant} by the dictionary, where its version is another"
            check_results.doubts.setdefault(key, Doubt(key, "", why))
        else:
            check_results.doubts.setdefault(key, Doubt(key, "", one.words(criteria[key])))


def follow(lead: Lead) -> list[ItemName]:
    """The names of an item without a feed: its written name, and those to which it leads."""
    found = [
        ItemName(name, lead.name, name, Certainty.SURELY, lead.why, kind=lead.kind)
        for name in dict.fromkeys((lead.name, *lead.ends))
    ]
    return [one.mark_doubt() for one in found]


@functools.lru_cache(maxsize=_CACHED)
def check_record(key: str, is_true: bool) -> str:
    """The record with the result of a range's check."""
    return record_text(
        {"do": "check", "system": SYSTEM, "href": MATCH, "id": key, "result": "TRUE" if is_true else "FALSE"}
    )


@functools.lru_cache(maxsize=_CACHED)
def drop_record(key: str) -> str:
    return record_text({"do": "drop-check", "system": SYSTEM, "href": MATCH, "id": key})


def read_ranges(paths: Sequence[str], messages: Messages) -> dict[str, Range]:
    """The ranges of these files, by the ids of their checks."""
    found: dict[str, Range] = {}
    for path in paths:
        try:
            for number, record in enumerate(values_of(read_feed(path)), 1):
                try:
                    one = Range.of(record)
                except FormFault:
                    messages.leave_out(f"line {number} of {name_of(path)}", "no range")
                    continue
                if found.setdefault(one.key, one) != one:
                    messages.leave_out(
                        one.key, f"line {number} of {name_of(path)} has another range under this id; neither is decided"
                    )
                    found[one.key] = Range(one.key, "")
        except FeedFault as fault:
            raise Fatal(f"{name_of(path)}: {fault}") from fault
    return {key: one for key, one in found.items() if one.criteria}
