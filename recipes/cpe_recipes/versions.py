"""Whether a version is in a range, and whether it equals another version, by all orders that it may have.

If its list says where a version is from, this decides the order: a Debian package has dpkg's order, an npm module that
of Semantic Versioning. Otherwise each order is possible that can read both versions (orders/). The meaning of the
version may be open as well (readings.py). There is an answer if all orders and readings agree. Otherwise the answer
names two that differ.

A comparison of two words, as in 1.0-hotfix and 1.0-rc, is not trusted even if all orders agree, unless the order is
known.
"""
from __future__ import annotations

import functools
import re
from collections.abc import Iterable, Mapping
from dataclasses import dataclass
from enum import Enum
from pathlib import Path
from typing import Any, NamedTuple

from . import names
from .advisories import Range
from .console import Fatal
from .feeds import FeedFault, name_of, read_feed, text_lines
from .orders import ALL, EQUAL, GREATER, LESS, OF_KIND, Order, plain
from .readings import DISTRIBUTIONS, Reading, has_release, readings, release_of, without_epoch, without_v

# The table of products in whose versions letters count upward.
LETTERS_FILE = str(Path(__file__).resolve().parents[1] / "letters.txt")
_PIECE = re.compile(r"[0-9]+|[a-z]+")
_LAST_PIECE = re.compile(r"(?:[0-9]+|[a-z]+)$")
_LETTERED = re.compile(r"(?P<word>[a-z]{1,2})[0-9]*")
# After z follows za. (Other words of two letters are mostly before a release: rc, tp.)
_LETTER = re.compile(r"[a-z]|z[a-z]")
# The numbers with dots at the beginning, none of which begins with a zero that isn't all of it.
_FRONT = re.compile(r"(?:0|[1-9][0-9]*)(?![0-9])(?:\.(?:0|[1-9][0-9]*)(?![0-9]))*")
_NUMBERS = re.compile(r"[0-9]+(?:\.[0-9]+)*")
# A distribution writes such a word after a tilde or an underscore, so that it is before the release.
_BEFORE_RELEASE = re.compile(r"(?<![~_a-z])(?:alpha|beta|rc|cr|pre|preview|dev|snapshot|milestone|test)(?![a-z])")

_DIGIT = re.compile(r"[0-9]")
# The hash of a commit; and a commit of a Go module without a known release, which has a date.
_HASH = re.compile(r"(?=.*[0-9])(?=.*[a-f].*[a-f])[0-9a-f]{7,40}")
_BEGINS_HASH = re.compile(r"[0-9]+[a-f]")
_COMMIT = re.compile(r"v?0\.0\.0-[0-9]{14}-[0-9a-f]{12}(?:\+.*)?")

# How many answers are kept, because the same versions and bounds are compared often.
_KEPT = 1 << 16


class Position(Enum):
    """Where a version is, compared with a range."""

    INSIDE = "inside"
    OUTSIDE = "outside"
    UNSURE = "unsure"


@dataclass(frozen=True)
class RangePosition:
    """Where a version is, compared with a range, and why that isn't sure. `release` is that of a distribution's package
    inside the range, because the distribution may have fixed it without a new version."""

    position: Position
    why: str = ""
    release: str = ""


_INSIDE, _OUTSIDE = RangePosition(Position.INSIDE), RangePosition(Position.OUTSIDE)


class Sameness(Enum):
    """Whether two versions are one."""

    EQUAL = "equal"
    UNEQUAL = "unequal"
    UNSURE = "unsure"


@dataclass(frozen=True)
class Same:
    """Whether two versions are one, why that isn't sure, and of a distribution's package that is equal its release."""

    sameness: Sameness
    why: str = ""
    release: str = ""


class Upward(NamedTuple):
    """A product in whose versions letters count upward."""

    letters: Letters
    product: tuple[str, str]

    def rewrite(self, version: str) -> str:
        return self.letters.rewrite(self.product, version)


class By(NamedTuple):
    """Who gives an answer: an order, for a reading of the version."""

    order: str
    reading: Reading


class Orders(NamedTuple):
    """The possible answers, each with the orders and readings that give it, and the bound as it was compared. `words`
    reports a comparison of two words. `only` is the one sure answer, or None."""

    answers: Mapping[int, tuple[By, ...]]
    bound: str
    words: str = ""
    only: int | None = None


_SURE: Mapping[int, Mapping[int, tuple[By, ...]]] = {answer: {answer: ()} for answer in (LESS, EQUAL, GREATER)}
_NOTHING_READ: Mapping[int, tuple[By, ...]] = {answer: () for answer in (LESS, EQUAL, GREATER)}


@functools.lru_cache(maxsize=_KEPT)
def orders(version: str, bound: str, kind: str = "", upward: Upward | None = None) -> Orders:
    """The orders of a version to a bound that are possible, where a list says that the version is of this kind, or says
    nothing. Letters that count upward are numbers in the bound."""
    quick = None if upward else _by_fronts(version, bound)
    if quick is not None:
        return Orders(_SURE[quick], bound, "", quick)
    nothing = next((f"{text} {why}" for text in (version, bound) if (why := _no_version(text))), "")
    if nothing:
        return Orders(_NOTHING_READ, bound, nothing)
    bound, meant = readings(version, bound, kind)
    if upward:
        meant = tuple(Reading(upward.rewrite(one.text), one.release) for one in meant)
    found: dict[int, list[By]] = {}
    words = ""
    for reading in meant:
        quick = _by_fronts(reading.text, bound)
        possible, is_own = _possible(reading.text, bound, kind) if quick is None else ((plain.ORDER,), True)
        for order in possible:
            answer = order.compare(reading.text, bound) if quick is None else quick
            if answer is not None:
                found.setdefault(answer, []).append(By(order.name, reading))
        words = words or ("" if quick is not None else _words_decide(reading.text, bound, is_own))
    only = next(iter(found)) if len(found) == 1 and not words else None
    return Orders({answer: tuple(by) for answer, by in found.items()}, bound, words, only)


@functools.lru_cache(maxsize=_KEPT)
def _front(version: str) -> tuple[tuple[int, ...], bool]:
    """The numbers with dots at the beginning, and whether that is all."""
    is_other = any(mark in version for mark in (":", "!", "%", "+really")) or _HASH.fullmatch(version)
    match = _FRONT.match(version) if not is_other else None
    return (
        (tuple(map(int, match[0].split("."))), match.end() == len(version))
        if match and len(version) < 256
        else ((), False)
    )


def _by_fronts(version: str, bound: str) -> int | None:
    """The order of versions that differ in the numbers with which they begin, which is the same in all orders and
    readings; None if they don't."""
    if version == bound:
        return EQUAL if _PIECE.search(version.lower()) else None
    (left, is_all), (right, is_all_right) = _front(version), _front(bound)
    for one, other in zip(left, right):
        if one != other:
            return LESS if one < other else GREATER
    if is_all and is_all_right and any(left[len(right) :] or right[len(left) :]):
        return GREATER if len(left) > len(right) else LESS
    return None


@functools.lru_cache(maxsize=_KEPT)
def _no_version(text: str) -> str:
    """In words why a text says nothing of a version."""
    if not _DIGIT.search(text):
        return "has no digits"
    return "is a commit, and no release" if _HASH.fullmatch(text) else ""


def _possible(version: str, bound: str, kind: str) -> tuple[Iterable[Order[Any]], bool]:
    """The orders that these two may have, and whether they are those of the kind."""
    own = [order for order in OF_KIND.get(kind, ()) if order.compare(version, bound) is not None]
    # (a distribution spells versions in its own way, and a bound is spelled as upstream's)
    is_respelled = kind in DISTRIBUTIONS and (
        not _NUMBERS.fullmatch(bound) or _BEFORE_RELEASE.search(version) is not None
    )
    return (own, True) if own and not is_respelled else (ALL, False)


def _words_decide(version: str, bound: str, is_own: bool) -> str:
    """In words that words decide between two versions so that no order is trusted: one before all numbers or an x
    beside a number, and if the order isn't that of a kind, two of more than a letter."""
    for place, (one, other) in enumerate(zip(pieces(version), pieces(bound))):
        if one.same(other):
            continue
        if one.is_word and other.is_word:
            is_open = not is_own and len(one.text) + len(other.text) > 2
            return f"the words {one.text} and {other.text} decide between {version} and {bound}" if is_open else ""
        word = next((piece.text for piece in (one, other) if piece.is_word), "")
        return f"the word {word} decides between {version} and {bound}" if word and (place == 0 or word == "x") else ""
    return ""


def locate(version: str, update: str | None, one: Range, kind: str = "", upward: Upward | None = None) -> RangePosition:
    """Where a version, with its update if it has one, is, compared with a range."""
    unsure = ""
    for bound, outside, excluded in ((one.start, LESS, one.start_excluded), (one.end, GREATER, one.end_excluded)):
        if bound is None:
            continue
        found = orders(version, bound, kind, upward)
        answers, words = found.answers, found.words
        is_commit = outside == LESS and _is_commit_beside(version, bound)
        if found.only is not None and not is_commit and (update is None or found.only != EQUAL):
            # (mostly there is one answer)
            if found.only == outside or found.only == EQUAL and excluded:
                return _OUTSIDE
            continue
        if is_commit:
            # (its zeros don't show that it is before a release)
            answers, words = _NOTHING_READ, f"{version} is a commit, and no release"
        elif update is not None and EQUAL in answers:
            answers, words = _NOTHING_READ, words or f"{version} is the bound, and has the update {update}"
        elif words:
            answers = _NOTHING_READ
        meets = {answer: answer != outside and not (answer == EQUAL and excluded) for answer in answers}
        if not any(meets.values()):
            return _OUTSIDE
        if not all(meets.values()) and not unsure:
            unsure = words or _differ(version, found, meets)
    if unsure:
        return RangePosition(
            Position.UNSURE, f"{unsure}, letters that count upward being numbers" if upward else unsure
        )
    release = release_of(version, kind)
    if not release or any(bound is not None and has_release(bound) for bound in (one.start, one.end)):
        return _INSIDE
    return RangePosition(Position.INSIDE, release=release)


def _is_commit_beside(version: str, bound: str) -> bool:
    """Whether a version is a commit of a Go module of which no release is known, and the bound is none."""
    return (
        version.startswith(("0.0.0-", "v0.0.0-"))
        and _COMMIT.fullmatch(version) is not None
        and not _COMMIT.fullmatch(bound)
    )


def same(version: str, wanted: str, kind: str = "", upward: Upward | None = None) -> Same:
    """Whether a version is the one that is wanted, by the orders and readings by which it would be compared with a
    bound."""
    found = orders(version, upward.rewrite(wanted) if upward else wanted, kind, upward)
    if _is_commit_beside(version, wanted):
        return Same(Sameness.UNSURE, f"{version} is a commit, and no release")
    if EQUAL not in found.answers:
        return Same(Sameness.UNEQUAL)
    if len(found.answers) > 1:
        return Same(
            Sameness.UNSURE,
            found.words or _differ(version, found, {answer: answer == EQUAL for answer in found.answers}),
        )
    return Same(
        Sameness.EQUAL, release=next((by.reading.release for by in found.answers[EQUAL] if by.reading.release), "")
    )


def _differ(version: str, found: Orders, meets: Mapping[int, bool]) -> str:
    """In words which orders differ, or else which readings: answers that meet something, and others that don't."""
    sides: tuple[list[By], list[By]] = ([], [])
    for answer, is_met in meets.items():
        sides[is_met].extend(found.answers[answer])
    for reading in dict.fromkeys(by.reading for by in (*sides[0], *sides[1])):
        one, other = (next((by.order for by in side if by.reading == reading), "") for side in sides)
        if one and other:
            first, second = sorted((one, other), key=_place)
            return f"{first} and {second} differ between {reading.text} and {found.bound}"
    other = min((by.reading for side in sides for by in side), key=lambda reading: len(reading.text))
    return f"{version} may be {other.text}" + (
        f" in the release {other.release} of a distribution" if other.release else ""
    )


def _place(name: str) -> int:
    return next(place for place, order in enumerate(ALL) if order.name == name)


def is_inside_plainly(version: str, one: Range) -> bool:
    """Whether a version is inside a range by the order of `cpe advise`."""
    start, end = (None if bound is None else plain.ORDER.compare(version, bound) for bound in (one.start, one.end))
    is_behind = start in (None, GREATER) or start == EQUAL and not one.start_excluded
    return is_behind and (end in (None, LESS) or end == EQUAL and not one.end_excluded)


@dataclass(frozen=True)
class Piece:
    """A run of digits without the zeros before it, or a run of letters."""

    text: str
    is_word: bool

    def same(self, other: Piece) -> bool:
        return (self.text, self.is_word) == (other.text, other.is_word)


@functools.lru_cache(maxsize=_KEPT)
def pieces(version: str) -> tuple[Piece, ...]:
    """The pieces of a version."""
    found = _PIECE.findall(version.lower())
    return tuple(Piece(text.lstrip("0") if text[0].isdigit() else text, not text[0].isdigit()) for text in found)


def sure_beginning(text: str) -> str:
    """The sure part of a version that begins with a text: all except its last run of digits or letters, which may
    continue."""
    return _LAST_PIECE.sub("", text.lower())


def is_outside_from(beginning: str, one: Range) -> bool:
    """Whether each version that begins with this text is outside the range, in all orders and readings."""
    bounds = ((one.start, LESS), (one.end, GREATER))
    return any(bound is not None and _order_from(beginning, bound) == outside for bound, outside in bounds)


def _order_from(beginning: str, bound: str) -> int | None:
    """The order of each version with this beginning to a bound; None if it isn't the same of all."""
    begins, ends = without_epoch(beginning, bound.lower())
    if _BEGINS_HASH.match(begins) or _no_version(ends):
        return None
    (left, _), (right, is_all) = _front(begins), _front(ends)
    for here, there in zip(left, right):
        if here != there:
            return LESS if here < there else GREATER
    return GREATER if is_all and any(left[len(right) :]) else None


@dataclass(frozen=True, eq=False)
class Letters:
    """The products of which letters in versions count upward, each with the words that do, or with none if it is a
    letter, and za after z."""

    products: Mapping[tuple[str, str], frozenset[str]]

    def has(self, product: tuple[str, str]) -> bool:
        return product in self.products

    def rewrite(self, product: tuple[str, str], version: str) -> str:
        """The version of such a product with numbers in place of letters: 1.1.1k as 1.1.1.11, 0.9.8za as 0.9.8.26.1.
        All other words are left, but a v before the first digit."""
        out, last = [], 0
        text = without_v(version.lower())
        for match in _PIECE.finditer(text):
            if self._counts(product, match[0]):
                number = ".".join(str(ord(letter) - ord("a") + 1) for letter in match[0])
                before = "." if match.start() and text[match.start() - 1].isdigit() else ""
                behind = "." if text[match.end() : match.end() + 1].isdigit() else ""
                out.append(f"{text[last : match.start()]}{before}{number}{behind}")
                last = match.end()
        return "".join(out) + text[last:]

    def with_update(self, product: tuple[str, str], version: str, update: str | None) -> tuple[str, str | None]:
        """The version with its update in it, if that is such letters: 9.3 with the update p1 as 9.3p1."""
        match = _LETTERED.fullmatch(update or "")
        if match is None or not self._counts(product, match["word"]):
            return version, update
        return f"{version}{update}", None

    def _counts(self, product: tuple[str, str], word: str) -> bool:
        words = self.products.get(product)
        if words is None:
            return False
        return word in words if words else _LETTER.fullmatch(word) is not None


def read_letters(path: str) -> Letters:
    """The table at this path: a line for each product, `vendor:product` and perhaps words; `#` begins a comment."""
    try:
        lines = text_lines(read_feed(path).decode(errors="backslashreplace"))
    except FeedFault as fault:
        raise Fatal(f"{name_of(path)}: {fault}") from fault
    return letters_of(lines, name_of(path))


def letters_of(lines: Iterable[str], name: str) -> Letters:
    """The table of these lines."""
    products = {}
    for number, line in enumerate(lines, 1):
        words = line.split("#", 1)[0].lower().split()
        if not words:
            continue
        parts = names.components(f"{names.PREFIX}{words[0]}")
        if (
            len(parts) != 2
            or not all(words[1:])
            or any(not _LETTERED.fullmatch(word) or word[-1].isdigit() for word in words[1:])
        ):
            raise Fatal(f"{name}: line {number} is no vendor:product with words of one or two letters")
        products[parts[0], parts[1]] = frozenset(words[1:])
    return Letters(products)
