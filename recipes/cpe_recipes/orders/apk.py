"""Alpine's orders of versions, those of apk-tools 2 and 3: numbers with dots, a letter, suffixes with numbers, and -r
with a number.

The suffixes _alpha, _beta, _pre and _rc are before a release, and _cvs, _svn, _git, _hg and _p after it. The two orders
differ if a number begins with a zero. Version 2 counts the zeros, and reads the text after a zero as one more token, so
that 1.0_rc1 is after 1.0. Version 3 compares such numbers as texts. Version 3 also reads ~ and the hash of a commit.
"""
from __future__ import annotations

import functools
import re

from .order import EQUAL, GREATER, KEPT, LESS, Order, by_value, numbers, worth

_SUFFIXES = {word: rank for rank, word in enumerate(("alpha", "beta", "pre", "rc", "", "cvs", "svn", "git", "hg", "p"))}
_ENDING = r"(?P<suffixes>(?:_(?:alpha|beta|pre|rc|cvs|svn|git|hg|p)[0-9]*)*){build}(?:-r(?P<revision>[0-9]+))?"
_SECOND = re.compile(r"(?P<numbers>[0-9]+(?:\.[0-9]+|[a-z](?![.a-z])[0-9]*)*)" + _ENDING.format(build=""))
_THIRD = re.compile(
    r"(?P<first>[0-9]+)(?P<numbers>(?:\.[0-9]+)*)(?P<letter>[a-z]?)"
    + _ENDING.format(build="(?:~(?P<build>[0-9a-f]+))?")
)
_NUMBER = re.compile(r"(\.)?([0-9]+)|[a-z]")
_SUFFIX = re.compile(r"_([a-z]+)([0-9]*)")

# The kinds of tokens. If the tokens of two versions have different kinds, the one with the lower kind is newer.
_BEHIND_DOT, _DIGITS, _LETTER, _SUFFIX_KIND, _SUFFIX_NUMBER, _BUILD, _REVISION, _END = range(8)

Token = tuple[int, object]
Tokens = tuple[Token, ...]


@functools.lru_cache(maxsize=KEPT)
def read_second(text: str) -> Tokens | None:
    """The tokens of a version as apk-tools 2 reads it; None if it is none."""
    match = _SECOND.fullmatch(text)
    if match is None:
        return None
    found: list[Token] = []
    for one in _NUMBER.finditer(match["numbers"]):
        if one[2] is None:
            found.append((_LETTER, one[0]))
        elif one[1] is None or one[2][0] != "0":
            found.append((_BEHIND_DOT if one[1] else _DIGITS, worth(one[2])))
        else:
            # (its zeros, and what is behind them as a number, which may be empty, unless the version ends there)
            digits = one[2].lstrip("0")
            found.append((_BEHIND_DOT, (len(digits) - len(one[2]), "")))
            if digits or one.end() < len(text):
                found.append((_DIGITS, worth(digits)))
    return (*found, *_suffixes(match), *_revision(match), (_END, 0))


@functools.lru_cache(maxsize=KEPT)
def read_third(text: str) -> Tokens | None:
    """The tokens of a version as apk-tools 3 reads it; None if it is none."""
    match = _THIRD.fullmatch(text)
    if match is None:
        return None
    behind = ((_DIGITS, digits) for digits in match["numbers"].split(".")[1:])
    letter = [(_LETTER, match["letter"])] if match["letter"] else []
    build = [(_BUILD, match["build"])] if match["build"] is not None else []
    return (
        (_BEHIND_DOT, worth(match["first"])),
        *behind,
        *letter,
        *_suffixes(match),
        *build,
        *_revision(match),
        (_END, 0),
    )


def _suffixes(match: re.Match[str]) -> list[Token]:
    found: list[Token] = []
    for word, digits in _SUFFIX.findall(match["suffixes"]):
        found.append((_SUFFIX_KIND, _SUFFIXES[word]))
        if digits:
            found.append((_SUFFIX_NUMBER, worth(digits)))
    return found


def _revision(match: re.Match[str]) -> list[Token]:
    return [(_REVISION, worth(match["revision"]))] if match["revision"] is not None else []


def between(one: Tokens, other: Tokens) -> int:
    """The order of two that were read, both by the same version of the tools."""
    for left, right in zip(one, other):
        found = _values(left, right) if left[0] == right[0] else _kinds(left, right)
        if found:
            return found
    return EQUAL


def _values(one: Token, other: Token) -> int:
    left, right = one[1], other[1]
    if one[0] == _DIGITS and isinstance(left, str) and isinstance(right, str) and "0" not in (left[0], right[0]):
        return numbers(left, right)
    return by_value(left, right)


def _kinds(one: Token, other: Token) -> int:
    """The order of two tokens of different kinds: a version that continues is newer, unless a suffix before a release
    follows."""
    if one[0] == _SUFFIX_KIND and by_value(one[1], _SUFFIXES[""]) == LESS:
        return LESS
    if other[0] == _SUFFIX_KIND and by_value(other[1], _SUFFIXES[""]) == LESS:
        return GREATER
    return GREATER if one[0] < other[0] else LESS


SECOND: Order[Tokens] = Order("apk", read_second, between)
THIRD: Order[Tokens] = Order("apk 3", read_third, between)
