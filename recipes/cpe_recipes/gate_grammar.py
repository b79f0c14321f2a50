"""The grammar of the gates of --fail-on, which recipes/README.md describes. If a verdict fits a gate, the status is 3.

A gate is terms joined by `and`, and several gates are alternatives. A term is a least value (score, severity, epss), or
one of three words: the advisory is known exploited (kev), the verdict differs from that of an earlier result (new), or
the verdict isn't known (unknown). gate_check.py finds the verdicts that fit.
"""
from __future__ import annotations

import re
from collections.abc import Iterator, Sequence
from dataclasses import dataclass
from typing import NamedTuple

from .console import Fatal, shorten

FAIL_ON, SINCE = "--fail-on", "--since"
SCORE, SEVERITY, PROBABILITY, EXPLOITED, NEW, UNKNOWN = "score", "severity", "epss", "kev", "new", "unknown"
# Severities in ascending order, and the least score of each.
SEVERITIES = ("low", "medium", "high", "critical")
LEAST_SCORES = (0.0, 4.0, 7.0, 9.0)
_HIGHEST = {SCORE: 10.0, PROBABILITY: 1.0}
_COMPARED = (SCORE, SEVERITY, PROBABILITY)
_ALONE = (EXPLOITED, NEW, UNKNOWN)
_WORDS = (*_COMPARED, *_ALONE)
_AT_LEAST = ">="
_NUMBER = re.compile(r"[0-9]+(?:\.[0-9]+)?")
_TOKEN = re.compile(rf" *(>=|[A-Za-z]+|{_NUMBER.pattern}|[^ ])")


@dataclass(frozen=True)
class Term:
    """A term: its word, and its least value, if it has one; for a severity this is its place in SEVERITIES."""

    word: str
    least: float = 0.0


@dataclass(frozen=True)
class Gate:
    """A gate: its written text, and its terms."""

    text: str
    terms: tuple[Term, ...]

    def asks_for(self, word: str) -> bool:
        return any(term.word == word for term in self.terms)


class _Token(NamedTuple):
    text: str
    place: int


class _Reader:
    """Reads the terms of a gate, token by token."""

    def __init__(self, text: str) -> None:
        self._text = text
        self._tokens = [_Token(found[1], found.start(1) + 1) for found in _TOKEN.finditer(text)]
        self._next = 0

    def terms(self) -> Iterator[Term]:
        yield self._term()
        while self._next < len(self._tokens):
            self._take("and", "'and' between two terms")
            yield self._term()

    def _term(self) -> Term:
        token = self._peek()
        word = token.text.lower()
        if word not in _WORDS:
            raise self._fault(token, f"a term is expected, of {', '.join(_WORDS)}")
        self._next += 1
        if word in _ALONE:
            return Term(word)
        self._take(_AT_LEAST, f"{_AT_LEAST} behind {word}")
        return Term(word, self._severity() if word == SEVERITY else self._number(word))

    def _severity(self) -> float:
        token = self._peek()
        if token.text.lower() not in SEVERITIES:
            raise self._fault(token, f"a severity is expected, of {', '.join(SEVERITIES)}")
        self._next += 1
        return SEVERITIES.index(token.text.lower())

    def _number(self, word: str) -> float:
        token, highest = self._peek(), _HIGHEST[word]
        if not _NUMBER.fullmatch(token.text) or not float(token.text) <= highest:
            raise self._fault(token, f"a number from 0 to {highest:g} is expected")
        self._next += 1
        return float(token.text)

    def _take(self, wanted: str, words: str) -> None:
        token = self._peek()
        if token.text.lower() != wanted:
            raise self._fault(token, f"{words} is expected")
        self._next += 1

    def _peek(self) -> _Token:
        return self._tokens[self._next] if self._next < len(self._tokens) else _Token("", len(self._text) + 1)

    def _fault(self, token: _Token, words: str) -> Fatal:
        found = f"has {shorten(repr(token.text))}" if token.text else "is the end"
        return Fatal(f"{FAIL_ON} {shorten(repr(self._text))}: place {token.place} {found}, and {words}")


def gate_of(text: str) -> Gate:
    """The gate of a text. Fatal, with the place of the fault, if the text is no gate."""
    return Gate(text, tuple(_Reader(text).terms()))


def gates_of(texts: Sequence[str]) -> list[Gate]:
    return [gate_of(text) for text in dict.fromkeys(texts)]
