"""The statements of a plain advisory, kept beside its record in a store, so that no scan has to make them again.

They are made when a page is added, from the record alone. This is right as long as no other advisory has another range
under the id of one of its matches. If one has, advisories.py raises RangeConflict, and all statements are made from
their records again. A store has the checksum of the recipes that made its statements. Other recipes make them again.
"""
from __future__ import annotations

import functools
import hashlib
import json
import zlib
from collections.abc import Mapping
from dataclasses import dataclass
from pathlib import Path

from .advisories import ConvertedAdvisory, Range, convert_one
from .cases import RewrittenStatement, Statement
from .feeds import Json
from .statement_rewriter import Negation, rewrite_statement


@dataclass(frozen=True, slots=True)
class CachedStatements(ConvertedAdvisory):
    """The cached statements of an advisory, rewritten ones by their records."""

    asked: Mapping[str, RewrittenStatement]


def encode(record: Json) -> bytes | None:
    """The statements of an advisory, as bytes; None if it isn't plain, because something of it is reported or negated.
    (A negated test depends on where the dictionary leads from its names, whatever the products of the machines are.)"""
    found = convert_one(record)
    if found.stand_ins or not found.candidates or any(not one.record for one in found.candidates):
        return None
    statements = []
    for one in found.candidates:
        negated: dict[str, Negation] = {}
        value, line = rewrite_statement(json.loads(one.record), negated)
        if negated:
            return None
        statement = Statement.of(value, found.ranges)
        statements.append([one.record, line, [statement.id, statement.facts, statement.ranges, statement.checks]])
    (details,) = found.details.values()
    ranges = [
        [it.key, it.criteria, it.start, it.end, it.start_excluded, it.end_excluded] for it in found.ranges.values()
    ]
    # (in ASCII, because JSON can have half a surrogate pair)
    return zlib.compress(json.dumps([statements, ranges, details], separators=(",", ":")).encode(), 1)


def decode(data: bytes) -> CachedStatements:
    """The cached statements of an advisory."""
    statements, ranges, details = json.loads(zlib.decompress(data))
    asked = {}
    for record, line, (id, facts, keys, checks) in statements:
        asked[record] = RewrittenStatement(Statement(id, tuple(facts), tuple(keys), tuple(checks)), line, ())
    return CachedStatements(details["id"], tuple(asked), tuple(Range(*one) for one in ranges), details, asked)


@functools.cache
def recipes_checksum() -> str:
    """The checksum of these recipes."""
    found = hashlib.sha256()
    for path in sorted(Path(__file__).parent.rglob("*.py")):
        found.update(path.read_bytes())
    return found.hexdigest()
