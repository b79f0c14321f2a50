"""A statement as cpe evaluates it: in mode plain, over all names of the items (name_finder.py).

For a negated test this isn't enough, because one more name could hide a machine. So a negated test, a fact or a range,
is replaced by a check, which negations.py decides for each machine: TRUE if the test holds whichever name an item has,
and FALSE if it holds by none of the names.

An AND may ask for an operating system or hardware (part `o` or `h`) beside something else. A list may name nothing of
that part although the machine has it. So a check is added beside such a name. It is FALSE if the list has an item of
that part, and otherwise has no result. An AND may ask for both parts and nothing else, as for firmware on its device.
Then the check is FALSE too if the list has neither part.
"""
from __future__ import annotations

from collections.abc import Iterator, Mapping
from dataclasses import dataclass

from . import names
from .advisories import MATCH, SYSTEM
from .feeds import Json, record_text

# The beginnings of the ids of these checks. (No id of a match has a space.)
_NOT, _PART = "not ", "part "
# The parts that a list may not name, with the ids of their checks: beside other names, and in an AND of both parts
# alone.
PARTS = {part: f"{_PART}{part}" for part in "oh"}
OF_DEVICES = {part: f"{_PART}{part} of a device" for part in "oh"}
# The id of the check that replaces a test which is too long for a line.
LONG = f"{_PART}of what is longer than a line"
MOST_BYTES = 65_536


@dataclass(frozen=True)
class Negation:
    """A negated test: the id of the check that replaces it, the name of its fact, and the id of its range's check, if
    it has one."""

    key: str
    fact: str
    range: str | None


def rewrite_statement(statement: Json, negated: dict[str, Negation]) -> tuple[Json, str]:
    """The rewritten statement and its line; its negations are added to `negated`. A value that is no statement stays
    unchanged, and cpe refuses it."""
    if statement.get("mode", "plain") not in ("plain", "follow"):
        return statement, record_text(statement)
    test = _with_parts(statement.get("test"))
    if is_negated(test):
        test = _replace_negations(test, False, negated)
    asked = {**statement, "mode": "plain", "test": test}
    line = record_text(asked)
    if len(line) * 4 > MOST_BYTES and len(line.encode(errors="replace")) > MOST_BYTES:
        asked["test"] = {"op": "OR", "of": [_check(LONG)]}
        line = record_text(asked)
    return asked, line


def _with_parts(test: Json) -> Json:
    """The test with checks beside names of parts that a list may not name, if an AND asks for more than such a part."""
    if not _is_logic(test) or test.get("negate") or range_of(test) is not None:
        return test
    if test["op"] == "OR":
        return {**test, "of": [_with_parts(one) for one in test["of"]]}
    parts = {part for one in test["of"] for part in _parts(one)}
    if not parts & PARTS.keys() or len(parts) == 1:
        return {**test, "of": [_with_parts(one) for one in test["of"]]}
    keys = PARTS if parts - PARTS.keys() else OF_DEVICES
    silent = [_if_silent(one, keys) for one in test["of"]]
    here = [one for one in test["of"] if not is_negated(one)]
    of_each = [set(_parts(one)) for one in here]
    if here and (
        any(len(found) > 1 for found in of_each)
        if keys is OF_DEVICES
        else all(found & PARTS.keys() for found in of_each)
    ):
        # (at least one of the names has to be there, unless the AND asks for another name anyway)
        silent.append({"op": "OR", "of": here})
    return {**test, "of": silent}


def _parts(test: Json) -> Iterator[str]:
    """The parts of the names in a test, except negated ones."""
    if not isinstance(test, dict) or test.get("negate"):
        return
    if (part := _part(test)) is not None:
        yield part
    elif _is_logic(test):
        yield from (part for one in test["of"] for part in _parts(one))


def _if_silent(test: Json, keys: Mapping[str, str]) -> Json:
    """A child of an AND, with the check of its part, if a list may not name that part."""
    if not isinstance(test, dict) or test.get("negate"):
        return test
    part = _part(test)
    if part is not None:
        return {"op": "OR", "of": [test, _check(keys[part])]} if part in keys else test
    if not _is_logic(test):
        return test
    if test["op"] == "AND":
        return {**test, "of": [_if_silent(one, keys) for one in test["of"]]}
    found = dict.fromkeys(part for one in test["of"] if (part := _part(one)) in keys)
    of = [one if _part(one) is not None else _if_silent(one, keys) for one in test["of"]]
    return {**test, "of": [*of, *(_check(keys[part]) for part in found)]}


def _part(test: Json) -> str | None:
    """The part of a fact, or of a range; None if the test is neither."""
    if not isinstance(test, dict):
        return None
    fact = fact_of(test["of"][0] if range_of(test) is not None else test)
    return names.part_of(fact) if fact is not None else None


def _is_logic(test: Json) -> bool:
    return isinstance(test, dict) and test.get("op") in ("AND", "OR") and isinstance(test.get("of"), list)


def _check(key: str) -> Json:
    return {"check": {"system": SYSTEM, "href": MATCH, "id": key}}


def _replace_negations(test: Json, is_under: bool, negated: dict[str, Negation]) -> Json:
    """The test with checks in place of its negated tests."""
    if not isinstance(test, dict):
        return test
    if is_under and (one := _negation_at(test)) is not None:
        negated[one.key] = one
        return _check(one.key)
    of = test.get("of")
    if "op" not in test or not isinstance(of, list):
        return test
    is_under = is_under != (test.get("negate") is True)
    return {**test, "of": [_replace_negations(one, is_under, negated) for one in of]}


def _negation_at(test: Json) -> Negation | None:
    """The negation of this test, if it is a fact or a range."""
    key = range_of(test)
    if key is not None:
        fact = fact_of(test["of"][0])
        return None if fact is None else Negation(f"{_NOT}{key}", fact, key)
    fact = fact_of(test)
    return None if fact is None else Negation(f"{_NOT}{fact}", fact, None)


def range_of(test: Json) -> str | None:
    """The id of the range's check, if a test is an AND of a name and the check of its range."""
    of = test.get("of")
    if test.get("op") != "AND" or test.get("negate") or not isinstance(of, list) or len(of) != 2:
        return None
    if not all(isinstance(one, dict) for one in of) or "fact" not in of[0] or "check" not in of[1]:
        return None
    check = of[1]["check"]
    if not isinstance(check, dict) or (check.get("system"), check.get("href")) != (SYSTEM, MATCH):
        return None
    key = check.get("id")
    return key if isinstance(key, str) else None


def tests_of(test: Json) -> Iterator[Json]:
    """A test and all tests within it, in their order."""
    waiting = [test]
    while waiting:
        one = waiting.pop()
        if isinstance(one, dict):
            yield one
            of = one.get("of")
            if "op" in one and isinstance(of, list):
                waiting.extend(reversed(of))


def is_negated(test: Json) -> bool:
    """Whether a test has a negation."""
    return any("op" in one and one.get("negate") is True for one in tests_of(test))


def fact_of(test: Json) -> str | None:
    """The name of a fact, as a formatted string if it is an object; None if the test is no fact."""
    if not isinstance(test, dict) or "op" in test or "fact" not in test:
        return None
    fact = test["fact"]
    if isinstance(fact, dict):
        return names.join([str(fact.get(attribute, names.ANY)) for attribute in names.ATTRIBUTES])
    return fact if isinstance(fact, str) else None


def facts_of(test: Json) -> Iterator[str]:
    """The names of the facts of a test."""
    return (fact for one in tests_of(test) if (fact := fact_of(one)) is not None)
