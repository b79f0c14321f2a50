"""Explains for scan.py --why which items make verdicts TRUE, with the contents of a certificate of `cpe explain`.

A certificate names an item for each fact that it needs. For a range it has the fact and the check; the item is the one
whose version decided the check. `Explainer` runs `cpe explain` once for each machine, over the names of its items and
the results of its ranges' checks. `BatchExplainer` finds the same contents in one run for all machines: of a logical
test the first child that decides it, and of a fact the first item that it covers, which cpe lists.
"""
from __future__ import annotations

import json
from collections.abc import Callable, Iterable, Iterator, Mapping, Sequence
from typing import NamedTuple

from .advisories import Range
from .cases import FeedData
from .console import Fatal
from .feeds import Json, record_text
from .item_names import ItemName
from .leads import Leads
from .portions import portions, size_of
from .program import Program
from .range_checks import CheckResults, check_record
from .statement_rewriter import range_of


class ExplanationRequest(NamedTuple):
    """A machine whose verdicts are explained: the names of its items, the results of its checks, and the places of the
    statements."""

    item_names: Sequence[ItemName]
    check_results: CheckResults
    places: Sequence[int]


class Explainer:
    """Finds which items make verdicts TRUE."""

    def __init__(self, program: Program, feed_data: FeedData) -> None:
        self._program, self._feed_data = program, feed_data
        # (one statement may be asked of many machines)
        self._tests: dict[int, Json] = {}

    def explain_machines(self, asked: Iterable[ExplanationRequest]) -> Iterator[dict[int, list[str]]]:
        """For each machine, one after the other, why its statements are TRUE, in words."""
        return (self.explain(one.item_names, one.check_results, one.places) for one in asked)

    def explain(
        self, item_names: Sequence[ItemName], check_results: CheckResults, places: Sequence[int]
    ) -> dict[int, list[str]]:
        """Why these statements are TRUE over items with these names, in words, by their places."""
        if not places:
            return {}
        items = {one.name: one.item for one in reversed(item_names)}
        found: dict[int, list[str]] = {}
        sizes = (
            size_of(self._feed_data.lines[place], len(self._feed_data.statements[place].checks)) for place in places
        )
        for portion in portions(sizes):
            self._put(found, items, check_results, places[portion.start : portion.stop])
        return found

    def _put(
        self, found: dict[int, list[str]], items: Mapping[str, str], check_results: CheckResults, places: Sequence[int]
    ) -> None:
        """Explains these statements, which cpe takes at once, in words."""
        lines = self._program.lines(["explain"], self.lines(items, check_results, places))
        for place, line in zip(places, lines):
            told = CertificateText(self._feed_data.ranges, check_results, items).of(self.test(place), _proof(line))
            found[place] = list(dict.fromkeys(told))
        if any(place not in found for place in places) or next(lines, None) is not None:
            raise Fatal("cpe explained more or less than was asked")

    def test(self, place: int) -> Json:
        """The test of a statement."""
        if place not in self._tests:
            self._tests[place] = json.loads(self._feed_data.lines[place])["test"]
        return self._tests[place]

    def lines(self, items: Iterable[str], check_results: CheckResults, places: Sequence[int]) -> Iterator[str]:
        """The statements at these places, and the items and results over which they are evaluated."""
        yield from (self._feed_data.lines[place] for place in places)
        yield from (record_text({"do": "item", "name": item}) for item in items)
        keys = dict.fromkeys(key for place in places for key in self._feed_data.statements[place].checks)
        yield from (check_record(key, check_results.truths[key]) for key in keys if key in check_results.truths)


class BatchExplainer(Explainer):
    """The same, of all machines in one run."""

    def __init__(self, program: Program, feed_data: FeedData, leads: Callable[[], Leads]) -> None:
        super().__init__(program, feed_data)
        self._leads = leads

    def explain_machines(self, asked: Iterable[ExplanationRequest]) -> Iterator[dict[int, list[str]]]:
        machines = list(asked)
        facts = [self._facts(one.places) for one in machines]
        lines = self._program.lines(
            ["resolve"], (line for one, of_one in zip(machines, facts) for line in _questions(one, of_one))
        )
        answers = _first_items(lines)
        for one, of_one in zip(machines, facts):
            yield self._choose(one, {fact: _next(answers) for fact in of_one})
        for _ in answers:
            raise Fatal("cpe answered more than was asked")

    def _facts(self, places: Iterable[int]) -> dict[str, None]:
        """The facts of statements, each once, in their order."""
        found: dict[str, None] = {}
        waiting = [self.test(place) for place in places]
        waiting.reverse()
        while waiting:
            one = waiting.pop()
            if "op" in one:
                waiting.extend(reversed(one["of"]))
            elif "fact" in one:
                found[one["fact"]] = None
        return found

    def _choose(self, asked: ExplanationRequest, first: Mapping[str, str | None]) -> dict[int, list[str]]:
        items = {one.name: one.item for one in reversed(asked.item_names)}
        told = CertificateText(self._feed_data.ranges, asked.check_results, items)
        found = {}
        for place in asked.places:
            test = self.test(place)
            why = self._why(test, first, asked.check_results.truths)
            if why["truth"] != "TRUE":
                raise Fatal(
                    f"{self._feed_data.statements[place].id} is TRUE by cpe, and nothing that it covers makes it so"
                )
            found[place] = list(dict.fromkeys(told.of(test, why)))
        return found

    def _why(self, test: Json, first: Mapping[str, str | None], truths: Mapping[str, bool]) -> Json:
        """What a certificate has of a test. (What a fact may cover makes nothing TRUE, nor FALSE.)"""
        if "op" in test:
            return self._why_of_logic(test, first, truths)
        if "check" in test:
            truth = truths.get(test["check"]["id"])
            return {"truth": "UNKNOWN" if truth is None else "TRUE" if truth else "FALSE"}
        item = first[test["fact"]]
        if item is None:
            return {"truth": "FALSE"}
        return {"fact": [self._leads().found[test["fact"]].name], "item": [item], "truth": "TRUE"}

    def _why_of_logic(self, test: Json, first: Mapping[str, str | None], truths: Mapping[str, bool]) -> Json:
        deciding, other = ("FALSE", "TRUE") if test["op"] == "AND" else ("TRUE", "FALSE")
        found: list[Json] = []
        truth = other
        for child in test["of"]:
            found.append(self._why(child, first, truths))
            if found[-1]["truth"] == deciding:
                found, truth = [*(None for _ in found[1:]), found[-1]], deciding
                break
            if found[-1]["truth"] != other:
                truth = "UNKNOWN"
        if test.get("negate"):
            truth = {"TRUE": "FALSE", "FALSE": "TRUE"}.get(truth, truth)
        return {"of": found, "truth": truth}


def _questions(asked: ExplanationRequest, facts: Iterable[str]) -> Iterator[str]:
    """The items of a machine, in the order in which they are explained, and which of them each of these facts
    covers."""
    items = list(dict.fromkeys(one.name for one in reversed(asked.item_names))) if asked.places else []
    yield from (record_text({"do": "item", "name": item}) for item in items)
    yield from (record_text({"do": "items", "name": fact}) for fact in facts)
    yield from (record_text({"do": "drop-item", "name": item}) for item in reversed(items))


def _first_items(lines: Iterable[str]) -> Iterator[str | None]:
    """Of each answer the first item."""
    found: list[str | None] = []
    for line in lines:
        word, _, rest = line.partition(" ")
        if word == "items":
            yield from found
            found = [None]
        elif word == "item" and found == [None]:
            found = [rest]
        elif word not in ("item", "maybe") or not found:
            raise Fatal(f"cpe resolve wrote {line}")
    yield from found


def _next(answers: Iterator[str | None]) -> str | None:
    for answer in answers:
        return answer
    raise Fatal("cpe answered less than was asked")


def _proof(line: str) -> Json:
    try:
        proof = json.loads(line)
        if proof["do"] == "proof" and proof["why"]["truth"] == "TRUE":
            return proof["why"]
    except (ValueError, RecursionError, KeyError, TypeError):
        pass
    raise Fatal(f"cpe explain wrote no certificate of a TRUE verdict: {line[:100]}")


class CertificateText:
    """A certificate in words, over names and the items that have them."""

    def __init__(self, ranges: Mapping[str, Range], check_results: CheckResults, items: Mapping[str, str]) -> None:
        self._ranges, self._check_results, self._items = ranges, check_results, items

    def of(self, test: Json, why: Json) -> Iterator[str]:
        """What makes a test TRUE; the test and its certificate are read side by side."""
        if why is None:
            return
        key = range_of(test)
        if key is not None and key in self._ranges:
            if why["truth"] == "TRUE":
                yield self._range(self._ranges[key])
        elif "of" in why:
            for child, given in zip(test["of"], why["of"]):
                yield from self.of(child, given)
        elif "item" in why:
            yield f"{self._item_words(why['item'][0])} is covered by {why['fact'][0]}"
        elif "check" in test and why["truth"] == "TRUE":
            yield f"the check {test['check']['id']} is TRUE"

    def _range(self, one: Range) -> str:
        item = self._check_results.inside.get(one.key, "an item")
        return f"{item} is in {one.criteria} {one.words()}".rstrip()

    def _item_words(self, name: str) -> str:
        """An item, with the name by which it is found if that is another one."""
        item = self._items.get(name, name)
        return item if item == name else f"{item}, also {name},"
