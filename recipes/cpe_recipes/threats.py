"""What is known of the exploitation of advisories: CISA's list (--kev) and EPSS (--epss). Both are in the table, in the
JSON, and on the page of `report.py`. They order the rows, and are terms of --fail-on (gate_grammar.py)."""
from __future__ import annotations

from collections.abc import Collection
from dataclasses import dataclass

from .arguments import ONE, Arguments
from .console import Messages
from .epss import Epss, read_epss
from .feeds import Json
from .kev import Kev, read_kev

KEV, EPSS = "--kev", "--epss"
OPTIONS = {KEV: ONE, EPSS: ONE}
_MOST_TOLD = 3


@dataclass(frozen=True)
class Threats:
    """The list and the probabilities, None if they aren't given."""

    kev: Kev | None = None
    epss: Epss | None = None

    @staticmethod
    def of(arguments: Arguments, messages: Messages) -> Threats:
        """What the options name. Fatal if a file isn't what it has to be."""
        kev, epss = arguments.only(KEV), arguments.only(EPSS)
        return Threats(
            None if kev is None else read_kev(kev, messages), None if epss is None else read_epss(epss, messages)
        )

    def is_exploited(self, id: str) -> bool:
        return self.kev is not None and id in self.kev.found

    def date_added(self, id: str) -> str:
        """The day since when it is known to be exploited, empty if it isn't."""
        found = self.kev.found.get(id) if self.kev else None
        return found.added if found else ""

    def probability(self, id: str) -> float | None:
        found = None if self.epss is None else self.epss.found.get(id)
        return None if found is None else found.epss

    def order(self, id: str, score: float) -> tuple[bool, float, float]:
        """The order among equal verdicts: known exploited, then the highest score, then the highest EPSS."""
        probability = self.probability(id)
        return not self.is_exploited(id), -score, 1.0 if probability is None else -probability

    def header(self) -> tuple[str, ...]:
        """The columns of a table."""
        return (() if self.kev is None else ("KEV",)) + (() if self.epss is None else ("EPSS",))

    def cells(self, id: str) -> tuple[str, ...]:
        """The cells of these columns: the day since when it is known exploited, and the probability."""
        probability = self.probability(id)
        added = () if self.kev is None else (self.date_added(id),)
        return added + (() if self.epss is None else ("" if probability is None else f"{probability:.5f}",))

    def json(self, id: str) -> dict[str, Json]:
        """What the JSON has of an advisory."""
        exploited = self.kev.found.get(id) if self.kev else None
        probability = self.epss.found.get(id) if self.epss else None
        found = {"kev": exploited and exploited.json(), "epss": probability and probability.json()}
        return {key: value for key, value in found.items() if value}

    def about(self) -> dict[str, Json]:
        """What the JSON has of the files."""
        return ({} if self.kev is None else {"kev": self.kev.json()}) | (
            {} if self.epss is None else {"epss": self.epss.json()}
        )

    def report(
        self, asked: Collection[str], unasked: Collection[str], messages: Messages, elsewhere: str = "not in the feeds"
    ) -> None:
        """Says what the table doesn't show: what is known exploited and has no verdict, and what EPSS knows nothing of.
        `unasked` are the advisories of the feeds that have no verdict, and `elsewhere` are the words for those that are
        neither."""
        known = list(self.kev.found) if self.kev else []
        others = sum(id not in asked and id not in unasked for id in known)
        if others:
            messages.remark(f"known exploited: {_advisories(others)} {elsewhere}")
        without = [id for id in known if id in unasked and id not in asked]
        if without:
            more = f" and {len(without) - _MOST_TOLD} more" if len(without) > _MOST_TOLD else ""
            messages.remark(
                f"known exploited: {_advisories(len(without))} without a verdict, {', '.join(without[:_MOST_TOLD])}{more}"
            )
        lacking = sum(id not in self.epss.found for id in asked) if self.epss else 0
        if lacking:
            messages.remark(f"EPSS: {_advisories(lacking)} without one")


def _advisories(number: int) -> str:
    return f"{number:,} {'advisory is' if number == 1 else 'advisories are'}"
