"""Finds which verdicts fit the gates of --fail-on, and reports them.

A gate fits verdicts that are TRUE and not accepted. With the term `unknown` it fits UNKNOWN and ERROR instead. A
missing value, such as the score of an advisory without one, counts as at least the least value of a term, so the
verdict fits. The messages have the number of such verdicts, and of the verdicts that aren't known and would fit if they
were TRUE.

A settled verdict (--settled) counts as the user settled it. The messages have the number of settled verdicts that fit,
and of those that only don't fit because they are settled as FALSE.

A verdict is new if the earlier result (--since) has another one, none, or an accepted one.
"""
from __future__ import annotations

from collections import Counter
from collections.abc import Callable, Iterable, Iterator, Mapping, Sequence
from dataclasses import dataclass, field

from .affected import AdvisoryContext
from .arguments import ONE, Arguments
from .console import Fatal, Messages
from .gate_grammar import (
    EXPLOITED,
    FAIL_ON,
    LEAST_SCORES,
    NEW,
    PROBABILITY,
    SCORE,
    SEVERITIES,
    SEVERITY,
    SINCE,
    UNKNOWN,
    Gate,
    Term,
    gates_of,
)
from .scan_result import BY_PEOPLE, read_scan_result
from .scores import score_of
from .threats import EPSS, KEV, Threats
from .verdicts import Machine

# The status if a verdict fits.
FITS = 3
OPTIONS = {FAIL_ON: ONE, SINCE: ONE}
_MOST_TOLD = 3

# The verdicts of an earlier result, by machine and advisory.
VerdictsByMachine = dict[tuple[str, str], str]


@dataclass(frozen=True)
class GateCheck:
    """The gates, and the verdicts of the earlier result, if there is one."""

    gates: Sequence[Gate] = ()
    kept: VerdictsByMachine = field(default_factory=dict)

    @staticmethod
    def of(arguments: Arguments, threats: Threats) -> GateCheck:
        """The gates of the command line. Fatal if one is wrong, or needs a file that isn't given."""
        gates, since = gates_of(arguments.many(FAIL_ON)), arguments.only(SINCE)
        needed = {NEW: (SINCE, since), EXPLOITED: (KEV, threats.kev), PROBABILITY: (EPSS, threats.epss)}
        for gate in gates:
            for word, (option, given) in needed.items():
                if gate.asks_for(word) and given is None:
                    raise Fatal(f"{FAIL_ON} {gate.text} needs {option} FILE, since it has the term {word}")
        if since is not None and not any(gate.asks_for(NEW) for gate in gates):
            raise Fatal(f"{SINCE} is for {FAIL_ON} {NEW}, and no gate has this term")
        return GateCheck(gates, {} if since is None else read_earlier_verdicts(since))

    def fit(self, machines: Iterable[Machine], about: AdvisoryContext, messages: Messages) -> bool:
        """Whether a verdict fits one of the gates. Reports the verdicts that fit."""
        tallies = [_Tally(gate, self.kept, about) for gate in self.gates]
        for machine in machines if tallies else ():
            for id, truth in machine.shown.items():
                is_settled = id in machine.settled
                if truth == "FALSE" and not is_settled or about.accepted_for(id, truth, machine.name) is not None:
                    continue
                for tally in tallies:
                    tally.count(_Verdict(machine.name or "", id, truth, is_settled))
        for tally in tallies:
            tally.report(messages)
        return any(tally.fitting for tally in tallies)


def read_earlier_verdicts(path: str) -> VerdictsByMachine:
    """The verdicts of an earlier result, except those that are FALSE or accepted."""
    return {
        (row.machine, advisory.id): group
        for advisory in read_scan_result(path).advisories
        for group, rows in advisory.rows.items()
        if group not in BY_PEOPLE
        for row in rows
    }


@dataclass(frozen=True)
class _Verdict:
    """A verdict that may fit."""

    machine: str
    id: str
    truth: str
    is_settled: bool


@dataclass(frozen=True)
class _Values:
    """Whether an advisory has the values that a gate asks for, and the terms whose values aren't known."""

    holds: bool
    lacking: tuple[str, ...] = ()


class _Tally:
    """Counts the verdicts that fit a gate."""

    def __init__(self, gate: Gate, kept: VerdictsByMachine, about: AdvisoryContext) -> None:
        self._gate, self._kept, self._about = gate, kept, about
        self._terms = [term for term in gate.terms if term.word in _VALUES]
        self._is_new, self._is_unknown = gate.asks_for(NEW), gate.asks_for(UNKNOWN)
        self._values: dict[str, _Values] = {}
        self._lacking: Counter[str] = Counter()
        self._first: list[str] = []
        self._undecided = self._settled_false = self._settled_fitting = 0
        self.fitting = 0

    def count(self, verdict: _Verdict) -> None:
        """Counts a verdict, if it fits. A verdict that is settled as FALSE doesn't fit, and is counted separately."""
        is_false, is_asked = verdict.truth == "FALSE", self._is_unknown == (verdict.truth != "TRUE")
        if (
            not is_asked
            and self._is_unknown
            or self._is_new
            and self._kept.get((verdict.machine, verdict.id)) == verdict.truth
        ):
            return
        values = self._values.get(verdict.id)
        if values is None:
            values = self._values[verdict.id] = self._values_of(verdict.id)
        if not values.holds:
            return
        if is_false or not is_asked:
            self._settled_false += is_false
            self._undecided += not is_false
            return
        self.fitting += 1
        self._settled_fitting += verdict.is_settled
        self._lacking.update(values.lacking)
        if len(self._first) < _MOST_TOLD:
            self._first.append(f"{verdict.machine} {verdict.id}")

    def _values_of(self, id: str) -> _Values:
        found = [(term, _VALUES[term.word](self._about, id)) for term in self._terms]
        holds = all(value is None or value >= term.least for term, value in found)
        return _Values(holds, tuple(dict.fromkeys(term.word for term, value in found if value is None)))

    def report(self, messages: Messages) -> None:
        text = self._gate.text
        if self.fitting:
            more = f" and {self.fitting - _MOST_TOLD} more" if self.fitting > _MOST_TOLD else ""
            beside = "".join(self._not_known())
            beside += (
                f"; {self._settled_fitting} of them {_are(self._settled_fitting)} settled"
                if self._settled_fitting
                else ""
            )
            messages.remark(f"{FAIL_ON} {text} fits {_verdicts(self.fitting)}: {', '.join(self._first)}{more}{beside}")
        if self._undecided:
            others = f"{FAIL_ON} '{UNKNOWN} and {text}' counts"
            messages.remark(
                f"{FAIL_ON} {text} doesn't count {_verdicts(self._undecided)} that may be TRUE; {others} them"
            )
        if self._settled_false:
            messages.remark(
                f"{FAIL_ON} {text} doesn't count {_verdicts(self._settled_false)} that {_are(self._settled_false)} settled as FALSE"
            )

    def _not_known(self) -> Iterator[str]:
        return (f"; no {word} is known of {number} of them" for word, number in self._lacking.items())


def _verdicts(number: int) -> str:
    return f"{number} {'verdict' if number == 1 else 'verdicts'}"


def _are(number: int) -> str:
    return "is" if number == 1 else "are"


def _score(about: AdvisoryContext, id: str) -> float | None:
    score = score_of(about.details.get(id, {}).get("score"))
    return None if score is None else float(score)


def _severity(about: AdvisoryContext, id: str) -> float | None:
    """The severity in the feed, or that of the score if it is higher, because CVSS 2 has no `critical`."""
    text, score = about.details.get(id, {}).get("severity"), _score(about, id)
    places = [SEVERITIES.index(text.lower())] if isinstance(text, str) and text.lower() in SEVERITIES else []
    if score is not None:
        places.append(max(place for place, least in enumerate(LEAST_SCORES) if score >= least))
    return max(places, default=None)


def _is_exploited(about: AdvisoryContext, id: str) -> float:
    # (an advisory that isn't in the list isn't known to be exploited)
    return 1.0 if about.threats.is_exploited(id) else -1.0


_VALUES: Mapping[str, Callable[[AdvisoryContext, str], float | None]] = {
    SCORE: _score,
    SEVERITY: _severity,
    PROBABILITY: lambda about, id: about.threats.probability(id),
    EXPLOITED: _is_exploited,
}
