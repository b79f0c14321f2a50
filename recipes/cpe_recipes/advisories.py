"""Turns vulnerabilities of NVD's API 2.0 (JSON of /rest/json/cves/2.0) into records `statement`.

    sh advisories.sh [--ranges FILE] [--details FILE] [--partial] [--large] [FILE..] > records

A statement has the id of its CVE, and follows deprecations. The statement is TRUE if one of the CVE's configurations
holds with a vulnerable product on the machine.

- A configuration has nodes. A node has matches, and perhaps further nodes as its `children`. The test has the
  `operator` and `negate` of each node, and each match is a fact. If a configuration could hold without a product that
  is marked as vulnerable, the statement also asks for one of its vulnerable products.
- A match with a range of versions becomes an AND of two children. One is the product in any version; the other is a
  check with the key NVD, cpeMatch and the id of the match. If a machine has the product, the statement is UNKNOWN until
  a record `check` says whether the product's version is in the range. The ranges are written into a file of their own,
  for decide.py.
- An advisory without configurations isn't analysed yet, and has no statement. A remark counts such advisories
  (advisory_states.py).
- If there are several records of an advisory, the record that was modified last is used (latest_records.py). If two
  records have the same time and differ, what only the second has is UNKNOWN, and reported.
- What can't be read in an advisory, such as a bad name or bound, becomes a check that stays UNKNOWN, and is reported.
  The rest of the advisory is kept.
- An advisory with more names than a record can have becomes several statements, with ids such as CVE-..#2. The
  whole advisory is TRUE exactly if at least one of these statements is TRUE. The tables join the statements by their ids.

--ranges names the file for the ranges. --details names the file for scores and titles, which affected.sh reads. If
something is left out, it is reported, and the status is 1. A feed without any vulnerability is refused, and so is a
feed with missing pages. With --partial missing pages are only reported. --large accepts pages that unpack to any size
(unpack.py).
"""
from __future__ import annotations

import re
from collections.abc import Callable, Iterable, Iterator, Mapping, Sequence
from dataclasses import dataclass, field

from . import completeness, cve5, latest_records
from .advisory_states import States, id_of
from .arguments import ONE, read_arguments
from .console import Fatal, Messages, NoMessages, Output, shorten, write_file
from .feeds import FormFault, Json, Page, PlacedRecord, Source, member, members, record_text, text_at
from .portions import MOST
from .program import Candidate, Program, candidate_at, refusals
from .scores import score_of

USAGE = "advisories.sh [--ranges FILE] [--details FILE] [--partial] [--large] [FILE..]"
KINDS = ("vulnerabilities",)
# What one that has no id is called, before its place.
CALLED = "vulnerability"
SYSTEM, MATCH, CONFIGURATION = "NVD", "cpeMatch", "configuration"
MOST_BYTES = 65_536
_ROOM_TO_ASK = 4_096
# An AND of many long ORs would be taken apart into more statements than anyone has room for.
MOST_PARTS = 1_000
# Of nodes in one another, so that the tests of a statement aren't more than cpe takes.
MOST_NODES_DEEP = 20

BOUNDS = {
    "versionStartIncluding": "from",
    "versionStartExcluding": "behind",
    "versionEndIncluding": "to",
    "versionEndExcluding": "before",
}
_BOUND = re.compile(r"[!-~]{1,256}")
_PART = re.compile(r"#\d+$")
SCORES = ("cvssMetricV40", "cvssMetricV31", "cvssMetricV30", "cvssMetricV2")

Test = dict[str, Json]


def is_bound(text: str) -> bool:
    """Whether cpe takes this as a bound of versions."""
    return _BOUND.fullmatch(text) is not None


@dataclass(frozen=True)
class Range:
    """A range of versions of what a name covers, and the id of the check that is in its place."""

    key: str
    criteria: str
    start: str | None = None
    end: str | None = None
    start_excluded: bool = False
    end_excluded: bool = False

    def record(self) -> dict[str, Json]:
        """The range as a record of the word `advise`."""
        record: dict[str, Json] = {"do": "advisory", "id": self.key, "name": self.criteria}
        for word, bound, excluded in (("start", self.start, self.start_excluded), ("end", self.end, self.end_excluded)):
            if bound is not None:
                record[word] = bound
                if excluded:
                    record[f"{word}-excluded"] = True
        return record

    @staticmethod
    def of(record: Json) -> Range:
        """The range of such a record."""
        key, name = text_at(record, "id"), text_at(record, "name")
        if member(record, "do") != "advisory" or key is None or name is None:
            raise FormFault
        excluded = [member(record, f"{word}-excluded") is True for word in ("start", "end")]
        return Range(key, name, text_at(record, "start"), text_at(record, "end"), *excluded)

    def words(self) -> str:
        """The bounds in words."""
        bounds = (
            (self.start, ("from", "behind")[self.start_excluded]),
            (self.end, ("to", "before")[self.end_excluded]),
        )
        return ", ".join(f"{word} {bound}" for bound, word in bounds if bound is not None)


@dataclass(frozen=True)
class Match:
    """A match of a node: a name, perhaps with bounds of its version, or with a doubt about it, which stays UNKNOWN."""

    id: str | None
    criteria: str | None
    is_vulnerable: bool
    bounds: dict[str, str]
    doubt: str = ""

    @staticmethod
    def of(match: Json) -> Match:
        bounds = {word: text_at(match, name) for name, word in BOUNDS.items()}
        given = {word: bound for word, bound in bounds.items() if bound is not None}
        criteria, doubt = text_at(match, "criteria"), text_at(match, cve5.DOUBT) or ""
        return Match(text_at(match, "matchCriteriaId"), criteria, _flag(match, "vulnerable"), given, doubt)

    def text(self) -> str:
        """The match in words; this is the id of its check, if the match has no id."""
        bounds = ", ".join(f"{word} {bound}" for word, bound in self.bounds.items())
        return " ".join(part for part in (self.criteria or "a match without a name", bounds, self.doubt) if part)

    def fault(self) -> str | None:
        """Why its bounds are no range."""
        if {"from", "behind"} <= self.bounds.keys() or {"to", "before"} <= self.bounds.keys():
            return "two bounds of a kind"
        if not all(map(is_bound, self.bounds.values())):
            return "a bound that is no version"
        return None

    def range(self, key: str) -> Range:
        start, end = self.bounds.get("from", self.bounds.get("behind")), self.bounds.get(
            "to", self.bounds.get("before")
        )
        return Range(key, self.criteria or "", start, end, "behind" in self.bounds, "before" in self.bounds)


@dataclass(frozen=True)
class Node:
    """Matches of a configuration, and nodes within it, as older feeds have them."""

    operator: str
    is_negated: bool
    matches: list[Match]
    children: list[Node]

    @staticmethod
    def of(node: Json, depth: int = 0) -> Node:
        """The node; FormFault if it isn't of the published form."""
        if depth > MOST_NODES_DEEP:
            raise FormFault("nodes that are nested too deep")
        children = [Node.of(child, depth + 1) for child in members(node, "children")]
        given = members(node, "cpeMatch") if children else _filled(node, "cpeMatch", "a node without matches")
        return Node(_operator(node), _flag(node, "negate"), [Match.of(match) for match in given], children)

    def all_matches(self) -> Iterator[Match]:
        yield from self.matches
        for child in self.children:
            yield from child.all_matches()

    def needs_vulnerable(self) -> bool:
        flags = [match.is_vulnerable for match in self.matches]
        return _needs(self, [*flags, *(child.needs_vulnerable() for child in self.children)])


@dataclass(frozen=True)
class Configuration:
    operator: str
    is_negated: bool
    nodes: list[Node]

    @staticmethod
    def of(configuration: Json) -> Configuration:
        """The configuration; FormFault if it isn't of the published form."""
        nodes = [Node.of(node) for node in _filled(configuration, "nodes", "a configuration without nodes")]
        return Configuration(_operator(configuration), _flag(configuration, "negate"), nodes)

    def matches(self) -> Iterator[Match]:
        return (match for node in self.nodes for match in node.all_matches())

    def needs_vulnerable(self) -> bool:
        """Whether the logic holds only with a vulnerable product."""
        return _needs(self, (node.needs_vulnerable() for node in self.nodes))


def _needs(logic: Node | Configuration, children: Iterable[bool]) -> bool:
    return not logic.is_negated and (any(children) if logic.operator == "AND" else all(children))


def _operator(value: Json) -> str:
    operator = text_at(value, "operator") or "OR"
    if operator not in ("AND", "OR"):
        raise FormFault(f"the operator {operator}")
    return operator


def _flag(value: Json, key: str) -> bool:
    found = member(value, key)
    if found is not None and not isinstance(found, bool):
        raise FormFault
    return found is True


def _filled(value: Json, key: str, reason: str) -> list[Json]:
    found = member(value, key)
    if not isinstance(found, list):
        raise FormFault
    if not found:
        raise FormFault(reason)
    return found


@dataclass
class Advisories:
    """The result for some advisories: candidates of statements, the ranges of their checks, the reasons of checks that
    stay UNKNOWN, and the details of each advisory."""

    candidates: list[Candidate] = field(default_factory=list)
    ranges: dict[str, Range] = field(default_factory=dict)
    stand_ins: dict[str, str] = field(default_factory=dict)
    details: dict[str, dict[str, Json]] = field(default_factory=dict)
    states: States = field(default_factory=States)
    empty_pages: list[str] = field(default_factory=list)

    def report_empty_pages(self, messages: Messages) -> None:
        for page in self.empty_pages:
            messages.remark(f"{page}: no vulnerabilities in it")


class RangeConflict(Exception):
    """Two advisories have other ranges under the same id of a match."""


@dataclass(frozen=True, slots=True)
class ConvertedAdvisory:
    """What an advisory became before: its id, the records of its statements, its ranges and its details. It may be on a
    page in place of its record."""

    id: str
    records: tuple[str, ...]
    ranges: tuple[Range, ...]
    details: dict[str, Json]


def convert_one(record: Json) -> Advisories:
    """The statements of an advisory whose names all are valid. Nothing is reported."""
    converter = _Converter({}, NoMessages(), is_decided=True)
    converter.take([PlacedRecord(str(record["cve"]["id"]), record, Source(CALLED, ""), 0)])
    return converter.found


def convert(
    feed: Iterable[Page], program: Program, messages: Messages, is_decided: bool, states: States | None = None
) -> Advisories:
    """The statements of the advisories on these pages; advisories without a verdict are added to `states`. Ranges that
    won't be decided (`is_decided`) are remarked. Fatal if there is no advisory. RangeConflict if a cached range differs
    from another one with its id."""
    found = list(feed)
    empty_pages = [page.name for page in found if not page.records]
    if len(empty_pages) == len(found) > 0:
        raise Fatal("; ".join(f"{page}: no vulnerabilities in it" for page in empty_pages))
    states = states or States()
    of_ids: dict[str, list[PlacedRecord]] = {}
    for page in states.sort(latest_records.advisories(found, messages)):
        for placed in page.each(CALLED, _id_of):
            of_ids.setdefault(placed.id, []).append(placed)
    states.drop(of_ids)
    states.report(messages)
    converter = _Converter(
        _bad_names((one.record for of_id in of_ids.values() for one in of_id), program), messages, is_decided
    )
    converter.found.states, converter.found.empty_pages = states, empty_pages
    for of_id in of_ids.values():
        converter.take(of_id)
    return converter.found


def _id_of(record: Json) -> str | None:
    # (pages of the same name may have two at the same place)
    return record.id if isinstance(record, ConvertedAdvisory) else text_at(member(record, "cve"), "id")


def ids_in_order(pages: Iterable[Page]) -> list[str]:
    """What the advisories of pages are called."""
    return [placed.id for page in pages for placed in page.each(CALLED, id_of)]


def _bad_names(vulnerabilities: Iterable[Json], program: Program) -> dict[str, str]:
    """Of the criteria those that are no names, with the reasons of cpe."""
    names: dict[str, None] = {}
    for vulnerability in vulnerabilities:
        for match in _all_matches(vulnerability):
            if isinstance(match, dict) and isinstance(match.get("criteria"), str):
                names[match["criteria"]] = None
    all_names = list(names)
    if not all_names:
        return {}
    asked = (record_text({"do": "lookup", "name": name}) for name in all_names)
    return {all_names[number - 1]: reason for number, reason in refusals(program.lines(["resolve"], asked)).items()}


def _all_matches(vulnerability: Json) -> Iterator[Json]:
    """The matches of whatever is of the published form there."""
    try:
        for configuration in members(member(vulnerability, "cve"), "configurations"):
            waiting = list(members(configuration, "nodes"))
            while waiting:
                node = waiting.pop()
                yield from members(node, "cpeMatch")
                waiting.extend(members(node, "children"))
    except FormFault:
        return


class _Converter:
    """Makes statements of vulnerabilities, one after the other."""

    def __init__(self, bad_names: Mapping[str, str], messages: Messages, is_decided: bool) -> None:
        self._bad_names, self._messages, self._is_decided = bad_names, messages, is_decided
        self._matches: dict[str, Match] = {}
        # (the ids of the matches of what was made before)
        self._made: set[str] = set()
        self._at: PlacedRecord
        self.found = Advisories()

    def take(self, of_id: Sequence[PlacedRecord]) -> None:
        """Takes an advisory, and those of the same id of which isn't known whether they are later."""
        first, *others = of_id
        if isinstance(first.record, ConvertedAdvisory):
            self._take_converted(first, first.record)
            return
        tests = self._tests(first)
        for other in others:
            self._at = other
            more, key = self._tests(other), f"{other.id} {other.source.place(other.number)}"
            what = f"it isn't as {first.source.place(first.number)}, and neither says that it is later"
            if more:
                tests.append({"op": "AND", "of": [{"op": "OR", "of": more}, _check(CONFIGURATION, key)]})
                self._stand_in(other.id, what, key)
            else:
                self._leave_out(other.id, what)
        self._at = first
        if tests:
            self.found.candidates.extend(self._statements(first.id, tests))
            self.found.details[first.id] = details(first.id, first.record["cve"])
            if any(score_of(score) is None for _, _, score, _ in _metrics(first.record["cve"])):
                self._messages.remark("a score that is none is left out", first.id)

    def _take_converted(self, placed: PlacedRecord, made: ConvertedAdvisory) -> None:
        self.found.candidates.extend(candidate_at(placed, made.id, record) for record in made.records)
        self.found.details[made.id] = made.details
        for one in made.ranges:
            # (it has the ids of its own matches, whoever has these too)
            if self.found.ranges.setdefault(one.key, one) != one or one.key in self.found.stand_ins:
                raise RangeConflict
            self._made.add(one.key)

    def _put_range(self, one: Range) -> None:
        if one.key in self._made and self.found.ranges[one.key] != one:
            raise RangeConflict
        self.found.ranges[one.key] = one

    def _put_stand_in(self, key: str, what: str) -> None:
        if key in self._made:
            raise RangeConflict
        self.found.stand_ins[key] = what

    def _leave_out(self, id: str, reason: str) -> None:
        # (among the candidates, so that it is said in its place between what cpe refuses)
        self.found.candidates.append(candidate_at(self._at, id, reason=reason))

    def _tests(self, placed: PlacedRecord) -> list[Test]:
        """A test for each configuration with a vulnerable product; none if the record isn't of the published form."""
        self._at = placed
        try:
            cve = member(placed.record, "cve")
            text_at(cve, "vulnStatus")
            return self._tests_of(placed.id, members(cve, "configurations"))
        except FormFault as fault:
            self._leave_out(placed.id, str(fault) or "not of the published form")
            return []

    def _tests_of(self, id: str, configurations: list[Json]) -> list[Test]:
        if not configurations:
            # (of an id that is none, so that it can't be noted as not analysed)
            self._leave_out(id, "no configurations")
        tests, faults = [], []
        for number, raw in enumerate(configurations, 1):
            try:
                configuration = Configuration.of(raw)
            except FormFault as fault:
                faults.append((number, str(fault) or "not of the published form"))
                tests.append(_check(CONFIGURATION, f"{id} {number}"))
                continue
            if any(match.is_vulnerable for match in configuration.matches()):
                tests.append(self._configuration(id, configuration))
            else:
                self._leave_out(id, "a configuration without a vulnerable product")
        if len(faults) == len(tests) and faults:
            raise FormFault(faults[0][1])
        for number, reason in faults:
            self._stand_in(id, f"configuration {number}, {reason}", f"{id} {number}")
        return tests

    def _stand_in(self, id: str, what: str, key: str) -> None:
        self._put_stand_in(key, what)
        self._leave_out(id, f"{what}: the check {shorten(key)} is in its place")

    def _configuration(self, id: str, configuration: Configuration) -> Test:
        test = _logic(configuration, [self._node(id, node) for node in configuration.nodes])
        if configuration.needs_vulnerable():
            return test
        vulnerable = [self._match(id, match, True) for match in configuration.matches() if match.is_vulnerable]
        return {"op": "AND", "of": [test, {"op": "OR", "of": vulnerable}]}

    def _node(self, id: str, node: Node) -> Test:
        matches = [self._match(id, match) for match in node.matches]
        return _logic(node, [*matches, *(self._node(id, child) for child in node.children)])

    def _match(self, id: str, match: Match, is_told: bool = False) -> Test:
        """The test of a match: its name, with a check if it has bounds; only a check if the name is invalid."""
        bad = "no name" if match.criteria is None else self._bad_names.get(match.criteria)
        if not bad and not match.bounds and not match.doubt:
            return {"fact": match.criteria}
        key = self._key(match)
        if not is_told:
            self._report(id, match, key, bad)
        return _check(MATCH, key) if bad else {"op": "AND", "of": [{"fact": match.criteria}, _check(MATCH, key)]}

    def _key(self, match: Match) -> str:
        """The id of a match's check. No other match has it, and it fits into a line with tabs. (An id with a space is
        of another kind of check: see statement_rewriter.py.)"""
        if (
            match.id
            and match.id.isprintable()
            and " " not in match.id
            and _same(self._matches.setdefault(match.id, match), match)
        ):
            return match.id
        text = match.text()
        return f"match {text}" if text.startswith(("not ", "part ")) else text

    def _report(self, id: str, match: Match, key: str, bad: str | None) -> None:
        fault = match.fault()
        if match.doubt and not bad:
            # (it was read, and is UNKNOWN since it says so)
            self._put_stand_in(key, f"{shorten(match.criteria)}: {match.doubt}")
        elif bad or fault:
            self._stand_in(id, f"{bad or fault}: {shorten(match.text())}", key)
        else:
            self._put_range(match.range(key))
            if not self._is_decided:
                bounds = match.range(key).words()
                what = f"versions of {shorten(match.criteria)} {shorten(bounds)}"
                self._messages.remark(f"{what}: the check {shorten(key)} is in their place", id)

    def _statements(self, id: str, tests: list[Test]) -> Iterator[Candidate]:
        """A statement, or several if it has more names than fit into a line."""
        made: list[str] = []
        whole = {"op": "OR", "of": tests}
        record = record_text(_statement(id, whole))
        # (nearly all are far shorter than a line, in which a letter has four bytes at most)
        if len(record) * 8 < MOST_BYTES:
            return iter((candidate_at(self._at, id, record),))
        for test in parts(whole, _room(id)):
            if len(record_text(test).encode()) > _room(id):
                key = f"{id} #{len(made) + 1}"
                self._stand_in(id, "logic that is longer than a line, and can't be taken apart", key)
                test = {"op": "OR", "of": [_check(CONFIGURATION, key)]}
            name = f"{id}#{len(made) + 1}" if made else id
            made.append(record_text(_statement(name, test)))
        return (candidate_at(self._at, id, record) for record in made)


def _same(one: Match, other: Match) -> bool:
    return (one.criteria, one.bounds, one.doubt) == (other.criteria, other.bounds, other.doubt)


def _statement(id: str, test: Test) -> dict[str, Json]:
    return {"do": "statement", "id": id, "mode": "follow", "test": test}


def _room(id: str) -> int:
    """How many bytes the test of a statement may have, with room for the number of a part, and for what it is asked
    with."""
    return MOST_BYTES - _ROOM_TO_ASK - len(record_text(_statement(f"{id}#1000000", {})).encode())


def _check(href: str, key: str) -> Test:
    return {"check": {"system": SYSTEM, "href": href, "id": key}}


def _logic(logic: Node | Configuration, children: list[Test]) -> Test:
    negation = {"negate": True} if logic.is_negated else {}
    return {"op": logic.operator, **negation, "of": children}


def parts(test: Test, most: int) -> list[Test]:
    """Splits a test into tests of at most this many bytes. The test is TRUE exactly if one of them is TRUE. A part that
    can't be split is longer. A test that needs more than MOST_PARTS parts stays whole."""
    done: list[Test] = []
    left = [test]
    while left:
        if len(done) + len(left) > MOST_PARTS:
            return [test]
        part = left.pop()
        halves = _halves(part) if len(record_text(part).encode()) > most else []
        if halves:
            left.extend(reversed(halves))
        else:
            done.append(part)
    return done


def _halves(test: Test) -> list[Test]:
    """Two tests of about the same length whose OR is this one; None if there are none."""
    if "op" not in test:
        return []
    is_negated, children = test.get("negate", False), test["of"]
    if (test["op"] == "OR") != is_negated:
        if len(children) > 1:
            middle = len(children) // 2
            return [{**test, "of": children[:middle]}, {**test, "of": children[middle:]}]
        inner = [] if is_negated else _halves(children[0])
        return [{**test, "of": [half]} for half in inner]
    if is_negated:
        return []
    for place in sorted(range(len(children)), key=lambda k: -len(record_text(children[k]))):
        inner = _halves(children[place])
        if inner:
            return [{**test, "of": [*children[:place], half, *children[place + 1 :]]} for half in inner]
    return []


def base_id(id: str) -> str:
    """The id of the advisory to which a statement belongs."""
    return _PART.sub("", id)


def details(id: str, cve: Json) -> dict[str, Json]:
    """The title, score and so on of an advisory; a member that the feed lacks, or has in another form, is missing."""
    published = _found(lambda: text_at(cve, "published"))
    known = {"id": id, "title": _title(cve), **_score(cve), "published": published, "url": _url(id, cve)}
    return {key: value for key, value in known.items() if value is not None}


def _found(ask: Callable[[], Json]) -> Json:
    try:
        return ask()
    except FormFault:
        return None


def _title(cve: Json) -> str | None:
    """The description in English, or else the first, in one line."""
    texts = (
        _found(lambda: [(text_at(one, "lang"), text_at(one, "value")) for one in members(cve, "descriptions")]) or []
    )
    for lang, value in [pair for pair in texts if pair[0] == "en"] + texts:
        if value and value.strip():
            return " ".join(value.split())
    return None


def _score(cve: Json) -> dict[str, Json]:
    """The score of NVD, or else that of another source, by the newest version of CVSS in which there is one."""
    found = [one for one in _metrics(cve) if score_of(one[2]) is not None]
    if not found:
        return {}
    _, _, score, severity = min(found, key=lambda one: one[:2])
    return {"score": score, "severity": severity if isinstance(severity, str) else None}


def _metrics(cve: Json) -> Iterator[tuple[bool, int, Json, Json]]:
    """Of each metric whether it is of another source than NVD, the place of its version of CVSS, its score and
    severity."""
    metrics = _found(lambda: member(cve, "metrics")) or {}
    for place, version in enumerate(SCORES):
        if isinstance(metrics, dict) and version not in metrics:
            continue
        for metric in _found(lambda: members(metrics, version)) or []:
            data = _found(lambda: member(metric, "cvssData"))
            if isinstance(data, dict) and "baseScore" in data:
                severity = data.get("baseSeverity") or metric.get("baseSeverity")
                yield metric.get("type") != "Primary", place, data["baseScore"], severity


def _url(id: str, cve: Json) -> str | None:
    if re.fullmatch(r"CVE-\d{4}-\d{4,}", id):
        return f"https://nvd.nist.gov/vuln/detail/{id}"
    urls = _found(lambda: [text_at(one, "url") for one in members(cve, "references")]) or []
    return next((url for url in urls if url), None)


def run(words: Sequence[str]) -> int:
    arguments = read_arguments(words, {"--ranges": ONE, "--details": ONE, **completeness.OPTIONS}, USAGE)
    messages, output, program = Messages(), Output(), Program()
    feed = completeness.pages(arguments.files, messages, KINDS, reading=completeness.ReadingPolicy.of(arguments))
    found = convert(feed, program, messages, arguments.has("--ranges"))
    found.report_empty_pages(messages)
    records = program.accept_statements(found.candidates, messages)
    if len(records) > MOST.statements:
        messages.remark(
            f"{len(records):,} statements are more than cpe takes at once, {MOST.statements:,}; products.sh cuts them, scan.py asks in portions"
        )
    output.lines(records)
    ranges, details_to = arguments.one("--ranges"), arguments.one("--details")
    if ranges is not None:
        write_file(ranges, [record_text(one.record()) for one in found.ranges.values()])
    if details_to is not None:
        write_file(details_to, [record_text(one) for one in found.details.values()])
    output.end()
    return messages.status()
