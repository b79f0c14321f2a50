"""Writes which advisories affect which machine, from feeds and software lists.

    python3 scan.py --store FOLDER [--fresh] | --dictionary FILE.. --advisories FILE.. [--matches FILE..]
        | --records FILE.. --advisories FILE.. [--matches FILE..]
        --machines FILE | --lists FILE.. [--names FILE] [--suppress FILE] [--settled FILE] [--letters FILE] [--partial] [--large]
        [--strict] [--platform NAME] [--hardware none] [--all] [--json | --format FORMAT] [--time TIME] [--why] [--kev FILE] [--epss FILE]
        [--fail-on GATE].. [--since FILE]

What is read:

- --dictionary, --advisories, --matches: pages of NVD's API 2.0, or its feeds, plain, packed or in archives. Advisories
  may be CVE records of format 5 too (cve5.py).
- --records, in place of --dictionary: the output of dictionary.sh.
- --store, in place of all feeds: a folder in which store.py keeps feeds. The scan reads only what concerns the
  machines. With --fresh the scan decides all verdicts again.
- --lists: software lists, one for each machine: CycloneDX, SPDX, Syft's and Trivy's JSON, plain lists of names or
  package URLs, and the output of package managers (lists/).
- --machines, in place of --lists: the output of inventory.sh --machines.
- --partial: pages of a feed may be missing. Missing pages are reported, and each FALSE that may be another verdict for
  this reason is marked.
- --large: a page may unpack to any size; unpack.py has the limits without this option.

What you know in addition:

- --names: tables with CPE names of packages (names_table.py). These tables are used before names.txt.
- --letters: the products in whose versions letters count upward, in place of letters.txt.
- --platform NAME: the operating system of the machines whose lists name none; platforms.py says what is FALSE without
  this option.
- --hardware none: the machines have no hardware of their own, as in containers. Without this option a verdict is
  UNKNOWN if it depends on hardware that a list doesn't name.
- --suppress: accepted advisories, lines `ID MACHINE REASON`; * is every machine. Accepted advisories are written below
  the table.
- --settled: UNKNOWNs that a user settled, lines `MACHINE ID TRUE|FALSE REASON`; * is every machine (settlements.py).
- --kev, --epss: CISA's list of known exploited vulnerabilities, and EPSS (threats.py).

What is written:

- --all: also the verdicts that are FALSE, and below the table the advisories that aren't analysed.
- --strict: a verdict is FALSE, but counted as `perhaps`, if it would be UNKNOWN only because an item says less than an
  advisory asks for.
- --format: table, json, csv, sarif, cyclonedx-vex or openvex (formats/). --json is --format json, which report.py
  reads. --time is the time written in the result.
- --why: the items that make a verdict TRUE (`decidedBy`), in all forms except the table (explanations.py).
- --fail-on: the status is 3 if a verdict fits one of these gates (gate_grammar.py, gate_check.py). --since is the
  earlier result for the term `new` of a gate.

If there are more statements than cpe can take, the scan passes them to cpe in portions; the verdicts are the same
(portions.py). In this case, and always with a store, advisories that can't concern any of the machines are FALSE
without being evaluated (concern.py). With --all these advisories are evaluated too.

A statement holds for a machine if it holds by the written names of items and facts, or by the names to which the
dictionary leads from these (name_finder.py). A negated test holds only if it holds by all these names (negations.py).
If a component has several names, a verdict is TRUE if one of them makes it TRUE, and FALSE only if all make it FALSE.

What a list doesn't say is UNKNOWN. A fact may match an item that is known in part (its name has a pattern). A fact may
also match an item that says less than the fact, such as a plugin without its platform. reasons.py writes the missing
attributes beside the verdict. Such verdicts are counted separately, as `perhaps`; by NIST IR 7696 they are FALSE. If no
version that an item may have is in a range, the range is FALSE for the item (range_checks.py).

The status is 0 if every verdict is written and nothing was left out. Status 1 means that something was left out, which
is reported. Status 2 means no result; only the reason is written. Status 3 means that a verdict fits a gate, even if
something was left out.
"""
from __future__ import annotations

import itertools
from collections.abc import Callable, Collection, Iterable, Iterator, Mapping, Sequence
from dataclasses import dataclass, field

from . import (
    advisories,
    affected,
    dictionary,
    formats,
    gate_check,
    hints,
    latest_records,
    matches,
    platforms,
    portions,
    products,
    suppressions,
    threats,
)
from . import completeness, unlisted, verdicts
from .advisory_states import States
from .arguments import FLAG, MANY, ONE, Arguments, read_arguments
from .cases import Cases, FeedData, Index, Items, Results, lines_of, portions_of, verdicts_of
from .components import Machine
from .console import Fatal, Messages, NoMessages, Output, RecordedMessages
from .difference import Difference, ScanPlan
from .earlier_scans import ScanBasis, checksum_of
from .explanations import BatchExplainer, Explainer, ExplanationRequest
from .feeds import FeedFault, Json, Page, name_of, read_feed, text_lines
from .formats import Form
from .gate_check import GateCheck
from .item_names import Certainty, ItemName
from .leads import Leads, leads_in, leads_of
from .machines import read_lists, read_machines
from .name_finder import FactAttributes, NameFinder, group_matches_by_name
from .names_table import Tables
from .near_products import Product
from .negations import Negations, has_hardware
from .outcome import (
    MOST_ALIKE,
    EarlierRows,
    MachineOutcome,
    OutcomeReasons,
    json_of,
    machines_with_verdicts,
    report_items,
)
from .package_names import UnnamedPackages, name_machines, read_names
from .persistent_run import PersistentProgram, drop_lines
from .program import Candidate, Program
from .progress import Progress
from .range_checks import MatchLists, RangeIndex, decide_checks
from .reasons import Reasons
from .scan_recorder import ScanRecorder, ScanState
from .settlements import read_settlements
from .store_reader import StoreExtract, StoreReader
from .threats import Threats
from .versions import LETTERS_FILE, Letters, read_letters

USAGE = (
    "scan.py --store FOLDER | --dictionary FILE.. | --records FILE.. --advisories FILE.. [--matches FILE..] "
    "--machines FILE | --lists FILE.. [--names FILE] [--suppress FILE] [--settled FILE] [--letters FILE] [--partial] [--large] "
    "[--strict] [--platform NAME] [--hardware none] [--all] [--json | --format FORMAT] [--time TIME] [--why] [--kev FILE] [--epss FILE] "
    "[--fail-on GATE].. [--since FILE]"
)
OPTIONS = {
    "--store": ONE,
    "--fresh": FLAG,
    "--dictionary": MANY,
    "--records": MANY,
    "--advisories": MANY,
    "--matches": MANY,
    "--machines": ONE,
    "--lists": MANY,
    "--names": ONE,
    "--suppress": ONE,
    "--settled": ONE,
    "--letters": ONE,
    "--all": FLAG,
    "--why": FLAG,
    "--strict": FLAG,
    "--platform": ONE,
    "--hardware": ONE,
    **completeness.OPTIONS,
    **formats.OPTIONS,
    **threats.OPTIONS,
    **gate_check.OPTIONS,
}


class Scan:
    """Finds the verdicts of machines over the contents of the feeds."""

    def __init__(
        self,
        program: Program,
        feed_data: FeedData,
        lists: MatchLists,
        letters: Letters,
        progress: Progress,
        has_why: bool = False,
        is_strict: bool = False,
        has_hardware: bool = True,
    ) -> None:
        self._program, self._feed_data, self._lists, self._letters, self._progress = (
            program,
            feed_data,
            lists,
            letters,
            progress,
        )
        self.explainer: Explainer | None = BatchExplainer(program, feed_data, lambda: self._leads) if has_why else None
        self._is_strict, self._has_hardware = is_strict, has_hardware
        self.bare: list[str] = []
        self.successors: dict[Product, list[Product]] = {}
        self.name_finder: NameFinder | None = None
        self._leads = Leads()

    def machines(self, machines: Sequence[Machine], is_all_asked: bool = False) -> list[MachineOutcome]:
        """The outcomes of the machines. With is_all_asked all statements are evaluated for each machine, which takes
        longer and has the same outcome."""
        name_finder = self.name_finder = self._lead(
            dict.fromkeys(name for machine in machines for name in machine.asked_names())
        )
        outcomes = [self._outcome(machine, name_finder) for machine in machines]
        self._decide(outcomes, is_all_asked)
        return outcomes

    def _outcome(self, machine: Machine, name_finder: NameFinder) -> MachineOutcome:
        """Where the names of a machine lead. It has no items where none of its components has a name, be its platform
        known."""
        if not any(name in self._leads.found for name in machine.own_names()):
            return MachineOutcome(machine, [])
        found = [(one.kind, leads_in(self._leads, one)) for one in machine.all()]
        components = {(kind, tuple((lead.name, lead.why) for lead in leads)): leads for kind, leads in found if leads}
        leads = {lead.name: lead for of_one in components.values() for lead in of_one if not lead.why}
        listed = [[lead for lead in of_one if not lead.why] for of_one in components.values()]
        unlisted = [of_one for of_one in listed if of_one and not any(lead.is_entry for lead in of_one)]
        of_components = list(components.values())
        return MachineOutcome(
            machine, list(leads.values()), of_components, unlisted, name_finder.of_components(of_components)
        )

    @property
    def leads(self) -> Leads:
        """Where the names of the last machines lead."""
        return self._leads

    def report_items(self, outcomes: Sequence[MachineOutcome], messages: Messages, hint: str) -> None:
        report_items(outcomes, self._leads.refused, self.successors, messages, hint)

    def _lead(self, items: Collection[str]) -> NameFinder:
        """Where the names lead; and which names the items have."""
        self._progress.step("following names in the dictionary")
        entries, facts = self._feed_data.entries, self._feed_data.facts()
        self._leads = leads_of(
            self._program, entries, items, dict.fromkeys([*facts, *unlisted.deprecated_names(entries)])
        )
        self.successors = unlisted.successors(entries, self._leads)
        feed = group_matches_by_name(self._lists, self._feed_data.ranges, self._leads)
        fact_attributes = FactAttributes(self._leads.found[fact].name for fact in dict.fromkeys(facts))
        own = {lead.name: lead for item in items if (lead := self._leads.found.get(item))}
        old = [self._leads.found[name] for name in unlisted.deprecated_names(entries) if name in self._leads.found]
        return NameFinder(self._program, entries, self._leads, old, own.values(), feed, fact_attributes, self._letters)

    def _decide(self, outcomes: Sequence[MachineOutcome], is_all_asked: bool) -> None:
        """Finds the results of checks, and the verdicts."""
        self._progress.step("deciding ranges of versions")
        cases = Cases(self._feed_data, self._index(), is_all_asked)
        items = list(dict.fromkeys(it.name for one in outcomes for it in one.item_names))
        range_index = self._decider(items)
        negated = list(self._feed_data.negated.values())
        negations = Negations(self._program, negated, self._leads, items, range_index, self._lists, self._has_hardware)
        asked = [self._put_cases(one, range_index, negations, cases) for one in outcomes]
        truths = self._ask(cases.in_order())
        for one, of_machine in zip(outcomes, asked):
            self._put(one, of_machine, truths)
        Reasons(self._program, self._feed_data, self._leads).put(outcomes)
        if self.explainer is not None:
            reasons = self.explainer.explain_machines(
                [ExplanationRequest(one.asked, one.check_results, one.places_of("TRUE")) for one in outcomes]
            )
            for done, (one, of_one) in enumerate(zip(outcomes, reasons, strict=True)):
                self._progress.count("asking which items decide", done, len(outcomes))
                one.explanations = of_one
        for one in outcomes:
            one.note_backports(self._feed_data.statements, lambda fact: self._leads.found[fact].name)
            # (what is decided is in the verdicts, and would be much beside them)
            one.check_results.clear()

    def _put_cases(
        self, one: MachineOutcome, range_index: RangeIndex, negations: Negations, cases: Cases
    ) -> _MachineCases:
        """Adds the cases of a machine."""
        sure = [it for it in one.item_names if it.certainty is not Certainty.LESS]
        less = [it for it in one.item_names if it.certainty is Certainty.LESS]
        check_results = decide_checks(sure, range_index, self._lists)
        both = check_results.join(decide_checks(less, range_index, self._lists)) if less else check_results
        negations.put(one.components, sure, check_results)
        asked = _MachineCases(cases.put(sure, check_results) if one.has_items() else {})
        if less:
            negations.put(one.components, one.item_names, both)
            asked.beside.update(cases.put(one.item_names, both))
        one.asked, one.check_results = (sure, check_results) if self._is_strict else (one.item_names, both)
        return asked

    def _ask(self, cases: Sequence[tuple[Items, Results, int, int]]) -> dict[int, str]:
        """The truths of the cases, by their numbers. The truths of the statements without items are put into `bare`."""
        self._progress.step("asking for verdicts")
        truths: dict[int, str] = {}
        self.bare = []
        for portion in portions_of(self._feed_data):
            of_portion = [case for case in cases if case[2] in portion]
            asked = lines_of(self._feed_data, portion, of_portion)
            # (the run may be asked for more after that)
            drops = drop_lines(self._feed_data.statements[place].id for place in portion)
            answers = verdicts_of(self._program.lines(["resolve"], itertools.chain(asked, drops)))
            self.bare += [_next(answers) for _ in portion]
            for _, _, _, number in of_portion:
                truths[number] = _next(answers)
                self._progress.count("asking for verdicts", len(truths), len(cases))
            for answer in answers:
                raise Fatal(f"cpe answered more than was asked: {answer}")
        return truths

    # A scan that keeps what it learned for the next machines puts its own in place of these two, and of _lead and _ask.

    def _index(self) -> Index:
        """The statements by what they ask for."""
        return Index(self._feed_data, self._leads)

    def _decider(self, ends: Iterable[str]) -> RangeIndex:
        """How these names relate to the ranges."""
        return RangeIndex(self._program, self._feed_data.ranges.values(), self._leads, ends, self._letters)

    def _put(self, one: MachineOutcome, asked: _MachineCases, truths: Mapping[int, str]) -> None:
        """Puts verdicts of a machine. A verdict is UNKNOWN if it differs because an item lacks an attribute."""
        one.truths.update((place, truths[number]) for place, number in asked.plain.items())
        for place, number in asked.beside.items():
            truth = one.truths.setdefault(place, self.bare[place])
            if truths[number] != truth:
                one.less.add(place)
                one.truths[place] = truth if self._is_strict else truths[number]


@dataclass(frozen=True)
class _MachineCases:
    """What is asked of a machine: the cases by the places of statements; and beside them those with what its items say
    too little of."""

    plain: dict[int, int]
    beside: dict[int, int] = field(default_factory=dict)


class _PartialScan(Scan):
    """Decides the verdicts that may have changed since an earlier scan; the names of items are known."""

    def prepare(self, prepared: ScanPlan) -> None:
        self._prepared = prepared

    def _lead(self, items: Collection[str]) -> NameFinder:
        self._leads, self.successors = self._prepared.leads, self._prepared.successors
        return self._prepared.name_finder


def _next(answers: Iterator[str]) -> str:
    answer = next(answers, None)
    if answer is None:
        raise Fatal("cpe answered less than was asked")
    return answer


def read_entries(
    arguments: Arguments, program: Program, messages: Messages, reading: completeness.ReadingPolicy
) -> list[str]:
    """The records of the dictionary. Fatal if one can't be read, or if there is no entry."""
    candidates = _records(arguments.many("--records"))
    if arguments.has("--dictionary"):
        candidates += dictionary.candidates_of(arguments.many("--dictionary"), messages, strict=True, reading=reading)
    entries = program.accept_entries(candidates, messages)
    if not entries:
        raise Fatal("no entry is in the dictionary")
    return entries


def read_feed_data(
    arguments: Arguments,
    entries: list[str],
    asked: Sequence[Machine],
    program: Program,
    messages: Messages,
    progress: Progress,
    reading: completeness.ReadingPolicy,
) -> tuple[FeedData, States]:
    """The contents of the feeds, and which advisories have no verdict. Fatal if a feed can't be read, or if there is no
    statement."""
    progress.step("reading advisories")
    states = States()
    feed = list(
        completeness.pages(arguments.many("--advisories"), messages, advisories.KINDS, strict=True, reading=reading)
    )
    cut, order = products.Cut([], {}), list[str]()
    # (if all is to be listed, all is asked)
    if _count(feed) > portions.MOST.statements and not arguments.has("--all"):
        feed = [page for page in states.sort(latest_records.advisories(feed, messages)) if page.records]
        if _count(feed) > portions.MOST.statements:
            order = advisories.ids_in_order(feed)
            # (what isn't right in the match feed is said when it is read for the ranges)
            matched = arguments.many("--matches")
            listed = (
                completeness.pages(matched, NoMessages(), matches.KINDS, strict=True, reading=reading.again())
                if matched
                else ()
            )
            cut = of_products(feed, listed, asked, entries, program, messages)
            feed = cut.pages
    found = advisories.convert(feed, program, messages, is_decided=True, states=states)
    found.report_empty_pages(messages)
    records = program.accept_statements(found.candidates, messages)
    if not records and not cut.elsewhere:
        none = f"; not analysed: {len(states.unanalysed):,}" if states.unanalysed else ""
        raise Fatal(
            f"no advisory that can have a verdict is in {', '.join(map(name_of, arguments.many('--advisories')))}{none}"
        )
    return FeedData(entries, records, found.ranges, found.details, found.stand_ins, cut.elsewhere, order), states


def of_products(
    feed: Sequence[Page],
    listed: Iterable[Page],
    asked: Iterable[Machine],
    entries: Sequence[str],
    program: Program,
    messages: Messages,
) -> products.Cut:
    """The advisories that may concern a product of the machines, if there are more than cpe takes at once; the others
    are FALSE on each machine. `listed` are the pages of the match feed."""
    items = dict.fromkeys(name for machine in asked for name in machine.asked_names())
    leads = leads_of(program, entries, items, unlisted.deprecated_names(entries))
    wanted = products.products_of(leads, items, entries)
    before, found = _count(feed), products.Cut.of(feed, wanted, matches.find_listing_matches(listed, wanted))
    messages.remark(
        f"{found.count()} of {before} advisories may concern a product of these machines; the others are FALSE there"
    )
    return found


def _count(feed: Iterable[Page]) -> int:
    return sum(len(page.records) for page in feed)


def _records(paths: Sequence[str]) -> list[Candidate]:
    """The entries and deprecations that dictionary.sh wrote."""
    candidates = []
    for path in paths:
        feed = name_of(path)
        try:
            lines = text_lines(read_feed(path).decode(errors="backslashreplace"))
        except FeedFault as fault:
            raise Fatal(f"{feed}: {fault}") from fault
        candidates += [Candidate(f"{feed} line {number}", line) for number, line in enumerate(lines, 1) if line.strip()]
    return candidates


def read_scan_machines(arguments: Arguments, messages: Messages) -> list[Machine]:
    """The machines; those whose lists name no operating system get that of --platform."""
    path, platform = arguments.one("--machines"), arguments.one("--platform")
    machines = read_lists(arguments.many("--lists"), messages) if path is None else read_machines(path, messages)
    if platform is not None:
        platforms.give(machines, platform)
    return machines


def run(words: Sequence[str]) -> int:
    arguments = read_arguments(words, OPTIONS, USAGE)
    one_of = [("--dictionary", "--records", "--store"), ("--advisories", "--store"), ("--machines", "--lists")]
    form = Form.of(arguments)
    is_odd = arguments.has("--machines") and arguments.has("--lists") or arguments.has("--why") and form.is_table()
    is_odd = is_odd or arguments.has("--fresh") and not arguments.has("--store")
    is_odd = (
        is_odd
        or arguments.has("--store")
        and any(map(arguments.has, ("--dictionary", "--records", "--advisories", "--matches")))
    )
    if arguments.files or is_odd or not all(any(map(arguments.has, options)) for options in one_of):
        raise Fatal(f"usage: {USAGE}")
    with PersistentProgram() as program, Progress() as progress:
        messages = RecordedMessages(before=progress.clear, most_alike=MOST_ALIKE)
        beside = Threats.of(arguments, messages)
        gates = GateCheck.of(arguments, beside)
        result = _result(arguments, program, messages, progress, beside)
        lines = _lines(form, result, messages)
        does_fit = gates.fit(result.machines, result.about, messages)
        messages.report_others()
    output = Output()
    output.lines(lines)
    output.end()
    result.keep()
    return gate_check.FITS if does_fit else messages.status()


@dataclass(frozen=True)
class _Result:
    """The outcomes of the machines, with everything that is written beside them."""

    feed_data: FeedData
    states: States
    reading: completeness.ReadingPolicy
    outcomes: list[MachineOutcome]
    machines: list[verdicts.Machine]
    about: affected.AdvisoryContext
    unnamed: UnnamedPackages
    keep: Callable[[], None]

    def asked(self) -> Collection[str]:
        """The ids of the advisories that have verdicts."""
        return self.feed_data.advisories()


def _result(
    arguments: Arguments, program: Program, messages: RecordedMessages, progress: Progress, beside: Threats
) -> _Result:
    progress.step("reading what the machines have")
    accepted = suppressions.read_suppressions(arguments.many("--suppress"), messages)
    settlements = read_settlements(arguments.many("--settled"), messages)
    letters = read_letters(arguments.one("--letters") or LETTERS_FILE)
    asked = read_scan_machines(arguments, messages)
    reading = completeness.ReadingPolicy.of(arguments)
    tables = read_names(arguments.many("--names"), asked)
    given = _ScanInput(
        arguments, program, messages, progress, reading, letters, asked, {*settlements.ids(), *accepted.ids()}
    )
    taken = _of_store(given, tables) if arguments.has("--store") else _of_feeds(given, tables)
    feed_data, scan = taken.feed_data, taken.scan
    outcomes = scan.machines(asked)
    hint = hints.unlisted_command(arguments)
    scan.report_items(outcomes, messages, hint)
    taken.unnamed.report(messages, hint)
    platforms.remark_silent([one.machine for one in outcomes if one.has_items()], feed_data, messages)
    machines = machines_with_verdicts(feed_data, scan.bare, outcomes, taken.rows)
    verdict_reasons = OutcomeReasons(feed_data, outcomes, taken.rows)
    keep = taken.keep(outcomes, machines, verdict_reasons, messages)
    settlements.settle(machines, messages)
    if arguments.has("--all"):
        for machine in machines:
            machine.show_all()
    about = affected.AdvisoryContext(feed_data.details, accepted, verdict_reasons, reading.doubts(), beside)
    return _Result(feed_data, taken.states, reading, outcomes, machines, about, taken.unnamed, keep)


@dataclass(frozen=True)
class _ScanInput:
    """The input of a scan, and the ids of settled or accepted advisories."""

    arguments: Arguments
    program: Program
    messages: RecordedMessages
    progress: Progress
    reading: completeness.ReadingPolicy
    letters: Letters
    asked: Sequence[Machine]
    ids: Collection[str]

    def scan(self, feed_data: FeedData, lists: MatchLists, of: type[Scan] = Scan) -> Scan:
        arguments = self.arguments
        return of(
            self.program,
            feed_data,
            lists,
            self.letters,
            self.progress,
            arguments.has("--why"),
            arguments.has("--strict"),
            has_hardware(arguments),
        )


@dataclass(frozen=True)
class _ScanSetup:
    """The data of a scan. From a store also the verdicts of an earlier scan, and the recorder of this one."""

    feed_data: FeedData
    states: States
    unnamed: UnnamedPackages
    scan: Scan
    rows: EarlierRows = field(default_factory=dict)
    keeping: ScanRecorder | None = None
    store: StoreExtract | None = None
    doubts: Sequence[str] = ()

    def keep(
        self,
        outcomes: Sequence[MachineOutcome],
        machines: Sequence[verdicts.Machine],
        verdict_reasons: OutcomeReasons,
        messages: RecordedMessages,
    ) -> Callable[[], None]:
        """What keeps the verdicts, before any is settled; it is called when the result is written."""
        keeping, store, scan = self.keeping, self.store, self.scan
        if keeping is None or store is None or scan.name_finder is None:
            return lambda: None
        scan_state = ScanState(
            self.feed_data,
            scan.leads,
            scan.name_finder,
            scan.successors,
            outcomes,
            verdict_reasons,
            store.placed,
            store.is_whole,
        )
        states = {id: f"not analysed: {state}" for id, state in self.states.unanalysed.items()}
        states |= dict.fromkeys(self.states.rejected, "rejected")
        reasons = {id: f"left out: {reason}" for id, reason, _ in messages.noted}
        after = verdicts.Verdicts(list(machines), 0, True, reasons, states, list(self.doubts), "it isn't in the feeds")
        fleet = keeping.fleet(scan_state, machines, after)
        return lambda: keeping.put(fleet, messages)


def _of_feeds(given: _ScanInput, tables: Tables) -> _ScanSetup:
    arguments, program, messages, progress = given.arguments, given.program, given.messages, given.progress
    progress.step("reading the dictionary")
    entries = read_entries(arguments, program, messages, given.reading)
    unnamed = name_machines(given.asked, tables, entries)
    feed_data, states = read_feed_data(arguments, entries, given.asked, program, messages, progress, given.reading)
    progress.step("reading the match feed")
    matched = arguments.many("--matches")
    feed = completeness.pages(matched, messages, matches.KINDS, strict=True, reading=given.reading) if matched else []
    lists = MatchLists(program, matches.read_match_lists(feed, feed_data.ranges.keys(), messages))
    return _ScanSetup(feed_data, states, unnamed, given.scan(feed_data, lists))


def _of_store(given: _ScanInput, tables: Tables) -> _ScanSetup:
    arguments, program, asked = given.arguments, given.program, given.asked
    folder, is_all = str(arguments.only("--store")), arguments.has("--all")
    given.progress.step("reading the store")
    with StoreReader(folder, program, given.messages, given.reading).open() as store:
        unnamed = store.name_packages(asked, tables)
        keeping = None if is_all else ScanRecorder(folder, _basis_of(given, store), [machine.name for machine in asked])
        if keeping is not None and keeping.earlier is not None and not arguments.has("--fresh"):
            prepared = Difference(store, keeping.earlier, asked, program, given.letters).plan(given.ids)
            if prepared is not None:
                extract = prepared.extract
                scan = given.scan(extract.feed_data, prepared.lists, _PartialScan)
                scan.prepare(prepared)
                return _ScanSetup(
                    extract.feed_data,
                    extract.states,
                    unnamed,
                    scan,
                    prepared.rows,
                    keeping,
                    extract,
                    given.reading.doubts(),
                )
        extract = store.take(asked, given.ids, is_all)
        lists = MatchLists(program, store.match_lists(extract.feed_data.ranges.keys()))
    return _ScanSetup(
        extract.feed_data,
        extract.states,
        unnamed,
        given.scan(extract.feed_data, lists),
        {},
        keeping,
        extract,
        given.reading.doubts(),
    )


def _basis_of(given: _ScanInput, store: StoreReader) -> ScanBasis:
    """The basis of all verdicts of this scan."""
    options = [given.arguments.has(option) for option in ("--why", "--strict")] + [given.arguments.one("--hardware")]
    return ScanBasis(checksum_of(given.program, given.letters, options), *store.pages())


def _lines(form: Form, result: _Result, messages: RecordedMessages) -> list[str]:
    """The lines of the result, after all its messages were written."""
    states, reading, about = result.states, result.reading, result.about
    left_out = (id for id, _, _ in messages.noted)
    about.threats.report(set(result.asked()), {*states.unanalysed, *states.rejected, *left_out}, messages)
    if form.is_table():
        lines = list(affected.table_of(verdicts.Verdicts(result.machines), about))
        lines += [*reading.lines(), *(states.lines() if form.is_all else ())]
    else:
        value: dict[str, Json] = reading.mark(
            json_of(result.feed_data, result.outcomes, result.machines, about, result.unnamed, about.verdict_reasons)
        )
        value |= states.json(result.asked()) | about.threats.about()
        value["leftOut"] = messages.json()
        lines = form.lines(value)
    about.suppressions.report_unused(messages)
    return lines
