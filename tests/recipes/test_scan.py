"""The whole way, by the program that CPE names; without it these tests are skipped."""
import io
import json
import os
import random
import re
import sys
import tempfile
import unittest
from pathlib import Path
from unittest import mock
from dataclasses import replace

sys.path.insert(0, str(Path(__file__).resolve().parent))

from stand_in import Heard  # noqa: E402 (it knows where the recipes are)
from cpe_recipes import affected, fleet, portions, scan, verdicts  # noqa: E402
from cpe_recipes.advisories import Range  # noqa: E402
from cpe_recipes.arguments import read_arguments  # noqa: E402
from cpe_recipes.cases import FeedData  # noqa: E402
from cpe_recipes.components import Component, Machine  # noqa: E402
from cpe_recipes.console import Fatal, Messages  # noqa: E402
from cpe_recipes.feeds import record_text  # noqa: E402
from cpe_recipes.outcome import OutcomeReasons, json_of, machines_with_verdicts  # noqa: E402
from cpe_recipes.program import Program  # noqa: E402
from cpe_recipes.progress import Progress  # noqa: E402
from cpe_recipes.range_checks import MatchLists  # noqa: E402
from cpe_recipes.scan import Scan  # noqa: E402
from cpe_recipes.session import Session  # noqa: E402
from cpe_recipes.suppressions import SuppressionLine, Suppressions  # noqa: E402
from cpe_recipes.versions import Letters  # noqa: E402

NO_LETTERS = Letters({})
SAMPLES = Path(__file__).resolve().parents[2] / "recipes" / "samples" / "ranges"


def name(vendor, product, version="*"):
    return f"cpe:2.3:a:{vendor}:{product}:{version}:*:*:*:*:*:*:*"


def entry(it):
    return record_text({"do": "entry", "name": it})


def deprecate(old, *new):
    kind = ("NAME_REMOVAL", "NAME_CORRECTION", "ADDITIONAL_INFORMATION")[min(len(new), 2)]
    return record_text({"do": "deprecate", "name": old, "kind": kind, "successors": list(new), "date": "2024-01-01"})


def statement(id, *children, op="OR", negate=False):
    return record_text({"do": "statement", "id": id, "mode": "follow", "test": {"op": op, "negate": negate, "of": list(children)}})


def ranged(one):
    return {"op": "AND", "of": [{"fact": one.criteria}, {"check": {"system": "NVD", "href": "cpeMatch", "id": one.key}}]}


def scanned(known, machines, listed=None, has_why=False, is_strict=False, has_hardware=True, **more):
    program = Program()
    progress = Progress(is_shown=False)
    made = Scan(program, known, MatchLists(program, listed or {}), NO_LETTERS, progress, has_why, is_strict, has_hardware)
    return made, made.machines(machines, **more)


def truths(known, made, found):
    """All verdicts of a machine, by the ids of statements."""
    return {one.id: found.truths.get(place, made.bare[place]) for place, one in enumerate(known.statements)}


def evaluated(known, machine, mode):
    """The verdicts of cpe for a machine, if all statements are in this mode."""
    records = [record.replace('"mode":"follow"', f'"mode":"{mode}"') for record in known.records]
    items = [record_text({"do": "item", "name": item}) for item in machine.items]
    lines = Program().run(["evaluate"], [*known.entries, *records, *items])
    return {id: truth for word, id, truth in (line.split(" ") for line in lines if line.startswith("verdict ")) if word}


def of_fleet(known, machines, is_strict):
    """The lines of a fleet, machine by machine."""
    with tempfile.TemporaryDirectory() as folder:
        ranges, records, listed = (Path(folder) / it for it in ("ranges", "records", "machines"))
        records.write_text("".join(f"{record}\n" for record in [*known.entries, *known.records]))
        ranges.write_text("".join(record_text(one.record()) + "\n" for one in known.ranges.values()))
        listed.write_text("".join(f"{machine.line()}\n" for machine in machines))
        (Path(folder) / "letters").write_text("")
        words = [str(records), str(listed), "--ranges", str(ranges), "--letters", f"{folder}/letters", *["--strict"] * is_strict]
        asked = fleet.read_fleet(Program(), read_arguments(words, fleet.OPTIONS, fleet.USAGE), Heard())
    session = Session(Program().path, asked.fleet_data)
    try:
        return [session.ask(machine).lines for machine in asked.machines]
    finally:
        session.end()


class Drawn:
    """A random dictionary, statements and machines, with few names, so that they meet."""

    VENDORS, PRODUCTS, VERSIONS = ["v", "w"], ["p", "q", "r", "s"], ["1.0", "1.1", "2.0", "1.0b", "*"]

    def __init__(self, seed):
        self.draw = random.Random(seed)
        self.ranges = {}

    def name(self, versions=None):
        return name(self.draw.choice(self.VENDORS), self.draw.choice(self.PRODUCTS), self.draw.choice(versions or self.VERSIONS))

    def entries(self):
        all_names = list(dict.fromkeys(self.name() for _ in range(12)))
        records = [entry(it) for it in all_names]
        # (a name leads to a later one, so there is no cycle)
        for place, old in enumerate(all_names[:-2]):
            if self.draw.random() < 0.4:
                records.append(deprecate(old, *self.draw.sample(all_names[place + 1 :], self.draw.randint(0, 2))))
        return records

    def child(self, depth):
        kind = self.draw.random()
        if depth and kind < 0.4:
            of = [self.child(depth - 1) for _ in range(self.draw.randint(1, 3))]
            return {"op": self.draw.choice(["AND", "OR"]), "negate": self.draw.random() < 0.3, "of": of}
        if kind < 0.5:
            return {"check": {"system": "NVD", "href": "configuration", "id": "open"}}
        if kind < 0.6:
            return {"fact": self.draw.choice([name("v", "*", "1.0"), name("*", "q*"), name("v", "-")])}
        if kind < 0.8:
            return {"fact": self.name()}
        one = Range(f"K{len(self.ranges)}", self.name(["*"]), self.draw.choice([None, "1.0"]), self.draw.choice(["1.1", "2"]))
        self.ranges[one.key] = one
        return ranged(one)

    def known(self):
        entries = self.entries()
        records = [statement(f"S{k}", self.child(2), negate=self.draw.random() < 0.2) for k in range(12)]
        return FeedData(entries, records, self.ranges, {}, {})

    def machines(self, versions):
        machines = [Machine(f"m{k}", [self.name(versions) for _ in range(self.draw.randint(1, 4))]) for k in range(6)]
        # (an item whose product or vendor is known in part)
        if "1.*" in versions:
            machines[0].components.append(Component(names=(self.draw.choice([name("v", "p*", "1.0"), name("?w", "q", "1.*")]),)))
        return machines


@unittest.skipUnless(os.environ.get("CPE"), "CPE names no program")
class Verdicts(unittest.TestCase):
    def test_the_statements_that_are_asked_are_all_that_could_differ(self):
        spared = differing = 0
        for seed in range(25):
            drawn = Drawn(seed)
            known, machines = drawn.known(), drawn.machines(["1.0", "1.1", "2.0", "1.0b", "-"] + ["1.*", "?.0"] * (seed % 2))
            made, found = scanned(known, machines)
            made_all, found_all = scanned(known, machines, is_all_asked=True)
            for one, other in zip(found, found_all):
                self.assertEqual(truths(known, made, one), truths(known, made_all, other), f"seed {seed}")
                spared += len(known.statements) - len(one.truths)
                differing += sum(truth != made.bare[place] for place, truth in one.truths.items())
        self.assertGreater(spared, 100)
        self.assertGreater(differing, 300)

    def known(self, *records, entries=(), ranges=(), stand_ins=None, details=None):
        return FeedData(list(entries), list(records), {one.key: one for one in ranges}, details or {}, stand_ins or {})

    def test_a_range_ends_true_on_one_machine_and_false_on_another(self):
        one = Range("KEY", name("v", "p"), "1.0", "2.0", end_excluded=True)
        known = self.known(statement("CVE-1", ranged(one)), ranges=[one])
        machines = [Machine("old", [name("v", "p", "1.5")]), Machine("new", [name("v", "p", "2.0")]), Machine("odd", [name("v", "p", "1.0b")])]
        made, found = scanned(known, machines)
        self.assertEqual([truths(known, made, it)["CVE-1"] for it in found], ["TRUE", "FALSE", "UNKNOWN"])
        self.assertEqual(OutcomeReasons(known, found).on("CVE-1", "odd"), [f"{name('v', 'p', '1.0b')}: dpkg and PEP 440 differ between 1.0b and 1.0"])
        made, found = scanned(known, machines, {"KEY": [name("v", "p", "1.0b")]})
        self.assertEqual([truths(known, made, it)["CVE-1"] for it in found], ["TRUE", "FALSE", "TRUE"])

    def test_what_a_distribution_may_have_mended_is_remarked(self):
        one = Range("KEY", name("v", "p"), "1.0", "2.0", end_excluded=True)
        exact = {"fact": name("v", "p", "1.5")}
        either = statement("EITHER", {"op": "OR", "of": [ranged(one), exact]})
        known = self.known(statement("RANGE", ranged(one)), statement("EXACT", exact), either, statement("NOT", ranged(one), negate=True), ranges=[one])
        deb = Component(names=(name("v", "p", "1.5-1"),), kind="deb")
        both = [deb, name("v", "p", "1.6")]
        machines = [Machine("deb", [deb]), Machine("both", both), Machine("bare", [name("v", "p", "1.5-1")]), Machine("npm", [name("v", "p", "1.6")])]
        made, found = scanned(known, machines)
        said = [[truths(known, made, it)[id] for id in ("RANGE", "EXACT", "EITHER", "NOT")] for it in found]
        self.assertEqual(said[:2], [["TRUE", "TRUE", "TRUE", "FALSE"]] * 2)
        self.assertEqual(said[2:], [["TRUE", "UNKNOWN", "TRUE", "FALSE"], ["TRUE", "FALSE", "TRUE", "FALSE"]])
        remark = [f"backported? {deb.names[0]}: release 1"]
        verdict_reasons = OutcomeReasons(known, found)
        self.assertEqual([verdict_reasons.remarks(id, "deb") for id in ("RANGE", "EXACT", "EITHER", "NOT")], [remark, remark, remark, []])
        self.assertEqual([verdict_reasons.remarks(id, "both") for id in ("RANGE", "EXACT", "EITHER", "NOT")], [[], remark, [], []])
        self.assertEqual([verdict_reasons.remarks(id, "bare") for id in ("RANGE", "EXACT", "EITHER", "NOT")], [remark, [], remark, []])
        self.assertEqual(verdict_reasons.on("EXACT", "bare"), [f"{deb.names[0]}: 1.5-1 may be 1.5 in the release 1 of a distribution"])
        rows = machines_with_verdicts(known, made.bare, found)
        value = json_of(known, found, rows, affected.AdvisoryContext({}, Suppressions([]), verdict_reasons))
        self.assertEqual([one.get("remarks") for one in value["machines"][0]["verdicts"]], [remark] * 3)
        table = list(affected.table_of(verdicts.Verdicts(rows[:1]), affected.AdvisoryContext({}, Suppressions([]), verdict_reasons)))
        self.assertEqual([line.endswith(remark[0]) for line in table[1:4]], [True] * 3)

    def test_a_program_that_answers_less_is_fatal(self):
        known = self.known(statement("CVE-1", {"fact": name("v", "p")}))
        whole = Program.lines

        def less(program, words, records):
            # (as if the last answer had been lost)
            return list(whole(program, words, records))[:-1]

        with mock.patch.object(Program, "lines", less), self.assertRaises(Fatal):
            scanned(known, [])

    def test_results_of_one_machine_are_not_those_of_the_next(self):
        one = Range("KEY", name("v", "p"), "1.0", "2.0")
        known = self.known(statement("CVE-1", ranged(one), negate=True), ranges=[one])
        made, found = scanned(known, [Machine("a", [name("v", "p", "1.5")]), Machine("b", [name("v", "p", "1.0b")]), Machine("c", [name("w", "q")])])
        self.assertEqual([truths(known, made, it)["CVE-1"] for it in found], ["FALSE", "UNKNOWN", "TRUE"])

    def test_parts_of_an_advisory_are_one(self):
        one, other = {"fact": name("v", "p")}, {"fact": name("v", "q")}
        known = self.known(statement("CVE-1", one), statement("CVE-1#2", other), statement("CVE-2", other))
        made, found = scanned(known, [Machine("a", [name("v", "q", "1.0")])])
        machines = machines_with_verdicts(known, made.bare, found)
        self.assertEqual(machines[0].shown, {"CVE-1": "TRUE", "CVE-2": "TRUE"})
        self.assertEqual(len(machines[0].statements.advisories), 2)

    def test_an_item_that_no_entry_has_may_be_what_its_product_became(self):
        old, new = name("redislabs", "redis", "6.0"), name("redis", "redis", "6.0")
        one = Range("KEY", name("redis", "redis"), None, "6.2")
        known = self.known(statement("CVE-1", ranged(one)), entries=[entry(old), entry(new), deprecate(old, new)], ranges=[one])
        machines = [Machine(it, [name("redislabs", "redis", version)]) for it, version in (("listed", "6.0"), ("not", "6.1"), ("behind", "7.0"))]
        made, found = scanned(known, machines)
        self.assertEqual([truths(known, made, it)["CVE-1"] for it in found], ["TRUE", "UNKNOWN", "FALSE"])
        why = f"{name('redislabs', 'redis', '6.1')} is not in the dictionary, and may be {name('redis', 'redis', '6.1')}"
        self.assertEqual(OutcomeReasons(known, found).on("CVE-1", "not"), [why])
        messages = Heard()
        made.report_items(found, messages, "sh unlisted.sh")
        self.assertEqual(messages.told, [f"remark not in the dictionary {it.machine.name} {it.leads[0].name} now called redis:redis" for it in found[1:]])

    def test_what_a_dictionary_or_a_name_hides_is_told(self):
        gone = name("v", "gone", "1.0")
        known = self.known(statement("CVE-1", {"fact": gone}), entries=[entry(gone), deprecate(gone)])
        items = [gone, "cpe:/a:v:%02", name("v", "p", "1.0"), "cpe:/a:v:p:1.0"]
        made, found = scanned(known, [Machine("a", items), Machine("bare"), Machine("bad", ["cpe:/x"])])
        messages = Heard()
        made.report_items(found, messages, "sh unlisted.sh")
        wanted = [
            "left out a: name name 12: cpe:/a:v:%02",
            f"remark under a removed name a {gone}",
            "left out bare: no items",
            "left out bad: name name 5: cpe:/x",
            "left out bad: no items",
            "remark not in the dictionary: 1 item, on 1 machine; to list them: sh unlisted.sh",
        ]
        self.assertEqual(messages.told, wanted)
        self.assertEqual([it.has_items() for it in found], [True, False, False])

    def test_a_machine_without_items_has_no_verdicts(self):
        known = self.known(statement("CVE-1", {"fact": name("v", "p")}, negate=True))
        made, found = scanned(known, [Machine("bare"), Machine("a", [name("v", "q", "1.0")])])
        machines = machines_with_verdicts(known, made.bare, found)
        about = affected.AdvisoryContext({}, Suppressions([]), OutcomeReasons(known, found))
        rows = json_of(known, found, machines, about)["machines"]
        self.assertEqual(rows[0], {"name": "bare", "items": 0})
        self.assertEqual(rows[1]["verdicts"], [{"id": "CVE-1", "verdict": "TRUE"}])
        self.assertEqual((rows[1]["perhaps"], rows[1]["notInDictionary"]), ([], [name("v", "q", "1.0")]))
        table = "\n".join(affected.table_of(affected.Verdicts(machines), about))
        self.assertIn("bare              no items", table)
        self.assertIn("2 machines, 1 without items: 1 TRUE, 0 ERROR, 0 UNKNOWN, 0 FALSE", table)

    def test_what_is_accepted_is_told(self):
        known = self.known(statement("CVE-1", {"fact": name("v", "p")}), details={"CVE-1": {"id": "CVE-1", "score": 7.5, "title": "A title"}})
        made, found = scanned(known, [Machine("a", [name("v", "p", "1.0")])])
        machines = machines_with_verdicts(known, made.bare, found)
        about = affected.AdvisoryContext(known.details, Suppressions([SuppressionLine("it line 1", "CVE-1", "*", "not reachable")]), OutcomeReasons(known, found))
        row = json_of(known, found, machines, about)["machines"][0]["verdicts"][0]
        self.assertEqual(row, {"id": "CVE-1", "verdict": "TRUE", "score": 7.5, "title": "A title", "accepted": "not reachable"})
        table = list(affected.table_of(affected.Verdicts(machines), about))
        self.assertIn("accepted a CVE-1 TRUE: not reachable", table)

    def test_an_item_under_a_removed_name_is_found_as_it_stands(self):
        old, new, gone = (name("v", product, "1.0") for product in ("old", "new", "gone"))
        one = Range("K", name("v", "gone"), None, "2.0")
        asks = [statement("NAME", {"fact": gone}), statement("RANGE", ranged(one)), statement("OTHER", {"fact": new})]
        asks += [statement("NOT", {"fact": name("v", "gone")}, negate=True), statement("LEADS", {"fact": old})]
        entries = [entry(old), entry(new), entry(gone), deprecate(old, gone), deprecate(gone)]
        known = self.known(*asks, entries=entries, ranges=[one])
        made, found = scanned(known, [Machine("a", [gone, new]), Machine("b", [new]), Machine("c", [name("v", "gone", "1.5")])])
        wanted = {"NAME": "TRUE", "RANGE": "TRUE", "OTHER": "TRUE", "NOT": "UNKNOWN", "LEADS": "TRUE"}
        self.assertEqual(truths(known, made, found[0]), wanted)
        why = f"{gone} may have another name than {gone}, and {name('v', 'gone')} is negated"
        self.assertEqual(OutcomeReasons(known, found).on("NOT", "a"), [why])
        wanted = {"NAME": "FALSE", "RANGE": "FALSE", "OTHER": "TRUE", "NOT": "TRUE", "LEADS": "FALSE"}
        self.assertEqual(truths(known, made, found[1]), wanted)
        # (an item without an entry isn't under a removed name)
        wanted = {"NAME": "FALSE", "RANGE": "TRUE", "OTHER": "FALSE", "NOT": "FALSE", "LEADS": "FALSE"}
        self.assertEqual(truths(known, made, found[2]), wanted)

    def test_what_is_false_is_listed_where_all_is_asked_for(self):
        known = self.known(statement("CVE-1", {"fact": name("v", "p")}), statement("CVE-2", {"fact": name("v", "q")}))
        made, found = scanned(known, [Machine("a", [name("v", "p", "1.0")]), Machine("bare", [])])
        machines = machines_with_verdicts(known, made.bare, found)
        for machine in machines:
            machine.show_all()
        accepted = Suppressions([SuppressionLine("it line 1", "CVE-2", "*", "not here")])
        about = affected.AdvisoryContext({}, accepted, OutcomeReasons(known, found))
        rows = json_of(known, found, machines, about)["machines"]
        self.assertEqual(rows[0]["verdicts"], [{"id": "CVE-1", "verdict": "TRUE"}, {"id": "CVE-2", "verdict": "FALSE"}])
        self.assertNotIn("verdicts", rows[1])
        table = list(affected.table_of(affected.Verdicts(machines), about))
        self.assertEqual([line.split() for line in table[1:4]], [["a", "TRUE", "CVE-1"], ["a", "FALSE", "CVE-2"], ["bare", "no", "items"]])
        self.assertEqual(table[-1], "2 machines, 1 without items: 1 TRUE, 0 ERROR, 0 UNKNOWN, 1 FALSE")

    def test_an_item_that_says_less_is_unknown_and_counted_apart(self):
        known = self.known(statement("CVE-1", {"fact": name("v", "p", "1.0")}), statement("CVE-2", {"fact": name("v", "p")}, {"fact": name("v", "p", "2.0")}))
        machines = [Machine("a machine", [name("v", "p")]), Machine("b", [name("v", "q", "1.0")]), Machine("c", [name("v", "p", "1.0")])]
        for is_strict, wanted in ((False, "UNKNOWN"), (True, "FALSE")):
            made, found = scanned(known, machines, is_strict=is_strict)
            self.assertEqual([truths(known, made, one)["CVE-1"] for one in found], [wanted, "FALSE", "TRUE"])
            shown = machines_with_verdicts(known, made.bare, found)
            self.assertEqual([one.perhaps for one in shown], [{"CVE-1"}, set(), set()])
            about = affected.AdvisoryContext({}, Suppressions([]), OutcomeReasons(known, found))
            row = json_of(known, found, shown, about)["machines"][0]
            self.assertEqual(row["perhaps"], [{"id": "CVE-1", "item": name("v", "p"), "fact": name("v", "p", "1.0")}])
            last = list(affected.table_of(affected.Verdicts(shown), about))[-1]
            count = "3 FALSE, of which 1 perhaps" if is_strict else "1 perhaps, 2 FALSE"
            self.assertEqual(last, f"3 machines: 3 TRUE, 0 ERROR, 0 UNKNOWN, {count}")
        made, found = scanned(known, machines)
        self.assertEqual(OutcomeReasons(known, found).on("CVE-1", "a machine"), [f"{name('v', 'p')}: version: 1.0?"])

    def less(self, *attributes, version="5.3"):
        """A name of a form, with these values in the attributes after its version."""
        return f"cpe:2.3:a:acme:form:{version}:{':'.join(attributes)}:*"

    def test_each_attribute_of_which_an_item_says_nothing(self):
        wanted = ["sp1", "pro", "de", "home", "wordpress", "x64"]
        attributes = ("update", "edition", "language", "sw_edition", "target_sw", "target_hw")
        for place, (attribute, text) in enumerate(zip(attributes, wanted)):
            said = [text if k == place else "*" for k in range(6)]
            one = Range("K", self.less(*said, version="*"), "5.0", "5.5")
            known = self.known(statement("NAME", {"fact": self.less(*said)}), statement("RANGE", ranged(one)), ranges=[one])
            bare = self.less(*["*"] * 6)
            machines = [Machine("less", [bare]), Machine("other", [self.less(*["x" if k == place else "*" for k in range(6)])])]
            machines += [Machine("same", [bare, self.less(*said)]), Machine("out", [self.less(*["*"] * 6, version="6.0")])]
            made, found = scanned(known, machines)
            with self.subTest(attribute):
                verdicts = [list(truths(known, made, it).values()) for it in found]
                self.assertEqual(verdicts, [["UNKNOWN"] * 2, ["FALSE"] * 2, ["TRUE"] * 2, ["FALSE"] * 2])
                for id in ("NAME", "RANGE"):
                    self.assertEqual(OutcomeReasons(known, found).on(id, "less"), [f"{bare}: {attribute}: {text}?"])

    def test_what_is_negated_over_an_item_that_says_less_is_unknown(self):
        plugin = self.less("*", "*", "*", "*", "wordpress", "*")
        bare = self.less(*["*"] * 6)
        known = self.known(statement("NOT", {"fact": plugin}, negate=True), statement("PART", {"fact": name("v", "p", "1.5")}, negate=True))
        made, found = scanned(known, [Machine("a", [bare, name("v", "p", "1.*")]), Machine("b", [name("v", "q", "1")])])
        self.assertEqual([truths(known, made, it) for it in found], [dict.fromkeys(("NOT", "PART"), truth) for truth in ("UNKNOWN", "TRUE")])
        self.assertEqual(OutcomeReasons(known, found).on("NOT", "a"), [f"{bare}: target_sw: wordpress?"])

    def test_a_name_is_found_as_it_stands_and_as_it_leads_on(self):
        old, new = name("mysql", "mysql", "5.1.73"), name("oracle", "mysql", "5.1.73")
        entries = [entry(old), entry(new), deprecate(old, new)]
        before, after = Range("OLD", name("mysql", "mysql"), None, "5.5"), Range("NEW", name("oracle", "mysql"), None, "5.5")
        asks = [statement("ANY", {"fact": name("mysql", "mysql")}), statement("OLD", ranged(before)), statement("NEW", ranged(after))]
        asks += [statement("NAME", {"fact": old}), statement("NOT", {"fact": name("mysql", "mysql")}, negate=True)]
        asks += [statement("OTHER", {"fact": name("mysql", "mysql", "5.6")})]
        known = self.known(*asks, entries=entries, ranges=[before, after])
        machines = [Machine("old", [old]), Machine("new", [new]), Machine("more", [name("oracle", "mysql", "5.1.73").replace("73:*:*:*:*", "73:*:*:*:community")])]
        machines += [Machine("unlisted", [name("oracle", "mysql", "5.1.70")]), Machine("out", [name("oracle", "mysql", "5.7")])]
        made, found = scanned(known, machines)
        found_so = {"ANY": "TRUE", "OLD": "TRUE", "NEW": "TRUE", "NAME": "TRUE", "NOT": "UNKNOWN", "OTHER": "FALSE"}
        self.assertEqual(truths(known, made, found[0]), found_so)
        self.assertEqual(truths(known, made, found[1]), found_so)
        self.assertEqual(truths(known, made, found[2]), found_so)
        # (all entries of the old product lead to the new one, in the same version, so the product was renamed)
        self.assertEqual(truths(known, made, found[3]), {**found_so, "NAME": "FALSE"})
        self.assertEqual(truths(known, made, found[4]), {**found_so, "NAME": "FALSE", "OLD": "FALSE", "NEW": "FALSE"})

    def test_versions_that_were_renamed_too(self):
        old, new = name("v", "old", "7"), name("v", "new", "1.7")
        one = Range("K", name("v", "old"), None, "8")
        known = self.known(statement("RANGE", ranged(one)), statement("NAME", {"fact": old}), entries=[entry(old), entry(new), deprecate(old, new)], ranges=[one])
        made, found = scanned(known, [Machine("a", [new]), Machine("b", [name("v", "new", "1.6")]), Machine("c", [old])])
        self.assertEqual([truths(known, made, it) for it in found], [
            {"RANGE": "UNKNOWN", "NAME": "TRUE"}, {"RANGE": "UNKNOWN", "NAME": "FALSE"}, {"RANGE": "TRUE", "NAME": "TRUE"},
        ])
        verdict_reasons = OutcomeReasons(known, found)
        self.assertEqual(verdict_reasons.on("RANGE", "a"), [f"{new} is {old} by the dictionary, where its version is another"])
        why = f"{name('v', 'new', '1.6')} may be {name('v', 'old', '1.6')}, since the dictionary calls others of that product so"
        self.assertEqual(verdict_reasons.on("RANGE", "b"), [why])

    def test_a_product_that_goes_on_is_not_its_successor(self):
        olds = [name("v", "old", str(k)) for k in range(5)]
        new = name("v", "new", "0")
        known = self.known(statement("ANY", {"fact": name("v", "old")}), entries=[*map(entry, olds), entry(new), deprecate(olds[0], new)])
        made, found = scanned(known, [Machine("a", [new]), Machine("b", [name("v", "new", "9")])])
        self.assertEqual([truths(known, made, it)["ANY"] for it in found], ["TRUE", "FALSE"])

    def test_an_exact_fact_is_held_against_a_version_as_a_bound_is(self):
        wanted = {
            ("5.6.1-1", "", "5.6.1"): "UNKNOWN", ("5.6.1-1", "deb", "5.6.1"): "TRUE", ("2.0.0", "", "2.0"): "UNKNOWN",
            ("2.0.0", "pypi", "2.0"): "TRUE", ("v1.2.3", "", "1.2.3"): "TRUE", ("1.2.3", "", "v1.2.3"): "TRUE",
            (r"1\:5.6.1-1", "deb", "5.6.1"): "TRUE", ("5.6.2-1", "deb", "5.6.1"): "FALSE", ("5.6.10", "", "5.6.1"): "FALSE",
        }
        for (version, kind, fact), truth in wanted.items():
            known = self.known(statement("CVE-1", {"fact": name("v", "p", fact)}), statement("NOT", {"fact": name("v", "p", fact)}, negate=True))
            made, found = scanned(known, [Machine("a", [Component("p", (name("v", "p", version),), kind)])])
            self.assertEqual(truths(known, made, found[0])["CVE-1"], truth, (version, kind, fact))
            self.assertIn(truths(known, made, found[0])["NOT"], ("TRUE",) if truth == "FALSE" else ("FALSE", "UNKNOWN"))
            if truth == "UNKNOWN":
                self.assertTrue(OutcomeReasons(known, found).on("CVE-1", "a")[0].startswith(f"{name('v', 'p', version)}: "))

    def test_a_part_of_which_a_list_is_silent(self):
        app, system, other = {"fact": name("v", "app")}, {"fact": name("v", "os").replace(":a:", ":o:")}, {"fact": name("v", "q")}
        firmware, board = {"fact": name("v", "fw").replace(":a:", ":o:")}, {"fact": name("v", "board").replace(":a:", ":h:")}
        one = Range("K", name("v", "kernel").replace(":a:", ":o:"), None, "5")
        both = {"op": "AND", "of": [{"op": "OR", "of": [app]}, {"op": "OR", "of": [system, ranged(one)]}]}
        asks = [statement("BOTH", both), statement("ALONE", system), statement("RANGE", ranged(one)), statement("BOARD", firmware, board, op="AND")]
        asks += [statement("BUT", app, {"op": "OR", "negate": True, "of": [system]}, op="AND"), statement("OTHER", other, system, op="AND")]
        known = self.known(*asks, ranges=[one])
        item = name("v", "app", "1")
        here = [name("v", product, "9").replace(":a:", f":{part}:") for part, product in (("o", "os"), ("o", "kernel"), ("o", "fw"), ("h", "board"))]
        machines = [Machine("silent", [item]), Machine("on", [item, here[0]]), Machine("off", [item, here[1]])]
        machines += [Machine("fw", [here[2]]), Machine("board", [here[3]]), Machine("whole", here[2:]), Machine("part", [item, "cpe:2.3:o:v:k*:*:*:*:*:*:*:*:*"])]
        made, found = scanned(known, machines)
        wanted = {
            "silent": ["UNKNOWN", "FALSE", "FALSE", "FALSE", "UNKNOWN", "FALSE"], "on": ["TRUE", "TRUE", "FALSE", "FALSE", "FALSE", "FALSE"],
            "off": ["FALSE", "FALSE", "FALSE", "FALSE", "TRUE", "FALSE"], "fw": ["FALSE", "FALSE", "FALSE", "UNKNOWN", "FALSE", "FALSE"],
            "board": ["FALSE", "FALSE", "FALSE", "UNKNOWN", "FALSE", "FALSE"], "whole": ["FALSE", "FALSE", "FALSE", "TRUE", "FALSE", "FALSE"],
            "part": ["UNKNOWN", "UNKNOWN", "UNKNOWN", "UNKNOWN", "UNKNOWN", "FALSE"],
        }
        self.assertEqual({it.machine.name: list(truths(known, made, it).values()) for it in found}, wanted)
        verdict_reasons = OutcomeReasons(known, found)
        self.assertEqual([verdict_reasons.on("BOTH", "silent"), verdict_reasons.on("BUT", "silent")], [["no operating system is listed"]] * 2)
        self.assertEqual((verdict_reasons.on("BOARD", "fw"), verdict_reasons.on("BOARD", "board")), (["no hardware is listed"], ["no operating system is listed"]))
        made, found = scanned(known, machines[3:5], has_hardware=False)
        self.assertEqual([truths(known, made, it)["BOARD"] for it in found], ["FALSE", "UNKNOWN"])

    def test_no_machine_is_hidden_that_cpe_finds_in_either_mode(self):
        counts = {}
        for seed in range(40):
            drawn = Drawn(seed)
            known, machines = drawn.known(), drawn.machines(["1.0", "1.1", "2.0", "-"])
            # (without ranges, so that cpe alone decides)
            records = [re.sub(r',\{"check":\{"system":"NVD","href":"cpeMatch","id":"K[0-9]+"\}\}', "", record) for record in known.records]
            known = self.known(*records, entries=known.entries)
            made, found = scanned(known, machines)
            for one in found:
                said = truths(known, made, one)
                plain, follow = (evaluated(known, one.machine, mode) for mode in ("plain", "follow"))
                for id, truth in said.items():
                    counts[truth, plain[id], follow[id]] = counts.get((truth, plain[id], follow[id]), 0) + 1
                    if truth == "FALSE":
                        self.assertEqual((plain[id], follow[id]), ("FALSE", "FALSE"), f"seed {seed} {one.machine} {id}")
                    elif "negate\":true" not in records[list(said).index(id)] and "TRUE" in (plain[id], follow[id]):
                        self.assertEqual(truth, "TRUE", f"seed {seed} {one.machine} {id}")
        self.assertGreater(sum(count for (truth, *_), count in counts.items() if truth == "FALSE"), 300, counts)
        self.assertGreater(sum(count for (_, plain, follow), count in counts.items() if plain != follow), 80, counts)

    def test_a_fleet_says_what_a_scan_says(self):
        for seed in range(20):
            drawn = Drawn(seed)
            known, machines = drawn.known(), drawn.machines(["1.0", "1.1", "2.0", "1.0b", "-", "*"] + ["1.*"] * (seed % 2))
            for is_strict in (False, True):
                made, found = scanned(known, machines, is_strict=is_strict)
                for one, lines in zip(found, of_fleet(known, machines, is_strict)):
                    wanted = [f"{one.machine.name} {id} {truth}" for id, truth in truths(known, made, one).items()]
                    self.assertEqual(lines, wanted, f"seed {seed} {one.machine}")

    def test_what_the_match_feed_lists_is_true_before_anything_else(self):
        one = Range("K", name("mysql", "mysql"), None, "5.5")
        item = name("mariadb", "server", "9.9")
        known = self.known(statement("RANGE", ranged(one)), statement("OTHER", {"fact": name("mysql", "mysql", "9.9")}), ranges=[one])
        made, found = scanned(known, [Machine("a", [item]), Machine("b", [name("mariadb", "server", "9.8")])], {"K": [item]})
        self.assertEqual([truths(known, made, it)["RANGE"] for it in found], ["TRUE", "FALSE"])

    def test_an_item_that_is_known_in_part_is_what_an_unknown_hangs_on(self):
        part, whole = name("v", "p", "1.*"), name("v", "p", "1.5")
        known = self.known(statement("CVE-1", {"fact": whole}), statement("CVE-2", {"fact": name("v", "q")}, {"fact": name("v", "r")}))
        machines = [
            Machine("a", ["cpe:/a:V:P:1.%02"]), Machine("b", [part, whole]), Machine("c", [name("v", "p", "2.0")]),
            Machine("d", [name("v", "?q", "1.0"), name("v", "r?"), name("v", "r", "1")]), Machine("e", [name("v", "?q", "1.0")]),
        ]
        made, found = scanned(known, machines)
        self.assertEqual([list(truths(known, made, one).values()) for one in found], [
            ["UNKNOWN", "FALSE"], ["TRUE", "FALSE"], ["FALSE", "FALSE"], ["UNKNOWN", "TRUE"], ["FALSE", "UNKNOWN"],
        ])
        # (the statement on an item with a pattern as its product and no version is UNKNOWN too, if all statements are
        # evaluated)
        asked, found_of_all = scanned(known, machines, is_all_asked=True)
        self.assertEqual([truths(known, asked, it) for it in found_of_all], [truths(known, made, it) for it in found])
        verdict_reasons = OutcomeReasons(known, found)
        self.assertEqual(verdict_reasons.on("CVE-1", "a"), [f"{part} is known in part, and may be {whole}"])
        may_be = [f"{name('v', '?q', '1.0')} is known in part, and may be {name('v', product)}" for product in "qr"]
        self.assertEqual((verdict_reasons.on("CVE-2", "e"), verdict_reasons.on("CVE-1", "b")), (may_be, []))
        about = affected.AdvisoryContext({}, Suppressions([]), verdict_reasons)
        row = json_of(known, found, machines_with_verdicts(known, made.bare, found), about)["machines"][0]["verdicts"]
        self.assertEqual(row, [{"id": "CVE-1", "verdict": "UNKNOWN", "hangsOn": [f"{part} is known in part, and may be {whole}"]}])

    def test_an_item_that_is_known_in_part_follows_names(self):
        old, new = name("v", "p", "1.5"), name("w", "p", "1.5")
        known = self.known(statement("CVE-1", {"fact": old}), entries=[entry(old), entry(new), deprecate(old, new)])
        made, found = scanned(known, [Machine("new", [name("w", "p", "1.*")]), Machine("old", [name("v", "p", "1.*")])])
        self.assertEqual([truths(known, made, one)["CVE-1"] for one in found], ["UNKNOWN", "UNKNOWN"])
        verdict_reasons = OutcomeReasons(known, found)
        self.assertEqual(verdict_reasons.on("CVE-1", "new"), [f"{name('w', 'p', '1.*')} is known in part, and may be {old}"])
        self.assertEqual(verdict_reasons.on("CVE-1", "old"), [f"{name('v', 'p', '1.*')} is known in part, and may be {old}"])

    def test_a_range_that_an_item_known_in_part_may_be_in(self):
        one = Range("KEY", name("v", "p"), "1.0", "2.0", end_excluded=True)
        known = self.known(statement("CVE-1", ranged(one)), ranges=[one])
        items = {"in": ["1.*"], "out": ["3.*"], "beside": ["1.*", "1.5"], "not": ["1.*", "3.0"]}
        made, found = scanned(known, [Machine(it, [name("v", "p", version) for version in versions]) for it, versions in items.items()])
        self.assertEqual([truths(known, made, one)["CVE-1"] for one in found], ["UNKNOWN", "FALSE", "TRUE", "UNKNOWN"])
        self.assertEqual(OutcomeReasons(known, found).on("CVE-1", "in"), [f"{name('v', 'p', '1.*')}: it is known in part"])

    def test_a_check_that_stays_open_is_what_an_unknown_hangs_on(self):
        check = {"check": {"system": "NVD", "href": "cpeMatch", "id": "BAD"}}
        known = self.known(statement("CVE-1", check, {"fact": name("v", "p")}), stand_ins={"BAD": "name name 9: cpe:2.3:bad"})
        made, found = scanned(known, [Machine("a", [name("v", "q", "1.0")])])
        self.assertEqual(truths(known, made, found[0]), {"CVE-1": "UNKNOWN"})
        self.assertEqual(OutcomeReasons(known, found).on("CVE-1", "a"), ["name name 9: cpe:2.3:bad"])


@unittest.skipUnless(os.environ.get("CPE"), "CPE names no program")
class Words(unittest.TestCase):
    DICTIONARY, ADVISORIES, MATCHES = (str(SAMPLES / f"{name}.json") for name in ("dictionary", "advisories", "matches"))

    def run_over(self, *words):
        """The status of a run with these words, its output, and its messages."""
        streams = {1: io.BytesIO(), 2: io.BytesIO()}
        with mock.patch("cpe_recipes.console.os.write", side_effect=lambda to, data: streams[to].write(data)):
            try:
                status = scan.run(words)
            except Fatal:
                self.assertEqual(streams[1].getvalue(), b"")
                raise
        return status, streams[1].getvalue().decode(), streams[2].getvalue().decode()

    def scanned(self, *words, dictionary=(DICTIONARY,), advisories=(ADVISORIES,), matches=(MATCHES,), lists=(str(SAMPLES / "app-1.txt"),)):
        return self.run_over("--dictionary", *dictionary, "--advisories", *advisories, "--matches", *matches, "--lists", *lists, *words)

    def test_wrong_words_are_fatal(self):
        good = ["--dictionary", self.DICTIONARY, "--advisories", self.ADVISORIES]
        machines = ["--lists", str(SAMPLES / "app-1.txt")]
        for words in ([], good, machines, good[:2] + machines, good[2:] + machines, ["more"], [*good, *machines, "--machines", "m"], [*good, *machines, "--why"]):
            with self.subTest(words), self.assertRaises(Fatal):
                self.run_over(*words)

    def test_what_is_no_feed_is_fatal_wherever_it_stands(self):
        bad = {
            "none.json": None,
            "empty.json": "",
            "page.json": "<html>too many requests</html>",
            "array.json": "[]",
            "torn.json": (SAMPLES / "dictionary.json").read_text()[:700],
            "spdx3.json": '{"@context":"https://spdx.org/rdf/3.0.1/spdx-context.jsonld","@graph":[]}',
            "list.json": '{"products":7,"vulnerabilities":7,"matchStrings":7,"bomFormat":"CycloneDX","components":7}',
            "nothing.json": '{"products":[],"vulnerabilities":[],"matchStrings":[],"bomFormat":"CycloneDX","components":[]}',
        }
        with tempfile.TemporaryDirectory() as folder:
            for name, text in bad.items():
                path = f"{folder}/{name}"
                if text is not None:
                    Path(path).write_text(text)
                for where, good in (("dictionary", self.DICTIONARY), ("advisories", self.ADVISORIES), ("matches", self.MATCHES)):
                    self.refuses(name, **{where: (path,)})
                    # (an empty page beside others is no fault)
                    if name != "nothing.json":
                        self.refuses(name, **{where: (good, path)})
                self.refuses(name, lists=(path,))
                self.refuses(name, lists=(str(SAMPLES / "app-1.txt"), path))

    def refuses(self, name, **feeds):
        with self.subTest(name, **feeds), self.assertRaises(Fatal) as caught:
            self.scanned(**feeds)
        self.assertIn(name, str(caught.exception))

    def test_of_more_advisories_than_cpe_takes_those_of_products_that_are_here(self):
        lists = (str(SAMPLES / "app-1.txt"), str(SAMPLES / "desk-1.txt"))
        status, whole, said = self.scanned("--json", lists=lists)
        self.assertNotIn("may concern", said)
        with mock.patch("cpe_recipes.portions.MOST", replace(portions.MOST, statements=20)):
            status_of_some, some, said = self.scanned("--json", lists=lists)
        self.assertIn("remark 12 of 21 advisories may concern a product of these machines; the others are FALSE there", said)
        self.assertEqual((status, status_of_some, some), (0, 0, whole))

    def test_all_has_what_is_false_too(self):
        status, whole, _ = self.scanned("--json", "--all")
        found = json.loads(whole)
        verdicts = [(one["id"], one["verdict"]) for one in found["machines"][0]["verdicts"]]
        self.assertEqual((status, len(dict(verdicts))), (0, found["advisories"]))
        _, some, _ = self.scanned("--json")
        shown = [(one["id"], one["verdict"]) for one in json.loads(some)["machines"][0]["verdicts"]]
        self.assertEqual([one for one in verdicts if one[1] != "FALSE"], shown)
        self.assertEqual({truth for _, truth in verdicts[len(shown) :]}, {"FALSE"})

    def test_records_stand_for_a_dictionary(self):
        with tempfile.TemporaryDirectory() as folder:
            records = Path(folder) / "dictionary.jsonl"
            odd = record_text({"do": "entry", "name": name("v", "p", "1.1"), "title": "one\u2028two\x85three"})
            records.write_text("\n".join([entry(name("v", "p", "1.0")), "{}", odd]) + "\r\n")
            words = ("--records", str(records), "--advisories", self.ADVISORIES, "--lists", str(SAMPLES / "app-1.txt"), "--json")
            status, written, said = self.run_over(*words)
        self.assertEqual(status, 1)
        self.assertEqual([line for line in said.splitlines() if line.startswith("left out dictionary.jsonl")], ["left out dictionary.jsonl line 2: member do: {}"])
        found = json.loads(written)
        self.assertEqual(found["machines"][0]["name"], "app-1")
        self.assertEqual(found["leftOut"], [{"id": "dictionary.jsonl line 2", "reason": "member do: {}"}])


class Shown(unittest.TestCase):
    def written(self, file):
        file.seek(0)
        return file.read()

    def test_progress_is_one_line_that_goes(self):
        with tempfile.TemporaryFile() as file, Progress(file.fileno(), is_shown=True) as progress:
            progress.step("reading")
            progress.count("asking", 1, 9)
            Messages(file.fileno(), before=progress.clear).remark("so")
            progress.clear()
            self.assertEqual(self.written(file), b"\r\x1b[Kreading ..\r\x1b[Kremark so\n")

    def test_it_goes_with_a_fault(self):
        with tempfile.TemporaryFile() as file:
            with self.assertRaises(Fatal), Progress(file.fileno(), is_shown=True) as progress:
                progress.step("reading")
                raise Fatal("no more")
            self.assertEqual(self.written(file), b"\r\x1b[Kreading ..\r\x1b[K")

    def test_nothing_is_shown_elsewhere(self):
        with tempfile.TemporaryFile() as file, Progress(file.fileno()) as progress:
            progress.step("reading")
            progress.clear()
            self.assertEqual(self.written(file), b"")


if __name__ == "__main__":
    unittest.main()
