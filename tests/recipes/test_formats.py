"""The forms of --format: their contents by hand, and the rules of their published schemas; texts that a spreadsheet
would run or that would become links; what was not read; times."""
import copy
import csv
import io
import json
import os
import subprocess
import sys
import unittest
from unittest import mock

import json_schema
from pages import hostile, machine, odd_table, verdict
from recipe_case import RECIPES, SAMPLES, RecipeCase, needs_cpe

from cpe_recipes.arguments import FLAG, read_arguments
from cpe_recipes.console import Fatal
from cpe_recipes.formats import NAMES, OPTIONS, Form, csv_rows, cyclonedx_vex, openvex, sarif
from cpe_recipes.formats.gaps import Gaps
from cpe_recipes.formats.links import address
from cpe_recipes.formats.stamp import published, stamp

TIME = "2024-05-01T12:00:00Z"
NVD = "https://nvd.nist.gov/vuln/detail/"
FULL = {
    "title": "A parser {0} reads [too](far).",
    "score": 9.8,
    "severity": "CRITICAL",
    "published": "2024-01-02T03:04:05.678",
    "url": f"{NVD}CVE-2024-0001",
    "kev": {"dateAdded": "2024-02-03"},
    "epss": {"epss": 0.9, "percentile": 0.99},
}


def result(*machines, left_out=(), **more):
    left_out = [dict(zip(("id", "reason", "place"), one)) for one in left_out]
    return {"advisories": 5, "machines": list(machines), "asked": [f"CVE-2024-000{k}" for k in range(1, 6)], "notAnalysed": {}, "rejected": [], "leftOut": left_out, **more}


WEB = machine(
    "web 1",
    verdict("CVE-2024-0001", "TRUE", **FULL, remarks=["backported? a:1-1"], decidedBy=["a:1-1 is a"]),
    verdict("CVE-2024-0003", "TRUE", score=5.0, severity="MEDIUM", accepted="no way in"),
    verdict("CVE-2024-0002", "UNKNOWN", hangsOn=["dpkg and rpm differ", "target_sw: x?"]),
    verdict("CVE-2024-0004", "ERROR", score=0.0),
    verdict("CVE-2024-0005", "FALSE", score=2.0),
)
DB = machine("db-1", verdict("CVE-2024-0001", "TRUE", **FULL, remarks=["backported? a:1-1"], decidedBy=["a:1-1 is a"]), verdict("CVE-2024-0005", "FALSE", score=2.0))
WHOLE = result(WEB, DB)
BARE = {"name": "bare", "items": 0}
LEFT = [("bare", "no items"), ("CVE-2024-0009", "the operator XOR", "vulnerability 3 of a.json"), ("web 1 libfoo", "no CPE name"), ("CVE-2024-0002", "name name 9: x")]
PARTLY = result(WEB, DB, BARE, left_out=LEFT, notAnalysed={"Received": ["CVE-2024-0007"], "Deferred": ["CVE-2024-0008"]})


# Verdicts that a user settled either way, and packages without a sure name.
SETTLED = result(
    machine(
        "m",
        verdict("CVE-2024-0001", "TRUE", score=9.8, hangsOn=["dpkg and rpm differ"], settled="seen there", before="UNKNOWN"),
        verdict("CVE-2024-0002", "FALSE", score=5.0, hangsOn=["target_sw: x?"], settled="=built without", before="UNKNOWN"),
        verdict("CVE-2024-0003", "TRUE", settled="seen there", before="FALSE", accepted="no way in"),
        withoutCandidates=["libodd1"],
    )
)
UNNAMED = [
    machine("none", verdict("CVE-2024-0005", "FALSE"), withoutCandidates=["libodd1", "libodd2"]),
    machine("perhaps", verdict("CVE-2024-0005", "FALSE"), candidates=[{"id": "qs", "lines": ["pkg:npm/qs qs:qs"]}]),
    machine("named", verdict("CVE-2024-0005", "FALSE")),
]
UNNAMED_WORDS = {"none": "2 packages without a sure name: libodd1 and 1 more", "perhaps": "1 package without a sure name: qs"}


class FormatCase(RecipeCase):
    def assert_valid(self, value, name):
        self.assertEqual(json_schema.faults(value, name), [])


class OpenVex(FormatCase):
    def statements(self, value, is_all=False):
        document = openvex.document(value, TIME, is_all)
        self.assert_valid(document, "openvex-0.2.0")
        return [
            (one["vulnerability"]["name"], one["status"], [product["@id"] for product in one["products"]], one.get("status_notes") or one.get("impact_statement"))
            for one in document["statements"]
        ]

    def test_a_statement_for_each_claim_with_its_machines(self):
        self.assertEqual(
            self.statements(result(WEB, DB), is_all=True),
            [
                ("CVE-2024-0001", "affected", ["pkg:generic/web%201", "pkg:generic/db-1"], "backported? a:1-1; a:1-1 is a"),
                ("CVE-2024-0003", "not_affected", ["pkg:generic/web%201"], "accepted, verdict TRUE: no way in"),
                ("CVE-2024-0002", "under_investigation", ["pkg:generic/web%201"], "verdict UNKNOWN: dpkg and rpm differ; target_sw: x?"),
                ("CVE-2024-0004", "under_investigation", ["pkg:generic/web%201"], "verdict ERROR"),
                (
                    "CVE-2024-0005",
                    "not_affected",
                    ["pkg:generic/web%201", "pkg:generic/db-1"],
                    "By the feeds and the list that were read, the configurations of the advisory don't hold for this machine.",
                ),
            ],
        )

    def test_the_members_of_a_document(self):
        only = machine("m", verdict("CVE-2024-0001", "TRUE", title="A title.", url=f"{NVD}CVE-2024-0001"), verdict("X", "TRUE"))
        document = openvex.document(result(only), TIME, False)
        self.assert_valid(document, "openvex-0.2.0")
        self.assertRegex(document.pop("@id"), "^urn:uuid:")
        products = [{"@id": "pkg:generic/m"}]
        self.assertEqual(
            document,
            {
                "@context": "https://openvex.dev/ns/v0.2.0",
                "author": "Unknown Author",
                "timestamp": TIME,
                "version": 1,
                "tooling": "scan.py, of the recipes of cpe",
                "statements": [
                    {
                        "vulnerability": {"name": "CVE-2024-0001", "description": "A title."},
                        "products": products,
                        "status": "affected",
                        "action_statement": f"Read the advisory: {NVD}CVE-2024-0001",
                    },
                    {"vulnerability": {"name": "X"}, "products": products, "status": "affected", "action_statement": "Read the advisory."},
                ],
            },
        )

    def test_no_justification_is_ever_claimed(self):
        for is_all in (False, True):
            self.assertNotIn("justification", json.dumps(openvex.document(PARTLY, TIME, is_all)))

    def test_what_was_not_read_is_under_investigation(self):
        found = self.statements(PARTLY, is_all=True)
        self.assertIn(("CVE-2024-0009", "under_investigation", ["pkg:generic/web%201", "pkg:generic/db-1", "pkg:generic/bare"], "left out: the operator XOR"), found)
        self.assertIn(("CVE-2024-0001", "under_investigation", ["pkg:generic/bare"], "No items of the machine are known, so no verdict is."), found)
        false = {(status, *products): notes for id, status, products, notes in found if id == "CVE-2024-0005"}
        self.assertEqual(false["under_investigation", "pkg:generic/web%201"], "verdict FALSE, but left out web 1 libfoo: no CPE name")
        self.assertIn(("not_affected", "pkg:generic/db-1"), false)
        self.assertIn(("CVE-2024-0007", "under_investigation", ["pkg:generic/web%201", "pkg:generic/db-1", "pkg:generic/bare"], "not analysed: Received"), found)
        shown = self.statements(PARTLY)
        self.assertFalse([one for one in shown if one[0] in ("CVE-2024-0007", "CVE-2024-0008")])
        tooling = openvex.document(PARTLY, TIME, False)["tooling"]
        for words in ("left out bare: no items", "left out CVE-2024-0009, vulnerability 3 of a.json: the operator XOR", "not analysed: 2 advisories"):
            self.assertIn(words, tooling)

    def test_a_false_of_feeds_that_are_not_whole_is_no_all_clear(self):
        missing = ["the feed has 7 products, 4 were given"]
        doubted = machine("m", verdict("CVE-2024-0005", "FALSE", hangsOn=missing))
        self.assertEqual(self.statements(result(doubted))[0][1::2], ("under_investigation", f"verdict FALSE, but {missing[0]}"))
        elsewhere = result(machine("m", verdict("CVE-2024-0005", "FALSE")), left_out=[("product 3 of d.json", "no name")])
        self.assertEqual(self.statements(elsewhere)[0][1], "under_investigation")

    def test_a_place_is_of_each_machine_even_if_one_is_called_so(self):
        machines = [machine(name, verdict("CVE-2024-0005", "FALSE")) for name in ("product", "m", "m x")]
        for left_out, doubted in (
            (("product 3 of d.json", "no name"), {"product", "m", "m x"}),
            (("m line 5", "no id"), {"product", "m", "m x"}),
            (("m libfoo", "no CPE name"), {"m"}),
            (("m x libfoo", "no CPE name"), {"m", "m x"}),
            (("mx", "no items"), {"product", "m", "m x"}),
            (("CVE-2024-0009#2", "no name"), set()),
            (("CVE-2024-0005", "name name 9"), set()),
        ):
            self.assertEqual(set(Gaps(result(*machines, left_out=[left_out])).doubted()), doubted, left_out)

    def test_what_is_settled_is_stated_with_the_words_of_the_user(self):
        ids = ["pkg:generic/m"]
        self.assertEqual(
            self.statements(SETTLED),
            [
                ("CVE-2024-0001", "affected", ids, "settled as TRUE: seen there; dpkg and rpm differ"),
                ("CVE-2024-0002", "not_affected", ids, "settled as FALSE: =built without"),
                ("CVE-2024-0003", "not_affected", ids, "accepted, verdict TRUE: no way in"),
            ],
        )
        self.assertNotIn("justification", json.dumps(openvex.document(SETTLED, TIME, True)))

    def test_a_false_beside_packages_without_a_sure_name_is_no_all_clear(self):
        found = {products[0].removeprefix("pkg:generic/"): (status, notes) for _, status, products, notes in self.statements(result(*UNNAMED), is_all=True)}
        for name, words in UNNAMED_WORDS.items():
            self.assertEqual(found[name], ("under_investigation", f"verdict FALSE, but {words}"))
        self.assertEqual(found["named"][0], "not_affected")
        self.assertIn("none: 2 packages without a sure name", openvex.document(result(*UNNAMED), TIME, True)["tooling"])
        both = result(*UNNAMED, left_out=[("none x", "no CPE name")])
        self.assertEqual(Gaps(both).doubted()["none"], f"left out none x: no CPE name; {UNNAMED_WORDS['none']}")

    def test_nothing_to_state_is_no_document(self):
        with self.assertRaises(Fatal) as caught:
            openvex.document(result(machine("m")), TIME, False)
        self.assertIn("--all states what is FALSE", str(caught.exception))
        with self.assertRaises(Fatal) as caught:
            openvex.document(result(machine("m")), TIME, True)
        self.assertNotIn("--all", str(caught.exception))


class CycloneDx(FormatCase):
    def test_a_vulnerability_for_each_claim(self):
        document = cyclonedx_vex.document(WHOLE, TIME, True)
        self.assert_valid(document, "cyclonedx-1.5")
        first, *others = document["vulnerabilities"]
        self.assertEqual(
            first,
            {
                "bom-ref": "advisory:CVE-2024-0001#1",
                "id": "CVE-2024-0001",
                "source": {"url": f"{NVD}CVE-2024-0001"},
                "ratings": [{"score": 9.8, "severity": "critical"}],
                "description": "A parser {0} reads [too](far).",
                "published": "2024-01-02T03:04:05Z",
                "analysis": {"state": "exploitable", "detail": "backported? a:1-1; a:1-1 is a"},
                "affects": [{"ref": "machine:web 1"}, {"ref": "machine:db-1"}],
                "properties": [
                    {"name": "cpe:scan:kev.dateAdded", "value": "2024-02-03"},
                    {"name": "cpe:scan:epss.epss", "value": "0.9"},
                    {"name": "cpe:scan:epss.percentile", "value": "0.99"},
                ],
            },
        )
        self.assertEqual([one["analysis"]["state"] for one in others], ["not_affected", "in_triage", "in_triage", "not_affected"])
        self.assertEqual([one["analysis"]["detail"] for one in others][0], "accepted, verdict TRUE: no way in")
        self.assertEqual([one["ratings"] for one in others if "ratings" in one][1], [{"score": 0.0}])
        self.assertEqual([one["name"] for one in document["components"]], ["web 1", "db-1"])
        self.assertEqual(document["metadata"]["properties"], [{"name": "cpe:scan:isWhole", "value": "true"}])

    def test_each_reference_is_there_and_none_twice(self):
        document = cyclonedx_vex.document(PARTLY, TIME, True)
        self.assert_valid(document, "cyclonedx-1.5")
        components = [one["bom-ref"] for one in document["components"]]
        refs = components + [one["bom-ref"] for one in document["vulnerabilities"]]
        self.assertEqual(len(refs), len(set(refs)))
        self.assertLessEqual({ref["ref"] for one in document["vulnerabilities"] for ref in one["affects"]}, set(components))

    def test_what_was_not_read_stands_in_the_metadata(self):
        found = cyclonedx_vex.document(PARTLY, TIME, False)["metadata"]["properties"]
        self.assertEqual(found[0], {"name": "cpe:scan:isWhole", "value": "false"})
        self.assertEqual([one["name"].removeprefix("cpe:scan:") for one in found[1:]], ["leftOut"] * 4 + ["notAnalysed"])
        self.assertEqual(found[2]["value"], "left out CVE-2024-0009, vulnerability 3 of a.json: the operator XOR")

    def test_what_is_settled_and_what_has_no_sure_name(self):
        document = cyclonedx_vex.document(SETTLED, TIME, False)
        self.assert_valid(document, "cyclonedx-1.5")
        self.assertEqual([one["analysis"]["state"] for one in document["vulnerabilities"]], ["exploitable", "not_affected", "not_affected"])
        self.assertEqual(document["vulnerabilities"][1]["analysis"]["detail"], "settled as FALSE: =built without")
        self.assertNotIn("justification", json.dumps(document))
        document = cyclonedx_vex.document(result(*UNNAMED), TIME, True)
        self.assert_valid(document, "cyclonedx-1.5")
        self.assertEqual([one["analysis"]["state"] for one in document["vulnerabilities"]], ["in_triage", "in_triage", "not_affected"])
        told = [{"name": "cpe:scan:withoutSureName", "value": f"{name}: {words}"} for name, words in UNNAMED_WORDS.items()]
        self.assertEqual(document["metadata"]["properties"], [{"name": "cpe:scan:isWhole", "value": "true"}, *told])

    def test_nothing_to_state_is_a_document_too(self):
        document = cyclonedx_vex.document(result(machine("m")), TIME, False)
        self.assert_valid(document, "cyclonedx-1.5")
        self.assertEqual(document["vulnerabilities"], [])


class Sarif(FormatCase):
    def run_of(self, value):
        log = sarif.log(value, TIME)
        self.assert_valid(log, "sarif-2.1.0")
        return log["runs"][0]

    def test_a_rule_for_each_advisory_and_a_result_for_each_verdict(self):
        run = self.run_of(WHOLE)
        self.assertEqual(
            run["tool"]["driver"]["rules"][0],
            {
                "id": "CVE-2024-0001",
                "shortDescription": {"text": "A parser {{0}} reads \\[too\\](far)."},
                "helpUri": f"{NVD}CVE-2024-0001",
                "properties": {
                    "tags": ["security", "known-exploited"],
                    "security-severity": "9.8",
                    "kev": {"dateAdded": "2024-02-03"},
                    "epss": {"epss": 0.9, "percentile": 0.99},
                },
            },
        )
        self.assertEqual(
            [(one["ruleId"], one["ruleIndex"], one["kind"], one["level"]) for one in run["results"]],
            [
                ("CVE-2024-0001", 0, "fail", "error"),
                ("CVE-2024-0003", 1, "fail", "warning"),
                ("CVE-2024-0002", 2, "open", "none"),
                ("CVE-2024-0004", 3, "open", "none"),
                ("CVE-2024-0005", 4, "pass", "none"),
                ("CVE-2024-0001", 0, "fail", "error"),
                ("CVE-2024-0005", 4, "pass", "none"),
            ],
        )
        first = run["results"][0]
        self.assertEqual(first["message"]["text"], "web 1: CVE-2024-0001 is TRUE; backported? a:1-1; a:1-1 is a")
        self.assertEqual(first["locations"][0]["physicalLocation"]["artifactLocation"]["uri"], "web%201")
        self.assertEqual(first["locations"][0]["logicalLocations"][0]["name"], "web 1")
        self.assertEqual(run["results"][1]["suppressions"], [{"kind": "external", "justification": "no way in"}])
        self.assertEqual(run["invocations"], [{"executionSuccessful": True, "endTimeUtc": TIME, "toolExecutionNotifications": []}])

    def test_an_advisory_without_a_score_is_as_bad_as_any(self):
        run = self.run_of(result(machine("m", verdict("X", "TRUE"), verdict("Y", "TRUE", score=3.9))))
        self.assertEqual([one["level"] for one in run["results"]], ["error", "note"])
        self.assertNotIn("security-severity", run["tool"]["driver"]["rules"][0]["properties"])

    def test_what_was_not_read_is_a_notification_and_no_success(self):
        run = self.run_of(PARTLY)
        invocation = run["invocations"][0]
        self.assertFalse(invocation["executionSuccessful"])
        self.assertEqual(
            [(one["level"], one["message"]["text"]) for one in invocation["toolExecutionNotifications"]],
            [
                ("error", "left out bare: no items"),
                ("error", "left out CVE-2024-0009, vulnerability 3 of a.json: the operator XOR"),
                ("error", "left out web 1 libfoo: no CPE name"),
                ("error", "left out CVE-2024-0002: name name 9: x"),
                ("note", "not analysed: 2 advisories"),
            ],
        )
        false = {one["locations"][0]["logicalLocations"][0]["name"]: one["kind"] for one in run["results"] if one["ruleId"] == "CVE-2024-0005"}
        self.assertEqual(false, {"web 1": "open", "db-1": "pass"})


    def test_what_is_settled_has_its_reason_in_the_properties(self):
        results = self.run_of(SETTLED)["results"]
        self.assertEqual([(one["kind"], one["level"]) for one in results], [("fail", "error"), ("pass", "none"), ("fail", "error")])
        self.assertEqual(results[1]["properties"], {"verdict": "FALSE", "settled": "=built without", "before": "UNKNOWN"})
        self.assertEqual(results[1]["message"]["text"], "m: CVE-2024-0002 is FALSE; settled as FALSE: =built without; target_sw: x?")
        self.assertNotIn("suppressions", results[1])
        self.assertIn("suppressions", results[2])

    def test_packages_without_a_sure_name_are_notes(self):
        run = self.run_of(result(*UNNAMED))
        self.assertEqual([one["kind"] for one in run["results"]], ["open", "open", "pass"])
        self.assertTrue(run["invocations"][0]["executionSuccessful"])
        notes = [(one["level"], one["message"]["text"]) for one in run["invocations"][0]["toolExecutionNotifications"]]
        self.assertEqual(notes, [("note", f"{name}: {words}") for name, words in UNNAMED_WORDS.items()])


class Csv(FormatCase):
    def rows(self, value):
        text = "".join(f"{line}\n" for line in csv_rows.lines(value))
        self.assertEqual(text.count("\n"), text.count("\r\n"))
        return list(csv.reader(io.StringIO(text, newline=""), strict=True))

    def test_the_lines(self):
        one = verdict("CVE-2024-0001", "TRUE", score=5, title='He said "no", twice', url="https://a.example/")
        self.assertEqual(
            csv_rows.lines(result(machine("m", one, verdict("CVE-2024-0002", "UNKNOWN", hangsOn=["a", "b"])))),
            [
                '"machine","verdict","advisory","score","severity","title","published","url","depends_on","accepted","settled"\r',
                '"m","TRUE","CVE-2024-0001","5","","He said ""no"", twice","","https://a.example/","","",""\r',
                '"m","UNKNOWN","CVE-2024-0002","","","","","","a; b","",""\r',
            ],
        )

    def test_columns_of_files_that_were_given(self):
        rows = self.rows(result(WEB, kev={"file": "k"}, epss={"file": "e"}))
        self.assertEqual(rows[0][4:8], ["severity", "kev", "epss", "title"])
        self.assertEqual([row[5:7] for row in rows[1:3]], [["2024-02-03", "0.9"], ["", ""]])

    def test_no_cell_is_a_formula(self):
        for text in ("=1+1", "+1", "-1", "@SUM(A1)", "\t=1", "\r=1", "\n=1", "\uff1d1", "'=1", "=cmd|' /C calc'!A0"):
            rows = self.rows(result(machine(text, verdict(text, "TRUE", title=text, severity=text, accepted=text, remarks=[text])), left_out=[(text, text, text)]))
            for row in rows[1:]:
                for cell in row:
                    self.assertNotIn(cell[:1], ("=", "+", "-", "@", "\t", "\r", "\n", "\uff1d"))
            self.assertEqual(rows[1][0], f"'{text}" if text.isprintable() else text.replace("\t", "\\u0009").replace("\r", "\\u000d").replace("\n", "\\u000a"))

    def test_what_is_settled_is_a_column_and_no_formula(self):
        rows = self.rows(SETTLED)
        self.assertEqual([(row[1], *row[8:]) for row in rows[1:4]], [
            ("TRUE", "dpkg and rpm differ", "", "seen there"),
            ("FALSE", "target_sw: x?", "", "'=built without"),
            ("TRUE", "", "no way in", "seen there"),
        ])

    def test_packages_without_a_sure_name_are_a_row_of_each_machine(self):
        rows = self.rows(result(*UNNAMED))[4:]
        self.assertEqual([(row[0], row[1], row[8]) for row in rows], [(name, "NO NAME", words) for name, words in UNNAMED_WORDS.items()])

    def test_what_was_not_read_is_rows(self):
        rows = self.rows(PARTLY)[8:]
        self.assertEqual(
            [(row[0], row[1], row[2], row[5], row[8]) for row in rows],
            [
                ("bare", "LEFT OUT", "", "", "no items"),
                ("", "LEFT OUT", "CVE-2024-0009", "vulnerability 3 of a.json", "the operator XOR"),
                ("", "LEFT OUT", "web 1 libfoo", "", "no CPE name"),
                ("", "LEFT OUT", "CVE-2024-0002", "", "name name 9: x"),
                ("", "NOT ANALYSED", "", "", "not analysed: 2 advisories"),
            ],
        )


class Odd(FormatCase):
    def test_hostile_texts_are_valid_in_every_form(self):
        value = {**odd_table("http://127.0.0.1:1"), "asked": []}
        for number, text in enumerate(hostile("x")):
            value["machines"].append(machine(f"{text} {number}", verdict(text, "FALSE", url=text, published=text, score=1)))
        for is_all in (False, True):
            self.assert_valid(json.loads(json.dumps(openvex.document(value_shown(value), TIME, is_all))), "openvex-0.2.0")
            self.assert_valid(cyclonedx_vex.document(value_shown(value), TIME, is_all), "cyclonedx-1.5")
        self.assert_valid(sarif.log(value_shown(value), TIME), "sarif-2.1.0")
        for name in NAMES[1:]:
            for line in Form(name, TIME, True).lines(value_shown(value)):
                self.assertTrue(line.removesuffix("\r").replace("\n", "").isprintable(), name)

    def test_an_address_is_one_of_the_web(self):
        for text in ("javascript:alert(1)", "http://", "https://a b/", "https://a/\u202e", "https://a/%zz", "file:///etc", "https://a/#b#c", None, 7, "https://u@h/"):
            self.assertIsNone(address(text), text)
        for text in (f"{NVD}CVE-2024-0001", "http://a.example:80/x?y=1&z#w", "https://a.example"):
            self.assertEqual(address(text), text)


def value_shown(value):
    """A value of scan.py's form: names can be shown, and texts have no half a surrogate pair."""
    made = copy.deepcopy(value)
    for one in made["machines"]:
        one["name"] = one["name"].encode("utf-8", "replace").decode()
    return made


class Schemas(FormatCase):
    """That the rules refuse what isn't valid."""

    def faults_after(self, document, name, change):
        changed = copy.deepcopy(document)
        change(changed)
        return json_schema.faults(changed, name)

    def test_a_document_that_is_changed_is_refused(self):
        vex, vdr, log = (openvex.document(PARTLY, TIME, True), cyclonedx_vex.document(PARTLY, TIME, True), sarif.log(PARTLY, TIME))
        for document, name, change in (
            (vex, "openvex-0.2.0", lambda it: it.pop("author")),
            (vex, "openvex-0.2.0", lambda it: it.update(timestamp="yesterday")),
            (vex, "openvex-0.2.0", lambda it: it.update(version=0)),
            (vex, "openvex-0.2.0", lambda it: it.update(version=True)),
            (vex, "openvex-0.2.0", lambda it: it["statements"].clear()),
            (vex, "openvex-0.2.0", lambda it: it["statements"].append(it["statements"][0])),
            (vex, "openvex-0.2.0", lambda it: it["statements"][0].update(status="fine")),
            (vex, "openvex-0.2.0", lambda it: it["statements"][0].pop("action_statement")),
            (vex, "openvex-0.2.0", lambda it: it["statements"][1].pop("impact_statement")),
            (vex, "openvex-0.2.0", lambda it: it["statements"][0]["products"][0].clear()),
            (vex, "openvex-0.2.0", lambda it: it["statements"][0]["products"][0].update({"@id": "web 1"})),
            (vex, "openvex-0.2.0", lambda it: it["statements"][0].update(properties=[])),
            (vdr, "cyclonedx-1.5", lambda it: it.pop("specVersion")),
            (vdr, "cyclonedx-1.5", lambda it: it.update(serialNumber="7")),
            (vdr, "cyclonedx-1.5", lambda it: it["components"][0].update(type="machine")),
            (vdr, "cyclonedx-1.5", lambda it: it["components"].append(it["components"][0])),
            (vdr, "cyclonedx-1.5", lambda it: it["vulnerabilities"][0]["analysis"].update(state="affected")),
            (vdr, "cyclonedx-1.5", lambda it: it["vulnerabilities"][0]["analysis"].update(justification="vulnerable_code_not_present")),
            (vdr, "cyclonedx-1.5", lambda it: it["vulnerabilities"][0]["affects"][0].pop("ref")),
            (vdr, "cyclonedx-1.5", lambda it: it["vulnerabilities"][0]["ratings"][0].update(severity="CRITICAL")),
            (vdr, "cyclonedx-1.5", lambda it: it["vulnerabilities"][0].update(published="2024-01-02T03:04:05.678")),
            (log, "sarif-2.1.0", lambda it: it.update(version="2.2")),
            (log, "sarif-2.1.0", lambda it: it["runs"][0].pop("tool")),
            (log, "sarif-2.1.0", lambda it: it["runs"][0]["invocations"][0].pop("executionSuccessful")),
            (log, "sarif-2.1.0", lambda it: it["runs"][0]["results"][0].pop("message")),
            (log, "sarif-2.1.0", lambda it: it["runs"][0]["results"][0].update(kind="unknown")),
            (log, "sarif-2.1.0", lambda it: it["runs"][0]["results"][2].update(level="error")),
            (log, "sarif-2.1.0", lambda it: it["runs"][0]["results"][1]["suppressions"][0].update(kind="accepted")),
            (log, "sarif-2.1.0", lambda it: it["runs"][0]["tool"]["driver"]["rules"][0].update(helpUri="no address")),
            (log, "sarif-2.1.0", lambda it: it["runs"][0]["results"][0]["locations"][0]["physicalLocation"]["artifactLocation"].update(uri="web 1")),
        ):
            self.assertEqual(self.faults_after(document, name, lambda it: None), [])
            self.assertTrue(self.faults_after(document, name, change), change.__code__.co_firstlineno)

    def test_a_word_that_is_not_known_is_no_rule(self):
        with self.assertRaises(AssertionError), mock.patch("json_schema.schema", return_value={"maxLength": 3}):
            json_schema.faults("x", "none")


class Times(unittest.TestCase):
    def stamp(self, *words, epoch=None):
        with mock.patch.dict(os.environ):
            os.environ.pop("SOURCE_DATE_EPOCH", None)
            if epoch is not None:
                os.environ["SOURCE_DATE_EPOCH"] = epoch
            return stamp(read_arguments(words, OPTIONS, "usage"))

    def test_an_option_then_the_epoch_then_the_clock(self):
        self.assertEqual(self.stamp("--time", "2024-05-01T14:00:00.5+02:00", epoch="0"), TIME)
        self.assertEqual(self.stamp(epoch="1714564800"), TIME)
        with mock.patch("time.time", return_value=1714564800.9):
            self.assertEqual(self.stamp(), TIME)

    def test_what_is_no_time_is_refused(self):
        for text in ("", "yesterday", "2024-05-01T12:00:00", "2024-13-01T00:00:00Z", "0001-01-01T00:00:00+05:00"):
            with self.assertRaises(Fatal, msg=text):
                self.stamp("--time", text)
        for text in ("", "x", "-1", "1.5", "99999999999999999999", "\u0661"):
            with self.assertRaises(Fatal, msg=text):
                self.stamp(epoch=text)
        with self.assertRaises(Fatal):
            self.stamp("--time", TIME, "--time", TIME)

    def test_the_times_of_feeds(self):
        self.assertEqual(published("2024-01-02T03:04:05.678"), "2024-01-02T03:04:05Z")
        self.assertEqual(published("2024-01-02T03:04:05Z"), "2024-01-02T03:04:05Z")
        for odd in (None, 7, "", "soon"):
            self.assertIsNone(published(odd))


class Forms(unittest.TestCase):
    def form(self, *words):
        return Form.of(read_arguments(words, {**OPTIONS, "--all": FLAG}, "usage"))

    def test_json_is_the_form_json(self):
        self.assertEqual(self.form("--json"), self.form("--format", "json"))
        self.assertEqual((self.form().name, self.form("--format", "csv", "--all").is_all), ("table", True))

    def test_what_is_no_form_or_two_is_refused(self):
        for words in (("--format", "xml"), ("--format", ""), ("--json", "--format", "csv"), ("--format", "csv", "--format", "csv")):
            with self.assertRaises(Fatal, msg=words):
                self.form(*words)


@needs_cpe
class Scans(FormatCase):
    """scan.py over the samples of ranges with an invalid item, so that the status is 1."""

    OF = SAMPLES / "ranges"
    WORDS = ["--dictionary", str(OF / "dictionary.json"), "--advisories", str(OF / "advisories.json"), "--matches", str(OF / "matches.json")]

    def out(self, *words, epoch="1714564800"):
        items = " ".join((self.OF / "legacy-1.txt").read_text().split())
        machines = self.file("machines.txt", f"legacy-1 {items}\nodd cpe:2.3:a:openssl:openssl:1.1.1t:*:*:*:*:*:*:* cpe:/a:%zz\nbare\n")
        command = [sys.executable, str(RECIPES / "scan.py"), *self.WORDS, "--machines", machines, *words]
        run = subprocess.run(command, capture_output=True, stdin=subprocess.DEVNULL, env={**os.environ, "SOURCE_DATE_EPOCH": epoch})
        return run.returncode, run.stdout

    def test_json_is_the_same_by_either_name(self):
        status, data = self.out("--json")
        self.assertEqual((status, self.out("--format", "json")), (1, (status, data)))
        self.assertNotIn(b"2024-05-01", data)

    def test_each_form_is_valid_and_the_same_again(self):
        for name, rules in (("sarif", "sarif-2.1.0"), ("cyclonedx-vex", "cyclonedx-1.5"), ("openvex", "openvex-0.2.0")):
            status, data = self.out("--format", name, "--all")
            self.assertEqual(status, 1)
            self.assert_valid(json.loads(data), rules)
            self.assertIn(b'"2024-05-01T12:00:00Z"', data)
            self.assertIn(b"left out odd: name name 8: cpe:/a:%zz", data)
            self.assertEqual(self.out("--format", name, "--all"), (1, data))
        status, data = self.out("--format", "csv")
        self.assertEqual((status, data[:10], data[-2:]), (1, b'"machine",', b"\r\n"))
        self.assertIn(b'"bare","LEFT OUT"', data)

    def test_another_time_is_all_that_differs(self):
        _, data = self.out("--format", "sarif")
        self.assertEqual(self.out("--format", "sarif", epoch="0")[1], data.replace(b"2024-05-01T12:00:00Z", b"1970-01-01T00:00:00Z"))

    def test_what_is_no_form_has_no_result(self):
        for words in (("--format", "xml"), ("--format", "sarif", "--time", "x"), ("--format", "table", "--why")):
            self.assertEqual(self.out(*words), (2, b""))


@needs_cpe
class Packages(FormatCase):
    """scan.py over two packages without names: the dictionary has a candidate for one, so that a verdict is UNKNOWN,
    and none for the other."""

    OF = SAMPLES / "lists"
    ID = "CVE-2024-97006"

    def out(self, *words):
        components = [{"name": "acme-agent", "purl": "pkg:deb/debian/acme-agent@5.1-2"}, {"name": "odd", "purl": "pkg:deb/debian/odd-none@1"}]
        listed = self.file("box.cdx.json", json.dumps({"bomFormat": "CycloneDX", "components": components}))
        feeds = ["--dictionary", str(self.OF / "dictionary.json"), "--advisories", str(self.OF / "advisories.json")]
        status, lines, said = self.scan(*feeds, "--platform", "cpe:/o:debian:debian_linux:12.0", "--lists", listed, *words)
        return status, "\n".join(lines), said

    def settled(self, truth):
        return "--settled", self.file(f"settled-{truth}.txt", f"box {self.ID} {truth} looked at it\n")

    def statuses(self, *words):
        document = json.loads(self.out("--format", "openvex", *words)[1])
        return {one["vulnerability"]["name"]: (one["status"], one.get("impact_statement") or one["status_notes"]) for one in document["statements"]}

    def test_no_package_makes_an_all_clear(self):
        found = self.statuses("--all")
        self.assertEqual({status for status, _ in found.values()}, {"under_investigation"})
        self.assertIn("may be acme:agent", found.pop(self.ID)[1])
        self.assertEqual({words for _, words in found.values()}, {"verdict FALSE, but 2 packages without a sure name: odd and 1 more"})

    def test_what_is_settled_is_stated_either_way(self):
        self.assertEqual(self.statuses(*self.settled("FALSE")), {self.ID: ("not_affected", "settled as FALSE: looked at it")})
        status, words = self.statuses(*self.settled("TRUE"))[self.ID]
        self.assertEqual((status, words.partition(";")[0]), ("affected", "settled as TRUE: looked at it"))

    def test_a_gate_of_unknown_fits_what_only_may_be_the_package(self):
        self.assertEqual(self.out("--fail-on", "score>=7")[0], 0)
        for words, status, said in (
            (["--fail-on", "unknown and score>=7"], 3, f"remark --fail-on unknown and score>=7 fits 1 verdict: box {self.ID}"),
            (["--fail-on", "unknown", *self.settled("FALSE")], 0, "remark --fail-on unknown doesn't count 1 verdict that is settled as FALSE"),
            (["--fail-on", "score>=7", *self.settled("TRUE")], 3, f"remark --fail-on score>=7 fits 1 verdict: box {self.ID}; 1 of them is settled"),
        ):
            found = self.out(*words)
            self.assertEqual(found[0], status, words)
            self.assertIn(said, found[2])


if __name__ == "__main__":
    unittest.main()
