"""The page of report.py: its rows and counts, what was left out, names that would escape from their element, and
invalid tables."""
import base64
import hashlib
import json
import os
import re
import subprocess
import sys
import unittest
from unittest import mock

from recipe_case import RECIPES, RecipeCase

from cpe_recipes import report
from cpe_recipes.console import Fatal, escape
from cpe_recipes.page import Parts, page
from cpe_recipes.scan_result import read_scan_result
from pages import LONG, RIGHT_TO_LEFT, Page, hostile, machine, odd_table, table, verdict

ELEMENTS = set(
    "html head meta title style body header h1 h2 h3 p main aside details summary ul li b bdi small span section form label input "
    "select option button output noscript a br footer dl dt dd code script".split()
)


class ReportCase(RecipeCase):
    def page(self, value):
        scanned = read_scan_result(self.file("scan.json", value))
        return "".join(page(scanned, Parts("Machines", "a{}", "0;")))

    def report(self, value, *words):
        """The status of report.py over a table, its output, and its messages."""
        path = self.file("scan.json", value)
        run = subprocess.run([sys.executable, str(RECIPES / "report.py"), *words, path], capture_output=True, stdin=subprocess.DEVNULL)
        return run.returncode, run.stdout.decode(), run.stderr.decode().splitlines()


class Rows(ReportCase):
    def test_a_row_for_each_machine_and_advisory_that_is_not_false(self):
        one = verdict("A", "TRUE", score=5.0, title="An <old> title", url="https://a.example/?b&c")
        two = verdict("B", "UNKNOWN", score=9.1, hangsOn=["a letter decides", "so does & zero"])
        text = self.page(table(machine("m", two, one, verdict("C", "FALSE")), machine("n", one, verdict("D", "ERROR")), asked=7))
        found = Page(text)
        self.assertEqual(
            [(row["truth"], row["cells"]) for row in found.rows],
            [("UNKNOWN", ["m", "a letter decides", "so does & zero"]), ("TRUE", ["m"]), ("TRUE", ["n"]), ("ERROR", ["n"])],
        )
        numbers = re.findall(r'<li class="(\w+)"><b>(\d+)</b>', text)
        self.assertEqual(numbers, [("TRUE", "2"), ("ERROR", "1"), ("UNKNOWN", "1"), ("FALSE", "10")])
        self.assertIn("2 machines, 7 advisories asked for.", text)
        self.assertEqual(text.count("An &lt;old&gt; title"), 1)
        self.assertIn('href="https://a.example/?b&amp;c"', text)

    def test_the_highest_score_comes_first_and_what_is_accepted_last(self):
        ids = [
            verdict("NONE", "TRUE"),
            verdict("LOW", "TRUE", score=1),
            verdict("TAKEN", "TRUE", score=10, accepted="no way in"),
            verdict("HIGH", "UNKNOWN", score=9.9),
        ]
        text = self.page(table(machine("m", *ids), machine("none"), machine("n", ids[1])))
        self.assertEqual(re.findall(r'class="id">(\w+)<', text), ["HIGH", "LOW", "NONE", "TAKEN"])
        self.assertEqual(Page(text).rows[-1], {"truth": "ACCEPTED", "cells": ["m", "TRUE: no way in"], "is_shown": True})
        self.assertEqual(re.findall(r"<a>(\w+)<", text), ["m", "n", "none"])
        self.assertIn('<li><b class="score critical">9.9</b><a>m</a><small>2 TRUE, 1 UNKNOWN, 1 ACCEPTED, 3 items</small>', text)
        self.assertIn("all FALSE, 3 items", text)

    def test_a_long_page_is_closed_when_it_is_opened(self):
        machines = [machine(f"m{place}", verdict("A", "TRUE")) for place in range(301)]
        self.assertNotIn("<details class=\"advisory\" open>", self.page(table(*machines)))
        self.assertIn("<details class=\"advisory\" open>", self.page(table(*machines[:300])))

    def test_what_machines_have_beside_their_verdicts(self):
        text = self.page(table(machine("m", perhaps=[{}], notInDictionary=["a", "b"], underRemovedName=["c"])))
        self.assertIn("all FALSE, 3 items, 2 not in the dictionary, 1 under a removed name, 1 perhaps meant", text)

    def test_it_is_written_as_it_comes(self):
        written = []
        with mock.patch("cpe_recipes.console.os.write", side_effect=lambda to, data: written.append(bytes(data)) or len(data)):
            report.write(iter(["x" * 1000] * 1000))
        self.assertEqual((sum(map(len, written)), max(map(len, written)) < 70_000), (1_000_000, True))


class Fleets(RecipeCase):
    """Pages of the output of a fleet or of `cpe evaluate`."""

    def report(self, data, *words):
        run = subprocess.run([sys.executable, str(RECIPES / "report.py"), *words], input=data.encode(), capture_output=True)
        return run.returncode, run.stdout.decode(), run.stderr.decode().splitlines()

    def test_a_fleet_with_all_that_is_known(self):
        details = self.file("details", [{"id": "A", "title": "An <old> title", "score": 9.8, "url": "https://a.example/"}, {"id": "C", "score": 5}])
        check = {"system": "NVD", "href": "cpeMatch", "id": "R"}
        records = self.file("records", [{"do": "statement", "id": "B", "test": {"op": "OR", "of": [{"check": check}]}}])
        accepted = self.file("accepted", "C n no way in\n")
        lines = "".join(f"{name} {id} {truth}\n" for name, truths in (("m", "TRUE FALSE FALSE"), ("n", "FALSE UNKNOWN TRUE")) for id, truth in zip("ABC", truths.split()))
        options = ("--details", details, "--records", records, "--suppress", accepted, "--title", "A fleet")
        status, text, said = self.report(f"{lines}machines 2\n", *options)
        self.assertEqual((status, said), (0, []))
        found = [(row["truth"], row["cells"]) for row in Page(text).rows]
        self.assertEqual(found, [("TRUE", ["m"]), ("UNKNOWN", ["n", "NVD cpeMatch R"]), ("ACCEPTED", ["n", "TRUE: no way in"])])
        self.assertIn("2 machines, 3 advisories asked for.", text)
        self.assertIn("An &lt;old&gt; title", text)
        self.assertIn("<a>n</a><small>1 UNKNOWN, 1 ACCEPTED</small>", text)
        self.assertEqual(dict(re.findall(r'<li class="(\w+)"><b>(\d+)</b>', text))["FALSE"], "3")

    def test_a_machine_without_items_and_refused_lines(self):
        status, text, said = self.report("m A TRUE\nbare no items\nmachines 2\n")
        self.assertEqual((status, said), (1, ["left out bare: no items"]))
        self.assertIn("no items, so no verdict is known of the machine", text)
        status, text, said = self.report("refused 3 name name 5\nverdicts 1\nverdict A ERROR\n")
        self.assertEqual((status, said), (1, ["left out the records: 1 line refused"]))
        self.assertEqual(Page(text).rows, [{"truth": "ERROR", "cells": ["this inventory"], "is_shown": True}])

    def test_what_is_not_whole_makes_no_page(self):
        for data in ("m A TRUE\n", "m A TRUE\nmachines 2\n", "verdicts 2\nverdict A TRUE\n", ""):
            status, text, said = self.report(data)
            self.assertEqual((status, text, len(said)), (2, "", 1))

    def test_what_scan_wrote_has_all_that_the_options_tell(self):
        status, text, said = self.report(json.dumps(table(machine("m"))), "--details", self.file("details", ""))
        self.assertEqual((status, text), (2, ""))
        self.assertEqual(said, ["report.py: --details is for verdicts of a fleet: standard input has all of that already"])


class LeftOut(ReportCase):
    def test_what_was_left_out_stands_at_the_top_and_is_said(self):
        bare = {"name": "bare", "items": 0}
        left_out = [("bare", "no items"), ("m", "name name 5: <x>"), ("a", "no CPE name"), ("b", "no CPE name"), ("c", "no items")]
        status, text, said = self.report(table(machine("m"), bare, asked=2, left_out=left_out))
        self.assertEqual((status, said), (1, [f"left out {id}: {why}" for id, why in left_out]))
        top = text[: text.index('class="numbers"')]
        for wanted in ("no items, so no verdict is known of the machine", "<b>m</b> <bdi>name name 5: &lt;x&gt;</bdi>", "5 in all", "<b>a</b>", "<b>b</b>", "<b>c</b> <bdi>no items</bdi>"):
            self.assertIn(wanted, top)
        self.assertIn("<b>no items, so no verdict is known</b>", text)
        self.assertIn('<li class="FALSE"><b>2</b>', text)
        self.assertIn("<b>not all of it was read</b>, all FALSE", text)

    def test_packages_without_a_name_stand_at_the_top(self):
        without = machine("m") | {"withoutCandidates": ["a", "b"]}
        text = self.page(table(without, machine("n")))
        self.assertIn("<p>2 packages have no name in the tables and the dictionary, so nothing was asked for them.</p>", text)
        self.assertNotIn("Nothing was left out", text)
        self.assertIn("Nothing was left out", self.page(table(machine("n"))))

    def test_a_page_without_rows_says_so(self):
        bare, known = {"name": "bare", "items": 0}, machine("m", verdict("A", "FALSE"))
        for value, words in (
            (table(), "no verdict of any machine is known. <b>This is no all-clear.</b>"),
            (table(bare), "no verdict of any machine is known. <b>This is no all-clear.</b>"),
            (table(machine("m"), asked=0), "no advisory was asked for. <b>This is no all-clear.</b>"),
            (table(known, asked=1), "There are no rows: 1 advisory is FALSE on 1 machine with items.</p>"),
            (table(known, bare), "10 advisories are all FALSE on 1 machine with items. <b>Of what was not read, above, nothing is known.</b>"),
            (table(known, left_out=[("x", "torn")]), "with items. <b>Of what was not read, above, nothing is known.</b>"),
        ):
            text = self.page(value)
            self.assertIn(words, text)
            self.assertEqual(Page(text).rows, [])
            self.assertNotIn("<form", text)

    def test_a_machine_without_items_is_said_once(self):
        bare = {"name": "bare", "items": 0}
        self.assertEqual(self.report(table(bare))[2], ["left out bare: no items"])
        self.assertEqual(self.report(table(machine("m", verdict("A", "TRUE"))))[::2], (0, []))


class Names(ReportCase):
    def test_no_name_leaves_its_place(self):
        text = self.page(odd_table("http://127.0.0.1:9"))
        found = Page(text)
        self.assertLessEqual({tag for tag, _ in found.elements}, ELEMENTS)
        counts = [sum(tag == one for tag, _ in found.elements) for one in ("script", "style", "html", "body", "title")]
        self.assertEqual(counts, [1] * 5)
        for tag, attributes in found.elements:
            self.assertEqual([name for name in attributes if name.startswith("on") or name in ("src", "background", "style")], [])
            self.assertTrue("href" not in attributes or tag == "a" and attributes["href"].startswith("https://"), attributes)
        machines = {row["cells"][0] for row in found.rows}
        for name in hostile("http://127.0.0.1:9"):
            self.assertIn(escape(name), machines)

    def test_what_can_not_be_printed_is_written_by_its_number(self):
        text = self.page(odd_table(""))
        self.assertIn("\\u202eevil\\u2066", text)
        self.assertIn("nul\\u0000 bell\\u0007 escape\\u001b[31m line\\u000aend \\ud800", text)
        self.assertIn(escape(RIGHT_TO_LEFT), text)
        self.assertIn(LONG, text)

    def test_nothing_but_its_own_script_and_style_is_allowed(self):
        status, text, _ = self.report(table(machine("m", verdict("A", "TRUE"))), "--title", "A & <b>")
        policy = re.search(r'Content-Security-Policy" content="([^"]*)"', text)[1]
        self.assertIn("default-src 'none'", policy)
        for tag in ("style", "script"):
            part = re.search(f"<{tag}>(.*?)</{tag}>", text, re.DOTALL)[1]
            self.assertIn(f"{tag}-src 'sha256-{base64.b64encode(hashlib.sha256(part.encode()).digest()).decode()}'", policy)
            for word in ("//www", "http:", "https:", "@import", "url(", "fetch(", "innerHTML"):
                self.assertNotIn(word, part)
        self.assertIn("<title>A &amp; &lt;b&gt;</title>", text)
        self.assertEqual(status, 0)


class Refused(ReportCase):
    def refuses(self, value, words):
        with self.subTest(words), self.assertRaises(Fatal) as caught:
            read_scan_result(self.file("scan.json", value))
        self.assertEqual(str(caught.exception), f"scan.json: {words}")

    def test_a_member_that_is_missing_is_named(self):
        form = "it isn't what scan.py --json writes: "
        row = verdict("A", "TRUE")
        for key in ("advisories", "machines", "leftOut"):
            self.refuses({name: one for name, one in table().items() if name != key}, f"{form}the table has no member {key}")
        for key in ("name", "items", "perhaps", "notInDictionary", "underRemovedName"):
            self.refuses(table({name: one for name, one in machine("m", row).items() if name != key}), f"{form}machine 1 has no member {key}")
        for key in row:
            self.refuses(
                table(machine("m"), machine("n", {name: one for name, one in row.items() if name != key})),
                f"{form}verdict 1 of machine 2 has no member {key}",
            )
        self.refuses(table({"name": "m", "items": 1}), f"{form}machine 1 has no verdicts")
        self.refuses({**table(), "leftOut": [{"id": "a"}]}, f"{form}leftOut 1 has no member reason")

    def test_a_member_of_another_kind_is_named(self):
        form = "it isn't what scan.py --json writes: "
        self.refuses({**table(), "advisories": True}, f"{form}the table has a member advisories that is no number")
        self.refuses({**table(), "advisories": -1}, f"{form}the table has a member advisories below 0")
        self.refuses({**table(), "machines": {}}, f"{form}the table has a member machines that is no list")
        self.refuses(table(7), f"{form}machine 1 is no object")
        self.refuses(table(machine("")), f"{form}machine 1 has an empty name")
        self.refuses(table(machine("m"), machine("m")), f"{form}machine 2 is there twice: m")
        for more, words in (
            ({"title": 7}, "has a member title that is no text"),
            ({"hangsOn": "x"}, "has a member hangsOn that is no list"),
            ({"hangsOn": [7]}, "has in hangsOn what is no text"),
            ({"decidedBy": ["an item", None]}, "has in decidedBy what is no text"),
            ({"verdict": "true"}, "is no verdict: true"),
        ):
            text = json.dumps(table(machine("m", {**verdict("A", "TRUE"), **more}))).replace("Infinity", "1e999")
            self.refuses(text, f"{form}verdict 1 of machine 1 {words}")
        self.refuses(table(machine("m", verdict("A", "TRUE"), verdict("A", "TRUE"))), f"{form}verdict 2 of machine 1 is there twice: A")
        self.refuses(table(machine("m", verdict("A", "TRUE")), asked=0), f"{form}the table has 1 advisories, where 0 were asked for")

    def test_nothing_is_written_of_what_is_no_table(self):
        whole = json.dumps(table(machine("m", verdict("A", "TRUE"))))
        for bad in ("", "[]", "MACHINE  VERDICT\n", whole[:-1], whole + whole, b"\xff", "{}"):
            status, text, said = self.report(bad)
            self.assertEqual((status, text, len(said)), (2, "", 1), bad)
        self.assertEqual(self.report("{}", "more")[0], 2)
        run = subprocess.run([sys.executable, str(RECIPES / "report.py"), "none.json"], capture_output=True, text=True)
        self.assertEqual((run.returncode, run.stdout), (2, ""))

    @unittest.skipUnless(os.path.exists("/dev/full"), "there is no /dev/full")
    def test_a_full_disk(self):
        with open("/dev/full", "w") as full:
            words = [sys.executable, str(RECIPES / "report.py"), self.file("scan.json", table(machine("m")))]
            run = subprocess.run(words, stdout=full, stderr=subprocess.PIPE, text=True)
        self.assertEqual((run.returncode, run.stderr), (2, "report.py: the output could not be written: No space left on device\n"))


if __name__ == "__main__":
    unittest.main()
