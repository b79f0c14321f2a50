"""The other recipes with packages that get their names by their URLs, and the commands in remarks.

The expected results were written by hand, from what the packages are.
"""
import json
import os
import shutil
import subprocess
import sys
import unittest
from pathlib import Path

sys.path.insert(0, str(Path(__file__).resolve().parent))

from recipe_case import RECIPES, fs, needs_cpe  # noqa: E402 (it knows where the recipes are)
from cpe_recipes import package_urls  # noqa: E402
from cpe_recipes.components import Component, Machine  # noqa: E402
from named_case import WEBSERVER, NamedCase, entry, listed  # noqa: E402


@needs_cpe
class Recipes(NamedCase):
    def test_each_hint_works_as_it_is_printed(self):
        folder = self.folder / "it's a folder"
        folder.mkdir()
        listing, names = folder / "m-$1.json", folder / "my names.txt"
        components = [{"purl": f"pkg:{purl}@2.4-1"} for purl in ("npm/fork", "deb/debian/widget", "deb/none/at-all")]
        listing.write_text(json.dumps(listed(*components, {"cpe": fs("no", "one", "1")})))
        names.write_text("pkg:npm/fork acme:fork\n")
        records = self.file("records", "".join(f"{entry(fs('acme', name, '2.4'))}\n" for name in ("widget", "fork")))
        machines = self.file("machines.txt", "\n".join(self.recipe("inventory", "--machines", str(listing))[1]) + "\n")
        for words in ([*self.feeds, "--lists", str(listing)], ["--records", records, *self.feeds[2:], "--machines", machines]):
            self.look_at_hints([*words, "--names", str(names)])

    def look_at_hints(self, words):
        status, _, said = self.scan(*words)
        hints = [line for line in said if "; to list them: " in line]
        self.assertEqual((status, len(hints)), (0, 3), said)
        for hint in hints:
            lines = self.run_hint(hint)
            self.assertEqual(lines[0], f"not in the dictionary m-$1 {fs('acme', 'fork', '2.4-1', target='node.js')}")
            self.assertIn(f"not in the dictionary m-$1 {fs('no', 'one', '1')}", lines)
            self.assertTrue(any(line.startswith("perhaps m-$1 c1 names.txt: pkg:deb/debian/widget acme:widget") for line in lines), lines)
            self.assertEqual(lines[-1], "no candidate m-$1 c2")

    def test_more_advisories_than_cpe_takes_keep_those_of_candidates(self):
        machines = self.file("m.txt", Machine("m", [Component("c", (), "deb", "pkg:deb/debian/widget@2.4-1")]).line() + "\n")
        records = self.file("records", f"{entry(fs('acme', 'widget', '2.4'))}\n")
        status, lines, said = self.recipe("products", "--machines", machines, "--records", records, self.feeds[3])
        self.assertIn("remark 1 of 5 advisories may concern a product of these machines", said)
        self.assertIn("CVE-2024-2", "".join(lines))

    def test_without_a_dictionary_a_package_that_no_table_names_is_left_out(self):
        machines = self.file("m.txt", Machine("m", [fs("acme", "fork", "1.0"), Component("c", (), "deb", "pkg:deb/debian/widget@2.4-1")]).line() + "\n")
        status, lines, said = self.recipe("products", "--machines", machines, self.feeds[3])
        self.assertEqual((status, "left out m c: no CPE name" in said), (1, True), said)

    def test_components_of_the_same_names_and_other_package_urls_are_two(self):
        guess = {"cpe": fs("no", "one", "1.0")}
        listing = self.file("m.json", listed({**guess, "purl": "pkg:npm/fork@1.0"}, {**guess, "purl": "pkg:deb/debian/libssl3@3.0.11-1?upstream=openssl"}))
        machines = self.file("machines.txt", "\n".join(self.recipe("inventory", "--machines", listing)[1]) + "\n")
        status, lines, said = self.scan(*self.feeds, "--machines", machines)
        self.assertEqual([line.split()[1:3] for line in lines if " CVE-" in line], [["TRUE", "CVE-2024-3"], ["UNKNOWN", "CVE-2024-5"]])

    def test_why_sh_tells_it_of_the_items_that_inventory_sh_makes(self):
        names = self.file("names.txt", "pkg:npm/fork acme:fork\n")
        items = self.recipe("inventory", "--names", names, self.file("m.json", listed({"purl": "pkg:npm/fork@1.0"})))[1]
        records = [*self.recipe("dictionary", self.feeds[1])[1], *self.recipe("advisories", self.feeds[3])[1], *items]
        path = self.file("records", "\n".join(records) + "\n")
        explained = subprocess.run([os.environ.get("CPE", "cpe"), "explain"], input=Path(path).read_bytes(), capture_output=True, check=False).stdout
        status, lines, _ = self.recipe("why", "--records", path, self.file("proofs", explained))
        place = lines.index("CVE-2024-5 is TRUE")
        self.assertIn("TRUE, since item cpe:2.3:a:acme:fork:1.0:", " ".join(lines[place : place + 6]))

    def test_the_page_says_how_many_packages_have_no_name(self):
        _, _, lines, _ = self.verdicts("--json", purls=["pkg:npm/fork@1.0", "pkg:deb/debian/nobody-knows-it@1"])
        run = subprocess.run([sys.executable, str(RECIPES / "report.py"), self.file("scan.json", "\n".join(lines))], capture_output=True, text=True, check=False)
        self.assertIn("1 without a name, so not asked for", run.stdout)
        self.assertIn("may be acme:fork", run.stdout)

    def test_the_short_recipes_name_packages_too(self):
        records = self.recipe("dictionary", self.feeds[1])[1]
        ranges = str(self.folder / "ranges")
        statements = self.recipe("advisories", "--ranges", ranges, self.feeds[3])[1]
        purls = [WEBSERVER, "pkg:deb/debian/libssl3@3.0.11-1?upstream=openssl", "pkg:deb/debian/widget@2.4-1"]
        listing = self.file("m.json", listed(*({"purl": purl} for purl in purls)))
        names = self.file("names.txt", "pkg:deb/webserver9 -\n")
        status, items, said = self.recipe("inventory", "--names", names, listing)
        self.assertEqual((status, items), (1, [json.dumps({"do": "item", "name": fs("openssl", "openssl", "3.0.11-1")}, separators=(",", ":"))]))
        machines = self.file("machines.txt", "\n".join(self.recipe("inventory", "--machines", listing)[1]) + "\n")
        record_file = self.file("records", "\n".join([*records, *statements]) + "\n")
        run = subprocess.run([sys.executable, str(RECIPES / "decide.py"), "--ranges", ranges, "--records", record_file, "--machines", machines, "--names", names], capture_output=True, text=True, check=False)
        decided = [line.split("\t")[1:] for line in run.stdout.splitlines()]
        self.assertIn([fs("openssl", "openssl") + " from 3.0.0, before 3.0.13", "TRUE"], decided)
        self.assertFalse([one for one in decided if "widget" in one[0]])
        self.assertIn("may be acme:widget", run.stderr)

    @unittest.skipUnless(shutil.which("parallel"), "there is no parallel")
    def test_a_fleet_has_the_verdicts_of_a_scan(self):
        records = self.recipe("dictionary", self.feeds[1])[1]
        ranges = str(self.folder / "ranges")
        statements = self.recipe("advisories", "--ranges", ranges, self.feeds[3])[1]
        record_file = self.file("records", "\n".join([*records, *statements]) + "\n")
        has = {"perhaps": "pkg:deb/debian/widget@2.4-1", "sure": "pkg:deb/debian/libssl3@3.0.11-1?upstream=openssl", "none": "pkg:deb/debian/nobody@1", "fork": "pkg:npm/fork@1.0"}
        machines = self.file("machines.txt", "".join(Machine(name, [Component("c", (), package_urls.read(purl).package.type, purl)]).line() + "\n" for name, purl in has.items()))
        names = self.file("names.txt", "pkg:npm/fork acme:fork\n")
        run = subprocess.run(["sh", str(RECIPES / "fleet" / "parallel.sh"), record_file, machines, "--ranges", ranges, "--names", names], capture_output=True, text=True, check=False)
        shown = [line for line in run.stdout.splitlines() if not line.endswith(" FALSE")]
        wanted = ["perhaps CVE-2024-2 UNKNOWN", "sure CVE-2024-3 TRUE", "none no items", "fork CVE-2024-5 TRUE", "machines 4"]
        self.assertEqual(shown, wanted, run.stderr)
        hint = next(line for line in run.stderr.splitlines() if line.startswith("remark no candidate"))
        self.assertIn("no candidate none c", self.run_hint(hint, status=1))

    def test_the_json_has_what_may_be_and_what_has_no_candidate(self):
        purls = ["pkg:deb/debian/widget@2.4-1", "pkg:deb/debian/nobody-knows-it@1"]
        status, _, lines, _ = self.verdicts("--json", purls=purls)
        machine = json.loads("\n".join(lines))["machines"][0]
        self.assertEqual(machine["candidates"], [{"id": "c0", "lines": ["pkg:deb/debian/widget acme:widget", "pkg:deb/debian/widget other:widget"]}])
        self.assertEqual((machine["withoutCandidates"], machine["notInDictionary"]), (["c1"], []))
        self.assertEqual([(one["id"], one["verdict"]) for one in machine["verdicts"]], [("CVE-2024-2", "UNKNOWN")])
        self.assertIn("may be acme:widget", machine["verdicts"][0]["hangsOn"][0])

    def test_a_table_that_is_none_is_no_result(self):
        for names in ("pkg:deb/a b", "pkg:deb/a"):
            status, _, lines, said = self.verdicts(purls=[WEBSERVER], names=names)
            self.assertEqual((status, lines, len(said)), (2, [], 1))
            self.assertIn("names.txt line 1: ", said[0])
        status, lines, said = self.scan(*self.feeds, "--lists", self.file("m.json", listed()), "--names", str(self.folder / "none"))
        self.assertEqual((status, lines), (2, []))

    def test_why_tells_the_item_of_a_package(self):
        _, _, lines, _ = self.verdicts("--json", "--why", purls=["pkg:deb/debian/libssl3@3.0.11-1?upstream=openssl"])
        verdict = json.loads("\n".join(lines))["machines"][0]["verdicts"][0]
        self.assertEqual(verdict["decidedBy"], [f"{fs('openssl', 'openssl', '3.0.11-1')} is in {fs('openssl', 'openssl')} from 3.0.0, before 3.0.13"])


if __name__ == "__main__":
    unittest.main()
