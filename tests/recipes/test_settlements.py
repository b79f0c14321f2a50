"""UNKNOWNs that a user settles, in the table, the JSON, the page and the changes; and verdicts that the feeds decide
otherwise.

The expected results were written by hand.
"""
import json
import subprocess
import sys
import unittest
from pathlib import Path

sys.path.insert(0, str(Path(__file__).resolve().parent))

from recipe_case import RECIPES, RecipeCase, fs, needs_cpe  # noqa: E402 (it knows where the recipes are)
from cpe_recipes.console import Fatal  # noqa: E402
from cpe_recipes.settlements import read_settlements  # noqa: E402
from cpe_recipes.verdicts import Machine, Statements  # noqa: E402
from named_case import ranged  # noqa: E402
from test_platforms import page  # noqa: E402

U, T, F = "CVE-2024-1", "CVE-2024-2", "CVE-2024-3"


class Lines(RecipeCase):
    def machine(self, name="m"):
        machine = Machine(name, Statements([U, T, F]))
        machine.put(U, "UNKNOWN", is_perhaps=True)
        machine.put(T, "TRUE")
        return machine

    def settle(self, text, *machines):
        machines = machines or (self.machine(),)
        read_settlements([self.file("settled.txt", text)], self.messages).settle(machines, self.messages)
        return [(one.shown, {id: it.words() for id, it in one.settled.items()}) for one in machines]

    def test_an_unknown_is_settled_either_way(self):
        for truth in ("TRUE", "FALSE"):
            for name in ("m", "*"):
                with self.subTest(truth, name=name):
                    machine = self.machine()
                    found = self.settle(f"# why\n\n{name} {U} {truth}  it is so, really \r\n", machine)
                    self.assertEqual(found, [({U: truth, T: "TRUE"}, {U: f"settled as {truth}: it is so, really"})])
                    self.assertEqual((self.messages.told, machine.perhaps, machine.truth(U)), ([], set(), truth))

    def test_what_is_true_stays_true(self):
        self.assertEqual(self.settle(f"m {T} FALSE no way in\n"), [({U: "UNKNOWN", T: "TRUE"}, {})])
        self.assertEqual(self.messages.told, [f"remark settled.txt line 1: {T} on m is settled as FALSE, and is TRUE by the feeds and lists; it stays TRUE"])

    def test_what_is_false_is_true_if_a_line_for_the_machine_says_so(self):
        self.assertEqual(self.settle(f"m {F} TRUE seen there\n"), [({U: "UNKNOWN", T: "TRUE", F: "TRUE"}, {F: "settled as TRUE: seen there"})])
        self.assertEqual(self.messages.told, [f"remark settled.txt line 1: {F} on m is settled as TRUE, and is FALSE by the feeds and lists; it is TRUE as settled"])
        self.messages.told.clear()
        self.assertEqual(self.settle(f"* {F} TRUE seen there\n"), [({U: "UNKNOWN", T: "TRUE"}, {})])
        self.assertEqual(self.messages.told, [f"remark settled.txt line 1: nothing is settled by it: * {F}"])

    def test_what_settles_nothing_is_remarked(self):
        text = f"m {T} TRUE so it is\nm {F} FALSE so it is\nnone {U} TRUE x\nm CVE-1 TRUE x\nm {U} TRUE x\nm {U} TRUE x\n"
        self.settle(text)
        what = [f"1: nothing is settled by it: m {T}", f"2: nothing is settled by it: m {F}", f"3: nothing is settled by it: none {U}"]
        what += ["4: nothing is settled by it: m CVE-1", f"6: nothing is settled by it: m {U}"]
        self.assertEqual(self.messages.told, [f"remark settled.txt line {one}" for one in what])
        self.assertEqual(self.messages.status(), 0)

    def test_a_line_for_the_machine_counts_before_one_for_all(self):
        found = self.settle(f"* {U} TRUE all\nm {U} FALSE one\n", self.machine(), self.machine("n"))
        self.assertEqual([shown[U] for shown, _ in found], ["FALSE", "TRUE"])

    def test_lines_that_contradict_each_other_settle_nothing(self):
        self.assertEqual(self.settle(f"m {U} TRUE x\nm {U} FALSE y\n"), [({U: "UNKNOWN", T: "TRUE"}, {})])
        self.assertEqual(self.messages.told, [f"left out settled.txt line 2: it contradicts settled.txt line 1, and neither settles {U} on m"])

    def test_what_is_no_line_is_said(self):
        for line in ("m", f"m {U}", f"m {U} TRUE", f"m {U} true x", f"m {U} UNKNOWN x", f"{U} m TRUE"):
            with self.subTest(line):
                self.messages.told.clear()
                self.assertEqual(self.settle(line), [({U: "UNKNOWN", T: "TRUE"}, {})])
                self.assertEqual(self.messages.told, ["left out settled.txt line 1: it is not a machine or *, an advisory, TRUE or FALSE, and a reason"])
        with self.assertRaises(Fatal):
            read_settlements([str(self.folder / "none")], self.messages)
        self.assertEqual(self.settle(b"\xff\xfe"), [({U: "UNKNOWN", T: "TRUE"}, {})])

    def test_a_table_of_one_inventory_is_settled_for_all(self):
        self.assertEqual(self.settle(f"* {U} FALSE x\n", self.machine(None))[0][0][U], "FALSE")


@needs_cpe
class Results(RecipeCase):
    def setUp(self):
        super().setUp()
        products = [{"cpe": {"cpeName": fs("acme", name, "1.0"), "deprecated": False}} for name in ("widget", "suite")]
        advisories = [ranged(U, fs("acme", "widget"), "1.0", "2.0"), ranged(T, fs("acme", "suite"), "1.0", "2.0"), ranged(F, fs("acme", "suite"), "3.0", "4.0")]
        components = [{"bom-ref": "w", "purl": "pkg:deb/debian/widget@1.5-1"}, {"bom-ref": "s", "cpe": fs("acme", "suite", "1.5")}]
        self.words = [
            "--dictionary", self.file("dictionary.json", page("products", *products)),
            "--advisories", self.file("advisories.json", page("vulnerabilities", *advisories)),
            "--lists", self.file("m.json", {"bomFormat": "CycloneDX", "components": components}),
        ]

    def result(self, text, *words):
        return self.scan(*self.words, "--settled", self.file("settled.txt", text), *words)

    def kept(self, name, text):
        return self.file(name, "\n".join(self.result(text, "--json")[1]) + "\n")

    def test_the_table(self):
        status, lines, said = self.result(f"m {U} FALSE not built in\nm {T} FALSE no\n")
        rows = {row.split()[2]: row for row in lines if " CVE-" in row}
        self.assertEqual((status, list(rows)), (0, [T, U]))
        self.assertRegex(rows[U], "^m +FALSE .* settled as FALSE: not built in$")
        self.assertRegex(rows[T], "^m +TRUE ")
        self.assertEqual(lines[-1], "1 machine: 1 TRUE, 0 ERROR, 0 UNKNOWN, 2 FALSE, 1 settled")
        self.assertTrue(any(f"{T} on m is settled as FALSE, and is TRUE by the feeds and lists; it stays TRUE" in line for line in said), said)
        status, lines, said = self.result(f"m {U} TRUE built in\nodd\n", "--all")
        self.assertEqual((status, lines[-1]), (1, "1 machine: 2 TRUE, 0 ERROR, 0 UNKNOWN, 1 FALSE, 1 settled"))

    def test_the_json_and_the_page(self):
        for truth, group in (("FALSE", "SETTLED"), ("TRUE", "TRUE")):
            kept = self.kept("scan.json", f"m {U} {truth} so it is\n")
            row = next(one for one in json.loads(Path(kept).read_text())["machines"][0]["verdicts"] if one["id"] == U)
            self.assertEqual((row["verdict"], row["settled"], row["before"]), (truth, "so it is", "UNKNOWN"))
            self.assertIn("may be acme:widget", row["hangsOn"][0])
            run = subprocess.run([sys.executable, str(RECIPES / "report.py"), kept], capture_output=True, text=True, check=False)
            self.assertEqual(run.returncode, 0, run.stderr)
            self.assertIn(f'<section class="{group}">', run.stdout)
            self.assertIn(f"settled as {truth}: so it is", run.stdout)

    def test_changes(self):
        bare, false, true = self.kept("bare", ""), self.kept("false", f"m {U} FALSE so it is\n"), self.kept("true", f"m {U} TRUE it is not\n")
        for before, after, wanted in (
            (bare, false, [f"gone m {U} UNKNOWN FALSE settled as FALSE: so it is"]),
            (bare, true, [f"changed m {U} UNKNOWN TRUE settled as TRUE: it is not"]),
            (false, bare, [f"new m {U} FALSE UNKNOWN"]),
            (false, true, [f"new m {U} FALSE TRUE settled as TRUE: it is not"]),
            (true, true, []),
        ):
            self.assertEqual(self.recipe("changes", before, after), (0, wanted, []))

    def test_the_verdicts_of_a_fleet(self):
        verdicts = self.file("verdicts", f"m {U} UNKNOWN\nm {T} TRUE\nm {F} FALSE\nmachines 1\n")
        settled = self.file("settled.txt", f"m {U} FALSE not built in\n* {T} FALSE no\n")
        status, lines, said = self.recipe("affected", "--settled", settled, verdicts)
        self.assertEqual((status, lines[-1]), (0, "1 machine: 1 TRUE, 0 ERROR, 0 UNKNOWN, 2 FALSE, 1 settled"))
        self.assertIn("settled as FALSE: not built in", "\n".join(lines))
        self.assertEqual(said, [f"remark settled.txt line 2: {T} on m is settled as FALSE, and is TRUE by the feeds and lists; it stays TRUE"])
        run = subprocess.run([sys.executable, str(RECIPES / "report.py"), "--settled", settled, verdicts], capture_output=True, text=True, check=False)
        self.assertEqual(run.returncode, 0, run.stderr)
        self.assertIn('<section class="SETTLED">', run.stdout)
        self.assertIn("settled as FALSE: not built in", run.stdout)


if __name__ == "__main__":
    unittest.main()
