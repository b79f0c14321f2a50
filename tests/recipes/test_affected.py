"""Tables of verdicts: whether they are whole, and their shown, accepted and open verdicts; and the changes between
two."""
import json
import subprocess
import unittest

from recipe_case import RECIPES, RecipeCase

from cpe_recipes.console import Fatal
from cpe_recipes.verdicts import read_verdicts

TABLE = "refused 3 json\nverdict a FALSE\nverdicts 3\nverdict a TRUE\nverdict b FALSE\nverdict c UNKNOWN\n"
FLEET = "m a TRUE\nm b UNKNOWN\nbare no items\nn a FALSE\nn b UNKNOWN\nmachines 3\n"
CHECK = {"check": {"system": "NVD", "href": "cpeMatch", "id": "key"}}
OTHER = {"check": {"system": "s", "href": "h", "id": "i"}}


def statement(id, *of):
    return {"do": "statement", "id": id, "test": {"op": "OR", "of": list(of)}}


class Verdicts(RecipeCase):
    def read(self, text):
        return read_verdicts(self.file("verdicts", text))

    def test_the_table_of_an_evaluation(self):
        verdicts = self.read(TABLE)
        self.assertEqual((verdicts.refused, verdicts.has_machines), (1, False))
        self.assertEqual([verdicts.machines[0].truth(id) for id in "abcd"], ["TRUE", "FALSE", "UNKNOWN", None])

    def test_the_lines_of_fleets(self):
        machines = self.read(FLEET + "o z ERROR\nmachines 1\n").machines
        self.assertEqual(
            [(one.name, one.has_items, one.shown) for one in machines],
            [
                ("m", True, {"a": "TRUE", "b": "UNKNOWN"}),
                ("bare", False, {}),
                ("n", True, {"b": "UNKNOWN"}),
                ("o", True, {"z": "ERROR"}),
            ],
        )

    def test_a_machine_may_be_called_as_a_word(self):
        machines = self.read("verdict a TRUE\nverdicts a FALSE\nno a TRUE\nmachines 3\n").machines
        self.assertEqual([one.name for one in machines], ["verdict", "verdicts", "no"])

    def test_parts_are_joined_by_or(self):
        ids = ["a", "a#2", "a#3", "b#1", "c", "c#2"]
        truths = ["FALSE", "UNKNOWN", "ERROR", "TRUE", "FALSE", "FALSE"]
        rows = "".join(f"verdict {id} {truth}\n" for id, truth in zip(ids, truths))
        machine = self.read(f"verdicts 6\n{rows}").machines[0]
        self.assertEqual((machine.shown, list(machine.statements.advisories)), ({"a": "ERROR", "b#1": "TRUE"}, ["a", "b#1", "c"]))

    def test_what_is_cut_short_is_fatal_wherever_the_cut_is(self):
        for text in (TABLE, FLEET):
            for length in range(len(text)):
                with self.assertRaises(Fatal, msg=text[:length]):
                    self.read(text[:length])

    def test_what_is_no_output(self):
        for text in (
            "",
            "a b c\n",
            TABLE + "more\n",
            FLEET.replace("n a FALSE\n", ""),
            FLEET.replace("FALSE", "false"),
            "m a TRUE\nn a TRUE\nm a TRUE\nmachines 3\n",
            "machines 1\n",
            "x\nmachines 0\n",
        ):
            with self.assertRaises(Fatal, msg=text):
                self.read(text)


class Affected(RecipeCase):
    def affected(self, text, *words):
        return self.recipe("affected", *words, self.file("verdicts", text))

    def test_a_table_of_one_inventory(self):
        status, lines, said = self.affected(TABLE)
        self.assertEqual(
            lines, ["VERDICT  ADVISORY", "TRUE     a", "UNKNOWN  c", "", "3 statements: 1 TRUE, 0 ERROR, 1 UNKNOWN, 1 FALSE"]
        )
        self.assertEqual((status, said), (1, ["left out the records: 1 line refused"]))
        self.assertEqual(
            self.affected("verdicts 0\n")[:2],
            (0, ["VERDICT  ADVISORY", "", "0 statements: 0 TRUE, 0 ERROR, 0 UNKNOWN, 0 FALSE"]),
        )

    def test_a_table_of_machines(self):
        status, lines, said = self.affected(FLEET)
        self.assertEqual(
            lines,
            [
                "MACHINE  VERDICT  ADVISORY",
                "m        TRUE     a",
                "m        UNKNOWN  b",
                "bare              no items",
                "n        UNKNOWN  b",
                "",
                "3 machines, 1 without items: 1 TRUE, 0 ERROR, 2 UNKNOWN, 1 FALSE",
            ],
        )
        self.assertEqual((status, said), (1, ["left out bare: no items"]))

    def test_scores_and_titles(self):
        details = self.file(
            "details",
            [{"id": "a", "score": 5.0, "title": "A\ttitle\x1b[0m"}, {"id": "b", "score": 9.8, "title": "B" * 100}, {"id": "c"}],
        )
        _, lines, _ = self.affected("verdicts 3\nverdict a TRUE\nverdict c TRUE\nverdict b TRUE\n", "--details", details)
        self.assertEqual(
            lines[:4],
            [
                "VERDICT  ADVISORY  SCORE  TITLE",
                f"TRUE     b         9.8    {'B' * 57}...",
                "TRUE     a         5.0    A\\u0009title\\u001b[0m",
                "TRUE     c",
            ],
        )
        for bad in ("x\n", "7\n", '{"title":"no id"}\n'):
            self.assertEqual(self.affected(TABLE, "--details", self.file("bad", bad))[:2], (2, []))
        self.assertEqual(self.affected(TABLE, "--details", "none")[:2], (2, []))

    def test_accepted_ids_are_told_below(self):
        accepted = self.file("suppress.txt", "# ours\n\r\na m backported by us\r\nb * no way in\nb\nb m\nx * never\n")
        status, lines, said = self.affected(FLEET, "--suppress", accepted)
        self.assertEqual(
            lines,
            [
                "MACHINE  VERDICT  ADVISORY",
                "bare              no items",
                "",
                "accepted m a TRUE: backported by us",
                "accepted m b UNKNOWN: no way in",
                "accepted n b UNKNOWN: no way in",
                "3 machines, 1 without items: 0 TRUE, 0 ERROR, 0 UNKNOWN, 1 FALSE, 3 accepted",
            ],
        )
        self.assertEqual(
            said[:3],
            [
                "left out suppress.txt line 5: it is not an id, a machine or *, and a reason",
                "left out suppress.txt line 6: it is not an id, a machine or *, and a reason",
                "remark suppress.txt line 7: nothing is accepted by it: x *",
            ],
        )
        self.assertEqual(status, 1)

    def test_what_an_unknown_hangs_on(self):
        range_of = {
            "do": "advisory",
            "id": "key",
            "name": "cpe:2.3:a:v:p:*:*:*:*:*:*:*:*",
            "start": "1",
            "end": "2",
            "end-excluded": True,
        }
        tests = [
            statement("a", OTHER),
            statement("b", {"op": "AND", "of": [CHECK, OTHER]}),
            statement("b#2", OTHER, {"check": 7}),
        ]
        words = ["--ranges", self.file("ranges", [range_of]), "--records"]
        records = self.file("records", "no JSON with check\n" + "".join(f"{json.dumps(one)}\n" for one in tests))
        _, lines, _ = self.affected(FLEET, *words, records)
        self.assertEqual(lines[0], "MACHINE  VERDICT  ADVISORY  DEPENDS ON")
        self.assertEqual(lines[2], "m        UNKNOWN  b         cpe:2.3:a:v:p:*:*:*:*:*:*:*:* from 1, before 2; s h i")
        results = [{"do": "check", **OTHER["check"], "result": "ERROR"}, {"do": "drop-check", "system": "x"}]
        _, lines, _ = self.affected(
            FLEET,
            *words,
            records,
            "--records",
            self.file("results", results),
            "--decided",
            self.file("decided", "m\tkey\tFALSE\n"),
        )
        self.assertEqual(lines[2], "m        UNKNOWN  b")
        self.assertEqual(lines[4], "n        UNKNOWN  b         cpe:2.3:a:v:p:*:*:*:*:*:*:*:* from 1, before 2")
        results[0]["result"] = "UNKNOWN"
        _, lines, _ = self.affected(FLEET, "--records", records, "--records", self.file("results", results))
        self.assertEqual(lines[2], "m        UNKNOWN  b         NVD cpeMatch key; s h i")

    def test_nothing_is_written_of_what_is_cut_short(self):
        status, lines, said = self.affected(FLEET[:-1])
        self.assertEqual((status, lines), (2, []))
        self.assertEqual(said, ["affected.sh: verdicts: no whole table of verdicts: its last line has no end"])

    def test_a_full_disk(self):
        with open("/dev/full", "w") as full:
            words = ["sh", str(RECIPES / "affected.sh"), self.file("verdicts", FLEET)]
            run = subprocess.run(words, stdout=full, stderr=subprocess.PIPE, text=True)
        self.assertEqual(
            (run.returncode, run.stderr), (2, "affected.sh: the output could not be written: No space left on device\n")
        )


class Changes(RecipeCase):
    def changes(self, before, after):
        return self.recipe("changes", self.file("before", before), self.file("after", after))

    def test_changes_of_an_inventory(self):
        after = "verdicts 3\nverdict a FALSE\nverdict c TRUE\nverdict d UNKNOWN\n"
        self.assertEqual(
            self.changes(TABLE, after), (0, ["gone a TRUE FALSE", "changed c UNKNOWN TRUE", "new d none UNKNOWN"], [])
        )
        self.assertEqual(self.changes(TABLE, TABLE), (0, [], []))

    def test_changes_of_machines(self):
        after = "m no items\nbare a TRUE\nbare b FALSE\no a FALSE\no b TRUE\nmachines 3\n"
        status, lines, said = self.changes(FLEET, after)
        self.assertEqual(
            lines,
            [
                "gone m a TRUE none no items",
                "gone m b UNKNOWN none no items",
                "new bare a none TRUE",
                "gone n b UNKNOWN none it is no machine any more",
                "new o b none TRUE",
            ],
        )
        self.assertEqual((status, said), (1, ["left out m: no items", "remark n is no machine any more"]))

    def test_changes_of_scans(self):
        shown = [{"id": "a", "verdict": "TRUE"}, {"id": "b", "verdict": "UNKNOWN"}]
        before = {"advisories": 3, "machines": [{"name": "m", "verdicts": shown}, {"name": "n", "verdicts": []}]}
        after = {
            "advisories": 3,
            "machines": [{"name": "m", "verdicts": shown[:1]}, {"name": "n", "items": 0}, {"name": "o", "verdicts": shown[1:]}],
        }
        status, lines, said = self.changes(json.dumps(before, indent=1), json.dumps(after))
        self.assertEqual((status, lines), (1, ["gone m b UNKNOWN FALSE", "new o b none UNKNOWN"]))
        self.assertEqual(said, ["left out n: no items"])
        _, lines, _ = self.changes(json.dumps(before), FLEET)
        self.assertEqual(lines, ["new n b FALSE UNKNOWN"])
        bad = [{"advisories": "3"}, {"advisories": 3, "machines": 7}, {"advisories": 3, "machines": [{}]}, [before, before]]
        bad += [
            {"advisories": 3, "machines": [{"name": "m", "verdicts": [row]}]}
            for row in (7, {"id": "a"}, {"id": "a", "verdict": "PERHAPS"})
        ]
        sides = [json.dumps(one) if isinstance(one, dict) else "".join(map(json.dumps, one)) for one in bad]
        for side in (*sides, json.dumps(before)[:-1]):
            self.assertEqual(self.changes(json.dumps(before), side)[:2], (2, []), side)

    def test_sides_that_can_not_be_compared(self):
        for before, after in ((TABLE, FLEET), (FLEET, TABLE), (TABLE[:-1], TABLE), (FLEET, FLEET[:-1]), ("", "")):
            status, lines, said = self.changes(before, after)
            self.assertEqual((status, lines, len(said)), (2, [], 1))
        self.assertEqual(self.recipe("changes", self.file("one", TABLE))[0], 2)


if __name__ == "__main__":
    unittest.main()
