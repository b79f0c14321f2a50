"""Which items make verdicts TRUE; tests that need the program are skipped if CPE names none that explains."""
import json
import os
import subprocess
import tempfile
import unittest
from pathlib import Path
from unittest import mock

from drawn_feeds import Feeds
from test_store import OPTIONS, ran
from test_scan import SAMPLES, deprecate, entry, name, ranged, scanned, statement
from cpe_recipes import scan
from cpe_recipes.advisories import Range
from cpe_recipes.cases import FeedData
from cpe_recipes.components import Machine
from cpe_recipes.explanations import CertificateText, Explainer
from cpe_recipes.range_checks import CheckResults


def explains():
    path = os.environ.get("CPE")
    return path is not None and subprocess.run([path, "explain"], input=b"", capture_output=True, check=False).returncode == 0


def pair(fact, *item):
    return {"fact": [fact], "item": list(item), "truth": "TRUE"}


class InWords(unittest.TestCase):
    def told(self, test, why, inside=None):
        ranges = {"K": Range("K", name("v", "p"), "1.0", "2.0", end_excluded=True)}
        items = {name("w", "p", "1"): name("v", "p", "1")}
        return list(CertificateText(ranges, CheckResults(inside=inside or {}), items).of(test, why))

    def test_a_pair_names_its_item_and_how_it_is_called_too(self):
        old, new = name("v", "p", "1"), name("w", "p", "1")
        fact, former = name("w", "p"), name("v", "p")
        self.assertEqual(self.told({"fact": former}, pair(former, old)), [f"{old} is covered by {former}"])
        self.assertEqual(self.told({"fact": fact}, pair(fact, new)), [f"{old}, also {new}, is covered by {fact}"])

    def test_of_a_logical_test_what_is_given_counts(self):
        one, two = name("v", "p", "1"), name("v", "q", "1")
        test = {"op": "OR", "of": [{"fact": one}, {"fact": two}]}
        self.assertEqual(self.told(test, {"of": [None, pair(two, two)], "truth": "TRUE"}), [f"{two} is covered by {two}"])
        self.assertEqual(self.told(test, {"of": [{"truth": "FALSE"}, pair(two, two)], "truth": "TRUE"}), [f"{two} is covered by {two}"])

    def test_a_range_names_the_item_whose_version_is_in_it(self):
        one = Range("K", name("v", "p"))
        why = {"of": [pair(one.criteria, name("v", "p", "0.1")), {"truth": "TRUE"}], "truth": "TRUE"}
        wanted = [f"{name('v', 'p', '1.5')} is in {one.criteria} from 1.0, before 2.0"]
        self.assertEqual(self.told(ranged(one), why, {"K": name("v", "p", "1.5")}), wanted)
        self.assertEqual(self.told(ranged(one), {"of": [None, {"truth": "FALSE"}], "truth": "FALSE"}), [])

    def test_a_check_is_named(self):
        test = {"check": {"system": "oval", "href": "x", "id": "def:1"}}
        self.assertEqual(self.told(test, {"truth": "TRUE"}), ["the check def:1 is TRUE"])
        self.assertEqual(self.told(test, {"truth": "UNKNOWN"}), [])


@unittest.skipUnless(explains(), "CPE names no program that explains")
class Asked(unittest.TestCase):
    def test_each_machine_has_its_own_item(self):
        old, new = name("v", "p", "1"), name("w", "p", "1")
        one = Range("KEY", name("v", "r"), "1.0", "2.0", end_excluded=True)
        records = [statement("CVE-1", {"fact": new}, {"fact": name("v", "q")}), statement("CVE-2", ranged(one))]
        feed_data = FeedData([entry(old), entry(new), deprecate(old, new)], records, {"KEY": one}, {}, {})
        machines = [
            Machine("a", [old, name("v", "r", "0.5"), name("v", "r", "1.5")]),
            Machine("b", [name("v", "q", "7")]),
            Machine("c", [name("v", "r", "0.5")]),
        ]
        _, found = scanned(feed_data, machines, has_why=True)
        self.assertEqual(found[0].explanations, {
            0: [f"{old}, also {new}, is covered by {new}"],
            1: [f"{name('v', 'r', '1.5')} is in {one.criteria} from 1.0, before 2.0"],
        })
        self.assertEqual(found[1].explanations, {0: [f"{name('v', 'q', '7')} is covered by {name('v', 'q')}"]})
        self.assertEqual(found[2].explanations, {})

    def test_each_true_verdict_of_the_samples_has_one(self):
        words = ["--dictionary", "dictionary.json", "--advisories", "advisories.json", "--matches", "matches.json", "--lists"]
        words += sorted(path.name for path in SAMPLES.iterdir() if "-" in path.name)
        recipe = str(SAMPLES.parents[1] / "scan.py")
        run = subprocess.run(
            ["python3", recipe, "--json", "--why", *words],
            cwd=SAMPLES, capture_output=True, env={**os.environ, "CPE": os.path.abspath(os.environ["CPE"])}, check=False,
        )
        self.assertEqual(run.returncode, 0, run.stderr)
        rows = [
            (machine["name"], row["id"], row.get("decidedBy"))
            for machine in json.loads(run.stdout)["machines"] for row in machine.get("verdicts", ()) if row["verdict"] == "TRUE"
        ]
        self.assertGreater(len(rows), 20)
        self.assertEqual([row for row in rows if not row[2]], [])


    def test_what_is_chosen_is_what_is_explained(self):
        count = 0
        for seed in range(12):
            with tempfile.TemporaryDirectory() as folder, self.subTest(seed):
                feeds = Feeds(seed)
                pages = feeds.whole(Path(folder))
                words = [word for kind, paths in pages.items() for word in (OPTIONS[kind], *paths)]
                words += ["--json", "--why", "--machines", feeds.machines(Path(folder) / "machines", count=8)]
                found = ran(scan.run, words)
                with mock.patch.object(scan, "BatchExplainer", lambda program, known, _: Explainer(program, known)):
                    self.assertEqual(found, ran(scan.run, words))
                count += found[1].count('"decidedBy"')
        self.assertGreater(count, 100)


if __name__ == "__main__":
    unittest.main()
