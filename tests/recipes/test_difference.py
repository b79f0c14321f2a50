"""What a scan from a store takes from an earlier one, and what it decides again; what is kept, and what changed from
day to day."""
import gzip
import itertools
import json
import subprocess
import unittest
from pathlib import Path
from unittest import mock

from recipe_case import RecipeCase, fs, needs_cpe
from stored_case import cve, page, product, ran
from test_portions import match

from cpe_recipes import scan, store
from cpe_recipes.console import Fatal
from cpe_recipes.difference import Difference
from cpe_recipes.store_file import FILE

HERE, OTHER = fs("v", "p", "1.0"), fs("w", "q", "1.0")
LATER = "2024-02-01T00:00:00.000"


@needs_cpe
class Daily(RecipeCase):
    def setUp(self):
        super().setUp()
        self.store, self.pages = str(self.folder / "store"), itertools.count()
        self.machines = self.file("machines", f"m {HERE}\nn {OTHER}\n")
        self.add(page("products", product(HERE), product(OTHER)), page("vulnerabilities", cve(1, match(HERE)), cve(2, match(OTHER)), cve(3)))

    def add(self, *pages):
        paths = [self.file(f"page-{next(self.pages)}.json", one) for one in pages]
        self.assertEqual(ran(store.run, ["add", "--store", self.store, *paths])[0], 0)

    def scan(self, *words, status=0):
        """The verdicts of a scan, its messages, and the statements that it decided again; None if it decided all."""
        asked, prepared = [], Difference.plan

        def noted(difference, ids):
            found = prepared(difference, ids)
            asked.append(found and [one.id for one in found.extract.feed_data.statements])
            return found

        with mock.patch.object(Difference, "plan", noted):
            found, written, said = ran(scan.run, ["--json", "--store", self.store, "--machines", self.machines, *words])
        self.assertEqual(found, status, said)
        rows = [(of["name"], one["id"][-1], one["verdict"]) for of in json.loads(written)["machines"] for one in of.get("verdicts", ())]
        return rows, said, asked[0] if asked else None

    def fleets(self):
        return sorted((Path(self.store) / "verdicts").iterdir())

    def test_what_has_not_changed_is_not_decided_again(self):
        first, said, asked = self.scan()
        self.assertEqual((first, asked), ([("m", "1", "TRUE"), ("n", "2", "TRUE")], None))
        self.assertEqual(self.scan(), (first, said, []))
        self.add(page("vulnerabilities", cve(4, match(OTHER))))
        self.assertEqual(self.scan()[::2], ([*first, ("n", "4", "TRUE")], ["CVE-2024-0004"]))
        self.file("machines", f"m {OTHER}\nn {OTHER}\n")
        wanted = [(machine, id, "TRUE") for machine in "mn" for id in "24"]
        self.assertEqual(self.scan()[::2], (wanted, ["CVE-2024-0001", "CVE-2024-0002", "CVE-2024-0004"]))

    def test_other_options_recipes_and_programs_rest_on_something_else(self):
        first, said, _ = self.scan()
        for words in (["--strict"], ["--why"], ["--hardware", "none"], ["--letters", self.file("letters", "v:p\n")], ["--fresh"], ["--all"]):
            self.assertEqual(self.scan(*words)[2], None, words)
        with mock.patch("cpe_recipes.earlier_scans.recipes_checksum", lambda: "other recipes"):
            self.assertEqual(self.scan(), (first, said, None))
        with mock.patch("cpe_recipes.earlier_scans.shutil.which", lambda _: __file__):
            self.assertEqual(self.scan(), (first, said, None))
        self.assertEqual(self.scan(), (first, said, []))
        # (a file that an earlier scan didn't know changes nothing)
        self.assertEqual(self.scan("--settled", self.file("settled", ""), "--partial", "--large")[2], [])

    def test_files_that_can_not_be_read(self):
        first = self.scan()[:2]
        (path,) = self.fleets()
        data = path.read_bytes()
        changed = gzip.compress(gzip.decompress(data).replace(b'"version":1', b'"version":9'))
        cut = gzip.compress(b"\n".join(gzip.decompress(data).splitlines()[:-2]))
        for place, bad in enumerate((b"", data[:-9], data[: len(data) // 2], b"x" * 99, changed, cut, gzip.compress(b"[]\n0\n"), data[:-20] + bytes([data[-20] ^ 1]) + data[-19:])):
            path.write_bytes(bad)
            self.assertEqual(self.scan(), (*first, None), place)
            self.assertEqual(self.scan(), (*first, []))

    def test_another_store_in_the_same_folder(self):
        self.scan()
        (Path(self.store) / FILE).unlink()
        self.add(page("products", product(HERE), product(OTHER)), page("vulnerabilities", cve(1, match(OTHER)), cve(2, match(HERE)), cve(3)))
        self.assertEqual(self.scan()[::2], ([("m", "2", "TRUE"), ("n", "1", "TRUE")], None))

    def test_what_can_not_be_kept(self):
        with mock.patch("cpe_recipes.earlier_scans.os.replace", side_effect=OSError(28, "No space left on device")):
            rows, said, _ = self.scan()
        self.assertEqual(rows, [("m", "1", "TRUE"), ("n", "2", "TRUE")])
        self.assertIn("the verdicts could not be kept (No space left on device), so the next scan decides all of them", said[-1])
        self.assertEqual(self.fleets(), [])
        self.assertEqual(self.scan()[2], None)

    def test_fleets_are_known_by_their_machines(self):
        both = self.scan()[:2]
        one, other = self.file("one", f"m {HERE}\n"), self.file("other", f"x {HERE}\n")
        for path in (one, other):
            self.assertEqual(len(self.scan("--machines", path)[0]), 1)
        self.assertEqual(len(self.fleets()), 3)
        self.add(page("vulnerabilities", cve(4, match(HERE))))
        self.assertEqual([self.scan("--machines", path)[2] for path in (one, other)], [["CVE-2024-0004"]] * 2)
        self.assertEqual(self.scan()[::2], ([*both[0][:1], ("m", "4", "TRUE"), both[0][1]], ["CVE-2024-0004"]))
        # (with one machine more it is still the same fleet)
        self.file("machines", f"m {HERE}\nn {OTHER}\no {OTHER}\n")
        self.scan()
        self.assertEqual(len(self.fleets()), 3)

    def list_other(self):
        """Makes a match list an item of the second machine. So the item gets the name of another product, and that
        product's advisory concerns it."""
        listed = {"matchString": {"matchCriteriaId": "K", "criteria": fs("x", "r"), "matches": [{"cpeName": OTHER}]}}
        self.add(page("vulnerabilities", cve(5, ranged(fs("x", "r"))), cve(6, match(fs("x", "r", "1.0")))), page("matchStrings", listed))
        self.assertEqual(self.scan()[0], [("m", "1", "TRUE"), *(("n", id, "TRUE") for id in "256")])

    def test_a_list_that_comes_later(self):
        self.add(page("vulnerabilities", cve(5, ranged(fs("x", "r"))), cve(6, match(fs("x", "r", "1.0")))))
        self.assertEqual(self.scan()[0], [("m", "1", "TRUE"), ("n", "2", "TRUE")])
        self.list_other()

    def test_a_new_advisory_on_a_name_that_an_item_has_by_a_list(self):
        self.list_other()
        self.add(page("vulnerabilities", cve(7, match(fs("x", "r", "1.0")))))
        wanted = [("m", "1", "TRUE"), *(("n", id, "TRUE") for id in "2567")]
        self.assertEqual(self.scan()[0], wanted)

    def test_an_advisory_that_changed_otherwise(self):
        """Its verdict is decided again, though it has the same names."""
        self.scan()
        self.add(page("vulnerabilities", cve(1, match(HERE), match(fs("v", "p", "2.0")), modified=LATER)))
        self.assertEqual(self.scan()[::2], ([("m", "1", "TRUE"), ("n", "2", "TRUE")], ["CVE-2024-0001"]))

    def test_an_item_in_another_order(self):
        """Its machine is decided again, because remarks follow the order of items."""
        self.file("machines", f"m {HERE} {OTHER}\n")
        both = [("m", "1", "TRUE"), ("m", "2", "TRUE")]
        self.assertEqual(self.scan()[0], both)
        self.file("machines", f"m {OTHER} {HERE}\n")
        self.assertEqual(self.scan()[::2], (both, ["CVE-2024-0001", "CVE-2024-0002"]))

    def test_an_item_of_a_part_that_a_machine_had_not(self):
        """Then its list names an operating system, so verdicts that depend on one are decided again."""
        system = fs("o", "s", "1.0").replace(":a:", ":o:")
        on_system = cve(5, match(HERE))
        beside = {"operator": "OR", "negate": False, "cpeMatch": [match(system) | {"vulnerable": False, "matchCriteriaId": "S"}]}
        on_system["cve"]["configurations"][0] |= {"operator": "AND", "nodes": [*on_system["cve"]["configurations"][0]["nodes"], beside]}
        self.add(page("vulnerabilities", on_system))
        self.assertEqual(self.scan()[0], [("m", "1", "TRUE"), ("m", "5", "UNKNOWN"), ("n", "2", "TRUE")])
        other = system.replace(":o:s:", ":x:y:")
        self.file("machines", f"m {HERE} {other}\nn {OTHER}\n")
        self.assertEqual(self.scan()[0], [("m", "1", "TRUE"), ("n", "2", "TRUE")])

    def ask_for_the_match_no_more(self, *pages):
        self.add(page("vulnerabilities", cve(5, match(fs("y", "s")), modified=LATER)), *pages)

    def test_a_match_that_no_advisory_asks_for_any_more(self):
        """Then nothing connects the match's product with the item that it listed, and an advisory that did not change
        has another verdict."""
        self.list_other()
        self.ask_for_the_match_no_more()
        self.assertEqual(self.scan()[::2], ([("m", "1", "TRUE"), ("n", "2", "TRUE")], ["CVE-2024-0002", "CVE-2024-0006"]))

    def test_a_name_that_an_item_had_before(self):
        """The advisories of its earlier names are decided again too: for an item that something else touches, and for
        one that its machine has lost."""
        self.list_other()
        self.ask_for_the_match_no_more(page("products", product(OTHER, LATER)))
        self.assertEqual(self.scan()[::2], ([("m", "1", "TRUE"), ("n", "2", "TRUE")], ["CVE-2024-0002", "CVE-2024-0006"]))

    def test_a_name_that_an_item_had_which_is_gone(self):
        self.list_other()
        self.file("machines", f"m {HERE}\nn {HERE}\n")
        self.ask_for_the_match_no_more()
        self.assertEqual(self.scan()[0], [("m", "1", "TRUE"), ("n", "1", "TRUE")])

    def test_an_entry_that_is_deprecated_now(self):
        self.scan()
        self.add(page("products", product(OTHER, LATER, deprecated=True, deprecatedBy=[{"cpeName": HERE}])))
        # (each item has both names now)
        wanted = [(machine, id, "TRUE") for machine in "mn" for id in "12"]
        self.assertEqual(self.scan()[::2], (wanted, ["CVE-2024-0001", "CVE-2024-0002"]))
        # (so an advisory on one of the names concerns the other item too, even if no machine has the first)
        for id, name, item in (("7", HERE, OTHER), ("8", OTHER, HERE)):
            self.file("machines", f"of-{id} {item}\n")
            before = self.scan()[0]
            self.add(page("vulnerabilities", cve(int(id), match(name))))
            self.assertEqual(self.scan()[::2], ([*before, (f"of-{id}", id, "TRUE")], [f"CVE-2024-000{id}"]))

    def test_a_list_by_which_a_version_is_in_a_range(self):
        """The list gives the item no other product, but another verdict."""
        self.add(page("vulnerabilities", cve(5, ranged(fs("w", "q")) | {"versionEndIncluding": "0.5"})))
        self.assertEqual(self.scan()[0], [("m", "1", "TRUE"), ("n", "2", "TRUE")])
        listed = {"matchString": {"matchCriteriaId": "K", "criteria": fs("w", "q"), "matches": [{"cpeName": OTHER}]}}
        self.add(page("matchStrings", listed))
        self.assertEqual(self.scan()[0], [("m", "1", "TRUE"), ("n", "2", "TRUE"), ("n", "5", "TRUE")])

    def changes(self, *words, status=0):
        found, written, said = ran(store.run, ["changes", "--store", self.store, *words])
        self.assertEqual(found, status, said)
        return [line.split(" ", 1) for line in written.splitlines()]

    def test_what_changed_from_scan_to_scan(self):
        self.file("machines", f"m {HERE}\nn {OTHER}\np {OTHER}\n")
        days = [f"2024-01-0{day}T00:00:00+00:00" for day in range(1, 8)]
        for day, change in enumerate([
            lambda: None,
            lambda: self.add(page("vulnerabilities", cve(4, match(HERE)))),
            lambda: self.add(page("vulnerabilities", cve(1, modified="2024-02-01T00:00:00.000", status="Undergoing Analysis"))),
            lambda: self.file("machines", f"m {OTHER}\nn {OTHER}\np {OTHER}\n"),
            lambda: self.file("machines", f"n {OTHER}\no {HERE}\np {OTHER}\n"),
        ]):
            change()
            with mock.patch("cpe_recipes.scan_recorder.current_time", lambda: days[day]):
                self.scan()
        wanted = [
            [days[1], "new m CVE-2024-0004 none TRUE"],
            [days[2], "gone m CVE-2024-0001 TRUE none not analysed: Undergoing Analysis"],
            [days[3], "gone m CVE-2024-0004 TRUE FALSE"],
            [days[3], "new m CVE-2024-0002 FALSE TRUE"],
            [days[4], "gone m CVE-2024-0002 TRUE none it is no machine any more"],
            [days[4], "new o CVE-2024-0004 none TRUE"],
        ]
        self.assertEqual(self.changes(), wanted)
        self.assertEqual(self.changes("--since", "2024-01-04"), wanted[2:])
        self.assertIn("is soon, and a time is expected", self.fatal("changes", "--store", self.store, "--since", "soon"))
        self.assertIn("no store is there", self.fatal("changes", "--store", str(self.folder / "none")))

    def fatal(self, *words):
        with self.assertRaises(Fatal) as found:
            ran(store.run, words)
        return str(found.exception)

    def test_a_scan_takes_three_processes_of_the_program(self):
        lines = "".join(f"m{number} {HERE} {fs('v', 'p', '*')} {fs('w', 'q', f'1.{number}')}\n" for number in range(12))
        self.file("machines", lines)
        old = product(fs("o", "p"), deprecated=True, deprecatedBy=[{"cpeName": HERE}])
        self.add(page("products", old), page("vulnerabilities", *(cve(n, ranged(fs("w", "q"))) for n in range(5, 9))))
        dictionary = self.file("dictionary", page("products", product(HERE), product(OTHER), old))
        advisories = self.file("advisories", page("vulnerabilities", *(cve(n, ranged(fs("w", "q")), match(HERE)) for n in range(5, 9))))
        of_store, of_feeds = ["--store", self.store], ["--dictionary", dictionary, "--advisories", advisories]
        for words in ([*of_store, "--fresh", "--why"], [*of_store, "--why"], of_store, [*of_feeds, "--why"]):
            with mock.patch("cpe_recipes.program.subprocess.Popen", wraps=subprocess.Popen) as started:
                self.assertEqual(ran(scan.run, ["--json", "--machines", self.machines, *words])[0], 0)
            self.assertLessEqual(started.call_count, 3)


def ranged(name):
    """A match of a range."""
    return match(name) | {"matchCriteriaId": "K", "versionEndIncluding": "1.5"}


if __name__ == "__main__":
    unittest.main()
