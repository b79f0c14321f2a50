"""A store of feeds: pages that are old, repeated, missing, cut off or odd; and bad stores, full disks and other
users."""
import itertools
import json
import os
import shutil
import signal
import sqlite3
import subprocess
import sys
import tempfile
import unittest
import zipfile
from contextlib import contextmanager
from pathlib import Path
from unittest import mock

from recipe_case import RECIPES, SAMPLES, RecipeCase, fs, needs_cpe
from stored_case import OPTIONS, Sequence, cve, of_verdicts, page, product, ran
from test_portions import SMALL, limited, match

from test_feeds import Heard

from cpe_recipes import cve5, feeds, fleet, scan, statement_cache, store, store_reader, store_writer
from cpe_recipes.console import Fatal
from cpe_recipes.page_rows import convert_page
from cpe_recipes.program import Program
from cpe_recipes.session import Session
from cpe_recipes.store_file import FILE, VERSION, StoreFile


@contextmanager
def as_another():
    """Runs as a user without rights to write, if the tests run as one who may write everywhere."""
    is_root = os.geteuid() == 0
    if is_root:
        os.seteuid(65534)
    try:
        yield
    finally:
        if is_root:
            os.seteuid(0)


HERE, ELSEWHERE = fs("v", "p", "1.0"), fs("w", "q", "1.0")


@needs_cpe
class Stores(RecipeCase):
    def setUp(self):
        super().setUp()
        self.store = str(self.folder / "store")
        self.machines = self.file("machines", f"m {HERE}\n")
        self.pages = itertools.count()

    def add(self, *pages, status=0):
        paths = [one if isinstance(one, str) else self.file(f"page-{next(self.pages)}.json", one) for one in pages]
        found, written, said = ran(store.run, ["add", "--store", self.store, *paths])
        self.assertEqual(found, status, said)
        return written.strip(), said

    def filled(self):
        dictionary = page("products", product(HERE), product(ELSEWHERE))
        return self.add(dictionary, page("vulnerabilities", cve(1, match(HERE)), cve(2, match(ELSEWHERE)), cve(3)))

    def verdicts(self, *words, status=0):
        """The verdicts of the machine by advisory, and the value of the scan."""
        found, written, said = ran(scan.run, ["--json", "--store", self.store, "--machines", self.machines, *words])
        self.assertEqual(found, status, said)
        value = json.loads(written)
        return {one["id"][-1]: one["verdict"] for one in value["machines"][0]["verdicts"]}, value

    def fatal(self, *words, run=store.run):
        with self.assertRaises(Fatal) as caught:
            ran(run, list(words))
        return str(caught.exception)

    def scan_is_fatal(self, *words):
        return self.fatal("--store", self.store, "--machines", self.machines, *words, run=scan.run)

    def test_what_is_elsewhere_is_counted_and_not_read(self):
        self.assertEqual(self.filled()[0], "added 2 pages: 5 records new or later")
        verdicts, value = self.verdicts()
        self.assertEqual((verdicts, value["advisories"], value["asked"]), ({"1": "TRUE"}, 2, ["CVE-2024-0001", "CVE-2024-0002"]))
        self.assertEqual(value["notAnalysed"], {"Analyzed": ["CVE-2024-0003"]})
        with mock.patch("cpe_recipes.store_reader.decode", side_effect=statement_cache.decode) as read, mock.patch("cpe_recipes.store_reader.record_of") as record_of:
            self.verdicts()
        self.assertEqual((read.call_count, record_of.call_count), (1, 0))
        self.assertEqual(self.verdicts("--all")[0], {"1": "TRUE", "2": "FALSE"})

    def test_what_other_recipes_made_is_made_again(self):
        self.filled()
        before = self.verdicts()
        with sqlite3.connect(Path(self.store) / FILE) as connection:
            connection.execute("UPDATE maker SET digest = 'other'")
            connection.execute("UPDATE made SET data = x'00'")
            connection.execute("UPDATE advisories SET is_odd = 0, is_of_systems = 1, state = NULL, has_names = 0")
            connection.execute("DELETE FROM concerns")
        connection.close()
        self.assertEqual(self.verdicts(), before)
        self.assertEqual(ran(store.run, ["check", "--store", self.store])[0], 0)

    def test_a_cve_record_that_older_recipes_converted(self):
        record = {"dataType": "CVE_RECORD", "dataVersion": "5.1", "cveMetadata": {"cveId": "CVE-2024-0005", "state": "PUBLISHED", "dateUpdated": "2024-01-01T00:00:00Z"}}
        affected = {"cpes": [HERE], "defaultStatus": "affected", "versions": [{"version": "1.0", "status": "affected", "versionType": "semver"}]}
        record["containers"] = {"cna": {"affected": [affected], "descriptions": [{"lang": "en", "value": "x"}]}}
        real = cve5.vulnerability

        def older(one):
            found = real(one)
            found["cve"].pop("configurations", None)
            return found

        path = self.file("record.json", json.dumps([record]))
        with mock.patch.object(store_writer, "recipes_checksum", lambda: "older"), mock.patch.object(cve5, "vulnerability", older):
            self.filled()
            self.add(path, page("vulnerabilities", cve(5)))
        # (now the record has names, so it replaces NVD's, which isn't analysed)
        self.assertEqual(self.verdicts()[0], {"1": "TRUE", "5": "TRUE"})
        self.assertEqual(ran(store.run, ["check", "--store", self.store])[0], 0)

    def test_two_ranges_under_one_id_of_a_match(self):
        self.filled()
        ranged = match(fs("v", "p"))
        first, second = cve(6, ranged | {"versionEndIncluding": "0.5"}), cve(7, ranged | {"versionEndIncluding": "1.5"})
        # (the match has the list of the first of them)
        listed = {"matchString": {"matchCriteriaId": "K", "criteria": fs("v", "p"), "matches": [{"cpeName": fs("v", "p", "0.1")}]}}
        self.add(page("vulnerabilities", first, second), page("matchStrings", listed))
        self.assertEqual(self.verdicts()[0], {"1": "TRUE", "7": "TRUE"})
        self.add(page("vulnerabilities", cve(8, ranged | {"versionEndIncluding": "1", "versionEndExcluding": "1"})))
        self.assertEqual(self.verdicts(status=1)[0], {"1": "TRUE", "7": "TRUE", "8": "UNKNOWN"})

    def test_a_list_reaches_items_by_the_id_of_its_match(self):
        """Whatever the feed calls the match: an item gets the advisory's own name for it, by which other advisories
        find the item."""
        ranged = match(fs("x", "q")) | {"versionEndExcluding": "3"}
        others = [cve(n, match(fs("y", f"z{n}"))) for n in range(10, 15)]
        odd = cve(2, match(fs("x", "q")), ranged | {"criteria": fs("*", "q"), "matchCriteriaId": "odd", "versionEndExcluding": "2"})
        advisories = page("vulnerabilities", cve(1, ranged), odd, cve(3, match(fs("x", "q", "1.0"))), cve(4, match(fs("v", "q", "1.0"))), *others)
        dictionary = page("products", product(HERE), product(ELSEWHERE))
        for criteria in ("none", 5, fs("x", "q"), fs("old", "q"), fs("*", "q"), HERE, "cpe:/a:x:q"):
            with self.subTest(criteria), limited(SMALL):
                shutil.rmtree(self.store, ignore_errors=True)
                listed = [{"matchCriteriaId": key, "criteria": criteria, "matches": [{"cpeName": HERE}]} for key in ("K", "odd")]
                if criteria == "none":
                    del listed[0]["criteria"], listed[1]["criteria"]
                pages = [dictionary, advisories, page("matchStrings", *({"matchString": one} for one in listed))]
                self.add(*pages)
                words = [word for option, one in zip(OPTIONS.values(), pages) for word in (option, self.file(f"{option[2:]}.json", one))]
                some, whole = (ran(scan.run, ["--json", "--machines", self.machines, *words, *more]) for more in ((), ["--all"]))
                self.assertIn("remark 4 of 9 advisories may concern", "".join(some[2]))
                wanted = {"1": "TRUE", "2": "TRUE", "3": "TRUE", "4": "TRUE"}
                self.assertEqual(self.verdicts()[0], wanted)
                self.assertEqual({one["id"][-1]: one["verdict"] for one in json.loads(some[1])["machines"][0]["verdicts"]}, wanted)
                verdicts = json.loads(whole[1])["machines"][0]["verdicts"]
                self.assertEqual({one["id"][-1]: one["verdict"] for one in verdicts if one["verdict"] != "FALSE"}, wanted)

    def test_a_page_twice_changes_nothing(self):
        self.filled()
        before = self.verdicts()
        again = page("vulnerabilities", cve(1, match(HERE)), cve(2, match(ELSEWHERE)), cve(3))
        written, _ = self.add(again, again)
        self.assertEqual((written, self.verdicts()), ("added 0 pages: 0 records new or later; 2 were there", before))

    def test_the_record_that_was_modified_last_counts(self):
        self.filled()
        later, older = "2024-02-01T00:00:00.000", "2023-02-01T00:00:00.000"
        self.add(page("vulnerabilities", cve(1, match(ELSEWHERE), modified=older), cve(2, match(HERE), modified=older)))
        self.assertEqual(self.verdicts()[0], {"1": "TRUE"})
        self.add(page("vulnerabilities", cve(1, match(ELSEWHERE), modified=later), cve(2, match(HERE), modified=later)))
        self.assertEqual(self.verdicts()[0], {"2": "TRUE"})
        self.assertEqual(ran(store.run, ["check", "--store", self.store])[0], 0)
        # (and of two records of the same time it isn't known which counts)
        _, said = self.add(page("vulnerabilities", cve(2, match(ELSEWHERE), modified=later)))
        self.assertEqual(self.verdicts(status=1)[0], {"2": "TRUE"})
        self.assertIn("neither says that it is later", str(self.verdicts(status=1)[1]["leftOut"]))

    def test_pages_of_the_same_name(self):
        self.filled()
        for day in range(4, 7):
            (self.folder / str(day)).mkdir()
            modified = self.file(f"{day}/modified.json", page("vulnerabilities", cve(day, match(HERE))))
            self.add(modified)
        self.assertEqual(self.verdicts()[0], dict.fromkeys("1456", "TRUE"))

    def test_an_id_that_goes(self):
        self.filled()
        before = self.file("before.json", ran(scan.run, ["--json", "--store", self.store, "--machines", self.machines])[1])
        for day, status in enumerate(("Rejected", "Undergoing Analysis"), 2):
            self.add(page("vulnerabilities", cve(1, *[match(HERE)] * (day == 2), status=status, modified=f"2024-0{day}-01T00:00:00.000")))
            verdicts, value = self.verdicts()
            self.assertEqual((verdicts, value["asked"]), ({}, ["CVE-2024-0002"]))
            after = self.file("after.json", json.dumps(value))
            why = "rejected" if status == "Rejected" else f"not analysed: {status}"
            self.assertEqual(self.recipe("changes", before, after)[1], [f"gone m CVE-2024-0001 TRUE none {why}"])

    def test_a_deprecation_that_comes_later(self):
        self.filled()
        later = "2024-02-01T00:00:00.000"
        self.add(page("vulnerabilities", cve(4, match(fs("x", "new", "1.0")))))
        self.assertEqual(self.verdicts()[0], {"1": "TRUE"})
        self.add(page("products", product(HERE, later, deprecated=True, deprecatedBy=[{"cpeName": fs("x", "new", "1.0")}])), status=0)
        # (its successor isn't there yet)
        self.assertEqual(self.verdicts(status=1)[0], {"1": "TRUE"})
        self.add(page("products", product(fs("x", "new", "1.0"), later)))
        self.assertEqual(self.verdicts()[0], {"1": "TRUE", "4": "TRUE"})

    def test_a_deprecation_that_is_spelled_as_a_uri(self):
        self.filled()
        new = fs("new\\!", "prod", "1.0")
        self.machines = self.file("machines", f"m {fs('old', 'prod', '1.0')}\n")
        old = product("cpe:/a:old:prod:1.0", deprecated=True, deprecatedBy=[{"cpeName": "cpe:/a:new%21:prod:1.0"}])
        self.add(page("products", old, product(new)), page("vulnerabilities", cve(4, match(new))))
        self.assertEqual(self.verdicts()[0], {"4": "TRUE"})

    def test_pages_that_are_missing(self):
        self.filled()
        self.add(page("vulnerabilities", cve(5, match(HERE)), cve(6, match(HERE)), start=0, total=3))
        gap = "the feed has 3 advisories, 2 were given; those of startIndex 2 to 2 are missing"
        self.assertIn(f"{gap} (--partial lets it pass)", self.scan_is_fatal())
        status, _, said = ran(store.run, ["status", "--store", self.store])
        self.assertEqual((status, said[0].endswith(gap)), (1, True))
        verdicts, value = self.verdicts("--partial", status=1)
        self.assertEqual((verdicts, value["missing"][0]["given"]), ({"1": "TRUE", "5": "TRUE", "6": "TRUE"}, 2))
        self.add(page("vulnerabilities", cve(7, match(HERE)), start=2, total=3))
        self.assertEqual(self.verdicts()[0], {"1": "TRUE", "5": "TRUE", "6": "TRUE", "7": "TRUE"})

    def test_a_window_that_has_as_many_as_another(self):
        self.filled()
        first = [page("vulnerabilities", *(cve(n, match(HERE)) for n in some), start=some[0] - 10, total=4) for some in ((10, 11), (12, 13))]
        second = page("vulnerabilities", *(cve(n, match(HERE), modified="2024-07-01T00:00:00.000") for n in (10, 11)), total=4)
        self.add(*first)
        self.add(second)
        # (the second page of the later window is missing)
        self.assertIn("the feed has 4 advisories, 2 were given; those of startIndex 2 to 3 are missing", self.scan_is_fatal())
        self.add(page("vulnerabilities", cve(12, match(HERE), modified="2024-07-01T00:00:00.000"), cve(14, match(HERE)), start=2, total=4))
        self.verdicts()
        # (a known page begins no feed)
        self.add(first[0], page("vulnerabilities", cve(15, match(HERE))))
        self.verdicts()

    def test_two_windows_of_one_run(self):
        self.filled()
        pages = [page("vulnerabilities", *(cve(n, match(HERE)) for n in some), start=some[0] % 2, total=2) for some in ((10,), (11,), (12,))]
        self.add(*pages)
        gap = "the feed has 4 advisories, 3 were given; they are pages of 2 feeds of 2 each, and in one those of startIndex 1 to 1 are missing"
        self.assertIn(gap, self.scan_is_fatal())
        self.add(*pages, page("vulnerabilities", cve(13, match(HERE)), start=1, total=2))
        self.verdicts()

    def test_a_gap_that_a_later_feed_ends(self):
        self.filled()
        self.add(page("vulnerabilities", cve(10, match(HERE)), cve(11, match(HERE)), total=40))
        # (neither this window nor one with other records has it)
        for some in ((10, 12), range(12, 60)):
            self.add(*(page("vulnerabilities", cve(n, match(HERE)), start=k, total=len(some)) for k, n in enumerate(some)))
            self.assertIn("the feed has 40 advisories, 2 were given", self.scan_is_fatal())
        self.add(*(page("vulnerabilities", cve(n, match(HERE)), start=k, total=51) for k, n in enumerate(range(10, 61))))
        self.verdicts()

    def test_a_gap_that_feeds_of_one_page_each_end(self):
        self.filled()
        self.add(page("vulnerabilities", cve(4, match(HERE)), cve(5, match(HERE)), total=4))
        years = self.of_years()
        # (the feed of one run has fewer records, and that of the other isn't complete)
        for some in (years[:2], years[1:]):
            self.add(*some)
            self.assertIn("the feed has 4 advisories, 2 were given", self.scan_is_fatal())
        self.add(*years)
        self.assertEqual(set(self.verdicts()[0]), {"1", *map(str, range(4, 9))})

    def test_what_a_stopped_run_had_not_worked_out(self):
        with mock.patch("cpe_recipes.store.update_findings", side_effect=KeyboardInterrupt), self.assertRaises(KeyboardInterrupt):
            self.filled()
        status, _, said = ran(store.run, ["status", "--store", self.store])
        self.assertEqual((status, len([line for line in said if "was not worked out by the run that added them" in line])), (1, 2))
        self.assertEqual(self.verdicts(status=1)[0], {"1": "TRUE"})
        self.add(*map(str, self.folder.glob("page-*.json")))
        self.assertEqual(self.verdicts()[0], {"1": "TRUE"})
        self.assertEqual(ran(store.run, ["status", "--store", self.store])[0], 0)

    def of_years(self):
        """Pages that each are a whole feed, so that none is missing."""
        return [self.file(f"year-{k}.json", page("vulnerabilities", cve(k, match(HERE)))) for k in range(4, 9)]

    def test_an_add_that_was_killed_between_pages(self):
        self.filled()
        years = self.of_years()
        put, count = store_writer.StoreWriter.put, iter(range(9))
        with mock.patch.object(store_writer.StoreWriter, "put", lambda *given: put(*given) if next(count) < 2 else os.kill(os.getpid(), signal.SIGKILL)):
            process = os.fork()
            if process == 0:
                ran(store.run, ["add", "--store", self.store, *years])
                os._exit(0)
        os.waitpid(process, 0)
        # (neither a scan nor a run that adds other pages, or none, changes that)
        for pages in ([], years[:1], [page("vulnerabilities", cve(9, match(ELSEWHERE)))]):
            verdicts, value = self.verdicts(status=1)
            self.assertEqual((verdicts, len(value["leftOut"])), ({"1": "TRUE", "4": "TRUE", "5": "TRUE"}, 1))
            self.assertIn("and has not ended", value["leftOut"][0]["reason"])
            status, _, said = ran(store.run, ["status", "--store", self.store])
            self.assertEqual((status, any("year-4.json, year-5.json, year-6.json and 2 more: store.py add of this began" in line for line in said)), (1, True))
            self.add(*pages)
        self.add(*years)
        self.assertEqual(self.verdicts()[0], dict.fromkeys("145678", "TRUE"))
        self.assertEqual(ran(store.run, ["status", "--store", self.store])[0], 0)

    def test_a_scan_between_two_pages_of_an_add(self):
        self.filled()
        put, found = store_writer.StoreWriter.put, []

        def scanned(*given):
            found.append(self.verdicts(status=1))
            return put(*given)

        with mock.patch.object(store_writer.StoreWriter, "put", scanned):
            self.add(*self.of_years())
        self.assertEqual([len(verdicts) for verdicts, _ in found], [1, 2, 3, 4, 5])
        self.assertEqual({one["reason"].endswith("pages may be missing until it is run again, to its end") for _, value in found for one in value["leftOut"]}, {True})
        self.assertEqual(len(self.verdicts()[0]), 6)

    def test_a_file_that_is_not_there(self):
        self.filled()
        self.assertIn("there is no such file; nothing was added", self.fatal("add", "--store", self.store, *self.of_years(), str(self.folder / "none")))
        self.assertEqual(self.verdicts()[0], {"1": "TRUE"})

    def test_status(self):
        self.filled()
        status, written, said = ran(store.run, ["status", "--store", self.store])
        lines = written.splitlines()
        self.assertEqual((status, said, lines[0][:26]), (0, [], "2 pages, the last one adde"))
        self.assertEqual(lines[1:], [
            "products: 2, the last modified 2024-01-01T00:00:00.000", "advisories: 3, the last modified 2024-01-01T00:00:00.000",
            "match strings: 0", "of these rejected: 0, not analysed: 1",
        ])

    def test_the_last_time_is_the_latest(self):
        times = ("2024-06-01T00:30:00+02:00", "2024-05-31T23:00:00Z", "zzz", 99, None)
        self.add(page("products", product(HERE, None)), page("vulnerabilities", *(cve(n, match(HERE), modified=time) for n, time in enumerate(times, 1))))
        lines = ran(store.run, ["status", "--store", self.store])[1].splitlines()
        self.assertEqual(lines[1:3], ["products: 1", "advisories: 5, the last modified 2024-05-31T23:00:00Z"])

    def test_pages_that_can_not_be_read(self):
        bad = self.file("bad.json", '{"products":')
        with self.assertRaises(Fatal):
            self.add(bad)
        written, said = self.add(page("products", product(HERE)), bad, status=1)
        self.assertEqual((written, said[0][:22]), ("added 1 page: 1 record new or later", "left out bad.json: no "))
        self.assertIn("no advisory that can have a verdict is in the store", self.scan_is_fatal())

    def test_a_file_that_is_torn_behind_its_first_page(self):
        self.filled()
        text = json.dumps(page("vulnerabilities", cve(4, match(HERE))))
        torn = self.file("torn.json", text + "\n" + text.replace("0004", "0005")[:-20])
        for _ in range(2):
            # (it is never considered as added whole)
            self.assertIn("left out torn.json: no JSON", str(self.add(torn, page("products", product(HERE)), status=1)[1]))
        Path(torn).write_text(text + "\n" + text.replace("0004", "0005"))
        self.add(torn)
        self.assertEqual(self.verdicts()[0], dict.fromkeys("145", "TRUE"))

    def left(self, count):
        """The messages of a scan about what is left out; the status agrees."""
        left = self.verdicts(status=1 if count else 0)[1]["leftOut"]
        status, _, said = ran(store.run, ["status", "--store", self.store])
        self.assertEqual((len(left), len(said), status), (count, count, 1 if count else 0), said)
        return left

    def test_what_could_not_be_read_is_said_by_each_scan(self):
        self.filled()
        bad, archive = str(self.folder / "bad.json"), str(self.folder / "pages.zip")
        good = json.dumps(page("vulnerabilities", cve(4, match(HERE)))).encode()
        for data in (b'{"vulnerabilities":["\xff"]}', good[:-9], good + good[:-9]):
            Path(bad).write_bytes(data)
            self.add(bad, page("products", product(HERE)), status=1)
            self.assertEqual([one["id"] for one in self.left(1)], ["bad.json"])
        with zipfile.ZipFile(archive, "w") as members:
            members.writestr("a.json", good)
            members.writestr("b.json", good[:-9])
        self.add(archive, status=1)
        self.assertEqual([one["id"] for one in self.left(2)], ["bad.json", "pages.zip/b.json"])
        Path(bad).write_bytes(good)
        self.add(bad)
        self.left(1)
        with zipfile.ZipFile(archive, "w") as members:
            members.writestr("a.json", good)
        self.add(archive)
        self.left(0)

    def test_a_file_that_will_not_come_is_forgotten(self):
        self.filled()
        bad, years = self.file("bad.meta", "size: 7"), self.of_years()
        self.add(years[0], bad, status=1)
        with mock.patch.object(store_writer.StoreWriter, "finish", side_effect=KeyboardInterrupt), self.assertRaises(KeyboardInterrupt):
            self.add(*years)
        self.left(2)
        self.assertEqual(ran(store.run, ["forget", "--store", self.store, bad, *years[1:]])[:2], (0, "forgot 5 files\n"))
        self.left(1)
        self.assertEqual(ran(store.run, ["forget", "--store", self.store, years[0]])[:2], (0, "forgot 1 file\n"))
        self.left(0)
        status, written, said = ran(store.run, ["forget", "--store", self.store, bad])
        self.assertEqual((status, written, len(said)), (1, "forgot 0 files\n", 1))

    def test_a_page_that_does_not_say_where_it_begins(self):
        self.filled()
        bad = page("vulnerabilities", cve(4, match(HERE)), total=2)
        del bad["startIndex"]
        bad = self.file("bad.json", bad)
        good = page("vulnerabilities", cve(5, match(HERE)))
        written, said = self.add(bad, good, status=1)
        self.assertEqual((written, said), ("added 1 page: 1 record new or later", ["left out bad.json: it has 1 of 2 advisories, and no startIndex that says which"]))
        self.assertEqual(self.verdicts(status=1)[0], dict.fromkeys("15", "TRUE"))
        self.assertIn("no startIndex that says which", self.left(1)[0]["reason"])

    def test_a_match_that_could_not_be_read(self):
        self.filled()
        self.add(page("vulnerabilities", cve(4, match(fs("v", "p")) | {"matchCriteriaId": "L", "versionEndIncluding": "2.0"})))
        one = {"matchCriteriaId": "L", "criteria": fs("v", "p"), "matches": [{"cpeName": HERE}], "lastModified": "2024-05-01T00:00:00.000"}
        of = [{"matchString": one | more} for more in ({"matches": "no"}, {"lastModified": "2024-04-01T00:00:00.000"}, {}, {"matches": "no", "lastModified": "2024-04-01T00:00:00.000"})]
        for record, count, is_read in zip(of, (1, 1, 0, 0), (False, True, True, False)):
            self.add(page("matchStrings", record, {"matchString": {"matchCriteriaId": "M", "matches": []}}), status=0 if is_read else 1)
            self.assertEqual([one["id"] for one in self.left(count)], ["L"] * count)
        # (nor are other names of its items)
        self.machines = self.file("machines", f"m {fs('y', 'y', '1.0')}\n")
        self.add(page("matchStrings", {"matchString": one | {"matches": ["x"], "lastModified": "2024-06-01T00:00:00.000"}}), status=1)
        self.assertEqual([one["id"] for one in self.left(1)], ["L"])
        self.add(page("matchStrings", {"matchString": one | {"lastModified": "2024-06-01T00:00:00.000"}}))
        # (nothing is reported about a product that isn't wanted)
        self.add(page("matchStrings", {"matchString": {"matchCriteriaId": "M", "matches": 7}}), status=1)
        self.assertEqual(self.verdicts()[1]["leftOut"], [])
        self.assertEqual(ran(store.run, ["status", "--store", self.store])[0], 1)

    def test_odd_texts(self):
        half = "\ud800"
        odd = {
            "a title": page("products", product(fs("v", "p", "2.0"), titles=[{"title": f"a{half}", "lang": "en"}])),
            "a name": page("products", product(fs("v", f"p{half}", "2.0"))),
            "an id": page("vulnerabilities", cve(8, match(HERE)) | {"cve": cve(8, match(HERE))["cve"] | {"id": f"CVE{half}"}}),
            "a state": page("vulnerabilities", cve(8, status=f"A{half}")),
            "an id of a match": page("matchStrings", {"matchString": {"matchCriteriaId": f"K{half}", "matches": [{"cpeName": HERE}]}}),
            "the sign that the store has for these": page("vulnerabilities", cve(8, status="A\x1a001a")),
        }
        for what, one in odd.items():
            with self.subTest(what):
                shutil.rmtree(self.store, ignore_errors=True)
                self.filled()
                path = self.file("odd.json", one)
                self.add(path, page("vulnerabilities", cve(9, match(HERE))))
                pages = [path, *(str(self.folder / name) for name in sorted(os.listdir(self.folder)) if name.startswith("page-"))]
                words = ["--machines", self.machines, "--json", "--all"]
                for kind, option in OPTIONS.items():
                    of_kind = [name for name in pages if kind in json.loads(Path(name).read_text())]
                    words += [option, *of_kind] if of_kind else []
                whole = ran(scan.run, words)
                found = ran(scan.run, ["--store", self.store, *words[:4]])
                self.assertEqual(found[0], whole[0])
                self.assertEqual(of_verdicts(found[1].splitlines()), of_verdicts(whole[1].splitlines()))
                self.assertEqual(ran(store.run, ["check", "--store", self.store])[0], 0)
                [path.unlink() for path in self.folder.glob("page-*")]

    def test_a_file_whose_name_is_no_text(self):
        self.filled()
        path = str(self.folder / "odd\udcff.json")
        try:
            Path(path).write_text(json.dumps(page("vulnerabilities", cve(9, match(HERE)))))
        except OSError:
            self.skipTest("no such name can be here")
        self.add(path)
        self.assertEqual(self.verdicts()[0], dict.fromkeys("19", "TRUE"))

    def test_a_count_that_is_too_large(self):
        self.filled()
        bad = self.file("bad.json", page("vulnerabilities", cve(8, match(HERE)), total=1 << 70))
        _, said = self.add(bad, page("vulnerabilities", cve(9, match(HERE))), status=1)
        self.assertIn("which is no count", said[0])
        self.assertEqual(self.verdicts(status=1)[0], dict.fromkeys("19", "TRUE"))

    def test_words(self):
        self.filled()
        for words in ([], ["more"], ["add"], ["status"], ["status", "--store", self.store, self.machines], ["check", "--store", self.store, "--large"], ["forget", "--store", self.store]):
            with self.subTest(words):
                self.assertIn("usage: store.py add", self.fatal(*words))
        for words in (["--dictionary", self.machines], ["--matches", self.machines], ["--advisories", self.machines]):
            self.assertIn("usage: scan.py", self.scan_is_fatal(*words))
        self.assertIn("no store is there", self.fatal("status", "--store", str(self.folder / "none")))
        self.store = str(self.folder)
        self.assertIn("no store is there", self.scan_is_fatal())

    def test_what_has_no_entry_is_listed_from_the_store(self):
        self.filled()
        self.machines = self.file("machines", f"m {fs('v', 'p', '7')} {HERE}\n")
        _, _, said = ran(scan.run, ["--store", self.store, "--machines", self.machines])
        command = next(line for line in said if "to list them: " in line).split("to list them: ")[1]
        run = subprocess.run(["sh", "-c", command], capture_output=True, text=True, check=True)
        self.assertEqual(run.stdout, f"not in the dictionary m {fs('v', 'p', '7')}\n")

    def test_what_is_no_store(self):
        self.filled()
        path = Path(self.store) / FILE
        whole = path.read_bytes()
        for data in (b"no database at all, and long enough to be looked at", whole[: len(whole) // 2], whole[:4096] + b"\xff" * (len(whole) - 4096), whole[:100]):
            for beside in ("-wal", "-shm"):
                Path(f"{path}{beside}").unlink(missing_ok=True)
            path.write_bytes(data)
            with self.subTest(len(data)):
                self.assertIn(FILE, self.scan_is_fatal())
                with self.assertRaises(Fatal):
                    self.filled()

    def test_a_record_that_is_torn(self):
        later = page("vulnerabilities", *(cve(n, match(HERE), modified="2024-07-01T00:00:00.000") for n in (1, 2, 3)))
        for edit in ("UPDATE made SET data = x'789c00'", "DELETE FROM made; UPDATE advisories SET data = x'789c00'"):
            shutil.rmtree(self.store, ignore_errors=True)
            self.filled()
            with sqlite3.connect(Path(self.store) / FILE) as connection:
                connection.executescript(edit)
            connection.close()
            with self.subTest(edit):
                self.assertIn("the store is torn: remove it, and add the pages again", self.scan_is_fatal())
                if "advisories" in edit:
                    self.assertIn("the store is torn", self.fatal("add", "--store", self.store, self.file("later.json", later)))

    def test_a_store_of_another_version(self):
        self.filled()
        with sqlite3.connect(Path(self.store) / FILE) as connection:
            connection.execute(f"PRAGMA user_version = {VERSION + 1}")
        told = f"a store of version {VERSION + 1}, and {VERSION} is what is read: remove it, and add the pages again"
        for words in (("status",), ("check",), ("add",)):
            self.assertIn(told, self.fatal(*words, "--store", self.store))
        self.assertIn(told, self.scan_is_fatal())

    def test_another_program_has_the_file(self):
        os.mkdir(self.store)
        with sqlite3.connect(Path(self.store) / FILE) as connection:
            connection.execute("CREATE TABLE other (a)")
        self.assertIn("it is no store of these recipes", self.fatal("add", "--store", self.store, self.machines))

    def test_a_store_in_which_another_run_writes(self):
        self.filled()
        before = self.verdicts()
        connection = sqlite3.connect(Path(self.store) / FILE, isolation_level=None)
        self.addCleanup(connection.close)
        connection.execute("BEGIN IMMEDIATE")
        connection.execute("DELETE FROM advisories")
        with mock.patch("cpe_recipes.store_file._SECONDS_TO_WAIT", 0.1), self.assertRaises(Fatal) as caught:
            self.add(page("vulnerabilities", cve(9, match(HERE))))
        self.assertIn("another run is writing to the store", str(caught.exception))
        # (readers see the state before)
        self.assertEqual(self.verdicts(), before)
        connection.execute("ROLLBACK")
        self.add(page("vulnerabilities", cve(9, match(HERE))))
        self.assertEqual(self.verdicts()[0], {"1": "TRUE", "9": "TRUE"})

    def test_a_page_that_another_run_adds_meanwhile(self):
        self.filled()
        late = self.file("late.json", page("vulnerabilities", cve(9, match(HERE)), start=1, total=2))

        def added(*given):
            file = StoreFile(self.store)
            store_writer.StoreWriter(file, Heard()).put(convert_page(next(feeds.pages([late], Heard(), store_writer.KINDS))))
            file.close()

        # (then the scan computes the findings)
        with mock.patch.object(store_reader.StoreReader, "_derive_again", added):
            self.assertIn("the feed has 2 advisories, 1 were given", self.scan_is_fatal())

    def test_a_scan_writes_nothing(self):
        with mock.patch("cpe_recipes.store.update_findings", side_effect=KeyboardInterrupt), self.assertRaises(KeyboardInterrupt):
            self.filled()
        connection = sqlite3.connect(Path(self.store) / FILE, isolation_level=None)
        self.addCleanup(connection.close)
        # (another run is writing meanwhile)
        connection.execute("BEGIN IMMEDIATE")
        with mock.patch("cpe_recipes.store_file._SECONDS_TO_WAIT", 0.1):
            self.assertEqual(self.verdicts(status=1)[0], {"1": "TRUE"})
            connection.execute("UPDATE maker SET digest = 'other'")
            connection.execute("COMMIT")
            connection.execute("BEGIN IMMEDIATE")
            self.assertIn("other recipes filled the store, so all that they derived must be derived again: run store.py add", self.scan_is_fatal())

    def test_a_store_that_can_not_be_written(self):
        self.filled()
        for path, mode in ((self.folder, 0o755), (Path(self.store), 0o555), (Path(self.store) / FILE, 0o444)):
            path.chmod(mode)
        self.addCleanup(Path(self.store).chmod, 0o755)
        before, program = self.verdicts(), Program().path
        with as_another():
            if shutil.which(program) is None:
                self.skipTest("the program can't be run by another user")
            self.assertEqual(self.verdicts(), before)
        # (unfinished work of a killed run isn't ignored)
        (Path(self.store) / f"{FILE}-wal").write_bytes(b"x" * 100)
        with as_another():
            self.assertIn("run store.py add --store FOLDER as one who can write there", self.scan_is_fatal())
        # (nor is what is written meanwhile)
        (Path(self.store) / f"{FILE}-wal").unlink()
        with as_another(), mock.patch.object(StoreFile, "_state", side_effect=[(1, 1), (2, 2)]):
            self.assertIn("another run added pages meanwhile", self.scan_is_fatal())

    def test_two_runs_that_add_at_once(self):
        pages = [self.file(f"two-{k}.json", page("vulnerabilities", *(cve(10 * k + n, match(fs("v", f"p{k}{n}"))) for n in range(9)))) for k in range(12)]
        self.add(page("products", product(HERE)))
        words = [sys.executable, str(RECIPES / "store.py"), "add", "--store", self.store]
        runs = [subprocess.Popen([*words, *some], stdout=subprocess.PIPE, stderr=subprocess.PIPE) for some in (pages[:8], pages[4:][::-1])]
        for run in runs:
            with run:
                self.assertEqual(run.stderr.read(), b"")
        self.assertEqual(ran(store.run, ["check", "--store", self.store])[:2], (0, "109 records read again, 0 wrong\n"))

    def test_a_full_disk(self):
        self.filled()
        before = self.verdicts()
        big = self.file("big.json", page("vulnerabilities", *(cve(n, match(fs("v", f"p{n}"))) for n in range(10, 3000))))
        words = f'ulimit -f 600; exec "{sys.executable}" "{RECIPES}/store.py" add --store "{self.store}" "{big}"'
        run = subprocess.run(["sh", "-c", words], capture_output=True, text=True)
        self.assertEqual((run.returncode, run.stdout), (2, ""))
        self.assertRegex(run.stderr, "^store.py: .*(the disk is full|can not be read or written)")
        # (the output is the same, and the scan reports that the run has not ended)
        self.assertEqual(self.verdicts(status=1)[0], before[0])
        self.assertEqual(ran(store.run, ["check", "--store", self.store])[:2], (0, "5 records read again, 0 wrong\n"))
        self.assertEqual(self.add(big)[0], "added 1 page: 2990 records new or later")
        self.assertEqual(self.verdicts()[0], before[0])

    def test_what_stands_beside_another_record(self):
        edits = {
            "its product": "UPDATE concerns SET product = product % 2 + 1", "none of its products": "DELETE FROM concerns",
            "its ranges": "INSERT INTO ranged SELECT 'K', min(place), 1, 7 FROM advisories",
            "its state": "UPDATE advisories SET state = 'Rejected'", "its record": "UPDATE advisories SET data = x'00' WHERE place % 2",
            "its name": "UPDATE products SET product = product % 2 + 1", "its page": "DELETE FROM pages WHERE kind = 'products'",
            "what it becomes": "UPDATE made SET data = x'00'", "its id": "UPDATE advisories SET id = 'CVE-2024-0009'", "an advisory that isn't there": "DELETE FROM advisories",
            "where it leads": "DELETE FROM leads", "that it counts": "UPDATE advisories SET is_passed = 1 WHERE id LIKE '%2'",
            "that another one isn't later": "UPDATE advisories SET is_doubled = 1", "its words": "UPDATE names SET squeezed = 'other'",
            "a product that isn't there": f"DELETE FROM products WHERE name = '{ELSEWHERE}'", "a title": "UPDATE products SET title = 'other'",
            "when a product was modified": "UPDATE products SET modified = 'null'", "a list": "UPDATE matches SET listed = '[]'",
            "a list that isn't there": "DELETE FROM matches", "which products it lists": "DELETE FROM listing",
            "an advisory that isn't analysed": "DELETE FROM advisories WHERE id LIKE '%3'", "what it has beside": "INSERT INTO beside SELECT 1, min(place) FROM advisories",
            "what is missing": "UPDATE told SET text = '{\"remark\":\"other\"}'", "how many its feed has": "UPDATE pages SET total = 99",
        }
        for what, edit in edits.items():
            with self.subTest(what):
                shutil.rmtree(self.store, ignore_errors=True)
                self.filled()
                old = product(fs("o", "p"), deprecated=True, deprecatedBy=[{"cpeName": HERE}])
                listed = {"matchString": {"matchCriteriaId": "K", "criteria": HERE, "lastModified": "2024-01-01T00:00:00.000", "matches": [{"cpeName": HERE}]}}
                self.add(page("products", old), page("vulnerabilities", cve(5, match(HERE)), total=2), page("matchStrings", listed))
                self.assertEqual(ran(store.run, ["check", "--store", self.store])[0], 0)
                with sqlite3.connect(Path(self.store) / FILE) as connection:
                    connection.execute(edit)
                connection.close()
                status, _, said = ran(store.run, ["check", "--store", self.store])
                self.assertEqual((status, bool(said)), (1, True))

    def of_fleet(self, *words):
        """The verdicts of a fleet's workers, by machine and statement, and the messages."""
        messages = Heard()
        asked = fleet.read_fleet(Program(), fleet.read_fleet_words(words, fleet.OPTIONS, fleet.USAGE), messages)
        session = Session(Program().path, asked.fleet_data)
        self.addCleanup(session.end)
        lines = (line.split(" ") for machine in asked.machines for line in session.ask(machine).lines)
        return {(machine, id): truth for machine, id, truth in lines}, messages.told

    def test_a_fleet_takes_a_store_too(self):
        left = 0
        for seed in range(4):
            with self.subTest(seed), tempfile.TemporaryDirectory() as folder:
                sequence = Sequence(seed, folder)
                machines, ranges = sequence.feeds.machines(Path(folder) / "machines", 1, is_odd=False), f"{folder}/ranges"
                records = self.recipe("dictionary", *sequence.added["products"])[1]
                records += self.recipe("advisories", "--ranges", ranges, *sequence.added["vulnerabilities"])[1]
                path = self.file("records", "".join(f"{line}\n" for line in records))
                whole, _ = self.of_fleet(path, machines, "--ranges", ranges, "--matches", *sequence.added["matchStrings"])
                some, said = self.of_fleet("--store", sequence.store, machines)
                self.assertEqual({key: whole[key] for key in some}, some)
                others = {truth for key, truth in whole.items() if key not in some}
                self.assertLessEqual(others, {"FALSE"})
                self.assertEqual(sum("name no product of these machines" in line for line in said), len(others))
                left += len(whole) - len(some)
        self.assertGreater(left, 0)

    def test_a_fleet_takes_no_feeds_beside_a_store(self):
        for words in ((self.machines, self.machines), (self.machines, "--ranges", self.machines), (self.machines, "--matches", self.machines), ()):
            with self.subTest(words), self.assertRaises(Fatal) as caught:
                self.of_fleet("--store", self.store, *words)
            self.assertIn("usage: ", str(caught.exception))

    def test_the_samples(self):
        ranges = SAMPLES / "ranges"
        self.add(*(str(ranges / f"{name}.json") for name in ("dictionary", "advisories", "matches")))
        words = ["--lists", *map(str, sorted(ranges.glob("*.cdx.json")))]
        pages = [word for name in ("dictionary", "advisories", "matches") for word in (f"--{name}", str(ranges / f"{name}.json"))]
        self.assertEqual(ran(scan.run, ["--store", self.store, *words])[:2], ran(scan.run, [*pages, *words])[:2])


if __name__ == "__main__":
    unittest.main()
