"""Inputs above the limits of cpe: statements in portions have the verdicts of one run, and no limit loses a verdict."""
import bisect
import contextlib
import functools
import io
import json
import os
import tempfile
import unittest
from dataclasses import replace
from pathlib import Path
from unittest import mock

from drawn_feeds import Feeds
from recipe_case import ROOT, RecipeCase, fs, needs_cpe
from test_scan import Drawn, scanned, truths

from cpe_recipes import advisories, names_table, portions, scan, store
from cpe_recipes.cases import FeedData
from cpe_recipes.components import Machine
from cpe_recipes.concern import concern_of, named_of
from cpe_recipes.console import Fatal
from cpe_recipes.feeds import Page, record_text
from cpe_recipes.near_products import NearProducts, item_of, key_of, version_key
from cpe_recipes.outcome import OutcomeReasons
from cpe_recipes.portions import Size, size_of
from cpe_recipes.products import Cut
from cpe_recipes.program import Candidate, Program
from cpe_recipes.statement_rewriter import LONG

SMALL = Size(statements=4, facts=6, checks=3, bytes=2_000)


def ran(words):
    """The status of a scan, its output, and its messages."""
    streams = {1: io.BytesIO(), 2: io.BytesIO()}
    with mock.patch("cpe_recipes.console.os.write", side_effect=lambda to, data: streams[to].write(data)):
        status = scan.run(words)
    return status, streams[1].getvalue().decode(), streams[2].getvalue().decode()


def limited(size):
    """Lowers limits for a while."""
    return mock.patch("cpe_recipes.portions.MOST", size)


class Portions(unittest.TestCase):
    def test_each_limit_ends_a_portion(self):
        for size in (Size(3, 9, 9, 99), Size(9, 3, 9, 99), Size(9, 9, 3, 99), Size(9, 9, 9, 3)):
            with self.subTest(size):
                found = list(portions.portions([Size(1, 1, 1, 1)] * 7, size))
                self.assertEqual(found, [range(0, 3), range(3, 6), range(6, 7)])

    def test_what_is_over_a_limit_alone_is_a_portion(self):
        sizes = [Size(1, 1, 0, 1), Size(1, 99, 0, 1), Size(1, 1, 0, 1), Size(1, 1, 0, 1)]
        self.assertEqual(list(portions.portions(sizes, Size(9, 9, 9, 9))), [range(0, 1), range(1, 2), range(2, 4)])
        self.assertEqual(list(portions.portions([])), [])

    def test_limits_are_those_of_cpe(self):
        numbers = (ROOT / "docs" / "RECORDS.md").read_text()
        self.assertIn(f"there are {portions.MOST.statements:,} statements", numbers)
        self.assertIn(f"more than {portions.MOST.facts:,} facts", numbers)
        # (a statement weighs less than four bytes for each byte of its line)
        self.assertLess(4 * portions.MOST.bytes, 536_870_912)
        self.assertEqual(size_of('{"of":[{"fact":"a"},{"fact":"b"}]}', 2), Size(1, 2, 2, 34))


class Products(unittest.TestCase):
    def test_an_item_that_is_a_pattern_costs_its_own_candidates(self):
        near = NearProducts()
        for place, product in enumerate([("v", "p"), ("w", "p"), ("v", "q"), ("w", "q")]):
            near.put(place, [(product, "1")], False)
        near.put(4, [], True)
        wanted = {("v", "p"): {0, 4}, ("v*", "p"): {0, 1, 4}, ("v", "?q"): {0, 2, 4}, ("v*", "*q"): {0, 1, 2, 3, 4}, ("*", "p"): {4}, ("x", "p"): {4}}
        for product, places in wanted.items():
            with self.subTest(product):
                self.assertEqual(near.near([(key_of(product), "1")]), places)

    def test_a_fact_of_one_version_covers_that_version_alone(self):
        versions = ["1", "2", "*", "-", "2.*", "1\\+B"]
        near = NearProducts()
        for place, version in enumerate(versions):
            near.put(place, [(("v", "p"), version_key(version))], False)
        wanted = {"1": {0, 2, 4}, "3": {2, 4}, "*": {2, 4}, "-": {2, 3, 4}, "3.*": {0, 1, 2, 3, 4, 5}, "1\\+b": {2, 4, 5}}
        for version, places in wanted.items():
            with self.subTest(version):
                self.assertEqual(near.near([(("v", "p"), version_key(version))]), places)
        if not (path := os.environ.get("CPE")):
            self.skipTest("CPE names no program")
        # (all facts that cover an item by cpe, or may cover it, are among these)
        for item in wanted:
            records = [record_text({"do": "item", "name": fs("v", "p", item)})]
            records += [record_text({"do": "items", "name": fs("v", "p", version)}) for version in versions]
            lines = Program(path).run(["resolve"], records)
            asked = [place for place, line in enumerate(lines) if line.startswith("items ")]
            met = {place for place, (at, end) in enumerate(zip(asked, [*asked[1:], len(lines)])) if end > at + 1}
            self.assertLessEqual(met, wanted[item], item)

    def test_a_plain_name_is_spelled_as_cpe_spells_it(self):
        spelled = ["1.0", "a_b-c", "c\\+\\+", "\\@x\\/y", "1\\:2", "-", "*", "a\\.b", "A", "a*", "a\\*", "\\-", "_", "a\\_b", "", "--"]
        names = [fs(vendor, product, version) for vendor in spelled for product in spelled for version in spelled]
        with_match = {name: concern_of(advisory(match(name))) for name in names}
        plain = [name for name, found in with_match.items() if found is not None]
        self.assertGreater(len(plain), 400)
        if not (path := os.environ.get("CPE")):
            self.skipTest("CPE names no program")
        lookups = (record_text({"do": "lookup", "name": name}) for name in plain)
        answers = Program(path).answers(["resolve"], lookups)
        self.assertEqual([answer.split(" ")[1] for answer in answers], [name.lower() for name in plain])

    def test_what_is_not_plain_may_concern_all(self):
        good = match(fs("v", "p"))
        self.assertIsNotNone(concern_of(advisory(good)))
        odd = [
            good | {"versionEndIncluding": "1", "versionEndExcluding": "1"}, good | {"versionEndIncluding": "a b"}, good | {"criteria": 7},
            good | {"criteria": fs("*", "p")}, good | {"criteria": fs("v*", "p")}, good | {"vulnerable": False}, good | {"vulnerable": "yes"},
            good | {"matchCriteriaId": 7}, good | {"doubt": "?"}, good | {"criteria": "cpe:/a:v:p"},
            good | {"criteria": fs("v", "p").upper()}, good | {"criteria": fs("v", "p").replace(":a:", ":A:")},
        ]
        for one in odd:
            with self.subTest(one):
                self.assertIsNone(concern_of(advisory(one)))
        for more in ({"id": "X#2"}, {"id": "a b"}, {"id": None}, {"vulnStatus": 7}, {"metrics": {"cvssMetricV2": [{"cvssData": {"baseScore": 11}}]}}, {"metrics": 7}):
            with self.subTest(more):
                self.assertIsNone(concern_of({"cve": advisory(good)["cve"] | more}))
        for record in (7, {}, {"cve": 7}, {"cve": {"id": "CVE-2024-0001", "configurations": []}}, advisory(*[good] * 1_000)):
            self.assertIsNone(concern_of(record))
        for logic in ({"negate": 1}, {"negate": "no"}, {"operator": "XOR"}, {"children": [{}]}, {"cpeMatch": []}):
            with self.subTest(logic):
                record = advisory(good)
                record["cve"]["configurations"][0]["nodes"][0] |= logic
                self.assertIsNone(concern_of(record))

    def test_one_that_comes_more_than_once_stays(self):
        here, there = advisory(match(fs("v", "p"))), advisory(match(fs("w", "q")), id="CVE-2024-0002")
        page = Page("page.json", "vulnerabilities", [here, there, there, advisory(match(fs("w", "q")), id="CVE-2024-0003")])
        cut = Cut.of([page], {("v", "p")})
        self.assertEqual((cut.count(), cut.elsewhere), (3, {"CVE-2024-0003": False}))
        self.assertEqual(cut.pages[0].numbers, [1, 2, 3])


@needs_cpe
class Concerns(unittest.TestCase):
    def test_what_does_not_concern_a_machine_is_false_there(self):
        """Of all plain advisories, over machines with few items, only advisories that concern the machine have a
        verdict that isn't FALSE."""
        cut = 0
        for seed in range(6):
            feeds = Feeds(seed, 0, 0)
            records = [advisory(id=f"CVE-2024-{k:04}") for k in range(400)]
            for record in records:
                record["cve"]["configurations"] = [feeds.configuration() for _ in range(feeds.draw.choice([1, 1, 1, 2]))]
            concerns = {record["cve"]["id"]: concern_of(record) for record in records}
            known = known_of([record for record in records if concerns[record["cve"]["id"]] is not None])
            self.assertGreater(len(known.records), 200)
            machines = [Machine(f"m{k}", [draw() for _ in range(feeds.draw.choice([1, 1, 2]))]) for k in range(10) for draw in (feeds.name, feeds.device)]
            made, found = scanned(known, machines, is_all_asked=True)
            for machine, one in zip(machines, found):
                wanted = {item_of(name)[0] for name in machine.items}
                for id, truth in truths(known, made, one).items():
                    does_meet = concerns[id].meets(wanted)
                    cut += not does_meet
                    with self.subTest(seed=seed, id=id, items=machine.items):
                        self.assertTrue(truth == "FALSE" or does_meet, truth)
        self.assertGreater(cut, 10_000)

    def test_what_is_plain_is_never_longer_than_a_line(self):
        """The longest plain advisories are evaluated completely, whatever names are in them."""
        longest, counts = [], (600, 500, 420, 350, 290, 240, 200, 160, 130, 100)

        def repeated(one, count, is_whole):
            nodes = [node | {"cpeMatch": node["cpeMatch"] * max(1, count // len(node["cpeMatch"]))} for node in one["nodes"]]
            record = advisory()
            record["cve"]["configurations"] = [one] * count if is_whole else [one | {"nodes": nodes}]
            return record

        for seed in range(150):
            feeds = Feeds(seed, 0, 0)
            one, key = feeds.configuration(), "K" * feeds.draw.choice([0, 1, 36, 64])
            for node in one["nodes"]:
                node["cpeMatch"] = [match | {"matchCriteriaId": key and f"{key}{place}"} for place, match in enumerate(node["cpeMatch"])]
            # (the longest plain one, because most others are too long)
            found = bisect.bisect_left(counts, True, key=lambda count: concern_of(repeated(one, count, seed % 2)) is not None)
            if found < len(counts):
                known = known_of([repeated(one, counts[found], seed % 2)])
                longest.append(max(map(len, known.lines)))
                self.assertFalse([statement for statement in known.statements if LONG in statement.checks], seed)
        self.assertGreater(len([length for length in longest if length > 20_000]), 30)
        self.assertLess(max(longest), 65_536)

    def test_a_vulnerable_system_is_unknown_by_what_stands_beside_it(self):
        app, system, device = fs("w", "app", "1.0"), fs("v", "fw", "1.0").replace(":a:", ":o:"), fs("v", "dev").replace(":a:", ":h:")
        beside = match(app) | {"vulnerable": False}
        wanted = {
            (system, app, "AND"): {("v", "fw"), ("w", "app")}, (device, app, "AND"): {("v", "dev"), ("w", "app")},
            (app, system, "AND"): {("w", "app")}, (system, device, "OR"): {("v", "fw"), ("v", "dev")},
        }
        for (vulnerable, other, operator), products in wanted.items():
            nodes = [{"operator": "OR", "cpeMatch": [match(vulnerable)]}, {"operator": "OR", "cpeMatch": [beside | {"criteria": other}]}]
            record = advisory()
            record["cve"]["configurations"] = [{"operator": operator, "nodes": nodes}]
            with self.subTest(vulnerable=vulnerable, operator=operator):
                self.assertEqual(concern_of(record).products, products)
                nodes[1]["negate"] = True
                self.assertEqual(concern_of(record) is None, vulnerable != app)

    def test_matches_that_have_bounds_are_found_in_any_advisory(self):
        odd = ["cpe:2.3:a:*:q:*:*:*:*:*:*:*:*", "cpe:2.3:a:V:-:*:*:*:*:*:*:*:*", "cpe:2.3:a:v*:q", "cpe:/a:v:p", "cpe:2.3:a:v", "CPE:2.3:a:v:p", r"cpe:2.3:a:v\-x:q:1"]
        keys = [("", "q"), ("v", ""), ("", "q"), ("", ""), ("", ""), ("", ""), ("", "q")]
        for name, key in zip(odd, keys):
            with self.subTest(name):
                self.assertEqual(named_of(advisory(match(name) | {"versionEndIncluding": "1"})), {("K", key)})
        record = advisory(match(fs("v", "p")), 7)
        record["cve"]["configurations"][0]["nodes"].append({"children": [{"cpeMatch": [match(fs("V", "q")) | {"versionEndIncluding": 7}]}]})
        self.assertEqual(named_of(record), {("K", ("v", "q"))})
        for record in (7, {}, {"cve": 7}, {"cve": {"configurations": [{"nodes": 7}, 8]}}, advisory(match(fs("v", "p")) | {"versionEndIncluding": "1", "matchCriteriaId": "a b"})):
            self.assertEqual(named_of(record), frozenset())


def known_of(records):
    """The statements of these advisories."""
    program, said = Program(), mock.Mock()
    found = advisories.convert([Page("page.json", "vulnerabilities", records)], program, said, is_decided=True)
    return FeedData([], program.accept_statements(found.candidates, said), found.ranges, found.details, found.stand_ins)


def match(name):
    return {"vulnerable": True, "criteria": name, "matchCriteriaId": "K"}


def advisory(*matches, id="CVE-2024-0001"):
    return {"cve": {"id": id, "vulnStatus": "Analyzed", "configurations": [{"nodes": [{"operator": "OR", "cpeMatch": list(matches)}]}]}}


@needs_cpe
# (the table never changes, and reading it takes as long as all else)
@mock.patch("cpe_recipes.names_table.read_table", functools.cache(names_table.read_table))
class Asked(unittest.TestCase):
    def test_portions_have_the_verdicts_of_one_run(self):
        for seed in range(20):
            known = Drawn(seed).known()
            machines = Drawn(seed).machines(["1.0", "1.*", "2.0", "*"])
            whole, found = scanned(known, machines, has_why=True)
            with limited(SMALL):
                self.assertGreater(len(list(scan.portions_of(known))), 1)
                made, found_so = scanned(known, machines, has_why=True)
            with self.subTest(seed):
                self.assertEqual(made.bare, whole.bare)
                for one, other in zip(found, found_so):
                    self.assertEqual(truths(known, whole, one), truths(known, made, other))
                    self.assertEqual((one.less, one.partly, one.perhaps, one.explanations), (other.less, other.partly, other.perhaps, other.explanations))
                hanging = [[OutcomeReasons(known, of).on(it.id, one.machine.name) for it in known.statements for one in of] for of in (found, found_so)]
                self.assertEqual(*hanging)

    def test_more_statements_than_cpe_takes_are_all_accepted(self):
        count = portions.MOST.statements + 1
        record = '{"do":"statement","id":"S%d","test":{"op":"OR","of":[{"fact":"cpe:/a:v:p"}]}}'
        said = mock.Mock()
        candidates = [Candidate(f"S{k}", record % k) for k in range(count)] + [Candidate("S7", record % 7)]
        self.assertEqual(len(Program().accept_statements(candidates, said)), count)
        self.assertEqual([call.args[:2] for call in said.leave_out.call_args_list], [("S7", f"exists: {record % 7}")])
        with self.assertRaises(Fatal) as caught:
            Program().accept(candidates, said)
        self.assertIn("takes no more: full statements at record 100,001 of 100,002", str(caught.exception))

    def test_what_is_not_asked_is_false(self):
        """A scan that evaluates what concerns its machines, in portions, has the same output as a scan that evaluates
        all."""
        for seed in range(8):
            with tempfile.TemporaryDirectory() as folder, self.subTest(seed):
                feeds = Feeds(seed)
                of = feeds.whole(Path(folder))
                words = ["--dictionary", *of["products"], "--advisories", *of["vulnerabilities"], "--matches", *of["matchStrings"]]
                words += ["--machines", feeds.machines(Path(folder) / "machines.txt", 2, is_odd=seed % 2 == 0)]
                for form in ([], ["--json"], ["--json", "--strict"]):
                    status, written, said = ran([*words, *form])
                    with limited(SMALL):
                        status_of_some, some, said_of_some = ran([*words, *form])
                    self.assertIn("may concern a product of these machines", said_of_some)
                    self.assertEqual((status, written), (status_of_some, some))
                    told = [line for line in said_of_some.splitlines() if "may concern" not in line]
                    self.assertEqual(sorted(told), sorted(said.splitlines()))

    def test_what_is_listed_for_a_match_of_another_product_is_found(self):
        listed = {"matchCriteriaId": "K", "criteria": fs("v", "p"), "matches": [{"cpeName": fs("w", "q", "1.0")}]}
        ranged = match(fs("v", "p")) | {"versionEndExcluding": "3"}
        others = [advisory(match(fs("x", "y")), id=f"CVE-2024-1{k:03}") for k in range(5)]
        with tempfile.TemporaryDirectory() as folder:
            paths = {name: Path(folder) / f"{name}.json" for name in ("dictionary", "advisories", "matches")}
            paths["dictionary"].write_text(json.dumps({"products": [{"cpe": {"cpeName": fs("w", "q", "1.0"), "cpeNameId": "1"}}]}))
            paths["advisories"].write_text(json.dumps({"vulnerabilities": [advisory(ranged), *others]}))
            paths["matches"].write_text(json.dumps({"matchStrings": [{"matchString": listed}]}))
            (Path(folder) / "machines").write_text(f"m {fs('w', 'q', '1.0')}\n")
            words = [word for name, path in paths.items() for word in (f"--{name}", str(path))]
            with limited(SMALL):
                _, written, _ = ran([*words, "--machines", f"{folder}/machines"])
        self.assertIn("1 machine: 1 TRUE, 0 ERROR, 0 UNKNOWN, 5 FALSE", written)


    def test_a_match_that_gives_an_item_a_name_is_read_wherever_it_is(self):
        listed = {"matchCriteriaId": "K", "criteria": fs("v", "p"), "matches": [{"cpeName": fs("w", "q", "1.0")}]}
        beside = {"vulnerable": False, "criteria": fs("v", "p"), "matchCriteriaId": "K", "versionEndExcluding": "3"}
        nodes = [{"operator": "OR", "cpeMatch": [match(fs("x", "y"))]}, {"operator": "OR", "cpeMatch": [beside]}]
        elsewhere = {"cve": advisory()["cve"] | {"id": "CVE-2024-0009", "configurations": [{"operator": "AND", "nodes": nodes}]}}
        others = [advisory(match(fs("x", "y")), id=f"CVE-2024-1{k:03}") for k in range(5)]
        with tempfile.TemporaryDirectory() as folder:
            pages = {
                "dictionary": {"products": [{"cpe": {"cpeName": fs("w", "q", "1.0"), "cpeNameId": "1"}}]},
                "advisories": {"vulnerabilities": [advisory(match(fs("v", "p", "1.0"))), elsewhere, *others]},
                "matches": {"matchStrings": [{"matchString": listed}]},
            }
            paths = {name: Path(folder) / f"{name}.json" for name in pages}
            for name, path in paths.items():
                path.write_text(json.dumps(pages[name]))
            (Path(folder) / "machines").write_text(f"m {fs('w', 'q', '1.0')}\n")
            words = [word for name, path in paths.items() for word in (f"--{name}", str(path))]
            whole = ran([*words, "--machines", f"{folder}/machines"])[1]
            with limited(SMALL):
                some = ran([*words, "--machines", f"{folder}/machines"])[1]
            with mock.patch("cpe_recipes.console.os.write"):
                store.run(["add", "--store", f"{folder}/store", *map(str, paths.values())])
            stored = ran(["--store", f"{folder}/store", "--machines", f"{folder}/machines"])[1]
        self.assertIn("1 machine: 1 TRUE, 0 ERROR, 0 UNKNOWN, 6 FALSE", whole)
        self.assertEqual((some, stored), (whole, whole))


@needs_cpe
class Recipes(RecipeCase):
    def test_what_is_not_analysed_counts_towards_no_limit(self):
        good = advisory(match(fs("v", "p")))
        waiting = [{"cve": {"id": f"CVE-2024-2{k:03}", "vulnStatus": "Received"}} for k in range(9)]
        words = ["--dictionary", self.file("d.json", {"products": [{"cpe": {"cpeName": fs("v", "p", "1"), "cpeNameId": "1"}}]})]
        words += ["--advisories", self.file("a.json", {"vulnerabilities": [good, *waiting]}), "--machines", self.file("m", f"m {fs('v', 'p', '1')}\n")]
        with limited(replace(SMALL, statements=2)), contextlib.suppress(SystemExit):
            status, written, said = ran(words)
        self.assertEqual((status, "may concern" in said), (0, False))
        self.assertIn("remark not analysed: 9 advisories", said)
        self.assertIn("1 TRUE", written)

    def test_products_keeps_what_may_not_be_false(self):
        system = {"criteria": fs("v", "fw").replace(":a:", ":o:"), "vulnerable": True, "matchCriteriaId": "S"}
        beside = advisory(system, id="CVE-2024-0002")
        beside["cve"]["configurations"][0]["operator"] = "AND"
        beside["cve"]["configurations"][0]["nodes"].append({"cpeMatch": [match(fs("w", "app")) | {"vulnerable": False}]})
        listing = advisory(match(fs("x", "old")) | {"versionEndIncluding": "2"}, id="CVE-2024-0003")
        feed = self.file("a.json", {"vulnerabilities": [advisory(match(fs("y", "z"))), beside, listing]})
        listed = {"matchString": {"matchCriteriaId": "K", "matches": [{"cpeName": fs("w", "app", "1")}]}}
        words = ["--machines", self.file("m", f"m {fs('w', 'app', '1')}\n"), "--matches", self.file("k.json", {"matchStrings": [listed]}), feed]
        ids = [one.split('"id":"')[1][:13] for one in self.recipe("products", *words)[1] if '"id":"' in one]
        self.assertEqual(ids, ["CVE-2024-0002", "CVE-2024-0003"])
        ids = [one.split('"id":"')[1][:13] for one in self.recipe("products", *words[:2], feed)[1] if '"id":"' in one]
        self.assertEqual(ids, ["CVE-2024-0002"])


if __name__ == "__main__":
    unittest.main()
