"""After a window of advisories only what changed is judged again, with the same results as judging all.

CPE_FLEETS is how many fleets are drawn, and CPE_SEED the first of their seeds.
"""
import json
import os
import random
import subprocess
import sys
import unittest
from collections import Counter
from unittest import mock

from service_case import ROOT, SAMPLES
from test_hidden import NAME, OTHER, WorkerCase, advisory, product

sys.path.insert(0, str(ROOT / "bench"))
import scan as drawing  # noqa: E402

from cpe_service import queries, worker  # noqa: E402
from cpe_service.database import unpack  # noqa: E402
from cpe_service.judge import Judge  # noqa: E402
from cpe_service.waiting_machine import WaitingMachine  # noqa: E402

RANGES = SAMPLES / "ranges"
FLEETS, SEED = int(os.environ.get("CPE_FLEETS", "5")), int(os.environ.get("CPE_SEED", "1"))


class ChangedCase(WorkerCase):
    """Counts the machines for which only what changed was judged, those for which this wasn't surely enough, and those
    that were judged completely."""

    def setUp(self):
        super().setUp()
        self.counts = Counter()
        whole, part = Judge.judge, Judge.judge_changed

        def judge(judge, machines, *asked):
            self.counts["whole"] += len(machines)
            return whole(judge, machines, *asked)

        def judge_changed(judge, machines, changed):
            found = part(judge, machines, changed)
            self.counts["changed"] += sum(one is not None for one in found)
            self.counts["renamed"] += found.count(None)
            return found

        self.during(mock.patch.object(worker.Judge, "judge", judge))
        self.during(mock.patch.object(worker.Judge, "judge_changed", judge_changed))

    def judged(self):
        """Judges the waiting machines, and returns how many were judged in which way."""
        self.counts.clear()
        self.judge()
        return {how: count for how, count in self.counts.items() if count}

    def check(self):
        """The kept result of each machine is that of judging all."""
        database, judge = self.judges._database, self.judges._ready()
        rows = database.execute("SELECT id, name, put, list, result, counts FROM machines").fetchall()
        for row in rows:
            [wanted] = judge.judge([WaitingMachine(*row[:4]).machine()])
            self.assertEqual(unpack(row["result"]).decode(), queries.result_text(wanted.row | {"said": wanted.said}), row["name"])
            self.assertEqual(self.verdicts(row["name"]), wanted.kinds)
            counts = Counter(wanted.kinds.values()) if wanted.has_items else {"no items": 1}
            self.assertEqual(json.loads(row["counts"]), dict(counts))
        return len(rows)


class ChangedTest(ChangedCase):
    def setUp(self):
        super().setUp()
        self.feed("products", product(NAME % "1"), product(NAME % "2"), product(OTHER))
        self.feed("vulnerabilities", advisory("CVE-2024-1", NAME % "1", title="one"), advisory("CVE-2024-2", NAME % "*"), advisory("CVE-2024-3", OTHER))
        self.put("m", NAME % "1")
        self.put("n", NAME % "2", OTHER)
        self.judge()

    def later(self, id, *names, **more):
        self.feed("vulnerabilities", advisory(id, *names, modified="2025-01-01T00:00:00.000", **more))

    def test_a_verdict_that_changes(self):
        self.later("CVE-2024-3", NAME % "2")
        self.assertEqual(self.judged(), {"changed": 2})
        self.assertEqual((self.verdicts("m"), self.verdicts("n")), (
            {"CVE-2024-1": "TRUE", "CVE-2024-2": "TRUE"}, {"CVE-2024-2": "TRUE", "CVE-2024-3": "TRUE"}))
        self.later("CVE-2024-2", OTHER)
        self.assertEqual(self.judged(), {"changed": 2})
        self.assertEqual((self.verdicts("m"), self.verdicts("n")), ({"CVE-2024-1": "TRUE"}, {"CVE-2024-2": "TRUE", "CVE-2024-3": "TRUE"}))
        self.assertEqual(self.rows("machine, before, after, cause", "history", advisory="CVE-2024-2")[2:], [("m", "TRUE", "FALSE", "feed")])
        self.check()

    def test_what_is_told_of_an_advisory_alone(self):
        self.later("CVE-2024-1", NAME % "1", title="another")
        self.assertEqual(self.judged(), {"changed": 2})
        self.assertIn('"title": "another"', unpack(self.rows("result", name="m")[0][0]).decode())
        self.assertEqual(len(self.rows("1", "history", advisory="CVE-2024-1")), 1)
        self.check()

    def test_an_advisory_that_is_rejected(self):
        self.later("CVE-2024-1", vulnStatus="Rejected")
        self.assertEqual(self.judged(), {"changed": 2})
        self.assertEqual(self.verdicts("m"), {"CVE-2024-2": "TRUE"})
        self.assertEqual(self.rows("before, after, reason", "history", advisory="CVE-2024-1")[1:], [("TRUE", "none", "rejected")])
        self.check()

    def test_a_version_that_a_new_advisory_spells_otherwise_may_rename_items(self):
        """An item then has this name too, by which other advisories may find it."""
        self.later("CVE-2024-9", NAME % "v2")
        self.assertEqual(self.judged(), {"changed": 1, "renamed": 1, "whole": 1})
        self.assertEqual(self.verdicts("n")["CVE-2024-9"], "TRUE")
        self.check()

    def test_an_attribute_that_a_new_advisory_asks_for_may_rename_items(self):
        self.later("CVE-2024-9", (NAME % "1").replace("1:*:*:*:*:*", "1:*:*:*:*:windows"))
        self.assertEqual(self.judged(), {"renamed": 2, "whole": 2})
        self.assertEqual((self.verdicts("m")["CVE-2024-9"], "CVE-2024-9" in self.verdicts("n")), ("perhaps", False))
        self.check()

    def test_a_list_of_the_match_feed_that_a_new_range_has_may_rename_items(self):
        match = {"matchCriteriaId": "x", "criteria": NAME % "*", "versionEndIncluding": "1", "matches": [{"cpeName": OTHER}]}
        self.feed("matchStrings", {"matchString": match})
        self.assertEqual(self.judged(), {"whole": 2})
        node = {"operator": "OR", "cpeMatch": [{"vulnerable": True, **{key: match[key] for key in list(match)[:3]}}]}
        self.later("CVE-2024-9", configurations=[{"nodes": [node]}])
        self.assertEqual(self.judged(), {"changed": 1, "renamed": 1, "whole": 1})
        # (so an unchanged advisory finds the item by that name)
        self.assertEqual(self.verdicts("n"), dict.fromkeys(("CVE-2024-1", "CVE-2024-2", "CVE-2024-3", "CVE-2024-9"), "TRUE"))
        self.check()

    def test_several_windows_before_it_is_judged(self):
        self.later("CVE-2024-3", NAME % "2")
        self.judges._ready()
        self.later("CVE-2024-2", OTHER)
        self.assertEqual(self.judged(), {"changed": 2})
        self.check()

    def test_what_changes_more_than_advisories(self):
        for change in (
            lambda: self.feed("products", product(NAME % "3")),
            lambda: self.feed("matchStrings", {"matchString": {"matchCriteriaId": "x", "criteria": NAME % "*", "matches": []}}),
            lambda: self.keeps.answer({"do": "table", "name": "suppress", "client": "x"}, b"CVE-2024-1 * why"),
            lambda: self.feed("vulnerabilities", *(advisory(f"CVE-2024-{number}", OTHER, modified="2025-01-01T00:00:00.000") for number in range(9))),
        ):
            change()
            self.assertEqual(self.judged(), {"whole": 2})
            self.check()

    def test_a_new_list_is_judged_as_a_whole(self):
        self.later("CVE-2024-3", NAME % "2")
        self.put("m", OTHER)
        self.assertEqual(self.judged(), {"whole": 1, "changed": 1})
        self.check()

    def test_a_list_that_has_no_items_or_no_result(self):
        self.put("m", "cpe:2.3:no")
        with mock.patch.object(worker.Judge, "judge", side_effect=KeyError("odd")):
            self.judge()
        self.put("n", "cpe:2.3:no")
        self.judge()
        self.later("CVE-2024-3", NAME % "2")
        self.assertEqual(self.judged(), {"whole": 2})
        self.check()

    def test_a_worker_that_is_started_again_knows_no_ground_before(self):
        self.later("CVE-2024-3", NAME % "2")
        self.judges._end()
        self.judges = self.worker()
        self.assertEqual(self.judged(), {"whole": 2})
        self.check()

    def test_a_result_that_was_written_meanwhile_is_not_merged_into(self):
        self.later("CVE-2024-3", NAME % "2")
        judge = self.judges._ready()
        waiting = self.judges._find_waiting(judge.ground.edit)
        judged = self.judges._judge_machines(judge, waiting)
        self.judges._database.execute("UPDATE machines SET result_ground = 1 WHERE name = 'm'")
        with worker.write_transaction(self.judges._database):
            for one, found in zip(waiting, judged):
                self.judges._write(one, found, None)
        self.assertEqual(self.rows("name", judged_ground=judge.ground.edit), [("n",)])
        self.assertEqual(self.judged(), {"whole": 1})
        self.check()


class DrawnTest(ChangedCase):
    def draw(self, seed):
        """Random lists, and windows of advisories; some spell versions differently, or have other lists of the match
        feed."""
        draw = random.Random(seed)
        with open(ROOT / "bench" / "official-names.txt", encoding="ascii") as file:
            feeds = drawing.Feeds(draw.sample(file.read().split(), 12))
        feeds.draw = draw
        entries = list(feeds.entries())
        first = [feeds.advisory(number) for number in range(60)]
        second = [feeds.advisory(number) for number in range(60)]
        self.feed("products", *entries, is_whole=True)
        self.feed("matchStrings", *feeds.matches, is_whole=True)
        self.feed("vulnerabilities", *first, is_whole=True)
        for number in range(4):
            items = [draw.choice(entries)["cpe"]["cpeName"] for _ in range(draw.randint(1, 6))]
            odd = draw.choice(items).split(":")
            odd[5] = draw.choice(["*", "1.*", "v" + odd[5]])
            self.put(f"m-{number}", *items, ":".join(odd))
        self.judge()
        for window in range(4):
            records = draw.sample(second, draw.randint(1, 12))
            for record in records:
                record["cve"]["lastModified"] = f"2026-0{window + 1}-01T00:00:00.000"
                match = record["cve"]["configurations"][0]["nodes"][0]["cpeMatch"][0]
                if draw.random() < 0.1:
                    parts = match["criteria"].split(":")
                    match["criteria"] = ":".join([*parts[:5], "v" + parts[5].removeprefix("*") if parts[5] != "*" else "v1", *parts[6:]])
            self.feed("vulnerabilities", *records)
            self.judge()
            self.check()

    def test_drawn_windows(self):
        for seed in range(SEED, SEED + FLEETS):
            with self.subTest(seed=seed):
                self.draw(seed)
        found = self.counts
        self.assertGreater(found["changed"], 4 * FLEETS, found)


# Another process claims the first machine until its input ends.
class RunsTest(WorkerCase):
    def test_no_run_of_cpe_begins_for_a_machine(self):
        """Questions about its items, also about ranges and negations, are asked of runs that stay open."""
        for path in ("dictionary", "advisories", "matches"):
            self.keeps.answer({"do": "feed", "name": "", "is_whole": False, "client": "x"}, (RANGES / f"{path}.json").read_bytes())
        lists = [path for path in sorted(RANGES.iterdir()) if path.name.endswith((".cdx.json", "-1.txt"))]
        self.assertGreater(len(lists), 2)
        self.keeps.answer({"do": "put", "name": "first", "client": "x"}, b"cpe:/a:ntp:ntp:4.2.8")
        self.judge()
        with mock.patch.object(subprocess, "Popen", side_effect=OSError("none begins")):
            for path in lists:
                self.keeps.answer({"do": "put", "name": path.name.partition(".")[0], "client": "x"}, path.read_bytes())
            self.judge()
        self.assertEqual(set(self.rows("fault, put = judged_put")), {("", 1)})
        self.assertGreater(len(self.rows("1", "verdicts")), 10)


class SameListTest(WorkerCase):
    """A list that a machine has already is judged again only if its verdicts are of another list or ground."""

    def setUp(self):
        super().setUp()
        self.feed("products", product(NAME % "1"), product(OTHER))
        self.feed("vulnerabilities", advisory("CVE-2024-1", NAME % "1"))
        self.put("m", NAME % "1")

    def state(self):
        (found,) = self.rows("put = judged_put, put = result_put, fault <> ''", name="m")
        return found

    def test_it_has_its_verdicts_at_once(self):
        self.judge()
        before = self.rows("put"), self.rows("*", "history"), self.rows("result"), self.rows("judged_at")
        self.put("m", NAME % "1")
        self.assertEqual(self.state(), (1, 1, 0))
        self.assertGreater(self.rows("put"), before[0])
        self.assertEqual((self.rows("*", "history"), self.rows("result"), self.rows("judged_at")), before[1:])
        self.feed("vulnerabilities", advisory("CVE-2024-2", NAME % "1"))
        self.judge()
        changes = self.rows("advisory, before, after, cause", "history")
        self.assertEqual(changes[1:], [("CVE-2024-2", "none", "TRUE", "feed")])

    def test_it_waits_if_it_was_not_judged_yet(self):
        self.put("m", NAME % "1")
        self.assertEqual(self.state(), (0, 0, 0))
        self.judge()
        self.put("m", NAME % "1", OTHER)
        self.put("m", NAME % "1", OTHER)
        self.assertEqual(self.state(), (0, 0, 0))

    def test_it_waits_if_the_feeds_are_others(self):
        self.judge()
        self.feed("vulnerabilities", advisory("CVE-2024-2", NAME % "1"))
        self.put("m", NAME % "1")
        self.assertEqual(self.state(), (0, 0, 0))

    def test_it_waits_if_there_was_no_result(self):
        with mock.patch.object(worker.Judge, "judge", side_effect=KeyError("odd")):
            self.judge()
        self.put("m", NAME % "1")
        self.assertEqual(self.state(), (0, 0, 1))
        self.judge()
        self.assertEqual(self.state(), (1, 1, 0))


CLAIMING = """
import sys
from pathlib import Path
from cpe_service.claims import Claims
claims = Claims(Path(sys.argv[1]))
print(claims.take([1], 1), flush=True)
sys.stdin.read()
"""


class ClaimsTest(WorkerCase):
    def test_a_machine_that_another_process_judges_is_left_to_it(self):
        self.feed("products", product(NAME % "1"))
        self.feed("vulnerabilities", advisory("CVE-2024-1", NAME % "1"))
        for name in "mn":
            self.put(name, NAME % "1")
        words = [sys.executable, "-B", "-c", CLAIMING, str(self.folder / "data")]
        with subprocess.Popen(words, cwd=ROOT / "service", stdin=subprocess.PIPE, stdout=subprocess.PIPE, text=True) as other:
            self.assertEqual(other.stdout.readline(), "[1]\n")
            self.judge()
            self.assertEqual(self.rows("name, judged_put = put"), [("m", 0), ("n", 1)])
            self.assertEqual(self.judges._claims._held, set())
            # (a claim ends with the process)
            other.kill()
            other.wait()
            self.judge()
        self.assertEqual(self.rows("name, judged_put = put"), [("m", 1), ("n", 1)])

    def test_workers_take_what_waits_of_other_shards_too(self):
        self.feed("products", product(NAME % "1"))
        self.feed("vulnerabilities", advisory("CVE-2024-1", NAME % "1"))
        for number in range(12):
            self.put(f"m-{number}", NAME % "1")
        shards = [row[0] % 3 for row in self.rows("shard")]
        self.assertEqual(set(shards), {0, 1, 2})
        one = worker.Worker(self.folder / "data", 1, 3)
        one._send = [].append
        self.addCleanup(one._end)
        before = self.rows("id, shard % 3, judged_put = put")
        while one._step():
            after = self.rows("id, shard % 3, judged_put = put")
            waited = [(id, shard) for id, shard, is_judged in before if not is_judged]
            taken = [id for (id, _, was), (_, _, is_now) in zip(before, after) if is_now and not was]
            # (if more lists wait than there are workers, those that have waited longest are first, otherwise its own)
            first = [id for id, _ in waited] if len(waited) > 3 else [id for id, shard in sorted(waited, key=lambda row: row[1] != 1)]
            self.assertEqual(taken, sorted(first[: len(taken)]))
            before = after
        self.assertEqual([is_judged for _, _, is_judged in before], [1] * 12)


if __name__ == "__main__":
    unittest.main()
