"""What changed, since when, and by which edit; feeds in parts; events and metrics; and more advisories than cpe
takes."""
import json
import os
import socket
import sys
import time
import unittest
from dataclasses import replace
from unittest import mock

from service_case import CPE, ROOT, SAMPLES, ServiceCase, feed

sys.path.insert(0, str(ROOT / "service"))
import cpe_service  # noqa: E402, F401 (it puts the recipes on the path)
from cpe_service import database, keeper, queries, worker  # noqa: E402
from cpe_service import judge as judge_module  # noqa: E402
from cpe_recipes import portions  # noqa: E402

NAME = "cpe:2.3:a:acme:agent:%s:*:*:*:*:*:*:*"


def product(version, **more):
    return {"cpe": {"cpeName": NAME % version, "cpeNameId": version, "titles": [], **more}}


def advisory(id, *versions, modified="2024-01-01T00:00:00.000", **more):
    match = [{"vulnerable": True, "criteria": NAME % version, "matchCriteriaId": f"{id}-{version}"} for version in versions]
    configurations = [{"nodes": [{"operator": "OR", "cpeMatch": match}]}] if match else []
    return {"cve": {"id": id, "lastModified": modified, "descriptions": [], "configurations": configurations, **more}}


class HistoryTest(ServiceCase):
    def begin(self):
        server = self.server()
        server.feed(feed("products", product("1"), product("2")))
        server.feed(feed("vulnerabilities", advisory("CVE-2024-1", "1"), advisory("CVE-2024-2", "2")))
        server.put("m", NAME % "1")
        return server

    def changes(self, server, **query):
        server.settled()
        text = "&".join(f"{key}={value}" for key, value in {"limit": 1000, **query}.items())
        found = server.ask("GET", f"/changes?{text}")[1]["changes"]
        return [(one["machine"], one["advisory"], one["before"], one["after"], one["cause"]) for one in found]

    def test_causes(self):
        server = self.begin()
        wanted = [("m", "CVE-2024-1", "none", "TRUE", "list")]
        self.assertEqual(self.changes(server), wanted)
        server.put("m", NAME % "2")
        wanted += [("m", "CVE-2024-1", "TRUE", "FALSE", "list"), ("m", "CVE-2024-2", "FALSE", "TRUE", "list")]
        self.assertEqual(self.changes(server), wanted)
        server.feed(feed("vulnerabilities", advisory("CVE-2024-2", "3", modified="2024-02-01T00:00:00.000"), advisory("CVE-2024-3", "2")))
        wanted += [("m", "CVE-2024-2", "TRUE", "FALSE", "feed"), ("m", "CVE-2024-3", "none", "TRUE", "feed")]
        self.assertEqual(self.changes(server), wanted)
        server.ask("PUT", "/tables/suppress", "CVE-2024-3 m it is behind a wall\n")
        wanted += [("m", "CVE-2024-3", "TRUE", "accepted", "suppression")]
        self.assertEqual(self.changes(server), wanted)
        server.ask("PUT", "/tables/suppress", "")
        wanted += [("m", "CVE-2024-3", "accepted", "TRUE", "suppression")]
        self.assertEqual(self.changes(server), wanted)
        server.feed(feed("vulnerabilities", advisory("CVE-2024-4", "*")))
        wanted += [("m", "CVE-2024-4", "none", "TRUE", "feed")]
        self.assertEqual(self.changes(server), wanted)
        server.put("m", NAME % "*")
        wanted += [("m", "CVE-2024-1", "FALSE", "perhaps", "list"), ("m", "CVE-2024-2", "FALSE", "perhaps", "list")]
        wanted += [("m", "CVE-2024-3", "TRUE", "perhaps", "list")]
        self.assertEqual(self.changes(server), wanted)
        server.ask("PUT", "/tables/settled", "m CVE-2024-1 FALSE it was looked at\n")
        wanted += [("m", "CVE-2024-1", "perhaps", "FALSE", "settled")]
        self.assertEqual(self.changes(server), wanted)

    def test_what_has_no_verdict_any_more_says_why(self):
        server = self.begin()
        server.feed(feed("vulnerabilities", advisory("CVE-2024-1", modified="2024-03-01T00:00:00.000", vulnStatus="Undergoing Analysis")))
        server.settled()
        last = server.ask("GET", "/changes")[1]["changes"][-1]
        self.assertEqual((last["before"], last["after"], last["reason"]), ("TRUE", "none", "not analysed: Undergoing Analysis"))
        _, value = server.ask("GET", "/advisories/CVE-2024-1")
        self.assertEqual((value["state"], value["machines"]), ("not analysed: Undergoing Analysis", []))
        server.put("m", NAME % "2")
        server.ask("DELETE", "/machines/m")
        last = server.ask("GET", "/changes")[1]["changes"][-1]
        found = last["advisory"], last["after"], last["cause"], last["reason"]
        self.assertEqual(found, ("CVE-2024-2", "none", "delete", "it is no machine any more"))

    def test_since_when(self):
        server = self.begin()
        first = server.ask("GET", "/machines/m")[1]["verdicts"][0]["since"]
        middle = time.time()
        server.put("m", f"{NAME % '1'}\n{NAME % '2'}")
        found = {one["id"]: one["since"] for one in server.ask("GET", "/machines/m")[1]["verdicts"]}
        self.assertEqual(found["CVE-2024-1"], first)
        self.assertGreater(found["CVE-2024-2"], first)
        self.assertEqual(server.ask("GET", "/advisories/CVE-2024-2")[1]["machines"][0]["since"], found["CVE-2024-2"])
        self.assertEqual([one[1] for one in self.changes(server, since=f"{middle:.6f}")], ["CVE-2024-2"])
        self.assertEqual([one[1] for one in self.changes(server, until=f"{middle:.6f}")], ["CVE-2024-1"])
        second = f"{found['CVE-2024-2'][:19]}Z"
        self.assertEqual([one[1] for one in self.changes(server, since=second, advisory="CVE-2024-2")], ["CVE-2024-2"])
        server.kill()
        again = self.server()
        self.assertEqual({one["id"]: one["since"] for one in again.ask("GET", "/machines/m")[1]["verdicts"]}, found)

    def test_changes_are_kept_for_their_time(self):
        server = self.begin()
        server.kill()
        with database.connect(server.folder) as rows:
            rows.execute("UPDATE history SET at = at - 10 * 24 * 3600")
        rows.close()
        long = self.server("--days", "30")
        self.assertEqual(len(self.changes(long)), 1)
        long.kill()
        short = self.server("--days", "5")
        end = time.monotonic() + 20
        while self.changes(short) and time.monotonic() < end:
            time.sleep(0.05)
        self.assertEqual(self.changes(short), [])

    def test_a_feed_counts_when_all_its_pages_are_there(self):
        server = self.begin()
        page = lambda start, *records: {"startIndex": start, "resultsPerPage": len(records), "totalResults": 3, "vulnerabilities": list(records)}
        status, value = server.feed(page(2, advisory("CVE-2024-7", "1")), feed="one")
        self.assertEqual((status, value["state"]), (202, "waiting"))
        self.assertIn("startIndex 0 to 1 are missing", value["missing"][0])
        self.assertEqual([one["kind"] for one in server.ask("GET", "/health")[1]["feedsWaiting"]], ["advisories"])
        self.assertEqual(len(self.changes(server)), 1)
        # (a page that is sent twice is kept once)
        self.assertEqual(server.feed(page(2, advisory("CVE-2024-7", "1")), feed="one")[1]["records"], 1)
        status, value = server.feed(page(0, advisory("CVE-2024-5", "1"), advisory("CVE-2024-6", "2")), feed="one")
        self.assertEqual((status, value["state"], value["records"]), (202, "counts", 3))
        self.assertEqual([one[1] for one in self.changes(server)], ["CVE-2024-1", "CVE-2024-5", "CVE-2024-7"])
        self.assertEqual(server.ask("GET", "/health")[1]["feedsWaiting"], [])

    def test_a_feed_that_is_fetched_again(self):
        server = self.begin()
        page = lambda start, *records: {"startIndex": start, "resultsPerPage": len(records), "totalResults": 3, "vulnerabilities": list(records)}
        server.feed(page(0, advisory("CVE-2024-5", "1"), advisory("CVE-2024-6", "1")), feed="one")
        status, value = server.feed(page(0, advisory("CVE-2024-7", "1"), advisory("CVE-2024-8", "1")), feed="one")
        self.assertEqual((status, value["state"], value["records"]), (202, "waiting", 2))
        self.assertIn("is given up", value["remarks"][0])
        self.assertEqual(server.feed(page(2, advisory("CVE-2024-9", "1")), feed="one")[1]["state"], "counts")
        self.assertEqual([one[1] for one in self.changes(server)], ["CVE-2024-1", "CVE-2024-7", "CVE-2024-8", "CVE-2024-9"])
        # (pages of differently named fetches aren't combined)
        server.feed(page(0, advisory("CVE-2025-1", "1"), advisory("CVE-2025-2", "1")), feed="two")
        server.feed(page(2, advisory("CVE-2025-3", "1")), feed="three")
        self.assertEqual(len(server.ask("GET", "/health")[1]["feedsWaiting"]), 2)

    def test_what_is_known_already_changes_nothing(self):
        server = self.begin()
        ground = server.settled()["ground"]
        status, value = server.feed(feed("vulnerabilities", advisory("CVE-2024-1", "1")))
        self.assertEqual((value["new"], value["edit"]), (0, None))
        older = feed("vulnerabilities", advisory("CVE-2024-1", "2", modified="2023-01-01T00:00:00.000"))
        self.assertEqual(server.feed(older)[1]["new"], 0)
        self.assertEqual(server.settled()["ground"], ground)
        self.assertEqual(server.feed(feed("vulnerabilities", advisory("CVE-2024-9", "1")), whole="true")[1]["state"], "counts")
        self.assertEqual([one[1:4] for one in self.changes(server)[1:]], [("CVE-2024-1", "TRUE", "none"), ("CVE-2024-9", "none", "TRUE")])

    def test_without_feeds_a_list_waits(self):
        server = self.server()
        status, value = server.put("m", NAME % "1")
        self.assertEqual((status, value["state"]), (202, "waiting"))
        self.assertEqual(server.ask("GET", "/health")[1]["lacks"], "no dictionary was given yet")
        self.assertEqual([server.ask("GET", path)[1]["waiting"] for path in ("/machines", "/advisories")], [1, 1])
        self.assertIn(b"1 machine is not judged yet", server.asked("GET", "/advisories", Accept="text/html")[1])
        server.feed(feed("products", product("1")))
        server.feed(feed("vulnerabilities", advisory("CVE-2024-1", "1")))
        server.settled()
        self.assertEqual(server.ask("GET", "/machines/m")[1]["counts"], {"TRUE": 1})

    def test_what_was_not_read_is_said(self):
        server = self.begin()
        data = {"bomFormat": "CycloneDX", "components": [{"name": "a", "cpe": NAME % "1"}, {"name": "b"}, {"name": "c", "cpe": "cpe:2.3:no"}]}
        status, value = server.put("m", data)
        self.assertEqual(len(value["leftOut"]), 2, value)
        found = server.ask("GET", "/machines/m")[1]
        self.assertEqual(len(found["leftOut"]), 2, found["leftOut"])
        server.put("empty", "cpe:2.3:no\n")
        _, found = server.ask("GET", "/machines/empty")
        self.assertEqual((found["counts"], found["verdicts"]), ({"no items": 1}, []))
        self.assertIn("no items", [one["reason"] for one in found["leftOut"]])
        server.feed(feed("vulnerabilities", {"cve": {"id": "CVE-2024-8", "configurations": [{"nodes": "no list"}]}}))
        self.assertIn("CVE-2024-8", [one["id"] for one in server.settled()["leftOut"]])
        self.assertEqual(server.ask("GET", "/machines")[1]["feedsLeftOut"], 1)
        self.assertIn(b"Not read of the feeds and tables: 1.", server.asked("GET", "/machines", Accept="text/html")[1])
        self.assertIn(b"CVE-2024-8: ", server.asked("GET", "/health", Accept="text/html")[1])


class ToldTest(ServiceCase):
    def test_events_go_on_where_a_listener_stopped(self):
        server = self.with_samples()
        server.put("m", "cpe:/a:ntp:ntp:4.2.8")
        self.assertEqual(self.heard(server, "", 0), [])
        with self.listening(server, "") as stream:
            server.put("n", "cpe:/a:ntp:ntp:4.2.8\ncpe:/a:openssl:openssl:1.0.2k")
            wanted = [one for one in server.ask("GET", "/changes?limit=1000")[1]["changes"] if one["machine"] == "n"]
            self.assertEqual(self.read(stream, len(wanted)), wanted)
        self.assertEqual(self.heard(server, f"Last-Event-ID: {wanted[0]['id']}\r\n", len(wanted) - 1), wanted[1:])

    def listening(self, server, head):
        connection = socket.create_connection(("127.0.0.1", server.port), 10)
        connection.sendall(f"GET /events HTTP/1.1\r\nHost: localhost\r\n{head}\r\n".encode())
        stream = connection.makefile("rb")
        connection.close()
        while not stream.readline().startswith(b": listening"):
            pass
        return stream

    def heard(self, server, head, count):
        with self.listening(server, head) as stream:
            return self.read(stream, count)

    def read(self, stream, count):
        found = []
        while len(found) < count:
            line = stream.readline()
            if line.startswith(b"data: "):
                found.append(json.loads(line[6:]))
        return found

    def test_metrics(self):
        server = self.with_samples()
        server.put("m", "cpe:/a:ntp:ntp:4.2.8")
        server.put("bad name", "x")
        status, text = server.ask("GET", "/metrics")
        self.assertEqual(status, 200)
        samples = {}
        for line in text.splitlines():
            if not line.startswith("#"):
                name, value = line.rsplit(" ", 1)
                self.assertNotIn(name, samples)
                samples[name] = float(value)
        counts = server.ask("GET", "/machines/m")[1]["counts"]
        self.assertEqual(samples["cpe_machines"], 1)
        self.assertEqual(samples['cpe_verdicts{kind="TRUE"}'], counts["TRUE"])
        self.assertEqual(samples['cpe_requests_total{route="put_machine",status="201"}'], 1)
        self.assertEqual(samples['cpe_requests_total{route="put_machine",status="400"}'], 1)
        self.assertEqual(samples['cpe_request_seconds_bucket{route="put_machine",le="+Inf"}'], 2)
        self.assertIn('cpe_feed_time_seconds{kind="advisories"}', samples)


@unittest.skipUnless(CPE, "there is no cpe")
class ManyTest(ServiceCase):
    def test_more_advisories_than_cpe_takes(self):
        """Only advisories that may concern the machines are evaluated; a machine with another product makes the worker
        read the others."""
        ranges = SAMPLES / "ranges"
        lists = {name: (ranges / name).read_bytes() for name in ("legacy-1.txt", "web-1.cdx.json", "app-1.txt")}
        with mock.patch.dict(os.environ, {"CPE": CPE}):
            found = self.judged_by_worker("all", ranges, lists)
            with mock.patch("cpe_recipes.portions.MOST", replace(portions.MOST, statements=3)):
                self.assertEqual(self.judged_by_worker("some", ranges, lists), found)
        self.assertTrue(all(found.values()))

    def test_a_list_that_the_recipes_fail_on_keeps_no_other_waiting(self):
        folder = self.folder / "data"
        folder.mkdir()
        database.create(folder)
        with mock.patch.dict(os.environ, {"CPE": CPE}):
            keeps, judges = keeper.Keeper(folder), worker.Worker(folder, 0, 1)
            for kind in ("dictionary", "advisories"):
                keeps.answer({"do": "feed", "name": "", "is_whole": False, "client": "x"}, (SAMPLES / "ranges" / f"{kind}.json").read_bytes())
            for name in ("good", "odd"):
                keeps.answer({"do": "put", "name": name, "client": "x"}, b"cpe:/a:ntp:ntp:4.2.8")
            judge = judge_module.Judge.judge

            def fails(self, machines, asked=None):
                if any(one.name == "odd" for one in machines):
                    raise KeyError("odd")
                return judge(self, machines, asked)

            with mock.patch.object(judges, "_send"), mock.patch.object(judge_module.Judge, "judge", fails):
                while judges._step():
                    pass
            rows = judges._database.execute("SELECT name, fault, counts FROM machines ORDER BY name").fetchall()
            judges._end()
        self.assertEqual([tuple(row) for row in rows], [("good", "", '{"TRUE": 1}'), ("odd", "the recipes have a fault: KeyError 'odd'", "{}")])

    def test_what_a_worker_cannot_do_is_noted_and_tried_again(self):
        folder = self.folder / "data"
        folder.mkdir()
        database.create(folder)
        with mock.patch.dict(os.environ, {"CPE": CPE}):
            judges = worker.Worker(folder, 0, 1)
            with mock.patch.object(judges, "_send"), mock.patch("sys.stderr"):
                with mock.patch.object(worker, "read_ground", side_effect=ValueError("it is no ground")):
                    self.assertEqual(judges._try_step(), 5)
                self.assertEqual(queries.health(judges._database)["trouble"], ["it is no ground"])
                self.assertEqual(judges._try_step(), 30)
                self.assertEqual(queries.health(judges._database)["trouble"], [])
            judges._end()

    def judged_by_worker(self, name, ranges, lists):
        folder = self.folder / name
        folder.mkdir()
        database.create(folder)
        keeps, judges, found = keeper.Keeper(folder), worker.Worker(folder, 0, 1), {}
        for kind in ("dictionary", "advisories", "matches"):
            keeps.answer({"do": "feed", "name": "", "is_whole": False, "client": "x"}, (ranges / f"{kind}.json").read_bytes())
        with mock.patch.object(judges, "_send"):
            for machine, data in lists.items():
                self.assertIn("edit", keeps.answer({"do": "put", "name": machine, "client": "x"}, data))
                while judges._step():
                    pass
                question = "SELECT advisory, kind FROM verdicts JOIN machines ON machines.id = machine WHERE name = ?"
                rows = judges._database.execute(question, (machine,))
                found[machine] = sorted(map(tuple, rows))
            judges._end()
        return found


if __name__ == "__main__":
    unittest.main()
