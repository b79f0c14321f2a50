"""No machine is hidden: what wasn't read, known or decided is reported, and keeps no machine waiting."""
import asyncio
import html
import json
import os
import signal
import sys
import threading
import time
import unittest
from dataclasses import replace
from unittest import mock

from service_case import CPE, ROOT, ServiceCase, feed

sys.path.insert(0, str(ROOT / "service"))
import cpe_service  # noqa: E402, F401 (it puts the recipes on the path)
from cpe_service import app, database, ground, keeper, pages, queries, worker  # noqa: E402
from cpe_recipes import portions  # noqa: E402
from cpe_recipes.console import Fatal  # noqa: E402

NAME = "cpe:2.3:a:acme:agent:%s:*:*:*:*:*:*:*"
OTHER = "cpe:2.3:a:other:thing:1:*:*:*:*:*:*:*"
# Half a surrogate pair: JSON can have it, and it has no bytes.
HALF = "\ud800"


def product(name, *titles):
    return {"cpe": {"cpeName": name, "cpeNameId": name, "titles": [{"lang": "en", "title": title} for title in titles]}}


def advisory(id, *names, title="", modified="2024-01-01T00:00:00.000", **more):
    match = [{"vulnerable": True, "criteria": name, "matchCriteriaId": f"{id}-{name}"} for name in names]
    descriptions = [{"lang": "en", "value": title}] if title else []
    configurations = [{"nodes": [{"operator": "OR", "cpeMatch": match}]}] if match else []
    return {"cve": {"id": id, "lastModified": modified, "descriptions": descriptions, "configurations": configurations, **more}}


class WorkerCase(ServiceCase):
    """A keeper and a worker without a server, so that what happens between two of their steps can be drawn."""

    def setUp(self):
        super().setUp()
        data = self.folder / "data"
        data.mkdir()
        database.create(data)
        self.during(mock.patch.dict(os.environ, {"CPE": CPE}))
        self.keeps = keeper.Keeper(data)
        self.judges = self.worker()

    def during(self, patch):
        self.addCleanup(patch.stop)
        return patch.start()

    def worker(self):
        made = worker.Worker(self.folder / "data", 0, 1)
        made.sent = []
        made._send = made.sent.append
        self.addCleanup(made._end)
        return made

    def feed(self, kind, *records, is_whole=False):
        message = {"do": "feed", "name": "", "is_whole": is_whole, "client": "x"}
        self.assertIn("edit", self.keeps.answer(message, json.dumps(feed(kind, *records)).encode()))

    def put(self, name, *names):
        self.assertIn("edit", self.keeps.answer({"do": "put", "name": name, "client": "x"}, "\n".join(names).encode()))

    def judge(self):
        while self.judges._step():
            pass

    def rows(self, columns, table="machines", **values):
        where = " AND ".join(f"{key} = ?" for key in values) or "true"
        return [tuple(row) for row in self.judges._database.execute(f"SELECT {columns} FROM {table} WHERE {where}", (*values.values(),))]

    def verdicts(self, name):
        found = self.judges._database.execute("SELECT advisory, kind FROM verdicts JOIN machines ON machines.id = machine WHERE name = ?", (name,))
        return dict(map(tuple, found))


class HalfTest(WorkerCase):
    """Half a surrogate pair in a feed keeps no machine waiting."""

    def test_it_keeps_nobody_waiting(self):
        self.feed("products", product(NAME % "1", f"agent {HALF} one"), product(NAME % "2"))
        self.feed(
            "vulnerabilities", advisory("CVE-2024-1", NAME % "1", title=f"bad {HALF} title"), advisory(f"CVE-2024-{HALF}", NAME % "1"),
            advisory("CVE-2024-3", vulnStatus=f"Awaiting {HALF}"), advisory(f"CVE-2024-4{HALF}", vulnStatus="Rejected"),
        )
        self.put("m", NAME % "1")
        self.judge()
        self.assertEqual(self.verdicts("m"), {"CVE-2024-1": "TRUE"})
        found = {id: (state.split(":")[0], json.loads(details).get("title")) for id, state, details in self.rows("id, state, details", "advisories")}
        wanted = {"CVE-2024-1": ("", "bad \ufffd title"), "CVE-2024-\ufffd": ("left out", None), "CVE-2024-3": ("not analysed", None)}
        self.assertEqual(found, {**wanted, "CVE-2024-4\ufffd": ("rejected", None)})

    def test_it_is_a_reason_in_the_history(self):
        self.feed("products", product(NAME % "1"))
        self.feed("vulnerabilities", advisory("CVE-2024-1", NAME % "1"), advisory("CVE-2024-2", NAME % "1"))
        self.put("m", NAME % "1")
        self.judge()
        self.feed("vulnerabilities", advisory("CVE-2024-1", modified="2024-02-01T00:00:00.000", vulnStatus=f"Awaiting {HALF}"))
        self.judge()
        self.assertEqual(self.rows("before, after, reason", "history", advisory="CVE-2024-1")[1:], [("TRUE", "none", "not analysed: Awaiting \ufffd")])

    def test_it_is_in_a_fault_and_in_trouble(self):
        self.feed("products", product(NAME % "1"))
        self.feed("vulnerabilities", advisory("CVE-2024-1", NAME % "1"))
        self.put("m", NAME % "1")
        with mock.patch.object(worker.Judge, "judge", side_effect=KeyError(HALF)):
            self.judge()
        self.assertIn("the recipes have a fault: KeyError", self.rows("fault")[0][0])
        with mock.patch.object(worker.Worker, "_ready", side_effect=ValueError(f"no {HALF}")), mock.patch("sys.stderr"):
            self.assertEqual(self.judges._try_step(), 5)
        self.assertEqual(self.rows("text", "notes", name="trouble 0"), [("no \ufffd",)])

    def test_it_is_in_answers(self):
        server = self.server(name="served")
        server.feed(feed("products", product(NAME % "1")))
        odd = {"cve": {"id": f"CVE-2024-{HALF}", "configurations": [{"nodes": "no list"}]}}
        server.feed(feed("vulnerabilities", advisory("CVE-2024-1", NAME % "1", title=HALF), odd))
        components = [{"name": "a", "cpe": NAME % "1"}, {"name": HALF, "version": HALF}, {"name": "c", "cpe": f"cpe:2.3:a:{HALF}"}]
        status, value = server.put("m", {"bomFormat": "CycloneDX", "components": components})
        self.assertEqual((status, value["counts"], len(value["leftOut"])), (201, {"TRUE": 1}, 2), value)
        server.settled()
        for path in ("/machines/m", "/machines", "/advisories", "/advisories/CVE-2024-1", "/changes", "/health", "/certificates/m/CVE-2024-1"):
            for kind in ("*/*", "text/html"):
                self.assertEqual(server.asked("GET", path, Accept=kind)[0], 200, path)
        self.assertIn("CVE-2024-\ufffd", [one["id"] for one in server.ask("GET", "/health")[1]["leftOut"]])
        status, value = server.put("n", {"bomFormat": "CycloneDX", "specVersion": HALF, HALF: [], "components": HALF})
        self.assertEqual(status, 422, value)


class ManyTest(WorkerCase):
    """There are more advisories than cpe takes."""

    def setUp(self):
        super().setUp()
        self.during(mock.patch("cpe_recipes.portions.MOST", replace(portions.MOST, statements=2)))
        self.feed("products", product(NAME % "1"), product(OTHER))
        self.feed("vulnerabilities", *(advisory(f"CVE-2024-{number}", NAME % "1") for number in range(1, 4)))

    def test_a_list_that_none_of_them_concerns_is_judged(self):
        self.put("m", OTHER)
        self.judge()
        self.assertEqual(self.rows("put = judged_put, fault, counts"), [(1, "", "{}")])
        self.assertEqual(queries.health(self.judges._database)["lacks"], "")
        # (and a list that they concern makes the worker read them)
        self.put("n", NAME % "1")
        self.judge()
        self.assertEqual(self.verdicts("n"), dict.fromkeys(("CVE-2024-1", "CVE-2024-2", "CVE-2024-3"), "TRUE"))

    def test_feeds_that_come_before_all_machines(self):
        self.judge()
        health = queries.health(self.judges._database)
        self.assertEqual((health["lacks"], health["groundIsRead"]), ("", True))
        self.assertIn("0 of 3 advisories may concern", " ".join(health["remarks"]))
        self.put("m", OTHER)
        self.judge()
        self.assertEqual(self.rows("put = judged_put, fault, counts"), [(1, "", "{}")])
        self.put("m", NAME % "1")
        self.judge()
        self.assertEqual(self.rows("counts"), [('{"TRUE": 3}',)])

    def test_what_is_read_for_a_new_list_is_noted(self):
        self.feed("vulnerabilities", advisory("CVE-2024-9", OTHER, title="a thing"))
        self.put("m", NAME % "1")
        self.judge()
        self.put("n", OTHER)
        self.judge()
        self.assertEqual(self.verdicts("n"), {"CVE-2024-9": "TRUE"})
        value = queries.advisory(self.judges._database, "CVE-2024-9", "", 10, 0)
        self.assertEqual(value["title"], "a thing")
        self.assertIn("4 of 4 advisories may concern", " ".join(queries.health(self.judges._database)["remarks"]))

    def test_another_fault_is_no_list_that_none_concerns(self):
        self.put("m", OTHER)
        with mock.patch.object(ground.scan, "of_products", side_effect=Fatal("cpe resolve ended")), mock.patch("sys.stderr"):
            self.assertEqual(self.judges._try_step(), 5)
        self.assertEqual(self.rows("judged_put, fault"), [(0, "")])


class HistoryTest(WorkerCase):
    """The history says FALSE only if that was decided."""

    def setUp(self):
        super().setUp()
        self.feed("products", product(NAME % "1"), product(OTHER))
        self.feed("vulnerabilities", advisory("CVE-2024-1", NAME % "1"), advisory("CVE-2024-2", OTHER))

    def changes(self):
        return self.rows("advisory, before, after, cause, reason", "history")

    def test_a_list_without_items(self):
        self.put("m", "cpe:2.3:no")
        self.judge()
        self.assertEqual((self.rows("counts"), self.changes()), ([('{"no items": 1}',)], []))
        self.put("m", NAME % "1")
        self.judge()
        self.put("m", "cpe:2.3:no")
        self.judge()
        wanted = [("CVE-2024-1", "none", "TRUE", "list", ""), ("CVE-2024-1", "TRUE", "none", "list", "no items")]
        self.assertEqual(self.changes(), wanted)
        self.put("m", NAME % "1", OTHER)
        self.judge()
        wanted += [("CVE-2024-1", "none", "TRUE", "list", ""), ("CVE-2024-2", "none", "TRUE", "list", "")]
        self.assertEqual(self.changes(), wanted)

    def judge_nothing(self):
        with mock.patch.object(worker.Judge, "judge", side_effect=KeyError("odd")):
            self.judge()
        self.assertEqual(len(self.rows("1", fault="the recipes have a fault: KeyError 'odd'")), 1)

    def test_a_first_list_without_a_result(self):
        self.put("m", NAME % "1")
        self.judge_nothing()
        self.feed("vulnerabilities", advisory("CVE-2024-3", NAME % "2"))
        self.judge()
        self.assertEqual(self.changes(), [("CVE-2024-1", "none", "TRUE", "list", "")])

    def test_a_later_list_without_a_result(self):
        self.put("m", NAME % "1")
        self.judge()
        self.put("m", OTHER)
        self.judge_nothing()
        self.feed("vulnerabilities", advisory("CVE-2024-3", NAME % "2"))
        self.judge()
        wanted = [("CVE-2024-1", "TRUE", "FALSE", "list and feed", ""), ("CVE-2024-2", "none", "TRUE", "list and feed", "")]
        self.assertEqual(self.changes()[1:], wanted)
        self.put("m", NAME % "1", OTHER)
        self.judge()
        self.assertEqual(self.changes()[3:], [("CVE-2024-1", "FALSE", "TRUE", "list", "")])


class CertificateTest(WorkerCase):
    """A certificate is of the current list, and its page says why if there is none."""

    def begin(self):
        self.feed("products", product(NAME % "1"), product(OTHER))
        self.feed("vulnerabilities", *(advisory(f"CVE-2024-{number}", NAME % "1") for number in range(1, 4)), advisory("CVE-2024-9", OTHER))
        self.put("m", NAME % "1")
        self.judge()

    def certificate(self, id, machine="m"):
        return self.judges._certificate({"machine": machine, "id": id})

    def test_an_advisory_that_concerns_none_of_the_machines(self):
        self.during(mock.patch("cpe_recipes.portions.MOST", replace(portions.MOST, statements=2)))
        self.begin()
        wanted = "there is no certificate of CVE-2024-9: it concerns no product of these machines, so it is FALSE"
        self.assertEqual(self.certificate("CVE-2024-9")["missing"], wanted)
        self.assertEqual(self.certificate("CVE-2024-8")["missing"], "there is no verdict of CVE-2024-8: it isn't in the feeds")
        self.put("empty", "cpe:2.3:no")
        self.assertEqual(self.certificate("CVE-2024-9", "empty")["missing"], "empty has no items, so it has no verdict")
        self.put("n", OTHER)
        found = self.certificate("CVE-2024-9", "n")
        self.assertEqual((found["check"], found["state"]), (["proof CVE-2024-9 holds"], "waiting"))

    def test_it_says_of_which_list_it_is(self):
        self.begin()
        found = self.certificate("CVE-2024-1")
        self.assertEqual((found["state"], [found["edit"]], [found["ground"]]), ("judged", *map(list, zip(*self.rows("put, judged_ground")))))
        self.put("m", OTHER)
        later = self.certificate("CVE-2024-9")
        self.assertEqual((later["state"], later["edit"]), ("waiting", found["edit"] + 1))
        asked = {"machine": "m", "advisory": "CVE-2024-9"}
        self.assertIn("The machine waits for its verdicts", pages.page("certificate", later | asked, asked))
        self.assertNotIn("The machine waits", pages.page("certificate", found | asked, asked))
        self.judge()
        self.feed("vulnerabilities", advisory("CVE-2024-10", OTHER))
        self.assertEqual(self.certificate("CVE-2024-10")["state"], "waiting")
        with mock.patch.object(worker.Judge, "judge_changed", side_effect=KeyError("odd")):
            self.judge()
        self.assertEqual(self.certificate("CVE-2024-10")["state"], "fault")

    def test_without_feeds_nobody_is_judged(self):
        self.put("m", OTHER)
        self.assertEqual(self.certificate("CVE-2024-9")["missing"], "nobody can be judged yet: no dictionary was given yet")


class AskedTest(ServiceCase):
    """Certificates keep no list waiting."""

    def test_more_certificates_than_a_worker_is_asked_for(self):
        server = self.server("--rate", "100000", "--workers", "1", "--seconds", "5")
        server.feed(feed("products", product(NAME % "1")))
        server.feed(feed("vulnerabilities", advisory("CVE-2024-1", NAME % "1")))
        server.put("m", NAME % "1")
        pids, path, found = stopped(self, server), "/certificates/m/CVE-2024-1", []
        begin = time.monotonic()
        threads = [threading.Thread(target=lambda: found.append((server.ask("GET", path)[0], time.monotonic() - begin))) for _ in range(7)]
        for thread in threads:
            thread.start()
        for thread in threads:
            thread.join()
        self.assertEqual([status for status, _ in found], [503] * 7)
        # (some are refused at once, and the others after a time limit)
        self.assertEqual(sum(seconds > 4.9 for _, seconds in found), 4, found)
        for pid in pids:
            os.kill(pid, signal.SIGCONT)
        self.assertEqual(server.ask("GET", path)[1]["check"], ["proof CVE-2024-1 holds"])


class LateTest(WorkerCase):
    def test_a_certificate_that_comes_late_is_not_made(self):
        for until in (0, time.time() + 60):
            self.judges._inbox.put({"do": "certificate", "machine": "m", "id": "CVE-2024-1", "number": until, "until": until})
        self.judges._try_step = mock.Mock(side_effect=[0, 0, KeyboardInterrupt])
        with mock.patch.object(worker.threading, "Thread"), self.assertRaises(KeyboardInterrupt):
            self.judges.run()
        self.assertEqual(self.judges.sent, [{"answer": until, "missing": "there is no machine m"}])


def stopped(case, server):
    """The workers of a server, which do nothing until they are continued."""
    pids = server.children("cpe_service.worker")
    for pid in pids:
        os.kill(pid, signal.SIGSTOP)
        case.addCleanup(os.kill, pid, signal.SIGCONT)
    return pids


class ReadersTest(WorkerCase):
    def test_another_thread_takes_the_last_connection_first(self):
        service = app.Service(app.Settings(self.folder / "data"))

        class Taken(list):
            def pop(self):
                raise IndexError("pop from empty list")

        service._readers = Taken([None])
        self.assertEqual(service._query(queries.last_change, ()), 0)
        service._readers[1].close()


class WaitTest(WorkerCase):
    """One query serves all clients that wait for verdicts."""

    def setUp(self):
        super().setUp()
        self.service = app.Service(app.Settings(self.folder / "data", wait=20))
        self.service.ask, self.asked = self.ask, []

    async def ask(self, question, lists):
        self.asked.append(list(lists))
        return question(self.judges._database, lists)

    def test_one_question_is_asked_for_all(self):
        self.feed("products", product(NAME % "1"))
        self.feed("vulnerabilities", advisory("CVE-2024-1", NAME % "1"))
        for number in range(50):
            self.put(f"m-{number}", NAME % "1")
        lists = self.rows("name, put")

        async def waits():
            found = [asyncio.ensure_future(self.service._wait(*one)) for one in lists]
            await asyncio.sleep(0.05)
            self.assertEqual((self.asked, [one.done() for one in found]), ([lists], [False] * 50))
            self.judges._step()
            self.service._notify()
            await asyncio.sleep(0.05)
            self.assertEqual(sum(one.done() for one in found), 4)
            self.judge()
            self.service._notify()
            await asyncio.wait_for(asyncio.gather(*found), 20)

        asyncio.run(waits())
        self.assertEqual(list(map(len, self.asked)), [50, 50, 46])
        self.assertEqual(self.service._unsettled, {})

    def test_what_ends_and_what_does_not(self):
        lists = [("none", 1)]
        self.assertEqual(queries.find_done(self.judges._database, lists), set(lists))
        self.put("m", NAME % "1")
        (one,) = self.rows("name, put")
        self.assertEqual(queries.find_done(self.judges._database, [one]), set())
        self.judge()
        # (there is no feed for which it could wait)
        self.assertEqual(queries.find_done(self.judges._database, [one]), {one})

    def test_a_fault_is_the_answer_to_each(self):
        async def fails(question, lists):
            raise OSError(28, "no space")

        async def waits():
            self.service.ask = fails
            return await asyncio.gather(*(self.service._wait("m", number) for number in range(3)), return_exceptions=True)

        self.assertEqual([type(one) for one in asyncio.run(waits())], [OSError] * 3)


class ShownTest(ServiceCase):
    """An answer from which something is missing says so."""

    def begin(self):
        server = self.server("--rate", "100000", "--workers", "1", "--wait", "1")
        self.assertEqual([server.ask("GET", path)[1]["dictionary"] for path in (self.names, f"/name?cpe={OTHER}")], ["none"] * 2)
        self.assertIn("No dictionary was given yet", self.page(server, self.names))
        server.feed(feed("products", product(NAME % "1")))
        server.feed(feed("vulnerabilities", advisory("CVE-2024-1", NAME % "1")))
        server.put("m", NAME % "1")
        server.put("empty", "cpe:2.3:no")
        server.settled()
        self.assertEqual([server.ask("GET", path)[1]["dictionary"] for path in (self.names, f"/name?cpe={OTHER}")], ["current"] * 2)
        return server

    names = "/names?q=thing"

    def page(self, server, path):
        return server.asked("GET", path, Accept="text/html")[1].decode()

    def unjudged(self, server, path):
        value = server.ask("GET", path)[1]
        return value["waiting"], value["faults"], value["noItems"]

    def test_feeds_that_are_not_read_yet(self):
        server = self.begin()
        self.assertEqual(server.ask("GET", "/advisories/CVE-2024-9")[0], 404)
        pids = stopped(self, server)
        server.feed(feed("vulnerabilities", advisory("CVE-2024-9", NAME % "1")))
        status, value = server.ask("GET", "/advisories/CVE-2024-9")
        self.assertEqual((status, value["detail"]), (503, "the feeds that were accepted aren't read yet; ask again"))
        for path in ("/machines?kind=TRUE", "/advisories", "/advisories/CVE-2024-1", "/changes"):
            self.assertEqual(self.unjudged(server, path), (2, 0, 1), path)
            self.assertIn("2 machines are not judged yet", self.page(server, path))
            self.assertIn("1 machine has no items, so there are no verdicts.", self.page(server, path))
        # (the dictionary is unchanged)
        self.assertEqual(server.ask("GET", self.names)[1]["dictionary"], "current")
        server.feed(feed("products", product(OTHER)))
        for path in (self.names, f"/name?cpe={OTHER}"):
            self.assertEqual(server.ask("GET", path)[1]["dictionary"], "waiting")
            self.assertIn("The newest dictionary isn't read yet", html.unescape(self.page(server, path)))
        for pid in pids:
            os.kill(pid, signal.SIGCONT)
        server.settled()
        self.assertEqual(server.ask("GET", "/advisories/CVE-2024-9")[1]["counts"], {"TRUE": 1})
        self.assertEqual(self.unjudged(server, "/changes"), (0, 0, 1))
        _, value = server.ask("GET", self.names)
        self.assertEqual((value["total"], value["dictionary"]), (1, "current"))


class UnjudgedTest(WorkerCase):
    def test_what_an_older_ground_lacks_is_not_said_of_a_newer_one(self):
        self.put("m", NAME % "1")
        self.judge()
        of_all = lambda: {queries.health(self.judges._database)["lacks"], queries.cautions(self.judges._database).get("lacks", "")}
        self.assertEqual(of_all(), {"no dictionary was given yet"})
        self.feed("products", product(NAME % "1"))
        self.assertEqual(of_all(), {""})
        self.judge()
        self.assertEqual(of_all(), {"no advisory that can have a verdict was given yet"})

    def test_a_ground_that_can_not_be_read_again_is_no_fault_of_a_list(self):
        self.feed("products", product(NAME % "1"))
        self.feed("vulnerabilities", advisory("CVE-2024-1", NAME % "1"))
        self.put("m", NAME % "1")
        read = ground.read_ground
        with mock.patch.object(worker.Judge, "judge", side_effect=Fatal("cpe resolve ended")), mock.patch("sys.stderr"):
            with mock.patch.object(worker, "read_ground", side_effect=[read(self.judges._database, self.judges._program, list), Fatal("no room")]):
                self.assertEqual(self.judges._try_step(), 5)
        self.assertEqual((self.rows("judged_put, fault"), queries.health(self.judges._database)["trouble"]), ([(0, "")], ["no room"]))
        self.judge()
        self.assertEqual(self.verdicts("m"), {"CVE-2024-1": "TRUE"})

    def test_machines_without_a_result_are_counted(self):
        self.feed("products", product(NAME % "1"))
        self.feed("vulnerabilities", advisory("CVE-2024-1", NAME % "1"))
        self.put("m", NAME % "1")
        with mock.patch.object(worker.Judge, "judge", side_effect=KeyError("odd")):
            self.judge()
        found = queries.cautions(self.judges._database)
        self.assertEqual(found, {"waiting": 0, "faults": 1, "noItems": 0, "feedsLeftOut": 0})
        page = pages.page("changes", {"changes": [], **found}, {})
        self.assertIn("1 machine has no result of the newest list", page)
        self.judge()
        self.put("m", NAME % "1")
        with mock.patch.object(worker.Judge, "judge", side_effect=KeyError("/usr/lib/odd")):
            self.judge()
        self.assertEqual(self.rows("fault"), [("the recipes have a fault: KeyError 'odd'",)])
        self.put("m", NAME % "1")
        self.judge()
        self.assertEqual(set(queries.cautions(self.judges._database).values()), {0})


if __name__ == "__main__":
    unittest.main()
