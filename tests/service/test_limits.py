"""Limits for clients: files of tokens, connections, listeners, feeds with missing pages, and requests that need too
much memory."""
import contextlib
import dataclasses
import io
import json
import re
import resource
import socket
import sqlite3
import subprocess
import sys
import tempfile
import time
import unittest
import zipfile
from pathlib import Path
from unittest import mock

from service_case import CPE, PATIENCE, ROOT, ServiceCase, feed

sys.path.insert(0, str(ROOT / "service"))
from cpe_service import database, feeds, keeper, resident_run, tokens  # noqa: E402
from cpe_service.message_list import strip_paths  # noqa: E402
from cpe_recipes.console import Fatal  # noqa: E402

FEED = {"do": "feed", "name": "", "is_whole": False, "client": "x"}


class TokensTest(ServiceCase):
    def test_a_token_is_added_behind_a_last_line_without_an_end(self):
        folder = self.folder / "data"
        folder.mkdir()
        first = tokens.add(folder, "a", True)
        (folder / "tokens").write_text((folder / "tokens").read_text().rstrip("\n"))
        second = tokens.add(folder, "b", False)
        known = tokens.Tokens(folder)
        self.assertEqual([known.client(f"Bearer {one}").name for one in (first, second)], ["a", "b"])


class PathsTest(ServiceCase):
    def test_tokens_that_can_not_be_read_show_nothing(self):
        server = self.server()
        for make in (lambda path: path.mkdir(), lambda path: (path.rmdir(), path.write_bytes(b"\xff"))):
            make(server.folder / "tokens")
            status, value = server.ask("GET", "/machines")
            self.assertEqual((status, value["detail"]), (503, "the tokens can not be read"))
        self.assertRaisesRegex(tokens.NoTokens, "^tokens can not be read: it is no UTF-8$", tokens.Tokens, server.folder)

    def test_what_can_not_be_kept_shows_no_path(self):
        folder = self.folder / "data"
        folder.mkdir()
        database.create(folder)
        with mock.patch.object(Path, "write_bytes", side_effect=OSError(28, "No space left on device", "/tmp/cpe-service-x/list")):
            answer = keeper.Keeper(folder).answer({"do": "put", "name": "m", "client": "x"}, b"cpe:/a:ntp:ntp:4.2.8")
        self.assertEqual(answer, {"fault": "it could not be kept: No space left on device"})

    def test_a_fault_of_cpe_shows_no_path(self):
        cpe = self.folder / "bin" / "cpe"
        cpe.parent.mkdir()
        cpe.symlink_to(CPE)
        with mock.patch("service_case.CPE", str(cpe)):
            server = self.with_samples()
        server.put("m", "cpe:/a:ntp:ntp:4.2.8")
        cpe.unlink()
        cpe.write_text("#!/bin/sh\nexit 3\n")
        cpe.chmod(0o755)
        status, value = server.ask("GET", "/name?cpe=cpe:/a:ntp:ntp:4.2.8")
        self.assertEqual(status, 503, value)
        self.assertTrue(value["detail"].startswith("cpe "), value)
        self.assertNotIn(str(self.folder), value["detail"])

    def test_a_run_that_ends_shows_no_path(self):
        """Its message becomes the fault of a machine."""
        cpe = self.folder / "cpe"
        for line, words in (("#!/none/sh", "^cpe can not be run: "), ("#!/bin/sh\nexit 3", "^cpe resolve ended with status 3$")):
            cpe.write_text(f"{line}\n")
            cpe.chmod(0o755)
            with self.assertRaises(Fatal) as raised:
                resident_run.ResidentRun(str(cpe), [])
            self.assertRegex(strip_paths(str(raised.exception)), words)

    def test_pathless(self):
        for text, wanted in (
            ("/usr/lib/x/cpe resolve ended with status 3", "cpe resolve ended with status 3"),
            ("no such file: '/tmp/a/c'", "no such file: 'c'"),
            ("there is no /opt/cpe/bin/cpe", "there is no cpe"),
            ("cpe:/a:x/y", "cpe:/a:x/y"),
            ("https://a.example/b/c and /openapi.json", "https://a.example/b/c and /openapi.json"),
        ):
            self.assertEqual(strip_paths(text), wanted)


class ConnectionsTest(ServiceCase):
    def test_a_request_that_never_ends_is_closed_behind_a_first_one_too(self):
        server = self.server()
        connections = []
        for end in (b"", b"GET /machines HTTP/1.1\r\nX: "):
            connection = socket.create_connection(("127.0.0.1", server.port), PATIENCE)
            self.addCleanup(connection.close)
            connection.sendall(b"GET /tables/letters HTTP/1.1\r\nHost: localhost\r\n\r\n")
            answer = connection.recv(4_096)
            while not answer.endswith(b"}"):
                answer += connection.recv(4_096)
            self.assertTrue(answer.startswith(b"HTTP/1.1 404 "))
            connection.sendall(end)
            connections.append(connection)
        with socket.create_connection(("127.0.0.1", server.port), PATIENCE) as listener:
            listener.sendall(b"GET /events HTTP/1.1\r\nHost: localhost\r\n\r\n")
            heard = b""
            while b"listening" not in heard:
                heard += listener.recv(4_096)
            for connection in connections:
                # (it is looked at each 30 seconds)
                connection.settimeout(2 * PATIENCE)
                self.assertEqual(connection.recv(1), b"")
            # (a running request isn't closed)
            listener.settimeout(PATIENCE)
            while b"still here" not in heard:
                part = listener.recv(4_096)
                self.assertNotEqual(part, b"")
                heard += part


def page(start, *ids, total=4):
    """A page of advisories."""
    records = [{"cve": {"id": id, "lastModified": "2024-01-01T00:00:00.000"}} for id in ids]
    return {"startIndex": start, "resultsPerPage": len(records), "totalResults": total, "vulnerabilities": records}


class EventsTest(ServiceCase):
    def listen(self, server, head="", method="GET"):
        connection = socket.create_connection(("127.0.0.1", server.port), PATIENCE)
        self.addCleanup(connection.close)
        connection.sendall(f"{method} /events HTTP/1.1\r\nHost: localhost\r\n{head}\r\n".encode())
        return connection

    def listeners(self, server):
        return int(re.search(r"^cpe_listeners (\d+)$", server.ask("GET", "/metrics")[1], re.M)[1])

    def test_head_listens_to_nothing(self):
        server = self.server()
        with self.listen(server, method="HEAD").makefile("rb") as answer:
            self.assertIn(b"200 OK", answer.readline())
            while answer.readline() != b"\r\n":
                pass
        self.assertEqual(self.listeners(server), 0)

    def test_no_client_takes_the_place_of_all_others(self):
        (self.folder / "data").mkdir()
        one, other = (tokens.add(self.folder / "data", name, False) for name in "ab")
        server = self.server()
        found = [self.listen(server, f"Authorization: Bearer {one}\r\n") for _ in range(101)]
        statuses = [connection.recv(12) for connection in found]
        self.assertEqual((statuses.count(b"HTTP/1.1 200"), statuses.count(b"HTTP/1.1 503")), (100, 1))
        self.assertEqual(self.listen(server, f"Authorization: Bearer {other}\r\n").recv(12), b"HTTP/1.1 200")
        for connection in found:
            connection.close()
        end = time.monotonic() + PATIENCE
        while self.listen(server, f"Authorization: Bearer {one}\r\n").recv(12) != b"HTTP/1.1 200":
            self.assertLess(time.monotonic(), end)
            time.sleep(0.1)

    def test_a_number_above_the_last_change_is_said(self):
        server = self.with_samples()
        server.put("m", "cpe:/a:ntp:ntp:4.2.8")
        last = server.ask("GET", "/changes")[1]["changes"][-1]["id"]
        for head in ("Last-Event-ID: 500\r\n", ""):
            with self.listen(server, head).makefile("rb") as lines:
                while not (line := lines.readline()).startswith(b": listening"):
                    pass
                self.assertEqual(line, f": listening behind {last}\n".encode())
                server.ask("DELETE", "/machines/m") if head else server.put("m", "cpe:/a:ntp:ntp:4.2.8")
                found = b""
                while b"event: change" not in found:
                    found += lines.readline()
                self.assertEqual(found.count(b'event: restored\ndata: {"behind": 500, "last": %d}' % last), 1 if head else 0)
                last += 1


# A list of eight million empty components is put where there are 300 MiB, and another one after it.
BOMB = """
import sys
from pathlib import Path
from cpe_service import database, keeper
keeper.limit_memory(300 << 20)
folder = Path(sys.argv[1])
database.create(folder)
keeps, put = keeper.Keeper(folder), {"do": "put", "name": "m", "client": "x"}
answer = keeps.answer(put, b'{"bomFormat":"CycloneDX","components":[' + b"{}," * (8 << 20) + b"{}]}")
print(answer, "edit" in keeps.answer(put, b"cpe:/a:ntp:ntp:4.2.8"))
"""


class MemoryTest(ServiceCase):
    def test_what_takes_more_memory_than_there_is_is_refused(self):
        run = subprocess.run(
            [sys.executable, "-B", "-c", BOMB, str(self.folder)], cwd=ROOT / "service", capture_output=True, text=True, timeout=PATIENCE
        )
        self.assertEqual(run.stdout, "{'refused': 'reading it takes more memory than the service gives'} True\n", run.stderr)

    def test_the_keepers_have_a_limit(self):
        server = self.server()
        server.put("m", "cpe:/a:ntp:ntp:4.2.8")
        for pid in server.children("cpe_service.keeper"):
            self.assertEqual(resource.prlimit(pid, resource.RLIMIT_AS)[0], 4 << 30)

    def test_where_no_process_may_limit_itself_it_serves_without(self):
        fault = PermissionError(1, "Operation not permitted")
        with mock.patch.object(resource, "setrlimit", side_effect=fault), mock.patch("sys.stderr", io.StringIO()) as said:
            keeper.limit_memory()
        self.assertIn("the memory of a keeper has no limit: ", said.getvalue())

    def test_all_members_of_an_archive_have_a_limit_together(self):
        data = io.BytesIO()
        with zipfile.ZipFile(data, "w") as archive:
            for number in range(4):
                archive.writestr(f"{number}.json", json.dumps(page(0, f"CVE-{number}", total=1)))
        size = len(json.dumps(page(0, "CVE-0", total=1)))
        for most, word in ((4 * size, "state"), (4 * size - 1, "refused")):
            folder = Path(tempfile.mkdtemp(dir=self.folder))
            database.create(folder)
            with mock.patch.object(feeds, "_LIMITS", dataclasses.replace(feeds._LIMITS, most_of_all=most)):
                answer = keeper.Keeper(folder).answer(FEED, data.getvalue())
            self.assertIn(word, answer)
        self.assertEqual(answer, {"refused": f"all of it unpacks to more than {most:,} bytes"})


class AgainTest(ServiceCase):
    def test_what_is_asked_again_has_its_first_answer(self):
        """This holds even if a keeper is killed between its commit and its answer."""
        folder = self.folder / "data"
        folder.mkdir()
        database.create(folder)
        all_of_it, part = (json.dumps(page(0, "CVE-1", total=total)).encode() for total in (1, 2))
        for number, (message, body) in enumerate((
            ({"do": "put", "name": "m"}, b"cpe:/a:ntp:ntp:4.2.8"),
            ({"do": "table", "name": "suppress"}, b"CVE-1 * reason"),
            ({"do": "delete", "name": "m"}, b""),
            ({"do": "feed", "name": "", "is_whole": False}, all_of_it),
            ({"do": "feed", "name": "x", "is_whole": False}, part),
            ({"do": "drop", "feed": 2}, b""),
        )):
            with self.subTest(do=message["do"]):
                message |= {"client": "x", "id": str(number), "keeper": "lists"}
                first = keeper.Keeper(folder).answer(message, body)
                self.assertFalse({"refused", "fault"} & set(first) or first == {"missing": True}, first)
                keeps = keeper.Keeper(folder)
                edits = keeps._database.execute("SELECT count(*) FROM edits").fetchone()[0]
                self.assertEqual(keeps.answer(message, body), first)
                self.assertEqual(keeps._database.execute("SELECT count(*) FROM edits").fetchone()[0], edits)
                if message["do"] in ("put", "delete", "drop"):
                    self.assertNotEqual(keeps.answer(message | {"id": "other"}, body), first)


class FeedsTest(ServiceCase):
    def test_pages_of_two_fetches_are_never_one_feed(self):
        server = self.server()
        for query in ({}, {"whole": "true"}):
            status, value = server.feed(page(2, "CVE-1-3", "CVE-1-4"), **query)
            self.assertEqual((status, value["detail"].partition(": ")[2][:34]), (422, "give the pages of a fetch a name ("))
        self.assertEqual(server.feed(page(2, "CVE-1-3", "CVE-1-4"), feed="yesterday")[1]["state"], "waiting")
        self.assertEqual(server.feed(page(0, "CVE-2-1", "CVE-2-2"), feed="today")[1]["state"], "waiting")
        value = server.feed(page(2, "CVE-2-3", "CVE-2-4"), feed="today")[1]
        self.assertEqual((value["state"], value["records"]), ("counts", 4))
        # (all pages in one file belong to one fetch)
        self.assertEqual(server.feed("".join(map(json.dumps, (page(2, "CVE-3-3", "CVE-3-4"), page(0, "CVE-3-1", "CVE-3-2")))))[1]["state"], "counts")
        self.assertEqual([one["name"] for one in server.ask("GET", "/health")[1]["feedsWaiting"]], ["yesterday"])

    def test_a_page_that_is_sent_again_is_answered_by_its_feed(self):
        server = self.server()
        server.feed(page(0, "CVE-1-1", "CVE-1-2"), feed="x")
        value = server.feed(page(2, "CVE-1-3", "CVE-1-4"), feed="x")[1]
        again = server.feed(page(2, "CVE-1-3", "CVE-1-4"), feed="x")[1]
        self.assertEqual(again, value | {"new": 0})
        self.assertEqual(server.ask("GET", "/health")[1]["feedsWaiting"], [])
        status, value = server.feed(page(0, "CVE-1-5", "CVE-1-6"), feed="x")
        self.assertEqual((status, value["detail"]), (422, "all pages of x were there, as feed 1: another fetch needs another name"))

    def test_a_feed_that_waits_is_given_up(self):
        server = self.server()
        number = server.feed(page(0, "CVE-1-1", "CVE-1-2"), feed="x")[1]["feed"]
        status, value = server.feed(page(2, "CVE-1-3", "CVE-1-4"), feed="x", whole="true")
        self.assertEqual((status, value["detail"]), (422, "the other pages of x were sent without whole=true"))
        with contextlib.closing(sqlite3.connect(server.folder / "service.db")) as database, database:
            database.execute("UPDATE feeds SET at = at - 3601")
        value = server.feed(page(2, "CVE-1-3", "CVE-1-4"), feed="x")[1]
        self.assertEqual(value["remarks"], [f"feed {number}, of which pages are missing, is given up, since no page of it arrived for 60 minutes"])
        self.assertEqual((value["state"], value["records"]), ("waiting", 2))
        self.assertEqual(server.ask("DELETE", f"/feeds/{value['feed']}"), (200, {"feed": value["feed"], "state": "removed"}))
        self.assertEqual(server.ask("DELETE", f"/feeds/{value['feed']}")[0], 404)
        self.assertEqual(server.ask("GET", "/health")[1]["feedsWaiting"], [])

    def test_what_replaces_all_of_its_kind_says_that_it_is_all(self):
        server = self.server()
        server.feed(feed("vulnerabilities", {"cve": {"id": "CVE-1"}}))
        status, value = server.feed({"vulnerabilities": [{"cve": {"id": "CVE-2"}}]}, whole="true")
        self.assertEqual((status, value["detail"][:39]), (422, "whole=true needs pages with totalResults"[:39]))
        self.assertEqual(server.feed(feed("vulnerabilities"), whole="true")[0], 422)
        value = server.feed({"vulnerabilities": [{"cve": {"id": "CVE-2"}}]})[1]
        self.assertEqual((value["state"], value["remarks"]), ("counts", ["no totalResults, so it isn't known whether this is all of the feed"]))

    def test_a_feed_is_packed_while_others_may_write(self):
        keeps = self.keeper()
        pack, seen = feeds.pack, []

        def packs(data):
            seen.append(keeps._database.in_transaction)
            return pack(data)

        with mock.patch.object(feeds, "pack", packs), mock.patch.object(feeds, "_CHUNK", 2):
            self.assertEqual(self.keep(keeps, page(0, "CVE-1", "CVE-2", "CVE-3", total=3))["state"], "counts")
        self.assertEqual(seen, [False] * 3)

    def test_which_record_counts_is_the_same_if_the_database_says_it_first(self):
        times = ["", "no time", "2024-01-01", "2023-12-31T23:59:59.999"]
        times += ["0000-01-01T00:00:00.000", "2024-02-31T00:00:00.000", "2024-01-01T24:00:00.000"]
        times += [f"2024-01-0{day}T00:00:00{end}" for day in (1, 2) for end in ("", ".000", ".000Z", ".001", ".000+01:00", ".0000", "Z", ".000ZZ")]
        both = [(first, second, text) for first in times for second in times for text in "xy"]
        found = []
        for older in (feeds._OLDER, "SELECT 0"):
            keeps = self.keeper()
            with mock.patch.object(feeds, "_OLDER", older):
                for turn in (0, 1):
                    texts = [one[2] if turn else "x" for one in both]
                    cves = [{"id": f"CVE-{k}", "lastModified": one[turn], "text": texts[k]} for k, one in enumerate(both)]
                    records = [{"cve": cve} for cve in cves]
                    self.assertEqual(self.keep(keeps, feed("vulnerabilities", *records))["state"], "counts")
            found.append([tuple(row) for row in keeps._database.execute("SELECT key, modified, body FROM records ORDER BY id")])
        self.assertEqual(found[0], found[1])

    def test_what_was_written_of_a_file_that_is_refused_is_removed(self):
        keeps = self.keeper()
        answer = keeps.answer(FEED, b"".join(json.dumps(one).encode() for one in (page(0, "CVE-1", total=1), {"vulnerabilities": 1})))
        self.assertIn("refused", answer)
        self.assertEqual([keeps._database.execute(f"SELECT count(*) FROM {table}").fetchone()[0] for table in ("feeds", "records")], [0, 0])
        # (and the remains of a killed process are removed when they are old)
        keeps._database.execute("INSERT INTO feeds (kind, name, is_whole, state, at) VALUES ('advisories', '', 0, 'arriving', 0)")
        self.assertEqual(self.keep(keeps, page(0, "CVE-1", total=1))["remarks"], [])
        self.assertEqual(keeps._database.execute("SELECT count(*) FROM feeds").fetchone()[0], 1)

    def test_a_file_that_takes_too_long_never_counts_in_part(self):
        keeps = self.keeper()
        # (another process may remove it, because nobody seems to write it any more)
        with mock.patch.object(feeds, "_SECONDS_WAITING", -10):
            answer = self.keep(keeps, page(0, "CVE-1", total=1))
        self.assertEqual(answer, {"refused": "reading it took too long, and what was read is given up: send it again"})
        self.assertEqual(keeps._database.execute("SELECT count(*) FROM edits").fetchone()[0], 0)

    def test_pages_and_records_in_one_file(self):
        keeps, record = self.keeper(), {"dataType": "CVE_RECORD", "dataVersion": "5.1", "cveMetadata": {"cveId": "CVE-9", "state": "PUBLISHED"}}
        record["containers"] = {"cna": {"affected": []}}
        data = json.dumps(record).encode()
        answer = keeps.answer(FEED, data)
        self.assertEqual((answer["state"], answer["remarks"]), ("counts", []))
        self.assertIn("those of startIndex 1 to 1 are missing", keeps.answer(FEED, data + json.dumps(page(0, "CVE-1", total=2)).encode())["refused"])
        self.assertIn("whole=true needs", keeps.answer(FEED | {"is_whole": True}, data)["refused"])

    def keeper(self):
        folder = Path(tempfile.mkdtemp(dir=self.folder))
        database.create(folder)
        return keeper.Keeper(folder)

    def keep(self, keeps, value):
        return keeps.answer(FEED, json.dumps(value).encode())


if __name__ == "__main__":
    unittest.main()
