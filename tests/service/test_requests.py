"""Bad requests in one table: each is refused by its name, and nothing changes. And the permissions and limits of
clients."""
import base64
import gzip
import json
import socket
import subprocess
import sys
import unittest

from service_case import ROOT, SAMPLES, ServiceCase, feed

RANGES = SAMPLES / "ranges"
LIST = "cpe:2.3:a:openssl:openssl:1.0.2k:*:*:*:*:*:*:*\n"
DEEP = "[" * 10_000 + "]" * 10_000
HOSTILE = "<script>alert(1)</script>"
SQL = "x' OR '1'='1"

# Of each request the method, the path and the body, and of its answer the status and a part of the sentence.
REFUSED = (
    # names of machines
    ("PUT", "/machines/..", LIST, 400, "machine is not the name of a machine"),
    ("PUT", "/machines/%2e%2e%2f%2e%2e%2fetc%2fpasswd", LIST, 404, "no such address"),
    ("PUT", "/machines/../../etc/passwd", LIST, 404, "no such address"),
    ("PUT", "/machines/..%5c..%5cwin.ini", LIST, 400, "machine is not"),
    ("PUT", "/machines/.hidden", LIST, 400, "machine is not"),
    ("PUT", "/machines/a%00b", LIST, 400, "machine is not"),
    ("PUT", "/machines/a%0Ab", LIST, 400, "machine is not"),
    ("PUT", "/machines/a%20b", LIST, 400, "machine is not"),
    ("PUT", "/machines/%FF%FE", LIST, 400, "machine is not"),
    ("PUT", "/machines/%3Cscript%3E", LIST, 400, "machine is not"),
    ("PUT", "/machines/x%27%20OR%201=1--", LIST, 400, "machine is not"),
    ("PUT", f"/machines/{'m' * 201}", LIST, 400, "machine has 201 characters"),
    ("PUT", "/machines/", LIST, 404, "no such address"),
    ("PUT", "/machines", LIST, 405, "PUT isn't taken here"),
    ("DELETE", "/machines/none", None, 404, "there is no machine none"),
    ("GET", "/machines/none", None, 404, "there is no machine none"),
    # lists
    ("PUT", "/machines/new", "", 422, "the body is empty"),
    ("PUT", "/machines/new", " \n ", 422, "it is empty"),
    ("PUT", "/machines/new", "nothing like a list", 422, ""),
    ("PUT", "/machines/new", DEEP, 422, "nested too deep"),
    ("PUT", "/machines/new", '{"bomFormat":"CycloneDX","components":' + DEEP + "}", 422, "nested too deep"),
    ("PUT", "/machines/new", "{", 422, "no JSON"),
    ("PUT", "/machines/new", "[]", 422, "no software list"),
    ("PUT", "/machines/new", '{"a":1}', 422, "neither CycloneDX nor SPDX"),
    ("PUT", "/machines/new", '{"bomFormat":"CycloneDX","bomFormat":"CycloneDX","components":[]}', 422, "twice"),
    ("PUT", "/machines/new", b"\xff\xfe\x00", 422, "UTF-16"),
    ("PUT", "/machines/new", b'{"bomFormat":"CycloneDX","name":"\xff"}', 422, "no UTF-8"),
    ("PUT", "/machines/new", "<bom/>", 422, "XML is not read"),
    ("PUT", "/machines/new", gzip.compress(b"x" * 100)[:20], 422, "can not be unpacked"),
    ("PUT", "/machines/new", gzip.compress(bytes(32 << 20)), 422, "unpacks to more than"),
    # feeds
    ("POST", "/feeds", "", 422, "the body is empty"),
    ("POST", "/feeds", "{}", 422, "neither products"),
    ("POST", "/feeds", DEEP, 422, "nested too deep"),
    ("POST", "/feeds", '{"format":"NVD_CVE","version":"9.0","vulnerabilities":[]}', 422, "its version is 9.0"),
    ("POST", "/feeds", '{"products":[],"totalResults":-1}', 422, "no count"),
    ("POST", "/feeds", '{"products":[],"totalResults":5}', 422, "no startIndex"),
    ("POST", "/feeds", '{"products":[{}],"totalResults":5,"startIndex":0,"resultsPerPage":3}', 422, "it says that it has 3"),
    ("POST", "/feeds", '{"CVE_Items":[]}', 422, "format 1.1"),
    ("POST", "/feeds", b"PK\x03\x04 no archive", 422, "can not be unpacked"),
    ("POST", "/feeds", '{"products":[]}{"vulnerabilities":[]}', 422, "a feed has one kind"),
    ("POST", "/feeds", '{"products":[{}],"totalResults":2,"startIndex":1}', 422, "startIndex 0 to 0 are missing: give the pages of a fetch a name"),
    ("POST", "/feeds?whole=true", '{"products":[{}]}', 422, "whole=true needs pages with totalResults"),
    ("POST", "/feeds?whole=true", '{"products":[],"totalResults":0,"startIndex":0}', 422, "would remove all of its kind"),
    ("DELETE", "/feeds/1", None, 404, "no feed 1 waits for pages"),
    ("DELETE", "/feeds/x", None, 400, "number is not"),
    ("POST", "/feeds?whole=yes", "{}", 400, "whole is not"),
    ("POST", "/feeds?whole=true&whole=false", "{}", 400, "whole is given twice"),
    ("POST", "/feeds?feed=../x", "{}", 400, "feed is not"),
    ("POST", "/feeds?path=/etc/passwd", "{}", 400, "there is no parameter 'path'"),
    # tables
    ("PUT", "/tables/passwd", "x", 400, "table is not"),
    ("PUT", "/tables/suppress", "CVE-1", 422, ""),
    ("PUT", "/tables/settled", "m CVE-1 PERHAPS x", 422, "line 1"),
    ("PUT", "/tables/names", "no line", 422, "line 1"),
    ("PUT", "/tables/letters", b"\xff", 422, "no UTF-8"),
    ("GET", "/tables/names", None, 404, "no table names was given"),
    # queries
    ("GET", "/machines?limit=0", None, 400, "limit is not"),
    ("GET", "/machines?limit=1001", None, 400, "limit is not"),
    ("GET", "/machines?limit=-1", None, 400, "limit is not"),
    ("GET", "/machines?limit=1e3", None, 400, "limit is not"),
    ("GET", "/machines?limit=%D9%A1", None, 400, "limit is not"),
    ("GET", "/machines?limit=1&limit=2", None, 400, "limit is given twice"),
    ("GET", "/machines?offset=9999999999", None, 400, "offset has 10 characters"),
    ("GET", "/machines?nothing=1", None, 400, "there is no parameter 'nothing'"),
    ("GET", f"/machines?q={'q' * 301}", None, 400, "q has 301 characters"),
    ("GET", f"/machines?q={'q' * 9000}", None, 414, "the query has"),
    ("GET", "/machines?q=%FF", None, 400, "no UTF-8"),
    ("GET", "/machines?q=a%00", None, 400, "q is not"),
    ("GET", "/machines?" + "&".join(f"a{number}=1" for number in range(60)), None, 400, "more than 50"),
    ("GET", f"/machines?kind={SQL.replace(' ', '%20')}", None, 400, "kind"),
    ("GET", "/machines/known?kind=FALSE", None, 400, "kind is not"),
    ("GET", "/changes?since=yesterday", None, 400, "since is not"),
    ("GET", "/changes?since=2024-13-45", None, 400, "since is no time"),
    ("GET", "/changes?after=-1", None, 400, "after is not"),
    ("GET", "/changes?after=99999999999999999999", None, 400, "after has 20 characters"),
    ("GET", "/names?q=a%00", None, 400, "q is not"),
    ("GET", "/name", None, 400, "cpe is missing"),
    ("GET", "/name?cpe=no", None, 400, "cpe is no CPE name"),
    ("GET", "/name?cpe=cpe:/a:x%0Acpe:/a:y", None, 400, "cpe is not"),
    ("GET", "/name?cpe=cpe:/a:x&with=no", None, 400, "with is no CPE name"),
    ("GET", f"/name?cpe=cpe:/a:{'x' * 2000}", None, 400, "cpe has"),
    ("GET", "/advisories/none", None, 404, "the feeds have no advisory none"),
    ("GET", f"/advisories/{SQL.replace(' ', '%20')}", None, 404, "the feeds have no advisory"),
    ("GET", "/certificates/known/none", None, 404, "there is no verdict of none"),
    ("GET", "/certificates/none/CVE-1", None, 404, "there is no machine none"),
    ("GET", "/certificates/known", None, 404, "no such address"),
    ("GET", "/events?after=x", None, 400, "after is not"),
    # addresses
    ("GET", "/nothing", None, 404, "no such address"),
    ("GET", "/assets/../app.py", None, 404, "no such address"),
    ("GET", "/assets/%2e%2e/app.py", None, 404, "no such address"),
    ("GET", "/../../../etc/passwd", None, 404, "no such address"),
    ("POST", "/machines", "x", 405, "POST isn't taken here"),
    ("DELETE", "/feeds", None, 405, "DELETE isn't taken here"),
)


class RefusedTest(ServiceCase):
    def test_each_is_refused_by_its_name_and_changes_nothing(self):
        server = self.with_samples()
        self.assertEqual(server.put("known", LIST)[0], 201)
        server.settled()
        before = self.state(server)
        for method, path, body, status, sentence in REFUSED:
            with self.subTest(method=method, path=path[:80], body=str(body)[:40]):
                got, value = server.ask(method, path, body)
                self.assertEqual((got, value.get("status")), (status, status), value)
                self.assertIn(sentence, value["detail"])
                self.assertEqual(set(value), {"type", "title", "status", "detail"})
        self.assertEqual(self.state(server), before)
        self.assertEqual({path.name.partition("-")[0] for path in server.folder.iterdir()}, {"service.db", "names.db", "lock", "claims", "turn"})

    def state(self, server):
        return [server.ask("GET", path)[1] for path in ("/machines", "/advisories", "/changes?limit=1000", "/machines/known?limit=1000")]

    def test_what_is_long_is_refused_before_it_is_read(self):
        server = self.server("--most-list", "1000", "--most-feed", "2000", "--rate", "10000")
        status, value = server.put("m", "x" * 1001)
        self.assertEqual((status, value["detail"]), (413, "the body has more than 1,000 bytes"))
        self.assertEqual(server.feed("x" * 2001)[0], 413)
        # (of a body with a declared length of 200 MB nothing is read)
        with socket.create_connection(("127.0.0.1", server.port), 10) as connection:
            head = b"PUT /machines/m HTTP/1.1\r\nHost: localhost\r\nContent-Length: 209715200\r\nExpect: 100-continue\r\n\r\n"
            connection.sendall(head)
            self.assertTrue(connection.recv(100).startswith(b"HTTP/1.1 413 "))
        # (and of one without a declared length no more than the limit)
        chunk = b"3e8\r\n" + b"x" * 1000 + b"\r\n"
        with socket.create_connection(("127.0.0.1", server.port), 10) as connection:
            head = b"PUT /machines/m HTTP/1.1\r\nHost: localhost\r\nTransfer-Encoding: chunked\r\n\r\n"
            connection.sendall(head + 9_000 * chunk + b"0\r\n\r\n")
            self.assertTrue(connection.recv(100).startswith(b"HTTP/1.1 413 "))
        self.assertEqual(server.put("m", "x" * (50 << 20))[0], 413)
        self.assertEqual(server.ask("GET", "/machines")[1]["total"], 0)

    def test_what_is_no_http_is_refused(self):
        server = self.server()
        for line in (b"\x16\x03\x01\x02\x00\x01\x00", b"GET / HTTP/9\r\n\r\n", b"GET /" + b"x" * 100_000 + b" HTTP/1.1\r\n\r\n", b"\r\n" * 10):
            with socket.create_connection(("127.0.0.1", server.port), 10) as connection:
                connection.sendall(line)
                connection.shutdown(socket.SHUT_WR)
                answer = connection.recv(1000)
                self.assertTrue(answer == b"" or answer.startswith(b"HTTP/1.1 400 "), answer)
        self.assertEqual(server.ask("GET", "/health")[0], 200)

    def test_titles_and_ids_that_are_html_stay_text(self):
        server = self.server()
        hostile = "CVE-<img/src=x/onerror=alert(1)>"
        name = "cpe:2.3:a:acme:agent:1.0:*:*:*:*:*:*:*"
        match = {"vulnerable": True, "criteria": name, "matchCriteriaId": "1"}
        cve = {"id": hostile, "descriptions": [{"lang": "en", "value": HOSTILE}]}
        cve["configurations"] = [{"nodes": [{"operator": "OR", "cpeMatch": [match]}]}]
        self.assertEqual(server.feed(feed("products", {"cpe": {"cpeName": name, "titles": [{"lang": "en", "title": HOSTILE}]}}))[0], 202)
        self.assertEqual(server.feed(feed("vulnerabilities", {"cve": cve}))[0], 202)
        self.assertEqual(server.put("m", name)[1]["counts"], {"TRUE": 1})
        _, value = server.ask("GET", "/advisories?q=%3Cimg")
        self.assertEqual([one["id"] for one in value["advisories"]], [hostile])
        quoted = "CVE-%3Cimg%2Fsrc%3Dx%2Fonerror%3Dalert(1)%3E"
        for path in ("/machines", "/machines/m", "/advisories", f"/advisories/{quoted}", "/changes", f"/certificates/m/{quoted}",
                     "/names?q=alert", "/machines?q=%3Cscript"):
            with self.subTest(path=path):
                status, data, kind = server.asked("GET", path, Accept="text/html")
                self.assertEqual((status, kind), (200, "text/html; charset=utf-8"))
                self.assertNotIn(b"<script>", data)
                self.assertNotIn(b"<img", data)


class ClientsTest(ServiceCase):
    def token(self, name, *words):
        run = subprocess.run(
            [sys.executable, "-B", "-m", "cpe_service", "token", name, "--data", str(self.folder / "data"), *words],
            cwd=ROOT / "service", capture_output=True, text=True, check=True,
        )
        return run.stdout.strip()

    def test_tokens(self):
        write, read = self.token("scanner"), self.token("page", "--read")
        server = self.server()
        ask = lambda method, path, body=None, **headers: server.ask(method, path, body, **headers)[0]
        self.assertEqual(ask("GET", "/machines"), 401)
        self.assertEqual(ask("GET", "/machines", Authorization="Bearer no"), 401)
        self.assertEqual(ask("GET", "/machines", Authorization=f"Bearer {read}"), 200)
        basic = base64.b64encode(f"who:{read}".encode()).decode()
        self.assertEqual(ask("GET", "/machines", Authorization=f"Basic {basic}"), 200)
        self.assertEqual(ask("GET", "/machines", Authorization="Basic ***"), 401)
        for method, path in (("PUT", "/machines/m"), ("DELETE", "/machines/m"), ("POST", "/feeds"), ("PUT", "/tables/names")):
            self.assertEqual(ask(method, path, "x", Authorization=f"Bearer {read}"), 403)
        self.assertEqual(ask("PUT", "/machines/m", LIST, Authorization=f"Bearer {write}"), 202)
        tokens = (self.folder / "data" / "tokens").read_text()
        self.assertNotIn(write, tokens)
        # (a removed token isn't valid any more, without a restart)
        (self.folder / "data" / "tokens").write_text("".join(line + "\n" for line in tokens.splitlines() if not line.startswith("scanner")))
        self.assertEqual(ask("PUT", "/machines/m", LIST, Authorization=f"Bearer {write}"), 401)
        (self.folder / "data" / "tokens").write_text("no line\n")
        self.assertEqual(ask("GET", "/machines", Authorization=f"Bearer {read}"), 503)
        (self.folder / "data" / "tokens").unlink()
        self.assertEqual((ask("GET", "/machines"), ask("GET", "/machines", Authorization=f"Bearer {read}")), (401, 401))

    def test_no_other_address_without_tokens(self):
        run = subprocess.run(
            [sys.executable, "-B", "-m", "cpe_service", "--data", str(self.folder / "data"), "--host", "0.0.0.0"],
            cwd=ROOT / "service", capture_output=True, text=True, timeout=60,
        )
        self.assertEqual(run.returncode, 1)
        self.assertIn("has no tokens", run.stderr)

    def test_pages_of_other_servers_can_change_nothing(self):
        server = self.server()
        for origin in ("http://evil.example", "null", "https://localhost"):
            status, value = server.ask("POST", "/feeds", "{}", Origin=origin)
            self.assertEqual((status, value["detail"]), (403, "the request was sent by a page of another server"))
        status, _ = server.ask("GET", "/machines", Host="evil.example")
        self.assertEqual(status, 421)

    def test_rates(self):
        server = self.server("--rate", "5")
        found = [server.ask("GET", "/health")[0] for _ in range(30)]
        self.assertEqual(found[:10], [200] * 10)
        self.assertIn(429, found)

    def test_a_page_at_a_time(self):
        server = self.with_samples()
        for number in range(7):
            server.put(f"m-{number}", LIST)
        found, path = [], "/machines?limit=3&q=m-"
        while path:
            status, value = server.ask("GET", path)
            self.assertEqual((status, value["total"]), (200, 7))
            found += [one["name"] for one in value["machines"]]
            path = value.get("next")
        self.assertEqual(found, [f"m-{number}" for number in range(7)])

    def test_openapi_has_each_address(self):
        status, value = self.server().ask("GET", "/openapi.json")
        self.assertEqual(status, 200)
        self.assertEqual(len(value["paths"]), 15)
        for path, operations in value["paths"].items():
            for operation in operations.values():
                named = {one["name"] for one in operation["parameters"] if one["in"] == "path"}
                self.assertEqual(named, {part[1:-1] for part in path.split("/") if part.startswith("{")}, path)


if __name__ == "__main__":
    unittest.main()
