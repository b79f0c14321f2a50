"""Shared by the tests of the service: a server over a fresh data folder, requests to it, and scan.py over the same
files."""
import http.client
import json
import os
import re
import shutil
import signal
import subprocess
import sys
import tempfile
import time
import unittest
import urllib.parse
from pathlib import Path

ROOT = Path(__file__).resolve().parents[2]
SAMPLES = ROOT / "recipes" / "samples"
CPE = shutil.which(os.environ.get("CPE", "cpe"))
# How long a test waits for something that has to happen.
PATIENCE = 60


def feed(kind, *records):
    """A page that is a whole feed."""
    return {"startIndex": 0, "resultsPerPage": len(records), "totalResults": len(records), kind: list(records)}


class Server:
    """A server that runs, with a token that may do all if it has tokens."""

    def __init__(self, folder, *words, limit=None):
        self.folder, self.words, self._limit = Path(folder), words, limit
        self.start()

    def start(self):
        """Starts it on a port that is free."""
        words = [sys.executable, "-B", "-m", "cpe_service", "--data", str(self.folder), "--port", "0", *self.words]
        environment = {**os.environ, "CPE": CPE}
        before = (lambda: self._limit()) if self._limit else None
        self.run = subprocess.Popen(
            words, cwd=ROOT / "service", env=environment, stdout=subprocess.PIPE, stderr=subprocess.STDOUT, text=True, preexec_fn=before
        )
        self.said = self.run.stdout.readline()
        found = re.search(r":(\d+)/", self.said)
        if found is None:
            raise RuntimeError(self.said + self.run.stdout.read())
        self.port = int(found[1])

    def kill(self, number=signal.SIGKILL):
        """Ends the server by a signal. (Another thread may start the next one as soon as it ended.)"""
        run = self.run
        run.send_signal(number)
        run.wait(PATIENCE)
        run.stdout.close()

    def children(self, word=""):
        """The processes of the server, and of its processes, whose command has this word."""
        found, waiting = [], [self.run.pid]
        while waiting:
            pid = waiting.pop()
            listed = Path(f"/proc/{pid}/task/{pid}/children")
            below = [int(one) for one in listed.read_text().split()] if listed.exists() else []
            waiting += below
            found += below
        return [pid for pid in found if word in _command(pid)]

    def ask(self, method, path, body=None, **headers):
        """The status of an answer, and its value."""
        status, data, kind = self.asked(method, path, body, **headers)
        return status, json.loads(data) if "json" in kind else data.decode()

    def asked(self, method, path, body=None, **headers):
        """The status of an answer, its bytes, and of what kind they are."""
        connection = http.client.HTTPConnection("127.0.0.1", self.port, timeout=PATIENCE)
        try:
            if isinstance(body, (dict, list)):
                body = json.dumps(body)
            data = body.encode() if isinstance(body, str) else body
            connection.request(method, path, data, {key.replace("_", "-"): value for key, value in headers.items()})
            answer = connection.getresponse()
            return answer.status, answer.read(), answer.headers.get("Content-Type", "")
        except http.client.HTTPException as fault:
            # (the server may be killed between the head of an answer and the rest)
            raise ConnectionError(f"the answer is cut off: {fault}") from fault
        finally:
            connection.close()

    def put(self, name, data):
        return self.ask("PUT", f"/machines/{urllib.parse.quote(name)}", data)

    def feed(self, data, **query):
        return self.ask("POST", f"/feeds?{urllib.parse.urlencode(query)}", data)

    def settled(self):
        """The health of the server, when everything accepted is judged."""
        end = time.monotonic() + PATIENCE
        while time.monotonic() < end:
            status, value = self.ask("GET", "/health")
            if status == 200 and not value["waiting"] and value["groundIsRead"]:
                return value
            time.sleep(0.05)
        raise AssertionError(f"it isn't done: {value}")


def _command(pid):
    try:
        return Path(f"/proc/{pid}/cmdline").read_bytes().replace(b"\0", b" ").decode()
    except OSError:
        return ""


@unittest.skipUnless(CPE, "there is no cpe")
class ServiceCase(unittest.TestCase):
    """A test with a folder of its own."""

    maxDiff = 5_000

    def setUp(self):
        folder = tempfile.TemporaryDirectory()
        self.addCleanup(folder.cleanup)
        self.folder = Path(folder.name)
        self.servers = []
        self.addCleanup(self.end)

    def end(self):
        for server in self.servers:
            if server.run.poll() is None:
                server.kill()

    def server(self, *words, name="data", **how):
        """A server over a data folder."""
        server = Server(self.folder / name, *(words or ("--rate", "100000", "--workers", "1")), **how)
        self.servers.append(server)
        return server

    def with_samples(self, sample="ranges", *words):
        """A server that has the feeds of a sample."""
        server = self.server(*words)
        for name in ("dictionary", "advisories", "matches"):
            path = SAMPLES / sample / f"{name}.json"
            if path.exists():
                self.assertEqual(server.feed(path.read_bytes())[0], 202)
        return server

    def scanned(self, lists, dictionary, advisories, matches=(), **tables):
        """The machines of scan.py over files, by their names, and the result. The lists are bytes, by the names of
        machines."""
        folder = Path(tempfile.mkdtemp(dir=self.folder))
        words = ["--dictionary", *map(str, dictionary), "--advisories", *map(str, advisories)]
        words += ["--matches", *map(str, matches)] if matches else []
        for name, text in tables.items():
            path = folder / f"{name}.table"
            path.write_text(text)
            words += [f"--{name}", str(path)]
        paths = []
        for name, data in lists.items():
            path = folder / name
            path.write_bytes(data)
            paths.append(str(path))
        run = subprocess.run(
            [sys.executable, "-B", str(ROOT / "recipes" / "scan.py"), "--json", "--why", *words, "--lists", *paths],
            capture_output=True, text=True, env={**os.environ, "CPE": CPE}, stdin=subprocess.DEVNULL,
        )
        self.assertIn(run.returncode, (0, 1), run.stderr)
        value = json.loads(run.stdout)
        return {one["name"]: one for one in value["machines"]}, value

    def judged(self, server, name):
        """The service's result for a machine, in the form of scan.py."""
        status, value = server.ask("GET", f"/machines/{urllib.parse.quote(name)}?limit=1000")
        self.assertEqual((status, value["state"]), (200, "judged"), value)
        for key in ("state", "counts", "judged", "edit", "put", "leftOut", "remarks", "total"):
            value.pop(key)
        if "items" in value and not value["items"]:
            value.pop("verdicts")
        for one in value.get("verdicts", ()):
            one.pop("since")
        return value
