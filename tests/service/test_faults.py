"""Processes that are killed, disks that are full, folders that can only be read, and slow clients. Accepted data stays,
and each request is answered.

CPE_KILLS is how often a process is killed, and CPE_SEED the seed that decides which and when. CPE_MEGABYTES is the size
of a large list.
"""
import contextlib
import json
import os
import random
import resource
import shutil
import signal
import socket
import sqlite3
import subprocess
import sys
import threading
import time
import unittest
from pathlib import Path

from service_case import CPE, PATIENCE, ROOT, SAMPLES, ServiceCase, feed

KILLS, SEED = int(os.environ.get("CPE_KILLS", "8")), int(os.environ.get("CPE_SEED", "1"))
MEGABYTES = int(os.environ.get("CPE_MEGABYTES", "20"))
RANGES = SAMPLES / "ranges"
VERSIONS = ("0.9.8zh", "1.0.2k", "1.1.1", "3.0.7", "3.0.8", "8.9p1", "1.*", "*")
PRODUCTS = ("openssl:openssl", "openbsd:openssh", "proftpd:proftpd", "redis:redis", "ntp:ntp")


def drawn_list(draw):
    names = [f"cpe:2.3:a:{draw.choice(PRODUCTS)}:{draw.choice(VERSIONS)}:*:*:*:*:*:*:*" for _ in range(draw.randint(1, 5))]
    return "\n".join(names)


class Session:
    """Sends puts, deletes and feeds, one after the other, while processes are killed, and keeps the answered ones."""

    def __init__(self, case, draw):
        self.case, self.draw, self.lists, self.unsure = case, draw, {}, {}
        self.server = case.with_samples()
        self.advisories = [RANGES / "advisories.json"]
        self.windows = json.loads((RANGES / "advisories.json").read_bytes())["vulnerabilities"]

    def step(self):
        """A request, during which the kill may happen. A request without an answer may be accepted or not, and the
        server shows which."""
        name = f"m-{self.draw.randint(1, 5)}"
        does = self.draw.random()
        try:
            if does < 0.65:
                data = drawn_list(self.draw)
                self.unsure[name] = data
                status, value = self.server.put(name, data)
                if status in (200, 201, 202):
                    self.lists[name] = data
                    del self.unsure[name]
                else:
                    self.case.assertEqual(status, 503, value)
            elif does < 0.8 and name not in self.unsure and len(self.lists) > 1:
                self.unsure[name] = None
                status, value = self.server.ask("DELETE", f"/machines/{name}")
                if status in (200, 404):
                    self.lists.pop(name, None)
                    del self.unsure[name]
            else:
                self.window()
        except (OSError, ConnectionError, ValueError):
            pass

    def window(self):
        record = json.loads(json.dumps(self.draw.choice(self.windows)))
        record["cve"]["lastModified"] = f"2026-01-{self.draw.randint(10, 28)}T00:00:0{self.draw.randint(0, 9)}.000"
        path = self.server.folder / f"given-{len(self.advisories)}.json"
        path.write_text(json.dumps(feed("vulnerabilities", record)))
        # (until it is answered, so that the state of uncertain requests is known)
        self.advisories.append(path)
        end = time.monotonic() + PATIENCE
        while time.monotonic() < end:
            try:
                status, value = self.server.feed(path.read_bytes())
                if status == 202:
                    return
                self.case.assertEqual(status, 503, value)
            except (OSError, ConnectionError):
                if self.server.run.poll() is not None:
                    self.server.start()
        self.case.fail(f"the feed {path.name} isn't taken")

    def kill(self):
        """Kills the server, one of its processes, or a run of cpe."""
        if self.draw.random() < 0.4:
            self.server.kill()
            return
        pids = self.server.children(self.draw.choice(["resolve", "advise", "cpe_service.worker", "cpe_service.keeper"]))
        if pids:
            try:
                os.kill(self.draw.choice(pids), signal.SIGKILL)
            except ProcessLookupError:
                pass

    def round(self):
        """Sends requests until a process was killed at a random moment."""
        timer = threading.Timer(self.draw.random() * 0.3, self.kill)
        timer.start()
        while timer.is_alive():
            if self.server.run.poll() is None:
                self.step()
            else:
                time.sleep(0.01)
        timer.join()
        if self.server.run.poll() is not None:
            self.server.start()

    def check(self):
        """The accepted lists are there, with the verdicts of scan.py."""
        self.server.settled()
        _, value = self.server.ask("GET", "/machines?limit=1000")
        names = {one["name"] for one in value["machines"]}
        for name, data in self.unsure.items():
            # (the server shows whether it was accepted; it is put again, so that its content is known)
            if data is None and name not in names:
                self.lists.pop(name, None)
            elif data is not None and name in names:
                self.case.assertIn(self.server.put(name, data)[0], (200, 201))
                self.lists[name] = data
        self.unsure.clear()
        self.case.assertEqual(names, set(self.lists))
        wanted, _ = self.case.scanned(
            {name: data.encode() for name, data in self.lists.items()}, [RANGES / "dictionary.json"], self.advisories, [RANGES / "matches.json"]
        )
        self.case.assertEqual({name: self.case.judged(self.server, name) for name in self.lists}, wanted)


class KilledTest(ServiceCase):
    def test_what_was_accepted_stays(self):
        session = Session(self, random.Random(SEED))
        session.server.put("m-1", drawn_list(session.draw))
        session.lists["m-1"] = session.server.ask("GET", "/machines/m-1") and "cpe:/a:ntp:ntp:4.2.8"
        session.server.put("m-1", session.lists["m-1"])
        for number in range(1, KILLS + 1):
            session.round()
            if number % 4 == 0 or number == KILLS:
                session.check()

    def test_the_processes_end_with_the_server(self):
        server = self.with_samples()
        server.put("m", "cpe:/a:ntp:ntp:4.2.8")
        pids = server.children()
        self.assertGreater(len(pids), 3)
        server.kill()
        end = time.monotonic() + PATIENCE
        while time.monotonic() < end and any(Path(f"/proc/{pid}/cmdline").exists() and Path(f"/proc/{pid}/cmdline").read_bytes() for pid in pids):
            time.sleep(0.05)
        self.assertEqual([pid for pid in pids if Path(f"/proc/{pid}/cmdline").exists() and Path(f"/proc/{pid}/cmdline").read_bytes()], [])

    def test_it_ends_by_a_signal_with_listeners(self):
        server = self.with_samples()
        with socket.create_connection(("127.0.0.1", server.port), 10) as connection:
            connection.sendall(b"GET /events HTTP/1.1\r\nHost: localhost\r\n\r\n")
            self.assertIn(b"200 OK", connection.recv(1000))
            server.kill(signal.SIGTERM)
        self.assertEqual(server.run.returncode, 0)


class DiskTest(ServiceCase):
    def test_a_full_disk(self):
        """A limit on the size of files acts like a full disk, on each system."""
        server = self.with_samples()
        self.assertEqual(server.put("before", "cpe:/a:ntp:ntp:4.2.8")[0], 201)
        server.kill()
        most = max(path.stat().st_size for path in server.folder.iterdir()) + (1 << 16)

        def limit():
            signal.signal(signal.SIGXFSZ, signal.SIG_IGN)
            resource.setrlimit(resource.RLIMIT_FSIZE, (most, most))

        full = self.server(limit=limit)
        data = json.dumps({"bomFormat": "CycloneDX", "components": [{"cpe": f"cpe:/a:x:{os.urandom(20).hex()}"} for _ in range(20_000)]})
        status, value = full.put("large", data)
        self.assertEqual(status, 507, value)
        self.assertIn("it could not be kept", value["detail"])
        self.assertEqual([one["name"] for one in full.ask("GET", "/machines")[1]["machines"]], ["before"])
        self.assertEqual(full.ask("GET", "/machines/before")[1]["counts"], server_counts(full))
        full.kill()
        # (and when there is room again, it continues)
        again = self.server()
        self.assertEqual(again.put("large", data)[0], 201)

    def disk(self, megabytes):
        """A disk of this size as the data folder. (Root alone may make one.)"""
        folder = self.folder / "data"
        folder.mkdir()
        words = ["mount", "-t", "tmpfs", "-o", f"size={megabytes}m,mode=700", "small", str(folder)]
        if os.geteuid() or subprocess.run(words, capture_output=True).returncode:
            self.skipTest("no disk can be made here")
        self.addCleanup(subprocess.run, ["umount", "--lazy", str(folder)], check=True)
        return folder

    def test_a_disk_that_is_full_until_there_is_room_again(self):
        """Nothing is kept of what doesn't fit, all other requests are answered, and the same server judges waiting
        machines when there is room."""
        folder = self.disk(24)
        server = self.with_samples()
        self.assertEqual(server.put("before", "cpe:/a:ntp:ntp:4.2.8")[0], 201)
        server.settled()
        filling = folder / "filling"
        with filling.open("wb", buffering=0) as file:
            with self.assertRaises(OSError):
                while True:
                    file.write(bytes(4_096))
        for method, path, body in (
            ("PUT", "/machines/after", "cpe:/a:ntp:ntp:4.2.8"), ("DELETE", "/machines/before", None), ("PUT", "/tables/suppress", "CVE-1 * x"),
            ("POST", "/feeds", (RANGES / "advisories.json").read_bytes()),
        ):
            status, value = server.ask(method, path, body)
            self.assertEqual((status, value["detail"].partition(":")[0]), (507, "it could not be kept"), value)
        self.assertEqual([one["name"] for one in server.ask("GET", "/machines")[1]["machines"]], ["before"])
        self.assertEqual(server.ask("GET", "/machines/before")[1]["state"], "judged")
        self.assertEqual(server.ask("GET", "/health")[0], 200)
        filling.unlink()
        self.assertEqual(server.put("after", "cpe:/a:ntp:ntp:4.2.8")[0], 201)
        self.assertEqual(self.judged(server, "after"), {**self.judged(server, "before"), "name": "after"})

    def test_verdicts_that_the_disk_does_not_take_are_written_later(self):
        """The worker reports trouble, and tries again."""
        folder = self.disk(24)
        server = self.with_samples()
        server.put("m", "cpe:/a:ntp:ntp:4.2.8")
        server.settled()
        pids = server.children("cpe_service.worker")
        for pid in pids:
            os.kill(pid, signal.SIGSTOP)
        record = json.loads((RANGES / "advisories.json").read_bytes())["vulnerabilities"][0]
        record["cve"]["lastModified"] = "2026-01-01T00:00:00.000"
        self.assertEqual(server.feed(feed("vulnerabilities", record))[0], 202)
        filling = folder / "filling"
        with filling.open("wb", buffering=0) as file, self.assertRaises(OSError):
            while True:
                file.write(bytes(4_096))
        for pid in pids:
            os.kill(pid, signal.SIGCONT)
        time.sleep(6)
        self.assertEqual(server.ask("GET", "/machines/m")[1]["state"], "waiting")
        self.assertEqual(server.ask("GET", "/machines")[1]["waiting"], 1)
        filling.unlink()
        self.assertEqual(server.settled()["trouble"], [])
        self.assertEqual(server.ask("GET", "/machines/m")[1]["state"], "judged")

    @unittest.skipIf(os.geteuid() == 0 and shutil.which("setpriv") is None, "root may write everywhere, and there is no setpriv")
    def test_a_folder_that_can_only_be_read(self):
        """Neither a new folder is used, nor one of an earlier service."""
        new, used = self.folder / "new", self.folder / "data"
        new.mkdir()
        self.with_samples().kill()
        self.folder.chmod(0o755)
        for folder in (new, used):
            for path in folder.iterdir():
                path.chmod(0o444)
            folder.chmod(0o555)
            words = [sys.executable, "-B", "-m", "cpe_service", "--data", str(folder), "--port", "0"]
            if os.geteuid() == 0:
                words = ["setpriv", "--reuid=65534", "--regid=65534", "--clear-groups", *words]
            run = subprocess.run(words, cwd=ROOT / "service", capture_output=True, text=True, timeout=PATIENCE, env={**os.environ, "CPE": CPE})
            self.assertEqual(run.returncode, 1)
            self.assertIn(f"the data folder {folder} can not be used", run.stderr)

    def test_a_folder_that_another_service_has(self):
        server = self.server()
        words = [sys.executable, "-B", "-m", "cpe_service", "--data", str(server.folder), "--port", "0"]
        run = subprocess.run(words, cwd=ROOT / "service", capture_output=True, text=True, timeout=PATIENCE, env={**os.environ, "CPE": CPE})
        self.assertEqual(run.returncode, 1)
        self.assertIn("another service runs over the data folder", run.stderr)

    def test_another_version_of_the_database(self):
        server = self.with_samples()
        server.kill()
        run = subprocess.run(
            [sys.executable, "-c", f"import sqlite3; sqlite3.connect({str(server.folder / 'service.db')!r}).execute('PRAGMA user_version = 99')"],
        )
        run = subprocess.run(
            [sys.executable, "-B", "-m", "cpe_service", "--data", str(server.folder)], cwd=ROOT / "service", capture_output=True, text=True,
            timeout=PATIENCE, env={**os.environ, "CPE": CPE},
        )
        self.assertEqual(run.returncode, 1)
        self.assertIn("version 99", run.stderr)

    def test_the_version_before_of_the_database(self):
        """It is converted, with all its contents."""
        server = self.with_samples()
        server.put("m", (RANGES / "legacy-1.txt").read_bytes())
        server.put("n", (RANGES / "app-1.txt").read_bytes())
        server.settled()
        paths = ("/advisories?limit=1000", "/advisories?kind=UNKNOWN", "/machines?kind=TRUE", "/machines/m")
        before = [server.ask("GET", path) for path in paths]
        server.kill()
        with contextlib.closing(sqlite3.connect(server.folder / "service.db")) as database:
            for name in ("verdict_begins", "verdict_ends", "verdict_changes"):
                database.execute(f"DROP TRIGGER {name}")
            database.execute("DROP TABLE affected")
            database.execute("DROP INDEX verdicts_by_advisory")
            database.execute("CREATE INDEX verdicts_by_advisory ON verdicts (advisory, kind)")
            database.execute("PRAGMA user_version = 2")
        again = self.server()
        again.settled()
        self.assertEqual([again.ask("GET", path) for path in paths], before)
        self.assertEqual(again.ask("DELETE", "/machines/m")[0], 200)
        rest = {row["id"]: row["counts"] for row in again.ask("GET", "/advisories?limit=1000")[1]["advisories"]}
        self.assertEqual({id for id, _ in rest.items()}, {one["id"] for one in again.ask("GET", "/machines/n")[1]["verdicts"]})

    def test_a_backup_is_restored(self):
        server = self.with_samples()
        for number in range(3):
            server.put(f"m-{number}", "cpe:/a:openssl:openssl:1.0.2k\ncpe:/a:ntp:ntp:4.2.8")
        before = {name: self.judged(server, name) for name in ("m-0", "m-1", "m-2")}
        changes = server.ask("GET", "/changes?limit=1000")
        copy = self.folder / "copy.db"
        words = [sys.executable, "-B", "-m", "cpe_service", "backup", str(copy), "--data", str(server.folder)]
        subprocess.run(words, cwd=ROOT / "service", check=True)
        self.assertEqual(subprocess.run(words, cwd=ROOT / "service", capture_output=True).returncode, 1)
        server.ask("DELETE", "/machines/m-1")
        restored = self.folder / "restored"
        restored.mkdir()
        copy.rename(restored / "service.db")
        other = self.server(name="restored")
        other.settled()
        self.assertEqual({name: self.judged(other, name) for name in before}, before)
        self.assertEqual(other.ask("GET", "/changes?limit=1000"), changes)
        self.assertEqual(other.put("m-3", "cpe:/a:ntp:ntp:4.2.8")[0], 201)


def server_counts(server):
    return server.ask("GET", "/machines?q=before")[1]["machines"][0]["counts"]


class ClientsTest(ServiceCase):
    def test_a_slow_client_is_ended_and_no_other_waits(self):
        server = self.with_samples("ranges", "--seconds", "5", "--rate", "10000", "--workers", "1")
        connections = []
        for _ in range(20):
            connection = socket.create_connection(("127.0.0.1", server.port), 10)
            self.addCleanup(connection.close)
            connection.sendall(b"PUT /machines/slow HTTP/1.1\r\nHost: localhost\r\nContent-Length: 1000\r\n\r\nx")
            connections.append(connection)
        self.assertEqual(server.ask("GET", "/machines")[0], 200)
        self.assertIn(server.put("quick", "cpe:/a:ntp:ntp:4.2.8")[0], (201, 202))
        # (none of the slow ones is ended yet)
        for connection in connections:
            connection.setblocking(False)
            self.assertRaises(BlockingIOError, connection.recv, 1)
            connection.settimeout(30)
        for connection in connections:
            self.assertTrue(connection.recv(100).startswith(b"HTTP/1.1 408 "))

    def test_a_thousand_idle_connections(self):
        most = resource.getrlimit(resource.RLIMIT_NOFILE)
        if most[1] != resource.RLIM_INFINITY and most[1] < 1_200:
            self.skipTest("a process may not have so many files open")
        resource.setrlimit(resource.RLIMIT_NOFILE, (max(most[0], 1_200), most[1]))
        server = self.with_samples()
        for _ in range(1_000):
            connection = socket.create_connection(("127.0.0.1", server.port), 10)
            self.addCleanup(connection.close)
        self.assertEqual(server.put("m", "cpe:/a:ntp:ntp:4.2.8")[0], 201)
        self.assertEqual(server.ask("GET", "/machines/m")[0], 200)

    def test_a_large_list_keeps_nobody_waiting(self):
        """The list is judged, or refused by its name, and each other request is answered meanwhile."""
        server = self.with_samples("ranges", "--most-list", str(400 << 20), "--rate", "10000", "--workers", "2")
        self.assertEqual(server.put("other", "cpe:/a:ntp:ntp:4.2.8")[0], 201)
        component = json.dumps({"type": "library", "name": "ntp", "description": "x" * 4_000, "cpe": "cpe:2.3:a:ntp:ntp:4.2.8:*:*:*:*:*:*:*"})
        count = (MEGABYTES << 20) // len(component)
        answers = []
        data = f'{{"bomFormat":"CycloneDX","components":[{",".join([component] * count)}]}}'.encode()
        thread = threading.Thread(target=lambda: answers.append(server.put("large", data)))
        thread.start()
        took = []
        while thread.is_alive():
            begin = time.monotonic()
            for path in ("/machines/other", "/health", "/machines"):
                self.assertEqual(server.ask("GET", path)[0], 200)
            took.append(time.monotonic() - begin)
            time.sleep(0.05)
        self.assertLess(max(took), 10)
        self.assertIn(answers[0][0], (201, 202), answers)
        server.settled()
        self.assertEqual(self.judged(server, "large"), {**self.judged(server, "other"), "name": "large"})
        # (and if the limit is smaller, it is refused while it arrives)
        server.kill()
        server = self.server("--most-list", "1000000", name="less")
        status, value = server.put("large", data)
        self.assertEqual((status, value["detail"]), (413, "the body has more than 1,000,000 bytes"))

    def test_a_client_that_leaves_leaves_nothing_half_done(self):
        server = self.with_samples()
        body = (RANGES / "legacy-1.txt").read_bytes()
        for number in range(20):
            with socket.create_connection(("127.0.0.1", server.port), 10) as connection:
                head = f"PUT /machines/m-{number} HTTP/1.1\r\nHost: localhost\r\nContent-Length: {len(body)}\r\n\r\n"
                connection.sendall(head.encode() + body)
        # (an unanswered request was accepted or not, never in part)
        self.assertEqual(server.put("last", body)[0], 201)
        server.settled()
        found = server.ask("GET", "/machines")[1]["machines"]
        self.assertEqual({(one["state"], json.dumps(one["counts"])) for one in found}, {("judged", '{"TRUE": 4, "UNKNOWN": 1}')})


if __name__ == "__main__":
    unittest.main()
