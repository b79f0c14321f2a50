#!/usr/bin/env python3
"""Measures the service: lists that clients put at once, questions, a night's window of changed advisories, memory, and
faults of clients.

    python3 bench/service.py PROGRAM [--advisories N] [--machines N] [--items N] [--clients N] [--changed N] [--workers N]

It makes feeds and machines as bench/scan.py does, gives them to a server in a fresh folder, and prints percentiles of
the answers, the processor seconds of all its processes, and the most memory that they held together. Then it sends what
no client should: a list of 200 MB, as it is and packed, 10,000 levels of JSON, bodies that don't end, and 1,000
connections that ask nothing. It prints the answers, and how long a question took meanwhile at most. Other work on the
machine makes answers slower, and processor seconds less so. Python 3.11 with starlette and uvicorn (Debian's
python3-starlette, python3-uvicorn), and Linux.
"""
import argparse
import concurrent.futures
import contextlib
import http.client
import json
import os
import pathlib
import queue
import re
import resource
import shutil
import socket
import subprocess
import sys
import threading
import time
import zlib

import scan

HERE = pathlib.Path(__file__).resolve().parent
DATA = HERE.parent / "build" / "bench" / "service"
# What is wanted of an answer to a list, of one to a question, and of a window, in seconds; and of memory in GiB.
MOST_PUT, MOST_GET, MOST_WINDOW, MOST_MEMORY = 2, 0.05, 120, 2
_TICK = os.sysconf("SC_CLK_TCK")
_PATIENCE = 3_600
# How long a client may take for a body here, how many slow ones there are, and how many connections are idle.
_SECONDS, _SLOW, _IDLE = 20, 20, 1_000
_LARGE = 200_000_000


class Server:
    """A server over a fresh data folder, and what its processes take."""

    def __init__(self, program, workers):
        shutil.rmtree(DATA, ignore_errors=True)
        words = [sys.executable, "-m", "cpe_service", "--data", str(DATA), "--port", "0", "--rate", "1000000", "--workers", str(workers)]
        words += ["--seconds", str(_SECONDS)]
        environment = {**os.environ, "CPE": program, "PYTHONPATH": str(HERE.parent / "service")}
        self.run = subprocess.Popen(words, env=environment, stdout=subprocess.PIPE, text=True)
        found = re.search(r":(\d+)/", self.run.stdout.readline())
        if found is None:
            sys.exit("the service doesn't start")
        self.port = int(found[1])

    def answer(self, method, path, body=None):
        """The status of an answer, and its value."""
        with contextlib.closing(http.client.HTTPConnection("127.0.0.1", self.port, timeout=_PATIENCE)) as connection:
            # (who refuses a body may answer before all of it is sent)
            with contextlib.suppress(BrokenPipeError, ConnectionResetError):
                connection.request(method, path, body)
            answer = connection.getresponse()
            return answer.status, json.loads(answer.read())

    def ask(self, method, path, body=None):
        """The value of an answer, and how many seconds it took."""
        begin = time.monotonic()
        status, value = self.answer(method, path, body)
        if status >= 300:
            sys.exit(f"{method} {path}: {value}")
        return value, time.monotonic() - begin

    def connection(self, data=b""):
        """A connection on which these bytes were sent."""
        found = socket.create_connection(("127.0.0.1", self.port), _PATIENCE)
        found.sendall(data)
        return found

    def settle(self):
        """Waits until all is judged."""
        while True:
            value, _ = self.ask("GET", "/health")
            if not value["waiting"] and value["groundIsRead"]:
                return
            time.sleep(0.2)

    def processes(self):
        """The server and the processes below it."""
        found, waiting = [], [self.run.pid]
        while waiting:
            pid = waiting.pop()
            found.append(pid)
            waiting += map(int, _read(f"/proc/{pid}/task/{pid}/children").split())
        return found

    def seconds(self):
        """The processor seconds of these processes, and of those below them that ended."""
        fields = [_read(f"/proc/{pid}/stat").rpartition(")")[2].split() for pid in self.processes()]
        return sum(sum(map(int, of[11:15])) for of in fields if of) / _TICK

    def memory(self):
        """The GiB that these processes held at most, each at its own time, where what they share counts for each."""
        found = (re.search(r"VmHWM:\s+(\d+)", _read(f"/proc/{pid}/status")) for pid in self.processes())
        return sum(int(one[1]) for one in found if one) / (1 << 20)


def _read(path):
    try:
        return pathlib.Path(path).read_text(encoding="utf-8")
    except OSError:
        return ""


def percentiles(what, took, most=None):
    """Prints some percentiles, and whether the 99th is what is wanted."""
    found = sorted(took)
    some = {share: found[min(len(found) - 1, len(found) * share // 100)] for share in (50, 95, 99)}
    words = ", ".join(f"{share} % in {1000 * seconds:,.0f} ms" for share, seconds in some.items())
    target = "" if most is None else f"; wanted 99 % below {1000 * most:,.0f} ms: {'met' if some[99] < most else 'MISSED'}"
    print(f"{what}: {len(found):,}, {words}{target}; load {os.getloadavg()[0]:.1f}", flush=True)


def put_all(server, machines, clients):
    """The seconds of each answer, if this number of clients put lists at once."""
    waiting = queue.SimpleQueue()
    for one in machines:
        waiting.put(one)

    def client():
        took = []
        while True:
            try:
                name, items = waiting.get_nowait()
            except queue.Empty:
                return took
            value, seconds = server.ask("PUT", f"/machines/{name}", "\n".join(items))
            if value["state"] != "judged":
                print(f"{name} is {value['state']} after {seconds:.1f} seconds")
            took.append(seconds)

    with concurrent.futures.ThreadPoolExecutor(clients) as pool:
        return [seconds for one in [pool.submit(client) for _ in range(clients)] for seconds in one.result()]


def window(paths, count):
    """A window of this number of advisories, which are changed: each has another bound, and a later time."""
    found = []
    for path in paths:
        for record in json.loads(pathlib.Path(path).read_text())["vulnerabilities"]:
            if len(found) < count:
                record["cve"]["lastModified"] = "2026-01-01T00:00:00.000"
                for match in record["cve"]["configurations"][0]["nodes"][0]["cpeMatch"]:
                    if "versionEndExcluding" in match:
                        match["versionEndIncluding"] = match.pop("versionEndExcluding")
                found.append(record)
    return {"startIndex": 0, "resultsPerPage": len(found), "totalResults": len(found), "vulnerabilities": found}


def asked(server, names, rounds=200):
    """Asks questions of each kind."""
    advisories = [one["id"] for one in server.ask("GET", "/advisories?limit=100")[0]["advisories"]]
    for what, paths in (
        ("GET /machines/NAME", [f"/machines/{name}" for name in names]),
        ("GET /machines", ["/machines"]),
        ("GET /advisories", ["/advisories", "/advisories?offset=200", "/advisories?kind=UNKNOWN"]),
        ("GET /advisories/ID", [f"/advisories/{id}" for id in advisories]),
        ("GET /changes", ["/changes?after=1000"]),
        ("GET /names", ["/names?q=linux", "/names?q=server%202"]),
    ):
        percentiles(what, [server.ask("GET", paths[number % len(paths)])[1] for number in range(rounds)], MOST_GET)


@contextlib.contextmanager
def meanwhile(server, what):
    """Asks questions while something else is asked, and prints how long they took."""
    took, is_over = [], threading.Event()

    def client():
        while not is_over.is_set():
            took.append(server.ask("GET", "/machines?limit=10")[1])
            time.sleep(0.05)

    thread = threading.Thread(target=client)
    thread.start()
    try:
        yield
    finally:
        is_over.set()
        thread.join()
    percentiles(f"GET /machines meanwhile ({what})", took)


def faults(server, names):
    """Sends what no client should send."""
    component = json.dumps({"type": "library", "name": "x", "description": "x" * 1_000, "cpe": "cpe:2.3:a:x:y:1.0:*:*:*:*:*:*:*"})
    large = f'{{"bomFormat":"CycloneDX","components":[{",".join([component] * (_LARGE // len(component)))}]}}'.encode()
    packing = zlib.compressobj(wbits=31)
    deep = "[" * 10_000 + "]" * 10_000
    for what, body in (
        ("a list of 200 MB", large),
        ("a list of 200 MB, packed", packing.compress(large) + packing.flush()),
        ("10,000 levels of JSON", deep),
        ("10,000 levels of JSON in a list", f'{{"bomFormat":"CycloneDX","components":{deep}}}'),
    ):
        with meanwhile(server, what):
            status, value = server.answer("PUT", "/machines/large", body)
        print(f"{what}: {status} {value.get('detail') or value['state']}; memory {server.memory():.2f} GiB", flush=True)
    with meanwhile(server, f"{_SLOW} bodies that don't end"), contextlib.ExitStack() as stack:
        head = b"PUT /machines/slow HTTP/1.1\r\nHost: localhost\r\nContent-Length: 1000\r\n\r\nx"
        slow = [stack.enter_context(server.connection(head)) for _ in range(_SLOW)]
        server.ask("PUT", f"/machines/{names[0]}", "cpe:/a:x:y:2")
        print(f"{_SLOW} bodies that don't end: {sorted({one.recv(12) for one in slow})}")
    most = resource.getrlimit(resource.RLIMIT_NOFILE)[1]
    resource.setrlimit(resource.RLIMIT_NOFILE, (most, most))
    with meanwhile(server, f"{_IDLE:,} idle connections"), contextlib.ExitStack() as stack:
        for _ in range(_IDLE):
            stack.enter_context(server.connection())
        _, took = server.ask("PUT", f"/machines/{names[0]}", "cpe:/a:x:y:3")
        print(f"{_IDLE:,} idle connections: a list is answered in {1000 * took:,.0f} ms")


def load(server, machines, paths, options):
    """Feeds, lists of all machines, questions, and a window of changes."""
    begin = time.monotonic()
    for option in ("--dictionary", "--advisories", "--matches"):
        for path in paths[option]:
            server.ask("POST", "/feeds?feed=all", pathlib.Path(path).read_bytes())
    server.settle()
    print(f"feeds: {time.monotonic() - begin:.1f} seconds, {server.seconds():.1f} of processors")
    before, begin = server.seconds(), time.monotonic()
    with meanwhile(server, "lists"):
        percentiles(f"PUT with {options.clients} clients", put_all(server, machines, options.clients), MOST_PUT)
    print(f"all lists: {time.monotonic() - begin:.1f} seconds, {server.seconds() - before:.1f} of processors")
    asked(server, [name for name, _ in machines])
    before, begin = server.seconds(), time.monotonic()
    server.ask("POST", "/feeds", json.dumps(window(paths["--advisories"], options.changed)))
    server.settle()
    took = time.monotonic() - begin
    print(f"a window of {options.changed:,} advisories: {took:.1f} seconds, {server.seconds() - before:.1f} of processors; "
          f"wanted below {MOST_WINDOW} seconds: {'met' if took < MOST_WINDOW else 'MISSED'}")
    percentiles("PUT of a list that is there", put_all(server, machines[:100], options.clients))
    held = server.memory()
    print(f"memory: {held:.2f} GiB; wanted below {MOST_MEMORY}: {'met' if held < MOST_MEMORY else 'MISSED'}")
    size = sum(path.stat().st_size for path in DATA.iterdir())
    print(f"the data folder: {size / (1 << 20):,.0f} MiB; load {os.getloadavg()[0]:.1f}", flush=True)


def main():
    parser = argparse.ArgumentParser()
    parser.add_argument("program")
    for name, number in (("advisories", 10_000), ("machines", 1_000), ("items", 300), ("clients", 8), ("changed", 1_000), ("workers", os.cpu_count())):
        parser.add_argument(f"--{name}", type=int, default=number)
    options = parser.parse_args()
    words = scan.made(options)
    lists = {option: words[words.index(option) + 1 :] for option in ("--dictionary", "--advisories", "--matches", "--machines")}
    paths = {option: [path for path in found if option[2:] in pathlib.Path(path).name] for option, found in lists.items()}
    machines = [(line.split()[0], line.split()[1:]) for line in pathlib.Path(paths["--machines"][0]).read_text().splitlines()]
    print(f"{len(machines):,} machines of {options.items} items, {options.advisories:,} advisories, {options.workers} workers, load {os.getloadavg()[0]:.1f}")
    server = Server(str(pathlib.Path(options.program).resolve()), options.workers)
    try:
        load(server, machines, paths, options)
        faults(server, [name for name, _ in machines])
    finally:
        server.run.terminate()
        server.run.wait()


if __name__ == "__main__":
    main()
