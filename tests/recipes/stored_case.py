"""Shared by the tests of stores: the output and messages of a recipe, a run that is killed, records and pages, and a
randomly filled store."""
import io
import json
import os
import signal
from pathlib import Path
from unittest import mock

from drawn_feeds import MEMBERS, Feeds
from test_portions import advisory

from cpe_recipes import scan, store
from cpe_recipes.store_file import StoreFile

OPTIONS = {"products": "--dictionary", "vulnerabilities": "--advisories", "matchStrings": "--matches"}


def ran(run, words):
    """The status of a recipe, its output, and its messages."""
    streams = {1: io.BytesIO(), 2: io.BytesIO()}
    with mock.patch("cpe_recipes.console.os.write", side_effect=lambda to, data: streams[to].write(data)):
        status = run(words)
    return status, streams[1].getvalue().decode(), streams[2].getvalue().decode().splitlines()


def killed(words, moment):
    """Runs store.py in a process that is killed after this many edits of the store, and returns whether it was killed
    before its end."""
    process = os.fork()
    if process == 0:
        asked = 0

        def ask(self, *given):
            nonlocal asked
            asked += 1
            if asked == moment:
                os.kill(os.getpid(), signal.SIGKILL)
            return put(self, *given)

        put = StoreFile.put
        try:
            with mock.patch.object(StoreFile, "put", ask):
                ran(store.run, words)
        finally:
            os._exit(0)
    return os.WIFSIGNALED(os.waitpid(process, 0)[1])


def cve(number, *matches, status="Analyzed", modified="2024-01-01T00:00:00.000"):
    record = advisory(*matches, id=f"CVE-2024-{number:04}")
    record["cve"] |= {"vulnStatus": status, "lastModified": modified}
    if not matches:
        del record["cve"]["configurations"]
    return record


def product(name, modified="2024-01-01T00:00:00.000", **more):
    return {"cpe": {"cpeName": name, "cpeNameId": name, "lastModified": modified, **more}}


def page(kind, *records, start=0, total=None):
    counts = {"resultsPerPage": len(records), "startIndex": start, "totalResults": len(records) if total is None else total}
    return {**counts, "format": MEMBERS[kind], "version": "2.0", kind: list(records)}


class Sequence:
    """A randomly filled store, and its pages in the order in which they were added."""

    def __init__(self, seed, folder):
        self.folder, self.feeds = Path(folder), Feeds(seed)
        self.draw = self.feeds.draw
        self.store = str(self.folder / "store")
        self.added = {kind: [] for kind in OPTIONS}
        self.bytes = set()
        self.kills = 0
        self.add(self.feeds.whole(self.folder))

    def add(self, pages):
        """Adds pages in random portions; some runs are killed and started again."""
        paths = [(kind, path) for kind, of_kind in pages.items() for path in of_kind]
        while paths:
            count = self.draw.randint(1, 9)
            for kind, path in paths[:count]:
                data = Path(path).read_bytes()
                # (a page with the same bytes is the same page)
                if data not in self.bytes:
                    self.bytes.add(data)
                    self.added[kind].append(path)
            self._run([path for _, path in paths[:count]])
            paths = paths[count:]

    def _run(self, paths):
        words = ["add", "--store", self.store, *paths]
        while self.draw.randrange(2) == 0 and killed(words, self.draw.randint(1, 60)):
            self.kills += 1
        ran(store.run, words)

    def day(self):
        """A day later: a window of changes, perhaps with a known or an older page; sometimes all pages again."""
        what = self.draw.randrange(6)
        self.add(self.feeds.whole(self.folder) if what == 0 else self.feeds.changed(self.folder))
        if what == 1:
            self._run([self.draw.choice(of_kind) for of_kind in self.added.values()])
        elif what == 2:
            self.add({kind: [self._spelled_otherwise(self.draw.choice(of_kind))] for kind, of_kind in self.added.items()})

    def _spelled_otherwise(self, path):
        """An added page, in other bytes."""
        self.feeds.pages += 1
        other = self.folder / f"page-{self.feeds.pages}.json"
        other.write_text(json.dumps(json.loads(Path(path).read_text()), indent=1))
        return str(other)

    def scanned(self, *words):
        """The output of a scan from the store, and of a scan of all pages."""
        pages = [word for kind, paths in self.added.items() for word in (OPTIONS[kind], *paths)]
        return ran(scan.run, ["--store", self.store, *words]), ran(scan.run, [*pages, *words])


def of_verdicts(said):
    """The messages, except those about pages and about several records of an id; without the commands to copy."""
    lines = (line.split("; to list them: ")[0] for line in said)
    return sorted(line for line in lines if " more than once" not in line and "page-" not in line)
