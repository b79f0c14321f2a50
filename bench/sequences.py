#!/usr/bin/env python3
"""Compares scans from a store with scans without one, over feeds of NVD's size and drawn days: python3
bench/sequences.py PROGRAM

    [--share S] [--machines N] [--items N] [--of N] [--sequences N] [--first N] [--days N] [--keep]

It makes feeds as full.py does (a tenth of NVD's size if the share is left out), and a store of them, once; --keep takes
those that are there. A sequence is a number of days over a copy of that store. Each day has a window of advisories, of
products or of lists that match, perhaps with a page that is there or an older one, and changed lists of machines. Some
runs that add are killed, and begun again; so are some scans. Each day is scanned from the store, which takes what it
can from the day before. The last day of each sequence, and some days before it, are scanned without a store too, and
both must write the same bytes, with the same status. It prints what differs, and the status is 1 then. Python 3
(standard library alone) and Linux. A sequence of three days takes a minute of processor time at a tenth.
"""
import argparse
import json
import os
import random
import shutil
import signal
import subprocess
import sys
import time

import full

WORK = full.BUILD.parent / "sequences"
FORMS = ([], ["--json"], ["--json", "--why"], ["--json", "--strict", "--hardware", "none"])
OPTIONS = {"products": "--dictionary", "vulnerabilities": "--advisories", "matchStrings": "--matches"}
# (an advisory's matches have ids by its day)
full.DAYS = (full.DAYS[0], *(f"2024-{month:02}-01T00:00:00.000" for month in range(7, 13)))
MOST_CHANGED = {"products": 300, "vulnerabilities": 1_000, "matchStrings": 300}


class Days:
    """What changes day by day, over feeds that stay."""

    def __init__(self, seed, options):
        self.feeds, self.draw, self.day = full.Feeds(options.share), random.Random(seed), 0
        self.feeds.draw = random.Random(f"feeds {seed}")
        lines = self.feeds.machines(options.machines, options.items, options.of)
        self.machines = {name: items for name, *items in map(str.split, lines)}

    def is_one_of(self, number):
        return self.draw.randrange(number) == 0

    def modified(self):
        # (now and then of an older record, which counts for nothing)
        return full.DAYS[self.day] if not self.is_one_of(20) else "2023-01-01T00:00:00.000"

    def advisory(self, number):
        record = self.feeds.advisory(number, self.day)
        record["cve"]["lastModified"] = self.modified()
        if self.is_one_of(30):
            record["cve"]["vulnStatus"] = "Rejected"
        return record

    def product(self, _):
        rank = self.draw.choice([self.feeds.rank(), self.draw.randrange(len(self.feeds.counts))])
        number = self.draw.randrange(self.feeds.counts[rank] + 3)
        more = {}
        if self.is_one_of(4):
            new = self.feeds.name(rank if self.is_one_of(2) else self.feeds.rank(), 0, is_new=self.is_one_of(2))
            more = {"deprecatedBy": [{"cpeName": new, "cpeNameId": new}]}
        record = self.feeds.product(rank, number, self.feeds.name(rank, number), **more)
        record["cpe"]["lastModified"] = self.modified()
        return record

    def match(self, _):
        """A list of a match that an advisory asks for, as it was made first."""
        rank, number = self.feeds.rank(), self.draw.randrange(self.feeds.advisories)
        names = [self.feeds.name(self.draw.choice([rank, self.feeds.rank()]), self.draw.randrange(9)) for _ in range(3)]
        found = {"matchCriteriaId": f"{number}-{self.draw.randrange(self.day + 1)}-0", "criteria": self.feeds.name(rank, "*")}
        return {"matchString": {**found, "lastModified": self.modified(), "matches": [{"cpeName": name} for name in names]}}

    def window(self, folder):
        """The pages of a day by their kinds."""
        self.day += 1
        kinds = [self.draw.choice(list(OPTIONS))] if self.is_one_of(2) else list(OPTIONS)
        made = {"products": self.product, "vulnerabilities": self.advisory, "matchStrings": self.match}
        found = {}
        for kind in kinds:
            # (some advisories are new, and one in ten windows has some twice)
            numbers = self.draw.sample(range(self.feeds.advisories + 50), min(self.draw.randint(1, MOST_CHANGED[kind]), self.feeds.advisories))
            records = [made[kind](number) for number in (numbers if not self.is_one_of(10) else [*numbers, *numbers[:3]])]
            path = folder / f"{kind}-{self.day}.json"
            counts = {"resultsPerPage": len(records), "startIndex": 0, "totalResults": len(records)}
            path.write_text(json.dumps({**counts, "version": "2.0", kind: records}))
            found[kind] = str(path)
        return found

    def item(self):
        rank = self.feeds.rank()
        return self.feeds.name(rank, self.feeds.installed(rank))

    def lists(self, path):
        """The machines of a day, of which some have changed."""
        for name in self.draw.sample(sorted(self.machines), min(self.draw.randint(0, 3), len(self.machines))):
            items = self.machines[name]
            what = self.draw.randrange(6)
            if what == 0:
                del self.machines[name]
            elif what == 1:
                self.draw.shuffle(items)
            elif what == 2:
                del items[: self.draw.randint(1, 9)]
            else:
                items.insert(self.draw.randrange(len(items) + 1), self.item())
        if self.is_one_of(3):
            self.machines[f"new-{self.day}"] = [self.item() for _ in range(20)]
        path.write_text("".join(f"{name} {' '.join(items)}\n" for name, items in self.machines.items()))
        return str(path)


class Sequence:
    def __init__(self, seed, options, pages):
        self.folder = WORK / f"of-{seed}"
        shutil.rmtree(self.folder, ignore_errors=True)
        shutil.copytree(WORK / "store", self.folder / "store")
        self.options, self.seed, self.days = options, seed, Days(seed, options)
        self.draw, self.kills, self.compared = self.days.draw, 0, 0
        self.pages = {kind: list(paths) for kind, paths in pages.items()}

    def run(self, recipe, *words, most=None):
        """The status of a recipe, and its output; None if it was killed after this many seconds."""
        command = [sys.executable, str(full.RECIPES / f"{recipe}.py"), *words]
        with subprocess.Popen(command, stdout=subprocess.PIPE, stderr=subprocess.DEVNULL, env=environment(self.options), start_new_session=True) as process:
            try:
                written, _ = process.communicate(timeout=most)
            except subprocess.TimeoutExpired:
                os.killpg(process.pid, signal.SIGKILL)
                process.communicate()
                self.kills += 1
                return None
        return process.returncode, written

    def add(self, paths):
        words = ["add", "--store", str(self.folder / "store"), "--jobs", self.draw.choice("12"), *paths]
        while self.days.is_one_of(2):
            if self.run("store", *words, most=self.draw.uniform(0.1, 3)) is not None:
                break
        status, written = self.run("store", *words)
        if status > 1:
            sys.exit(f"sequence {self.seed}: a page could not be added")

    def day(self):
        window = self.days.window(self.folder)
        for kind, path in window.items():
            self.pages[kind].append(path)
        paths = list(window.values())
        if self.days.is_one_of(4):
            # (and one that is there)
            paths.append(self.draw.choice(self.pages[self.draw.choice(["products", "vulnerabilities"])]))
        self.draw.shuffle(paths)
        self.add(paths)

    def scan(self, number, is_last):
        """Scans from the store, and whether a scan without it writes the same, if that is asked for."""
        machines = self.days.lists(self.folder / "machines.txt")
        form = FORMS[self.seed % len(FORMS)]
        words = ["--machines", machines, *form]
        from_store = ["--store", str(self.folder / "store"), *words]
        if self.days.is_one_of(4):
            self.run("scan", *from_store, most=self.draw.uniform(0.5, 6))
        found = self.run("scan", *from_store)
        if not is_last and not self.days.is_one_of(4):
            return True
        self.compared += 1
        given = [word for kind, paths in self.pages.items() if paths for word in (OPTIONS[kind], *paths)]
        wanted = self.run("scan", *given, *words)
        if found != wanted:
            print(f"sequence {self.seed}, day {number}, {' '.join(form)}: DIFFERENT, statuses {found[0]} and {wanted[0]}")
            for name, (_, data) in (("from-store", found), ("without", wanted)):
                (self.folder / f"{name}-{number}").write_bytes(data)
        return found == wanted


def environment(options):
    return {**os.environ, "CPE": os.path.abspath(options.program)}


def filled(options):
    """The pages of the feeds by their kinds, and a store of them."""
    if not options.keep:
        shutil.rmtree(WORK, ignore_errors=True)
        full.BUILD = WORK / "feeds"
        full.made(options)
    pages = {kind: sorted(map(str, (WORK / "feeds").glob(f"{name}-*.json"))) for kind, name in (("products", "products"), ("vulnerabilities", "advisories"))}
    if not options.keep:
        words = [sys.executable, str(full.RECIPES / "store.py"), "add", "--store", str(WORK / "store"), "--jobs", "2"]
        subprocess.run([*words, *pages["products"], *pages["vulnerabilities"]], check=True, stdout=subprocess.DEVNULL, env=environment(options))
    return {**pages, "matchStrings": []}


def main():
    words = argparse.ArgumentParser(description="Compares scans from a store with scans without one, over feeds of NVD's size.")
    words.add_argument("program")
    for name, value in (("share", 0.1), ("machines", 20), ("items", full.ITEMS), ("of", full.PRODUCTS), ("sequences", 50), ("first", 0), ("days", 3)):
        words.add_argument(f"--{name}", type=type(value), default=value)
    words.add_argument("--keep", action="store_true")
    options = words.parse_args()
    pages = filled(options)
    wrong = kills = compared = 0
    begin = time.monotonic()
    for seed in range(options.first, options.first + options.sequences):
        sequence = Sequence(seed, options, pages)
        is_same = True
        for number in range(1, options.days + 1):
            sequence.day()
            is_same = sequence.scan(number, number == options.days) and is_same
        wrong, kills, compared = wrong + (not is_same), kills + sequence.kills, compared + sequence.compared
        if is_same:
            shutil.rmtree(sequence.folder)
        print(f"sequence {seed}: {'the same' if is_same else 'DIFFERENT'}, {compared} scans compared, {kills} kills, {time.monotonic() - begin:.0f} s passed", flush=True)
    print(f"{options.share:g} of NVD: {options.sequences} sequences of {options.days} days, {compared} scans compared, {kills} runs killed, {wrong} sequences differ")
    sys.exit(1 if wrong else 0)


if __name__ == "__main__":
    main()
