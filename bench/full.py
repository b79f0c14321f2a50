#!/usr/bin/env python3
"""Measures scans over feeds of NVD's size: a store that is filled, a scan from it, and a day later.

    python3 bench/full.py PROGRAM [--share S] [--machines N] [--items N] [--of N] [--whole] [--fresh]

It makes a share of 1,436,460 products and 300,000 advisories (a tenth if left out), in the form of NVD's API 2.0, the
same at every run, below build/bench/full: few products have many names and advisories, and most have few; a tenth of
the names is deprecated, and three in ten advisories aren't analysed. Machines have items of a number of products, each
machine other ones. A day later 1,000 advisories changed, and three machines. Of each run it prints the processor time
of Python and of cpe together, by phases, and the most memory that one process held; --whole adds a scan without a
store, and --fresh one a day later that decides all. Python 3 (standard library alone) and Linux.
"""
import argparse
import bisect
import itertools
import json
import os
import pathlib
import random
import resource
import shutil
import subprocess
import sys
import time

HERE = pathlib.Path(__file__).resolve().parent
RECIPES = HERE.parent / "recipes"
BUILD = HERE.parent / "build" / "bench" / "full"
NAMES, ADVISORIES, MACHINES, ITEMS, PRODUCTS = 1_436_460, 300_000, 100, 300, 1_500
DEPRECATED, UNANALYSED, RANGED, PLATFORM = 0.1, 0.3, 0.7, 0.1
PAGES = {"products": 10_000, "vulnerabilities": 2_000}
CHANGED_ADVISORIES, CHANGED_MACHINES = 1_000, 3
# What the runs may take at the whole size, in seconds of processor time and in MB of one process.
TARGETS = {"the store is filled": (200, 1_200), "a scan from the store": (45, 1_200), "a day later": (15, 400)}
DAYS = ("2024-01-01T00:00:00.000", "2024-06-01T00:00:00.000")
TEXT = "A fault in how input is read lets those who can reach the service over a network read or write what they should not. " * 3


class Feeds:
    """Products by their ranks, the first one with the most names and advisories; and what advisories say of them."""

    def __init__(self, share):
        self.draw = random.Random(2024)
        self.names, self.advisories = int(NAMES * share), int(ADVISORIES * share)
        count = max(self.names // 11, 50)
        weights = [1 / (rank + 10) ** 0.8 for rank in range(count)]
        whole = sum(weights)
        self.counts = [max(1, round(self.names * weight / whole)) for weight in weights]
        self.bounds = list(itertools.accumulate(weights))
        self.renamed = [self.draw.random() < DEPRECATED for _ in self.counts]

    def rank(self):
        return bisect.bisect(self.bounds, self.draw.random() * self.bounds[-1])

    @staticmethod
    def version(number):
        return f"{number // 20}.{number // 4 % 5}.{number % 4}"

    def name(self, rank, number, is_new=False):
        vendor = f"vendor{rank // 4}" + ("_inc" if is_new else "")
        return f"cpe:2.3:{'aaaaaoh'[rank % 7]}:{vendor}:product{rank}:{number if number == '*' else self.version(number)}:*:*:*:*:*:*:*"

    def products(self):
        for rank, count in enumerate(self.counts):
            for number in range(count):
                name = self.name(rank, number)
                if self.renamed[rank]:
                    new = self.name(rank, number, is_new=True)
                    yield self.product(rank, number, name, deprecatedBy=[{"cpeName": new, "cpeNameId": new}])
                    yield self.product(rank, number, new)
                else:
                    yield self.product(rank, number, name)

    def product(self, rank, number, name, **more):
        titles = [{"title": f"Vendor {rank // 4} Product {rank} {self.version(number)}", "lang": "en"}]
        refs = [{"ref": f"https://vendor{rank // 4}.example.com/product{rank}/releases", "type": "Version"}]
        dates = {"lastModified": DAYS[0], "created": "2020-01-01T00:00:00.000"}
        return {"cpe": {"deprecated": bool(more), "cpeName": name, "cpeNameId": f"ID-{name}", **dates, "titles": titles, "refs": refs, **more}}

    def match(self, rank, key, is_vulnerable=True):
        count = self.counts[rank]
        match = {"vulnerable": is_vulnerable, "criteria": self.name(rank, self.draw.randrange(count)), "matchCriteriaId": key}
        if self.draw.random() < RANGED:
            last = self.version(int(count * self.draw.triangular(0, 1, 0.3)))
            match |= {"criteria": self.name(rank, "*"), self.draw.choice(["versionEndIncluding", "versionEndExcluding"]): last}
        return match

    def advisory(self, number, day=0):
        cve = {"id": f"CVE-2024-{10_000 + number}", "published": DAYS[0], "lastModified": DAYS[day], "vulnStatus": "Analyzed"}
        cve["descriptions"] = [{"lang": "en", "value": f"{TEXT} {number}"}]
        cve["references"] = [{"url": f"https://example.com/advisories/{number}", "source": "nvd@nist.gov", "tags": ["Vendor Advisory"]}] * 2
        if self.draw.random() < UNANALYSED:
            return {"cve": cve | {"vulnStatus": "Awaiting Analysis"}}
        score = self.draw.randint(10, 100) / 10
        data = {"version": "3.1", "vectorString": "CVSS:3.1/AV:N/AC:L/PR:N/UI:N/S:U/C:H/I:H/A:H", "baseScore": score, "baseSeverity": "HIGH"}
        cve["metrics"] = {"cvssMetricV31": [{"source": "nvd@nist.gov", "type": "Primary", "cvssData": data}]}
        rank = self.rank()
        matches = [self.match(rank, f"{number}-{day}-{k}") for k in range(self.draw.choice([1, 1, 1, 2, 3]))]
        nodes = [{"operator": "OR", "negate": False, "cpeMatch": matches}]
        if self.draw.random() < PLATFORM:
            other = self.match(5 + 7 * self.draw.randrange(20), f"{number}-{day}-of", False)
            nodes.append({"operator": "OR", "negate": False, "cpeMatch": [other]})
        cve["configurations"] = [{"operator": "AND", "nodes": nodes}]
        return {"cve": cve}

    def machines(self, count, items, of):
        """Lines of machines, of which each has a part of the products in turn."""
        ranks = sorted({self.rank() for _ in range(4 * of)})
        self.draw.shuffle(ranks)
        for number in range(count):
            some = [ranks[(number * items + k) % min(of, len(ranks))] for k in range(min(items, len(ranks)))]
            yield f"machine-{number} " + " ".join(self.name(rank, self.installed(rank)) for rank in some)

    def installed(self, rank):
        """A version as machines have it: mostly one of the newest."""
        count = self.counts[rank]
        return min(count - 1, int(count * self.draw.triangular(0, 1.2, 1)))


def write(name, kind, records, total):
    """Writes the pages of a feed, and returns their paths."""
    paths, start = [], 0
    while page := list(itertools.islice(records, PAGES[kind])):
        path = BUILD / f"{name}-{start:09}.json"
        head = {"resultsPerPage": len(page), "startIndex": start, "totalResults": total, "format": {"products": "NVD_CPE"}.get(kind, "NVD_CVE")}
        path.write_text(json.dumps({**head, "version": "2.0", kind: page}))
        paths.append(str(path))
        start += len(page)
    return paths


def made(options):
    """The paths of the pages, of those that changed a day later, and of the machines on both days."""
    shutil.rmtree(BUILD, ignore_errors=True)
    BUILD.mkdir(parents=True)
    feeds = Feeds(options.share)
    total = sum(count * (1 + is_renamed) for count, is_renamed in zip(feeds.counts, feeds.renamed))
    products = write("products", "products", feeds.products(), total)
    advisories = write("advisories", "vulnerabilities", map(feeds.advisory, range(feeds.advisories)), feeds.advisories)
    lines = list(feeds.machines(options.machines, options.items, options.of))
    changed = feeds.draw.sample(range(feeds.advisories), min(CHANGED_ADVISORIES, feeds.advisories))
    window = write("changed", "vulnerabilities", (feeds.advisory(number, 1) for number in changed), len(changed))
    paths = []
    for day in range(2):
        paths.append(str(BUILD / f"machines-{day}.txt"))
        pathlib.Path(paths[-1]).write_text("".join(f"{line}\n" for line in lines))
        for number in range(min(CHANGED_MACHINES, len(lines))):
            lines[number] = lines[number].rsplit(" ", 5)[0]
    return products, advisories, window, paths


# Runs a recipe, and notes at each step of it how much processor time it and its runs of cpe took.
RUNNER = """
import importlib, json, resource, sys
sys.dont_write_bytecode = True
sys.path.insert(0, sys.argv[1])
from cpe_recipes import console, progress
steps, taken = ["beginning"], []
def times():
    own, runs = (resource.getrusage(of) for of in (resource.RUSAGE_SELF, resource.RUSAGE_CHILDREN))
    return [own.ru_utime + own.ru_stime, runs.ru_utime + runs.ru_stime]
def step(self, text):
    taken.append(times())
    steps.append(text.split(",")[0])
progress.Progress.step = step
try:
    console.main(importlib.import_module(f"cpe_recipes.{sys.argv[3]}").run, sys.argv[3], sys.argv[4:])
finally:
    taken.append(times())
    json.dump([steps, taken], open(sys.argv[2], "w"))
"""


def measured(what, options, *words):
    """Runs a recipe, prints what it took, and returns its last line and its seconds."""
    noted = BUILD / "steps.json"
    begin = time.monotonic()
    command = [sys.executable, "-c", RUNNER, str(RECIPES), str(noted), *words]
    with open(BUILD / "said", "w") as said, open(BUILD / "written", "w") as written:
        process = subprocess.Popen(command, stdout=written, stderr=said, env={**os.environ, "CPE": os.path.abspath(options.program)})
        _, status, used = os.wait4(process.pid, 0)
    if os.waitstatus_to_exitcode(status) > 1:
        sys.exit((BUILD / "said").read_text())
    seconds, memory = used.ru_utime + used.ru_stime, used.ru_maxrss * 1024 // 1_000_000
    print(f"{what}: {seconds:.1f} seconds of processor time, {time.monotonic() - begin:.1f} passed, at most {memory} MB in one process")
    steps, taken = json.loads(noted.read_text())
    phases: dict[str, list[float]] = {}
    for step, before, behind in zip(steps, [[0, 0], *taken], taken):
        for of, (now, then) in enumerate(zip(behind, before)):
            phases.setdefault(step, [0, 0])[of] += now - then
    for step, (own, runs) in phases.items():
        if own + runs >= 0.05:
            print(f"    {step}: {own:.1f} in Python, {runs:.1f} in cpe")
    lines = (BUILD / "written").read_text().splitlines()
    print(f"    {lines[-1]}")
    if options.share == 1 and what in TARGETS:
        most, most_memory = TARGETS[what]
        are_met = seconds <= most and memory <= most_memory
        print(f"    at most {most} seconds and {most_memory} MB: {'met' if are_met else 'NOT met'}")
    return lines


def main():
    words = argparse.ArgumentParser(description="Measures scans over feeds of NVD's size.")
    words.add_argument("program")
    words.add_argument("--share", type=float, default=0.1)
    words.add_argument("--machines", type=int, default=MACHINES)
    words.add_argument("--items", type=int, default=ITEMS)
    words.add_argument("--of", type=int, default=PRODUCTS)
    words.add_argument("--whole", action="store_true")
    words.add_argument("--fresh", action="store_true")
    options = words.parse_args()
    products, advisories, window, machines = made(options)
    print(f"{options.share:g} of NVD: {len(products)} pages of products, {len(advisories)} of advisories; {options.machines} machines of {options.items} items")
    store = ["--store", str(BUILD / "store")]
    measured("the store is filled", options, "store", "add", *store, *products, *advisories)
    size = sum(path.stat().st_size for path in (BUILD / "store").iterdir()) // 1_000_000
    print(f"    the store has {size} MB")
    found = measured("a scan from the store", options, "scan", *store, "--machines", machines[0])
    if options.whole:
        pages = ["--dictionary", *products, "--advisories", *advisories, "--machines", machines[0]]
        whole = measured("a scan without it", options, "scan", *pages)
        print("    it writes the same" if whole == found else "    it writes something ELSE")
    measured("what changed is added", options, "store", "add", *store, *window)
    found = measured("a day later", options, "scan", *store, "--machines", machines[1])
    if options.fresh:
        whole = measured("a day later, if all is decided", options, "scan", *store, "--machines", machines[1], "--fresh")
        print("    it writes the same" if whole == found else "    it writes something ELSE")


if __name__ == "__main__":
    main()
