#!/usr/bin/env python3
"""Measures the whole way from feeds to verdicts, recipes/scan.py, over advisories of which most have ranges of
versions.

    python3 bench/scan.py PROGRAM [--advisories N] [--machines N] [--items N] [--rounds N]

It makes a dictionary, advisories and a match feed in the form of NVD's API 2.0, and machines, from the names of
official-names.txt, the same ones at every run, below build/bench/scan, and runs scan.py over them on two processors:
reading, deciding each range for each machine, asking for verdicts, and the table, which is thrown away. It prints how
many verdicts there are of each truth, the seconds of the best run, and the most memory that one of the processes held.
Python 3 (standard library alone) and Linux.
"""
import argparse
import json
import os
import pathlib
import random
import resource
import subprocess
import sys
import time

HERE = pathlib.Path(__file__).resolve().parent
SCAN = HERE.parent / "recipes" / "scan.py"
BUILD = HERE.parent / "build" / "bench" / "scan"
SEED = 2024
# The limits of time and memory for the whole way, with these numbers of advisories, machines, items and processors.
MOST_SECONDS, ADVISORIES, MACHINES, ITEMS, PROCESSORS = 30, 10_000, 100, 300, 2

RANGED, LISTED, PLATFORM, DEPRECATED, LETTERS = 0.8, 0.3, 0.1, 0.03, 0.05
PAGE = 2_000


class Feeds:
    """What is drawn from the sample: products with versions, and what advisories say of them."""

    def __init__(self, names):
        self.draw = random.Random(SEED)
        self.matches = []
        fronts = dict.fromkeys(":".join(name.replace("\\:", "\0").split(":")[:5]).replace("\0", "\\:") for name in names)
        self.products = {front: self.versions() for front in fronts}
        self.fronts = list(fronts)
        # (a few products have many advisories, and most have few)
        self.weights = [1 / (rank + 5) for rank in range(len(self.fronts))]
        self.draw.shuffle(self.weights)

    def versions(self):
        major, minor = self.draw.randint(0, 9), self.draw.randint(1, 5)
        found = [f"{major + k // minor}.{k % minor}.{self.draw.randint(0, 30)}" for k in range(self.draw.randint(4, 12))]
        if self.draw.random() < LETTERS:
            found = [version + self.draw.choice("abcde") for version in found]
        return found

    def front(self):
        return self.draw.choices(self.fronts, self.weights)[0]

    def name(self, front, version):
        return f"{front}:{version}:*:*:*:*:*:*:*"

    def entries(self):
        """The products of the dictionary, some of them deprecated by one of another vendor."""
        for front, versions in self.products.items():
            is_renamed = self.draw.random() < DEPRECATED
            for version in versions:
                name = self.name(front, version)
                product = {"deprecated": is_renamed, "cpeName": name, "cpeNameId": name}
                product |= {"created": "2020-01-01T00:00:00.000", "lastModified": "2024-01-01T00:00:00.000"}
                product["titles"] = [{"title": f"{front.split(':')[4]} {version}", "lang": "en"}]
                if is_renamed:
                    parts = front.split(":")
                    new = self.name(":".join([*parts[:3], f"{parts[3]}_inc", *parts[4:]]), version)
                    product["deprecatedBy"] = [{"cpeName": new}]
                    yield {"cpe": {"deprecated": False, "cpeName": new, "cpeNameId": new, "titles": []}}
                yield {"cpe": product}

    def match(self, front, is_vulnerable=True):
        key = f"{self.draw.getrandbits(32):08X}-0000-4000-8000-{len(self.matches):012d}"
        versions = self.products[front]
        if self.draw.random() >= RANGED:
            return {"vulnerable": is_vulnerable, "criteria": self.name(front, self.draw.choice(versions)), "matchCriteriaId": key}
        # (what is known of is mostly mended in the newest)
        first, last = sorted(int(len(versions) * self.draw.triangular(0, 1, 0.2)) for _ in range(2))
        bounds = {}
        if self.draw.random() < 0.6:
            bounds["versionStartIncluding"] = versions[first]
        bounds[self.draw.choice(["versionEndIncluding", "versionEndExcluding"])] = versions[last]
        if self.draw.random() < LISTED:
            listed = [{"cpeName": self.name(front, version)} for version in versions[first:last]]
            string = {"matchCriteriaId": key, "criteria": self.name(front, "*"), **bounds, "matches": listed}
            self.matches.append({"matchString": string})
        return {"vulnerable": is_vulnerable, "criteria": self.name(front, "*"), **bounds, "matchCriteriaId": key}

    def advisory(self, number):
        front = self.front()
        nodes = [{"operator": "OR", "negate": False, "cpeMatch": [self.match(front) for _ in range(self.draw.randint(1, 5))]}]
        configuration = {"nodes": nodes}
        if self.draw.random() < PLATFORM:
            nodes.append({"operator": "OR", "negate": self.draw.random() < 0.3, "cpeMatch": [self.match(self.front(), False)]})
            configuration["operator"] = "AND"
        score = self.draw.randint(10, 100) / 10
        metrics = {"cvssMetricV31": [{"type": "Primary", "cvssData": {"baseScore": score, "baseSeverity": "HIGH"}}]}
        words = f"Something of {front.split(':')[4]} can be used from where it should not, as number {number}."
        cve = {"id": f"CVE-2024-{100_000 + number}", "vulnStatus": "Analyzed", "descriptions": [{"lang": "en", "value": words}]}
        return {"cve": {**cve, "metrics": metrics, "configurations": [configuration]}}

    def machine(self, count):
        fronts = {self.front() for _ in range(count)}
        while len(fronts) < count:
            fronts.add(self.draw.choice(self.fronts))
        return [self.name(front, self.installed(self.products[front])) for front in sorted(fronts)]

    def installed(self, versions):
        """A version as machines have it: mostly one of the newest."""
        return versions[min(len(versions) - 1, int(len(versions) * self.draw.triangular(0, 1.2, 1)))]


def write(name, member, records):
    """The pages of a feed."""
    paths = []
    for first in range(0, len(records), PAGE):
        path = BUILD / f"{name}-{first // PAGE}.json"
        part = records[first : first + PAGE]
        head = {"resultsPerPage": len(part), "startIndex": first, "totalResults": len(records)}
        path.write_text(json.dumps({**head, member: part}))
        paths.append(str(path))
    return paths


def made(options):
    BUILD.mkdir(parents=True, exist_ok=True)
    with open(HERE / "official-names.txt", encoding="ascii") as file:
        feeds = Feeds(file.read().split())
    words = ["--dictionary", *write("dictionary", "products", list(feeds.entries()))]
    words += ["--advisories", *write("advisories", "vulnerabilities", [feeds.advisory(k) for k in range(options.advisories)])]
    words += ["--matches", *write("matches", "matchStrings", feeds.matches)]
    machines = BUILD / "machines.txt"
    machines.write_text("".join(f"machine-{k} {' '.join(feeds.machine(options.items))}\n" for k in range(options.machines)))
    return [*words, "--machines", str(machines)]


def on_few_processors():
    os.sched_setaffinity(0, sorted(os.sched_getaffinity(0))[:PROCESSORS])


def once(words, program):
    """The seconds of a run, and what it writes."""
    begin = time.monotonic()
    how = {"env": {**os.environ, "CPE": program}, "preexec_fn": on_few_processors, "check": False}
    run = subprocess.run([sys.executable, str(SCAN), *words], capture_output=True, text=True, **how)
    took = time.monotonic() - begin
    if run.returncode > 1:
        sys.exit(run.stderr)
    return took, run.stdout, run.stderr


def main():
    words = argparse.ArgumentParser(description="Measures the whole way from feeds to verdicts.")
    words.add_argument("program")
    words.add_argument("--advisories", type=int, default=ADVISORIES)
    words.add_argument("--machines", type=int, default=MACHINES)
    words.add_argument("--items", type=int, default=ITEMS)
    words.add_argument("--rounds", type=int, default=3)
    options = words.parse_args()
    given = made(options)
    runs = [once(given, os.path.abspath(options.program)) for _ in range(options.rounds)]
    took, table, said = min(runs)
    print(f"{options.advisories} advisories, {options.machines} machines of {options.items} items, on {PROCESSORS} processors")
    print(table.rstrip().rsplit("\n", 1)[-1])
    print(f"left out: {said.count('left out ')}, remarks: {said.count('remark ')}")
    peak = resource.getrusage(resource.RUSAGE_CHILDREN).ru_maxrss
    print(f"{took:.1f} seconds, the best of {options.rounds}; at most {peak // 1024} MiB in one process")
    if (options.advisories, options.machines, options.items) == (ADVISORIES, MACHINES, ITEMS):
        print(f"at most {MOST_SECONDS} seconds: {'met' if took <= MOST_SECONDS else 'NOT met'}")


if __name__ == "__main__":
    main()
