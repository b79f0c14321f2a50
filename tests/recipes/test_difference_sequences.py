"""A scan from a store that takes verdicts of an earlier one has the same output as a scan that decides all, whatever
was added, changed or killed.

DIFFERENCE_SEQUENCES is how many sequences are drawn (24 if it isn't set), and DIFFERENCE_FIRST the first one of them.
"""
import functools
import json
import os
import signal
import tempfile
import unittest
from pathlib import Path
from unittest import mock

from drawn_feeds import ODD_NAMES, PRODUCTS, VENDORS, Feeds
from recipe_case import needs_cpe
from stored_case import killed, ran

from cpe_recipes import names_table, scan, store
from cpe_recipes.difference import Difference
from cpe_recipes.earlier_scans import EarlierScans

SEQUENCES = int(os.environ.get("DIFFERENCE_SEQUENCES", "24"))
FIRST = int(os.environ.get("DIFFERENCE_FIRST", "0"))
FORMS = ([], ["--why"], ["--strict", "--hardware", "none"], ["--platform", "cpe:2.3:o:v:s:1.0:*:*:*:*:*:*:*"])


class Plain(Feeds):
    """Feeds of more products, with few odd records and few deprecations, so that a change touches only some of them.
    Names have other versions, updates and so on than other names."""

    def name(self, version=None, part="a"):
        if version is None:
            version = "1.*" if self.is_one_of(60) else self.draw.choice(["1.0", "1.0", "1.0.0", "1.1", "2.0", "2.1", "3.0b"])
        rest = self.draw.choice(["*:*:*:*:*"] * 6 + ["*:*:*:wordpress:*", "*:en:*:*:*", "*:*:pro:*:*"])
        update = self.draw.choice(["*"] * 6 + ["sp1"])
        vendor, product = self.draw.choice(VENDORS), self.draw.choice([*PRODUCTS, *"abcdefgh"])
        return f"cpe:2.3:{part}:{vendor}:{product}:{version}:{update}:{rest}:*"

    def match(self, is_vulnerable=True, part="a"):
        while True:
            match = super().match(is_vulnerable, part)
            if match["criteria"] not in ODD_NAMES or self.is_one_of(8):
                break
        # (if two advisories share the id of a match, each scan decides all)
        if not self.is_one_of(400):
            key = f"K{self.draw.randrange(10**9)}"
            if match["matchCriteriaId"] in self.matches:
                self.matches[key] = self.matches.pop(match["matchCriteriaId"])
                self.matches[key]["matchString"]["matchCriteriaId"] = key
            match["matchCriteriaId"] = key
        return match

    def configuration(self):
        found = super().configuration()
        for one in (found, *found["nodes"]):
            one["negate"] = one["negate"] and self.is_one_of(4)
        return found

    def _put_product(self, number):
        super()._put_product(number)
        if not self.is_one_of(4):
            for key in ("deprecated", "deprecatedBy", "deprecates"):
                self.products[number]["cpe"].pop(key, None)

    def changed(self, folder):
        pages = super().changed(folder)
        # (mostly one kind of feed has changed)
        return pages if self.is_one_of(3) else {kind: pages[kind] for kind in self.draw.sample(sorted(pages), min(len(pages), 1))}


class Fleet:
    """Machines whose lists change from day to day."""

    def __init__(self, feeds, path):
        self.feeds, self.draw, self.path = feeds, feeds.draw, path
        self.machines = {f"m{number}": self.items() for number in range(4)}

    def item(self):
        feeds = self.feeds
        if feeds.is_one_of(8):
            return feeds.device()
        if feeds.is_one_of(25):
            return self.draw.choice(["cpe:2.3:a:v*:q:1.0:*:*:*:*:*:*:*", "cpe:2.3:a:bad", "cpe:2.3:a:w:?s:1.*:*:*:*:*:*:*:*"])
        if feeds.is_one_of(6):
            return {"id": "it", "names": [], "purl": f"pkg:generic/{self.draw.choice(PRODUCTS)}@{self.draw.choice(['1.0', '2.0'])}"}
        name = feeds.name(self.draw.choice(["1.0", "1.0.0", "1.1", "2.0", "2.1", "*"]))
        return {"id": "it", "names": [name, feeds.name("1.0")], "kind": self.draw.choice(["", "deb"])} if feeds.is_one_of(6) else name

    def items(self):
        return [self.item() for _ in range(self.draw.randint(1, 4))]

    def day(self):
        """A day later: some lists have changed."""
        for name in list(self.machines):
            what, items = self.draw.randrange(12), self.machines[name]
            if what == 0:
                items.append(self.item())
            elif what == 1:
                items.insert(0, self.item())
            elif what == 2 and items:
                del items[self.draw.randrange(len(items))]
            elif what == 3:
                self.draw.shuffle(items)
            elif what == 4 and self.feeds.is_one_of(3):
                self.machines[name] = self.items()
            elif what == 5 and self.feeds.is_one_of(3):
                del self.machines[name]
        if self.feeds.is_one_of(4) or not self.machines:
            self.machines[f"m{self.draw.randrange(4, 9)}"] = self.items()

    def written(self):
        lines = (json.dumps({"machine": name, "components": items}) for name, items in self.machines.items())
        self.path.write_text("".join(f"{line}\n" for line in lines))
        return str(self.path)


def scan_killed(words, folder, moment):
    """Runs a scan that is killed while it keeps its decisions: before the file, or in the middle of it."""
    process = os.fork()
    if process == 0:
        name = ("cpe_recipes.earlier_scans.os.replace", "cpe_recipes.scan_recorder.EarlierScans.put")[moment]
        try:
            with mock.patch(name, side_effect=lambda *_: os.kill(os.getpid(), signal.SIGKILL)):
                ran(scan.run, words)
        finally:
            os._exit(0)
    return os.WIFSIGNALED(os.waitpid(process, 0)[1])


class Sequence:
    """A store, and a fleet that is scanned from it day by day."""

    def __init__(self, seed, folder):
        self.folder, self.feeds = Path(folder), Plain(seed, products=60, advisories=60)
        self.draw = self.feeds.draw
        self.fleet = Fleet(self.feeds, self.folder / "machines")
        self.store = str(self.folder / "store")
        self.kills = self.taken = self.again = self.scans = 0
        ran(store.run, self._adding(self.feeds.whole(self.folder)))

    def _adding(self, pages):
        return ["add", "--store", self.store, *(path for of_kind in pages.values() for path in of_kind)]

    def add(self, pages):
        words = self._adding(pages)
        if self.draw.randrange(4) == 0 and killed(words, self.draw.randint(1, 40)):
            self.kills += 1
            if self.draw.randrange(2) == 0:
                return
        ran(store.run, words)

    def day(self):
        what = self.draw.randrange(8)
        if what == 0:
            self.add(self.feeds.whole(self.folder))
        elif what < 7:
            self.add(self.feeds.changed(self.folder))
        if what != 1:
            self.fleet.day()

    def scanned(self, form):
        """The output and the kept file of a scan that takes what it can, and of one that decides all."""
        # (a killed run may have left out pages)
        words = ["--json", "--partial", "--store", self.store, "--machines", self.fleet.written(), *form]
        if self.draw.randrange(8) == 0:
            self.kills += scan_killed(words, self.folder, self.draw.randrange(2))
        kept, prepared = [], Difference.plan
        put = EarlierScans.put

        def counted(difference, ids):
            found = prepared(difference, ids)
            if found is not None:
                self.scans += 1
                self.taken += sum(map(len, found.rows.values()))
                self.again += len(found.extract.feed_data.statements)
            return found

        def noted(fleets, fleet, before, said):
            kept.append(fleet)
            if len(kept) == 1:
                put(fleets, fleet, before, said)

        with mock.patch.object(EarlierScans, "put", noted), mock.patch.object(Difference, "plan", counted):
            found, wanted = ran(scan.run, words), ran(scan.run, [*words, "--fresh"])
        return (found, kept[:1]), (wanted, kept[1:])


def rows_of(fleets):
    """The kept machines and names of items, without the time and the changes."""
    found = []
    for one in fleets:
        machines = {name: json.loads(json.dumps([then.keys, then.parts, then.has_items, then.rows])) for name, then in one.machines.items()}
        found.append((machines, one.item_names, one.successors, one.leads.found, one.leads.refused, one.is_whole))
    return found


@needs_cpe
# (the table never changes, and reading it takes as long as all else)
@mock.patch("cpe_recipes.names_table.read_table", functools.cache(names_table.read_table))
class Sequences(unittest.TestCase):
    maxDiff = 4_000

    def test_what_is_taken_is_what_would_be_decided(self):
        kills = taken = scans = 0
        for seed in range(FIRST, FIRST + SEQUENCES):
            with tempfile.TemporaryDirectory() as folder, self.subTest(seed):
                sequence = Sequence(seed, folder)
                form = FORMS[seed % len(FORMS)]
                for _ in range(3):
                    (found, kept), (wanted, fresh) = sequence.scanned(form)
                    self.assertEqual(found, wanted)
                    self.assertEqual(rows_of(kept), rows_of(fresh))
                    sequence.day()
                kills, taken, scans = kills + sequence.kills, taken + sequence.taken, scans + sequence.scans
        print(f"{kills} kills, {scans} scans, {taken} verdicts taken")
        self.assertGreater(kills, SEQUENCES // 4)
        self.assertGreater(taken, SEQUENCES)


if __name__ == "__main__":
    unittest.main()
