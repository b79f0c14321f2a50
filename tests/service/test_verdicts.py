"""The verdicts of the service are those of scan.py, over the samples and over random fleets, after any order of puts,
deletes and feeds, whichever machines are judged together.

CPE_FLEETS is how many fleets are drawn, and CPE_SEED the first of their seeds.
"""
import json
import os
import random
import re
import sys
import unittest
from collections import Counter
from unittest import mock

from service_case import CPE, ROOT, SAMPLES, ServiceCase, feed

sys.path[:0] = [str(ROOT / folder) for folder in ("bench", "service", "tests/recipes")]
import scan as drawing  # noqa: E402
from test_alone import VERSIONS, DrawnParts, scanned  # noqa: E402
from test_scan import NO_LETTERS  # noqa: E402

from cpe_service.ground import Ground  # noqa: E402
from cpe_service.judge import Judge  # noqa: E402
from cpe_service.message_list import MessageList  # noqa: E402
from cpe_recipes import affected  # noqa: E402
from cpe_recipes.advisory_states import States  # noqa: E402
from cpe_recipes.components import Machine  # noqa: E402
from cpe_recipes.names_table import read_tables  # noqa: E402
from cpe_recipes.outcome import OutcomeReasons, json_of, machines_with_verdicts  # noqa: E402
from cpe_recipes.program import Program  # noqa: E402
from cpe_recipes.range_checks import MatchLists  # noqa: E402
from cpe_recipes.settlements import read_settlements  # noqa: E402
from cpe_recipes.suppressions import Suppressions  # noqa: E402

FLEETS, SEED = int(os.environ.get("CPE_FLEETS", "5")), int(os.environ.get("CPE_SEED", "1"))
_LISTS = (".cdx.json", ".spdx.json", ".txt")
_NO_LISTS = ("truths.txt", "suppress.txt", "letters.txt")


def kind_of(verdict):
    return "accepted" if "accepted" in verdict else "perhaps" if verdict.get("perhaps") else verdict["verdict"]


class SamplesTest(ServiceCase):
    def check(self, sample):
        folder = SAMPLES / sample
        paths = [path for path in sorted(folder.iterdir()) if path.name.endswith(_LISTS) and path.name not in _NO_LISTS]
        lists = {path.name.split(".")[0]: path.read_bytes() for path in paths}
        matches = [folder / "matches.json"] if (folder / "matches.json").exists() else []
        server = self.with_samples(sample)
        for name, data in lists.items():
            status, value = server.put(name, data)
            self.assertEqual((status, value["state"]), (201, "judged"), value)
        wanted, _ = self.scanned(lists, [folder / "dictionary.json"], [folder / "advisories.json"], matches)
        for name in lists:
            self.assertEqual(self.judged(server, name), wanted[name])

    def test_ranges(self):
        self.check("ranges")

    def test_doubts(self):
        self.check("doubts")

    def test_orders(self):
        self.check("orders")


class Fleet:
    """A random session: accepted data is kept in files, as input for scan.py."""

    def __init__(self, case, seed):
        self.case, self.draw = case, random.Random(seed)
        with open(ROOT / "bench" / "official-names.txt", encoding="ascii") as file:
            self.feeds = drawing.Feeds(self.draw.sample(file.read().split(), 25))
        self.feeds.draw = self.draw
        self.server = case.server("--rate", "100000", "--workers", str(self.draw.randint(1, 2)), name=f"data-{seed}")
        self.files = {"dictionary": [], "advisories": [], "matches": []}
        self.lists, self.tables, self.number = {}, {}, 0
        self.entries = list(self.feeds.entries())
        self.ids = 0
        self.post("dictionary", "products", self.entries[: self.draw.randint(1, len(self.entries))])
        self.advise()
        self.does = [self.put] * 6 + [self.delete, self.advise, self.advise, self.products, self.match, self.table]

    def post(self, name, kind, records, whole=False):
        data = json.dumps(feed(kind, *records))
        status, value = self.server.feed(data, **({"whole": "true"} if whole else {}))
        self.case.assertEqual((status, value.get("state")), (202, "counts"), value)
        self.number += 1
        path = self.server.folder / f"given-{self.number}.json"
        path.write_text(data)
        self.files[name] = [path] if whole else [*self.files[name], path]

    def advise(self):
        """A window of advisories: new ones, and changed ones."""
        records = []
        for _ in range(self.draw.randint(1, 12)):
            if self.ids and self.draw.random() < 0.4:
                number = self.draw.randint(1, self.ids)
            else:
                self.ids = number = self.ids + 1
            record = self.feeds.advisory(number)
            record["cve"]["lastModified"] = f"2024-{self.draw.randint(1, 12):02}-0{self.draw.randint(1, 9)}T00:00:00.000"
            odd = self.draw.random()
            if odd < 0.06:
                record["cve"] |= {"vulnStatus": "Rejected", "configurations": []}
            elif odd < 0.12:
                record["cve"] |= {"vulnStatus": "Undergoing Analysis", "configurations": []}
            elif odd < 0.16:
                record["cve"]["configurations"][0]["nodes"][0]["cpeMatch"][0]["criteria"] = "cpe:2.3:no"
            records.append(record)
        # (at least one has a verdict, so that scan.py has a result)
        records.append(self.feeds.advisory(0))
        self.post("advisories", "vulnerabilities", records, whole=self.draw.random() < 0.1)

    def products(self):
        self.post("dictionary", "products", self.draw.sample(self.entries, self.draw.randint(1, len(self.entries))), self.draw.random() < 0.2)

    def match(self):
        if self.feeds.matches:
            self.post("matches", "matchStrings", self.draw.sample(self.feeds.matches, self.draw.randint(1, len(self.feeds.matches))))

    def table(self):
        name = self.draw.choice(["suppress", "settled"])
        machine = self.draw.choice([*self.lists, "*"])
        id = f"CVE-2024-{100_000 + self.draw.randint(1, self.ids)}"
        line = f"{id} {machine} a reason" if name == "suppress" else f"{machine} {id} {self.draw.choice(['TRUE', 'FALSE'])} a reason"
        self.tables[name] = f"{line}\n"
        status, _ = self.server.ask("PUT", f"/tables/{name}", self.tables[name])
        self.case.assertEqual(status, 200)

    def item(self):
        name = self.draw.choice(self.entries)["cpe"]["cpeName"]
        parts = name.split(":")
        odd = self.draw.random()
        if odd < 0.1:
            parts[5] = self.draw.choice(["*", "-", "1.*", "0", "99.9"])
        elif odd < 0.15:
            parts[4] = self.draw.choice(["other", "*"])
        elif odd < 0.2:
            return self.draw.choice(["cpe:/o:linux:linux_kernel:5.10", "cpe:/a:acme", "cpe:2.3:h:hp:laserjet:-:*:*:*:*:*:*:*"])
        return ":".join(parts)

    def put(self):
        name = f"m-{self.draw.randint(1, 6)}"
        items = [self.item() for _ in range(self.draw.randint(1, 8))]
        if self.draw.random() < 0.5:
            data = "\n".join(items)
        else:
            data = json.dumps({"bomFormat": "CycloneDX", "components": [{"type": "library", "name": "x", "cpe": one} for one in items]})
        status, value = self.server.put(name, data)
        self.case.assertIn(status, (200, 201), value)
        self.lists[name] = data.encode()

    def delete(self):
        if len(self.lists) > 1:
            name = self.draw.choice(list(self.lists))
            self.case.assertEqual(self.server.ask("DELETE", f"/machines/{name}")[0], 200)
            del self.lists[name]

    def check(self):
        """The service has the verdicts of scan.py, and its history leads to them."""
        self.server.settled()
        wanted, value = self.case.scanned(self.lists, self.files["dictionary"], self.files["advisories"], self.files["matches"], **self.tables)
        found = {name: self.case.judged(self.server, name) for name in self.lists}
        # (a place in a file is one in a feed there)
        wanted = json.loads(re.sub(r"given-(\d+)\.json", r"feed \1", json.dumps(wanted)))
        for name in wanted:
            self.case.assertEqual(found[name], wanted[name])
        kinds = {
            (name, one["id"]): kind_of(one) for name, row in wanted.items() for one in row.get("verdicts", ()) if kind_of(one) != "FALSE"
        }
        self.case.assertEqual(self.history(), kinds)
        ids = {id for _, id in kinds}
        for id in ids:
            _, answer = self.server.ask("GET", f"/advisories/{id}?limit=1000")
            of = {(one["name"], id): one["verdict"] for one in answer["machines"]}
            self.case.assertEqual(of, {key: kind for key, kind in kinds.items() if key[1] == id})
        self.check_lists(kinds)

    def check_lists(self, kinds):
        """The lists of advisories and of machines have them by kind."""
        of_each = {id: Counter(kind for (_, one), kind in kinds.items() if one == id) for _, id in kinds}
        for kind in ("", *dict.fromkeys(kinds.values()), "ERROR"):
            _, answer = self.server.ask("GET", f"/advisories?limit=1000{f'&kind={kind}' if kind else ''}")
            of_kind = {id: found for id, found in of_each.items() if not kind or found[kind]}
            count = lambda id: of_kind[id][kind] if kind else of_kind[id].total()  # noqa: E731
            is_true = kind in ("", "TRUE")
            wanted = sorted(of_kind, key=lambda id: (-of_kind[id]["TRUE"] * is_true, -count(id), id))
            self.case.assertEqual([(one["id"], one["counts"]) for one in answer["advisories"]], [(id, dict(of_kind[id])) for id in wanted])
            self.case.assertEqual(answer["total"], len(wanted))
            for one in answer["advisories"]:
                _, about = self.server.ask("GET", f"/advisories/{one['id']}?limit=1000{f'&kind={kind}' if kind else ''}")
                self.case.assertEqual(one["since"], min(machine["since"] for machine in about["machines"]))
            _, answer = self.server.ask("GET", f"/machines?limit=1000{f'&kind={kind}' if kind else ''}")
            wanted = sorted({name for (name, _), found in kinds.items() if found == kind} if kind else self.lists)
            self.case.assertEqual([one["name"] for one in answer["machines"]], wanted)

    def history(self):
        """The verdicts that result from the changes, one after the other."""
        kinds, after = {}, 0
        while True:
            _, value = self.server.ask("GET", f"/changes?limit=1000&after={after}")
            for one in value["changes"]:
                key = one["machine"], one["advisory"]
                self.case.assertNotEqual(one["before"], one["after"], one)
                self.case.assertEqual(one["before"] if one["before"] not in ("none", "FALSE") else None, kinds.pop(key, None), one)
                if one["after"] not in ("none", "FALSE"):
                    kinds[key] = one["after"]
            if "next" not in value:
                return kinds
            after = value["changes"][-1]["id"]

    def run(self):
        self.put()
        for number in range(1, 25):
            self.draw.choice(self.does)()
            if number % 12 == 0:
                self.check()
        self.server.kill()


@unittest.skipUnless(CPE, "there is no cpe")
class TogetherTest(unittest.TestCase):
    """What a judge learned about machines doesn't change the verdicts of later ones."""

    def rows(self, known, machines, listed):
        """The rows of scan.py for machines, by their names."""
        made, found = scanned(known, machines, listed, has_why=True)
        about = affected.AdvisoryContext({}, Suppressions([]), OutcomeReasons(known, found))
        value = json_of(known, found, machines_with_verdicts(known, made.bare, found), about)
        return {row["name"]: row for row in value["machines"]}

    def check(self, drawn, known, machines, listed):
        with mock.patch.dict(os.environ, {"CPE": CPE}):
            program = Program()
            parts = (States(), MatchLists(program, listed), NO_LETTERS, read_tables([]), Suppressions([]), read_settlements([], MessageList()), MessageList())
            judge = Judge(program, Ground(1, known.entries, known, *parts))
            self.addCleanup(judge.end)
            alone = {name: row for one in machines for name, row in self.rows(known, [one], listed).items()}
            self.assertEqual(self.rows(known, machines, listed), alone)
            for _ in range(2):
                waiting = drawn.draw.sample(machines, len(machines))
                while waiting:
                    count = drawn.draw.randint(1, 3)
                    some, waiting = waiting[:count], waiting[count:]
                    for machine_result in judge.judge([Machine(one.name, one.components) for one in some]):
                        for key in ("unnamed", "notNamed"):
                            machine_result.row.pop(key, None)
                        self.assertEqual(machine_result.row, alone[machine_result.name])

    def test_drawn_machines(self):
        for seed in range(SEED, SEED + 2 * FLEETS):
            drawn = DrawnParts(seed)
            with self.subTest(seed=seed):
                self.check(drawn, drawn.known(), drawn.machines(VERSIONS + ["1.*"] * (seed % 2)), drawn.listed())


class FleetsTest(ServiceCase):
    def test_drawn_fleets(self):
        for seed in range(SEED, SEED + FLEETS):
            with self.subTest(seed=seed):
                Fleet(self, seed).run()


if __name__ == "__main__":
    unittest.main()
