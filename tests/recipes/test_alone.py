"""A machine's verdicts don't depend on other machines: they are the same alone, among others, in any order, and in a
fleet. The tests need the program that CPE names, and are skipped without it. CPE_FLEETS is how many fleets are drawn,
and CPE_SEED the first of their seeds."""
import os
import unittest
from collections import Counter

from test_scan import Drawn, name, of_fleet, ranged, scanned, statement, truths

from cpe_recipes.advisories import Range
from cpe_recipes.cases import FeedData
from cpe_recipes.components import Component, Machine

FLEETS, SEED = int(os.environ.get("CPE_FLEETS", "20")), int(os.environ.get("CPE_SEED", "1"))
VERSIONS = ["1.0", "v1.0", "1.0-1", "1.1", "2.0", "-", "*"]


def of_part(part, product, version="*"):
    return name("v", product, version).replace(":a:", f":{part}:", 1)


def negated(*children):
    return {"op": "OR", "negate": True, "of": list(children)}


class DrawnParts(Drawn):
    """Names of all parts, versions with two spellings, packages of distributions, and components with two names."""

    PRODUCTS, VERSIONS = ["p", "q"], ["1.0", "v1.0", "1.1", "2.0", "*"]

    def name(self, versions=None):
        return super().name(versions).replace(":a:", f":{self.draw.choice('aaoh')}:", 1)

    def child(self, depth):
        """The test of NVD's configurations, and some that are nested deeper; now and then a check has no result."""
        kind = self.draw.random()
        if depth and kind < 0.55:
            of = [self.child(depth - 1) for _ in range(self.draw.randint(1, 3))]
            return {"op": self.draw.choice(["AND", "OR"]), "negate": self.draw.random() < 0.25, "of": of}
        return super().child(0)

    def component(self, versions):
        names = dict.fromkeys(self.name(versions) for _ in range(1 + (self.draw.random() < 0.2)))
        return Component(names=tuple(names), kind=self.draw.choice(["", "", "deb"]))

    def machines(self, versions):
        return [Machine(f"m{k}", [self.component(versions) for _ in range(self.draw.randint(1, 4))]) for k in range(8)]

    def listed(self):
        """The lists of the match feed for some ranges."""
        return {key: [self.name(["1.0", "2.0"])] for key in self.ranges if self.draw.random() < 0.2}


@unittest.skipUnless(os.environ.get("CPE"), "CPE names no program")
class Alone(unittest.TestCase):
    def check(self, known, machines, listed=None):
        """Checks that the verdicts of the machines are the same alone, and in the reverse order."""
        made, found = scanned(known, machines, listed)
        all_of_them = [truths(known, made, one) for one in found]
        turned = [Machine(one.name, reversed(one.components)) for one in reversed(machines)]
        made_again, found_again = scanned(known, turned, listed)
        for machine, wanted, again in zip(machines, all_of_them, reversed(found_again)):
            made_alone, alone = scanned(known, [machine], listed)
            self.assertEqual(truths(known, made_alone, alone[0]), wanted, machine.line())
            self.assertEqual(truths(known, made_again, again), wanted, machine.line())
        return all_of_them

    def test_a_version_that_another_machine_spells_otherwise(self):
        old, new = Range("OLD", name("v", "p"), "0.5", "2.0", end_excluded=True), Range("NEW", name("v", "p"), "3.0", "4.0")
        asks = [statement("OLD", ranged(old)), statement("NEW", ranged(new)), statement("NOT-OLD", ranged(old), negate=True)]
        asks += [statement("NOT-NEW", ranged(new), negate=True), statement("NAME", {"fact": name("v", "p", "1.0")})]
        feed_data = FeedData([], asks, {"OLD": old, "NEW": new}, {}, {})
        wanted = {"OLD": "TRUE", "NEW": "FALSE", "NOT-OLD": "FALSE", "NOT-NEW": "TRUE", "NAME": "TRUE"}
        plain, other = name("v", "p", "1.0"), name("v", "p", "v1.0")
        deb = Component(names=(name("v", "p", "1.0-2"),), kind="deb")
        machines = [Machine(f"m{k}", has) for k, has in enumerate([[plain], [other], [deb], [plain, other], [other, deb], [deb, plain]])]
        self.assertEqual(self.check(feed_data, machines), [wanted] * len(machines))

    def test_a_spelling_that_may_be_in_a_range_is_unknown_where_that_is_negated(self):
        one = Range("ONE", name("v", "p"), "1.0", "1.0")
        feed_data = FeedData([], [statement("NOT", ranged(one), negate=True), statement("NAME", {"fact": name("v", "p", "1.0")})], {"ONE": one}, {}, {})
        found = self.check(feed_data, [Machine("a", [name("v", "p", "1.0-2")]), Machine("b", [name("v", "p", "1.0")]), Machine("c", [name("v", "p", "2.0")])])
        self.assertEqual([one["NOT"] for one in found], ["UNKNOWN", "FALSE", "TRUE"])

    def test_a_part_of_which_a_list_is_silent_beside_what_is_negated(self):
        """The statement may be UNKNOWN on a machine that has none of its names."""
        board, system, app = ({"fact": of_part(part, product)} for part, product in (("h", "board"), ("o", "os"), ("a", "app")))
        open_check = {"check": {"system": "NVD", "href": "cpeMatch", "id": "BAD"}}
        far = Range("FAR", name("w", "far"), None, "1")
        asks = [statement("NOT", board, {"op": "OR", "of": [system, negated(app)]}, op="AND"), statement("FAR", ranged(far))]
        asks += [statement("OPEN", board, {"op": "OR", "of": [system, open_check]}, op="AND"), statement("BOTH", board, system, op="AND")]
        feed_data = FeedData([], asks, {"FAR": far}, {}, {"BAD": "a name that is none"})
        other_system, other_board = of_part("o", "other", "1"), of_part("h", "other", "1")
        has = [[other_system], [other_system, of_part("a", "app", "1")], [other_system, other_board], [name("w", "q", "1")]]
        machines = [Machine(f"m{k}", names) for k, names in enumerate(has)]
        found = self.check(feed_data, machines)
        ids = ("NOT", "OPEN", "BOTH")
        wanted = [["UNKNOWN", "UNKNOWN", "FALSE"], ["FALSE", "UNKNOWN", "FALSE"], ["FALSE"] * 3, ["FALSE"] * 3]
        self.assertEqual([[one[id] for id in ids] for one in found], wanted)
        made, found_of_all = scanned(feed_data, machines, is_all_asked=True)
        self.assertEqual([truths(feed_data, made, one) for one in found_of_all], found)
        self.assertEqual([{line.split()[1]: line.split()[2] for line in lines} for lines in of_fleet(feed_data, machines, False)], found)

    def test_drawn_fleets(self):
        counts, ranges = Counter(), 0
        for seed in range(SEED, SEED + FLEETS):
            drawn = DrawnParts(seed)
            known, machines, listed = drawn.known(), drawn.machines(VERSIONS + ["1.*"] * (seed % 2)), drawn.listed()
            with self.subTest(seed=seed):
                found = self.check(known, machines, listed)
                made, found_of_all = scanned(known, machines, listed, is_all_asked=True)
                self.assertEqual([truths(known, made, one) for one in found_of_all], found)
                if known.ranges:
                    made, found_without = scanned(known, machines)
                    for one, lines in zip(found_without, of_fleet(known, machines, False)):
                        wanted = [f"{one.machine.name} {id} {truth}" for id, truth in truths(known, made, one).items()]
                        self.assertEqual(lines, wanted, one.machine.line())
                counts.update(truth for one in found for truth in one.values())
                ranges += len(known.ranges)
        self.assertGreater(min(counts[truth] for truth in ("TRUE", "FALSE", "UNKNOWN")), FLEETS, counts)
        self.assertGreater(ranges, FLEETS)


if __name__ == "__main__":
    unittest.main()
