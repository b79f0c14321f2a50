"""The verdicts of components with several names, by the program that CPE names; without it these tests are skipped."""
import itertools
import os
import unittest

from recipe_case import RecipeCase, needs_cpe

from cpe_recipes import fleet
from cpe_recipes.advisories import Range
from cpe_recipes.arguments import read_arguments
from cpe_recipes.cases import FeedData
from cpe_recipes.components import Component, Machine
from cpe_recipes.outcome import OutcomeReasons
from cpe_recipes.program import Program
from cpe_recipes.session import Session
from test_scan import Drawn, deprecate, entry, name, ranged, scanned, statement, truths

AGENT = Component("agent", (name("v", "agent", "1"), name("w", "agent", "1")))
SYSTEM = Component("system", (name("m", "ten", "1"), name("m", "eleven", "1")))


def has(vendor, product):
    return {"fact": name(vendor, product)}


def negated(*children, op="OR"):
    return {"op": op, "negate": True, "of": list(children)}


# For each statement its verdict if AGENT and SYSTEM are there, and if AGENT has only one of its names.
STATEMENTS = {
    "either name": (statement("either name".replace(" ", "-"), has("w", "agent")), "TRUE", "FALSE"),
    "neither": (statement("neither", has("x", "agent")), "FALSE", "FALSE"),
    "both of one": (statement("both-of-one", has("v", "agent"), has("m", "ten"), op="AND"), "TRUE", "FALSE"),
    "but not on one": (statement("but-not-on-one", has("v", "agent"), negated(has("m", "eleven")), op="AND"), "UNKNOWN", "TRUE"),
    "but not on either": (statement("but-not-on-either", has("v", "agent"), negated(has("m", "*")), op="AND"), "FALSE", "TRUE"),
    "but not on another": (statement("but-not-on-another", has("v", "agent"), negated(has("m", "twelve")), op="AND"), "TRUE", "TRUE"),
    "other, not on one": (statement("other-not-on-one", has("x", "agent"), negated(has("m", "ten")), op="AND"), "FALSE", "FALSE"),
    "none": (statement("none", has("w", "agent"), negate=True), "UNKNOWN", "TRUE"),
    "not not": (statement("not-not", negated(has("w", "agent")), negate=True), "TRUE", "FALSE"),
}
RECORDS = [record for record, _, _ in STATEMENTS.values()]


@unittest.skipUnless(os.environ.get("CPE"), "CPE names no program")
class Verdicts(RecipeCase):
    def test_one_name_is_enough_and_what_negates_it_is_unknown(self):
        feed_data = FeedData([], RECORDS, {}, {}, {})
        machines = [Machine("several", [AGENT], SYSTEM), Machine("one", [AGENT.names[0]])]
        made, found = scanned(feed_data, machines)
        for of, one in enumerate(found, 1):
            wanted = {record[0].split('"id":"')[1].split('"')[0]: record[of] for record in STATEMENTS.values()}
            self.assertEqual(truths(feed_data, made, one), wanted)
        reason = "{0} may have another name than {0}, and {1} is negated"
        self.assertEqual(OutcomeReasons(feed_data, found).on("but-not-on-one", "several"), [reason.format(name("m", "eleven", "1"), name("m", "eleven"))])
        self.assertEqual(OutcomeReasons(feed_data, found).on("none", "several"), [reason.format(AGENT.names[1], name("w", "agent"))])

    def test_a_fleet_says_the_same(self):
        records = self.file("records", "".join(f"{record}\n" for record in RECORDS))
        machines = [Machine("several", [AGENT], SYSTEM), Machine("one", [AGENT.names[0]])]
        path = self.file("machines", "".join(f"{one.line()}\n" for one in machines))
        asked = fleet.read_fleet(Program(), read_arguments([records, path], fleet.OPTIONS, fleet.USAGE), self.messages)
        session = Session(Program().path, asked.fleet_data)
        self.addCleanup(session.end)
        for of, machine in enumerate(asked.machines, 1):
            lines = session.ask(machine).lines
            self.assertEqual([line.rpartition(" ")[2] for line in lines], [record[of] for record in STATEMENTS.values()])
        self.assertEqual(self.messages.told, [])

    def test_a_range_that_one_name_is_in(self):
        old, new = name("v", "agent", "1"), name("w", "agent", "7")
        inside = Range("KEY", name("v", "agent"), None, "2", end_excluded=True)
        feed_data = FeedData([], [statement("in", ranged(inside)), statement("not-in", ranged(inside), negate=True)], {"KEY": inside}, {}, {})
        for names, wanted in (((old,), ["TRUE", "FALSE"]), ((new,), ["FALSE", "TRUE"]), ((new, old), ["TRUE", "UNKNOWN"])):
            made, found = scanned(feed_data, [Machine("a", [Component("agent", names)])])
            self.assertEqual(list(truths(feed_data, made, found[0]).values()), wanted)

    def test_names_that_lead_to_one_disagree_about_nothing(self):
        old, new = name("mysql", "mysql", "5"), name("oracle", "mysql", "5")
        feed_data = FeedData([entry(old), entry(new), deprecate(old, new)], [statement("not", {"fact": new}, negate=True)], {}, {}, {})
        made, found = scanned(feed_data, [Machine("a", [Component("mysql", (old, new))])])
        # (by its written old name the verdict would differ)
        self.assertIn(truths(feed_data, made, found[0])["not"], ("FALSE", "UNKNOWN"))

    def test_nothing_is_false_that_is_not_by_some_choice(self):
        counts = {}
        for seed in range(30):
            drawn = Drawn(seed)
            known = drawn.known()
            machines = [
                Machine(f"m{k}", [Component(f"c{j}", tuple(dict.fromkeys(drawn.name(["1.0", "1.1", "2.0"]) for _ in range(2)))) for j in range(3)])
                for k in range(4)
            ]
            made, found = scanned(known, machines)
            for one in found:
                worlds = [Machine(f"w{k}", names) for k, names in enumerate(itertools.product(*(it.names for it in one.machine.components)))]
                made_worlds, found_worlds = scanned(known, worlds)
                several = truths(known, made, one)
                for world in found_worlds:
                    for id, truth in truths(known, made_worlds, world).items():
                        counts[several[id], truth] = counts.get((several[id], truth), 0) + 1
                        self.assertFalse(several[id] == "FALSE" and truth == "TRUE", f"seed {seed} {one.machine} {id}")
        self.assertGreater(counts["FALSE", "FALSE"], 500, counts)
        self.assertGreater(counts["TRUE", "TRUE"], 500, counts)


if __name__ == "__main__":
    unittest.main()
