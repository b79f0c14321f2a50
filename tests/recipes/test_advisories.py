"""How NVD's advisories become statements."""
import itertools
import json
import random
import sys
import unittest
from pathlib import Path

sys.path.insert(0, str(Path(__file__).resolve().parent))

from stand_in import Heard, Names  # noqa: E402 (it knows where the recipes are)
from cpe_recipes.advisories import Range, base_id, convert, details, parts  # noqa: E402
from cpe_recipes.console import Fatal  # noqa: E402
from cpe_recipes.feeds import FormFault, Page, record_text  # noqa: E402


def name(product, version="*"):
    return f"cpe:2.3:a:acme:{product}:{version}:*:*:*:*:*:*:*"


def match(product, version="*", vulnerable=True, **more):
    return {"vulnerable": vulnerable, "criteria": name(product, version), **more}


def node(*matches, operator="OR", **more):
    return {"operator": operator, "negate": False, "cpeMatch": list(matches), **more}


def cve(*configurations, id="CVE-2024-99999", **more):
    return {"cve": {"id": id, "vulnStatus": "Analyzed", "configurations": list(configurations), **more}}


def converted(*vulnerabilities, is_decided=True):
    messages = Heard()
    return convert([Page("it.json", "vulnerabilities", list(vulnerabilities))], Names(), messages, is_decided), messages


def outcome(*vulnerabilities, is_decided=True):
    """The tests of the statements, and the messages about what is left out."""
    found, _ = converted(*vulnerabilities, is_decided=is_decided)
    return [json.loads(one.record)["test"] for one in found.candidates if one.record], [one.reason for one in found.candidates if one.reason]


def check(key, href="cpeMatch"):
    return {"check": {"system": "NVD", "href": href, "id": key}}


def fact(product, version="*"):
    return {"fact": name(product, version)}


class Logic(unittest.TestCase):
    def test_configurations_nodes_and_matches(self):
        both = {"operator": "AND", "nodes": [node(match("a", "1")), node(match("os", vulnerable=False), negate=True)]}
        tests, left = outcome(cve({"nodes": [node(match("a", "1"), match("b", "2"))]}, both))
        wanted = [
            {"op": "OR", "of": [{"op": "OR", "of": [fact("a", "1"), fact("b", "2")]}]},
            {"op": "AND", "of": [{"op": "OR", "of": [fact("a", "1")]}, {"op": "OR", "negate": True, "of": [fact("os")]}]},
        ]
        self.assertEqual((tests, left), ([{"op": "OR", "of": wanted}], []))

    def test_nodes_within_a_node(self):
        within = [node(match("a", "1")), node(match("os", vulnerable=False), negate=True)]
        old = {"operator": "AND", "negate": False, "cpeMatch": [], "children": within}
        bare = {"operator": "AND", "children": within}
        beside = {"operator": "OR", "negate": True, "cpeMatch": [match("c", "3")], "children": [bare]}
        inner = {"op": "AND", "of": [{"op": "OR", "of": [fact("a", "1")]}, {"op": "OR", "negate": True, "of": [fact("os")]}]}
        for given in (old, bare):
            tests, left = outcome(cve({"nodes": [given]}))
            self.assertEqual((tests, left), ([{"op": "OR", "of": [{"op": "OR", "of": [inner]}]}], []))
        tests, _ = outcome(cve({"nodes": [beside]}))
        logic = {"op": "OR", "of": [{"op": "OR", "negate": True, "of": [fact("c", "3"), inner]}]}
        # (it could hold without the vulnerable product, so the statement also asks for that)
        self.assertEqual(tests[0]["of"], [{"op": "AND", "of": [logic, {"op": "OR", "of": [fact("c", "3"), fact("a", "1")]}]}])

    def test_nodes_that_are_none(self):
        deep = node(match("a", "1"))
        for _ in range(30):
            deep = {"operator": "OR", "children": [deep]}
        for bad, reason in (
            ({"operator": "AND", "children": [7]}, "not of the published form"),
            ({"operator": "AND", "children": "x"}, "not of the published form"),
            ({"operator": "AND", "children": [{"operator": "OR", "cpeMatch": []}]}, "a node without matches"),
            ({"operator": "AND", "children": []}, "not of the published form"),
            (deep, "nodes that are nested too deep"),
        ):
            self.assertEqual(outcome(cve({"nodes": [bad]})), ([], [reason]))

    def test_what_is_vulnerable_must_be_there(self):
        tests, _ = outcome(cve({"nodes": [node(match("a", "1"), match("os", vulnerable=False))]}))
        logic = {"op": "OR", "of": [{"op": "OR", "of": [fact("a", "1"), fact("os")]}]}
        self.assertEqual(tests[0]["of"], [{"op": "AND", "of": [logic, {"op": "OR", "of": [fact("a", "1")]}]}])

    def test_without_what_is_vulnerable_nothing_is_stated(self):
        tests, left = outcome(cve({"nodes": [node(match("os", vulnerable=False))]}))
        self.assertEqual((tests, left), ([], ["a configuration without a vulnerable product"]))

    def test_what_has_no_configurations_is_not_analysed_and_a_rejected_one_remarked(self):
        found, said = converted(cve(vulnStatus="Awaiting Analysis"))
        self.assertEqual((found.candidates, said.told, said.status()), ([], ["remark not analysed: 1 advisory"], 0))
        self.assertEqual(found.states.unanalysed, {"CVE-2024-99999": "Awaiting Analysis"})
        found, said = converted(cve(vulnStatus="Rejected"))
        self.assertEqual((found.candidates, said.told), ([], ["remark CVE-2024-99999: rejected"]))


class Ranges(unittest.TestCase):
    def test_an_id_that_is_of_another_kind_of_check_is_none(self):
        for key in ("part o", "not K"):
            found, _ = converted(cve({"nodes": [node(match("a", versionEndExcluding="2.0", matchCriteriaId=key))]}))
            self.assertEqual(list(found.ranges), [f"{name('a')} before 2.0"])
        found, _ = converted(cve({"nodes": [node({"vulnerable": True, "criteria": "part o"})]}))
        self.assertEqual(list(found.stand_ins), ["match part o"])

    def test_a_range_is_the_product_and_a_check(self):
        ranged = match("a", versionStartIncluding="1.0", versionEndExcluding="2.0", matchCriteriaId="KEY")
        found, said = converted(cve({"nodes": [node(ranged)]}))
        test = json.loads(found.candidates[0].record)["test"]["of"][0]["of"][0]["of"][0]
        self.assertEqual(test, {"op": "AND", "of": [fact("a"), check("KEY")]})
        self.assertEqual(found.ranges, {"KEY": Range("KEY", name("a"), "1.0", "2.0", False, True)})
        self.assertEqual(said.told, [])
        _, said = converted(cve({"nodes": [node(ranged)]}), is_decided=False)
        self.assertEqual(said.told, [f"remark CVE-2024-99999: versions of {name('a')} from 1.0, before 2.0: the check KEY is in their place"])

    def test_records_of_the_word_advise_and_back(self):
        for bounds in itertools.product((None, "1.0"), (None, "2.0"), (False, True), (False, True)):
            start, end, start_excluded, end_excluded = bounds
            one = Range("KEY", name("a"), start, end, start_excluded and start is not None, end_excluded and end is not None)
            self.assertEqual(Range.of(json.loads(record_text(one.record()))), one)
        record = Range("KEY", name("a"), "1.0", None, True).record()
        self.assertEqual(record, {"do": "advisory", "id": "KEY", "name": name("a"), "start": "1.0", "start-excluded": True})
        for bad in ({"do": "item", "id": "KEY", "name": "a"}, {"do": "advisory", "id": 7, "name": "a"}, {"do": "advisory", "id": "KEY"}, []):
            with self.assertRaises(FormFault):
                Range.of(bad)

    def test_a_match_without_an_id_has_its_words(self):
        found, _ = converted(cve({"nodes": [node(match("a", versionStartExcluding="1.0", versionEndIncluding="2.0"))]}))
        key = f"{name('a')} behind 1.0, to 2.0"
        self.assertEqual(found.ranges, {key: Range(key, name("a"), "1.0", "2.0", True, False)})

    def test_an_id_of_two_ranges_is_the_id_of_the_first(self):
        one, two = match("a", versionEndExcluding="1.0", matchCriteriaId="KEY"), match("a", versionEndExcluding="2.0", matchCriteriaId="KEY")
        found, _ = converted(cve({"nodes": [node(one, two, one)]}))
        other = f"{name('a')} before 2.0"
        self.assertEqual({key: one.end for key, one in found.ranges.items()}, {"KEY": "1.0", other: "2.0"})
        matches = json.loads(found.candidates[0].record)["test"]["of"][0]["of"][0]["of"]
        self.assertEqual([one["of"][1] for one in matches], [check("KEY"), check(other), check("KEY")])

    def test_bounds_that_are_no_range_stay_unknown_and_are_said(self):
        two = {"versionEndExcluding": "2.0", "versionEndIncluding": "2.0"}
        none = "a bound that is no version"
        for bounds, reason in ((two, "two bounds of a kind"), ({"versionEndIncluding": ""}, none), ({"versionStartIncluding": "1 0"}, none)):
            with self.subTest(bounds):
                found, _ = converted(cve({"nodes": [node(match("a", matchCriteriaId="KEY", **bounds))]}))
                self.assertEqual(found.ranges, {})
                self.assertTrue(found.candidates[0].reason.startswith(f"{reason}: {name('a')} "))
                self.assertIn('"id":"KEY"', found.candidates[1].record)


class Faults(unittest.TestCase):
    def test_a_bad_name_leaves_the_others_in(self):
        bad = {"vulnerable": True, "criteria": "cpe:2.3:a:bad", "matchCriteriaId": "KEY"}
        tests, left = outcome(cve({"nodes": [node(match("a", "1"), bad)]}))
        self.assertEqual(tests[0]["of"][0]["of"][0]["of"], [fact("a", "1"), check("KEY")])
        self.assertEqual(left, ["name name 9: cpe:2.3:a:bad: the check KEY is in its place"])
        tests, _ = outcome(cve({"nodes": [node(match("a", "1"), {"vulnerable": True})]}))
        self.assertEqual(tests[0]["of"][0]["of"][0]["of"][1], check("a match without a name"))

    def test_a_bad_configuration_leaves_the_others_in(self):
        good = {"nodes": [node(match("a", "1"))]}
        bad = {
            "the operator XOR": {"nodes": [node(match("b"), operator="XOR")]},
            "a node without matches": {"nodes": [node()]},
            "a configuration without nodes": {"nodes": []},
            "not of the published form": {"nodes": [{"children": []}]},
        }
        for reason, configuration in bad.items():
            with self.subTest(reason):
                tests, left = outcome(cve(configuration, good))
                self.assertEqual(tests[0]["of"][0], check("CVE-2024-99999 1", "configuration"))
                self.assertEqual(left, [f"configuration 1, {reason}: the check CVE-2024-99999 1 is in its place"])
                self.assertEqual(outcome(cve(configuration)), ([], [reason]))

    def test_odd_values_leave_out_the_advisory_alone(self):
        odd = ["text", {"cve": 7}, {}, cve({"nodes": 7}), cve({"nodes": [node(match("a"), negate=7)]}), cve("text"), cve(id=7)]
        for one in odd:
            with self.subTest(one):
                tests, left = outcome(one, cve({"nodes": [node(match("a", "1"))]}, id="CVE-2024-99998"))
                self.assertEqual((len(tests), len(left)), (1, 1))

    def test_an_empty_page_is_remarked(self):
        messages, empty = Heard(), Page("empty.json", "vulnerabilities", [])
        found = convert([empty, Page("it.json", "vulnerabilities", [cve({"nodes": [node(match("a", "1"))]})])], Names(), messages, True)
        self.assertEqual((len(found.candidates), messages.told), (1, []))
        found.report_empty_pages(messages)
        self.assertEqual(messages.told, ["remark empty.json: no vulnerabilities in it"])

    def test_empty_pages_alone_are_fatal(self):
        with self.assertRaises(Fatal) as caught:
            converted()
        self.assertEqual(str(caught.exception), "it.json: no vulnerabilities in it")


def truth(test, facts):
    """The truth of a test, by that of its facts: 0 is FALSE, 1 UNKNOWN, 2 TRUE."""
    if "fact" in test:
        return facts[test["fact"]]
    truths = [truth(child, facts) for child in test["of"]]
    value = min(truths) if test["op"] == "AND" else max(truths)
    return 2 - value if test.get("negate") else value


def drawn(draw, depth):
    if depth == 0 or draw.random() < 0.2:
        return {"fact": f"f{draw.randrange(9)}"}
    negation = {"negate": True} if draw.random() < 0.3 else {}
    return {"op": draw.choice(["AND", "OR"]), **negation, "of": [drawn(draw, depth - 1) for _ in range(draw.randint(1, 5))]}


class Parts(unittest.TestCase):
    def test_one_of_the_parts_is_as_the_whole(self):
        draw = random.Random(24)
        taken_apart = 0
        for _ in range(200):
            test = {"op": "OR", "of": [drawn(draw, 3)]}
            some = parts(test, 250)
            taken_apart += 1 < len(some)
            for _ in range(10):
                facts = {f"f{k}": draw.randrange(3) for k in range(9)}
                self.assertEqual(max(truth(part, facts) for part in some), truth(test, facts), test)
        self.assertGreater(taken_apart, 50)

    def test_what_would_be_too_many_parts_is_left_whole(self):
        long = {"op": "OR", "of": [{"fact": f"f{k}"} for k in range(9)]}
        test = {"op": "AND", "of": [long] * 9}
        self.assertEqual(parts(test, 100), [test])

    def test_an_or_of_names_is_cut_to_lines(self):
        names = [match(f"product_{k}", "1") for k in range(5000)]
        found, said = converted(cve({"operator": "AND", "nodes": [node(*names), node(match("os", vulnerable=False))]}))
        records = [json.loads(one.record) for one in found.candidates]
        self.assertGreater(len(records), 4)
        self.assertEqual([one["id"] for one in records[:3]], ["CVE-2024-99999", "CVE-2024-99999#2", "CVE-2024-99999#3"])
        self.assertTrue(all(len(one.record.encode()) <= 65536 for one in found.candidates))
        named = [it["fact"] for one in records for it in one["test"]["of"][0]["of"][0]["of"]]
        self.assertEqual(named, [one["criteria"] for one in names])
        self.assertTrue(all(one["test"]["of"][0]["of"][1] == {"op": "OR", "of": [fact("os")]} for one in records))
        self.assertEqual((len(found.details), said.told), (1, []))

    def test_what_can_not_be_cut_stays_unknown_and_is_said(self):
        names = [match(f"product_{k}", "1") for k in range(2000)]
        long = {"operator": "AND", "nodes": [node(match("a", "1")), node(*names, negate=True)]}
        found, _ = converted(cve(long, {"nodes": [node(match("b", "1"))]}))
        self.assertEqual(found.candidates[0].reason, "logic that is longer than a line, and can't be taken apart: the check CVE-2024-99999 #1 is in its place")
        self.assertEqual(json.loads(found.candidates[1].record)["test"], {"op": "OR", "of": [check("CVE-2024-99999 #1", "configuration")]})
        self.assertIn(fact("b", "1"), json.loads(found.candidates[2].record)["test"]["of"][0]["of"][0]["of"])

    def test_ids_of_parts(self):
        self.assertEqual([base_id(id) for id in ("CVE-1", "CVE-1#2", "CVE-1#x", "a#1#22")], ["CVE-1", "CVE-1", "CVE-1#x", "a#1"])


class Details(unittest.TestCase):
    def score(self, **metrics):
        return {key: value for key, value in details("x", {"metrics": metrics}).items() if key != "id"}

    def test_scores_of_nvd_come_first_and_then_the_newest(self):
        new = {"type": "Secondary", "cvssData": {"baseScore": 9.1, "baseSeverity": "CRITICAL"}}
        own = {"type": "Primary", "cvssData": {"baseScore": 7.5, "baseSeverity": "HIGH"}}
        old = {"type": "Primary", "cvssData": {"baseScore": 5}, "baseSeverity": "MEDIUM"}
        self.assertEqual(self.score(cvssMetricV31=[new, own], cvssMetricV2=[old]), {"score": 7.5, "severity": "HIGH"})
        self.assertEqual(self.score(cvssMetricV31=[new], cvssMetricV2=[old]), {"score": 5, "severity": "MEDIUM"})
        self.assertEqual(self.score(cvssMetricV40=[new]), {"score": 9.1, "severity": "CRITICAL"})

    def test_titles(self):
        texts = [{"lang": "es", "value": "uno"}, {"lang": "en", "value": " one\n two "}]
        self.assertEqual(details("x", {"descriptions": texts})["title"], "one two")
        self.assertEqual(details("x", {"descriptions": texts[:1]})["title"], "uno")

    def test_odd_forms_are_missing_alone(self):
        odd = {"metrics": 7, "descriptions": "text", "published": 7, "references": [7]}
        self.assertEqual(details("x", odd), {"id": "x"})
        self.assertEqual(self.score(cvssMetricV31=[7, {"cvssData": 7}, {"cvssData": {"baseScore": "high"}}]), {})
        self.assertEqual(details("CVE-2024-1234", {})["url"], "https://nvd.nist.gov/vuln/detail/CVE-2024-1234")
        self.assertEqual(details("x", {"references": [{"url": "https://example.org"}]})["url"], "https://example.org")


if __name__ == "__main__":
    unittest.main()
