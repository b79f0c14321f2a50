"""Which of several records with one id counts, and which advisories have no verdict."""
import itertools
import json
import unittest

from recipe_case import RecipeCase
from stand_in import Heard, Names

from cpe_recipes import dictionary, latest_records, matches
from cpe_recipes.advisories import convert
from cpe_recipes.feeds import Page

OLD, NEW = "2024-01-01T10:00:00.000", "2024-03-01T09:00:00.000"
ID = "CVE-2024-1001"


def name(product, version="*"):
    return f"cpe:2.3:a:acme:{product}:{version}:*:*:*:*:*:*:*"


def cve(product, modified=None, id=ID, **more):
    configurations = [{"nodes": [{"operator": "OR", "negate": False, "cpeMatch": [{"vulnerable": True, "criteria": name(product)}]}]}]
    told = {"lastModified": modified} if modified else {}
    return {"cve": {"id": id, "vulnStatus": "Analyzed", **told, "configurations": configurations if product else [], **more}}


def facts(test):
    if "fact" in test:
        return [test["fact"]]
    return [fact for one in test.get("of", ()) for fact in facts(one)]


class Advisories(unittest.TestCase):
    def converted(self, *files):
        self.messages = Heard()
        pages = [Page(f"{number}.json", "vulnerabilities", records) for number, records in enumerate(files, 1)]
        self.found = convert(pages, Names(), self.messages, True)
        self.tests = [json.loads(one.record)["test"] for one in self.found.candidates if one.record]
        self.left = [one.reason for one in self.found.candidates if one.reason]
        return [fact for test in self.tests for fact in facts(test)]

    def test_the_later_counts_whichever_file_comes_first(self):
        files = [cve("old", OLD)], [cve("new", NEW)], [cve("older", "2023-12-31T23:59:59.999")]
        for order in itertools.permutations(files):
            self.assertEqual(self.converted(*order), [name("new")])
            self.assertEqual((self.messages.told, self.left), (["remark 1 advisory is there more than once: the last modified counts"], []))

    def test_a_time_is_later_than_none_and_zones_are_minded(self):
        for other in (None, "yesterday", 7, "0001-01-01T00:00:00+23:00"):
            self.assertEqual(self.converted([cve("old", other)], [cve("new", OLD)]), [name("new")])
            self.assertEqual(self.converted([cve("new", OLD)], [cve("old", other)]), [name("new")])
        self.assertEqual(self.converted([cve("a", "2024-03-01T10:00:00Z")], [cve("b", "2024-03-01T10:30:00+01:00")]), [name("a")])

    def test_one_that_is_later_rejected_or_not_analysed_has_no_verdict(self):
        undone = {"cve": {"id": ID, "vulnStatus": "Undergoing Analysis", "lastModified": NEW}}
        for order in ([cve("old", OLD)], [undone]), ([undone], [cve("old", OLD)]):
            self.assertEqual(self.converted(*order), [])
            self.assertEqual(self.found.states.unanalysed, {ID: "Undergoing Analysis"})
            self.assertEqual((self.messages.told[-1], self.left), ("remark not analysed: 1 advisory", []))
        self.assertEqual(self.converted([cve("old", OLD)], [cve("old", NEW, vulnStatus="Rejected")]), [])
        self.assertEqual(list(self.found.states.rejected), [ID])
        self.assertEqual(self.converted([undone], [cve("new", "2024-04-01T10:00:00.000")]), [name("new")])

    def test_two_of_one_time_that_are_the_same_are_one(self):
        self.assertEqual(self.converted([cve("a", OLD)], [cve("a", OLD)]), [name("a")])
        self.assertEqual((self.messages.told, self.left), ([], []))

    def test_two_of_one_time_that_differ_are_both_asked_for(self):
        self.assertEqual(self.converted([cve("a", OLD), cve("b", OLD)], [cve("b", "2023-01-01")]), [name("a"), name("b")])
        key = f"{ID} vulnerability 2 of 1.json"
        guard = {"check": {"system": "NVD", "href": "configuration", "id": key}}
        self.assertEqual(self.tests[0]["of"][1]["of"][1], guard)
        what = "it isn't as vulnerability 1 of 1.json, and neither says that it is later"
        self.assertEqual(self.left, [f"{what}: the check {key} is in its place"])
        self.assertEqual(self.found.stand_ins, {key: what})
        self.assertEqual(self.converted([cve("a")], [{"cve": {"id": ID, "configurations": 7}}]), [name("a")])
        self.assertEqual(len(self.left), 2)

    def test_one_that_is_analysed_beside_one_that_is_not_has_a_verdict(self):
        self.assertEqual(self.converted([cve(None, OLD)], [cve("a", OLD)]), [name("a")])
        self.assertEqual((self.found.states.unanalysed, self.messages.told), ({}, []))

    def test_states_are_noted_by_what_they_are(self):
        unanalysed = [{"cve": {"id": f"CVE-2024-{n}", "vulnStatus": status}} for n, status in enumerate(("Received", "Deferred", None), 1001)]
        self.converted([cve("a", id="CVE-2024-1000"), *unanalysed, cve(None, id="CVE-2024-1009")])
        found = self.found.states.json(["CVE-2024-1000"])
        self.assertEqual(found["asked"], ["CVE-2024-1000"])
        wanted = {"Received": ["CVE-2024-1001"], "Deferred": ["CVE-2024-1002"], "of no status": ["CVE-2024-1003"], "Analyzed": ["CVE-2024-1009"]}
        self.assertEqual((found["notAnalysed"], found["rejected"]), (wanted, []))
        self.assertEqual(self.messages.told, ["remark not analysed: 4 advisories"])
        self.assertEqual(next(self.found.states.lines()), "not analysed CVE-2024-1001: Received")

    def test_what_has_no_id_is_no_other(self):
        self.converted([{"cve": {"configurations": []}}, {"cve": {"configurations": []}}, 7, {"cve": 7}])
        self.assertEqual(self.left, ["no configurations"] * 2 + ["not of the published form"] * 2)


class Products(RecipeCase):
    def records(self, *feeds):
        paths = [self.file(f"{number}.json", {"products": feed, "totalResults": len(feed)}) for number, feed in enumerate(feeds, 1)]
        return [json.loads(one.record) if one.record else one.reason for one in dictionary.candidates_of(paths, self.messages)]

    def product(self, modified, **more):
        return {"cpe": {"cpeName": "x", "cpeNameId": "X", "lastModified": modified, **more}}

    def test_the_later_counts_whichever_file_comes_first(self):
        old, gone = self.product(OLD), self.product(NEW, deprecated=True, deprecatedBy=[{"cpeName": "y"}])
        for feeds in itertools.permutations(([old], [gone])):
            told = self.records(*feeds)
            self.assertEqual([(one["do"], one["name"]) for one in told], [("entry", "x"), ("deprecate", "x")])
            self.assertEqual((told[1]["successors"], told[1]["date"]), (["y"], "2024-03-01"))
        kept, back = self.product(OLD, deprecated=True, deprecatedBy=[{"cpeName": "y"}]), self.product(NEW)
        for feeds in itertools.permutations(([kept], [back])):
            self.messages.told.clear()
            self.assertEqual([one["do"] for one in self.records(*feeds)], ["entry"])
            self.assertEqual(self.messages.told, ["remark 1 product is there more than once: the last modified counts"])

    def test_one_time_told_twice(self):
        self.assertEqual(len(self.records([self.product(OLD)], [self.product(OLD)])), 1)
        told = self.records([self.product(OLD, deprecated=True)], [self.product(OLD, deprecated=True, deprecatedBy=[{"cpeName": "y"}])])
        self.assertEqual([one["do"] for one in told], ["entry", "entry", "deprecate"])
        self.assertEqual(told[2]["successors"], ["y"])
        three = [self.product(OLD, deprecated=True)], [self.product(OLD, deprecatedBy=[{"cpeName": "y"}])], [self.product(NEW)]
        for feeds in itertools.permutations(three):
            self.assertEqual([one["do"] for one in self.records(*feeds)], ["entry"])

    def test_what_has_no_name_is_no_other(self):
        self.assertEqual(len(self.records([{"cpe": {"cpeName": None, "lastModified": OLD}}, {"cpe": {"cpeName": None, "lastModified": NEW}}])), 2)


class Matches(unittest.TestCase):
    def listed(self, *told):
        rows = [
            {"matchString": {"matchCriteriaId": "M", "lastModified": modified, "cpeLastModified": names, "matches": [{"cpeName": name}]}}
            for modified, names, name in told
        ]
        pages = [Page(f"{number}.json", "matchStrings", [row]) for number, row in enumerate(rows, 1)]
        return matches.read_match_lists(pages, {"M"}, Heard())["M"]

    def test_the_later_list_counts(self):
        self.assertEqual(self.listed((OLD, OLD, "a"), (OLD, NEW, "b")), ["b"])
        self.assertEqual(self.listed((OLD, NEW, "b"), (NEW, None, "a"), (OLD, OLD, "c")), ["b", "a"])
        self.assertEqual(self.listed((NEW, OLD, "b"), (OLD, OLD, "a")), ["b"])


class Times(unittest.TestCase):
    def test_texts_that_are_no_times_are_before_all_others(self):
        never = latest_records.time_of(None)
        for text in ("", "x", "2024", 7, [], "2024-13-01T00:00:00", "9999-12-31T23:59:59-23:00", "0001-01-01T00:00:00+23:00"):
            self.assertEqual(latest_records.time_of(text), never if text != "2024" else latest_records.time_of(text))
        self.assertLess(never, latest_records.time_of("1999-01-01"))


if __name__ == "__main__":
    unittest.main()
