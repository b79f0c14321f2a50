"""Whether feeds are complete, by their own pages."""
import gzip
import itertools
import json
import unittest

from recipe_case import RecipeCase

from cpe_recipes import completeness
from cpe_recipes.console import Fatal

FORMATS = {"products": "NVD_CPE", "vulnerabilities": "NVD_CVE", "matchStrings": "NVD_CPEMatchString"}


def product(number):
    return {"cpe": {"cpeName": f"cpe:2.3:a:acme:p{number}:1.0:*:*:*:*:*:*:*", "cpeNameId": f"P{number}"}}


def page(start, end, total, kind="products", record=product, **more):
    """The page with the records from `start` to before `end` of the total."""
    records = [record(number) for number in range(start, end)]
    head = {"resultsPerPage": end - start, "startIndex": start, "totalResults": total, "format": FORMATS[kind], "version": "2.0"}
    return head | {kind: records} | more


class Pages(RecipeCase):
    def read(self, *pages, kind="products", strict=True, reading=None):
        paths = []
        for number, one in enumerate(pages, 1):
            data = one if isinstance(one, bytes) else json.dumps(one)
            paths.append(self.file(f"{number}.json", data))
        return [len(one.records) for one in completeness.pages(paths, self.messages, (kind,), strict, reading)]

    def refused(self, *pages, **more):
        with self.assertRaises(Fatal) as caught:
            self.read(*pages, **more)
        return str(caught.exception)

    def test_pages_in_any_order_packed_or_not(self):
        pages = [page(0, 3, 7), page(3, 6, 7), page(6, 7, 7)]
        for order in itertools.permutations(pages):
            self.assertEqual(sum(self.read(*order)), 7)
        self.assertEqual(sum(self.read(pages[2], gzip.compress(json.dumps(pages[0]).encode()), pages[1])), 7)
        self.assertEqual(self.messages.told, [])

    def test_the_last_page_may_tell_how_many_it_has_room_for(self):
        self.assertEqual(self.read(page(0, 3, 4), page(3, 4, 4, resultsPerPage=3)), [3, 1])
        self.assertEqual(self.messages.told, [])

    def test_one_page_of_many_is_no_feed(self):
        wanted = "1.json: the feed has 250,000 products, 10 were given; those of startIndex 10 to 249,999 are missing"
        self.assertEqual(self.refused(page(0, 10, 250_000)), wanted)
        self.assertEqual(self.refused(page(0, 10, 250_000), strict=False), wanted)
        told = self.refused(page(0, 10, 250_000), reading=completeness.ReadingPolicy())
        self.assertEqual(told, f"{wanted} (--partial lets it pass)")

    def test_each_missing_page_is_told_wherever_it_stands(self):
        pages = [page(0, 2, 9), page(2, 4, 9), page(4, 6, 9), page(6, 8, 9), page(8, 9, 9)]
        wheres = ["0 to 1", "2 to 3", "4 to 5", "6 to 7", "8 to 8"]
        for gone, where in enumerate(wheres):
            told = self.refused(*pages[:gone], *pages[gone + 1 :])
            self.assertIn(f"the feed has 9 products, {8 if gone == 4 else 7} were given; those of startIndex {where} are missing", told)
        self.assertIn("startIndex 0 to 1, 4 to 5, 8 to 8 are missing", self.refused(pages[1], pages[3]))

    def test_other_kinds_are_called_as_they_are(self):
        cve = lambda number: {"cve": {"id": f"CVE-2024-{1000 + number}"}}
        self.assertIn("the feed has 5 advisories, 2 were given", self.refused(page(0, 2, 5, "vulnerabilities", cve), kind="vulnerabilities"))
        match = lambda number: {"matchString": {"matchCriteriaId": f"M{number}"}}
        self.assertIn("the feed has 5 match strings, 2 were given", self.refused(page(0, 2, 5, "matchStrings", match), kind="matchStrings"))

    def test_a_page_that_was_cut_or_doubled_is_told(self):
        cut = page(0, 5, 5)
        cut["products"].pop()
        self.assertIn("the feed has 5 products, 4 were given; it says that it has 5 of them", self.refused(cut))
        doubled = page(0, 5, 9)
        doubled["products"] *= 2
        self.assertIn("ends behind them", self.refused(doubled, page(5, 9, 9)))
        middle = page(0, 3, 9)
        middle["products"] *= 2
        self.assertIn("it says that it has 3 of them", self.refused(middle, page(3, 9, 9)))

    def test_a_page_twice_is_no_other_page(self):
        copy = page(0, 3, 6, startIndex=3)
        self.assertIn("the feed has 6 products, 3 were given; others are there twice in their place", self.refused(page(0, 3, 6), copy))
        self.assertEqual(self.read(page(0, 3, 6), page(0, 3, 6), page(3, 6, 6)), [3, 3, 3])
        self.assertEqual(self.messages.told, ["remark 1.json, 2.json, 3.json: pages overlap, 3 products are there twice"])

    def test_whole_feeds_stand_beside_each_other(self):
        year = page(0, 4, 4)
        self.assertEqual(self.read(year, page(0, 2, 2), page(0, 4, 4), page(0, 3, 5), page(3, 5, 5)), [4, 2, 4, 3, 2])
        self.assertEqual(self.messages.told, [])
        self.assertIn("3.json: the feed has 7 products, 3 were given", self.refused(year, page(0, 2, 2), page(0, 3, 7)))

    def test_a_feed_that_grew_while_it_was_fetched(self):
        self.assertEqual(sum(self.read(page(0, 100, 200), page(100, 200, 201), page(200, 201, 201))), 201)
        self.assertEqual(self.messages.told, ["remark 1.json, 2.json, 3.json: the feed grew from 200 to 201 products while it was fetched"])
        # (a new record, before the second page was fetched, moved the last record of the first page to the second)
        moved = page(99, 200, 201, startIndex=100)
        self.assertIn("were given", self.refused(page(0, 100, 200), moved))
        self.assertIn("200 products, 100 were given", self.refused(page(0, 100, 200), page(100, 300, 300)))

    def test_halves_of_two_feeds_are_no_feed(self):
        other = lambda number: product(1000 + number)
        self.assertIn("10 products, 5 were given", self.refused(page(0, 5, 10), page(4, 11, 11, record=other)))

    def test_a_page_that_tells_no_total_is_remarked(self):
        self.assertEqual(self.read({"products": [product(1)]}), [1])
        self.assertEqual(self.messages.told, ["remark 1.json: no totalResults, so it isn't known whether this is all of the feed"])
        told = self.refused({"totalResults": 7, "products": [product(1)]})
        self.assertEqual(told, "1.json: it has 1 of 7 products, and no startIndex that says which")

    def test_what_is_no_count_or_another_format_is_no_page(self):
        for member, value in itertools.product(completeness.feeds.COUNTS, (-1, "7", 7.5, True, [], {})):
            with self.subTest(member, value=value):
                self.assertIn(f"its {member} is {value}, which is no count", self.refused(page(0, 1, 1, **{member: value})))
        self.assertIn("its version is 3.0, and 2.0 is what is read", self.refused(page(0, 1, 1, version="3.0")))
        self.assertIn("its version is 2.0", self.refused(page(0, 1, 1, version=2.0)))
        self.assertIn("its format is NVD_CVE, and that of products is NVD_CPE", self.refused(page(0, 1, 1, format="NVD_CVE")))
        self.assertIn("format 1.1", self.refused({"CVE_data_type": "CVE", "CVE_Items": []}, kind="vulnerabilities"))

    def test_what_may_be_missing_is_said(self):
        reading = completeness.ReadingPolicy(is_partial=True)
        self.assertEqual(self.read(page(0, 10, 250_000), reading=reading), [10])
        words = "the feed has 250,000 products, 10 were given"
        self.assertEqual(self.messages.told, [f"left out 1.json: {words}; those of startIndex 10 to 249,999 are missing"])
        self.assertEqual((self.messages.status(), reading.doubts()), (1, [words]))
        self.assertEqual(list(reading.lines()), [f"not whole: {words}; so each FALSE may be another verdict"])
        value = {"machines": [{"verdicts": [{"verdict": "TRUE"}, {"verdict": "FALSE"}]}, {"name": "bare"}]}
        marked = reading.mark(value)
        self.assertEqual(marked["machines"][0]["verdicts"], [{"verdict": "TRUE"}, {"verdict": "FALSE", "hangsOn": [words]}])
        self.assertEqual(marked["missing"], [{"feed": "products", "files": "1.json", "total": 250_000, "given": 10}])

    def test_missing_advisories_have_no_verdict_to_mark(self):
        reading = completeness.ReadingPolicy(is_partial=True)
        cve = lambda number: {"cve": {"id": f"CVE-2024-{1000 + number}"}}
        self.read(page(0, 2, 5, "vulnerabilities", cve), kind="vulnerabilities", reading=reading)
        self.assertEqual(reading.doubts(), [])
        self.assertEqual(list(reading.lines()), ["not whole: the feed has 5 advisories, 2 were given; the others are not asked for"])


if __name__ == "__main__":
    unittest.main()
