"""A verdict whose advisory no longer has one: on the page, and between two runs. It never becomes FALSE."""
import json
import unittest

from test_report import ReportCase

SHOWN = [{"id": id, "verdict": "TRUE"} for id in ("kept", "mended", "waiting", "rejected", "bad", "lost")]


def scan(shown, asked=("kept", "mended"), **more):
    machines = [{"name": "m", "items": 2, "verdicts": shown, "perhaps": [], "notInDictionary": [], "underRemovedName": []}]
    told = {} if asked is None else {"asked": list(asked)}
    return {"advisories": 9, "machines": machines, **told, "leftOut": [], **more}


BEFORE = scan(SHOWN, [one["id"] for one in SHOWN])
AFTER = scan(
    SHOWN[:1],
    notAnalysed={"Undergoing Analysis": ["waiting"]},
    rejected=["rejected"],
    leftOut=[{"id": "bad", "reason": "the operator XOR", "place": "vulnerability 3 of a.json"}],
)
GONE = [
    "gone m mended TRUE FALSE",
    "gone m waiting TRUE none not analysed: Undergoing Analysis",
    "gone m rejected TRUE none rejected",
    "gone m bad TRUE none left out: the operator XOR",
    "gone m lost TRUE none it isn't in the feeds",
]


class Changes(ReportCase):
    def changes(self, before, after):
        return self.recipe("changes", self.file("before", before), self.file("after", after))

    def test_each_state_is_told_with_its_reason(self):
        status, lines, said = self.changes(BEFORE, AFTER)
        self.assertEqual((status, lines), (1, GONE))
        self.assertEqual(said, ["left out bad: left out: the operator XOR", "left out lost: it isn't in the feeds"])

    def test_what_is_not_analysed_or_rejected_is_no_reason_for_status_1(self):
        self.assertEqual(self.changes(scan(SHOWN[:4]), AFTER)[::2], (0, []))

    def test_false_needs_a_scan_that_tells_what_was_asked_for(self):
        status, lines, _ = self.changes(scan(SHOWN[:2]), scan([], asked=None))
        why = "which advisories were asked for isn't said there"
        self.assertEqual((status, lines), (1, [f"gone m {one['id']} TRUE none {why}" for one in SHOWN[:2]]))
        rows = [{"id": "kept", "verdict": "FALSE"}]
        self.assertEqual(self.changes(scan(SHOWN[:1]), scan(rows, asked=None))[1], ["gone m kept TRUE FALSE"])

    def test_false_is_none_where_pages_of_names_are_missing(self):
        missing = [{"feed": "products", "files": "d.json", "total": 250_000, "given": 10}]
        status, lines, _ = self.changes(scan(SHOWN[:2]), scan(SHOWN[:1], missing=missing))
        self.assertEqual((status, lines), (1, ["gone m mended TRUE none of 250000 products 10 were given"]))
        missing[0]["feed"] = "vulnerabilities"
        self.assertEqual(self.changes(scan(SHOWN[:2]), scan(SHOWN[:1], missing=missing))[1], ["gone m mended TRUE FALSE"])

    def test_what_comes_back_is_new(self):
        self.assertEqual(self.changes(AFTER, BEFORE)[1], ["new m " + line.split(" ")[2] + (" FALSE TRUE" if "FALSE" in line else " none TRUE") for line in GONE])

    def test_odd_members_are_no_scan(self):
        for more in ({"asked": [7]}, {"asked": 7}, {"rejected": 7}, {"notAnalysed": {"x": 7}}, {"notAnalysed": {"x": [7]}}, {"missing": [7]}, {"leftOut": [7]}):
            status, lines, said = self.changes(BEFORE, {**AFTER, **more})
            self.assertEqual((status, lines, len(said)), (2, [], 1), more)


class Pages(ReportCase):
    def test_the_page_counts_what_is_not_analysed(self):
        self.assertIn("1 advisory is not analysed yet, without a verdict.", self.page(AFTER))
        many = scan([], notAnalysed={"Received": ["a"] * 90_000, "Deferred": ["b"] * 57})
        self.assertIn("90,057 advisories are not analysed yet, without a verdict.", self.page(many))
        self.assertNotIn("not analysed", self.page(BEFORE))
        self.assertEqual(self.report({**AFTER, "notAnalysed": 7})[0], 2)

    def test_the_page_has_what_changed_with_the_reasons(self):
        before = self.file("before.json", BEFORE)
        status, text, said = self.report(AFTER, "--before", before)
        self.assertEqual(status, 1)
        for line in GONE:
            self.assertIn(f"<li>{line}".replace("'", "&#x27;"), text)
        self.assertIn("<h2>Changed <small>5, each", text)
        self.assertIn("left out lost: it isn't in the feeds", said)
        self.assertNotIn('id="changed"', self.page(AFTER))
        self.assertEqual(self.report(AFTER, "--before", self.file("torn", json.dumps(BEFORE)[:-1]))[:2], (2, ""))
        self.assertEqual(self.report(AFTER, "--before", self.file("bare", "verdicts 0\n"))[:2], (2, ""))


if __name__ == "__main__":
    unittest.main()
