"""The results of the checks of ranges, by the program that CPE names; without it these tests are skipped."""
import os
import random
import sys
import tempfile
import unittest
from dataclasses import replace
from pathlib import Path

sys.path.insert(0, str(Path(__file__).resolve().parent))

from stand_in import Heard  # noqa: E402 (it knows where the recipes are)
from cpe_recipes import matches  # noqa: E402
from cpe_recipes.advisories import Range  # noqa: E402
from cpe_recipes.console import Fatal  # noqa: E402
from cpe_recipes.feeds import Page, record_text  # noqa: E402
from cpe_recipes.leads import leads_of, read_entries  # noqa: E402
from cpe_recipes.names import quote  # noqa: E402
from cpe_recipes.program import Program  # noqa: E402
from cpe_recipes.range_checks import Backport, MatchLists, RangeIndex, check_record, decide_checks, drop_record, follow, read_ranges  # noqa: E402
from cpe_recipes.versions import Position, letters_of, locate  # noqa: E402


def name(product, version="*", update="*", vendor="acme", rest="*:*:*:*:*:*"):
    return f"cpe:2.3:a:{vendor}:{product}:{version}:{update}:{rest}"


def entry(it):
    return record_text({"do": "entry", "name": it})


def deprecate(old, *new):
    kind = "NAME_CORRECTION" if new else "NAME_REMOVAL"
    return record_text({"do": "deprecate", "name": old, "kind": kind, "successors": list(new), "date": "2024-01-01"})


LETTERS = letters_of(["acme:lettered", "acme:patched p"], "it")


@unittest.skipUnless(os.environ.get("CPE"), "CPE names no program")
class Decisions(unittest.TestCase):
    def decided(self, items, *ranges, records=(), listed=None):
        """The truths and reasons of a machine with these items."""
        program = Program()
        leads = leads_of(program, list(records), items, [one.criteria for one in ranges])
        item_names = [one for item in items if item in leads.found for one in follow(leads.found[item])]
        range_index = RangeIndex(program, ranges, leads, [one.name for one in item_names], LETTERS)
        found = decide_checks(item_names, range_index, MatchLists(program, listed or {}))
        return found.truths, {key: one.reason for key, one in found.doubts.items()}

    def one(self, version, start=None, end=None, product="p", update="*", **excluded):
        """The truth of one range on a machine with one item, or the reason why there is none."""
        one = Range("KEY", name(product), start, end, **excluded)
        truths, unsure = self.decided([name(product, version, update)], one)
        self.assertEqual(len(truths) + len(unsure), 1)
        return {**truths, **unsure}["KEY"]

    def test_bounds(self):
        for version, wanted in (("0.9", False), ("1.0", True), ("1.9.9", True), ("2.0", False), ("10.0", False)):
            self.assertIs(self.one(version, "1.0", "2.0", end_excluded=True), wanted, version)
        self.assertIs(self.one("2.0", None, "2.0"), True)
        self.assertIs(self.one("1.0", "1.0", None, start_excluded=True), False)

    def test_what_can_not_be_trusted_has_no_answer(self):
        self.assertEqual(self.one("1.0k", "1.0", "1.1"), "dpkg and cpe differ between 1.0k and 1.0")
        self.assertEqual(self.one("1.0.0", None, "1.0"), "dpkg and PEP 440 differ between 1.0.0 and 1.0")
        self.assertEqual(self.one("1.0", "1.0", None, update="rc1"), "1.0 is the bound, and has the update rc1")
        for version in ("*", "-"):
            self.assertEqual(self.one(version, None, "1.0"), "its version isn't known")

    def test_letters_that_count_upward(self):
        for version, wanted in (("1.1.1", True), ("1.1.1k", True), ("1.1.1u", False), ("1.1.1v", False), ("1.1.0z", False), ("3.0", False)):
            self.assertIs(self.one(version, "1.1.1", "1.1.1u", "lettered", end_excluded=True), wanted, version)
        unsure = "dpkg and PEP 440 differ between 1.1.1-rc1 and 1.1.1, letters that count upward being numbers"
        self.assertEqual(self.one("1.1.1-rc1", "1.1.1", None, "lettered"), unsure)
        self.assertIs(self.one("1.1.1-rc1", "1.1.1a", None, "lettered"), False)
        for update, wanted in (("-", True), ("p1", True), ("p2", False), ("p10", False)):
            self.assertIs(self.one("9.3", None, "9.3p2", "patched", update, end_excluded=True), wanted, update)
        unsure = "9.3 is the bound, and has the update b1, letters that count upward being numbers"
        self.assertEqual(self.one("9.3", None, "9.3", "patched", "b1"), unsure)

    def test_one_item_in_the_range_is_enough_and_one_that_is_unsure_beats_those_outside(self):
        one = Range("KEY", name("p"), "1.0", "2.0")
        self.assertEqual(self.decided([name("p", "3.0"), name("p", "1.5"), name("p", "1.0b")], one), ({"KEY": True}, {}))
        self.assertEqual(self.decided([name("p", "3.0"), name("p", "1.0b")], one), ({}, {"KEY": "dpkg and PEP 440 differ between 1.0b and 1.0"}))
        self.assertEqual(self.decided([name("p", "3.0"), name("q", "1.5")], one), ({"KEY": False}, {}))

    def test_what_the_name_does_not_cover_needs_no_answer(self):
        one = Range("KEY", name("p", rest="*:*:*:windows:*:*"), "1.0", "2.0")
        self.assertEqual(self.decided([name("p", "1.5"), name("p", "1.5", rest="*:*:*:linux:*:*")], one), ({}, {}))
        self.assertEqual(self.decided([name("p", "1.5", rest="*:*:*:windows:*:*")], one), ({"KEY": True}, {}))

    def test_names_lead_on(self):
        old, new = name("redis", "6.0.8", vendor="redislabs"), name("redis", "6.0.8", vendor="redis")
        records = [entry(old), entry(new), deprecate(old, new)]
        one = Range("KEY", name("redis", vendor="redis"), None, "6.0.9", end_excluded=True)
        self.assertEqual(self.decided([old], one, records=records), ({"KEY": True}, {}))
        self.assertEqual(self.decided([old], one), ({}, {}))
        self.assertEqual(self.decided([old], one, records=[entry(old), deprecate(old)]), ({}, {}))

    def test_criteria_that_lead_elsewhere_are_asked_as_they_stand(self):
        old, new, item = name("old"), name("new"), name("new", "1.0")
        records = [entry(old), entry(new), deprecate(old, new)]
        one = Range("KEY", old, None, "2.0")
        self.assertEqual(self.decided([item, name("old", "1.0")], one, records=records), ({"KEY": True}, {}))
        self.assertEqual(self.decided([item], one, records=records), ({}, {}))

    def test_criteria_with_a_version_have_no_answer(self):
        truths, unsure = self.decided([name("p", "1.5")], Range("KEY", name("p", "1.*"), None, "2.0"))
        self.assertEqual((truths, unsure), ({}, {"KEY": f"{name('p', '1.*')} has a version beside its bounds"}))
        self.assertEqual(self.decided([name("p", "2.5")], Range("KEY", name("p", "1.*"), None, "2.0")), ({}, {}))

    def test_bounds_that_cpe_does_not_take_have_no_answer(self):
        for product, end in (("p", "1 0"), ("p", ""), ("p", "9" * 257), ("lettered", "1a" * 100)):
            self.assertEqual(self.one("1.0", None, end, product), "a bound is no version that cpe takes")
        self.assertIs(self.one("1.0", None, "9" * 256), True)

    def test_criteria_in_any_spelling(self):
        for criteria in ("cpe:/a:Acme:Lettered", "CPE:/A:acme:lettered", "cpe:2.3:a:ACME:Lettered:*:*:*:*:*:*:*:*"):
            one = Range("KEY", criteria, "1.1.1", "1.1.1u", end_excluded=True)
            self.assertEqual(self.decided([name("lettered", "1.1.1k")], one), ({"KEY": True}, {}), criteria)

    def test_criteria_of_many_products(self):
        one = Range("KEY", "cpe:2.3:a:acme:*:*:*:*:*:*:*:*:*", None, "2.0")
        self.assertEqual(self.decided([name("p", "1.5"), name("q", "3.0")], one), ({"KEY": True}, {}))
        self.assertEqual(self.decided([name("lettered", "1.0")], one)[0], {})

    def test_the_match_feed_lists_what_is_in_it(self):
        one = Range("KEY", name("p"), "1.0", "2.0")
        listed = {"KEY": [name("p", "1.0B").upper().replace("CPE", "cpe").replace(":A:", ":a:"), "cpe:2.3:bad"]}
        self.assertEqual(self.decided([name("p", "1.0b")], one, listed=listed), ({"KEY": True}, {}))
        self.assertEqual(self.decided([name("p", "1.0c")], one, listed=listed)[0], {})
        old, new = name("old", "5.0"), name("p", "1.0b")
        self.assertEqual(self.decided([old], one, listed=listed, records=[entry(old), entry(new), deprecate(old, new)]), ({"KEY": True}, {}))

    def test_what_is_no_item_is_refused_with_the_reason(self):
        leads = leads_of(Program(), [], ["cpe:/a:acme:p:1.%02", "cpe:/a:acme:%zz", "CPE:/A:Acme:P:1.0"], ["cpe:2.3:a:acme:*:*:*:*:*:*:*:*:*", "x"])
        self.assertEqual(leads.refused, {"cpe:/a:acme:%zz": "name name 13", "x": "name name 0"})
        self.assertEqual(leads.found["cpe:/a:acme:p:1.%02"].ends, (name("p", "1.*"),))
        self.assertEqual(leads.found["CPE:/A:Acme:P:1.0"].ends, (name("p", "1.0"),))
        self.assertFalse(leads.found["CPE:/A:Acme:P:1.0"].is_entry)

    def test_an_item_that_is_known_in_part_is_outside_where_all_that_it_may_be_is(self):
        open_ = "it is known in part"
        for version, wanted in (("0.9.*", False), ("1.*", open_), ("1.5.*", open_), ("2*", open_), ("2.1?", open_), ("2.1.?", False), ("3.*", False), ("*1", open_)):
            self.assertEqual(self.one(version, "1.0", "2.0", end_excluded=True), wanted, version)
        for version, update, wanted in (("0.9", "sp*", False), ("1.5", "sp*", open_), ("2.0", "sp*", open_), ("2.1", "sp*", False)):
            self.assertEqual(self.one(version, "1.0", "2.0", update=update), wanted, (version, update))
        self.assertEqual(self.one("1.1.1*", None, "1.1.1u", product="lettered"), open_)
        self.assertIs(self.one("3.0*", None, "1.1.1u", product="lettered"), False)
        one = Range("KEY", name("p"), "1.0", "2.0")
        for item in (name("p*", "3.0"), name("q*", "3.0"), name("?p", "1.5", vendor="?cme")):
            self.assertEqual(self.decided([item], one), ({}, {"KEY": open_}), item)
        self.assertEqual(self.decided([name("p", "1.5", vendor="emca"), name("q", "1.*")], one), ({}, {}))

    def test_beside_an_item_that_is_in_it_one_that_is_known_in_part_is_nothing(self):
        one = Range("KEY", name("p"), "1.0", "2.0")
        self.assertEqual(self.decided([name("p", "1.*"), name("p", "1.5")], one), ({"KEY": True}, {}))
        self.assertEqual(self.decided([name("p", "1.*"), name("p", "2.5")], one), ({}, {"KEY": "it is known in part"}))
        self.assertEqual(self.decided([name("p", "3.*"), name("p", "2.5")], one), ({"KEY": False}, {}))
        self.assertEqual(self.decided([name("p", "1.*")], one, listed={"KEY": [name("p", "1.5")]}), ({}, {"KEY": "it is known in part"}))

    def test_ranges_that_are_not_asked_for_may_be_of_items_that_are_known_in_part(self):
        odd = Range("KEY", "cpe:2.3:a:acme:*:1*:*:*:*:*:*:*:*", None, "2.0")
        self.assertEqual(self.decided([name("p", "1.*")], odd), ({}, {"KEY": "it is known in part"}))

    def decided_of_kind(self, version, kind, start, end, **excluded):
        """The results on a machine with one component of this kind."""
        program, item, one = Program(), name("p", quote(version)), Range("KEY", name("p"), start, end, **excluded)
        leads = leads_of(program, [], [item], [one.criteria])
        range_index = RangeIndex(program, [one], leads, [item], LETTERS)
        return decide_checks(follow(replace(leads.found[item], kind=kind)), range_index, MatchLists(program, {}))

    def test_packages_of_distributions_are_inside_by_the_version_of_their_upstream(self):
        for version, kind, start, end in (
            ("1:3.0.7-24.el9", "rpm", "3.0.0", "3.0.13"), ("252-14.el9", "rpm", None, "252.4"), ("115-1.el9", "rpm", None, "115.0.2"),
            ("1:3.0.7-24.el9", "", "3.0.0", "3.0.13"), ("1.1.1t-0+deb11u1", "deb", "1.1.1", "1.1.1u"), ("3.1.3-r0", "apk", "3.1", "3.1.4"),
        ):
            found = self.decided_of_kind(version, kind, start, end, end_excluded=True)
            self.assertEqual((found.truths, found.doubts), ({"KEY": True}, {}), version)
            release = version.rpartition("-")[2]
            self.assertEqual(found.backports, {"KEY": {f"backported? {name('p', quote(version))}: release {release}": None}})
        for version, kind, end in (("1:3.0.13-1.el9", "rpm", "3.0.13"), ("252.4-1", "deb", "252.4"), ("3.1.4-r5", "apk", "3.1.4")):
            found = self.decided_of_kind(version, kind, None, end, end_excluded=True)
            self.assertEqual((found.truths, found.doubts, found.backports), ({"KEY": False}, {}, {}), version)

    def test_the_order_of_a_kind_decides_where_others_differ(self):
        for kind, version, end, wanted in (
            ("npm", "1.0.0-1", "1.0.0", True), ("deb", "1.0.0-1", "1.0.0", False), ("pypi", "1.0.0-1", "1.0.0", False),
            ("pypi", "1.0rc1", "1.0", True), ("maven", "1.0-rc1", "1.0", True), ("golang", "v1.2.3-0.20240101000000-abcdefabcdef", "1.2.3", True),
            ("deb", "1.0~rc1-1", "1.0", True), ("rpm", "1.0k-1", "1.0", False), ("apk", "1.1_rc1-r0", "1.1", True),
        ):
            found = self.decided_of_kind(version, kind, None, end, end_excluded=True)
            self.assertEqual((found.truths, found.doubts), ({"KEY": wanted}, {}), (kind, version))
        found = self.decided_of_kind("1.0.0-1", "", None, "1.0.0", end_excluded=True)
        self.assertEqual(found.doubts["KEY"].reason, "dpkg and SemVer differ between 1.0.0-1 and 1.0.0")

    def test_what_an_item_without_a_release_makes_true_is_not_backported(self):
        program, items = Program(), [name("p", "1.5-1"), name("p", "1.6"), name("p", "1.7-2")]
        ranges = [Range("KEY", name("p"), "1.0", "2.0"), Range("LOW", name("p"), "1.0", "1.5.9")]
        leads = leads_of(program, [], items, [one.criteria for one in ranges])
        range_index = RangeIndex(program, ranges, leads, items, LETTERS)
        for order in (items, items[::-1]):
            found = decide_checks([one for item in order for one in follow(leads.found[item])], range_index, MatchLists(program, {}))
            self.assertEqual(found.truths, {"KEY": True, "LOW": True})
            self.assertEqual(found.backports, {"LOW": {f"backported? {items[0]}: release 1": None}})
        listed = decide_checks(follow(leads.found[items[0]]), range_index, MatchLists(program, {"LOW": [items[0]]}))
        self.assertEqual(listed.backports, {"KEY": {f"backported? {items[0]}: release 1": None}})

    def test_components_of_several_kinds_are_asked_for_by_each(self):
        program, item, one = Program(), name("p", "1.0.0-1"), Range("KEY", name("p"), None, "1.0.0", end_excluded=True)
        leads = leads_of(program, [], [item], [one.criteria])
        range_index = RangeIndex(program, [one], leads, [item], LETTERS)
        for kinds, wanted in ((["deb", "npm"], {"KEY": True}), (["npm", "deb"], {"KEY": True}), (["deb", "rpm"], {"KEY": False}), (["deb", ""], {})):
            item_names = [one for kind in kinds for one in follow(replace(leads.found[item], kind=kind))]
            found = decide_checks(item_names, range_index, MatchLists(program, {}))
            self.assertEqual(found.truths, wanted, kinds)

    def test_an_epoch_and_a_v_never_decide(self):
        for version, kind in ((r"32\:9.16.23", ""), (r"32\:9.16.23", "rpm"), ("v9.16.23", ""), ("v9.16.23", "golang"), (r"1\!9.16.23", "pypi")):
            one = Range("KEY", name("p"), "9.16.0", "v9.16.48", end_excluded=True)
            self.assertEqual(self.decided([name("p", version)], one), ({"KEY": True}, {}), version)
        self.assertEqual(self.decided([name("p", r"32\:9.16.49")], one), ({"KEY": False}, {}))
        self.assertEqual(self.decided([name("p", r"32\:9.*")], one), ({}, {"KEY": "it is known in part"}))
        self.assertEqual(self.decided([name("p", r"32\:9.17.*")], one), ({"KEY": False}, {}))
        one = Range("KEY", name("lettered"), "v1.1.1", "v1.1.1u", end_excluded=True)
        self.assertEqual(self.decided([name("lettered", r"1\:1.1.1k-24.el9")], one), ({"KEY": True}, {}))
        self.assertEqual(self.decided([name("lettered", "v1.1.1w")], one), ({"KEY": False}, {}))

    def test_this_recipe_orders_versions_as_cpe_does(self):
        draw = random.Random(18)
        bits = ["0", "1", "2", "10", "007", ".", ".", "-", "a", "rc", "_", "~"]
        versions = ["".join(draw.choice(bits) for _ in range(draw.randint(1, 6))) for _ in range(400)]
        versions = [version for version in dict.fromkeys(versions) if version != "-"]
        sure = 0
        for bound in ("1.0", "2", "10.1", "0.1-2"):
            for word in ("start", "end"):
                one = Range("KEY", name("p"), **{word: bound})
                items = {version: name("p", version.replace("~", r"\~")) for version in versions}
                program = Program()
                leads = leads_of(program, [], items.values(), [one.criteria])
                range_index = RangeIndex(program, [one], leads, items.values(), LETTERS)
                for version, item in items.items():
                    found = locate(version, None, one)
                    wanted = found.why if found.position is Position.UNSURE else found.position is Position.INSIDE
                    membership = range_index.memberships(item)["KEY"]
                    self.assertEqual(True if isinstance(membership, Backport) else membership, wanted, (version, word, bound))
                    sure += found.position is not Position.UNSURE
        self.assertGreater(sure, 500)


class Files(unittest.TestCase):
    def setUp(self):
        folder = tempfile.TemporaryDirectory()
        self.addCleanup(folder.cleanup)
        self.folder = Path(folder.name)

    def file(self, *lines):
        path = self.folder / "it.jsonl"
        path.write_text("\n".join(lines))
        return str(path)

    def test_ranges(self):
        one = Range("KEY", name("p"), "1.0", None, True)
        messages = Heard()
        other = Range("K 2", name("q"), None, "2.0")
        path = self.file(record_text(one.record()), "{}", record_text(other.record()), record_text(one.record()))
        self.assertEqual(read_ranges([path], messages), {"KEY": one, "K 2": other})
        self.assertEqual(messages.told, ["left out line 2 of it.jsonl: no range"])
        path = self.file(record_text(one.record()), record_text(Range("KEY", name("p"), "1.1").record()))
        self.assertEqual(read_ranges([path], messages), {})
        self.assertEqual(messages.told[1:], ["left out KEY: line 2 of it.jsonl has another range under this id; neither is decided"])
        for path in (self.file("{"), str(self.folder / "none")):
            with self.assertRaises(Fatal):
                read_ranges([path], messages)

    def test_entries_of_records(self):
        lines = [entry(name("p", "1.0")), deprecate(name("p", "1.0"))]
        other = record_text({"do": "statement", "id": "CVE-1", "title": 'an "entry"'})
        self.assertEqual(read_entries([self.file(lines[0], other, "", lines[1] + "\r")]), lines)

    def test_a_title_with_odd_separators_is_no_end_of_a_line(self):
        titled = record_text({"do": "entry", "name": name("p", "1.0"), "title": "one\u2028two\u2029three\x85four"})
        self.assertEqual(read_entries([self.file(titled, entry(name("p", "2.0")))]), [titled, entry(name("p", "2.0"))])

    def test_records_of_checks(self):
        self.assertEqual(check_record("K", True), '{"do":"check","system":"NVD","href":"cpeMatch","id":"K","result":"TRUE"}')
        self.assertEqual(drop_record("K"), '{"do":"drop-check","system":"NVD","href":"cpeMatch","id":"K"}')

    def test_lists_of_the_match_feed(self):
        messages = Heard()
        strings = [{"matchString": {"matchCriteriaId": key, "matches": [{"cpeName": name("p", key)}]}} for key in ("A", "B")]
        odd = [{"matchString": {"matchCriteriaId": "C", "matches": ["text"]}}, "text", {"matchString": {"matchCriteriaId": "D"}}]
        found = matches.read_match_lists([Page("it.json", "matchStrings", strings + odd)], {"A", "C", "D"}, messages)
        self.assertEqual(found, {"A": [name("p", "A")], "D": []})
        self.assertEqual(messages.told, ["left out C, match string 3 of it.json: not of the published form"])
        empty = Page("empty.json", "matchStrings", [])
        self.assertEqual(matches.read_match_lists([empty, Page("it.json", "matchStrings", strings)], {"A"}, messages), {"A": [name("p", "A")]})
        self.assertEqual(messages.told[1:], ["remark empty.json: no matchStrings in it"])
        self.assertEqual(matches.read_match_lists([], {"A"}, messages), {})
        with self.assertRaises(Fatal):
            matches.read_match_lists([empty, empty], {"A"}, messages)


if __name__ == "__main__":
    unittest.main()
