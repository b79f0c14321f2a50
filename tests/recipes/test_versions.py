"""Whether versions are in ranges and equal each other, by the orders that they may have."""
import random
import sys
import unittest
from pathlib import Path

sys.path.insert(0, str(Path(__file__).resolve().parents[2] / "recipes"))

from cpe_recipes.advisories import Range  # noqa: E402
from cpe_recipes.console import Fatal  # noqa: E402
from cpe_recipes.orders import ALL, OF_KIND  # noqa: E402
from cpe_recipes.readings import readings, release_of, without_epoch, without_v  # noqa: E402
from cpe_recipes.versions import (  # noqa: E402
    Letters, Same, Sameness, Position, RangePosition, Upward, is_outside_from, letters_of, orders, pieces, read_letters, same, locate,
    sure_beginning,
)

INSIDE, OUTSIDE, UNSURE = Position
TABLE = Path(__file__).resolve().parents[2] / "recipes" / "letters.txt"


def between(start, end, **excluded):
    return Range("KEY", "cpe:2.3:a:v:p:*:*:*:*:*:*:*:*", start, end, **excluded)


class Beginnings(unittest.TestCase):
    def test_the_last_run_may_go_on(self):
        for text, sure in (("1.2", "1."), ("1.2.", "1.2."), ("1.2RC1", "1.2rc"), ("2", ""), ("", ""), ("1.1.1k", "1.1.1")):
            self.assertEqual(sure_beginning(text), sure, text)

    def test_what_is_outside_whatever_follows(self):
        one = between("1.5", "2.3")
        for text in ("1.4.", "0.", "2.4.", "2.3.1.", "3.", "v3.", "2:3.", "3-"):
            self.assertTrue(is_outside_from(text, one), text)
        for text in ("", "1.", "1.5.", "2.", "2.3.", "2.3.0.", "2.3-1.", "2.3+1.", "2.3rc", "x.", "1.6.", "3:1.6.", "3:", "03.", "2.3-4.", "8f"):
            self.assertFalse(is_outside_from(text, one), text)
        self.assertFalse(is_outside_from("3.", between("none", "none")))
        self.assertFalse(is_outside_from("3.", between(None, "a.b")))
        self.assertTrue(is_outside_from("1.", between("2.0", None)))
        self.assertTrue(is_outside_from("1.", between("1:2.0", None)))
        self.assertFalse(is_outside_from("1:3.", between(None, "1:2.0")))

    def test_each_version_that_begins_so_is_outside(self):
        draw = random.Random(7)
        bits = ["0", "1", "2", "10", ".", ".", "-", "a", "rc", ":", "v", "~"]
        told = 0
        for _ in range(6000):
            begin, rest, bound = ("".join(draw.choice(bits) for _ in range(draw.randint(1, 4))) for _ in range(3))
            one = between(None, bound) if draw.random() < 0.5 else between(bound, None)
            if is_outside_from(sure_beginning(begin), one):
                told += 1
                self.assertIs(locate(begin + rest, None, one).position, OUTSIDE, (begin, rest, bound))
        self.assertGreater(told, 100)


def answers(version, bound, kind=""):
    return set(orders(version, bound, kind).answers)


class Possible(unittest.TestCase):
    def test_numbers_decide_by_what_they_are_worth(self):
        short = [("1.9", "1.10"), ("1.0", "1.0.1"), ("2.09", "2.10"), ("1.0.0.5", "1.0.1"), ("1.0rc1", "1.1"), ("0.0-1", "0.1")]
        for low, high in [*short, ("9" * 30, "1" + "0" * 30), ("1.2-3", "1.3"), ("1.0~rc1", "1.1-4"), ("1.2+5", "1.3"), ("1.0", "2.0_7")]:
            for kind in ("", *OF_KIND):
                with self.subTest(f"{low} {high} {kind}"):
                    self.assertEqual(answers(low, high, kind), {-1})
                    self.assertEqual(answers(high, low, kind), {1})

    def test_versions_without_a_difference(self):
        for one, other in (("1.0", "1.0"), ("1.0-RC1", "1.0-rc1"), ("v1.0", "1.0"), ("1.0", "V1.0"), ("1:1.0", "1.0"), ("1!1.0", "v1.0")):
            self.assertEqual(answers(one, other), {0}, one)

    def test_orders_that_differ_leave_it_open(self):
        for one, other in (("1.1.1k", "1.1.1"), ("2023c", "2023"), ("1.0.x", "1.0.1"), ("1.0.0-beta", "1.0"), ("1.0~1", "1.0")):
            self.assertEqual(answers(one, other), {-1, 1}, f"{one} {other}")
        self.assertEqual(answers("1.0.0", "1.0"), {0, 1})
        self.assertEqual(answers("1", "1.0.00"), {-1, 0})
        self.assertEqual(answers("1.0.0+7", "1.0"), {0, 1})
        self.assertEqual(answers("1.0-1", "1.0.1"), {-1, 0})
        self.assertEqual(answers("4.08", "4.1"), {-1, 1})

    def test_single_letters_and_numbers_behind_a_word_decide(self):
        for low, high in (("1.1.1k", "1.1.1l"), ("2023c", "2023d"), ("1.0rc1", "1.0rc2"), ("9.3p1", "9.3p2"), ("1.0-1", "1.0-2")):
            self.assertEqual((answers(low, high), orders(low, high).words), ({-1}, ""), low)

    def test_the_order_of_a_kind_alone(self):
        for kind, low, high in (
            ("deb", "1.0~rc1", "1.0"), ("deb", "1.0", "1.0.0"), ("rpm", "0.9k", "1.0"), ("rpm", "1.0^1", "1.0.1"), ("pypi", "1.0a1", "1.0"),
            ("pypi", "1.0", "1.0-1"), ("npm", "1.0.0-1", "1.0.0"), ("npm", "1.0.0-alpha", "1.0.0-beta"), ("golang", "v1.0.0-rc.1", "v1"),
            ("maven", "1.0-alpha", "1"), ("apk", "1.1_beta", "1.1"), ("cargo", "1.0.0-a", "1.0.0"),
        ):
            # (of a distribution's kind, if the bound has only numbers)
            sides = [(low, high, -1), (high, low, 1)] if kind not in ("deb", "rpm", "apk") else [(low, high, -1)]
            for one, other, wanted in sides:
                self.assertEqual((answers(one, other, kind), orders(one, other, kind).words), ({wanted}, ""), (kind, one, other))
        self.assertEqual(answers("1.0", "1.0.0", "pypi"), {0})
        self.assertEqual(answers("1.0.0+a", "1.0.0+b", "npm"), {0})

    def test_what_is_no_version_of_the_kind_may_be_any(self):
        self.assertEqual(answers("1.0-rc1", "1.0", "npm"), answers("1.0-rc1", "1.0"))
        self.assertEqual(answers("1.1.1k", "1.1.1", "pypi"), {-1, 1})
        self.assertEqual(answers("1.1.1k", "1.1.1", "gem"), {-1, 1})

    def test_distributions_spell_bounds_otherwise(self):
        # (upstream's beta may be the distribution's, if that writes no tilde; and a hyphen before a number is no
        # revision)
        self.assertEqual(answers("2.9.0dev.6-3", "2.9.0", "deb"), {-1, 1})
        self.assertEqual(answers("1.0beta2-1", "1.0", "rpm"), {-1, 1})
        self.assertEqual(answers("8:6.9.11.60+dfsg-1.6", "6.9.11-62", "deb"), {-1, 1})
        self.assertEqual(answers("3.0.0-1", "3.0.0-rc1", "deb") & {1}, {1})

    def test_words_that_no_order_is_told_for_are_not_trusted(self):
        found = orders("1.0-tp1", "1.0-beta1")
        self.assertEqual(found.words, "the words tp and beta decide between 1.0-tp1 and 1.0-beta1")
        self.assertIs(locate("1.0-tp1", None, between(None, "1.0-beta1")).position, UNSURE)
        self.assertEqual(same("1.0-tp1", "1.0-beta1").sameness, Sameness.UNEQUAL)
        for version in ("release_1.2", "release/1.2", "r1.2", "openssl-1.2"):
            for kind in ("", "maven", "rpm"):
                self.assertIs(locate(version, None, between("1.0", "2.0"), kind).position, UNSURE, version)
            self.assertIs(locate(version, None, between(version.replace("2", "1"), None)).position, INSIDE, version)
        self.assertEqual(locate("2_x", None, between("2_5", None)).why, "the word x decides between 2_x and 2_5")
        self.assertIs(locate("1.0rc1", None, between(None, "1.0.1")).position, INSIDE)

    def test_what_has_no_pieces_is_no_version(self):
        for one, other in (("-", "1.0"), ("1.0", "*"), ("_", "_"), ("v", "~")):
            self.assertEqual(answers(one, other), {-1, 0, 1})
            self.assertTrue(orders(one, other).words.endswith("has no digits"))

    def test_commits_are_no_versions(self):
        for version in ("8f3c2e1", "1b2c3d4e5f", "0123456789abcdef0123456789abcdef01234567", "(devel)", "latest", "main"):
            self.assertEqual(answers(version, "1.0"), {-1, 0, 1}, version)
        self.assertEqual(answers("20240101a", "20230101"), {1})
        commit, later = "v0.0.0-20191109021931-daa7c04131f5", "0.0.0-20220314234659-1baeb1ce4c0b"
        for kind in ("golang", ""):
            stands = [locate(commit, None, one, kind).position for one in (between(None, "1.0"), between("1.0", "2.0"), between(None, later))]
            self.assertEqual(stands, [INSIDE, UNSURE, INSIDE], kind)
            self.assertEqual(locate(commit, None, between(later, None), kind).position, OUTSIDE, kind)

    def test_pieces(self):
        self.assertEqual([(one.text, one.is_word) for one in pieces("1.010-RC2~")], [("1", False), ("10", False), ("rc", True), ("2", False)])

    def test_no_order_that_is_possible_is_left_out(self):
        draw = random.Random(54)
        bits = ["0", "1", "2", "10", "01", ".", ".", ".", "-", "~", "+", "^", "_", "a", "b", "rc", "dev", "k", "1:", "v", "1!"]
        asked, compared = 0, dict.fromkeys((order.name for order in ALL), 0)
        for _ in range(6000):
            front = draw.choice(["", "", "1.0.0-", "1.2.3"])
            one, other = (front + "".join(draw.choice(bits) for _ in range(draw.randint(1, 6))) for _ in range(2))
            if draw.random() < 0.5:
                other = one[: draw.randint(0, len(one))] + other
            found, (left, right) = answers(one, other), without_epoch(one, other)
            for order in ALL:
                answer = order.compare(left, right)
                if answer is not None:
                    compared[order.name] += 1
                    self.assertIn(answer, found, (order.name, one, other))
            asked += len(found) == 1
        self.assertGreater(min(compared.values()), 30)
        self.assertGreater(asked, 1000)

    def test_numbers_in_front_decide_as_all_orders_do(self):
        draw = random.Random(3)
        ends = ["", "-1", "a", "rc1", "~1", "+2", "^3", "_p1", "-24.el9", ".dfsg-1", "-rc.1"]
        for _ in range(6000):
            one, other = (".".join(str(draw.choice([0, 0, 1, 2, 10])) for _ in range(draw.randint(1, 4))) for _ in range(2))
            one, other = one + draw.choice(ends), other + draw.choice(ends)
            found = orders(one, other)
            if list(found.answers.values()) == [()] and one != other:
                self.assertEqual({order.compare(one, other) for order in ALL} - {None}, set(found.answers), (one, other))


class Readings(unittest.TestCase):
    def meant(self, version, kind, bound="9"):
        return [(one.text, one.release) for one in readings(version, bound, kind)[1]]

    def test_releases_of_distributions(self):
        for version, kind, upstream, release in (
            ("3.0.7-24.el9", "rpm", "3.0.7", "24.el9"), ("1.1.1t-0+deb11u1", "deb", "1.1.1t", "0+deb11u1"), ("5.6.1-1", "deb", "5.6.1", "1"),
            ("3.1.4-r5", "apk", "3.1.4", "r5"), ("1:1.3.dfsg-3", "deb", "1.3", "3"), ("1.2.3+ds1-2", "deb", "1.2.3", "2"),
            ("5.6.1+really5.4.5-1", "deb", "5.4.5", "1"), ("7.3.5+~7.3.9-2", "deb", "7.3.5", "2"), ("2-3-4", "deb", "2-3", "4"),
            ("2.0~rc1-1~bpo12+1", "deb", "2.0~rc1", "1~bpo12+1"), ("1.0-ubuntu3", "deb", "1.0", "ubuntu3"),
        ):
            self.assertEqual(self.meant(version, kind), [(upstream, release)], version)
            self.assertEqual(release_of(version, kind), release)
        self.assertEqual(self.meant("2.0+git2024-1", "deb"), [("2.0+git2024", "1"), ("2.0", "1")])
        self.assertEqual(self.meant("2.0^20240101git-1.fc40", "rpm"), [("2.0^20240101git", "1.fc40"), ("2.0", "1.fc40")])
        self.assertEqual(self.meant("1.0", "deb"), [("1.0", "")])
        self.assertEqual(self.meant("1.0-1", "apk"), [("1.0-1", "")])

    def test_what_has_no_kind_may_be_with_a_release_or_without(self):
        self.assertEqual(self.meant("5.6.1-1", ""), [("5.6.1-1", ""), ("5.6.1", "1")])
        self.assertEqual(self.meant("3.0.7-24.el9", "generic"), [("3.0.7-24.el9", ""), ("3.0.7", "24.el9")])
        self.assertEqual(self.meant("1.2-r3", ""), [("1.2-r3", ""), ("1.2", "r3")])
        self.assertEqual(self.meant("1.0-rc1", ""), [("1.0-rc1", "")])
        self.assertEqual(self.meant("2.0+3", ""), [("2.0+3", ""), ("2.0", "")])
        self.assertEqual(self.meant("1.0-5", "", bound="1.0-3"), [("1.0-5", "")])
        self.assertEqual([release_of(version, "") for version in ("5.6.1-1", "1.0-rc1", "1.0")], ["1", "", ""])

    def test_packages_of_languages_have_no_release(self):
        for kind in ("npm", "pypi", "golang", "maven", "cargo"):
            self.assertEqual(self.meant("1.0.0-1", kind), [("1.0.0-1", "")])
            self.assertEqual(release_of("1.0.0-1", kind), "")
        self.assertEqual(self.meant("2.0.1+cu118", "pypi"), [("2.0.1", "")])
        self.assertEqual(self.meant("2.0.1+cu118", "pypi", bound="2.0.1+cu117"), [("2.0.1+cu118", "")])
        self.assertEqual(self.meant("31.1-jre", "maven"), [("31.1-jre", ""), ("31.1", "")])
        self.assertEqual(self.meant("31.1-rc", "maven"), [("31.1-rc", "")])

    def test_an_epoch_or_a_v(self):
        self.assertEqual(self.meant("32:9.16.23", "rpm"), [("9.16.23", "")])
        self.assertEqual(self.meant("32:9.16.23", "rpm", bound="31:1"), [("32:9.16.23", "")])
        self.assertEqual(self.meant("1:v2.0", ""), [("2.0", "")])
        self.assertEqual(self.meant("1%3a3.0.7-24.el9", "rpm"), [("3.0.7", "24.el9")])
        self.assertIs(locate("1%3A3.0.7-24.el9", None, between("3.0.0", "3.0.13"), "rpm").position, INSIDE)
        self.assertEqual(readings("1.0", "1:v2.0", "")[0], "2.0")
        self.assertEqual([without_v(one) for one in ("v1", "V1.0", "vv1", "version1", "1v2", "")], ["1", "1.0", "vv1", "version1", "1v2", ""])


class Standings(unittest.TestCase):
    def stands(self, version, one, kind="", update=None):
        found = locate(version, update, one, kind)
        return found.position, found.why

    def test_bounds(self):
        one = between("1.0", "2.0", end_excluded=True)
        for version, wanted in (("0.9", OUTSIDE), ("1.0", INSIDE), ("1.5", INSIDE), ("2.0", OUTSIDE), ("2.0.1", OUTSIDE), ("10", OUTSIDE)):
            self.assertEqual(self.stands(version, one), (wanted, ""), version)
        self.assertEqual(self.stands("1.0", between("1.0", None, start_excluded=True)), (OUTSIDE, ""))
        self.assertEqual(self.stands("2.0", between(None, "2.0")), (INSIDE, ""))

    def test_zeros_are_unsure_only_where_the_answer_hangs_on_them(self):
        self.assertEqual(self.stands("1.0", between(None, "1.0.0"))[0], INSIDE)
        self.assertEqual(self.stands("1.0", between(None, "1.0.0", end_excluded=True))[0], UNSURE)
        self.assertEqual(self.stands("1.0.0", between(None, "1.0")), (UNSURE, "dpkg and PEP 440 differ between 1.0.0 and 1.0"))
        self.assertEqual(self.stands("1.0.0", between(None, "1.0", end_excluded=True))[0], OUTSIDE)
        self.assertEqual(self.stands("1.0", between("1.0.0", None))[0], UNSURE)
        self.assertEqual(self.stands("1.0.0", between("1.0", None))[0], INSIDE)

    def test_a_letter_is_unsure_unless_the_other_bound_is_missed(self):
        one = between("1.1.1", "1.1.1u", end_excluded=True)
        self.assertEqual(self.stands("1.1.1k", one), (UNSURE, "dpkg and cpe differ between 1.1.1k and 1.1.1"))
        self.assertEqual(self.stands("1.1.1", one), (UNSURE, "dpkg and cpe differ between 1.1.1 and 1.1.1u"))
        self.assertEqual(self.stands("1.0.2k", one)[0], OUTSIDE)
        self.assertEqual(self.stands("3.0.1", one)[0], OUTSIDE)
        self.assertEqual(self.stands("1.1.1k-5", one, "deb")[0], INSIDE)

    def test_an_update_is_unsure_at_a_bound_alone(self):
        one = between("1.0", "2.0", end_excluded=True)
        self.assertEqual(self.stands("1.0", one, update="rc1"), (UNSURE, "1.0 is the bound, and has the update rc1"))
        self.assertEqual(self.stands("2.0", one, update="sp1")[0], UNSURE)
        self.assertEqual(self.stands("2.0.0", one, update="sp1"), (UNSURE, "2.0.0 is the bound, and has the update sp1"))
        self.assertEqual(self.stands("1.5", one, update="rc1")[0], INSIDE)
        self.assertEqual(self.stands("2.1", one, update="rc1")[0], OUTSIDE)

    def test_a_release_is_told_where_it_is_inside(self):
        self.assertEqual(locate("3.0.7-24.el9", None, between("3.0", "3.0.13"), "rpm"), RangePosition(INSIDE, release="24.el9"))
        self.assertEqual(locate("3.0.7-24.el9", None, between("3.0", "3.0.13")), RangePosition(INSIDE, release="24.el9"))
        self.assertEqual(locate("3.0.7-24.el9", None, between("3.0", "3.0.7-30.el9"), "rpm"), RangePosition(INSIDE))
        self.assertEqual(locate("3.0.14-1.el9", None, between("3.0", "3.0.13"), "rpm"), RangePosition(OUTSIDE))
        self.assertEqual(locate("3.0.13-1", None, between("3.0", "3.0.13"), "deb"), RangePosition(INSIDE, release="1"))
        unsure = locate("3.0.13.1-1", None, between("3.0", "3.0.13.1"))
        self.assertEqual(unsure, RangePosition(UNSURE, "3.0.13.1-1 may be 3.0.13.1 in the release 1 of a distribution"))

    def test_versions_that_were_outside_without_a_word(self):
        below = {"252-14.el9": "252.4", "115-1.el9": "115.0.2", "2.0+3": "2.0.3", "2.0~20240101": "2.0.1"}
        for version, end in below.items():
            found = self.stands(version, between(None, end, end_excluded=True))
            self.assertEqual(found[0], UNSURE, version)
            self.assertIn(f" differ between {version} and {end}", found[1])
        self.assertEqual(self.stands("2.0+3", between(None, "2.0")), (UNSURE, "2.0+3 may be 2.0"))
        self.assertEqual(self.stands("2.0~20240101", between(None, "2.0.1"), "deb")[0], INSIDE)
        self.assertEqual(self.stands("1:3.0.7-24.el9", between("3.0.0", "3.0.13", end_excluded=True))[0], INSIDE)
        self.assertEqual(self.stands("32:9.16.23", between("9.16.0", "9.16.48"))[0], INSIDE)


class Sames(unittest.TestCase):
    def test_versions_that_are_one(self):
        for version, wanted, kind, release in (
            ("5.6.1", "5.6.1", "", ""), ("5.6.1-1", "5.6.1", "deb", "1"), ("5.6.1-1.fc40", "5.6.1", "rpm", "1.fc40"), ("v1.2.3", "1.2.3", "", ""),
            ("1:5.6.1-1", "5.6.1", "deb", "1"), ("5.6.1-r2", "5.6.1", "apk", "r2"), ("2.0.0", "2.0", "pypi", ""), ("2.0.0", "2.0", "golang", ""),
            ("2.0.0", "2.0", "maven", ""), ("2.0.Final", "2.0", "maven", ""), ("1.0.0+build.5", "1.0.0", "npm", ""), ("5.6.1-1", "5.6.1-1", "", ""),
        ):
            self.assertEqual(same(version, wanted, kind), Same(Sameness.EQUAL, release=release), version)

    def test_versions_that_are_not(self):
        for version, wanted, kind in (
            ("5.6.2", "5.6.1", ""), ("5.6.1-1", "5.6.2", "deb"), ("5.6.1+really5.4.5-1", "5.6.1", "deb"), ("5.6.10", "5.6.1", ""), ("2.0.1", "2.0", ""),
            ("1.0rc1", "1.0", ""), ("1.0-rc1", "1.0-rc2", ""), ("2.0.0", "2.0", "deb"), ("5.6.1-2", "5.6.1-1", "deb"), ("1.0a", "1.0", ""),
        ):
            self.assertEqual(same(version, wanted, kind), Same(Sameness.UNEQUAL), version)

    def test_what_is_not_sure(self):
        for version, wanted, kind, why in (
            ("5.6.1-1", "5.6.1", "", "5.6.1-1 may be 5.6.1 in the release 1 of a distribution"),
            ("2.0.0", "2.0", "", "dpkg and PEP 440 differ between 2.0.0 and 2.0"),
            ("31.1-jre", "31.1", "maven", "31.1-jre may be 31.1"),
            ("2.0+3", "2.0", "", "2.0+3 may be 2.0"),
            ("1.0-final", "1.0", "", "dpkg and Maven differ between 1.0-final and 1.0"),
            ("_", "1.0", "", "_ has no digits"),
            ("8f3c2e1", "1.0", "", "8f3c2e1 is a commit, and no release"),
            ("v0.0.0-20191109021931-daa7c04131f5", "1.0", "golang", "v0.0.0-20191109021931-daa7c04131f5 is a commit, and no release"),
        ):
            self.assertEqual(same(version, wanted, kind), Same(Sameness.UNSURE, why), version)

    def test_letters_that_count_upward(self):
        upward = Upward(letters_of(["v:all"], "it"), ("v", "all"))
        self.assertEqual(same("1.1.1k-7.el8", "1.1.1k", "rpm", upward), Same(Sameness.EQUAL, release="7.el8"))
        self.assertEqual(same("1.1.1k", "1.1.1l", "", upward), Same(Sameness.UNEQUAL))


class LettersUpward(unittest.TestCase):
    def setUp(self):
        self.letters = Letters({("v", "all"): frozenset(), ("v", "p"): frozenset({"p"})})

    def test_letters_become_numbers(self):
        upward = {"1.1.1k": "1.1.1.11", "0.9.8za": "0.9.8.26.1", "9.3P1": "9.3.16.1", "3.0-a2": "3.0-1.2", "k": "11", "v1.0a": "1.0.1"}
        for version, wanted in upward.items():
            self.assertEqual(self.letters.rewrite(("v", "all"), version), wanted)

    def test_words_before_a_release_and_long_ones_are_left(self):
        for version in ("1.0-rc1", "4.0.0tp2", "1.0beta2", "1.0-pre", "1.0.dev3", "1.0-final"):
            self.assertEqual(self.letters.rewrite(("v", "all"), version), version)
        self.assertEqual(self.letters.rewrite(("v", "all"), "1.0a-rc1"), "1.0.1-rc1")

    def test_only_the_words_of_the_table(self):
        self.assertEqual(self.letters.rewrite(("v", "p"), "1.9.5p2"), "1.9.5.16.2")
        self.assertEqual(self.letters.rewrite(("v", "p"), "1.9.5b1"), "1.9.5b1")
        self.assertEqual(self.letters.rewrite(("v", "other"), "1.9.5p2"), "1.9.5p2")
        self.assertEqual([self.letters.has(("v", one)) for one in ("p", "other")], [True, False])

    def test_an_update_of_such_letters_is_part_of_the_version(self):
        self.assertEqual(self.letters.with_update(("v", "p"), "9.3", "p1"), ("9.3p1", None))
        for update in ("b1", "rc1", "sp1", "p1x", None):
            self.assertEqual(self.letters.with_update(("v", "p"), "9.3", update), ("9.3", update))
        self.assertEqual(self.letters.with_update(("v", "other"), "9.3", "p1"), ("9.3", "p1"))

    def test_rewritten_versions_are_in_the_order_of_the_vendor(self):
        rising = ["0.9.8", "0.9.8a", "0.9.8z", "0.9.8za", "0.9.8zh", "1.0.0", "1.0.2", "1.0.2a", "1.0.2zi", "1.1.1", "1.1.1w", "3.0.0"]
        upward = [self.letters.rewrite(("v", "all"), version) for version in rising]
        for one, other in zip(upward, upward[1:]):
            self.assertEqual(answers(one, other), {-1}, f"{one} {other}")

    def test_tables(self):
        letters = letters_of(["# a comment", "", "V:All # so", r"v:c\+\+  p  Q"], "it")
        self.assertEqual(letters.products, {("v", "all"): frozenset(), ("v", r"c\+\+"): frozenset({"p", "q"})})
        for line in ("v", "v:p:1", "v:p abc", "v:p p1", "cpe:2.3:a:v:p"):
            with self.subTest(line), self.assertRaises(Fatal):
                letters_of([line], "it")
        with self.assertRaises(Fatal):
            read_letters(str(TABLE.with_name("none.txt")))
        self.assertTrue(read_letters(str(TABLE)).has(("openssl", "openssl")))


if __name__ == "__main__":
    unittest.main()
