"""The orders of versions, on the examples that their own specifications and tests publish. (orders_against_tools.py
compares them with the tools.)"""
import sys
import unittest
from pathlib import Path

sys.path.insert(0, str(Path(__file__).resolve().parents[2] / "recipes"))

from cpe_recipes import orders  # noqa: E402
from cpe_recipes.orders import apk, dpkg, golang, maven, pep440, plain, rpm, semver  # noqa: E402

SIGNS = {"<": -1, "=": 0, ">": 1}


class OrderCase(unittest.TestCase):
    def rises(self, order, *versions):
        """Each of these versions is before all after it."""
        for place, one in enumerate(versions):
            self.assertEqual(order.ORDER.compare(one, one), 0, one)
            for other in versions[place + 1 :]:
                self.assertEqual(order.ORDER.compare(one, other), -1, f"{one} {other}")
                self.assertEqual(order.ORDER.compare(other, one), 1, f"{other} {one}")

    def same(self, order, *versions):
        for one in versions:
            for other in versions:
                self.assertEqual(order.ORDER.compare(one, other), 0, f"{one} {other}")

    def holds(self, order, text):
        """Lines of two versions with a sign between them."""
        for line in text.strip().splitlines():
            one, sign, other = line.split()
            self.assertEqual(order.compare(one, other), SIGNS[sign], line)
            self.assertEqual(order.compare(other, one), -SIGNS[sign], line)

    def refuses(self, order, *texts):
        for text in texts:
            self.assertIsNone(order.ORDER.compare(text, text), text)
            self.assertIsNone(order.ORDER.compare("1.0.0", text), text)


class Plain(OrderCase):
    def test_a_word_is_less_than_nothing_and_that_is_less_than_a_number(self):
        self.rises(plain, "1.0alpha", "1.0beta2", "1.0beta10", "1.0rc1", "1.0", "1.0.0", "1.0.1", "1.1.1k", "1.1.1")
        self.same(plain, "1.0-RC1", "1_0.rc.01", "1.0rc1")
        self.rises(plain, "", "1")
        self.same(plain, "", "_", "-.")


class Dpkg(OrderCase):
    def test_the_example_of_the_manual(self):
        # deb-version(7): parts sorted from earliest to latest
        self.rises(dpkg, "1~~", "1~~a", "1~", "1", "1a")
        self.rises(dpkg, "1.0~beta1~svn1245", "1.0~beta1", "1.0")

    def test_epochs_and_revisions(self):
        self.rises(dpkg, "1.0-1", "1.0-1.1", "1.0-2~bpo1", "1.0-2", "1.1", "1:0.9", "1:0.9-0ubuntu1", "2:0.1")
        self.same(dpkg, "1.0", "0:1.0", "1.0-0", "0:1.00-00", "1.000")
        self.rises(dpkg, "1.1.1n-0+deb11u1", "1.1.1n-0+deb11u3", "1.1.1t-0+deb11u1", "1.1.1w-0~deb11u1", "3.0.11-1~deb12u2")
        self.rises(dpkg, "5.6.1-1", "5.6.1+really5.4.5-1", "5.6.1.1", "5.10")

    def test_letters_before_other_marks(self):
        self.rises(dpkg, "1.0", "1.0a", "1.0z", "1.0+1", "1.0-a-1", "1.0.1")
        self.rises(dpkg, "0.4a6-2", "1.2a+~")
        self.rises(dpkg, "9" * 40 + ".1", "1" + "0" * 40)

    def test_what_is_no_version(self):
        self.refuses(dpkg, "", "1.0-", "-1", "1_0", "1.0 1", ":1.0", "a:1.0", "1:", "1.0-1:2", "1:-1", "1.0é", "1.0\n")


class Rpm(OrderCase):
    def test_the_examples_of_its_own_tests(self):
        # tests/rpmvercmp.at
        self.holds(rpm.ORDER, """
            1.0 < 2.0
            2.0 < 2.0.1
            2.0.1a > 2.0.1
            5.5p1 < 5.5p2
            5.5p10 > 5.5p1
            10xyz < 10.1xyz
            xyz10 < xyz10.1
            xyz.4 < 8
            xyz.4 < 2
            5.5p2 < 5.6p1
            5.6p1 < 6.5p1
            6.0.rc1 > 6.0
            10b2 > 10a1
            1.0aa = 1.0aa
            1.0a < 1.0aa
            10.0001 = 10.1
            10.0001 < 10.0039
            4.999.9 < 5.0
            20101121 < 20101122
            2.0 = 2_0
            a+ = a_
            +a = _a
            + = _
            1.0~rc1 < 1.0
            1.0~rc1 < 1.0~rc2
            1.0~rc1~git123 < 1.0~rc1
            1.0^ > 1.0
            1.0^git1 > 1.0
            1.0^git1 < 1.0^git2
            1.0^git1 < 1.01
            1.0^20160101 < 1.0.1
            1.0^20160102 > 1.0^20160101^git1
            1.0~rc1^git1 > 1.0~rc1
            1.0^git1~pre < 1.0^git1
            1b.fc17 < 1.fc17
            1g.fc17 > 1.fc17
        """)

    def test_epochs_and_releases(self):
        self.rises(rpm, "3.0.7", "3.0.7-18.el9_2", "3.0.7-24.el9", "3.0.7-100.el9", "3.0.13-1.el9", "1:1.0-1", "1:3.0.7-24.el9")
        self.same(rpm, "1.0-1", "0:1.0-1", ":1.0-1", "1.00-01")

    def test_what_is_no_version(self):
        self.refuses(rpm, "", "1.0-", "-1", "1-2-3", "1.0/1", "a:1.0", "1:2:3", "1.0 ", "1.0é")


class Pep440(OrderCase):
    def test_the_example_of_the_specification(self):
        self.rises(
            pep440, "1.dev0", "1.0.dev456", "1.0a1", "1.0a2.dev456", "1.0a12.dev456", "1.0a12", "1.0b1.dev456", "1.0b2",
            "1.0b2.post345.dev456", "1.0b2.post345", "1.0rc1.dev456", "1.0rc1", "1.0", "1.0+abc.5", "1.0+abc.7", "1.0+5",
            "1.0.post456.dev34", "1.0.post456", "1.0.15", "1.1.dev1", "2013.10", "2014.04", "1!1.0", "1!1.1", "1!2.0",
        )

    def test_other_spellings(self):
        self.same(pep440, "1.1a1", "1.1.a1", "1.1-a1", "1.1_alpha_1", "v1.1ALPHA1", "1.1.0a01")
        self.same(pep440, "1.0rc0", "1.0c", "1.0pre", "1.0-preview", "1.0.rc.0")
        self.same(pep440, "1.0.post1", "1.0-1", "1.0r1", "1.0-rev1", "1.0_post-1")
        self.same(pep440, "1.0+ubuntu.1", "1.0+ubuntu-1", "1.0+ubuntu_01")
        self.same(pep440, "1", "1.0", "1.0.0", "0!1.00")

    def test_what_is_no_version(self):
        self.refuses(pep440, "", "1.1.1k", "1.0-", "1..0", "1.0~rc1", "french toast", "1.0+", "1.0+a+b", "1:2.0", "1.0b1b2", "1.٣")


class SemVer(OrderCase):
    def test_the_example_of_the_specification(self):
        rising = ["alpha", "alpha.1", "alpha.beta", "beta", "beta.2", "beta.11", "rc.1"]
        self.rises(semver, *(f"1.0.0-{one}" for one in rising), "1.0.0", "2.0.0", "2.1.0", "2.1.1")
        self.same(semver, "1.0.0", "1.0.0+20130313144700", "1.0.0+exp.sha.5114f85", "1.0.0+21AF26D3---117B344092BD")
        self.rises(semver, "1.0.0-0", "1.0.0-2", "1.0.0-10", "1.0.0--", "1.0.0-0a", "1.0.0-1-", "1.0.0-x.7.z.92")

    def test_what_is_no_version(self):
        self.refuses(
            semver, "", "1", "1.2", "1.2.3-0123", "1.2.3-0123.0123", "1.1.2+.123", "+invalid", "-invalid", "alpha", "1.0.0-alpha_beta",
            "1.0.0-alpha..", "01.1.1", "1.01.1", "1.1.01", "1.2.3.DEV", "1.2-SNAPSHOT", "1.2.31.2.3----RC-SNAPSHOT.12.09.1--..12+788",
            "v1.0.0", "1.0.0+a+b", "1.0.0-",
        )


class Go(OrderCase):
    def test_what_may_be_missing(self):
        self.same(golang, "v1", "1", "v1.0", "v1.0.0", "v1.0.0+incompatible", "1.0.0+meta")
        self.rises(golang, "v1.0.0-alpha", "v1", "v1.2.3-pre", "v1.2.3", "v1.10.0", "v2.0.0+incompatible")

    def test_pseudo_versions(self):
        self.rises(golang, "v0.0.0-20190101000000-ffffffffffff", "v0.0.0-20191109021931-daa7c04131f5", "v0.0.1", "v0.1.0")
        self.rises(golang, "v1.2.3-pre", "v1.2.3-pre.0.20191109021931-daa7c04131f5", "v1.2.3")
        self.rises(golang, "v1.2.3", "v1.2.4-0.20191109021931-daa7c04131f5", "v1.2.4")

    def test_what_is_no_version(self):
        self.refuses(golang, "", "v", "vv1", "1-pre", "1.2-pre", "1.2+meta", "v01", "v1.2.3.4", "1.2.")


class Maven(OrderCase):
    def test_the_examples_of_its_own_tests(self):
        # ComparableVersionTest
        self.rises(
            maven, "1-alpha2snapshot", "1-alpha2", "1-alpha-123", "1-beta-2", "1-beta123", "1-m2", "1-m11", "1-rc", "1-cr2", "1-rc123",
            "1-SNAPSHOT", "1", "1-sp", "1-sp2", "1-sp123", "1-abc", "1-def", "1-pom-1", "1-1-snapshot", "1-1", "1-2", "1-123",
        )
        self.rises(maven, "2.0.1-xyz", "2.0.1-123", "2.0.2", "2.0.123", "2.1.0", "2.1-a", "2.1-c", "2.1-1", "2.1.0.1", "2.2", "2.123")
        self.same(maven, "1", "1.0", "1.0.0", "1-0", "1.0-0", "1.ga", "1-final", "1.0.RELEASE", "1.0.Final", "1.0-GA")
        self.same(maven, "1a1", "1-alpha-1", "1-a1", "1A1", "1ALPHA1")
        self.same(maven, "1-cr1", "1-rc1", "1RC1")
        self.rises(maven, "6.1.0rc3", "6.1.0", "6.1H.5-beta", "6.1H.5")
        self.rises(maven, "20190126.230843", "1234567890.12345", "123456789012345.1H.5-beta", "12345678901234567890.1H.5-beta")

    def test_words_that_are_not_known_come_after_the_release(self):
        self.rises(maven, "31.1-rc1", "31.1", "31.1-android", "31.1-jre", "31.2")

    def test_depth(self):
        deep = "1a" * 128
        self.assertEqual(maven.ORDER.compare(deep, deep[:-1] + "b"), -1)
        self.assertEqual(maven.ORDER.compare("-" * 256, "-" * 255), 0)
        self.refuses(maven, "", "1" * 257, "1 0", "1.é")


class Apk(OrderCase):
    SHARED = """
        2.34 > 0.1.0_alpha
        23_rc > 4_beta
        0.1.3_alpha > 0.1.2_alpha
        0.1.3_alpha2 > 0.1.3_alpha
        1.0.4-r3 < 1.0.4-r4
        1.0.4-r4 < 1.6
        1.6 > 1.0.2
        1.1 > 1.1_alpha1
        1.2.1 > 1.2
        1.3_alpha2 < 1.3_alpha3
        4.8-r1 > 3.10.18-r1
        2.3.0b-r1 < 2.3.0b-r2
        3.1_p16 < 3.1_p17
        9.3.4-r2 > 9.3.4
        1.6 < 1.39
        20060720 > 1.1
        0.15.1b-r2 > 0.15.1b
        3.9_pre20060124 > 0.01
        1.1a < 1.3a
        1.1a > 1.1
        4.5_p1-r1 > 4.5_p1
        5.1_p1 > 5.1
        1.3_pre1-r1 < 1.3.2
        2.1_git20240101 > 2.1
        2.1_git20240101 < 2.1_p1
        2.1_rc1_git1 > 2.1_rc1
        2.1_rc < 2.1_rc1
        1.1-r0 > 1.1
        1.1.1-r9 < 1.1.1a
    """

    def test_the_examples_of_its_own_tests(self):
        # test/version.data
        for order in (apk.SECOND, apk.THIRD):
            self.holds(order, self.SHARED)

    def test_numbers_that_begin_with_a_zero(self):
        # (1.010 is 1.01 with nothing behind it in version 3; in version 2 the zero counts once, and then the 10)
        self.holds(apk.SECOND, "1.010 > 1.02\n1.01 < 1.1\n1.0 < 1.0.1\n1.0_rc1 > 1.0\n1.00 < 1.0\n1.0-r1 > 1.0")
        self.holds(apk.THIRD, "1.010 < 1.02\n1.01 < 1.1\n1.0 < 1.0.1\n1.0_rc1 < 1.0\n1.00 > 1.0\n1.0-r1 > 1.0\n1.08 < 1.1\n1.8 > 1.1")

    def test_what_only_one_reads(self):
        self.holds(apk.THIRD, "1.1~1a > 1.1\n1.1~1a < 1.1~1b\n1.1_git1~ab-r1 > 1.1_git1~ab")
        self.assertIsNone(apk.SECOND.compare("1.1~1a", "1.1"))
        self.holds(apk.SECOND, "9.3p1 < 9.3p2\n9.3p1 > 9.3p")
        self.assertIsNone(apk.THIRD.compare("9.3p1", "9.3"))

    def test_what_is_no_version(self):
        for order in (apk.SECOND, apk.THIRD):
            for text in ("", "a", "_rc1", "1.", "1..2", "1.0bc", "1.0_foo", "1.0-1", "1.0-r", "1.0-r1_p1", "1A", "1:1.0", "1.0-r1-r2"):
                self.assertIsNone(order.compare(text, "1.0"), text)


class All(unittest.TestCase):
    def test_each_order_is_an_order(self):
        texts = ["1", "1.0", "1.0.0", "1.0.0-rc1", "1.0.0-1", "1.0.1", "1.0_rc1", "1.0~rc1", "1.0rc1", "1.0-1", "1:1.0", "1.0a", "1.01", "1.0+3", "1.0^2", "v1"]
        for order in orders.ALL:
            known = [text for text in texts if order.read(text) is not None]
            self.assertGreater(len(known), 2, order.name)
            for one in known:
                for two in known:
                    self.assertEqual(order.compare(one, two), -order.compare(two, one), (order.name, one, two))
                    for three in known:
                        if order.compare(one, two) <= 0 and order.compare(two, three) <= 0:
                            self.assertLessEqual(order.compare(one, three), 0, (order.name, one, two, three))

    def test_names_are_no_names_twice(self):
        self.assertEqual(len({order.name for order in orders.ALL}), len(orders.ALL))
        self.assertLessEqual({order.name for found in orders.OF_KIND.values() for order in found}, {order.name for order in orders.ALL})


if __name__ == "__main__":
    unittest.main()
