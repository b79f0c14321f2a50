"""scan.py with packages that get their names by their URLs.

The expected results were written by hand, from what the packages are.
"""
import sys
import unittest
from pathlib import Path

sys.path.insert(0, str(Path(__file__).resolve().parent))

from recipe_case import fs, needs_cpe  # noqa: E402 (it knows where the recipes are)
from named_case import WEBSERVER, NamedCase, listed  # noqa: E402
from test_platforms import page  # noqa: E402


@needs_cpe
class Scans(NamedCase):
    def test_what_the_dictionary_alone_names_is_unknown_and_says_its_line(self):
        status, verdicts, lines, said = self.verdicts(purls=[WEBSERVER], names="")
        self.assertEqual((status, verdicts), (0, {"CVE-2024-1": "UNKNOWN"}))
        line = "pkg:deb/debian/webserver9 acme:webserver"
        self.assertIn(f"pkg:deb/debian/webserver9@9.0.43-2~deb11u6 may be acme:webserver, and names.txt settles it: {line}", lines[1])
        self.assertIn("remark candidates of the dictionary alone: 1 package, on 1 machine; to list them: sh ", "\n".join(said))
        # (the hint's line settles it, and its distribution may have fixed it)
        status, verdicts, lines, said = self.verdicts(purls=[WEBSERVER], names=line)
        self.assertEqual((status, verdicts), (0, {"CVE-2024-1": "TRUE"}))
        self.assertIn("backported? ", lines[1])
        self.assertIn("release 2~deb11u6", lines[1])

    def test_what_is_outside_all_ranges_is_false(self):
        outside = WEBSERVER.replace("9.0.43-2~deb11u6", "9.0.70-1")
        self.assertEqual(self.verdicts(purls=[outside])[1], {})
        self.assertEqual(self.verdicts(purls=[outside], names="pkg:deb/webserver9 acme:webserver")[1], {})
        self.assertEqual(self.verdicts(purls=["pkg:deb/debian/widget@3.1-2"])[1], {})

    def test_several_candidates_decide_nothing(self):
        purls = ["pkg:deb/debian/widget@2.4-1"]
        for names, wanted in (
            ("", "UNKNOWN"),
            ("pkg:deb/widget acme:widget other:widget", "UNKNOWN"),
            ("pkg:deb/widget acme:widget,other:widget", "TRUE"),
            ("pkg:deb/widget acme:widget", "TRUE"),
        ):
            with self.subTest(names):
                self.assertEqual(self.verdicts(purls=purls, names=names)[1], {"CVE-2024-2": wanted})
        for names in ("pkg:deb/widget other:widget", "pkg:deb/widget other:widget,acme:fork"):
            self.assertEqual(self.verdicts(purls=purls, names=names)[1], {})

    def test_a_version_that_is_none_is_not_known(self):
        versions = ("", "@2.4%20beta", "@%C3%A9", "@-")
        lists = [self.file(f"m{n}.json", listed({"purl": f"pkg:deb/debian/widget{version}"})) for n, version in enumerate(versions)]
        for names in ("", "pkg:deb/widget acme:widget"):
            status, lines, said = self.scan(*self.feeds, "--lists", *lists, "--names", self.file("names.txt", names))
            rows = [line.split()[:3] for line in lines if " CVE-" in line]
            self.assertEqual((status, rows), (0, [[f"m{n}", "UNKNOWN", "CVE-2024-2"] for n in range(4)]), said)

    def test_what_is_negated_depends_on_candidates_too(self):
        suite = {"vulnerable": True, "criteria": fs("acme", "fork", "1.0"), "matchCriteriaId": "s"}
        widget = {"vulnerable": True, "criteria": fs("acme", "widget"), "matchCriteriaId": "w", "versionEndExcluding": "3.0"}
        nodes = [{"operator": "OR", "negate": False, "cpeMatch": [suite]}, {"operator": "OR", "negate": True, "cpeMatch": [widget]}]
        one = {"cve": {"id": "CVE-2024-6", "vulnStatus": "Analyzed", "lastModified": "2024-01-01T00:00:00.000"}}
        one["cve"]["configurations"] = [{"operator": "AND", "nodes": nodes}]
        self.feeds[3] = self.file("advisories.json", page("vulnerabilities", one))
        fork = {"cpe": fs("acme", "fork", "1.0")}
        lists = [self.file(f"m{n}.json", listed(fork, {"purl": f"pkg:deb/debian/widget@{n}.4-1"})) for n in (2, 3)]
        for names, wanted in (("", ["UNKNOWN", "TRUE"]), ("pkg:deb/widget acme:widget", ["FALSE", "TRUE"]), ("pkg:deb/widget -", ["TRUE", "TRUE"])):
            _, lines, _ = self.scan(*self.feeds, "--all", "--lists", *lists, "--names", self.file("names.txt", names))
            self.assertEqual([line.split()[1] for line in lines if "CVE-2024-6" in line], wanted, names)

    def test_an_exact_name_and_a_language(self):
        self.assertEqual(self.verdicts(purls=["pkg:npm/fork@1.0"])[1], {"CVE-2024-5": "UNKNOWN"})
        self.assertEqual(self.verdicts(purls=["pkg:npm/fork@1.0"], names="pkg:npm/fork acme:fork")[1], {"CVE-2024-5": "TRUE"})
        for purl in ("pkg:pypi/requests@2.28.1", "pkg:deb/debian/python3-requests@2.28.1%2Bdfsg-1?upstream=requests"):
            names = "pkg:deb/requests python:requests"
            self.assertEqual(self.verdicts(purls=[purl], names=names)[1], {"CVE-2024-4": "TRUE"}, purl)

    def test_wrong_guesses_of_a_tool_get_candidates(self):
        guess = fs("libssl3", "libssl3", "3.0.11-1")
        component = {"cpe": guess, "purl": "pkg:deb/debian/libssl3@3.0.11-1?upstream=openssl"}
        self.assertEqual(self.verdicts(components=[component])[1], {"CVE-2024-3": "TRUE"})
        unknown = {"cpe": fs("webserver9", "webserver9", "9.0.43"), "purl": WEBSERVER}
        self.assertEqual(self.verdicts(components=[unknown], names="pkg:deb/no no:no")[1], {"CVE-2024-1": "UNKNOWN"})
        # (a product in the dictionary isn't such a guess)
        known = {"cpe": fs("acme", "fork", "2.0"), "purl": WEBSERVER}
        self.assertEqual(self.verdicts(components=[known], names="pkg:deb/no no:no")[1], {})

    def test_a_line_whose_product_the_dictionary_has_not_hides_nothing(self):
        self.assertEqual(self.verdicts(purls=["pkg:deb/debian/widget@2.4-1"], names="pkg:deb/widget wrong:name")[1], {"CVE-2024-2": "UNKNOWN"})

    def test_packages_without_candidates_are_counted_and_listed(self):
        purls = ["pkg:deb/debian/nobody-knows-it@1", "pkg:generic/nor-that@1", WEBSERVER]
        status, verdicts, lines, said = self.verdicts(purls=purls)
        self.assertEqual((status, verdicts), (0, {"CVE-2024-1": "UNKNOWN"}))
        hint = next(line for line in said if line.startswith("remark no candidate"))
        self.assertIn("no candidate for a CPE name: 2 packages, on 1 machine; to list them: sh ", hint)
        self.assertEqual(self.run_hint(hint)[-2:], ["no candidate m c0", "no candidate m c1"])
        # (nothing is known of a machine whose packages have no candidates)
        status, verdicts, lines, said = self.verdicts(purls=purls[:2])
        self.assertEqual((status, lines[1].split()), (1, ["m", "no", "items"]))
        # (- says that there is nothing to look up)
        status, verdicts, lines, said = self.verdicts(purls=[WEBSERVER, "pkg:npm/fork@1.0"], names="pkg:deb/webserver9 -")
        self.assertEqual((verdicts, [line for line in said if "no candidate" in line]), ({"CVE-2024-5": "UNKNOWN"}, []))


if __name__ == "__main__":
    unittest.main()
