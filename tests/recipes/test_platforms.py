"""Machines whose lists name no operating system, the verdicts that are FALSE because of this, and --platform."""
import json
import sys
import unittest
from pathlib import Path

sys.path.insert(0, str(Path(__file__).resolve().parent))

from recipe_case import RecipeCase, fs, needs_cpe  # noqa: E402 (it knows where the recipes are)
from cpe_recipes import platforms  # noqa: E402
from cpe_recipes.components import Component, Machine  # noqa: E402
from cpe_recipes.console import Fatal  # noqa: E402

SUITE = fs("acme", "suite", "2.0")
WINDOWS = "cpe:2.3:o:microsoft:windows_10:*:*:*:*:*:*:*:*"


def advisory(id, *nodes, operator=None):
    configuration = {"nodes": [{"operator": "OR", "negate": False, "cpeMatch": [match]} for match in nodes]}
    if operator:
        configuration["operator"] = operator
    return {"cve": {"id": id, "vulnStatus": "Analyzed", "lastModified": "2024-01-01T00:00:00.000", "configurations": [configuration]}}


def match(criteria, is_vulnerable=True):
    return {"vulnerable": is_vulnerable, "criteria": criteria, "matchCriteriaId": criteria}


def page(kind, *records):
    return {"startIndex": 0, "resultsPerPage": len(records), "totalResults": len(records), kind: list(records)}


class Platforms(unittest.TestCase):
    def test_which_machines_have_none(self):
        uri, listed = Machine("u", ["cpe:/o:debian:debian_linux:12"]), Machine("l", [SUITE], Component(names=(WINDOWS,)))
        bare = Machine("b", [SUITE])
        self.assertEqual(platforms.silent([uri, listed, bare]), [bare])

    def test_one_is_given_to_those_that_have_none(self):
        listed, bare = Machine("l", [SUITE, WINDOWS]), Machine("b", [SUITE])
        platforms.give([listed, bare], "cpe:/o:debian:debian_linux:12")
        self.assertEqual((listed.platform, bare.items), (None, ["cpe:/o:debian:debian_linux:12", SUITE]))

    def test_what_is_no_operating_system_is_refused(self):
        for name in (SUITE, "cpe:/h:acme:router", "Debian 12", ""):
            with self.subTest(name), self.assertRaisesRegex(Fatal, "no name of an operating system"):
                platforms.give([Machine("b", [SUITE])], name)


@needs_cpe
class Scans(RecipeCase):
    def setUp(self):
        super().setUp()
        dictionary = self.file("dictionary", page("products", {"cpe": {"cpeName": SUITE, "deprecated": False}}))
        both = advisory("CVE-2024-1", match(SUITE), match(WINDOWS, is_vulnerable=False), operator="AND")
        advisories = self.file("advisories", page("vulnerabilities", both, advisory("CVE-2024-2", match(WINDOWS))))
        self.words = ["--dictionary", dictionary, "--advisories", advisories, "--lists", self.file("m", f"{SUITE}\n"), "--all"]

    def verdicts(self, *words):
        status, lines, said = self.scan(*self.words, *words)
        return status, [line.split()[1] for line in lines if "CVE-" in line], said

    def test_what_is_false_without_one_is_said(self):
        status, found, said = self.verdicts()
        self.assertEqual((status, found), (0, ["UNKNOWN", "FALSE"]))
        self.assertEqual(
            said[-1],
            "remark 1 machine lists no operating system: 1 advisory on an operating system alone is FALSE there; "
            "--platform NAME gives it",
        )

    def test_one_that_is_given_decides(self):
        for name, wanted in ((WINDOWS, ["TRUE", "TRUE"]), ("cpe:/o:debian:debian_linux:12", ["FALSE", "FALSE"])):
            with self.subTest(name):
                status, found, said = self.verdicts("--platform", name)
                self.assertEqual((status, found), (0, wanted), json.dumps(said))
                self.assertNotIn("lists no operating system", json.dumps(said))

    def test_one_that_is_none_is_no_result(self):
        status, found, said = self.verdicts("--platform", SUITE)
        self.assertEqual((status, found), (2, []))
        self.assertIn("no name of an operating system", said[-1])


if __name__ == "__main__":
    unittest.main()
