"""The names in CVE records of format 5, and how these records are combined with NVD's."""
import itertools
import json
import unittest

from recipe_case import RecipeCase, fs
from stand_in import Heard, Names

from cpe_recipes import completeness, cve5, feeds
from cpe_recipes.advisories import convert
from cpe_recipes.console import Fatal

ID, NAME = "CVE-2024-1001", fs("acme", "tool")
NO_DEFAULT = "the status of versions that the record doesn't list is unknown"


def record(*affected, id=ID, state="PUBLISHED", adp=(), modified="2024-03-01T10:00:00.000Z", **cna):
    """A record of cvelistV5."""
    metadata = {"cveId": id, "assignerOrgId": "8254265b", "state": state, "datePublished": "2024-02-01T10:00:00.000Z", "dateUpdated": modified}
    own = {"providerMetadata": {"orgId": "8254265b"}, "affected": list(affected), "descriptions": [{"lang": "en-US", "value": "A tool."}], **cna}
    return {"dataType": "CVE_RECORD", "dataVersion": "5.1", "cveMetadata": metadata, "containers": {"cna": own, "adp": list(adp)}}


def affected(*versions, default="unaffected", cpes=(NAME,), **more):
    told = {"defaultStatus": default} if default else {}
    return {"vendor": "Acme", "product": "Tool", "cpes": list(cpes), "versions": list(versions), **told, **more}


def version(text, status="affected", **more):
    return {"version": text, "status": status, **more}


def applicable(*matches):
    return [{"nodes": [{"operator": "OR", "negate": False, "cpeMatch": [{"vulnerable": True, "criteria": NAME, **one} for one in matches]}]}]


class Records(unittest.TestCase):
    def matches(self, *affected, **more):
        """The matches of an `affected` member: short bounds, or the doubt."""
        cve = cve5.vulnerability(record(*affected, **more))["cve"]
        found = [match for one in cve["configurations"] for node in one["nodes"] for match in node["cpeMatch"]]
        short = {"versionStartIncluding": "from", "versionEndIncluding": "to", "versionEndExcluding": "before"}
        return [match.get("doubt") or " ".join(f"{word} {match[key]}" for key, word in short.items() if key in match) for match in found]

    def test_versions_and_ranges_whose_order_is_stated(self):
        told = self.matches(affected(
            version("1.0"),
            version("2.0", lessThan="2.5", versionType="semver"),
            version("0", lessThanOrEqual="0.9", versionType="rpm"),
            version("3.0", lessThan="*", versionType="python"),
        ))
        self.assertEqual(told, ["from 1.0 to 1.0", "from 2.0 before 2.5", "to 0.9", "from 3.0"])

    def test_an_order_that_is_not_stated_stays_open(self):
        for type in ("custom", "git", "original_commit_for_fix", ""):
            more = {"versionType": type} if type else {}
            told = self.matches(affected(version("1.0"), version("2.0", lessThan="2.5", **more)))
            self.assertEqual(told, ["from 1.0 to 1.0", f"no order is stated of its versions from 2.0 to 2.5 ({type or 'no versionType'})"])

    def test_what_a_record_leaves_open_stays_open(self):
        self.assertEqual(self.matches(affected(version("1.0"), default=None)), ["from 1.0 to 1.0", NO_DEFAULT])
        self.assertEqual(self.matches(affected(default="unknown")), [NO_DEFAULT])
        self.assertEqual(self.matches(affected(default="affected")), [""])
        others = "all versions but those that the record lists are affected"
        self.assertEqual(self.matches(affected(version("2.0", "unaffected"), default="affected")), [others])
        self.assertEqual(self.matches(affected(version("2.0", "unaffected"))), [])
        self.assertEqual(self.matches(affected(version("2.0", "unknown"))), ["the status of some versions is unknown"])
        self.assertEqual(self.matches(affected(version("*"))), [""])
        changed = version("2.0", lessThan="3.0", versionType="semver", changes=[{"at": "2.5", "status": "unaffected"}])
        self.assertEqual(self.matches(affected(changed)), ["its status changes within the versions from 2.0"])
        behind = affected(version("2.2", "unaffected"), version("2.0", lessThan="3.0", versionType="semver"))
        self.assertEqual(self.matches(behind), ["versions of another status are before it"])
        self.assertEqual(self.matches(affected(version("1.0"), platforms=["Windows"])), ["it is affected on Windows"])

    def test_words_are_no_versions(self):
        for text in ("< 2.0", "<2.0", ">=1,<2", "before 2.0", "1.x", "1.0-1.5", "n/a", "unspecified", "", "1.*", "ü1"):
            told = f"its versions are given as {text or 'nothing'}"
            self.assertEqual(self.matches(affected(version(text))), [told])
            if text != "":
                told = self.matches(affected(version("1.0", lessThan=text, versionType="semver")))
                self.assertEqual(told, [f"its versions are given as 1.0 to {text}"])
        for text in ("1.0", "v1.0", "1.0-rc.1", "1:2.0-3", "2.0~b1", "r12"):
            self.assertEqual(self.matches(affected(version(text))), [f"from {text} to {text}"])

    def test_a_name_with_a_version(self):
        for name in (fs("acme", "tool", "1.0"), "cpe:/a:acme:tool:1.0"):
            doubt = "the record doesn't say which of its versions are affected"
            self.assertEqual(self.matches(affected(version("1.0"), cpes=[name])), [""])
            self.assertEqual(self.matches(affected(version("1.1"), cpes=[name])), [doubt])
            self.assertEqual(self.matches(affected(version("1.0", "unaffected"), cpes=[name])), [doubt])
            self.assertEqual(self.matches(affected(default="affected", cpes=[name])), [""])
        self.assertEqual(self.matches(affected(version("1.0"), cpes=["cpe:/a:acme:tool", fs("a\\:b", "t", "-")]))[0], "from 1.0 to 1.0")

    def test_applicability_stands_for_its_container_and_all_containers_count(self):
        ranged = applicable({"versionEndExcluding": "2.0"})
        self.assertEqual(self.matches(affected(version("9")), cpeApplicability=ranged), ["before 2.0"])
        adp = [{"affected": [affected(version("3.0"))]}, {"cpeApplicability": applicable({"versionEndIncluding": "1.1"})}, {"metrics": []}]
        self.assertEqual(self.matches(affected(version("2.0")), adp=adp), ["from 2.0 to 2.0", "from 3.0 to 3.0", "to 1.1"])

    def test_what_has_no_names_is_not_analysed(self):
        found = cve5.vulnerability(record(affected(version("1.0"), cpes=[])))["cve"]
        self.assertEqual((found["vulnStatus"], found["configurations"]), ("CVE record without names", []))
        self.assertEqual(cve5.vulnerability(record(state="REJECTED"))["cve"]["vulnStatus"], "Rejected")

    def test_details(self):
        cve = record(title="Tool reads too far", metrics=[{"format": "CVSS", "cvssV3_1": {"baseScore": 7.5, "baseSeverity": "HIGH"}}])
        from cpe_recipes.advisories import details
        found = details(ID, cve5.vulnerability(cve)["cve"])
        self.assertEqual((found["title"], found["score"], found["severity"]), ("Tool reads too far", 7.5, "HIGH"))
        self.assertEqual(details(ID, cve5.vulnerability(record())["cve"])["title"], "A tool.")

    def test_odd_forms_are_told_and_no_fault_of_the_recipe(self):
        good = record(affected(version("1.0")))
        odd = [[], 7, "x", {"cna": 7}, {"cna": {"affected": 7}}, {"adp": 7}, {"cna": {"affected": [7]}}, {"adp": [7]}, {"cna": {"cpeApplicability": 7}}]
        odd += [{"cna": {"affected": [one]}} for one in (affected(7), affected(version(7)), affected(cpes=[7]), affected(default=7), affected(platforms=7))]
        odd += [{"cna": {"affected": [affected(version("1", **one))]}} for one in ({"lessThan": 7}, {"changes": 7}, {"versionType": 7, "lessThan": "2"})]
        for containers in odd:
            with self.subTest(containers):
                found = cve5.vulnerability({**good, "containers": containers})["cve"]
                self.assertTrue(isinstance(found["configurations"], str) or not found["configurations"], found)
        for more in ({"title": 7}, {"descriptions": 7}, {"descriptions": [7]}, {"metrics": 7}, {"metrics": [7, {"cvssV3_1": 7}]}, {"references": 7}):
            with self.subTest(more):
                self.assertEqual(len(cve5.vulnerability(record(affected(version("1.0")), **more))["cve"]["configurations"]), 1)


class Mixed(RecipeCase):
    def nvd(self, *matches, status="Analyzed", modified="2024-02-01T10:00:00.000", id=ID):
        cve = {"id": id, "vulnStatus": status, "lastModified": modified, "configurations": applicable(*matches) if matches else []}
        return {"totalResults": 1, "startIndex": 0, "resultsPerPage": 1, "format": "NVD_CVE", "version": "2.0", "vulnerabilities": [{"cve": cve}]}

    def ends(self, *values):
        """The ends of the ranges of a converted record."""
        self.messages = Heard()
        paths = [self.file(f"{number}.json", json.dumps(value)) for number, value in enumerate(values, 1)]
        self.found = convert(completeness.pages(paths, self.messages, ("vulnerabilities",), strict=True), Names(), self.messages, True)
        return [one.end for one in self.found.ranges.values()]

    def test_of_one_id_nvds_where_it_is_analysed_and_else_the_records_own(self):
        own = record(cpeApplicability=applicable({"versionEndExcluding": "1.1"}))
        for analysed, order in itertools.product((True, False), (1, -1)):
            nvd = self.nvd({"versionEndExcluding": "2.0"}) if analysed else self.nvd(status="Undergoing Analysis", modified="2025-01-01")
            self.assertEqual(self.ends(*(own, nvd)[::order]), ["2.0" if analysed else "1.1"])
            self.assertEqual((self.messages.told, self.found.states.unanalysed), ([], {}))
        self.assertEqual(self.ends(own, self.nvd(status="Rejected")), ["1.1"])

    def test_where_neither_has_names_nvds_status_is_told(self):
        with self.subTest("both"):
            self.ends(record(), self.nvd(status="Received"), self.nvd({"versionEndExcluding": "2.0"}, id="CVE-2024-2"))
            self.assertEqual(self.found.states.unanalysed, {ID: "Received"})
        self.ends(record(), self.nvd({"versionEndExcluding": "2.0"}, id="CVE-2024-2"))
        self.assertEqual(self.found.states.unanalysed, {ID: "CVE record without names"})

    def test_the_later_record_counts(self):
        old = record(cpeApplicability=applicable({"versionEndExcluding": "1.0"}))
        new = record(cpeApplicability=applicable({"versionEndExcluding": "1.5"}), modified="2024-06-01T10:00:00.000Z")
        for order in (1, -1):
            self.assertEqual(self.ends(*(old, new)[::order]), ["1.5"])

    def test_a_doubt_is_a_check_that_stays_open_and_nothing_is_left_out(self):
        self.ends(record(affected(version("1.0"), version("2.0", lessThan="3.0"))))
        test = json.loads(self.found.candidates[0].record)["test"]["of"][0]["of"][0]["of"]
        self.assertEqual([one["op"] for one in test], ["AND", "AND"])
        key = test[1]["of"][1]["check"]["id"]
        self.assertEqual(self.found.stand_ins, {key: f"{NAME}: no order is stated of its versions from 2.0 to 3.0 (no versionType)"})
        self.assertEqual((len(self.found.candidates), self.messages.status()), (1, 0))

    def test_lists_and_lines_of_records(self):
        one, two = record(affected(version("1.0"))), record(affected(version("1.2")), id="CVE-2024-1002")
        self.assertEqual(self.ends([one, two]), ["1.0", "1.2"])
        path = self.file("all.jsonl", [one, two])
        self.assertEqual([page.kind for page in feeds.pages([path], self.messages, ("vulnerabilities",))], [feeds.RECORDS] * 2)

    def test_what_is_no_record_is_told(self):
        for bad in ([], [7], [record(), 7], {"dataType": "CVE"}, {"containers": {}}):
            with self.subTest(bad), self.assertRaisesRegex(Fatal, "no vulnerabilities"):
                self.ends(bad)
        for bad in ("4.0", "6.0", 5, "5.x"):
            with self.subTest(bad), self.assertRaisesRegex(Fatal, "a CVE record of version .*, and 5 is what is read"):
                self.ends({**record(), "dataVersion": bad})
        with self.assertRaisesRegex(Fatal, "no products"):
            list(completeness.pages([self.file("1.json", record())], self.messages, ("products",)))
        self.ends({**record(), "cveMetadata": 7}, self.nvd({"versionEndExcluding": "2.0"}))
        self.assertEqual([one.reason for one in self.found.candidates if one.reason], ["not of the published form"])


if __name__ == "__main__":
    unittest.main()
