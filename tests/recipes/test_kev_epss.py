"""CISA's list of known exploited vulnerabilities and EPSS: how they are read, which files are refused, and where they
are shown."""
import gzip
import json
import re
import unittest

from pages import Page, machine, table, verdict
from recipe_case import SAMPLES, RecipeCase, needs_cpe
from test_report import ReportCase

from cpe_recipes.console import Fatal
from cpe_recipes.epss import read_epss
from cpe_recipes.kev import read_kev
from cpe_recipes.threats import Threats

KEV = SAMPLES / "threats" / "known_exploited_vulnerabilities.json"
KEV_CSV = KEV.with_suffix(".csv")
EPSS = SAMPLES / "threats" / "epss_scores-2024-04-30.csv"
HEAD = "#model_version:v2023.03.01,score_date:2024-04-30T00:00:00+0000\ncve,epss,percentile\n"
ADDED = {"CVE-2024-98010": "2024-04-11", "CVE-2024-98009": "2024-04-19", "CVE-2021-98999": "2021-11-03"}


class Kev(RecipeCase):
    def refused(self, data, *words):
        with self.assertRaises(Fatal) as caught:
            read_kev(self.file("kev", data), self.messages)
        for word in ("kev: ", *words):
            self.assertIn(word, str(caught.exception))

    def sample(self, **more):
        return {**json.loads(KEV.read_text()), **more}

    def test_both_forms_are_the_same_list(self):
        for path in (KEV, KEV_CSV):
            found = read_kev(str(path), self.messages)
            self.assertEqual({id: one.added for id, one in found.found.items()}, ADDED)
            self.assertEqual((found.found["CVE-2024-98010"].ransomware, found.found["CVE-2024-98010"].due), ("Known", "2024-05-02"))
        packed = self.file("kev.json.gz", gzip.compress(KEV.read_bytes()))
        self.assertEqual((read_kev(packed, self.messages).version, self.messages.told), ("2024.04.30", []))

    def test_a_list_that_is_cut_off_is_refused(self):
        text = KEV.read_text()
        self.refused(text[:-40], "no JSON")
        self.refused(self.sample(vulnerabilities=self.sample()["vulnerabilities"][:2]), "its count is 3, and it has 2")
        self.refused(gzip.compress(KEV.read_bytes())[:-20])
        lines = KEV_CSV.read_bytes()
        self.refused(lines[:-30], "row 3 has 7 cells in place of 11")
        self.refused(lines[: lines.index(b'"CWE-22') + 4], "no CSV")
        self.refused("")

    def test_a_csv_whose_last_line_has_no_end_is_said(self):
        found = read_kev(self.file("kev.csv", KEV_CSV.read_bytes().rstrip()), self.messages)
        self.assertEqual((len(found.found), self.messages.told), (3, ["left out kev.csv: its last line has no end, and others may be cut off"]))

    def test_another_file_is_refused(self):
        self.refused('{"vulnerabilities":[{"cve":{"id":"CVE-2024-0001"}}],"count":1}', "the cveID of vulnerability 1 is None")
        self.refused("<html>too many requests</html>", "neither its JSON nor its CSV")
        self.refused(EPSS.read_text(), "neither its JSON nor its CSV")
        self.refused('{"products":[]}', "it has no list of vulnerabilities")
        self.refused(self.sample(count=0, vulnerabilities=[]), "no known exploited vulnerability is in it")
        self.refused("cveID,dateAdded\n", "no known exploited vulnerability is in it")
        self.refused("cveID,dateAdded,cveID\nCVE-2024-0001,2024-01-01,x\n", "neither its JSON nor its CSV")
        self.refused(b"cveID,dateAdded\nCVE-2024-0001,\xff\n", "it is no UTF-8 at byte 31")

    def test_what_is_of_the_wrong_type_is_refused(self):
        row = self.sample()["vulnerabilities"][0]
        for more, words in (
            ({"cveID": 7}, "the cveID of vulnerability 1 is 7"),
            ({"cveID": "CVE-24-1"}, "the cveID of vulnerability 1 is CVE-24-1"),
            ({"dateAdded": None}, "the dateAdded of vulnerability 1 is None"),
            ({"dateAdded": "yesterday"}, "the dateAdded of vulnerability 1 is yesterday"),
            ({"dueDate": [7]}, "the dueDate of vulnerability 1 is [7]"),
        ):
            self.refused(self.sample(count=1, vulnerabilities=[{**row, **more}]), words)
        self.refused(self.sample(count=1, vulnerabilities=["CVE-2024-0001"]), "vulnerability 1 is no object")
        self.refused(self.sample(count="3"), "no count that is a number")
        self.refused(self.sample(count=True), "no count that is a number")
        self.refused(self.sample(vulnerabilities={}), "it has no list of vulnerabilities")
        self.refused('{"count":1,"count":2,"vulnerabilities":[]}', "the member count twice")

    def test_an_id_that_comes_twice_is_said_and_the_first_counts(self):
        rows = self.sample()["vulnerabilities"]
        twice = self.sample(count=4, vulnerabilities=[*rows, {**rows[0], "dateAdded": "2025-01-01"}])
        found = read_kev(self.file("kev", twice), self.messages)
        self.assertEqual(found.found["CVE-2024-98010"].added, "2024-04-11")
        self.assertEqual(self.messages.told, ["remark kev: CVE-2024-98010 is there twice, and its first vulnerability counts"])


class Epss(RecipeCase):
    def refused(self, data, *words):
        with self.assertRaises(Fatal) as caught:
            read_epss(self.file("epss", data), self.messages)
        for word in ("epss: ", *words):
            self.assertIn(word, str(caught.exception))

    def test_probabilities_plain_and_packed(self):
        for data in (EPSS.read_bytes(), gzip.compress(EPSS.read_bytes()), EPSS.read_bytes().replace(b"\n", b"\r\n")):
            found = read_epss(self.file("epss", data), self.messages)
            self.assertEqual((found.model, found.day, len(found.found)), ("v2023.03.01", "2024-04-30T00:00:00+0000", 6))
            self.assertEqual(found.found["CVE-2024-98010"].json(), {"epss": 0.93, "percentile": 0.98886})
        found = read_epss(self.file("epss", f"{HEAD}CVE-2024-0001,9e-05,0\nCVE-2024-0002,1,1.0\n"), self.messages)
        self.assertEqual([one.epss for one in found.found.values()], [0.00009, 1.0])
        self.assertEqual(self.messages.told, [])

    def test_a_file_that_is_cut_off_is_refused(self):
        self.refused(EPSS.read_bytes()[:-1], "its last line has no end, so it is cut off")
        self.refused(gzip.compress(EPSS.read_bytes())[:-20])
        self.refused(f"{HEAD}CVE-2024-0001,0.1\n", "line 3 has 2 cells in place of 3")
        self.refused("", "it is empty")
        self.refused(HEAD, "no probability is in it")

    def test_another_file_is_refused(self):
        self.refused("<html>\n", "line 1 isn't cve,epss,percentile")
        self.refused(KEV.read_text(), "line 1 isn't cve,epss,percentile")
        self.refused(KEV_CSV.read_text(), "line 1 isn't cve,epss,percentile")
        self.refused(HEAD.splitlines()[0] + "\n", "line 2 isn't cve,epss,percentile")
        self.refused(b"\xff\n", "it is no UTF-8 at byte 1")

    def test_what_is_no_number_from_0_to_1_is_refused(self):
        for text in ("1.00001", "97.5", "-0.1", "nan", "inf", "0.5%", "", "1e400", "0x1", "\u0661"):
            for cells in (f"{text},0.5", f"0.5,{text}"):
                self.refused(f"{HEAD}CVE-2024-0001,{cells}\n", f"line 3 has {text}, which is no number from 0 to 1")
        self.refused(f"{HEAD}CVE-24-1,0.5,0.5\n", "line 3 has CVE-24-1, which is no id of a CVE")
        self.refused(f"{HEAD}\nCVE-2024-0001,0.5,0.5\n", "line 3 has 1 cells in place of 3")

    def test_an_id_that_comes_twice(self):
        same = f"{HEAD}CVE-2024-0001,0.5,0.6\nCVE-2024-0001,0.5,0.6\n"
        self.assertEqual(len(read_epss(self.file("epss", same), self.messages).found), 1)
        self.assertEqual(self.messages.told, ["remark epss: CVE-2024-0001 is there twice, with the same numbers"])
        self.refused(f"{HEAD}CVE-2024-0001,0.5,0.6\nCVE-2024-0001,0.4,0.6\n", "line 4 has CVE-2024-0001 again, with other numbers")

    def test_a_file_of_no_day_is_said(self):
        read_epss(self.file("epss", "cve,epss,percentile\nCVE-2024-0001,0.5,0.6\n"), self.messages)
        self.assertEqual(self.messages.told, ["remark epss: no model_version and score_date, so its day isn't known"])


class Both(RecipeCase):
    def threats(self):
        return Threats(read_kev(str(KEV), self.messages), read_epss(str(EPSS), self.messages))

    def test_what_is_known_exploited_and_has_no_verdict_is_counted(self):
        self.threats().report({"CVE-2024-98010", "CVE-2024-1"}, {"CVE-2024-98009", "CVE-2024-98010"}, self.messages)
        self.assertEqual(
            self.messages.told,
            [
                "remark known exploited: 1 advisory is not in the feeds",
                "remark known exploited: 1 advisory is without a verdict, CVE-2024-98009",
                "remark EPSS: 1 advisory is without one",
            ],
        )

    def test_known_exploited_first_then_the_score_then_epss(self):
        threats = self.threats()
        scores = {"CVE-2024-98010": 1.0, "CVE-2024-98002": 7.5, "CVE-2024-98016": 7.5, "CVE-2024-0001": 7.5, "CVE-2024-98011": 9.0, "CVE-2024-98009": -1.0}
        self.assertEqual(
            sorted(scores, key=lambda id: threats.order(id, scores[id])),
            ["CVE-2024-98010", "CVE-2024-98009", "CVE-2024-98011", "CVE-2024-98016", "CVE-2024-98002", "CVE-2024-0001"],
        )

    def test_columns_only_if_they_are_given(self):
        threats = self.threats()
        self.assertEqual((Threats().header(), Threats().cells("CVE-2024-98010"), Threats().json("CVE-2024-98010")), ((), (), {}))
        self.assertEqual((threats.header(), threats.cells("CVE-2024-98010")), (("KEV", "EPSS"), ("2024-04-11", "0.93000")))
        self.assertEqual(threats.cells("CVE-2024-0001"), ("", ""))
        self.assertEqual(Threats(kev=threats.kev).cells("CVE-2024-0001"), ("",))


@needs_cpe
class Scans(RecipeCase):
    WORDS = [
        *("--dictionary", str(SAMPLES / "ranges/dictionary.json"), "--advisories", str(SAMPLES / "ranges/advisories.json")),
        *("--matches", str(SAMPLES / "ranges/matches.json"), "--lists", str(SAMPLES / "ranges/legacy-1.txt")),
    ]
    GIVEN = ["--kev", str(KEV), "--epss", str(EPSS)]

    def test_the_table_and_its_order(self):
        status, lines, said = self.scan(*self.WORDS, *self.GIVEN)
        self.assertEqual(status, 0)
        rows = [re.split(r"  +", line)[1:5] for line in lines[1:6]]
        self.assertEqual(re.split(r"  +", lines[0])[3:6], ["SCORE", "KEV", "EPSS"])
        self.assertEqual(
            [row[1] for row in rows],
            [f"CVE-2024-980{number}" for number in ("10", "02", "16", "11", "09")],
        )
        self.assertEqual(rows[0], ["TRUE", "CVE-2024-98010", "6.8", "2024-04-11"])
        self.assertIn("remark known exploited: 1 advisory is not in the feeds", said)
        self.assertNotIn("KEV", self.scan(*self.WORDS)[1][0])

    def test_the_json_and_the_page(self):
        value = json.loads("\n".join(self.scan(*self.WORDS, *self.GIVEN, "--json")[1]))
        first = value["machines"][0]["verdicts"][0]
        self.assertEqual(first["kev"], {"dateAdded": "2024-04-11", "dueDate": "2024-05-02", "knownRansomwareCampaignUse": "Known"})
        self.assertEqual(first["epss"], {"epss": 0.93, "percentile": 0.98886})
        self.assertEqual(value["kev"], {"file": KEV.name, "count": 3, "catalogVersion": "2024.04.30"})
        self.assertEqual(value["epss"]["scoreDate"], "2024-04-30T00:00:00+0000")
        path = self.file("kept.json", value)
        self.assertEqual(self.recipe("changes", path, path), (0, [], []))
        plain = json.loads("\n".join(self.scan(*self.WORDS, "--json")[1]))
        self.assertFalse({"kev", "epss"} & ({*plain} | {key for one in plain["machines"][0]["verdicts"] for key in one}))

    def test_what_is_no_list_ends_the_scan(self):
        for words in (["--kev", str(EPSS)], ["--epss", str(KEV)], ["--kev", "none"], ["--kev", str(KEV), "--kev", str(KEV_CSV)]):
            status, lines, said = self.scan(*self.WORDS, *words)
            self.assertEqual((status, lines, len(said)), (2, [], 1), said)

    def test_what_a_fleet_wrote_gets_the_columns(self):
        verdicts = self.file("verdicts", "m CVE-2024-98002 TRUE\nm CVE-2024-98010 TRUE\nbare no items\nmachines 2\n")
        status, lines, said = self.recipe("affected", *self.GIVEN, verdicts)
        self.assertEqual(
            (status, [line.split() for line in lines[:4]]),
            (
                1,
                [
                    ["MACHINE", "VERDICT", "ADVISORY", "KEV", "EPSS"],
                    ["m", "TRUE", "CVE-2024-98010", "2024-04-11", "0.93000"],
                    ["m", "TRUE", "CVE-2024-98002", "0.00042"],
                    ["bare", "no", "items"],
                ],
            ),
        )
        self.assertEqual(said, ["remark known exploited: 2 advisories are not among the statements", "left out bare: no items"])


class Pages(ReportCase):
    def test_the_page_has_both_and_the_order(self):
        known = verdict("CVE-2", "TRUE", score=5.0, kev={"dateAdded": "2024-04-11"}, epss={"epss": 0.93, "percentile": 0.98})
        text = self.page(table(machine("m", verdict("CVE-1", "TRUE", score=9.8), known)))
        self.assertEqual(re.findall(r'class="id">([^<]+)<', text), ["CVE-2", "CVE-1"])
        self.assertEqual(text.count('<span class="exploited">known exploited</span>'), 1)
        self.assertIn("known exploited since 2024-04-11", text)
        self.assertIn("EPSS 0.93000", text)
        self.assertIn("known exploited first, then the highest score", text)
        self.assertEqual(len(Page(text).rows), 2)
        self.assertNotIn("exploited", self.page(table(machine("m", verdict("CVE-1", "TRUE")))))

    def test_odd_members_are_no_scan(self):
        odd = ({"kev": 7}, {"kev": {}}, {"kev": {"dateAdded": 7}}, {"epss": 0.5}, {"epss": {}}, {"epss": {"epss": "x"}}, {"epss": {"epss": 1.5}}, {"epss": {"epss": True}})
        for more in odd:
            status, text, said = self.report(table(machine("m", verdict("CVE-1", "TRUE", **more))))
            self.assertEqual((status, text, len(said)), (2, "", 1), more)

    def test_texts_are_escaped(self):
        text = self.page(table(machine("m", verdict("CVE-1", "TRUE", kev={"dateAdded": "<script>alert(1)</script>"}))))
        self.assertNotIn("<script>alert", text)


if __name__ == "__main__":
    unittest.main()
