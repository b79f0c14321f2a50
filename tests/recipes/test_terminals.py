"""Text for a terminal has no character that a terminal obeys; and a wrong score is left out, but not its advisory."""
import json
import subprocess
import sys
import unittest

from recipe_case import CPE, RECIPES, RecipeCase, fs, needs_cpe

from cpe_recipes import scores
from cpe_recipes.advisories import convert, details
from cpe_recipes.feeds import Page, record_text
from stand_in import Heard, Names
from test_report import ReportCase, machine, table, verdict

# Texts that clear a terminal, begin a command without ESC, reverse the direction of a text, and the last code point.
ODD = "\x1b[2J\x9b31m\u202e\x7f"
SHOWN = "\\u001b[2J\\u009b31m\\u202e\\u007f"
NOT_SCORES = (float("inf"), float("-inf"), float("nan"), -0.1, 10.1, 10**400, True, "9.8", None, [], {})


def is_shown(text):
    return all(one.isprintable() or one in "\n\t" for one in text)


class Texts(RecipeCase):
    def test_changes_of_fleets(self):
        before = self.file("before", f"w{ODD} a TRUE\nw{ODD} b TRUE\nmachines 1\n")
        after = self.file("after", f"w{ODD} a FALSE\nw{ODD} b{ODD} TRUE\nmachines 1\n")
        status, lines, said = self.recipe("changes", before, after)
        self.assertEqual((status, lines[0]), (1, f"gone w{SHOWN} a TRUE FALSE"))
        self.assertTrue(is_shown("\n".join(lines + said)), lines)

    def test_what_is_accepted_and_why(self):
        accepted = self.file("accepted", f"a * not{ODD}here\nb * {ODD}\n")
        details = self.file("details", json.dumps({"id": "a", "title": ODD}) + "\n")
        verdicts = self.file("verdicts", f"w{ODD} a TRUE\nw{ODD} c UNKNOWN\nmachines 1\n")
        _, lines, said = self.recipe("affected", "--suppress", accepted, "--details", details, verdicts)
        self.assertIn(f"accepted w{SHOWN} a TRUE: not{SHOWN}here", lines)
        self.assertTrue(is_shown("\n".join(lines + said)), lines)

    def test_records_spell_what_a_terminal_would_obey(self):
        for text in (ODD, "\U000e0001", "a\u2028b", "\ud800", "ü €"):
            written = record_text({"title": text, text: 1})
            self.assertTrue(is_shown(written), written)
            self.assertEqual(json.loads(written), {text.replace("\ud800", "\ufffd"): 1, "title": text.replace("\ud800", "\ufffd")})
        self.assertEqual(record_text({"a": "ü €"}), '{"a":"ü €"}')


@needs_cpe
class Scans(RecipeCase):
    def test_every_text_of_a_scan(self):
        cve = {"id": "CVE-2024-1001", "vulnStatus": "Analyzed", "descriptions": [{"lang": "en", "value": f"A{ODD}title"}]}
        cve["configurations"] = [{"nodes": [{"operator": "OR", "cpeMatch": [{"vulnerable": True, "criteria": fs("v", "p", "1")}]}]}]
        waiting = {"id": f"CVE-2024-1002{ODD}", "vulnStatus": f"Received{ODD}"}
        dictionary = self.file("d.json", {"products": [{"cpe": {"cpeName": fs("v", "p", "1"), "cpeNameId": ODD, "titles": [{"title": ODD, "lang": "en"}]}}]})
        advisories = self.file("a.json", {"vulnerabilities": [{"cve": cve}, {"cve": waiting}, {"cve": {"id": ODD, "configurations": 7}}]})
        machines = self.file("machines", f"w{ODD} {fs('v', 'p', '1')} cpe:/a:{ODD}\n")
        accepted = self.file("accepted", f"CVE-2024-1001 * not{ODD}here\n{ODD}\n")
        words = ["--dictionary", dictionary, "--advisories", advisories, "--machines", machines, "--suppress", accepted]
        for more in (["--all"], ["--json", "--all"], ["--json", "--why"]):
            run = subprocess.run([sys.executable, str(RECIPES / "scan.py"), *words, *more], capture_output=True)
            self.assertEqual(run.returncode, 1, run.stderr)
            for text in (run.stdout.decode(), run.stderr.decode()):
                self.assertTrue(is_shown(text), text)
        row = json.loads(run.stdout)["machines"][0]
        self.assertEqual((row["name"], row["verdicts"][0]["title"]), (f"w{SHOWN}", f"A{ODD}title"))
        status, lines, said = self.recipe("dictionary", dictionary)
        self.assertEqual(json.loads(lines[0])["title"], ODD)
        self.assertTrue(is_shown("\n".join(lines + said)))
        for name, words in (("unlisted", []), ("perhaps", [])):
            records = self.file("records", lines + self.recipe("advisories", advisories)[1])
            self.assertTrue(is_shown("\n".join(self.recipe(name, records, machines)[1])))


class Scores(unittest.TestCase):
    def test_what_is_a_score(self):
        self.assertEqual([scores.score_of(value) for value in (0, 0.0, 5, 9.8, 10, 10.0)], [0, 0.0, 5, 9.8, 10, 10.0])
        self.assertEqual([scores.score_of(value) for value in NOT_SCORES], [None] * len(NOT_SCORES))

    def test_of_an_advisory_the_score_alone_is_left_out(self):
        for bad in NOT_SCORES:
            odd = {"type": "Primary", "cvssData": {"baseScore": bad, "baseSeverity": "HIGH"}}
            self.assertEqual(details("x", {"metrics": {"cvssMetricV31": [odd]}}), {"id": "x"})
            good = {"type": "Secondary", "cvssData": {"baseScore": 5, "baseSeverity": "MEDIUM"}}
            self.assertEqual(details("x", {"metrics": {"cvssMetricV31": [odd, good]}}), {"id": "x", "score": 5, "severity": "MEDIUM"})


    def test_a_score_that_is_left_out_is_remarked(self):
        odd = {"type": "Primary", "cvssData": {"baseScore": 11, "baseSeverity": "HIGH"}}
        match = {"vulnerable": True, "criteria": fs("v", "p", "1")}
        cve = {"id": "CVE-2024-1001", "configurations": [{"nodes": [{"operator": "OR", "cpeMatch": [match]}]}], "metrics": {"cvssMetricV31": [odd]}}
        messages = Heard()
        found = convert([Page("it.json", "vulnerabilities", [{"cve": cve}])], Names(), messages, True)
        self.assertEqual((messages.told, len(found.candidates)), (["remark CVE-2024-1001: a score that is none is left out"], 1))
        self.assertNotIn("score", found.details["CVE-2024-1001"])


class Pages(ReportCase):
    def test_a_page_has_the_advisory_without_its_score(self):
        for bad in ("1e999", "-1e999", "-0.1", "10.1", "true", '"9.8"', "[]"):
            text = json.dumps(table(machine("m", verdict("A", "TRUE", score=5)))).replace('"score": 5', f'"score": {bad}')
            page = self.page(text)
            self.assertIn('<b class="id">A</b>', page, bad)
            self.assertIn('<b class="score none">?</b>', page, bad)


class Tables(RecipeCase):
    def test_a_table_has_the_advisory_without_its_score(self):
        for bad in ("1e999", "-1", "11", "true", '"9.8"'):
            details = self.file("details", f'{{"id":"a","score":{bad},"title":"T"}}\n{{"id":"c","score":5,"title":"U"}}\n')
            _, lines, _ = self.recipe("affected", "--details", details, self.file("v", "verdicts 2\nverdict a TRUE\nverdict c TRUE\n"))
            self.assertEqual(lines[:3], ["VERDICT  ADVISORY  SCORE  TITLE", "TRUE     c         5      U", "TRUE     a                T"])


if __name__ == "__main__":
    unittest.main()
