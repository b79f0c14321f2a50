"""Certificates as text for people."""
import json
import unittest

from recipe_case import RecipeCase, fs, needs_cpe
from cpe_recipes.why import CertificateContext, NoForm, describe_proof, proof_of

MYSQL, ORACLE = fs("mysql", "mysql", "5.1.73"), fs("oracle", "mysql", "5.1.73")
KEY = {"system": "oval", "href": "debian.xml", "id": "def:1"}


def proof(why, id="s"):
    return {"do": "proof", "id": id, "why": why}


class Text(RecipeCase):
    def lines(self, why, test=None, kinds=()):
        return list(describe_proof(proof(why), CertificateContext({} if test is None else {"s": test}, dict(kinds))))

    def test_pair(self):
        why = {"of": [{"fact": [ORACLE], "item": [MYSQL, ORACLE], "truth": "TRUE"}], "truth": "TRUE"}
        pair = f"    TRUE, since item {MYSQL} leads to {ORACLE}{{}}, which the fact {ORACLE} covers"
        self.assertEqual(self.lines(why), ["s is TRUE", "  the test is TRUE, by all 1 of:", pair.format("")])
        test = {"op": "AND", "negate": False, "of": [{"fact": ORACLE}]}
        wanted = ["s is TRUE", "  AND is TRUE, by all 1 of:", pair.format(" (NAME_CORRECTION)")]
        self.assertEqual(self.lines(why, test, {MYSQL: "NAME_CORRECTION"}), wanted)

    def test_pair_of_an_item_that_is_known_in_part(self):
        part = fs("oracle", "mysql", "5.*")
        why = {"of": [{"fact": [MYSQL, ORACLE], "item": [part], "truth": "UNKNOWN"}], "truth": "UNKNOWN"}
        wanted = f"    UNKNOWN, since item {part}, which the fact {MYSQL} leads to {ORACLE} may cover, is known in part"
        self.assertEqual(self.lines(why)[-1], wanted)

    def test_what_decides(self):
        why = {"of": [None, {"truth": "FALSE"}, None], "truth": "TRUE"}
        test = {"op": "AND", "negate": True, "of": [{"check": KEY}, {"fact": MYSQL}, {"check": KEY}]}
        wanted = ["s is TRUE", "  not AND is TRUE, by 2 of 3 alone:", f"    FALSE, since no item is covered by {MYSQL}"]
        self.assertEqual(self.lines(why, test), wanted)

    def test_check(self):
        why = {"of": [{"truth": "ERROR"}], "truth": "ERROR"}
        test = {"op": "OR", "negate": False, "of": [{"check": KEY}]}
        self.assertEqual(self.lines(why, test)[-1], "    ERROR, as the check def:1 of debian.xml (oval) is")
        self.assertEqual(self.lines(why)[-1], "    ERROR, by no item or by a check")

    def test_other_forms(self):
        for why in (None, {}, {"truth": "true"}, {"truth": ["TRUE"]}, {"of": 7, "truth": "TRUE"}, {"fact": [], "item": [MYSQL], "truth": "TRUE"}):
            with self.assertRaises(NoForm):
                self.lines(why)

    def test_lines_without_one(self):
        for line in ("", "verdict s TRUE", "{", "[]", '{"do":"item"}', "{" * 100_000):
            self.assertIsNone(proof_of(line))


@needs_cpe
class Recipe(RecipeCase):
    def test_records_and_certificates(self):
        records = self.file("records.jsonl", [
            {"do": "item", "name": "cpe:/a:v:p:1"},
            {"do": "statement", "id": "s", "test": {"op": "AND", "of": [{"fact": "cpe:/a:v:p"}, {"check": KEY}]}},
        ])
        pair = {"fact": [fs("v", "p")], "item": [fs("v", "p", "1")], "truth": "TRUE"}
        proofs = self.file("proofs.jsonl", [{"do": "item"}, proof({"of": [pair, {"truth": "UNKNOWN"}], "truth": "UNKNOWN"}), proof(7)])
        status, lines, said = self.recipe("why", "--records", records, proofs)
        self.assertEqual((status, said), (1, ["left out line 3: it has not the form of a certificate"]))
        self.assertEqual(lines[:2], ["s is UNKNOWN", "  AND is UNKNOWN, by all 2 of:"])

    def test_no_certificate(self):
        status, lines, said = self.recipe("why", self.file("none", json.dumps({"do": "item"})))
        self.assertEqual((status, lines, said), (2, [], ["why.sh: no certificates"]))


if __name__ == "__main__":
    unittest.main()
