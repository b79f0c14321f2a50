"""The gates of --fail-on: their grammar, which verdicts fit, what isn't known of them, and the statuses of scan.py."""
import json
import unittest

from pages import machine, table, verdict
from recipe_case import SAMPLES, RecipeCase, needs_cpe

from cpe_recipes.affected import AdvisoryContext
from cpe_recipes.arguments import read_arguments
from cpe_recipes.console import Fatal
from cpe_recipes.epss import Epss, Probability
from cpe_recipes.gate_check import GateCheck, read_earlier_verdicts
from cpe_recipes.gate_grammar import Gate, Term, gate_of
from cpe_recipes.kev import Kev, KevEntry
from cpe_recipes.suppressions import SuppressionLine, Suppressions
from cpe_recipes.threats import Threats
from cpe_recipes.verdicts import Machine, Settlement, Statements


class Grammar(unittest.TestCase):
    def test_terms(self):
        for text, terms in (
            ("score>=9", [Term("score", 9.0)]),
            ("score>=7.5", [Term("score", 7.5)]),
            ("  epss >= 0.5  and  kev ", [Term("epss", 0.5), Term("kev")]),
            ("severity>=high", [Term("severity", 2)]),
            ("SEVERITY>=Low AND New and unknown", [Term("severity", 0), Term("new"), Term("unknown")]),
            ("score>=0 and score>=10", [Term("score", 0.0), Term("score", 10.0)]),
        ):
            self.assertEqual(gate_of(text), Gate(text, tuple(terms)))

    def test_what_is_none_is_refused_with_its_place(self):
        for text, place in (
            ("", "place 1 is the end"),
            ("   ", "place 4 is the end"),
            ("age>=3", "place 1 has 'age'"),
            ("score", "place 6 is the end"),
            ("score>9", "place 6 has '>'"),
            ("score=>9", "place 6 has '='"),
            ("score>=", "place 8 is the end"),
            ("score>=10.1", "place 8 has '10.1'"),
            ("score>=-1", "place 8 has '-'"),
            ("score>=9.", "place 9 has '.'"),
            ("score>=high", "place 8 has 'high'"),
            ("score>=\u0669", "place 8 has '\u0669'"),
            ("epss>=1.5", "place 7 has '1.5'"),
            ("epss>=50%", "place 7 has '50'"),
            ("severity>=9", "place 11 has '9'"),
            ("kev kev", "place 5 has 'kev'"),
            ("kev or new", "place 5 has 'or'"),
            ("kev and", "place 8 is the end"),
            ("and kev", "place 1 has 'and'"),
            ("kev>=1", "place 4 has '>='"),
            ("new,kev", "place 4 has ','"),
            ("kev\nand new", "place 4 has '\\n'"),
        ):
            with self.assertRaises(Fatal, msg=text) as caught:
                gate_of(text)
            self.assertIn(place, str(caught.exception), text)


class GateCase(RecipeCase):
    """Two machines: on m1 are A (9.8), B (5.0), no score N, UNKNOWN U (9.9), and the accepted T (10); on m2 A, and E,
    which is ERROR."""

    DETAILS = {
        "A": {"score": 9.8, "severity": "CRITICAL"},
        "B": {"score": 5.0, "severity": "MEDIUM"},
        "U": {"score": 9.9},
        "T": {"score": 10.0},
        "E": {"score": 7.0, "severity": "HIGH"},
        "OLD": {"score": 10.0, "severity": "HIGH"},
        "ODD": {"score": 11, "severity": "IMPORTANT"},
    }
    THREATS = Threats(
        Kev("kev", "", {"B": KevEntry("2024-01-01", "", "")}),
        Epss("epss", "", "", {"A": Probability(0.2, 0.5), "B": Probability(0.5, 0.9), "U": Probability(0.9, 0.9), "E": Probability(0.0, 0.0)}),
    )

    def machines(self):
        first = {"A": "TRUE", "B": "TRUE", "N": "TRUE", "U": "UNKNOWN", "T": "TRUE", "F": "FALSE"}
        statements = Statements([*first, "E"])
        return [Machine("m1", statements, first), Machine("m2", statements, {"A": "TRUE", "E": "ERROR"}), Machine("bare", has_items=False)]

    def fits(self, *texts, kept=None, machines=None):
        about = AdvisoryContext(self.DETAILS, Suppressions([SuppressionLine("line 1", "T", "*", "no way in")]), None, threats=self.THREATS)
        gates = GateCheck([gate_of(text) for text in texts], kept or {})
        self.messages.told.clear()
        fits = gates.fit(self.machines() if machines is None else machines, about, self.messages)
        return fits, [line.removeprefix("remark --fail-on ") for line in self.messages.told]


class Fits(GateCase):
    def test_the_score_fits_true_alone_and_what_has_none(self):
        fits, said = self.fits("score>=9")
        self.assertTrue(fits)
        self.assertEqual(
            said,
            [
                "score>=9 fits 3 verdicts: m1 A, m1 N, m2 A; no score is known of 1 of them",
                "score>=9 doesn't count 1 verdict that may be TRUE; --fail-on 'unknown and score>=9' counts them",
            ],
        )

    def test_nothing_fits(self):
        only = [Machine("m1", Statements("B"), {"B": "TRUE"}), Machine("bare", has_items=False)]
        self.assertEqual(self.fits("score>=5.1", machines=only), (False, []))
        self.assertEqual(self.fits("score>=5", machines=only), (True, ["score>=5 fits 1 verdict: m1 B"]))
        self.assertEqual(self.fits(machines=only), (False, []))

    def test_unknown_fits_unknown_and_error_alone(self):
        self.assertEqual(self.fits("unknown"), (True, ["unknown fits 2 verdicts: m1 U, m2 E"]))
        self.assertEqual(self.fits("unknown and score>=9"), (True, ["unknown and score>=9 fits 1 verdict: m1 U"]))
        self.assertEqual(self.fits("unknown and kev"), (False, []))

    def test_terms_are_joined_by_and_and_gates_are_alternatives(self):
        self.assertEqual(self.fits("kev"), (True, ["kev fits 1 verdict: m1 B"]))
        self.assertEqual(self.fits("kev and score>=9"), (False, []))
        fits, said = self.fits("kev and score>=9", "kev and epss>=0.5")
        self.assertEqual((fits, said), (True, ["kev and epss>=0.5 fits 1 verdict: m1 B"]))

    def test_epss_that_is_not_known_fits(self):
        _, said = self.fits("epss>=0.3")
        self.assertEqual(said[0], "epss>=0.3 fits 2 verdicts: m1 B, m1 N; no epss is known of 1 of them")

    def test_severity_is_the_feeds_or_the_scores_where_that_is_higher(self):
        found = {"A": "TRUE", "B": "TRUE", "OLD": "TRUE", "ODD": "TRUE"}
        machines = [Machine("m", Statements([*found]), found)]
        _, said = self.fits("severity>=critical", machines=machines)
        self.assertEqual(said, ["severity>=critical fits 3 verdicts: m A, m OLD, m ODD; no severity is known of 1 of them"])
        _, said = self.fits("severity>=medium", machines=machines)
        self.assertEqual(said, ["severity>=medium fits 4 verdicts: m A, m B, m OLD and 1 more; no severity is known of 1 of them"])

    def test_what_is_accepted_fits_nothing(self):
        self.assertNotIn("m1 T", self.fits("score>=10")[1][0])
        only = [Machine("m1", Statements("T"), {"T": "TRUE"})]
        self.assertEqual(self.fits("score>=1", "unknown", machines=only), (False, []))

    def settled(self, id, truth, before="UNKNOWN"):
        """One machine with one verdict that is settled."""
        machine = Machine("m", Statements([id]), {id: before} if before != "FALSE" else {})
        machine.settle(id, Settlement(truth, "seen there", before))
        return [machine]

    def test_what_is_settled_is_what_it_is_settled_as(self):
        for before in ("UNKNOWN", "FALSE"):
            said = self.fits("score>=9", "unknown", machines=self.settled("U", "TRUE", before))
            self.assertEqual(said, (True, ["score>=9 fits 1 verdict: m U; 1 of them is settled"]))

    def test_what_is_settled_as_false_fits_nothing_and_is_counted(self):
        for text in ("score>=9", "unknown", "unknown and score>=9", "new"):
            said = self.fits(text, machines=self.settled("U", "FALSE"))
            self.assertEqual(said, (False, [f"{text} doesn't count 1 verdict that is settled as FALSE"]), text)
        for text in ("score>=10", "kev"):
            self.assertEqual(self.fits(text, machines=self.settled("U", "FALSE")), (False, []), text)

    def test_new_is_another_verdict_than_in_the_kept_result(self):
        kept = {("m1", "A"): "TRUE", ("m1", "B"): "UNKNOWN", ("m2", "A"): "TRUE", ("m1", "U"): "UNKNOWN"}
        self.assertEqual(self.fits("new", kept=kept), (True, ["new fits 2 verdicts: m1 B, m1 N", "new doesn't count 1 verdict that may be TRUE; --fail-on 'unknown and new' counts them"]))
        self.assertEqual(self.fits("new and unknown", kept=kept), (True, ["new and unknown fits 1 verdict: m2 E"]))
        self.assertEqual(self.fits("new and score>=9", kept={**kept, ("m1", "N"): "TRUE"})[0], False)


class Kept(RecipeCase):
    def test_what_was_accepted_or_false_is_not_kept(self):
        rows = [verdict("A", "TRUE"), verdict("T", "TRUE", accepted="no way in"), verdict("F", "FALSE"), verdict("U", "UNKNOWN")]
        rows.append(verdict("S", "FALSE", settled="built without", before="UNKNOWN"))
        path = self.file("kept.json", table(machine("m", *rows), {"name": "bare", "items": 0}))
        self.assertEqual(read_earlier_verdicts(path), {("m", "A"): "TRUE", ("m", "U"): "UNKNOWN"})

    def test_what_is_no_kept_result_is_refused(self):
        whole = json.dumps(table(machine("m", verdict("A", "TRUE"))))
        for data in ("", whole[:-1], "[]", "{}", "m A TRUE\nmachines 1\n", whole + whole):
            with self.assertRaises(Fatal, msg=data):
                read_earlier_verdicts(self.file("kept.json", data))

    def gates(self, *words):
        return GateCheck.of(read_arguments(words, {"--fail-on": 1, "--since": 1}, "usage"), Threats())

    def test_a_term_needs_its_file_and_a_file_its_term(self):
        for words, needed in (
            (["--fail-on", "new"], "needs --since FILE"),
            (["--fail-on", "score>=9 and kev"], "needs --kev FILE"),
            (["--fail-on", "epss>=0.1"], "needs --epss FILE"),
            (["--since", "kept.json"], "--since is for --fail-on new"),
            (["--fail-on", "score>=9", "--since", "kept.json"], "--since is for --fail-on new"),
            (["--fail-on", "new", "--since", "a", "--since", "b"], "--since is given 2 times"),
        ):
            with self.assertRaises(Fatal) as caught:
                self.gates(*words)
            self.assertIn(needed, str(caught.exception))
        self.assertEqual(len(self.gates("--fail-on", "score>=9", "--fail-on", "unknown", "--fail-on", "unknown").gates), 2)


@needs_cpe
class Statuses(RecipeCase):
    """scan.py over the samples of ranges: the highest score on legacy-1 is 9.8, and one verdict is UNKNOWN."""

    OF = SAMPLES / "ranges"
    WORDS = ["--dictionary", str(OF / "dictionary.json"), "--advisories", str(OF / "advisories.json"), "--matches", str(OF / "matches.json")]
    LIST = ["--lists", str(OF / "legacy-1.txt")]

    def status(self, *words):
        return self.scan(*self.WORDS, *words)[0]

    def test_without_a_gate_statuses_are_as_they_are(self):
        self.assertEqual(self.status(*self.LIST), 0)

    def test_3_if_a_verdict_fits_and_the_table_is_written(self):
        plain = self.scan(*self.WORDS, *self.LIST)
        status, lines, said = self.scan(*self.WORDS, *self.LIST, "--fail-on", "score>=9")
        self.assertEqual((status, lines), (3, plain[1]))
        self.assertIn("remark --fail-on score>=9 fits 1 verdict: legacy-1 CVE-2024-98002", said)
        self.assertEqual(self.status(*self.LIST, "--fail-on", "score>=9.9"), 0)
        self.assertEqual(self.status(*self.LIST, "--fail-on", "score>=9.9", "--fail-on", "unknown"), 3)

    def left_out(self):
        """Machines of which one has an invalid item, so that the status is 1."""
        name = (self.OF / "legacy-1.txt").read_text().split()[0]
        return ["--machines", self.file("machines.txt", f"legacy-1 {' '.join((self.OF / 'legacy-1.txt').read_text().split())} cpe:/a:%zz\nodd {name}\n")]

    def test_a_gate_never_passes_because_of_what_was_not_read(self):
        self.assertEqual(self.status(*self.left_out()), 1)
        self.assertEqual(self.status(*self.left_out(), "--fail-on", "score>=9.9"), 1)
        self.assertEqual(self.status(*self.left_out(), "--fail-on", "score>=9"), 3)

    def test_no_term_is_status_2_before_anything_is_read(self):
        status, lines, said = self.scan(*self.WORDS, "--lists", "none", "--fail-on", "score>=9 or kev")
        self.assertEqual((status, lines), (2, []))
        self.assertEqual(said, ["scan.py: --fail-on 'score>=9 or kev': place 10 has 'or', and 'and' between two terms is expected"])

    def test_new_against_a_kept_result(self):
        kept = self.file("kept.json", "\n".join(self.scan(*self.WORDS, *self.LIST, "--json")[1]))
        self.assertEqual(self.status(*self.LIST, "--fail-on", "new", "--since", kept), 0)
        both = ["--lists", str(self.OF / "legacy-1.txt"), str(self.OF / "app-1.txt")]
        status, _, said = self.scan(*self.WORDS, *both, "--fail-on", "new", "--since", kept, "--format", "csv")
        self.assertEqual(status, 3)
        self.assertTrue([line for line in said if line.startswith("remark --fail-on new fits ") and "app-1 CVE-" in line and "legacy-1" not in line], said)

    def test_an_accepted_advisory_fits_until_it_is_accepted(self):
        accepted = ["--suppress", self.file("accepted.txt", "CVE-2024-98002 legacy-1 no way in\n")]
        self.assertEqual(self.status(*self.LIST, "--fail-on", "score>=9", *accepted), 0)
        kept = self.file("kept.json", "\n".join(self.scan(*self.WORDS, *self.LIST, *accepted, "--json")[1]))
        self.assertEqual(self.status(*self.LIST, "--fail-on", "new and score>=9", "--since", kept), 3)


class Fleets(RecipeCase):
    def test_a_fleet_says_where_these_options_are(self):
        for option in ("--fail-on", "--kev", "--epss", "--since", "--format", "--settled", "--suppress"):
            status, lines, said = self.recipe("fleet/parallel", "records", "machines", option, "x")
            self.assertEqual((status, lines, len(said)), (2, [], 1))
            self.assertIn(f"{option} is no option of a fleet, which writes truths alone: ", said[0])


if __name__ == "__main__":
    unittest.main()
