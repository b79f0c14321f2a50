"""Long inputs whose answers are computed from numbers: in enough memory, and in too little."""
import unittest

from made_dictionaries import Dictionary, Families
from made_statements import Inventory, Statements, Watched
from made_versions import Advised, Covered
from own_case import MEMORY_FAULT, SOME_REFUSED, OwnCase, bounded

MIB = 1024


class Answers(OwnCase):
    def answers_made(self, what, kib, word, made):
        with self.subTest(f"{what}: {word}"):
            self.needs_bounds()
            run = self.ended(bounded(kib, [self.program, word]), made.input())
            self.judge(run, SOME_REFUSED, made.output())

    def test_many_entries_and_questions_to_them(self):
        self.answers_made("100,000 entries, and questions to them", 512 * MIB, "resolve", Dictionary(100_000))

    def test_families_of_deprecated_entries_and_their_chains(self):
        what = "1,000 families of eleven entries, most of them deprecated, and their chains"
        self.answers_made(what, 64 * MIB, "resolve", Families(1_000))

    def test_statements_of_facts_over_items(self):
        self.answers_made("1,000 statements of three facts over 2,000 items", 64 * MIB, "evaluate", Inventory(1_000))

    def test_statements_without_facts_up_to_the_limit(self):
        self.answers_made("100,000 statements without facts", 512 * MIB, "evaluate", Statements(100_000))

    def test_edits_that_change_many_verdicts(self):
        what = "3,000 statements, and edits that change a tenth of them or nearly all"
        self.answers_made(what, 64 * MIB, "watch", Watched(3_000))

    def test_advisories_over_products_and_questions_to_both(self):
        what = "3,000 products of five versions, an advisory over each, and questions to both"
        self.answers_made(what, 64 * MIB, "advise", Advised(3_000))

    def test_products_in_some_versions_or_in_any(self):
        self.answers_made("3,000 products of five versions, and some in any", 64 * MIB, "cover", Covered(3_000))


class NoRoom(OwnCase):
    def memory_runs_out(self, word, made):
        """A check that in 16 MiB there is no room for so many rows. A prefix of the answers is written, and no more."""
        with self.subTest(f"if memory runs out the status is 5: {word}, {type(made).__name__}"):
            self.needs_bounds()
            run = self.ended(bounded(16 * MIB, [self.program, word]), self.file("many", made.input()))
            self.assertTrue(run.output, f"nothing was written, and the status is {run.status}")
            self.judge(run, MEMORY_FAULT, made.output()[: len(run.output)])

    def test_no_room_for_a_dictionary(self):
        self.memory_runs_out("resolve", Dictionary(100_000))
        self.memory_runs_out("resolve", Families(3_000))

    def test_no_room_for_statements(self):
        self.memory_runs_out("evaluate", Inventory(20_000))
        self.memory_runs_out("watch", Watched(20_000))

    def test_no_room_for_advisories_or_a_list_of_names(self):
        self.memory_runs_out("advise", Advised(20_000))
        self.memory_runs_out("cover", Covered(20_000))

    def test_no_room_for_generated_rows(self):
        """Nothing is written of those for which there was room."""
        with self.subTest("if memory runs out the status is 5: drill"):
            self.needs_bounds()
            self.judge(self.ended(bounded(16 * MIB, [self.program, "drill", "200000"])), MEMORY_FAULT, b"")


if __name__ == "__main__":
    unittest.main()
