"""A scan from a store has the same output as a scan of all pages, after random windows, lists and kills.

STORE_SEQUENCES is how many sequences are drawn (24 if it isn't set); bench/sequences.py draws them at NVD's size.
"""
import functools
import os
import tempfile
import unittest
from pathlib import Path
from unittest import mock

from recipe_case import needs_cpe
from stored_case import Sequence, of_verdicts, ran

from cpe_recipes import names_table, store

SEQUENCES = int(os.environ.get("STORE_SEQUENCES", "24"))
FORMS = ([], ["--json"], ["--json", "--all"], ["--json", "--why"], ["--json", "--strict", "--hardware", "none"])


@needs_cpe
# (the table never changes, and reading it takes as long as all else)
@mock.patch("cpe_recipes.names_table.read_table", functools.cache(names_table.read_table))
class Sequences(unittest.TestCase):
    def test_a_scan_from_a_store_writes_what_a_scan_of_all_pages_does(self):
        kills = 0
        for seed in range(SEQUENCES):
            with tempfile.TemporaryDirectory() as folder, self.subTest(seed):
                sequence = Sequence(seed, folder)
                for day in range(sequence.draw.randint(1, 3)):
                    sequence.day()
                    machines = sequence.feeds.machines(Path(folder) / "machines", is_odd=sequence.draw.randrange(2) == 0)
                    form = FORMS[(seed + day) % len(FORMS)]
                    (status, written, said), whole = sequence.scanned("--machines", machines, *form)
                    self.assertEqual((status, written), whole[:2])
                    self.assertEqual(of_verdicts(said), of_verdicts(whole[2]))
                kills += sequence.kills
                self.assertEqual(ran(store.run, ("check", "--store", sequence.store))[0], 0)
        self.assertGreater(kills, SEQUENCES // 4)


if __name__ == "__main__":
    unittest.main()
