"""The command line of a recipe."""
import os
import sys
import tempfile
import unittest
from pathlib import Path

sys.path.insert(0, str(Path(__file__).resolve().parents[2] / "recipes"))

from cpe_recipes.arguments import FLAG, MANY, ONE, Arguments, read_arguments  # noqa: E402
from cpe_recipes.console import Fatal  # noqa: E402

OPTIONS = {"--json": FLAG, "--ranges": ONE, "--lists": MANY}


class Read(unittest.TestCase):
    def setUp(self):
        folder = tempfile.TemporaryDirectory()
        self.addCleanup(folder.cleanup)
        self.addCleanup(os.chdir, os.getcwd())
        os.chdir(folder.name)
        Path("-odd.json").touch()

    def test_options_and_files(self):
        arguments = read_arguments(["a", "--ranges", "r", "--lists", "b", "-odd.json", "--json", "c"], OPTIONS, "it")
        self.assertEqual(arguments, Arguments({"--ranges": ["r"], "--lists": ["b", "-odd.json"], "--json": []}, ["a", "c"]))
        self.assertEqual((arguments.one("--ranges"), arguments.many("--lists"), arguments.has("--json")), ("r", ["b", "-odd.json"], True))
        self.assertEqual((read_arguments([], OPTIONS, "it").one("--ranges"), read_arguments([], OPTIONS, "it").many("--lists")), (None, []))

    def test_files_that_begin_with_a_hyphen(self):
        self.assertEqual(read_arguments(["-odd.json"], OPTIONS, "it").files, ["-odd.json"])
        self.assertEqual(read_arguments(["--", "--json", "-none"], OPTIONS, "it").files, ["--json", "-none"])

    def test_a_word_that_may_be_given_once(self):
        arguments = read_arguments(["--ranges", "r", "--ranges", "s"], OPTIONS, "it")
        self.assertEqual((arguments.one("--ranges"), read_arguments(["--ranges", "r"], OPTIONS, "it").only("--ranges"), arguments.only("--lists")), ("s", "r", None))
        with self.assertRaises(Fatal) as caught:
            arguments.only("--ranges")
        self.assertEqual(str(caught.exception), "--ranges is given 2 times, and once is enough")

    def test_wrong_words_are_fatal(self):
        for words in (["--jsn"], ["-none.json"], ["--ranges"], ["--lists"], ["--lists", "--json"]):
            with self.subTest(words), self.assertRaises(Fatal) as caught:
                read_arguments(words, OPTIONS, "it [FILE..]")
            self.assertIn("usage: it [FILE..]", str(caught.exception))


if __name__ == "__main__":
    unittest.main()
