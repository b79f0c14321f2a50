"""Where deprecations lead, as a graph."""
import shutil
import subprocess
import unittest

from recipe_case import RecipeCase, fs, needs_cpe
from cpe_recipes.chain_graph import graph, quote


class Lines(unittest.TestCase):
    def test_quoting(self):
        self.assertEqual(quote('a\\:b"c'), '"a\\\\:b\\"c"')

    def test_graph(self):
        steps = {"a": "NAME_CORRECTION", "b": "active", "c": "NAME_REMOVAL", "d": ""}
        lines = list(graph(steps, {"a": ("NAME_CORRECTION", ["b", "c"]), "c": ("NAME_REMOVAL", [])}))
        self.assertIn('  n1 [label="a"];', lines)
        self.assertIn('  n2 [label="b", peripheries=2];', lines)
        self.assertIn('  n3 [label="c", style=dashed];', lines)
        self.assertIn('  n4 [label="d", peripheries=2];', lines)
        self.assertEqual(lines[-3:], ['  n1 -> n2 [label="NAME_CORRECTION"];', '  n1 -> n3 [label="NAME_CORRECTION"];', "}"])


@needs_cpe
class Recipe(RecipeCase):
    def setUp(self):
        super().setUp()
        date = {"date": "2024-01-01"}
        entries = [{"do": "entry", "name": fs("v", "p", version)} for version in "1234"]
        self.records = self.file("records.jsonl", [
            *entries,
            {"do": "deprecate", "name": fs("v", "p", "2"), "kind": "ADDITIONAL_INFORMATION", "successors": [fs("v", "p", "3"), fs("v", "p", "4")], **date},
            {"do": "deprecate", "name": fs("v", "p", "1"), "kind": "NAME_CORRECTION", "successors": [fs("v", "p", "2")], **date},
        ])

    def test_chain(self):
        status, lines, said = self.recipe("chain-graph", self.records, "CPE:/a:V:P:1")
        self.assertEqual((status, said), (0, []))
        self.assertEqual(sum(" -> " in line for line in lines), 3)
        self.assertEqual(sum("peripheries" in line for line in lines), 2)
        if shutil.which("dot"):
            drawn = subprocess.run(["dot", "-Tsvg"], input="\n".join(lines), capture_output=True, text=True, check=True).stdout
            self.assertIn("<svg", drawn)

    def test_names(self):
        status, lines, _ = self.recipe("chain-graph", self.records, "cpe:/a:x:y", fs("v", "p", "3"))
        self.assertEqual((status, sum("peripheries" in line for line in lines)), (0, 2))
        status, lines, said = self.recipe("chain-graph", self.records, "cpe:/a:%zz")
        self.assertEqual((status, lines), (2, []))
        self.assertEqual(said, ["chain-graph.sh: cpe:/a:%zz is no name: name name 8"])


if __name__ == "__main__":
    unittest.main()
