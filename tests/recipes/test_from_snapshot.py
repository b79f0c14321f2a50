"""The records of a snapshot: which rows are read, and that the program makes the same snapshot of them."""
import json
import subprocess
import unittest

from recipe_case import CPE, RecipeCase, fs, needs_cpe
from cpe_recipes.from_snapshot import NotSnapshot, read, records


def number(value):
    return value.to_bytes(4, "big")


def text(value):
    return number(len(value.encode())) + value.encode()


def entry(name, kind=0, successors=(), notes=()):
    row = text(name) + 3 * text("") + number(len(notes))
    row += b"".join(bytes([of]) + b"2024-01-01" + text(comment) for of, comment in notes)
    return row + bytes([kind]) + (number(len(successors)) + b"".join(map(number, successors)) if kind else b"")


def snapshot(*entries, items=()):
    return b"CPESNAP1" + number(len(entries)) + number(len(items)) + number(0) + number(0) + b"".join(entries) + b"".join(map(text, items))


class Reading(RecipeCase):
    def words(self, data):
        return [(it["do"], it.get("name"), it.get("comment")) for it in records(read(data), self.messages)]

    def test_nothing(self):
        self.assertEqual(self.words(snapshot()), [])

    def test_successors_come_first(self):
        a, b, c = (fs("v", "p", version) for version in "123")
        rows = snapshot(entry(a, 1, [1], [(2, "a")]), entry(b, 3, [2], [(0, "first"), (2, "b"), (3, "again")]), entry(c))
        told = [("entry", a, None), ("entry", b, None), ("entry", c, None)]
        told += [("deprecate", b, "b"), ("amend", b, "again"), ("deprecate", a, "a")]
        self.assertEqual(self.words(rows), told)

    def test_a_deprecation_without_a_note_is_left_out(self):
        self.assertEqual(self.words(snapshot(entry(fs("v", "p"), 2, [], [(0, "x"), (3, "y")]))), [])
        self.assertEqual(self.messages.left, 1)

    def test_what_is_no_snapshot(self):
        whole = snapshot(entry(fs("v", "p"), 1, [0], [(2, "")]), items=[fs("v", "q")])
        read(whole)
        wrong = [whole[:-1], whole + b"0", b"CPESNAP2" + whole[8:], b"", snapshot(entry(fs("v", "p"), 1, [1])), snapshot(entry(fs("v", "p"), 4))]
        wrong.append(b"CPESNAP1" + number(2**32 - 1) + bytes(12))
        for data in wrong:
            with self.assertRaises(NotSnapshot):
                read(data)

    def test_a_file_that_is_no_snapshot(self):
        path = self.file("torn", snapshot()[:-1])
        self.assertEqual(self.recipe("from-snapshot", path), (2, [], [f"from-snapshot.sh: {path} is no snapshot"]))


@needs_cpe
class Saving(RecipeCase):
    def saved(self, lines):
        program = subprocess.run([CPE, "save"], input="".join(f"{line}\n" for line in lines).encode(), capture_output=True, check=False)
        self.assertEqual(program.returncode, 0)
        return program.stdout

    def test_comes_back(self):
        name = [fs("v", "p", str(version)) for version in range(4)]
        change = {"kind": "NAME_CORRECTION", "date": "2024-01-02"}
        lines = [{"do": "entry", "name": it, "title": "ü", "provenance": {"submitter": "s"}} for it in name]
        lines += [{"do": "deprecate", "name": name[0], "successors": [name[1]], **change}]
        lines += [{"do": "deprecate", "name": name[1], "successors": [name[2]], "comment": "first", **change}]
        lines += [{"do": "restore", "name": name[1], "date": "2024-01-03"}]
        lines += [{"do": "deprecate", "name": name[1], "successors": [name[3]], **change}]
        lines += [{"do": "amend", "name": name[1], "successors": [name[2]], **change}]
        lines += [{"do": "item", "name": name[0]}, {"do": "check", "system": "s", "href": "h", "id": "i", "result": "ERROR"}]
        check = {"check": {"system": "s", "href": "h", "id": "i"}}
        test = {"op": "AND", "of": [{"fact": "cpe:/a:v"}, {"op": "OR", "negate": True, "of": [check]}]}
        lines += [{"do": "statement", "id": "t", "mode": "follow", "title": "a title", "test": test}]
        data = self.saved(map(json.dumps, lines))
        status, told, said = self.recipe("from-snapshot", self.file("saved", data))
        self.assertEqual((status, said), (0, []))
        self.assertEqual(self.saved(told), data)


if __name__ == "__main__":
    unittest.main()
