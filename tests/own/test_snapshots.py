"""Snapshots: what save writes of rows, and load of a snapshot; what is cut, and what is no snapshot."""
import unittest

from own_case import SOME_REFUSED, OwnCase, parted

# The snapshots of no rows, and of one item, with what load writes of each.
NO_ROWS = b"CPESNAP1" + bytes(16)
NO_ROWS_LOADED = b"entries 0\ndeprecated 0\nitems 0\nstatements 0\nchecks 0\nverdicts 0\n"
ITEM_NAME = b"cpe:2.3:a:*:*:*:*:*:*:*:*:*:*"
ITEM = b"CPESNAP1" + bytes(7) + b"\1" + bytes(11) + bytes([len(ITEM_NAME)]) + ITEM_NAME
ITEM_LOADED = NO_ROWS_LOADED.replace(b"items 0", b"items 1")
NO_SNAPSHOT = b"refused snapshot\n"
# An item, a question and a refused line.
RECORDS = b'{"do":"item","name":"cpe:/a"}\n{"do":"items","name":"cpe:/a"}\n{"do":"item"}\n'
# How many lines load writes before the table.
LINES_BEFORE = 5


class Written(OwnCase):
    def test_save_writes_the_bytes_of_the_rows(self):
        self.answers("the snapshot of no rows", b"", NO_ROWS, 0, "save")
        what = "the snapshot of an item; a question and a refused line write nothing"
        self.answers(what, self.file("item.jsonl", RECORDS), ITEM, SOME_REFUSED, "save")


class Loaded(OwnCase):
    def loads(self, what, given, output):
        """A check of what load writes of the snapshot that save writes of an input with refused lines."""
        with self.subTest(what):
            saved = self.run_cpe(["save"], given)
            loaded = self.run_cpe(["load"], saved.output)
            self.assertEqual((saved.status, saved.said), (SOME_REFUSED, b""))
            self.judge(loaded, 0, output)

    def test_load_counts_the_rows_and_writes_their_table(self):
        self.answers("no rows, from their snapshot", self.file("no-rows", NO_ROWS), NO_ROWS_LOADED, 0, "load")
        self.loads("an item, from its snapshot", RECORDS, ITEM_LOADED)
        vector = self.root / "tests/vectors/evaluate/dictionary-and-advisories.in"
        _, table = parted(vector.with_suffix(".out").read_bytes())
        counts = b"entries 12\ndeprecated 1\nitems 5\nstatements 3\nchecks 0\n"
        self.loads("a dictionary and advisories, from their snapshot", vector, counts + table)

    def test_the_table_of_saved_rows_is_that_of_evaluate(self):
        """What counts the rows is the first five lines."""
        for path in self.vectors("evaluate"):
            with self.subTest(f"the table of saved rows: {path.stem}"):
                saved = self.run_cpe(["save"], path)
                loaded = self.run_cpe(["load"], saved.output)
                table = loaded.output.split(b"\n", LINES_BEFORE)[-1]
                _, expected = parted(path.with_suffix(".out").read_bytes())
                self.judge(loaded._replace(output=table, said=saved.said + loaded.said), 0, expected)


class Refused(OwnCase):
    def refuses(self, what, data):
        self.answers(what, self.file("snapshot", data), NO_SNAPSHOT, SOME_REFUSED, "load")

    def test_a_snapshot_that_is_cut_or_longer_is_refused(self):
        for count in range(0, len(ITEM), 7):
            self.refuses(f"the first {count} bytes of a snapshot", ITEM[:count])
        self.refuses("a snapshot without its last byte", ITEM[:-1])
        self.refuses("a snapshot and a byte more", ITEM + b"\0")

    def test_a_snapshot_in_single_bytes_is_read(self):
        with self.subTest("a snapshot that comes in single bytes"):
            self.judge(self.run_in_pieces(["load"], ITEM), 0, ITEM_LOADED)

    def test_records_are_no_snapshot(self):
        self.answers("records are no snapshot", "examples/inventory.jsonl", NO_SNAPSHOT, SOME_REFUSED, "load")


if __name__ == "__main__":
    unittest.main()
