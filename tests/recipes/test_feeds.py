"""How feeds are read."""
import gzip
import io
import sys
import tempfile
import unittest
from pathlib import Path
from unittest import mock

sys.path.insert(0, str(Path(__file__).resolve().parent))

from stand_in import Heard  # noqa: E402 (it knows where the recipes are)
from cpe_recipes import feeds  # noqa: E402
from cpe_recipes.console import Fatal  # noqa: E402


class Pages(unittest.TestCase):
    def setUp(self):
        folder = tempfile.TemporaryDirectory()
        self.addCleanup(folder.cleanup)
        self.folder = Path(folder.name)
        self.messages = Heard()

    def file(self, name, data):
        path = self.folder / name
        path.write_bytes(data if isinstance(data, bytes) else data.encode())
        return str(path)

    def read(self, *paths, kinds=("rows",), strict=False):
        return [(page.name, page.kind, page.records) for page in feeds.pages(paths, self.messages, kinds, strict)]

    def test_a_line_ends_where_cpe_ends_it_alone(self):
        odd = "a\u2028b\u2029c\x85d\x0be\x0cf\x1cg\x1dh\x1ei\rj"
        self.assertEqual(feeds.text_lines(f"{odd}\r\n\n{odd}"), [odd, "", odd])
        self.assertEqual((feeds.text_lines(""), feeds.text_lines("a\n")), ([], ["a"]))

    def test_pages_of_files_in_their_order(self):
        one, two = self.file("one.json", '{"rows":[1]}'), self.file("two.json", '{"others":[2],"rows":7}')
        self.assertEqual(self.read(one, two, kinds=("rows", "others")), [("one.json", "rows", [1]), ("two.json", "others", [2])])
        self.assertEqual(self.messages.told, [])

    def test_a_packed_page_and_several_in_one_file(self):
        packed = self.file("one.json.gz", gzip.compress(b'{"rows":[1]}'))
        several = self.file("two.json", '\ufeff {"rows":[2]}\r\n{"rows":[3]} ')
        self.assertEqual([rows for _, _, rows in self.read(packed, several)], [[1], [2], [3]])

    def test_standard_input_where_there_is_no_path(self):
        with mock.patch("sys.stdin", mock.Mock(buffer=io.BytesIO(b'{"rows":[]}'))):
            self.assertEqual(self.read(), [("standard input", "rows", [])])

    def bad(self):
        return {
            "can not be read: No such file or directory": str(self.folder / "none.json"),
            "can not be read: Is a directory": str(self.folder),
            "no JSON: it is empty": self.file("empty.json", " \r\n"),
            "no JSON: Expecting value": self.file("page.json", "<html>too many requests</html>"),
            "no JSON: Expecting": self.file("torn.json", '{"rows":[1,2'),
            "no JSON: it is no UTF-8 at byte 11": self.file("latin.json", b'{"rows":["\xe4"]}'),
            "no JSON: NaN is no number": self.file("nan.json", '{"rows":[NaN]}'),
            "no JSON that can be read: it is nested too deep": self.file("deep.json", "[" * 100000),
            "can not be unpacked: ": self.file("torn.json.gz", gzip.compress(b'{"rows":[1]}')[:-5]),
            "no rows": self.file("array.json", "[]"),
        }

    def test_a_bad_page_alone_is_fatal(self):
        for reason, path in self.bad().items():
            with self.subTest(reason), self.assertRaises(Fatal) as caught:
                self.read(path)
            self.assertTrue(str(caught.exception).startswith(f"{Path(path).name}: {reason}"), caught.exception)
        self.assertEqual(self.messages.told, [])

    def test_a_bad_page_beside_a_good_one_is_left_out(self):
        good = self.file("good.json", '{"rows":[1]}')
        for reason, path in self.bad().items():
            self.messages.told.clear()
            with self.subTest(reason):
                self.assertEqual([rows for _, _, rows in self.read(path, good)], [[1]])
                self.assertEqual(len(self.messages.told), 1)
                self.assertTrue(self.messages.told[0].startswith(f"left out {Path(path).name}: {reason}"))
                with self.assertRaises(Fatal):
                    self.read(good, path, strict=True)

    def test_no_good_page_is_fatal(self):
        with self.assertRaises(Fatal) as caught:
            self.read(self.file("one.json", "{}"), self.file("two.json", ""))
        self.assertEqual(str(caught.exception), "none of these can be read: one.json, two.json")

    def test_what_stands_before_a_fault_comes_out(self):
        self.assertEqual([rows for _, _, rows in self.read(self.file("two.json", '{"rows":[1]} {"rows":'))], [[1]])
        self.assertEqual(len(self.messages.told), 1)

    def test_a_record_without_an_id_has_its_place(self):
        page = feeds.Page("it.json", "rows", [{"id": "a"}, {}, "text", {"id": 7}])
        self.assertEqual([one.id for one in page.each("row", lambda it: feeds.member(it, "id"))], ["a"] + [f"row {k} of it.json" for k in (2, 3, 4)])


class Members(unittest.TestCase):
    def test_forms(self):
        self.assertEqual(feeds.members({"a": [1]}, "a"), [1])
        self.assertEqual((feeds.members({}, "a"), feeds.members({"a": None}, "a")), ([], []))
        self.assertEqual((feeds.text_at({"a": "b"}, "a"), feeds.text_at({}, "a")), ("b", None))
        for call, value in ((feeds.member, "text"), (feeds.members, {"a": 7}), (feeds.text_at, {"a": []}), (feeds.members, None)):
            with self.assertRaises(feeds.FormFault):
                call(value, "a")

    def test_a_record_is_one_line_of_utf_8(self):
        text = feeds.record_text({"a": "“\n\t\"\ud800", "b": [True, None]})
        self.assertEqual(text, '{"a":"“\\n\\t\\"\ufffd","b":[true,null]}')
        self.assertEqual(text.encode().count(b"\n"), 0)


if __name__ == "__main__":
    unittest.main()
