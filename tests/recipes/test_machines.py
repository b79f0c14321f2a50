"""What the machines have."""
import json
import sys
import tempfile
import unittest
from pathlib import Path

sys.path.insert(0, str(Path(__file__).resolve().parents[2] / "recipes"))
sys.path.insert(0, str(Path(__file__).resolve().parent))

from cpe_recipes.components import Component, Machine, machine_of  # noqa: E402
from cpe_recipes.console import Fatal  # noqa: E402
from cpe_recipes.feeds import FormFault  # noqa: E402
from cpe_recipes.machines import read_lists, read_machines  # noqa: E402
from stand_in import Heard  # noqa: E402


class Machines(unittest.TestCase):
    def setUp(self):
        folder = tempfile.TemporaryDirectory()
        self.addCleanup(folder.cleanup)
        self.folder = Path(folder.name)
        self.messages = Heard()

    def file(self, name, data):
        path = self.folder / name
        path.parent.mkdir(exist_ok=True)
        path.write_bytes(data)
        return str(path)

    def test_spaces_tabs_empty_lines_and_line_ends(self):
        path = self.file("machines.txt", b"\xef\xbb\xbfweb-1 cpe:/a:v:p  cpe:/a:v:q\r\n\r\n\tdb-1\tcpe:/a:v:r \t\n \nbare")
        wanted = [Machine("web-1", ["cpe:/a:v:p", "cpe:/a:v:q"]), Machine("db-1", ["cpe:/a:v:r"]), Machine("bare")]
        self.assertEqual(read_machines(path, self.messages), wanted)
        self.assertEqual(self.messages.told, [])

    def test_a_name_that_comes_again_is_the_same_machine(self):
        path = self.file("machines.txt", b"a cpe:/a:v:p\nb\na cpe:/a:v:q\n")
        self.assertEqual(read_machines(path, self.messages), [Machine("a", ["cpe:/a:v:p", "cpe:/a:v:q"]), Machine("b")])
        self.assertEqual(self.messages.told, ["remark a is there more than once, and has the items of each"])

    def test_no_machine_is_fatal(self):
        for path in (self.file("empty.txt", b""), self.file("spaces.txt", b" \r\n\t\n"), str(self.folder / "none.txt")):
            with self.subTest(path), self.assertRaises(Fatal):
                read_machines(path, self.messages)

    def test_a_line_in_each_form_is_the_same_machine_again(self):
        platform = Component("os:debian@12", ("cpe:/o:debian:debian_linux:12",))
        several = Component("log4j-core", ("cpe:/a:apache:log4j:2", "cpe:/a:log4j:log4j:2"), "maven", "pkg:maven/org.apache/log4j@2")
        machines = [
            Machine("plain", ["cpe:/a:v:p", "cpe:/a:v:q"]),
            Machine("several", [several, "cpe:/a:v:p", Component("id", ("cpe:/a:v:q",), "deb")], platform),
            Machine("nameless", [Component("left-pad", (), "npm", "pkg:npm/left-pad@1")], Component("alpine 3.18")),
            Machine("{odd", ["cpe:/a:v:p"]),
            Machine("of two words", []),
            Machine("bare"),
            Machine("plain-too", ["cpe:/a:v:p"], Component("os", ("cpe:/o:v:o",))),
        ]
        lines = [one.line() for one in machines]
        self.assertEqual(lines[0], "plain cpe:/a:v:p cpe:/a:v:q")
        self.assertEqual(lines[2], '{"machine":"nameless","platform":{"id":"alpine 3.18","names":[]},'
                         '"components":[{"id":"left-pad","names":[],"kind":"npm","purl":"pkg:npm/left-pad@1"}]}')
        self.assertEqual(lines.pop(), "plain-too cpe:/o:v:o cpe:/a:v:p")
        path = self.file("machines.txt", "".join(f" {line}\r\n" for line in lines).encode())
        self.assertEqual(read_machines(path, self.messages), machines[:-1])
        self.assertEqual(self.messages.told, ["left out nameless alpine 3.18: no CPE name"])
        self.assertEqual(machines[1].items, [*platform.names, *several.names, "cpe:/a:v:p", "cpe:/a:v:q"])

    def test_machines_of_two_lists_have_what_both_say(self):
        debian, other = Component("debian 12", ("cpe:/o:debian:debian_linux:12", "cpe:/o:debian:debian_linux:12.0")), Component("alpine 3")
        lines = [Machine("a", ["cpe:/a:v:p"]), Machine("a", ["cpe:/a:v:q"], debian), Machine("a", ["cpe:/a:v:r"], other), Machine("a", (), debian)]
        path = self.file("machines.txt", "".join(f"{one.line()}\n" for one in lines).encode())
        self.assertEqual(read_machines(path, self.messages), [Machine("a", ["cpe:/a:v:p", "cpe:/a:v:q", other, "cpe:/a:v:r"], debian)])
        remark, nameless = "remark a is there more than once, and has the items of each", "left out a alpine 3: no CPE name"
        self.assertEqual(self.messages.told, [remark, remark, remark, nameless])

    def test_objects_that_are_no_machine(self):
        bad = {
            "[]": "it is no object",
            "{}": "it has no text as its machine",
            '{"machine":7}': "it has no text as its machine",
            '{"machine":""}': "it has no text as its machine",
            '{"machine":"a","components":{}}': "its components are no list",
            '{"machine":"a","components":[7]}': "component 1 is neither an object nor a name",
            '{"machine":"a","components":["x",{"names":"x"}]}': "the names of component 2 are no list of texts",
            '{"machine":"a","components":[{"names":[7]}]}': "the names of component 1 are no list of texts",
            '{"machine":"a","components":[{"kind":7}]}': "id, kind and purl of component 1 are no texts",
            '{"machine":"a","components":[{"cpe":"x"}]}': "component 1 has a member cpe, which isn't known",
            '{"machine":"a","items":[]}': "the machine has a member items, which isn't known",
            '{"machine":"a","platform":null}': "its platform is neither an object nor a name",
        }
        for text, reason in bad.items():
            with self.subTest(text), self.assertRaises(FormFault) as caught:
                machine_of(json.loads(text))
            self.assertEqual(str(caught.exception), reason)
            if text.startswith("{"):
                with self.assertRaises(Fatal):
                    read_machines(self.file("bad.txt", f"b\n{text}\n".encode()), self.messages)
        for text in ('{"machine":"a"', '{"machine":"a","machine":"b"}', '{"machine":"a"} {"machine":"b"}', "{a cpe:/a:v:p"):
            with self.subTest(text), self.assertRaises(Fatal) as fatal:
                read_machines(self.file("bad.txt", f"b\n{text}\n".encode()), self.messages)
            self.assertTrue(str(fatal.exception).startswith("bad.txt line 2: no machine: "), fatal.exception)

    def test_bytes_that_are_no_utf_8_stay_apart(self):
        path = self.file("machines.txt", b"m\xe4 cpe:/a:v:p\nm\xf6 cpe:/a:v:q\n")
        self.assertEqual([one.name for one in read_machines(path, self.messages)], ["m\\xe4", "m\\xf6"])

    def test_a_machine_for_each_list(self):
        spdx = {"spdxVersion": "SPDX-2.3", "packages": [{"SPDXID": "p"}, {"SPDXID": "q", "externalRefs": [{"referenceType": "cpe22Type", "referenceLocator": 7}]}]}
        paths = [self.file("web.example.org.json", b"cpe:/a:v:p\n"), self.file("nameless.spdx.json", json.dumps(spdx).encode())]
        wanted = [Machine("web.example.org", [Component("line 1 of web.example.org.json", ("cpe:/a:v:p",))]), Machine("nameless", [Component("p")])]
        self.assertEqual(read_lists(paths, self.messages), wanted)
        self.assertEqual(self.messages.told, ["left out nameless p: no CPE name", "left out nameless q: the locator of a reference is no text"])

    def test_lists_of_the_same_name_in_other_folders_are_other_machines(self):
        paths = [self.file("web/bom.json", b"cpe:/a:v:p\n"), self.file("db/bom.json", b"cpe:/a:v:q\n"), self.file("db/bare.txt", b"cpe:/a:v:r\n")]
        self.assertEqual([one.name for one in read_lists(paths, self.messages)], [f"{self.folder}/web/bom", f"{self.folder}/db/bom", "bare"])

    def test_a_list_that_can_not_be_read_is_fatal(self):
        good = self.file("web.json", b"cpe:/a:v:p\n")
        for path in (self.file("other.json", b"{}"), self.file("empty.json", b""), self.file("bare.txt", b"# none\n"), str(self.folder / "none.json")):
            with self.subTest(path), self.assertRaises(Fatal):
                read_lists([good, path], self.messages)


if __name__ == "__main__":
    unittest.main()
