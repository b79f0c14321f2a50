"""Names and pairs of names: examples, both bindings and back, each byte in each gap, long lines, and wrong words."""
import unittest

from gaps import OF_BIND, OF_UNBIND, filled
from own_case import SOME_REFUSED, USAGE, Ended, OwnCase, joined, lines_of

# The greatest length of a line in bytes.
LONGEST_LINE = 65_536
WRONG_WORDS = "tests/vectors/usage/wrong-words.out"


class Examples(OwnCase):
    def test_the_examples_are_answered_as_they_say(self):
        self.answers("the real names", "examples/names.txt", "examples/names.out", 0, "unbind")
        self.answers("the mixed lines", "examples/mixed.txt", "examples/mixed.out", SOME_REFUSED, "unbind")
        self.answers("the pairs of names", "examples/pairs.txt", "examples/pairs.out", SOME_REFUSED, "compare")
        self.answers("the texts of names", "examples/wfn.txt", "examples/wfn.out", SOME_REFUSED, "bind", "fs")
        what = "the texts of names as URIs"
        self.answers(what, "examples/wfn.txt", "examples/wfn-uris.out", SOME_REFUSED, "bind", "uri")
        self.answers("the texts of the real names", "examples/names.out", "examples/names.txt", 0, "bind", "fs")
        self.answers("the real names as URIs, in any spelling", "examples/uris.txt", "examples/uris.out", 0, "unbind")

    def test_what_is_bound_is_unbound_to_itself(self):
        """No real name has a capital letter, which a URI would lose."""
        for binding, plural in (("fs", "formatted strings"), ("uri", "URIs")):
            with self.subTest(f"the real names bound as {plural} and unbound again"):
                bound = self.run_cpe(["bind", binding], "examples/names.out")
                self.judge(self.run_cpe(["unbind"], bound.output), 0, "examples/names.out")


class Gaps(OwnCase):
    def check(self, gaps, *words):
        with self.subTest(f"each byte in each gap: {' '.join(words)}"):
            lines = [line for gap in gaps for line in filled(gap)]
            run = self.run_cpe(words, joined(line for line, _ in lines))
            kinds = ["refused" if line.split(b" ")[0] == b"refused" else "read" for line in lines_of(run.output)]
            expected = "".join(f"{line!r} is {kind}\n" for line, kind in lines)
            found = "".join(f"{line!r} is {kind}\n" for (line, _), kind in zip(lines, kinds))
            self.assertEqual(len(kinds), len(lines))
            self.judge(Ended(run.status, found.encode(), run.said), SOME_REFUSED, expected.encode())

    def test_each_gap_takes_its_own_bytes_alone(self):
        self.check(OF_UNBIND, "unbind")
        self.check(OF_BIND, "bind", "fs")


class LongLines(OwnCase):
    def test_a_line_of_the_greatest_length_is_read_and_one_byte_more_is_refused(self):
        """A carriage return is a byte of a line too."""
        stars = b":*:*:*:*:*:*:*:*\n"
        head = b"cpe:2.3:a:v:"
        product = b"a" * (LONGEST_LINE - len(head + stars) + 1)
        names = head + product + stars + head + product + b"a" + stars + head + product + stars.replace(b"\n", b"\r\n")
        others = ("version", "update", "edition", "language", "sw_edition", "target_sw", "target_hw", "other")
        rest = ",".join(f"{attribute}=ANY" for attribute in others).encode()
        expected = b'wfn:[part="a",vendor="v",product="' + product + b'",' + rest + b"]\n"
        expected += b"refused 2 long\nrefused 3 long\nrefused 4 name 0\nrefused 5 long\n"
        given = self.file("long.txt", names + b"a" * LONGEST_LINE + b"\n" + b"a" * 200_000)
        self.answers("lines about the greatest length", given, expected, SOME_REFUSED, "unbind")


class Usage(OwnCase):
    def test_words_that_are_no_command_leave_the_input_unread(self):
        def refused(what, *words):
            self.answers(what, "examples/names.txt", WRONG_WORDS, USAGE, *words)

        refused("no words")
        refused("a wrong word", "unbound")
        refused("a word in capitals", "Compare")
        refused("a word too many", "unbind", "names")
        refused("an empty word", "")
        refused("half of a command", "bind")

    def test_a_word_too_many_is_refused_under_each_command(self):
        examples = {
            "resolve": "dictionary.jsonl",
            "evaluate": "inventory.jsonl",
            "watch": "watch.jsonl",
            "convert": "convert.jsonl",
            "explain": "inventory.jsonl",
            "check": "inventory.jsonl",
            "advise": "advise.jsonl",
            "cover": "cover.txt",
        }
        for word, example in examples.items():
            self.answers(f"a word too many: {word}", f"examples/{example}", WRONG_WORDS, USAGE, word, "names")
        self.answers("a word too many: save", "examples/inventory.jsonl", WRONG_WORDS, USAGE, "save", "all")
        self.answers("a word too many: load", "tests/vectors/load/an-item.in", WRONG_WORDS, USAGE, "load", "all")


if __name__ == "__main__":
    unittest.main()
