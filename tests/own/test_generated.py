"""Generated lines: what make writes, and what drill writes of them."""
import collections
import re
import unittest

from made_lines import lines_of_make
from own_case import SOME_REFUSED, USAGE, OwnCase, bounded

MOST = 800_000
# Words that are no number, or none of as many lines as are made.
NO_COUNTS = ["", "0", "00", "007", "-1", "+1", " 1", "1 ", "1.0", "1e3", "0x10", "x", "½", "800001", "4294967297"]
NO_COUNTS += ["18446744073709551616", "18446744073709551617", "99999999999999999999999999999999"]
# The records of make that are questions or results of checks. A statement for which there is no room after all others.
LEFT_OUT = re.compile(rb'^\{"do":"(?:check|search|verdict)".*\n', re.MULTILINE)
ONE_MORE = b'{"do":"statement","id":"s","mode":"plain","test":{"op":"OR","of":[{"fact":"cpe:/a"}]}}\n'


def numbers_of(evaluated: list[list[str]]) -> dict[str, int]:
    """What the answers of evaluate come to: refused lines, found entries, statements, and verdicts of each truth."""
    words_of_numbers = ("refused", "found", "statements", "TRUE", "FALSE", "ERROR", "UNKNOWN")
    numbers = collections.Counter(dict.fromkeys(words_of_numbers, 0))
    words = iter(evaluated)
    for line in words:
        if line[0] == "verdicts":
            numbers["statements"] = int(line[1])
            break
        numbers["refused"] += line[0] == "refused"
        numbers["found"] += int(line[2]) if line[0] == "search" else 0
    numbers.update(line[2] for line in words)
    return dict(numbers)


class Generated(OwnCase):
    def test_make_and_drill_write_their_vectors(self):
        """Their input is a folder, so it isn't read."""
        for word, counts in (("make", (1, 8, 16)), ("drill", (1, 7, 16, 1000, 8000))):
            what = "generated lines: make" if word == "make" else "what generated lines come to: drill"
            for count in counts:
                self.answers(f"{what} {count}", ".", f"tests/vectors/{word}/{count}.out", 0, word, str(count))

    def test_as_many_lines_as_are_made_come_in_little_memory(self):
        with self.subTest("800,000 generated lines: make"):
            self.needs_bounds()
            run = self.ended(bounded(65_536, [self.program, "make", str(MOST)]))
            self.judge(run, 0, lines_of_make(MOST))

    def test_drill_writes_what_evaluate_answers_to_the_lines_of_make(self):
        for count in ("1000", "5003"):
            with self.subTest(f"the lines of make under evaluate come to what drill writes: {count}"):
                lines, drilled = self.run_cpe(["make", count]), self.run_cpe(["drill", count])
                evaluated = self.run_cpe(["evaluate"], lines.output)
                numbers = numbers_of([line.split(" ") for line in evaluated.output.decode().splitlines()])
                written = dict(line.split(" ")[:2] for line in drilled.output.decode().splitlines())
                self.assertEqual({word: int(written[word]) for word in numbers}, numbers)
                self.assertEqual((lines.said, evaluated.said, drilled.said), (b"", b"", b""))

    def test_generated_records_are_accepted_and_one_statement_more_is_not(self):
        with self.subTest("generated records are accepted, and one more statement is not: make"):
            edits = LEFT_OUT.sub(b"", self.run_cpe(["make", str(MOST)]).output)
            run = self.run_cpe(["resolve"], edits + ONE_MORE)
            self.judge(run, SOME_REFUSED, b"refused 550001 full statements\n")

    def test_what_is_no_count_of_lines_is_refused(self):
        def refused(what, *words):
            self.answers(what, "examples/names.txt", "tests/vectors/usage/wrong-words.out", USAGE, *words)

        for word in ("make", "drill"):
            for count in NO_COUNTS:
                refused(f"a number that is none: {word} '{count}'", word, count)
            refused(f"no number: {word}", word)
            refused(f"two numbers: {word}", word, "1", "2")


if __name__ == "__main__":
    unittest.main()
