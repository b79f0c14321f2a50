"""Records: examples, records and names about the greatest length, and searches beside comparisons with all names."""
import itertools
import unittest

from made import fs, record
from own_case import SOME_REFUSED, OwnCase, joined

LONGEST_LINE = 65_536
NAME = fs("a", "v", "p")
PROVENANCE = '"provenance":{"authority":"","changes":[],"submitter":""}'
# An answer of two pages and of three: a tilde is one byte of a URI, two of a formatted string, and three of its JSON.
TILDES = 65_000


def encoded(lines) -> bytes:
    return joined(line.encode() for line in lines)


class Examples(OwnCase):
    def test_the_examples_of_records_are_answered_as_they_say(self):
        examples = {
            "resolve": {"a dictionary": "dictionary", "a dictionary with deprecations": "deprecations"},
            "evaluate": {"an inventory": "inventory", "an inventory whose names are objects": "objects"},
            "watch": {"a watched inventory": "watch"},
            "convert": {"records in one form": "convert"},
            "advise": {"advisories over versions": "advise"},
        }
        for word, named in examples.items():
            for what, name in named.items():
                self.answers(what, f"examples/{name}.jsonl", f"examples/{name}.out", SOME_REFUSED, word)
        self.answers("a list of names", "examples/cover.txt", "examples/cover.out", SOME_REFUSED, "cover")

    def test_evaluate_answers_a_dictionary_and_writes_an_empty_table(self):
        output = self.bytes_of("examples/dictionary.out") + b"verdicts 0\n"
        self.answers("a dictionary: evaluate", "examples/dictionary.jsonl", output, SOME_REFUSED, "evaluate")


class LongRecords(OwnCase):
    def test_a_record_of_the_greatest_length_is_read_and_one_byte_more_is_refused(self):
        """So are spaces after a record, and nesting as deep as a line is long."""
        prefix = '{"do":"entry","name":"cpe:/a:v:p","title":"'
        title = "a" * (LONGEST_LINE - len(prefix) - 2)
        show = record("show", name="cpe:/a:v:p")
        spaces = " " * (LONGEST_LINE - len(show))
        records = (f'{prefix}{title}a"}}', f'{prefix}{title}"}}\r', f'{prefix}{title}"}}')
        lines = [line for one in records for line in (one, show)]
        lines += [show + spaces, f"{show} {spaces}", "[" * LONGEST_LINE, "[" * (LONGEST_LINE + 1), "{" * LONGEST_LINE]
        shown = f'show {{"deprecation":null,"name":"{NAME}",{PROVENANCE},"title":"{title}"}}'
        answers = ["refused 1 long", f"show {NAME} absent", "refused 3 long", f"show {NAME} absent", shown, shown]
        answers += ["refused 8 long", "refused 9 json", "refused 10 long", "refused 11 json"]
        given = self.file("long.jsonl", "\n".join(lines).encode())
        self.answers("records about the greatest length", given, encoded(answers), SOME_REFUSED, "resolve")

    def test_names_that_are_longer_when_they_are_written(self):
        name, other = f"cpe:/a:v:{'~' * TILDES}", fs("a", "v", "q")
        written, in_json = fs("a", "v", "\\~" * TILDES), fs("a", "v", "\\\\~" * TILDES)
        longer = fs("a", "v", "\\~" * (TILDES + 1))
        lines = [record(do, name=name) for do in ("show", "entry", "lookup", "show")]
        lines += [record("search", name="cpe:/a:v"), record("entry", name="cpe:/a:v:q")]
        corrected = {"kind": "NAME_CORRECTION", "successors": [name], "date": "2024-01-01"}
        lines += [record("deprecate", name="cpe:/a:v:q", **corrected)]
        lines += [record(do, name="cpe:/a:v:q") for do in ("chain", "show")]
        lines += [record("chain", name=f"{name}~")]
        note = '{"comment":"","date":"2024-01-01","kind":"DEPRECATION"}'
        answers = [f"show {written} absent", f"lookup {written} active"]
        answers += [f'show {{"deprecation":null,"name":"{in_json}",{PROVENANCE},"title":""}}']
        answers += [f"search {fs('a', 'v', '*')} 1", f"entry {written} active"]
        answers += [f"chain {other} 2 1", f"step {written} active", f"step {other} NAME_CORRECTION", f"end {written}"]
        answers += [
            f'show {{"deprecation":{{"kind":"NAME_CORRECTION","successors":["{in_json}"]}},"name":"{other}",'
            f'"provenance":{{"authority":"","changes":[{note}],"submitter":""}},"title":""}}'
        ]
        answers += [f"chain {longer} 0 1", f"end {longer}"]
        given = self.file("long.jsonl", encoded(lines))
        self.answers("names that are longer when they are written: resolve", given, encoded(answers), 0, "resolve")


class Searches(OwnCase):
    """Searches, those for active entries alone, and questions for items find what comparisons with all names find.

    Each fifth name is deprecated. Items are those whose product begins with the letter a, so that all items with a text
    begin with a body that is asked for; two more, of any product and of none; and some that are known in part.
    """

    def names(self):
        """Names of products of one to five characters out of four, in two versions, of three vendors in turn.

        A capital letter and a quoted asterisk are among them.
        """
        pieces = ("a", "B", "7", "\\*")
        bodies = ["".join(one) for length in range(1, 6) for one in itertools.product(pieces, repeat=length)]
        vendors = itertools.cycle(("nova", "zeta", "acme"))
        return [fs("a", next(vendors), body, version) for body in bodies for version in "12"]

    def asked(self):
        """Names that ask for products of every shape; a third of them ask for one version.

        The products are ANY, NA, and bodies between each two edges. Capital letters and quoted asterisks are among
        them, and one body that is longer than every product.
        """
        bodies = "a B 7 \\* ab bA a7 \\*\\* 7b aba b\\*a ababab abab B7A7 \\*a\\*b bbbb ababa a.a".split()
        edges = ("", "*", "?", "??")
        products = ["*", "-", *(f"{lead}{body}{trail}" for body in bodies for lead in edges for trail in edges)]
        return [fs("a", "*", product, "*" if n % 3 else "2") for n, product in enumerate(products, 1)]

    def items(self, names):
        more = "acme:*:2 nova:-:2 acme:a*:2 acme:?b:2 nova:*a7*:1 n*:ab:2 zeta:ab:?1 zeta:aB7:2* zeta:\\*\\*:2?".split()
        of_a = [name for name in names if name.split(":")[4].startswith("a")]
        return [*of_a, *(fs("a", *one.split(":")) for one in more)]

    def relations(self, asked, kept):
        """For each question the relation of its name with each kept name; MAYBE if the name may cover it."""
        run = self.run_cpe(["compare"], encoded(f"{one} {other}" for one in asked for other in kept))
        lines = run.output.decode().splitlines()
        self.assertEqual((run.status, run.said, len(lines)), (0, b"", len(asked) * len(kept)))
        relations = []
        for line in lines:
            is_open = " UNDEFINED" in line and " SUBSET" not in line and " DISJOINT" not in line
            relations.append("MAYBE" if is_open else line.partition(" ")[0])
        return [relations[at : at + len(kept)] for at in range(0, len(relations), len(kept))]

    def found(self, relations, rows):
        """Of these rows the ones that a question finds, and the names that it may cover."""
        finds = [row for relation, row in zip(relations, rows) if relation in ("EQUAL", "SUPERSET")]
        return finds, [row.split(" ")[1] for relation, row in zip(relations, rows) if relation == "MAYBE"]

    def answers_by_comparison(self, word, asked, relations, rows):
        for name, related in zip(asked, relations):
            finds, perhaps = self.found(related, rows)
            yield f"{word} {name.lower()} {len(finds)}"
            yield from finds
            yield from (f"maybe {one}" for one in perhaps)

    def questions(self, names, items, asked):
        yield from (record("entry", name=name) for name in names)
        yield from (record("item", name=name) for name in items)
        yield from (record("deprecate", name=name, kind="NAME_REMOVAL", date="2024-01-01") for name in names[4::5])
        yield from (record("search", name=name) for name in asked)
        yield from (record("search", name=name, active=True) for name in asked)
        yield from (record("items", name=name) for name in asked)

    def test_searches_find_what_comparisons_with_all_names_find(self):
        with self.subTest("searches and items beside comparisons with all names"):
            names, asked = self.names(), self.asked()
            items = self.items(names)
            states = ["active" if n % 5 else "NAME_REMOVAL" for n, _ in enumerate(names, 1)]
            entries = [f"entry {name.lower()} {state}" for name, state in zip(names, states)]
            related = self.relations(asked, names)
            expected = [*self.answers_by_comparison("search", asked, related, entries)]
            active = [[one if state == "active" else "" for one, state in zip(row, states)] for row in related]
            expected += self.answers_by_comparison("search", asked, active, entries)
            rows = [f"item {name.lower()}" for name in items]
            expected += self.answers_by_comparison("items", asked, self.relations(asked, items), rows)
            run = self.run_cpe(["resolve"], encoded(self.questions(names, items, asked)))
            self.judge(run, 0, encoded(expected))


if __name__ == "__main__":
    unittest.main()
