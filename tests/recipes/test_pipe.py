"""The client over a pipe: many lines, a reader that stalls, lines that are refused, and programs that end early."""
import itertools
import json
import subprocess
import sys
import time
import unittest

from recipe_case import CPE, ROOT, RecipeCase, needs_cpe

import pipe

MANY = 100_000


def entry(number):
    return json.dumps({"do": "entry", "name": f"cpe:/a:v:p{number // 100}:{number % 100}"})


def lookup(number):
    return json.dumps({"do": "lookup", "name": f"cpe:/a:v:p{number // 100}:{number % 100}"})


@needs_cpe
class Pipes(RecipeCase):
    def client(self, *words, **how):
        client = pipe.Client(*words, **{"program": CPE, **how})
        self.addCleanup(client.__exit__)
        return client

    def test_many_names_have_an_answer_each(self):
        names = (ROOT / "examples/names.txt").read_text(encoding="utf-8").splitlines()
        texts = (ROOT / "examples/names.out").read_text(encoding="utf-8").splitlines()
        client = self.client("unbind")
        for place, answer in enumerate(client.ask_all(itertools.islice(itertools.cycle(names), MANY))):
            self.assertEqual(answer, (place + 1, None, [texts[place % len(texts)]]))
        self.assertEqual((place + 1, client.end()), (MANY, ([], 0)))

    def test_many_records_are_accepted_and_answered(self):
        client = self.client("resolve")
        half = MANY // 2
        lines = (entry(n // 2) if n % 2 == 0 else lookup(n // 2) for n in range(2 * half))
        for place, answer in enumerate(client.ask_all(lines)):
            found = answer.number, answer.refusal, len(answer.lines)
            self.assertEqual(found, (2 * place + 1, None, place % 2))
        self.assertEqual((place + 1, client.end()), (2 * half, ([], 0)))

    def test_a_reader_that_stalls_loses_nothing(self):
        # (all lines are sent before the first answer is read, and each pipe takes a thousandth of either)
        client = self.client("unbind")
        name, text = "cpe:2.3:a:v:" + "p" * 900 + ":*" * 8, '"' + "p" * 900 + '"'
        answers = client.ask_all(itertools.repeat(name, MANY // 2), ahead=MANY)
        first = next(answers)
        self.assertIn(text, first.lines[0])
        time.sleep(0.5)
        self.assertEqual(sum(answer.lines == first.lines for answer in answers), MANY // 2 - 1)
        self.assertEqual(client.end(), ([], 0))

    def test_an_answer_of_many_lines_is_one_answer(self):
        client = self.client("resolve")
        self.assertEqual(sum(bool(answer.lines) for answer in client.ask_all(map(entry, range(20_000)))), 0)
        search = '{"do":"search","name":"cpe:/a:v"}'
        for answer in client.ask_all([search] * 5):
            self.assertEqual((answer.refusal, len(answer.lines)), (None, 20_001))

    def test_a_record_that_is_refused_is_known_by_its_line(self):
        client = self.client("resolve")
        lines = [entry(n) for n in range(1000)]
        lines[500:500] = [entry(7), "no record", '{"do":"entry"}']
        answers = list(client.ask_all(lines))
        refused = {place: answer.refusal for place, answer in enumerate(answers) if answer.refusal is not None}
        self.assertEqual(refused, {500: "exists", 501: "json", 502: "member name"})
        self.assertEqual(answers[501], (1003, "json", ["refused 1003 json"]))
        self.assertEqual(client.ask(lookup(999)).lines, ["lookup cpe:2.3:a:v:p9:99:*:*:*:*:*:*:* active"])
        self.assertEqual(client.end(), ([], 1))

    def test_answers_that_are_not_read_are_passed_over(self):
        client = self.client("resolve")
        for answer in client.ask_all(map(entry, range(5000)), ahead=50):
            if answer.number == 201:
                break
        # (151 lines were sent, of which the last has entry 150)
        states = [client.ask(lookup(number)).lines[0].split()[-1] for number in (150, 151)]
        self.assertEqual((states, client.end()), (["active", "absent"], ([], 0)))

    def test_changes_belong_to_the_edit_that_made_them(self):
        client = self.client("watch")
        statement = '{"do":"statement","id":"s","test":{"op":"OR","of":[{"fact":"cpe:/a:v"}]}}'
        item = '{"do":"item","name":"cpe:/a:v:p:1"}'
        answers = [client.ask(line).lines for line in (statement, item, item, lookup(1))]
        wanted = [["changed 1 s none FALSE"], ["changed 3 s FALSE TRUE"], ["refused 5 exists"]]
        self.assertEqual(answers, [*wanted, ["lookup cpe:2.3:a:v:p0:1:*:*:*:*:*:*:* absent"]])

    def test_the_table_comes_at_the_end(self):
        client = self.client("evaluate")
        client.ask('{"do":"statement","id":"s","test":{"op":"OR","of":[{"fact":"cpe:/a:v"}]}}')
        self.assertEqual(client.end(), (["verdicts 1", "verdict s FALSE"], 0))

    def test_advisories_have_a_barrier_too(self):
        client = self.client("advise")
        item = '{"do":"item","name":"cpe:/a:v:p:1"}'
        self.assertEqual([client.ask(item)[1:], client.ask(item)[1:]], [(None, []), ("exists", ["refused 3 exists"])])

    def test_every_word_that_reads_lines_is_served(self):
        client = self.client("convert")
        self.assertIn('"do":"item"', client.ask('{"do":"item","name":"cpe:/a:v:p:1"}').lines[0])
        self.assertEqual((client.ask("x").refusal, client.end()), ("json", ([], 1)))
        client = self.client("cover")
        self.assertEqual([client.ask(line).refusal for line in ("cpe:/a:v", "cpe:/a:v:p", "-", "cpe:/a:w")], [None, None, "name 0", None])
        self.assertEqual(client.end(), (["cpe:2.3:a:v:*:*:*:*:*:*:*:*:*", "cpe:2.3:a:w:*:*:*:*:*:*:*:*:*"], 1))
        client = self.client("cover")
        answers = list(client.ask_all(f"cpe:/a:v:p{number}" for number in range(5000)))
        self.assertEqual({answer.refusal for answer in answers}, {None})
        lines, status = client.end()
        self.assertEqual((len(lines), status), (5000, 0))

    def test_certificates_come_at_the_end_and_are_checked(self):
        records = ['{"do":"item","name":"cpe:/a:v:p:1"}', '{"do":"statement","id":"s","test":{"op":"OR","of":[{"fact":"cpe:/a:v"}]}}']
        client = self.client("explain")
        self.assertEqual([client.ask(line).lines for line in records], [[], []])
        proofs, status = client.end()
        self.assertEqual((len(proofs), status), (1, 0))
        client = self.client("check")
        answers = [client.ask(line) for line in [*records, *proofs, proofs[0].replace('"TRUE"', '"FALSE"', 1)]]
        self.assertEqual([len(answer.lines) for answer in answers], [0, 0, 1, 1])
        self.assertEqual(answers[2].lines[0], "proof s holds")
        self.assertNotEqual(answers[3].lines, answers[2].lines)

    def test_a_snapshot_comes_at_the_end(self):
        client = self.client("save")
        with self.assertRaisesRegex(ValueError, "save answers no line"):
            client.ask(entry(1))
        for number in range(2000):
            client.send(entry(number))
        snapshot, status = client.end()
        self.assertEqual((snapshot[:8], status), (b"CPESNAP1", 0))

    def test_a_text_that_has_no_bytes_is_refused_and_nothing_stops(self):
        for word, reason in (("unbind", "name 0"), ("resolve", "json"), ("convert", "json"), ("cover", "name 0")):
            client = self.client(word)
            lines = ["\ud800", "cpe:/a:\udfff", "\udcff", "\U0001f600\ud83d"]
            self.assertEqual([answer.refusal is not None for answer in client.ask_all(lines)], [True] * 4, word)
            self.assertEqual(client.ask("\ud800").refusal, reason)

    def script(self, word, data):
        run = subprocess.run([sys.executable, str(ROOT / "recipes/pipe.py"), word], input=data, capture_output=True)
        return run.returncode, run.stdout, run.stderr

    def test_the_script_serves_what_is_no_text(self):
        data = b"cpe:/a:v\n\n\xed\xa0\x80\n\xff\r\n\ncpe:/a:w"
        status, told, said = self.script("unbind", data)
        lines = told.split(b"\n")
        self.assertEqual((status, said, len(lines)), (1, b"", 5))
        self.assertEqual([line.split(b"\t")[0] for line in lines], [b"1", b"2", b"3", b"4", b""])
        self.assertEqual(self.script("cover", b"cpe:/a:v\n"), (0, b"1\ncpe:2.3:a:v:*:*:*:*:*:*:*:*:*\n", b""))
        self.assertEqual(self.script("save", b"")[1][:8], b"CPESNAP1")
        status, told, said = self.script("bind", b"x\n")
        self.assertEqual((status, told, said.count(b"\n")), (2, b"", 1))

    def test_what_is_no_line_is_not_sent(self):
        client = self.client("unbind")
        for line in ("", "\r", "cpe:/a\ncpe:/a"):
            with self.subTest(line), self.assertRaises(ValueError):
                client.ask(line)
        self.assertEqual(client.ask(" ").refusal, "name 0")

    def test_a_word_that_is_none_is_told(self):
        for words in ([], ["drill", "8"], ["unbound"]):
            with self.subTest(words), self.assertRaisesRegex(ValueError, "no word that answers lines"):
                pipe.Client(*words, program=CPE)
        with self.assertRaisesRegex(EOFError, "ended with status 2 before it had answered line 1"):
            self.client("bind", "text").ask("cpe:/a")

    def test_a_program_that_ends_early_is_told(self):
        program = self.folder / "program"
        for end, status in (("exit 5", 5), ("kill -9 $$", -9), ("printf 'wfn:[cut off'; exit 4", 4)):
            program.write_text(f'#!/bin/sh\nread line\necho "wfn: $line"\n{end}\n', encoding="utf-8")
            program.chmod(0o755)
            answers = self.client("unbind", program=str(program)).ask_all(itertools.repeat("cpe:/a", MANY), ahead=MANY)
            with self.subTest(end), self.assertRaisesRegex(EOFError, f"status {status} before it had answered line 2"):
                self.assertEqual(next(answers), (1, None, ["wfn: cpe:/a"]))
                next(answers)

    def test_a_fault_of_who_gives_the_lines_is_told_there(self):
        def lines():
            yield "cpe:/a"
            raise OSError("the feed is gone")

        client = self.client("unbind")
        with self.assertRaisesRegex(OSError, "the feed is gone"):
            list(client.ask_all(lines()))
        client.__exit__()


if __name__ == "__main__":
    unittest.main()
