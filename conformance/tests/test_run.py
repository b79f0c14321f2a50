"""Tests of the runner: what it makes of adapters that answer, refuse, die, hang, and write nonsense."""

import json
import os
import shlex
import signal
import subprocess
import sys
import tempfile
import time
import unittest
from pathlib import Path
from xml.etree import ElementTree

from conformance import CASES, HERE, SUITE

PICKED = [it for it in CASES if it["id"].startswith("fs-read-example")]
HEAD = """
import json, os, sys, time
def right(case): return json.loads(os.environ["EXPECTED"])[case["id"]]
def write(case, result): print(json.dumps({"id": case["id"], "result": result}), flush=True)
for number, line in enumerate(sys.stdin):
    case = json.loads(line)
"""


class Runner(unittest.TestCase):
    def setUp(self):
        folder = tempfile.TemporaryDirectory()
        self.addCleanup(folder.cleanup)
        self.folder = Path(folder.name)
        self.cases = self.write_cases(PICKED)

    def write_cases(self, cases):
        path = self.folder / "cases.jsonl"
        path.write_text("".join(json.dumps(it) + "\n" for it in cases))
        return path

    def adapter(self, body, name="adapter.py"):
        """The command of an adapter whose loop has these lines."""
        path = self.folder / name
        path.write_text(HEAD + "".join(f"    {line}\n" for line in body.splitlines()))
        return shlex.join([sys.executable, "-B", str(path)])

    def run_it(self, *words, cases=None, **more):
        expected = {it["id"]: it["expect"] for it in cases or PICKED}
        command = [sys.executable, "-B", str(SUITE / "run.py"), *map(str, words), "--cases", str(self.cases)]
        given = {**os.environ, "EXPECTED": json.dumps(expected), "MARK": str(self.folder / "mark")}
        return subprocess.run(command, capture_output=True, text=True, env=given, **more)

    def is_over(self, process):
        """Whether a process ends, within seconds."""
        for _ in range(100):
            try:
                if Path(f"/proc/{process}/stat").read_text().rpartition(")")[2].split()[0] == "Z":
                    return True
            except OSError:
                return True
            time.sleep(0.05)
        return False

    def counts(self, said):
        """The row of all sections: cases, passed, failed, refused, not offered, died, too slow, not run."""
        row = next(it for it in said.stdout.splitlines() if it.startswith("all "))
        return [int(it) for it in row.split()[1:]]

    def test_all_pass(self):
        said = self.run_it(self.adapter("write(case, right(case))"))
        self.assertEqual((said.returncode, self.counts(said)), (0, [4, 4, 0, 0, 0, 0, 0]))
        self.assertEqual(said.stderr, "")

    def test_a_wrong_answer_fails_and_is_shown(self):
        said = self.run_it(self.adapter('write(case, {"name": {}} if number == 1 else right(case))'))
        self.assertEqual((said.returncode, self.counts(said)), (1, [4, 3, 1, 0, 0, 0, 0]))
        self.assertIn(f"FAILED {PICKED[1]['id']} (NIST IR 7695, 6.2.3)", said.stdout)
        self.assertIn('answered  {"name": {}}', said.stdout)

    def test_answers_of_other_kinds_fail(self):
        for answer in ("None", "[]", '"x"', "{}", '{"name": None}', '{"refused": False}', '{"offered": True}'):
            said = self.run_it(self.adapter(f"write(case, {answer})"))
            self.assertEqual((said.returncode, self.counts(said)), (1, [4, 0, 4, 0, 0, 0, 0]), answer)

    def test_a_refused_name_is_no_failure_but_does_not_pass(self):
        said = self.run_it(self.adapter('write(case, {"refused": True})'))
        self.assertEqual((said.returncode, self.counts(said)), (1, [4, 0, 0, 4, 0, 0, 0]))

    def test_what_is_not_offered_does_not_count(self):
        said = self.run_it(self.adapter('write(case, {"offered": False})'))
        self.assertEqual((said.returncode, self.counts(said)), (0, [4, 0, 0, 0, 4, 0, 0]))

    def test_an_adapter_that_dies_is_blamed_for_one_case(self):
        dies = f"if case['id'] == {PICKED[1]['id']!r}: sys.exit('it is over')\nwrite(case, right(case))"
        said = self.run_it(self.adapter(dies))
        self.assertEqual((said.returncode, self.counts(said)), (1, [4, 3, 0, 0, 0, 1, 0]))
        self.assertIn(f"DIED {PICKED[1]['id']}", said.stdout)
        self.assertIn("it ended with status 1: it is over", said.stdout)

    def test_an_adapter_that_is_killed_is_blamed_for_one_case(self):
        dies = f"if case['id'] == {PICKED[2]['id']!r}: os.kill(os.getpid(), 9)\nwrite(case, right(case))"
        said = self.run_it(self.adapter(dies))
        self.assertEqual((said.returncode, self.counts(said)), (1, [4, 3, 0, 0, 0, 1, 0]))
        self.assertIn("it ended with SIGKILL", said.stdout)

    def test_an_adapter_that_ends_after_each_answer_is_blamed_for_none_it_answered(self):
        said = self.run_it(self.adapter("write(case, right(case)); sys.exit()"))
        self.assertEqual(self.counts(said)[1] + self.counts(said)[5], 4)
        self.assertGreaterEqual(self.counts(said)[1], 2)

    def test_an_adapter_that_hangs_is_too_slow_once(self):
        hangs = f"if case['id'] == {PICKED[1]['id']!r}: time.sleep(60)\nwrite(case, right(case))"
        began = time.monotonic()
        said = self.run_it(self.adapter(hangs), "--limit", "5")
        self.assertEqual((said.returncode, self.counts(said)), (1, [4, 3, 0, 0, 0, 0, 1]))
        self.assertLess(time.monotonic() - began, 50)
        self.assertIn("no answer within 5 s; does it flush each line?", said.stdout)

    def test_what_an_adapter_started_ends_with_it(self):
        starts = 'import subprocess\nchild = subprocess.Popen(["sleep", "60"])\nopen(os.environ["MARK"], "w").write(str(child.pid))\ntime.sleep(60)'
        self.cases = self.write_cases(PICKED[:1])
        self.run_it(self.adapter(starts), "--limit", "5")
        child = int((self.folder / "mark").read_text())
        self.assertTrue(self.is_over(child))

    def test_nothing_that_an_adapter_writes_moves_a_cursor(self):
        said = self.run_it(self.adapter("print('\\x1b[2J', flush=True)"))
        self.assertNotIn("\x1b", said.stdout)
        said = self.run_it(self.adapter("os.write(2, b'\\x1b[2J'); sys.exit(1)"))
        self.assertNotIn("\x1b", said.stdout)
        self.assertIn("it ended with status 1: \N{REPLACEMENT CHARACTER}[2J", said.stdout)

    def test_nonsense_counts_as_died(self):
        for line in (
            "print('x', flush=True)",
            "print(json.dumps({'id': 'x', 'result': {}}), flush=True)",
            "print('[' * 100000, flush=True)",
            "print(flush=True)",
        ):
            said = self.run_it(self.adapter(line))
            self.assertEqual((said.returncode, self.counts(said)), (1, [4, 0, 0, 0, 0, 4, 0]), line)
            self.assertIn("it wrote no result of this case", said.stdout)

    def test_bytes_without_end_count_as_died(self):
        said = self.run_it(self.adapter("while True: sys.stdout.write('x' * 65536)"))
        self.assertEqual((said.returncode, self.counts(said)), (1, [4, 0, 0, 0, 0, 4, 0]))
        self.assertIn("it wrote over 1048576 bytes", said.stdout)

    def test_an_adapter_that_always_dies_is_given_up(self):
        cases = [it for it in CASES if it["kind"] == "relate-values"][:40]
        self.cases = self.write_cases(cases)
        said = self.run_it("false", "--first", "40", cases=cases)
        self.assertEqual((said.returncode, self.counts(said)), (1, [40, 0, 0, 0, 0, 25, 0, 15]))
        self.assertIn("it was lost at 25 cases in a row", said.stdout)

    def test_an_adapter_that_dies_at_each_second_case_is_not_given_up(self):
        cases = [it for it in CASES if it["kind"] == "relate-values"][:60]
        self.cases = self.write_cases(cases)
        said = self.run_it(self.adapter("if number: sys.exit(1)\nwrite(case, right(case))"), cases=cases)
        self.assertEqual((said.returncode, self.counts(said)), (1, [60, 30, 0, 0, 0, 30, 0]))

    def test_places_are_an_extra(self):
        cases = [it for it in CASES if it["id"].startswith("fs-refuse-special")][:5]
        self.cases = self.write_cases(cases)
        far = self.adapter('write(case, {"refused": True, "place": 99})')
        said = self.run_it(far, cases=cases)
        self.assertEqual((said.returncode, self.counts(said)[1]), (0, 5))
        self.assertIn("places of refusals, an extra: 0 as expected, 5 others", said.stdout)
        self.assertEqual(self.run_it(far, "--places", cases=cases).returncode, 1)
        self.assertEqual(self.run_it(self.adapter("write(case, right(case))"), "--places", cases=cases).returncode, 0)

    def test_own_rules_count_only_if_asked_for(self):
        own = next(it for it in CASES if it["own"])
        cases = [*PICKED, own]
        self.cases = self.write_cases(cases)
        wrong = self.adapter(f"write(case, {{}} if case['id'] == {own['id']!r} else right(case))")
        said = self.run_it(wrong, cases=cases)
        self.assertEqual((said.returncode, self.counts(said)[0]), (0, 4))
        self.assertIn("left out: 1 cases of rules that are cpe's own", said.stdout)
        said = self.run_it(wrong, "--own", cases=cases)
        self.assertEqual((said.returncode, self.counts(said)[:3]), (1, [5, 4, 1]))
        self.assertIn(f"{own['section']} (own)", said.stdout)

    def test_lists_without_order(self):
        case = next(it for it in CASES if it["kind"] == "chain" and len(it["expect"]["ends"]) > 1)
        self.cases = self.write_cases([case])
        turned = self.adapter('write(case, {"ends": right(case)["ends"][::-1]})')
        self.assertEqual(self.run_it(turned, cases=[case]).returncode, 0)
        twice = self.adapter('write(case, {"ends": right(case)["ends"] * 2})')
        self.assertEqual(self.run_it(twice, cases=[case]).returncode, 1)

    def test_true_is_not_one(self):
        case = next(it for it in CASES if it["kind"] == "identifier" and it["expect"]["accepted"])
        self.cases = self.write_cases([case])
        self.assertEqual(self.run_it(self.adapter('write(case, {"accepted": 1})'), cases=[case]).returncode, 1)

    def test_words_choose_cases(self):
        right = self.adapter("write(case, right(case))")
        self.assertEqual(self.counts(self.run_it(right, "--id", PICKED[0]["id"]))[0], 1)
        self.assertEqual(self.counts(self.run_it(right, "--id", "fs-read-example", "--section", "6.2.3"))[0], 4)
        for words in (("--report", "7698"), ("--kind", "bind-fs"), ("--section", "6.2"), ("--id", "fs-read")):
            said = self.run_it(right, *words)
            self.assertEqual(said.returncode, 5, words)
            self.assertIn("no case is chosen", said.stdout)

    def test_wrong_words(self):
        right = self.adapter("write(case, right(case))")
        for words in (
            (),
            ("no-such-program",),
            ("'",),
            ("",),
            (right, "--limit", "0"),
            (right, "--limit", "inf"),
            (right, "--limit", "nan"),
            (right, "--limit", "x"),
            (right, "--first", "-1"),
            (right, "--report", "1"),
        ):
            said = self.run_it(*words)
            self.assertEqual(said.returncode, 4, words)
            self.assertIn("usage", said.stderr)
        self.cases = self.folder / "none.jsonl"
        self.assertEqual(self.run_it(right).returncode, 4)
        for text in ("{\n", "[]\n", '{"id": "x-001"}\n'):
            self.cases.write_text(text)
            self.assertEqual(self.run_it(right).returncode, 4, text)

    def test_several_adapters(self):
        right, wrong = self.adapter("write(case, right(case))"), self.adapter("write(case, {})", "wrong.py")
        self.assertEqual(self.run_it(right, right).returncode, 0)
        said = self.run_it(right, wrong)
        self.assertEqual(said.returncode, 1)
        self.assertEqual(said.stdout.count("REPORT"), 2)

    def test_an_adapter_that_reads_nothing_is_too_slow(self):
        long = PICKED[0] | {"input": {"text": "x" * 1_000_000}}
        self.cases = self.write_cases([long])
        said = self.run_it("sleep 60", "--limit", "1", cases=[long])
        self.assertEqual((said.returncode, self.counts(said)), (1, [1, 0, 0, 0, 0, 0, 1]))

    def test_an_adapter_that_closes_its_output_died(self):
        self.cases = self.write_cases(PICKED[:1])
        said = self.run_it(self.adapter("os.close(1); time.sleep(60)"), "--limit", "5")
        self.assertEqual((said.returncode, self.counts(said)), (1, [1, 0, 0, 0, 0, 1, 0]))
        self.assertIn("it closed its input or its output", said.stdout)

    def test_two_lines_for_a_case_are_not_taken_for_the_next(self):
        twice = f"write(case, right(case))\nif case['id'] == {PICKED[0]['id']!r}: write(case, right(case))"
        said = self.run_it(self.adapter(twice))
        self.assertEqual((said.returncode, self.counts(said)), (1, [4, 3, 0, 0, 0, 1, 0]))

    def test_an_interrupt_ends_it_with_status_2_and_its_adapter(self):
        hangs = self.adapter('open(os.environ["MARK"], "w").write(f"{os.getpid()}\\n")\ntime.sleep(60)')
        command = [sys.executable, "-B", str(SUITE / "run.py"), hangs, "--cases", str(self.cases), "--limit", "50"]
        mark = self.folder / "mark"
        for number in (signal.SIGINT, signal.SIGTERM):
            # (a process that a shell runs in the background passes over SIGINT)
            obeys = lambda: signal.signal(signal.SIGINT, signal.default_int_handler)  # noqa: E731
            child = subprocess.Popen(command, stdout=subprocess.DEVNULL, env={**os.environ, "MARK": str(mark)}, preexec_fn=obeys)
            while not (mark.exists() and mark.read_text().endswith("\n")):
                time.sleep(0.05)
            adapter = int(mark.read_text())
            mark.unlink()
            child.send_signal(number)
            self.assertEqual(child.wait(30), 2)
            self.assertTrue(self.is_over(adapter), number)

    def test_junit(self):
        odd = [PICKED[0], next(it for it in CASES if "\x01" in it["input"].get("text", "")), *PICKED[1:]]
        self.cases = self.write_cases(odd)
        path = self.folder / "results.xml"
        answers = dict(
            zip([it["id"] for it in odd], [{"offered": False}, {"name": {}}, None, odd[3]["expect"], {"refused": True}], strict=True)
        )
        body = f"result = {answers}[case['id']]\nif not result: os.write(2, b'\\x00\\xff'); sys.exit(3)\nwrite(case, result)"
        self.run_it(self.adapter(body), "--junit", path, cases=odd)
        suite = ElementTree.parse(path).getroot()[0]
        self.assertEqual([suite.get(it) for it in ("tests", "failures", "errors", "skipped")], ["5", "2", "1", "1"])
        self.assertEqual(suite[1].get("classname"), "7695 6.2.1")
        self.assertEqual([case[0].tag if len(case) else None for case in suite], ["skipped", "failure", "error", None, "failure"])

    def test_a_file_that_can_not_be_written(self):
        for path in (self.folder / "none" / "results.xml", Path("/dev/full")):
            said = self.run_it(self.adapter("write(case, right(case))"), "--junit", path)
            self.assertEqual(said.returncode, 3)
            self.assertIn("this program failed", said.stderr)

    def test_its_own_output_that_can_not_be_written(self):
        command = [sys.executable, "-B", str(SUITE / "run.py"), self.adapter("write(case, {})"), "--cases", str(self.cases)]
        with open("/dev/full", "wb") as full:
            said = subprocess.run(command, stdout=full, stderr=subprocess.PIPE, text=True)
        self.assertEqual(said.returncode, 3)

    def test_the_example_of_the_page(self):
        """The adapter of README.md is run as it is there, beside a model in place of one's own code."""
        page = (SUITE / "README.md").read_text(encoding="utf-8")
        example = page.split("```python\n")[1].split("```")[0]
        (self.folder / "mine.py").write_text(example)
        model = (HERE / "model.py").read_text(encoding="utf-8")
        (self.folder / "my_cpe.py").write_text(model + "\n\ndef bind(name):\n    return bind_fs(read(name))\n")
        command = [sys.executable, "-B", str(SUITE / "run.py"), shlex.join([sys.executable, "-B", str(self.folder / "mine.py")])]
        said = subprocess.run(command, capture_output=True, text=True)
        self.assertEqual(said.returncode, 0, said.stdout + said.stderr)
        total, passed, _, _, absent, *_ = self.counts(said)
        self.assertEqual(passed + absent, total)
        self.assertGreater(passed, 500)


if __name__ == "__main__":
    unittest.main()
