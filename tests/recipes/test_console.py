"""The messages and the output of recipes, and how they end."""
import os
import re
import signal
import subprocess
import sys
import tempfile
import unittest
from pathlib import Path
from unittest import mock

from recipe_case import ENDING, RECIPES, obey_signals

from cpe_recipes import console

# A recipe in a process of its own, with the body of its function `run`.
FRAME = "import sys\nsys.path.insert(0, {path!r})\nfrom cpe_recipes.console import *\ndef run(words):\n{body}\nmain(run, 'it.sh', sys.argv[1:])\n"


def recipe(body, **options):
    lines = "\n".join(f"    {line}" for line in body.splitlines())
    text = FRAME.format(path=str(RECIPES), body=lines)
    return subprocess.run([sys.executable, "-B", "-c", text], capture_output=True, text=True, **options)


class Lines(unittest.TestCase):
    def setUp(self):
        self.file = tempfile.TemporaryFile()
        self.addCleanup(self.file.close)

    def told(self):
        self.file.seek(0)
        return self.file.read().decode()

    def test_left_out_gives_status_one_and_a_remark_none(self):
        here = console.Messages(self.file.fileno())
        here.remark("nothing is lost")
        self.assertEqual(here.status(), 0)
        here.leave_out("CVE-1", "rejected")
        self.assertEqual(here.status(), 1)
        self.assertEqual((here.left, here.remarks), (1, 1))
        self.assertEqual(self.told(), "remark nothing is lost\nleft out CVE-1: rejected\n")

    def test_of_lines_that_are_alike_some_are_told_and_the_others_counted(self):
        here = console.Messages(self.file.fileno(), most_alike=2)
        for number in range(5):
            here.leave_out(f"CVE-{number}", "no configurations {}")
            here.remark("rejected", f"CVE-1{number}")
        here.leave_out("CVE-9", "exists")
        here.report_others()
        here.report_others()
        wanted = ["left out CVE-0: no configurations {}", "remark CVE-10: rejected", "left out CVE-1: no configurations {}", "remark CVE-11: rejected"]
        wanted += ["left out CVE-9: exists", "left out 3 more: no configurations {}", "remark 3 more: rejected"]
        self.assertEqual(self.told().splitlines(), wanted)
        self.assertEqual((here.left, here.remarks, here.status()), (6, 5, 1))

    def test_all_that_was_left_out_is_noted_where_some_is_told(self):
        here = console.RecordedMessages(self.file.fileno(), most_alike=1)
        here.remark("rejected", "CVE-0")
        for id in ("CVE-1", "CVE-2"):
            here.leave_out(id, "no configurations")
        self.assertEqual(here.noted, [("CVE-1", "no configurations", ""), ("CVE-2", "no configurations", "")])
        self.assertEqual((here.left, self.told()), (2, "remark CVE-0: rejected\nleft out CVE-1: no configurations\n"))

    def test_a_line_stays_one_line_and_no_terminal_obeys_it(self):
        console.Messages(self.file.fileno()).leave_out("a\nb", "\x1b[2J \u202e \U000e0001 “c”")
        self.assertEqual(self.told(), "left out a\\u000ab: \\u001b[2J \\u202e \\U000e0001 “c”\n")

    def test_what_a_message_quotes_is_cut_at_200_bytes(self):
        here = console.Messages(self.file.fileno())
        here.leave_out("C" * 300, f"name name 9: {'n' * 201}: the check {'k' * 200} is in its place", "product 1 of it.json")
        here.remark("ü" * 101, "CVE-1")
        wanted = f"left out {'C' * 200}..., product 1 of it.json: name name 9: {'n' * 200}...: the check {'k' * 200} is in its place\n"
        self.assertEqual(self.told(), f"{wanted}remark CVE-1: {'ü' * 100}...\n")

    def test_a_quotation_is_cut_between_characters(self):
        self.assertEqual(console.shorten("a" * 200), "a" * 200)
        self.assertEqual(console.shorten("a" * 199 + "ü"), "a" * 199 + "...")
        self.assertEqual(console.shorten("\ud800" * 100), console.shorten("\\ud800" * 100))
        self.assertEqual((console.shorten(7), console.shorten({"a": 1})), ("7", "{'a': 1}"))

    def test_output_is_written_at_its_end_alone(self):
        output = console.Output(self.file.fileno())
        output.line("one")
        output.lines(["two", "three"])
        self.assertEqual(self.told(), "")
        output.end()
        self.assertEqual(self.told(), "one\ntwo\nthree\n")


class Ends(unittest.TestCase):
    def test_fatal_is_one_sentence_and_nothing_is_written(self):
        run = recipe("output = Output()\noutput.line('a row')\nraise Fatal('there is\\nno cpe')")
        self.assertEqual((run.returncode, run.stdout, run.stderr), (2, "", "it.sh: there is\\u000ano cpe\n"))

    def test_the_reason_of_no_result_is_cut_where_it_quotes(self):
        run = recipe(f"raise Fatal('{'x' * 70000} is no name')")
        self.assertEqual((run.returncode, run.stderr), (2, f"it.sh: {'x' * 200}... is no name\n"))

    def test_a_fault_of_the_recipe_is_no_result(self):
        for body, fault in (("return {}['a\\nb']", "KeyError 'a\\nb'"), ("raise OSError(5, 'no luck')", "OSError [Errno 5] no luck")):
            run = recipe(body)
            wanted = rf"it\.sh: there is no result, since the recipe has a fault in <string> line 5: {re.escape(fault)}; CPE_TRACEBACK=1 shows more\n"
            self.assertEqual((run.returncode, run.stdout), (2, ""))
            self.assertRegex(run.stderr, f"^{wanted}$")
            told = recipe(body, env={**os.environ, "CPE_TRACEBACK": "1"})
            self.assertEqual(told.returncode, 2)
            self.assertRegex(told.stderr, f"^Traceback (.|\n)*\n{wanted}$")

    def test_a_python_that_is_too_old_is_told(self):
        text = f"import sys\nsys.version_info, sys.version = (3, 10, 4), '3.10.4 (main)'\nsys.path.insert(0, {str(RECIPES)!r})\nimport cpe_recipes.console"
        run = subprocess.run([sys.executable, "-B", "-c", text], capture_output=True, text=True)
        self.assertEqual((run.returncode, run.stdout), (2, ""))
        self.assertEqual(run.stderr, "-c: this python3 is 3.10.4, and the recipes need 3.11 or newer\n")

    def test_help_is_what_the_module_says_of_itself(self):
        for entry in ("scan.py", "decide.py"):
            run = subprocess.run([sys.executable, str(RECIPES / entry), "--help"], capture_output=True, text=True)
            self.assertEqual((run.returncode, run.stderr), (0, ""))
            self.assertIn(f"    python3 {entry} --", run.stdout)

    @unittest.skipUnless(os.path.exists("/dev/full"), "there is no /dev/full")
    def test_a_full_disk_is_fatal(self):
        with open("/dev/full", "w") as full:
            text = FRAME.format(path=str(RECIPES), body="    it = Output()\n    it.line('a')\n    it.end()\n    return 0")
            run = subprocess.run([sys.executable, "-B", "-c", text], stdout=full, stderr=subprocess.PIPE, text=True)
        self.assertEqual(run.returncode, 2)
        self.assertEqual(run.stderr, "it.sh: the output could not be written: No space left on device\n")

    @unittest.skipUnless(os.path.exists("/dev/full"), "there is no /dev/full")
    def test_what_was_left_out_and_can_not_be_said_is_fatal(self):
        with open("/dev/full", "w") as full:
            text = FRAME.format(path=str(RECIPES), body="    it = Messages()\n    it.leave_out('a', 'b')\n    return it.status()")
            run = subprocess.run([sys.executable, "-B", "-c", text], stderr=full)
        self.assertEqual(run.returncode, 2)

    def test_a_pipe_that_nobody_reads_is_fatal(self):
        read, write = os.pipe()
        os.close(read)
        with self.assertRaises(console.Fatal):
            output = console.Output(write)
            output.line("a")
            output.end()
        os.close(write)

    def test_temporary_files_go_with_a_signal(self):
        body = "with temporary_folder() as it:\n    (it / 'file').write_text('a')\n    print(it, flush=True)\n    os.kill(os.getpid(), {})\nreturn 0"
        for number in ENDING:
            run = recipe(body.format(int(number)), preexec_fn=obey_signals)
            folder = run.stdout.strip()
            self.assertEqual((run.returncode, os.path.isabs(folder), os.path.exists(folder)), (130, True, False))

    def test_a_signal_that_is_let_pass_from_the_start_passes(self):
        for number in ENDING:
            run = recipe(f"os.kill(os.getpid(), {int(number)})\nreturn 0", preexec_fn=lambda: signal.signal(number, signal.SIG_IGN))
            self.assertEqual((run.returncode, run.stderr), (0, ""))

    def test_a_full_folder_for_temporary_files_is_fatal(self):
        with mock.patch("tempfile.TemporaryDirectory", side_effect=OSError(28, "No space left on device")):
            with self.assertRaises(console.Fatal), console.temporary_folder():
                self.fail("there is a room")


class Files(unittest.TestCase):
    def test_a_file_is_whole_or_as_it_was(self):
        with tempfile.TemporaryDirectory() as folder:
            path = f"{folder}/rows"
            console.write_file(path, ["one", "two"])
            self.assertEqual(Path(path).read_text(), "one\ntwo\n")

            def torn():
                yield "three"
                raise console.Fatal("no more")

            with self.assertRaises(console.Fatal):
                console.write_file(path, torn())
            self.assertEqual(Path(path).read_text(), "one\ntwo\n")
            with self.assertRaises(console.Fatal):
                console.write_file(f"{folder}/none/rows", ["one"])
            self.assertEqual(os.listdir(folder), ["rows"])

    @unittest.skipUnless(os.path.exists("/dev/full"), "there is no /dev/full")
    def test_a_device_stays_and_its_faults_are_fatal(self):
        with self.assertRaises(console.Fatal):
            console.write_file("/dev/full", ["one"])
        console.write_file("/dev/null", ["one"])
        self.assertFalse(Path("/dev/null").is_file())


if __name__ == "__main__":
    unittest.main()
