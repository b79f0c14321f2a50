"""Several processes read pages for a store: the store has the same bytes, and the messages are the same, whatever their
number; and one process is killed."""
import io
import json
import signal
import subprocess
import sys
import tarfile
import time
import unittest
from pathlib import Path
from unittest import mock

from drawn_feeds import Feeds
from recipe_case import RECIPES, RecipeCase, fs, needs_cpe
from stored_case import cve, page, product, ran
from test_portions import match

from cpe_recipes import store, workers
from cpe_recipes.console import Fatal
from cpe_recipes.store_file import FILE

# JSON that parsers may read differently, in place of a score, of a time and of a text; and texts that are no JSON.
ODD_VALUES = ["1e400", "-0", "-0.0", "1E2", "18446744073709551616", "-9223372036854775809", "0.1234567890123456789", '"\\ud800"', '"\\ud83d\\ude00"',
              '{"a":1,"a":2}', '"\\u0000\\u007f"', "[" * 400 + "]" * 400]
NO_JSON = ["NaN", "-Infinity", "01", "+1", "1.", ".5", '"\t"', '"\\x"', "[" * 200_000, "{'a':1}", "tru", '"\udcff"', "[1,]", ""]
# A process like the others, except that it is killed when it has read this many pages.
KILLED = """
import os, sys
sys.path.insert(0, sys.argv[1])
from cpe_recipes import page_readers
left, convert = [int(sys.argv[2])], page_readers.convert_page
def convert_or_die(page):
    left[0] -= 1
    if left[0] < 0:
        os.kill(os.getpid(), 9)
    return convert(page)
page_readers.convert_page = convert_or_die
page_readers.run([])
"""


@needs_cpe
class Jobs(RecipeCase):
    def add(self, jobs, *paths):
        """The status of a run that adds these, its output and messages, and the bytes of its store."""
        folder = self.folder / f"store-{jobs}"
        with mock.patch("cpe_recipes.store_writer._now", lambda: "2024-01-01T00:00:00+00:00"):
            found = ran(store.run, ["add", "--store", str(folder), "--jobs", str(jobs), *map(str, paths)])
        return *found, (folder / FILE).read_bytes()

    def is_the_same(self, *paths):
        """Checks that one process and three do the same with these, and returns what one does."""
        one = self.add(1, *paths)
        self.assertEqual(self.add(3, *paths), one)
        return one

    def test_drawn_feeds_day_by_day(self):
        feeds = Feeds(7)
        self.is_the_same(*(path for of_kind in feeds.whole(self.folder).values() for path in of_kind))
        for _ in range(3):
            self.is_the_same(*(path for of_kind in feeds.changed(self.folder).values() for path in of_kind))

    def archive(self, *members):
        data = io.BytesIO()
        with tarfile.open(fileobj=data, mode="w:gz") as archive:
            for name, text in members:
                info = tarfile.TarInfo(name)
                info.size = len(text)
                archive.addfile(info, io.BytesIO(text))
        return self.file("all.tar.gz", data.getvalue())

    def test_archives_copies_and_parts_that_can_not_be_read(self):
        texts = [json.dumps(page("vulnerabilities", cve(k, match(fs("v", f"p{k}"))))).encode() for k in range(6)]
        odd = json.dumps(page("vulnerabilities", cve(9, match(fs("v", "p"))), total=4) | {"startIndex": None}).encode()
        several = texts[3] + texts[4] + b" torn"
        members = [("a.json", texts[0]), ("b.json", b"<html>"), ("readme", b"x"), ("c.json", texts[1]), ("d.json", texts[0]), ("e.json", several), ("f.json", odd)]
        faulty = {"matchStrings": [{"matchString": {"matchCriteriaId": "K", "matches": 7}}]}
        paths = [self.file("d.json", page("products", product(fs("v", "p1")))), self.archive(*members), self.file("k.json", faulty), self.folder / "k.json"]
        paths += [self.file("g.json", texts[5]), self.file("cut.tar.gz", Path(paths[1]).read_bytes()[:-30]), self.file("again.json", texts[5])]
        status, written, said, _ = self.is_the_same(*paths)
        self.assertEqual((status, written), (1, "added 7 pages: 6 records new or later; 3 were there\n"))
        self.assertEqual(len(said), 6, said)
        self.is_the_same(*reversed(paths))

    def test_json_of_which_parsers_may_not_think_alike(self):
        paths = [self.file("d.json", page("products", product(fs("v", "p"))))]
        for number, value in enumerate([*ODD_VALUES, *NO_JSON]):
            text = json.dumps(page("vulnerabilities", cve(number, match(fs("v", "p"))), cve(100 + number, match(fs("v", "p")))))
            bad = text.replace('"2024-01-01T00:00:00.000"', value, 1).encode(errors="surrogateescape")
            paths.append(self.file(f"{number}.json", bad))
        status, written, said, _ = self.is_the_same(*paths)
        self.assertEqual((status, written), (1, f"added {1 + len(ODD_VALUES)} pages: {1 + 2 * len(ODD_VALUES)} records new or later\n"))
        self.assertEqual([line.split(":")[0] for line in said], [f"left out {number}.json" for number in range(len(ODD_VALUES), len(paths) - 1)])

    def test_a_process_that_is_killed(self):
        paths = [self.file(f"{k}.json", page("vulnerabilities", *(cve(10 * k + n, match(fs("v", f"p{n}"))) for n in range(9)))) for k in range(8)]
        paths.append(self.file("d.json", page("products", product(fs("v", "p1")))))
        for most in range(2):
            command = [sys.executable, "-BSc", KILLED, str(RECIPES), str(most)]
            words = ["--store", str(self.folder / f"killed-{most}")]
            with self.subTest(most), mock.patch.object(workers, "python_worker", lambda _: command), self.assertRaises(Fatal) as caught:
                ran(store.run, ["add", "--jobs", "2", *words, *paths])
            self.assertIn("a process that reads pages was ended by signal 9; the pages that were added before are kept", str(caught.exception))
            self.assertEqual(ran(store.run, ["check", *words])[:2], (0, f"{18 * most} records read again, 0 wrong\n"))
            written = ran(store.run, ["add", "--jobs", "2", *words, *paths])[1]
            there = f"; {2 * most} were there" if most else ""
            self.assertEqual(written, f"added {9 - 2 * most} pages: {73 - 18 * most} records new or later{there}\n")

    def test_what_the_others_do_if_the_first_is_killed(self):
        """They end, because they get no more input."""
        paths = [self.file(f"{k}.json", page("vulnerabilities", cve(k, match(fs("v", "p"))))) for k in range(4)]
        script = "import os, signal, sys; sys.path.insert(0, sys.argv.pop(1)); from cpe_recipes import page_readers, store, store_writer\n"
        script += "def put(*_):\n    print(*(one._run.pid for one in found), flush=True); os.kill(os.getpid(), signal.SIGKILL)\n"
        script += "found, begin = [], page_readers._ReaderProcess.__init__\n"
        script += "page_readers._ReaderProcess.__init__ = lambda one: (begin(one), found.append(one))[0]\nstore_writer.StoreWriter.put = put\nstore.run(sys.argv[1:])"
        command = [sys.executable, "-BSc", script, str(RECIPES), "add", "--jobs", "2", "--store", str(self.folder / "store"), *paths]
        run = subprocess.run(command, capture_output=True, text=True, check=False)
        self.assertEqual((run.returncode, run.stderr), (-signal.SIGKILL, ""))
        others = list(map(int, run.stdout.split()))
        self.assertEqual(len(others), 2)
        end = time.monotonic() + 60
        while any(map(is_running, others)) and time.monotonic() < end:
            time.sleep(0.05)
        self.assertFalse([number for number in others if is_running(number)])

    def test_what_is_no_number(self):
        for given in ("0", "-1", "two", "1.5", ""):
            with self.subTest(given), self.assertRaises(Fatal) as caught:
                ran(store.run, ["add", "--store", str(self.folder / "store"), "--jobs", given, self.file("p.json", page("products"))])
            self.assertIn("a number of processes is expected", str(caught.exception))
            self.assertFalse((self.folder / "store").exists())


def is_running(number):
    try:
        return Path(f"/proc/{number}/stat").read_text().rpartition(")")[2].split()[0] != "Z"
    except OSError:
        return False


if __name__ == "__main__":
    unittest.main()
