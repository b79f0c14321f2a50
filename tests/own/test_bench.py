"""What measures the program: its unproved twins write what it writes, and a measurement that fails is named."""
import os
import sys
import unittest

from own_case import Ended, OwnCase

# (a python3 that measures nothing stands in for the real one)
STAND_IN = '#!/bin/sh\ncase $1 in */cover.py | */near.py) exit 3 ;; *.py) echo "ran ${1##*/}" ;; esac\n'
MEASURED = ("run", "index", "convert", "explain", "advise", "scan", "full", "snapshot", "openscap")


class Bench(OwnCase):
    def test_the_twins_write_what_the_program_writes(self):
        with self.subTest("the twins of bench/ write what the program writes"):
            self.needs("rustc")
            run = self.ended([sys.executable, self.root / "bench" / "agree.py", self.program])
            self.assertEqual(run.status, 0, run.output.decode())
            self.judge(run._replace(output=b""), 0, b"")

    def test_make_bench_runs_every_measurement_and_names_those_that_failed(self):
        with self.subTest("make bench runs every measurement, and names those that failed"):
            self.needs("nproc", "sha256sum", "tee")
            (self.room / "bin").mkdir()
            stand_in = self.file("bin/python3", STAND_IN.encode())
            stand_in.chmod(0o755)
            results = self.room / "results"
            path = f"{stand_in.parent}:{os.environ['PATH']}"
            run = self.ended(["sh", "bench/all.sh", self.program, results], env={**os.environ, "PATH": path})
            told = [line for line in results.read_text().splitlines() if line.startswith(("ran ", "FAILED"))]
            expected = [*(f"ran {name}.py" for name in MEASURED), "FAILED: cover near"]
            self.judge(Ended(run.status, "\n".join(told).encode(), run.said), 1, "\n".join(expected).encode())


if __name__ == "__main__":
    unittest.main()
