"""Shared by the tests of recipes: a folder for their files, the messages, and the program if it is there."""
import json
import os
import shutil
import signal
import subprocess
import sys
import tempfile
import unittest
from pathlib import Path

ROOT = Path(__file__).resolve().parents[2]
RECIPES = ROOT / "recipes"
SAMPLES = RECIPES / "samples"
sys.path[:0] = [str(RECIPES), str(Path(__file__).resolve().parent)]

from test_feeds import Heard  # noqa: E402

CPE = shutil.which(os.environ.get("CPE", "cpe"))
needs_cpe = unittest.skipUnless(CPE, "there is no cpe")
# The signals that end a recipe.
ENDING = (signal.SIGTERM, signal.SIGINT, signal.SIGHUP)


def obey_signals():
    """Makes a new process obey these signals, even if the tests themselves run with nohup."""
    for number in ENDING:
        signal.signal(number, signal.SIG_DFL)


def fs(vendor, product, version="*", update="*", target="*"):
    return f"cpe:2.3:a:{vendor}:{product}:{version}:{update}:*:*:*:{target}:*:*"


class RecipeCase(unittest.TestCase):
    def setUp(self):
        folder = tempfile.TemporaryDirectory()
        self.addCleanup(folder.cleanup)
        self.folder = Path(folder.name)
        self.messages = Heard()

    def file(self, name, data):
        """A file of bytes, of a text, of records (a list), or of a value of JSON."""
        if isinstance(data, list):
            data = "".join(f"{json.dumps(one)}\n" for one in data)
        elif isinstance(data, dict):
            data = json.dumps(data)
        path = self.folder / name
        path.write_bytes(data if isinstance(data, bytes) else data.encode())
        return str(path)

    def recipe(self, name, *words, **how):
        """The status of a short recipe, its lines, and its messages."""
        run = subprocess.run(
            ["sh", str(RECIPES / f"{name}.sh"), *words], capture_output=True, text=True, stdin=subprocess.DEVNULL, **how
        )
        return run.returncode, run.stdout.splitlines(), run.stderr.splitlines()

    def scan(self, *words):
        """The status of scan.py, its lines, and its messages."""
        run = subprocess.run(
            [sys.executable, str(RECIPES / "scan.py"), *words], capture_output=True, text=True, stdin=subprocess.DEVNULL, check=False
        )
        return run.returncode, run.stdout.splitlines(), run.stderr.splitlines()
