"""Runs a program with fail_calls.c loaded before the C library, which lets calls of the program fail, and counts
them."""
import collections
import os
import pathlib
import shutil
import subprocess

TOP = pathlib.Path(__file__).resolve().parent.parent
LONGEST = 60

Ended = collections.namedtuple("Ended", "status output allocations refused reads writes")


def compiled(room):
    """The shim, compiled into this folder; None without a C compiler."""
    compiler = shutil.which(os.environ.get("CC", "cc"))
    if not compiler:
        return None
    shim = os.path.join(room, "fail_calls.so")
    subprocess.run([compiler, "-O2", "-shared", "-fPIC", "-o", shim, TOP / "tests" / "fail_calls.c"], check=True)
    return shim


def run(words, shim, lines, told):
    """The status and output of a run over these lines, with these settings of the shim. Standard error is part of the
    output."""
    source, end = os.pipe()
    with open(source, "rb") as counts:
        environment = {"LD_PRELOAD": shim, "TELL": str(end), **told}
        try:
            child = subprocess.Popen(words, stdin=lines, stdout=subprocess.PIPE, stderr=subprocess.STDOUT, pass_fds=[end], env=environment)
        finally:
            os.close(end)
        output, _ = child.communicate(timeout=LONGEST)
        # (there are none if the program isn't dynamically linked with the C library, or is killed)
        calls = (counts.read().split() + [b"0"] * 4)[:4]
    return Ended(child.returncode, output, *map(int, calls))
