#!/usr/bin/env python3
"""Measures calls of the library for C from Go beside go-cpe, a package of Go alone, in one process: names that are
unbound, and pairs of which the first covers the second or not.

It needs `go`, `cc`, the library (make library), and go-cpe from Debian's golang-github-knqyf263-go-cpe-dev. If one is
missing, it reports that, and measures nothing. Prints a table, which README.md beside this file explains.
"""
import argparse
import os
import pathlib
import shutil
import subprocess
import sys

sys.dont_write_bytecode = True
import run

GOCODE = pathlib.Path("/usr/share/gocode")
HERE = pathlib.Path(__file__).resolve().parent
INPUTS = (("names", "valid"), ("names", "uri"), ("names", "refused"), ("pairs", "pair"))


def lacking(library):
    """What isn't there that is needed."""
    if not shutil.which("go") or not shutil.which("cc"):
        return "go or cc is not on PATH"
    if not (GOCODE / "src" / "github.com" / "knqyf263" / "go-cpe").is_dir():
        return f"go-cpe is not below {GOCODE}"
    if not library.is_file():
        return f"there is no {library}: run make library first"
    return None


def built(library):
    """The program of bench/go, built over the binding for Go and the static library."""
    path = run.BUILD / "go"
    source = path / "src"
    source.mkdir(parents=True, exist_ok=True)
    for name, folder in (("cpe", run.TOP / "bindings" / "go"), ("beside", HERE / "go")):
        link = source / name
        if not link.is_symlink():
            link.symlink_to(folder)
    # (beside a shared library cgo would take that one, which the program then wants where it runs)
    static = path / "static"
    static.mkdir(exist_ok=True)
    shutil.copyfile(library, static / library.name)
    words = {
        "GOPATH": f"{path}:{GOCODE}",
        "GO111MODULE": "off",
        "GOFLAGS": "",
        "CGO_CFLAGS": f"-O2 -I{run.TOP / 'library'}",
        "CGO_LDFLAGS": f"-L{static}",
    }
    program = path / "beside"
    subprocess.run(["go", "build", "-o", program, "beside"], env={**os.environ, **words}, check=True)
    return program


def measured(program, what, path, rounds):
    """Nanoseconds a line on both sides, the best of these rounds, the lines, and on how many of them the two differ."""
    runs = []
    for _ in range(rounds):
        out = subprocess.run([program, what, path], capture_output=True, text=True, check=True)
        runs.append([int(it) for it in out.stdout.split()])
    return min(it[0] for it in runs), min(it[1] for it in runs), runs[0][2:]


def main():
    words = argparse.ArgumentParser(description=__doc__.split("\n")[0])
    words.add_argument("--lines", type=int, default=1_000_000)
    words.add_argument("--rounds", type=int, default=3)
    words = words.parse_args()
    library = run.TOP / "build" / "libcpe.a"
    why = lacking(library)
    if why:
        print(f"SKIPPED: {why}")
        return
    program = built(library)
    print(f"load before: {os.getloadavg()[0]:.1f} on {os.cpu_count()} processors")
    print(f"{'input':<12}{'lines':>10}{'cpe ns':>9}{'go-cpe ns':>11}{'ratio':>8}{'it alone refuses':>18}{'it alone takes':>16}{'other answers':>15}")
    for what, name in INPUTS:
        our, their, (count, refused, taken, other) = measured(program, what, run.made(name, words.lines), words.rounds)
        print(f"{name:<12}{count:>10,}{our:>9}{their:>11}{their / our:>8.1f}{refused:>18,}{taken:>16,}{other:>15,}", flush=True)
    print(f"load after: {os.getloadavg()[0]:.1f}")


if __name__ == "__main__":
    main()
