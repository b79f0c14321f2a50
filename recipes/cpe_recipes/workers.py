"""Workers over pieces of work, by GNU parallel. A piece is a file, so that it can be run again if its worker dies.

A worker gets its words and the path of its piece, and writes files beside the piece, which get their names when they
are whole. So a worker that died left no file. PIECE.out shows that a piece is done, and PIECE.full that a disk was
full.
"""
from __future__ import annotations

import contextlib
import os
import shutil
import subprocess
import sys
from collections.abc import Iterator, Sequence
from pathlib import Path
from typing import BinaryIO

from .console import Fatal, write_all

RECIPES = Path(__file__).resolve().parent.parent
_TRIES = 3
_CHUNK = 1 << 20
# What GNU parallel ends with if it isn't the jobs that failed.
_NO_PARALLEL = 255


def needs_parallel() -> None:
    if shutil.which("parallel") is None:
        raise Fatal("there is no parallel")


def number_at(variable: str, default: int) -> int:
    """The number that a variable of the environment has, or else this one."""
    given = os.environ.get(variable) or str(default)
    if not given.isdecimal() or int(given) == 0:
        raise Fatal(f"{variable} is {given}, which is no number of them")
    return int(given)


def python_worker(module: str, *words: str) -> list[str]:
    """The command of a worker that is a module of the recipes."""
    # (-S: without other packages, so that it begins sooner)
    return [sys.executable, "-BS", str(RECIPES / "run.py"), module, *words]


def run_workers(folder: Path, worker: Sequence[str], pieces: Sequence[Path]) -> None:
    """Runs a worker over each piece, WORKERS at a time (else as many as processors); one that fails is run again, up to
    three times."""
    workers = number_at("WORKERS", os.cpu_count() or 1)
    command = [
        "parallel",
        "--will-cite",
        "--retries",
        str(_TRIES),
        "--jobs",
        str(workers),
        "--tmpdir",
        str(folder),
        "--quote",
    ]
    with subprocess.Popen([*command, *worker, "{}"], stdin=subprocess.PIPE) as run:
        try:
            run.communicate("".join(f"{piece}\n" for piece in pieces).encode())
        except BaseException:
            # (then it ends its workers too)
            run.terminate()
            raise
    if any(folder.glob("*.full")):
        raise Fatal("there was no room for what the workers write")
    if run.returncode == _NO_PARALLEL or run.returncode < 0:
        raise Fatal(f"GNU parallel ended with status {run.returncode}")


@contextlib.contextmanager
def whole_file(piece: Path, ending: str) -> Iterator[BinaryIO]:
    """A file beside a worker's piece, which gets its name at the end, if nothing failed."""
    with _tells_no_room(piece):
        file = open(f"{piece}.{ending}.part", "wb")
    with file:
        yield file
        with _tells_no_room(piece):
            file.flush()
    with _tells_no_room(piece):
        os.replace(file.name, f"{piece}.{ending}")


def write_lines(piece: Path, file: BinaryIO, lines: Sequence[str]) -> None:
    with _tells_no_room(piece):
        file.write("".join(f"{line}\n" for line in lines).encode(errors="replace"))


@contextlib.contextmanager
def _tells_no_room(piece: Path) -> Iterator[None]:
    """Where a worker has no room to write, no other try will have."""
    try:
        yield
    except OSError:
        with contextlib.suppress(OSError):
            Path(f"{piece}.full").touch()
        raise


def is_done(piece: Path) -> bool:
    return Path(f"{piece}.out").exists()


def copy_out(piece: Path) -> None:
    """Writes what a worker wrote of its piece."""
    with Path(f"{piece}.out").open("rb") as lines:
        while chunk := lines.read(_CHUNK):
            write_all(1, chunk, "the output")
