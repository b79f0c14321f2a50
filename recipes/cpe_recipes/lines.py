"""Runs a command of cpe that keeps no state, on all processors of a machine: sh lines.sh WORD.. < LINES.

WORD.. is unbind, bind fs, bind uri or compare. The recipe writes what `cpe WORD..` writes, with the same line numbers
in refusals, and ends with the same status. GNU parallel runs the workers. The variable WORKERS is the number of workers
at a time; without it there are as many workers as processors. A worker does a piece of the lines; the variable PIECE is
the number of lines in a piece. If a worker dies, its piece is done again, up to three times. If workers die each time,
the other pieces are still written, the fault is reported, and the status is 5.
"""
from __future__ import annotations

import itertools
import re
import sys
from collections.abc import Iterator, Sequence
from pathlib import Path

from . import workers
from .console import DONE, LEFT_OUT, Fatal, Messages, describe_fault, temporary_folder, write_all
from .program import Program

WORDS = ("unbind", "bind fs", "bind uri", "compare")
PIECES_MISSING = 5

_REFUSED = re.compile(rb"^refused (\d+)", re.MULTILINE)


def run(words: Sequence[str]) -> int:
    if " ".join(words) not in WORDS:
        raise Fatal(f"usage: lines.sh {'|'.join(WORDS)}")
    workers.needs_parallel()
    # (whether it is cpe is seen by the pieces)
    program, messages = Program(is_tried=False), Messages()
    most = workers.number_at("PIECE", 100_000)
    with temporary_folder() as folder:
        pieces = list(_cut(folder, most))
        workers.run_workers(folder, ["sh", str(workers.RECIPES / "fleet" / "piece.sh"), program.path, *words], pieces)
        is_refused = False
        for number, piece in enumerate(pieces):
            if not workers.is_done(piece):
                messages.leave_out(f"lines {number * most + 1} to {(number + 1) * most}", "their worker did not end")
            elif Path(f"{piece}.refused").exists():
                is_refused = True
                write_all(1, _renumbered(Path(f"{piece}.out").read_bytes(), number * most), "the output")
            else:
                workers.copy_out(piece)
    return PIECES_MISSING if messages.left else LEFT_OUT if is_refused else DONE


def _renumbered(lines: bytes, before: int) -> bytes:
    """What cpe wrote of a piece, with the numbers that its refused lines have in the whole input."""
    return _REFUSED.sub(lambda found: b"refused %d" % (int(found[1]) + before), lines)


def _cut(folder: Path, most: int) -> Iterator[Path]:
    """Cuts standard input into files of this many lines, and yields their numbers."""
    for number in itertools.count():
        path = folder / f"piece.{number:06}"
        try:
            with path.open("wb") as piece:
                piece.writelines(itertools.islice(sys.stdin.buffer, most))
            if path.stat().st_size == 0:
                return
        except OSError as fault:
            raise Fatal(f"a piece could not be written: {describe_fault(fault)}") from fault
        yield path
