"""Evaluates the inventories of many machines on all processors of this computer, with GNU parallel.

    sh parallel.sh RECORDS MACHINES [--strict] [--hardware none] [--ranges FILE [--letters FILE] [--matches FILE..] | --decided FILE]

    sh parallel.sh --store FOLDER MACHINES [--strict] [--hardware none] [--letters FILE]

- --store, in place of RECORDS, ranges and matches: a folder in which store.py keeps feeds. Advisories that name no
  product of the machines are FALSE, and aren't written; a remark counts them.
- RECORDS: entries, deprecations, statements and results of checks, as the recipes write them.
- MACHINES: a line for each machine: its name, and the names of its items.
- --ranges: the ranges of versions that `advisories.sh --ranges` wrote. Each range is decided for each machine, as by
  `decide.py`. The decision is the result of the range's check.
- --decided: the output of `decide.py`.

A fleet decides like `scan.py`, whatever the modes of the statements are. What a list doesn't say is UNKNOWN. With
--strict a verdict is FALSE if it would be UNKNOWN only because an item says less than an advisory asks for. Remarks
name the items that have no entry, or only a removed entry.

`affected.sh` and `report.py` accept --kev and --epss with the output of a fleet. Only `scan.py` has --fail-on, --since
and --format.

A fleet writes a line `MACHINE STATEMENT TRUTH` for each verdict, in the order of the machines and of the statements.
For a machine without items a fleet writes `MACHINE no items`. If every machine was written, the last line is
`machines COUNT`.

Each worker reads the records once. The variable WORKERS is the number of workers; without it there are as many workers
as processors. If a worker dies, its machines are done again from the start, up to three times. Refused records are
reported, and the status is 1. If machines are missing, the status is 5.
"""
from __future__ import annotations

import json
import os
from collections.abc import Sequence
from pathlib import Path

from . import fleet, worker, workers
from .console import Messages, temporary_folder, write_all
from .feeds import text_lines
from .program import Program
from .session import MachineQuestion


def run(words: Sequence[str]) -> int:
    arguments = fleet.read_fleet_words(words, fleet.OPTIONS, f"parallel.sh {fleet.USAGE}")
    workers.needs_parallel()
    messages, program = Messages(), Program()
    asked = fleet.read_fleet(program, arguments, messages)
    with temporary_folder() as folder:
        plan = worker.write_plan(folder, asked.fleet_data)
        pieces = {}
        most = len(asked.machines) // workers.number_at("WORKERS", os.cpu_count() or 1) + 1
        for number, machines in enumerate(asked.blocks(most)):
            path = folder / f"piece.{number:06}"
            worker.write_piece(path, machines)
            pieces[path] = machines
        workers.run_workers(folder, workers.python_worker("worker", program.path, *plan), list(pieces))
        return _gather(pieces, messages)


def _gather(pieces: dict[Path, list[MachineQuestion]], messages: Messages) -> int:
    """Writes the workers' results, in the order of the machines; the last line only if no machine is missing."""
    missing = [piece for piece in pieces if not workers.is_done(piece)]
    for piece, machines in pieces.items():
        if piece in missing:
            fleet.report_missing(messages, machines, "since their worker did not end")
            continue
        for line in text_lines(Path(f"{piece}.said").read_text()):
            fleet.report_answer(messages, *json.loads(line))
        workers.copy_out(piece)
    if missing:
        return fleet.MACHINES_MISSING
    write_all(1, f"machines {sum(map(len, pieces.values()))}\n".encode(), "the output")
    return messages.status()
