"""A worker of a fleet over GNU parallel: PROGRAM RECORDS PLAN PIECE. It decides the machines of a piece one after the
other.

The plan and the piece are files that `parallel.py` wrote. The worker writes PIECE.said, with what is left out, and
PIECE.out.
"""
from __future__ import annotations

import json
from collections.abc import Sequence
from dataclasses import astuple
from pathlib import Path

from . import workers
from .console import DONE, Fatal, describe_fault, write_file
from .session import FleetData, MachineQuestion, Session


def write_plan(folder: Path, fleet_data: FleetData) -> list[str]:
    """Files of what all workers know; the words for a worker that has them."""
    records, plan = folder / "records", folder / "plan"
    try:
        records.write_bytes(fleet_data.lines)
    except OSError as fault:
        raise Fatal(f"the records could not be written: {describe_fault(fault)}") from fault
    write_file(str(plan), [json.dumps([fleet_data.answers, fleet_data.statements])])
    return [str(records), str(plan)]


def write_piece(path: Path, machines: Sequence[MachineQuestion]) -> None:
    write_file(str(path), [json.dumps(astuple(machine)) for machine in machines])


def run(words: Sequence[str]) -> int:
    program, *paths = words
    records, plan, piece = (Path(path) for path in paths)
    answers, statements = json.loads(plan.read_text())
    fleet_data = FleetData(records.read_bytes(), answers, statements)
    try:
        session = Session(program, fleet_data)
        try:
            # (the last to be whole is PIECE.out, by which the piece is done)
            with workers.whole_file(piece, "out") as lines, workers.whole_file(piece, "said") as left_out:
                for machine in piece.open():
                    told = session.ask(MachineQuestion(*json.loads(machine)))
                    workers.write_lines(piece, left_out, [json.dumps([told.machine, told.has_items, told.left_out])])
                    workers.write_lines(piece, lines, told.lines)
        finally:
            session.end()
    except (OSError, EOFError) as fault:
        raise Fatal(f"{piece.name}: {fault}") from fault
    return DONE
