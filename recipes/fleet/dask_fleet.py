#!/usr/bin/python3
"""Evaluates the inventories of many machines on the workers of a Dask cluster.

    python3 dask_fleet.py RECORDS MACHINES [OPTION..] [--workers N] [--block N]     workers on this machine
    python3 dask_fleet.py RECORDS MACHINES [OPTION..] --scheduler tcp://..          those of a cluster elsewhere

The input, the other options, the output and the status are those of parallel.sh. The records are sent to the workers.
`cpe` must be on the path of each worker (or be given with --cpe). Each worker reads the records once, and then takes
machine after machine. If a worker dies, another worker does its machines.
"""
from __future__ import annotations

import contextlib
import hashlib
import logging
import os
import sys
import threading
import warnings
import zipfile
from collections.abc import Iterator
from pathlib import Path

_RECIPES = Path(__file__).resolve().parent.parent
sys.path.insert(0, str(_RECIPES))
sys.dont_write_bytecode = True  # (run.py says why)

from cpe_recipes import console, fleet, session  # noqa: E402
from cpe_recipes.arguments import ONE, Arguments  # noqa: E402
from cpe_recipes.program import Program  # noqa: E402

try:
    from distributed import Client, LocalCluster, get_worker, wait
    from distributed.diagnostics.plugin import UploadFile
except ImportError:
    print("dask_fleet.py: this python3 has no module distributed", file=sys.stderr)
    sys.exit(console.NO_RESULT)

OPTIONS = {**fleet.OPTIONS, "--scheduler": ONE, "--workers": ONE, "--block": ONE, "--cpe": ONE}
USAGE = f"dask_fleet.py {fleet.USAGE} [--workers N] [--block N] [--scheduler ADDRESS] [--cpe PROGRAM]"
_TRIES = 3


def known_of(lines: bytes, answers: int, statements: list[str]) -> tuple[str, session.FleetData]:
    """The data of the fleet, with a key by which workers distinguish it from that of another client of the cluster."""
    return hashlib.sha256(lines).hexdigest(), session.FleetData(lines, answers, statements)


def evaluate(
    block: list[session.MachineQuestion], program: str, known: tuple[str, session.FleetData]
) -> list[session.MachineAnswer]:
    """The answers for these machines. A worker has a session for each of its threads."""
    sessions = get_worker().__dict__.setdefault("sessions_of_cpe", {})
    thread, key = threading.get_ident(), known[0]
    kept_key, kept = sessions.pop(thread, ("", None))
    if kept is not None and kept_key != key:
        kept.end()
        kept = None
    run = session.Session(program, known[1]) if kept is None else kept
    try:
        told = [run.ask(machine) for machine in block]
    except (OSError, EOFError):
        # the machines are tried again, by a session from the start
        run.end()
        raise
    sessions[thread] = key, run
    return told


def ask_all(client: Client, program: str, asked: fleet.Fleet, most: int, heard: console.Messages) -> int:
    # If all workers with a task's result die, Dask makes the result again; scattered data would be lost. So the records are
    # part of the graph, and the warning about its size is turned off.
    warnings.filterwarnings("ignore", message="Large object")
    given = asked.fleet_data
    known = client.submit(known_of, given.lines, given.answers, given.statements)
    # (otherwise most of the work is given to the worker that has them first)
    wait(known)
    client.replicate([known])
    blocks = asked.blocks(most)
    futures = client.map(evaluate, blocks, program=program, known=known, retries=_TRIES, pure=False)
    is_missing = False
    for block, future in zip(blocks, futures):
        try:
            told = future.result()
        except Exception as fault:  # noqa: BLE001 (whatever a worker raised, or that it died)
            fleet.report_missing(heard, block, f"since their worker did not end: {fault!r}")
            is_missing = True
            continue
        for one in told:
            fleet.report_answer(heard, one.machine, one.has_items, one.left_out)
        console.write_all(
            1, "".join(f"{line}\n" for one in told for line in one.lines).encode(errors="replace"), "the output"
        )
        future.release()
    if is_missing:
        return fleet.MACHINES_MISSING
    console.write_all(1, f"machines {len(asked.machines)}\n".encode(), "the output")
    return heard.status()


def number(arguments: Arguments, option: str, default: int) -> int:
    given = arguments.one(option)
    if given is None:
        return default
    if not given.isdecimal() or int(given) == 0:
        raise console.Fatal(f"{option} is {given}, which is no number of them")
    return int(given)


@contextlib.contextmanager
def cluster_of(arguments: Arguments, folder: Path) -> Iterator[Client]:
    """A cluster elsewhere, or one here while it is needed."""
    if arguments.has("--scheduler"):
        with Client(arguments.one("--scheduler")) as client:
            yield client
        return
    workers = number(arguments, "--workers", os.cpu_count() or 1)
    how = {"threads_per_worker": 1, "host": "127.0.0.1", "dashboard_address": None, "silence_logs": logging.CRITICAL}
    with LocalCluster(n_workers=workers, local_directory=str(folder), **how) as cluster, Client(cluster) as client:
        yield client


def put_session(client: Client, folder: Path) -> None:
    """Sends the modules of a session to all workers, including later ones, because workers on other machines have no
    recipes."""
    path = folder / "cpe_recipes.zip"
    with zipfile.ZipFile(path, "w") as packed:
        for name in ("__init__.py", "session.py"):
            packed.write(_RECIPES / "cpe_recipes" / name, f"cpe_recipes/{name}")
    client.register_worker_plugin(UploadFile(str(path)))


def run(words: list[str]) -> int:
    arguments = fleet.read_fleet_words(words, OPTIONS, USAGE)
    most = number(arguments, "--block", 100)
    heard, program = console.Messages(), Program(arguments.one("--cpe"), is_tried=True)
    asked = fleet.read_fleet(program, arguments, heard)
    try:
        with console.temporary_folder() as folder, cluster_of(arguments, folder) as client:
            put_session(client, folder)
            return ask_all(client, program.path, asked, most, heard)
    except OSError as fault:
        raise console.Fatal(f"the cluster can not be worked with: {fault}") from fault


if __name__ == "__main__":
    console.main(run, "dask_fleet.py", sys.argv[1:])
