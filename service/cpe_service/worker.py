"""The process that judges machines, first those of its shard: python3 -m cpe_service.worker DATA SHARD SHARDS.

It takes waiting machines from the database, and writes their verdicts and changes in one transaction. So if it is
killed, its successor finds the remaining work. Machines with new lists are judged before those that wait for another
ground. If none of its shard waits, it takes a machine of another shard that no other worker has claimed. If there are
more new lists than workers, it takes the list that has waited longest.
"""
from __future__ import annotations

import contextlib
import gc
import json
import os
import queue
import signal
import sqlite3
import sys
import threading
import time
import traceback
from collections import Counter
from collections.abc import Iterable, Iterator, Sequence
from pathlib import Path

from cpe_recipes.console import Fatal
from cpe_recipes.feeds import FeedFault
from cpe_recipes.program import Program

from . import certificates, entries, frames, queries
from .claims import Claims
from .database import (
    GROUND,
    connect,
    ground_of,
    pack,
    read_note,
    read_transaction,
    unpack,
    write_note,
    write_transaction,
)
from .frames import Message
from .ground import Ground, read_ground
from .ground_changes import Basis, GroundChange, merge
from .judge import Judge, MachineResult
from .message_list import strip_paths
from .texts import whole
from .waiting_machine import WaitingMachine

# How many machines are judged together at most: with new lists, for which clients wait, and others. And how many are
# considered.
_NEW, _OTHERS, _LOOKED_AT = 4, 16, 256
# How often the same machines are tried if cpe fails, and how long a worker waits before it looks for machines again.
_TRIES, _SECONDS = 3, 30
# How long it waits after a fault.
_PAUSE = 5
# The number of new objects after which Python collects garbage.
_OBJECTS = 50_000
# For how many earlier grounds the changes are kept, and the greatest share of changed advisories for which it is worth
# it.
_GROUNDS, _SHARE = 8, 0.5
_SINCE = "CASE WHEN result_put = put AND fault = '' AND result IS NOT NULL AND instr(counts, '\"no items\"') = 0 THEN result_ground ELSE 0 END"


class NoResult(Exception):
    """Some machines have no result: their lists or the recipes have a fault."""


class Worker:
    """Judges machines, those of a shard first."""

    def __init__(self, folder: Path, shard: int, shards: int) -> None:
        self._folder, self._shard, self._shards = folder, shard, shards
        self._database, self._program, self._claims = connect(folder), Program(), Claims(folder)
        self._judge: Judge | None = None
        # (for earlier grounds, by their edits, what changed since then)
        self._basis: Basis | None = None
        self._changed: dict[int, GroundChange] = {}
        # (an earlier process may have noted a fault)
        self._is_troubled = True
        self._inbox: queue.SimpleQueue[Message] = queue.SimpleQueue()

    def run(self) -> None:
        """Judges machines and answers messages until the server ends."""
        threading.Thread(target=self._listen, daemon=True).start()
        while True:
            seconds = self._try_step()
            try:
                message = self._inbox.get(timeout=seconds) if seconds else self._inbox.get_nowait()
            except queue.Empty:
                continue
            # (nobody waits for a late answer)
            if message["do"] == "certificate" and time.time() < message["until"]:
                self._send({"answer": message["number"], **self._certificate(message)})

    def _try_step(self) -> float:
        """Judges some of the waiting machines, and returns how long to wait then. A fault is noted, and tried again."""
        try:
            return 0 if self._step() else _SECONDS
        except Exception as fault:  # noqa: BLE001 (whatever it is, it is noted, and the next try may do it)
            self._end()
            traceback.print_exception(fault)
            self._is_troubled = True
            with contextlib.suppress(sqlite3.Error), write_transaction(self._database):
                write_note(self._database, f"trouble {self._shard}", whole(str(fault)) or type(fault).__name__)
            return _PAUSE

    def _listen(self) -> None:
        while (found := frames.read(sys.stdin.buffer)) is not None:
            self._inbox.put(found[0])
        # (at once: the next server has its own workers, and unwritten work still waits in the database)
        os._exit(0)

    def _send(self, message: Message) -> None:
        frames.write(sys.stdout.buffer, message)

    def _step(self) -> bool:
        """Judges some of the machines that wait, if there are any."""
        judge = self._ready()
        if self._is_troubled:
            self._database.execute("DELETE FROM notes WHERE name = ?", (f"trouble {self._shard}",))
            self._is_troubled = False
        try:
            return self._judge_some(judge)
        finally:
            self._claims.end()

    def _judge_some(self, judge: Judge) -> bool:
        """Judges some of the waiting machines by this ground, or by a new one if they need more advisories."""
        waiting = self._find_waiting(judge.ground.edit)
        if waiting and judge.ground.is_before(max(one.put for one in waiting)):
            # (it only has advisories that may concern the earlier machines)
            self._end()
            judge = self._ready()
        if judge.ground.lacks or not waiting:
            return False
        machine_results, faults = self._try(waiting)
        for one in waiting:
            found = machine_results.get(one.name)
            # (packed before the transaction, and one machine at a time, so that no other writer waits for long)
            result = pack(_text(found)) if found is not None and found.ids is None else None
            with write_transaction(self._database):
                if found is None:
                    self._write_fault(one, faults[one.name], judge.ground.edit)
                else:
                    self._write(one, found, result)
        self._send({"done": len(waiting)})
        return True

    def _ready(self) -> Judge:
        """The judge of the current ground."""
        if self._judge is None or self._judge.ground.edit != ground_of(self._database):
            self._end()
            ground = read_ground(self._database, self._program, self._machines)
            self._judge = Judge(self._program, ground)
            self._note(ground)
            self._note_changed(self._judge.basis)
            # (the ground is large and stays, so the garbage collector can ignore it)
            gc.unfreeze()
            gc.collect()
            gc.freeze()
            self._send({"done": 0})
        return self._judge

    def _note_changed(self, basis: Basis | None) -> None:
        """Notes what changed since the earlier grounds, by which machines may have been judged. If more than advisories
        changed, it notes nothing."""
        before, self._basis = self._basis, basis
        if before is not None and basis is not None and before.edit == basis.edit:
            return
        changed = None
        if before is not None and basis is not None and self._are_advisories(before.edit, basis.edit):
            changed = GroundChange.between(before, basis)
        if changed is None or len(changed.ids) > _SHARE * len(basis.sums):
            self._changed = {}
            return
        older = list(self._changed.items())[1 - _GROUNDS :]
        self._changed = {edit: one.join(changed) for edit, one in older} | {before.edit: changed}

    def _are_advisories(self, since: int, edit: int) -> bool:
        """Whether the edits between these changed only advisories."""
        marks = ", ".join("?" * len(GROUND))
        question = f"SELECT 1 FROM edits WHERE id > ? AND id <= ? AND kind IN ({marks}) AND NOT (kind = 'feed' AND what LIKE 'advisories %')"
        return self._database.execute(question, (since, edit, *GROUND)).fetchone() is None

    def _end(self) -> None:
        if self._judge is not None:
            self._judge.end()
            self._judge = None

    def _machines(self) -> list[WaitingMachine]:
        """All machines, also those of other shards."""
        return [
            WaitingMachine(*row)
            for row in self._database.execute("SELECT id, name, put, list FROM machines ORDER BY id")
        ]

    def _find_waiting(self, ground: int) -> list[WaitingMachine]:
        """Some waiting machines that no other worker judges. Those with new lists are first, and those of this shard,
        because their names are known. But if more lists wait than there are workers, the list that has waited longest
        is first."""
        new, old = "put <> judged_put", "judged_ground <> ?"
        count = self._database.execute(f"SELECT count(*) FROM machines WHERE {new}").fetchone()[0]
        # (with as many workers as lists, no client waits for another client's list)
        most = max(1, min(_NEW, count // (2 * self._shards)))
        own, other = (f" AND shard % {self._shards} {shard} {self._shard}" for shard in ("=", "<>"))
        shards = (own, other) if count <= self._shards else ("",)
        return self._claim(new, (), "put", most, shards) or self._claim(
            old, (ground,), "judged_ground", _OTHERS, (own, other)
        )

    def _claim(
        self, waits: str, values: tuple[int, ...], order: str, most: int, shards: Iterable[str]
    ) -> list[WaitingMachine]:
        """Claims some machines that wait, from the first of these shards that has any."""
        for shard in shards:
            rows = self._database.execute(
                f"SELECT id FROM machines WHERE {waits}{shard} ORDER BY {order} LIMIT {_LOOKED_AT}", values
            ).fetchall()
            ids = self._claims.take((row["id"] for row in rows), most)
            # (another worker may have judged it before this claim)
            question = f"SELECT id, name, put, list, {_SINCE} FROM machines WHERE id = ? AND {waits}"
            found = [
                WaitingMachine(*row)
                for id in ids
                if (row := self._database.execute(question, (id, *values)).fetchone())
            ]
            if found:
                return found
            self._claims.end()
        return []

    def _try(self, waiting: Sequence[WaitingMachine]) -> tuple[dict[str, MachineResult], dict[str, str]]:
        """The results of machines. If there is no result for all together, each is judged alone; then the faults of
        those without one are returned too."""
        try:
            return {one.name: one for one in self._judge_with_retries(waiting)}, {}
        except NoResult as fault:
            if len(waiting) == 1:
                return {}, {waiting[0].name: str(fault)}
        judged, faults = {}, {}
        for one in waiting:
            of_one, fault_of_one = self._try([one])
            judged |= of_one
            faults |= fault_of_one
        return judged, faults

    def _judge_with_retries(self, waiting: Sequence[WaitingMachine]) -> list[MachineResult]:
        """The results of machines. If a run of cpe fails, all runs are started again. NoResult if that doesn't help, or
        if the recipes fail."""
        for left in reversed(range(_TRIES)):
            # (a ground that can't be read is no fault of a list)
            judge = self._ready()
            try:
                return self._judge_machines(judge, waiting)
            except (sqlite3.Error, OSError):
                raise
            except (Fatal, FeedFault) as fault:
                self._end()
                if not left or isinstance(fault, FeedFault):
                    raise NoResult(str(fault)) from fault
            except Exception as fault:  # noqa: BLE001 (a list that nobody foresaw keeps no other machine waiting)
                self._end()
                raise NoResult(f"the recipes have a fault: {type(fault).__name__} {fault}") from fault
        raise AssertionError("there is a last try")

    def _judge_machines(self, judge: Judge, waiting: Sequence[WaitingMachine]) -> list[MachineResult]:
        """The results of machines. For a machine that was judged by an earlier ground, only what changed is judged, if
        that is known."""
        found: list[MachineResult] = []
        for since, changed in self._changed.items():
            some = [one for one in waiting if one.since == since]
            results = judge.judge_changed([one.machine() for one in some], changed) if some else []
            found += [one for one in results if one is not None]
        done = {one.name for one in found}
        rest = [one.machine() for one in waiting if one.name not in done]
        return found + (judge.judge(rest) if rest else [])

    def _write_fault(self, one: WaitingMachine, fault: str, ground: int) -> None:
        """Writes why there is no result. The earlier result stays."""
        columns = "judged_put = ?, judged_ground = ?, judged_at = ?, fault = ?"
        self._database.execute(
            f"UPDATE machines SET {columns} WHERE id = ?",
            (one.put, ground, time.time(), whole(strip_paths(fault)), one.id),
        )

    def _write(self, one: WaitingMachine, machine_result: MachineResult, result: bytes | None) -> None:
        """Writes the result of a machine, if the machine still exists. `result` is packed already, unless the verdicts
        are merged into the earlier result."""
        database = self._database
        row = database.execute(
            "SELECT result_put, result_ground, fault, counts, result FROM machines WHERE id = ?", (one.id,)
        ).fetchone()
        if row is None:
            return
        if machine_result.ids is not None and (row["result_put"], row["result_ground"]) != (one.put, one.since):
            # (the result into which it would be merged has been replaced, so the machine still waits)
            return
        at = time.time()
        kinds = self._write_changes(one, machine_result, row, at)
        if result is None:
            result = pack(_text(machine_result, row["result"]))
        counts = json.dumps(Counter(kinds.values()) if machine_result.has_items else {"no items": 1})
        columns = "judged_put = ?, judged_ground = ?, result_put = ?, result_ground = ?, judged_at = ?, fault = '', counts = ?, result = ?"
        edits = one.put, machine_result.judge.ground.edit
        database.execute(f"UPDATE machines SET {columns} WHERE id = ?", (*edits, *edits, at, counts, result, one.id))

    def _write_changes(
        self, one: WaitingMachine, machine_result: MachineResult, row: sqlite3.Row, at: float
    ) -> dict[str, str]:
        """Writes the changes, and returns the verdicts as they are now."""
        database, ids = self._database, machine_result.ids
        known = dict(database.execute("SELECT advisory, kind FROM verdicts WHERE machine = ?", (one.id,)).fetchall())
        before = known if ids is None else {id: kind for id, kind in known.items() if id in ids}
        now_all = (
            machine_result.kinds
            if ids is None
            else {id: kind for id, kind in known.items() if id not in ids} | machine_result.kinds
        )
        changes = list(self._changes(before, machine_result, row))
        if not changes:
            return now_all
        cause, edit = self._cause(one, row, machine_result.judge.ground.edit)
        database.executemany(
            "INSERT INTO history (at, machine, advisory, before, after, cause, edit, reason) VALUES (?, ?, ?, ?, ?, ?, ?, ?)",
            [(at, one.name, id, then, now, cause, edit, whole(reason)) for id, then, now, reason in changes],
        )
        database.executemany(
            "DELETE FROM verdicts WHERE machine = ? AND advisory = ?",
            [(one.id, id) for id, _, _, _ in changes if id not in machine_result.kinds],
        )
        database.executemany(
            "INSERT INTO verdicts VALUES (?, ?, ?, ?) ON CONFLICT DO UPDATE SET kind = excluded.kind, since = excluded.since",
            [(one.id, id, now, at) for id, _, now, _ in changes if id in machine_result.kinds],
        )
        return now_all

    def _changes(
        self, before: dict[str, str], machine_result: MachineResult, row: sqlite3.Row
    ) -> Iterator[tuple[str, str, str, str]]:
        """The advisories whose verdicts changed, with the verdicts before and now, and the reason if there is none
        now."""
        for id in sorted({**before, **machine_result.kinds}):
            then = before.get(id) or self._verdict_before(id, row)
            now, reason = (
                (machine_result.kinds[id], "")
                if id in machine_result.kinds
                else machine_result.judge.current_verdict(id, machine_result.has_items)
            )
            if then != now:
                yield id, then, now, reason

    def _verdict_before(self, advisory: str, row: sqlite3.Row) -> str:
        """The earlier verdict of an advisory without a row: FALSE, if the advisory was evaluated when the machine was
        judged, and the machine had items."""
        if not row["result_put"] or row["fault"] or "no items" in json.loads(row["counts"]):
            return "none"
        asked = self._database.execute("SELECT asked FROM advisories WHERE id = ?", (advisory,)).fetchone()
        is_asked = asked is not None and asked["asked"] is not None and asked["asked"] <= row["result_ground"]
        return "FALSE" if is_asked else "none"

    def _cause(self, one: WaitingMachine, row: sqlite3.Row, ground: int) -> tuple[str, int]:
        """The edits by which verdicts may have changed since the last result: their kinds, and the number of the last
        of them."""
        since = row["result_ground"] if row["result_put"] else ground
        edits = self._database.execute(
            "SELECT kind, id FROM edits WHERE id > ? AND id <= ? AND kind NOT IN ('list', 'delete') ORDER BY id",
            (since, ground),
        ).fetchall()
        found = {edit["kind"]: edit["id"] for edit in edits}
        if one.put != row["result_put"]:
            found = {"list": one.put, **found}
        return " and ".join(found), max(found.values(), default=ground)

    def _note(self, ground: Ground) -> None:
        """Notes the advisories of the feeds, unless another worker has."""
        with write_transaction(self._database) as database:
            # (a ground that was cut to the machines has more advisories after a new list)
            if ground.version() > (
                int(read_note(database, "noted", "-1")),
                int(read_note(database, "noted up to list", "0")),
            ):
                _note_advisories(database, ground)
                write_note(database, "ground", json.dumps(ground.json()))
                write_note(database, "noted", str(ground.edit))
                write_note(database, "noted up to list", str(ground.cut_at or 0))
        if self._shard == 0:
            entries.write(self._folder, ground.entries)
            with write_transaction(self._database) as database:
                write_note(database, "names", str(ground.edit))

    def _certificate(self, message: Message) -> Message:
        """The certificate of the current list and ground; `state` says whether the shown verdicts are of these."""
        row = self._database.execute("SELECT * FROM machines WHERE name = ?", (message["machine"],)).fetchone()
        if row is None:
            return {"missing": f"there is no machine {message['machine']}"}
        one = WaitingMachine(row["id"], row["name"], row["put"], row["list"])
        try:
            if self._ready().ground.is_before(one.put):
                self._end()
            judge = self._ready()
            found = certificates.make_certificate(judge, one.machine(), message["id"])
        except Exception as fault:  # noqa: BLE001 (who asks gets an answer)
            self._end()
            return {"fault": strip_paths(str(fault)) or type(fault).__name__}
        return found | {"edit": one.put, "ground": judge.ground.edit, "state": queries.state_of(row, judge.ground.edit)}


def _text(machine_result: MachineResult, before: bytes = b"") -> bytes:
    """The result as the database keeps it; if it has only some advisories, it is merged into the earlier one."""
    found = machine_result.row | {"said": machine_result.said}
    if machine_result.ids is None:
        return whole(queries.result_text(found)).encode()
    return whole(merge(unpack(before).decode(), found, machine_result.ids, machine_result.judge.order)).encode()


def _note_advisories(database: sqlite3.Connection, ground: Ground) -> None:
    """Writes which advisories are evaluated, and the details of all."""
    asked = ground.feed_data.ids.advisories
    states = dict.fromkeys(ground.states.rejected, "rejected")
    states |= {id: f"not analysed: {state}" for id, state in ground.states.unanalysed.items()}
    states |= {id: f"left out: {reason}" for id, reason, _ in ground.messages.noted if id not in asked}
    known = {row["id"]: tuple(row) for row in database.execute("SELECT id, asked, state, details FROM advisories")}
    for id in {**dict.fromkeys(asked), **states}:
        details = whole(json.dumps(ground.feed_data.details.get(id, {}), ensure_ascii=False))
        before = known.pop(whole(id), None)
        since = (before[1] if before and before[1] is not None else ground.edit) if id in asked else None
        now = whole(id), since, "" if id in asked else whole(states[id]), details
        if now != before:
            database.execute("INSERT OR REPLACE INTO advisories VALUES (?, ?, ?, ?)", now)
    database.executemany("DELETE FROM advisories WHERE id = ?", [(id,) for id in known])


def main() -> None:
    """Judges until the server ends."""
    # (an interrupt ends the server, which ends its processes)
    signal.signal(signal.SIGINT, signal.SIG_IGN)
    # (nearly all objects are kept, or freed at once, so garbage is collected less often)
    gc.set_threshold(_OBJECTS)
    folder, shard, shards = sys.argv[1:]
    Worker(Path(folder), int(shard), int(shards)).run()


if __name__ == "__main__":
    main()
