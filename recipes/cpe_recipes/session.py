"""A run of `cpe resolve` that has read the records of a fleet, and answers for one machine after the other.

It uses no other module, because workers on other machines get only this file.
"""
from __future__ import annotations

import contextlib
import json
import queue
import subprocess
import threading
from dataclasses import dataclass, field


@dataclass(frozen=True)
class FleetData:
    """What every worker of a fleet knows: the records, how many lines cpe answers to them, and the ids of the
    statements."""

    lines: bytes
    answers: int
    statements: list[str]


@dataclass(frozen=True)
class MachineQuestion:
    """A machine, the names of its items as its list has them, and what was decided of the ranges for it: keys of
    checks, with TRUE or FALSE.

    `names` are the other names that these items have, or perhaps have.
    """

    name: str
    items: list[str]
    decided: list[tuple[str, str]] = field(default_factory=list)
    names: list[str] = field(default_factory=list)


@dataclass(frozen=True)
class MachineAnswer:
    """The answer for a machine: what was left out, with the reasons, and the lines of its verdicts, or that it has no
    items."""

    machine: str
    left_out: list[tuple[str, str]]
    lines: list[str]
    has_items: bool = True


class Session:
    """The run. It ends with its process; then OSError or EOFError is raised."""

    def __init__(self, program: str, fleet_data: FleetData) -> None:
        self._program, self._fleet_data = program, fleet_data
        self._ask = [_record("verdict", id=id) for id in fleet_data.statements]
        self._run = subprocess.Popen([program, "resolve"], stdin=subprocess.PIPE, stdout=subprocess.PIPE)
        assert self._run.stdin is not None and self._run.stdout is not None
        self._input, self._output = self._run.stdin, self._run.stdout
        # (who writes to a pipe and doesn't read from the other one may wait for ever, so another thread writes)
        self._waiting: queue.SimpleQueue[bytes] = queue.SimpleQueue()
        threading.Thread(target=self._write, daemon=True).start()
        self._last = fleet_data.lines.count(b"\n")
        self._waiting.put(fleet_data.lines)
        for _ in range(fleet_data.answers):
            self._answer()

    def _write(self) -> None:
        while lines := self._waiting.get():
            try:
                self._input.write(lines)
                self._input.flush()
            except (OSError, ValueError):
                return

    def _answer(self) -> str:
        line = self._output.readline()
        if not line.endswith(b"\n"):
            raise EOFError("cpe ended in the middle")
        return line[:-1].decode(errors="backslashreplace")

    def ask(self, machine: MachineQuestion) -> MachineAnswer:
        """The verdicts of a machine."""
        if not machine.items:
            return _without_items(machine.name, [])
        puts = [("item", {"name": item}) for item in (*machine.items, *machine.names)]
        puts += [
            ("check", {"system": "NVD", "href": "cpeMatch", "id": key, "result": result})
            for key, result in machine.decided
        ]
        drops = [
            ("drop-" + word, {key: text for key, text in members.items() if key != "result"}) for word, members in puts
        ]
        first = self._last + 1
        lines = [_record(word, **members) for word, members in puts] + self._ask
        # (the last first, so that none closes up)
        lines += [_record(word, **members) for word, members in reversed(drops)]
        self._last += len(lines)
        self._waiting.put("".join(lines).encode(errors="replace"))
        refused, verdicts = self._answers(first, len(puts), len(self._ask))
        named = [*machine.items, *machine.names, *(f"check {key}" for key, _ in machine.decided)]
        # (equal names are one item)
        left_out = [(named[place], reason) for place, reason in refused.items() if reason != "exists"]
        if all(place in refused and refused[place] != "exists" for place in range(len(machine.items))):
            return _without_items(machine.name, left_out)
        return MachineAnswer(machine.name, left_out, [f"{machine.name} {verdict}" for verdict in verdicts])

    def _answers(self, first: int, puts: int, wanted: int) -> tuple[dict[int, str], list[str]]:
        refused: dict[int, str] = {}
        verdicts: list[str] = []
        while len(verdicts) < wanted:
            word, rest = self._answer().split(" ", 1)
            if word != "refused":
                verdicts.append(rest)
                continue
            number, reason = rest.split(" ", 1)
            # (drops of the machine before are refused too: what was no item can not be dropped)
            if 0 <= int(number) - first < puts:
                refused[int(number) - first] = reason
        return refused, verdicts

    def end(self) -> None:
        self._waiting.put(b"")
        self._run.kill()
        self._run.wait()
        self._output.close()
        with contextlib.suppress(OSError):
            self._input.close()


def _record(word: str, **members: str) -> str:
    return json.dumps({"do": word, **members}, ensure_ascii=False, separators=(",", ":")) + "\n"


def _without_items(name: str, left_out: list[tuple[str, str]]) -> MachineAnswer:
    return MachineAnswer(name, left_out, [f"{name} no items"], has_items=False)
