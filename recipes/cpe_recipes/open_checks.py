"""On what an UNKNOWN depends: the checks of an advisory's statements that have no result."""
from __future__ import annotations

import contextlib
import json
from collections.abc import Iterable, Iterator, Sequence

from .advisories import Range, base_id
from .console import Fatal
from .feeds import FeedFault, FormFault, Json, name_of, read_feed
from .fleet import ResultsByMachine

# System, href and id of a check.
Key = tuple[str, str, str]


class OpenChecks:
    """The checks of advisories, and the results that the records have."""

    def __init__(self, records: Iterable[Json], ranges: Iterable[Range], decided: ResultsByMachine) -> None:
        self._checks: dict[str, dict[Key, None]] = {}
        self._results: set[Key] = set()
        self._ranges = {one.key: one for one in ranges}
        self._decided = {machine: {key for key, _ in results} for machine, results in decided.items()}
        for record in records:
            self._note(record)

    def _note(self, record: Json) -> None:
        word = record.get("do") if isinstance(record, dict) else None
        if word == "statement":
            id = record.get("id")
            # (what the verdicts call by the same id, be it a part or not)
            for name in {id, base_id(id)} if isinstance(id, str) else ():
                self._checks.setdefault(name, {}).update(dict.fromkeys(_checks(record.get("test"))))
        elif word in ("check", "drop-check") and (key := _key(record)) is not None:
            known = record.get("result") in ("TRUE", "FALSE", "ERROR")
            (self._results.add if word == "check" and known else self._results.discard)(key)

    def on(self, advisory: str, machine: str | None) -> list[str]:
        """The checks on which the verdict hangs, in words."""
        decided = self._decided.get(machine or "", set())
        asked = self._checks.get(advisory, {})
        return [self._words(key) for key in asked if key not in self._results and not _is_decided(key, decided)]

    def remarks(self, advisory: str, machine: str | None) -> list[str]:
        """Nothing, since the verdicts of `cpe evaluate` and of a fleet have none."""
        return []

    def _words(self, key: Key) -> str:
        found = self._ranges.get(key[2]) if key[:2] == ("NVD", "cpeMatch") else None
        return f"{found.criteria} {found.words()}" if found else " ".join(key)


def _is_decided(key: Key, decided: set[str]) -> bool:
    return key[:2] == ("NVD", "cpeMatch") and key[2] in decided


def _key(record: Json) -> Key | None:
    if not isinstance(record, dict):
        return None
    system, href, id = (record.get(part) for part in ("system", "href", "id"))
    if isinstance(system, str) and isinstance(href, str) and isinstance(id, str):
        return system, href, id
    return None


def _checks(test: Json) -> Iterator[Key]:
    """The checks of a test, in their order."""
    waiting = [test]
    while waiting:
        one = waiting.pop()
        if not isinstance(one, dict):
            continue
        key = _key(one.get("check"))
        if "op" in one and isinstance(one.get("of"), list):
            waiting.extend(reversed(one["of"]))
        elif key is not None:
            yield key


def json_lines(paths: Sequence[str]) -> Iterator[Json]:
    """The records of files of lines, as JSON. Fatal if a file can't be read, or a line of it is no JSON."""
    for path in paths:
        for number, line in _lines(path):
            try:
                yield json.loads(line)
            except (ValueError, RecursionError) as fault:
                raise Fatal(f"{name_of(path)} line {number}: it is no JSON") from fault


def _lines(path: str) -> Iterator[tuple[int, bytes]]:
    try:
        data = read_feed(path)
    except FeedFault as fault:
        raise Fatal(f"{name_of(path)}: {fault}") from fault
    return ((number, line) for number, line in enumerate(data.split(b"\n"), 1) if line.strip())


def records_with_checks(paths: Sequence[str]) -> Iterator[Json]:
    """The records with checks. A line that is no JSON is ignored, because cpe refused it."""
    for path in paths:
        for _, line in _lines(path):
            if b"check" in line:
                with contextlib.suppress(ValueError, RecursionError):
                    yield json.loads(line)


def read_range_list(paths: Sequence[str]) -> list[Range]:
    try:
        return [Range.of(record) for record in json_lines(paths)]
    except FormFault as fault:
        raise Fatal(f"{', '.join(map(name_of, paths))}: a line is no range") from fault
