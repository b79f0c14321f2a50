#!/usr/bin/env python3
"""Runs the conformance cases of CPE 2.3 by adapters, and prints where each implementation is right and wrong.

An ADAPTER is a command, such as 'python3 mine.py'. It reads a case a line, {"id", "kind", "input"}, and writes a line
{"id", "result"} for it, which it flushes before it reads the next. README.md beside this file has the kinds and
results.

Exit status, as pytest has it: 0 each case passed or isn't offered, 1 a case did not pass, 2 interrupted, 3 this program
failed, 4 wrong words, 5 no case was chosen.
"""

import argparse
import contextlib
import enum
import json
import os
import pathlib
import re
import selectors
import shlex
import shutil
import signal
import subprocess
import sys
import tempfile
import time
from collections import Counter
from collections.abc import Iterator
from dataclasses import dataclass, field
from typing import NoReturn
from xml.etree import ElementTree

HERE = pathlib.Path(__file__).resolve().parent
# The most cases in a row at which an adapter may die or be too slow. After them it is not started again.
MOST_IN_A_ROW = 25
MOST_SECONDS = 1_000_000
# The most bytes that an adapter may write for a case.
MOST_BYTES = 1 << 20
SIGNALS = {it.value: it.name for it in signal.Signals}
# What each case has that this program reads.
MEMBERS = ("id", "report", "section", "kind", "input", "expect", "own", "why")
# Lists of results in which the order doesn't matter.
UNORDERED = ("ends", "found")


class Outcome(enum.Enum):
    PASSED = "passed"
    FAILED = "failed"
    REFUSED = "refused"
    NOT_OFFERED = "not offered"
    DIED = "died"
    TOO_SLOW = "too slow"
    NOT_RUN = "not run"


# What JUnit calls each.
TAGS = {
    Outcome.PASSED: "",
    Outcome.FAILED: "failure",
    Outcome.REFUSED: "failure",
    Outcome.NOT_OFFERED: "skipped",
    Outcome.DIED: "error",
    Outcome.TOO_SLOW: "error",
    Outcome.NOT_RUN: "skipped",
}
GOOD = (Outcome.PASSED, Outcome.NOT_OFFERED)


class Wrong(Exception):
    """The words, or the cases, can't be used."""


class Died(Exception):
    """The adapter ended, or wrote what is no result."""


class TooSlow(Exception):
    """The adapter wrote nothing in time."""


def section_of(case: dict) -> tuple[str, str]:
    """The report and the section, as the table has them."""
    return case["report"], case["section"] + (" (own)" if case["own"] else "")


@dataclass(frozen=True)
class Judged:
    """A case with what became of it, and as text what the adapter did."""

    case: dict
    outcome: Outcome
    said: str = ""
    seconds: float = 0.0
    # Whether the place of a refusal is the expected one; None if there is none to compare.
    is_place_right: bool | None = None


@dataclass
class Run:
    """What became of all cases with one adapter."""

    adapter: str
    judged: list[Judged] = field(default_factory=list)

    def is_good(self) -> bool:
        return all(it.outcome in GOOD for it in self.judged)

    def bad(self) -> Iterator[Judged]:
        return (it for it in self.judged if it.outcome not in GOOD)


class Adapter:
    """A running adapter, which is given one case at a time."""

    def __init__(self, words: list[str], seconds: float) -> None:
        self._seconds = seconds
        self._said = tempfile.TemporaryFile()  # (closed by `end`)
        # (a session of its own, so that what it starts ends with it)
        pipes = {"stdin": subprocess.PIPE, "stdout": subprocess.PIPE, "stderr": self._said}
        self._child = subprocess.Popen(words, bufsize=0, start_new_session=True, **pipes)
        os.set_blocking(self._child.stdin.fileno(), False)
        self._readable, self._writable = selectors.DefaultSelector(), selectors.DefaultSelector()
        self._readable.register(self._child.stdout, selectors.EVENT_READ)
        self._writable.register(self._child.stdin, selectors.EVENT_WRITE)
        self._rest = b""

    def answer(self, case: dict) -> object:
        """The result for a case; or `Died` or `TooSlow`."""
        until = time.monotonic() + self._seconds
        asked = json.dumps({it: case[it] for it in ("id", "kind", "input")}) + "\n"
        self._send(asked.encode(), until)
        line = self._line(until)
        try:
            answered = json.loads(line)
        except (ValueError, RecursionError):
            answered = None
        if not isinstance(answered, dict) or answered.get("id") != case["id"] or "result" not in answered:
            raise Died(f"it wrote no result of this case: {line[:200].decode(errors='replace')}")
        return answered["result"]

    def _wait(self, ready: selectors.BaseSelector, until: float) -> None:
        """Returns if the stream is ready in time."""
        if not ready.select(max(0, until - time.monotonic())):
            raise TooSlow(f"no answer within {self._seconds:g} s; does it flush each line?")

    def _send(self, text: bytes, until: float) -> None:
        while text:
            try:
                text = text[os.write(self._child.stdin.fileno(), text) :]
            except BlockingIOError:
                self._wait(self._writable, until)
            except OSError:
                raise Died(self._end()) from None

    def _line(self, until: float) -> bytes:
        while b"\n" not in self._rest:
            self._wait(self._readable, until)
            piece = os.read(self._child.stdout.fileno(), 1 << 16)
            if not piece:
                raise Died(self._end())
            self._rest += piece
            if len(self._rest) > MOST_BYTES:
                raise Died(f"it wrote over {MOST_BYTES} bytes for one case")
        line, _, self._rest = self._rest.partition(b"\n")
        return line

    def _end(self) -> str:
        """How it ended, with what it wrote to standard error last."""
        try:
            status = self._child.wait(self._seconds)
        except subprocess.TimeoutExpired:
            return "it closed its input or its output"
        how = SIGNALS.get(-status, f"signal {-status}") if status < 0 else f"status {status}"
        size = self._said.seek(0, os.SEEK_END)
        self._said.seek(max(0, size - 10_000))
        lines = self._said.read().decode(errors="replace").strip().splitlines() or [""]
        # (Go writes the reason above its stack trace)
        last = next((it for it in lines if it.startswith(("panic: ", "fatal error: "))), lines[-1])
        return f"it ended with {how}: {last}".removesuffix(": ")

    def end(self, seconds: float = 0) -> None:
        """Closes its input, waits for its end, at most these seconds, and ends what is left of it."""
        self._readable.close()
        self._writable.close()
        self._child.stdin.close()
        with contextlib.suppress(subprocess.TimeoutExpired):
            self._child.wait(seconds)
        with contextlib.suppress(ProcessLookupError):
            os.killpg(self._child.pid, signal.SIGKILL)
        self._child.wait()
        self._child.stdout.close()
        self._said.close()


def as_one(value: object) -> str:
    """Equal texts for equal values; true isn't 1."""
    return json.dumps(value, sort_keys=True)


def compared(result: dict, name: str) -> object:
    value = result[name]
    is_set = name in UNORDERED and isinstance(value, list)
    return sorted(map(as_one, value)) if is_set else as_one(value)


def judge(case: dict, result: object, with_places: bool) -> tuple[Outcome, bool | None]:
    """What a result makes of a case, and whether its place is right."""
    expect = case["expect"]
    if not isinstance(result, dict):
        return Outcome.FAILED, None
    if result.get("offered") is False:
        return Outcome.NOT_OFFERED, None
    if result.get("refused") is True:
        if "refused" not in expect:
            return Outcome.REFUSED, None
        is_right = result["place"] == expect["place"] if "place" in expect and "place" in result else None
        return (Outcome.FAILED if with_places and is_right is False else Outcome.PASSED), is_right
    if all(it in result and compared(result, it) == compared(expect, it) for it in expect):
        return Outcome.PASSED, None
    return Outcome.FAILED, None


def run(command: str, cases: list[dict], words: argparse.Namespace) -> Run:
    """Gives each case to the adapter. It is started again after a case at which it ended or was too slow."""
    found, adapter, lost = Run(command), None, 0
    try:
        for case in cases:
            if lost == MOST_IN_A_ROW:
                found.judged.append(Judged(case, Outcome.NOT_RUN, f"it was lost at {MOST_IN_A_ROW} cases in a row"))
                continue
            began = time.monotonic()
            adapter = adapter or Adapter(shlex.split(command), words.limit)
            try:
                result = adapter.answer(case)
            except (Died, TooSlow) as why:
                outcome = Outcome.DIED if isinstance(why, Died) else Outcome.TOO_SLOW
                found.judged.append(Judged(case, outcome, str(why), time.monotonic() - began))
                adapter.end()
                adapter, lost = None, lost + 1
                continue
            lost = 0
            outcome, is_right = judge(case, result, words.places)
            found.judged.append(Judged(case, outcome, json.dumps(result)[:2000], time.monotonic() - began, is_right))
        if adapter:
            adapter.end(words.limit)
            adapter = None
    finally:
        # (an interrupt waits for nothing)
        if adapter:
            adapter.end()
    return found


def table(found: Run) -> Iterator[str]:
    """A row for each section, and one for all."""
    columns = [it for it in Outcome if it is not Outcome.NOT_RUN or any(each.outcome is it for each in found.judged)]
    rows: dict[tuple[str, str], Counter[Outcome]] = {}
    for it in found.judged:
        rows.setdefault(section_of(it.case), Counter())[it.outcome] += 1
    yield f"{'REPORT':<8}{'SECTION':<24}{'CASES':>6}" + "".join(f"{it.value.upper():>{len(it.value) + 2}}" for it in columns)
    for (report, section), counts in sorted(rows.items()):
        yield row(report, section, counts, columns)
    yield row("all", "", sum(rows.values(), Counter()), columns)


def row(report: str, section: str, counts: Counter[Outcome], columns: list[Outcome]) -> str:
    return f"{report:<8}{section:<24}{counts.total():>6}" + "".join(f"{counts[it]:>{len(it.value) + 2}}" for it in columns)


def printable(text: str) -> str:
    """The text without what could move a terminal's cursor."""
    return "".join(it if it.isprintable() else "\N{REPLACEMENT CHARACTER}" for it in text)


def first_bad(found: Run, most: int) -> Iterator[str]:
    bad = list(found.bad())
    for it in bad[:most]:
        case = it.case
        yield ""
        yield f"{it.outcome.value.upper()} {case['id']} (NIST IR {case['report']}, {case['section']}): {case['why']}"
        yield f"  input     {json.dumps(case['input'])[:1000]}"
        yield f"  expected  {json.dumps(case['expect'])[:1000]}"
        yield f"  {'answered' if it.outcome in (Outcome.FAILED, Outcome.REFUSED) else 'but     '}  {printable(it.said[:1000])}"
    if len(bad) > most:
        yield ""
        yield f"{len(bad) - most} more did not pass; --first {len(bad)} shows all"


def report(found: Run, words: argparse.Namespace, left_out: int) -> None:
    print(f"\n{found.adapter}")
    print("\n".join(table(found)))
    places = Counter(it.is_place_right for it in found.judged)
    if places[True] or places[False]:
        print(f"places of refusals, an extra: {places[True]} as expected, {places[False]} others")
    if left_out:
        print(f"left out: {left_out} cases of rules that are cpe's own, and not the reports'; --own runs them")
    print("\n".join(first_bad(found, words.first)), flush=True)


def xml_text(text: str) -> str:
    """The text without characters that XML doesn't allow."""
    return re.sub(r"[^\t\n\r\x20-\ud7ff\ue000-\ufffd\U00010000-\U0010ffff]", "\N{REPLACEMENT CHARACTER}", text)


def suite_of(found: Run) -> ElementTree.Element:
    """The results of an adapter in JUnit's form."""
    tags = Counter(TAGS[it.outcome] for it in found.judged)
    counts = {"tests": len(found.judged), "failures": tags["failure"], "errors": tags["error"], "skipped": tags["skipped"]}
    seconds = sum(it.seconds for it in found.judged)
    suite = ElementTree.Element(
        "testsuite", {at: str(it) for at, it in counts.items()}, name=xml_text(found.adapter), time=f"{seconds:.3f}"
    )
    for it in found.judged:
        place = ElementTree.SubElement(
            suite, "testcase", classname=" ".join(section_of(it.case)), name=it.case["id"], time=f"{it.seconds:.3f}"
        )
        if TAGS[it.outcome]:
            details = ElementTree.SubElement(place, TAGS[it.outcome], message=xml_text(f"{it.outcome.value}: {it.case['why']}"))
            details.text = xml_text(f"input {json.dumps(it.case['input'])}\nexpected {json.dumps(it.case['expect'])}\nanswered {it.said}")
    return suite


def write_junit(runs: list[Run], path: pathlib.Path) -> None:
    top = ElementTree.Element("testsuites")
    top.extend(map(suite_of, runs))
    path.write_bytes(ElementTree.tostring(top, encoding="utf-8", xml_declaration=True))


def read_cases(paths: list[pathlib.Path]) -> Iterator[dict]:
    for path in paths:
        try:
            lines = path.read_text(encoding="utf-8").split("\n")
            cases = [json.loads(line) for line in lines if line]
        except (OSError, ValueError) as why:
            raise Wrong(f"{path}: {why}") from None
        if not all(isinstance(it, dict) and it.keys() >= set(MEMBERS) for it in cases):
            raise Wrong(f"{path}: a line is no case")
        yield from cases


def is_chosen(case: dict, words: argparse.Namespace) -> bool:
    """Whether the words choose a case; of the words that are given each has to."""
    choices = ((words.report, "report"), (words.section, "section"), (words.kind, "kind"))
    if any(wanted and case[member] not in wanted for wanted, member in choices):
        return False
    return not words.id or bool({case["id"], case["id"].rpartition("-")[0]} & set(words.id))


class Parser(argparse.ArgumentParser):
    def error(self, message: str) -> NoReturn:
        self.print_usage(sys.stderr)
        self.exit(4, f"{self.prog}: {message}\n")


def said() -> argparse.Namespace:
    parser = Parser(description=__doc__, formatter_class=argparse.RawDescriptionHelpFormatter)
    parser.add_argument("adapter", nargs="+", metavar="ADAPTER", help="a command, as one word")
    parser.add_argument("--cases", nargs="+", type=pathlib.Path, metavar="FILE", help="files of cases (all in cases/ beside this program)")
    parser.add_argument("--report", action="append", choices=("7695", "7696", "7697", "7698"), help="only cases of this report")
    parser.add_argument("--section", action="append", help="only cases of this section or subject")
    parser.add_argument("--kind", action="append", help="only cases of this kind")
    parser.add_argument("--id", action="append", help="only this case, or the cases of this group")
    parser.add_argument("--own", action="store_true", help="also cases of rules that are cpe's own")
    parser.add_argument("--places", action="store_true", help="a refusal with another place fails")
    parser.add_argument("--limit", type=float, default=10, metavar="SECONDS", help="the longest that a case may take (10)")
    parser.add_argument("--first", type=int, default=10, metavar="COUNT", help="the most cases to show that did not pass (10)")
    parser.add_argument("--junit", type=pathlib.Path, metavar="FILE", help="where the results are written as JUnit's XML")
    words = parser.parse_intermixed_args()
    if not 0 < words.limit < MOST_SECONDS or words.first < 0:
        parser.error(f"--limit is above 0 and below {MOST_SECONDS}, and --first is not below 0")
    for command in words.adapter:
        try:
            program = shlex.split(command)[:1]
        except ValueError as why:
            parser.error(f"{command}: {why}")
        if not program or not shutil.which(program[0]):
            parser.error(f"there is no program {command!r}; an adapter is one word, such as 'python3 mine.py'")
    return words


def stop(*_: object) -> NoReturn:
    raise KeyboardInterrupt


def main() -> int:
    words = said()
    signal.signal(signal.SIGTERM, stop)
    sys.stdout.reconfigure(errors="backslashreplace")
    cases = [it for it in read_cases(words.cases or sorted((HERE / "cases").glob("*.jsonl"))) if is_chosen(it, words)]
    chosen = [it for it in cases if words.own or not it["own"]]
    print(f"CPE 2.3 conformance cases, version {(HERE / 'cases' / 'VERSION').read_text().strip()}: {len(chosen)}", flush=True)
    if not chosen:
        print("no case is chosen")
        return 5
    runs = []
    for command in words.adapter:
        runs.append(run(command, chosen, words))
        report(runs[-1], words, len(cases) - len(chosen))
    if words.junit:
        write_junit(runs, words.junit)
    return 0 if all(it.is_good() for it in runs) else 1


if __name__ == "__main__":
    try:
        sys.exit(main())
    except KeyboardInterrupt:
        sys.exit(2)
    except Wrong as why:
        print(why, file=sys.stderr)
        sys.exit(4)
    except Exception as why:
        # (Python's own status would say that cases failed)
        print(f"this program failed: {type(why).__name__}: {why}", file=sys.stderr)
        sys.exit(3)
