"""The chains of names as a graph in DOT: sh chain-graph.sh [--svg FILE] RECORDS NAME...

RECORDS are records for `cpe resolve`. Each NAME is in either binding. The graph has each entry of the chains once. An
arrow leads from an entry to each successor, labelled with the kind of the deprecation. A name without a successor has a
double frame, and a removed name a dashed frame. With --svg the program `dot` of Graphviz also draws the graph into
FILE.

    sh chain-graph.sh records.jsonl cpe:/a:mysql:mysql:5.1.73 | dot -Tsvg > chain.svg

The status is 1 if records were refused, and 2 if a NAME is no name.
"""
from __future__ import annotations

import json
import shutil
import subprocess
from collections.abc import Iterator

from .arguments import ONE, read_arguments
from .console import Fatal, Messages, Output, describe_fault
from .feeds import text_lines, whole
from .program import Program, refusals

USAGE = "chain-graph.sh [--svg FILE] RECORDS NAME..."


def run(words: list[str]) -> int:
    arguments = read_arguments(words, {"--svg": ONE}, USAGE)
    if len(arguments.files) < 2:
        raise Fatal(f"usage: {USAGE}")
    records = text_lines(whole(arguments.files[0]).decode(errors="replace"))
    program, messages, output = Program(), Messages(), Output()
    steps = steps_of(program, records, arguments.files[1:], messages)
    lines = list(
        graph(steps, successors_of(program, records, [name for name, state in steps.items() if state != "active"]))
    )
    svg = arguments.one("--svg")
    if svg is not None:
        draw(lines, svg)
    output.lines(lines)
    output.end()
    return messages.status()


def steps_of(program: Program, records: list[str], names: list[str], messages: Messages) -> dict[str, str]:
    """The names to which paths lead, and of each whether it is `active`, the kind of its deprecation, or nothing if
    it is no entry."""
    questions = [json.dumps({"do": "chain", "name": name}) for name in names]
    lines = program.run(["resolve"], [*records, *questions])
    refused = refusals(lines)
    for number, name in enumerate(names, len(records) + 1):
        if number in refused:
            raise Fatal(f"{name} is no name: {refused[number]}")
    for number, reason in refused.items():
        messages.leave_out(f"line {number}", reason)
    steps: dict[str, str] = {}
    for line in lines[first_answer(lines, len(names)) :]:
        word, *rest = line.split(" ")
        if word == "chain":
            steps.setdefault(rest[0], "")
        elif word == "step":
            steps[rest[0]] = rest[1]
    return steps


def first_answer(lines: list[str], count: int) -> int:
    """The place of the first line of the last `count` answers to chains."""
    chains = [place for place, line in enumerate(lines) if line.startswith("chain ")]
    return chains[-count]


def successors_of(program: Program, records: list[str], names: list[str]) -> dict[str, tuple[str, list[str]]]:
    """The kind and the successors of each of these entries that is deprecated."""
    questions = [json.dumps({"do": "show", "name": name}) for name in names]
    found = {}
    for line in program.run(["resolve"], [*records, *questions])[-len(questions) :] if questions else []:
        text = line.removeprefix("show ")
        entry = json.loads(text) if text.startswith("{") else {"deprecation": None}
        if entry["deprecation"] is not None:
            found[entry["name"]] = entry["deprecation"]["kind"], entry["deprecation"]["successors"]
    return found


def graph(steps: dict[str, str], successors: dict[str, tuple[str, list[str]]]) -> Iterator[str]:
    """The lines of the graph."""
    numbers = {name: number for number, name in enumerate(steps, 1)}
    yield "digraph chain {"
    yield "  rankdir=LR;"
    yield "  node [shape=box];"
    for name, state in steps.items():
        look = {"active": ", peripheries=2", "": ", peripheries=2", "NAME_REMOVAL": ", style=dashed"}.get(state, "")
        yield f"  n{numbers[name]} [label={quote(name)}{look}];"
    for name, (kind, following) in successors.items():
        for successor in following:
            yield f"  n{numbers[name]} -> n{numbers[successor]} [label={quote(kind)}];"
    yield "}"


def quote(text: str) -> str:
    """A text as DOT quotes it."""
    return '"' + text.replace("\\", "\\\\").replace('"', '\\"') + '"'


def draw(lines: list[str], path: str) -> None:
    if shutil.which("dot") is None:
        raise Fatal("there is no dot, which draws graphs")
    try:
        subprocess.run(
            ["dot", "-Tsvg", "-o", path], input="\n".join(lines).encode(), check=True, stdout=subprocess.DEVNULL
        )
    except OSError as fault:
        raise Fatal(f"dot can not be run: {describe_fault(fault)}") from fault
    except subprocess.CalledProcessError as fault:
        raise Fatal(f"dot ended with status {fault.returncode}") from fault
