#!/usr/bin/env python3
"""Answers cases by the program `cpe`: CPE in the environment, or build/cpe."""

import contextlib
import json
import os
import pathlib
import re
import subprocess
import sys

ATTRIBUTES = ("part", "vendor", "product", "version", "update", "edition", "language", "sw_edition", "target_sw", "target_hw", "other")
PROGRAM = os.environ.get("CPE") or str(pathlib.Path(__file__).resolve().parents[2] / "build" / "cpe")
# An attribute in the text of a name: a logical value, or a text in double quotes.
PAIR = re.compile(r'(\w+)=(?:(ANY|NA)|"((?:[^"\\]|\\.)*)")')
DATE = "2024-01-01"


class Refused(Exception):
    """`cpe` refuses a text, at a place if it says one."""

    def __init__(self, place: int | None = None) -> None:
        self.place = place


class Program:
    """A command of `cpe` that answers each line with one line."""

    def __init__(self, *words: str) -> None:
        self._child = subprocess.Popen([PROGRAM, *words], stdin=subprocess.PIPE, stdout=subprocess.PIPE)

    def line(self, text: str) -> str:
        self._child.stdin.write(text.encode() + b"\n")
        self._child.stdin.flush()
        answer = self._child.stdout.readline().decode().rstrip("\n")
        refused = re.fullmatch(r"refused \d+ \w+(?: (\d+))?", answer)
        if refused:
            raise Refused(refused[1] and int(refused[1]))
        return answer


class Programs:
    """A program for each command, started at its first line."""

    def __init__(self) -> None:
        self._started: dict[tuple[str, ...], Program] = {}

    def line(self, text: str, *words: str) -> str:
        # (an empty line isn't answered, and a newline would end it)
        if not text or "\n" in text:
            raise Refused(0)
        if words not in self._started:
            self._started[words] = Program(*words)
        return self._started[words].line(text)

    def records(self, command: str, records: list[dict]) -> list[str]:
        """What a fresh program writes for these records."""
        given = "".join(json.dumps(it) + "\n" for it in records).encode()
        return subprocess.run([PROGRAM, command], input=given, stdout=subprocess.PIPE, check=False).stdout.decode().splitlines()


def values(text: str) -> dict:
    """The attributes of a text `wfn:[..]`: None is NA, and what is ANY is left out."""
    return {at: None if logical else value for at, logical, value in PAIR.findall(text) if logical != "ANY"}


def text_of(name: dict) -> str:
    return "wfn:[" + ",".join(f"{at}=NA" if value is None else f'{at}="{value}"' for at, value in name.items()) + "]"


def entries(given: list[dict]) -> list[dict]:
    """The records that make a dictionary: all entries, and then their deprecations."""
    added = [{"do": "entry", "name": it["name"]} for it in given]
    return added + [{"do": "deprecate", "name": it["name"], "date": DATE, **it["deprecation"]} for it in given if "deprecation" in it]


def asked(programs, given: dict, question: dict) -> list[str]:
    lines = programs.records("resolve", [*entries(given["entries"]), question])
    if any(it.startswith("refused") for it in lines):
        raise Refused
    return lines


def unbound(programs, given: dict) -> dict:
    # (cpe reads a text that begins so as a URI)
    return {"name": values(programs.line(given["text"], "unbind"))}


def relation_of_values(programs, given: dict) -> dict:
    words = programs.line(f"{given['source']} {given['target']}", "compare").split()
    return {"relation": words[1 + ATTRIBUTES.index(given["attribute"])]}


def chain(programs, given: dict) -> dict:
    lines = asked(programs, given, {"do": "chain", "name": given["ask"]})
    return {"ends": [it.removeprefix("end ") for it in lines if it.startswith("end ")]}


def search(programs, given: dict) -> dict:
    lines = asked(programs, given, {"do": "search", "name": given["ask"]})
    return {"found": [it.split(" ")[1] for it in lines if it.startswith("entry ")]}


def deprecated(programs, given: dict) -> dict:
    made = programs.records("resolve", entries(given["entries"]))
    record = {"do": "deprecate", "date": DATE, **given["deprecate"]}
    with_it = programs.records("resolve", [*entries(given["entries"]), record])
    if made:
        raise Refused
    return {"accepted": not with_it}


def evaluated(programs, given: dict) -> dict:
    items = [{"do": "item", "name": it} for it in given["items"]]
    results = [{"do": "check", **it} for it in given["checks"]]
    statement = {"do": "statement", "id": "it", "mode": given.get("mode", "plain"), "test": given["test"]}
    lines = programs.records("evaluate", [*entries(given.get("entries", [])), *items, *results, statement])
    if any(it.startswith("refused") for it in lines):
        raise Refused
    return {"truth": lines[-1].split(" ")[-1]}


KINDS = {
    "unbind-fs": unbound,
    "unbind-uri": unbound,
    "bind-fs": lambda programs, given: {"text": programs.line(text_of(given["name"]), "bind", "fs")},
    "bind-uri": lambda programs, given: {"text": programs.line(text_of(given["name"]), "bind", "uri")},
    "relate-values": relation_of_values,
    "relate-names": lambda programs, given: {"relation": programs.line(f"{given['source']} {given['target']}", "compare").split()[0]},
    "identifier": lambda programs, given: {"accepted": not programs.records("resolve", [{"do": "entry", "name": given["text"]}])},
    "lookup": lambda programs, given: {"state": asked(programs, given, {"do": "lookup", "name": given["ask"]})[-1].split(" ")[-1]},
    "chain": chain,
    "search": search,
    "deprecate": deprecated,
    "evaluate": evaluated,
}


def answer(programs, case: dict) -> dict:
    if case["kind"] not in KINDS:
        return {"offered": False}
    try:
        return KINDS[case["kind"]](programs, case["input"])
    except Refused as why:
        return {"refused": True} | ({} if why.place is None else {"place": why.place})


def main(programs) -> None:
    for line in sys.stdin:
        case = json.loads(line)
        print(json.dumps({"id": case["id"], "result": answer(programs, case)}), flush=True)


if __name__ == "__main__":
    with contextlib.suppress(BrokenPipeError):
        main(Programs())
