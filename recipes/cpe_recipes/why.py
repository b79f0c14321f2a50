"""The reasons of verdicts as readable text, from the certificates of `cpe explain`: sh why.sh [--records FILE] [FILE].

    mysql is TRUE
      AND is TRUE, by all 2 of:
        TRUE, since item cpe:2.3:a:mysql:mysql:5.1:.. leads to cpe:2.3:a:oracle:mysql:5.1:.. (NAME_CORRECTION), which the fact .. covers
        ..

--records names the records that were explained. The records have what a certificate doesn't have: the operator of a
test, the fact that covers no item, the check, and the kinds of deprecations. Lines that are no certificates, such as
answers to questions, are ignored. This recipe doesn't test certificates; `cpe check` does that. The status is 1 if a
line with the word `proof` isn't a certificate, and 2 if there is no certificate at all.
"""
from __future__ import annotations

import json
from collections.abc import Iterator
from dataclasses import dataclass, field
from typing import Any

from .arguments import ONE, read_arguments
from .console import Fatal, Messages, Output, escape
from .feeds import text_lines, whole
from .from_snapshot import NotSnapshot, read
from .program import Program

USAGE = "why.sh [--records FILE] [FILE]"
TRUTHS = ("TRUE", "FALSE", "ERROR", "UNKNOWN")

Json = Any


class NoForm(Exception):
    """A certificate has another form."""


@dataclass
class CertificateContext:
    """The parts of records that certificates lack: the tests of statements by id, and the kinds of deprecations by
    name."""

    tests: dict[str, Json] = field(default_factory=dict)
    kinds: dict[str, str] = field(default_factory=dict)


def run(words: list[str]) -> int:
    arguments = read_arguments(words, {"--records": ONE}, USAGE)
    if len(arguments.files) > 1:
        raise Fatal(f"usage: {USAGE}")
    records = arguments.one("--records")
    context = CertificateContext() if records is None else read_context(Program(), whole(records))
    messages, output = Messages(), Output()
    count = 0
    for number, line in enumerate(
        text_lines(whole(arguments.files[0] if arguments.files else None).decode(errors="replace")), 1
    ):
        proof = proof_of(line)
        if proof is None:
            continue
        try:
            output.lines(list(describe_proof(proof, context)))
            count += 1
        except NoForm:
            messages.leave_out(f"line {number}", "it has not the form of a certificate")
    if count == 0:
        raise Fatal("no certificates")
    output.end(escape)
    return messages.status()


def read_context(program: Program, records: bytes) -> CertificateContext:
    """What `cpe` keeps of the records."""
    snapshot = program.bytes(["save"], records)
    try:
        rows = read(snapshot)
    except NotSnapshot as fault:
        raise Fatal(f"{program.path} save wrote no snapshot") from fault
    kinds = {row["name"]: row["kind"] for row in rows.entries if row["kind"] is not None}
    return CertificateContext({row["id"]: row["test"] for row in rows.statements}, kinds)


def proof_of(line: str) -> Json:
    """The certificate of a line, before its form is known; None if it speaks of none."""
    if not line.startswith("{"):
        return None
    try:
        value = json.loads(line)
    except (ValueError, RecursionError):
        return None
    return value if isinstance(value, dict) and value.get("do") == "proof" else None


def describe_proof(proof: Json, context: CertificateContext) -> Iterator[str]:
    """The lines of a certificate."""
    id, why = proof.get("id"), proof.get("why")
    if not isinstance(id, str):
        raise NoForm
    yield f"{id} is {truth_of(why)}"
    yield from level(why, context.tests.get(id), context, 1)


def truth_of(why: Json) -> str:
    truth = why.get("truth") if isinstance(why, dict) else None
    if truth not in TRUTHS:
        raise NoForm
    return str(truth)


def level(why: Json, test: Json, context: CertificateContext, depth: int) -> Iterator[str]:
    """The lines of a test, and of those below it."""
    truth = truth_of(why)
    space = "  " * depth
    if "of" in why:
        yield from logic(why, test, context, depth)
    elif "fact" in why or "item" in why:
        fact, item = names_at(why, "fact"), names_at(why, "item")
        covers = "covers" if truth == "TRUE" else "may cover, is known in part"
        yield f"{space}{truth}, since item {led(item, context)}, which the fact {led(fact, context)} {covers}"
    else:
        yield f"{space}{plain(truth, test)}"


def logic(why: Json, test: Json, context: CertificateContext, depth: int) -> Iterator[str]:
    of = why["of"]
    if not isinstance(of, list) or not of or depth > 32:
        raise NoForm
    tests = test["of"] if test is not None and len(test.get("of", ())) == len(of) else [None] * len(of)
    given = [number for number, one in enumerate(of) if one is not None]
    word = "the test" if test is None or "op" not in test else f"{'not ' if test['negate'] else ''}{test['op']}"
    how = (
        f"all {len(of)} of"
        if len(given) == len(of)
        else f"{', '.join(str(number + 1) for number in given)} of {len(of)} alone"
    )
    yield f"{'  ' * depth}{word} is {truth_of(why)}, by {how}:"
    for number in given:
        yield from level(of[number], tests[number], context, depth + 1)


def plain(truth: str, test: Json) -> str:
    if test is None:
        return f"{truth}, by no item or by a check"
    if "fact" in test:
        return f"{truth}, since no item is covered by {test['fact']}"
    key = test.get("check", {})
    return f"{truth}, as the check {key.get('id', '')} of {key.get('href', '')} ({key.get('system', '')}) is"


def names_at(why: Json, key: str) -> list[str]:
    names = why.get(key)
    if not isinstance(names, list) or not names or not all(isinstance(name, str) for name in names):
        raise NoForm
    return names


def led(names: list[str], context: CertificateContext) -> str:
    """A name, and where deprecations lead from it."""
    text = names[0]
    for before, name in zip(names, names[1:]):
        kind = context.kinds.get(before)
        text += f" leads to {name}" + (f" ({kind})" if kind else "")
    return text
