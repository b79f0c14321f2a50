#!/usr/bin/env python3
"""How much stack the program needs on the worst inputs known: stack.py [PROGRAM].

PROGRAM is build/cpe if left out. Each word runs on inputs that are nested as deep as they may be, and one level deeper,
and on long chains: first with the usual stack, then with less and less (`ulimit -s`). For each word the least stack is
printed, in KiB, with which it writes the same and ends with the same status. The status is 0 if no word needs more than
MOST. Where the system bounds no stack, all is SKIPPED, which is said, and counts as no pass.
"""

import dataclasses
import json
import pathlib
import resource
import subprocess
import sys
from collections.abc import Iterable

TOP = pathlib.Path(__file__).resolve().parent.parent
# The documents promise that this is enough, in KiB.
MOST = 256
STEP = 8
# As deep as a test and its certificate may be, and as JSON may.
DEEPEST_TEST = 32
DEEPEST_JSON = 127
NAME = {"part": "a", "vendor": "v", "product": "p", "version": "1"}
DATE = "2024-01-31"


@dataclasses.dataclass(frozen=True)
class Case:
    """A word, or two, on an input."""

    words: tuple[str, ...]
    given: bytes

    def run(self, program: str, stack: int | None) -> tuple[int, bytes]:
        """Its status and output, with a stack of this many KiB."""

        def bound() -> None:
            if stack is not None:
                resource.setrlimit(resource.RLIMIT_STACK, (stack << 10, stack << 10))

        words = [program, *self.words]
        ended = subprocess.run(words, input=self.given, stdout=subprocess.PIPE, stderr=subprocess.DEVNULL, preexec_fn=bound, check=False, timeout=240)
        return ended.returncode, ended.stdout


def lines(records: Iterable[object]) -> bytes:
    return b"".join((it if isinstance(it, str) else json.dumps(it)).encode() + b"\n" for it in records)


def nested(depth: int, leaf: dict) -> dict:
    """A test of this many levels, each of which has a leaf beside the next level."""
    test: dict = {"op": "OR", "of": [leaf]}
    for level in range(1, depth):
        test = {"op": ("AND", "OR")[level % 2], "negate": level % 3 == 0, "of": [test, leaf]}
    return test


def why(depth: int) -> dict:
    """A certificate of this many levels, which fits no statement here, but is read to its end."""
    made: dict = {"truth": "TRUE", "of": [{"truth": "TRUE", "fact": ["cpe:/a:v:p"], "item": ["cpe:/a:v:p:1"]}]}
    for _ in range(1, depth):
        made = {"truth": "TRUE", "of": [made, None]}
    return made


def chain(length: int) -> list[dict]:
    """Entries that lead to one another, from the last to the first."""
    names = [f"cpe:/a:v:q:{place}" for place in range(length)]
    led = [
        {"do": "deprecate", "name": name, "kind": "NAME_CORRECTION", "successors": [after], "date": DATE}
        for after, name in zip(names, names[1:])
    ]
    return [{"do": "entry", "name": name} for name in names] + led + [{"do": "chain", "name": names[-1]}]


def records() -> list[object]:
    """Rows, tests as deep as they may be and deeper, and JSON that is."""
    leaves = ({"fact": "cpe:/a:v:p"}, {"fact": "cpe:/a:v:q:1999"}, {"check": {"system": "s", "href": "h", "id": "i"}})
    made: list[object] = [{"do": "item", "name": "cpe:/a:v:p:1"}, {"do": "item", "name": "cpe:/a:v:q:1999"}, *chain(2000)]
    for place, leaf in enumerate(leaves):
        for mode in ("plain", "follow"):
            for depth in (DEEPEST_TEST, DEEPEST_TEST + 1):
                made.append({"do": "statement", "id": f"{mode}-{depth}-{place}", "mode": mode, "test": nested(depth, leaf)})
    made.append({"do": "statement", "id": "objects", "v": "2", "test": nested(DEEPEST_TEST, {"fact": NAME})})
    made += [{"do": "check", "system": "s", "href": "h", "id": "i", "result": it} for it in ("TRUE", "ERROR")]
    made += [{"do": "item", "name": "cpe:/a:v:p:%02"}, {"do": "drop-item", "name": "cpe:/a:v:q:1999"}, {"do": "restore", "name": "cpe:/a:v:q:1", "date": DATE}]
    made += ["[" * depth + "]" * depth for depth in (DEEPEST_JSON, DEEPEST_JSON + 1, 30000)]
    made.append('{"do":"item","name":' + '{"part":' * (DEEPEST_JSON - 1) + '"a"' + "}" * DEEPEST_JSON)
    return made


def cases(program: str) -> list[Case]:
    """Each word on what is worst for it."""
    asked = lines(records())
    proofs = lines([{"do": "proof", "id": "plain-32-0", "why": why(depth)} for depth in (DEEPEST_TEST, DEEPEST_TEST + 1, DEEPEST_JSON)])
    long = b"cpe:2.3:a:v:" + b"a" * 65508 + b":*:*:*:*:*:*:*:*"
    names = long + b"\ncpe:/a:v:p\ncpe:2.3:a:v:*" + b"ab" * 30000 + b"*:*:*:*:*:*:*:*:*\n"
    written = Case(("unbind",), names).run(program, None)[1]
    pair = b"cpe:2.3:a:v:*" + b"a" * 30000 + b"b*:*:*:*:*:*:*:*:* cpe:2.3:a:v:" + b"a" * 35000 + b":*:*:*:*:*:*:*:*\n"
    explained = Case(("explain",), asked).run(program, None)[1]
    given = [(("unbind",), names), (("bind", "fs"), written), (("bind", "uri"), written), (("compare",), pair), (("cover",), names)]
    given += [((word,), asked) for word in ("resolve", "evaluate", "watch", "explain", "save", "convert")]
    given.append((("check",), asked + explained + proofs))
    given.append((("load",), Case(("save",), asked).run(program, None)[1]))
    given.append((("advise",), asked + lines([{"do": "advisory", "id": "A", "name": "cpe:/a:v:p", "end": "1." * 120 + "1"}, {"do": "affected", "id": "A"}])))
    given += [(("make", "1000"), b""), (("drill", "8000"), b"")]
    return [Case(words, text) for words, text in given]


def least(case: Case, program: str) -> int:
    """The least stack in KiB with which a case ends as it does with the usual one."""
    wanted = case.run(program, None)
    if wanted[0] not in (0, 1):
        sys.exit(f"{' '.join(case.words)}: status {wanted[0]} with the usual stack")
    low, high = 0, 1024
    while high - low > STEP:
        middle = (low + high) // 2 // STEP * STEP
        low, high = (low, middle) if case.run(program, middle) == wanted else (middle, high)
    return high


def main(words: list[str]) -> None:
    program = str(pathlib.Path(words[0]).resolve()) if words else str(TOP / "build" / "cpe")
    _, hard = resource.getrlimit(resource.RLIMIT_STACK)
    if hard not in (resource.RLIM_INFINITY,) and hard < 2 << 20:
        print("SKIPPED: the stack that each word needs: it is bounded here already")
        return
    if Case(("make", "1"), b"").run(program, 4)[0] in (0, 1):
        print("SKIPPED: the stack that each word needs: the system does not bound it")
        return
    needed = {" ".join(case.words): least(case, program) for case in cases(program)}
    for word, stack in needed.items():
        print(f"{word}: {stack} KiB of stack")
    most = max(needed.values())
    print(f"at most {most} KiB, where {MOST} are promised")
    if most > MOST:
        sys.exit(1)


if __name__ == "__main__":
    main(sys.argv[1:])
