#!/usr/bin/env python3
"""Lets each read and each write of short sessions fail in turn: failing_calls.py PROGRAM [VECTOR ..].

A session is a vector beside this file, such as bind-uri/lines. The name of its folder has the words; without an input
its own name is the last word. Without VECTOR the SESSIONS are used. First nothing fails, and bytes are read and written
in several ways. Each run must end as the vector says. If each read returns a byte, there are as many reads as bytes,
and one that finds the end, or none under words that read nothing. If each write takes a byte, there are as many writes
as bytes. Then each of these reads fails in a run of its own. That run must end with status 3, and must have written the
answers to the whole lines before, and nothing that belongs to the end of an input. Then each of these writes fails in a
run of its own. That run must end with status 4, and must have written the bytes before. No call may follow the one that
failed, and standard error must be empty. The status is 0 if all of this holds. Without a C compiler, or if the
program's calls are not those of the C library, all is SKIPPED.
"""
import collections
import concurrent.futures
import itertools
import os
import pathlib
import sys
import tempfile

sys.dont_write_bytecode = True

from preloaded import TOP, compiled, run  # noqa: E402

VECTORS = TOP / "tests" / "vectors"
# Each kind of command. Between them lines end in each way, and lines are refused, the last one among them.
SESSIONS = (
    "unbind/last-line-has-no-newline",
    "bind-fs/lines",
    "bind-uri/last-line-is-refused-without-newline",
    "compare/last-line-is-refused-without-newline",
    "resolve/a-session-in-brief",
    "evaluate/a-session-in-brief",
    "watch/a-session-in-brief",
    "convert/empty-lines-and-carriage-returns",
    "explain/answers-and-refusals",
    "check/fact-and-negated-check",
    "advise/a-session-in-brief",
    "cover/refusals-between-names",
    "save/an-item",
    "load/an-item",
    "load/cut-off",
    "make/8",
    "drill/16",
    "usage/wrong-words",
)
# The beginning of the first line at the end of an input, under the words that have such lines; `save` and `load` have
# no others.
FIRST_AT_THE_END = {"evaluate": b"verdicts ", "explain": b'{"do":"proof",', "cover": b"cpe:", "save": b"", "load": b""}
SOME_REFUSED, USAGE, READ_FAULT, WRITE_FAULT = 1, 2, 3, 4
A_BYTE_A_READ = {"READ_MOST": "1"}
A_BYTE_A_WRITE = {"WRITE_MOST": "1"}
# Most sessions are longer than such a read, so that input is left at the first writes.
SHORT_READS = {"READ_MOST": "64"}

# A run: its name, the settings of the shim, its expected status and output, and the expected number of reads and writes,
# if these are tested.
Try = collections.namedtuple("Try", "what told status output reads writes", defaults=(None, None))


class Session:
    """The words and the input of a vector, and how a run over it ends in which nothing fails."""

    def __init__(self, program, shim, vector):
        folder, name = vector.split("/")
        self.path = VECTORS / folder / f"{name}.in"
        self.is_read = self.path.is_file()
        self.words = [program, *folder.split("-"), *([] if self.is_read else [name])]
        self.at_the_end = FIRST_AT_THE_END.get(folder)
        self.shim = shim
        self.input = self.path.read_bytes() if self.is_read else b""
        self.output = (VECTORS / folder / f"{name}.out").read_bytes()
        is_refused = self.is_read and any(line.startswith(b"refused ") for line in self.output.splitlines())
        self.status = USAGE if folder == "usage" else SOME_REFUSED if is_refused else 0

    def run(self, told):
        with open(self.path if self.is_read else os.devnull, "rb") as lines:
            return run(self.words, self.shim, lines, told)

    def is_unseen(self):
        """Whether a run ends as it has to without the shim, and the shim sees no call of it."""
        alone, beside = self.run({"LD_PRELOAD": ""}), self.run({})
        return (alone.status, alone.output) == (self.status, self.output) and not beside.reads + beside.writes

    def answers(self, count):
        """The answers to the lines in this many bytes of the input, without the lines at the end of an input."""
        with tempfile.TemporaryFile(dir=TOP / "build") as lines:
            lines.write(self.input[:count])
            lines.seek(0)
            said = run(self.words, self.shim, lines, {}).output.splitlines(keepends=True)
        return b"".join(itertools.takewhile(lambda line: self.at_the_end is None or not line.startswith(self.at_the_end), said))

    def reads(self):
        """How many reads there are where each gives a byte: the last finds the end."""
        return len(self.input) + 1 if self.is_read else 0

    def whole(self):
        """Runs in which nothing fails."""
        ended = (self.status, self.output)
        yield Try("all bytes at once", {}, *ended)
        yield Try("a byte a read", A_BYTE_A_READ, *ended, reads=self.reads())
        yield Try("a byte a write", A_BYTE_A_WRITE, *ended, writes=len(self.output))
        yield Try("one, two and 65,536 bytes a read, three a write", {"READ_MOST": "1 2 65536", "WRITE_MOST": "3"}, *ended)

    def broken_off(self, answers):
        """Runs in which a call fails; the answers are those to the lines before this many bytes."""
        for number in range(1, self.reads() + 1):
            said = answers[self.input.rfind(b"\n", 0, number - 1) + 1]
            yield Try(f"read {number} fails", {"FAIL_READ": str(number), **A_BYTE_A_READ}, READ_FAULT, said, reads=number)
        for number in range(1, len(self.output) + 1):
            said = self.output[: number - 1]
            yield Try(f"write {number} fails", {"FAIL_WRITE": str(number), **A_BYTE_A_WRITE, **SHORT_READS}, WRITE_FAULT, said, writes=number)

    def wrong(self, it):
        """What is wrong with a run, or None."""
        ended = self.run(it.told)
        if ended.status != it.status:
            return f"{it.what}: status {ended.status} in place of {it.status}"
        if ended.output != it.output:
            return f"{it.what}: it writes {ended.output[-100:]!r} at last in place of {it.output[-100:]!r}"
        for kind in ("reads", "writes"):
            if getattr(it, kind) not in (None, getattr(ended, kind)):
                return f"{it.what}: {getattr(ended, kind)} {kind} in place of {getattr(it, kind)}"
        return None


def tried(session, pool):
    """What is wrong with runs of a session, and how many there were."""
    whole = list(session.whole())
    wrong = [it for it in pool.map(session.wrong, whole) if it]
    if wrong:
        return wrong, len(whole)
    ends = [0, *(at + 1 for at, byte in enumerate(session.input) if byte == ord("\n"))]
    answers = dict(zip(ends, pool.map(session.answers, ends)))
    wrong = [f"what the first {end} bytes are answered is no beginning of the output" for end in ends if not session.output.startswith(answers[end])]
    broken_off = list(session.broken_off(answers))
    wrong += [it for it in pool.map(session.wrong, broken_off) if it]
    return wrong, len(whole) + len(ends) + len(broken_off)


def tell(vector, session, wrong, runs):
    if wrong:
        print(f"FAILED: {vector}: {wrong[0]}" + (f"; {len(wrong) - 1} more" if wrong[1:] else ""), flush=True)
    else:
        print(f"ok: {vector}: {session.reads()} reads and {len(session.output)} writes that fail, {runs} runs", flush=True)


def skip(why):
    print(f"SKIPPED: each read and each write that fails: {why}")
    sys.exit(0)


def main(words):
    if not words:
        sys.exit(__doc__)
    program = pathlib.Path(words[0]).resolve()
    if not os.access(program, os.X_OK) or not program.is_file():
        sys.exit(f"{program} is no program: run make build first")
    os.makedirs(TOP / "build", exist_ok=True)
    is_wrong = False
    with tempfile.TemporaryDirectory(dir=TOP / "build") as room, concurrent.futures.ThreadPoolExecutor(os.cpu_count()) as pool:
        shim = compiled(room)
        if not shim:
            skip("there is no C compiler")
        for vector in words[1:] or SESSIONS:
            session = Session(program, shim, vector)
            if session.is_unseen():
                skip("the program's calls are not those of the C library")
            wrong, runs = tried(session, pool)
            tell(vector, session, wrong, runs)
            is_wrong = is_wrong or bool(wrong)
    return 1 if is_wrong else 0


if __name__ == "__main__":
    sys.exit(main(sys.argv[1:]))
