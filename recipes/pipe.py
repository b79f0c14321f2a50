#!/usr/bin/env python3
"""A client of `cpe` over a pipe, for use in programs of your own; docs/PIPE.md explains it.

    with Client("resolve") as client:
        client.ask('{"do":"entry","name":"cpe:/a:gnu:gnutls:3.8.0"}')    # Answer(number=1, refusal=None, lines=[])
        for answer in client.ask_all(lines_of_a_feed): ..

The client serves all commands that read lines. `save` answers no line. For `save`, `send` writes the lines, and `end`
returns the snapshot.

As a script (python3 pipe.py WORD.. < LINES) it writes for each line its number and the lines of its answer, separated
by tabs. At the end it writes what `cpe` writes at the end of the input. Empty lines are ignored.
"""
import collections
import contextlib
import os
import queue
import subprocess
import sys
import threading
import uuid

# What is asked after each line that may have no answer, so that the end of it is seen: this about an id that nobody has
# put. Under `cover` it is a line that is no name, and is refused. Under the other words each line has one line for its
# answer.
BARRIERS = {
    "resolve": "verdict",
    "evaluate": "verdict",
    "watch": "verdict",
    "explain": "verdict",
    "check": "verdict",
    "advise": "affected",
}
COVER, SAVE = "cover", "save"
WORDS = ("unbind", "bind", "compare", "convert", *BARRIERS, COVER, SAVE)
NO_NAME = "-"

# The number of the line, the reason where it was refused, or None, and all that was written for it.
Answer = collections.namedtuple("Answer", "number refusal lines")


class Client:
    """A run of `cpe WORD..`. EOFError is raised if it ends before it has answered."""

    def __init__(self, *words, program=os.environ.get("CPE", "cpe")):
        if not words or words[0] not in WORDS:
            raise ValueError(f"no word that answers lines; these do: {', '.join(WORDS)}")
        self.word, verb, id = words[0], BARRIERS.get(words[0]), uuid.uuid4().hex
        self._barrier, self._end = (f'{{"do":"{verb}","id":"{id}"}}\n', f"{verb} {id} absent") if verb else ("", "")
        if self.word == COVER:
            self._barrier = f"{NO_NAME}\n"
        self._last, self._sent, self._is_refused = 0, collections.deque(), False
        self._run = subprocess.Popen([program, *words], stdin=subprocess.PIPE, stdout=subprocess.PIPE)
        # (who only reads once all is written waits for ever where both pipes are full, so another thread writes)
        self._waiting = queue.SimpleQueue()
        threading.Thread(target=self._write, daemon=True).start()

    def ask(self, line):
        """The answer to one line."""
        return next(self.ask_all([line]))

    def ask_all(self, lines, ahead=1000):
        """The answers to any number of lines, in their order. As many as `ahead` are sent before the first answer is
        read."""
        if self.word == SAVE:
            raise ValueError("save answers no line; send them, and then end")
        self._forget()
        for line in lines:
            self._put(line)
            if len(self._sent) > ahead:
                yield self._answer()
        while self._sent:
            yield self._answer()

    def send(self, line):
        """Sends a line whose answer isn't awaited."""
        self._put(line)
        if self.word == SAVE:
            self._sent.clear()

    def end(self):
        """Ends the input. What is written at its end, such as the table of evaluate, and the status. Under `save` that
        is the snapshot, as bytes."""
        self._forget()
        self._waiting.put(None)
        rest, status = self._run.stdout.read(), self._run.wait()
        if self.word == COVER and status == 1 and not self._is_refused:
            # (the barriers alone were refused)
            status = 0
        return rest if self.word == SAVE else _text(rest).splitlines(), status

    def _forget(self):
        # (who asked for all may have stopped before the last answer)
        while self._sent:
            self._answer()

    def _put(self, line):
        if line in ("", "\r") or "\n" in line:
            raise ValueError("no single line, or an empty one, which has no answer")
        data = _bytes(f"{line}\n{self._barrier}")
        self._sent.append(self._last + 1)
        self._last += 2 if self._barrier else 1
        self._waiting.put(data)

    def _write(self):
        with contextlib.suppress(OSError), self._run.stdin as pipe:
            while (data := self._waiting.get()) is not None:
                pipe.write(data)
                if self._waiting.empty():
                    pipe.flush()

    def _answer(self):
        number, lines = self._sent.popleft(), []
        barrier = f"refused {number + 1} " if self.word == COVER else self._end
        while not lines or self._barrier:
            line = _text(self._run.stdout.readline())
            if not line.endswith("\n") or line.startswith("usage: "):
                raise EOFError(f"cpe ended with status {self._run.wait()} before it had answered line {number}")
            if self._barrier and (line.startswith(barrier) if self.word == COVER else line[:-1] == barrier):
                break
            lines.append(line[:-1])
        refused = f"refused {number} "
        refusal = lines[0].removeprefix(refused) if lines and lines[0].startswith(refused) else None
        self._is_refused = self._is_refused or refusal is not None
        return Answer(number, refusal, lines)

    def __enter__(self):
        return self

    def __exit__(self, *_):
        self._waiting.put(None)
        self._run.kill()
        self._run.wait()
        self._run.stdout.close()


def _bytes(text):
    """A text as bytes for cpe. It may contain bytes that are no UTF-8, as Python reads them (surrogateescape). Half a
    surrogate pair has no bytes; the bytes sent for it are no UTF-8, so that cpe refuses the line."""
    try:
        return text.encode(errors="surrogateescape")
    except UnicodeEncodeError:
        return text.encode(errors="surrogatepass")


def _text(data):
    return data.decode(errors="surrogateescape")


def _shown(text):
    """A text that a terminal shows as it is."""
    return "".join(one if one.isprintable() or one in "\t\n" else f"\\u{ord(one):04x}" for one in text)


def _write_out(text):
    sys.stdout.buffer.write(_bytes(_shown(text) if sys.stdout.isatty() else text))


def main(words):
    """Runs the script; its status."""
    with Client(*words) as of_lines:
        lines = (line for line in (_text(line).rstrip("\r\n") for line in sys.stdin.buffer) if line)
        if of_lines.word == SAVE:
            for line in lines:
                of_lines.send(line)
        else:
            for answer in of_lines.ask_all(lines):
                _write_out("\t".join([str(answer.number), *answer.lines]) + "\n")
        rest, status = of_lines.end()
        if isinstance(rest, bytes):
            sys.stdout.buffer.write(rest)
        else:
            _write_out("".join(f"{line}\n" for line in rest))
    sys.stdout.flush()
    return status


if __name__ == "__main__":
    if sys.argv[1:2] == ["--help"]:
        print(__doc__)
        sys.exit(0)
    if not set(sys.argv[1:2]) & set(WORDS):
        print(f"usage: pipe.py WORD.. < LINES, where the first word is one of {', '.join(WORDS)}", file=sys.stderr)
        sys.exit(2)
    try:
        sys.exit(main(sys.argv[1:]))
    except (OSError, EOFError) as fault:
        print(f"pipe.py: {_shown(str(fault))}", file=sys.stderr)
        sys.exit(2)
