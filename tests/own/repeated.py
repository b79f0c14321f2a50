"""An input that stands many times in one input, and its answers, whose numbers of lines go on."""
import re

from own_case import joined, lines_of

# The answers that have the number of their line.
NUMBERED = re.compile(rb"(refused|changed) (\d+)(.*)", re.DOTALL)


def repeated(times: int, data: bytes) -> bytes:
    """The input, so many times, with a newline after its last line."""
    return joined(lines_of(data)) * times


def repeated_answers(times: int, data: bytes, output: bytes) -> bytes:
    """The answers to an input that stands so many times, from those to it alone."""
    length = len(lines_of(data))
    parts = [NUMBERED.fullmatch(line) or line for line in lines_of(output)]
    written = []
    for first in range(0, times * length, length):
        for part in parts:
            written.append(part if isinstance(part, bytes) else b"%s %d%s" % (part[1], int(part[2]) + first, part[3]))
    return joined(written)
