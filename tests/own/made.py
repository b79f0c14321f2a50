"""Inputs that are long, and their answers, which are computed here from numbers alone."""
import json

# (one for all records, since many are written)
JSON = json.JSONEncoder(separators=(",", ":"), ensure_ascii=False)

def fs(part: str, vendor: str, product: str, version: str = "*") -> str:
    """A formatted string of four attributes."""
    return f"cpe:2.3:{part}:{vendor}:{product}:{version}:*:*:*:*:*:*:*"


def record(do: str, **members) -> str:
    """The text of a record."""
    return JSON.encode({"do": do, **members})


class MadeInput:
    """Lines for the program, and beside them what has to be written."""

    def __init__(self) -> None:
        self.lines: list[str] = []
        self.answered: list[str] = []

    def line(self, text: str) -> None:
        self.lines.append(text)

    def put(self, do: str, **members) -> None:
        """A line that is a record."""
        self.line(record(do, **members))

    def answer(self, *texts: str) -> None:
        self.answered += texts

    def refused(self, reason: str) -> None:
        """The last line is refused for this reason."""
        self.answer(f"refused {len(self.lines)} {reason}")

    def input(self) -> bytes:
        return "".join(f"{line}\n" for line in self.lines).encode()

    def output(self) -> bytes:
        return "".join(f"{line}\n" for line in self.answered).encode()
