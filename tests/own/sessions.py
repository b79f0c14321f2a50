"""The examples of a document: the sessions of a shell in it, and the table of its words."""
import collections
import re

INDENT = "    "
TABLE = "## The words"

# What is typed in all sessions of a document, and what is written then.
Sessions = collections.namedtuple("Sessions", "typed written")
# A row of the table: the words, their input, what is written, and whether that is the beginning alone.
Row = collections.namedtuple("Row", "words given written is_beginning")


def sessions_of(text: str) -> Sessions:
    """The sessions of a document, in lines that are indented by four spaces.

    What stands after a dollar sign is typed, and the lines below it are what is written. An empty line between two of
    these is one of them. What is typed goes on to a line END if it has an input in place.
    """
    typed: list[str] = []
    written: list[str] = []
    empty, is_session, is_input = 0, False, False
    for line in text.split("\n"):
        if line == "":
            empty += 1
        elif not line.startswith(INDENT):
            is_session, empty = False, 0
        elif is_input:
            typed.append(line[len(INDENT) :])
            is_input = line != f"{INDENT}END"
        elif line.startswith(f"{INDENT}$ "):
            typed.append(line[len(INDENT) + 2 :])
            is_session, empty, is_input = True, 0, "<<" in line
        elif is_session:
            written += [""] * empty + [line[len(INDENT) :]]
            empty = 0
    return Sessions("".join(f"{line}\n" for line in [*typed, "true"]), "".join(f"{line}\n" for line in written))


def calls_python(text: str) -> bool:
    return bool(re.search(r"(?m)^    .*python3", text))


def lines_of_cell(cell: str) -> str:
    """The lines that a cell of examples has: each in backquotes, or the word nothing."""
    cell = cell.replace("`<br>`", "\n").replace("`", "")
    return "" if cell == "nothing" else f"{cell}\n"


def rows_of(text: str) -> list[Row]:
    """The rows of the table of words that have an example. Two dots after it say that more is written."""
    rows, is_table = [], False
    for line in text.split("\n"):
        if line.startswith("## "):
            is_table = line == TABLE
        cells = line.removesuffix(" |").split(" | ")
        if not is_table or not line.startswith("| `") or len(cells) < 4 or not re.match(r"`|nothing$", cells[2]):
            continue
        written = cells[3].removesuffix("<br>..")
        words = lines_of_cell(cells[0].removeprefix("| ")).split()
        rows.append(Row(words, lines_of_cell(cells[2]), lines_of_cell(written), written != cells[3]))
    return rows
