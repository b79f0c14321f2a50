#!/usr/bin/env python3
"""docs/CONTRACTS.md: each public call of each crate, with the first sentence of its comment and the clauses of its
contract.

usage: contracts.py [--write]

Ends with status 0 if docs/CONTRACTS.md is what the sources say, and with 1 if it isn't; --write writes it.
"""

import dataclasses
import pathlib
import re
import sys
import textwrap

sys.dont_write_bytecode = True

import areas  # noqa: E402

TOP = pathlib.Path(__file__).resolve().parent.parent
PAGE = TOP / "docs" / "CONTRACTS.md"
HEAD = """# Contracts of the public calls

`python3 tests/contracts.py --write` makes this file from the sources, and the gate checks it.
[PROOFS.md](PROOFS.md) says what the contracts promise together.

This file lists the public calls by area and crate, from the bottom up. Each call has the first sentence of its comment,
and the clauses of its contract. If a clause has a name, only the name is shown. A call promises its `ensures` if the
caller meets its `requires`. A law is a function without a body, whose clauses the prover has checked. The methods that
a type has by a trait are listed only under the trait, with the clauses of the trait.
"""
CALL = re.compile(r"(?:pub )?(?:const )?(?:extern \"C\" )?fn (\w+)")
BLOCK = re.compile(r"(?:unsafe )?impl(?:<.*?>)? (?:(?P<of>[\w:]+)(?:<.*>)? for )?(?P<type>\w+)|pub (?:unsafe )?trait (?P<trait>\w+)")
CLAUSE = re.compile(r"\s+(requires|ensures)(?: (\w+))? \{(.*)")
ITEM = re.compile(r"pub (?:unsafe )?(?:extern \"C\" )?(?:const )?(?:fn|struct|enum|trait|type|const|union) (\w+)")


@dataclasses.dataclass(frozen=True)
class Call:
    """A public call, or a law."""

    owner: str
    name: str
    comment: str
    clauses: tuple[tuple[str, str], ...]
    is_law: bool


def plain(text: str) -> str:
    """A comment without its links."""
    return re.sub(r"\[(`[^`]+`)\]", r"\1", re.sub(r"\[([^\]]+)\]\([^)]*\)", r"\1", text))


def first_sentence(comment: list[str]) -> str:
    """Of the first paragraph, with links as plain code."""
    text = " ".join(comment).strip()
    text = plain(text)
    found = re.match(r".*?[.:](?=\s+[A-Z`]|$)", text)
    return re.sub(r":$", ".", (found[0] if found else text).strip())


def paragraph(lines: list[str], mark: str) -> list[str]:
    """The first paragraph of a comment."""
    said: list[str] = []
    for line in lines:
        text = line.strip()[len(mark) :].strip()
        if not text and said:
            break
        said.append(text)
    return said


def is_whole(text: str) -> bool:
    return text.count("{") == text.count("}")


def clauses_at(lines: list[str], place: int) -> tuple[list[tuple[str, str]], bool]:
    """The clauses behind the head of a function, each with its kind and its name or text; and whether the body is
    empty."""
    clauses: list[tuple[str, str]] = []
    indent = len(lines[place]) - len(lines[place].lstrip())
    while place < len(lines):
        line = lines[place]
        found = CLAUSE.match(line)
        if found:
            text = found[3]
            while not is_whole("{" + text):
                place += 1
                text += " " + lines[place].strip()
            clauses.append((found[1], found[2] or text.rstrip(" ;")[:-1].strip()))
            if text.endswith(";"):
                return clauses, False
        elif line.startswith(" " * indent + "{") or line.rstrip().endswith((" {", "{}", ";")):
            return clauses, line.strip() in ("{}", "{ }")
        place += 1
    return clauses, False


def exported(crate: pathlib.Path) -> tuple[set[str], set[str]]:
    """The names that a crate hands on, and its public modules."""
    names: set[str] = set()
    modules: set[str] = set()
    for path in sorted((crate / "src").rglob("*.rt")):
        text = path.read_text(encoding="utf-8")
        for used in re.findall(r"(?m)^pub use ([^;]+);", text):
            names |= set(re.findall(r"\w+", used.split("::", 1)[-1]))
        modules |= set(re.findall(r"(?m)^pub mod (\w+);", text))
    return names, modules


def calls(crate: pathlib.Path) -> list[Call]:
    """The public calls of a crate, in the order of its files."""
    names, modules = exported(crate)
    found: list[Call] = []
    for path in sorted((crate / "src").rglob("*.rt")):
        lines = path.read_text(encoding="utf-8").splitlines()
        here = names if path.stem not in {*modules, "lib", "main"} else names | {it for line in lines for it in ITEM.findall(line)}
        found += [it for it in calls_in(path, lines) if (it.owner or it.name) in here or it.name.startswith("cpe_c_")]
    return found


def calls_in(path: pathlib.Path, lines: list[str]) -> list[Call]:
    found: list[Call] = []
    comment: list[str] = []
    owner, is_trait, is_passed = "", False, False
    for place, line in enumerate(lines):
        text = line.strip()
        if text.startswith("///"):
            comment.append(text)
            continue
        if line and not line[0].isspace():
            block = BLOCK.match(line)
            if block:
                owner, is_trait, is_passed = block["type"] or block["trait"], bool(block["trait"]), bool(block["of"])
            elif not text.startswith(("#", "}")):
                owner, is_trait, is_passed = "", False, False
        head = CALL.match(text)
        if head and (text.startswith("pub ") or (is_trait and line.startswith("    fn "))) and not is_passed:
            clauses, is_empty = clauses_at(lines, place)
            is_law = is_empty and bool(re.search(rf"fn {head[1]}(<.*>)?\(\)", text))
            said = first_sentence(paragraph(comment, "///"))
            found.append(Call(owner if line[0].isspace() else "", head[1], said, tuple(clauses), is_law))
        if not text.startswith("#["):
            comment = []
    return found


def row(call: Call) -> str:
    """A call as an item of a list."""
    parts = [f"- `{call.owner + '::' if call.owner else ''}{call.name}`"]
    if call.is_law:
        parts[0] = f"- Law `{call.name}`"
    parts[0] += f": {call.comment}" if call.comment else "."
    for kind in ("requires", "ensures"):
        said = [it for its, it in call.clauses if its == kind]
        if said:
            parts.append(f"{kind.capitalize()} {', '.join(f'`{it}`' for it in said)}.")
    return textwrap.fill(" ".join(parts), 118, subsequent_indent="  ", break_long_words=False, break_on_hyphens=False)


def section(crate: str) -> str:
    """What a crate is, and its calls."""
    folder = TOP / "crates" / crate
    root = next(it for it in (folder / "src" / "lib.rt", folder / "src" / "main.rt") if it.exists())
    front = [line for line in root.read_text(encoding="utf-8").splitlines() if line.startswith("//!")]
    said = plain(" ".join(paragraph(front, "//!")))
    made = textwrap.fill(said, 118, break_long_words=False, break_on_hyphens=False)
    rows = [row(it) for it in calls(folder)]
    for told, place in (("that the gate tries", folder / "must-fail"), ("tried by hand", TOP / "wrong-bodies" / crate)):
        wrong = sorted(it.stem for it in place.glob("*.edit"))
        if wrong:
            line = f"- Wrong bodies {told}: {', '.join(f'`{it}`' for it in wrong)}."
            rows.append(textwrap.fill(line, 118, subsequent_indent="  ", break_long_words=False, break_on_hyphens=False))
    return f"### `{crate}`\n\n{made}\n" + ("\n" + "\n".join(rows) + "\n" if rows else "")


def page() -> str:
    """All areas, from the bottom up."""
    of_area = areas.areas(areas.PAGE.read_text(encoding="utf-8"))
    made = [HEAD]
    for area, named in of_area.items():
        made.append(f"\n## {area}\n")
        made += [f"\n{section(crate)}" for crate in areas.crates() if crate in named]
    return "".join(made)


def main(words: list[str]) -> None:
    if words not in ([], ["--write"]):
        sys.exit(__doc__)
    made = page()
    if words:
        PAGE.write_text(made, encoding="utf-8")
    elif not PAGE.exists() or PAGE.read_text(encoding="utf-8") != made:
        sys.exit(f"{PAGE}: it is not what the sources say; tests/contracts.py --write writes it")


if __name__ == "__main__":
    main(sys.argv[1:])
