"""A name in all its forms, where the dictionary leads it, and its relation to another: all as `cpe` writes it."""
from __future__ import annotations

from pathlib import Path

from cpe_recipes import names
from cpe_recipes.feeds import Json
from cpe_recipes.program import Program

from . import entries
from .request_rules import Problem


def about(program: Program, folder: Path, cpe: str, other: str) -> dict[str, Json]:
    """The forms of a name. Problem if the text is no name."""
    found: dict[str, Json] = {"given": cpe, **_forms(program, cpe, "cpe")}
    found["chain"] = _chain(program, folder, found["formattedString"])
    if other:
        forms = _forms(program, other, "with")
        (line,) = program.run(["compare"], [f"{found['formattedString']} {forms['formattedString']}"])
        relation, *attributes = line.split(" ")
        found["with"] = {
            "given": other,
            **forms,
            "relation": relation,
            "relations": dict(zip(names.ATTRIBUTES, attributes, strict=True)),
        }
    return found


def _forms(program: Program, cpe: str, parameter: str) -> dict[str, Json]:
    (text,) = program.run(["unbind"], [cpe])
    if text.startswith("refused "):
        raise Problem(400, f"{parameter} is no CPE name: {text.split(' ', 2)[2]}")
    (string,), (uri,) = program.run(["bind", "fs"], [text]), program.run(["bind", "uri"], [text])
    uris = {} if uri.startswith("refused ") else {"uri": uri}
    return {
        "text": text,
        "formattedString": string,
        **uris,
        "attributes": dict(zip(names.ATTRIBUTES, names.components(string))),
    }


def _chain(program: Program, folder: Path, name: str) -> dict[str, Json]:
    """The chain of a name: whether it is an entry, the steps with their kinds and successors, and the ends."""
    found: dict[str, Json] = {"isEntry": False, "steps": [], "ends": []}
    successors, lines = entries.chain(folder, program, name)
    for line in lines:
        word, _, rest = line.partition(" ")
        if word == "chain":
            found["isEntry"] = rest.rsplit(" ", 2)[1] != "0"
        elif word == "step":
            step, _, kind = rest.partition(" ")
            found["steps"].append({"name": step, "kind": kind, "successors": successors.get(step, [])})
        elif word == "end":
            found["ends"].append(rest)
    return found
