#!/usr/bin/env python3
"""Whether kept names are compared only by counted looks: TRUST 11 names each exception.

usage: looks.py

A kept name is one in a table (`name_index::NameTable`). `look` hands it out for a comparison, and counts a step. `name`
and `get` hand it out for an answer, for its text or for its product alone. Ends with status 0 if all of this holds, and
with 1 and the differences otherwise:
- RELATING has each source that calls a relation of names or of values, of the crates above the table and those below
  them;
- in each source that looks at kept names, no function that calls a relation, or hands names to one that does, calls
  `name` or `get`;
- NAMING has each source that calls `name` or `get` of a table.
"""

import pathlib
import re
import sys

TOP = pathlib.Path(__file__).resolve().parent.parent
CRATES = TOP / "crates"
# The sources that call a relation, and whence they have the names: LOOK, or the reason why no step is counted.
LOOK = "the table's `look`"
RELATING = {
    "advise_ranges/src/advised.rt": "an advisory has its names itself",
    "certificate_check/src/relates.rt": "a certificate is tested by names that are lent to it",
    "level_board/src/counting.rt": LOOK,
    "level_board/src/meeting.rt": LOOK,
    "level_board/src/target_counts.rt": LOOK,
    "library_tests/src/names.rt": "a test",
    "name_index/src/cover.rt": "products are compared, and no names",
    "name_index/src/near.rt": LOOK,
    "cpe_command/src/pairs.rt": "a line has both names",
    "names_in_order/src/growing.rt": LOOK,
    "c_library/src/pairs.rt": "a call has both names",
}
# The sources that call `name` or `get` of a table, and what for.
NAMING = {
    "check_results/src/slots.rt": "an answer by place",
    "advise_ranges/src/view.rt": "an answer by place",
    "name_registry/src/ends.rt": "where an entry leads, by its number",
    "name_registry/src/faults.rt": "an entry's fault, by its number",
    "name_registry/src/items.rt": "an answer by place",
    "name_registry/src/registry.rt": "an answer by place, and `name` of the registry",
    "cpe_engine/src/leading.rt": "an answer: the ends of a name",
    "engine_edits/src/edits.rt": "the weight of a row",
    "engine_edits/src/entries.rt": "the ends of an entry, by the plan of its change",
    "cpe_dictionary/src/growing.rt": "an answer by place",
    "name_index/src/table.rt": "their definition",
    "names_in_order/src/growing.rt": "an answer by place",
    "level_board/src/target_parts.rt": "whether a name or its product has a special",
}
RELATION = re.compile(r"\b(covers|maybe|compare_names|compare_lent|compare_values|covers_in_order|is_covering|may_cover|may_cover_where)\(")
NAMED = re.compile(r"\b(?:table|self\.table|registry|self\.registry)\.(?:name|get)\(|\bself\.name\(\*?(?:id|number)")
FUNCTION = re.compile(r"^ *(?:pub(?:\(crate\))? )?fn (\w+)", re.MULTILINE)


def code(path: pathlib.Path) -> str:
    """A source without comments, contracts and ghost imports."""
    text = re.sub(r"//.*", "", path.read_text(encoding="utf-8"))
    text = re.sub(r"^ghost use .*$", "", text, flags=re.MULTILINE)
    return re.sub(r"^ *(?:requires|ensures|invariant|ghost)\b[^{]*\{(?:[^{}]|\{[^{}]*\})*\}", "", text, flags=re.MULTILINE)


def functions(text: str) -> dict[str, str]:
    """Each function of a source with its text, to the next one."""
    starts = [(found.start(), found[1]) for found in FUNCTION.finditer(text)]
    return {name: text[at:to] for (at, name), (to, _) in zip(starts, [*starts[1:], (len(text), "")])}


def faults() -> list[str]:
    """What differs."""
    found = []
    relating, naming = set(), set()
    for path in sorted(CRATES.glob("*/src/**/*.rt")):
        name = str(path.relative_to(CRATES))
        text = code(path)
        if re.search(r"^use cpe_relation::\{?[^;]*\b(?:covers|maybe|compare_|covers_in_order)|^use crate::target_counts::[^;]*\bmay_cover\b", text, re.MULTILINE):
            relating.add(name)
        if NAMED.search(text) and "fn name<" not in text:
            naming.add(name)
        if RELATING.get(name) == LOOK:
            if ".look(" not in text and "fn is_covering" not in text:
                found.append(f"{name} relates names and never looks at one")
            for function, body in functions(text).items():
                if RELATION.search(body) and NAMED.search(body):
                    found.append(f"{name}: {function} relates names that `name` or `get` handed out")
    for kept, seen, what in ((set(RELATING), relating, "calls a relation"), (set(NAMING), naming, "calls `name` or `get` of a table")):
        found += [f"{name} {what}, which this check doesn't know" for name in sorted(seen - kept)]
        found += [f"{name} no longer {what}" for name in sorted(kept - seen)]
    return found


def main() -> int:
    found = faults()
    print(*found, sep="\n", end="\n" if found else "")
    return 1 if found else 0


if __name__ == "__main__":
    sys.exit(main())
