#!/usr/bin/env python3
"""Writes the cases of sources/ into cases/, a file for each report.

An id never changes its meaning. So nothing is written if a case that is in cases/ is now missing, or would get another
input or another report, section or kind. What is expected may be corrected; the version of the set then rises
(README.md).
"""

import argparse
import json
import pathlib
import sys
from collections.abc import Iterator

HERE = pathlib.Path(__file__).resolve().parent
sys.dont_write_bytecode = True
sys.path.insert(0, str(HERE))

from sources import dictionaries, formatted_strings, relations, statements, uris  # noqa: E402

FILES = {
    "7695-names.jsonl": (formatted_strings, uris),
    "7696-relations.jsonl": (relations,),
    "7697-dictionary.jsonl": (dictionaries,),
    "7698-statements.jsonl": (statements,),
}
# What an id means. Its section is left out: a wrong number may be corrected.
MEANING = ("report", "kind", "input")


class Refused(Exception):
    """The cases may not be written."""


def made() -> dict[str, list[dict]]:
    """The records of each file."""
    files = {name: [it for module in modules for group in module.groups() for it in group.records()] for name, modules in FILES.items()}
    seen_ids, seen = set(), {}
    for it in (it for records in files.values() for it in records):
        if it["id"] in seen_ids:
            raise Refused(f"two cases have the id {it['id']}")
        seen_ids.add(it["id"])
        asked = json.dumps([it["kind"], it["input"]], sort_keys=True)
        if asked in seen:
            raise Refused(f"{it['id']} asks what {seen[asked]} asks")
        seen[asked] = it["id"]
    return files


def lines(records: list[dict]) -> str:
    return "".join(json.dumps(it, ensure_ascii=False, separators=(",", ":")) + "\n" for it in records)


def changed_meanings(kept: str, records: list[dict]) -> Iterator[str]:
    """The ids of a kept file that are missing now, or mean something else."""
    now = {it["id"]: it for it in records}
    for line in filter(None, kept.split("\n")):
        before = json.loads(line)
        after = now.get(before["id"])
        if after is None:
            yield f"{before['id']} is missing"
        elif any(before[it] != after[it] for it in MEANING):
            yield f"{before['id']} would mean something else"


def main() -> None:
    parser = argparse.ArgumentParser(description=__doc__, formatter_class=argparse.RawDescriptionHelpFormatter)
    parser.add_argument("--check", action="store_true", help="write nothing, and say whether cases/ is what sources/ make")
    parser.add_argument("--into", type=pathlib.Path, default=HERE / "cases", help="where the cases are (cases/ beside this file)")
    words = parser.parse_args()
    files = made()
    for name, records in files.items():
        path = words.into / name
        kept = path.read_text(encoding="utf-8") if path.exists() else ""
        if words.check and kept != lines(records):
            raise Refused(f"{path} is not what sources/ make")
        wrong = list(changed_meanings(kept, records))
        if wrong:
            raise Refused("\n".join([f"{path}: an id never changes its meaning", *wrong[:20]]))
    if not words.check:
        for name, records in files.items():
            (words.into / name).write_text(lines(records), encoding="utf-8")
    all_of_them = [it for records in files.values() for it in records]
    print(f"{len(all_of_them)} cases, {sum(it['own'] for it in all_of_them)} of them own")


if __name__ == "__main__":
    try:
        main()
    except Refused as why:
        sys.exit(str(why))
