#!/usr/bin/env python3
"""Answers cases by the library of cpe, as bindings/python calls it: the one in CPE_LIBRARY, or that of the system."""

import contextlib
import json
import pathlib
import sys

TOP = pathlib.Path(__file__).resolve().parents[2]
sys.dont_write_bytecode = True
sys.path[:0] = [str(TOP / "bindings" / "python"), str(TOP / "conformance" / "adapters")]

import cpe  # noqa: E402
import cpe_program  # noqa: E402


class Library:
    """What `cpe_program.Programs` is for the program."""

    def line(self, text: str, *words: str) -> str:
        try:
            if words == ("compare",):
                return " ".join(cpe.relate(*text.split(" ")).values())
            return {"unbind": cpe.unbind, "fs": cpe.bind_fs, "uri": cpe.bind_uri}[words[-1]](text)
        except cpe.Refused as why:
            raise cpe_program.Refused(why.place) from None

    def records(self, command: str, records: list[dict]) -> list[str]:
        with cpe.Session(command) as session:
            answers = [session.line(json.dumps(it)) for it in records]
            return b"".join([*answers, session.end()]).decode().splitlines()


if __name__ == "__main__":
    with contextlib.suppress(BrokenPipeError):
        cpe_program.main(Library())
