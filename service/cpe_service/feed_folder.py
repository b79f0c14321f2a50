"""Takes feeds from a folder, for a timer: the files in the order of their names, as POST /feeds takes them.

An accepted file is moved into the folder `taken` there, and a refused one into `refused`. The workers of a running
server see the new feed within half a minute.
"""
from __future__ import annotations

import os
from collections.abc import Iterator
from pathlib import Path

from .frames import Message
from .keeper import Keeper

TAKEN, REFUSED = "taken", "refused"


def take(data: Path, folder: Path) -> Iterator[tuple[bool, str]]:
    """Takes the files; yields for each whether it was accepted, and a line about it."""
    keeper = Keeper(data)
    for path in sorted(
        one for one in folder.iterdir() if one.is_file() and not one.is_symlink() and not one.name.startswith(".")
    ):
        answer = _take_file(keeper, path)
        fault = answer.get("refused") or answer.get("fault")
        if "fault" not in answer:
            # (if the disk was full, the file is tried again the next time)
            target = folder / (REFUSED if fault else TAKEN)
            target.mkdir(exist_ok=True)
            os.replace(path, target / path.name)
        yield fault is None, f"{path.name}: {fault or _words(answer)}"


def _take_file(keeper: Keeper, path: Path) -> Message:
    try:
        return keeper.answer(
            {"do": "feed", "name": "", "is_whole": False, "client": f"folder {path.parent.name}"}, path.read_bytes()
        )
    except OSError as fault:
        return {"fault": f"it can not be read: {fault.strerror}"}


def _words(answer: Message) -> str:
    records = f"{answer['records']:,} of the {answer['kind']}"
    return records if "missing" not in answer else f"{records}, which wait: {'; '.join(answer['missing'])}"
