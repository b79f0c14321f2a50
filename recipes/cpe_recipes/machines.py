"""What the machines have, from a file with a line for each, or from a software list of each. components.py says what a
machine is."""
from __future__ import annotations

from collections.abc import Sequence

from . import lists
from .components import NO_NAME, Machine, machine_of
from .console import Fatal, Messages, escape
from .feeds import FeedFault, FormFault, name_of, read_feed, values_of

_ENDINGS = (".gz", ".json", ".txt", ".cdx", ".spdx")


def read_machines(path: str, messages: Messages) -> list[Machine]:
    """The machines of a file with a line for each, in either form.

    In the plain form, words may be separated by several spaces or tabs, line ends may be those of Windows, and an empty
    line is ignored. Lines with the same name are one machine, with the items of all of them. A component without a name
    and a package URL is reported. Fatal if a line that begins with `{` is no machine, or if there is no machine at all.
    """
    try:
        data = read_feed(path)
    except FeedFault as fault:
        raise Fatal(f"{name_of(path)}: {fault}") from fault
    machines: dict[str, Machine] = {}
    for number, line in enumerate(data.removeprefix(b"\xef\xbb\xbf").splitlines(), 1):
        machine = _machine(line, f"{name_of(path)} line {number}")
        if machine is not None:
            _put(machines, machine, messages)
    for machine in machines.values():
        for one in machine.all():
            if not one.names and (not one.purl or one is machine.platform):
                messages.leave_out(f"{machine.name} {one.label()}", NO_NAME)
    if not machines:
        raise Fatal(f"{name_of(path)}: no machine in it")
    return list(machines.values())


def _machine(line: bytes, where: str) -> Machine | None:
    """The machine of a line; None if the line is empty."""
    if line.lstrip().startswith(b"{"):
        try:
            values = list(values_of(line, is_strict=True))
            if len(values) != 1:
                raise FormFault("something follows it")
            return machine_of(values[0])
        except (FeedFault, FormFault) as fault:
            raise Fatal(f"{where}: no machine: {fault}") from fault
    words = [word.decode(errors="backslashreplace") for word in line.split()]
    return Machine(words[0], words[1:]) if words else None


def read_lists(paths: Sequence[str], messages: Messages) -> list[Machine]:
    """A machine for each software list, which is called as its file is. What was not read of it, and what has neither a
    name nor a package URL there, is said. Fatal if a list can't be read, or has nothing in it."""
    machines: dict[str, Machine] = {}
    for path, called in zip(paths, _names_of_lists(paths)):
        feed = name_of(path)
        try:
            machine = machine_of_list(called, feed, read_feed(path), messages)
        except FeedFault as fault:
            raise Fatal(f"{feed}: {fault}") from fault
        _put(machines, machine, messages)
    if not machines:
        raise Fatal("no software list was given")
    return list(machines.values())


def machine_of_list(called: str, feed: str, data: bytes, messages: Messages) -> Machine:
    """The machine of a software list with these bytes. FeedFault if it can't be read, or is empty."""
    software_list = lists.read(feed, data)
    parts = list(software_list.all())
    for remark in software_list.remarks:
        messages.remark(remark)
    if not parts:
        raise FeedFault("nothing is in it")
    for one in parts:
        if isinstance(one, lists.Oddity):
            messages.leave_out(f"{called} {one.id}", one.reason)
        elif not one.names and (not one.purl or one is software_list.platform):
            messages.leave_out(f"{called} {one.label()}", NO_NAME)
    return Machine(called, software_list.components(), software_list.platform)


def _names_of_lists(paths: Sequence[str]) -> list[str]:
    """The names of files without their endings; those of different folders that are the same have their folders before
    them."""
    short = [_without_endings(name_of(path)) for path in paths]
    places: dict[str, set[str]] = {}
    for name, path in zip(short, paths):
        places.setdefault(name, set()).add(path)
    return [name if len(places[name]) == 1 else _without_endings(path) for name, path in zip(short, paths)]


def _without_endings(name: str) -> str:
    while name.endswith(_ENDINGS) and not name.startswith(_ENDINGS):
        name = name[: name.rindex(".")]
    return name


def _put(machines: dict[str, Machine], machine: Machine, messages: Messages) -> None:
    # (so it is called everywhere, in what a terminal shows and in what another recipe reads)
    machine.name = escape(machine.name)
    known = machines.setdefault(machine.name, machine)
    if known is not machine:
        known.add(machine)
        messages.remark(f"{machine.name} is there more than once, and has the items of each")
