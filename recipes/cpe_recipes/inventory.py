"""Turns software lists into records `item`. It reads JSON of CycloneDX, SPDX, Syft, Trivy and npm, plain lists, and the
output of package managers.

    sh inventory.sh [--names FILE] [FILE..] > records
    sh inventory.sh --machines FILE.. > machines.txt

- All names of a component in a list are read. The folder lists/ has a module for each form, whose head says what is
  read.
- A line of a plain list is a name in either binding, or a package URL. A # at the beginning of a line or after a space
  begins a comment.
- A name is one item, however often it is in the list, in whatever binding and letter case. Repetitions are not
  reported.
- A package URL gets only the names that names.txt and the table of --names have for it (names_table.py). With
  --machines the package URL itself is written. The recipe that reads the lines then finds the names of the package, in
  the dictionary too (package_names.py).

A component without a name, or without a name that can be an item, is reported. Texts that look like names, in members
that aren't read, are counted in a report. A list of another form is refused, and the message names the form. A list
without any item is refused too: an empty inventory would look as if nothing were affected.

The records have all names of a component one after the other. With --machines each file is the list of one machine. The
machine's name is the file's name without endings. A machine becomes a line, in which the names of a component are
together (components.py). A machine without items has a line too, and is reported.
"""
from __future__ import annotations

from collections.abc import Iterator, Sequence
from dataclasses import replace

from . import lists, machines
from .arguments import FLAG, ONE, read_arguments
from .components import NO_NAME, Component, Machine
from .console import Fatal, Messages, Output
from .feeds import FeedFault, name_of, read_feed, record_text
from .leads import Leads, leads_of
from .names_table import read_tables
from .package_names import PackageNamer
from .program import Candidate, Program, prefix_of

USAGE = "inventory.sh [--machines] [--names FILE] [FILE..]"


def run(words: Sequence[str]) -> int:
    arguments = read_arguments(words, {"--machines": FLAG, "--names": ONE}, USAGE)
    messages, output, program = Messages(), Output(), Program()
    if arguments.has("--machines"):
        output.lines(list(machine_lines(program, machines.read_lists(arguments.files, messages), messages)))
    else:
        naming = PackageNamer(read_tables(arguments.many("--names")))
        records = program.accept(read_lists(arguments.files, messages, naming), messages, unsaid="exists")
        if not records:
            raise Fatal("no item in any of these")
        output.lines(records)
    output.end()
    return messages.status()


def machine_lines(program: Program, found: Sequence[Machine], messages: Messages) -> Iterator[str]:
    """Lines of machines, with the names that cpe accepts as items; equal components are written once."""
    leads = leads_of(program, (), dict.fromkeys(name for machine in found for name in machine.items), ())
    for machine in found:
        if any(one.isspace() for one in machine.name):
            raise Fatal(f"{machine.name}: the name of a machine has no spaces; name its list otherwise")
        platform = None if machine.platform is None else _take(machine.platform, machine.name, leads, messages)
        kept: dict[_Key, Component] = {}
        for one in machine.components:
            taken = _take(one, machine.name, leads, messages)
            if taken.names or not one.names:
                kept.setdefault(_key(taken, leads), taken)
        written = Machine(machine.name, kept.values(), platform)
        if not written.own_items():
            messages.leave_out(machine.name, "no items")
        yield written.line()


def _take(component: Component, machine: str, leads: Leads, messages: Messages) -> Component:
    """A component with those of its names that cpe accepts, each once; the others are reported."""
    names: dict[str, str] = {}
    for name in component.names:
        if name in leads.found:
            names.setdefault(leads.found[name].name, name)
        else:
            messages.leave_out(f"{machine} {name}", f"{leads.refused[name]}: {prefix_of(_record(name))}")
    return replace(component, names=tuple(names.values()))


# By what components are the same: their names as cpe writes them, their kind, their package URL, and if there is no
# name their id.
_Key = tuple[frozenset[str], str, str, str]


def _key(component: Component, leads: Leads) -> _Key:
    names = frozenset(leads.found[name].name for name in component.names)
    return names, component.kind, component.purl, "" if names else component.id


def _record(name: str) -> str:
    return record_text({"do": "item", "name": name})


def read_lists(paths: Sequence[str], messages: Messages, naming: PackageNamer | None = None) -> list[Candidate]:
    """The candidates of software lists, or of standard input if there is no path. A list that can't be read is
    reported, and the others are still read. Fatal if no list can be read."""
    found: list[Candidate] = []
    faults = []
    everything: list[str | None] = [*paths] or [None]
    for path in everything:
        feed = name_of(path)
        try:
            software_list = lists.read(feed, read_feed(path))
        except FeedFault as fault:
            faults.append((feed, str(fault)))
            continue
        for remark in software_list.remarks:
            messages.remark(remark)
        candidates = list(candidates_of(software_list, naming))
        found.extend(candidates)
        if not any(one.record for one in candidates):
            faults.append((feed, "no item in it"))
    if not any(one.record for one in found):
        for one in found:
            messages.leave_out(one.id, one.reason)
        raise Fatal("; ".join(f"{feed}: {reason}" for feed, reason in faults))
    for feed, reason in faults:
        messages.leave_out(feed, reason)
    return found


def candidates_of(software_list: lists.SoftwareList, naming: PackageNamer | None = None) -> Iterator[Candidate]:
    """What the names of a software list become. The names of a platform are none if no component has a name: beside
    nothing but them all would look as if it weren't affected."""
    parts = [
        one if isinstance(one, lists.Oddity) or naming is None or one is software_list.platform else naming.put(one)
        for one in software_list.all()
    ]
    components = [one for one in parts if isinstance(one, Component) and one is not software_list.platform]
    has_items = bool(Machine("", components, software_list.platform).own_items())
    for one in parts:
        if isinstance(one, lists.Oddity):
            yield Candidate(one.id, reason=one.reason)
        elif not one.names:
            yield Candidate(
                one.id, reason=NO_NAME if not one.supposed else f"{NO_NAME} that is sure: {one.supposed[0].why}"
            )
        elif has_items:
            yield from (Candidate(one.id, _record(name)) for name in one.names)
