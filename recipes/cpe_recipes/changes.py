"""What changed between two sets of verdicts: sh changes.sh BEFORE AFTER. Both files are from `cpe evaluate`, from a
fleet, or from `scan.py --json`.

The recipe writes a line for each verdict that differs between the files, unless it is FALSE or missing in both:

    new MACHINE ID BEFORE AFTER         it was FALSE, or missing
    gone MACHINE ID BEFORE AFTER        it is FALSE now, or missing
    changed MACHINE ID BEFORE AFTER     it is another one

In these lines BEFORE and AFTER are verdicts, or `none` if there is no verdict. If AFTER is `none`, the line ends with a
reason. Either the machine is missing, or has no items. Or the advisory isn't analysed, is rejected, left out, or
missing from the feeds. Or pages of the dictionary or the match feed are missing, so that a FALSE could be another
verdict. If a user settled AFTER, the line ends with the user's reason.

A change to `none` doesn't show that the machine was mended. So the status is 1, with a report, if a machine no longer
has items. The same holds if an advisory was left out or isn't in the feeds. An advisory that isn't analysed or is
rejected doesn't cause status 1. Lines for verdicts of a single inventory have no MACHINE. If one of the two files is
cut off, the status is 2, and nothing is written.
"""
from __future__ import annotations

from collections.abc import Iterator

from .arguments import read_arguments
from .console import Fatal, Messages, Output, escape
from .feeds import name_of
from .verdicts import Machine, Verdicts, read_verdicts

USAGE = "changes.sh BEFORE AFTER"


def run(words: list[str]) -> int:
    paths = read_arguments(words, {}, USAGE).files
    if len(paths) != 2:
        raise Fatal(f"usage: {USAGE}")
    messages, output = Messages(), Output()
    output.lines(list(between(*paths, messages)))
    output.end(escape)
    return messages.status()


def between(before_path: str, after_path: str, messages: Messages) -> Iterator[str]:
    """The lines of the changes from the one file to the other."""
    before, after = read_verdicts(before_path), read_verdicts(after_path)
    if before.has_machines != after.has_machines:
        bare, other = (before_path, after_path) if after.has_machines else (after_path, before_path)
        raise Fatal(f"{name_of(other)} has machines, and {name_of(bare)} has none")
    return changes(before, after, messages)


def changes(before: Verdicts, after: Verdicts, messages: Messages) -> Iterator[str]:
    """The lines of the changes, in the order of the machines and advisories of before, and then of those that are
    new."""
    olds = {machine.name: machine for machine in before.machines}
    news = {machine.name: machine for machine in after.machines}
    lost: dict[str, str] = {}
    for name in {**olds, **news}:
        old, new = olds.get(name, Machine(name)), news.get(name)
        where = "" if name is None else f"{name} "
        if new is None:
            messages.remark(f"{name} is no machine any more")
        elif not new.has_items:
            messages.leave_out(name or "", "no items")
        for id in {**old.shown, **(new.shown if new else {})}:
            then, (now, why) = old.truth(id), _now(id, new, after)
            if then == now:
                continue
            if now is None and new is not None and new.has_items and not after.is_told_of(id):
                lost[id] = why
            yield f"{_word(id, old, new)} {where}{id} {then or 'none'} {now or 'none'}{why and ' '}{why}"
    for id, why in lost.items():
        messages.leave_out(id, why)


def _now(id: str, machine: Machine | None, after: Verdicts) -> tuple[str | None, str]:
    """The verdict after, or None and why there is none."""
    if machine is None or not machine.has_items:
        return None, "it is no machine any more" if machine is None else "no items"
    truth = machine.truth(id)
    if id in machine.settled:
        return truth, machine.settled[id].words()
    if truth is None or truth == "FALSE" and after.doubts:
        return None, after.why_none(id) if truth is None else "; ".join(after.doubts)
    return truth, ""


def _word(id: str, old: Machine, new: Machine | None) -> str:
    if id not in old.shown:
        return "new"
    return "changed" if new is not None and id in new.shown else "gone"
