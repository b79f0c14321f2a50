"""Makes a page of HTML from the output of `scan.py --json`, of a fleet, or of `cpe evaluate`.

    python3 report.py [--title TEXT] [--before FILE] [--details FILE] [--suppress FILE] [--settled FILE] [--records FILE]
        [--ranges FILE] [--decided FILE] [--kev FILE] [--epss FILE] [FILE] > page.html

The page is one file, which loads nothing. Its top has what was left out, and the number of verdicts of each kind. Then
follow the advisories: known exploited advisories are first, if the input names them; the others follow by score, the
highest first. Each advisory has the machines whose verdict isn't FALSE, and what each verdict depends on, if this is
known. The last part has the machines, each with the number of its verdicts. A filter selects rows by texts, machines
and verdicts. The filter is part of the address, as in `page.html#q=openssl&machine=web-1&truth=UNKNOWN`. If the browser
runs no scripts, only the filter is missing.

- --title: the title of the page.
- --before: verdicts of an earlier day, in the same form. The page then has the changes since that day, as `changes.sh`
  writes them, with the reason if a verdict is `none` now. This option needs a FILE.
- the other options are those of `affected.sh`, for verdicts of a fleet or of `cpe evaluate`. The output of `scan.py`
  already has these data.

If something was left out, or a machine has no items, the status is 1, and this is reported. If there is no result, the
status is 2, and nothing is written, except what fits on a full disk.
"""
from __future__ import annotations

from collections.abc import Iterable, Sequence
from pathlib import Path

from . import affected, changes, verdicts
from .arguments import ONE, Arguments, read_arguments
from .console import Fatal, Messages, describe_fault, write_all
from .feeds import FeedFault, name_of, read_feed
from .page import Parts, page
from .progress import Progress
from .scan_result import NO_ITEMS, Advisory, Machine, Row, ScanResult, group_reasons, in_order, parse_scan_result
from .settlements import read_settlements
from .verdicts import Verdicts, verdicts_of

USAGE = (
    "report.py [--title TEXT] [--before FILE] [--details FILE] [--suppress FILE] [--settled FILE] [--records FILE] [--ranges FILE] "
    "[--decided FILE] [--kev FILE] [--epss FILE] [FILE]"
)
TITLE = "Advisories by machine"
# Of lines that are alike, and of bytes that are written at once.
_MOST_ALIKE = 20
_PIECE = 65_536
_RECIPES = Path(__file__).resolve().parent.parent


def run(words: Sequence[str]) -> int:
    arguments = read_arguments(words, {"--title": ONE, "--before": ONE, **affected.OPTIONS}, USAGE)
    if len(arguments.files) > 1 or arguments.has("--before") and not arguments.files:
        raise Fatal(f"usage: {USAGE}")
    parts = Parts(arguments.one("--title") or TITLE, _part("report.css"), _part("report.js"))
    with Progress() as progress:
        progress.step("reading the table")
        scanned = _read_result(arguments)
        changed = _read_changes(arguments, scanned)
    write(page(scanned, parts, changed))
    messages = Messages(most_alike=_MOST_ALIKE)
    _report(scanned, messages)
    messages.report_others()
    return messages.status()


def _read_result(arguments: Arguments) -> ScanResult:
    """What the page shows, of the file that is given or of standard input."""
    path = arguments.files[0] if arguments.files else None
    feed = name_of(path)
    try:
        data = read_feed(path)
    except FeedFault as fault:
        raise Fatal(f"{feed}: {fault}") from fault
    if not data.lstrip().startswith(b"{"):
        return _of_fleet(verdicts_of(data, feed), arguments)
    given = next((option for option in affected.OPTIONS if arguments.many(option)), None)
    if given:
        raise Fatal(f"{given} is for verdicts of a fleet: {feed} has all of that already")
    return parse_scan_result(data, feed)


def _read_changes(arguments: Arguments, scanned: ScanResult) -> list[str] | None:
    """What changed since the verdicts before, None if it isn't asked for. What it leaves out joins that of the
    page."""
    before = arguments.one("--before")
    if before is None:
        return None
    gathered = _GatheredMessages()
    lines = list(changes.between(before, arguments.files[0], gathered))
    known = set(scanned.left_out)
    scanned.left_out += [one for one in gathered.noted if one not in known]
    return lines


class _GatheredMessages(Messages):
    """Keeps what is left out until the page is written."""

    def __init__(self) -> None:
        super().__init__()
        self.noted: list[tuple[str, str]] = []

    def leave_out(self, id: str, reason: str, place: str = "") -> None:
        self.noted.append((id, reason))

    def remark(self, text: str, id: str = "") -> None:
        """(the lines of changes have it)"""


def _of_fleet(told: Verdicts, arguments: Arguments) -> ScanResult:
    """The verdicts of a fleet, or of one inventory, as a page shows them."""
    gathered = _GatheredMessages()
    about = affected.about_of(arguments, gathered)
    read_settlements(arguments.many("--settled"), gathered).settle(told.machines, gathered)
    advisories: dict[str, Advisory] = {}
    machines = []
    for found in told.machines:
        machine = Machine(found.name or "this inventory", None, found.has_items)
        for id, truth in found.shown.items():
            if truth != "FALSE" or id in found.settled:
                _note(advisories.setdefault(id, _advisory(id, about)), machine, found, truth, about)
        machines.append(machine)
    affected.report_left_out(told, about, gathered)
    asked = max((found.statements.count for found in told.machines), default=0)
    return in_order(asked, advisories.values(), machines, gathered.noted)


def _advisory(id: str, about: affected.AdvisoryContext) -> Advisory:
    detail = about.details.get(id, {})
    texts = [
        detail.get(key) if isinstance(detail.get(key), str) else "" for key in ("title", "severity", "published", "url")
    ]
    score = about.cells(id).score
    return Advisory(
        id,
        texts[0],
        None if score < 0 else score,
        *texts[1:],
        about.threats.date_added(id),
        about.threats.probability(id),
    )


def _note(
    advisory: Advisory, machine: Machine, found: verdicts.Machine, truth: str, about: affected.AdvisoryContext
) -> None:
    """A row of a machine on which the advisory isn't FALSE, or is settled."""
    settled = found.settled.get(advisory.id)
    reasons = about.verdict_reasons.on(advisory.id, found.name) if truth == "UNKNOWN" or settled else []
    told = None if settled is None else settled.reason
    group, reasons = group_reasons(truth, reasons, about.accepted_for(advisory.id, truth, found.name), told)
    advisory.rows[group].append(Row(machine.name, tuple(reasons)))
    machine.note(group, advisory.score)


def write(pieces: Iterable[str], descriptor: int = 1) -> None:
    """Writes the page piece by piece."""
    waiting, size = [], 0
    for piece in pieces:
        waiting.append(piece)
        size += len(piece)
        if size >= _PIECE:
            write_all(descriptor, "".join(waiting).encode(errors="replace"), "the output")
            waiting, size = [], 0
    write_all(descriptor, "".join(waiting).encode(errors="replace"), "the output")


def _report(scanned: ScanResult, messages: Messages) -> None:
    for id, reason in scanned.left_out:
        messages.leave_out(id, reason)
    told = {id for id, reason in scanned.left_out if reason == NO_ITEMS}
    for machine in scanned.bare():
        if machine.name not in told:
            messages.leave_out(machine.name, NO_ITEMS)


def _part(name: str) -> str:
    """The style or the script of the page."""
    try:
        return (_RECIPES / name).read_text(encoding="utf-8")
    except OSError as fault:
        raise Fatal(f"{name} can not be read: {describe_fault(fault)}") from fault
