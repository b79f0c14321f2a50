"""The page of a scan or of a fleet, piece by piece. All data is escaped, and a character that can't be printed is
written as its number, so that data can't become markup. The page itself forbids loading anything, and running any
script except its own."""
from __future__ import annotations

import base64
import hashlib
import html
from collections import Counter
from collections.abc import Iterator, Sequence
from dataclasses import dataclass

from .console import escape
from .scan_result import ACCEPTED, BY_PEOPLE, GROUPS, NO_ITEMS, SETTLED, Advisory, Machine, Row, ScanResult

# How many rows of a page are unfolded when it is opened.
MOST_OPEN = 300
# How many lines about things that were not read are unfolded.
MOST_MISSING = 12
_MEANINGS = {
    "TRUE": "the machine is affected",
    "ERROR": "a check has no result",
    "UNKNOWN": "the feeds and lists don't say",
    ACCEPTED: "someone accepted it, with a reason",
    SETTLED: "someone settled it as FALSE, with a reason",
    "FALSE": "not affected; not listed here",
}
# From which scores on they are called so; of the others nothing is known.
_LEVELS = ((9.0, "critical"), (7.0, "high"), (4.0, "medium"), (0.0, "low"))


@dataclass(frozen=True)
class Parts:
    """What the page has beside the data."""

    title: str
    style: str
    script: str


def text(data: str) -> str:
    """A text of the data as HTML."""
    return html.escape(escape(data))


def page(scanned: ScanResult, parts: Parts, changed: Sequence[str] | None = None) -> Iterator[str]:
    """The page, in pieces; `changed` are lines of what changed since an earlier day."""
    counts = scanned.counts()
    rows = sum(counts[group] for group in GROUPS)
    yield from _head(parts)
    yield f"<header><h1><bdi>{text(parts.title)}</bdi></h1>\n"
    yield f"<p>{_machine_count(len(scanned.machines))}, {_advisory_count(scanned.asked)} asked for.{_unanalysed(scanned)}</p></header>\n<main>\n"
    yield from _missing(scanned)
    yield from _numbers(counts)
    yield from _changed(changed)
    if rows:
        yield _filter()
        number = _advisory_count(len(scanned.advisories))
        first = (
            "known exploited first, then the highest score"
            if any(one.exploited for one in scanned.advisories)
            else "highest score first"
        )
        yield f'<section id="advisories"><h2>Advisories <small>{number}, {first}</small></h2>\n'
        for advisory in scanned.advisories:
            yield from _advisory(advisory, is_open=rows <= MOST_OPEN)
        yield "</section>\n"
    else:
        yield f'<p class="none">{_no_rows(scanned)}</p>\n'
    yield from _machines(scanned)
    yield f"</main>\n{_legend()}<script>{parts.script}</script>\n</body>\n</html>\n"


def _many(number: int, one: str, more: str) -> str:
    return f"{number:,} {one if number == 1 else more}"


def _advisory_count(number: int) -> str:
    return _many(number, "advisory", "advisories")


def _machine_count(number: int) -> str:
    return _many(number, "machine", "machines")


def _unanalysed(scanned: ScanResult) -> str:
    """How many advisories have no verdict, in words."""
    number = scanned.unanalysed
    return (
        f" {_advisory_count(number)} {'is' if number == 1 else 'are'} not analysed yet, without a verdict."
        if number
        else ""
    )


def _changed(changed: Sequence[str] | None) -> Iterator[str]:
    """What changed, line by line; nothing if it isn't given."""
    if changed is None:
        return
    yield f'<details id="changed"{_open(len(changed) <= MOST_OPEN)}><summary><h2>Changed <small>{len(changed):,}, each with the verdict '
    yield "before and now</small></h2></summary><ul>\n"
    yield from (f"<li>{text(line)}\n" for line in changed)
    yield "</ul></details>\n"


def _head(parts: Parts) -> Iterator[str]:
    allowed = f"default-src 'none'; style-src '{_hash(parts.style)}'; script-src '{_hash(parts.script)}'"
    yield '<!DOCTYPE html>\n<html lang="en">\n<head>\n<meta charset="utf-8">\n'
    allowed += "; base-uri 'none'; form-action 'none'"
    yield f'<meta http-equiv="Content-Security-Policy" content="{allowed}">\n'
    yield '<meta name="viewport" content="width=device-width, initial-scale=1">\n<meta name="referrer" content="no-referrer">\n'
    yield f"<title>{text(parts.title)}</title>\n<style>{parts.style}</style>\n</head>\n<body>\n"


def _hash(part: str) -> str:
    return f"sha256-{base64.b64encode(hashlib.sha256(part.encode()).digest()).decode()}"


def _missing(scanned: ScanResult) -> Iterator[str]:
    """What was not read, by reasons, and the machines without verdicts."""
    names = {machine.name: None for machine in scanned.bare()}
    by_reason = {"no items, so no verdict is known of the machine": [*names]} if names else {}
    for id, reason in scanned.left_out:
        if reason != NO_ITEMS or id not in names:
            by_reason.setdefault(reason, []).append(id)
    yield from _nameless(sum(machine.nameless for machine in scanned.machines), bool(by_reason))
    if not by_reason:
        return
    number = sum(map(len, by_reason.values()))
    yield f'<aside class="missing"><h2>Not read, so not known <small>{number:,} in all</small></h2>\n'
    yield "<p>The verdicts below know nothing of this, and are no all-clear for it.</p>\n"
    yield f"<details{_open(number <= MOST_MISSING)}><summary>What, and why</summary><ul>\n"
    for reason, ids in by_reason.items():
        yield from _left_out(reason, ids)
    yield "</ul></details></aside>\n"


def _nameless(count: int, is_left_out: bool) -> Iterator[str]:
    """That nothing was left out, if that is so, and how many packages have no name, so that no advisory was asked
    for them."""
    if count:
        packages = _many(count, "package has", "packages have")
        yield f'<aside class="missing"><p>{packages} no name in the tables and the dictionary, so nothing was asked for them.</p></aside>\n'
    elif not is_left_out:
        yield '<p class="whole">Nothing was left out by the scan.</p>\n'


def _left_out(reason: str, ids: Sequence[str]) -> Iterator[str]:
    if len(ids) == 1:
        yield f"<li><b>{text(ids[0])}</b> <bdi>{text(reason)}</bdi>\n"
        return
    yield f"<li><details{_open(len(ids) <= MOST_MISSING)}><summary><bdi>{text(reason)}</bdi> <small>{len(ids):,}</small>"
    yield "</summary><ul>\n"
    yield from (f"<li><b>{text(id)}</b>\n" for id in ids)
    yield "</ul></details>\n"


def _open(is_open: bool) -> str:
    return " open" if is_open else ""


def _numbers(counts: Counter[str]) -> Iterator[str]:
    yield '<ul class="numbers">\n'
    for group in (*GROUPS, "FALSE"):
        if group not in BY_PEOPLE or counts[group]:
            yield f'<li class="{group}"><b>{counts[group]:,}</b> {group}<small>{_MEANINGS[group]}</small>\n'
    yield "</ul>\n"


def _filter() -> str:
    choices = "".join(f"<option>{group}" for group in GROUPS)
    return (
        '<form id="filter" hidden>\n'
        '<label>Text <input name="q" type="search" placeholder="advisory, product, reason" autocomplete="off"></label>\n'
        '<label>Machine <input name="machine" type="search" placeholder="its name, or a part" autocomplete="off"></label>\n'
        f'<label>Verdict <select name="truth"><option value="">all{choices}</select></label>\n'
        '<button type="reset">Clear</button> <output aria-live="polite"></output>\n</form>\n'
        '<noscript><p class="hint">Without scripts there is no filter; the search of your browser finds names too.</p></noscript>\n'
        '<p class="none" id="nothing" hidden>No row is left by this filter; that tells nothing of the machines.</p>\n'
    )


def _no_rows(scanned: ScanResult) -> str:
    """A page without rows in words."""
    known = len(scanned.machines) - len(scanned.bare())
    if not known:
        return "There are no rows, since no verdict of any machine is known. <b>This is no all-clear.</b>"
    if not scanned.asked:
        return "There are no rows, since no advisory was asked for. <b>This is no all-clear.</b>"
    of_others = ""
    if scanned.left_out or known < len(scanned.machines):
        of_others = " <b>Of what was not read, above, nothing is known.</b>"
    what = (
        f"{_advisory_count(scanned.asked)} {'is' if scanned.asked == 1 else 'are all'} FALSE on {_machine_count(known)}"
    )
    return f"There are no rows: {what} with items.{of_others}"


def _level(score: float | None) -> str:
    return "none" if score is None else next(level for least, level in _LEVELS if score >= least)


def _score(score: float | None) -> str:
    known = "?" if score is None else f"{score:.1f}"
    return f'<b class="score {_level(score)}">{known}</b>'


def _advisory(advisory: Advisory, is_open: bool) -> Iterator[str]:
    parts = [f'<span class="{group}">{len(rows):,} {group}</span>' for group, rows in advisory.rows.items() if rows]
    yield f'<details class="advisory"{_open(is_open)}><summary>{_score(advisory.score)}<b class="id">{text(advisory.id)}</b>'
    yield '<span class="exploited">known exploited</span>' if advisory.exploited else ""
    yield f'<span class="counts">{" ".join(parts)}</span><bdi class="title">{text(advisory.title)}</bdi></summary>\n'
    yield from _about(advisory)
    for group, rows in advisory.rows.items():
        if rows:
            yield f'<section class="{group}"><h3>{group} <small>{_machine_count(len(rows))}</small></h3>'
            kind = ' class="told"' if any(row.reasons for row in rows) else ""
            yield f'<ul{kind} data-truth="{group}">\n'
            yield from map(_row, rows)
            yield "</ul></section>\n"
    yield "</details>\n"


def _about(advisory: Advisory) -> Iterator[str]:
    about = [text(advisory.severity), f"published {text(advisory.published[:10])}" if advisory.published else ""]
    about.append(f"known exploited since {text(advisory.exploited)}" if advisory.exploited else "")
    about.append("" if advisory.epss is None else f"EPSS {advisory.epss:.5f}")
    if advisory.url.startswith(("https://", "http://")):
        about.append(f'<a href="{text(advisory.url)}" rel="noreferrer">{text(advisory.url)}</a>')
    elif advisory.url:
        about.append(text(advisory.url))
    known = [f"<bdi>{one}</bdi>" for one in about if one]
    if known:
        yield f'<p class="about">{" · ".join(known)}</p>\n'


def _row(row: Row) -> str:
    """A row: the machine, and a cell with the reasons of the verdict, if they are known."""
    if not row.reasons:
        return f"<li>{text(row.machine)}\n"
    return f"<li><b>{text(row.machine)}</b><small>{'<br>'.join(map(text, row.reasons))}</small>\n"


def _machines(scanned: ScanResult) -> Iterator[str]:
    number = len(scanned.machines)
    yield f'<details id="machines"{_open(number <= MOST_OPEN)}><summary><h2>Machines <small>{number:,}, highest score first'
    yield "</small></h2></summary>\n<ul>\n"
    cut_short = {id for id, _ in scanned.left_out}
    for machine in scanned.machines:
        yield f"<li>{_score(machine.highest) if machine.highest is not None else ''}<a>{text(machine.name)}</a>"
        yield f'<small>{", ".join(_counts(machine, machine.name in cut_short))}</small>\n'
    yield "</ul></details>\n"


def _counts(machine: Machine, is_cut_short: bool) -> Iterator[str]:
    if not machine.has_verdicts:
        yield "<b>no items, so no verdict is known</b>"
        return
    if is_cut_short:
        yield "<b>not all of it was read</b>"
    if not machine.counts:
        yield "all FALSE"
    yield from (f"{machine.counts[group]:,} {group}" for group in GROUPS if machine.counts[group])
    if machine.items is not None:
        yield _many(machine.items, "item", "items")
    for number, what in (
        (machine.unlisted, "not in the dictionary"),
        (machine.removed, "under a removed name"),
        (machine.perhaps, "perhaps meant"),
        (machine.nameless, "without a name, so not asked for"),
    ):
        if number:
            yield f"{number:,} {what}"


def _legend() -> str:
    lines = "".join(f"<dt>{group}<dd>{_MEANINGS[group]}" for group in (*GROUPS, "FALSE"))
    return (
        f"<footer><h2>How to read it</h2><dl>{lines}</dl>\n"
        "<p>Beside a machine is what its verdict depends on, or which items make it TRUE, if the scan has that; "
        "<code>scan.py --why</code> adds the items.</p>\n"
        "<p>Perhaps meant: an item says less than an advisory asks for, so the verdict is UNKNOWN, or FALSE with <code>--strict</code>; "
        "the JSON lists them. Not in the dictionary: <code>unlisted.sh</code> and the JSON list them.</p></footer>\n"
    )
