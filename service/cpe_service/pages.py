"""The answers as pages for people: the same values as the JSON has. They are plain tables and forms, which work without
scripts.

All text of the data is escaped. A page may load nothing except the style and the script of the service itself.
"""
from __future__ import annotations

import html
import urllib.parse
from collections.abc import Iterator, Mapping, Sequence
from pathlib import Path

from cpe_recipes.console import escape
from cpe_recipes.feeds import Json
from starlette.requests import Request

from . import RECIPES
from .queries import KINDS

POLICY = (
    "default-src 'none'; style-src 'self'; script-src 'self'; connect-src 'self'; img-src data:; form-action 'self'; "
    "base-uri 'none'; frame-ancestors 'none'"
)
_HERE = Path(__file__).resolve().parent
ASSETS = {
    "style.css": ((RECIPES / "report.css").read_bytes() + (_HERE / "pages.css").read_bytes(), "text/css"),
    "live.js": ((_HERE / "live.js").read_bytes(), "text/javascript"),
}
_LINKS = (
    ("/machines", "Machines"),
    ("/advisories", "Advisories"),
    ("/changes", "Changes"),
    ("/names", "Names"),
    ("/health", "Health"),
)
_LEVELS = ((9.0, "critical"), (7.0, "high"), (4.0, "medium"), (0.0, "low"))
_MEANINGS = (
    ("TRUE", "the machine is affected"),
    ("ERROR", "a check has no result"),
    ("UNKNOWN", "the feeds and the list do not say; beside it is what it depends on"),
    ("perhaps", "UNKNOWN, since an item says less than the advisory asks for"),
    ("accepted", "someone accepted it, with a reason"),
    ("FALSE", "not affected; not listed here"),
)
_MOST_SHOWN = 6


def is_wanted(request: Request) -> bool:
    """Whether the client wants a page, as browsers do."""
    accepted = request.headers.get("accept", "")
    return "text/html" in accepted and not accepted.startswith("application/json")


def text(data: Json) -> str:
    """A text of the data as HTML."""
    return html.escape(escape(str(data)))


def page(name: str, value: Mapping[str, Json], asked: Mapping[str, str]) -> str:
    """The page of an answer."""
    return "".join(_frame(name, _TITLES[name](asked), _PAGES[name](value, asked)))


def problem(value: Mapping[str, Json]) -> str:
    """The page of a refused request."""
    return "".join(_frame("", str(value["title"]), [f'<p class="none">{text(value["detail"])}.</p>\n']))


def _frame(name: str, title: str, pieces: Sequence[str] | Iterator[str]) -> Iterator[str]:
    here = {"machine": "machines", "certificate": "machines", "advisory": "advisories", "name": "names"}.get(name, name)
    yield f'<!DOCTYPE html>\n<html lang="en">\n<head>\n<meta charset="utf-8">\n<title>{text(title)} - cpe</title>\n'
    yield '<meta name="viewport" content="width=device-width, initial-scale=1">\n<meta name="color-scheme" content="light dark">\n'
    yield '<link rel="stylesheet" href="/assets/style.css">\n<script src="/assets/live.js" defer></script>\n</head>\n<body>\n'
    yield '<a class="skip" href="#main">To the content</a>\n<nav aria-label="Pages"><ul>\n'
    for path, called in _LINKS:
        mark = ' aria-current="page"' if path == f"/{here}" else ""
        yield f'<li><a href="{path}"{mark}>{called}</a>\n'
    yield f'</ul></nav>\n<header><h1><bdi>{text(title)}</bdi></h1><p id="live" role="status"></p></header>\n<main id="main" tabindex="-1">\n'
    yield from pieces
    yield f"</main>\n{_legend() if name in _WITH_LEGEND else ''}</body>\n</html>\n"


def _legend() -> str:
    lines = "".join(f"<dt>{kind}<dd>{meaning}" for kind, meaning in _MEANINGS)
    return f"<footer><h2>How to read it</h2><dl>{lines}</dl></footer>\n"


def _path(*parts: str) -> str:
    return "/" + "/".join(urllib.parse.quote(part, safe="") for part in parts)


def _link(path: str, called: Json) -> str:
    return f'<a href="{html.escape(path)}"><bdi>{text(called)}</bdi></a>'


def _query(path: str, **values: str) -> str:
    return f"{path}?{urllib.parse.urlencode(values)}"


def _table(
    header: Sequence[str], rows: Iterator[Sequence[str]] | Sequence[Sequence[str]], caption: str
) -> Iterator[str]:
    """A table of cells that are HTML; the first cell of a row is its header."""
    yield f'<div class="wide" tabindex="0" role="region" aria-label="{text(caption)}"><table><caption>{text(caption)}</caption>\n<thead><tr>'
    yield "".join(f'<th scope="col">{text(one)}' for one in header) + "</thead>\n<tbody>\n"
    for first, *cells in rows:
        yield f'<tr><th scope="row">{first}{"".join(f"<td>{cell}" for cell in cells)}\n'
    yield "</tbody></table></div>\n"


def _form(path: str, asked: Mapping[str, str], *fields: tuple[str, str]) -> Iterator[str]:
    """A form with texts and kinds, which leads to the same page."""
    yield f'<form action="{html.escape(path)}" method="get" role="search">\n'
    for name, label in fields:
        if name == "kind":
            options = "".join(f'<option{" selected" if asked.get("kind") == one else ""}>{one}' for one in KINDS)
            yield f'<label>{label}<select name="kind"><option value="">all{options}</select></label>\n'
        else:
            yield f'<label>{label}<input name="{name}" value="{text(asked.get(name, ""))}" maxlength="300"></label>\n'
    yield '<button type="submit">Show</button>\n</form>\n'


def _more(value: Mapping[str, Json]) -> str:
    return (
        f'<p><a rel="next" href="{html.escape(value["next"])}">Show the next ones</a></p>\n' if "next" in value else ""
    )


def _kind(kind: str) -> str:
    """A kind of verdict, in its colour and in words."""
    colour = {"perhaps": "UNKNOWN", "accepted": "ACCEPTED"}.get(kind, kind)
    return f'<b class="kind {colour if colour in ("TRUE", "ERROR", "UNKNOWN", "ACCEPTED", "FALSE") else "none"}">{text(kind)}</b>'


def _kind_of(verdict: Mapping[str, Json]) -> str:
    return "accepted" if "accepted" in verdict else "perhaps" if verdict.get("perhaps") else verdict["verdict"]


def _counts(counts: Mapping[str, int]) -> str:
    found = [f"{count:,} {_kind(kind)}" for kind in (*KINDS, "no items") if (count := counts.get(kind))]
    return ", ".join(found) or "none"


def _score(one: Mapping[str, Json]) -> str:
    score = one.get("score")
    if not isinstance(score, (int, float)) or isinstance(score, bool):
        return '<span class="score none">none</span>'
    level = next((name for least, name in _LEVELS if score >= least), "none")
    return f'<span class="score {level}">{score}</span>'


def _time(value: Json) -> str:
    return f'<time datetime="{text(value)}">{text(value).replace("T", " ")[:16]}</time>' if value else "not yet"


def _list(texts: Sequence[Json]) -> str:
    """Some texts; all after the first ones are folded."""
    lines = [f"<li>{text(one)}" for one in texts]
    folded = f"<details><summary>{len(lines) - _MOST_SHOWN:,} more</summary><ul>{''.join(lines[_MOST_SHOWN:])}</ul></details>"
    return f"<ul>{''.join(lines[:_MOST_SHOWN])}</ul>{folded if len(lines) > _MOST_SHOWN else ''}"


def _missing(title: str, texts: Sequence[Json]) -> Iterator[str]:
    """What was not read, which each page shows."""
    if texts:
        yield f'<section class="missing"><h2>{text(title)} <small>{len(texts):,}</small></h2>{_list(texts)}</section>\n'


_UNJUDGED = (
    (
        "waiting",
        "1 machine is",
        "machines are",
        "not judged yet by the newest list or feeds, so what is shown is older, or missing",
    ),
    (
        "faults",
        "1 machine has",
        "machines have",
        "no result of the newest list (state fault), so what is shown is older, or missing",
    ),
    ("noItems", "1 machine has", "machines have", "no items, so there are no verdicts"),
)


def _waits(value: Mapping[str, Json]) -> Iterator[str]:
    """What has to be shown beside a list of verdicts."""
    found = []
    for key, of_one, of_more, what in _UNJUDGED:
        if count := value.get(key):
            found.append(f"{of_one if count == 1 else f'{count:,} {of_more}'} {what}.")
    if count := value["feedsLeftOut"]:
        found.append(f"Not read of the feeds and tables: {count:,}.")
    if value.get("lacks"):
        found.append(f"{text(value['lacks']).capitalize()}.")
    if found:
        yield f'<p class="none">{" ".join(found)} {_link("/health", "More of it")}</p>\n'


def _health(value: Mapping[str, Json], _asked: Mapping[str, str]) -> Iterator[str]:
    yield from _waits(value | {"feedsLeftOut": 0})
    yield from _missing("Trouble", value["trouble"])
    yield from _missing(
        "Feeds of which pages are missing",
        [f"{one['kind']} {one['name']}, since {one['at']}" for one in value["feedsWaiting"]],
    )
    yield from _missing(
        "Not read of the feeds and tables", [f"{one['id']}: {one['reason']}" for one in value.get("leftOut", ())]
    )
    names = (
        ("machines", "Machines"),
        ("waiting", "Machines that wait"),
        ("faults", "Machines without a result"),
        ("workers", "Workers"),
    )
    rows = [
        (called, f"{value[name]:,}") for name, called in (*names, ("restarts", "Processes that were started again"))
    ]
    rows += [(f"Last feed of the {text(one['kind'])}", _time(one["last"])) for one in value["feeds"]]
    yield from _table(("What", "Now"), rows, "The state of the service")
    if value.get("remarks"):
        yield f"<details><summary>Remarks <small>{len(value['remarks']):,}</small></summary>{_list(value['remarks'])}</details>\n"


def _older_names(value: Mapping[str, Json]) -> Iterator[str]:
    """A note if there is no dictionary yet, or a newer one."""
    if (state := value["dictionary"]) != "current":
        what = (
            "No dictionary was given yet"
            if state == "none"
            else "The newest dictionary isn't read yet, so names may be missing, or older"
        )
        yield f'<p class="none">{what}.</p>\n'


def _machines(value: Mapping[str, Json], asked: Mapping[str, str]) -> Iterator[str]:
    yield from _waits(value)
    yield from _form("/machines", asked, ("q", "Name"), ("kind", "With a verdict"))
    rows = (
        (
            _link(_path("machines", one["name"]), one["name"]),
            text(one["state"]),
            _counts(one["counts"]),
            _time(one["judged"]),
        )
        for one in value["machines"]
    )
    yield from _table(("Machine", "State", "Verdicts", "Judged (UTC)"), rows, f"{value['total']:,} machines")
    yield _more(value)


def _machine(value: Mapping[str, Json], asked: Mapping[str, str]) -> Iterator[str]:
    name = value["name"]
    yield f"<p>{text(value['state'])}; its list is of {_time(value['put'])}, and its verdicts of {_time(value['judged'])}.</p>\n"
    if value.get("fault"):
        yield from _missing("There is no result of this list", [value["fault"]])
    yield from _missing("Not read", [f"{one['id']}: {one['reason']}" for one in value["leftOut"]])
    yield from _missing("Packages without a name", value.get("withoutCandidates", ()))
    yield f"<p>{_counts(value['counts'])}. {_link(_query('/changes', machine=name), 'What changed here')}.</p>\n"
    yield from _form(_path("machines", name), asked, ("q", "Id or title"), ("kind", "Verdict"))
    rows = (_verdict(name, one) for one in value["verdicts"])
    header = ("Advisory", "Verdict", "Score", "Since (UTC)", "Title", "Why")
    yield from _table(header, rows, f"{value.get('total', 0):,} verdicts that are not FALSE")
    yield _more(value)
    yield from _missing("Not in the dictionary", value.get("notInDictionary", ()))
    if value["remarks"]:
        yield f"<details><summary>Remarks <small>{len(value['remarks']):,}</small></summary>{_list(value['remarks'])}</details>\n"


def _verdict(machine: str, one: Mapping[str, Json]) -> tuple[str, ...]:
    why = [
        *([f"accepted: {one['accepted']}"] if "accepted" in one else ()),
        *([f"settled: {one['settled']}"] if "settled" in one else ()),
    ]
    why += [*one.get("hangsOn", ()), *one.get("decidedBy", ()), *one.get("remarks", ())]
    certificate = _link(_path("certificates", machine, one["id"]), f"the certificate of {one['id']}")
    advisory = _link(_path("advisories", one["id"]), one["id"])
    return (
        advisory,
        _kind(_kind_of(one)),
        _score(one),
        _time(one.get("since")),
        text(one.get("title", "")),
        f"{_list(why)}{certificate}",
    )


def _advisories(value: Mapping[str, Json], asked: Mapping[str, str]) -> Iterator[str]:
    yield from _waits(value)
    yield from _form("/advisories", asked, ("q", "Id"), ("kind", "With a verdict"))
    rows = (
        (
            _link(_path("advisories", one["id"]), one["id"]),
            _score(one),
            _counts(one["counts"]),
            _time(one["since"]),
            text(one.get("title", "")),
        )
        for one in value["advisories"]
    )
    header = ("Advisory", "Score", "Machines", "First since (UTC)", "Title")
    yield from _table(header, rows, f"{value['total']:,} advisories with a verdict that is not FALSE")
    yield _more(value)


def _advisory(value: Mapping[str, Json], asked: Mapping[str, str]) -> Iterator[str]:
    yield from _waits(value)
    yield f"<p>{_score(value)} {text(value.get('title', ''))}</p>\n"
    if value.get("state"):
        yield from _missing("It has no verdict", [value["state"]])
    url = value.get("url", "")
    if isinstance(url, str) and url.startswith(("https://", "http://")):
        yield f'<p><a rel="noreferrer" href="{text(url)}">{text(url)}</a></p>\n'
    yield f"<p>{_link(_query('/changes', advisory=value['id']), 'What changed of it')}.</p>\n"
    yield from _form(_path("advisories", value["id"]), asked, ("kind", "Verdict"))
    rows = (
        (
            _link(_path("machines", one["name"]), one["name"]),
            _kind(one["verdict"]),
            text(one["state"]),
            _time(one["since"]),
            _link(_path("certificates", one["name"], value["id"]), f"the certificate of {one['name']}"),
        )
        for one in value["machines"]
    )
    yield from _table(("Machine", "Verdict", "State", "Since (UTC)", "Why"), rows, f"{value['total']:,} machines")
    yield _more(value)


def _changes(value: Mapping[str, Json], asked: Mapping[str, str]) -> Iterator[str]:
    yield from _waits(value)
    fields = (("since", "Since (2026-12-01)"), ("until", "Until"), ("machine", "Machine"), ("advisory", "Advisory"))
    yield from _form("/changes", asked, *fields)
    rows = (
        (
            _time(one["at"]),
            _link(_path("machines", one["machine"]), one["machine"]),
            _link(_path("advisories", one["advisory"]), one["advisory"]),
            f"{_kind(one['before'])} to {_kind(one['after'])}",
            text(one["cause"]),
            text(one.get("reason", "")),
        )
        for one in value["changes"]
    )
    header = ("Time (UTC)", "Machine", "Advisory", "Verdict", "Changed by", "Reason")
    yield from _table(header, rows, f"{len(value['changes']):,} changes")
    yield _more(value)


def _names(value: Mapping[str, Json], asked: Mapping[str, str]) -> Iterator[str]:
    yield from _older_names(value)
    yield from _form("/names", asked, ("q", "Words of a name or title"))
    rows = (
        (
            _link(_query("/name", cpe=one["name"]), one["name"]),
            text(one["title"]),
            _list(one.get("successors", ())) if one["deprecated"] else "",
        )
        for one in value["names"]
    )
    yield from _table(("Name", "Title", "Deprecated, and leads to"), rows, f"{value['total']:,} names")
    yield _more(value)


def _name(value: Mapping[str, Json], asked: Mapping[str, str]) -> Iterator[str]:
    yield from _older_names(value)
    yield from _form("/name", asked, ("cpe", "CPE name"), ("with", "Compare with"))
    forms = [(label, f"<code>{text(value[key])}</code>") for key, label in _FORMS if key in value]
    yield from _table(("Form", "The name"), forms, "The name in all its forms")
    chain = value["chain"]
    yield f"<section><h2>Where it leads</h2><p>{_chain_words(chain)}</p>{''.join(_chain(chain, value['formattedString'], set()))}</section>\n"
    other = value.get("with")
    yield from _compared(value, other) if other else ()


_FORMS = (("formattedString", "formatted string"), ("uri", "URI"), ("text", "text of the name"))


def _chain_words(chain: Mapping[str, Json]) -> str:
    if not chain["isEntry"]:
        return "No entry of the dictionary has this name."
    return (
        "It is deprecated." if len(chain["steps"]) > 1 or not chain["ends"] else "It is an entry, and not deprecated."
    )


def _chain(chain: Mapping[str, Json], name: str, seen: set[str]) -> Iterator[str]:
    """A chain as a tree: a name, and below it the successors of its deprecation."""
    step = next((one for one in chain["steps"] if one["name"] == name), None)
    if step is None or name in seen:
        return
    seen.add(name)
    kind = "an end" if step["kind"] == "active" else f"deprecated: {text(step['kind'])}"
    yield f'<ul class="chain"><li>{_link(_query("/name", cpe=name), name)} <small>{kind}</small>'
    for other in step.get("successors", ()):
        yield from _chain(chain, other, seen)
    yield "</ul>"


def _compared(value: Mapping[str, Json], other: Mapping[str, Json]) -> Iterator[str]:
    rows = [
        (text(attribute), text(value["attributes"][attribute]), _kind(relation), text(other["attributes"][attribute]))
        for attribute, relation in other["relations"].items()
    ]
    yield from _table(
        ("Attribute", "The name", "Is to", "The other"),
        rows,
        f"The name is {other['relation']} to {other['formattedString']}",
    )


_STATES = {
    "waiting": "The machine waits for its verdicts, so those that are shown of it are older than this certificate.",
    "fault": "There is no result of the list of the machine, so the verdicts that are shown of it are older than this certificate.",
}


def _certificate(value: Mapping[str, Json], _asked: Mapping[str, str]) -> Iterator[str]:
    machine, advisory = value["machine"], value["advisory"]
    yield f"<p>{_link(_path('machines', machine), machine)}, {_link(_path('advisories', advisory), advisory)}</p>\n"
    if value["state"] != "judged":
        yield f'<p class="none">{_STATES[value["state"]]}</p>\n'
    yield f"<h2>Why</h2><pre>{text_lines(value['words'])}</pre>\n"
    yield f"<h2>What <code>cpe check</code> says of it</h2><pre>{text_lines(value['check'])}</pre>\n"
    for key, called in (("certificates", "The certificate"), ("records", "The records over which it is")):
        yield f"<details><summary>{called} <small>{len(value[key]):,} lines</small></summary><pre>{text_lines(value[key])}</pre></details>\n"


def text_lines(lines: Sequence[str]) -> str:
    """Lines of the data as HTML."""
    return "\n".join(map(text, lines))


_PAGES = {
    "machines": _machines,
    "machine": _machine,
    "advisories": _advisories,
    "advisory": _advisory,
    "changes": _changes,
    "names": _names,
    "name": _name,
    "certificate": _certificate,
    "health": _health,
}
_WITH_LEGEND = ("machines", "machine", "advisories", "advisory", "changes")
_TITLES = {
    "machines": lambda _: "Machines",
    "machine": lambda asked: asked["machine"],
    "advisories": lambda _: "Advisories",
    "advisory": lambda asked: asked["advisory"],
    "changes": lambda _: "Changes",
    "names": lambda _: "Names",
    "name": lambda _: "A name",
    "health": lambda _: "Health",
    "certificate": lambda asked: f"Why {asked['advisory']} on {asked['machine']}",
}
