"""The queries of the database. Each reads data that was committed at one moment."""
from __future__ import annotations

import json
import sqlite3
from collections import Counter
from collections.abc import Iterator, Sequence
from datetime import datetime, timezone

from cpe_recipes.feeds import Json

from .database import GROUND, ground_of, read_note, read_transaction, unpack
from .feeds import WAITING, waiting_feeds

# The kinds of verdicts that are listed, in their order.
KINDS = ("TRUE", "ERROR", "UNKNOWN", "perhaps", "accepted")
# (made once, because a machine may have thousands of verdicts)
_encoder = json.JSONEncoder(ensure_ascii=False)
_RANKS = " ".join(f"WHEN '{kind}' THEN {rank}" for rank, kind in enumerate(KINDS))


class FeedsUnread(Exception):
    """The accepted feeds aren't read yet, so it isn't known whether they have the advisory."""


def time_text(seconds: float | None) -> str | None:
    """A time in ISO 8601, in UTC."""
    if seconds is None:
        return None
    return datetime.fromtimestamp(seconds, timezone.utc).isoformat(timespec="milliseconds").replace("+00:00", "Z")


def machines(database: sqlite3.Connection, q: str, kind: str, limit: int, offset: int) -> tuple[list[Json], int]:
    """The machines in the order of their names, and how many there are."""
    where = "instr(lower(name), lower(?)) > 0"
    values: list[Json] = [q]
    if kind:
        where += " AND json_extract(counts, '$.' || ?) > 0"
        values.append(kind)
    with read_transaction(database):
        ground = ground_of(database)
        count = database.execute(f"SELECT count(*) FROM machines WHERE {where}", values).fetchone()[0]
        # (long columns aren't read for a list of machines)
        columns = "name, put, judged_put, judged_ground, judged_at, counts, fault"
        rows = database.execute(
            f"SELECT {columns} FROM machines WHERE {where} ORDER BY name LIMIT ? OFFSET ?", (*values, limit, offset)
        ).fetchall()
    return [_machine(row, ground) for row in rows], count


def waiting_machines(database: sqlite3.Connection) -> int:
    """How many machines have verdicts that are older than their list or the ground."""
    question = "SELECT count(*) FROM machines WHERE put <> judged_put OR judged_ground <> ?"
    return database.execute(question, (ground_of(database),)).fetchone()[0]


def cautions(database: sqlite3.Connection) -> dict[str, Json]:
    """Warnings beside a list of verdicts: how many machines wait for their verdicts, have no result for their list, or
    have no items, so that the list lacks them; and how much of the feeds was not read."""
    question = (
        "SELECT total(put <> judged_put OR judged_ground <> ?) waiting, total(fault <> '') faults, "
        "total(instr(counts, '\"no items\"') > 0) noItems FROM machines"
    )
    with read_transaction(database):
        row = database.execute(question, (ground_of(database),)).fetchone()
        about = _about_ground(database)
    lacks = {"lacks": about["lacks"]} if about.get("lacks") else {}
    return {key: int(row[key]) for key in row.keys()} | {"feedsLeftOut": len(about.get("leftOut", ())), **lacks}


def _about_ground(database: sqlite3.Connection) -> dict[str, Json]:
    """The notes about the ground. If they are of an older ground, they don't say what it lacks, because the new one may
    have it."""
    about = json.loads(read_note(database, "ground", "{}"))
    return about if is_read(database) else about | {"lacks": ""}


def is_read(database: sqlite3.Connection) -> bool:
    """Whether the notes are of the current ground."""
    return int(read_note(database, "noted", "-1")) == ground_of(database)


def dictionary(database: sqlite3.Connection) -> dict[str, Json]:
    """The state of the dictionary of the names: `current`, an older one (`waiting`), or `none`."""
    marks = ", ".join("?" * len(GROUND))
    question = f"SELECT max(id) FROM edits WHERE kind IN ({marks}) AND what LIKE 'dictionary %'"
    with read_transaction(database):
        edit = database.execute(question, GROUND).fetchone()[0]
        is_current = edit is not None and int(read_note(database, "names", "-1")) >= edit
    return {"dictionary": "none" if edit is None else "current" if is_current else WAITING}


def _machine(row: sqlite3.Row, ground: int) -> dict[str, Json]:
    return {
        "name": row["name"],
        "state": state_of(row, ground),
        "counts": json.loads(row["counts"]),
        "judged": time_text(row["judged_at"]),
        "edit": row["put"],
        **({"fault": row["fault"]} if row["fault"] else {}),
    }


def state_of(row: sqlite3.Row, ground: int) -> str:
    """Whether the verdicts of a machine are of its list and this ground, and if not, why."""
    if row["put"] != row["judged_put"] or row["judged_ground"] != ground:
        return WAITING
    return "fault" if row["fault"] else "judged"


def result_text(row: dict[str, Json]) -> str:
    """The stored result of a machine: a line with everything except its verdicts, and a line for each verdict."""
    head = {key: value for key, value in row.items() if key != "verdicts"}
    return "\n".join(map(_encoder.encode, (head, *row.get("verdicts", ()))))


def machine(
    database: sqlite3.Connection, name: str, q: str, kind: str, limit: int, offset: int
) -> dict[str, Json] | None:
    """A machine with some of its verdicts, each with the reasons of an UNKNOWN, and how many there are; None if there
    is no such machine."""
    with read_transaction(database):
        row = database.execute("SELECT * FROM machines WHERE name = ?", (name,)).fetchone()
        if row is None:
            return None
        ground, put_at = (
            ground_of(database),
            database.execute("SELECT at FROM edits WHERE id = ?", (row["put"],)).fetchone(),
        )
        found, said = _machine(row, ground) | {"put": time_text(put_at["at"])}, json.loads(row["said"])
        if row["result"] is None:
            return found | said | {"verdicts": [], "total": 0}
        first, *lines = unpack(row["result"]).decode().split("\n")
        head = json.loads(first)
        if q or kind:
            rows = [one for one in map(json.loads, lines) if _fits(one, q.lower(), kind)]
        total = len(rows) if q or kind else len(lines)
        shown = rows[offset : offset + limit] if q or kind else list(map(json.loads, lines[offset : offset + limit]))
        for one in shown:
            since = database.execute(
                "SELECT since FROM verdicts WHERE machine = ? AND advisory = ?", (row["id"], one["id"])
            ).fetchone()
            one["since"] = time_text(since["since"] if since else None)
    more = head.pop("said")
    found |= {key: value for key, value in head.items() if key != "name"}
    found |= {key: [*said[key], *more[key]] for key in said}
    return found | {"verdicts": shown, "total": total}


def _fits(verdict: dict[str, Json], q: str, kind: str) -> bool:
    found = "accepted" if "accepted" in verdict else "perhaps" if verdict.get("perhaps") else verdict["verdict"]
    return (not kind or found == kind) and (not q or q in f"{verdict['id']} {verdict.get('title', '')}".lower())


def find_done(database: sqlite3.Connection, lists: Sequence[tuple[str, int]]) -> set[tuple[str, int]]:
    """Of these lists, by machine and edit, those that have verdicts, have to wait for feeds, or were replaced or
    removed."""
    question = "SELECT name, judged_put FROM machines WHERE name IN (SELECT value FROM json_each(?))"
    with read_transaction(database):
        if _about_ground(database).get("lacks"):
            return set(lists)
        judged = dict(map(tuple, database.execute(question, (json.dumps([name for name, _ in lists]),))))
    return {(name, edit) for name, edit in lists if name not in judged or judged[name] >= edit}


def advisories(database: sqlite3.Connection, q: str, kind: str, limit: int, offset: int) -> tuple[list[Json], int]:
    """The advisories with a verdict that isn't FALSE on some machine, the most affected first, and how many there
    are."""
    where, values = ("instr(lower(advisory), lower(?)) > 0", [q]) if q else ("1", [])
    if kind:
        where, values = f"{where} AND kind = ?", [*values, kind]
    with read_transaction(database):
        count = database.execute(f"SELECT count(DISTINCT advisory) FROM affected WHERE {where}", values).fetchone()[0]
        rows = database.execute(
            f"SELECT advisory, total(machines) FILTER (WHERE kind = 'TRUE') of_true, sum(machines) of_all FROM affected WHERE {where} "
            "GROUP BY advisory ORDER BY of_true DESC, of_all DESC, advisory LIMIT ? OFFSET ?",
            (*values, limit, offset),
        ).fetchall()
        return [_advisory(database, row["advisory"], kind) for row in rows], count


def _advisory(database: sqlite3.Connection, id: str, kind: str) -> dict[str, Json]:
    """An advisory with its machines by the kinds of their verdicts, and since when the first machine has such a
    verdict."""
    counts = _counts(database, id)
    question = "SELECT min(since) FROM verdicts WHERE advisory = ? AND kind = ?"
    since = min(database.execute(question, (id, one)).fetchone()[0] for one in counts if one == kind or not kind)
    return {"id": id, **_details(database, id), "counts": counts, "since": time_text(since)}


def _counts(database: sqlite3.Connection, id: str) -> dict[str, int]:
    """How many machines have a verdict of each kind."""
    return dict(map(tuple, database.execute("SELECT kind, machines FROM affected WHERE advisory = ?", (id,))))


def _details(database: sqlite3.Connection, id: str) -> dict[str, Json]:
    row = database.execute("SELECT state, details FROM advisories WHERE id = ?", (id,)).fetchone()
    if row is None:
        return {}
    known = json.loads(row["details"])
    return {key: value for key, value in known.items() if key != "id"} | (
        {"state": row["state"]} if row["state"] else {}
    )


def advisory(database: sqlite3.Connection, id: str, kind: str, limit: int, offset: int) -> dict[str, Json] | None:
    """An advisory with its machines, each with its verdict and since when; None if neither the feeds nor a machine have
    it. FeedsUnread if the feeds aren't read yet."""
    where, values = "advisory = ?", [id]
    if kind:
        where, values = f"{where} AND kind = ?", [*values, kind]
    with read_transaction(database):
        details = _details(database, id)
        ground = ground_of(database)
        rows = database.execute(
            f"SELECT name, kind, since, put, judged_put, judged_ground, fault FROM verdicts JOIN machines ON machines.id = machine WHERE {where} "
            f"ORDER BY CASE kind {_RANKS} END, since DESC, name LIMIT ? OFFSET ?",
            (*values, limit, offset),
        ).fetchall()
        counts = Counter(_counts(database, id))
        is_known = database.execute("SELECT 1 FROM advisories WHERE id = ?", (id,)).fetchone() is not None
        if not is_known and not counts and not is_read(database):
            raise FeedsUnread
    if not is_known and not counts:
        return None
    total = counts[kind] if kind else sum(counts.values())
    of = [
        {"name": row["name"], "verdict": row["kind"], "since": time_text(row["since"]), "state": state_of(row, ground)}
        for row in rows
    ]
    return {"id": id, **details, "counts": dict(counts), "machines": of, "total": total}


def changes(
    database: sqlite3.Connection, since: float, until: float, after: int, machine: str, advisory: str, limit: int
) -> list[Json]:
    """The changes of verdicts in a span of time, after the change with this number, in their order."""
    where, values = ["id > ?"], [after]
    for column, value in (("at >=", since), ("at <", until), ("machine =", machine), ("advisory =", advisory)):
        if value:
            where.append(f"{column} ?")
            values.append(value)
    rows = database.execute(
        f"SELECT * FROM history WHERE {' AND '.join(where)} ORDER BY id LIMIT ?", (*values, limit)
    ).fetchall()
    return [_change(row) for row in rows]


def _change(row: sqlite3.Row) -> dict[str, Json]:
    found = {key: row[key] for key in ("id", "machine", "advisory", "before", "after", "cause", "edit")}
    return found | {"at": time_text(row["at"])} | ({"reason": row["reason"]} if row["reason"] else {})


def last_change(database: sqlite3.Connection) -> int:
    """The number of the last change, which may be too old to be kept."""
    return database.execute("SELECT coalesce(max(seq), 0) FROM sqlite_sequence WHERE name = 'history'").fetchone()[0]


def health(database: sqlite3.Connection) -> dict[str, Json]:
    """Whether everything accepted is judged, and the state of feeds and dictionary."""
    with read_transaction(database):
        ground = ground_of(database)
        found = {
            "machines": database.execute("SELECT count(*) FROM machines").fetchone()[0],
            "waiting": waiting_machines(database),
            "faults": database.execute("SELECT count(*) FROM machines WHERE fault <> ''").fetchone()[0],
            "ground": ground,
            "feeds": [
                _feed(row)
                for row in database.execute(
                    "SELECT kind, max(at) at FROM feeds WHERE state = 'counts' GROUP BY kind ORDER BY kind"
                )
            ],
        }
        found["trouble"] = [
            row["text"] for row in database.execute("SELECT text FROM notes WHERE name LIKE 'trouble %' ORDER BY name")
        ]
        found |= {"groundIsRead": is_read(database), **_about_ground(database)}
    found["feedsWaiting"] = [{**one, "at": time_text(one["at"])} for one in waiting_feeds(database)]
    return found


def _feed(row: sqlite3.Row) -> dict[str, Json]:
    return {"kind": row["kind"], "last": time_text(row["at"])}


def metrics(database: sqlite3.Connection) -> Iterator[tuple[str, str, dict[str, str], float]]:
    """The numbers of the database: names, what they are, labels and values."""
    with read_transaction(database):
        yield "cpe_machines", "Machines.", {}, database.execute("SELECT count(*) FROM machines").fetchone()[0]
        yield "cpe_machines_waiting", "Machines whose verdicts are older than their list or the feeds.", {}, waiting_machines(
            database
        )
        faults = database.execute("SELECT count(*) FROM machines WHERE fault <> ''").fetchone()[0]
        yield "cpe_machines_with_fault", "Machines of which there is no result.", {}, faults
        counts = Counter(dict.fromkeys(KINDS, 0))
        for row in database.execute("SELECT counts FROM machines"):
            counts.update({kind: count for kind, count in json.loads(row["counts"]).items() if kind in counts})
        for kind, count in counts.items():
            yield "cpe_verdicts", "Verdicts that are not FALSE, by kind.", {"kind": kind}, count
        for row in database.execute("SELECT kind, max(at) at FROM feeds WHERE state = 'counts' GROUP BY kind"):
            yield "cpe_feed_time_seconds", "When the last feed of a kind was accepted.", {"kind": row["kind"]}, row[
                "at"
            ]
        yield "cpe_feeds_waiting", "Feeds of which pages are missing.", {}, len(
            database.execute("SELECT 1 FROM feeds WHERE state = ?", (WAITING,)).fetchall()
        )
