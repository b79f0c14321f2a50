"""The ground: everything by which machines are judged, as the database has it after an edit. A worker reads it once,
and again after it changed."""
from __future__ import annotations

import contextlib
import sqlite3
import tempfile
from collections.abc import Callable, Iterator, Sequence
from dataclasses import dataclass
from pathlib import Path

from cpe_recipes import advisories, dictionary, latest_records, matches, portions, products, scan
from cpe_recipes.advisory_states import States
from cpe_recipes.cases import FeedData
from cpe_recipes.console import Fatal
from cpe_recipes.feeds import Json
from cpe_recipes.names_table import Tables, read_tables
from cpe_recipes.package_names import name_machines
from cpe_recipes.program import Program
from cpe_recipes.range_checks import MatchLists
from cpe_recipes.settlements import Settlements, read_settlements
from cpe_recipes.suppressions import Suppressions, read_suppressions
from cpe_recipes.versions import LETTERS_FILE, Letters, read_letters

from . import feeds
from .database import ground_of, read_transaction
from .message_list import MessageList
from .waiting_machine import WaitingMachine

# The tables that users keep, by their names in the API, with the kind of their edits.
TABLES = {"names": "names", "letters": "letters", "suppress": "suppression", "settled": "settled"}


@dataclass(frozen=True)
class Ground:
    """Everything by which machines are judged: the last edit, the contents of the feeds, the tables, and what was left
    out of them. `lacks` says why no machine can be judged by it; it is empty if all can. If the ground has only the
    advisories that may concern the machines, `cut_at` is the last list that was considered."""

    edit: int
    entries: list[str]
    feed_data: FeedData
    states: States
    lists: MatchLists
    letters: Letters
    names: Tables
    suppressions: Suppressions
    settlements: Settlements
    messages: MessageList
    lacks: str = ""
    cut_at: int | None = None

    def is_before(self, put: int) -> bool:
        """Whether it may lack advisories for a list of this edit, because it was cut to the items of earlier lists."""
        return self.cut_at is not None and put > self.cut_at

    def version(self) -> tuple[int, int]:
        """The edit, and the last list that was considered."""
        return self.edit, self.cut_at or 0

    def json(self) -> dict[str, Json]:
        """What was left out of the feeds and tables, and which advisories have no verdict."""
        return self.messages.as_json() | {"lacks": self.lacks}

    def why_none(self, advisory: str) -> str:
        """Why an advisory has no verdict."""
        if advisory in self.states.unanalysed:
            return f"not analysed: {self.states.unanalysed[advisory]}"
        if advisory in self.states.rejected:
            return "rejected"
        reasons = (f"left out: {reason}" for id, reason, _ in self.messages.noted if id == advisory)
        return next(reasons, "it isn't in the feeds")


def read_ground(
    database: sqlite3.Connection, program: Program, machines: Callable[[], Sequence[WaitingMachine]]
) -> Ground:
    """The current ground. If there are more advisories than cpe takes, it has only those that may concern these
    machines."""
    messages = MessageList()
    with read_transaction(database):
        edit = ground_of(database)
        candidates = list(_candidates(database, messages))
        pages = list(feeds.pages_of(database, "advisories"))
        listed = list(feeds.pages_of(database, "matches"))
        texts = dict(database.execute("SELECT name, text FROM tables").fetchall())
    with table_files(texts) as paths:
        letters = read_letters(paths.get("letters", LETTERS_FILE))
        names = read_tables([paths["names"]] if "names" in paths else [])
        suppressions = read_suppressions([paths["suppress"]] if "suppress" in paths else [], messages)
        settlements = read_settlements([paths["settled"]] if "settled" in paths else [], messages)
    entries = program.accept(candidates, messages, unsaid="exists")
    states = States()
    lacks, cut_at = "" if entries else "no dictionary was given yet", None
    cut = products.Cut([], {})
    if sum(len(page.records) for page in pages) > portions.MOST.statements:
        waiting = machines()
        cut_at = max((one.put for one in waiting), default=0)
        of_all = [one.machine() for one in waiting]
        name_machines(of_all, names, entries)
        pages = [page for page in states.sort(latest_records.advisories(pages, messages)) if page.records]
        cut = scan.of_products(pages, listed, of_all, entries, program, messages)
        pages = cut.pages
    feed_data = FeedData(entries, [], {}, {}, {}, cut.elsewhere)
    if any(page.records for page in pages):
        found = advisories.convert(pages, program, messages, is_decided=True, states=states)
        records = program.accept_statements(found.candidates, messages)
        feed_data = FeedData(entries, records, found.ranges, found.details, found.stand_ins, cut.elsewhere)
    if not feed_data.ids.advisories:
        lacks = lacks or "no advisory that can have a verdict was given yet"
    lists = MatchLists(program, matches.read_match_lists(listed, feed_data.ranges.keys(), messages) if listed else {})
    return Ground(
        edit, entries, feed_data, states, lists, letters, names, suppressions, settlements, messages, lacks, cut_at
    )


def _candidates(database: sqlite3.Connection, messages: MessageList) -> Iterator:
    try:
        yield from dictionary.candidates_in(feeds.pages_of(database, "dictionary"), messages)
    except Fatal:
        # (there is no page of a dictionary yet; `lacks` says so)
        return


@contextlib.contextmanager
def table_files(texts: dict[str, str]) -> Iterator[dict[str, str]]:
    """Writes these tables into files, by their names, because the recipes read files."""
    with tempfile.TemporaryDirectory(prefix="cpe-service-") as folder:
        paths = {}
        for name, text in texts.items():
            path = Path(folder, f"{name}.txt")
            path.write_text(text, encoding="utf-8")
            paths[name] = str(path)
        yield paths
