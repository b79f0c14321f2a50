"""The process that reads what clients send, and keeps it: python3 -m cpe_service.keeper DATA.

It answers each message. If it can't read the message, the answer is `refused` with the reason, and nothing is kept. If
the disk fails, the answer is a `fault`. Any other answer is sent after the message was written to the disk.
"""
from __future__ import annotations

import contextlib
import json
import resource
import signal
import sqlite3
import sys
import tempfile
import traceback
import zlib
from pathlib import Path

from cpe_recipes.console import Fatal, describe_fault
from cpe_recipes.feeds import FeedFault
from cpe_recipes.machines import machine_of_list
from cpe_recipes.names_table import read_tables
from cpe_recipes.settlements import read_settlements
from cpe_recipes.suppressions import read_suppressions
from cpe_recipes.unpack import Limits, read_feed
from cpe_recipes.versions import read_letters

from . import frames
from .database import connect, ground_of, new_edit, pack, read_note, write_note, write_transaction
from .feeds import Feeds, Offer
from .frames import Message
from .ground import TABLES, table_files
from .message_list import MessageList, strip_paths

# To how many bytes a list may unpack.
_LIMITS = Limits(most=256 << 20)
# How much memory a keeper may take. (A page takes about six times its bytes, so one of 600 MB fits.)
_MOST_MEMORY = 4 << 30
# The number of parts into which machines are divided, so at most this many workers are used.
SHARDS = 256

# Updates a machine that already has the same list, with verdicts of this list and of the current ground; and any other
# machine.
_SAME = """
UPDATE machines SET put = :edit, judged_put = :edit, result_put = :edit
WHERE name = :name AND list = :list AND said = :said AND put = judged_put AND put = result_put AND judged_ground = :ground AND fault = ''
RETURNING judged_put
"""
_OTHER = """
INSERT INTO machines (name, list, said, shard, put) VALUES (:name, :list, :said, :shard, :edit)
ON CONFLICT (name) DO UPDATE SET list = excluded.list, said = excluded.said, put = excluded.put RETURNING judged_put
"""


class Keeper:
    """Keeps what it is sent."""

    def __init__(self, folder: Path) -> None:
        self._database = connect(folder)
        self._does = {
            "put": self._put,
            "delete": self._delete,
            "feed": self._feed,
            "drop": self._drop,
            "table": self._table,
        }

    def answer(self, message: Message, body: bytes) -> Message:
        """The answer to a message. A repeated message gets its first answer, if it changed something."""
        try:
            known = (
                json.loads(read_note(self._database, f"answered {message['keeper']}", "{}")) if "id" in message else {}
            )
            return (
                known["answer"]
                if known.get("id", "") == message.get("id")
                else self._does[message["do"]](message, body)
            )
        except (FeedFault, Fatal) as fault:
            return {"refused": str(fault)}
        except RecursionError:
            return {"refused": "it is nested too deep"}
        except MemoryError:
            return {"refused": "reading it takes more memory than the service gives"}
        except (sqlite3.Error, OSError) as fault:
            return {"fault": f"it could not be kept: {describe_fault(fault) if isinstance(fault, OSError) else fault}"}
        except Exception as fault:  # noqa: BLE001 (what a reader didn't foresee is refused too, and the log has it)
            traceback.print_exc()
            return {
                "refused": f"it can not be read, since the reader has a fault: {type(fault).__name__} {strip_paths(str(fault))}"
            }

    def _put(self, message: Message, body: bytes) -> Message:
        """Keeps the list of a machine. The machine then waits for verdicts, unless it has those of the same list and
        the current ground."""
        name, messages = message["name"], MessageList()
        data = _unpack(body)
        machine = machine_of_list(name, name, data, messages)
        values = {
            "name": name,
            "list": pack(data),
            "said": json.dumps(messages.as_json()),
            "shard": zlib.crc32(name.encode()) % SHARDS,
        }
        with write_transaction(self._database) as database:
            values |= {"edit": new_edit(database, "list", name, message["client"]), "ground": ground_of(database)}
            row = database.execute(_SAME, values).fetchone() or database.execute(_OTHER, values).fetchone()
            answer = {"edit": values["edit"], "is_new": row["judged_put"] == 0, "components": len(machine.components)}
            self._note(message, answer)
        return answer

    def _delete(self, message: Message, _body: bytes) -> Message:
        """Removes a machine. Its verdicts become `none` in its history."""
        name = message["name"]
        with write_transaction(self._database) as database:
            row = database.execute("SELECT id FROM machines WHERE name = ?", (name,)).fetchone()
            if row is None:
                return {"missing": True}
            edit = new_edit(database, "delete", name, message["client"])
            database.execute(
                "INSERT INTO history (at, machine, advisory, before, after, cause, edit, reason) SELECT edits.at, ?, advisory, verdicts.kind, 'none', "
                "'delete', edits.id, 'it is no machine any more' FROM verdicts, edits WHERE machine = ? AND edits.id = ? ORDER BY advisory",
                (name, row["id"], edit),
            )
            database.execute("DELETE FROM verdicts WHERE machine = ?", (row["id"],))
            database.execute("DELETE FROM machines WHERE id = ?", (row["id"],))
            self._note(message, {"edit": edit})
        return {"edit": edit}

    def _feed(self, message: Message, body: bytes) -> Message:
        offer = Offer(message["name"], message["is_whole"], message["client"])
        return Feeds(self._database).take(body, offer, lambda answer: self._note(message, answer))

    def _drop(self, message: Message, _body: bytes) -> Message:
        """Removes a feed that waits for pages."""
        return {} if Feeds(self._database).drop(message["feed"], lambda: self._note(message, {})) else {"missing": True}

    def _table(self, message: Message, body: bytes) -> Message:
        """Keeps a table of settings, if each line of it can be read."""
        name = message["name"]
        try:
            text = body.decode("utf-8-sig")
        except UnicodeDecodeError as fault:
            raise Fatal(f"it is no UTF-8 at byte {fault.start + 1}") from fault
        messages = MessageList()
        with table_files({name: text}) as paths:
            _READ[name](paths[name], messages)
        if messages.noted:
            raise Fatal(f"{messages.noted[0][0]}: {messages.noted[0][1]}")
        with write_transaction(self._database) as database:
            if database.execute("SELECT 1 FROM tables WHERE name = ? AND text = ?", (name, text)).fetchone():
                return {"edit": None}
            edit = new_edit(database, TABLES[name], name, message["client"])
            database.execute(
                "INSERT INTO tables VALUES (?, ?) ON CONFLICT (name) DO UPDATE SET text = excluded.text", (name, text)
            )
            self._note(message, {"edit": edit})
        return {"edit": edit}

    def _note(self, message: Message, answer: Message) -> None:
        """Keeps an answer in the transaction of its edit. (If the process is killed then, its successor gets the
        message again.)"""
        if "id" in message:
            write_note(
                self._database, f"answered {message['keeper']}", json.dumps({"id": message["id"], "answer": answer})
            )


# How the recipes read each table; they report what can't be read.
_READ = {
    "names": lambda path, _: read_tables([path], are_needed=False),
    "letters": lambda path, _: read_letters(path),
    "suppress": lambda path, said: read_suppressions([path], said),
    "settled": lambda path, said: read_settlements([path], said),
}


def _unpack(body: bytes) -> bytes:
    """The bytes of a list, which may be packed by gzip. (The recipes read files, so the bytes are written to one.)"""
    with tempfile.TemporaryDirectory(prefix="cpe-service-") as folder:
        path = Path(folder, "list")
        path.write_bytes(body)
        return read_feed(str(path), _LIMITS)


def limit_memory(most: int = _MOST_MEMORY) -> None:
    """Limits the memory of this process, so that a request which needs more is refused, and nothing else ends."""
    hard = resource.getrlimit(resource.RLIMIT_AS)[1]
    try:
        resource.setrlimit(resource.RLIMIT_AS, (most if hard == resource.RLIM_INFINITY else min(most, hard), hard))
    except (OSError, ValueError) as fault:
        # (some systems don't allow a process to limit itself; then there is no limit)
        with contextlib.suppress(OSError):
            print(f"cpe_service: the memory of a keeper has no limit: {fault}", file=sys.stderr, flush=True)


def main() -> None:
    """Answers messages until there is none."""
    limit_memory()
    # (an interrupt ends the server, which ends its processes)
    signal.signal(signal.SIGINT, signal.SIG_IGN)
    keeper = Keeper(Path(sys.argv[1]))
    while (found := frames.read(sys.stdin.buffer)) is not None:
        frames.write(sys.stdout.buffer, keeper.answer(*found))


if __name__ == "__main__":
    main()
