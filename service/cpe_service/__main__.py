"""Runs the service: python3 -m cpe_service --data DIR.

    python3 -m cpe_service --data DIR [--host ADDRESS] [--port N] [--workers N] [--host-name NAME ..] [--most-list BYTES]
        [--most-feed BYTES] [--seconds N] [--wait N] [--rate N] [--days N] [--samples]
    python3 -m cpe_service token NAME --data DIR [--read]
    python3 -m cpe_service backup FILE --data DIR
    python3 -m cpe_service take FOLDER --data DIR

It listens on this machine alone, and on another address only if the data folder has a file of tokens. `token` adds a
token, and prints it once. `backup` copies the database while the service runs. `take` takes feeds from a folder. With
`--samples` the service begins with the samples of the recipes. docs/SERVICE.md has all of it.
"""
from __future__ import annotations

import argparse
import contextlib
import fcntl
import ipaddress
import resource
import socket
import sqlite3
import sys
from collections.abc import Iterator
from pathlib import Path

from . import RECIPES  # noqa: F401 (it puts the recipes on the path)

if sys.version_info < (3, 11):
    sys.exit("the service needs Python 3.11 or newer")
try:
    import uvicorn
    from uvicorn.protocols.http.h11_impl import H11Protocol
except ImportError as fault:
    sys.exit(f"{fault.name} is missing: apt-get install python3-uvicorn python3-starlette")

from cpe_recipes.console import Fatal

from . import database, feed_folder, keeper, tokens
from .app import Settings, create_app

_MOST_CONNECTIONS = 4_096
# How long a connection may stay open without a whole head of a request.
_SECONDS_IDLE = 30


class Patient(H11Protocol):
    """A connection that is closed if no request arrives in time, after the first one too."""

    def connection_made(self, transport) -> None:  # noqa: ANN001 (as the library has it)
        super().connection_made(transport)
        self._ended = self._seen = 0
        one = transport.get_extra_info("socket")
        # (this finds clients that vanished without closing the connection)
        one.setsockopt(socket.SOL_SOCKET, socket.SO_KEEPALIVE, 1)
        if hasattr(socket, "TCP_USER_TIMEOUT"):
            one.setsockopt(socket.IPPROTO_TCP, socket.TCP_USER_TIMEOUT, 4_000 * _SECONDS_IDLE)
        self.loop.call_later(_SECONDS_IDLE, self._look)

    def on_response_complete(self) -> None:
        self._ended += 1
        super().on_response_complete()

    def _look(self) -> None:
        """Closes the connection if no request runs, and none ended since the last look."""
        if self.transport.is_closing():
            return
        is_running = self.cycle is not None and not self.cycle.response_complete
        if is_running or self._ended != self._seen:
            self._seen = self._ended
            self.loop.call_later(_SECONDS_IDLE, self._look)
        else:
            self.transport.close()


class Server(uvicorn.Server):
    """A server that ends the open answers of /events before it ends."""

    def __init__(self, config: uvicorn.Config, stop) -> None:  # noqa: ANN001
        super().__init__(config)
        self._stop = stop

    async def startup(self, sockets=None) -> None:  # noqa: ANN001
        await super().startup(sockets)
        for one in () if self.should_exit else sockets or ():
            host, port = one.getsockname()[:2]
            # (the process that started it may have ended, which is no reason to end)
            with contextlib.suppress(OSError):
                print(f"cpe_service listens on http://{f'[{host}]' if ':' in host else host}:{port}/", flush=True)

    def handle_exit(self, sig, frame) -> None:  # noqa: ANN001
        self._stop()
        super().handle_exit(sig, frame)


def _options() -> argparse.ArgumentParser:
    parser = argparse.ArgumentParser(
        "cpe_service", description="Which machines are affected by which advisories, since when, and why."
    )
    parser.add_argument(
        "word", nargs="*", help="token NAME, backup FILE or take FOLDER; without any of these the service runs"
    )
    parser.add_argument("--data", type=Path, required=True, metavar="DIR", help="the data folder")
    parser.add_argument("--host", default="127.0.0.1", help="the address to listen on")
    parser.add_argument("--port", type=int, default=8765)
    parser.add_argument("--host-name", action="append", default=[], help="a name by which the server is called")
    for name, what in (
        ("workers", "processes that judge, each with its own part of the machines"),
        ("most-list", "bytes that a list may have"),
        ("most-feed", "bytes that a page of a feed may have"),
        ("seconds", "seconds that a client may take to send a body"),
        ("wait", "seconds that the answer to a put list waits for its verdicts"),
        ("rate", "requests a second that a client may send"),
        ("days", "days for which changes are kept"),
    ):
        parser.add_argument(
            f"--{name}", type=int, default=getattr(Settings, name.replace("-", "_")), metavar="N", help=what
        )
    parser.add_argument(
        "--samples", action="store_true", help="begins with the samples of the recipes, if there is no machine yet"
    )
    parser.add_argument("--read", action="store_true", help="with token: the token may only read")
    return parser


def _is_local(host: str) -> bool:
    with contextlib.suppress(ValueError):
        return ipaddress.ip_address(host).is_loopback
    return host == "localhost"


def _settings(given: argparse.Namespace) -> Settings:
    hosts = tuple(given.host_name) or (("127.0.0.1", "localhost", "[::1]") if _is_local(given.host) else ())
    numbers = {
        name: getattr(given, name) for name in ("workers", "most_list", "most_feed", "seconds", "wait", "rate", "days")
    }
    for name, number in numbers.items():
        if number < 1:
            sys.exit(f"--{name.replace('_', '-')} is {number}, and 1 is the least")
    return Settings(given.data, hosts=hosts, has_samples=given.samples, **numbers)


def _backup(folder: Path, target: Path) -> None:
    """Copies the database as it is at this moment. To restore it, put the copy in place of the database."""
    if target.exists():
        sys.exit(f"{target} is there already")
    with contextlib.closing(database.connect(folder, is_reader=True)) as source, contextlib.closing(
        sqlite3.connect(target)
    ) as copy:
        source.backup(copy)


@contextlib.contextmanager
def _alone(folder: Path) -> Iterator[None]:
    """Makes sure that no other service runs over the data folder. The system releases the lock whatever ends the
    process."""
    with (folder / "lock").open("wb") as lock:
        try:
            fcntl.flock(lock, fcntl.LOCK_EX | fcntl.LOCK_NB)
        except BlockingIOError:
            sys.exit(f"cpe_service: another service runs over the data folder {folder}")
        yield


def _run(given: argparse.Namespace) -> None:
    settings = _settings(given)
    app, service = create_app(settings)
    if not _is_local(given.host) and not service.tokens.are_any():
        sys.exit(
            f"{given.host} is no address of this machine alone, and {given.data / tokens.NAME} has no tokens: add one by token NAME"
        )
    most = resource.getrlimit(resource.RLIMIT_NOFILE)[1]
    # (if this isn't allowed, the limit stays unchanged)
    with contextlib.suppress(OSError, ValueError):
        resource.setrlimit(resource.RLIMIT_NOFILE, (most if most != resource.RLIM_INFINITY else 65_536, most))
    config = uvicorn.Config(
        app,
        given.host,
        given.port,
        loop="asyncio",
        http=Patient,
        ws="none",
        lifespan="on",
        limit_concurrency=_MOST_CONNECTIONS,
        log_level="warning",
        access_log=False,
        server_header=False,
        proxy_headers=False,
        timeout_keep_alive=_SECONDS_IDLE,
    )
    Server(config, service.stop).run([config.bind_socket()])


def main() -> None:
    """Runs the command of the command line."""
    given = _options().parse_args()
    # (the processes of the service run in another folder)
    given.data = given.data.resolve()
    try:
        given.data.mkdir(parents=True, exist_ok=True, mode=0o700)
        database.create(given.data)
        match given.word:
            case []:
                with _alone(given.data):
                    _run(given)
            case ["token", name]:
                print(tokens.add(given.data, name, not given.read))
            case ["backup", file]:
                _backup(given.data, Path(file))
            case ["take", folder]:
                keeper.limit_memory()
                found = []
                for is_taken, line in feed_folder.take(given.data, Path(folder)):
                    print(line, flush=True)
                    found.append(is_taken)
                sys.exit(not all(found))
            case _:
                sys.exit(_options().format_usage())
    except (Fatal, tokens.NoTokens, database.OtherVersion) as fault:
        sys.exit(f"cpe_service: {fault}")
    except (OSError, sqlite3.Error) as fault:
        sys.exit(f"cpe_service: the data folder {given.data} can not be used: {fault}")


if __name__ == "__main__":
    main()
