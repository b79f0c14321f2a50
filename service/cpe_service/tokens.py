"""The permissions of clients: a file with a token in each line: the name of a client, `read` or `write`, and the
SHA-256 of its token."""
from __future__ import annotations

import base64
import binascii
import hashlib
import hmac
import os
import re
import secrets
from dataclasses import dataclass
from pathlib import Path

from cpe_recipes.console import describe_fault

NAME = "tokens"
READ, WRITE = "read", "write"
# Marks a file that was removed.
_GONE = 0, 0
_LINE = re.compile(r"([A-Za-z0-9_.@-]{1,100}) (read|write) ([0-9a-f]{64})")


class NoTokens(Exception):
    """Why the file isn't a file of tokens."""


@dataclass(frozen=True)
class Client:
    """A client: its name, and whether it may write."""

    name: str
    may_write: bool


# Any client, if there is no file of tokens; then the service listens on this machine alone.
ANYONE = Client("anyone", True)


class Tokens:
    """The tokens of a data folder. If the file changes, it is read again."""

    def __init__(self, folder: Path) -> None:
        self._path = folder / NAME
        self._seen: tuple[int, int] | None = None
        self._clients: list[tuple[bytes, Client]] = []
        self.read()

    def read(self) -> None:
        """Reads the file if it changed. NoTokens if a line is wrong; then the earlier tokens aren't valid either."""
        try:
            about = os.stat(self._path)
        except FileNotFoundError:
            # (if the file is removed while the service runs, nobody may send requests)
            self._seen, self._clients = self._seen and _GONE, []
            return
        seen = about.st_mtime_ns, about.st_size
        if seen != self._seen:
            self._clients = []
            self._clients, self._seen = list(map(_client, _lines(self._path))), seen

    def are_any(self) -> bool:
        """Whether there is a file of tokens, or was one since the service started."""
        return self._seen is not None

    def client(self, header: str) -> Client | None:
        """The client with the token in a header `Authorization`. All tokens are compared, each in the same time."""
        token = hashlib.sha256(_token(header)).digest()
        found = None
        for sum, client in self._clients:
            if hmac.compare_digest(sum, token):
                found = client
        return found


def _lines(path: Path) -> list[tuple[int, str]]:
    try:
        lines = path.read_text(encoding="utf-8").splitlines()
    except OSError as fault:
        raise NoTokens(f"{path.name} can not be read: {describe_fault(fault)}") from fault
    except ValueError as fault:
        raise NoTokens(f"{path.name} can not be read: it is no UTF-8") from fault
    return [(number, line.strip()) for number, line in enumerate(lines, 1) if line.strip() and not line.startswith("#")]


def _client(numbered: tuple[int, str]) -> tuple[bytes, Client]:
    number, line = numbered
    match = _LINE.fullmatch(line)
    if match is None:
        raise NoTokens(f"{NAME} line {number}: it isn't a name, read or write, and the SHA-256 of a token")
    return bytes.fromhex(match[3]), Client(match[1], match[2] == WRITE)


def _token(header: str) -> bytes:
    """The token of a header: that of Bearer, or the password of Basic, which browsers ask for."""
    word, _, rest = header.partition(" ")
    if word.lower() == "bearer":
        return rest.strip().encode(errors="replace")
    if word.lower() == "basic":
        try:
            return base64.b64decode(rest.strip(), validate=True).partition(b":")[2]
        except (binascii.Error, ValueError):
            return b""
    return b""


def add(folder: Path, name: str, may_write: bool) -> str:
    """Adds a line for a new token to the file, and returns the token."""
    token = secrets.token_urlsafe(32)
    line = f"{name} {WRITE if may_write else READ} {hashlib.sha256(token.encode()).hexdigest()}"
    if _LINE.fullmatch(line) is None:
        raise NoTokens(f"{name!r} is no name of a client: it has letters, digits and _.@- alone, at most 100")
    path = folder / NAME
    descriptor = os.open(path, os.O_RDWR | os.O_APPEND | os.O_CREAT, 0o600)
    with os.fdopen(descriptor, "ab+") as file:
        # (an editor may have left the last line without its end)
        size = file.seek(0, os.SEEK_END)
        file.seek(max(size - 1, 0))
        begin = b"" if file.read(1) in (b"", b"\n") else b"\n"
        file.write(begin + f"{line}\n".encode())
    return token
