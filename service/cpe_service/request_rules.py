"""The parameters of requests, each of which may be given once and has limits, and their bodies. Everything else is
refused by its name."""
from __future__ import annotations

import asyncio
import contextlib
import re
import urllib.parse
from collections.abc import AsyncIterator, Mapping, Sequence
from dataclasses import dataclass

from starlette.requests import ClientDisconnect, Request

_MOST_QUERY = 8_192
# How long the rest of a refused body is read and ignored.
_SECONDS_PASSED = 10


class Problem(Exception):
    """Why a request is refused: a status, and one sentence."""

    def __init__(self, status: int, detail: str, headers: Mapping[str, str] | None = None) -> None:
        super().__init__(detail)
        self.status, self.detail, self.headers = status, detail, dict(headers or {})


@dataclass(frozen=True)
class Parameter:
    """A parameter of a path or of a query: its name, what it is, and the pattern that its whole text has."""

    name: str
    what: str
    pattern: str = r"[^\x00-\x1f\x7f]*"
    most: int = 300
    default: str | None = ""
    in_path: bool = False

    def read(self, text: str) -> str:
        """The text, if it matches the pattern."""
        if len(text) > self.most:
            raise Problem(400, f"{self.name} has {len(text)} characters, and {self.most} is the most")
        if re.fullmatch(self.pattern, text) is None:
            raise Problem(400, f"{self.name} is not {self.what}")
        return text

    def as_json(self) -> dict:
        """The parameter as OpenAPI has it."""
        schema = {"type": "string", "maxLength": self.most, "pattern": f"^(?:{self.pattern})$"}
        if self.default:
            schema["default"] = self.default
        is_needed = self.in_path or self.default is None
        return {
            "name": self.name,
            "in": "path" if self.in_path else "query",
            "required": is_needed,
            "description": self.what,
            "schema": schema,
        }


def read_query(request: Request, parameters: Sequence[Parameter]) -> dict[str, str]:
    """The parameters of the query. Problem if one isn't known, is given twice, is missing, or isn't what it has to
    be."""
    query = request.scope["query_string"]
    if len(query) > _MOST_QUERY:
        raise Problem(414, f"the query has {len(query)} bytes, and {_MOST_QUERY} is the most")
    try:
        pairs = urllib.parse.parse_qsl(
            query.decode("ascii"), keep_blank_values=True, errors="strict", max_num_fields=50
        )
    except ValueError as fault:
        raise Problem(400, "the query is no UTF-8, or has more than 50 parameters") from fault
    given: dict[str, str] = {}
    known = {one.name: one for one in parameters if not one.in_path}
    for name, text in pairs:
        if name not in known:
            raise Problem(400, f"there is no parameter {name[:50]!r} here; there is {', '.join(known) or 'none'}")
        if name in given:
            raise Problem(400, f"{name} is given twice")
        given[name] = known[name].read(text)
    for name, one in known.items():
        if name not in given:
            if one.default is None:
                raise Problem(400, f"{name} is missing: {one.what}")
            given[name] = one.default
    return given


def read_path(request: Request, parameters: Sequence[Parameter]) -> dict[str, str]:
    """The parameters of the path."""
    return {one.name: one.read(request.path_params[one.name]) for one in parameters if one.in_path}


class Room:
    """The bytes of all bodies that are held at once."""

    def __init__(self, most: int) -> None:
        self.left = most

    def take(self, count: int) -> None:
        """Problem if these bytes don't fit."""
        if count > self.left:
            raise Problem(503, "too many bodies arrive at once", {"Connection": "close", "Retry-After": "10"})
        self.left -= count


@contextlib.asynccontextmanager
async def body_of(request: Request, most: int, seconds: float, room: Room) -> AsyncIterator[bytes]:
    """The body; its bytes are counted as long as it is used."""
    chunks: list[bytes] = []
    try:
        await _read(request, most, seconds, room, chunks)
        yield b"".join(chunks)
    finally:
        room.left += sum(map(len, chunks))


async def _read(request: Request, most: int, seconds: float, room: Room, chunks: list[bytes]) -> None:
    """Reads the body. Problem if it is larger, or slower, than it may be."""
    # (the rest of the body isn't read, so the connection can't be used again)
    close = {"Connection": "close"}
    too_large = Problem(413, f"the body has more than {most:,} bytes", close)
    length, stream, size = request.headers.get("content-length", ""), request.stream(), 0
    try:
        if length.isdecimal() and int(length) > most:
            raise too_large
        async for chunk in _timed(stream, seconds):
            size += len(chunk)
            if size > most:
                raise too_large
            room.take(len(chunk))
            chunks.append(chunk)
    except asyncio.TimeoutError as fault:
        raise Problem(408, f"the body took longer than {seconds:g} seconds", close) from fault
    except ClientDisconnect as fault:
        raise Problem(400, "the body was cut off", close) from fault
    except Problem:
        # (a client that is still sending wouldn't read the answer; a client with `Expect` waits for it)
        if "expect" not in request.headers:
            with contextlib.suppress(asyncio.TimeoutError, ClientDisconnect):
                async for _ in _timed(stream, _SECONDS_PASSED):
                    pass
        raise


async def _timed(stream: AsyncIterator[bytes], seconds: float) -> AsyncIterator[bytes]:
    """The chunks of a stream. asyncio.TimeoutError if its end isn't there in time."""
    loop = asyncio.get_running_loop()
    end = loop.time() + seconds
    while (chunk := await asyncio.wait_for(anext(stream, None), max(end - loop.time(), 0))) is not None:
        yield chunk


class Rates:
    """Limits the rate of each client's requests: requests a second, and a number of them at once."""

    def __init__(self, rate: float, burst: float) -> None:
        self._rate, self._burst = rate, burst
        self._left: dict[str, tuple[float, float]] = {}

    def take(self, client: str, now: float) -> None:
        """Problem if a client sends more requests."""
        if len(self._left) > 10_000:
            full = self._burst / self._rate
            self._left = {name: one for name, one in self._left.items() if now - one[1] < full}
        left, before = self._left.get(client, (self._burst, now))
        left = min(self._burst, left + (now - before) * self._rate)
        if left < 1:
            self._left[client] = left, now
            seconds = (1 - left) / self._rate
            raise Problem(
                429, f"more than {self._rate:g} requests a second", {"Retry-After": str(max(1, round(seconds)))}
            )
        self._left[client] = left - 1, now
