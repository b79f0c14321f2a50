"""Messages between the server and its processes, over pipes: an object of JSON, and perhaps bytes after it."""
from __future__ import annotations

import asyncio
import json
import struct
from typing import IO, Any

Message = dict[str, Any]
_HEAD = struct.Struct(">II")


def encode(message: Message, body: bytes = b"") -> bytes:
    """The bytes of a message."""
    text = json.dumps(message).encode()
    return _HEAD.pack(len(text), len(body)) + text + body


def write(stream: IO[bytes], message: Message, body: bytes = b"") -> None:
    """Sends a message."""
    stream.write(encode(message, body))
    stream.flush()


def read(stream: IO[bytes]) -> tuple[Message, bytes] | None:
    """The next message; None at the end of the stream, or if it is cut off."""
    head = stream.read(_HEAD.size)
    if len(head) < _HEAD.size:
        return None
    text_size, body_size = _HEAD.unpack(head)
    text, body = stream.read(text_size), stream.read(body_size)
    return (json.loads(text), body) if len(body) == body_size and len(text) == text_size else None


async def receive(stream: asyncio.StreamReader) -> tuple[Message, bytes]:
    """The next message. asyncio.IncompleteReadError at the end."""
    text_size, body_size = _HEAD.unpack(await stream.readexactly(_HEAD.size))
    text = await stream.readexactly(text_size)
    return json.loads(text), await stream.readexactly(body_size)
