"""The processes of the service, as the server uses them. A process that ends is started again, and continues from the
database."""
from __future__ import annotations

import asyncio
import contextlib
import itertools
import secrets
import sys
from collections.abc import Callable, Sequence
from pathlib import Path

from . import frames
from .frames import Message

_HERE = Path(__file__).resolve().parents[1]
# The pause before a process that ended is started again, at first and at most.
_FIRST_PAUSE, _LONGEST_PAUSE = 0.1, 5.0

# The faults that a pipe to an ended process raises, by event loop.
_PIPE_FAULTS = (OSError, RuntimeError, asyncio.IncompleteReadError)


class ProcessEnded(Exception):
    """A process ended before it answered."""


async def _start(words: Sequence[str]) -> asyncio.subprocess.Process:
    return await asyncio.create_subprocess_exec(
        sys.executable, "-B", "-m", *words, stdin=asyncio.subprocess.PIPE, stdout=asyncio.subprocess.PIPE, cwd=_HERE
    )


class Keeper:
    """A process that keeps what is sent. It handles one message after the other."""

    def __init__(self, folder: Path, name: str) -> None:
        self._words, self._name = ("cpe_service.keeper", str(folder)), name
        self._process: asyncio.subprocess.Process | None = None
        self._turn = asyncio.Lock()
        self.waiting = self.restarts = 0

    async def ask(self, message: Message, body: bytes = b"") -> Message:
        """Its answer. If it ends, the message is sent once more; its id prevents that it is kept twice. ProcessEnded if
        it ends again."""
        message = {**message, "id": secrets.token_hex(16), "keeper": self._name}
        self.waiting += 1
        try:
            async with self._turn:
                for _ in range(2):
                    with contextlib.suppress(*_PIPE_FAULTS):
                        return await self._exchange(message, body)
                    await self._end()
                    self.restarts += 1
        finally:
            self.waiting -= 1
        raise ProcessEnded

    async def _exchange(self, message: Message, body: bytes) -> Message:
        if self._process is None:
            self._process = await _start(self._words)
        process = self._process
        assert process.stdin is not None and process.stdout is not None
        try:
            process.stdin.write(frames.encode(message, body))
            await process.stdin.drain()
            return (await frames.receive(process.stdout))[0]
        except asyncio.CancelledError:
            # (otherwise the next message would get this answer)
            await self._end()
            raise

    async def _end(self) -> None:
        if self._process is not None:
            await _kill(self._process)
            self._process = None

    async def end(self) -> None:
        """Ends the process."""
        await self._end()


class Worker:
    """A process that judges the machines of a shard. `notify` is called whenever it has judged some."""

    def __init__(self, folder: Path, shard: int, shards: int, notify: Callable[[], None]) -> None:
        self._words = ("cpe_service.worker", str(folder), str(shard), str(shards))
        self._notify = notify
        self._process: asyncio.subprocess.Process | None = None
        self._answers: dict[int, asyncio.Future[Message]] = {}
        self._numbers = itertools.count(1)
        self._task: asyncio.Task[None] | None = None
        self.restarts = -1

    def start(self) -> None:
        """Starts the process, and again whenever it ends."""
        self._task = asyncio.get_running_loop().create_task(self._run())

    async def _run(self) -> None:
        pause = _FIRST_PAUSE
        while True:
            self.restarts += 1
            self._process = await _start(self._words)
            with contextlib.suppress(*_PIPE_FAULTS):
                assert self._process.stdout is not None
                while True:
                    message, _ = await frames.receive(self._process.stdout)
                    pause = _FIRST_PAUSE
                    self._take(message)
            await _kill(self._process)
            for future in self._answers.values():
                if not future.done():
                    future.set_exception(ProcessEnded())
            self._answers.clear()
            await asyncio.sleep(pause)
            pause = min(2 * pause, _LONGEST_PAUSE)

    def _take(self, message: Message) -> None:
        if "answer" not in message:
            self._notify()
        elif (future := self._answers.pop(message["answer"], None)) is not None and not future.done():
            future.set_result(message)

    def wake(self) -> None:
        """Makes it look for waiting machines."""
        self._send({"do": "wake"})

    def _send(self, message: Message) -> bool:
        if self._process is None or self._process.stdin is None or self._process.returncode is not None:
            return False
        with contextlib.suppress(*_PIPE_FAULTS):
            self._process.stdin.write(frames.encode(message))
            return True
        return False

    def pending(self) -> int:
        """How many answers are pending."""
        return len(self._answers)

    async def ask(self, message: Message, seconds: float) -> Message:
        """Its answer. ProcessEnded if it ends before, asyncio.TimeoutError if it takes longer."""
        number = next(self._numbers)
        future = self._answers[number] = asyncio.get_running_loop().create_future()
        if not self._send({**message, "number": number}):
            del self._answers[number]
            raise ProcessEnded
        try:
            return await asyncio.wait_for(future, seconds)
        finally:
            self._answers.pop(number, None)

    async def end(self) -> None:
        """Ends the process, and starts no other."""
        if self._task is not None:
            self._task.cancel()
            with contextlib.suppress(asyncio.CancelledError):
                await self._task
        if self._process is not None:
            await _kill(self._process)


async def _kill(process: asyncio.subprocess.Process) -> None:
    with contextlib.suppress(ProcessLookupError):
        process.kill()
    await process.wait()
