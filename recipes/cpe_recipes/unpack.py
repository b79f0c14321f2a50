"""The bytes of feeds' files: plain, packed by gzip, or members of an archive of tar, packed or not, or of zip.

Nothing is written to a disk: members are read within the archive. Unpacked bytes are counted. A page that unpacks to
more than 2 GiB is refused. So is one that unpacks to more than 200 times its size and to more than 16 MiB: below 16 MiB
it harms no machine, and a small file may well repeat itself. All members of an archive together may have 200 times its
size. `--large` lifts these limits.
"""
from __future__ import annotations

import contextlib
import gzip
import io
import lzma
import sys
import tarfile
import zipfile
import zlib
from collections.abc import Iterator
from dataclasses import dataclass, field
from pathlib import Path
from typing import IO

from .console import describe_fault, shorten

_GZIP, _ZIPS = b"\x1f\x8b", (b"PK\x03\x04", b"PK\x05\x06")
_OTHERS = {b"\xfd7zXZ\x00": "xz", b"BZh": "bzip2", b"\x28\xb5\x2f\xfd": "zstd", b"7z\xbc\xaf": "7-Zip"}
_TAR, _TAR_AT, _BLOCK = b"ustar", 257, 512
_CHUNK = 1 << 20
_DEEPEST = 3
# Members with these endings are pages or records. All others describe the archive, or its last changes.
_ENDINGS = (".json", ".jsonl", ".json.gz", ".zip", ".tar.gz")
_NO_PAGES = ("delta.json", "deltaLog.json")
_FAULTS = (
    OSError,
    EOFError,
    zlib.error,
    lzma.LZMAError,
    tarfile.TarError,
    zipfile.BadZipFile,
    NotImplementedError,
    RuntimeError,
    ValueError,
)


class FeedFault(Exception):
    """Why a feed can't be read, in words that follow its name in a message."""


@dataclass(frozen=True)
class Limits:
    """To how many bytes a page may unpack, to how many times its size, and below how many that isn't looked at.
    `most_of_all` is to how many bytes all members of an archive may."""

    most: int = 2 << 30
    times: int = 200
    free: int = 16 << 20
    # (the end of the reason, if the recipe has the option)
    hint: str = ""
    most_of_all: int = sys.maxsize

    def of(self, packed: int) -> int:
        """To how many bytes this many packed bytes may unpack."""
        return min(self.most, max(self.free, self.times * packed))

    def fault(self, packed: int) -> FeedFault:
        """The fault of this many packed bytes that unpack to too many."""
        if self.of(packed) == self.most:
            return FeedFault(f"it unpacks to more than {self.most:,} bytes{self.hint}")
        return self.ratio_fault(packed)

    def ratio_fault(self, packed: int) -> FeedFault:
        return FeedFault(f"it unpacks to more than {self.times} times its size, {packed:,} bytes{self.hint}")


LIMITS, HINTING_LIMITS = Limits(), Limits(hint=" (--large lets it)")
LARGE = Limits(sys.maxsize, sys.maxsize, sys.maxsize)


@dataclass
class Unpacker:
    """The parts of a file: those that may be pages, each with its name within the archive, or an empty one. `passed`
    are the names of members that aren't read, since they aren't called as pages are."""

    limits: Limits = LIMITS
    passed: list[str] = field(default_factory=list)

    def parts(self, path: str | None) -> Iterator[tuple[str, bytes]]:
        """The parts of a file, of standard input if there is no path. FeedFault if it, or a part of it, can't be
        read."""
        try:
            with _open(path) as file:
                size = _size(file)
                yield from self._of(file, size, _ByteCounter(self.limits, size), 0)
        except OSError as fault:
            raise FeedFault(f"can not be read: {describe_fault(fault)}") from fault

    def _of(self, file: IO[bytes], size: int, total: _ByteCounter, depth: int) -> Iterator[tuple[str, bytes]]:
        front = _front(file)
        if depth > _DEEPEST:
            raise FeedFault("archives are nested in it too deep")
        if front.startswith(_ZIPS):
            yield from self._of_zip(file, total, depth)
        elif front.startswith(_GZIP):
            with gzip.GzipFile(fileobj=file) as inner:
                stream = io.BufferedReader(_Stream(inner, total), _CHUNK)
                if _is_tar(stream.peek(_BLOCK)):
                    yield from self._of_tar(stream, total, depth)
                else:
                    yield "", _all(stream, self.limits, size)
        elif _is_tar(front):
            yield from self._of_tar(file, total, depth)
        else:
            yield "", _plain(file, front)

    def _of_zip(self, file: IO[bytes], total: _ByteCounter, depth: int) -> Iterator[tuple[str, bytes]]:
        with _translate_faults():
            archive = zipfile.ZipFile(file)
        found = 0
        with archive:
            for member in archive.infolist():
                if member.is_dir() or not self._is_wanted(member.filename):
                    continue
                found += 1
                if member.compress_type not in (zipfile.ZIP_STORED, zipfile.ZIP_DEFLATED):
                    raise FeedFault(f"{shorten(member.filename)} in it is packed in a way that isn't read")
                with _translate_faults(), archive.open(member) as inner:
                    data = _all(io.BufferedReader(_Stream(inner, total), _CHUNK), self.limits, member.compress_size)
                yield from self._within(member.filename, data, total, depth)
        if not found:
            raise FeedFault("no member of the archive is JSON by its name")

    def _of_tar(self, file: IO[bytes], total: _ByteCounter, depth: int) -> Iterator[tuple[str, bytes]]:
        counted, found = _CountedTar(file, self.limits), 0
        with _translate_faults():
            archive = tarfile.open(fileobj=counted, mode="r|")
        while True:
            with _translate_faults():
                member = archive.next()
                if member is None:
                    break
                data = self._member(archive, member)
            counted.begin()
            if data is not None:
                found += 1
                yield from self._within(member.name, data, total, depth)
        if not counted.has_end(archive.offset):
            raise FeedFault("the archive is cut off, or broken")
        if not found:
            raise FeedFault("no member of the archive is JSON by its name")

    def _member(self, archive: tarfile.TarFile, member: tarfile.TarInfo) -> bytes | None:
        """The bytes of a member of a tar, None if it isn't read."""
        # (a long archive has many members, and each that was read is done with)
        archive.members = []
        inner = archive.extractfile(member) if member.isreg() and self._is_wanted(member.name) else None
        return None if inner is None else _all(inner, self.limits, member.size)

    def _within(self, name: str, data: bytes, total: _ByteCounter, depth: int) -> Iterator[tuple[str, bytes]]:
        """The parts of a member, which may be packed itself."""
        for inner, part in self._of(io.BytesIO(data), len(data), total, depth + 1):
            yield f"{name}/{inner}" if inner else name, part

    def _is_wanted(self, name: str) -> bool:
        called = name.rsplit("/", 1)[-1]
        if called.startswith(".") or called in _NO_PAGES or not called.lower().endswith(_ENDINGS):
            self.passed.append(name)
            return False
        return True


@dataclass
class _ByteCounter:
    """How many bytes a file of this size was unpacked to, nested archives included."""

    limits: Limits
    size: int
    count: int = 0

    def take(self, count: int) -> None:
        self.count += count
        if self.count > self.limits.most_of_all:
            raise FeedFault(f"all of it unpacks to more than {self.limits.most_of_all:,} bytes")
        if self.count > max(self.limits.free, self.limits.times * self.size):
            raise self.limits.ratio_fault(self.size)


class _Stream(io.RawIOBase):
    """Bytes as they are unpacked, counted."""

    def __init__(self, inner: IO[bytes], total: _ByteCounter) -> None:
        self._inner, self._total = inner, total

    def readable(self) -> bool:
        return True

    def readinto(self, into: memoryview) -> int:  # type: ignore[override]
        with _translate_faults():
            data = self._inner.read(len(into))
        self._total.take(len(data))
        into[: len(data)] = data
        return len(data)


class _CountedTar:
    """The bytes of a tar, counted: at most a page for each member. (The header of a member, such as its name, is read
    whole.)"""

    def __init__(self, inner: IO[bytes], limits: Limits) -> None:
        self._inner, self._limits, self._count, self._since, self._last = inner, limits, 0, 0, b""

    def begin(self) -> None:
        self._since = 0

    def has_end(self, place: int) -> bool:
        """Whether there is the block of zeros with which a tar ends. (What reads it takes any other end for one
        too.)"""
        behind = (
            self._last[len(self._last) - (self._count - place) :] if self._count - place <= len(self._last) else b""
        )
        return behind[:_BLOCK] == bytes(_BLOCK)

    def read(self, size: int) -> bytes:
        data = self._inner.read(size)
        self._count += len(data)
        self._since += len(data)
        self._last = (self._last + data)[-2 * tarfile.RECORDSIZE :]
        if self._since > self._limits.most + _CHUNK:
            raise self._limits.fault(self._limits.most)
        return data


@contextlib.contextmanager
def _translate_faults() -> Iterator[None]:
    """Raises the faults of unpacking as faults of the feed."""
    try:
        yield
    except _FAULTS as fault:
        raise FeedFault(f"can not be unpacked: {shorten(str(fault))}") from fault


def read_feed(path: str | None, limits: Limits = LIMITS) -> bytes:
    """The bytes of a file that is no archive, of standard input if there is no path; those that gzip packed are
    unpacked."""
    try:
        with _open(path) as file:
            if not _front(file).startswith(_GZIP):
                return file.read()
            size = _size(file)
            with gzip.GzipFile(fileobj=file) as inner:
                return _all(io.BufferedReader(_Stream(inner, _ByteCounter(limits, size)), _CHUNK), limits, size)
    except OSError as fault:
        raise FeedFault(f"can not be read: {describe_fault(fault)}") from fault


def _open(path: str | None) -> IO[bytes]:
    """A file whose size is known; a pipe is read to its end first."""
    if path is None:
        return io.BytesIO(sys.stdin.buffer.read())
    file = Path(path).open("rb")
    if file.seekable():
        return file
    with file:
        return io.BytesIO(file.read())


def _size(file: IO[bytes]) -> int:
    size = file.seek(0, io.SEEK_END)
    file.seek(0)
    return size


def _front(file: IO[bytes]) -> bytes:
    """The first bytes, which are read again."""
    if isinstance(file, io.BufferedReader):
        return file.peek(_BLOCK)
    front = file.read(_BLOCK)
    file.seek(0)
    return front


def _is_tar(front: bytes) -> bool:
    return front[_TAR_AT : _TAR_AT + len(_TAR)] == _TAR


def _all(stream: IO[bytes], limits: Limits, packed: int) -> bytes:
    """All bytes of a stream that was packed to this size; FeedFault as soon as there are too many."""
    found, most = io.BytesIO(), limits.of(packed)
    while chunk := stream.read(_CHUNK):
        if found.write(chunk) and found.tell() > most:
            raise limits.fault(packed)
    return found.getvalue()


def _plain(file: IO[bytes], front: bytes) -> bytes:
    other = next((name for magic, name in _OTHERS.items() if front.startswith(magic)), None)
    if other is not None:
        raise FeedFault(f"it is packed by {other}, which isn't read: unpack it first")
    return file.read()
