"""How the recipes read feeds: files or standard input, packed or not (unpack.py), as pages of JSON, each with a list of
records."""
from __future__ import annotations

import functools
import hashlib
import json
import re
from collections.abc import Callable, Iterable, Iterator, Mapping, Sequence
from dataclasses import dataclass, field, replace
from pathlib import Path
from typing import Any, NamedTuple, Protocol, TypeVar

from .console import Fatal, Messages, shorten
from .unpack import LIMITS, FeedFault, Limits, Unpacker, read_feed

Json = Any
Read = TypeVar("Read")

_SPACE = re.compile(r"\s*")
_SURROGATE = re.compile("[\ud800-\udfff]")
_COMPACT = json.JSONEncoder(ensure_ascii=False, separators=(",", ":")).encode
# A text as JSON has it.
quoted_text = json.encoder.encode_basestring
# The `format` of pages of NVD's API 2.0, and the members that place a page in its feed.
_FORMATS = {"products": "NVD_CPE", "vulnerabilities": "NVD_CVE", "matchStrings": "NVD_CPEMatchString"}
_VERSION = re.compile(r"2\.0(\.\d+)?")
ADVISORIES = "vulnerabilities"
# The member that has the records of a page of CVE records. Such a page isn't part of a feed with a known total.
RECORDS = "CVE records"
_RECORD_VERSION = re.compile(r"5(\.\d+)*")
# (as a store can keep it)
_LARGEST = (1 << 63) - 1
COUNTS = ("totalResults", "startIndex", "resultsPerPage")


class FormFault(Exception):
    """A record of a feed isn't of the published form."""


@dataclass(frozen=True, slots=True)
class Source:
    """The origin of records: what one of them is called, and the file."""

    word: str
    name: str

    def place(self, number: int) -> str:
        return f"{self.word} {number} of {self.name}"


class PlacedRecord(NamedTuple):
    """A record of a page with its id, and its number there; one without an id is called by its place."""

    id: str
    record: Json
    source: Source
    number: int


@dataclass(frozen=True)
class Page:
    """A page of a feed: the name of its file, the member that has its records, the records, and the members that place
    it in its feed.

    `numbers` has the places of the records in the file, if some of them were removed. `is_of_records` marks CVE records
    that were converted to NVD's form.
    """

    name: str
    kind: str
    records: list[Json]
    counts: Mapping[str, int] = field(default_factory=dict)
    numbers: Sequence[int] | None = None
    is_of_records: bool = False

    def each(self, word: str, id_of: Callable[[Json], Json]) -> Iterator[PlacedRecord]:
        """The records with their ids; the id of a record without one is its place, called `word`."""
        source = Source(word, self.name)
        for number, record in zip(self.numbers or range(1, len(self.records) + 1), self.records):
            try:
                id = id_of(record)
            except FormFault:
                id = None
            yield PlacedRecord(id if isinstance(id, str) and id else source.place(number), record, source, number)

    def only(self, kept: Sequence[int]) -> Page:
        """The page with the records at these places of its list alone."""
        numbers = self.numbers or range(1, len(self.records) + 1)
        records, numbers = [self.records[k] for k in kept], [numbers[k] for k in kept]
        return replace(self, records=records, numbers=numbers)


@dataclass(frozen=True)
class Part:
    """A file, or a member of an archive: its path, what it is called, and its bytes; or why it can't be unpacked, or
    what is remarked of its file."""

    path: str | None
    place: str
    data: bytes = b""
    fault: str = ""
    remark: str = ""

    @functools.cached_property
    def digest(self) -> str:
        return hashlib.sha256(self.data).hexdigest()


class Follower(Protocol):
    """Is called for each file, and for each member of an archive, that is read."""

    def is_passed(self, part: Part) -> bool:
        """Whether the bytes of a file or member needn't be read."""

    def fault(self, path: str | None, place: str, reason: str) -> None:
        """Hears why a file or member, or a part of it, can't be read."""


def name_of(path: str | None) -> str:
    """What a feed is called."""
    return "standard input" if path is None else Path(path).name


def whole(path: str | None) -> bytes:
    """The bytes of a feed; Fatal if it can't be read."""
    try:
        return read_feed(path)
    except FeedFault as fault:
        raise Fatal(f"{name_of(path)}: {fault}") from fault


def text_lines(text: str) -> list[str]:
    """The lines of a text, without the line ends of Windows. (JSON may have in it what str.splitlines takes for
    ends.)"""
    lines = [line.removesuffix("\r") for line in text.split("\n")]
    return lines if lines[-1] else lines[:-1]


def values_of(data: bytes, is_strict: bool = False) -> Iterator[Json]:
    """The values of JSON in a text, one after the other; those before a fault are yielded. If `is_strict`, no object
    may have a member twice, because otherwise the last one would hide the others."""
    if not data.strip():
        raise FeedFault("no JSON: it is empty")
    try:
        text = data.decode("utf-8-sig")
    except UnicodeDecodeError as fault:
        raise FeedFault(f"no JSON: it is no UTF-8 at byte {fault.start + 1}") from fault
    decoder = json.JSONDecoder(parse_constant=_no_constant, object_pairs_hook=_once if is_strict else None)
    place = _behind_space(text, 0)
    while place < len(text):
        try:
            value, place = decoder.raw_decode(text, place)
        except RecursionError as fault:
            raise FeedFault("no JSON that can be read: it is nested too deep") from fault
        except ValueError as fault:
            raise FeedFault(f"no JSON: {fault}") from fault
        yield value
        place = _behind_space(text, place)


def _behind_space(text: str, place: int) -> int:
    found = _SPACE.match(text, place)
    return place if found is None else found.end()


def _once(members: list[tuple[str, Json]]) -> dict[str, Json]:
    value = dict(members)
    if len(value) != len(members):
        keys = [key for key, _ in members]
        twice = next(key for key in keys if keys.count(key) > 1)
        raise ValueError(f"an object has the member {twice[:100]} twice")
    return value


def _no_constant(word: str) -> None:
    raise ValueError(f"{word} is no number")


def pages(
    paths: Sequence[str], messages: Messages, kinds: Sequence[str], strict: bool = False, limits: Limits = LIMITS
) -> Iterator[Page]:
    """The pages at these paths, or of standard input if there is no path.

    A page is an object in which one of `kinds` is a list, in a file or a member of an archive. What is no page, or
    can't be read, is reported, and the other pages are yielded. It is Fatal if there is no page at all, or if `strict`.
    """
    return read_parts(
        parts(list(paths) or [None], limits), len(paths), messages, lambda part: pages_of(part, kinds), strict
    )


def parts(paths: Sequence[str | None], limits: Limits) -> Iterator[Part]:
    """The parts of these files in their order, or their faults."""
    for path in paths:
        name, unpacked = name_of(path), Unpacker(limits)
        of_file = unpacked.parts(path)
        while True:
            try:
                part = next(of_file, None)
            except FeedFault as fault:
                yield Part(path, name, fault=str(fault))
                continue
            if part is None:
                break
            yield Part(path, f"{name}/{part[0]}" if part[0] else name, part[1])
        if unpacked.passed:
            some = f"{len(unpacked.passed):,} {'member is' if len(unpacked.passed) == 1 else 'members are'} no page by the name"
            yield Part(path, name, remark=f"{name}: {some}, such as {shorten(unpacked.passed[0])}")


def read_parts(
    of_files: Iterable[Part],
    count: int,
    messages: Messages,
    read: Callable[[Part], Iterator[Read]],
    strict: bool = False,
    follower: Follower | None = None,
) -> Iterator[Read]:
    """Reads the parts of `count` files, and yields their pages as `pages` does."""
    good, faults = 0, []
    for part in of_files:
        if part.remark:
            messages.remark(part.remark)
            continue
        try:
            if part.fault:
                raise FeedFault(part.fault)
            if follower is not None and follower.is_passed(part):
                good += 1
                continue
            for one in read(part):
                good += 1
                yield one
        except FeedFault as fault:
            if follower is not None:
                follower.fault(part.path, part.place, str(fault))
            if strict or count <= 1 and not good:
                raise Fatal(f"{part.place}: {fault}") from fault
            faults.append(part.place)
            messages.leave_out(part.place, str(fault))
    if not good and faults:
        raise Fatal(f"none of these can be read: {', '.join(faults)}")


def pages_of(part: Part, kinds: Sequence[str]) -> Iterator[Page]:
    """The pages of a part. FeedFault if something else follows them."""
    for value in values_of(part.data):
        yield _page(part.place, value, kinds)


def _page(name: str, value: Json, kinds: Sequence[str]) -> Page:
    if isinstance(value, dict):
        for kind in kinds:
            if isinstance(value.get(kind), list):
                _check_format(value, kind)
                return Page(name, kind, value[kind], _counts(value))
    if ADVISORIES in kinds and (records := _records(value)):
        return Page(name, RECORDS, records)
    if isinstance(value, dict) and "CVE_Items" in value:
        raise FeedFault("a feed of NVD's format 1.1, which isn't read: take that of 2.0")
    raise FeedFault(f"no {kinds[0]}" if len(kinds) == 1 else f"neither {' nor '.join(kinds)}")


def _records(value: Json) -> list[Json]:
    """The CVE records of format 5 that a value is, or has as a list."""
    found = value if isinstance(value, list) else [value]
    if not all(
        isinstance(one, dict) and (one.get("dataType") == "CVE_RECORD" or "cveMetadata" in one) for one in found
    ):
        return []
    for one in found:
        version = one.get("dataVersion", "5.1")
        if not isinstance(version, str) or not _RECORD_VERSION.fullmatch(version):
            raise FeedFault(f"a CVE record of version {shorten(version)}, and 5 is what is read")
    return found


def _check_format(value: Json, kind: str) -> None:
    """Checks that a page has the known format, if it names one."""
    wanted = _FORMATS.get(kind)
    given = value.get("format", wanted)
    if given != wanted:
        raise FeedFault(f"its format is {shorten(given)}, and that of {kind} is {wanted}")
    version = value.get("version", "2.0")
    if wanted and not (isinstance(version, str) and _VERSION.fullmatch(version)):
        raise FeedFault(f"its version is {shorten(version)}, and 2.0 is what is read")


def _counts(value: Json) -> dict[str, int]:
    """The members that place a page in its feed."""
    found = {key: value[key] for key in COUNTS if value.get(key) is not None}
    for key, count in found.items():
        if isinstance(count, bool) or not isinstance(count, int) or not 0 <= count <= _LARGEST:
            raise FeedFault(f"its {key} is {shorten(count)}, which is no count")
    return found


def member(value: Json, key: str) -> Json:
    """What an object has under a key, or None."""
    if not isinstance(value, dict):
        raise FormFault
    return value.get(key)


def members(value: Json, key: str) -> list[Json]:
    """The list that an object has under a key, which may be missing and is empty then."""
    found = member(value, key)
    if found is None or found is False:
        return []
    if not isinstance(found, list):
        raise FormFault
    return found


def text_at(value: Json, key: str) -> str | None:
    """The text that an object has under a key, or None if it has none."""
    found = member(value, key)
    if found is not None and not isinstance(found, str):
        raise FormFault
    return found


def record_text(record: Json) -> str:
    """A record as the compact JSON of its line."""
    return printable(_COMPACT(record))


def printable(text: str) -> str:
    """A line of JSON in which all can be printed."""
    return text if text.isprintable() else json_shown(text)


def json_text(value: Json) -> str:
    """The JSON of a result, in lines that people can read."""
    return json_shown(json.dumps(value, ensure_ascii=False, indent=1))


def json_shown(text: str) -> str:
    """A text of JSON as a terminal shows it: what can't be printed is spelled by its number, as JSON has it. Ends of
    lines stay."""
    # (half a character of two, which JSON can spell, has no bytes)
    whole = text if text.isascii() else _SURROGATE.sub("\ufffd", text)
    return "".join(one if one.isprintable() or one == "\n" else json.dumps(one)[1:-1] for one in whole)
