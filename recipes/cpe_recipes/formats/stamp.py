"""The time in a result: that of --time, or of the variable SOURCE_DATE_EPOCH, or else of the clock. Apart from the
time, the same scan writes the same bytes."""
from __future__ import annotations

import os
import time
from datetime import datetime, timezone

from ..arguments import Arguments
from ..console import Fatal, shorten
from ..feeds import Json

TIME = "--time"
EPOCH = "SOURCE_DATE_EPOCH"


def stamp(arguments: Arguments) -> str:
    """The time in UTC, as RFC 3339 writes it. Fatal if the given text is no time."""
    given = arguments.only(TIME)
    if given is not None:
        return utc(_read(given))
    seconds = os.environ.get(EPOCH)
    if seconds is None:
        return utc(datetime.fromtimestamp(int(time.time()), timezone.utc))
    try:
        if not (seconds.isascii() and seconds.isdecimal()):
            raise ValueError
        return utc(datetime.fromtimestamp(int(seconds), timezone.utc))
    except (ValueError, OverflowError, OSError) as fault:
        raise Fatal(f"{EPOCH} is {shorten(repr(seconds))}, which is no number of seconds") from fault


def _read(text: str) -> datetime:
    try:
        found = datetime.fromisoformat(text)
    except ValueError as fault:
        raise Fatal(f"{TIME} is {shorten(repr(text))}, which is no time such as 2024-05-01T12:00:00Z") from fault
    if found.tzinfo is None:
        raise Fatal(f"{TIME} is {shorten(repr(text))}, which has no zone, such as the Z of 2024-05-01T12:00:00Z")
    return found


def utc(when: datetime) -> str:
    try:
        return when.astimezone(timezone.utc).replace(microsecond=0, tzinfo=None).isoformat() + "Z"
    except OverflowError as fault:
        raise Fatal(f"{TIME} has a year that isn't between 1 and 9999") from fault


def published(text: Json) -> str | None:
    """The time of a feed, which is in UTC if it has no zone; None if it is none."""
    try:
        found = datetime.fromisoformat(text) if isinstance(text, str) else None
    except ValueError:
        return None
    if found is None:
        return None
    return utc(found if found.tzinfo is not None else found.replace(tzinfo=timezone.utc))
