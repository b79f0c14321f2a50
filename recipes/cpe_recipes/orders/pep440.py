"""The order of Python's packages, by PEP 440: [N!]N(.N)*[{a|b|rc}N][.postN][.devN][+local], and its other spellings."""
from __future__ import annotations

import functools
import re

from .order import KEPT, Order, by_value, worth

_VERSION = re.compile(
    r"""v?(?:(?P<epoch>[0-9]+)!)?(?P<release>[0-9]+(?:\.[0-9]+)*)
    (?:[-_.]?(?P<pre>alpha|a|beta|b|preview|pre|c|rc)[-_.]?(?P<pre_number>[0-9]*))?
    (?P<post>-(?P<bare>[0-9]+)|[-_.]?(?:post|rev|r)[-_.]?(?P<post_number>[0-9]*))?
    (?P<dev>[-_.]?dev[-_.]?(?P<dev_number>[0-9]*))?
    (?:\+(?P<local>[a-z0-9]+(?:[-_.][a-z0-9]+)*))?""",
    re.VERBOSE,
)
_PRE = {"alpha": "a", "beta": "b", "preview": "rc", "pre": "rc", "c": "rc"}
_SEPARATOR = re.compile(r"[-_.]")

# What is compared: epoch, release, before a release, after it, in work, and the local label, each as Python compares
# it.
Key = tuple[object, ...]


@functools.lru_cache(maxsize=KEPT)
def read(text: str) -> Key | None:
    """What such a version is compared by; None if it is none."""
    match = _VERSION.fullmatch(text.lower())
    if match is None:
        return None
    release = [worth(number) for number in match["release"].split(".")]
    while len(release) > 1 and release[-1] == (0, ""):
        release.pop()
    return (
        worth(match["epoch"] or ""),
        tuple(release),
        _before(match),
        _after(match),
        _in_work(match),
        _local(match["local"]),
    )


def _before(match: re.Match[str]) -> Key:
    if match["pre"] is not None:
        return 1, _PRE.get(match["pre"], match["pre"]), worth(match["pre_number"])
    # (a version in development is before all others of its release)
    return (0,) if match["post"] is None and match["dev"] is not None else (2,)


def _after(match: re.Match[str]) -> Key:
    return (0,) if match["post"] is None else (1, worth(match["bare"] or match["post_number"] or ""))


def _in_work(match: re.Match[str]) -> Key:
    return (1,) if match["dev"] is None else (0, worth(match["dev_number"]))


def _local(label: str | None) -> Key:
    parts = _SEPARATOR.split(label) if label is not None else []
    return tuple((1, worth(part)) if part.isdigit() else (0, part) for part in parts)


ORDER: Order[Key] = Order("PEP 440", read, by_value)
