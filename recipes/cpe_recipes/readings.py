"""The possible meanings of a version in a list beside the version of an advisory: the texts that are compared.

A distribution's package has the version of its upstream, perhaps after an epoch and before a release of the
distribution's own (32:9.16.23-24.el9), and an advisory has the upstream's. If the kind of a package isn't known, both
readings are possible.
"""
from __future__ import annotations

import functools
import re
from collections.abc import Iterator
from dataclasses import dataclass
from urllib.parse import unquote

from . import orders
from .orders.order import KEPT

DISTRIBUTIONS = frozenset({"deb", "rpm", "apk"})

_V = re.compile(r"[vV](?=[0-9])")
_EPOCH = re.compile(r"[0-9]+[:!](?=.)")
# What may be a release of any distribution: 1, 0+deb11u1, 24.el9, r3. Only the text before it needs a digit.
_RELEASE = re.compile(r"(?P<upstream>.*[0-9].*)-(?P<release>r?[0-9][^-]*)")
_RELEASES = {
    "deb": re.compile(r"(?P<upstream>.+)-(?P<release>[^-]+)"),
    "rpm": re.compile(r"(?P<upstream>[^-]+)-(?P<release>[^-]+)"),
    "apk": re.compile(r"(?P<upstream>.+)-(?P<release>r[0-9]+)"),
}
# Debian's words for an upstream version that was packed otherwise, and for one that is an earlier one in truth.
_PACKED = re.compile(r"[.+~](?:dfsg|ds|repack|orig|debian)(?![a-z]).*|\+~.*")
_REALLY = re.compile(r".*\+really(?P<upstream>[0-9].*)")
# A snapshot behind a version, or a build of it.
_BEHIND = re.compile(r"(?P<upstream>[^+^]*[0-9][^+^]*)[+^].*")
_FLAVOUR = re.compile(r"(?P<upstream>.*[0-9].*)[-.](?P<word>[a-z]+)")
_WORDS_OF_MAVEN = frozenset(
    {"alpha", "beta", "milestone", "rc", "cr", "snapshot", "ga", "final", "release", "sp", "a", "b", "m"}
)


@dataclass(frozen=True)
class Reading:
    """A text that a version may mean, and the release of a distribution that was removed from it."""

    text: str
    release: str = ""


def without_v(version: str) -> str:
    """The version without a v before its first digit."""
    return version[1:] if _V.match(version) else version


@functools.lru_cache(maxsize=KEPT)
def release_of(version: str, kind: str) -> str:
    """The release of a distribution that a version has, or may have where its kind isn't known; empty if it has
    none."""
    match = _with_release(version.lower(), kind)
    return match["release"] if match else ""


def has_release(bound: str) -> bool:
    """Whether a bound may be a version of a distribution."""
    return _RELEASE.fullmatch(bound) is not None


def _with_release(version: str, kind: str) -> re.Match[str] | None:
    if kind in DISTRIBUTIONS:
        return _RELEASES[kind].fullmatch(version)
    return None if kind in orders.OF_KIND else _RELEASE.fullmatch(version)


@functools.lru_cache(maxsize=KEPT)
def readings(version: str, bound: str, kind: str) -> tuple[str, tuple[Reading, ...]]:
    """The bound as it is compared, and what the version may mean beside it."""
    version, bound = without_epoch(version.lower(), bound.lower())
    return bound, tuple(dict.fromkeys(_readings(version, bound, kind)))


def without_epoch(version: str, bound: str) -> tuple[str, str]:
    """Both without a v before the first digit, and without an epoch that only one of them has, since that decides
    nothing. (Some tools write the colon of an epoch as %3a, as URLs do.)"""
    found = [without_v(unquote(text) if "%" in text else text) for text in (version, bound)]
    epochs = [_EPOCH.match(text) for text in found]
    if all(epochs):
        return found[0], found[1]
    version, bound = (without_v(text[match.end() :]) if match else text for text, match in zip(found, epochs))
    return version, bound


def _readings(version: str, bound: str, kind: str) -> Iterator[Reading]:
    if kind in DISTRIBUTIONS:
        match = _with_release(version, kind)
        if has_release(bound):
            # (it asks for this distribution's own)
            yield Reading(version)
        else:
            yield from _upstreams(match["upstream"], match["release"]) if match else _upstreams(version, "")
    elif kind == "pypi":
        # (by PEP 440 a local label counts only where the other side has one)
        yield Reading(version if "+" in bound else version.partition("+")[0])
    elif kind == "maven":
        yield Reading(version)
        flavour = _FLAVOUR.fullmatch(version)
        if flavour and flavour["word"] not in _WORDS_OF_MAVEN:
            yield Reading(flavour["upstream"])
    elif kind in orders.OF_KIND:
        yield Reading(version)
    else:
        yield from _any(version, bound)


def _any(version: str, bound: str) -> Iterator[Reading]:
    """The readings of a version whose kind isn't known."""
    yield Reading(version)
    match = _RELEASE.fullmatch(version)
    if match is None:
        yield from _upstreams(version, "")
    elif not has_release(bound):
        yield from _upstreams(match["upstream"], match["release"])


def _upstreams(text: str, release: str) -> Iterator[Reading]:
    """The upstream versions that a distribution's version without its release may mean."""
    really = _REALLY.fullmatch(text)
    text = _PACKED.sub("", really["upstream"] if really else text)
    yield Reading(text, release)
    behind = _BEHIND.fullmatch(text)
    if behind:
        yield Reading(behind["upstream"], release)
