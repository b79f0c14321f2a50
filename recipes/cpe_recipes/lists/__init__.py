"""What software lists say that a machine has: one module a form, and what a list says of itself picks the module.

Of JSON, CycloneDX 1.x, SPDX 2.x, SPDX 3 (JSON-LD), Syft's own JSON, Trivy's JSON and npm's locks are read. Of text,
plain lists of names or package URLs are, and what package managers write of what is installed. Of a component all names
are taken that its list gives for it, wherever its tool writes them; each module says where it looks.
"""
from __future__ import annotations

import contextlib
import gc
from collections.abc import Iterator

from ..feeds import FeedFault, Json, values_of
from . import (
    apk_list,
    cyclonedx,
    dpkg_list,
    dpkg_query,
    dpkg_status,
    go_mod,
    go_sum,
    package_lock,
    pip_freeze,
    pip_list,
    plain,
    rpm_query,
    spdx2,
    spdx3,
    syft,
    texts,
    trivy,
)
from .software_list import Oddity, SoftwareList

__all__ = ["Oddity", "SoftwareList", "read"]

WANTED = (
    "give CycloneDX 1.x, SPDX 2.x, SPDX 3, Syft's or Trivy's list or package-lock.json as JSON, a plain list of names or package URLs, "
    "or what dpkg-query -W, dpkg -l, rpm -qa, apk list, pip freeze or pip list writes, /var/lib/dpkg/status, go.mod or go.sum"
)
_FORMS = (cyclonedx, spdx2, spdx3, syft, trivy, package_lock)
_TEXTS = (plain, dpkg_list, dpkg_query, dpkg_status, rpm_query, apk_list, pip_list, pip_freeze, go_mod, go_sum)
# Of a text whose characters have two bytes, such as PowerShell writes.
_UTF_16 = (b"\xff\xfe", b"\xfe\xff")


def read(feed: str, data: bytes) -> SoftwareList:
    """The contents of a software list with this name and these bytes. FeedFault if it has no known form."""
    data = _in_utf_8(data)
    front = data.removeprefix(b"\xef\xbb\xbf").lstrip()
    if not front:
        raise FeedFault("it is empty")
    if front.startswith(b"<"):
        raise FeedFault(f"XML is not read: {WANTED}")
    software_list = SoftwareList(feed)
    if front[:1] in b"{[":
        with _no_collection():
            for value in values_of(data, is_strict=True):
                _read(value, software_list)
    else:
        _read_text(data, software_list)
    return software_list


def _in_utf_8(data: bytes) -> bytes:
    if not data.startswith(_UTF_16):
        return data
    try:
        return data.decode("utf-16").encode()
    except UnicodeError as fault:
        raise FeedFault("no text: it is no UTF-16, though it begins so") from fault


@contextlib.contextmanager
def _no_collection() -> Iterator[None]:
    """Disables the garbage collector, because what is read is kept, and collecting would take a third of the time."""
    was_enabled = gc.isenabled()
    gc.disable()
    try:
        yield
    finally:
        if was_enabled:
            gc.enable()


def _read(value: Json, software_list: SoftwareList) -> None:
    if not isinstance(value, dict):
        raise FeedFault(f"no software list: {WANTED}")
    for form in _FORMS:
        form_name = form.identify(value)
        if form_name is None:
            continue
        if not form.is_read(value):
            raise FeedFault(f"{form_name} is not read: {WANTED}")
        form.read(value, software_list)
        software_list.count_unread(value, form.PASSED)
        return
    raise FeedFault(f"neither CycloneDX nor SPDX, nor of Syft, Trivy or npm: {WANTED}")


def _read_text(data: bytes, software_list: SoftwareList) -> None:
    try:
        text = texts.text_of(data.decode("utf-8-sig"))
    except UnicodeDecodeError as fault:
        raise FeedFault(f"no text: it is no UTF-8 at byte {fault.start + 1}") from fault
    form = next((one for one in _TEXTS if one.fits(text)), None)
    if form is None:
        raise FeedFault(f"no software list: {WANTED}")
    form.read(text, software_list)
