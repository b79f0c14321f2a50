"""Links to advisories, whose addresses are in feeds; what isn't an address of the web is left out."""
from __future__ import annotations

import re

from ..feeds import Json

_ADDRESS = re.compile(r"https?://[A-Za-z0-9.-]+(:\d+)?(/([A-Za-z0-9._~!$&'()*+,;=:@/?#-]|%[0-9A-Fa-f]{2})*)?")


def address(text: Json) -> str | None:
    """The address, None if it is none."""
    return text if isinstance(text, str) and _ADDRESS.fullmatch(text) and text.count("#") <= 1 else None
