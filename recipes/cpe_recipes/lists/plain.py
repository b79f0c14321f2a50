"""Plain lists: in each line a name, in either binding, or a package URL. A # at the beginning of a line or after a
space begins a comment."""
from __future__ import annotations

import re

from .software_list import Draft, SoftwareList
from .texts import Text
from .unread_texts import is_name, is_purl

CALLED = "a plain list"
_COMMENT = re.compile(r"(^|\s)#.*")


def fits(text: Text) -> bool:
    """Whether a line looks like a name or a package URL, or nothing but comments is there."""
    found = [bare for line in text.lines if (bare := _bare(line.text))]
    return not found or any(is_name(one) or is_purl(one) for one in found)


def read(text: Text, software_list: SoftwareList) -> None:
    for line in text.lines:
        bare = _bare(line.text)
        if bare:
            draft = Draft(software_list, f"line {line.number} of {software_list.feed}")
            if is_purl(bare):
                draft.add_purl(bare, "it")
            else:
                draft.add_name(bare, "")
            software_list.put(draft)


def _bare(line: str) -> str:
    return _COMMENT.sub("", line).strip()
