"""What the readers of software lists share: what was found so far, and which texts were read."""
from __future__ import annotations

from collections.abc import Collection, Iterable, Iterator
from dataclasses import dataclass

from .. import purls
from ..components import Component
from ..feeds import FeedFault, Json
from . import kinds, systems
from .unread_texts import UnreadTexts, is_name, is_purl

ODD = "not of the published form"


@dataclass(frozen=True, slots=True)
class Oddity:
    """What of a list is no component, or no name of one: what it is called, and why it wasn't read."""

    id: str
    reason: str


class SoftwareList:
    """The contents of a list: its components and oddities, in the order of the list, and its platform, if it names one.
    `remarks` are worth knowing, and nothing is lost by them."""

    def __init__(self, feed: str) -> None:
        self.feed = feed
        self.parts: list[Component | Oddity] = []
        self.platform: Component | None = None
        self.remarks: list[str] = []
        self._unread = UnreadTexts()

    def components(self) -> list[Component]:
        """The components except the platform."""
        return [one for one in self.parts if isinstance(one, Component)]

    def all(self) -> Iterator[Component | Oddity]:
        """The platform, if it is known, and all parts."""
        if self.platform is not None:
            yield self.platform
        yield from self.parts
        if self._unread.count:
            yield Oddity(self.feed, self._unread.words())

    def put(self, draft: Draft, is_platform: bool = False) -> None:
        """Adds a component and its oddities. The first platform is the machine's."""
        one = draft.component()
        if is_platform and self.platform is None:
            self.platform = one
        elif one.names or not draft.faults:
            self.parts.append(one)
        self.parts.extend(Oddity(draft.id, reason) for reason in draft.faults)

    def put_odd(self, id: str, reason: str = ODD) -> None:
        self.parts.append(Oddity(id, reason))

    def note(self, text: str) -> None:
        """Notes that this text was read."""
        self._unread.note(text)

    def count_unread(self, value: Json, passed: Collection[str]) -> None:
        """Counts the texts of a document that look like names or package URLs, and that no reader took."""
        self._unread.look_at(value, passed)


class Draft:
    """A component while it is read, with its oddities."""

    def __init__(self, software_list: SoftwareList, id: str) -> None:
        self._software_list = software_list
        self.id = id
        self.names: dict[str, None] = {}
        self.kind = self.purl = self.source = ""
        self.faults: list[str] = []

    def add_name(self, value: Json, where: str) -> None:
        """Adds a name, if the value is one. A value that is no text is odd."""
        if value is None or value == "":
            return
        if not isinstance(value, str):
            self.faults.append(f"{where} is no text")
            return
        self._software_list.note(value)
        self.names[value] = None

    def add_purl(self, value: Json, where: str) -> None:
        """Adds a package URL; the component keeps the first one."""
        if value is None or value == "":
            return
        if not isinstance(value, str):
            self.faults.append(f"{where} is no text")
            return
        self._software_list.note(value)
        try:
            purls.check(value.strip())
        except purls.PurlFault as fault:
            self.faults.append(f"{where} is no package URL: {fault}")
        else:
            self.purl = self.purl or value

    def add_system(self, id: Json, version: Json) -> None:
        """Adds the names of an operating system that a list calls so."""
        for name in systems.names_of(id, version):
            self.names[name] = None

    def add_text(self, value: Json) -> None:
        """Adds a text if it is a name or a package URL."""
        if isinstance(value, str):
            if is_name(value):
                self.add_name(value, "")
            elif is_purl(value):
                self.add_purl(value, "a text of its evidence")

    def add_source(self, name: str, version: str = "") -> None:
        """Adds of which source package a distribution built it, perhaps with the version of that."""
        self.source = f"{name}@{version}" if name and version else name

    def component(self) -> Component:
        return Component(
            self.id,
            tuple(self.names),
            kinds.of_purl(self.purl) or self.kind,
            purls.with_upstream(self.purl, self.source),
        )

    def each(self, holder: Json, key: str) -> Iterator[dict[str, Json]]:
        """The objects of a list that an object may have. What is no list, and what in it is no object, is odd."""
        found = holder.get(key)
        if found is None:
            return
        if not isinstance(found, list):
            self.faults.append(f"its {key} are no list")
            return
        for one in found:
            if isinstance(one, dict):
                yield one
            else:
                self.faults.append(f"one of its {key} is no object")


def list_at(value: Json, key: str, is_needed: bool = True) -> list[Json]:
    """The list that a document has under a key. FeedFault if it has something else there, or nothing though it is
    needed."""
    found = value.get(key)
    if found is None and not is_needed:
        return []
    if found is None:
        raise FeedFault(f"it has no {key}")
    if not isinstance(found, list):
        raise FeedFault(f"its {key} are no list")
    return found


def text_of(value: Json, keys: Iterable[str]) -> str:
    """The texts that an object has under these keys, with spaces between them."""
    texts = (value.get(key) for key in keys)
    return " ".join(text for text in texts if isinstance(text, str) and text)
