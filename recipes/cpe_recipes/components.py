"""What a machine has: components, each with all names that its list gives for it, and what the list says of the
platform.

A component is one thing of which a list may give several names. Which of them is the right one isn't known, so they are
alternatives: the component makes a verdict TRUE if one of them does, and FALSE only if all of them do.

A machine is a line of text, in one of two forms. The plain one is its name, and after it the names of its items, with
spaces between them. Where that can't say all that is known, the line is an object of JSON, which begins with `{`:

    {"machine":"web-1","platform":{"id":"debian 12","names":["cpe:2.3:o:.."]},"components":["cpe:2.3:a:..",
     {"id":"openssl","names":["cpe:2.3:a:..","cpe:2.3:a:.."],"kind":"deb","purl":"pkg:deb/debian/openssl@3.0.11-1"}]}

(here in two lines). A component with nothing but one name may be that text. `platform` is missing where the list says
nothing of it; it has no names where the list says which operating system it is, and gives no name for it. In a plain
line a platform is the first name.
"""
from __future__ import annotations

from collections.abc import Iterable, Iterator
from dataclasses import dataclass

from .feeds import FormFault, Json, record_text

NO_NAME = "no CPE name"

_MACHINE = {"machine", "platform", "components"}
_COMPONENT = {"id", "names", "kind", "purl"}


@dataclass(frozen=True, slots=True)
class SupposedName:
    """A name that a component perhaps has, and the reason why that isn't sure."""

    name: str
    why: str


@dataclass(frozen=True, slots=True)
class Component:
    """A component: its id in its list, all names that the list gives for it, each once and in order, its kind, and its
    package URL.

    `kind` is the type of its package URL, or the word of the list in place of it: deb, rpm, apk, pypi, npm, golang,
    maven and so on. It is empty if the list doesn't have it. So are the id, the names and the package URL.

    `supposed` are names that it perhaps has, by its package URL; package_names.py adds them, and no list has them.
    """

    id: str = ""
    names: tuple[str, ...] = ()
    kind: str = ""
    purl: str = ""
    supposed: tuple[SupposedName, ...] = ()

    def label(self) -> str:
        """How it is called in words: by its id, its first name or its package URL."""
        return self.id or (self.names[0] if self.names else self.purl)

    def is_name_alone(self) -> bool:
        """Whether one name is all that is known of it, except its id, which says where it is in its list."""
        return len(self.names) == 1 and not self.kind and not self.purl


@dataclass(init=False)
class Machine:
    """A machine: its name, its components in the order of its list, and what the list says of its operating system.

    `platform` is None if the list says nothing; it is without names if the list names no name of part `o` for it.
    A name that is given in place of a component is one that has this name alone.
    """

    name: str
    components: list[Component]
    platform: Component | None

    def __init__(self, name: str, has: Iterable[Component | str] = (), platform: Component | None = None) -> None:
        self.name, self.platform = name, platform
        self.components = [Component(names=(one,)) if isinstance(one, str) else one for one in has]

    @property
    def items(self) -> list[str]:
        """All names, first those of the platform, as they were written."""
        return [name for component in self.all() for name in component.names]

    def all(self) -> Iterator[Component]:
        """The platform, if it is known, and the components."""
        if self.platform is not None:
            yield self.platform
        yield from self.components

    def asked_names(self) -> list[str]:
        """All names, and those that components perhaps have."""
        return [*self.items, *(one.name for component in self.components for one in component.supposed)]

    def own_items(self) -> list[str]:
        """The names by which a machine has items at all. Beside components, of which none may have a name, a platform
        is none."""
        return [name for component in self.components for name in component.names] if self.components else self.items

    def own_names(self) -> list[str]:
        """The same, with the names that components perhaps have."""
        return [*self.own_items(), *(one.name for component in self.components for one in component.supposed)]

    def add(self, other: Machine) -> None:
        """Adds the components that another list has for the same machine. If both name a platform, the first remains,
        and the other becomes a component."""
        if self.platform is None:
            self.platform = other.platform
            self.components.extend(other.components)
        else:
            self.components.extend(one for one in other.all() if one != self.platform)

    def line(self) -> str:
        """The line of the machine."""
        is_plain = not self.name.startswith("{") and not any(one.isspace() for one in self.name)
        if is_plain and all(one.is_name_alone() for one in self.all()):
            return " ".join([self.name, *self.items])
        record: dict[str, Json] = {"machine": self.name}
        if self.platform is not None:
            record["platform"] = _record(self.platform)
        record["components"] = [
            one.names[0] if one.is_name_alone() and not one.id else _record(one) for one in self.components
        ]
        return record_text(record)


def machine_of(value: Json) -> Machine:
    """The machine of an object of JSON. FormFault if it is none; its words say why."""
    _needs(isinstance(value, dict), "it is no object")
    _knows(value, _MACHINE, "the machine")
    name, has = value.get("machine"), value.get("components", [])
    _needs(isinstance(name, str) and name != "", "it has no text as its machine")
    _needs(isinstance(has, list), "its components are no list")
    platform = _component(value["platform"], "its platform") if "platform" in value else None
    return Machine(name, (_component(one, f"component {place}") for place, one in enumerate(has, 1)), platform)


def _component(value: Json, where: str) -> Component:
    if isinstance(value, str):
        return Component(names=(value,))
    _needs(isinstance(value, dict), f"{where} is neither an object nor a name")
    _knows(value, _COMPONENT, where)
    names = value.get("names", [])
    _needs(
        isinstance(names, list) and all(isinstance(name, str) for name in names),
        f"the names of {where} are no list of texts",
    )
    texts = [value.get(key, "") for key in ("id", "kind", "purl")]
    _needs(all(isinstance(text, str) for text in texts), f"id, kind and purl of {where} are no texts")
    id, kind, purl = texts
    return Component(id, tuple(dict.fromkeys(names)), kind, purl)


def _record(component: Component) -> Json:
    members = {"id": component.id, "names": list(component.names), "kind": component.kind, "purl": component.purl}
    return {key: value for key, value in members.items() if value or key == "names"}


def _needs(is_right: bool, reason: str) -> None:
    if not is_right:
        raise FormFault(reason)


def _knows(value: dict[str, Json], known: set[str], where: str) -> None:
    for key in value:
        _needs(key in known, f"{where} has a member {key}, which isn't known")
