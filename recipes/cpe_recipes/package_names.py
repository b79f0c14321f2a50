"""Names for components by their package URLs: of those that their list gives no name, or none whose product the
dictionary has.

1. names.txt, and the table that the user keeps beside it, say what a package is (names_table.py). Such a name is one as
   a list gives it. It counts beside the names that the list has too, since tools guess these. If the dictionary has
   none of the products of the line,
   2. is asked as well.
2. Otherwise the dictionary says what it may be (candidates.py). A component perhaps has such a name, so a verdict that
   depends on it is UNKNOWN, with the line for names.txt that settles it, and never TRUE. It is FALSE only if it is so
   of each of these names.
3. What is neither there nor there has no name. How many such packages there are is remarked.

The version of a name is that of the package, whole: versions.py reads it by the kind of the component. Of a package
that is found by its source package it is the version of that, if the list says it.
"""
from __future__ import annotations

import re
from collections.abc import Iterable, Iterator, Sequence
from dataclasses import dataclass, replace

from . import names, package_urls
from .candidates import candidates_of, forms_of, target_of
from .components import NO_NAME, Component, Machine, SupposedName
from .console import Messages, escape
from .feeds import FormFault, Json
from .names_table import Product, TableAnswer, Tables, read_tables
from .package_urls import PackageUrl
from .product_index import ProductIndex, format_name
from .table import format_count


# What a name of a product may have as its version.
_VERSION = re.compile(r"[!-~]+")


@dataclass(frozen=True)
class PackageNames:
    """The names of a package: those that it surely has, those that it perhaps has, the lines for names.txt that would
    settle these, and whether nothing is known of the package."""

    names: tuple[str, ...] = ()
    supposed: tuple[SupposedName, ...] = ()
    lines: tuple[str, ...] = ()
    is_unknown: bool = False


class PackageNamer:
    """Names packages, by tables and by a dictionary."""

    def __init__(self, tables: Tables, machines: Iterable[Machine] = (), records: Iterable[str] = ()) -> None:
        self._tables = tables
        self._named: dict[tuple[str, bool], PackageNames] = {}
        self._index = ProductIndex(records, wanted_names(machines, tables))

    def names_of(self, component: Component) -> PackageNames:
        """The names of a component that has a package URL."""
        has_product = any(self._has_product(name) for name in component.names)
        key = component.purl, has_product
        found = self._named.get(key)
        if found is None:
            found = self._named[key] = self._look(component.purl, has_product)
        return found

    def put(self, component: Component) -> Component:
        """A component with the names of its package."""
        return _with_names(component, self.names_of(component)) if component.purl else component

    def _has_product(self, name: str) -> bool:
        parts = names.components(format_name(name) or names.PREFIX)
        return len(parts) > names.PRODUCT and self._has(Product(*parts[: names.PRODUCT + 1]))

    def _look(self, purl: str, has_product: bool) -> PackageNames:
        try:
            read = package_urls.read(purl)
        except FormFault:
            return PackageNames(is_unknown=True)
        settled = self._tables.find(read)
        if settled is None:
            return PackageNames() if has_product else self._by_dictionary(read)
        named = _by_table(read, settled)
        if has_product or not settled.line.choices or any(map(self._has, settled.line.products())):
            return named
        found = self._by_dictionary(read)
        return replace(found, names=named.names, supposed=named.supposed + found.supposed, is_unknown=False)

    def _has(self, product: Product) -> bool:
        return product.part != "a" or self._index.has(product.vendor, product.name)

    def _by_dictionary(self, purl: PackageUrl) -> PackageNames:
        found = candidates_of(purl, self._index)
        key = (purl.source or purl.package).path()
        supposed, lines = [], []
        for one in found:
            product = one.product.words()
            lines.append(f"{key} {product}")
            why = f"{escape(purl.words())} may be {product}, and names.txt settles it: {lines[-1]}"
            supposed += [SupposedName(name, why) for name in _names_of(one.product, one.version, target_of(purl))]
        return PackageNames((), tuple(supposed), tuple(lines), not found)


def _with_names(component: Component, named: PackageNames) -> Component:
    found = tuple(dict.fromkeys((*component.names, *named.names)))
    return Component(component.id, found, component.kind, component.purl, named.supposed)


def _by_table(purl: PackageUrl, settled: TableAnswer) -> PackageNames:
    """The names of a package that a table has. Of several choices none is sure."""
    version = purl.source_version if settled.is_of_source and purl.source_version else purl.version
    target, choices = target_of(purl), settled.line.choices
    of_choices = [[name for product in choice for name in _names_of(product, version, target)] for choice in choices]
    if len(choices) < 2:
        return PackageNames(tuple(dict.fromkeys(name for of in of_choices for name in of)))
    words = " or ".join(",".join(product.words() for product in choice) for choice in choices)
    why = f"{escape(purl.words())} is {words} by {settled.line.place}"
    return PackageNames((), tuple(SupposedName(name, why) for of in of_choices for name in of))


def _names_of(product: Product, version: str, target: str) -> Iterator[str]:
    """The names of a product in a version: one that is written for its language, if there is one, and one that doesn't
    say it, since advisories have both. A version that no name can have isn't known there."""
    spelled = names.quote(version.lower()) if _VERSION.fullmatch(version) and version != names.NA else names.ANY
    for one in dict.fromkeys((names.quote(target), names.ANY)) if target else (names.ANY,):
        yield names.join(
            [product.part, product.vendor, product.name, spelled, *[names.ANY] * 4, one, names.ANY, names.ANY]
        )


def _wanted(components: Iterable[Component], tables: Tables) -> Iterator[str]:
    """The names of products that are looked for: those of the lists' names, and those that packages may have."""
    for one in components:
        for name in one.names:
            parts = names.components(format_name(name) or names.PREFIX)
            if len(parts) > names.PRODUCT:
                yield parts[names.PRODUCT]
        try:
            purl = package_urls.read(one.purl)
        except FormFault:
            continue
        settled = tables.find(purl)
        if settled is not None:
            yield from (product.name for product in settled.line.products())
        if settled is None or settled.line.choices:
            yield from forms_of(purl).all()


def wanted_names(machines: Iterable[Machine], tables: Tables) -> set[str]:
    """The names of products that are looked for in a dictionary, so that packages of machines get names."""
    components = dict.fromkeys(one for machine in machines for one in machine.components if one.purl)
    return set(_wanted(components, tables))


@dataclass
class UnnamedPackages:
    """For each machine the packages that have no name, and those that only perhaps have one."""

    unknown: dict[str, list[Component]]
    supposed: dict[str, list[tuple[Component, tuple[str, ...]]]]

    def report(self, messages: Messages, hint: str) -> None:
        """Remarks how many there are; `hint` is the command that lists them."""
        for found, what in (
            (self.unknown, "no candidate for a CPE name"),
            (self.supposed, "candidates of the dictionary alone"),
        ):
            count = sum(map(len, found.values()))
            if count:
                packages, machines = format_count(count, "package"), format_count(len(found), "machine")
                messages.hint(f"{what}: {packages}, on {machines}", hint)

    def leave_out(self, messages: Messages) -> None:
        """Reports each package without a name."""
        for machine, packages in self.unknown.items():
            for one in packages:
                messages.leave_out(f"{machine} {one.label()}", NO_NAME)

    def json(self, machine: str) -> dict[str, Json]:
        """The packages of a machine that have none or only perhaps one, as the JSON of a scan has them."""
        supposed = [{"id": one.label(), "lines": list(lines)} for one, lines in self.supposed.get(machine, ())]
        unknown = [one.label() for one in self.unknown.get(machine, ())]
        found: dict[str, Json] = {"candidates": supposed, "withoutCandidates": unknown}
        return {key: value for key, value in found.items() if value}

    def lines(self) -> Iterator[str]:
        """A line for each, as unlisted.sh writes it."""
        for machine in dict.fromkeys((*self.unknown, *self.supposed)):
            for one, lines in self.supposed.get(machine, ()):
                yield f"perhaps {machine} {one.label()} names.txt: {' | '.join(lines)}"
            for one in self.unknown.get(machine, ()):
                yield f"no candidate {machine} {one.label()}"


def read_names(paths: Iterable[str], machines: Iterable[Machine]) -> Tables:
    """The tables for these machines: those of the user, and names.txt if there is a package URL."""
    return read_tables(paths, any(one.purl for machine in machines for one in machine.components))


def name_machines(machines: Sequence[Machine], tables: Tables, records: Iterable[str]) -> UnnamedPackages:
    """Adds names to the components that have a package URL."""
    naming = PackageNamer(tables, machines, records)
    unnamed = UnnamedPackages({}, {})
    for machine in machines:
        for place, one in enumerate(machine.components):
            if not one.purl:
                continue
            named = naming.names_of(one)
            if named.names or named.supposed:
                machine.components[place] = _with_names(one, named)
            # (a component that the list names is an item of that name at least)
            if named.is_unknown and not one.names:
                unnamed.unknown.setdefault(machine.name, []).append(one)
            elif named.lines:
                unnamed.supposed.setdefault(machine.name, []).append((one, named.lines))
    return unnamed
