"""Lists the items without an entry in the dictionary, and the packages without a sure name.

    sh unlisted.sh RECORDS MACHINES [--names FILE]
    sh unlisted.sh --store FOLDER | --dictionary FILE.. | --records FILE.. --machines FILE | --lists FILE.. [--names FILE] [--partial] [--large]

RECORDS are those of a dictionary. MACHINES has a line for each machine: its name, and the names of its items. The
options are those of scan.py. The recipe writes

    not in the dictionary MACHINE NAME [now called VENDOR:PRODUCT..]
    under a removed name MACHINE NAME
    perhaps MACHINE PACKAGE names.txt: LINE [| LINE..]
    no candidate MACHINE PACKAGE

If a package only has candidates from the dictionary, put LINE into a table for --names to decide which product the
package is (package_names.py).

An item without an entry has no chain, so an advisory with another name of the product doesn't find the item. If entries
of the item's product are deprecated and lead to other products, these products are written after `now called`. A
component with several names isn't listed if one of the names has an entry. An item under a removed name has no end, so
an advisory finds it only by this name. If a name can't be an item, it is reported, and the status is 1.
"""
from __future__ import annotations

import json
from collections.abc import Collection, Iterable, Iterator, Mapping, Sequence

from . import completeness, dictionary, names
from .arguments import MANY, ONE, Arguments, read_arguments
from .components import Machine
from .console import Fatal, Messages, Output, escape
from .leads import Lead, Leads, leads_of, read_entries
from .machines import read_lists, read_machines
from .package_names import name_machines, read_names
from .program import Program

USAGE = (
    "unlisted.sh RECORDS MACHINES [--names FILE], or unlisted.sh --store FOLDER | --dictionary FILE.. | --records FILE.. "
    "--machines FILE | --lists FILE.. [--names FILE] [--partial] [--large]"
)
OPTIONS = {
    "--store": ONE,
    "--dictionary": MANY,
    "--records": MANY,
    "--machines": ONE,
    "--lists": MANY,
    "--names": ONE,
    **completeness.OPTIONS,
}
Product = tuple[str, str]


def run(words: Sequence[str]) -> int:
    arguments = read_arguments(words, OPTIONS, USAGE)
    is_short = len(arguments.files) == 2 and not any(
        map(arguments.has, ("--store", "--dictionary", "--records", "--machines", "--lists"))
    )
    feeds = arguments.has("--dictionary") or arguments.has("--records")
    is_long = (
        not arguments.files
        and feeds != arguments.has("--store")
        and arguments.has("--machines") != arguments.has("--lists")
    )
    if not is_short and not is_long:
        raise Fatal(f"usage: {USAGE}")
    messages, output, program = Messages(), Output(), Program()
    path = arguments.one("--machines") if is_long else arguments.files[1]
    machines = read_lists(arguments.many("--lists"), messages) if path is None else read_machines(path, messages)
    tables = read_names(arguments.many("--names"), machines)
    if arguments.has("--store"):
        # (what reads a store for a scan needs this module itself)
        from .store_reader import StoreReader

        with StoreReader(
            str(arguments.only("--store")), program, messages, completeness.ReadingPolicy.of(arguments)
        ).open() as store:
            records, unnamed = store.dictionary(machines, tables)
    else:
        records = _records(arguments, program, messages) if is_long else read_entries(arguments.files[:1])
        unnamed = name_machines(machines, tables, records)
    items = dict.fromkeys(item for machine in machines for item in machine.asked_names())
    leads = leads_of(program, records, items, ())
    report_items(machines, leads, messages)
    output.lines(list(find_unlisted(machines, leads, successors_of(program, records, leads.found.values()))))
    output.lines(unnamed.lines())
    output.end(escape)
    return messages.status()


def _records(arguments: Arguments, program: Program, messages: Messages) -> list[str]:
    """The records of the dictionary that is given in any form."""
    records = read_entries(arguments.many("--records"))
    if arguments.has("--dictionary"):
        candidates = dictionary.candidates_of(
            arguments.many("--dictionary"), messages, strict=True, reading=completeness.ReadingPolicy.of(arguments)
        )
        records += program.accept_entries(candidates, messages)
    return records


def report_items(machines: Iterable[Machine], leads: Leads, messages: Messages) -> None:
    """What is no item is said, and which machines have none."""
    for machine in machines:
        for item in machine.asked_names():
            if item in leads.refused:
                messages.leave_out(f"{machine.name} {item}", leads.refused[item])
        if all(item in leads.refused for item in machine.own_names()):
            messages.leave_out(machine.name, "no items")


def deprecated_names(records: Iterable[str]) -> list[str]:
    """The names that these records deprecate, as they were written."""
    found: dict[str, None] = {}
    for line in records:
        if '"deprecate"' in line or '"amend"' in line:
            try:
                record = json.loads(line)
            except (ValueError, RecursionError):
                continue
            if (
                isinstance(record, dict)
                and record.get("do") in ("deprecate", "amend")
                and isinstance(record.get("name"), str)
            ):
                found[record["name"]] = None
    return list(found)


def successors(records: Iterable[str], leads: Leads) -> dict[Product, list[Product]]:
    """The products to which entries of a product lead that are deprecated; its own is none of them."""
    return _successors(deprecated_names(records), leads)


def _successors(old: Iterable[str], leads: Leads) -> dict[Product, list[Product]]:
    found: dict[Product, dict[Product, None]] = {}
    for name in old:
        lead = leads.found.get(name)
        if lead is not None:
            product = names.product_of(lead.name)
            ends = dict.fromkeys(map(names.product_of, lead.ends))
            found.setdefault(product, {}).update({end: None for end in ends if end != product})
    return {product: list(ends) for product, ends in found.items()}


def successors_of(program: Program, records: Sequence[str], leads: Iterable[Lead]) -> dict[Product, list[Product]]:
    """The same, of the products alone of those names that no entry has: a dictionary may have many deprecations."""
    wanted = {names.product_of(lead.name) for lead in leads if not lead.is_entry}
    old = [name for name in deprecated_names(records) if _may_be_of(name, wanted)] if wanted else []
    return _successors(old, leads_of(program, records, (), old)) if old else {}


def _may_be_of(name: str, products: Collection[Product]) -> bool:
    """Whether a name as it was written may be of one of these products."""
    parts = names.components(name.lower()) if name.startswith(names.PREFIX) else []
    return len(parts) != 11 or (parts[names.VENDOR], parts[names.PRODUCT]) in products


def supposed_names(lead: Lead, successors: Mapping[Product, Sequence[Product]]) -> list[str]:
    """The names that an item without an entry may have under other products."""
    if lead.is_entry:
        return []
    found = []
    for product in successors.get(names.product_of(lead.name), ()):
        parts = names.components(lead.name)
        parts[names.VENDOR], parts[names.PRODUCT] = product
        found.append(names.join(parts))
    return found


def describe_successors(lead: Lead, successors: Mapping[Product, Sequence[Product]]) -> str:
    """The vendors and products to which entries of a name's product lead, in words; empty if there are none."""
    found = successors.get(names.product_of(lead.name))
    return f" now called {' '.join(map(':'.join, found))}" if found else ""


def find_unlisted(
    machines: Iterable[Machine], leads: Leads, successors: Mapping[Product, Sequence[Product]]
) -> Iterator[str]:
    for machine in machines:
        told: dict[str, None] = {}
        for one in machine.all():
            known = {name: leads.found[name] for name in one.names if name not in leads.refused}
            # (of several names one that is an entry is enough)
            is_listed = any(lead.is_entry for lead in known.values())
            for name, lead in known.items():
                if lead.is_removed():
                    told[f"under a removed name {machine.name} {name}"] = None
                elif not is_listed:
                    told[f"not in the dictionary {machine.name} {name}{describe_successors(lead, successors)}"] = None
        yield from told
