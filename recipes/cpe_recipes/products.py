"""Cuts a feed to the advisories that may concern a product of the machines.

    sh products.sh --machines FILE [--records FILE] [--matches FILE].. [--names FILE] [--partial] [--large] [FILE..] > page

`cpe` takes at most 100,000 statements, and NVD's feeds (JSON of /rest/json/cves/2.0) have more advisories. This recipe
writes the advisories that could be other than FALSE on a machine, as one page of the same form, for `advisories.sh` or
`scan.py`.

The recipe reads the vulnerable matches of an advisory. It reads all matches if the advisory has a vulnerable operating
system, firmware or hardware (concern.py). An advisory is kept if one of the matches that are read

- has the vendor and product of an item, or of a name to which the dictionary of --records leads, or may lead, the item;
  or
- has a vendor or product with a special, or is no name; or
- has the product of an item whose vendor is a pattern, or the vendor of an item whose product is a pattern.

An advisory is kept too if the match feed (--matches) lists an item of a machine for one of its matches. An advisory is
also kept if `advisories.sh` has to report something, such as that the advisory isn't analysed. All other advisories
name products that the machines don't have. These advisories are FALSE on every machine; a remark counts them. A feed
with missing pages is refused; with --partial the missing pages are only reported. --large accepts pages that unpack to
any size (unpack.py).
"""
from __future__ import annotations

from collections import Counter
from collections.abc import Collection, Iterable, Sequence
from dataclasses import dataclass

from . import completeness, hints, latest_records, matches, names
from .advisories import KINDS
from .advisory_states import States, id_of, is_rejected
from .arguments import ONE, read_arguments
from .concern import Concern, Named, concern_of, named_of
from .console import Fatal, Messages, Output
from .feeds import Json, Page, record_text
from .leads import Leads, leads_of, read_entries
from .machines import read_machines
from .near_products import Product, key_of
from .package_names import name_machines, read_names
from .portions import MOST
from .program import Program
from .unlisted import deprecated_names, report_items, successors

USAGE = "products.sh --machines FILE [--records FILE] [--matches FILE].. [--names FILE] [--partial] [--large] [FILE..]"


def run(words: Sequence[str]) -> int:
    arguments = read_arguments(
        words, {"--machines": ONE, "--records": ONE, "--matches": ONE, "--names": ONE, **completeness.OPTIONS}, USAGE
    )
    machines_path = arguments.one("--machines")
    if machines_path is None:
        raise Fatal(f"usage: {USAGE}")
    messages, output, program = Messages(), Output(), Program()
    records, machines = read_entries(arguments.many("--records")), read_machines(machines_path, messages)
    unnamed = name_machines(machines, read_names(arguments.many("--names"), machines), records)
    if arguments.has("--records"):
        unnamed.report(messages, hints.unlisted_command(arguments))
    else:
        # (which products these may be, the dictionary alone knows)
        unnamed.leave_out(messages)
    items = dict.fromkeys(name for machine in machines for name in machine.asked_names())
    leads = leads_of(program, records, items, deprecated_names(records))
    report_items(machines, leads, messages)
    wanted = products_of(leads, items, records)
    if not wanted:
        raise Fatal("no machine has an item")
    feed = latest_records.advisories(
        completeness.pages(arguments.files, messages, KINDS, reading=completeness.ReadingPolicy.of(arguments)), messages
    )
    matched = arguments.many("--matches")
    pages = (
        completeness.pages(
            matched, messages, matches.KINDS, strict=True, reading=completeness.ReadingPolicy.of(arguments)
        )
        if matched
        else ()
    )
    cut = Cut.of(feed, wanted, matches.find_listing_matches(pages, wanted))
    kept = [record for page in cut.pages for record in page.records if not is_rejected(record)]
    # (advisories that aren't analysed stay in the page, so that its reader can report them)
    states = States()
    states.sort([Page("", KINDS[0], kept)])
    count = len(kept) - len(states.unanalysed)
    messages.remark(
        f"{count} of {sum(len(page.records) for page in feed)} advisories may concern a product of these machines"
    )
    if count > MOST.statements:
        messages.remark(f"these are more than cpe takes at once, {MOST.statements:,}; scan.py asks them in portions")
    states.report(messages)
    output.lines(page_of([record_text(record) for record in kept]))
    output.end()
    return messages.status()


def page_of(records: Sequence[str]) -> list[str]:
    """A page of NVD's form of these advisories, which is all of its feed."""
    count = len(records)
    front = f'"resultsPerPage":{count},"startIndex":0,"totalResults":{count},"format":"NVD_CVE","version":"2.0"'
    return [f'{{{front},"vulnerabilities":[', *with_commas(records), "]}"]


def with_commas(records: Sequence[str]) -> list[str]:
    return [f"{record}," for record in records[:-1]] + list(records[-1:])


def products_of(leads: Leads, items: Iterable[str], records: Sequence[str]) -> set[Product]:
    """The products of these items, of the names to which they lead or may lead, and of the old names that lead to the
    same. As keys, a vendor or product that is a pattern is open."""
    found: set[Product] = set()
    goes_on = successors(records, leads)
    for item in items:
        if item not in leads.refused:
            lead = leads.found[item]
            others = () if lead.is_entry else goes_on.get(names.product_of(lead.name), ())
            found.update([*map(names.product_of, (lead.name, *lead.ends)), *others])
    before = (leads.found[name] for name in deprecated_names(records) if name in leads.found)
    found |= {
        names.product_of(lead.name) for lead in before if any(names.product_of(end) in found for end in lead.ends)
    }
    return set(map(key_of, found))


@dataclass(frozen=True)
class Cut:
    """The pages with the advisories that are converted; and the ids of the others, each with whether all its names are
    of operating systems."""

    pages: list[Page]
    elsewhere: dict[str, bool]

    @staticmethod
    def of(pages: Sequence[Page], wanted: Collection[Product], listing: Collection[str] = ()) -> Cut:
        """Cuts pages of which each advisory counts. `listing` are the ids of matches that list items of the wanted
        products."""
        ids = Counter(id for page in pages for record in page.records if (id := id_of(record)) is not None)
        concerns = [[concern_of(record) for record in page.records] for page in pages]
        # (such items have the names of these matches too, whoever asks for them)
        named = (
            (one for page, of in zip(pages, concerns) for pair in zip(page.records, of) for one in _named(*pair))
            if listing
            else ()
        )
        wanted = {*wanted, *(product for key, product in named if key in listing)}
        kept, elsewhere = [], {}
        for page, of_page in zip(pages, concerns):
            places = []
            for place, (record, concern) in enumerate(zip(page.records, of_page)):
                id = id_of(record)
                # (if an id has several records, it isn't known which of them counts; this is reported later)
                if concern is None or id is None or ids[id] > 1 or concern.meets(wanted, listing):
                    places.append(place)
                else:
                    elsewhere[id] = concern.is_of_systems()
            kept.append(page.only(places))
        return Cut([page for page in kept if page.records], elsewhere)

    def count(self) -> int:
        return sum(len(page.records) for page in self.pages)


def _named(record: Json, concern: Concern | None) -> Named:
    """The matches of an advisory that have bounds, plain or not."""
    return named_of(record) if concern is None else concern.named
