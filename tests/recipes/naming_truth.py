"""Packages whose product of NVD is known by hand, beside a dictionary: how many get the right name first.

`naming/truth.txt` has the packages, and `naming/dictionary.txt` the products; both say how their lines are read. Beside
these products are the names of the Official CPE Dictionary of which bench/official-names.txt is a sample. What names a
package is the recipes' own code (cpe_recipes/naming.py).
"""
import json
import sys
from collections import Counter
from dataclasses import dataclass, field
from pathlib import Path

HERE = Path(__file__).resolve().parent
sys.path.insert(0, str(HERE.parents[1] / "recipes"))

from cpe_recipes import names, package_urls  # noqa: E402
from cpe_recipes.components import Component, Machine  # noqa: E402
from cpe_recipes.lists import kinds  # noqa: E402
from cpe_recipes.names_table import Product, Tables, read_tables  # noqa: E402
from cpe_recipes.package_names import PackageNamer  # noqa: E402

RIGHT, WRONG, NONE = "right first", "wrong first", "none"


@dataclass(frozen=True)
class Package:
    """A package, and the products by which NVD may know it; none if NVD has none."""

    purl: str
    products: tuple[str, ...]

    def component(self):
        return Component(self.purl, (), kinds.of_purl(self.purl), self.purl)

    def without_source(self):
        """The same package in a list that doesn't name its source package."""
        front, _, query = self.purl.partition("?")
        kept = "&".join(pair for pair in query.split("&") if pair and not pair.startswith("upstream="))
        return Package(f"{front}?{kept}" if kept else front, self.products)


@dataclass
class Counted:
    """How many packages have each outcome, and those that aren't right, with their first name."""

    outcomes: Counter = field(default_factory=Counter)
    others: list = field(default_factory=list)

    def share(self):
        count = sum(self.outcomes.values())
        return self.outcomes[RIGHT] / count if count else 0.0

    def words(self):
        count = sum(self.outcomes.values())
        told = ", ".join(f"{self.outcomes[outcome]} {outcome}" for outcome in (RIGHT, WRONG, NONE))
        return f"{count} packages: {told}; {self.share():.1%} right"


def packages():
    lines = (line.split() for line in _lines("truth.txt"))
    return [Package(purl, () if products == "-" else tuple(products.split(","))) for purl, products in lines]


def records():
    """The dictionary as the records that dictionary.sh makes."""
    for line in _lines("dictionary.txt"):
        front, _, successor = line.partition(" => ")
        product, target, *versions = front.split()
        for version in versions:
            name = _name(product, version, target)
            yield json.dumps({"do": "entry", "name": name}, separators=(",", ":"))
            if successor:
                told = {"do": "deprecate", "name": name, "kind": "NAME_CORRECTION", "successors": [_name(successor, version, target)]}
                yield json.dumps({**told, "date": "2024-01-02"}, separators=(",", ":"))
    for name in (HERE.parents[1] / "bench" / "official-names.txt").read_text(encoding="utf-8").splitlines():
        yield json.dumps({"do": "entry", "name": name}, separators=(",", ":"))


def count(some, tables, dictionary):
    """The outcome of these packages by these tables and this dictionary."""
    counted = Counted()
    for one, named in _named(some, tables, dictionary):
        first = _first(named)
        outcome = RIGHT if first in (one.products or ("",)) else WRONG if first else NONE
        counted.outcomes[outcome] += 1
        if outcome != RIGHT:
            counted.others.append((one, first))
    return counted


def of_several(some, tables, dictionary):
    """The packages for which the dictionary has several products."""
    return [one for one, named in _named(some, tables, dictionary) if len(named.lines) > 1]


def _named(some, tables, dictionary):
    """The packages, each with its names."""
    machine = Machine("m", [one.component() for one in some])
    naming = PackageNamer(tables, [machine], dictionary)
    return [(one, naming.names_of(one.component())) for one in some]


def is_listed(package, tables):
    """Whether a table has a line for the package."""
    return tables.find(package_urls.read(package.purl)) is not None


def tables_that_come_along():
    return read_tables([])


NO_TABLES = Tables([])


def _first(named):
    """The first product, as truth.txt spells it; empty if there is none."""
    found = named.names or tuple(one.name for one in named.supposed)
    return Product(*names.components(found[0])[: names.PRODUCT + 1]).words() if found else ""


def _name(product, version, target):
    parts = product.split(":") if product.startswith(("o:", "h:")) else ["a", *product.split(":")]
    spelled = [target if target == names.ANY else names.quote(target), names.ANY, names.ANY]
    return names.join([*parts, names.quote(version), *[names.ANY] * 4, *spelled])


def _lines(name):
    text = (HERE / "naming" / name).read_text(encoding="utf-8")
    return [line for line in text.splitlines() if line and not line.startswith("#")]
