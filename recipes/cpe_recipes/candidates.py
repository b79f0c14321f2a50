"""Which products of a dictionary a package may be: the products that have the package's name, in one of its forms.

First the package's own name, the name of its source package and the last parts of its path are looked up. Two parts of
a name are removed before: one that only names the language (`python3-`, `node-`, `golang-github-`..), and the vendor at
the beginning (`acme-agent`). If the dictionary has none of these names, looser forms are looked up. They have no
version at the end (tomcat9), no `lib` at the beginning, and no word for a part of the source package (`-dev`,
`-common`..). Separators between words are ignored: NVD writes some names with `_`, some with `-`, and others without
one.

A product that is written for something else alone (`target_sw`) is left out: a module of npm is no plugin of WordPress.
The remaining products are ordered. First are those with an entry of the package's own version line. Then the form that
found them decides, then whether they are written for the package's language, then how many entries they have.
"""
from __future__ import annotations

import re
from collections.abc import Iterable, Iterator
from dataclasses import dataclass

from . import names
from .names_table import Product
from .package_urls import PackageUrl
from .product_index import Front, IndexedProduct, ProductIndex, front_of, squeeze
from .readings import DISTRIBUTIONS, readings

# What NVD writes as target_sw of packages of a kind.
TARGETS = {"pypi": "python", "npm": "node.js", "gem": "ruby", "golang": "go", "cargo": "rust"}
# Fronts by which distributions say of which language a package is, and its target_sw; NVD has none for some.
_FRONTS = (
    ("python3-", "python"),
    ("python2-", "python"),
    ("python-", "python"),
    ("py3-", "python"),
    ("pypy3-", "python"),
    ("node-", "node.js"),
    ("nodejs-", "node.js"),
    ("npm-", "node.js"),
    ("libjs-", "node.js"),
    ("ruby-", "ruby"),
    ("rubygem-", "ruby"),
    ("rubygems-", "ruby"),
    ("golang-", "go"),
    ("rust-", "rust"),
    ("librust-", "rust"),
    ("perl-", ""),
    ("php-", ""),
    ("r-cran-", ""),
)
_SAYS_GO = frozenset({"go", "golang"})
# The separator between such a prefix and the name of a Go module.
_HOSTS = re.compile(r"^(?:github|gitlab|gopkg|golang|google|k8s|bitbucket|go)-(?:com-|org-|in-)?")
# Other things that a product may be written for alone, which is then none of a distribution's packages.
_ELSEWHERE = frozenset(
    "wordpress drupal joomla\\! joomla magento jenkins typo3 moodle android iphone_os ipados shopify prestashop confluence jira".split()
)
_OF_LANGUAGES = frozenset(TARGETS.values())
_PARTS = re.compile(
    r"(?:[-_.](?:dev|devel|dbg|dbgsym|debuginfo|doc|docs|common|data|bin|libs?|utils?|tools?|core|base|minimal|runtime|server|client|"
    r"clients|extra|extras|plugins?|modules?|static|headless|jre|jdk|daemon|locales?|lang|langpack-[a-z]+|filesystem|gir[0-9.]*|perl|"
    r"java|ruby|dev-bin|compat|full|light|all|main|openrc|systemd|bash-completion|fonts?|themes?|api|impl|parent))+"
)
_NUMBERS = re.compile(r"[-_.]?v?[0-9]+(?:\.[0-9]+)*[a-z]?")
_T64 = re.compile(r"t64|v5")


@dataclass(frozen=True, slots=True)
class Candidate:
    """A product that a package may be, and the version that it has there."""

    product: Product
    version: str


@dataclass(frozen=True)
class Forms:
    """The names under which a package may be in a dictionary: as they are, and looser ones; and those of which the name
    begins with the vendor, as of acme-agent, each with that."""

    near: tuple[str, ...]
    loose: tuple[str, ...]
    owned: tuple[tuple[str, str], ...] = ()

    def all(self) -> Iterator[str]:
        """The names of products of all forms."""
        yield from self.near
        yield from self.loose
        yield from (name for _, name in self.owned)


def forms_of(purl: PackageUrl) -> Forms:
    """The names of products to look for, each once and in order, spelled as in CPE names."""
    near = list(dict.fromkeys(_near(purl)))
    loose = [form for form in dict.fromkeys(form for text in near for form in _loose(text)) if form not in near]
    owned = dict.fromkeys(pair for text in (*near, *loose) for pair in _owned(text))
    return Forms(tuple(_spelled(near)), tuple(_spelled(loose)), tuple(owned))


def _owned(text: str) -> Iterator[tuple[str, str]]:
    """The vendors and the products that a name may be made of."""
    for place in (place for place, one in enumerate(text) if one in "-_" and 0 < place < len(text) - 1):
        for name in _spelled([text[place + 1 :]]):
            yield names.quote(text[:place]), name


def _near(purl: PackageUrl) -> Iterator[str]:
    own = purl.package
    for text in (purl.source.name if purl.source else "", own.name):
        if text:
            yield text
            yield from _without_front(text)
    if own.type not in DISTRIBUTIONS and own.namespace:
        # (such as angular of @angular/core, tomcat of org.apache.tomcat, and consul of github.com/hashicorp/consul/api)
        last = re.split(r"[./]" if own.type == "maven" else "/", own.namespace)[-1].removeprefix("@")
        if own.type == "golang" and own.namespace.count("/") < 2:
            # (the last part of host/owner is who wrote it)
            return
        yield last


def _front_of(text: str) -> tuple[str, str]:
    """The prefix of a distribution's package that names its language, and its target_sw; empty if there is none."""
    return next((one for one in _FRONTS if text.startswith(one[0])), ("", ""))


def _without_front(text: str) -> Iterator[str]:
    """The name without the part that names the language; for a Go module, all names that it may have."""
    front, _ = _front_of(text)
    rest = text[len(front) :]
    if front == "golang-":
        parts = _HOSTS.sub("", rest.removesuffix("-dev"), count=1).split("-")
        # (the host is followed by the author and the name, without a mark between them: prometheus-client-golang)
        found = ("-".join(parts[place:]) for place in range(min(1, len(parts) - 1), len(parts)))
        yield from (one for one in found if one not in _SAYS_GO)
    elif front:
        yield rest.removesuffix("-dev") if front in ("rust-", "librust-") else rest


def _loose(text: str) -> Iterator[str]:
    """Looser forms of a name, the nearest first."""
    bare = _T64.sub("", text) if _T64.search(text[-3:]) else text
    waiting, seen = [bare], {text}
    while waiting:
        one = waiting.pop(0)
        if one not in seen and len(one) > 1:
            seen.add(one)
            yield one
        for shorter in (_cut(_PARTS, one), _cut(_NUMBERS, one), one.removeprefix("lib") if len(one) > 5 else one):
            if shorter != one and shorter not in seen and shorter not in waiting and len(shorter) > 1:
                waiting.append(shorter)


def _cut(pattern: re.Pattern[str], text: str) -> str:
    """The text without what the pattern has at its end."""
    found = next((match for match in pattern.finditer(text) if match.end() == len(text)), None)
    return text[: found.start()] if found else text


def _spelled(texts: Iterable[str]) -> Iterator[str]:
    """The texts as components."""
    return iter(dict.fromkeys(names.quote(text) for text in texts if text != names.NA))


def target_of(purl: PackageUrl) -> str:
    """The target_sw that NVD writes for such a package; empty if it isn't known."""
    own = purl.package
    if own.type == "maven" and ("jenkins-ci.plugins" in own.namespace or "jenkins.plugins" in own.namespace):
        return "jenkins"
    if own.type == "composer":
        return {"wpackagist-plugin": "wordpress", "wpackagist-theme": "wordpress", "drupal": "drupal"}.get(
            own.namespace, ""
        )
    if own.type in DISTRIBUTIONS:
        return _front_of(own.name)[1]
    return TARGETS.get(own.type, "")


def _others_of(purl: PackageUrl) -> frozenset[str]:
    """What a product that the package may be isn't written for alone."""
    own = purl.package
    if own.type in DISTRIBUTIONS and not _front_of(own.name)[0]:
        # (a program may be written in any language; but what is in Rust alone is a library, and has its front)
        return _ELSEWHERE | {TARGETS["cargo"]}
    return _ELSEWHERE | _OF_LANGUAGES


def _is_for(listed: IndexedProduct, others: frozenset[str], target: str) -> bool:
    """Whether a product may be written for this target."""
    said = listed.targets - {names.ANY, names.NA}
    return said < listed.targets or target in listed.targets or not said <= others


def candidates_of(purl: PackageUrl, index: ProductIndex) -> list[Candidate]:
    """The products of a dictionary that a package may be, the likeliest first."""
    target, kind, forms, others = target_of(purl), purl.package.type, forms_of(purl), _others_of(purl)
    front = line_of(purl.version, kind)
    source_front = line_of(purl.source_version, kind) if purl.source_version else front
    source = squeeze(names.quote(purl.source.name)) if purl.source else ""
    near = [
        [*map(index.of, forms.near), *(_of_vendor(index, *pair) for pair in forms.owned)],
        [*map(index.of, forms.loose)],
    ]
    for tier in near:
        found: dict[Product, tuple[_Rank, Candidate]] = {}
        for place, products in enumerate(tier):
            for listed in products:
                if listed.product in found or not _is_for(listed, others, target):
                    continue
                is_source = squeeze(listed.product.name) == source
                is_of_line = listed.has_line_of(source_front if is_source else front)
                version = purl.source_version if is_source and purl.source_version else purl.version
                rank = (
                    not is_of_line,
                    place,
                    target not in listed.targets,
                    -_nearness(listed, purl),
                    -listed.count,
                    listed.product.vendor,
                )
                found[listed.product] = rank, Candidate(listed.product, version)
        if found:
            return [candidate for _, candidate in sorted(found.values(), key=lambda one: one[0])]
    return []


# By what candidates are ordered.
_Rank = tuple[bool, int, bool, int, int, str]


def _of_vendor(index: ProductIndex, vendor: str, name: str) -> list[IndexedProduct]:
    """The products of this name and vendor."""
    return [listed for listed in index.of(name) if listed.product.vendor == vendor]


def _nearness(listed: IndexedProduct, purl: PackageUrl) -> int:
    """How near a vendor is to a package: its namespace names it, or its product is called as it is."""
    vendor = listed.product.vendor
    segments = set(re.split(r"[./@_-]+", purl.package.namespace)) if purl.package.type not in DISTRIBUTIONS else set()
    if vendor in segments or vendor.removesuffix("_project") in segments or vendor.removesuffix("project") in segments:
        return 2
    return (
        1
        if vendor.removesuffix("_project") == listed.product.name
        or vendor.removesuffix("project") == listed.product.name
        else 0
    )


def line_of(version: str, kind: str) -> Front:
    """The line of a package's version, as its upstream writes it."""
    if not version:
        return ()
    _, meant = readings(version, "", kind)
    return front_of(meant[0].text) if meant else ()
