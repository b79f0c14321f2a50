"""Cases of dictionaries (NIST IR 7697): which names are entries, look-ups, searches, deprecations and their chains."""

import functools
from collections.abc import Iterator

from .cases import ATTRIBUTES, FREE, Case, Group, Json, fs

REPORT = "7697"
KINDS = ("NAME_CORRECTION", "ADDITIONAL_INFORMATION")
REST = tuple(it for it in ATTRIBUTES if it not in ("part", "vendor", "product", "version"))


def of(product: str) -> str:
    """The formatted string of version 1 of a product."""
    return fs(product=product, version="1")


def entry(product: str, *successors: str, kind: str = "NAME_CORRECTION") -> Json:
    """An entry; with successors it is deprecated by them."""
    if not successors:
        return {"name": of(product)}
    return {"name": of(product), "deprecation": {"kind": kind, "successors": [of(it) for it in successors]}}


def removed(product: str) -> Json:
    return {"name": of(product), "deprecation": {"kind": "NAME_REMOVAL", "successors": []}}


def identifier(text: str, accepted: bool, why: str) -> Case:
    return Case({"text": text}, {"accepted": accepted}, why)


def chain(entries: list[Json], ask: str, ends: list[str], why: str) -> Case:
    return Case({"entries": entries, "ask": of(ask)}, {"ends": sorted(of(it) for it in ends)}, why)


def lookup(entries: list[Json], ask: str, state: str, why: str) -> Case:
    return Case({"entries": entries, "ask": ask}, {"state": state}, why)


def search(names: list[str], ask: str, found: list[str], why: str) -> Case:
    return Case({"entries": [{"name": it} for it in names], "ask": ask}, {"found": sorted(found)}, why)


def deprecate(entries: list[Json], product: str, kind: str, successors: list[str], accepted: bool, why: str) -> Case:
    asked = {"name": of(product), "kind": kind, "successors": [of(it) for it in successors]}
    return Case({"entries": entries, "deprecate": asked}, {"accepted": accepted}, why)


def identifiers() -> Iterator[Case]:
    for part in "aoh":
        yield identifier(fs(part=part, version="1"), True, f"the part {part}")
    for it in REST:
        value = "en" if it == "language" else "x"
        yield identifier(fs(version="1", **{it: value}), True, f"a text as {it}")
    for it in REST:
        yield identifier(fs(version="1", **{it: "-"}), True, f"NA as {it}")
    everything = {it: "en" if it == "language" else "x" for it in REST}
    yield identifier(fs(version="1", **everything), True, "each attribute is a text")
    for it in ("part", "vendor", "product"):
        yield identifier(fs(version="1", **{it: "*"}), False, f"{it} is ANY")
    for one, other in (("part", "vendor"), ("vendor", "product"), ("part", "product")):
        yield identifier(fs(version="1", **{one: "*", other: "*"}), False, f"{one} and {other} are ANY")
    yield identifier("cpe:2.3:*:*:*:*:*:*:*:*:*:*:*", False, "each attribute is ANY")


def own_identifiers() -> Iterator[Case]:
    for it in ("part", "vendor", "product"):
        yield identifier(fs(version="1", **{it: "-"}), False, f"{it} is NA")
    yield identifier(fs(), True, "the version is ANY")
    yield identifier(fs(version="-"), True, "the version is NA")
    for it in FREE:
        for value in ("x*", "*x", "x?", "?x?"):
            yield identifier(fs(**({"version": "1"} | {it: value})), False, f"specials in {it}: {value}")
    yield identifier(fs(version=r"1\*"), True, "a quoted asterisk is no special")
    yield identifier(fs(version=r"1\?"), True, "a quoted question mark is no special")


def lookups() -> Iterator[Case]:
    yield lookup([entry("p")], of("p"), "active", "an entry that isn't deprecated")
    yield lookup([entry("p")], of("q"), "absent", "a name that no entry has")
    yield lookup([], of("p"), "absent", "an empty dictionary")
    for kind in KINDS:
        yield lookup([entry("p", "q", kind=kind), entry("q")], of("p"), kind, "an entry that is deprecated")
        yield lookup([entry("p", "q", kind=kind), entry("q")], of("q"), "active", "an entry by which another is deprecated")
    yield lookup([removed("p")], of("p"), "NAME_REMOVAL", "an entry that was removed")
    yield lookup([entry("p")], of("P"), "active", "letter case doesn't matter")
    for it in ATTRIBUTES[3:]:
        other = "en" if it == "language" else "2"
        yield lookup([entry("p")], fs(**({"version": "1"} | {it: other})), "absent", f"the name of the entry has another {it}")
    yield lookup([entry("p")], fs(product="p"), "absent", "a name that covers an entry is not its name")
    yield lookup([{"name": fs(version="1", update="sp1")}], of("p"), "absent", "a name that covers an entry of an update is not its name")
    yield lookup([{"name": fs(version="1", update="-")}], of("p"), "absent", "NA is not ANY")


def chains(kind: str) -> Iterator[Case]:
    """Chains in which each deprecation has this kind, or each other one the other."""
    other = KINDS[1 - KINDS.index(kind)]

    def to(product: str, *successors: str, by: str = kind) -> Json:
        return entry(product, *successors, kind=by)

    a, b, c, d, e = (entry(it) for it in "abcde")
    yield chain([to("a", "b"), b], "a", ["b"], f"{kind}: one step")
    yield chain([to("a", "b"), to("b", "c"), c], "a", ["c"], f"{kind}: two steps")
    yield chain([to("a", "b"), to("b", "c"), c], "b", ["c"], f"{kind}: asked from the middle")
    yield chain([to("a", "b"), to("b", "c"), to("c", "d"), d], "a", ["d"], f"{kind}: three steps")
    yield chain([to("a", "b"), to("b", "c", by=other), c], "a", ["c"], f"{kind}: a step of the other kind follows")
    yield chain([to("a", "b", "c"), b, c], "a", ["b", "c"], f"{kind}: two successors")
    yield chain([to("a", "b", "c", "d"), b, c, d], "a", ["b", "c", "d"], f"{kind}: three successors")
    yield chain([to("a", "b", "c"), to("b", "d"), c, d], "a", ["c", "d"], f"{kind}: the first of two successors is deprecated")
    yield chain([to("a", "b", "c"), b, to("c", "d"), d], "a", ["b", "d"], f"{kind}: the second of two successors is deprecated")
    yield chain([to("a", "b", "c"), to("b", "d"), to("c", "e"), d, e], "a", ["d", "e"], f"{kind}: both successors are deprecated")
    yield chain([to("a", "b", "c"), to("b", "d"), to("c", "d"), d], "a", ["d"], f"{kind}: two ways to one end")
    yield chain([to("a", "b", "c"), to("b", "c"), c], "a", ["c"], f"{kind}: a successor of a successor is a successor too")
    yield chain([to("a", "b", "c"), to("b", "d", "e"), c, d, e], "a", ["c", "d", "e"], f"{kind}: a successor has two successors")
    yield chain([c, b, to("b2", "c"), to("a", "b2", "b")], "a", ["b", "c"], f"{kind}: the entries are in another order")
    yield chain([to("a", "c"), to("b", "c"), c], "b", ["c"], f"{kind}: two entries lead to one")
    yield chain([to("a", "b"), b, to("c", "d"), d], "c", ["d"], f"{kind}: another chain is beside it")
    steps = [f"s{at}" for at in range(21)]
    line = [to(one, after) for one, after in zip(steps, steps[1:], strict=False)]
    yield chain([*line, entry(steps[-1])], steps[0], [steps[-1]], f"{kind}: twenty steps")
    yield chain([*line, entry(steps[-1])], steps[10], [steps[-1]], f"{kind}: ten steps, from the middle of twenty")
    many = [f"m{at}" for at in range(16)]
    yield chain([to("a", *many), *(entry(it) for it in many)], "a", many, f"{kind}: sixteen successors")


def plain_chains() -> Iterator[Case]:
    yield chain([entry("a")], "a", ["a"], "an entry that isn't deprecated is its own end")
    yield chain([entry("a", "b"), entry("b")], "b", ["b"], "an entry by which another is deprecated is its own end")
    yield chain([entry("a"), entry("b")], "a", ["a"], "other entries are no ends")


def own_chains() -> Iterator[Case]:
    a, b, c = (entry(it) for it in "abc")
    yield chain([], "a", ["a"], "a name that no entry has is its own end")
    yield chain([b], "a", ["a"], "a name that no entry has, beside another entry")
    yield chain([removed("a")], "a", [], "an entry that was removed has no end")
    yield chain([entry("a", "b"), removed("b")], "a", [], "a chain to an entry that was removed has no end")
    yield chain([entry("a", "b", "c"), removed("b"), c], "a", ["c"], "the end is the successor that wasn't removed")
    yield chain([entry("a", "b", "c"), b, removed("c")], "a", ["b"], "the end is the first successor; the second was removed")
    yield chain([entry("a", "b"), entry("b", "c"), removed("c")], "a", [], "two steps to an entry that was removed")
    yield chain([entry("a", "b", "c"), removed("b"), removed("c")], "a", [], "both successors were removed")


def searches() -> Iterator[Case]:
    one, two, sp, other = of("p"), fs(version="2"), fs(version="1", update="sp1"), of("q")
    system = fs(part="o", version="1")
    names = [one, two, sp, other, system]
    yield search(names, fs(), [one, two, sp], "each version of a product")
    yield search(names, fs(version="1"), [one, sp], "each update of a version")
    yield search(names, sp, [sp], "the name of one entry")
    yield search(names, fs(product="*"), [one, two, sp, other], "each product of a vendor")
    yield search(names, fs(part="*"), [one, two, sp, system], "each part")
    yield search(names, "cpe:2.3:*:*:*:*:*:*:*:*:*:*:*", names, "each entry")
    yield search(names, fs(vendor="w"), [], "a vendor that no entry has")
    yield search(names, fs(version="3"), [], "a version that no entry has")
    yield search(names, fs(product="P", version="1"), [one, sp], "letter case doesn't matter")
    yield search([], fs(), [], "an empty dictionary")
    yield search([one], fs(version="1", update="sp1"), [], "an entry that covers the name is not found")
    yield search([fs(version="-"), one], fs(version="-"), [fs(version="-")], "the version NA")
    yield search([fs(version="-"), one], fs(), [fs(version="-"), one], "ANY covers NA")
    texts = [of("openssl"), of("wolfssl"), of("openssh"), of("gnutls")]
    yield search(texts, of("*ssl"), texts[:2], "an asterisk at the beginning of the product")
    yield search(texts, of("open*"), [texts[0], texts[2]], "an asterisk at the end of the product")
    yield search(texts, of("*ss*"), texts[:3], "asterisks at both ends of the product")
    yield search(texts, of("*x*"), [], "no product has the text")
    numbers = [fs(version=it) for it in ("3.0", "3.1", "3.10", "30", "13.0")]
    yield search(numbers, fs(version="3.*"), numbers[:3], "an asterisk at the end of the version")
    yield search([numbers[0], numbers[2], numbers[4]], fs(version="3.1?"), [numbers[2]], "a question mark for one digit")
    yield search(numbers, fs(version="*.0"), [numbers[0], numbers[4]], "an asterisk at the beginning of the version")
    for it in REST:
        value, another = ("en", "de") if it == "language" else ("x", "y")
        pair = [fs(version="1", **{it: value}), fs(version="1", **{it: another})]
        yield search(pair, fs(version="1", **{it: value}), pair[:1], f"only the entry with the same {it}")
    for it in REST:
        value = "en" if it == "language" else "x"
        yield search([fs(version="1", **{it: value})], fs(version="1", **{it: "-"}), [], f"NA as {it} covers no text")


def own_deprecations() -> Iterator[Case]:
    """What docs/PROFILE.md narrows: which deprecations are accepted."""
    a, b, c = (entry(it) for it in "abc")
    for kind in KINDS:
        yield deprecate([a, b], "a", kind, ["b"], True, f"{kind} with a successor")
        yield deprecate([a, b, c], "a", kind, ["b", "c"], True, f"{kind} with two successors")
        yield deprecate([a, b], "a", kind, [], False, f"{kind} without a successor")
        yield deprecate([a, b], "a", kind, ["a"], False, f"{kind} by itself")
        yield deprecate([a, b], "a", kind, ["z"], False, f"{kind} by a name that no entry has")
        yield deprecate([a, b], "a", kind, ["b", "b"], False, f"{kind} by one successor twice")
        yield deprecate([a, entry("b", "a")], "a", kind, ["b"], False, f"{kind}: the successor leads back")
        yield deprecate([a, entry("b", "c"), entry("c", "a")], "a", kind, ["b"], False, f"{kind}: the successor leads back in two steps")
        yield deprecate([a, entry("b", "c"), c], "a", kind, ["b"], True, f"{kind} by a deprecated successor")
        yield deprecate([b], "a", kind, ["b"], False, f"{kind} of a name that no entry has")
        yield deprecate([entry("a", "c"), b, c], "a", kind, ["b"], False, f"{kind} of an entry that is deprecated")
    yield deprecate([a], "a", "NAME_REMOVAL", [], True, "a removal without a successor")
    yield deprecate([a, b], "a", "NAME_REMOVAL", ["b"], False, "a removal with a successor")
    yield deprecate([b], "a", "NAME_REMOVAL", [], False, "a removal of a name that no entry has")
    yield deprecate([removed("a")], "a", "NAME_REMOVAL", [], False, "a removal of an entry that was removed")
    sixteen = [f"m{at}" for at in range(17)]
    yield deprecate([a, *(entry(it) for it in sixteen)], "a", KINDS[0], sixteen[:16], True, "sixteen successors")
    yield deprecate([a, *(entry(it) for it in sixteen)], "a", KINDS[0], sixteen, False, "seventeen successors")


def groups() -> list[Group]:
    group = functools.partial(Group, REPORT)
    return [
        group("entry-name", "names of entries", "identifier", identifiers()),
        group("entry-name-own", "names of entries", "identifier", own_identifiers(), is_own=True),
        group("entry-state", "look-ups", "lookup", lookups()),
        group("entry-search", "searches", "search", searches()),
        group("chain-plain", "chains", "chain", plain_chains()),
        group("chain-correction", "chains", "chain", chains(KINDS[0])),
        group("chain-information", "chains", "chain", chains(KINDS[1])),
        group("chain-own", "chains", "chain", own_chains(), is_own=True),
        group("deprecation-own", "deprecations", "deprecate", own_deprecations(), is_own=True),
    ]
