"""Cases of applicability (NIST IR 7698): facts, checks, and tests over them."""

import functools
import itertools
from collections.abc import Iterator

from .cases import ATTRIBUTES, FREE, Case, Group, Json, fs

REPORT = "7698"
# The truths of the report.
TRUTHS = ("TRUE", "FALSE", "ERROR")
# Checks whose results are kept; of the check `none` no result is kept.
CHECKS = {"TRUE": "yes", "FALSE": "no", "ERROR": "broken", "UNKNOWN": "none"}
HELD, MISSING = fs(product="held", version="1"), fs(product="missing")


def key(id: str, system: str = "oval", href: str = "tests.xml") -> Json:
    return {"system": system, "href": href, "id": id}


def check(truth: str) -> Json:
    """A check that has this truth."""
    return {"check": key(CHECKS[truth])}


def fact(truth: str) -> Json:
    """A fact that has this truth, TRUE or FALSE, over the item HELD."""
    return {"fact": HELD if truth == "TRUE" else MISSING}


def test(op: str, *of: Json, negate: bool = False) -> Json:
    return {"op": op, "negate": negate, "of": list(of)}


def evaluated(of: Json, truth: str, why: str, items: list[str] | None = None, results: list[Json] | None = None, **more: object) -> Case:
    known = [{**key(id), "result": it} for it, id in CHECKS.items() if it != "UNKNOWN"]
    given = {"items": [HELD] if items is None else items, "checks": known if results is None else results, "test": of}
    return Case(given | more, {"truth": truth}, why)


def joined(op: str, truths: tuple[str, ...], negate: bool = False) -> str:
    """The truth of a test. An ERROR or UNKNOWN beside other truths has the place that docs/PROFILE.md gives it."""
    order = ("FALSE", "ERROR", "UNKNOWN", "TRUE") if op == "AND" else ("TRUE", "ERROR", "UNKNOWN", "FALSE")
    first = next(it for it in order if it in truths)
    return {"TRUE": "FALSE", "FALSE": "TRUE"}.get(first, first) if negate else first


def is_of_profile(truths: tuple[str, ...]) -> bool:
    """Whether docs/PROFILE.md gives these truths their place: if there is an UNKNOWN, or an ERROR beside another
    truth."""
    return "UNKNOWN" in truths or ("ERROR" in truths and len(set(truths)) > 1)


def tables(truths_of_all: tuple[str, ...], most: int, is_own: bool) -> Iterator[Case]:
    """Each cell for one child, for two, and so on up to the most. Each child is a check."""
    for op in ("AND", "OR"):
        for count in range(1, most + 1):
            for truths in itertools.product(truths_of_all, repeat=count):
                if is_of_profile(truths) is is_own:
                    of = test(op, *(check(it) for it in truths))
                    yield evaluated(of, joined(op, truths), f"{op} of {', '.join(truths)}")


def negated_checks() -> Iterator[Case]:
    """Negated tests whose children have one truth, so that negate alone decides."""
    for op in ("AND", "OR"):
        for count in (1, 2, 3):
            for truth in TRUTHS:
                of = test(op, *(check(truth) for _ in range(count)), negate=True)
                yield evaluated(of, joined(op, (truth,), True), f"not {op} of {count} times {truth}")


def tables_of_facts() -> Iterator[Case]:
    """The same with facts, for what knows no checks."""
    for op in ("AND", "OR"):
        for count in (1, 2, 3):
            for truths in itertools.product(TRUTHS[:2], repeat=count):
                of = test(op, *(fact(it) for it in truths))
                yield evaluated(of, joined(op, truths), f"{op} of facts: {', '.join(truths)}")


def negated_facts() -> Iterator[Case]:
    for op in ("AND", "OR"):
        for truths in itertools.product(TRUTHS[:2], repeat=2):
            of = test(op, *(fact(it) for it in truths), negate=True)
            yield evaluated(of, joined(op, truths, True), f"not {op} of facts: {', '.join(truths)}")
    for truth in TRUTHS[:2]:
        inner = test("AND", fact(truth), negate=True)
        yield evaluated(test("AND", inner), joined("AND", (truth,), True), f"a negated test in another one: {truth}")
        yield evaluated(test("OR", inner, negate=True), truth, f"negated twice: {truth}")
        third = test("AND", test("OR", inner, negate=True), negate=True)
        yield evaluated(third, joined("AND", (truth,), True), f"negated three times: {truth}")
    yield evaluated(test("OR", test("AND", check("ERROR"), negate=True), negate=True), "ERROR", "negated twice: ERROR")


def own_negated() -> Iterator[Case]:
    for op in ("AND", "OR"):
        for count in (1, 2):
            of = test(op, *(check("UNKNOWN") for _ in range(count)), negate=True)
            yield evaluated(of, "UNKNOWN", f"not {op} of {count} times UNKNOWN")


def nested() -> Iterator[Case]:
    """A test in a test: each operator in each, with each truth where it decides."""
    for outer, inner in itertools.product(("AND", "OR"), repeat=2):
        for one, two, three in itertools.product(TRUTHS[:2], repeat=3):
            truth = joined(outer, (joined(inner, (one, two)), three))
            yield evaluated(
                test(outer, test(inner, fact(one), fact(two)), fact(three)), truth, f"{outer} of ({inner} of {one}, {two}), {three}"
            )
    for outer, inner in itertools.product(("AND", "OR"), repeat=2):
        yield evaluated(test(outer, test(inner, check("ERROR"))), "ERROR", f"{outer} of ({inner} of ERROR)")
    deep = test("AND", fact("TRUE"))
    for depth in range(2, 10):
        deep = test("AND" if depth % 2 else "OR", deep)
        yield evaluated(deep, "TRUE", f"{depth} tests in one another")
    wide = test("AND", *(fact("TRUE") for _ in range(20)))
    yield evaluated(wide, "TRUE", "twenty children")
    yield evaluated(test("AND", *wide["of"], fact("FALSE")), "FALSE", "twenty TRUE children and a FALSE one")
    yield evaluated(test("OR", *(fact("FALSE") for _ in range(20)), fact("TRUE")), "TRUE", "twenty FALSE children and a TRUE one")
    pairs = [test("AND", fact("TRUE"), fact("FALSE")), test("AND", fact("TRUE"), fact("TRUE"))]
    yield evaluated(test("OR", *pairs), "TRUE", "the second of two tests is TRUE")
    yield evaluated(test("OR", *pairs[::-1]), "TRUE", "the first of two tests is TRUE")
    yield evaluated(test("AND", *pairs), "FALSE", "the first of two tests is FALSE")


def of_fact(name: str) -> Json:
    return test("OR", {"fact": name})


def facts() -> Iterator[Case]:
    """A fact is TRUE if its name is SUPERSET of, or EQUAL to, that of an item."""
    for it in ATTRIBUTES:
        value, other = {"part": ("a", "o"), "language": ("en", "de")}.get(it, ("x", "y"))
        item = fs(**{it: value})
        yield evaluated(of_fact(item), "TRUE", f"{it}: the name of the item", [item])
        yield evaluated(of_fact(fs(**{it: other})), "FALSE", f"{it}: another text", [item])
        yield evaluated(of_fact(fs(**{it: "*"})), "TRUE", f"{it}: ANY covers a text", [item])
        yield evaluated(of_fact(item), "FALSE", f"{it}: a text covers no ANY", [fs(**{it: "*"})])
        if it != "part":
            yield evaluated(of_fact(fs(**{it: "-"})), "FALSE", f"{it}: NA covers no text", [item])
            yield evaluated(of_fact(fs(**{it: "-"})), "TRUE", f"{it}: NA covers NA", [fs(**{it: "-"})])
    one, two = fs(product="one", version="1"), fs(product="two", version="2")
    yield evaluated(of_fact(one), "TRUE", "the first of two items", [one, two])
    yield evaluated(of_fact(two), "TRUE", "the second of two items", [one, two])
    yield evaluated(of_fact(fs(product="one", version="2")), "FALSE", "attributes of two items are no item", [one, two])
    yield evaluated(of_fact(fs(product="three")), "FALSE", "no item", [one, two])
    yield evaluated(of_fact(one), "FALSE", "a machine without items", [])
    yield evaluated(of_fact("cpe:2.3:*:*:*:*:*:*:*:*:*:*:*"), "TRUE", "each attribute is ANY", [one])
    yield evaluated(of_fact("cpe:2.3:*:*:*:*:*:*:*:*:*:*:*"), "FALSE", "each attribute is ANY, and there is no item", [])
    yield evaluated(of_fact(fs(product="ONE")), "TRUE", "letter case doesn't matter", [one])
    yield evaluated(test("AND", {"fact": one}, {"fact": two}), "TRUE", "each of two facts has its own item", [one, two])
    yield evaluated(test("AND", {"fact": one}, {"fact": two}), "FALSE", "the second of two facts has no item", [one])
    yield evaluated(test("AND", {"fact": two}, {"fact": one}), "FALSE", "the first of two facts has no item", [one])


def facts_with_specials() -> Iterator[Case]:
    item = fs(product="suite", version="8.0")
    for product, version, truth in (
        ("suite", "8.*", "TRUE"),
        ("suite", "8.?", "TRUE"),
        ("suite", "*.0", "TRUE"),
        ("suite", "9.*", "FALSE"),
        ("su*", "8.0", "TRUE"),
        ("*ite", "8.0", "TRUE"),
        ("*uit*", "*", "TRUE"),
        ("suit?", "8.0", "TRUE"),
        ("*x*", "8.0", "FALSE"),
    ):
        yield evaluated(of_fact(fs(product=product, version=version)), truth, f"the fact {product} {version} over suite 8.0", [item])
    for it in FREE:
        yield evaluated(of_fact(fs(**{it: "va*"})), "TRUE", f"an asterisk in {it}", [fs(**{it: "value"})])


def checks() -> Iterator[Case]:
    """A check has the result of its system, document and id."""
    for truth in TRUTHS:
        alone = [{**key("1"), "result": truth}]
        yield evaluated(test("AND", {"check": key("1")}), truth, f"a check whose result is {truth}", results=alone)
    for part in ("system", "href", "id"):
        one, other = key("1"), key("1") | {part: "another"}
        results = [{**one, "result": "TRUE"}, {**other, "result": "FALSE"}]
        yield evaluated(test("AND", {"check": one}), "TRUE", f"two checks differ in {part}: the first", results=results)
        yield evaluated(test("AND", {"check": other}), "FALSE", f"two checks differ in {part}: the second", results=results)
    yield evaluated(test("AND", check("TRUE"), fact("TRUE")), "TRUE", "a check and a fact")
    yield evaluated(test("AND", check("FALSE"), fact("TRUE")), "FALSE", "a check that is FALSE beside a fact")
    yield evaluated(test("AND", check("TRUE"), fact("FALSE")), "FALSE", "a check beside a fact that is FALSE")


def own_checks() -> Iterator[Case]:
    for part in ("system", "href", "id"):
        yield evaluated(test("AND", {"check": key("yes") | {part: "another"}}), "UNKNOWN", f"no result is kept of another {part}")
        yield evaluated(test("AND", {"check": key("yes") | {part: key("yes")[part].upper()}}), "UNKNOWN", f"letter case matters in {part}")
    yield evaluated(test("AND", check("TRUE")), "UNKNOWN", "no results are kept", results=[])
    known = [{**key("1"), "result": "FALSE"}, {**key("1"), "result": "TRUE"}]
    yield evaluated(test("AND", {"check": key("1")}), "TRUE", "the later of two results counts", results=known)


def own_items() -> Iterator[Case]:
    """Items that are known in part: a fact that may mean one, and covers no other item, is UNKNOWN."""
    part = fs(product="suite", version="8.*")
    for version, truth in (("8.0", "UNKNOWN"), ("8.*", "UNKNOWN"), ("9", "UNKNOWN"), ("*", "UNKNOWN"), ("-", "UNKNOWN")):
        yield evaluated(of_fact(fs(product="suite", version=version)), truth, f"version {version} over an item of version 8.*", [part])
    yield evaluated(of_fact(fs(product="other", version="8.0")), "FALSE", "another product than that of an item of version 8.*", [part])
    yield evaluated(of_fact(fs(product="*", version="8.0")), "UNKNOWN", "each product over an item of version 8.*", [part])
    yield evaluated(
        of_fact(fs(product="suite", version="8.0", update="u")), "FALSE", "an update over an item of version 8.* without one", [part]
    )
    whole = fs(product="suite", version="8.1")
    yield evaluated(of_fact(whole), "TRUE", "an item that is covered beside one that is known in part", [part, whole])
    yield evaluated(
        of_fact(fs(product="suite", version="8.0")), "UNKNOWN", "an item of another version beside one that is known in part", [part, whole]
    )


def own_follow() -> Iterator[Case]:
    """The mode follow: the ends of the fact and of the items are compared."""

    def entry(product: str, *successors: str) -> Json:
        known = {"name": fs(product=product)}
        if successors:
            known["deprecation"] = {"kind": "NAME_CORRECTION", "successors": [fs(product=it) for it in successors]}
        return known

    old_and_new = [entry("old", "new"), entry("new")]
    for asked, item, truth in (
        ("old", "new", "TRUE"),
        ("new", "old", "TRUE"),
        ("old", "old", "TRUE"),
        ("new", "new", "TRUE"),
        ("other", "old", "FALSE"),
    ):
        for mode in ("follow", "plain"):
            expected = truth if mode == "follow" or asked == item else "FALSE"
            yield evaluated(
                of_fact(fs(product=asked)), expected, f"{mode}: {asked} over {item}", [fs(product=item)], entries=old_and_new, mode=mode
            )
    two = [entry("old", "one", "two"), entry("one"), entry("two")]
    for item in ("one", "two"):
        yield evaluated(
            of_fact(fs(product="old")), "TRUE", f"follow: one of two ends is {item}", [fs(product=item)], entries=two, mode="follow"
        )
    gone = [{"name": fs(product="gone"), "deprecation": {"kind": "NAME_REMOVAL", "successors": []}}]
    yield evaluated(
        of_fact(fs(product="gone")), "FALSE", "follow: a removed name has no end", [fs(product="gone")], entries=gone, mode="follow"
    )
    yield evaluated(
        of_fact(fs(product="gone")), "TRUE", "plain: a removed name covers itself", [fs(product="gone")], entries=gone, mode="plain"
    )


def own_depths() -> Iterator[Case]:
    for depth, expect in ((32, {"truth": "TRUE"}), (33, {"refused": True})):
        deep = fact("TRUE")
        for _ in range(depth):
            deep = test("AND", deep)
        yield Case({"items": [HELD], "checks": [], "test": deep}, expect, f"{depth} tests in one another")


def groups() -> list[Group]:
    group = functools.partial(Group, REPORT)
    return [
        group("test-fact", "facts", "evaluate", facts()),
        group("test-fact-special", "facts", "evaluate", facts_with_specials()),
        group("test-check", "checks", "evaluate", checks()),
        group("test-table", "truths", "evaluate", tables(TRUTHS, 3, is_own=False)),
        group("test-table-fact", "truths", "evaluate", tables_of_facts()),
        group("test-negate", "negation", "evaluate", negated_checks()),
        group("test-negate-fact", "negation", "evaluate", negated_facts()),
        group("test-nested", "nesting", "evaluate", nested()),
        group("test-table-own", "truths", "evaluate", tables((*TRUTHS, "UNKNOWN"), 3, is_own=True), is_own=True),
        group("test-negate-own", "negation", "evaluate", own_negated(), is_own=True),
        group("test-check-own", "checks", "evaluate", own_checks(), is_own=True),
        group("test-item-own", "facts", "evaluate", own_items(), is_own=True),
        group("test-follow-own", "facts", "evaluate", own_follow(), is_own=True),
        group("test-depth-own", "nesting", "evaluate", own_depths(), is_own=True),
    ]
