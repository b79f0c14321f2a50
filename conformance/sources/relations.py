"""Cases of relations (NIST IR 7696): of two values (6.2), cell by cell, and of two names (6.3)."""

import functools
import itertools
from collections.abc import Iterator

from .cases import ATTRIBUTES, FREE, LETTERS, QUOTED_IN_TEXTS, Case, Group, fs, quoted

REPORT = "7696"

# Each cell of the table: what the source and the target are, as a formatted string has them, and their relation.
CELLS = [
    ("*", "*", "EQUAL", "ANY to ANY"),
    ("*", "-", "SUPERSET", "ANY to NA"),
    ("*", "it", "SUPERSET", "ANY to a text"),
    ("*", "it*", "UNDEFINED", "ANY to a text with a special"),
    ("-", "*", "SUBSET", "NA to ANY"),
    ("-", "-", "EQUAL", "NA to NA"),
    ("-", "it", "DISJOINT", "NA to a text"),
    ("-", "it*", "UNDEFINED", "NA to a text with a special"),
    ("it", "*", "SUBSET", "a text to ANY"),
    ("it", "-", "DISJOINT", "a text to NA"),
    ("it", "it", "EQUAL", "a text to the same text"),
    ("it", "at", "DISJOINT", "a text to another text"),
    ("it", "it*", "UNDEFINED", "a text to a text with a special"),
    ("it*", "*", "SUBSET", "a text with a special to ANY"),
    ("it*", "-", "DISJOINT", "a text with a special to NA"),
    ("it*", "item", "SUPERSET", "a text with a special to a text that it matches"),
    ("it*", "at", "DISJOINT", "a text with a special to a text that it doesn't match"),
    ("it*", "at*", "UNDEFINED", "a text with a special to another text with a special"),
]
# The specials that a target may have beside an asterisk at its end.
TARGETS_WITH_SPECIALS = ("*it", "?it", "it?", "*it*", "??it", "it???", "*it?")

# A source, and what it is to a target of the same attribute: the marks and the characters are as many.
MATCHES = [
    ("8.*", "8.0", "SUPERSET", "an asterisk at the end matches a character"),
    ("8.*", "8.0.6001", "SUPERSET", "an asterisk at the end matches several characters"),
    ("8.*", "8", "DISJOINT", "the full stop before an asterisk must be there"),
    ("8.*", "18.0", "DISJOINT", "a text without a special before it begins where the target does"),
    ("8.*", "9.0", "DISJOINT", "another text before an asterisk"),
    ("*ssl", "openssl", "SUPERSET", "an asterisk at the beginning matches several characters"),
    ("*ssl", "wolfssl", "SUPERSET", "an asterisk at the beginning matches other characters"),
    ("*ssl", "openssl3", "DISJOINT", "a text without a special after it ends where the target does"),
    ("*ssl", "opentls", "DISJOINT", "another text after an asterisk"),
    ("*mail*", "webmailer", "SUPERSET", "asterisks at both ends match characters at both"),
    ("*mail*", "web", "DISJOINT", "the text between two asterisks must be there"),
    ("*mail*", "mali", "DISJOINT", "the characters of a text keep their order"),
    ("sp?", "sp1", "SUPERSET", "a question mark at the end matches a character"),
    ("sp?", "sp12", "DISJOINT", "a question mark at the end doesn't match two characters"),
    ("sp??", "sp12", "SUPERSET", "two question marks at the end match two characters"),
    ("sp??", "sp123", "DISJOINT", "two question marks at the end don't match three characters"),
    ("sp???", "sp123", "SUPERSET", "three question marks at the end match three characters"),
    ("sp???", "sp1234", "DISJOINT", "three question marks at the end don't match four characters"),
    ("sp?", "xp1", "DISJOINT", "another text before a question mark"),
    ("?sp", "xsp", "SUPERSET", "a question mark at the beginning matches a character"),
    ("?sp", "xysp", "DISJOINT", "a question mark at the beginning doesn't match two characters"),
    ("??sp", "xysp", "SUPERSET", "two question marks at the beginning match two characters"),
    ("??sp", "xyzsp", "DISJOINT", "two question marks at the beginning don't match three characters"),
    ("?sp?", "xspy", "SUPERSET", "question marks at both ends match a character at each"),
    ("?sp?", "xyspz", "DISJOINT", "a question mark at the beginning doesn't match two characters beside one at the end"),
    ("?sp?", "xspyz", "DISJOINT", "a question mark at the end doesn't match two characters beside one at the beginning"),
    ("??sp???", "xyspabc", "SUPERSET", "two question marks before a text and three after it"),
    ("??sp???", "xyzspabc", "DISJOINT", "two question marks before a text don't match three characters"),
    ("??sp???", "xyspabcd", "DISJOINT", "three question marks after a text don't match four characters"),
    ("*sp?", "abcsp1", "SUPERSET", "an asterisk before a text and a question mark after it"),
    ("*sp?", "abcsp12", "DISJOINT", "a question mark after a text doesn't match two characters beside an asterisk"),
    ("?sp*", "xspabc", "SUPERSET", "a question mark before a text and an asterisk after it"),
    ("?sp*", "xyspabc", "DISJOINT", "a question mark before a text doesn't match two characters beside an asterisk"),
    ("1?", "10", "SUPERSET", "a question mark after a digit matches a digit"),
    ("1?", "100", "DISJOINT", "a question mark after a digit doesn't match two digits"),
    ("a*", "abcdefghijklmnopqrstuvwxyz0123456789", "SUPERSET", "an asterisk matches many characters"),
    ("*a", "bbbbbbbbbbbbbbbbbbbbbbbbbbbbbbba", "SUPERSET", "an asterisk at the beginning matches many characters"),
    ("a?????????", "a123456789", "SUPERSET", "nine question marks match nine characters"),
    ("a?????????", "a1234567890", "DISJOINT", "nine question marks don't match ten characters"),
    ("a_*", "a_b", "SUPERSET", "an underscore before an asterisk"),
    ("a_*", "axb", "DISJOINT", "an underscore matches no other character"),
    ("a.*", "axb", "DISJOINT", "a full stop matches no other character"),
    ("a.b", "axb", "DISJOINT", "a full stop of a text without specials matches no other character"),
    ("AB*", "abc", "SUPERSET", "letter case doesn't matter before an asterisk"),
    ("*bc", "ABC", "SUPERSET", "letter case doesn't matter after an asterisk"),
    ("Ab?", "aBc", "SUPERSET", "letter case doesn't matter before a question mark"),
    ("a?", "aB", "SUPERSET", "a question mark matches a capital letter"),
    (r"\*a", "xa", "DISJOINT", "a quoted asterisk matches no other character"),
    (r"a\*", "ab", "DISJOINT", "a quoted asterisk at the end matches no other character"),
    (r"a\?", "ab", "DISJOINT", "a quoted question mark matches no other character"),
    (r"a\*", r"a\*", "EQUAL", "a quoted asterisk is equal to itself"),
    (r"a\?", r"a\?", "EQUAL", "a quoted question mark is equal to itself"),
    (r"a\*", r"a\?", "DISJOINT", "a quoted asterisk is not a quoted question mark"),
    (r"a\**", r"a\*b", "SUPERSET", "a special after a quoted asterisk"),
    (r"a\**", "axb", "DISJOINT", "the quoted asterisk before a special matches no other character"),
    (r"a\\*", r"a\\b", "SUPERSET", "a special after a quoted backslash"),
    (r"a\\*", "ab", "DISJOINT", "the quoted backslash before a special must be there"),
]
# What docs/PROFILE.md fills: fewer characters than marks, each way to split a target, and quoted characters as one
# each.
OWN_MATCHES = [
    ("8.*", "8.", "SUPERSET", "an asterisk at the end matches nothing"),
    ("*ssl", "ssl", "SUPERSET", "an asterisk at the beginning matches nothing"),
    ("*mail*", "mail", "SUPERSET", "asterisks at both ends match nothing"),
    ("*mail*", "webmail", "SUPERSET", "an asterisk at the end matches nothing beside one that does"),
    ("*mail*", "mailer", "SUPERSET", "an asterisk at the beginning matches nothing beside one that does"),
    ("sp?", "sp", "SUPERSET", "a question mark at the end matches nothing"),
    ("?sp", "sp", "SUPERSET", "a question mark at the beginning matches nothing"),
    ("sp??", "sp", "SUPERSET", "two question marks at the end match nothing"),
    ("sp??", "sp1", "SUPERSET", "two question marks at the end match a character"),
    ("??sp", "xsp", "SUPERSET", "two question marks at the beginning match a character"),
    ("?sp?", "sp", "SUPERSET", "question marks at both ends match nothing"),
    ("?sp?", "xsp", "SUPERSET", "a question mark at the end matches nothing beside one that does"),
    ("?sp?", "spy", "SUPERSET", "a question mark at the beginning matches nothing beside one that does"),
    ("*sp?", "sp", "SUPERSET", "an asterisk and a question mark match nothing"),
    ("sp???", "sp12", "SUPERSET", "three question marks match two characters"),
    ("*ab", "abab", "SUPERSET", "the text is found at the end, not at the beginning"),
    ("ab*", "abab", "SUPERSET", "the text is found at the beginning"),
    ("?ab", "aab", "SUPERSET", "the text is found after the first character"),
    ("?aa", "aaa", "SUPERSET", "the text is found at the second of two places"),
    ("aa?", "aaa", "SUPERSET", "the text is found at the first of two places"),
    ("?aa?", "aaaa", "SUPERSET", "the text is found at the middle of three places"),
    ("?a", "aa", "SUPERSET", "a letter is found at the end"),
    ("*a?", "aba", "SUPERSET", "the text is found at the last place"),
    ("?aba*", "ababa", "SUPERSET", "the text is found at the first place"),
    ("*aba?", "ababa", "SUPERSET", "the text is found at the last place, where a question mark is left over"),
    ("?aba", "ababa", "DISJOINT", "two characters are before the last place, and a question mark matches one"),
    ("??aba", "ababa", "SUPERSET", "two question marks match what is before the last place"),
    ("*aa", "aaaaaaaaaaaaaaaaaaaaaaaaaab", "DISJOINT", "the text is found at many places, none of them at the end"),
    ("?aa", "aaaa", "DISJOINT", "the text is at three places, and two characters are before the last"),
    (r"a?", r"a\!", "SUPERSET", "a question mark matches a quoted character"),
    (r"?a", r"\!a", "SUPERSET", "a question mark at the beginning matches a quoted character"),
    (r"a?", r"a\!\!", "DISJOINT", "a question mark doesn't match two quoted characters"),
    (r"a??", r"a\!\!", "SUPERSET", "two question marks match two quoted characters"),
    (r"a?", r"a\!b", "DISJOINT", "a question mark doesn't match a quoted character and a letter"),
    (r"a??", r"a\!b", "SUPERSET", "two question marks match a quoted character and a letter"),
    (r"??a", r"\!\?a", "SUPERSET", "two question marks at the beginning match two quoted characters"),
    (r"?a", r"\!\?a", "DISJOINT", "a question mark at the beginning doesn't match two quoted characters"),
    (r"a?", r"a\\", "SUPERSET", "a question mark matches a backslash"),
    (r"a\+?", r"a\+b", "SUPERSET", "a question mark after a quoted character matches a letter"),
    (r"a\+?", r"a\+bc", "DISJOINT", "a question mark after a quoted character doesn't match two letters"),
    (r"?\+a", r"b\+a", "SUPERSET", "a question mark before a quoted character matches a letter"),
    (r"a?", r"a.", "SUPERSET", "a question mark matches a full stop"),
    (r"a?", r"a..", "DISJOINT", "a question mark doesn't match two full stops"),
    (r"1.?", r"1.0-", "DISJOINT", "a question mark doesn't match a digit and a hyphen"),
    (r"1.?", r"1.-", "SUPERSET", "a question mark matches a hyphen"),
    (r"*\!", r"a\!", "SUPERSET", "an asterisk before a quoted character"),
    (r"*\!", r"a\\\!", "SUPERSET", "an asterisk matches a quoted backslash before a quoted character"),
    (r"*a", r"\\a", "SUPERSET", "an asterisk matches a quoted backslash"),
]

# Pairs of components that have this relation, for the relations of names.
WITNESSES = {"EQUAL": ("it", "it"), "SUBSET": ("it", "*"), "SUPERSET": ("*", "it"), "DISJOINT": ("it", "at")}
WITNESSES_OF_LANGUAGES = {"EQUAL": ("en", "en"), "SUBSET": ("en", "*"), "SUPERSET": ("*", "en"), "DISJOINT": ("en", "de")}
WITNESSES_OF_PARTS = {"EQUAL": ("a", "a"), "SUBSET": ("a", "*"), "SUPERSET": ("*", "a"), "DISJOINT": ("a", "o")}
OTHERS = ("SUBSET", "SUPERSET", "DISJOINT")
UNDEFINED = ("it", "it*")


def values(attribute: str, source: str, target: str, relation: str, why: str) -> Case:
    given = {"attribute": attribute, "source": fs(**{attribute: source}), "target": fs(**{attribute: target})}
    return Case(given, {"relation": relation}, why)


def cells() -> Iterator[Case]:
    for attribute in FREE:
        for source, target, relation, why in CELLS:
            yield values(attribute, source, target, relation, f"{attribute}: {why}")


def cells_without_specials(is_of_part_na: bool) -> Iterator[Case]:
    """The cells of the part and the language. The part NA is a rule of docs/PROFILE.md."""
    for attribute, one, other in (("part", "a", "o"), ("language", "en", "de")):
        of = {"*": "*", "-": "-", "it": one, "at": other}
        for source, target, relation, why in CELLS:
            if source in of and target in of and (attribute == "part" and "-" in (source, target)) is is_of_part_na:
                yield values(attribute, of[source], of[target], relation, f"{attribute}: {why}")


def targets_with_specials() -> Iterator[Case]:
    for target in TARGETS_WITH_SPECIALS:
        for source, why in (("*", "ANY"), ("-", "NA"), ("it", "a text"), (target, "the same text")):
            yield values("version", source, target, "UNDEFINED", f"{why} to {target}")


def letters() -> Iterator[Case]:
    for it in LETTERS:
        yield values("product", it, it.upper(), "EQUAL", f"{it} is equal to {it.upper()}")
    for attribute in FREE:
        yield values(attribute, "aBc", "AbC", "EQUAL", f"letter case doesn't matter in {attribute}")
    yield values("language", "en-US", "EN-us", "EQUAL", "letter case doesn't matter in language")
    # (the characters that differ from each other as a letter does from its capital)
    for one, other in ("[{", "\\|", "]}", "^~", "`@"):
        yield values("product", f"a{quoted(one)}", f"a{quoted(other)}", "DISJOINT", f"{one} is not equal to {other}")
    for it in QUOTED_IN_TEXTS:
        yield values("product", f"a{quoted(it)}b", f"a{quoted(it)}b", "EQUAL", f"a text with a quoted {it} is equal to itself")
    for it in QUOTED_IN_TEXTS:
        yield values("product", f"a{quoted(it)}", "a", "DISJOINT", f"a text with a quoted {it} is not the text without it")
    for source, target in (
        ("a", "aa"),
        ("1.0", "1.00"),
        ("1.0", "1"),
        ("a_b", "ab"),
        ("a-b", "ab"),
        ("0", "00"),
        ("any", "na"),
        ("na", "any"),
    ):
        yield values("version", source, target, "DISJOINT", f"{source} is not {target}")
    for source, target, relation in (("any", "*", "SUBSET"), ("*", "any", "SUPERSET"), ("na", "-", "DISJOINT"), ("-", "na", "DISJOINT")):
        yield values("version", source, target, relation, f"the texts any and na are no logical values: {source} to {target}")


def matches(rows: list[tuple[str, str, str, str]]) -> Iterator[Case]:
    for source, target, relation, why in rows:
        yield values("version", source, target, relation, f"{source} to {target}: {why}")


def joined(relations: tuple[str, ...]) -> str:
    """The relation of names whose attributes have these relations; all others are EQUAL."""
    if "DISJOINT" in relations:
        return "DISJOINT"
    rest = set(relations) - {"EQUAL"}
    if not rest:
        return "EQUAL"
    return rest.pop() if len(rest) == 1 else "UNDEFINED"


def names(relations: dict[str, str]) -> Case:
    """Two names whose attributes have these relations."""
    source, target = {}, {}
    for attribute, relation in relations.items():
        of = {"part": WITNESSES_OF_PARTS, "language": WITNESSES_OF_LANGUAGES}.get(attribute, WITNESSES)
        source[attribute], target[attribute] = UNDEFINED if relation == "UNDEFINED" else of[relation]
    said = ", ".join(f"{at} {it}" for at, it in relations.items())
    given = {"source": fs(**source), "target": fs(**target)}
    return Case(given, {"relation": joined(tuple(relations.values()))}, said)


def names_of_one() -> Iterator[Case]:
    yield names({it: "EQUAL" for it in ATTRIBUTES})
    for attribute in ATTRIBUTES:
        for relation in OTHERS:
            yield names({attribute: relation})


def names_of_all() -> Iterator[Case]:
    for relation in OTHERS:
        yield names(dict.fromkeys(ATTRIBUTES, relation))
    for relation in OTHERS:
        for attribute in ATTRIBUTES:
            yield names({it: "EQUAL" if it == attribute else relation for it in ATTRIBUTES})
    for attribute in ATTRIBUTES:
        for relation in ("SUBSET", "SUPERSET"):
            yield names({it: "DISJOINT" if it == attribute else relation for it in ATTRIBUTES})


def names_of_three() -> Iterator[Case]:
    """Three attributes, with each choice of relations that the report gives a relation to."""
    for relations in itertools.product(WITNESSES, repeat=3):
        if joined(relations) != "UNDEFINED":
            yield names(dict(zip(("vendor", "version", "other"), relations, strict=True)))


def names_that_are_disjoint() -> Iterator[Case]:
    """An attribute that is DISJOINT decides, also beside one that is UNDEFINED."""
    for attribute in ATTRIBUTES:
        if attribute != "version":
            yield names({"version": "UNDEFINED", attribute: "DISJOINT"})
    yield names({"vendor": "SUBSET", "product": "SUPERSET", "version": "DISJOINT"})
    yield names({"vendor": "DISJOINT", "product": "SUPERSET", "version": "SUBSET"})


def own_names() -> Iterator[Case]:
    """Names for which the report has no relation."""
    for one, other in itertools.permutations(("vendor", "product", "version", "other"), 2):
        yield names({one: "SUBSET", other: "SUPERSET"})
    for attribute in FREE:
        yield names({attribute: "UNDEFINED"})
    for relation in ("SUBSET", "SUPERSET"):
        yield names({"product": "UNDEFINED", "version": relation})
    for relations in itertools.product(WITNESSES, repeat=3):
        if joined(relations) == "UNDEFINED":
            yield names(dict(zip(("vendor", "version", "other"), relations, strict=True)))


def groups() -> list[Group]:
    group = functools.partial(Group, REPORT)
    return [
        group("value-cell", "6.2", "relate-values", cells()),
        group("value-cell-plain", "6.2", "relate-values", cells_without_specials(is_of_part_na=False)),
        group("value-cell-own", "6.2", "relate-values", cells_without_specials(is_of_part_na=True), is_own=True),
        group("value-target", "6.2", "relate-values", targets_with_specials()),
        group("value-letter", "6.2", "relate-values", letters()),
        group("value-match", "6.2", "relate-values", matches(MATCHES)),
        group("value-match-own", "6.2", "relate-values", matches(OWN_MATCHES), is_own=True),
        group("name-one", "6.3", "relate-names", names_of_one()),
        group("name-all", "6.3", "relate-names", names_of_all()),
        group("name-three", "6.3", "relate-names", names_of_three()),
        group("name-disjoint", "6.3", "relate-names", names_that_are_disjoint()),
        group("name-own", "6.3", "relate-names", own_names(), is_own=True),
    ]
