"""Wrong implementations: model.py with one rule off each, and the sections in which its cases have to fail."""

from dataclasses import dataclass


@dataclass(frozen=True)
class Wrong:
    rule: str
    # What is once in model.py, and what replaces it.
    right: str
    wrong: str
    sections: set[str]


WRONG = [
    Wrong(
        "a special may be in the middle of a value",
        "not TEXT_OF_NAME.fullmatch(value) or",
        'not TEXT_OF_NAME.fullmatch(re.sub(r"(?<=[a-z])[*](?=[a-z])", "", value)) or',
        {"7695 5.3"},
    ),
    Wrong("the part may be any letter", 'value not in ("a", "o", "h")', 'not re.fullmatch("[a-z]", value)', {"7695 5.3"}),
    Wrong(
        "a language may be any text",
        'attribute == "language" and not',
        'attribute == "none" and not',
        {"7695 5.3 (own)", "7695 6.1.1 (own)"},
    ),
    Wrong("a URI may have eight components", "len(components) > 7", "len(components) > 8", {"7695 6.1.1", "7695 6.1.1 (own)"}),
    Wrong("the edition is always packed", "name[it] != ANY for it in PACKED[1:]", "name[it] != ANY for it in PACKED", {"7695 6.1.2"}),
    Wrong("colons at the end of a URI stay", '.rstrip(":")', "", {"7695 6.1.2", "7695 6.1.2 (own)"}),
    Wrong("the letters of a URI are not lowered", "    text = text.lower()\n    if not", "    if not", {"7695 6.1.3", "7695 6.1.3 (own)"}),
    Wrong(
        "a formatted string may have more components",
        "len(components) != len(ATTRIBUTES)",
        "len(components) < len(ATTRIBUTES)",
        {"7695 6.2.1"},
    ),
    Wrong(
        "a formatted string quotes the hyphen", 'it in (r"\\.", r"\\-") else it for it', 'it in (r"\\.",) else it for it', {"7695 6.2.2"}
    ),
    Wrong(
        "the letters of a formatted string are lowered",
        "COMPONENT_OF_FS.match(rest, 1)[0])",
        "COMPONENT_OF_FS.match(rest, 1)[0].lower())",
        {"7695 6.2.3", "7695 5.3 (own)"},
    ),
    Wrong(
        "a special relates to NA as UNDEFINED",
        '    if NA in (source, target):\n        return "DISJOINT"',
        '    if NA in (source, target):\n        return "UNDEFINED" if has_special(source) else "DISJOINT"',
        {"7696 6.2"},
    ),
    Wrong(
        "question marks match any number of characters",
        "count <= len(specials)",
        '"?" in specials or not count',
        {"7696 6.2", "7696 6.2 (own)"},
    ),
    Wrong("a question mark matches exactly one character", "count <= len(specials)", "count == len(specials)", {"7696 6.2 (own)"}),
    Wrong("only names whose attributes all are DISJOINT are", '    if "DISJOINT" in found:', '    if found == {"DISJOINT"}:', {"7696 6.3"}),
    Wrong("one attribute that is SUBSET decides", 'if found <= {"SUBSET", "EQUAL"}', 'if "SUBSET" in found', {"7696 6.3 (own)"}),
    Wrong(
        "the product of an entry may be ANY",
        'for it in ("part", "vendor", "product"))',
        'for it in ("part", "vendor"))',
        {"7697 names of entries", "7697 names of entries (own)"},
    ),
    Wrong("a chain has one step", "for end in ends(entries, it)}", "for end in [it.lower()]}", {"7697 chains", "7697 chains (own)"}),
    Wrong(
        "a search finds what covers the name, too",
        'if covers(given["ask"], it)]',
        'if covers(given["ask"], it) or covers(it, given["ask"])]',
        {"7697 searches"},
    ),
    Wrong(
        "a deprecated entry is active",
        'return deprecation["kind"] if deprecation else "active"',
        'return "active"',
        {"7697 look-ups", "7697 deprecations (own)"},
    ),
    Wrong("OR of TRUE and ERROR is ERROR", '"OR": ("TRUE", "ERROR",', '"OR": ("ERROR", "TRUE",', {"7698 truths (own)"}),
    Wrong(
        "negate counts in the outermost test alone",
        'if test["negate"] else truth',
        'if test["negate"] and depth == 1 else truth',
        {"7698 negation"},
    ),
    Wrong("negate makes TRUE of ERROR", '"FALSE": "TRUE"}.get', '"FALSE": "TRUE", "ERROR": "TRUE"}.get', {"7698 negation"}),
    Wrong(
        "a fact is TRUE if an item covers it",
        "if any(covers(*it) for it in pairs)",
        "if any(covers(*it[::-1]) for it in pairs)",
        {"7698 facts", "7698 facts (own)"},
    ),
    Wrong(
        "a check is known by its id alone",
        'for at in ("system", "href", "id"))]',
        'for at in ("id",))]',
        {"7698 checks", "7698 checks (own)"},
    ),
    Wrong("tests may be 33 deep", "MOST_DEPTH = 32", "MOST_DEPTH = 33", {"7698 nesting (own)"}),
]
