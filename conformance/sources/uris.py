"""Cases of URIs (NIST IR 7695, 6.1): reading them, writing them, and texts that are none."""

import functools
import itertools
from collections.abc import Iterator

from .cases import (
    COMPONENTS,
    DIGITS,
    LETTERS,
    PACKED,
    QUOTED_IN_NAMES,
    QUOTED_IN_TEXTS,
    Case,
    Group,
    Json,
    name,
    percent,
    quoted,
    read,
    refused,
    uri,
    written,
)

REPORT = "7695"

EXAMPLES = [
    (
        "cpe:/a:microsoft:internet_explorer:8.0.6001:beta",
        {"part": "a", "vendor": "microsoft", "product": "internet_explorer", "version": r"8\.0\.6001", "update": "beta"},
    ),
    (
        "cpe:/a:microsoft:internet_explorer:8.%2a:sp%3f",
        {"part": "a", "vendor": "microsoft", "product": "internet_explorer", "version": r"8\.\*", "update": r"sp\?"},
    ),
    (
        "cpe:/a:microsoft:internet_explorer:8.%02:sp%01",
        {"part": "a", "vendor": "microsoft", "product": "internet_explorer", "version": r"8\.*", "update": "sp?"},
    ),
    (
        "cpe:/a:hp:insight_diagnostics:7.4.0.1570::~~online~win2003~x64~",
        {
            "part": "a",
            "vendor": "hp",
            "product": "insight_diagnostics",
            "version": r"7\.4\.0\.1570",
            "sw_edition": "online",
            "target_sw": "win2003",
            "target_hw": "x64",
        },
    ),
    (
        "cpe:/a:hp:openview_network_manager:7.51:-:~~~linux~~",
        {"part": "a", "vendor": "hp", "product": "openview_network_manager", "version": r"7\.51", "update": None, "target_sw": "linux"},
    ),
    ("cpe:/a:foo~bar:big%7emoney_2010", {"part": "a", "vendor": r"foo\~bar", "product": r"big\~money_2010"}),
]
REFUSED_EXAMPLES = ["cpe:/a:foo%5cbar:big%24money_2010%0‸7:::~~special~ipod_touch~80gb~", "cpe:/a:foo:bar:12.%02‸.1234"]
EXAMPLES_OF_WRITING = [
    EXAMPLES[0],
    EXAMPLES[2],
    (
        "cpe:/a:hp:insight_diagnostics:7.4.0.1570:-:~~online~win2003~x64~",
        {
            "part": "a",
            "vendor": "hp",
            "product": "insight_diagnostics",
            "version": r"7\.4\.0\.1570",
            "update": None,
            "sw_edition": "online",
            "target_sw": "win2003",
            "target_hw": "x64",
        },
    ),
    (
        "cpe:/a:hp:openview_network_manager:7.51::~~~linux~~",
        {"part": "a", "vendor": "hp", "product": "openview_network_manager", "version": r"7\.51", "target_sw": "linux"},
    ),
    (
        "cpe:/a:foo%5cbar:big%24money_manager_2010:::~~special~ipod_touch~80gb~",
        {
            "part": "a",
            "vendor": r"foo\\bar",
            "product": r"big\$money_manager_2010",
            "sw_edition": "special",
            "target_sw": "ipod_touch",
            "target_hw": "80gb",
        },
    ),
]

# A component, the value that it is, and what it decides.
SPECIALS = [
    ("%02a", "*a", "an asterisk before a text"),
    ("a%02", "a*", "an asterisk after a text"),
    ("%02a%02", "*a*", "an asterisk at both ends"),
    ("%01a", "?a", "a question mark before a text"),
    ("a%01", "a?", "a question mark after a text"),
    ("%01a%01", "?a?", "a question mark at both ends"),
    ("%01%01a", "??a", "two question marks before a text"),
    ("a%01%01", "a??", "two question marks after a text"),
    ("%01%01%01abc%01%01", "???abc??", "three question marks before a text and two after it"),
    ("%01a%02", "?a*", "a question mark before a text and an asterisk after it"),
    ("%02a%01", "*a?", "an asterisk before a text and a question mark after it"),
    ("%02%2a", r"*\*", "a special asterisk before a quoted one"),
    ("%2a%02", r"\**", "a special asterisk after a quoted one"),
    ("%01%3f", r"?\?", "a special question mark before a quoted one"),
    ("%3f%01", r"\??", "a special question mark after a quoted one"),
    ("%5c%02", r"\\*", "a special asterisk after a backslash"),
    ("%2aa", r"\*a", "a quoted asterisk before a text is no special"),
    ("a%3f", r"a\?", "a quoted question mark after a text is no special"),
]
MISPLACED_SPECIALS = [
    ("a%02‸b", "an asterisk in the middle"),
    ("a%01‸b", "a question mark in the middle"),
    ("a%02‸%02", "two asterisks after a text"),
    ("%02%‸01a", "an asterisk and a question mark before a text"),
    ("%01%0‸2a", "a question mark and an asterisk before a text"),
    ("a%02‸%01", "an asterisk and a question mark after a text"),
    ("a%01%0‸2", "a question mark and an asterisk after a text"),
    ("a%01%01‸b", "two question marks in the middle"),
]
# Percent forms of no character that a URI encodes: controls, letters, digits, the underscore, DEL, and bytes above
# ASCII.
NO_FORMS = [
    "%0‸0",
    "%0‸3",
    "%0‸7",
    "%0‸9",
    "%0‸a",
    "%‸10",
    "%‸1f",
    "%2‸0",
    "%3‸0",
    "%3‸9",
    "%4‸1",
    "%5‸a",
    "%5‸f",
    "%6‸1",
    "%7‸a",
    "%7‸f",
    "%‸80",
    "%‸a9",
    "%‸ff",
]
BROKEN_FORMS = ["%‸zz", "%2‸z", "%‸%21", "%‸g1", "%2‸", "%‸", "%‸-1", "%‸ 1", "%‸x21"]


def values_of(fields: tuple[str, ...]) -> dict[str, str]:
    return {at: value for at, value in zip(PACKED, fields, strict=True) if value}


def packings() -> Iterator[tuple[str, Json, str]]:
    """The component of the edition for each choice of its five fields, if one of the last four is there."""
    for present in itertools.product((False, True), repeat=5):
        if any(present[1:]):
            fields = tuple(text if it else "" for it, text in zip(present, ("ed", "sw", "ts", "th", "ot"), strict=True))
            said = ", ".join(at for at, it in zip(PACKED, present, strict=True) if it)
            yield "~" + "~".join(fields), name(**values_of(fields)), f"packed: {said}"


def read_components() -> Iterator[Case]:
    components = ("a", "v", "p", "1", "u", "e", "en")
    for count in range(1, 8):
        yield read(
            uri(*components[:count]),
            dict(zip(COMPONENTS[:count], components, strict=False)),
            f"{count} components; those that are missing are ANY",
        )
    for missing in range(1, 6):
        given = ["" if at == missing else it for at, it in enumerate(components)]
        values = {at: it for at, it in zip(COMPONENTS, components, strict=True) if at != COMPONENTS[missing]}
        yield read(uri(*given), values, f"an empty {COMPONENTS[missing]} is ANY")
    for at in range(1, 6):
        given = ["-" if it == at else text for it, text in enumerate(components)][: at + 1]
        values = dict(zip(COMPONENTS[:at], components, strict=False)) | {COMPONENTS[at]: None}
        yield read(uri(*given), values, f"a hyphen as {COMPONENTS[at]} is NA")
    for part in "oh":
        yield read(uri(part, "v"), {"part": part, "vendor": "v"}, f"the part {part}")


def read_characters() -> Iterator[Case]:
    for it in LETTERS + DIGITS + "_":
        yield read(uri("a", "v", f"x{it}"), name(product=f"x{it}"), f"the character {it} is the same in a name")
    for it in LETTERS.upper():
        yield read(uri("a", "v", f"a{it}"), name(product=f"a{it.lower()}"), f"the letter {it} is lowered")
    yield read(uri("a", "v", "."), name(product=r"\."), "a bare full stop is quoted in a name")
    yield read(uri("a", "v", "a-b"), name(product=r"a\-b"), "a bare hyphen in the middle is quoted in a name")
    yield read(uri("a", "v", "--"), name(product=r"\-\-"), "two hyphens are no NA")
    for it in QUOTED_IN_TEXTS:
        yield read(uri("a", "v", percent(it)), name(product=quoted(it)), f"the percent form of {it} alone")
    for it in QUOTED_IN_TEXTS:
        yield read(uri("a", "v", f"a{percent(it)}b"), name(product=f"a{quoted(it)}b"), f"the percent form of {it} in the middle")
    for text, value, why in SPECIALS:
        yield read(uri("a", "v", text), name(product=value), why)
    for at, it in enumerate(COMPONENTS[1:6], 1):
        given = ("a", *[""] * (at - 1), "%02x%01")
        yield read(uri(*given), {"part": "a", it: "*x?"}, f"specials at both ends of {it}")
    for at, it in enumerate(COMPONENTS[1:6], 1):
        given = ("a", *[""] * (at - 1), "aBC")
        yield read(uri(*given), {"part": "a", it: "abc"}, f"the letters of {it} are lowered")


def read_packed() -> Iterator[Case]:
    for text, values, why in packings():
        yield read(uri("a", "v", "p", "", "", text), values, why)
    for at, it in enumerate(PACKED):
        fields = ["-" if place == at else "x" for place in range(5)]
        values = name(**{each: None if each == it else "x" for each in PACKED})
        yield read(uri("a", "v", "p", "", "", "~" + "~".join(fields)), values, f"packed: a hyphen as {it} is NA")
    for at, it in enumerate(PACKED):
        fields = ["%02a%21.b%01" if place == at else "x" for place in range(5)]
        values = name(**{each: r"*a\!\.b?" if each == it else "x" for each in PACKED})
        yield read(uri("a", "v", "p", "", "", "~" + "~".join(fields)), values, f"packed: specials and a percent form in {it}")
    yield read(
        uri("a", "v", "p", "", "", "~~SW~~~", "en"),
        name(sw_edition="sw", language="en"),
        "packed: letters are lowered, and a language follows",
    )


def read_languages() -> Iterator[Case]:
    for it in ("en", "eng", "en-us", "eng-us", "en-419", "eng-419"):
        yield read(uri("a", "v", "p", "", "", "", it), name(language=it.replace("-", r"\-")), f"the language {it}")


def written_languages() -> Iterator[Case]:
    for it in ("en", "eng", "en-us", "eng-us", "en-419", "eng-419"):
        yield written(name(language=it.replace("-", r"\-")), uri("a", "v", "p", "", "", "", it), f"the language {it}")


def refused_forms() -> Iterator[Case]:
    for it in NO_FORMS:
        yield refused(uri("a", "v", f"a{it}"), f"{it.replace('‸', '')} encodes no character of a URI")
    for it in BROKEN_FORMS:
        yield refused(uri("a", "v", f"a{it}"), f"{it.replace('‸', '')} is no percent form")
    for text, why in MISPLACED_SPECIALS:
        yield refused(uri("a", "v", text), why)
    for at, it in enumerate(COMPONENTS[1:6], 1):
        yield refused(uri("a", *[""] * (at - 1), "x%02‸y"), f"an asterisk in the middle of {it}")


def refused_texts() -> Iterator[Case]:
    for it in QUOTED_IN_TEXTS:
        if it not in ":%~":
            yield refused(uri("a", "v", f"a‸{it}b"), f"a bare {it}")
    for code in (0x01, 0x09, 0x20, 0x7F):
        yield refused(uri("a", "v", f"a‸{chr(code)}b"), f"the character {code:#04x} is not printable, or a space")
    for it in ("é", "日"):
        yield refused(uri("a", "v", f"a‸{it}"), f"the character {it} is not of ASCII")
    for more in ("x", "-", "%21"):
        yield refused(uri("a", "v", "p", "1", "u", "e", "en") + f"‸:{more}", f"an eighth component {more}")
    yield refused("‸", "the text is empty")
    yield refused("cpe:‸", "the text ends within the prefix")
    yield refused("‸a:v:p", "there is no prefix")
    yield refused("‸http:/a:v:p", "the prefix of another scheme")


def refused_packings() -> Iterator[Case]:
    """An edition that begins with a tilde has five of them."""
    for text in ("~a‸", "~a~b‸", "~a~b~c‸", "~a~b~c~d‸", "~~~~x‸"):
        yield refused(uri("a", "v", "p", "", "", text), f"packed: {text.replace('‸', '')} has too few tildes")
    for text in ("~a~b~c~d~e‸~", "~a~b~c~d~e‸~f", "~~~~~x‸~"):
        yield refused(uri("a", "v", "p", "", "", text), f"packed: {text.replace('‸', '')} has too many tildes")


def refused_parts() -> Iterator[Case]:
    for it in ("‸b", "a‸o", "‸1", "‸%61", "‸%02", "‸_", "a‸.", "‸~"):
        yield refused(uri(it, "v", "p"), f"the part {it.replace('‸', '')}")


def own_readings() -> Iterator[Case]:
    """What docs/PROFILE.md fills: spellings beside the one to which a name is bound."""
    yield read("CPE:/a:v:p", name(), "the prefix in capital letters")
    yield read("cPe:/a:v:p", name(), "the prefix in both letter cases")
    for it in "AOH":
        yield read(uri(it, "v", "p"), name(part=it.lower()), f"the part {it} in capital letters")
    yield read(uri("-", "v", "p"), name(part=None), "a hyphen as part is NA")
    yield read(uri("", "v", "p"), {"vendor": "v", "product": "p"}, "an empty part is ANY")
    yield read("cpe:/", {}, "each attribute is ANY")
    yield read(uri("a", "v", "p", "", "", "", "-"), name(language=None), "a hyphen as language is NA")
    for it in QUOTED_IN_TEXTS:
        if percent(it) != percent(it).upper():
            yield read(uri("a", "v", percent(it).upper()), name(product=quoted(it)), f"the percent form of {it} in capital letters")
    for it in ".-":
        yield read(uri("a", "v", f"a{percent(it)}b"), name(product=f"a{quoted(it)}b"), f"the percent form of {it}, which needs none")
    yield read(uri("a", "v", "p~"), name(product=r"p\~"), "a bare tilde at the end")
    yield read(uri("a", "v", "p", "", "", "e~"), name(edition=r"e\~"), "a bare tilde in an edition that isn't packed")
    yield read(uri("a", "v", "p", "", "", "~e~~~~"), name(edition="e"), "packed: the edition alone")
    yield read(uri("a", "v", "p", "", "", "~~~~~"), name(), "packed: five empty fields")
    for count in range(1, 5):
        yield read("cpe:/a:v:p" + ":" * count, name(), f"{count} colons at the end")
    yield read("cpe:/::::::", {}, "six colons alone")


def own_refusals() -> Iterator[Case]:
    yield refused("cpe:/a:v:p::::‸:", "seven colons at the end")
    yield refused("cpe:/::::::‸:", "seven colons alone")
    for it in ("%2d‸", "%01‸", "%01%01‸", "%02‸"):
        yield refused(uri("a", "v", it), f"{it.replace('‸', '')} alone")
    yield refused(uri("a", "v", "%2d‸", "1"), "%2d alone before another component")
    yield refused(uri("a", "v", "p", "", "", "~‸", "") + "x", "packed: a tilde and no more")
    for it in ("e‸", "eng‸lish", "e‸1", "en-u‸", "en-us‸a", "en-41‸", "en-419‸9", "‸%02en"):
        yield refused(uri("a", "v", "p", "", "", "", it), f"the language {it.replace('‸', '')}")


def written_components() -> Iterator[Case]:
    components = ("a", "v", "p", "1", "u", "e", "en")
    for count in range(1, 8):
        values = dict(zip(COMPONENTS[:count], components, strict=False))
        yield written(values, uri(*components[:count]), f"{count} attributes; colons at the end are removed")
    for missing in range(1, 6):
        given = ["" if at == missing else it for at, it in enumerate(components)]
        values = {at: it for at, it in zip(COMPONENTS, components, strict=True) if at != COMPONENTS[missing]}
        yield written(values, uri(*given), f"{COMPONENTS[missing]} is ANY, so empty")
    for at in range(1, 6):
        given = ["-" if it == at else text for it, text in enumerate(components)][: at + 1]
        values = dict(zip(COMPONENTS[:at], components, strict=False)) | {COMPONENTS[at]: None}
        yield written(values, uri(*given), f"NA as {COMPONENTS[at]} is a hyphen")
    for part in "oh":
        yield written({"part": part, "vendor": "v"}, uri(part, "v"), f"the part {part}")


def written_characters() -> Iterator[Case]:
    for it in LETTERS + LETTERS.upper() + DIGITS + "_":
        yield written(name(product=f"x{it}"), uri("a", "v", f"x{it}"), f"the character {it} is the same in a URI")
    for it in QUOTED_IN_NAMES:
        text = it if it in ".-" else percent(it)
        yield written(name(product=f"a{quoted(it)}b"), uri("a", "v", f"a{text}b"), f"a quoted {it} in the middle")
    for it in QUOTED_IN_NAMES:
        if it != "-":
            text = it if it == "." else percent(it)
            yield written(name(product=quoted(it)), uri("a", "v", text), f"a quoted {it} alone")
    for text, value, why in SPECIALS:
        yield written(name(product=value), uri("a", "v", text), why)


def written_packed() -> Iterator[Case]:
    yield written(name(edition="ed"), uri("a", "v", "p", "", "", "ed"), "the edition alone is not packed")
    yield written(name(edition=None), uri("a", "v", "p", "", "", "-"), "the edition NA alone is not packed")
    for text, values, why in packings():
        yield written(values, uri("a", "v", "p", "", "", text), why)
    for at, it in enumerate(PACKED[1:], 1):
        fields = ["-" if place == at else "" for place in range(5)]
        yield written(name(**{it: None}), uri("a", "v", "p", "", "", "~" + "~".join(fields)), f"packed: {it} is NA, so a hyphen")
    for at, it in enumerate(PACKED[1:], 1):
        fields = ["%02a%7e%01" if place == at else "" for place in range(5)]
        yield written(name(**{it: r"*a\~?"}), uri("a", "v", "p", "", "", "~" + "~".join(fields)), f"packed: specials and a tilde in {it}")
    yield written(name(other="x", language="en"), uri("a", "v", "p", "", "", "~~~~~x", "en"), "packed: a language follows")


def own_written() -> Iterator[Case]:
    yield written({}, "cpe:/", "each attribute is ANY")
    yield written({"vendor": "v"}, uri("", "v"), "the part is ANY, so empty")
    yield written(name(part=None), uri("-", "v", "p"), "the part is NA, so a hyphen")
    yield written(name(language=None), uri("a", "v", "p", "", "", "", "-"), "the language is NA, so a hyphen")


def groups() -> list[Group]:
    group = functools.partial(Group, REPORT)
    return [
        group("uri-read-example", "6.1.3", "unbind-uri", (read(text, values, "an example of the report") for text, values in EXAMPLES)),
        group("uri-refuse-example", "6.1.3", "unbind-uri", (refused(it, "an example of the report") for it in REFUSED_EXAMPLES)),
        group("uri-read-component", "6.1.3", "unbind-uri", read_components()),
        group("uri-read-character", "6.1.3", "unbind-uri", read_characters()),
        group("uri-read-language", "6.1.3", "unbind-uri", read_languages()),
        group("uri-read-packed", "6.1.3", "unbind-uri", read_packed()),
        group("uri-refuse-form", "6.1.3", "unbind-uri", refused_forms()),
        group("uri-refuse-text", "6.1.1", "unbind-uri", refused_texts()),
        group("uri-refuse-packed-own", "6.1.1", "unbind-uri", refused_packings(), is_own=True),
        group("uri-refuse-part", "5.3", "unbind-uri", refused_parts()),
        group("uri-read-own", "6.1.3", "unbind-uri", own_readings(), is_own=True),
        group("uri-refuse-own", "6.1.1", "unbind-uri", own_refusals(), is_own=True),
        group(
            "uri-write-example",
            "6.1.2",
            "bind-uri",
            (written(values, text, "an example of the report") for text, values in EXAMPLES_OF_WRITING),
        ),
        group("uri-write-component", "6.1.2", "bind-uri", written_components()),
        group("uri-write-character", "6.1.2", "bind-uri", written_characters()),
        group("uri-write-language", "6.1.2", "bind-uri", written_languages()),
        group("uri-write-packed", "6.1.2", "bind-uri", written_packed()),
        group("uri-write-own", "6.1.2", "bind-uri", own_written(), is_own=True),
    ]
