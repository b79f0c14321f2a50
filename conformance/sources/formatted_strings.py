"""Cases of formatted strings (NIST IR 7695, 6.2): reading them, writing them, and texts that are none."""

import functools
from collections.abc import Iterator

from .cases import (
    ATTRIBUTES,
    DIGITS,
    FREE,
    LETTERS,
    QUOTED_IN_NAMES,
    QUOTED_IN_TEXTS,
    Case,
    Group,
    fs,
    name,
    no_name,
    quoted,
    read,
    refused,
    written,
)

REPORT = "7695"

# Formatted strings of the report's examples, with their values.
EXAMPLES = [
    (
        "cpe:2.3:a:microsoft:internet_explorer:8.0.6001:beta:*:*:*:*:*:*",
        {"part": "a", "vendor": "microsoft", "product": "internet_explorer", "version": r"8\.0\.6001", "update": "beta"},
    ),
    (
        "cpe:2.3:a:microsoft:internet_explorer:8.*:sp?:*:*:*:*:*:*",
        {"part": "a", "vendor": "microsoft", "product": "internet_explorer", "version": r"8\.*", "update": "sp?"},
    ),
    (
        "cpe:2.3:a:hp:insight_diagnostics:7.4.0.1570:-:*:*:online:win2003:x64:*",
        {
            "part": "a",
            "vendor": "hp",
            "product": "insight_diagnostics",
            "version": r"7\.4\.0\.1570",
            "update": None,
            "sw_edition": "online",
            "target_sw": "win2003",
            "target_hw": "x64",
        },
    ),
    (
        r"cpe:2.3:a:foo\\bar:big\$money:2010:*:*:*:special:ipod_touch:80gb:*",
        {
            "part": "a",
            "vendor": r"foo\\bar",
            "product": r"big\$money",
            "version": "2010",
            "sw_edition": "special",
            "target_sw": "ipod_touch",
            "target_hw": "80gb",
        },
    ),
]
EXAMPLES_OF_WRITING = [
    *EXAMPLES[:2],
    (
        "cpe:2.3:a:hp:insight:7.4.0.1570:-:*:*:online:win2003:x64:*",
        {
            "part": "a",
            "vendor": "hp",
            "product": "insight",
            "version": r"7\.4\.0\.1570",
            "update": None,
            "sw_edition": "online",
            "target_sw": "win2003",
            "target_hw": "x64",
        },
    ),
    (
        "cpe:2.3:a:hp:openview_network_manager:7.51:*:*:*:*:linux:*:*",
        {"part": "a", "vendor": "hp", "product": "openview_network_manager", "version": r"7\.51", "target_sw": "linux"},
    ),
    (
        r"cpe:2.3:a:foo\\bar:big\$money_2010:*:*:*:*:special:ipod_touch:80gb:*",
        {
            "part": "a",
            "vendor": r"foo\\bar",
            "product": r"big\$money_2010",
            "sw_edition": "special",
            "target_sw": "ipod_touch",
            "target_hw": "80gb",
        },
    ),
]

# Components with specials at their ends. A formatted string writes them as the name does.
SPECIALS = [
    ("*a", "an asterisk before a text"),
    ("a*", "an asterisk after a text"),
    ("*a*", "an asterisk at both ends"),
    ("?a", "a question mark before a text"),
    ("a?", "a question mark after a text"),
    ("?a?", "a question mark at both ends"),
    ("??a", "two question marks before a text"),
    ("a??", "two question marks after a text"),
    ("???abc", "three question marks before a text"),
    ("abc???", "three question marks after a text"),
    ("??a???", "two question marks before a text and three after it"),
    ("?a*", "a question mark before a text and an asterisk after it"),
    ("*a?", "an asterisk before a text and a question mark after it"),
    ("*a??", "an asterisk before a text and two question marks after it"),
    ("??????????a", "ten question marks before a text"),
    ("a??????????", "ten question marks after a text"),
    (r"\*a", "a quoted asterisk before a text is no special"),
    (r"a\*", "a quoted asterisk after a text is no special"),
    (r"\?a", "a quoted question mark before a text is no special"),
    (r"a\?", "a quoted question mark after a text is no special"),
    (r"*\*", "a special asterisk before a quoted one"),
    (r"\**", "a special asterisk after a quoted one"),
    (r"?\?", "a special question mark before a quoted one"),
    (r"\??", "a special question mark after a quoted one"),
    (r"\\*", "a special asterisk after a quoted backslash"),
    (r"\\?", "a special question mark after a quoted backslash"),
    (r"\\\*", "a quoted backslash and a quoted asterisk"),
    (r"*\:*", "specials around a quoted colon"),
]

# Components that are refused; the caret marks where.
MISPLACED_SPECIALS = [
    ("a*‸b", "an asterisk in the middle"),
    ("a?‸b", "a question mark in the middle"),
    ("*a*‸b", "an asterisk before a text and in the middle"),
    ("a*‸b*", "an asterisk after a text and in the middle"),
    ("a*‸*", "two asterisks after a text"),
    ("*‸*a", "two asterisks before a text"),
    ("?‸*a", "a question mark and an asterisk before a text"),
    ("*‸?a", "an asterisk and a question mark before a text"),
    ("a?‸*", "a question mark and an asterisk after a text"),
    ("a*‸?", "an asterisk and a question mark after a text"),
    ("a??‸b", "two question marks in the middle"),
    ("1.*‸.2", "an asterisk between two numbers"),
]
ALONE_SPECIALS = [
    ("?‸", "a question mark alone"),
    ("??‸", "two question marks alone"),
    ("*‸*", "two asterisks alone"),
    ("*‸?", "an asterisk and a question mark alone"),
]


def read_everywhere() -> Iterator[Case]:
    """Each component becomes its own attribute."""
    for it in ATTRIBUTES:
        if it not in ("part", "language"):
            yield read(fs(**{it: "value"}), name(**{it: "value"}), f"a text as {it}")
    for it in ATTRIBUTES[1:]:
        yield read(fs(**{it: "-"}), name(**{it: None}), f"a hyphen as {it} is NA")
    for part in "oh":
        yield read(fs(part=part), name(part=part), f"the part {part}")
    for it in ("part", "vendor", "product"):
        values = {at: value for at, value in name().items() if at != it}
        yield read(fs(**{it: "*"}), values, f"an asterisk as {it} is ANY")
    yield read("cpe:2.3:*:*:*:*:*:*:*:*:*:*:*", {}, "each attribute is ANY")
    yield read(
        fs(**dict.fromkeys(ATTRIBUTES[1:], "-")), {"part": "a"} | dict.fromkeys(ATTRIBUTES[1:]), "each attribute except the part is NA"
    )
    all_of_them = ("a", "b", "c", "d", "e", "f", "en", "g", "h", "i", "j")
    yield read("cpe:2.3:" + ":".join(all_of_them), dict(zip(ATTRIBUTES, all_of_them, strict=True)), "each attribute has another text")


def read_characters() -> Iterator[Case]:
    """Each character, alone and between two letters."""
    for it in LETTERS + LETTERS.upper() + DIGITS + "_":
        yield read(fs(product=it), name(product=it), f"the character {it} is the same in a name")
    yield read(fs(product="."), name(product=r"\."), "a bare full stop is quoted in a name")
    yield read(fs(product="a.b"), name(product=r"a\.b"), "a bare full stop in the middle is quoted in a name")
    yield read(fs(product="a-b"), name(product=r"a\-b"), "a bare hyphen in the middle is quoted in a name")
    yield read(fs(product="-a"), name(product=r"\-a"), "a hyphen before a letter is no NA")
    yield read(fs(product="a-"), name(product=r"a\-"), "a hyphen after a letter is no NA")
    yield read(fs(product="--"), name(product=r"\-\-"), "two hyphens are no NA")
    yield read(fs(product="*-"), name(product=r"*\-"), "a hyphen beside a special is no NA")
    for it in QUOTED_IN_TEXTS:
        yield read(fs(product=quoted(it)), name(product=quoted(it)), f"a quoted {it} alone stays quoted")
    for it in QUOTED_IN_TEXTS:
        text = f"a{quoted(it)}b"
        yield read(fs(product=text), name(product=text), f"a quoted {it} in the middle stays quoted")
    for it in QUOTED_IN_TEXTS:
        text = quoted(it) * 2
        yield read(fs(vendor=text), name(vendor=text), f"two quoted {it} stay quoted")


def read_specials() -> Iterator[Case]:
    for text, why in SPECIALS:
        yield read(fs(product=text), name(product=text), why)
    for it in FREE:
        yield read(fs(**{it: "*x??"}), name(**{it: "*x??"}), f"specials at both ends of {it}")


def read_languages() -> Iterator[Case]:
    for it in ("en", "eng", "en-us", "eng-us", "en-419", "eng-419"):
        yield read(fs(language=it), name(language=it.replace("-", r"\-")), f"the language {it}")
    yield read(fs(language="EN-US"), name(language=r"EN\-US"), "the letter case of a language is kept")


def read_words() -> Iterator[Case]:
    """Texts that are spelled as the logical values of a name."""
    for it in ("ANY", "NA", "any", "na"):
        yield read(fs(version=it), name(version=it), f"the text {it} is no logical value")


def written_words() -> Iterator[Case]:
    for it in ("ANY", "NA", "any", "na"):
        yield written(name(version=it), fs(version=it), f"the text {it} is no logical value")


def refused_characters() -> Iterator[Case]:
    """Bare characters that the grammar wants quoted. A bare colon begins the next component, and specials have cases of
    their own."""
    for it in QUOTED_IN_TEXTS:
        if it not in ":*?\\":
            yield refused(fs(product=f"a‸{it}b"), f"a bare {it} in the middle")
    for it in QUOTED_IN_TEXTS:
        if it not in ":*?\\":
            yield refused(fs(product=f"‸{it}"), f"a bare {it} alone")
    for code in (0x01, 0x09, 0x1F, 0x20, 0x7F):
        yield refused(fs(product=f"a‸{chr(code)}b"), f"the character {code:#04x} is not printable, or a space")
    for code in (0x09, 0x20, 0x7F):
        yield refused(fs(product=f"a\\‸{chr(code)}b"), f"the character {code:#04x} is no more allowed if it is quoted")
    for it in ("é", "日", "\N{FULLWIDTH ASTERISK}"):
        yield refused(fs(product=f"a‸{it}"), f"the character {it} is not of ASCII")
    yield refused(fs(product="a\\‸é"), "a character that is not of ASCII is no more allowed if it is quoted")


def refused_counts() -> Iterator[Case]:
    """Not eleven components, or an empty one."""
    whole = fs().split(":")
    for count in range(2, 12):
        yield refused(":".join(whole[: count + 1]) + "‸", f"it ends after {count - 1} components")
    for more in ("*", "x", "-"):
        yield refused(f"{fs()}‸:{more}", f"a component {more} after the eleventh")
    yield refused(f"{fs()}‸:", "a colon at the end")
    yield refused(fs() + "‸:*:*:*", "three components after the eleventh")
    for it in ATTRIBUTES:
        yield refused(fs(**{it: "‸"}), f"the component of {it} is empty")
    yield refused("‸", "the text is empty")
    yield refused("cpe:2.3:‸", "the text ends after the prefix")
    yield refused("cpe:2.3‸", "the text ends within the prefix")
    yield refused("‸a:v:p:*:*:*:*:*:*:*:*", "there is no prefix")
    yield refused("cpe:2.‸2:a:v:p:*:*:*:*:*:*:*:*", "the prefix has another version")
    yield refused("cpe:‸a:v:p:*:*:*:*:*:*:*:*", "the prefix has no version")
    yield refused("cpe‸;2.3:a:v:p:*:*:*:*:*:*:*:*", "the prefix has a semicolon")
    yield refused("‸ " + fs(), "a space before the prefix")
    yield refused(fs(other="x") + "‸ ", "a space at the end")
    yield refused(fs(product=r"a\:b").removesuffix(":*") + "‸", "a quoted colon ends no component")


def refused_specials() -> Iterator[Case]:
    for text, why in MISPLACED_SPECIALS:
        yield refused(fs(product=text), why)
    for it in FREE:
        yield refused(fs(**{it: "x*‸y"}), f"an asterisk in the middle of {it}")
    for it in FREE:
        yield refused(fs(**{it: "x?‸y"}), f"a question mark in the middle of {it}")


def own_texts() -> Iterator[Case]:
    """What docs/PROFILE.md narrows: one spelling for each name."""
    for it in ".-_":
        yield refused(fs(product=f"a\\‸{it}b"), f"a quoted {it}, which needs no quote")
    for it in "aZ0x":
        yield refused(fs(product=f"\\‸{it}b"), f"a quoted {it}, which needs no quote")
    yield refused(fs(product="\\‸-"), "a quoted hyphen alone")
    for text, why in ALONE_SPECIALS:
        yield refused(fs(product=text), why)
    yield refused("‸CPE:2.3:a:v:p:*:*:*:*:*:*:*:*", "the prefix in capital letters")
    yield refused(fs(other="a\\") + "‸", "a backslash at the end quotes nothing")


def written_everywhere() -> Iterator[Case]:
    for it in ATTRIBUTES:
        if it not in ("part", "language"):
            yield written(name(**{it: "value"}), fs(**{it: "value"}), f"a text as {it}")
    for it in ATTRIBUTES[1:]:
        yield written(name(**{it: None}), fs(**{it: "-"}), f"NA as {it} is a hyphen")
    yield written({}, "cpe:2.3:*:*:*:*:*:*:*:*:*:*:*", "each attribute is ANY")
    yield written(
        {"part": "a"} | dict.fromkeys(ATTRIBUTES[1:]), fs(**dict.fromkeys(ATTRIBUTES[1:], "-")), "each attribute except the part is NA"
    )
    for part in "aoh":
        yield written({"part": part}, fs(part=part, vendor="*", product="*"), f"the part {part} alone")
    for it in ("vendor", "product"):
        values = {at: value for at, value in name().items() if at != it}
        yield written(values, fs(**{it: "*"}), f"a missing {it} is ANY")


def written_characters() -> Iterator[Case]:
    for it in LETTERS + LETTERS.upper() + DIGITS + "_":
        yield written(name(product=it), fs(product=it), f"the character {it} is the same in a formatted string")
    for it in QUOTED_IN_NAMES:
        text = it if it in ".-" else quoted(it)
        yield written(name(product=f"a{quoted(it)}b"), fs(product=f"a{text}b"), f"a quoted {it} in the middle")
    for it in QUOTED_IN_NAMES:
        if it != "-":
            text = it if it == "." else quoted(it)
            yield written(name(product=quoted(it)), fs(product=text), f"a quoted {it} alone")
    yield written(name(product=r"\-\-"), fs(product="--"), "two quoted hyphens are bare")
    for text, why in SPECIALS:
        yield written(name(product=text), fs(product=text), why)
    for it in ("en", "eng", r"en\-us", r"en\-419"):
        yield written(name(language=it), fs(language=it.replace("\\", "")), f"the language {it}")


def own_parts() -> Iterator[Case]:
    """The part NA, which docs/PROFILE.md has."""
    yield read(fs(part="-"), name(part=None), "a hyphen as part is NA")
    yield read("cpe:2.3:-:-:-:-:-:-:-:-:-:-:-", dict.fromkeys(ATTRIBUTES), "each attribute is NA")


def own_written_parts() -> Iterator[Case]:
    yield written(name(part=None), fs(part="-"), "NA as part is a hyphen")
    yield written(dict.fromkeys(ATTRIBUTES), "cpe:2.3:-:-:-:-:-:-:-:-:-:-:-", "each attribute is NA")


def refused_values() -> Iterator[Case]:
    """Values that no name has (5.3)."""
    for it in QUOTED_IN_NAMES:
        if it not in "*?\\":
            yield no_name(name(product=f"a{it}b"), f"an unquoted {it} in the middle")
    for code in (0x01, 0x09, 0x1F, 0x20, 0x7F):
        yield no_name(name(product=f"a{chr(code)}b"), f"the character {code:#04x} is not printable, or a space")
    for it in ("é", "日"):
        yield no_name(name(product=f"a{it}"), f"the character {it} is not of ASCII")
    yield no_name(name(product=""), "a text is not empty")
    yield no_name(name(product="a\\"), "a backslash at the end quotes nothing")
    for text, why in MISPLACED_SPECIALS:
        yield no_name(name(product=text.replace("‸", "")), why)
    for it in FREE:
        yield no_name(name(**{it: "x*y"}), f"an asterisk in the middle of {it}")
    for it in ("b", "ao", "app", "1", "a*", "?", r"a\.", "_"):
        yield no_name(name(part=it), f"the part {it}")


def refused_parts() -> Iterator[Case]:
    """Parts that no name has (5.3), in a formatted string."""
    for it in ("‸b", "a‸o", "a‸pp", "‸1", "a‸*", "‸?", "‸_", "‸\\a", "*‸a", "-‸-"):
        yield refused(fs(part=it), f"the part {it.replace('‸', '')}")


def own_values() -> Iterator[Case]:
    yield no_name(name(product=r"\-"), "a quoted hyphen alone")
    for text in ("*", "?", "??", "**", "*?"):
        yield no_name(name(product=text), f"the specials {text} alone")
    for it in "aZ0_x":
        yield no_name(name(product=f"a{quoted(it)}"), f"a quoted {it}, which needs no quote")
    for it in "AOH":
        yield no_name(name(part=it), f"the part {it} in capital letters")
    for it in (
        "e",
        "engl",
        "english",
        "e1",
        r"en\-u",
        r"en\-usa",
        r"en\-4",
        r"en\-41",
        r"en\-4199",
        r"zh\-Hant",
        "en_us",
        "en*",
        "?n",
        r"en\-",
    ):
        yield no_name(name(language=it), f"the language {it}")


def own_languages_and_parts() -> Iterator[Case]:
    for it in "AOH":
        yield refused(fs(part=f"‸{it}"), f"the part {it} in capital letters")
    for it in (
        "e‸",
        "eng‸l",
        "eng‸lish",
        "e‸1",
        "en-u‸",
        "en-us‸a",
        "en-4‸",
        "en-41‸",
        "en-419‸9",
        "zh-Ha‸nt",
        "en‸_us",
        "en‸*",
        "‸?n",
        "en-‸",
        "‸1",
        "*‸en",
    ):
        yield refused(fs(language=it), f"the language {it.replace('‸', '')}")


def groups() -> list[Group]:
    group = functools.partial(Group, REPORT)
    return [
        group("fs-read-example", "6.2.3", "unbind-fs", (read(text, values, "an example of the report") for text, values in EXAMPLES)),
        group(
            "fs-refuse-example",
            "6.2.3",
            "unbind-fs",
            [refused(r"cpe:2.3:a:hp:insight_diagnostics:7.4.*‸.1570:*:*:*:*:*:*", "an example of the report")],
        ),
        group("fs-read-attribute", "6.2.3", "unbind-fs", read_everywhere()),
        group("fs-read-character", "6.2.3", "unbind-fs", read_characters()),
        group("fs-read-special", "6.2.3", "unbind-fs", read_specials()),
        group("fs-read-language", "6.2.3", "unbind-fs", read_languages()),
        group("fs-read-word", "6.2.3", "unbind-fs", read_words()),
        group("fs-read-own", "6.2.3", "unbind-fs", own_parts(), is_own=True),
        group("fs-refuse-character", "6.2.1", "unbind-fs", refused_characters()),
        group("fs-refuse-count", "6.2.1", "unbind-fs", refused_counts()),
        group("fs-refuse-special", "6.2.1", "unbind-fs", refused_specials()),
        group("fs-refuse-own", "6.2.1", "unbind-fs", own_texts(), is_own=True),
        group("fs-refuse-part", "5.3", "unbind-fs", refused_parts()),
        group("fs-refuse-own-value", "5.3", "unbind-fs", own_languages_and_parts(), is_own=True),
        group(
            "fs-write-example",
            "6.2.2",
            "bind-fs",
            (written(values, text, "an example of the report") for text, values in EXAMPLES_OF_WRITING),
        ),
        group("fs-write-attribute", "6.2.2", "bind-fs", written_everywhere()),
        group("fs-write-character", "6.2.2", "bind-fs", written_characters()),
        group("fs-write-word", "6.2.2", "bind-fs", written_words()),
        group("fs-write-own", "6.2.2", "bind-fs", own_written_parts(), is_own=True),
        group("value-refuse", "5.3", "bind-fs", refused_values()),
        group("value-refuse-own", "5.3", "bind-fs", own_values(), is_own=True),
    ]
