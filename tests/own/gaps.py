"""Lines in which each byte stands in a gap between two texts, and which of these bytes a name can have there."""
import collections
import string

DIGITS, LETTERS = string.digits, string.ascii_letters
BARE = DIGITS + LETTERS + "-._"
QUOTED = "!\"#$%&'()*+,/:;<=>?@[\\]^`{|}~"
# Up to sixteen bytes are looked at together.
MANY = 17

# A gap: what stands before and behind it, the bytes that it may have, and how often a byte stands in it.
Gap = collections.namedtuple("Gap", "before behind taken times", defaults=(1,))

OF_UNBIND = (
    # the part; within a body; after a backslash
    Gap("cpe:2.3:", ":v:p:1:u:e:*:*:*:*:*", "*-aho"),
    Gap("cpe:2.3:a:v:p:1", "0:u:e:*:*:*:*:*", BARE),
    Gap("cpe:2.3:a:v:p:1", "0:u:e:*:*:*:*:*", BARE, MANY),
    Gap("cpe:2.3:a:v:p:1:u\\", ":e:*:*:*:*:*", QUOTED),
    # after a leading asterisk and a leading mark; after a trailing asterisk and a trailing mark
    Gap("cpe:2.3:a:v:p:1:u:*", ":*:*:*:*:*", BARE),
    Gap("cpe:2.3:a:v:p:1:u:e:*:?", "s:*:*:*", BARE + "?"),
    Gap("cpe:2.3:a:v:p:1:u:e:*:*:s*", "h:*", ":"),
    Gap("cpe:2.3:a:v:p:1:u:e:*:*:s?", ":h:*", "?"),
    # the second letter of a language and the third; before a region, and within its code
    Gap("cpe:2.3:a:v:p:1:u:e:e", ":*:*:*:*", LETTERS),
    Gap("cpe:2.3:a:v:p:1:u:e:en", ":*:*:*:*", LETTERS),
    Gap("cpe:2.3:a:v:p:1:u:e:en", "us:*:*:*:*", "-"),
    Gap("cpe:2.3:a:v:p:1:u:e:en-", "s:*:*:*:*", LETTERS),
    Gap("cpe:2.3:a:v:p:1:u:e:eng-", "40:*:*:*:*", DIGITS),
)
OF_BIND = (
    Gap('wfn:[vendor="a', '0"]', DIGITS + LETTERS + "_"),
    Gap('wfn:[vendor="a', '0"]', DIGITS + LETTERS + "_", MANY),
)


def filled(gap: Gap) -> list[tuple[bytes, str]]:
    """A line for each byte that a line can have, and whether a name has it: `read` or `refused`."""
    lines = []
    for byte in range(1, 256):
        if byte != ord("\n"):
            line = gap.before.encode() + bytes([byte]) * gap.times + gap.behind.encode()
            lines.append((line, "read" if chr(byte) in gap.taken else "refused"))
    return lines
