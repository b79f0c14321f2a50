#!/usr/bin/env python3
"""Makes the inputs of the benchmark, the same ones at every run, from the names of official-names.txt.

usage: make_lines.py MODE LINES FILE

valid        formatted strings, drawn from the sample
refused      formatted strings that are spoilt: one third each is cut off late, is cut off
             early, and has inside it a character that isn't allowed there unquoted
long         formatted strings of 65,536 bytes, nearly all of them in the product
uri          the URIs of the names of the lines of `valid`
uri-refused  URIs that are spoilt: one third each has late in it a byte that isn't allowed
             there unencoded, is cut off where no URI ends, and has inside it a fault of a percent form
uri-long     URIs of 65,536 bytes, nearly all of them in the product
wfn          the texts of the well-formed names of the lines of `valid`, all eleven
             attributes in their order
wfn-refused  such texts that are spoilt: one third each is cut off, has a fault of quoting
             inside a value, and has an attribute twice or a part that is none
wfn-long     such texts of 65,536 bytes, nearly all of them in the product
pair         pairs of formatted strings and URIs: one third each is two names of the sample, a
             source with a special and the name that it was made from, and a name with itself
             in the other binding
pair-refused pairs that are spoilt: one third each has not exactly one space, a source that is
             refused, and a target that is
pair-long    pairs whose lines have nearly 65,536 bytes: a product, and a part of it between asterisks
pair-equal   the same of bytes that are all equal but the last of the part, which isn't in
             the product: the worst for a search that tries each place
entry        records of `resolve` that add an entry each: names of the sample and, after them, the
             same names in other versions, no two alike; a third of them with a provenance
new-product  such records, the product of each another one, of letters and digits
asked        as many such records, and then 1,000 lookups and 1,000 shows of these names and of others
searched     as many such records, and then 100 searches
asked-often  as many such records, and then 60,000 lines: one third each is a lookup, a show, and an
             entry that is there already
deprecated   as many such records, and then deprecations, one for 6.4 of them, each followed by the
             question where it leads: chains of up to 50 steps, some with several ends, some removed
added        as many such records, and then as many lines as there are after them in `deprecated`: entries,
             each followed by a lookup of it
evaluated    records of `evaluate`: statements, as many as LINES says, of three facts each, after twice as
             many items
statement    statements of three facts each, and nothing else
unfollowed   the entries of `deprecated` and its edits without the questions; then statements over items
             that are entries, one of them for 129 entries
followed     the same, the statements in mode follow
mixed        a session for `watch`, in blocks of eight lines: two entries, an item, a statement in mode follow,
             the result of its check, a deprecation by which the item is followed to its fact, a search, and in turn
             a verdict and a restore
watched      records of `watch`: statements in mode plain, of three facts each, as many as LINES says; then as many
             items, as many results of checks, of the first hundred of which one in four statements asks, and half
             of the items dropped
edges        lines about the greatest length, long ones and odd line ends, and names whose
             attributes have another order (LINES is not read); only for the comparison
             of outputs
uri-edges    URIs in odd spellings, good and bad (LINES is not read); as `edges`
pair-edges   pairs of names with short texts, good and bad (LINES is not read); as `edges`
"""
import itertools
import pathlib
import random
import re
import sys

SAMPLE = pathlib.Path(__file__).resolve().parent / "official-names.txt"
SEED = 2303
LONGEST = 65536
PREFIX = b"cpe:2.3:"
# A formatted string has these only after a backslash, or not at all.
SPOILERS = (b"!", b"/", b"(", b"\\.", b" ", b"\x7f", b"\xc3\xa9")
URI_PREFIX = b"cpe:/"
# A URI doesn't have these unencoded.
URI_SPOILERS = (b"!", b"/", b"*", b"\\", b" ", b"\x7f", b"\xc3\xa9")
# No character and no special has one of these percent forms.
FORM_FAULTS = (b"%41", b"%5f", b"%30", b"%00", b"%7f", b"%80", b"%2g", b"%g1", b"%%21")
LETTERS = b"abcdefghijklmnopqrstuvwxyz0123456789"
ATTRIBUTES = b"part vendor product version update edition language sw_edition target_sw target_hw other".split()
# A quoted value doesn't have these after a whole character.
QUOTE_FAULTS = (b".", b"-", b"!", b'"', b"\\a", b"\\_", b" ", b"\x7f", b"\xc3\xa9")
BAD_PARTS = (b'"x"', b'"A"', b'"ah"', b'"*"', b'""', b"a")
# How many lines follow the entries of `asked` (twice), `searched` and `asked-often`.
ASKED, SEARCHED, ASKED_OFTEN = 1000, 100, 60_000
# The most steps of a chain of deprecations, successors beside the next, and ends in all.
STEPS, SUCCESSORS, ENDS = 50, 15, 60


class Draw:
    """Numbers and choices from a fixed seed; of `random` it uses only what no Python version changes."""

    def __init__(self):
        self.random = random.Random(SEED).random

    def between(self, low, high):
        """A whole number from low to high, both included."""
        return low + int(self.random() * (high - low + 1))

    def one_of(self, things):
        return things[self.between(0, len(things) - 1)]


def sample():
    return SAMPLE.read_bytes().splitlines()


def valid_lines(count):
    draw, names = Draw(), sample()
    for _ in range(count):
        yield draw.one_of(names)


def cut_late(draw, name):
    """The name up to somewhere in its second half; its last component is never whole."""
    return name[: draw.between(len(name) // 2, name.rindex(b":") + 1)]


def cut_early(draw, name):
    """At most the first quarter of the name, and at least one byte."""
    return name[: draw.between(1, len(name) // 4)]


def spoilt_inside(draw, name):
    """The name with a spoiler after its prefix, in a place without a backslash before it."""
    while True:
        at = draw.between(len(PREFIX), len(name))
        if name[at - 1 : at] != b"\\":
            return name[:at] + draw.one_of(SPOILERS) + name[at:]


def refused_lines(count):
    draw, names = Draw(), sample()
    spoil = (cut_late, cut_early, spoilt_inside)
    for number in range(count):
        yield spoil[number % 3](draw, draw.one_of(names))


def named(body):
    """A formatted string with this product."""
    return PREFIX + b"a:v:" + body + b":*" * 8


def body_of(draw, products, length):
    """A product of this many bytes: products of the sample, joined by underscores."""
    parts, left = [], length
    while left > 0:
        product = draw.one_of(products) + b"_"
        if len(product) > left:
            product = b"x" * left
        parts.append(product)
        left -= len(product)
    return b"".join(parts)


def long_lines(count):
    draw = Draw()
    # (a quoted colon would be taken for the product's end)
    products = [name.split(b":")[4] for name in sample() if b"\\:" not in name]
    room = LONGEST - len(named(b""))
    for _ in range(count):
        yield named(body_of(draw, products, room))


def components_of(name):
    """The eleven components of a formatted string."""
    return re.findall(rb"(?:\\.|[^\\:])+", name[len(PREFIX) :])


def uri_component(component):
    """A component of a formatted string as a URI has it."""
    if component == b"*":
        return b""
    return re.sub(rb"\\(.)|[?*]", lambda it: b"%%%02x" % ord(it[1] or {b"?": b"\1", b"*": b"\2"}[it[0]]), component)


def uri_of(name):
    """The canonical URI of the name of this formatted string."""
    components = [uri_component(it) for it in components_of(name)]
    extended = components[7:]
    if any(extended):
        components[5] = b"".join(b"~" + it for it in (components[5], *extended))
    return (URI_PREFIX + b":".join(components[:7])).rstrip(b":")


def uri_lines(count):
    uris = {name: uri_of(name) for name in sample()}
    return map(uris.get, valid_lines(count))


def uri_spoilt_late(draw, uri):
    """The URI with a spoiler somewhere in its second half."""
    at = draw.between(max(len(uri) // 2, len(URI_PREFIX)), len(uri))
    return uri[:at] + draw.one_of(URI_SPOILERS) + uri[at:]


def uri_cuts(uri):
    """Where the URI can be cut off so that none is left: inside a percent form, and between the
    first and the last tilde of a packed edition."""
    inside = [it.start() + 1 + more for it in re.finditer(rb"%..", uri) for more in (0, 1)]
    return inside + list(range(uri.find(b"~") + 1, uri.rfind(b"~") + 1))


def with_form_fault(draw, uri):
    """The URI with a fault of a percent form after its prefix."""
    at = draw.between(len(URI_PREFIX), len(uri))
    return uri[:at] + draw.one_of(FORM_FAULTS) + uri[at:]


def refused_uri_lines(count):
    draw, uris = Draw(), [uri_of(name) for name in sample()]
    cut = [it[:at] for it in uris for at in uri_cuts(it)]
    for number in range(count):
        if number % 3 == 1:
            yield draw.one_of(cut)
        else:
            spoil = with_form_fault if number % 3 else uri_spoilt_late
            yield spoil(draw, draw.one_of(uris))


def uri_named(body):
    """A URI with this product."""
    return URI_PREFIX + b"a:v:" + body


def long_uri_lines(count):
    draw, products = Draw(), [uri_component(components_of(name)[2]) for name in sample()]
    for _ in range(count):
        yield uri_named(body_of(draw, products, LONGEST - len(uri_named(b""))))


def value_of(component):
    """The value of a component of a formatted string, as the text of a well-formed name has it."""
    if component in (b"*", b"-"):
        return b"ANY" if component == b"*" else b"NA"
    return b'"' + re.sub(rb"\\.|[.-]", lambda it: it[0] if len(it[0]) == 2 else b"\\" + it[0], component) + b'"'


def attributes_of(name):
    """The eleven attributes of the name of this formatted string, such as `vendor="foo"`."""
    return [key + b"=" + value_of(it) for key, it in zip(ATTRIBUTES, components_of(name), strict=True)]


def well_formed(attributes, comma=b","):
    return b"wfn:[" + comma.join(attributes) + b"]"


def wfn_lines(count):
    texts = {name: well_formed(attributes_of(name)) for name in sample()}
    return map(texts.get, valid_lines(count))


def cut_off(draw, attributes):
    """The text up to anywhere, at least one byte of it, and never its last."""
    text = well_formed(attributes)
    return text[: draw.between(1, len(text) - 1)]


def misquoted(draw, attributes):
    """The text with a fault of quoting in a value, in a place without a backslash before it."""
    spoilt = draw.one_of([n for n, it in enumerate(attributes) if it.endswith(b'"')])
    before, value = attributes[spoilt].split(b'"', 1)
    while True:
        at = draw.between(0, len(value) - 1)
        if value[:at].endswith(b"\\"):
            continue
        value = value[:at] + draw.one_of(QUOTE_FAULTS) + value[at:]
        return well_formed([*attributes[:spoilt], before + b'"' + value, *attributes[spoilt + 1 :]])


def doubled_or_bad_part(draw, attributes):
    """The text with an attribute twice, or with a part that is none."""
    if draw.between(0, 1):
        return well_formed([b"part=" + draw.one_of(BAD_PARTS), *attributes[1:]])
    at = draw.between(0, len(attributes))
    return well_formed([*attributes[:at], draw.one_of(attributes), *attributes[at:]])


def refused_wfn_lines(count):
    draw, names = Draw(), [attributes_of(name) for name in sample()]
    spoil = (cut_off, misquoted, doubled_or_bad_part)
    for number in range(count):
        yield spoil[number % 3](draw, draw.one_of(names))


def wfn_named(body):
    """The text of a name with this product."""
    return well_formed([b'part="a"', b'vendor="v"', b'product="' + body + b'"'])


def long_wfn_lines(count):
    draw = Draw()
    products = [it[1:-1] for it in (value_of(components_of(name)[2]) for name in sample()) if it[:1] == b'"']
    for _ in range(count):
        yield wfn_named(body_of(draw, products, LONGEST - len(wfn_named(b""))))


def widened(draw, name):
    """The name with a special in place of the end or the front of a text in it, if it has a plain one."""
    components = components_of(name)
    plain = [n for n in (1, 2, 3) if components[n] not in (b"*", b"-") and components[n][-1:] not in b"*?"]
    if plain:
        at = draw.one_of(plain)
        characters = re.findall(rb"\\.|.", components[at])
        cut = draw.between(1, len(characters))
        front, back = b"".join(characters[:cut]), b"".join(characters[cut - 1 :])
        special = draw.one_of((b"*", b"?", b"??"))
        components[at] = front + special if draw.between(0, 1) else special + back
    return PREFIX + b":".join(components)


def pair_lines(count):
    draw, names = Draw(), sample()
    uris = {name: uri_of(name) for name in names}
    for number in range(count):
        name = draw.one_of(names)
        if number % 3 == 0:
            yield name + b" " + draw.one_of(names)
        elif number % 3 == 1:
            yield widened(draw, name) + b" " + name
        else:
            yield b" ".join((name, uris[name]) if draw.between(0, 1) else (uris[name], name))


def refused_pair_lines(count):
    draw, names = Draw(), sample()
    for number in range(count):
        one, two = draw.one_of(names), draw.one_of(names)
        if number % 3 == 0:
            yield draw.one_of((b"", b"  ", b"\t")).join((one, two)) + draw.one_of((b"", b" ")) * (number % 2)
        else:
            pair = (cut_late(draw, one), two) if number % 3 == 1 else (one, cut_early(draw, two))
            yield b" ".join(pair)


def long_pair(product, start, length, end=b""):
    """A part of the product between asterisks, with this end, and the product."""
    return named(b"*" + product[start : start + length] + end + b"*") + b" " + named(product)


def long_pair_lines(count):
    draw, products = Draw(), [it for it in (components_of(name)[2] for name in sample()) if it.isalnum()]
    room = LONGEST - len(long_pair(b"", 0, 0))
    for _ in range(count):
        product = body_of(draw, products, room - room // 4)
        yield long_pair(product, draw.between(0, len(product) - room // 4), room // 4)


def equal_pair_lines(count):
    room = LONGEST - len(long_pair(b"", 0, 0)) - 1
    for _ in range(count):
        yield long_pair(b"a" * (room - room // 4), 0, room // 4, b"b")


def spelled(text):
    """The JSON of a text without control characters."""
    return b'"' + re.sub(rb'["\\]', rb"\\\g<0>", text) + b'"'


def record(verb, name, more=b""):
    return b'{"do":"%s","name":%s%s}' % (verb, spelled(name), more)


def in_another_version(draw, name):
    components = components_of(name)
    components[3] = b"%d.%d.%d" % (draw.between(0, 19), draw.between(0, 29), draw.between(0, 99))
    return PREFIX + b":".join(components)


def entry_names(draw, count):
    """This many different names."""
    seen, names = {}, sorted(sample(), key=lambda _: draw.random())
    for name in itertools.islice(itertools.cycle(names), count):
        while name in seen:
            name = in_another_version(draw, name)
        seen[name] = None
    return list(seen)


def title_of(name):
    """Such as `Microsoft Internet Explorer 8.0.6001 Beta`."""
    texts = [re.sub(rb"\\(.)", rb"\1", it) for it in components_of(name)[1:] if it not in (b"*", b"-")]
    words = b" ".join(texts).replace(b"_", b" ").split(b" ")
    return b" ".join(it[:1].upper() + it[1:] for it in words)


def entry(draw, name, number):
    more = b',"title":' + spelled(title_of(name))
    if number % 3 == 0:
        date = b"%d-%02d-%02d" % (draw.between(2007, 2024), draw.between(1, 12), draw.between(1, 28))
        note = b'{"kind":"ORIGINAL_RECORD","date":"%s","comment":"taken over from the vendor\'s list"}' % date
        more += b',"provenance":{"submitter":%s,"authority":"nvd.nist.gov","changes":[%s]}' % (spelled(components_of(name)[1]), note)
    return record(b"entry", name, more)


def entry_lines(count):
    draw = Draw()
    return [entry(draw, it, number) for number, it in enumerate(entry_names(draw, count))]


def in_new_product(draw, name):
    """The name with letters and digits for its product, as many as that has, and eight at least."""
    components = components_of(name)
    components[2] = bytes(draw.one_of(LETTERS) for _ in range(max(8, len(components[2]))))
    return PREFIX + b":".join(components)


def new_product_lines(count):
    draw = Draw()
    for number, name in enumerate(entry_names(draw, count)):
        yield entry(draw, in_new_product(draw, name), number)


def asked_name(draw, names):
    """A name that is an entry's, or in one of eight cases another version of it; in either binding."""
    name = draw.one_of(names)
    if draw.between(0, 7) == 0:
        name = in_another_version(draw, name)
    return uri_of(name) if draw.between(0, 2) == 0 else name


def asked_lines(count):
    yield from entry_lines(count)
    draw = Draw()
    names = entry_names(draw, count)
    for verb in (b"lookup", b"show"):
        for _ in range(ASKED):
            yield record(verb, asked_name(draw, names))


def often_asked_lines(count):
    entries = entry_lines(count)
    yield from entries
    draw = Draw()
    names = entry_names(draw, count)
    for number in range(ASKED_OFTEN):
        if number % 3 == 2:
            yield draw.one_of(entries)
        else:
            yield record((b"lookup", b"show")[number % 3], asked_name(draw, names))


def deprecated_of(count):
    """How many deprecations follow this many entries."""
    return max(1, count * 20_000 // 128_650)


class Deprecations:
    """Edits that are all accepted: chains of names, each of which is deprecated once and may be amended or restored.

    Half of the names may be deprecated, the others stay active, so no chain leads back."""

    def __init__(self, draw, names):
        names = sorted(names, key=lambda _: draw.random())
        self.draw, self.fresh, self.kept = draw, names[: len(names) // 2], names[len(names) // 2 :]

    def edit(self, verb, name, kind=None, successors=()):
        """The edit, and the question where its name leads."""
        more = b"" if kind is None else b',"kind":"%s"' % kind
        if successors:
            more += b',"successors":[%s]' % b",".join(map(spelled, successors))
        more += b',"date":"2024-%02d-%02d"' % (self.draw.between(1, 12), self.draw.between(1, 28))
        if self.draw.between(0, 2) == 0:
            more += b',"comment":"as the vendor names it now"'
        spelling = uri_of(name) if self.draw.between(0, 2) == 0 else name
        return record(verb, spelling, more), record(b"chain", name)

    def beside(self, most):
        """Names that stay active, as successors beside the next; none in two of three cases, now and then many."""
        if most < 1 or self.draw.between(0, 2):
            return []
        many = SUCCESSORS if self.draw.between(0, 15) == 0 else self.draw.between(1, 2)
        start = self.draw.between(0, len(self.kept) - 1)
        return self.kept[start : start + min(many, most)]

    def chain(self):
        """The edits of one chain, as likely of 1 or 2 steps as of 25 to 50. It grows at its end, one in four at its
        start."""
        steps = min(int((STEPS + 1) ** self.draw.random()), len(self.fresh) - 1)
        names = [self.fresh.pop() for _ in range(steps + 1)]
        room, edits = ENDS, []
        for name, following in itertools.pairwise(names):
            beside = self.beside(room)
            room -= len(beside)
            kind = b"ADDITIONAL_INFORMATION" if beside else b"NAME_CORRECTION"
            edits.append((b"deprecate", name, kind, [following, *beside]))
        if self.draw.between(0, 3) == 0:
            edits.reverse()
        if self.draw.between(0, 1):
            edits.append((b"deprecate", names[-1], b"NAME_REMOVAL", ()))
        for _ in range(self.draw.between(0, 1 + steps // 4)):
            edits.append((b"amend", self.draw.one_of(names[:-1]), b"NAME_CORRECTION", [self.draw.one_of(self.kept)]))
        if self.draw.between(0, 2) == 0:
            edits.append((b"restore", self.draw.one_of(names[:-1])))
        return (self.edit(*it) for it in edits)

    def all(self):
        while len(self.fresh) > 1:
            yield from self.chain()


def deprecated_lines(count):
    yield from entry_lines(count)
    draw = Draw()
    edits = Deprecations(draw, entry_names(draw, count)).all()
    for pair in itertools.islice(edits, deprecated_of(count)):
        yield from pair


def added_lines(count):
    yield from entry_lines(count)
    draw = Draw()
    names = entry_names(draw, count + deprecated_of(count))[count:]
    for number, name in enumerate(names):
        yield entry(draw, name, number)
        yield record(b"lookup", asked_name(draw, [name]))


def fact_name(draw, name):
    """One third each: the name, all versions of its product, and those that begin as its own does."""
    part, vendor, product, version = components_of(name)[:4]
    case = draw.between(0, 2)
    if case == 0:
        return name
    front = b"".join(re.findall(rb"\\.|.", version)[:2]).strip(b"-*")
    return PREFIX + b":".join((part, vendor, product, front + b"*" if case == 1 and front else b"*")) + b":*" * 7


def statement(draw, number, names, mode):
    """An advisory of three facts; one in four asks for a check too."""
    children = [b'{"fact":%s}' % spelled(fact_name(draw, draw.one_of(names))) for _ in range(3)]
    if draw.between(0, 3) == 0:
        children.append(b'{"check":{"system":"oval","href":"defs.xml","id":"def:%d"}}' % draw.between(1, 100))
    test = b'{"op":"%s","of":[%s]}' % ((b"OR", b"AND")[number % 2], b",".join(children))
    title = b"Vulnerability %d in what is installed" % number
    return b'{"do":"statement","id":"adv-%d","title":"%s","mode":"%s","test":%s}' % (number, title, mode, test)


def advisory_lines(names, count, mode):
    """This many statements over twice as many items."""
    draw = Draw()
    for name in sorted(names, key=lambda _: draw.random())[: 2 * count]:
        yield record(b"item", name)
    for number in range(count):
        yield statement(draw, number, names, mode)


def evaluated_lines(count):
    return advisory_lines(entry_names(Draw(), 20 * count), count, b"plain")


def statement_lines(count):
    draw = Draw()
    names = entry_names(draw, max(1, count // 10))
    return (statement(draw, number, names, b"plain") for number in range(count))


def advisories_behind(count, mode):
    """The edits of `deprecated` without its questions, then statements over items with the names of entries."""
    yield from entry_lines(count)
    draw = Draw()
    names = entry_names(draw, count)
    for edit, _ in itertools.islice(Deprecations(draw, names).all(), deprecated_of(count)):
        yield edit
    yield from advisory_lines(names, max(1, count * 1_000 // 128_650), mode)


def unfollowed_lines(count):
    return advisories_behind(count, b"plain")


def followed_lines(count):
    return advisories_behind(count, b"follow")


RESULTS = (b"TRUE", b"FALSE", b"ERROR", b"UNKNOWN")


def mixed_block(number):
    """Eight lines about one product of two versions."""
    product = b"p%d" % number
    name = PREFIX + b"a:v%d:%s:" % (number % 50, product)
    old, new = name + b"1.0" + b":*" * 7, name + b"2.0" + b":*" * 7
    check = b'"system":"s","href":"h","id":"c%d"' % (number % 63)
    test = b'{"op":"OR","of":[{"fact":"%s2.*%s"},{"check":{%s}}]}' % (name, b":*" * 7, check)
    yield record(b"entry", old, b',"title":"%s 1.0"' % product)
    yield record(b"entry", new, b',"title":"%s 2.0"' % product)
    yield record(b"item", old)
    yield b'{"do":"statement","id":"s%d","mode":"follow","test":%s}' % (number, test)
    yield b'{"do":"check",%s,"result":"%s"}' % (check, RESULTS[number % 4])
    yield record(b"deprecate", old, b',"kind":"NAME_CORRECTION","successors":["%s"],"date":"2024-01-01"' % new)
    yield record(b"search", PREFIX + b"a:v%d:%s*" % (number % 50, product) + b":*" * 8)
    yield record(b"restore", old, b',"date":"2024-01-02"') if number % 2 else b'{"do":"verdict","id":"s%d"}' % number


def mixed_lines(count):
    return itertools.islice((line for number in itertools.count() for line in mixed_block(number)), count)


def watched_lines(count):
    draw = Draw()
    names = list(entry_names(draw, 2 * count))
    for number in range(count):
        yield statement(draw, number, names, b"plain")
    items = names[::2]
    for name in items:
        yield record(b"item", name)
    for number in range(1, count + 1):
        yield b'{"do":"check","system":"oval","href":"defs.xml","id":"def:%d","result":"%s"}' % (number, draw.one_of(RESULTS))
    for name in items[::2]:
        yield record(b"drop-item", name)


def searched_lines(count):
    """Searches, one third each for a product, for a prefix of a product's text, and for a part of one."""
    yield from entry_lines(count)
    draw = Draw()
    names = entry_names(draw, count)
    for number in range(SEARCHED):
        part, vendor, product = components_of(draw.one_of(names))[:3]
        characters = re.findall(rb"\\.|.", product)
        if number % 3 == 0:
            name = PREFIX + b":".join((part, vendor, product)) + b":*" * 8
        elif number % 3 == 1:
            name = PREFIX + b"*:*:" + b"".join(characters[:5]) + b"*" + b":*" * 8
        else:
            name = PREFIX + part + b":*:*" + b"".join(characters[len(characters) // 3 :][:5]) + b"*" + b":*" * 8
        yield record(b"search", name, b',"active":true' * (number % 2))


def wfn_edges():
    """Texts about the greatest length, and texts whose attributes have another order than in `wfn`."""
    room = LONGEST - len(b'wfn:[product=""]')
    attributes = attributes_of(sample()[0])
    given = [it for it in attributes if not it.endswith(b"=ANY")]
    orders = (attributes, attributes[::-1], given, given[::-1])
    commas = (b",", b", ", b",   ", b" ,", b",\t")
    return [
        *(b'wfn:[product="' + b"x" * (room + more) + b'"]' for more in (-2, -1, 0, 1, 2)),
        b'wfn:[product="' + b"\\." * (room // 2) + b'"]',
        b"wfn:[part=NA," + b" " * (LONGEST - 22) + b"other=NA]",
        b"wfn:[part=NA," + b" " * (LONGEST - 14) + b"]",
        *(well_formed(order, comma) for order in orders for comma in commas),
        *(well_formed([it]) for it in attributes),
        *(well_formed([it, it]) for it in attributes),
        *(well_formed([key + b"=" + it]) for key in ATTRIBUTES for it in (b"NA", b'"x"', b'"Ab"', b'"??\\~*"')),
        *(b'wfn:[product="x\\%c"]' % byte for byte in range(256) if byte not in b"\n"),
        b"wfn:[]",
        b"wfn:[ ]",
        b"wfn:[,]",
        b'wfn:[vendor="?*"]',
        b'wfn:[vendor="\\-"]',
        b'wfn:[vendor="*x??",product="???x*",version="*\\-",update="\\-?"]',
        b'wfn:[language="en\\-001", part="h"]',
        b'wfn:[language="en\\-01"]',
    ]


def edges():
    """One text, since its line ends differ and the last line has none."""
    room = LONGEST - len(named(b""))
    fitting = [named(b"x" * (room - short)) for short in (0, 1, 2)]
    too_long = [named(b"x" * (room + more)) for more in (1, 2, LONGEST, 4 * LONGEST)]
    name = sample()[0]
    odd = (b"", b"\r", name, name + b"\r", b" ", b"cpe:", b"x" * LONGEST)
    lines = []
    for line in (*fitting, *too_long, *odd, *wfn_edges()):
        lines += [line + b"\n", line + b"\r\n"]
    return b"".join(lines) + b"x" * (4 * LONGEST)


def pair_edges():
    """Pairs of names whose products are all short texts of a few pieces, their lines cut in odd ways."""
    texts = (b"*", b"-", b"a", b"A", b"ab", b"aab", b"b\\*", b"\\\\", b"-a", b"abab", b"\\?a")
    edged = [lead + it + trail for it in texts[2:] for lead in (b"", b"*", b"?", b"??") for trail in (b"", b"*", b"?", b"??")]
    names = [named(it) for it in (*texts[:2], *edged)]
    lines = [one + b" " + two for one in names for two in names]
    odd = (b"cpe:/", b"CPE:/A:b", b"cpe:/::a%02", b"cpe:/x", b"", b"x", names[0], names[9])
    lines += [one + cut + two for one in odd for two in odd for cut in (b"", b" ", b"  ", b" \r", b"\t")]
    lines += [b" " + it for it in lines[-40:]] + [it + b" " for it in lines[-40:]]
    room = LONGEST - len(long_pair(b"", 0, 0))
    lines += [long_pair(b"x" * (room + more), 0, 0, b"y") for more in (-2, -1, 0)]
    return b"".join(line + b"\n" for line in lines)


def uri_edges():
    """URIs about the greatest length, each byte and each percent form after texts in each state, and short URIs made of
    pieces at which a URI can fail."""
    room = LONGEST - len(uri_named(b""))
    lines = [uri_named(b"x" * (room + more)) for more in (-1, 0, 1, 2, LONGEST)]
    lines += [uri_named(it * (room // 3)) for it in (b"%2e", b"%01", b"%02")]
    fields = (b"cpe:/a:v:", b"cpe:/:::::~x~")
    fronts = (b"", b"%01", b"%02", b"a", b"-", b"%2d", b"a%01", b"a%02", b"%01a", b"%02a%01")
    for front in (field + it for field in fields for it in fronts):
        for byte in range(256):
            lines += [front + b"%%%02x" % byte, front + b"%%%02X~~~~:en" % byte]
            if byte not in b"\n\r":
                lines += [front + it % byte for it in (b"%c", b"%%%c", b"%%0%c", b"%%2%c", b"%%7%c")]
    starts = (b"cpe:/", b"CPE:/A:", b"Cpe:/o:v:p:::", b"cpe:/:::::~", b"cpe:/::::::", b"cpe:/h:v:p:1:u:~-~~x~~:")
    pieces = (b"e", b"N", b"-", b"~", b":", b"%01", b"%02", b"%2D", b"%", b"1")
    for start in starts:
        for count in range(5):
            lines += [start + b"".join(it) for it in itertools.product(pieces, repeat=count)]
    return b"".join(line + b"\n" for line in lines)


EDGES = {"edges": edges, "uri-edges": uri_edges, "pair-edges": pair_edges}
MODES = {
    "valid": valid_lines,
    "refused": refused_lines,
    "long": long_lines,
    "uri": uri_lines,
    "uri-refused": refused_uri_lines,
    "uri-long": long_uri_lines,
    "wfn": wfn_lines,
    "wfn-refused": refused_wfn_lines,
    "wfn-long": long_wfn_lines,
    "pair": pair_lines,
    "pair-refused": refused_pair_lines,
    "pair-long": long_pair_lines,
    "pair-equal": equal_pair_lines,
    "entry": entry_lines,
    "new-product": new_product_lines,
    "asked": asked_lines,
    "searched": searched_lines,
    "asked-often": often_asked_lines,
    "deprecated": deprecated_lines,
    "added": added_lines,
    "evaluated": evaluated_lines,
    "statement": statement_lines,
    "unfollowed": unfollowed_lines,
    "followed": followed_lines,
    "mixed": mixed_lines,
    "watched": watched_lines,
}


def write(mode, count, path):
    """Writes the input; a run that is broken off leaves no file of this name."""
    path = pathlib.Path(path)
    path.parent.mkdir(parents=True, exist_ok=True)
    half = path.with_name(path.name + ".half")
    with open(half, "wb") as out:
        if mode in EDGES:
            out.write(EDGES[mode]())
        else:
            out.writelines(line + b"\n" for line in MODES[mode](count))
    half.replace(path)


def main(words):
    if len(words) != 3 or words[0] not in (*MODES, *EDGES) or not words[1].isdigit():
        sys.exit(__doc__)
    write(words[0], int(words[1]), words[2])


if __name__ == "__main__":
    main(sys.argv[1:])
