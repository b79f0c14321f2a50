#!/usr/bin/env python3
"""Measures how long edits and verdicts take in `cpe watch`, `cpe evaluate` and `cpe drill`, by the number of other rows.

Prints a table, and whether each target is met. All times are of the processor, user and system, so that other work on
the machine adds little. The rows before the edits are loaded first, untimed. The parts:

- long: 100,000 entries and a search for each; 100,000 statements and an item for each. The output is known.
- lines: lines of `watch`, as `cpe make` writes them, and in blocks of statements, items, results and removals
- untouching: edits that can change no verdict; for comparison, refused lines of the same length
- items: an item that is added or removed, with five facts of its product, among few rows and many
- table: the table at the end of `evaluate`, over 2,000 items and 1,000 statements
- verdicts: 4,000 statements in mode follow, and a question for each
- load: loading items and statements; for comparison, the same rows if no name matches, and reading the lines alone
- partly: edits and questions among items that are known in part
- drill: whole runs of `cpe drill`
"""
import argparse
import os
import pathlib
import subprocess
import sys
import threading
import time

sys.dont_write_bytecode = True
import make_lines
import run

# Of a process the clock of its processor time: see clock_getcpuclockid in the system's headers.
CPU_CLOCK = 2
# The sessions that are compared: of a few lines, and of many.
FEW, MANY = 8_000, 80_000
DRILLED = (8_000, 80_000, 800_000)
# Items and statements beside those that are near the edits.
SMALL, LARGE = (10_000, 1_000), (1_000_000, 100_000)
# How many products have items known in part, how many versions each has, and one in how many is known in part; and how
# many items have a pattern as their product.
PARTLY, VERSIONS, ONE_IN, PATTERNS = 1_000, 20, 10, 1_000
# The names near facts: products, the facts of each, and how often an item of each is added and removed.
PRODUCTS, FACTS, TIMES = 100, 5, 500
EDITS = 50_000
VERDICTS = 4_000
STATEMENTS = 1_000
# Statements that are loaded, before or after twice as many items.
LOADED = 10_000
# A question with a unique answer, after the timed lines: its answer shows their end.
LAST = make_lines.record(b"lookup", b"cpe:/a:near:last") + b"\n"
LAST_ANSWER = b"lookup cpe:2.3:a:near:last" + b":*" * 8 + b" absent\n"


def fs(product, version, vendor=b"v"):
    return make_lines.PREFIX + b"a:%s:%s:%s" % (vendor, product, version) + b":*" * 7


def item(name, verb=b"item"):
    return make_lines.record(verb, name)


def put(number, name, mode=b"plain"):
    return b'{"do":"statement","id":"s%d","mode":"%s","test":{"op":"OR","of":[{"fact":%s}]}}' % (number, mode, make_lines.spelled(name))


def dropped(number):
    return b'{"do":"drop-statement","id":"s%d"}' % number


def result(number, truth):
    return b'{"do":"check","system":"s","href":"h","id":"c%d","result":"%s"}' % (number, truth)


def dropped_result(number):
    return b'{"do":"drop-check","system":"s","href":"h","id":"c%d"}' % number


def text(lines):
    return b"".join(line + b"\n" for line in lines)


def spent(child):
    """The processor time of a child so far, in seconds."""
    return time.clock_gettime((~child.pid << 3) | CPU_CLOCK)


class Session:
    """The program under a word, kept waiting between the parts of its input."""

    def __init__(self, program, word):
        self.child = subprocess.Popen([program, word], stdin=subprocess.PIPE, stdout=subprocess.PIPE, bufsize=0)
        self.has_ended = False

    def feed(self, lines, closes):
        left = memoryview(lines)
        while left:
            left = left[self.child.stdin.write(left) :]
        if closes:
            self.child.stdin.close()

    def read(self, is_end):
        out = bytearray()
        while not is_end(out):
            piece = os.read(self.child.stdout.fileno(), run.PIECE)
            if not piece:
                break
            out += piece
        return bytes(out)

    def takes(self, lines):
        """The processor time for these lines, and what they write."""
        begun = spent(self.child)
        feeder = threading.Thread(target=self.feed, args=[lines + LAST, False])
        feeder.start()
        out = self.read(lambda found: found.endswith(LAST_ANSWER))
        feeder.join()
        if not out.endswith(LAST_ANSWER):
            sys.exit("the program ended before its input did")
        return spent(self.child) - begun, out[: -len(LAST_ANSWER)]

    def accepts(self, lines):
        """The processor time for these lines, none of which is refused."""
        took, out = self.takes(lines)
        if b"refused " in out:
            sys.exit(f"a line is refused: {out[out.index(b'refused ') :][:100]!r}")
        return took

    def refuses(self, lines, reason):
        """The processor time for these lines, each of which is refused for this reason."""
        took, out = self.takes(lines)
        if any(not it.startswith(b"refused ") or it.split(b" ", 2)[2] != reason for it in out.splitlines()):
            sys.exit(f"lines are not refused for {reason!r}: {out[:100]!r}")
        return took

    def ends(self):
        """The processor time for the end of the input, and of the whole run; what is written at the end."""
        begun = spent(self.child)
        self.child.stdin.close()
        out = self.read(lambda found: False)
        _, status, used = os.wait4(self.child.pid, 0)
        self.child.returncode = os.waitstatus_to_exitcode(status)
        self.child.stdout.close()
        whole = used.ru_utime + used.ru_stime
        return whole - begun, whole, out

    def __enter__(self):
        return self

    def __exit__(self, *_):
        if self.child.returncode is None:
            self.ends()


def best(rounds, once):
    """The least of each figure of a run, over this many runs."""
    return [min(it) for it in zip(*(once() for _ in range(rounds)), strict=True)]


# ---- two long sessions whose whole output is known


def bound(number):
    return b"cpe:/a:v:p%d:%d" % divmod(number, 100)


def bound_fs(number):
    product, version = divmod(number, 100)
    return fs(b"p%d" % product, b"%d" % version)


def searched_session(count):
    lines = [make_lines.record(b"entry", bound(it)) for it in range(count)]
    lines += [make_lines.record(b"search", bound(it)) for it in range(count)]
    names = [bound_fs(it) for it in range(count)]
    return text(lines), b"".join(b"search %s 1\nentry %s active\n" % (it, it) for it in names)


def watched_session(count):
    lines = [b'{"do":"statement","id":"s%d","test":{"op":"OR","of":[{"fact":"%s"}]}}' % (it, bound(it)) for it in range(count)]
    lines += [item(bound(it)) for it in range(count)]
    out = [b"changed %d s%d none FALSE\n" % (it + 1, it) for it in range(count)]
    out += [b"changed %d s%d FALSE TRUE\n" % (count + 1 + it, it) for it in range(count)]
    return text(lines), b"".join(out)


def whole_session(program, word, lines, wanted):
    with Session(program, word) as session:
        _, out = session.takes(lines)
        _, whole, _ = session.ends()
    if out != wanted:
        sys.exit(f"{word}: the output of the long session is not what it should be")
    return [whole]


def measure_long(program, rounds):
    for word, (lines, wanted) in (("resolve", searched_session(100_000)), ("watch", watched_session(100_000))):
        (took,) = best(rounds, lambda word=word, lines=lines, wanted=wanted: whole_session(program, word, lines, wanted))
        yield f"{word}, the session of 200,000 lines", "s", took, 60


# ---- a line of watch


def plain_block(number):
    """Eight lines about one product: a statement of two facts and a check, its items, results, and the removal of items
    of the block half way to the first."""
    product, gone = b"p%d" % number, number // 2
    one, two = [fs(product, it) for it in (b"1.0", b"2.0")]
    facts = b",".join(b'{"fact":%s}' % make_lines.spelled(fs(product, it)) for it in (b"2.*", b"*"))
    check = b'{"check":{"system":"s","href":"h","id":"c%d"}}' % number
    yield b'{"do":"statement","id":"s%d","mode":"plain","test":{"op":"AND","of":[%s,%s]}}' % (number, facts, check)
    yield item(one)
    yield result(number, b"TRUE")
    yield item(two)
    yield result(number, b"ERROR")
    if number % 2:
        yield item(fs(b"p%d" % gone, b"1.0"), b"drop-item")
        yield dropped_result(gone)
        yield dropped(gone)
    else:
        yield item(two, b"drop-item")
        yield result(number, b"FALSE")
        yield item(two)


def plain_lines(count):
    return text(line for number in range(count // 8) for line in plain_block(number))


def generated(program, count):
    return subprocess.run([program, "make", str(count)], stdout=subprocess.PIPE, check=True).stdout


def watched(program, lines, count):
    with Session(program, "watch") as session:
        return [session.accepts(lines) / count * 1e6]


def measure_lines(program, rounds):
    kinds = {"as make writes them": lambda count: generated(program, count), "plain statements, items, results, drops": plain_lines}
    for what, made in kinds.items():
        found = {}
        for count in (FEW, MANY):
            lines = made(count)
            (found[count],) = best(rounds, lambda lines=lines, count=count: watched(program, lines, count))
        yield f"a line of watch, {what}: {FEW:,} lines", "us", found[FEW], None
        yield f"the same: {MANY:,} lines", "us", found[MANY], 20
        yield "growth", "", found[MANY] / found[FEW], 1.5


# ---- an edit that touches no verdict, and the same line when it is only read


def base_parts(items, statements):
    """Items of a product each, and statements of one fact on some of them, at this distance."""
    each = items // statements
    return (
        text(item(fs(b"p%d" % it, b"1.0")) for it in range(items)),
        text(put(it, fs(b"p%d" % (it * each), b"*")) for it in range(statements)),
    )


def base_lines(items, statements):
    return b"".join(base_parts(items, statements))


def pairs(one, other):
    """Lines by number, two by two."""
    return text(line for number in range(EDITS // 2) for line in (one(number), other(number)))


def deprecation(number, verb, kind):
    more = b',"kind":"%s","successors":[%s],"date":"2024-01-01"' % (kind, make_lines.spelled(fs(b"f0", b"2.0")))
    return make_lines.record(verb, fs(b"f%d" % number, b"1.0"), more)


def untouching():
    """Kinds of edits that touch no verdict; of each the lines, the same as they are refused, and the reason of that."""
    entries = [[make_lines.record(b"entry", fs(b"f%d" % number, version)) for number in range(EDITS)] for version in (b"1.0", b"1.*")]
    name, missing = [lambda number, version=version: fs(b"t%d" % (number % 1_000), version) for version in (b"1.0", b"9.0")]
    yield (
        "an item comes or goes",
        pairs(lambda it: item(name(it)), lambda it: item(name(it), b"drop-item")),
        (pairs(lambda it: item(missing(it), b"drop-item"), lambda it: item(missing(it), b"drop-item")), b"unknown"),
    )
    yield (
        "a result that no statement asks for",
        text(result(number % 1_000, b"TRUE") for number in range(EDITS)),
        (text(result(number % 1_000, b"NONE") for number in range(EDITS)), b"member result"),
    )
    yield "an entry", text(entries[0]), (text(entries[1]), b"wildcards")
    yield (
        "an entry is deprecated, which nothing leads to",
        text(deprecation(it, b"deprecate", b"NAME_CORRECTION") for it in range(EDITS)),
        (text(deprecation(it, b"amend", b"NAME_REMOVAL") for it in range(EDITS)), b"count"),
    )


def touched_nothing(program):
    """The microseconds of each kind of edit, and of reading it alone."""
    found = []
    with Session(program, "watch") as session:
        session.accepts(base_lines(*SMALL) + text([make_lines.record(b"entry", fs(b"f0", b"2.0"))]))
        for _, lines, (refused, reason) in untouching():
            found += [session.accepts(lines) / EDITS * 1e6, session.refuses(refused, reason) / EDITS * 1e6]
    return found


def measure_untouching(program, rounds):
    found = best(rounds, lambda: touched_nothing(program))
    for number, (what, *_) in enumerate(untouching()):
        made, read = found[2 * number : 2 * number + 2]
        yield f"touches no verdict: {what}", "us", made, None
        yield "refused when it is read", "us", read, None
        yield "the one beyond the other", "us", made - read, 2


# ---- an edit of an item among few and among many


def near_lines():
    """Statements with facts near the items that are added and removed, and these edits: one fact of five covers an
    item."""
    facts = [fs(b"near%d" % (it // FACTS), b"%d.*" % (it % FACTS)) for it in range(PRODUCTS * FACTS)]
    statements = text(put(1_000_000 + number, name) for number, name in enumerate(facts))
    names = [fs(b"near%d" % it, b"3.1") for it in range(PRODUCTS)]
    return statements, text(item(name, verb) for name in names for verb in (b"item", b"drop-item")) * TIMES


def edited_items(program, base, statements, edits):
    with Session(program, "watch") as session:
        session.accepts(base + statements)
        return [session.accepts(edits) / (2 * PRODUCTS * TIMES) * 1e6]


def measure_items(program, rounds):
    statements, edits = near_lines()
    found = []
    for items, asked in (SMALL, LARGE):
        # (of each product near the edits one item is there at a time)
        base = base_lines(items - PRODUCTS, asked - PRODUCTS * FACTS)
        found += best(rounds, lambda base=base: edited_items(program, base, statements, edits))
        yield f"an item comes or goes: {items:,} items, {asked:,} statements", "us", found[-1], None
    yield "growth", "", found[1] / found[0], 1.5


# ---- the table of verdicts, single verdicts, and what is paid for them


def tabled(program, lines):
    with Session(program, "evaluate") as session:
        session.accepts(lines)
        at_end, whole, out = session.ends()
    if out.count(b"\nverdict ") != STATEMENTS:
        sys.exit("the table of verdicts has another length")
    return [at_end * 1e3, whole * 1e3]


def measure_table(program, rounds):
    lines = text(make_lines.evaluated_lines(STATEMENTS))
    at_end, whole = best(rounds, lambda: tabled(program, lines))
    yield "the table of 1,000 statements of 3 facts, 2,000 items, behind the load", "ms", at_end, 5
    yield "the whole run", "ms", whole, None


def followed_lines(count):
    """Items under names that are deprecated, each for one that a statement in mode follow asks for; and questions for
    these."""
    for number in range(count):
        product = b"p%d" % number
        old, new = [fs(product, it) for it in (b"1.0", b"2.0")]
        yield make_lines.record(b"entry", old)
        yield make_lines.record(b"entry", new)
        yield item(old)
        yield put(number, new, b"follow")
        more = b',"kind":"NAME_CORRECTION","successors":[%s],"date":"2024-01-01"' % make_lines.spelled(new)
        yield make_lines.record(b"deprecate", old, more)


def asked_verdicts(program, lines):
    with Session(program, "resolve") as session:
        session.accepts(lines)
        took, out = session.takes(text(b'{"do":"verdict","id":"s%d"}' % it for it in range(VERDICTS)))
    if out != b"".join(b"verdict s%d TRUE\n" % it for it in range(VERDICTS)):
        sys.exit("a verdict is another")
    return [took]


def measure_verdicts(program, rounds):
    lines = text(followed_lines(VERDICTS))
    (took,) = best(rounds, lambda: asked_verdicts(program, lines))
    yield f"{VERDICTS:,} verdicts in mode follow over {VERDICTS:,} items", "s", took, 0.1


def loaded(program, parts):
    """The seconds of each part when it is added first, and when it is added again, which is refused because it is
    there."""
    with Session(program, "evaluate") as session:
        return [session.accepts(it) for it in parts] + [session.refuses(it, b"exists") for it in parts]


def loaded_alone(program, parts):
    """The seconds of each part in a session of its own, in which no item meets a statement."""
    for it in parts:
        with Session(program, "evaluate") as session:
            yield session.accepts(it)


def load_parts():
    """Items and statements: of products that have many, and of a product each."""
    lines = list(make_lines.evaluated_lines(LOADED))
    items, statements = [text(it for it in lines if it.startswith(b'{"do":"%s"' % word)) for word in (b"item", b"statement")]
    yield "items, then statements of 3 facts on products of many items", (items, statements)
    yield "these statements, then these items", (statements, items)
    yield "items, then statements of 1 fact, of a product each", base_parts(2 * LOADED, LOADED)


def measure_load(program, rounds):
    for what, parts in load_parts():
        found = best(rounds, lambda parts=parts: loaded(program, parts))
        load, again = sum(found[: len(parts)]), sum(found[len(parts) :])
        alone = sum(best(rounds, lambda parts=parts: list(loaded_alone(program, parts))))
        yield f"load of evaluate: {what}", "s", load, None
        yield "the items and the statements each in a session of their own", "s", alone, None
        yield "the load by that", "", load / alone, None
        yield "the same lines again, each refused since it is there", "s", again, None
        yield "the load by that", "", load / again, 1.3


# ---- items that are known in part


def versions_of(product, one_in):
    """The names of the items of a product. One in this many is known in part; none if that is 0."""
    for number in range(VERSIONS):
        is_in_part = one_in and number % one_in == 3
        yield fs(product, b"%d.*" % number if is_in_part else b"%d.0" % number)


def partly_parts(one_in):
    """Items, statements of three facts on them, and the removal of every other item."""
    names = [list(versions_of(b"p%d" % it, one_in)) for it in range(PARTLY)]
    statements = []
    for number in range(PARTLY):
        facts = [fs(b"p%d" % number, version) for version in (b"%d.0" % (number % VERSIONS), b"2*", b"3.5")]
        of = b",".join(b'{"fact":%s}' % make_lines.spelled(it) for it in facts)
        statements.append(b'{"do":"statement","id":"s%d","test":{"op":"AND","of":[%s]}}' % (number, of))
    gone = [item(name, b"drop-item") for of_product in names for name in of_product[::2]]
    return text(item(name) for of_product in names for name in of_product), text(statements), text(gone)


def partly_known(program, one_in):
    """The microseconds of a line of watch and of evaluate, and of a question for the items of a product."""
    items, statements, gone = partly_parts(one_in)
    count = PARTLY * VERSIONS
    with Session(program, "watch") as session:
        watched = session.accepts(items + statements + gone) / (count + PARTLY + count // 2) * 1e6
    with Session(program, "evaluate") as session:
        session.accepts(items + statements)
        evaluated = session.ends()[1] / (count + PARTLY) * 1e6
    with Session(program, "resolve") as session:
        session.accepts(items)
        asked = session.accepts(text(make_lines.record(b"items", fs(b"p%d" % it, b"*")) for it in range(PARTLY))) / PARTLY * 1e6
    return [watched, evaluated, asked]


def patterned(program, patterns):
    """The microseconds of a statement of one fact beside this many items whose product is a pattern."""
    with Session(program, "watch") as session:
        session.accepts(base_lines(*SMALL) + text(item(fs(b"x%d*" % it, b"1.0")) for it in range(patterns)))
        lines = text(put(1_000_000 + it, fs(b"p%d" % it, b"1.0")) for it in range(LOADED))
        return [session.accepts(lines) / LOADED * 1e6]


def measure_partly(program, rounds):
    found = [best(rounds, lambda one_in=one_in: partly_known(program, one_in)) for one_in in (0, ONE_IN)]
    for number, what in enumerate(("a line of watch", "a line of evaluate", "a question for the items of a product")):
        none, some = (figures[number] for figures in found)
        yield f"{what}: {PARTLY * VERSIONS:,} items, none known in part", "us", none, None
        yield f"the same: one in {ONE_IN} known in part", "us", some, None
        yield "the one by the other", "", some / none, 1.5
    for count in (0, PATTERNS):
        (took,) = best(rounds, lambda count=count: patterned(program, count))
        yield f"a statement of one fact, beside {count:,} items whose product is a pattern", "us", took, None


# ---- drill


def drilled(program, count):
    child = subprocess.Popen([program, "drill", str(count)], stdin=subprocess.DEVNULL, stdout=subprocess.DEVNULL)
    _, status, used = os.wait4(child.pid, 0)
    child.returncode = os.waitstatus_to_exitcode(status)
    if child.returncode:
        sys.exit(f"drill {count}: status {child.returncode}")
    return [used.ru_utime + used.ru_stime]


def measure_drill(program, rounds):
    for count in DRILLED:
        (took,) = best(rounds if count < DRILLED[-1] else 1, lambda count=count: drilled(program, count))
        yield f"drill {count:,}", "s", took, 20 if count == DRILLED[-1] else None
        yield "a line of it", "us", took / count * 1e6, None


PARTS = {
    "long": measure_long,
    "lines": measure_lines,
    "untouching": measure_untouching,
    "items": measure_items,
    "table": measure_table,
    "verdicts": measure_verdicts,
    "load": measure_load,
    "partly": measure_partly,
    "drill": measure_drill,
}


def said():
    parser = argparse.ArgumentParser(description=__doc__, formatter_class=argparse.RawDescriptionHelpFormatter)
    parser.add_argument("program", nargs="?", default=run.TOP / "build" / "cpe", type=pathlib.Path, help="the program cpe (build/cpe)")
    parser.add_argument("--rounds", type=int, default=3, help="how often each is timed (3); the longest drill once")
    parser.add_argument("--only", choices=PARTS, nargs="+", default=list(PARTS), help="these parts alone")
    given = parser.parse_args()
    if not os.access(given.program, os.X_OK) or not given.program.is_file():
        parser.error(f"{given.program} is no program: run make build first")
    if given.rounds < 1:
        parser.error("it takes at least one round")
    return given


def main():
    given = said()
    program = given.program.resolve()
    print(f"load before: {os.getloadavg()[0]:.1f} on {os.cpu_count()} processors; processor time, best of {given.rounds}")
    print(f"\n{'what':<84}{'measured':>10}   {'target':>7}")
    for part in given.only:
        for what, unit, figure, most in PARTS[part](program, given.rounds):
            judged = "" if most is None else f"{most:>8}  {'met' if figure <= most else 'MISSED'}"
            print(f"{what:<84}{figure:>10.3f} {unit:<2}{judged}", flush=True)
    print(f"\nload behind: {os.getloadavg()[0]:.1f}")


if __name__ == "__main__":
    main()
