#!/usr/bin/env python3
"""Measures the index of names by product in `cpe resolve`: the cost of entries if there are very many, or if each has
another product; and of searches that find few of them, compared with a search over all.

Prints a table for each, and whether each target is met. README.md beside this file explains the tables.
"""
import argparse
import itertools
import os
import pathlib
import statistics
import subprocess
import sys
import threading
import time

sys.dont_write_bytecode = True
import make_lines
import run

# The targets: of an entry where there are most, and of a search beside its answers.
MOST_SECONDS, MOST_BYTES, MOST_MICROSECONDS, MOST_RATIO = 8, 700, 20, 1.5
# How many entries are beside the others for a form of search.
BESIDE = 100
# How many questions are timed alone after the first.
AGAIN = 20
TWIN = "resolve_tuned"
# What a pipe takes at once, so that a write never waits for whoever reads it.
AT_ONCE = 4096


def named(product, version=b"*"):
    return make_lines.PREFIX + b"a:v:" + product + b":" + version + b":*" * 7


# The products of the entries beside the others, none of which the sample has in any of its own.
FRONTS = [named(b"qmail%02d" % number, b"1.0") for number in range(BESIDE)]
BACKS = [named(b"%02dqmail" % number, b"1.0") for number in range(BESIDE)]
VERSIONS = [named(b"mailqueue", b"%d" % number) for number in range(BESIDE)]
# The forms of search: a product by which one of these entries is found, by its number, and one by which all of these
# are.
FORMS = {
    "product": ((b"qmail%02d", FRONTS), (b"mailqueue", VERSIONS)),
    "front": ((b"qmail%02d*", FRONTS), (b"qmail*", FRONTS)),
    "back": ((b"*%02dqmail", BACKS), (b"*qmail", BACKS)),
}
# A question with a unique answer, after the timed lines: its answer shows that they are done.
LAST = make_lines.record(b"lookup", named(b"qmail", b"last")) + b"\n"
LAST_ANSWER = b"lookup " + named(b"qmail", b"last") + b" absent\n"


def beside():
    draw = make_lines.Draw()
    return [make_lines.entry(draw, name, number) + b"\n" for number, name in enumerate([*FRONTS, *BACKS, *VERSIONS])]


def searches(form, all_each, times):
    """This many searches of this form for each of the entries, each of which finds that entry alone or all, and their
    output."""
    product, names = FORMS[form][all_each]
    records, answers = [], []
    for number in range(BESIDE):
        asked, found = (product, names) if all_each else (product % number, names[number : number + 1])
        name = make_lines.PREFIX + b"a:*:" + asked + b":*" * 8
        records.append(make_lines.record(b"search", name) + b"\n")
        answers.append(b"search %s %d\n" % (name, len(found)) + b"".join(b"entry %s active\n" % it for it in found))
    return [b"".join(it) * times for it in (records, answers)]


class Session:
    """The program with its entries, kept waiting for questions."""

    def __init__(self, words, path, count):
        """This many entries: those beside the others, and before them the first of the input."""
        self.path, self.count, self.times = path, count, {}
        self.child = subprocess.Popen(words, stdin=subprocess.PIPE, stdout=subprocess.PIPE, bufsize=run.PIECE)
        with open(path, "rb") as source:
            self.child.stdin.writelines(itertools.islice(source, count - 3 * BESIDE))
        self.child.stdin.writelines(beside())
        self.child.stdin.flush()
        run.rest(self.child)
        self.most_held = run.most_held(self.child)

    def put(self, records):
        self.child.stdin.write(records)
        self.child.stdin.flush()

    def ask(self, records, answers):
        """The seconds until these records, and one question after them, are answered."""
        records, answers = records + LAST, answers + LAST_ANSWER
        out, feeder = bytearray(), threading.Thread(target=self.put, args=[records])
        start = time.perf_counter()
        if len(records) <= AT_ONCE:
            self.put(records)
        else:
            feeder.start()
        while not out.endswith(LAST_ANSWER):
            piece = os.read(self.child.stdout.fileno(), run.PIECE)
            if not piece:
                sys.exit(f"the program ended over {self.path.name}")
            out += piece
        took = time.perf_counter() - start
        if feeder.ident:
            feeder.join()
        if out != answers:
            sys.exit(f"the answers over {self.path.name} are not those that it should give")
        return took

    def end(self):
        self.child.stdin.close()
        self.child.stdout.close()
        self.child.wait()


def measure_entries(words, paths, rounds):
    """The seconds of each input, and what a line takes of them."""
    print(f"\n{run.RESOLVE}, entries, best of {rounds}, the start of the program taken off for a line")
    print(f"{'input':<26}{'seconds':>10}{'us a line':>12}")
    start = min(run.seconds(words, pathlib.Path(os.devnull)) for _ in range(20))
    turns = [[run.seconds(words, it) for it in paths] for _ in range(rounds)]
    times = [min(it) for it in zip(*turns, strict=True)]
    for path, took in zip(paths, times, strict=True):
        count = int(path.stem.rsplit("-", 1)[1])
        print(f"{path.name:<26}{took:>10.2f}{(took - start) / count * 1e6:>12.2f}", flush=True)
    return times[0]


def measure_first(sessions):
    """What one question takes alone: the first that is asked after the entries, and the next ones."""
    print(f"\n{run.RESOLVE}, microseconds from one question to its answer, pipes included: the first, and the median of {AGAIN} more")
    print(f"{'input':<26}{'entries':>10}{'first look-up':>15}{'more':>8}{'first search':>14}{'more':>8}")
    records, answers = [it.splitlines(keepends=True) for it in searches("front", False, 1)]
    for it in sessions:
        found = []
        for question, answer in ((b"", b""), (records[0], b"".join(answers[:2]))):
            took = []
            for _ in range(1 + AGAIN):
                run.rest(it.child)
                took.append(it.ask(question, answer) * 1e6)
            found += [took[0], statistics.median(took[1:])]
        print(f"{it.path.name:<26}{it.count:>10,}{found[0]:>15.0f}{found[1]:>8.0f}{found[2]:>14.0f}{found[3]:>8.0f}", flush=True)


def time_searches(sessions, rounds, times):
    """Keeps for each session the seconds of a search by its form and by whether it finds all; the sessions take
    turns."""
    for form, all_each in itertools.product(FORMS, (False, True)):
        often = max(1, times // 50) if all_each else times
        records, answers = searches(form, all_each, often)
        turns = [[it.ask(records, answers) / (often * BESIDE) for it in sessions] for _ in range(rounds)]
        for it, took in zip(sessions, zip(*turns, strict=True), strict=True):
            it.times[form, all_each] = min(took)


def alone(session, form):
    """The seconds of a search of this form beside its answers, and those of an answer."""
    one, every = session.times[form, False], session.times[form, True]
    answer = (every - one) / (BESIDE - 1)
    return one - answer, answer


def measure_searches(sessions, rounds, times):
    """What a search takes over each session, and beside that over the first of them."""
    time_searches(sessions, rounds, times)
    print(f"\n{run.RESOLVE}, microseconds a search by the number of entries, best of {rounds}")
    print(f"{'search':<10}{'input':<26}{'entries':>10}{'finds 1':>9}{f'finds {BESIDE}':>11}{'an answer':>11}{'beside them':>13}{'ratio':>7}")
    for form in FORMS:
        first, _ = alone(sessions[0], form)
        for it in sessions:
            one, every = [it.times[form, all_each] * 1e6 for all_each in (False, True)]
            search, answer = alone(it, form)
            figures = f"{one:>9.2f}{every:>11.1f}{answer * 1e6:>11.2f}{search * 1e6:>13.2f}{search / first:>7.2f}"
            print(f"{form:<10}{it.path.name:<26}{it.count:>10,}{figures}", flush=True)


def scanned(session, form, times):
    """The session as a file, with searches after it where there is a form."""
    path = run.BUILD / f"scanned-{session.count}{'-' + form if form else ''}.txt"
    with open(session.path, "rb") as source, open(path, "wb") as out:
        out.writelines(itertools.islice(source, session.count - 3 * BESIDE))
        out.writelines(beside())
        if form:
            out.write(searches(form, False, times)[0])
    return path


def measure_scan(words, session, rounds, times):
    """The time of a search over all entries, beside ours."""
    twin = run.built_twins([TWIN])
    if not twin:
        return
    times = max(1, times // 200)
    paths = [scanned(session, form, times) for form in ("", *FORMS)]
    run.check_twins(run.RESOLVE, {run.RESOLVE: words, **twin}, paths)
    turns = [[run.seconds(twin[TWIN], it) for it in paths] for _ in range(rounds)]
    without, *behind = [min(it) for it in zip(*turns, strict=True)]
    print(f"\nmicroseconds a search that finds 1 of {session.count:,} entries, best of {rounds}")
    print(f"{'search':<10}{run.RESOLVE:>14}{TWIN:>16}{'ratio':>8}")
    for form, took in zip(FORMS, behind, strict=True):
        ours, scan = [it * 1e6 for it in (session.times[form, False], (took - without) / (times * BESIDE))]
        print(f"{form:<10}{ours:>14.2f}{scan:>16.1f}{scan / ours:>8.0f}", flush=True)


def tell_targets(figures):
    """Each target with what was measured; a row is what it is of, the most, and the figure."""
    print(f"\n{'target':<58}{'most':>9}{'measured':>10}")
    for what, most, figure in figures:
        print(f"{what:<58}{most:>9,}{figure:>10,.2f}  {'met' if figure <= most else 'MISSED'}")


def targets(load, held, few, many):
    yield f"seconds of {many.count:,} entries", MOST_SECONDS, load
    if held is not None:
        yield "bytes an entry", MOST_BYTES, held
    for form in FORMS:
        (first, _), (second, _) = alone(few, form), alone(many, form)
        yield f"us a search for a {form}, {few.count:,} entries", MOST_MICROSECONDS, first * 1e6
        yield f"us a search for a {form}, {many.count:,} entries", MOST_MICROSECONDS, second * 1e6
        yield f"the second beside the first, {form}", MOST_RATIO, second / first


def bytes_an_entry(words, session):
    """The memory of an entry, or None if the system doesn't report it."""
    before = run.peak(words, pathlib.Path(os.devnull))
    return None if None in (before, session.most_held) else (session.most_held - before) * 1024 / session.count


def said():
    parser = argparse.ArgumentParser(description=__doc__)
    parser.add_argument("program", nargs="?", default=run.TOP / "build" / "cpe", type=pathlib.Path, help="the program cpe (build/cpe)")
    parser.add_argument("--entries", type=int, default=2_000_000, help="the most entries (2000000, which is the most that cpe keeps)")
    parser.add_argument("--rounds", type=int, default=5, help="how often each is timed (5), entries three times at most")
    parser.add_argument("--hundreds", type=int, default=1_000, help="hundreds of searches of a form that are timed at once (1000)")
    given = parser.parse_args()
    if not os.access(given.program, os.X_OK) or not given.program.is_file():
        parser.error(f"{given.program} is no program: run make build first")
    if not 100_000 <= given.entries <= 2_000_000 or min(given.rounds, given.hundreds) < 1:
        parser.error("it takes 100000 to 2000000 entries, and at least one round and one hundred")
    return given


def main():
    given = said()
    words = [given.program.resolve(), "resolve"]
    if not run.knows(words):
        print(f"the program has no command {run.RESOLVE}: nothing is measured")
        return
    few, some, many = [max(1, given.entries // it) for it in (100, 10, 1)]
    paths = [run.made("entry", many), run.made("entry", some), run.made("new-product", some)]
    print(f"load before: {os.getloadavg()[0]:.1f} on {os.cpu_count()} processors")
    load = measure_entries(words, paths, min(3, given.rounds))
    sessions = [Session(words, *it) for it in ((paths[0], few), (paths[0], many), (paths[2], some))]
    held = bytes_an_entry(words, sessions[1])
    measure_first(sessions)
    measure_searches(sessions, given.rounds, given.hundreds)
    for it in sessions:
        it.end()
    measure_scan(words, sessions[0], given.rounds, given.hundreds)
    tell_targets(targets(load, held, *sessions[:2]))
    print(f"\nload behind: {os.getloadavg()[0]:.1f}")


if __name__ == "__main__":
    main()
