#!/usr/bin/env python3
"""Measures `cpe unbind`, `cpe bind fs`, `cpe bind uri`, `cpe compare`, `cpe resolve`, `cpe evaluate` and
`cpe watch` against unproved Rust programs that write the same, on the same input.

Prints a table for each command and input: seconds, the ratio to `cpe`, and peak memory; for `cpe resolve`
what a line takes by the number of entries, and what a deprecation takes beside an entry; for
`cpe evaluate` what the table of verdicts takes, and in mode follow beside mode plain; and for `cpe watch`
what a line takes by the number of lines.
README.md beside this file says how to read it.
"""
import argparse
import fcntl
import os
import pathlib
import re
import shutil
import struct
import subprocess
import sys
import termios
import time

sys.dont_write_bytecode = True
import make_lines

HERE = pathlib.Path(__file__).resolve().parent
TOP = HERE.parent
BUILD = TOP / "build" / "bench"
# The commands, each with the twins that answer as it does; and what copies only.
UNBIND, BIND_FS, BIND_URI, COMPARE = "cpe unbind", "cpe bind fs", "cpe bind uri", "cpe compare"
RESOLVE = "cpe resolve"
EVALUATE = "cpe evaluate"
WATCH = "cpe watch"
ADVISE = "cpe advise"
COVER = "cpe cover"
BIND_TWINS = ["bind_tuned", "bind_plain"]
TWINS = {
    UNBIND: ["unbind_tuned", "unbind_plain"],
    BIND_FS: BIND_TWINS,
    BIND_URI: BIND_TWINS,
    COMPARE: ["compare_tuned", "compare_plain"],
    RESOLVE: ["resolve_tuned"],
    EVALUATE: ["resolve_tuned"],
    WATCH: ["resolve_tuned"],
    ADVISE: ["advise_tuned"],
    COVER: ["cover_tuned"],
}
COPIES = ["lines"]
# (it reads records as JSON and writes them again)
JQ = "jq -c ."
VECTORS = TOP / "tests" / "vectors"
USAGE = 2
PIECE = 1 << 16


def is_older(path, *sources):
    return not path.exists() or any(path.stat().st_mtime < it.stat().st_mtime for it in sources)


def built_twins(names):
    """These twins by name, compiled where their source is newer; none if there is no rustc."""
    if not shutil.which("rustc"):
        print("rustc is not on PATH: the twins are left out")
        return {}
    BUILD.mkdir(parents=True, exist_ok=True)
    found = {}
    readers = list((HERE / "twins").glob("reading_*.rs"))
    for name in names:
        source, program = HERE / "twins" / f"{name}.rs", BUILD / name
        if is_older(program, source, *readers):
            # (the processor that Rattle builds for, too)
            flags = ["--edition", "2021", "-O", "-C", "target-cpu=x86-64-v2"]
            subprocess.run(["rustc", *flags, "-o", program, source], check=True)
        found[name] = [program]
    return found


def made(mode, count):
    """The input of this mode and number of lines, made where it is not there yet."""
    path = BUILD / (f"{mode}-{count}.txt" if count else f"{mode}.txt")
    if is_older(path, HERE / "make_lines.py", make_lines.SAMPLE):
        make_lines.write(mode, count, path)
    return path


def difference(ours, theirs, path):
    """What differs between the outputs and statuses of two programs on this input, or None."""
    with open(path, "rb") as one, open(path, "rb") as other:
        left = subprocess.Popen(ours, stdin=one, stdout=subprocess.PIPE)
        right = subprocess.Popen(theirs, stdin=other, stdout=subprocess.PIPE)
        found, number = None, 1
        while not found:
            a, b = left.stdout.read(PIECE), right.stdout.read(PIECE)
            if a != b:
                same = len(os.path.commonprefix([a, b]))
                found = f"output line {number + a[:same].count(10)}"
            elif not a:
                break
            number += a.count(10)
        left.stdout.close()
        right.stdout.close()
        statuses = left.wait(), right.wait()
    return found or (f"exit status {statuses[0]} and {statuses[1]}" if statuses[0] != statuses[1] else None)


def check_twins(command, programs, paths):
    """Ends this run if a twin answers otherwise than our program, because its times would mean nothing."""
    differ = False
    for name in (it for it in TWINS[command] if it in programs):
        for path in paths:
            found = difference(programs[command], programs[name], path)
            if found:
                differ = True
                print(f"{name} and {command} differ on {path.name}: {found}")
    if differ:
        sys.exit(1)


def seconds(words, path):
    """How long the program takes over this input, its output dropped."""
    with open(path, "rb") as source:
        start = time.perf_counter()
        status = subprocess.run(words, stdin=source, stdout=subprocess.DEVNULL).returncode
        took = time.perf_counter() - start
    if status not in (0, 1):
        sys.exit(f"{words[0]} ended with status {status} on {path.name}")
    return took


def best_times(programs, path, rounds):
    """The best time of each program by name; they take turns, so that what else runs here hits all alike."""
    times = {name: [] for name in programs}
    for _ in range(rounds):
        for name, words in programs.items():
            times[name].append(seconds(words, path))
    return {name: min(found) for name, found in times.items()}


def waiting(pipe):
    """How many bytes in the pipe are not read yet."""
    return struct.unpack("i", fcntl.ioctl(pipe, termios.FIONREAD, b"\0" * 4))[0]


def rest(child):
    """Waits until the program has read and handled all its input."""
    while waiting(child.stdin) and child.poll() is None:
        time.sleep(0.001)
    time.sleep(0.05)


def most_held(child):
    """The kernel's mark of the most memory that this process held at once, in KiB, or None if there is none."""
    found = re.search(r"VmHWM:\s+(\d+) kB", pathlib.Path(f"/proc/{child.pid}/status").read_text())
    return int(found.group(1)) if found else None


def peak(words, path):
    """The most memory that the program held at once, in KiB, or None if the system doesn't report it.

    It is read when the program has handled all input and before it sees the end. (wait4 counts the memory of this
    script too, because a child begins with it.)
    """
    child = subprocess.Popen(words, stdin=subprocess.PIPE, stdout=subprocess.DEVNULL)
    try:
        with open(path, "rb") as source:
            shutil.copyfileobj(source, child.stdin, PIECE)
        child.stdin.flush()
        rest(child)
        return most_held(child)
    except OSError:
        return None
    finally:
        child.communicate()


def in_kib(number):
    return "-" if number is None else f"{number:,}"


def measure(command, programs, path, rounds):
    times = best_times(programs, path, rounds)
    print(f"\n{path.name}: {path.stat().st_size / 1e6:.1f} MB, best of {rounds}, output to /dev/null")
    print(f"{'program':<14}{'seconds':>9}{'ratio':>8}{'peak KiB':>10}")
    for name, words in programs.items():
        ratio, most = times[name] / times[command], in_kib(peak(words, path))
        print(f"{name:<14}{times[name]:>9.3f}{ratio:>8.2f}{most:>10}", flush=True)


def measure_memory(ours, counts):
    print(f"\n{UNBIND}, peak memory by the number of lines")
    for count in counts:
        print(f"{count:>10,} lines{in_kib(peak(ours, made('valid', count))):>10} KiB")


def measure_rows(programs, counts, rounds):
    """What a line takes by the number of entries there are: one that adds an entry, and one that asks for one."""
    print(f"\n{RESOLVE}, microseconds a line by the number of entries, best of {rounds} and more, the start of the program taken off")
    print(f"{'program':<14}{'entries':>10}{'an entry':>10}{'a question':>12}")
    for count in counts:
        # (a run over few entries is short, and bears noise worse)
        often = rounds * max(1, 20_000 // count)
        starts, added = [best_times(programs, it, often) for it in (pathlib.Path(os.devnull), made("entry", count))]
        asked = best_times(programs, made("asked-often", count), rounds)
        for name in programs:
            entry = (added[name] - starts[name]) / count
            question = (asked[name] - added[name]) / make_lines.ASKED_OFTEN
            print(f"{name:<14}{count:>10,}{entry * 1e6:>10.2f}{question * 1e6:>12.2f}", flush=True)


def measure_dictionary(programs, count, rounds):
    """The cost of a search over this many entries, and the memory of an entry."""
    empty, entries = pathlib.Path(os.devnull), made("entry", count)
    added, searched = [best_times(programs, it, rounds) for it in (entries, made("searched", count))]
    print(f"\n{RESOLVE}, {count:,} entries, best of {rounds}")
    print(f"{'program':<14}{'ms a search':>12}{'bytes an entry':>16}")
    for name, words in programs.items():
        search = (searched[name] - added[name]) / make_lines.SEARCHED
        before, behind = peak(words, empty), peak(words, entries)
        taken = "-" if None in (before, behind) else f"{(behind - before) * 1024 / count:,.0f}"
        print(f"{name:<14}{search * 1e3:>12.2f}{taken:>16}", flush=True)


def measure_deprecations(programs, count, rounds):
    """What a line takes on average of deprecations and of the questions where they lead, and of entries and lookups."""
    behind = 2 * make_lines.deprecated_of(count)
    inputs = [made(mode, count) for mode in ("entry", "added", "deprecated")]
    # (the inputs take turns too, because differences of their times are reported)
    turns = [[best_times(programs, it, 1) for it in inputs] for _ in range(rounds)]
    kept, added, deprecated = [{name: min(it[name] for it in times) for name in programs} for times in zip(*turns, strict=True)]
    print(f"\n{RESOLVE}, microseconds a line of {behind:,} behind {count:,} entries, best of {rounds}")
    print(f"{'program':<14}{'entry, lookup':>15}{'deprecation, chain':>20}{'ratio':>8}")
    for name in programs:
        one, other = [(it[name] - kept[name]) / behind * 1e6 for it in (added, deprecated)]
        print(f"{name:<14}{one:>15.2f}{other:>20.2f}{other / one:>8.2f}", flush=True)


def measure_verdicts(with_table, without, inputs, rounds):
    """What the table of verdicts takes: a run that writes it, less one over the same lines that writes none."""
    print(f"\n{EVALUATE}, milliseconds of the table of verdicts, best of {rounds}")
    print(f"{'program':<14}" + "".join(f"{path.name:>26}" for path in inputs))
    turns = [(best_times(with_table, it, rounds), best_times(without, it, rounds)) for it in inputs]
    for name, other in zip(with_table, without, strict=True):
        print(f"{name:<14}" + "".join(f"{(one[name] - two[other]) * 1e3:>26.1f}" for one, two in turns), flush=True)


def measure_watched(programs, sizes, rounds):
    """What a line takes by the number of lines of a session: the more there are, the more verdicts are looked at for
    each."""
    print(f"\n{WATCH}, microseconds a line by the number of lines, best of {rounds}, the start of the program taken off")
    print(f"{'program':<14}{'lines':>10}{'mixed':>12}{'statements':>12}{'watched':>12}")
    starts = best_times(programs, pathlib.Path(os.devnull), rounds)
    for count in sizes:
        statements = max(1, count // 8)
        mixed, watched = [best_times(programs, it, rounds) for it in (made("mixed", count), made("watched", statements))]
        for name in programs:
            # (each statement, and for it an item, a result, and half of an item dropped)
            line, other = [(it[name] - starts[name]) / of for it, of in ((mixed, count), (watched, 3.5 * statements))]
            print(f"{name:<14}{count:>10,}{line * 1e6:>12.1f}{statements:>12,}{other * 1e6:>12.1f}", flush=True)


def deprecates(words):
    """Whether the program has deprecations; where it hasn't, it refuses what would ask for a chain."""
    run = subprocess.run(words, input=b'{"do":"chain","name":"cpe:/a"}\n', stdout=subprocess.PIPE)
    return run.stdout.startswith(b"chain ")


def knows(words):
    """Whether the program has this command; where it hasn't, it answers its usage line."""
    run = subprocess.run(words, stdin=subprocess.DEVNULL, stdout=subprocess.PIPE)
    return not (run.returncode == USAGE and run.stdout.startswith(b"usage: "))


def reads_uris(words):
    """Whether the program unbinds URIs; where it doesn't, it refuses each."""
    run = subprocess.run(words, input=b"cpe:/a\n", stdout=subprocess.PIPE)
    return run.stdout.startswith(b"wfn:")


def side_by_side(program, command, others):
    """The words of our program under this command and of the others that are measured with it, by name."""
    first, *binding = command.split()[1:]
    # (one twin has all commands over records)
    given = [first] if command in (EVALUATE, WATCH) else binding
    twins = {name: [*others[name], *given] for name in TWINS[command] if name in others}
    copies = {name: others[name] for name in COPIES if name in others}
    return {command: [program, first, *binding], **twins, **copies}


def parts_of(program, others, lines):
    """What is measured: commands, their programs, and the inputs of each; and what is compared alone."""
    # (as many lines as make about 60 MB, where the other inputs have 1,000,000)
    few = max(1, lines * 915 // 1_000_000)
    edges = [made("edges", 0), made("uri-edges", 0)]
    unbind = side_by_side(program, UNBIND, others)
    inputs = [made("valid", lines), made("refused", lines), made("long", few)]
    if reads_uris(unbind[UNBIND]):
        inputs += [made("uri", lines), made("uri-refused", lines), made("uri-long", few)]
        yield UNBIND, unbind, inputs, edges
    else:
        print("the program doesn't unbind URIs: these inputs are left out")
        yield UNBIND, unbind, inputs, edges[:1]
    for command in (BIND_FS, BIND_URI):
        bind = side_by_side(program, command, others)
        if knows(bind[command]):
            yield command, bind, [made("wfn", lines), made("wfn-refused", lines), made("wfn-long", few)], edges
        else:
            print(f"the program has no command {command}: that part is left out")
    compare = side_by_side(program, COMPARE, others)
    if knows(compare[COMPARE]):
        # (the plain twin tries each place: a hundredth of the lines is enough of them)
        inputs = [made("pair", lines), made("pair-refused", lines), made("pair-long", few), made("pair-equal", max(1, few // 100))]
        yield COMPARE, compare, inputs, [*edges, made("pair-edges", 0)]
    else:
        print(f"the program has no command {COMPARE}: that part is left out")
    resolve = side_by_side(program, RESOLVE, others)
    if knows(resolve[RESOLVE]):
        if JQ in others:
            resolve[JQ] = others[JQ]
        else:
            print("jq is not on PATH: it is left out")
        count = entries_of(lines)
        inputs = [made("entry", count), made("asked", count), made("searched", count)]
        if deprecates(resolve[RESOLVE]):
            inputs += [made("added", count), made("deprecated", count)]
        else:
            print("the program has no deprecations: these inputs are left out")
        yield RESOLVE, resolve, inputs, vectors_of(RESOLVE, EVALUATE)
    else:
        print(f"the program has no command {RESOLVE}: that part is left out")
    evaluate = side_by_side(program, EVALUATE, others)
    if knows(evaluate[EVALUATE]):
        tables, statements = evaluations_of(lines)
        yield EVALUATE, evaluate, [*tables, statements], vectors_of(RESOLVE, EVALUATE)
    else:
        print(f"the program has no command {EVALUATE}: that part is left out")
    watch = side_by_side(program, WATCH, others)
    if knows(watch[WATCH]):
        yield WATCH, watch, [made("mixed", sizes_of(lines)[-1]), made("watched", sizes_of(lines)[-1] // 8)], vectors_of(RESOLVE, EVALUATE, WATCH)
    else:
        print(f"the program has no command {WATCH}: that part is left out")


def vectors_of(*commands):
    """The inputs that show what these commands write."""
    return [path for it in commands for path in sorted((VECTORS / "-".join(it.split()[1:])).glob("*.in"))]


def sizes_of(lines):
    """How many lines the sessions have in which each edit is watched, the shortest first: 600, 1,200 and 2,400 where
    the other inputs have 1,000,000."""
    return [max(8, lines * it // 1_000_000) for it in (600, 1_200, 2_400)]


def evaluations_of(lines):
    """The inputs of `evaluate`: of its table, and statements that are only read."""
    count = entries_of(lines)
    tables = [made("unfollowed", count), made("followed", count), made("evaluated", max(1, lines // 1000))]
    return tables, made("statement", max(1, lines // 10))


def entries_of(lines):
    """As many entries as a real dictionary has, where the other inputs have 1,000,000 lines."""
    return max(1, lines * 128_650 // 1_000_000)


def said():
    parser = argparse.ArgumentParser(description=__doc__)
    parser.add_argument("program", nargs="?", default=TOP / "build" / "cpe", type=pathlib.Path, help="the program cpe (build/cpe)")
    parser.add_argument("--lines", type=int, default=1_000_000, help="lines of the inputs (1000000)")
    parser.add_argument("--rounds", type=int, default=5, help="runs of each program on each input (5)")
    parser.add_argument("--watched", type=int, help="lines of the one session of watch that is told by the line; 24000 take some twenty minutes a run")
    given = parser.parse_args()
    if not os.access(given.program, os.X_OK) or not given.program.is_file():
        parser.error(f"{given.program} is no program: run make build first")
    if given.lines < 100 or given.rounds < 1:
        parser.error("it takes at least 100 lines and one round")
    return given


def main():
    given = said()
    others = built_twins([*TWINS[UNBIND], *BIND_TWINS, *TWINS[COMPARE], *TWINS[RESOLVE], *COPIES])
    if shutil.which("jq"):
        others[JQ] = JQ.split()
    parts = list(parts_of(given.program.resolve(), others, given.lines))
    for command, programs, paths, edges in parts:
        check_twins(command, programs, [*paths, *edges])
    print(f"load before: {os.getloadavg()[0]:.1f} on {os.cpu_count()} processors")
    for command, programs, paths, _ in parts:
        for path in paths:
            measure(command, programs, path, given.rounds)
    measure_memory([given.program.resolve(), "unbind"], [given.lines // 100, given.lines // 10, given.lines])
    for command, programs, _, _ in parts:
        if command == RESOLVE:
            answering = {name: programs[name] for name in (RESOLVE, *TWINS[RESOLVE]) if name in programs}
            measure_rows(answering, [given.lines // 1000, given.lines // 100, given.lines // 10], given.rounds)
            measure_dictionary(answering, entries_of(given.lines), given.rounds)
            if deprecates(programs[RESOLVE]):
                measure_deprecations(answering, entries_of(given.lines), given.rounds)
        if command == EVALUATE:
            pairs = [side_by_side(given.program.resolve(), it, others) for it in (EVALUATE, RESOLVE)]
            for it in pairs:
                for name in COPIES:
                    it.pop(name, None)
            measure_verdicts(*pairs, evaluations_of(given.lines)[0], given.rounds)
        if command == WATCH:
            answering = {name: it for name, it in programs.items() if name not in COPIES}
            measure_watched(answering, [given.watched] if given.watched else sizes_of(given.lines), given.rounds)
    print(f"\nload behind: {os.getloadavg()[0]:.1f}")


if __name__ == "__main__":
    main()
