#!/usr/bin/env python3
"""Measures `cpe evaluate` beside OpenSCAP (`oscap xccdf eval`) over the same statements and items, whole runs of both,
and compares their verdicts.

The statements are the platforms of the rules of a benchmark, and the items those of a CPE dictionary, each with a check
of OVAL that holds: a rule is applicable exactly where its statement is TRUE. Prints the processor time of both, and
says whether the target is met. Without `oscap` nothing is measured, which is said. README.md beside this file says how
to read it.
"""
import argparse
import json
import os
import pathlib
import re
import shutil
import subprocess
import sys
from xml.sax.saxutils import quoteattr

sys.dont_write_bytecode = True
import make_lines
import run

# The target: how many times as long the other takes.
LEAST_RATIO = 15
ROOM = run.BUILD / "openscap"
OVAL = "http://oval.mitre.org/XMLSchema/oval-definitions-5"
SCHEMAS = "http://oval.mitre.org/XMLSchema/oval-common-5"
XCCDF = "http://checklists.nist.gov/xccdf/1.2"
LANGUAGE, DICTIONARY = "http://cpe.mitre.org/language/2.0", "http://cpe.mitre.org/dictionary/2.0"
HEAD = '<?xml version="1.0" encoding="UTF-8"?>\n'


def without_pattern(name):
    """The fact with ANY in place of a version that ends with an asterisk: OpenSCAP doesn't match these as NIST IR 7696
    does."""
    components = re.split(r"(?<!\\):", name)
    if components[5].endswith("*"):
        components[5] = "*"
    return ":".join(components)


def records(count):
    """Items and statements of `evaluated`, with facts alone and none of a pattern."""
    items, statements = [], []
    for line in make_lines.evaluated_lines(count):
        record = json.loads(line)
        if record["do"] == "item":
            items.append(record)
            continue
        facts = [without_pattern(it["fact"]) for it in record["test"]["of"] if "fact" in it]
        record["test"]["of"] = [{"fact": it} for it in facts]
        statements.append(record)
    return items, statements


def uris(program, names):
    """The URI of each of the names."""
    found = "\n".join([*names, ""]).encode()
    for words in (["unbind"], ["bind", "uri"]):
        found = subprocess.run([program, *words], input=found, stdout=subprocess.PIPE, check=True).stdout
    return dict(zip(names, found.decode().splitlines(), strict=True))


def dictionary(names):
    yield f'{HEAD}<cpe-list xmlns="{DICTIONARY}">\n'
    for number, name in enumerate(names, 1):
        check = f'<check system="{OVAL}" href="oval.xml">oval:bench:def:{number}</check>'
        yield f'<cpe-item name={quoteattr(name)}><title xml:lang="en-us">it</title>{check}</cpe-item>\n'
    yield "</cpe-list>\n"


def definitions(count):
    """This many definitions of one test, which holds on this system."""
    family = f"{OVAL}#independent"
    yield f'{HEAD}<oval_definitions xmlns="{OVAL}" xmlns:oval="{SCHEMAS}" xmlns:ind="{family}"><generator>'
    yield "<oval:schema_version>5.10</oval:schema_version><oval:timestamp>2024-01-01T00:00:00</oval:timestamp></generator><definitions>\n"
    for number in range(1, count + 1):
        criteria = '<criteria><criterion test_ref="oval:bench:tst:1"/></criteria>'
        told = "<metadata><title>it</title><description>it</description></metadata>"
        yield f'<definition id="oval:bench:def:{number}" version="1" class="inventory">{told}{criteria}</definition>\n'
    yield '</definitions><tests><ind:family_test id="oval:bench:tst:1" version="1" check="only one" comment="it">'
    yield '<ind:object object_ref="oval:bench:obj:1"/><ind:state state_ref="oval:bench:ste:1"/></ind:family_test></tests>'
    yield '<objects><ind:family_object id="oval:bench:obj:1" version="1"/></objects><states>'
    yield '<ind:family_state id="oval:bench:ste:1" version="1"><ind:family>unix</ind:family></ind:family_state></states></oval_definitions>\n'


def benchmark(statements, uri):
    head = f'<Benchmark xmlns="{XCCDF}" xmlns:cpe="{LANGUAGE}" id="xccdf_bench_benchmark_it" resolved="1" xml:lang="en">'
    yield f"{HEAD}{head}<status>draft</status><title>it</title><cpe:platform-specification>\n"
    for number, it in enumerate(statements):
        facts = "".join(f"<cpe:fact-ref name={quoteattr(uri[child['fact']])}/>" for child in it["test"]["of"])
        test = f'<cpe:logical-test operator="{it["test"]["op"]}" negate="false">{facts}</cpe:logical-test>'
        yield f'<cpe:platform id="s{number}">{test}</cpe:platform>\n'
    yield "</cpe:platform-specification><version>1</version>\n"
    for number in range(len(statements)):
        yield f'<Rule id="xccdf_bench_rule_{number}" selected="true"><title>it</title><platform idref="#s{number}"/></Rule>\n'
    yield "</Benchmark>\n"


def write_inputs(program, count):
    items, statements = records(count)
    facts = [child["fact"] for it in statements for child in it["test"]["of"]]
    names = [it["name"] for it in items]
    uri = uris(program, [*names, *facts])
    ROOM.mkdir(parents=True, exist_ok=True)
    for file, lines in (
        ("dictionary.xml", dictionary([uri[it] for it in names])),
        ("oval.xml", definitions(len(names))),
        ("benchmark.xml", benchmark(statements, uri)),
        ("evaluated.jsonl", (json.dumps(it) + "\n" for it in [*items, *statements])),
    ):
        (ROOM / file).write_text("".join(lines))


def timed(words, source):
    """The processor time of a run, and what it writes."""
    child = subprocess.Popen(words, cwd=ROOM, stdin=source, stdout=subprocess.PIPE, stderr=subprocess.DEVNULL)
    out = child.stdout.read().decode()
    child.stdout.close()
    _, status, used = os.wait4(child.pid, 0)
    child.returncode = os.waitstatus_to_exitcode(status)
    if child.returncode:
        sys.exit(f"{words[0]} ended with status {child.returncode}")
    return used.ru_utime + used.ru_stime, out


def ours(program):
    with open(ROOM / "evaluated.jsonl", "rb") as source:
        took, out = timed([program, "evaluate"], source)
    return took, [line.endswith(" TRUE") for line in out.splitlines() if line.startswith("verdict ")]


def theirs(oscap):
    words = [oscap, "xccdf", "eval", "--skip-valid", "--progress", "--cpe", "dictionary.xml", "benchmark.xml"]
    took, out = timed(words, subprocess.DEVNULL)
    return took, [not line.endswith(":notapplicable") for line in out.splitlines() if line.startswith("xccdf_bench_rule_")]


def said():
    parser = argparse.ArgumentParser(description=__doc__)
    parser.add_argument("program", nargs="?", default=run.TOP / "build" / "cpe", type=pathlib.Path, help="the program cpe (build/cpe)")
    parser.add_argument("--statements", type=int, default=1_000, help="so many statements of three facts, over twice as many items (1000)")
    parser.add_argument("--rounds", type=int, default=5, help="how often both are timed (5)")
    given = parser.parse_args()
    if not os.access(given.program, os.X_OK) or not given.program.is_file():
        parser.error(f"{given.program} is no program: run make build first")
    if min(given.statements, given.rounds) < 1:
        parser.error("it takes at least one statement and one round")
    return given


def main():
    given = said()
    oscap = shutil.which("oscap")
    if not oscap:
        print("oscap is not on PATH: nothing is measured beside it")
        return
    program = given.program.resolve()
    write_inputs(program, given.statements)
    print(f"load before: {os.getloadavg()[0]:.1f} on {os.cpu_count()} processors; processor time, best of {given.rounds}")
    turns = [(ours(program), theirs(oscap)) for _ in range(given.rounds)]
    if any(one[1] != other[1] or len(one[1]) != given.statements for one, other in turns):
        sys.exit("the verdicts differ")
    one, other = min(it[0][0] for it in turns), min(it[1][0] for it in turns)
    true = sum(turns[0][0][1])
    print(f"{given.statements:,} statements over {2 * given.statements:,} items, {true:,} of them TRUE, of both programs the same ones")
    print(f"cpe evaluate     {one * 1e3:8.1f} ms\noscap xccdf eval {other * 1e3:8.1f} ms")
    judged = "met" if other / one >= LEAST_RATIO else "MISSED"
    print(f"ratio            {other / one:8.1f}, target at least {LEAST_RATIO}: {judged}\nload behind: {os.getloadavg()[0]:.1f}")


if __name__ == "__main__":
    main()
