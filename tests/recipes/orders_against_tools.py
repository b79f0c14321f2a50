#!/usr/bin/env python3
"""Compares each order of versions with the tool whose order it is, on random pairs: python3 orders_against_tools.py
[PAIRS [PROGRAM]].

    cpe advise (PROGRAM, or what CPE names); dpkg --compare-versions, and Dpkg::Version of the same source; Python's rpm, packaging
    and semver; golang.org/x/mod/semver and go-apk-version, by Go; ComparableVersion of maven-artifact, by Java

It prints for each how many pairs were compared, how many are of versions, and those on which the two differ. Then it
asks the tools about versions without a kind, and prints how many of their answers aren't among those that versions.py
considers possible. A tool that isn't installed is skipped, which is reported. The status is 1 if anything differs or is
missing.
"""
import os
import pathlib
import random
import re
import shutil
import subprocess
import sys
import tempfile

HERE = pathlib.Path(__file__).resolve().parent
sys.path.insert(0, str(HERE.parents[1] / "recipes"))

from cpe_recipes import names  # noqa: E402
from cpe_recipes.feeds import record_text  # noqa: E402
from cpe_recipes.orders import apk, dpkg, golang, maven, pep440, plain, rpm, semver  # noqa: E402
from cpe_recipes.readings import without_epoch  # noqa: E402
from cpe_recipes.versions import orders as possible  # noqa: E402

SEED = 54
# A process for each pair takes long, so dpkg itself compares only one of this many pairs.
PAIRS_OF_DPKG = 50
GOCODE = "/usr/share/gocode"
MAVEN = "/usr/share/maven/lib/maven-artifact-3.x.jar"
MOST_ARGUMENTS = 20_000


class Missing(Exception):
    """A tool that isn't installed."""


def needs(*tools):
    for tool in tools:
        if shutil.which(tool) is None and not pathlib.Path(tool).exists():
            raise Missing(f"there is no {tool}")


class Drawn:
    """Random versions; the two of a pair are often nearly the same."""

    def __init__(self, count, bits, fronts=("",), ends=("",)):
        self.draw = random.Random(SEED)
        self.bits, self.fronts, self.ends = bits, fronts, ends
        self.pairs = [self.pair() for _ in range(count)]

    def text(self):
        middle = "".join(self.draw.choice(self.bits) for _ in range(self.draw.randint(1, 6)))
        return self.draw.choice(self.fronts) + middle + self.draw.choice(self.ends)

    def pair(self):
        one = self.text()
        if self.draw.random() < 0.5:
            return one, self.text()
        place = self.draw.randrange(len(one))
        other = one[:place] + self.draw.choice(["", *self.bits]) + one[place + self.draw.randint(0, 2) :]
        return (one, other or one) if self.draw.random() < 0.5 else (other or one, one)


NUMBERS = ["0", "1", "2", "9", "10", "01", "007", "2024", ".", ".", ".", ".", "."]
MARKS = ["~", "+", "-", "^", "_"]
WORDS = ["a", "b", "rc", "z", "alpha", "beta", "dev", "post", "pre"]


def run(command, text, **more):
    done = subprocess.run(command, input=text, capture_output=True, text=True, **more)
    if done.returncode:
        raise Missing(f"{command[0]} ended with {done.returncode}: {done.stderr.strip()[:200]}")
    return done.stdout.splitlines()


def signs(lines):
    """The orders in lines that are -1, 0 or 1; None for a line that says that a text is no version."""
    return [int(line) if line in ("-1", "0", "1") else None for line in lines]


def lines_of(pairs):
    return "".join(f"{one} {other}\n" for one, other in pairs)


def by_cpe(pairs):
    program = sys.argv[2] if len(sys.argv) > 2 else os.environ.get("CPE", "")
    needs(program or "cpe")
    product = "cpe:2.3:a:v:p:*:*:*:*:*:*:*:*"
    lines = []
    for one, other in pairs:
        name = f"cpe:2.3:a:v:p:{names.quote(one)}:*:*:*:*:*:*:*"
        lines.append(record_text({"do": "item", "name": name}))
        for more in ({"end": other, "end-excluded": True}, {"end": other}):
            lines.append(record_text({"do": "advisory", "id": "r", "name": product, **more}))
            lines += ['{"do":"affected","id":"r"}', '{"do":"drop-advisory","id":"r"}']
        lines.append(record_text({"do": "drop-item", "name": name}))
    told = [line.split() for line in run([program or "cpe", "advise"], "\n".join(lines) + "\n") if line.startswith("affected ")]
    counts = [int(words[2]) for words in told]
    return [{(1, 1): -1, (0, 1): 0, (0, 0): 1}[pair] for pair in zip(counts[::2], counts[1::2])]


def by_dpkg(pairs):
    needs("dpkg")
    # (its status is 2 if a text is no version)
    script = 'while read -r a b; do dpkg --compare-versions "$a" lt "$b" 2> /dev/null; case $? in 0) echo -1; continue ;; ' \
        '2) echo none; continue ;; esac; if dpkg --compare-versions "$a" eq "$b"; then echo 0; else echo 1; fi; done'
    return signs(run(["sh", "-c", script], lines_of(pairs)))


def by_dpkgs_source(pairs):
    needs("perl")
    script = 'use Dpkg::Version; while (<>) { my ($a, $b) = map { Dpkg::Version->new($_) } split; ' \
        'print($a->is_valid() && $b->is_valid() ? $a <=> $b : "none", "\\n") }'
    return signs(run(["perl", "-e", script], lines_of(pairs)))


def by_rpm(pairs):
    try:
        import rpm as module
    except ImportError as fault:
        raise Missing("there is no module rpm") from fault

    def parts(text):
        epoch, version, release = re.fullmatch(r"(?:([0-9]*):)?([^:-]*)(?:-([^:-]+))?", text).groups()
        return epoch or "0", version, release or ""

    def compared(one, other):
        try:
            return module.labelCompare(parts(one), parts(other))
        except (ValueError, AttributeError):
            return None

    return [compared(one, other) for one, other in pairs]


def by_packaging(pairs):
    try:
        from packaging.version import InvalidVersion, Version
    except ImportError as fault:
        raise Missing("there is no module packaging") from fault

    def compared(one, other):
        try:
            left, right = Version(one), Version(other)
        except InvalidVersion:
            return None
        return (left > right) - (left < right)

    return [compared(one, other) for one, other in pairs]


def by_semver(pairs):
    try:
        import semver as module
    except ImportError as fault:
        raise Missing("there is no module semver") from fault

    def compared(one, other):
        try:
            left, right = module.VersionInfo.parse(one), module.VersionInfo.parse(other)
        except ValueError:
            return None
        return left.compare(right)

    return [compared(one, other) for one, other in pairs]


GO = """package main

import (
	"bufio"
	"fmt"
	"os"
	"strings"
	tool "%s"
)

func main() {
	lines := bufio.NewScanner(os.Stdin)
	out := bufio.NewWriter(os.Stdout)
	defer out.Flush()
	for lines.Scan() {
		two := strings.SplitN(lines.Text(), " ", 2)
		%s
	}
}
"""
GO_SEMVER = """if a, b := "v"+two[0], "v"+two[1]; tool.IsValid(a) && tool.IsValid(b) {
			fmt.Fprintln(out, tool.Compare(a, b))
		} else {
			fmt.Fprintln(out, "none")
		}"""
GO_APK = """if a, b := tool.Version(two[0]), tool.Version(two[1]); tool.Valid(two[0]) && tool.Valid(two[1]) {
			fmt.Fprintln(out, a.Compare(b))
		} else {
			fmt.Fprintln(out, "none")
		}"""


def by_go(package, body):
    def compared(pairs):
        needs("go", f"{GOCODE}/src/{package}")
        with tempfile.TemporaryDirectory() as folder:
            path = pathlib.Path(folder) / "main.go"
            path.write_text(GO % (package, body))
            environment = {**os.environ, "GO111MODULE": "off", "GOPATH": GOCODE, "GOCACHE": f"{folder}/cache", "GOFLAGS": ""}
            return signs(run(["go", "run", str(path)], lines_of(pairs), env=environment))

    return compared


def by_maven(pairs):
    needs("java", MAVEN)
    found = []
    for start in range(0, len(pairs), MOST_ARGUMENTS):
        part = pairs[start : start + MOST_ARGUMENTS]
        # (it compares each version with the one before it)
        lines = run(["java", "-jar", MAVEN, *(text for pair in part for text in pair)], "")
        told = [line.split() for line in lines if re.match(r"   \S+ (<|==|>) \S+$", line)]
        found += [{"<": -1, "==": 0, ">": 1}[words[1]] for words in told[::2]]
    return found


def begins_with_a_digit(pair):
    """Whether Dpkg::Version accepts both as versions; dpkg itself only warns. (It reads -1 as an option, and +1:0 as an
    epoch.)"""
    return all(text[0].isdigit() and text.rpartition(":")[2][:1].isdigit() for text in pair)


def versions_here(pairs, order):
    """The versions that the order can read. (go-apk-version also reads numbers without digits, and none of more than
    18.)"""
    pairs = [pair for pair in pairs if not any(re.search("[0-9]{19}", text) for text in pair)]
    return [(one, other) for one, other in pairs if order.compare(one, other) is not None]


def trials(count):
    """Each order with its tool, and pairs."""
    plain_bits = [*NUMBERS, *MARKS, *WORDS]
    debian = Drawn(count, [*NUMBERS, *WORDS, "~", "+", "-"], ("1", "2", "1:2", "10"), ("", "-1", "-0ubuntu1", "-1~bpo1"))
    packages = Drawn(count, [*NUMBERS, *WORDS, "~", "^", "+", "_"], ("", "1:", "0:2", "3"), ("", "-1", "-24.el9", "-2^1"))
    python_bits = [*NUMBERS, *WORDS, "-", "_", "+", "c", "preview", "r", "rev", "1!"]
    python = Drawn(count, python_bits, ("1", "1.0", "v2", "0!1"), ("", "rc1", ".post2", ".dev0", "+local.1"))
    three = Drawn(count, ["1", "0", "01", ".", "-", "rc", "alpha", "-", "x-y"], ("1.0.0-", "1.0.1-a.", "1.2.3", "0.0.1-"), ("", "+b.1", ".1", "1"))
    short = Drawn(count, ["1", "0", "10", ".", "-", "rc"], ("1", "1.0", "1.0.0-", "0.0.0-20191109021931-"), ("", "+incompatible", "daa7c0"))
    alpine_bits = [*NUMBERS, "_alpha", "_rc1", "_p", "_git20240101", "a", "b", "x", "_beta"]
    alpine = Drawn(count, alpine_bits, ("1", "0", "2.1", "10.0"), ("", "", "-r1", "-r12"))
    java = Drawn(count, [*plain_bits, "final", "ga", "sp", "milestone", "m", "cr", "release", "snapshot"], ("1", "", "1.0"), ("", "-1"))
    lower = Drawn(count, plain_bits)
    yield "cpe advise", plain.ORDER, by_cpe, [pair for pair in lower.pairs if "-" not in pair]
    of_debian = list(filter(begins_with_a_digit, debian.pairs))
    yield "dpkg", dpkg.ORDER, by_dpkg, of_debian[::PAIRS_OF_DPKG]
    yield "Dpkg::Version", dpkg.ORDER, by_dpkgs_source, of_debian
    yield "rpm", rpm.ORDER, by_rpm, packages.pairs
    yield "packaging", pep440.ORDER, by_packaging, python.pairs
    yield "python3-semver", semver.ORDER, by_semver, three.pairs
    yield "golang.org/x/mod/semver", golang.ORDER, by_go("golang.org/x/mod/semver", GO_SEMVER), short.pairs
    by_go_apk = by_go("github.com/knqyf263/go-apk-version", GO_APK)
    yield "go-apk-version", apk.SECOND, by_go_apk, versions_here(alpine.pairs, apk.SECOND)
    # (the orders of apk-tools 2 and 3 agree if no number after a dot begins with a zero)
    without_zeros = [pair for pair in alpine.pairs if not any(".0" in text for text in pair)]
    yield "go-apk-version, without zeros", apk.THIRD, by_go_apk, versions_here(without_zeros, apk.THIRD)
    yield "Maven", maven.ORDER, by_maven, java.pairs


def of_no_kind(count):
    """Each tool with pairs of versions without a kind. An epoch or a v that only one version has is removed, because it
    decides nothing."""
    bits = [*NUMBERS, *WORDS, "~", "+", "-", "k", "-1", "-24.el9", "_", "^"]
    fronts = ["", "1", "1.0.0", "2.1.0-", "1:1", "32:2", "v1", "1.0.0-rc."]
    pairs = [without_epoch(one, other) for one, other in Drawn(count, bits, fronts, ("", "", "-1", "+b1", ".post1")).pairs]
    pairs = [pair for pair in pairs if all(pair)]
    spelled = [pair for pair in pairs if all(re.fullmatch(r"[0-9][A-Za-z0-9.+~:-]*", text) for text in pair)]
    yield "Dpkg::Version", by_dpkgs_source, list(filter(begins_with_a_digit, spelled))
    yield "rpm", by_rpm, [pair for pair in pairs if all(re.fullmatch(r"([0-9]+:)?[^:-]+(-[^:-]+)?", text) for text in pair)]
    yield "packaging", by_packaging, pairs
    yield "python3-semver", by_semver, pairs
    yield "Maven", by_maven, pairs


def lacks(count):
    """Whether the possible orders lack an answer of a tool."""
    is_lacking = False
    for name, tool, pairs in of_no_kind(count):
        try:
            wanted = tool(pairs)
        except Missing as fault:
            print(f"SKIPPED: possible orders, {name}: {fault}", flush=True)
            continue
        lacking = [
            (pair, answer)
            for pair, answer in zip(pairs, wanted, strict=True)
            if answer is not None and answer not in possible(*pair).answers
        ]
        both = sum(one is not None for one in wanted)
        print(f"{'differs' if lacking else 'the same'}: possible orders, {name}, {len(pairs)} pairs, {both} of versions, "
              f"{len(lacking)} lack its answer", flush=True)
        for (one, other), answer in lacking[:8]:
            print(f"  {one} and {other}: {answer} isn't among {sorted(possible(one, other).answers)}")
        is_lacking = is_lacking or bool(lacking)
    return is_lacking


def main():
    count = int(sys.argv[1]) if len(sys.argv) > 1 else 10_000
    is_wrong = False
    for name, order, tool, pairs in trials(count):
        try:
            wanted = tool(pairs)
        except Missing as fault:
            print(f"SKIPPED: {name}: {fault}", flush=True)
            continue
        if len(wanted) != len(pairs):
            sys.exit(f"{name} answered {len(wanted)} of {len(pairs)} pairs")
        found = [order.compare(one, other) for one, other in pairs]
        differ = [(pair, ours, theirs) for pair, ours, theirs in zip(pairs, found, wanted) if ours != theirs]
        both = sum(one is not None for one in wanted)
        print(f"{'differs' if differ else 'the same'}: {name}, {len(pairs)} pairs, {both} of versions, {len(differ)} differ", flush=True)
        for (one, other), ours, theirs in differ[:8]:
            print(f"  {one} and {other}: {ours} here, {theirs} there")
        is_wrong = is_wrong or bool(differ)
    # (both, so that both are printed)
    sys.exit(lacks(count) or is_wrong)


if __name__ == "__main__":
    main()
