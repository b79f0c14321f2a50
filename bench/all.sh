#!/bin/sh
# All measurements of make bench, one after the other: sh bench/all.sh PROGRAM [RESULTS]. What they print is shown, and
# written to the file RESULTS (build/bench/results.txt if left out), after the date, the machine, its load and the
# checksum of the program. Ends with status 1 if a measurement failed, and names it; the others are run all the same.
# The file is there at the end only, so it never has a part of a run. A target that is missed is no failure: the scripts
# print it.
set -u
[ $# = 1 ] || [ $# = 2 ] || { echo 'usage: sh bench/all.sh PROGRAM [RESULTS]' >&2; exit 2; }
from=$PWD
cd "$(dirname "$0")/.." || exit 2
absolute() { case $1 in /*) echo "$1" ;; *) echo "$from/$1" ;; esac; }
program=$(absolute "$1")
export PYTHONUNBUFFERED=1
results=$(absolute "${2:-$PWD/build/bench/results.txt}")
[ -x "$program" ] || { echo "$program is no program: run make build first" >&2; exit 2; }
command -v python3 > /dev/null || { echo 'python3 is not on PATH' >&2; exit 2; }

mkdir -p build/bench "$(dirname "$results")" || exit 2
part=$results.part status=$results.status
trap 'rm -f "$part" "$status"' EXIT
trap 'exit 130' HUP INT TERM

load() { cut -d ' ' -f 1-3 /proc/loadavg; }

# On which machine the program is measured.
head_of_results() {
    echo "measured $(date -u '+%Y-%m-%d %H:%M UTC')"
    echo "processors $(nproc), $(sed -n 's/^model name[^:]*: *//p' /proc/cpuinfo | head -n 1)"
    echo "memory $(awk '/^MemTotal:/ { printf "%.1f GiB", $2 / 1048576 }' /proc/meminfo), $(uname -sr)"
    echo "load before, of 1, 5 and 15 minutes: $(load)"
    echo "sha256 of the program $(sha256sum < "$program" | cut -d ' ' -f 1)"
    for it in python3 rustc jq; do
        if command -v "$it" > /dev/null; then "$it" --version; else echo "no $it: what needs it is left out"; fi
    done
}

# measure NAME: runs bench/NAME.py, and leaves its status in a file, since what is piped has none.
measure() {
    echo
    echo "## $1"
    echo
    echo 1 > "$status"
    { python3 "bench/$1.py" "$program" 2>&1; echo $? > "$status"; }
}

failed=
head_of_results 2>&1 | tee "$part"
for name in run index convert explain advise cover scan full near snapshot openscap; do
    measure "$name" | tee -a "$part"
    [ "$(cat "$status")" = 0 ] || failed="$failed $name"
done
{
    echo
    echo "load behind: $(load)"
    if [ -n "$failed" ]; then echo "FAILED:$failed"; else echo 'no measurement failed'; fi
} | tee -a "$part"
mv -f "$part" "$results" || exit 1
echo "these results are in $results"
[ -z "$failed" ]
