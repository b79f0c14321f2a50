#!/bin/sh
# Measures the recipes for a fleet with more workers: sh bench/fleet.sh [PROGRAM [MACHINES [ROUNDS]]]. Each is run with
# 1, 2 and 4 workers, over 1,000,000 pairs of names, and over a dictionary of 128,650 entries, 1,000 statements and
# MACHINES machines (1,000 if left out) of 30 items each. The best of ROUNDS runs counts (3 if left out). Before that a
# prefix of the verdicts is compared with `cpe evaluate` on each machine, and every output with that of one worker. It
# needs Python 3. Recipes that need GNU parallel, or Python's module distributed, are left out if that isn't installed.
set -eu
program=${1:-build/cpe} machines=${2:-1000} rounds=${3:-3}
case $program in /*) ;; *) program=$PWD/$program ;; esac
cd "$(dirname "$0")/.."
room=build/bench/fleet
mkdir -p "$room"
rm -f "$room/machines.out"
export CPE="$program"

python3 -B - "$room" "$machines" <<'END'
import json, os, random, subprocess, sys
sys.path.insert(0, "bench")
import make_lines
room, machines = sys.argv[1], int(sys.argv[2])
with open(f"{room}/pairs.txt", "wb") as file:
    file.writelines(line.rstrip(b"\n") + b"\n" for line in make_lines.pair_lines(1000000))
items = []
with open(f"{room}/records.jsonl", "wb") as file:
    for line in make_lines.followed_lines(128650):
        line = line.rstrip(b"\n")
        if line.startswith(b'{"do":"item"'):
            items.append(json.loads(line)["name"])
        else:
            file.write(line + b"\n")
# (of an item under a removed name a fleet says UNKNOWN where cpe evaluate says FALSE)
with open(f"{room}/records.jsonl", "rb") as file:
    asked = file.read() + b"".join(json.dumps({"do": "chain", "name": item}).encode() + b"\n" for item in items)
answers = subprocess.run([os.environ["CPE"], "resolve"], input=asked, stdout=subprocess.PIPE).stdout.decode().split("\n")
chains = [line for line in answers if line.startswith("chain ")][-len(items):]
items = [item for item, chain in zip(items, chains) if not chain.endswith(" 0")]
draw = random.Random(7)
with open(f"{room}/machines.txt", "w") as file:
    for number in range(machines):
        file.write(f"machine-{number} " + " ".join(draw.sample(items, 30)) + "\n")
END

# seconds WHAT WANTED COMMAND..: of the best of three runs, whose output is compared.
seconds() {
    best=''
    what=$1 wanted=$2
    shift 2
    round=0
    while [ $((round += 1)) -le "$rounds" ]; do
        start=$(date +%s.%N)
        "$@" > "$room/out" || [ $? = 1 ]
        end=$(date +%s.%N)
        cmp -s "$room/out" "$wanted" || { echo "$what writes something else" >&2; exit 1; }
        best=$(echo "$best $start $end" | awk '{ took = $NF - $(NF - 1) } NF == 2 || took < $1 { print took; next } { print $1 }')
    done
    printf ' %.2f |' "$best"
}

row() {
    printf '| %s |' "$1"
    what=$1 wanted=$2
    shift 2
    for workers in 1 2 4; do
        case $1 in
        dask) seconds "$what" "$wanted" "$python" recipes/fleet/dask_fleet.py --workers "$workers" --block 25 "$room/records.jsonl" "$room/machines.txt" ;;
        lines) seconds "$what" "$wanted" env WORKERS="$workers" sh -c 'sh recipes/fleet/lines.sh compare < "$0"' "$room/pairs.txt" ;;
        machines) seconds "$what" "$wanted" env WORKERS="$workers" sh recipes/fleet/parallel.sh "$room/records.jsonl" "$room/machines.txt" ;;
        esac
    done
    echo
}

# The first five machines, each by a run of cpe evaluate.
head -n 5 "$room/machines.txt" | while read -r machine items; do
    for item in $items; do printf '%s\n' "$item"; done | sed 's/[\"]/\\&/g; s/.*/{"do":"item","name":"&"}/' |
        cat "$room/records.jsonl" - | "$program" evaluate | sed -n "s/^verdict /$machine /p"
done > "$room/evaluated"

# begins_right FILE: whether it begins with what was evaluated.
begins_right() {
    head -n "$(wc -l < "$room/evaluated")" "$1" | cmp -s - "$room/evaluated" || { echo "$1 isn't what cpe evaluate says" >&2; exit 1; }
}

echo "load before: $(cut -d ' ' -f 1-3 /proc/loadavg), of $(getconf _NPROCESSORS_ONLN) processors"
echo '| | 1 worker | 2 | 4 |'
echo '|---|---|---|---|'
"$program" compare < "$room/pairs.txt" > "$room/pairs.out"
if command -v parallel > /dev/null; then
    printf '| `cpe compare` alone, 1,000,000 pairs |'
    seconds 'cpe compare' "$room/pairs.out" sh -c '"$CPE" compare < "$0"' "$room/pairs.txt"
    echo ' | |'
    row '`compare`, 1,000,000 pairs, GNU parallel' "$room/pairs.out" lines
    WORKERS=1 sh recipes/fleet/parallel.sh "$room/records.jsonl" "$room/machines.txt" > "$room/machines.out" || [ $? = 1 ]
    begins_right "$room/machines.out"
    row "$machines machines, GNU parallel" "$room/machines.out" machines
else
    echo 'LEFT OUT: there is no parallel' >&2
fi
python=''
for one in python3 /usr/bin/python3; do
    if "$one" -c 'import distributed' 2> /dev/null; then python=$one; fi
done
if [ -n "$python" ]; then
    [ -f "$room/machines.out" ] || "$python" recipes/fleet/dask_fleet.py --workers 1 "$room/records.jsonl" "$room/machines.txt" > "$room/machines.out" || [ $? = 1 ]
    begins_right "$room/machines.out"
    row "$machines machines, Dask" "$room/machines.out" dask
else
    echo 'LEFT OUT: no python3 has the module distributed' >&2
fi
echo "load behind: $(cut -d ' ' -f 1-3 /proc/loadavg)"
