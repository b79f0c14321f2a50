#!/bin/sh
# Runs rt ci, and then lists the processor time of each crate, so that growth is noticed: sh tests/gate.sh [CRATE..].
# Ends with the status of rt ci. If ps or awk is missing there are no times, which is reported. A crate whose results
# are all kept from an earlier gate takes no time, and has no row.
set -u

# Each second, a line for each run of the prover below this script: the time, its process, its crate, the kind of its
# work (the crate, the crate with its tests, or the crate with a must-fail edit), and the processor seconds that it has
# used.
watch() {
    while sleep 1; do
        ps -eo pid=,ppid=,time=,args= | awk -v top="$$" -v now="$(date +%s)" '
            { parent[$1] = $2; time[$1] = $3; line[$1] = $0 }
            function is_below(pid) { for (; pid > 1; pid = parent[pid]) if (pid == top) return 1; return 0 }
            function seconds(text, part, count, i, sum) {
                gsub(/-/, ":", text)
                count = split(text, part, ":")
                for (i = 1; i <= count; i++) sum = (count - i == 2 && i == 2 ? sum * 24 : sum * 60) + part[i]
                return sum
            }
            END {
                for (pid in line) {
                    if (line[pid] !~ /rattle (build|check) .*--crate-name / || !is_below(pid)) continue
                    crate = line[pid]
                    sub(/.*--crate-name /, "", crate)
                    sub(/ .*/, "", crate)
                    kind = line[pid] ~ / --test( |$)/ ? "tests" : line[pid] ~ /rattle check / && line[pid] !~ / -o / ? "edits" : "proof"
                    print now, pid, crate, kind, seconds(time[pid])
                }
            }'
    done
}

# The last line of each run, added up by crate; and the slowest chain by the clock, in which each crate waits for the
# proof of the one before.
table() {
    awk '
        FILENAME == "crates.txt" {
            sub(/#.*/, "")
            if (split($0, half, ":") == 2) { split(half[1], word, " "); uses[word[1]] = half[2] }
            next
        }
        {
            if (!begin) begin = $1
            if (!($2 in first)) first[$2] = $1
            end = last[$2] = $1
            crate[$2] = $3
            kind[$2] = $4
            took[$2] = $5
        }
        function chain(name, below, count, i, best) {
            if (name in chained) return chained[name]
            count = split(uses[name], below, " ")
            for (i = 1; i <= count; i++) if (below[i] in uses && chain(below[i]) > best) { best = chain(below[i]); next_below[name] = below[i] }
            return chained[name] = best + clock[name]
        }
        END {
            for (pid in crate) {
                minutes = took[pid] / 60
                of[crate[pid], kind[pid]] += minutes
                of["all", kind[pid]] += minutes
                sum[crate[pid]] += minutes
                all += minutes
                if (kind[pid] == "proof") clock[crate[pid]] += (last[pid] - first[pid] + 1) / 60
            }
            row = "%-24s %8.1f %8.1f %8.1f %8.1f %8.1f\n"
            printf "%-24s %8s %8s %8s %8s %8s\n", "processor minutes, about", "proof", "tests", "edits", "sum", "clock"
            for (name in sum) printf row, name, of[name, "proof"], of[name, "tests"], of[name, "edits"], sum[name], clock[name] | "sort"
            close("sort")
            printf row, "all", of["all", "proof"], of["all", "tests"], of["all", "edits"], all, (end - begin) / 60
            for (name in uses) if (!(top in uses) || chain(name) > chain(top)) top = name
            text = top
            for (name = top; name in next_below; name = next_below[name]) text = next_below[name] " " text
            printf "longest chain, %.1f minutes by the clock: %s\n", chain(top), text
        }' crates.txt "$1"
}

times=$(mktemp) || exit 2
watcher=
trap '[ -z "$watcher" ] || kill "$watcher" 2> /dev/null; rm -f "$times"' EXIT
trap 'exit 130' HUP INT TERM
if command -v ps > /dev/null && command -v awk > /dev/null; then
    watch > "$times" 2> /dev/null &
    watcher=$!
else
    echo 'NO TIMES of the crates: there is no ps or awk'
fi
sources=$(sh release/release.sh sources)
start=$(date +%s)
rt ci "$@"
status=$?
echo "rt ci took $(($(date +%s) - start)) seconds on $(getconf _NPROCESSORS_ONLN) processors, at a load of $(cut -d ' ' -f 1-3 /proc/loadavg 2> /dev/null)"
if [ -s "$times" ]; then table "$times"; fi
if [ "$status" = 0 ] && [ $# = 0 ]; then sh release/release.sh note crates/cpe/out/cpe "$sources"; fi
exit "$status"
