#!/bin/sh
# Checks of the conformance suite: its cases, the program that runs them, wrong implementations, and the adapters
# against conformance/RESULTS.md: sh tests/conformance-checks.sh [PROGRAM]. The status is 0 if no check failed.
. "$(dirname "$0")/checks.sh"

CPE=$program
export CPE

# tests FILE: the unit tests of a file. A test that skips itself is SKIPPED here too.
tests() {
    what="conformance: $(basename "$1" .py)"
    limited python3 -B -m unittest discover -v -s conformance/tests -p "$(basename "$1")" > "$room/out" 2>&1
    status=$?
    if [ "$status" != 0 ]; then
        fail "$what" "status $status"
        tail -n 12 "$room/out"
        return
    fi
    grep -c ' \.\.\. ok$' "$room/out" > "$room/count"
    pass "$what, $(cat "$room/count") of them"
    sed -n "s/^\([a-z_]*\) (.*) \.\.\. skipped ['\"]\(.*\)['\"]\$/\1:\2/p" "$room/out" > "$room/skips"
    while IFS=: read -r test why; do skip "conformance: $test" "$why"; done < "$room/skips"
}

needs 'conformance' python3 || { end_of_checks 'conformance checks'; exit; }
if ! python3 -c 'import sys; sys.exit(sys.version_info < (3, 11))'; then
    skip 'conformance' 'python3 is older than 3.11'
else
    for file in conformance/tests/test_*.py; do tests "$file"; done
    # (rt ci refuses a tree with links, so the next gate in it would fail)
    links=$(find build -type l 2> /dev/null | head -n 1)
    if [ -z "$links" ]; then pass 'what adapters build has no links'; else fail 'what adapters build has no links' "$links"; fi
fi
end_of_checks 'conformance checks'
