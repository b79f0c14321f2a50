#!/bin/sh
# Checks of the service: its verdicts are those of scan.py over samples and drawn fleets; bad requests are refused by
# name; and accepted data survives killed processes and full disks: sh tests/service-checks.sh [PROGRAM]. CPE_FLEETS and
# CPE_KILLS draw more: CPE_FLEETS=200 CPE_KILLS=200 sh tests/service-checks.sh build/cpe
. "$(dirname "$0")/checks.sh"

CPE=$program
export CPE

# The first of these Pythons that has the libraries of the service. (Python's modules are Debian's.)
finds_python() {
    for python in python3 /usr/bin/python3; do
        if has "$python" && "$python" -c 'import sys, starlette, uvicorn; sys.exit(sys.version_info < (3, 11))' 2> /dev/null; then return; fi
    done
    skip 'the service' 'no python3 from 3.11 on has starlette and uvicorn (apt-get install python3-starlette python3-uvicorn)'
    return 1
}

runs_tests() {
    for tests in tests/service/test_*.py; do
        what="the service: $(basename "$tests" .py)"
        most=1200 limited "$python" -B -m unittest discover -s tests/service -p "$(basename "$tests")" > "$room/out" 2>&1
        status=$?
        if [ "$status" = 0 ]; then
            pass "$what, $(sed -n 's/^Ran \([0-9]*\) .*/\1/p' "$room/out") of them"
        else
            fail "$what" "status $status"
            tail -n 30 "$room/out"
        fi
        count=$(sed -n 's/^OK (skipped=\([0-9]*\))$/\1/p' "$room/out")
        [ -z "$count" ] || skip "$what" "$count of them, of which the reasons are in the tests"
    done
}

finds_python && runs_tests

end_of_checks 'service checks'
