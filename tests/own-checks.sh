#!/bin/sh
# Checks of the built program from outside, on real streams: sh tests/own-checks.sh [PROGRAM]. They are the Python
# tests in tests/own/, which tests/own/run.py runs side by side. The status is 0 if no check failed.
. "$(dirname "$0")/checks.sh"

needs 'own checks' python3 || { end_of_checks 'own checks'; exit; }
if ! python3 -c 'import sys; sys.exit(sys.version_info < (3, 11))'; then
    skip 'own checks' 'python3 is older than 3.11'
    end_of_checks 'own checks'
    exit
fi
python3 -B tests/own/run.py "$program"
