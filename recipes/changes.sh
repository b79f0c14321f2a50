#!/bin/sh
# What changed between two sets of verdicts: sh changes.sh BEFORE AFTER.
# cpe_recipes/changes.py says how.
command -v python3 > /dev/null || { echo "$0: there is no python3" >&2; exit 2; }
exec python3 -B "$(dirname -- "$0")/run.py" changes "$@"
