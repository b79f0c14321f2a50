#!/bin/sh
# From NVD's API 2.0 to a dictionary: sh dictionary.sh [FILE..] > records.
# cpe_recipes/dictionary.py says how.
command -v python3 > /dev/null || { echo "$0: there is no python3" >&2; exit 2; }
exec python3 -B "$(dirname -- "$0")/run.py" dictionary "$@"
