#!/bin/sh
# Which items perhaps are what an advisory names: sh perhaps.sh RECORDS MACHINES.
# cpe_recipes/perhaps.py says how.
command -v python3 > /dev/null || { echo "$0: there is no python3" >&2; exit 2; }
exec python3 -B "$(dirname -- "$0")/run.py" perhaps "$@"
