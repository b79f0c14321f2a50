#!/bin/sh
# Which items no entry of the dictionary has: sh unlisted.sh RECORDS MACHINES.
# cpe_recipes/unlisted.py says how.
command -v python3 > /dev/null || { echo "$0: there is no python3" >&2; exit 2; }
exec python3 -B "$(dirname -- "$0")/run.py" unlisted "$@"
