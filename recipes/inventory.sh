#!/bin/sh
# From software lists to an inventory: sh inventory.sh [FILE..] > records.
# cpe_recipes/inventory.py says how.
command -v python3 > /dev/null || { echo "$0: there is no python3" >&2; exit 2; }
exec python3 -B "$(dirname -- "$0")/run.py" inventory "$@"
