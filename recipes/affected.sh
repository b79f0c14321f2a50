#!/bin/sh
# A table for people from what cpe evaluate or a fleet writes: sh affected.sh [OPTION FILE..] [FILE].
# cpe_recipes/affected.py says how.
command -v python3 > /dev/null || { echo "$0: there is no python3" >&2; exit 2; }
exec python3 -B "$(dirname -- "$0")/run.py" affected "$@"
