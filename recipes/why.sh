#!/bin/sh
# Why verdicts are so, as text for people, from what cpe explain writes: sh why.sh [--records FILE] [FILE].
# cpe_recipes/why.py says how.
command -v python3 > /dev/null || { echo "$0: there is no python3" >&2; exit 2; }
exec python3 -B "$(dirname -- "$0")/run.py" why "$@"
