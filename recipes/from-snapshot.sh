#!/bin/sh
# The records of a snapshot, after which other records continue the saved session: sh from-snapshot.sh SNAPSHOT >
# records.jsonl. cpe_recipes/from_snapshot.py says how.
command -v python3 > /dev/null || { echo "$0: there is no python3" >&2; exit 2; }
exec python3 -B "$(dirname -- "$0")/run.py" from-snapshot "$@"
