#!/bin/sh
# Where deprecations lead from names, as a graph in DOT: sh chain-graph.sh [--svg FILE] RECORDS NAME...
# cpe_recipes/chain_graph.py says how.
command -v python3 > /dev/null || { echo "$0: there is no python3" >&2; exit 2; }
exec python3 -B "$(dirname -- "$0")/run.py" chain-graph "$@"
