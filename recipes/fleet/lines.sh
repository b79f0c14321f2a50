#!/bin/sh
# Runs a word of cpe that keeps no state on all processors of a machine: sh lines.sh unbind|bind fs|bind uri|compare <
# LINES. ../cpe_recipes/lines.py says how.
command -v python3 > /dev/null || { echo "$0: there is no python3" >&2; exit 2; }
exec python3 -B "$(dirname -- "$0")/../run.py" lines "$@"
