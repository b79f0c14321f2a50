#!/bin/sh
# Evaluates an inventory of many machines on all processors of this one, with GNU parallel: sh parallel.sh RECORDS
# MACHINES [OPTION..]. ../cpe_recipes/fleet.py says what it takes and writes.
command -v python3 > /dev/null || { echo "$0: there is no python3" >&2; exit 2; }
exec python3 -B "$(dirname -- "$0")/../run.py" parallel "$@"
