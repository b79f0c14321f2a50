#!/bin/sh
# Tries the wrong bodies in wrong-bodies/CRATE/, each of which takes too long for the gate: sh tests/wrong-bodies.sh
# [CRATE..]. The prover must refuse each of them. Ends with the status of rt ci, which runs on a copy, with the gate's
# proofs.
set -eu

top=$(cd "$(dirname "$0")/.." && pwd)
[ $# -gt 0 ] || set -- $(cd "$top/wrong-bodies" && ls)
copy=$(mktemp -d)
trap 'rm -rf "$copy"' EXIT
trap 'exit 130' HUP INT TERM
(cd "$top" && tar -cf - --exclude=out crates crates.txt HANDLES) | (cd "$copy" && tar -xf -)
for crate in "$@"; do
    mkdir -p "$copy/crates/$crate/must-fail"
    cp "$top/wrong-bodies/$crate"/*.edit "$copy/crates/$crate/must-fail/"
done
git -C "$copy" init -q
cd "$copy"
rt ci "$@"
