#!/bin/sh
# A worker of lines.sh: sh piece.sh CPE WORD.. PIECE. It runs cpe over the lines of a piece, and writes the output into
# PIECE.out, which gets its name when it is whole. PIECE.refused shows that a line was refused, and PIECE.full that the
# disk was full. (This is a shell script because a shell starts ten times as fast as Python.)
set -u
cpe=$1 words=$2
shift 2
case $words in bind) words="$words $1"; shift ;; esac
piece=$1
: > "$piece.part" || { : > "$piece.full"; exit 4; }
# shellcheck disable=SC2086 # two words
"$cpe" $words < "$piece" > "$piece.part"
status=$?
case $status in
0) ;;
1) : > "$piece.refused" || exit 4 ;;
# (a write failed, or a signal ended a process that writes past the limit of a file)
4 | 153) : > "$piece.full"; exit 4 ;;
*) exit "$status" ;;
esac
mv "$piece.part" "$piece.out"
