#!/bin/sh
# The whole way, from NVD's feeds and a software list to the advisories that concern this machine:
# sh whole-way.sh DICTIONARY ADVISORIES INVENTORY [MATCHES]. It is scan.py for one machine.
# The status is 1 if something was left out, which is reported, and 2 if there is no result.
case ${1-} in --help | -h) sed -n '2,4s/^# //p' "$0"; exit ;; esac
case $# in
3 | 4) ;;
*) echo 'usage: whole-way.sh DICTIONARY ADVISORIES INVENTORY [MATCHES]' >&2; exit 2 ;;
esac
command -v python3 > /dev/null || { echo "$0: there is no python3" >&2; exit 2; }
exec python3 -B "$(dirname -- "$0")/scan.py" --dictionary "$1" --advisories "$2" --lists "$3" ${4:+--matches "$4"}
