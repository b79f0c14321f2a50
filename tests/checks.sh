# Shared by the checks of the built program, which source this file. The first word of the command line is the program,
# build/cpe if left out. If a tool or device of a check is missing, the check is SKIPPED; the last lines list it, and it
# doesn't count as passed. Nothing is written outside build/.
set -u

program=${1:-build/cpe}
case $program in /*) ;; *) program=$PWD/$program ;; esac
cd "$(dirname "$0")/.." || exit 2
[ -x "$program" ] || { echo "$program is no program: run make build first" >&2; exit 2; }

passed=0 failed=0 skipped=0
missing=''

mkdir -p build
room=$(mktemp -d "$PWD/build/checks.XXXXXX") || exit 2
trap 'rm -rf "$room"' EXIT
trap 'exit 130' HUP INT TERM

has() { command -v "$1" > /dev/null 2>&1; }

# A program that hangs is stopped after four minutes, if the system can do that, or after $most seconds. A busy machine
# needs less for what usually takes seconds.
limited() { if has timeout; then timeout "${most:-240}" "$@"; else "$@"; fi; }

pass() { passed=$((passed + 1)); echo "ok: $1"; }
fail() { failed=$((failed + 1)); echo "FAILED: $1: $2"; }
skip() {
    skipped=$((skipped + 1))
    missing="$missing  $1: $2
"
    echo "SKIPPED: $1: $2"
}

# needs WHAT TOOL..: whether all tools of the check WHAT are installed; if not, the check is skipped.
needs() {
    lacking=$1
    shift
    for tool in "$@"; do
        has "$tool" || { skip "$lacking" "there is no $tool"; return 1; }
    done
}

# judge WHAT STATUS WANTED OUTPUT [SAID]: after a run that ended with STATUS and left its streams in $room. Its standard
# error has to be SAID, or empty if SAID is left out.
judge() {
    if [ "$2" != "$3" ]; then
        fail "$1" "status $2 in place of $3"
    elif ! cmp -s "$room/out" "$4"; then
        fail "$1" 'it writes something else'
        diff "$4" "$room/out" | head -n 6 | cut -c 1-200
    elif [ $# = 4 ] && [ -s "$room/error" ]; then
        fail "$1" 'it writes to standard error'
    elif [ $# = 5 ] && ! cmp -s "$room/error" "$5"; then
        fail "$1" 'it says something else on standard error'
        diff "$5" "$room/error" | head -n 6 | cut -c 1-200
    else
        pass "$1"
    fi
}

# answers_sessions WHAT: runs the sessions of a text on standard input, in lines that are indented by four spaces: the
# text after a dollar sign is run, and the lines below it are its output. An empty line between two of these is one of
# them.
answers_sessions() {
    what=$1
    needs "$what" awk || return
    mkdir -p "$room/bin"
    printf '#!/bin/sh\nexec "%s" "$@"\n' "$program" > "$room/bin/cpe"
    chmod +x "$room/bin/cpe"
    awk -v sent="$room/sent" -v wanted="$room/wanted" '
        BEGIN { printf "" > sent; printf "" > wanted }
        /^$/ { empty++; next }
        !/^    / { is_session = empty = 0; next }
        { text = substr($0, 5) }
        is_input { print text > sent; if (text == "END") is_input = 0; next }
        text ~ /^\$ / { is_session = 1; empty = 0; is_input = text ~ /<</; print substr(text, 3) > sent; next }
        is_session { for (; empty > 0; empty--) print "" > wanted; print text > wanted }
        END { print "true" > sent }'
    (PATH="$room/bin:$PATH" limited sh "$room/sent") > "$room/out" 2> "$room/error"
    status=$?
    grep -c -e '^cpe ' -e '| cpe ' -e 'sh recipes/' -e 'python3 ' "$room/sent" > "$room/count"
    judge "$what, $(cat "$room/count") of them" "$status" 0 "$room/wanted"
}

# end_of_checks NAME: writes the last lines, and sets the status, which is 0 if no check failed.
end_of_checks() {
    [ "$skipped" = 0 ] || printf '%s SKIPPED, which show nothing here:\n%s' "$(echo "$1" | tr '[:lower:]' '[:upper:]')" "$missing"
    echo "$1: $passed passed, $failed failed, $skipped skipped"
    [ "$failed" = 0 ]
}

for tool in cmp diff head tr cut grep sed basename; do
    has "$tool" || { echo "CHECKS SKIPPED, all of $0: there is no $tool"; exit 0; }
done
