#!/bin/sh
# Checks of the library for C, called by programs in C, Python and Go: sh tests/library-checks.sh [PROGRAM]. The answers
# of sessions are compared with the program's output. The status is 0 if no check failed.
. "$(dirname "$0")/checks.sh"

# builds_library: builds the library, over its proved part, and the programs that call it, or skips all.
builds_library() {
    needs 'the library for C' cc ld ar objcopy rt || return
    # (rt lib would prove all crates again if only rt ci was run)
    [ -f crates/c_library/out/libc_library.a ] || { skip 'the library for C' 'its proved part is not built: make library'; return 1; }
    sh library/build.sh > "$room/build.out" 2>&1 || { fail 'the library for C' "$(tail -n 1 "$room/build.out")"; return 1; }
    for it in calls lines; do compiles "$it" || return; done
}

# compiles PROGRAM [WORD..]: a program in C that calls the library.
compiles() {
    it=$1
    shift
    cc -std=c99 -Wall -Wextra -Werror "$@" -Ilibrary "tests/library/$it.c" build/libcpe.a -o "$room/$it" 2> "$room/error" ||
        { fail "a C program that calls it: $it" "$(head -n 1 "$room/error")"; return 1; }
}

# calls_each: makes each call, with each kind of its answers.
calls_each() {
    : > "$room/none"
    limited "$room/calls" > "$room/out" 2> "$room/error"
    judge 'each call of the library, and each answer' $? 0 "$room/none"
    compiles memory -Wl,--wrap=malloc,--wrap=calloc,--wrap=realloc || return
    limited "$room/memory" > "$room/out" 2> "$room/error"
    judge 'each allocation of the library, refused in turn' $? 0 "$room/none"
}

# speaks_alike WHAT INPUT WORD..: the answers of a session together are the program's output.
speaks_alike() {
    what="a session of the library: $1"
    input=$2
    shift 2
    limited "$program" "$@" < "$input" > "$room/wanted" 2> "$room/error"
    wanted_status=$?
    limited "$room/lines" "$@" < "$input" > "$room/out" 2> "$room/error"
    judge "$what" $? "$wanted_status" "$room/wanted"
}

speaks_vectors() {
    for folder in tests/vectors/*; do
        case $(basename "$folder") in
            unbind | compare | resolve | evaluate | watch | convert | explain | check | advise | cover) words=$(basename "$folder") ;;
            bind-fs) words='bind fs' ;;
            bind-uri) words='bind uri' ;;
            *) continue ;;
        esac
        for vectors in "$folder"/*.in; do
            [ -f "$vectors" ] || continue
            # A word with a space is two words.
            speaks_alike "$words, $(basename "$vectors" .in)" "$vectors" $words
        done
    done
}

speaks_examples() {
    speaks_alike 'the real names' examples/names.txt unbind
    speaks_alike 'the texts of names' examples/wfn.txt bind fs
    speaks_alike 'the texts of names as URIs' examples/wfn.txt bind uri
}

# A million names: the official ones, repeated.
speaks_million() {
    what='a session of the library: a million names'
    needs "$what" awk || return
    awk '{ line[NR] = $0 } END { for (i = 0; i < 1000000; i++) print line[i % NR + 1] }' examples/names.txt > "$room/million.txt"
    speaks_alike 'a million names' "$room/million.txt" unbind
}

# A long session of statements whose verdicts change.
speaks_watch() {
    limited "$program" make 20000 > "$room/records.txt"
    speaks_alike '20,000 records under watch' "$room/records.txt" watch
    speaks_alike '20,000 records under evaluate' "$room/records.txt" evaluate
    speaks_alike '20,000 records under resolve' "$room/records.txt" resolve
}

# in_python WORD..: runs the script of the bindings.
in_python() { CPE_LIBRARY=$PWD/build/libcpe.so PYTHONDONTWRITEBYTECODE=1 PYTHONPATH=bindings/python limited python3 tests/library/bindings.py "$@"; }

# speaks_python WHAT INPUT WORD..: the same by Python.
speaks_python() {
    what="a session in Python: $1"
    input=$2
    shift 2
    limited "$program" "$@" < "$input" > "$room/wanted" 2> "$room/error"
    wanted_status=$?
    in_python "$@" < "$input" > "$room/out" 2> "$room/error"
    judge "$what" $? "$wanted_status" "$room/wanted"
}

speaks_in_python() {
    needs 'the library in Python' python3 || return
    : > "$room/none"
    in_python > "$room/out" 2> "$room/error"
    judge 'each call in Python, and each error' $? 0 "$room/none"
    speaks_python 'names' examples/mixed.txt unbind
    speaks_python 'a million names' "$room/million.txt" unbind
    speaks_python 'watch' examples/watch.jsonl watch
    speaks_python '20,000 records under evaluate' "$room/records.txt" evaluate
}

# in_go COMMAND..: runs a command of Go that finds the static library, uses no network, and writes only below $room.
# It builds Go's own packages again, which may take long.
in_go() {
    most=600
    limited env HOME="$room" TMPDIR="$room" GOENV=off GOCACHE="$room/go-cache" GOPATH="$room/go-path" GOPROXY=off GOTOOLCHAIN=local \
        GOFLAGS='-mod=mod -buildvcs=false' CGO_ENABLED=1 CC="${CC:-cc}" CGO_CFLAGS="-I$here/library" CGO_LDFLAGS="-L$room/static" \
        CPE="$program" "$@"
}

# The example of its README, as a module by itself.
speaks_readme_of_go() {
    mkdir -p "$room/readme"
    sed -n '/^```go$/,/^```$/p' bindings/go/README.md | sed '/^```/d' > "$room/readme/main.go"
    printf 'module readme\n\ngo 1.19\n\nrequire cpe v0.0.0\n\nreplace cpe => %s/bindings/go\n' "$here" > "$room/readme/go.mod"
    {
        printf '%s <nil>\n' "$(echo cpe:/a:vendor:thing:1.0 | limited "$program" unbind)" 'true'
        limited "$program" watch < examples/watch.jsonl
        echo ' 1 <nil>'
    } > "$room/wanted"
    (cd "$room/readme" && in_go go build -o try . && limited ./try < "$here/examples/watch.jsonl") > "$room/out" 2> "$room/error"
    judge 'the example in Go of its README' $? 0 "$room/wanted"
}

speaks_in_go() {
    needs 'the library in Go' go || return
    here=$PWD
    mkdir -p "$room/static"
    cp build/libcpe.a "$room/static"
    for word in vet test; do
        (cd bindings/go && in_go go "$word" ./...) > "$room/go.out" 2> "$room/error"
        status=$?
        grep -v '^ok ' "$room/go.out" > "$room/out"
        judge "the library in Go: go $word" "$status" 0 /dev/null
        [ "$status" = 0 ] || head -n 6 "$room/out"
    done
    speaks_readme_of_go
}

if builds_library; then
    calls_each
    speaks_examples
    speaks_vectors
    speaks_million
    speaks_watch
    speaks_in_python
    speaks_in_go
fi

end_of_checks 'library checks'
