#!/bin/sh
# The program as the gate built it, which others may take in place of the proof.
#
#   sh release/release.sh sources           prints one checksum over all files that the program is built from
#   sh release/release.sh note PROGRAM SUM  notes in build/gate that the gate built PROGRAM, if SUM still is that checksum
#   sh release/release.sh make VERSION      writes release/ from what the gate noted, in a tree without changes
#   sh release/release.sh take              puts the released program into build/cpe
#   sh release/release.sh compare PROGRAM   compares what the gate built with the released program, byte for byte
#
# `take` ends with status 0 only if build/cpe then is the released program, the sources here are those that it was built from, and it
# runs here. Otherwise it writes one sentence to standard error, and build/cpe is unchanged. `compare` ends with status 1 if the sources
# are those of the release and the programs differ; if the sources are others it says so, and its status is 0.
set -u
cd "$(dirname "$0")/.." || exit 2

packed=release/cpe-linux-x86_64.gz
facts=release/RELEASE
# What is built here for the gate, and what the gate noted about it.
built=crates/cpe/out/cpe
noted=build/gate
# The one system for which a program is released.
system='Linux x86_64'

refuse() {
    echo "release: $1" >&2
    exit 1
}

# crates_below CRATE: this crate and all crates of the repository that it stands on, one a line.
crates_below() {
    awk -v top="$1" '
        { sub(/#.*/, "") }
        /:/ { split($0, half, ":"); split(half[1], word, " "); uses[word[1]] = half[2] }
        END {
            waiting[last = 1] = top
            for (at = 1; at <= last; at++) {
                crate = waiting[at]
                if (!(crate in uses) || crate in seen) continue
                seen[crate] = 1
                print crate
                count = split(uses[crate], below, " ")
                for (i = 1; i <= count; i++) waiting[++last] = below[i]
            }
        }' crates.txt
}

# The files that the program is built from, one a line, in an order that is the same everywhere.
source_files() {
    {
        echo crates.txt
        for crate in $(crates_below cpe); do
            for part in src specs proofs; do
                if [ -d "crates/$crate/$part" ]; then find "crates/$crate/$part" -type f; fi
            done
        done
    } | LC_ALL=C sort
}

sum_of() { sha256sum "$1" | cut -c 1-64; }

# One checksum over the names and contents of these files.
sources() { source_files | tr '\n' '\0' | xargs -0 sha256sum | sha256sum | cut -c 1-64; }

# fact WORD [FILE]: what stands after this word in the facts of the release, or in a file like them.
fact() { sed -n "s/^$1 //p" "${2:-$facts}" 2> /dev/null; }

# note PROGRAM SUM: writes what the gate built from the sources that had this checksum before it ran.
note() {
    mkdir -p build
    rm -f "$noted"
    [ "$(sources)" = "$2" ] || refuse 'the sources changed while the gate ran, so what it built is not noted'
    printf 'sources %s\nprogram %s\n' "$2" "$(sum_of "$1")" > "$noted"
}

# make VERSION: writes the release.
make_release() {
    [ -z "$(git status --porcelain)" ] || refuse 'the tree has changes: commit them, and run the gate first'
    [ "$(fact sources "$noted")" = "$(sources)" ] || refuse 'the gate has not built the program from these sources: run make test first'
    [ "$(fact program "$noted")" = "$(sum_of "$built")" ] || refuse "$built is not what the gate built: run make test first"
    kit=$(rt version) || refuse 'rt does not say which kit it is'
    gzip -9nc "$built" > "$packed.new" && mv -f "$packed.new" "$packed" || refuse 'the program could not be packed'
    {
        echo "version $1"
        echo "kit $kit"
        echo "system $system"
        echo "sources $(fact sources "$noted")"
        echo "program $(fact program "$noted")"
    } > "$facts.new" && mv -f "$facts.new" "$facts" || refuse "$facts could not be written"
    echo "release: version $1, $(wc -c < "$packed" | tr -d ' ') bytes packed; commit $facts and $packed"
}

# unpack TO: the released program at this path, or the reason why there is none, and status 1.
unpack() {
    if ! grep -Eqx 'program [0-9a-f]{64}' "$facts" 2> /dev/null || [ ! -f "$packed" ]; then
        echo 'there is no whole release in release/'
    elif ! gzip -dc "$packed" > "$1" 2> /dev/null || [ "$(sum_of "$1")" != "$(fact program)" ]; then
        echo "$packed is not the program that $facts names"
    else
        return 0
    fi
    return 1
}

# unfit TO: unpacks the released program to this path. The status is 0 with a reason written if it may not be taken here.
unfit() {
    for tool in awk find sort tr xargs sha256sum cut sed grep gzip; do
        command -v "$tool" > /dev/null || { echo "there is no $tool to check it with"; return 0; }
    done
    if [ "$(uname -s) $(uname -m)" != "$system" ]; then
        echo "it is for $system, and this is $(uname -s) $(uname -m)"
    elif ! unpack "$1"; then
        return 0
    elif [ "$(sources)" != "$(fact sources)" ]; then
        echo 'the sources are not those that it was built from'
    elif ! chmod 755 "$1" || ! "$1" unbind < /dev/null > /dev/null 2>&1; then
        echo 'it does not run on this system'
    else
        return 1
    fi
}

take() {
    mkdir -p build
    # (a name of its own, so that two may run at once)
    new=$(mktemp build/cpe.XXXXXX) || exit 1
    trap 'rm -f "$new"' EXIT
    trap 'exit 130' HUP INT TERM
    if reason=$(unfit "$new"); then refuse "the released program is not taken: $reason"; fi
    if ! cmp -s "$new" build/cpe; then mv -f "$new" build/cpe || exit 1; fi
    echo 'build/cpe is the program that the gate built from exactly these sources; make build proves it again'
}

compare() {
    if [ ! -f "$facts" ]; then
        echo 'RELEASE SKIPPED: there is none; make release makes it'
    elif [ "$(sources)" != "$(fact sources)" ]; then
        echo 'RELEASE SKIPPED: it is of other sources; make release makes it from these'
    else
        new=$(mktemp) || exit 2
        trap 'rm -f "$new"' EXIT
        reason=$(unpack "$new") || refuse "FAILED: $reason"
        cmp "$1" "$new" || refuse "FAILED: what the gate built differs from the released program, which has the same sources"
        echo 'release: what the gate built is the released program, byte for byte'
    fi
}

case "$#:${1-}" in
1:sources) sources ;;
3:note) note "$2" "$3" ;;
2:make) make_release "$2" ;;
1:take) take ;;
2:compare) compare "$2" ;;
*) echo 'usage: sh release/release.sh sources | note PROGRAM SUM | make VERSION | take | compare PROGRAM' >&2; exit 2 ;;
esac
