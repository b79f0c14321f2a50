#!/bin/sh
# Checks of release/release.sh, in a small tree of its own with a release of this program: sh tests/release-checks.sh
# [PROGRAM]. The status is 0 if no check failed. What the gate built is compared with the real release by make test.
. "$(dirname "$0")/checks.sh"

tree=$room/tree
tools=$room/tools
source_file=crates/cpe/src/main.rt

# says WHAT STATUS WANTED TEXT: after a run that left its streams in $room; one of them has this text.
says() {
    if [ "$2" != "$3" ]; then
        fail "$1" "status $2 in place of $3: $(head -n 1 "$room/error")"
    elif ! grep -qF -e "$4" "$room/out" "$room/error"; then
        fail "$1" "it says: $(cat "$room/out" "$room/error" | head -n 1)"
    else
        pass "$1"
    fi
}

release() { sh "$tree/release/release.sh" "$@" > "$room/out" 2> "$room/error"; }

# gate PROGRAM: notes that the gate built this program.
gate() {
    mkdir -p "$tree/crates/cpe/out"
    cp "$1" "$tree/crates/cpe/out/cpe"
    release note crates/cpe/out/cpe "$(sh "$tree/release/release.sh" sources)"
}

commit() { git -C "$tree" add -A && git -C "$tree" -c user.name=cpe -c user.email=cpe@localhost commit -qm "$1"; }

# plants: makes a tree with the sources of the program and no release, and an rt that proves nothing and prints that it
# was called.
plants() {
    mkdir -p "$tree/release" "$tree/crates/cpe" "$tree/crates/low/specs" "$tools"
    cp Makefile .gitignore "$tree"
    cp release/release.sh "$tree/release"
    cp -R crates/cpe/src "$tree/crates/cpe/src"
    printf 'low:\ncpe: low\nother: low\n' > "$tree/crates.txt"
    echo 'abbrev one = 1' > "$tree/crates/low/specs/Lib.antt"
    {
        echo '#!/bin/sh'
        echo 'case "$1" in version) echo rattle-kit-test ;; *) echo PROVES; cp /bin/true out/cpe ;; esac'
    } > "$tools/rt"
    chmod +x "$tools/rt"
    PATH=$tools:$PATH
    git -C "$tree" init -q && commit 'The sources.'
}

# Each reason why the gate's program can't be released.
refuses_to_make() {
    release make 1.2.3
    says 'no release is made if the gate built nothing' $? 1 'the gate has not built the program from these sources'
    release note crates/cpe/out/cpe 'another sum'
    says 'what the gate built from changed sources is not noted' $? 1 'the sources changed while the gate ran'
    gate "$program"
    echo '// more' >> "$tree/$source_file"
    release make 1.2.3
    says 'no release is made in a tree with changes' $? 1 'the tree has changes'
    commit 'One line more.'
    release make 1.2.3
    says 'no release is made if the gate built other sources' $? 1 'the gate has not built the program from these sources'
    gate "$program"
    cp /bin/true "$tree/crates/cpe/out/cpe"
    release make 1.2.3
    says 'no release is made of a program that the gate did not build' $? 1 'is not what the gate built'
    gate "$program"
    release make 1.2.3
    says 'a release is made of what the gate built' $? 0 'release: version 1.2.3, '
    commit 'A release.'
}

# taken WHAT: the released program becomes build/cpe.
taken() {
    rm -rf "$tree/build"
    release take
    says "$1" $? 0 'build/cpe is the program that the gate built from exactly these sources'
    cmp -s "$program" "$tree/build/cpe" || fail "$1" 'build/cpe is another program'
}

# refused WHAT TEXT: the released program is not taken, for the reason in this text, and build/cpe is unchanged.
refused() {
    rm -rf "$tree/build"
    mkdir "$tree/build"
    echo before > "$tree/build/cpe"
    release take
    says "$1" $? 1 "$2"
    [ "$(ls "$tree/build")" = cpe ] && [ "$(cat "$tree/build/cpe")" = before ] || fail "$1" 'something changed below build/'
}

restore() { git -C "$tree" checkout -q . && git -C "$tree" clean -qfd; }

takes() {
    taken 'the released program is taken where the sources are its own'
    echo '// another' >> "$tree/crates/cpe/src/later.rt"
    refused 'a file more in a source is seen' 'the sources are not those that it was built from'
    restore
    sed -i 's/StdSink/StdSinc/' "$tree/$source_file"
    refused 'a letter changed in a source is seen' 'the sources are not those that it was built from'
    restore
    echo 'abbrev one = 2' > "$tree/crates/low/specs/Lib.antt"
    refused 'a change of a crate below is seen' 'the sources are not those that it was built from'
    restore
    mkdir -p "$tree/crates/other/src" && echo '// no part of it' > "$tree/crates/other/src/lib.rt"
    taken 'a change of a crate that the program does not stand on changes nothing'
    restore
}

refuses_damage() {
    packed=$tree/release/cpe-linux-x86_64.gz
    altered='is not the program that release/RELEASE names'
    head -c 1000 "$packed" > "$room/short" && cp "$room/short" "$packed"
    refused 'a release that is cut off is refused' "$altered"
    gzip -c /bin/true > "$packed"
    refused 'a release that holds another program is refused' "$altered"
    : > "$packed"
    refused 'an empty release is refused' "$altered"
    restore
    sed -i '/^program /d' "$tree/release/RELEASE"
    refused 'a release without a checksum is refused' 'there is no whole release'
    restore
    sed -i 's/^program ./program x/' "$tree/release/RELEASE"
    refused 'a release whose checksum is none is refused' 'there is no whole release'
    restore
    rm "$packed"
    refused 'a missing release is said' 'there is no whole release'
    restore
}

refuses_other_systems() {
    printf '#!/bin/sh\necho Plan9\n' > "$tools/uname"
    chmod +x "$tools/uname"
    refused 'another system is said' 'it is for Linux x86_64, and this is Plan9 Plan9'
    rm "$tools/uname"
    printf '#!/bin/sh\nexit 1\n' > "$room/broken"
    gate "$room/broken"
    release make 1.2.3
    commit 'A release that does not run.'
    refused 'a program that does not run here is refused' 'it does not run on this system'
    git -C "$tree" reset -q --hard HEAD~1
}

compares() {
    release compare "$program"
    says 'what the gate built is compared with the release' $? 0 'byte for byte'
    cp "$program" "$room/other"
    printf x | dd of="$room/other" bs=1 seek=5000 conv=notrunc 2> /dev/null
    release compare "$room/other"
    says 'a byte that differs fails the gate' $? 1 'FAILED: what the gate built differs'
    head -c 1000 "$tree/release/cpe-linux-x86_64.gz" > "$room/short" && cp "$room/short" "$tree/release/cpe-linux-x86_64.gz"
    release compare "$program"
    says 'a release that is cut off fails the gate' $? 1 'FAILED: release/cpe-linux-x86_64.gz'
    restore
    echo '// more' >> "$tree/$source_file"
    release compare "$program"
    says 'a release of other sources is said' $? 0 'RELEASE SKIPPED: it is of other sources'
    restore
    rm "$tree/release/RELEASE"
    release compare "$program"
    says 'a gate without a release says so' $? 0 'RELEASE SKIPPED: there is none'
    restore
}

# made WORD..: make in that tree, with the rt that proves nothing.
made() { (cd "$tree" && MAKEFLAGS='' limited make "$@") > "$room/out" 2> "$room/error"; }

falls_back() {
    rm -rf "$tree/build"
    made program
    says 'make takes the released program' $? 0 'build/cpe is the program that the gate built'
    ! grep -q PROVES "$room/out" || fail 'make takes the released program' 'it proves, too'
    made program PROVE=1
    says 'make proves if PROVE=1' $? 0 PROVES
    echo '// more' >> "$tree/$source_file"
    made program
    says 'make proves if the sources are others' $? 0 PROVES
    says 'make says why it proves' 0 0 'the released program is not taken: the sources are not those'
    restore
}

what='the release'
if needs "$what" git make gzip sha256sum find sort tr xargs cut awk dd mktemp; then
    plants
    refuses_to_make
    takes
    refuses_damage
    refuses_other_systems
    compares
    falls_back
fi

end_of_checks 'release checks'
