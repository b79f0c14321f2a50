#!/bin/sh
# Checks of the package for Debian, unpacked in a fresh folder, and of the completions: sh tests/package-checks.sh
# [PROGRAM]. The package is made over build/cpe, and nothing is built for it.
. "$(dirname "$0")/checks.sh"

version=$(sed -n 's/^VERSION = //p' Makefile)
here=$PWD
fresh=$room/fresh

# unpacks: makes the package as make deb does, and unpacks it, or skips all checks of it.
unpacks() {
    what='the package for Debian'
    needs "$what" dpkg dpkg-deb make install gzip md5sum find sort tail awk || return
    [ -x build/cpe ] || { skip "$what" 'there is no build/cpe'; return 1; }
    MAKEFLAGS='' limited make -s -o program deb PACKAGES="$room/packages" > "$room/said" 2> "$room/error" ||
        { fail "$what" "$(tail -n 1 "$room/error")"; return 1; }
    package=$room/packages/cpe_${version}_$(dpkg --print-architecture).deb
    mkdir "$fresh"
    dpkg-deb -x "$package" "$fresh" 2> "$room/error" || { fail "$what" "$(head -n 1 "$room/error")"; return 1; }
    pass "$what is built and unpacked"
}

has_library() { [ -f build/libcpe.a ] && [ -f build/libcpe.so ]; }

# The files that it has to contain.
wanted_files() {
    echo usr/bin/cpe
    echo usr/share/bash-completion/completions/cpe
    echo usr/share/doc/cpe/copyright
    echo usr/share/man/man1/cpe.1.gz
    echo usr/share/zsh/vendor-completions/_cpe
    find recipes service -name __pycache__ -prune -o -type f -print | sed 's|^|usr/share/cpe/|'
    for it in package/systemd/*; do echo "usr/lib/systemd/system/$(basename "$it")"; done
    if has_library; then
        for it in include/cpe.h lib/libcpe.a lib/libcpe.so lib/libcpe.so.0 lib/pkgconfig/cpe.pc; do echo "usr/$it"; done
    fi
}

has_files() {
    : > "$room/error"
    wanted_files | sort > "$room/wanted"
    (cd "$fresh" && find . ! -type d -print) | sed 's|^\./||' | sort > "$room/out"
    judge 'the package has each file where it belongs, and no other' 0 0 "$room/wanted"
    : > "$room/out"
    (
        cd "$fresh/usr" || exit
        cmp bin/cpe "$here/build/cpe"
        cmp share/bash-completion/completions/cpe "$here/completions/cpe.bash"
        cmp share/zsh/vendor-completions/_cpe "$here/completions/_cpe"
        cmp share/doc/cpe/copyright "$here/LICENSE"
        gzip -dc share/man/man1/cpe.1.gz | cmp - "$here/docs/cpe.1"
        for it in "$here"/package/systemd/*; do cmp "lib/systemd/system/$(basename "$it")" "$it"; done
        cd share/cpe && find recipes service -type f -exec cmp {} "$here/{}" \;
    ) > "$room/out" 2>&1
    judge 'its files are those of the checkout' 0 0 /dev/null
    (cd "$fresh" && md5sum --quiet -c "$room/control/md5sums") > "$room/out" 2>&1
    judge 'its checksums are those of its files' $? 0 /dev/null
}

# Folders and files belong to root, all can read them, root alone can write them, and only the program is executable.
has_modes() {
    dpkg-deb -c "$package" | awk '
        { wanted = "-rw-r--r--" }
        /^d/ { wanted = "drwxr-xr-x" }
        /^l/ { wanted = "lrwxrwxrwx" }
        $6 == "./usr/bin/cpe" { wanted = "-rwxr-xr-x" }
        $1 != wanted || $2 != "root/root" { print }' > "$room/out"
    judge 'its files have the right modes, and belong to root' 0 0 /dev/null
}

# The fields that dpkg reads from it.
has_fields() {
    {
        echo 'Package: cpe'
        echo "Version: $version"
        echo "Architecture: $(dpkg --print-architecture)"
    } > "$room/wanted"
    dpkg-deb -f "$package" Package Version Architecture > "$room/out" 2> "$room/error"
    judge 'the package tells its name, its version and its architecture' $? 0 "$room/wanted"
    what='the package tells all that dpkg asks for'
    dpkg-deb --info "$package" > "$room/info" 2> "$room/error"
    for it in 'Maintainer: .* <.*@.*>' 'Installed-Size: [1-9][0-9]*' 'Depends: libc6 (>= [0-9.]*[0-9])' 'Description: names of products .*'; do
        grep -q "^ $it\$" "$room/info" || { fail "$what" "there is no $it"; return; }
    done
    : > "$room/out"
    judge "$what" 0 0 /dev/null
}

# sessions_of PAGE HEADING: the sessions in a part of a page.
sessions_of() { awk -v wanted="$2" '/^#+ / { is_part = $0 == wanted } is_part' "$here/$1"; }

# The first examples of the pages, with nothing but the package.
answers_unpacked() {
    mkdir -p "$room/try/build"
    ln -s "$fresh/usr/share/cpe/recipes" "$room/try/recipes"
    program=$fresh/usr/bin/cpe
    cd "$room/try" || exit 2
    sessions_of docs/RECORDS.md '## The words' > "$room/sessions"
    answers_sessions 'the words, by the program of the package' < "$room/sessions"
    sessions_of README.md '# cpe' > "$room/sessions"
    if needs 'the README, by the recipes of the package' python3; then
        answers_sessions 'the README, by the recipes of the package' < "$room/sessions"
    fi
    cd "$here" || exit 2
}

# The units of the service are valid for systemd, and restrict the service to what it needs.
has_units() {
    what='the units of the service'
    needs "$what" systemd-analyze || return
    # (the commands of the units don't exist here, and nothing is enabled)
    mkdir "$room/units"
    for it in "$fresh"/usr/lib/systemd/system/*; do sed 's|^ExecStart=[^ ]*|ExecStart=/bin/true|' "$it" > "$room/units/$(basename "$it")"; done
    limited systemd-analyze verify --man=no --recursive-errors=no "$room"/units/* > "$room/out" 2>&1
    judge "$what are right" $? 0 /dev/null
    for it in cpe-service cpe-service-feeds; do
        limited systemd-analyze security --offline=yes --threshold=25 "$room/units/$it.service" > "$room/said" 2>&1
        status=$?
        : > "$room/out"
        judge "$it.service is exposed to little" "$status" 0 /dev/null
    done
}

# The commands of the units work with the user, the files and the system calls that the units allow. (This doesn't need
# a running systemd.)
runs_units() {
    what='what the units run'
    needs "$what" systemd-analyze unshare mount findmnt || return
    [ "$(id -u)" = 0 ] || { skip "$what" 'root alone can shut it off'; return; }
    python=/usr/bin/python3
    "$python" -c 'import seccomp, starlette, uvicorn' 2> /dev/null ||
        { skip "$what" "$python has no seccomp, starlette and uvicorn (apt-get install python3-seccomp python3-starlette python3-uvicorn)"; return; }
    unshare --mount --net true 2> /dev/null || { skip "$what" 'this system gives no namespaces'; return; }
    mkdir "$room/as-units"
    limited unshare --mount --net "$python" -B tests/service/as_unit.py "$fresh" "$room/as-units" > "$room/said" 2>&1
    status=$?
    tail -n 1 "$room/said" > "$room/out"
    echo "the end, by a signal: (0, '')" > "$room/wanted"
    : > "$room/error"
    judge "$what serves, shut off as they say" "$status" 0 "$room/wanted"
    [ "$status" = 0 ] || tail -n 5 "$room/said"
}

# The service, with nothing but the package, begins with the samples and has their verdicts.
serves_unpacked() {
    what='the service of the package'
    needs "$what" curl || return
    for python in python3 /usr/bin/python3 ''; do
        if [ -n "$python" ] && "$python" -c 'import starlette, uvicorn' 2> /dev/null; then break; fi
    done
    [ -n "$python" ] || { skip "$what" 'no python3 has starlette and uvicorn'; return; }
    CPE=$fresh/usr/bin/cpe PYTHONPATH=$fresh/usr/share/cpe/service "$python" -B -m cpe_service --data "$room/data" --port 0 --samples > "$room/said" 2>&1 &
    served=$!
    tries=0
    address=
    while [ -z "$address" ] && [ $tries -lt 200 ]; do
        sleep 0.1
        tries=$((tries + 1))
        address=$(sed -n 's|.*\(http://[0-9.:]*\)/.*|\1|p' "$room/said")
    done
    curl -s -T recipes/samples/ranges/legacy-1.txt "$address/machines/legacy-1" > "$room/answer" 2> "$room/error"
    kill "$served"
    wait "$served" 2> /dev/null
    grep -o '"counts":{[^}]*}' "$room/answer" > "$room/out"
    echo '"counts":{"TRUE":4,"UNKNOWN":1}' > "$room/wanted"
    judge "$what begins with the samples, and has their verdicts" 0 0 "$room/wanted"
}

# A program can be linked with the library as cpe.pc says, except that the library isn't in its final place here.
links_unpacked() {
    what='the library of the package'
    has_library || { skip "$what" 'it is not built: make library'; return; }
    needs "$what" cc pkg-config || return
    PKG_CONFIG_LIBDIR=$fresh/usr/lib/pkgconfig PKG_CONFIG_SYSROOT_DIR=$fresh
    export PKG_CONFIG_LIBDIR PKG_CONFIG_SYSROOT_DIR
    pkg-config --modversion cpe > "$room/out" 2> "$room/error"
    status=$?
    echo "$version" > "$room/wanted"
    judge "$what tells its version" "$status" 0 "$room/wanted"
    # (pkg-config omits folders in which the compiler looks anyway)
    cc tests/library/lines.c $(PKG_CONFIG_ALLOW_SYSTEM_CFLAGS=1 PKG_CONFIG_ALLOW_SYSTEM_LIBS=1 pkg-config --cflags --libs cpe) -o "$room/lines" \
        2> "$room/error" || { fail "$what" "$(head -n 1 "$room/error")"; return; }
    limited "$fresh/usr/bin/cpe" unbind < examples/mixed.txt > "$room/wanted"
    limited env LD_LIBRARY_PATH="$fresh/usr/lib" "$room/lines" unbind < examples/mixed.txt > "$room/out" 2> "$room/error"
    judge "$what answers a program in C" $? 1 "$room/wanted"
}

# completes SHELL WANTED WORD..: the words that the shell offers for the last of these words, with a space between them.
completes() {
    shell=$1
    echo "$2" > "$room/wanted"
    shift 2
    what="$shell completes: cpe $*"
    "offers_$shell" "$@" > "$room/offered" 2> "$room/error"
    status=$?
    # (echo puts one space between them, whatever ends a line)
    echo $(cat "$room/offered") > "$room/out"
    judge "$what" "$status" 0 "$room/wanted"
}

# (prints whether files would be offered)
offers_bash() {
    limited bash --norc -c '
        compopt() { echo "$*"; }
        . completions/cpe.bash
        complete -p cpe | grep -q -- "-F _cpe cpe" || exit
        COMP_WORDS=(cpe "$@") COMP_CWORD=$#
        _cpe
        printf "%s\n" "${COMPREPLY[@]}"' bash "$@"
}

# (zsh's own functions are replaced by printing: of a list the words that fit, without their descriptions)
offers_zsh() {
    limited zsh -f -c '
        _describe() {
            local -a all=(${(P)3})
            print -l -- ${(M)${all%%:*}:#$words[CURRENT]*}
        }
        _cpe() { . completions/_cpe }
        words=(cpe "$@") CURRENT=$(($# + 1))
        _cpe' zsh "$@"
}

# The words of both are those of the usage line.
completes_in() {
    needs "the completions for $1" "$1" sort || return
    completes "$1" 'fs uri' bind ''
    completes "$1" 'uri' bind u
    completes "$1" '1 10 100 1000 10000 100000 800000' make ''
    completes "$1" '800000' drill 8
    completes "$1" 'compare convert check cover' c
    completes "$1" '' watch ''
    completes "$1" '' bind fs ''
    completes "$1" '' x
    "$program" | sed 's/^usage: cpe //; s/ N//g; s/bind [a-z]*/bind/g' | tr '|' '\n' | sort -u > "$room/wanted"
    "offers_$1" '' 2> "$room/error" | sort > "$room/out"
    judge "the words that $1 completes are those of the usage line" 0 0 "$room/wanted"
}

completes_in bash
if has bash; then completes bash '-o default' watch '<' rec; fi
completes_in zsh
if unpacks; then
    mkdir "$room/control"
    dpkg-deb -e "$package" "$room/control"
    has_files
    has_modes
    has_fields
    has_units
    runs_units
    answers_unpacked
    serves_unpacked
    links_unpacked
fi
end_of_checks 'package checks'
