# Builds an adapter in Go into build/conformance/, if it isn't there or is older than its sources, and runs it. The
# scripts beside this file source it. `adapter` is the adapter's folder; `package` and `folder` are those of a package
# that it uses, and `library` is a library to be linked.
set -eu
here=$(cd "$(dirname "$0")" && pwd)
top=$(cd "$here/../.." && pwd)
path=$top/build/conformance/$adapter
program=$path/bin/$adapter
if [ ! "$program" -nt "$here/$adapter/main.go" ] || { [ -n "${library:-}" ] && [ ! "$program" -nt "$library" ]; }; then
    rm -rf "$path/src"
    mkdir -p "$path/src" "$path/bin"
    [ -n "${HOME:-}" ] || export GOCACHE="$path/cache"
    # (rt ci refuses a tree with links)
    cp -R "$here/$adapter" "$path/src/$adapter"
    [ -z "${package:-}" ] || cp -R "$top/$folder" "$path/src/$package"
    GOPATH=$path:/usr/share/gocode GO111MODULE=off GOFLAGS='' go build -o "$program.new" "$adapter" >&2
    mv -f "$program.new" "$program"
fi
exec "$program"
