#!/bin/sh
# Answers cases by the library of cpe, as bindings/go calls it. It needs go, cc and the library (make library).
top=$(cd "$(dirname "$0")/../.." && pwd)
adapter=cpe_go package=cpe folder=bindings/go library=$top/build/libcpe.a
static=$top/build/conformance/static
export CGO_CFLAGS="-O2 -I$top/library" CGO_LDFLAGS="-L$static"
# (beside a shared library cgo would take that one, which the program then wants where it runs)
mkdir -p "$static" && cp -p "$library" "$static" || exit 1
. "$top/conformance/adapters/go.sh"
