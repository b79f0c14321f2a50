#!/bin/sh
# Builds build/libcpe.a and build/libcpe.so: sh library/build.sh. They have the proved calls, which rt leaves in the folder of their
# crate, the border in library/cpe.c, and the kit's calls of malloc and free. No name but those of cpe.h can be linked with.
set -eu
cd "$(dirname "$0")/.."
archive=crates/c_library/out/libc_library.a
[ -f "$archive" ] || { echo "there is no $archive: run rt lib in crates/c_library first" >&2; exit 1; }
kit=$(dirname "$(rt doc)")

parts=build/library
rm -rf "$parts"
mkdir -p "$parts"
(cd "$parts" && ar x "../../$archive" && ar x "$kit/c/liblibc_c.a")
"${CC:-cc}" -std=c99 -O2 -fPIC -Wall -Wextra -c library/cpe.c -o "$parts/border.o"
ld -r -o "$parts/cpe.part" "$parts"/*.o
objcopy --keep-global-symbols=library/exports.txt "$parts/cpe.part"
rm -f build/libcpe.a
ar rcs build/libcpe.a "$parts/cpe.part"
"${CC:-cc}" -shared -Wl,-soname,libcpe.so.0 -Wl,--no-undefined -o build/libcpe.so -Wl,--whole-archive build/libcpe.a -Wl,--no-whole-archive
# (what is linked with it wants it by this name where it runs)
ln -f build/libcpe.so build/libcpe.so.0
rm -rf "$parts"
