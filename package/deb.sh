#!/bin/sh
# Builds cpe_VERSION_ARCHITECTURE.deb in a folder, from build/cpe, and from the library if it is built: sh
# package/deb.sh VERSION MAINTAINER FOLDER. It contains what make install installs below PREFIX, and the further files
# that Debian requires.
set -eu
umask 022
cd "$(dirname "$0")/.."
version=$1 maintainer=$2 folder=$3
for tool in dpkg dpkg-deb gzip md5sum; do
    command -v "$tool" > /dev/null || { echo "$tool is not on PATH" >&2; exit 1; }
done

room=$(mktemp -d build/package.XXXXXX)
trap 'rm -rf "$room"' EXIT
trap 'exit 130' HUP INT TERM
# (the package keeps the modes of its folders, and mktemp makes one that others can't read)
root=$room/root
mkdir "$root" "$root/DEBIAN"

# puts TARGET DONE: what a target of the Makefile installs, whose prerequisite DONE is already made.
puts() {
    MAKEFLAGS='' make -s -o "$2" "$1" DESTDIR="$root" PREFIX=/usr VERSION="$version" ZSH_COMPLETIONS=/usr/share/zsh/vendor-completions
}

puts install program
linked=$root/usr/bin/cpe
if [ -f build/libcpe.a ] && [ -f build/libcpe.so ]; then
    puts install-library library
    # (Debian's rules: a library isn't executable, its installation triggers ldconfig, and it lists its package)
    chmod 644 "$root/usr/lib/libcpe.so.0"
    echo 'activate-noawait ldconfig' > "$root/DEBIAN/triggers"
    echo "libcpe 0 cpe (>= $version)" > "$root/DEBIAN/shlibs"
    linked="$linked $root/usr/lib/libcpe.so.0"
fi
gzip -9n "$root/usr/share/man/man1/cpe.1"
mkdir -p "$root/usr/share/doc/cpe" "$root/usr/lib/systemd/system"
install -m 644 package/systemd/* "$root/usr/lib/systemd/system"
install -m 644 LICENSE "$root/usr/share/doc/cpe/copyright"

architecture=$(dpkg --print-architecture)
# The C library has to be as new as the newest symbol that is used.
libc=$(grep -aoh 'GLIBC_[0-9.]*[0-9]' $linked | sed 's/GLIBC_//' | sort -V | tail -n 1)
cat > "$root/DEBIAN/control" << END
Package: cpe
Version: $version
Architecture: $architecture
Maintainer: $maintainer
Installed-Size: $(du -sk "$root/usr" | cut -f 1)
Depends: libc6 (>= $libc)
Recommends: python3 (>= 3.11)
Suggests: python3-starlette, python3-uvicorn
Section: utils
Priority: optional
Description: names of products (CPE 2.3), and advisories over an inventory
 It translates and compares names of CPE 2.3, keeps a dictionary and an
 inventory, and tells which advisories concern which machine.
 .
 The recipes, in /usr/share/cpe/recipes, begin with feeds and software lists,
 and end with a table. They are in Python.
 .
 The service, cpe-service.service, does the same for a team. It needs the
 suggested packages, and isn't enabled by itself.
END
(cd "$root" && find usr -type f -exec md5sum {} +) > "$root/DEBIAN/md5sums"
mkdir -p "$folder"
dpkg-deb --root-owner-group --build "$root" "$folder/cpe_${version}_$architecture.deb"
