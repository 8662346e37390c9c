#!/bin/sh
# Proves and builds the library for C: an archive, and a shared object beside it, in which no name is global but the library's own.
set -eu

usage="usage: lib/archive.sh [--target TARGET] TO
makes TO, as libnlog.a, from crates/nl_c and the C in lib/, and libnlog.so.VERSION with its links in the same folder
TARGET is x86_64, which is taken without the option, or aarch64; CC=COMMAND takes another compiler for it, as musl-gcc"

said_by=lib/archive.sh
# From any folder, by a link too.
top=$(CDPATH='' cd -- "$(dirname "$(readlink -f "$0")")/.." && pwd)
. "$top/lib/tools.sh"
take_words "$@"
need "$cc" "$ar" "$nm" "$objcopy"

proved=$("$top/lib/proved.sh" nl_c "$target")

room=$(mktemp -d)
trap 'rm -rf "$room"' EXIT
# The proved calls that only read, and those that make a log, are called by C of the library, which has their names.
"$objcopy" --redefine-syms="$top/lib/proved.names" "$proved" "$room/proved.a"
(cd "$room" && "$ar" x proved.a && rm proved.a)
for part in "$top"/lib/*.c; do
    $cc -std=c11 -Wall -Wextra -O2 -fPIC -I "$top/include" -c "$part" -o "$room/$(basename "$part" .c).o"
done

# One object, with the names that the header declares for all, and every other for itself.
$cc -r -nostdlib -o "$room/all.obj" "$room"/*.o
"$nm" -g --defined-only "$room/all.obj" | awk '$3 ~ /^nlog_/ { print $3 }' | sort > "$room/names"
"$objcopy" --keep-global-symbols="$room/names" "$room/all.obj" "$room/nlog.obj"
rm -f "$room"/*.o
mv "$room/nlog.obj" "$room/nlog.o"
"$ar" rcs "$room/libnlog.a" "$room/nlog.o"

# The version of the header: 2000 is 0.2.0, whose shared object is libnlog.so.0.
number=$(sed -n 's/^#define NLOG_VERSION \([0-9]*\)$/\1/p' "$top/include/nlog.h")
major=$((number / 1000000))
shared=libnlog.so.$major.$((number / 1000 % 1000)).$((number % 1000))
# Each name has the version of the library that it came with, so that a program finds out as it starts where a library is too old for it. What
# a later version adds has that one's.
(echo "NLOG_0.2 { global:" && sed 's/$/;/' "$room/names" && echo "local: *; };") > "$room/versions"
$cc -shared -Wl,-soname,"libnlog.so.$major" -Wl,--version-script,"$room/versions" -Wl,--no-undefined -Wl,-z,relro,-z,now -o "$room/$shared" "$room/nlog.o"

# Puts a file in the place of another at once, so that a program that has it open stays whole.
put() {
    cp "$1" "$2.new"
    mv -f "$2.new" "$2"
}
put "$room/libnlog.a" "$to"
folder=$(dirname "$to")
put "$room/$shared" "$folder/$shared"
for link in "libnlog.so.$major" libnlog.so; do
    ln -sf "$shared" "$folder/$link.new"
    mv -f "$folder/$link.new" "$folder/$link"
done
