#!/bin/sh
# Proves the program, and links it with a C library of its own, so that it needs none of the system.
set -eu

usage="usage: lib/program.sh [--target TARGET] TO
makes the program TO from crates/nlog, lib/heap.c and lib/program/*.c, as one static file
TARGET is x86_64, which is taken without the option, or aarch64; CC=COMMAND takes another compiler for it, as musl-gcc
NLOG_OBJECT=FILE keeps there what is linked with the C library, so that it may be linked with another: \`cc -static FILE\`"

said_by=lib/program.sh
# From any folder, by a link too.
top=$(CDPATH='' cd -- "$(dirname "$(readlink -f "$0")")/.." && pwd)
. "$top/lib/tools.sh"
take_words "$@"
need "$cc" "$objcopy" "$strip"

proved=$("$top/lib/proved.sh" nlog "$target")

room=$(mktemp -d)
trap 'rm -rf "$room"' EXIT
# The program's `main` takes no words: that of lib/program/host.c keeps them, and then calls it.
"$objcopy" --redefine-sym main=proved_main "$proved" "$room/proved.o"
for part in "$top/lib/heap.c" "$top"/lib/program/*.c; do
    $cc -std=c11 -Wall -Wextra -O2 -fPIC -c "$part" -o "$room/$(basename "$part" .c).o"
done
$cc -r -nostdlib -o "$room/nlog.obj" "$room"/*.o
mv "$room/nlog.obj" "$room/nlog.o"
$cc -static-pie -Wl,-z,relro,-z,now,-z,noexecstack -o "$room/nlog" "$room/nlog.o"
"$strip" "$room/nlog"

if [ -n "${NLOG_OBJECT-}" ]; then cp "$room/nlog.o" "$NLOG_OBJECT"; fi
cp "$room/nlog" "$to.new"
mv -f "$to.new" "$to"
