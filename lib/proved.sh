#!/bin/sh
# Proves a part of nlog and compiles it for a processor, unless that was done of the same sources by the same toolchain, and prints where it lies.
set -eu

usage="usage: lib/proved.sh PART TARGET
       lib/proved.sh --sources
PART is nlog, the object of the program, or nl_c, the archive of the proved part of the library for C; TARGET is x86_64 or aarch64
beside what it prints lie \`verdict\`, the prover's last line, and \`sources\`, the sum of what was proved, which --sources prints"

said_by=lib/proved.sh
top=$(CDPATH='' cd -- "$(dirname "$(readlink -f "$0")")/.." && pwd)
. "$top/lib/tools.sh"

# The sum of all that the prover reads, and of the toolchain.
sources() {
    (
        cd "$top"
        rt version
        cat crates.txt HANDLES
        find crates -name out -prune -o -type f \( -name '*.rt' -o -name '*.antt' \) -print | LC_ALL=C sort | tr '\n' '\0' | xargs -0 sha256sum
    ) | sha256sum | cut -d ' ' -f 1
}

case ${1-}:$# in
    --sources:1)
        need_rt
        sources
        exit 0
        ;;
    nlog:2) made=nlog.o ;;
    nl_c:2) made=libnl_c.a ;;
    *)
        echo "$usage" >&2
        exit 2
        ;;
esac
part=$1
target=$2
take_tools "$target"
need_rt
need flock sha256sum

folder=$top/crates/$part/out/$target
mkdir -p "$folder"
# One at a time: what is made lies in one place first, whatever the processor.
exec 9> "$top/crates/$part/out/proved.lock"
flock 9
sum=$(sources)
if [ -e "$folder/$made" ] && [ "$sum" = "$(cat "$folder/sources" 2> /dev/null)" ]; then
    echo "$folder/$made"
    exit 0
fi

cd "$top/crates/$part"
rm -f "$folder/$made" "out/$made" out/nlog.stamp
echo "$said_by: proving and compiling $part for $target, which takes minutes the first time" >&2
[ "$target" = x86_64 ] || set -- --target "$triple"
[ "$target" != x86_64 ] || set --
# The toolchain links a program for x86-64 alone: for another processor it ends badly behind the proof. It makes no object of what isn't proved.
case $part in
    nlog) rt run "$@" -- --version 9>&- > "$folder/said" 2>&1 || true ;;
    nl_c) rt lib "$@" 9>&- > "$folder/said" 2>&1 || true ;;
esac
if [ ! -e "out/$made" ] || ! grep "^logic=proved .* target=$triple " "$folder/said" | tail -n 1 | grep . > "$folder/verdict"; then
    cat "$folder/said" >&2
    echo "$said_by: $part isn't proved" >&2
    exit 1
fi
mv "out/$made" "$folder/$made"
echo "$sum" > "$folder/sources"
rm "$folder/said"
echo "$folder/$made"
