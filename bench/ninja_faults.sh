#!/usr/bin/env bash
# Shows on the installed Ninja the fault that README.md tells of, and the three of a recompaction.
# Needs ninja, strace and, for the full disk, the right to mount a tmpfs. Writes below a folder of its own in $TMPDIR.
set -uo pipefail
top=$(mktemp -d)
trap 'umount "$top/full" 2>/dev/null; rm -rf "$top"' EXIT
echo "ninja $(ninja --version)"

manifest() { printf 'rule c\n  command = echo %s > out\nbuild out: c\n' "$1" > build.ninja; }

echo "--- a torn last line is appended to: A, B, A"
mkdir "$top/torn"
cd "$top/torn" || exit 1
manifest A
ninja > /dev/null
manifest B
ninja > /dev/null
truncate -s -18 .ninja_log # the crash: the last line ends inside its output's name
ninja > /dev/null          # B again, which Ninja records behind the torn line
cat .ninja_log
header=$(head -n 1 .ninja_log) # with the version that this Ninja writes
manifest A
ninja
echo "out was made by: $(cat out)"

touching() { # a log, and a manifest whose edges build its outputs
    printf 'rule c\n  command = touch $out\n' > build.ninja
    for name in "$@"; do printf 'build %s: c\n' "$name" >> build.ninja; done
}

echo "--- a full disk: ninja -t recompact"
mkdir "$top/full"
if mount -t tmpfs -o size=64k tmpfs "$top/full"; then
    cd "$top/full" || exit 1
    touching a b
    printf '%s\n1\t2\t3\ta\taa\n1\t2\t3\tb\tbb\n' "$header" > .ninja_log
    dd if=/dev/zero of=fill bs=1k 2> /dev/null
    echo "the log before: $(stat -c %s .ninja_log) bytes"
    ninja -t recompact
    echo "status $?, the log after: $(stat -c %s .ninja_log) bytes"
fi

long_log() {
    printf '%s\n1\t2\t3\ta\taa\n' "$header"
    for i in $(seq 9000); do printf '1\t2\t3\tgone/obj/some/long/name/of/an/output%d.o\tabc\n' $((i % 90)); done
    printf '1\t2\t3\tz\tbb\n'
}

echo "--- a read error in the middle of the file: ninja -t recompact"
mkdir "$top/read"
cd "$top/read" || exit 1
touching a z
long_log > .ninja_log
strace -o /dev/null -P .ninja_log -e trace=read -e inject=read:error=EIO:when=2+ ninja -t recompact 2> /dev/null
echo "status $?, the log after:"
cat .ninja_log

echo "--- a kill between remove and rename: ninja -t recompact"
mkdir "$top/kill"
cd "$top/kill" || exit 1
touching a z
long_log > .ninja_log
(strace -o /dev/null -e trace=rename -e inject=rename:signal=SIGKILL ninja -t recompact) 2> /dev/null
ls -A | tr '\n' ' '
echo
