#!/usr/bin/env bash
# Builds samurai as muon 0.4.0 has it and with the patch of this folder, and tries the two beside each other: README.md says what is tried.
#
#   integrations/samurai/try.sh [FOLDER]
#
# The sources are FOLDER/muon-0.4.0. If they aren't there they are fetched from Debian, by the package manager with lists of its own, into FOLDER,
# or where none is named into a folder that goes with the trial.
#
#   NLOG_CFLAGS, NLOG_LIBS    the library to take, as the compiler is told of it; else lib/archive.sh makes it, which wants rt
#   NLOG_PROGRAM              the program nlog, which tells hashes (crates/nlog/out/nlog, where it is there)
#   NLOG_MIRROR               the mirror (http://deb.debian.org/debian)
#   NLOG_PARTS                which of own, faults, stale are run (all)
#   NLOG_STATES, NLOG_SEED    how many outputs stale.py looks at (20000), and from which seed it goes (one by the clock)
#
# Needs a C compiler, python3 and patch; to fetch, apt-get and Debian's keyring; strace, and the right to mount, for the faults. Where it can't do
# its work it prints a line `skipped: why`, and ends with status 0.
set -uo pipefail

if (($# > 1)); then sed -n '2,/^set/s/^# \{0,1\}//p' "$0" >&2; exit 2; fi

here=$(cd "$(dirname "$0")" && pwd)
name=samurai parts="own faults stale" suites=trixie
. "$here/../shared.sh"

needs "${CC:-cc}" python3 patch
make_library
export NLOG_PROGRAM=${NLOG_PROGRAM:-$top/crates/nlog/out/nlog}

sources=${1:-$room/sources}
[[ -e $sources/muon-0.4.0 ]] || fetch muon-meson 0.4.0 "$sources/muon-0.4.0" tar

# muon's first stage is one file of C, and has all of samurai.
build() { # plain or patched
    cp -r "$sources/muon-0.4.0" "$room/$1"
    if [[ $1 == patched ]]; then patch -s -d "$room/$1" -p1 < "$here/muon-0.4.0.patch" || return; fi
    cd "$room/$1" && CC="${CC:-cc} -std=c99 -O1" ./bootstrap.sh built no-pkgconf
}
for it in plain patched; do
    (build "$it") > "$room/$it.build" 2>&1
    status=$?
    ((status == 0)) || tail -n 20 "$room/$it.build"
    check "$it muon 0.4.0 is built" "$status"
done
((failed == 0)) || end
programs=("$room/plain/built/muon-bootstrap" "$room/patched/built/muon-bootstrap")

# The patched one builds itself by its meson.build, and what it built builds nothing more.
own() {
    local jobs=${NLOG_JOBS:-2}
    cd "$room/patched" || return
    "${programs[1]}" setup -Dnlog_cflags="${NLOG_CFLAGS// /,}" -Dnlog_libs="${NLOG_LIBS// /,}" -Dwrap_mode=nodownload -Ddocs=disabled -Dwebsite=false own || return
    cd own && "${programs[1]}" samu -j "$jobs" && ./muon samu -j "$jobs" > ../idle && [[ ! -s ../idle ]] || return
    [[ $(grep -c "$(printf '\t')" .muon/.ninja_log) -gt 100 ]]
}
if wants own; then
    (own) > "$room/own" 2>&1
    status=$?
    ((status == 0)) || tail -n 20 "$room/own"
    check "patched: it builds itself" "$status"
fi

part faults
part stale "${NLOG_STATES:-20000}" ${NLOG_SEED:+"$NLOG_SEED"}
end
