#!/usr/bin/env bash
# The test command of README.md: the gate, the edits that it must refuse, and then the trials of tests/ on the program that it built.
#
#   ./test.sh [--strict]
#
# Each part ends in a line 'N passed, M failed', behind what it skipped; the last line is their sum. What was skipped is named at the end, and with --strict it has failed.
# NLOG_NINJA_SOURCES=FOLDER tries Ninja and samurai on the library for C too, and --strict does, with sources that are fetched where there are none.
# NLOG_NINJAS=FOLDER tries more Ninjas, and NLOG_ROOT=FOLDER a Debian of the packages; --strict makes them where none is named.
set -uo pipefail
cd "$(dirname "$0")"

strict=${1-}
if (($# > 1)) || [[ $strict != "" && $strict != --strict ]]; then
    echo "usage: ./test.sh [--strict]" >&2
    exit 2
fi

passed=0
failed=0

# Adds the last line of what a part printed to the sum. A part that ends badly, or without that line, has failed. tests/counts.py reads all of it.
count() {
    local status=$1 last
    last=$(tail -n 1 "$2")
    { echo "part: ${*:3}"; cat "$2"; } >> "$room/said"
    shift 2
    if [[ $last =~ ^(.*: )?([0-9]+)\ passed,\ ([0-9]+)\ failed$ ]]; then
        passed=$((passed + BASH_REMATCH[2]))
        failed=$((failed + BASH_REMATCH[3]))
        ((status == 0 || BASH_REMATCH[3] > 0)) && return
    fi
    echo "test.sh: FAILED: $* ended with status $status"
    failed=$((failed + 1))
}

# Runs a part, and shows what it prints.
part() {
    echo "== $*"
    "$@" 2>&1 | tee "$room/part"
    count "${PIPESTATUS[0]}" "$room/part" "$@"
}

# Runs each of these lines, words as the shell reads them, as a part, as many at one time as there are processors. It says how each ends, and then shows
# what they printed in the order of the lines.
parts() {
    local lines=("$@") line at lanes
    lanes=$(nproc 2> /dev/null || echo 2)
    (($# == 0)) || echo "== $# parts, at most $lanes at a time"
    for at in "${!lines[@]}"; do
        while (($(jobs -rp | wc -l) >= lanes)); do wait -n; done
        eval "line=(${lines[at]})"
        ("${line[@]}" > "$room/$at" 2>&1 < /dev/null; echo $? > "$room/$at.status"; echo "ended: ${lines[at]}: $(tail -n 1 "$room/$at")") &
    done
    wait
    for at in "${!lines[@]}"; do
        echo "== ${lines[at]}"
        cat "$room/$at"
        eval "line=(${lines[at]})"
        count "$(cat "$room/$at.status")" "$room/$at" "${line[@]}"
    done
}

# Leaves a part out, and says why.
skip() {
    printf 'skipped: all of it: %s\n0 passed, 0 failed\n' "$1" > "$room/part"
    count 0 "$room/part" "${@:2}"
}

# Adds to a list of lines the one that tries Ninja or samurai on the library for C, where its source is in the folder that NLOG_NINJA_SOURCES names, or may
# be fetched.
peer() { # list, source, words
    local -n list=$1
    if [[ -n $strict || -n ${NLOG_NINJA_SOURCES-} && -e $NLOG_NINJA_SOURCES/$2 ]]; then
        list+=("${*:3}${NLOG_NINJA_SOURCES:+ ${NLOG_NINJA_SOURCES@Q}}")
    else
        skip "NLOG_NINJA_SOURCES names no folder that has $2" "${@:3}"
    fi
}

room=$(mktemp -d)
trap 'rm -rf "$room"' EXIT

if ! python3 -c 'import sys; sys.exit(sys.version_info < (3, 8))' 2> /dev/null; then
    echo "test.sh: FAILED: the trials of tests/ want Python 3.8 or later, which isn't here; nothing was run"
    echo "0 passed, 1 failed"
    exit 1
fi

if ! command -v rt > /dev/null; then
    echo "test.sh: FAILED: rt isn't there: the command of the Rattle toolchain, which proves and compiles nlog; README.md says what to do without it"
    echo "0 passed, 1 failed"
    exit 1
fi

part rt ci
# The verdicts, and what is compiled of what is proved, which lib/archive.sh and lib/program.sh take below.
part python3 tests/verdicts.py
part python3 tests/edits.py --times
part python3 tests/labels.py
part python3 tests/citations.py
part python3 tests/prose.py
# The program as LLVM made it, and as Rattle's own compiler did.
part python3 tests/examples.py crates/nlog/out/nlog
part python3 tests/examples.py crates/nlog/out/nlog.by-rattle

# More Ninjas, and a root of Debian, which trials take where they are named, and --strict makes. What can't be made is skipped below.
if [[ -n $strict && -z ${NLOG_NINJAS-} ]]; then
    export NLOG_NINJAS=$room/ninjas
    mkdir "$NLOG_NINJAS"
    integrations/ninja/others.sh "$NLOG_NINJAS"
fi
if [[ -n $strict && -z ${NLOG_ROOT-} ]]; then
    export NLOG_ROOT=$room/root
    debootstrap --variant=minbase bookworm "$NLOG_ROOT" "${NLOG_MIRROR:-http://deb.debian.org/debian}" > "$room/part" 2>&1 || tail -n 3 "$room/part"
fi

# The program and the library for ARM64, which a program that plays that processor runs; samurai; the libraries, and the program. Each says what it skips,
# and why: a formatter, strace, Ninja or a small disk may be missing. Those that take the longest begin first.
[[ -z $strict ]] || export NLOG_PARTS="own steps without cmake tests faults differ stale cost"
trials=()
if [[ -n $strict ]]; then
    trials+=("python3 tests/targets.py")
else
    skip "it takes a quarter of an hour, and --strict runs it" python3 tests/targets.py
fi
peer trials muon-0.4.0 integrations/samurai/try.sh
for trial in system_bugs library growths refusals builds_compared lines_read host; do
    trials+=("python3 tests/$trial.py")
done
for trial in stops crash_states found_builds mended large many terminal system_calls short_writes fuzz rivals files commands options apply apply_calls begun_builds scripts limits clib manual damaged closed_streams completions kept real_disks full_disk two_writers under_lock between reports release with_ninja; do
    trials+=("python3 tests/$trial.py crates/nlog/out/nlog")
done
parts "${trials[@]}"

# The Ninjas, which are measured too, so nothing runs beside the two.
ninjas=()
peer ninjas ninja-1.11.1 integrations/ninja/try.sh 1.11.1
peer ninjas ninja-1.13.2 integrations/ninja/try.sh 1.13.2
parts "${ninjas[@]}"
part python3 tests/counts.py ${strict:+"$strict"} "$room/said"

# What it cost: the clock, and the processor time of all that it started, user and system.
times > "$room/times"
read -r user system < <(tail -n 1 "$room/times")
echo "test.sh: it took $((SECONDS / 60)) min $((SECONDS % 60)) s on $(nproc 2> /dev/null || echo some) processors, which worked for $user (user) and $system (system)"

echo "$passed passed, $failed failed"
((failed == 0))
