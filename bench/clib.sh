#!/bin/sh
# Times the library for C beside Ninja 1.11.1's own log: NLOG_NINJA_SOURCES=FOLDER clib.sh LOG [ROUNDS]
# FOLDER has ninja-1.11.1. A load, a look (an open to read) and an open with their closes, of LOG and of its first 100 lines, each in a process of its own
# and in turn with Ninja's load, and its load, open and close; the memory of each; records, alone and shared; and look-ups of each output.
set -eu
top=$(cd "$(dirname "$0")/.." && pwd)
ninja=${NLOG_NINJA_SOURCES:?names no folder with ninja-1.11.1}/ninja-1.11.1/src
log=$1
rounds=${2:-9}
if [ -w /dev/shm ]; then export TMPDIR=/dev/shm; fi # a sync takes no time there
room=$(mktemp -d)
trap 'rm -rf "$room"' EXIT
"$top/lib/archive.sh" "$room/libnlog.a"
# Ninja's own flags; its sources but for the tests, main and Windows.
for it in build_log debug_flags depfile_parser deps_log disk_interface dyndep dyndep_parser edit_distance eval_env graph lexer manifest_parser metrics parser state string_piece_util util version; do
    c++ -O2 -DNDEBUG -fno-rtti -fno-exceptions -c "$ninja/$it.cc" -o "$room/$it.o"
done
c++ -std=c++17 -O2 -I "$top/include" -I "$ninja" "$top/bench/clib.cc" "$room"/*.o "$room/libnlog.a" -o "$room/bench"
python3 - "$room" "$log" "$rounds" << 'END'
import os, shutil, statistics, subprocess, sys

room, log, rounds = sys.argv[1:]
rounds = int(rounds)


def numbers(*words):
    return [int(it) for it in subprocess.run([f"{room}/bench", *words], capture_output=True, text=True, check=True).stdout.split()]


def shown(values):
    low, middle, high = statistics.quantiles(values, n=4)
    return f"{middle:.2f} ({low:.2f} to {high:.2f})"


def beside(what, measure, turns=rounds):
    """Prints our nanoseconds of processor time and Ninja's, in turn, and the most memory of each where that is told."""
    found = [(measure("ours"), measure("ninja")) for _ in range(turns)]
    ours, theirs = (statistics.median(it[0] for it in them) for them in zip(*found))
    more = [f"{max(it[1] for it in them) / 1024:.1f} MiB" for them in zip(*found) if len(them[0]) > 1]
    print(f"{what}: {ours:.0f} ns, Ninja {theirs:.0f} ns, ratio {shown([a[0] / b[0] for a, b in found])}{'; ' * bool(more)}{', Ninja '.join(more)}", flush=True)


whole, first = f"{room}/whole.log", f"{room}/first.log"
shutil.copy(log, whole)
with open(log, "rb") as source, open(first, "wb") as it:
    it.writelines(source.readline() for _ in range(101))
for name, path, turns in (("the log", whole, rounds), ("100 lines", first, 10 * rounds)):
    for what in ("load", "look", "open"):
        beside(f"{what} of {name}", lambda whose: numbers(what, whose, path), turns)
new = f"{room}/records.log"


def record(how, whose, outputs):
    if os.path.exists(new):
        os.remove(new)
    return numbers(how, whose, new, "200000", outputs)


for what, how, outputs in (("an output that comes again", "record", "10000"), ("a new output", "record", "200000"), ("a shared log", "shared", "10000"),
                           ("a shared log, a hold for each 100", "hundred", "10000"), ("a shared log that is held", "held", "10000")):
    beside(f"record of {what}", lambda whose: record(how, whose, outputs))
print(subprocess.run([f"{room}/bench", "find", whole, str(rounds)], capture_output=True, text=True, check=True).stdout, end="")
END
