#!/usr/bin/env python3
"""What the reports take of a log, beside `show` of it: instructions, counted by callgrind, so that no other process counts, and memory.

    python3 bench/reports.py [--lines N] [--keep FOLDER] PROGRAM

The logs have N lines (1,000,000), of one build and of 20,000, by sixteen commands at a time. A last column says which ratio is wanted at most. With
--keep the logs stay in FOLDER. Wants valgrind.
"""
import argparse
import heapq
import os
import random
import re
import subprocess
import tempfile

BUILDS = {"one build": 1, "20,000 builds": 20_000}
WORDS = {"show": (1, 1), "builds": (1.1, None), "summary": (1.4, None), "summary --all": (1.6, 2.0), "picture": (1.5, None), "trace": (3, None)}
KINDS = [".cpp.o"] * 12 + [".c.o"] * 4 + [".h", ".a", ".so", "", ".stamp"]


def lines_of(count, builds):
    """A log of version 5. Of several builds, each makes outputs again that one before made."""
    chance, began, outputs = random.Random(7), 1_700_000_000_000, count if builds == 1 else max(count // 3, count // builds)
    yield "# ninja log v5\n"
    for first in range(0, count, count // builds):
        lanes, ran = [0] * 16, []
        for i in range(first, min(first + count // builds, count)):
            start = heapq.heappop(lanes)
            end = start + 2 + int(chance.expovariate(1 / 400))
            heapq.heappush(lanes, end)
            ran.append((end, start, i % outputs))
        for end, start, i in sorted(ran):
            name = f"lib/Target/X86/CMakeFiles/part{i % 97}.dir/Lower{i:07}{KINDS[i % len(KINDS)]}"
            yield f"{start}\t{end}\t{(began + end) * 1_000_000}\t{name}\t{i * 0x9E3779B97F4A7C15 % 2**64:x}\n"
        began += max(lanes) + 60_000


def write_log(log, count, builds):
    """Writes a log in a process of its own, because what a command is said to take at its peak is at least what this process took."""
    child = os.fork()
    if child == 0:
        with open(log, "w", encoding="utf-8") as it:
            it.writelines(lines_of(count, builds))
        os._exit(0)
    os.waitpid(child, 0)


def counted(words, log):
    """How many instructions a command takes, and its peak of memory in KB."""
    with open(log, "rb") as it:
        said = subprocess.run(["valgrind", "--tool=callgrind", "--callgrind-out-file=/dev/null", *words], stdin=it, stdout=subprocess.DEVNULL, stderr=subprocess.PIPE, check=True, text=True)
    with open(log, "rb") as it:
        ran = subprocess.Popen(words, stdin=it, stdout=subprocess.DEVNULL)
        _, _, usage = os.wait4(ran.pid, 0)
    return int(re.search(r"Collected *: *(\d+)", said.stderr)[1]), usage.ru_maxrss


def main():
    words = argparse.ArgumentParser(description=__doc__, formatter_class=argparse.RawDescriptionHelpFormatter)
    words.add_argument("--lines", type=int, default=1_000_000, metavar="N")
    words.add_argument("--keep", metavar="FOLDER")
    words.add_argument("PROGRAM")
    given = words.parse_args()
    with tempfile.TemporaryDirectory() as room:
        for what, builds in BUILDS.items():
            log = f"{given.keep or room}/{builds}.log"
            write_log(log, given.lines, min(builds, given.lines))
            base = None
            for told, (time, memory) in WORDS.items():
                took, held = counted([given.PROGRAM, *told.split()], log)
                base = base or (took, held)
                wanted = f"{time} at most" + (f", {memory} in memory" if memory else "")
                print(f"{what:14} {told:14} {took / 1e6:8.0f} M {took / base[0]:5.2f}   {held / 1024:6.0f} MB {held / base[1]:5.2f}   {wanted}", flush=True)


if __name__ == "__main__":
    main()
