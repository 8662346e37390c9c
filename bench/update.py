#!/usr/bin/env python3
"""What the commands that change a log cost, beside `ninja -t recompact` of the same log and the writes alone.

    update.py [-n ROUNDS] FOLDER

FOLDER, on the disk to measure and with room for 1 GB, has the programs `nlog` and `native_append`, and may have `before`, an
older `nlog` to compare with; logs and lists are made there where they are missing. `due` is a log of 1,000,000 lines over 300,000 outputs, which is due to be recompacted; `rests`
is its first 900,000 lines, which aren't. Each round runs every command once, on a copy of its log. For each: the least time of
a clock and of processors (user and system), the peak of memory, the calls of the system (where strace is there), how many
of them are writes, and the bytes that these wrote.
"""
import argparse
import os
import re
import shutil
import subprocess
import sys
import time

HERE = os.path.dirname(os.path.abspath(__file__))


def make(folder, name, command):
    """Makes a file by a command of the shell, where it is missing."""
    if not os.path.exists(f"{folder}/{name}"):
        subprocess.run(f"{command} > {name}.part && mv {name}.part {name}", shell=True, check=True, cwd=folder)


def make_all(folder):
    make(folder, "due", f"{sys.executable} {HERE}/gen_log.py --entries 1000000 --outputs 300000")
    make(folder, "rests", "head -n 900001 due")
    make(folder, "keep", "./nlog show due | cut -f 4")
    make(folder, "times", "./nlog show due | cut -f 3,4")
    make(folder, "build.ninja", "(printf 'rule c\\n  command = :\\n'; sed 's/.*/build &: c/' keep)")


def commands(folder):
    """What is measured: a name, the log that it runs on, and its words."""
    for log in ("rests", "due"):
        for program in [it for it in ("nlog", "before") if os.path.exists(f"{folder}/{it}")]:
            words = [f"./{program}"]
            yield f"{program} record, {log}", log, [*words, "record", ".ninja_log", "1", "2", "3", "an/output.o", "cc -c a.c"]
            yield f"{program} recompact, {log}", log, [*words, "recompact", ".ninja_log", "keep"]
            yield f"{program} restat, {log}", log, [*words, "restat", ".ninja_log", "times"]
        yield f"nlog show, {log}", log, ["./nlog", "show", ".ninja_log"]
        if shutil.which("ninja"):
            yield f"ninja -t recompact, {log}", log, ["ninja", "-t", "recompact"]
    if shutil.which("ninja"):
        yield "ninja -t rules (the manifest alone)", "rests", ["ninja", "-t", "rules"]
    for mode in ("anew", "held", "whole"):
        yield f"the 300,000 lines alone, {mode}", "rests", ["./native_append", mode, "small", "out"]


def once(folder, log, words):
    """Runs words on a copy of a log: milliseconds by the clock and of processors, memory, writes and bytes written."""
    shutil.copyfile(f"{folder}/{log}", f"{folder}/.ninja_log")
    subprocess.run(["sync"], check=True)
    begun = time.perf_counter()
    process = subprocess.Popen(words, cwd=folder, stdout=subprocess.DEVNULL)
    os.waitid(os.P_PID, process.pid, os.WEXITED | os.WNOWAIT)
    clock = time.perf_counter() - begun
    with open(f"/proc/{process.pid}/io", encoding="ascii") as it:
        counts = dict(line.split(": ") for line in it.read().splitlines())
    _, status, usage = os.wait4(process.pid, 0)
    process.returncode = status
    if status:
        raise SystemExit(f"{words}: status {status}")
    return clock * 1e3, (usage.ru_utime + usage.ru_stime) * 1e3, usage.ru_maxrss / 1e3, int(counts["syscw"]), int(counts["wchar"])


def calls(folder, log, words):
    """How many calls of the system words make, or a dash."""
    if shutil.which("strace") is None:
        return "-"
    shutil.copyfile(f"{folder}/{log}", f"{folder}/.ninja_log")
    subprocess.run(["strace", "-c", "-o", "counts", *words], cwd=folder, stdout=subprocess.DEVNULL, check=True)
    with open(f"{folder}/counts", encoding="ascii") as it:
        total = re.search(r"(?m)^100\.00.* total$", it.read())[0]
    return f"{int(total.split()[3]):,}"


def main():
    args = argparse.ArgumentParser(description=__doc__, formatter_class=argparse.RawDescriptionHelpFormatter)
    args.add_argument("-n", type=int, default=5)
    args.add_argument("folder")
    args = args.parse_args()
    make_all(args.folder)
    shutil.copyfile(f"{args.folder}/rests", f"{args.folder}/small")
    subprocess.run(["./nlog", "recompact", "small", "keep"], cwd=args.folder, check=True)
    rows = list(commands(args.folder))
    found = [[] for _ in rows]
    for _ in range(args.n):
        for (_, log, words), it in zip(rows, found):
            it.append(once(args.folder, log, words))
    for (name, log, words), it in zip(rows, found):
        clock, processors, memory, writes, size = map(min, zip(*it))
        made = calls(args.folder, log, words)
        print(f"{name:38} {clock:8.0f} ms {processors:8.0f} ms of processors {memory:7.1f} MB {made:>10} calls {writes:9,} writes {size:12,} bytes")


main()
