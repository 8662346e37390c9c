#!/usr/bin/env python3
"""What a line of `nlog apply` costs, and its records beside as many calls of `nlog record`.

    python3 bench/apply.py [-n ROUNDS] PROGRAM FOLDER

Each row is the least of the rounds: the clock, and user and system together, of one script on a fresh copy of its log in FOLDER, less
those of the script that only opens and stops it. The answers go to a file. The calls of `record` are made one after another, by a shell.
"""
import argparse
import os
import resource
import subprocess
import sys
import time

LINES, CALLS = 100_000, 10_000
SMALL = b"# ninja log v5\n" + b"".join(b"1\t2\t3\tout%d\taa\n" % it for it in range(10))
FULL = b"# ninja log v5\n" + b"".join(b"1\t2\t3\tsrc/library/out%d.o\taa\n" % it for it in range(30_000))


def timed(words, folder, log, script, answers):
    """The clock and the processors of a run, in seconds; its answers have to be these."""
    for name, text in (("LOG", log), ("SCRIPT", script)):
        with open(f"{folder}/{name}", "wb") as it:
            it.write(text)
    with open(f"{folder}/ANSWERS", "wb") as out:
        before, begin = resource.getrusage(resource.RUSAGE_CHILDREN), time.monotonic()
        subprocess.run(words, cwd=folder, stdout=out, check=True)
        clock, after = time.monotonic() - begin, resource.getrusage(resource.RUSAGE_CHILDREN)
    with open(f"{folder}/ANSWERS", "rb") as it:
        if it.read() != answers:
            sys.exit("apply.py: other answers than these")
    return clock, after.ru_utime + after.ru_stime - before.ru_utime - before.ru_stime


def least(rounds, *run):
    """The least clock and the least processors, each by itself."""
    return [min(it) for it in zip(*(timed(*run) for _ in range(rounds)))]


def main():
    words = argparse.ArgumentParser(description=__doc__, formatter_class=argparse.RawDescriptionHelpFormatter)
    words.add_argument("-n", type=int, default=5, metavar="ROUNDS")
    words.add_argument("PROGRAM")
    words.add_argument("FOLDER")
    given = words.parse_args()
    program, folder = os.path.abspath(given.PROGRAM), given.FOLDER
    apply = [program, "apply", "LOG", "SCRIPT"]
    record = [b"record\t1\t2\t3\tsrc/library/new%d.o\taa\n" % it for it in range(LINES)]
    get = [b"get\tsrc/library/out%d.o\n" % (it * 7 % 30_000) for it in range(LINES)]
    got = [b"1\t2\t3\tsrc/library/out%d.o\taa\n" % (it * 7 % 30_000) for it in range(LINES)]
    small = [b"record\t1\t2\t3\tout%d\taa\n" % (it % 10) for it in range(CALLS)]
    rows = [
        ("100,000 records of new outputs", FULL, record, [b"ok\n"] * LINES, LINES),
        ("100,000 gets of 30,000 outputs", FULL, get, got, LINES),
        ("100,000 bad lines", FULL, [b"bad\n"] * LINES, [b"bad line\n"] * LINES, LINES),
        ("10,000 records", SMALL, small, [b"ok\n"] * CALLS, CALLS),
        ("10,000 records, each with a sync", SMALL, [it + b"sync\n" for it in small], [b"ok\nok\n"] * CALLS, CALLS),
    ]
    for what, log, lines, answers, count in rows:
        empty = least(given.n, apply, folder, log, b"open\nstop\n", b"ok\nok\n")
        full = least(given.n, apply, folder, log, b"open\n" + b"".join(lines) + b"stop\n", b"ok\n" + b"".join(answers) + b"ok\n")
        clock, processors = (full[it] - empty[it] for it in (0, 1))
        print(f"{what}: clock {clock * 1000:.0f} ms, processors {processors * 1000:.0f} ms, {processors / count * 1e6:.2f} us a line")
    calls = f"for i in $(seq 0 {CALLS - 1}); do '{program}' record LOG 1 2 3 out$((i % 10)) c || exit; done"
    clock, processors = least(1, ["sh", "-c", calls], folder, SMALL, b"", b"")
    print(f"10,000 calls of record: clock {clock * 1000:.0f} ms, processors {processors * 1000:.0f} ms, {processors / CALLS * 1e6:.2f} us a call")


if __name__ == "__main__":
    main()
