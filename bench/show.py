#!/usr/bin/env python3
"""Processor time and memory of commands that read the same log on standard input, their runs interleaved.

    show.py [-n ROUNDS] LOG NAME=COMMAND [NAME=COMMAND ..]

The first command is the yardstick. For each: the least processor time (user and system), the median (and quartiles)
over the rounds of its time over the yardstick's in the same round, and the peak of its memory, if it is above Python's.
"""
import argparse, os, shlex, statistics, subprocess


def once(words, log):
    with open(log, "rb") as source:
        process = subprocess.Popen(words, stdin=source, stdout=subprocess.DEVNULL)
        _, status, usage = os.wait4(process.pid, 0)
    process.returncode = status
    if status:
        raise SystemExit("%s: status %d" % (words, status))
    return (usage.ru_utime + usage.ru_stime) * 1e3, usage.ru_maxrss


def main():
    args = argparse.ArgumentParser(description=__doc__, formatter_class=argparse.RawDescriptionHelpFormatter)
    args.add_argument("-n", type=int, default=11)
    args.add_argument("log")
    args.add_argument("commands", nargs="+")
    args = args.parse_args()
    commands = [(c.split("=", 1)[0], shlex.split(c.split("=", 1)[1])) for c in args.commands]
    for _, words in commands:
        once(words, args.log)
    rounds = [[once(words, args.log) for _, words in commands] for _ in range(args.n)]
    for i, (name, _) in enumerate(commands):
        low, ratio, high = statistics.quantiles([r[i][0] / r[0][0] for r in rounds], n=4)
        print("%-12s cpu %7.1f ms   ratio %.2f (%.2f to %.2f)   memory %6.1f MB" % (
            name, min(r[i][0] for r in rounds), ratio, low, high, max(r[i][1] for r in rounds) / 1e3))


main()
