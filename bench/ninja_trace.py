#!/usr/bin/env python3
"""The last build of a log as a trace, by the way that scripts for Ninja's log commonly go: a yardstick for `nlog trace`.

    ninja_trace.py < LOG > TRACE

A build begins where END falls. Entries of one hash are one command, whose times are those of the first. The commands are placed from the last to
the first, each in the first lane that is free from its END on. All is held, and written as one JSON array. It is what ninjatracing does, in words of
our own. Nothing is looked at twice: a line that isn't one of five fields ends it, so does a name that isn't UTF-8, and of two commands with one
hash the second is lost.
"""
import json
import sys


def commands_of(lines):
    """The commands of the last build, the last one to end first: START, END and the outputs."""
    found, last = {}, 0
    for line in lines:
        start, end, _, name, command = line.rstrip("\n").split("\t")
        start, end = int(start), int(end)
        if end < last:
            found = {}
        last = end
        found.setdefault(command, (start, end, []))[2].append(name)
    return sorted(found.values(), key=lambda it: it[1], reverse=True)


def lane_of(lanes, start, end):
    """The first lane whose next command begins no sooner than this one ends."""
    for lane, begins in enumerate(lanes):
        if begins >= end:
            lanes[lane] = start
            return lane
    lanes.append(start)
    return len(lanes) - 1


def main():
    lines = iter(sys.stdin)
    next(lines)
    lanes = []
    events = [
        {"name": ", ".join(names), "cat": "targets", "ph": "X", "ts": start * 1000, "dur": (end - start) * 1000, "pid": 0, "tid": lane_of(lanes, start, end), "args": {}}
        for start, end, names in commands_of(lines)
    ]
    json.dump(events, sys.stdout)


main()
