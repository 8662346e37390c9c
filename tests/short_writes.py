#!/usr/bin/env python3
"""Tries the commands that change a log where a file may grow to so many bytes and no further, for each number of bytes.

    python3 tests/short_writes.py PROGRAM

The limit of the process (RLIMIT_FSIZE) makes the system take a part of a write, and refuse the next one, or kill the process
there. So each line is torn at each of its bytes. What is left has to be a log that the rules let the command leave, status 0
comes only of a log that is done, and without the limit the same command does its work.
"""
import os
import resource
import shutil
import signal
import sys

from changes import CASES, FAILED, try_left
from trials import main, read, run


def limited(words, most, is_killed):
    """Runs words in a process whose files grow to `most` bytes: a longer write ends it, or fails."""

    def begin():
        signal.signal(signal.SIGXFSZ, signal.SIG_DFL if is_killed else signal.SIG_IGN)
        resource.setrlimit(resource.RLIMIT_FSIZE, (most, most))

    return run(words, cwd="/", preexec_fn=begin, restore_signals=False)


def try_limit(trials, program, case, room, most, is_killed, seen):
    """Tries one limit, and tells whether the command was done."""
    os.makedirs(room)
    case.fill(room)
    what = f"{case.name}: {'killed' if is_killed else 'refused'} after {most} bytes"
    ended = limited(case.words(program, room), most, is_killed)
    left = read(f"{room}/LOG")
    if left == case.done:
        trials.want(what, ended, (0, b"", b""))
    elif is_killed:
        trials.want(what, ended, (-signal.SIGXFSZ, b"", b""))
    else:
        trials.want(what, ended, (1, b"", FAILED))
    key = (left, read(f"{room}/LOG.recompact"))
    if key not in seen:
        seen.add(key)
        try_left(trials, what, program, case, room)
    shutil.rmtree(room)
    return left == case.done


def trial(trials, program, room):
    for number, case in enumerate(CASES):
        for is_killed in (False, True):
            seen = set()
            done = [try_limit(trials, program, case, f"{room}/{number}", most, is_killed, seen) for most in range(case.longest + 1)]
            trials.want(f"{case.name}: more room does no less", done, sorted(done))
            trials.check(f"{case.name}: done where there is room", done[-1] and not done[0])


if __name__ == "__main__":
    sys.exit(main(__file__, trial))
