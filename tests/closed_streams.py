#!/usr/bin/env python3
"""Tries the program with standard input, output and error closed, in each of the eight ways.

    python3 tests/closed_streams.py PROGRAM

Where a stream is closed, the first file that is opened gets its number. No message and no output may then land in a log: its
bytes, and the status, have to be those of the same command with all streams open.
"""
import os
import resource
import shutil
import signal
import sys

from changes import ENTRIES, LOGS
from log_format import HEADER
from trials import main, read, run, write

LOG = LOGS["a whole log"]
TORN = LOGS["a log with a torn line"]
DUE = LOGS["a log that is due"]
NO_LOG = b"hello\n"
GOOD = ["--", "1", "2", "3", "new", "cc\tx"]
NEW = b"1\t2\t3\tnew\t72274e7a30810c7b\n"
ROOMY = resource.RLIM_INFINITY

# The words, the log before, the most bytes that a file may grow to, the status, and the log after.
ROWS = [
    (["record", "LOG", *GOOD], LOG, ROOMY, 0, LOG + NEW),
    (["record", "LOG", *GOOD], TORN, ROOMY, 0, LOG + NEW),
    (["record", "LOG", *GOOD], None, ROOMY, 0, HEADER + NEW),
    (["record", "LOG", *GOOD], DUE, ROOMY, 0, HEADER + b"1\t2\t3\ta\taa\n1\t2\t3\tb\tbb\n" + NEW),
    (["record", "LOG", *GOOD], LOG, len(LOG), 1, LOG),
    (["record", "LOG", *GOOD], LOG, len(LOG) + 9, 1, LOG + NEW[:9]),
    (["record", "LOG", *GOOD], NO_LOG, ROOMY, 1, NO_LOG),
    (["record", "LOG", "1", "2", "x", "new", "c"], LOG, ROOMY, 1, LOG),
    (["record", "LOG", "1"], LOG, ROOMY, 2, LOG),
    (["recompact", "LOG", "KEEP"], LOG, ROOMY, 0, HEADER + b"3\t4\t20\tb\tbb\n"),
    (["recompact", "LOG", "KEEP"], LOG, 20, 1, LOG),
    (["recompact", "LOG", "BAD"], LOG, ROOMY, 1, LOG),
    (["recompact", "LOG", "MISSING"], LOG, ROOMY, 1, LOG),
    (["restat", "LOG", "TIMES"], LOG, ROOMY, 0, HEADER + b"5\t6\t7\ta\tcc\n3\t4\t20\tb\tbb\n"),
    (["restat", "LOG", "NEGATIVE"], TORN, ROOMY, 1, LOG),
    (["restat", "LOG", "TIMES"], LOG, 0, 1, LOG),
    (["repair", "LOG"], TORN, ROOMY, 0, HEADER + b"5\t6\t30\ta\tcc\n3\t4\t20\tb\tbb\n"),
    (["repair", "--missing-ok", "LOG"], None, ROOMY, 0, HEADER),
    (["repair", "LOG"], None, ROOMY, 1, None),
    # Its rewriting finds no room, and LOG stays.
    (["repair", "LOG"], TORN, 20, 1, TORN),
    (["repair", "LOG"], NO_LOG, ROOMY, 1, NO_LOG),
    (["mend", "LOG"], TORN, ROOMY, 1, TORN),
    (["mend", "LOG"], HEADER + b"x\n", ROOMY, 0, HEADER),
    (["mend", "LOG"], HEADER + b"x\n", 0, 1, HEADER + b"x\n"),
    (["mend", "LOG"], NO_LOG, ROOMY, 1, NO_LOG),
    # What these print goes nowhere where standard output is closed. Their status isn't compared: it tells of the write.
    (["show", "LOG"], LOG, ROOMY, None, LOG),
    (["check", "LOG"], NO_LOG, ROOMY, None, NO_LOG),
    (["hash", "LOG"], LOG, ROOMY, None, LOG),
    (["entries", "LOG"], TORN, ROOMY, None, TORN),
    (["damage", "LOG"], TORN, ROOMY, None, TORN),
    (["damage", "LOG"], NO_LOG, ROOMY, None, NO_LOG),
    (["doubt", "LOG"], TORN, ROOMY, None, TORN),
    (["doubt", "LOG"], NO_LOG, ROOMY, None, NO_LOG),
    (["builds", "LOG"], TORN, ROOMY, None, TORN),
    (["builds", "LOG"], NO_LOG, ROOMY, None, NO_LOG),
    (["summary", "LOG"], TORN, ROOMY, None, TORN),
    (["summary", "LOG"], NO_LOG, ROOMY, None, NO_LOG),
    (["summary", "--build", "1", "LOG"], TORN, ROOMY, None, TORN),
    (["summary", "--build", "0", "LOG"], TORN, ROOMY, None, TORN),
    (["summary", "--all", "LOG"], TORN, ROOMY, None, TORN),
    (["summary", "--kind", "top", "LOG"], TORN, ROOMY, None, TORN),
    (["summary", "--graph", "GRAPH", "LOG"], TORN, ROOMY, None, TORN),
    (["summary", "--graph", "LOG", "LOG"], TORN, ROOMY, None, TORN),
    (["summary", "--graph", "GRAPH", "LOG"], NO_LOG, ROOMY, None, NO_LOG),
    (["compare", "LOG", "LOG"], TORN, ROOMY, None, TORN),
    (["compare", "LOG", "LOG"], NO_LOG, ROOMY, None, NO_LOG),
    (["compare", "LOG", "MISSING"], TORN, ROOMY, None, TORN),
    (["trace", "LOG"], TORN, ROOMY, None, TORN),
    (["trace", "LOG"], NO_LOG, ROOMY, None, NO_LOG),
    (["picture", "LOG"], TORN, ROOMY, None, TORN),
    (["picture", "LOG"], NO_LOG, ROOMY, None, NO_LOG),
    (["hash-file", "LOG"], LOG, ROOMY, None, LOG),
    (["record", "--help"], LOG, ROOMY, None, LOG),
    # The first answer that can't be written ends it, behind the open, which cuts the torn line away.
    (["apply", "LOG", "ASKS"], LOG, ROOMY, None, LOG),
    (["apply", "LOG", "ASKS"], TORN, ROOMY, None, LOG),
    (["apply", "LOG", "ASKS"], NO_LOG, ROOMY, None, NO_LOG),
]
FILES = {"ASKS": b"open\nget\ta\nbad\ntable\nsync\n", "KEEP": b"b\n", "BAD": b"a\tb\n", "TIMES": b"7\ta\n", "NEGATIVE": b"-7\ta\n", "GRAPH": b"digraph ninja {\n}\n"}


def fill(room, log):
    os.makedirs(room)
    write(f"{room}/LOG", log)
    for name, text in FILES.items():
        write(f"{room}/{name}", text)


def closed(words, most, streams):
    """Runs words without these streams, in a process whose files grow to `most` bytes."""

    def begin():
        signal.signal(signal.SIGXFSZ, signal.SIG_IGN)
        resource.setrlimit(resource.RLIMIT_FSIZE, (most, resource.RLIM_INFINITY))
        for stream in streams:
            os.close(stream)

    return run(words, cwd="/", preexec_fn=begin, restore_signals=False)


def trial(trials, program, room):
    assert LOG == HEADER + ENTRIES
    for number, (words, before, most, status, after) in enumerate(ROWS):
        for chosen in range(8):
            streams = [it for it in range(3) if chosen >> it & 1]
            here = f"{room}/{number}-{chosen}"
            fill(here, before)
            what = f"{' '.join(words)} (row {number + 1}) without the streams {streams}"
            names = ("LOG", "MISSING", *FILES)
            ended = closed([program, *(f"{here}/{it}" if it in names else it for it in words)], most, streams)
            if status is not None:
                trials.want(f"{what}: status", ended[0], status)
            trials.want(f"{what}: the log", read(f"{here}/LOG"), after)
            trials.want(f"{what}: the other files", {it: read(f"{here}/{it}") for it in FILES}, FILES)
            shutil.rmtree(here)


if __name__ == "__main__":
    sys.exit(main(__file__, trial))
