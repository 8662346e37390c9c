#!/usr/bin/env python3
"""Scripts for `replay`: the replies and the log that each prints, and the number of the first bad line.

    python3 tests/scripts.py PROGRAM

What is wanted stands here as whole bytes, worked out by hand from docs/CLI.md, docs/DISK_MODEL.md and docs/FORMAT.md; the model of scripts
(tests/run_model.py) has to say the same. Each script is read from a file and from standard input.
"""
import sys

from run_model import bad_line, printed
from trials import main, run, short, write

HEADER = b"# ninja log v5\n"
A, B, C = (b"1\t2\t3\t%s\tf\n" % name for name in (b"a", b"b", b"c"))
RECORDS = b"record\t" + A + b"record\t" + B
X = b"1\t2\t3\tx\ta\n"
# A record written at once, a synced one, and one written in pieces: three bytes, and then one by one.
PIECES = b"writes\t100\t3\t1\t1\t1\t1\t1\t1\t1\t1\t1\t1\nfates\t5\nopen\nrecord\t" + X + b"sync\nrecord\t4\t5\t6\ty\tb\ncrash\n"
LOST = b"open\nrecord\t" + X + b"sync\nrecord\t4\t5\t6\ty\tb\ncrash\n"
RENAME = b"fuse\tsync_log\t3\nopen\n" + RECORDS + b"record\t" + C + b"recompact\ta\tc\ncrash\nopen\n"
APPEND = b"fuse\tappend_log\t2\nopen\n" + RECORDS + b"stop\nopen\n"
SCRATCH = b"fates\t100\nfuse\tappend_scratch\t1\nopen\n" + RECORDS + b"recompact\ta\n"
REPLACE = b"fuse\treplace\t1\nopen\n" + RECORDS + b"recompact\ta\nstop\nopen\n"
# A crash leaves three bytes of a line, and a cut of them fails.
CUT = b"fuse\tcut_log\t1\nopen\nrecord\t" + X + b"sync\nrecord\t4\t5\t6\ty\tb\ncrash\nopen\n"


def replies(*lines):
    return b"".join(line + b"\n" for line in lines)


def log(text):
    return b"log %d\n" % len(text) + text


OK, FAULT, BROKEN, CLOSED = b"ok", b"S8 Fault", b"S3 Broken", b"S1 NotOpen"

# A script, the replies to its events, and the log that they leave.
RUNS = [
    (b"", [], b""),
    (b"\n\n", [], b""),
    (b"open\n", [OK], HEADER),
    # A crash leaves five bytes of the second record, and an open cuts them away.
    (PIECES + b"open\n", [OK] * 6, HEADER + X),
    # No crash syncs first: the five bytes are there before the open.
    (PIECES, [OK] * 5, HEADER + X + b"4\t5\t6"),
    # Both sides of a rename whose sync failed.
    (b"fates\t0\t100\n" + RENAME, [OK, OK, OK, OK, FAULT, OK, OK], HEADER + A + B + C),
    (b"fates\t1\t100\n" + RENAME, [OK, OK, OK, OK, FAULT, OK, OK], HEADER + A + C),
    # A rename that failed was made or not.
    (b"fates\t0\n" + REPLACE, [OK, OK, OK, FAULT, OK, OK], HEADER + A + B),
    (b"fates\t1\n" + REPLACE, [OK, OK, OK, FAULT, OK, OK], HEADER + A),
    # The last pair of a name counts, and a stranger is ignored.
    (
        b"open\nrecord\t" + A + b"restat\t10\ta\t5\tzz\t-1\ta\nrestat\t10\ta\t5\tzz\t12\ta\n",
        [OK, OK, b"S4 NegativeTime 2", OK],
        HEADER + b"1\t2\t12\ta\tf\n",
    ),
    # What a failed append added may be torn, or stand whole.
    (b"fates\t4\n" + APPEND, [OK, FAULT, BROKEN, OK, OK], HEADER),
    (b"fates\t100\n" + APPEND, [OK, FAULT, BROKEN, OK, OK], HEADER + A),
    # An open makes durable what it found.
    (b"fates\t0\nopen\nrecord\t" + X + b"stop\nopen\ncrash\nopen\n", [OK] * 6, HEADER + X),
    (b"sync\nopen\nopen\nstop\nstop\n", [CLOSED, OK, b"S2 AlreadyOpen", OK, CLOSED], HEADER),
    # A crash leaves a torn header, and an open writes it anew.
    (b"fuse\tsync_log\t2\nfates\t7\nopen\ncrash\nopen\n", [FAULT, OK, OK], HEADER),
    # A cut that fails leaves a byte of the torn tail, and a crash none of it, or all of it.
    (b"fates\t3\t1\n" + CUT, [OK, OK, OK, OK, OK, FAULT], HEADER + X + b"4"),
    (b"fates\t3\t1\t0\n" + CUT + b"crash\n", [OK, OK, OK, OK, OK, FAULT, OK], HEADER + X),
    (b"fates\t3\t1\t9\n" + CUT + b"crash\n", [OK, OK, OK, OK, OK, FAULT, OK], HEADER + X + b"4\t5"),
    (b"fates\t3\t1\t9\n" + CUT + b"crash\nopen\n", [OK, OK, OK, OK, OK, FAULT, OK, OK], HEADER + X),
    # In place of the five bytes of the second record that a crash takes it leaves zero bytes, all five of them or two; an open cuts them away.
    (b"fates\t5\ntails\t100\n" + LOST, [OK] * 5, HEADER + X + b"4\t5\t6" + bytes(5)),
    (b"tails\t2\nfates\t5\n" + LOST, [OK] * 5, HEADER + X + b"4\t5\t6" + bytes(2)),
    (b"fates\t5\ntails\t100\n" + LOST + b"open\n", [OK] * 6, HEADER + X),
    # Each crash takes a number; where none is left there is no tail.
    (b"fates\t5\t0\ntails\t0\t3\n" + LOST + b"open\nrecord\t" + A + b"crash\n", [OK] * 8, HEADER + X + bytes(3)),
    (b"fates\t5\t0\ntails\t3\n" + LOST + b"open\nrecord\t" + A + b"crash\n", [OK] * 8, HEADER + X),
    # A cut that isn't durable comes back as a byte of the torn line and zero bytes.
    (b"fates\t3\t1\t1\ntails\t0\t100\n" + CUT + b"crash\n", [OK, OK, OK, OK, OK, FAULT, OK], HEADER + X + b"4" + bytes(2)),
    # A header without a durable byte has no tail, nor has a new log that is all durable. The old log behind a rename has.
    (b"fuse\tsync_log\t2\nfates\t7\ntails\t100\nopen\ncrash\n", [FAULT, OK], b"# ninja"),
    (b"fates\t1\t0\ntails\t100\n" + RENAME, [OK, OK, OK, OK, FAULT, OK, OK], HEADER + A + C),
    (b"fates\t0\t3\ntails\t100\n" + RENAME[: -len(b"open\n")], [OK, OK, OK, OK, FAULT, OK], HEADER + b"1\t2" + bytes(27)),
    # A recompaction begins with an empty scratch, whatever an earlier one left.
    (SCRATCH, [OK, OK, OK, FAULT], HEADER + A + B),
    (SCRATCH + b"stop\nopen\nrecompact\ta\n", [OK, OK, OK, FAULT, OK, OK, OK], HEADER + A),
    # Without names all are kept, and without pairs no mtime changes: what is stale goes.
    (b"open\trest\nrecord\t" + A + RECORDS + b"recompact\nrestat\n", [OK] * 6, HEADER + A + B),
    (b"open\nrecord\t" + A + b"record\t" + A + b"restat\n", [OK] * 4, HEADER + A),
    # A write of 0 takes one byte.
    (b"writes\t0\nfates\t0\nfuse\tappend_log\t2\nopen\n", [FAULT], b"#"),
    # The largest number, a fuse that fails nothing, and a last line without a newline.
    (b"fuse\tany\t0\nfates\t9223372036854775807\t0\nwrites\t9223372036854775807\nopen", [OK], HEADER),
    # A name needn't be UTF-8, and may end in a carriage return.
    (b"open\nrecord\t-1\t-2\t-3\t\xff\r\t0\n", [OK, OK], HEADER + b"-1\t-2\t-3\t\xff\r\t0\n"),
    # Each event once.
    (
        b"open\nrecord\t" + X + b"record\t1\t2\t3\ty\tb\nsync\nrecompact\tx\nrestat\t12\tx\nstop\ncrash\n",
        [OK] * 8,
        HEADER + b"1\t2\t12\tx\ta\n",
    ),
    # The refusals of each state. The crash takes the first number, the failed append the second.
    (
        b"fates\t0\t0\nfuse\tappend_log\t2\nsync\nrecompact\tx\ncrash\nstop\nopen\nopen\nrestat\t-1\tx\nrecord\t" + X + b"record\t" + X
        + b"open\nrestat\t-1\tx\nsync\nrecompact\tx\nstop\nrecord\t" + X,
        [CLOSED, CLOSED, OK, CLOSED, OK, b"S2 AlreadyOpen", b"S4 NegativeTime 0", FAULT, BROKEN, BROKEN, BROKEN, BROKEN, BROKEN, OK, CLOSED],
        HEADER,
    ),
    # Two bytes of the second of two lines, which an open cuts away.
    (b"fates\t2\nfuse\tappend_log\t3\nopen\n" + RECORDS + b"sync\n", [OK, OK, FAULT, BROKEN], HEADER + A + b"1\t"),
    (b"fates\t2\nfuse\tappend_log\t3\nopen\n" + RECORDS + b"stop\nopen\n", [OK, OK, FAULT, OK, OK], HEADER + A),
]

# A script, and the number of its first bad line.
BAD = [
    (b"open\nwrites\t1\n", 2),
    (b"sync\nfates\t1\n", 2),
    (b"stop\nfuse\tany\t1\n", 2),
    (b"writes\t1\nwrites\t1\n", 2),
    (b"fates\t1\nwrites\t1\nfates\t2\n", 3),
    (b"fuse\tany\t0\nfuse\tany\t0\n", 2),
    (b"tails\t1\ntails\t1\n", 2),
    (b"open\ntails\t1\n", 2),
    (b"tails\n", 1),
    (b"tails\t\n", 1),
    (b"tails\t-1\n", 1),
    # Lines that are ignored are counted, and a last line without a newline too.
    (b"\n\nopen\n\nx\n", 5),
    (b"open\nsync\nx", 3),
    (b"open\nx\ny\n", 2),
    (b"writes\n", 1),
    (b"fates\n", 1),
    (b"writes\t\n", 1),
    (b"writes\t1\t\n", 1),
    (b"writes\t01\n", 1),
    (b"writes\t-1\n", 1),
    (b"writes\t-0\n", 1),
    (b"fates\t+1\n", 1),
    (b"fates\t1\t9223372036854775808\n", 1),
    (b"fates\t1 2\n", 1),
    (b"writes 1\n", 1),
    (b"fuse\n", 1),
    (b"fuse\tany\n", 1),
    (b"fuse\tany\t\n", 1),
    (b"fuse\tany\t-1\n", 1),
    (b"fuse\tany\t1\t2\n", 1),
    (b"fuse\tAny\t1\n", 1),
    (b"fuse\tread\t1\n", 1),
    (b"fuse\t\t1\n", 1),
    (b"open\t\n", 1),
    (b"open\ta\t\n", 1),
    (b"open\t\ta\n", 1),
    (b"open\ta\0b\n", 1),
    (b"open \n", 1),
    (b"open\r\n", 1),
    (b"Open\n", 1),
    (b" open\n", 1),
    (b"opened\n", 1),
    (b"record\n", 1),
    (b"record\t\n", 1),
    (b"record\t1\t2\t3\ta\n", 1),
    (b"record\t1\t2\t3\ta\t0f\n", 1),
    (b"record\t1\t2\t3\t\tf\n", 1),
    (b"record\t1\t2\t3\ta\tf\t\n", 1),
    (b"sync\t\n", 1),
    (b"stop\t1\n", 1),
    (b"crash\t\n", 1),
    (b"recompact\t\n", 1),
    (b"restat\t\n", 1),
    (b"restat\t7\n", 1),
    (b"restat\t7\t\n", 1),
    (b"restat\t07\ta\n", 1),
    (b"restat\t7\ta\t8\n", 1),
    (b"restat\t9223372036854775808\ta\n", 1),
    (b"# a remark\n", 1),
    (b"\t\n", 1),
    (b"\0\n", 1),
    # 4 bytes, and 131,070 names of a byte with their tabs: a byte more than the longest line.
    (b"open" + b"\ta" * 131_070 + b"\n", 1),
    (b"open" + b"\ta" * 131_070, 1),
]

# The longest line, with its newline and without.
LONGEST = b"open" + b"\ta" * 131_068 + b"\tab"


def try_run(trials, program, room, script, wanted):
    """A good script, from a file and from standard input, and what the model says of it."""
    write(f"{room}/script", script)
    what = short(script)
    trials.want(f"a file with {what}", run([program, "replay", f"{room}/script"]), (0, wanted, b""))
    trials.want(f"an input of {what}", run([program, "replay"], stdin=None, input=script), (0, wanted, b""))
    trials.want(f"the model of {what}", printed(script), wanted)


def try_bad(trials, program, room, script, number):
    write(f"{room}/script", script)
    what, wanted = short(script), (1, b"", b"nlog: bad line %d\n" % number)
    trials.want(f"a file with {what}", run([program, "replay", f"{room}/script"]), wanted)
    trials.want(f"an input of {what}", run([program, "replay"], stdin=None, input=script), wanted)
    trials.want(f"the model of {what}", bad_line(script), number)


def many():
    """A thousand outputs, each recorded twice, the second time in the opposite order, and then a recompaction."""
    first = b"".join(b"record\t1\t2\t3\tout/%d\t%x\n" % (number, number) for number in range(1000))
    second = b"".join(b"record\t-4\t5\t6\tout/%d\t%x\n" % (number, number) for number in reversed(range(1000)))
    left = b"".join(b"-4\t5\t6\tout/%d\t%x\n" % (number, number) for number in range(1000))
    return b"open\n" + first + second + b"recompact\n", replies(*[OK] * 2002) + log(HEADER + left)


def updates():
    """2,000 updates over 50 names, at random from a fixed seed: the line of each, and what a list of entries holds after it."""
    state, entries = 1, {}
    name = lambda number: b"%c%c" % (97 + number % 50 // 10, 97 + number % 10)
    for _ in range(2000):
        state = (state * 6364136223846793005 + 1442695040888963407) % 2**64
        if state >> 56 < 4:
            # Two names in three are kept.
            kept = [name(it) for it in range(50) if (it ^ (state >> 32)) % 3]
            entries = {it: entry for it, entry in entries.items() if it in kept}
            line = b"recompact\t" + b"\t".join(kept)
        elif state >> 56 < 64:
            # Three pairs, often of one name.
            pairs = [((state >> 16 * it) % 100, name((state >> 8 * it) % 4)) for it in range(3)]
            for time, it in pairs:
                if it in entries:
                    entries[it] = *entries[it][:2], time, entries[it][3]
            line = b"restat\t" + b"\t".join(b"%d\t%s" % it for it in pairs)
        else:
            it, entry = name(state >> 32), (state % 1000, state % 2000, state >> 20, state)
            entries[it] = entry
            line = b"record\t%d\t%d\t%d\t%s\t%x" % (*entry[:3], it, entry[3])
        yield line + b"\n", b"".join(b"%d\t%d\t%d\t%s\t%x\n" % (*entry[:3], it, entry[3]) for it, entry in entries.items())


def try_updates(trials, program, room):
    """The table after every fiftieth of 2,000 updates, as a recompaction that keeps all of it writes it."""
    script = b"open\n"
    for count, (line, left) in enumerate(updates(), 1):
        script += line
        if count % 50 == 0:
            try_run(trials, program, room, script + b"recompact\n", replies(*[OK] * (count + 2)) + log(HEADER + left))


def trial(trials, program, room):
    for script, answers, left in RUNS:
        try_run(trials, program, room, script, replies(*answers) + log(left))
    for end in (b"\n", b""):
        try_run(trials, program, room, LONGEST + end, replies(OK) + log(HEADER))
    for script, number in BAD:
        try_bad(trials, program, room, script, number)
    # An open rewrites a log past a hundred lines of one output.
    for lines in range(1, 102):
        left = HEADER + A * (1 if lines == 101 else lines)
        try_run(trials, program, room, b"open\n" + (b"record\t" + A) * lines + b"stop\nopen\n", replies(*[OK] * (lines + 3)) + log(left))
    try_run(trials, program, room, *many())
    try_updates(trials, program, room)


if __name__ == "__main__":
    sys.exit(main(__file__, trial))
