"""A writer that drops the entries of outputs that can't be trusted: for clib.py.

A log that is whole is read once, and one that is damaged twice.

What it drops is told by docs/FORMAT.md, "Outputs that can't be trusted" (log_lines.py), and what it leaves is the log without these. A kill at each
of its calls of the system leaves a log that tells of them still, or one without them.
"""
import os
import re
import random
import shutil

from clib_driver import A, B, D, LONG, RECORD, V7, answers_of, asked, drivers, hexed, may_trace, opened_warily, version_seen
from clib_looks import NEW, begun
from log_format import HEADER, Log, as_version, command_hash, line_of, text_of
from log_lines import distrusted_of
from trials import read, run, write

# A torn line of `a`, an entry of `b` behind it, as plain Ninja writes it.
JOINED = b"7\t8\t9\ta\tc" + B
A2 = b"7\t8\t9\ta\tcc\n"
DAMAGED = {
    "torn behind a name": HEADER + A + B + b"7\t8\t9\ta\tc",
    "torn right behind a name": HEADER + A + B + b"7\t8\t9\ta",
    "torn within a name": HEADER + A + B + b"7\t8\t9",
    "joined": HEADER + A + B + JOINED,
    "joined, and one of both again": HEADER + A + B + JOINED + B,
    "joined, and both again": HEADER + A + B + JOINED + A2 + B,
    "joined, and torn": HEADER + A + B + D + JOINED + b"1\t2\t3\td",
    "with zeros": HEADER + A + B + b"\0" * 40 + b"1\t2\t3\ta\tbb\n",
    "of version 7": V7 + A + B + JOINED,
    "of version 4": b"# ninja log v4\n1\t2\t3\ta\tcc\n1\t2\tx\ta\tcc\n",
    "due": HEADER + A * 101 + B + JOINED,
    "of one output": HEADER + A + b"1\t2\t3\ta",
    "long": HEADER + line_of(LONG, (1, 2, 3, 4)) * 5 + A + b"1\t2\t3\t" + LONG + b"\t",
    "whole": HEADER + A + B,
    "no log": b"hello\n",
}
# The first change, and what it makes of the table.
WAYS = {
    "open": lambda text: text,
    "sync": lambda text: text,
    f"record 7 8 9 cc {hexed(b'new')}": lambda text: text + NEW,
    "recompact": lambda text: as_version(text_of(Log(as_version(text, version_seen(text))).table), version_seen(text)),
}


def drops(trials, made, room):
    """What an open and an open to read answer, and what is left behind the first change."""
    log = f"{room}/wary-log"
    for kind, text in DAMAGED.items():
        status, change, whole = opened_warily(text, 0)
        count = len(Log(as_version(whole, version_seen(whole))).table) if whole is not None else 0
        is_due = change == "REPLACE"
        for way, driver in drivers(made):
            for number, (line, make) in enumerate(WAYS.items()):
                write(log, text)
                begin = ["wary", *(["shared"] if number % 2 else [])]
                lines = [*begin, "look", "count", "is_due", line, "rewrote", "close"]
                wanted = [*(["OK"] * len(begin)), "OK", f"OK {count}", f"OK {int(is_due)}", "OK", f"OK {int(is_due)}", "OK"]
                if status != "OK":
                    lines, wanted = [*begin, "look", "close"], [*(["OK"] * len(begin)), status, "NOT_OPEN"]
                trials.want(f"{way}: a wary look at a log that is {kind}, and then {line[:9]}", asked(driver, "write", log, 0, lines)[1], wanted)
                trials.want(f"{way}: what is left of a log that is {kind} behind {line[:9]}", read(log), text if status != "OK" else make(whole))
            write(log, text)
            lines = ["wary", "open", "count", "rewrote", "wary", "close"]
            wanted = ["OK", "OK", f"OK {count}", f"OK {int(is_due)}", "ALREADY_OPEN", "OK"] if status == "OK" else ["OK", status, "NOT_OPEN", "NOT_OPEN", "OK", "NOT_OPEN"]
            trials.want(f"{way}: a wary open of a log that is {kind}", asked(driver, "write", log, 0, lines)[1], wanted)
            trials.want(f"{way}: what it leaves", read(log), text if status != "OK" else whole)
            write(log, text)
            asked(driver, "write", log, 0, ["wary", "look", "count", "close"])
            trials.want(f"{way}: a look alone leaves it", read(log), text)
    # What is marked dead goes too, and other marks stay.
    write(log, HEADER + A + B + D + JOINED)
    said = asked([made["C11"]], "write", log, 0, ["wary", f"dead {hexed(b'd')}", f"time 9 {hexed(b'new')}", "open", "count", f"record 7 8 9 cc {hexed(b'new')}", "restat", "close"])[1]
    trials.want("marks beside it", (said, read(log)), (["OK"] * 4 + ["OK 0"] + ["OK"] * 3, HEADER + NEW))


def at_random(trials, made, room):
    """Logs of a few outputs in which lines are torn and joined, and parts are zeros: the table is that of the log without what can't be trusted."""
    log, numbers, dropped = f"{room}/wary-random", random.Random(43), 0
    for number in range(400):
        text = b""
        for _ in range(numbers.randint(1, 12)):
            line = line_of(b"o%d" % numbers.randrange(4), (numbers.randrange(9), 9, numbers.randrange(99), numbers.randrange(1 << 16)))
            text += line if numbers.random() < 0.7 else line[: numbers.randint(1, len(line) - 1)]
        if numbers.random() < 0.2:
            at = numbers.randrange(len(text))
            text = text[:at] + bytes(numbers.randint(1, 5)) + text[at:]
        text = numbers.choice([HEADER, V7, b"# ninja log v6\n"]) + text
        _, _, whole = opened_warily(text, 0)
        dropped += distrusted_of(text).count(b"\n")
        way, driver = drivers(made)[number % len(drivers(made))]
        write(log, text)
        lines = ["wary", "look", f"record 7 8 9 cc {hexed(b'new')}", "close"] if number % 2 else ["wary", "open", f"record 7 8 9 cc {hexed(b'new')}", "close"]
        trials.want(f"{way}: a wary writer of {text[:80]!r}", (asked(driver, "write", log, 0, lines)[1], read(log)), (["OK"] * 4, whole + NEW))
    trials.check("many entries were dropped", dropped > 150, str(dropped))


def by_others(trials, made, room):
    """Another writer that isn't wary leaves a torn or a joined line, between a look and the first change, or between two calls of a shared log."""
    log = f"{room}/wary-other"
    for way, driver in drivers(made):
        for more, kept in ((b"7\t8\t9\ta\tc", [b"b"]), (JOINED, []), (JOINED + A2, [b"a"]), (D, [b"a", b"b", b"d"]), (D + b"1\t2\t3\td\t", [b"a", b"b"])):
            for is_open in (False, True):
                write(log, HEADER + A + B)
                writer = begun(driver, log)
                said = [answers_of(writer, it) for it in ("wary", "shared", "open" if is_open else "look")]
                with open(log, "ab") as it:
                    it.write(more)
                said += [answers_of(writer, it) for it in (f"record 7 8 9 cc {hexed(b'new')}", "count", "close")]
                writer.communicate()
                trials.want(f"{way}: another adds {more!r} behind {'an open' if is_open else 'a look'}", (said, list(Log(read(log)).table)), (["OK"] * 4 + [f"OK {len(kept) + 1}", "OK"], [*kept, b"new"]))


def killed(trials, made, room):
    """A kill at each call of the system that is about the log: an output that couldn't be trusted still can't, or has no entry."""
    os.mkdir(f"{room}/wary-killed")
    log, count = f"{room}/wary-killed/log", 0
    paths = [it for path in (f"{room}/wary-killed", log, f"{log}.recompact") for it in ("-P", path)]
    for kind in ("torn behind a name", "joined", "due", "of version 7"):
        text = DAMAGED[kind]
        doubted = set(Log(HEADER + distrusted_of(text)).table)
        for call in ("fsync", "ftruncate", "write", "unlinkat", "renameat", "fchmod", "flock"):
            for nth in range(1, 12):
                shutil.rmtree(f"{room}/wary-killed")
                os.mkdir(f"{room}/wary-killed")
                write(log, text)
                run(["strace", "-o", f"{room}/TRACE", *paths, "-e", f"trace={call}", "-e", f"inject={call}:signal=SIGKILL:when={nth}", made["C11"], "write", log, "0"],
                    input=f"wary\nlook\n{RECORD.replace('61', hexed(b'new'))}\nclose\n".encode(), stdin=None)
                if b"killed by SIGKILL" not in read(f"{room}/TRACE"):
                    break
                count += 1
                left = read(log)
                table = Log(as_version(left, version_seen(left))).table
                again = set(Log(HEADER + distrusted_of(left)).table)
                trials.check(f"a kill at {call} {nth} of a log that is {kind}", all(it in again or it not in table for it in doubted), repr(left))
    trials.check("many kills", count > 25, str(count))


def reads(trials, made, room):
    """A wary open reads a log that is whole once, as any open does, and one that is damaged twice."""
    log, counts = f"{room}/wary-reads", {}
    for kind, begin in (("whole", []), ("whole", ["wary"]), ("torn behind a name", ["wary"]), ("joined", ["wary"])):
        for line in ("open", "look"):
            write(log, DAMAGED[kind])
            run(["strace", "-o", f"{room}/TRACE", "-P", log, "-e", "trace=pread64", made["C11"], "write", log, "0"], input="\n".join([*begin, line, "close\n"]).encode(), stdin=None)
            asked = re.findall(rb"(?m)^pread64\(.*, (\d+), 0\) ", read(f"{room}/TRACE"))
            counts[kind, bool(begin), line] = sum(int(it) > len(DAMAGED[kind]) for it in asked)
    trials.want("how often a log is read from its first byte on", counts, {
        **{("whole", is_wary, line): 1 for is_wary in (False, True) for line in ("open", "look")},
        **{(kind, True, line): 2 for kind in ("torn behind a name", "joined") for line in ("open", "look")},
    })


def failing(trials, made, room):
    """A look at the open file, or a read of it, that fails in a wary open of a damaged log: it is told by its name."""
    log, count = f"{room}/wary-failing", 0
    for call, name in (("newfstatat,fstat", {"fstat", "stat"}), ("pread64", {"pread"})):
        for line in ("open", "look"):
            for nth in range(1, 40):
                write(log, DAMAGED["joined"])
                driver = ["strace", "-o", f"{room}/TRACE", "-P", log, "-e", f"trace={call}", "-e", f"inject={call}:error=EIO:when={nth}", made["C11"]]
                said = asked(driver, "write", log, 0, ["wary", line, "close"])[1]
                if b"INJECTED" not in read(f"{room}/TRACE"):
                    break
                count += 1
                told = said[1].split()
                trials.check(f"{call} {nth} in a wary {line}", told[:2] == ["FAULT", "EIO"] and told[2] in name and told[3:] == ["log"], said)
    trials.check("some failed", count >= 8, str(count))


def trial(trials, made, room):
    trials.want("the hash of version 4", opened_warily(DAMAGED["of version 4"], 0)[2], HEADER)
    trials.check("and it is one", command_hash(b"cc") > 0)
    drops(trials, made, room)
    at_random(trials, made, room)
    by_others(trials, made, room)
    if may_trace(trials, room):
        reads(trials, made, room)
        failing(trials, made, room)
        killed(trials, made, room)
