#!/usr/bin/env python3
"""Tries what docs/CLI.md says of two commands that change one log at the same time: the second waits for the first.

    python3 tests/two_writers.py PROGRAM

The first is an `apply` that is kept open by its input, or this trial, which takes the lock as a command does. Where the first
doesn't end and changes nothing, the second is refused after 10 seconds, and the log stays; where it changes the log all the while, after a
minute. With `--verbose` it says after a second that it waits. A list of names that is missing or bad is refused at once.
Then four records at once, 100 times on each of four logs, also with a recompact among them, and with kills: what ended with status 0 stands.
Writers of the library for C among them too. And another program, which takes no lock, renames or removes the log of an `apply`, or writes to it: what is acknowledged from then on is in LOG.
"""
import fcntl
import os
import random
import shutil
import signal
import subprocess
import sys
import time
from concurrent.futures import ThreadPoolExecutor

from log_format import HEADER, Log, line_of
from trials import SECONDS, Pauses, is_locked, main, read, write, writer_driver

ENTRY = (1, 2, 3, 4)
START = HEADER + line_of(b"a", ENTRY) + line_of(b"b", ENTRY)
DUE = START + line_of(b"a", ENTRY) * 200
FAILED = b"nlog: the folder failed\n"
WAITING = b"nlog: LOG LOG: another process has it locked; waiting\n"
# The second command, and the log that it is given.
SECOND = {
    "recompact": (["recompact", "LOG", "KEEP"], START),
    "restat": (["restat", "LOG", "/dev/null"], START),
    "repair": (["repair", "LOG"], START),
    "prune": (["prune", "LOG", "TARGETS"], START),
    "retime": (["retime", "LOG"], START),
    "record": (["record", "LOG", "1", "2", "3", "second", "c"], START),
    "record on a log that is due": (["record", "LOG", "1", "2", "3", "second", "c"], DUE),
}
REFUSED = {
    "a missing list of names": (["recompact", "LOG", "GONE"], b"nlog: cannot read\n"),
    "a bad list of names": (["recompact", "LOG", "BAD"], b"nlog: bad line 1\n"),
    "an entry that is none": (["record", "LOG", "1", "2", "x", "n", "c"], b"nlog: bad number\n"),
}


def begin(words, room):
    return subprocess.Popen(words, cwd=room, stdin=subprocess.PIPE, stdout=subprocess.PIPE, stderr=subprocess.PIPE)


def fill(room, text):
    os.makedirs(room)
    write(f"{room}/LOG", text)
    write(f"{room}/KEEP", b"a\nb\nfirst\n")
    write(f"{room}/TARGETS", b"a: cc\nb: cc\n")
    # (what is recorded meanwhile has a file)
    write(f"{room}/first", b"")
    os.utime(f"{room}/first", ns=(3, 3))
    write(f"{room}/BAD", b"a\tb\n")


def try_both(trials, program, room, what):
    """The second waits until the first, which has rewritten the log, ends; and both stand."""
    words, text = SECOND[what]
    fill(room, text)
    first = begin([program, "apply", "LOG"], room)
    first.stdin.write(b"open\nrecompact\ta\tb\nrecord\t1\t2\t3\tfirst\tff\nsync\n")
    first.stdin.flush()
    answers = [first.stdout.readline() for _ in range(4)]
    trials.want(f"{what}: the first is answered", answers, [b"ok\n"] * 4)
    second = begin([program, *words], room)
    time.sleep(0.3)
    trials.want(f"{what}: the second one waits", second.poll(), None)
    first.communicate(timeout=SECONDS)
    trials.want(f"{what}: the second one ends", (*second.communicate(timeout=SECONDS), second.returncode), (b"", b"", 0))
    wanted = {b"a", b"b", b"first"} | ({b"second"} if "record" in what else set())
    trials.want(f"{what}: both stand", set(Log(read(f"{room}/LOG")).table), wanted)


def try_held(trials, program, room):
    """A lock that isn't let go of."""
    fill(room, START)
    with open(f"{room}/LOG", "rb") as held, Pauses() as clock:
        fcntl.flock(held, fcntl.LOCK_EX)
        for what, (words, said) in REFUSED.items():
            it, paused = begin([program, *words], room), clock.seconds
            trials.want(f"{what}: is refused", (*it.communicate(timeout=SECONDS), it.returncode), (b"", said, 1))
            trials.check(f"{what}: at once", clock.seconds - paused < 5)
        at, paused = time.monotonic(), clock.seconds
        every = {what: begin([program, *words], room) for what, (words, _) in SECOND.items()}
        told = {what: begin([program, words[0], "-v", *words[1:]], room) for what, (words, _) in SECOND.items()}
        for what, it in told.items():
            trials.want(f"{what}: it says that it waits", it.stderr.readline(), WAITING)
        trials.check("after a second", time.monotonic() - at >= 1 and clock.seconds - paused < 6)
        for what, it in every.items():
            trials.want(f"{what}: is refused", (*it.communicate(timeout=SECONDS), it.returncode), (b"", FAILED, 1))
        for what, it in told.items():
            said = FAILED + b"nlog: LOG LOG: another process has it locked: an nlog, or a tool that keeps LOG\n"
            trials.want(f"{what}: and why it is refused", (*it.communicate(timeout=SECONDS), it.returncode), (b"", said, 1))
        trials.check("after 10 seconds", time.monotonic() - at >= 10 and clock.seconds - paused < 20)
    trials.want("and the log stays", read(f"{room}/LOG"), START)


def try_busy(trials, program, room):
    """A lock that one after another has, each of whom changes the log: who waits isn't refused."""
    fill(room, START)
    with open(f"{room}/LOG", "ab") as held:
        fcntl.flock(held, fcntl.LOCK_EX)
        second = begin([program, *SECOND["record"][0]], room)
        told = begin([program, "record", "-v", "LOG", "1", "2", "3", "told", "c"], room)
        for name in (b"third", b"fourth"):
            time.sleep(6)
            held.write(line_of(name, ENTRY))
            held.flush()
    ended = (*second.communicate(timeout=SECONDS), second.returncode)
    trials.want("a log that is changed meanwhile is waited for", ended, (b"", b"", 0))
    trials.want("and it is said once", (*told.communicate(timeout=SECONDS), told.returncode), (b"", WAITING, 0))
    trials.want("and all stand", set(Log(read(f"{room}/LOG")).table), {b"a", b"b", b"second", b"told", b"third", b"fourth"})


def try_stopped(trials, program, room):
    """A wait goes by the clock: one that is stopped meanwhile, or has no processor, isn't longer for that."""
    fill(room, START)
    with open(f"{room}/LOG", "rb") as held:
        fcntl.flock(held, fcntl.LOCK_EX)
        second = begin([program, "record", "-v", *SECOND["record"][0][1:]], room)
        trials.want("a wait that is stopped: it waits", second.stderr.readline(), WAITING)
        second.send_signal(signal.SIGSTOP)
        time.sleep(12)
        second.send_signal(signal.SIGCONT)
        with Pauses() as clock:
            out, err = second.communicate(timeout=SECONDS)
        trials.want("a wait that is stopped: is refused", (out, err[: len(FAILED)], second.returncode), (b"", FAILED, 1))
        # (what is left by a count of pauses is 9 seconds)
        trials.check("a wait that is stopped: after 10 seconds of the clock", clock.seconds < 6, f"{clock.seconds:.1f} s later")


def always_busy(program, room):
    """A lock that others have for more than a minute, who change the log all the while: how the second one ends, after how many seconds by the
    clock and in pauses, and what the others had written by then."""
    fill(room, START)
    with open(f"{room}/LOG", "ab") as held, Pauses() as clock:
        fcntl.flock(held, fcntl.LOCK_EX)
        second, at, count = begin([program, *SECOND["record"][0]], room), time.monotonic(), 0
        while second.poll() is None and time.monotonic() - at < SECONDS:
            held.write(line_of(b"by another %d" % count, ENTRY))
            held.flush()
            count += 1
            time.sleep(0.5)
        return (*second.communicate(timeout=SECONDS), second.returncode), (time.monotonic() - at, clock.seconds), count


def try_always_busy(trials, room, ended, seconds, count):
    trials.want("a log that is changed for more than a minute: the second one is refused", ended, (b"", FAILED, 1))
    trials.check("after a minute", seconds[0] >= 60 and seconds[1] < 75, f"{seconds} s")
    trials.want("and what the others wrote stands", read(f"{room}/LOG"), START + b"".join(line_of(b"by another %d" % it, ENTRY) for it in range(count)))


def put_another(log):
    write(f"{log}.other", START)
    os.rename(f"{log}.other", log)


# What another program does to the log's name, what is then under it, and what the system says of it.
MOVED = {
    "another file has the log's name": (put_another, START, b"Stale file handle (os error 116)"),
    "the log was removed": (os.remove, None, b"No such file or directory (os error 2)"),
    "the log was moved away": (lambda log: os.rename(log, f"{log}.away"), None, b"No such file or directory (os error 2)"),
}


def try_moved(trials, program, room, what, line):
    """An `apply` of whose log the name shows another file, or none, before a sync or a rewriting."""
    move, left, says = MOVED[what]
    word = line.decode().split("\t")[0]
    what = f"{what} before a {word}"
    fill(room, START)
    first = begin([program, "apply", "-v", "LOG"], room)

    def ask(*lines):
        first.stdin.write(b"".join(it + b"\n" for it in lines))
        first.stdin.flush()
        return [first.stdout.readline() for _ in lines]

    trials.want(f"{what}: the entry is recorded", ask(b"open", b"record\t1\t2\t3\tfirst\tff"), [b"ok\n"] * 2)
    move(f"{room}/LOG")
    trials.want(f"{what}: that isn't acknowledged", ask(line), [b"S8 Fault\n"])
    trials.want(f"{what}: what is under the name stays", read(f"{room}/LOG"), left)
    trials.want(f"{what}: it is opened anew", ask(b"stop", b"open", b"record\t1\t2\t3\tsecond\tff", line), [b"ok\n"] * 4)
    names = set(Log(read(f"{room}/LOG") or b"").table)
    trials.check(f"{what}: what was acknowledged is in the file", names >= {b"second", *Log(left or b"").table}, f"{names}")
    trials.want(f"{what}: that file is locked", is_locked(f"{room}/LOG"), True)
    if os.path.exists(f"{room}/LOG"):
        move(f"{room}/LOG")
    trials.want(f"{what}: nor is the next acknowledged", ask(line), [b"S8 Fault\n"])
    ended = (*first.communicate(timeout=SECONDS), first.returncode)
    said = FAILED + b"nlog: LOG LOG: " + says + b"\n"
    trials.want(f"{what}: the reason is told", ended, (b"", said, 1))


def append(text):
    def change(log):
        with open(log, "ab") as it:
            it.write(text)

    return change


# What another program does to a log between a `stop` and an `open`, and which names the log has then.
BETWEEN = {
    "a torn line": (append(b"1\t2\t3"), {b"a", b"b", b"first"}),
    "zero bytes": (append(bytes(9)), {b"a", b"b", b"first"}),
    "an entry": (append(line_of(b"other", ENTRY)), {b"a", b"b", b"first", b"other"}),
    "another file": (put_another, {b"a", b"b"}),
    "nothing under the name": (os.remove, set()),
    "an empty file": (lambda log: write(log, b""), set()),
}


def try_between(trials, program, room, what, words):
    """An `apply` whose log another program changes between a `stop` and an `open`: what stands then is read, and what is torn is cut."""
    change, names = BETWEEN[what]
    what = " ".join([what, *words])
    fill(room, START)
    first = begin([program, "apply", *words, "LOG"], room)

    def ask(*lines):
        first.stdin.write(b"".join(it + b"\n" for it in lines))
        first.stdin.flush()
        return [first.stdout.readline() for _ in lines]

    trials.want(f"{what}: the first entry", ask(b"open", b"record\t1\t2\t3\tfirst\tff", b"sync", b"stop"), [b"ok\n"] * 4)
    change(f"{room}/LOG")
    trials.want(f"{what}: the second entry", ask(b"open", b"record\t1\t2\t3\tsecond\tff", b"sync"), [b"ok\n"] * 3)
    text = read(f"{room}/LOG") or b""
    trials.want(f"{what}: what stands", (set(Log(text).table), Log(text).skipped, text[-1:]), (names | {b"second"}, 0, b"\n"))
    trials.want(f"{what}: the file is locked", is_locked(f"{room}/LOG"), True)
    trials.want(f"{what}: it ends", (*first.communicate(timeout=SECONDS), first.returncode), (b"", b"", 0))


# Logs on which commands are started side by side, by what stands in them, and how many times.
STARTS = {"clean": START, "torn": START + b"1\t2", "due": DUE, "missing": None}
ROUNDS = 100
NAMES = [b"first", b"second", b"third", b"fourth"]


def play(program, room, start, others, kills, chance):
    """Four records at once, with other commands, some of which are killed: what is wrong at the end, or None."""
    os.makedirs(room)
    if start is not None:
        write(f"{room}/LOG", start)
    write(f"{room}/KEEP", b"\n".join([b"a", b"b", *NAMES]) + b"\n")
    records = {it: ["record", "LOG", "1", "2", "3", it.decode(), "c"] for it in NAMES}
    running = {name: begin([program, *words], room) for name, words in records.items()}
    running.update((f"{words}", begin([program, *words], room)) for words in others)
    killed = set(chance.sample(sorted(running, key=str), kills))
    time.sleep(chance.random() * 0.02 if kills else 0)
    for name in killed:
        running[name].kill()
    ended = {name: (*it.communicate(timeout=SECONDS), it.returncode) for name, it in running.items()}
    wrong = {name: it for name, it in ended.items() if it != (b"", b"", 0) and not (name in killed and it == (b"", b"", -9))}
    text = read(f"{room}/LOG")
    try:
        table = set(Log(text or b"").table)
    except AssertionError:
        return f"ended so: {wrong}, and this is no log: {text!r}"
    lost = [name for name in [*NAMES, *([b"a", b"b"] if start else [])] if name not in table and ended.get(name, (0, 0, 0))[2] == 0]
    if not wrong and not lost and table <= {b"a", b"b", *NAMES}:
        shutil.rmtree(room)
        return None
    return f"ended so: {wrong}, lost: {lost}, the log: {text!r}"


def try_rounds(trials, program, room):
    """Commands that are started side by side: each one that ends with status 0 stands, and none ends with another."""
    kinds = {"": ((), 0), ", and a recompact": ((["recompact", "LOG", "KEEP"],), 0), ", a recompact, and two kills": ((["recompact", "LOG", "KEEP"],), 2)}
    rows = [(start, kind, number) for start in STARTS for kind in kinds for number in range(ROUNDS)]

    def one(row):
        start, kind, number = row
        return play(program, f"{room}/{start}{len(kind)}-{number}", STARTS[start], *kinds[kind], random.Random(f"{row}"))

    with ThreadPoolExecutor(os.cpu_count()) as pool:
        for (start, kind, number), wrong in zip(rows, pool.map(one, rows)):
            trials.check(f"four records at once{kind}, on a {start} log, round {number}", wrong is None, wrong or "")


def play_library(program, driver, room, number):
    """Two writers of the library, two records and a recompact at once, on one of the logs: what is wrong with how it ended, or None."""
    os.makedirs(room)
    write(f"{room}/LOG", [*STARTS.values()][number % len(STARTS)])
    write(f"{room}/KEEP", b"\n".join([b"a", b"b", *NAMES]) + b"\n")
    running = {name: begin([program, "record", "LOG", "1", "2", "3", name.decode(), "c"], room) for name in NAMES[:2]}
    running[b"recompact"] = begin([program, "recompact", "LOG", "KEEP"], room)
    for name in NAMES[2:]:
        running[name] = begin([driver, "write", "LOG", "0"], room)
        running[name].stdin.write(b"open\nrecord 1 2 3 4 %s\nclose\n" % name.hex().encode())
        running[name].stdin.flush()
    ended = {name: (*it.communicate(timeout=SECONDS), it.returncode) for name, it in running.items()}
    wanted = {name: (b"NLOG_OK\n" * 3 if name in NAMES[2:] else b"", b"", 0) for name in running}
    table = set(Log(read(f"{room}/LOG")).table)
    if ended == wanted and table >= {*NAMES}:
        shutil.rmtree(room)
        return None
    return f"ended so: {ended}, and the log has {table}"


def try_library(trials, program, room):
    """Writers of the library beside the commands: none is refused, and what each acknowledged stands."""
    os.makedirs(room)
    driver = writer_driver(trials, room)
    if driver is None:
        return
    with ThreadPoolExecutor(os.cpu_count()) as pool:
        for number, wrong in enumerate(pool.map(lambda it: play_library(program, driver, f"{room}/{it}", it), range(ROUNDS))):
            trials.check(f"two writers of the library, two records and a recompact, round {number}", wrong is None, wrong or "")


def trial(trials, program, room):
    # A minute of waiting goes on beside the others.
    with ThreadPoolExecutor(1) as pool:
        busy = pool.submit(always_busy, program, f"{room}/always")
        try_library(trials, program, f"{room}/library")
        try_rounds(trials, program, f"{room}/rounds")
        for number, what in enumerate(SECOND):
            try_both(trials, program, f"{room}/{number}", what)
        try_held(trials, program, f"{room}/held")
        try_stopped(trials, program, f"{room}/stopped")
        try_busy(trials, program, f"{room}/busy")
        for number, (what, line) in enumerate((what, line) for what in MOVED for line in (b"sync", b"recompact\ta\tb\tfirst\tsecond", b"restat\t9\ta")):
            try_moved(trials, program, f"{room}/moved{number}", what, line)
        # Where version 5 is asked for, the first line isn't looked at before an open.
        for number, (what, words) in enumerate((what, words) for what in BETWEEN for words in ([], ["--log-version", "5"])):
            try_between(trials, program, f"{room}/between{number}", what, words)
        try_always_busy(trials, f"{room}/always", *busy.result())


if __name__ == "__main__":
    sys.exit(main(__file__, trial))
