#!/usr/bin/env python3
"""Tries what a power loss may leave at each system call of the commands that change a log, laid out as files.

    python3 tests/crash_states.py PROGRAM

Wants strace, and that it may trace. The calls of each command over each kind of log, of version 7 too, are recorded. `disk_model` has from them what
docs/DISK_MODEL.md lets a crash leave between any two: what isn't synced is lost from some byte on, with or without a tail behind it, a
cut is undone, a new name or a rename isn't there yet.

- Each log that may be left has to be one that the rules of `changes` allow: what was durable before is there, its lines are whole lines
  of the log before or of the change, and once the command has ended with status 0 the log is the changed one.
- On each that differs `check` and `show` have to answer as docs/FORMAT.md says, and the same command again has to do its work.
- The same is tried of a second command after a kill at each call, when what the first didn't sync may still be lost, and of the same
  command again on a sample of the logs that a crash left, when the power is lost in the recovery.
"""
import copy
import itertools
import multiprocessing
import os
import random
import shutil
import sys

from changes import CHANGES, CHANGES_V7
from crash_rules import COMMANDS, KINDS, Rules, State, Sweep, Worker, in_parts
from disk_model import LOG, SCRATCH, STRACE, Disk, Unknown, follow
from log_format import HEADER
from trials import main, read, run, short

SEED = 20240229
# How many states of a crash are recovered with a crash in the recovery, and how many states of that crash are tried.
RECOVERIES, RECOVERED = 1000, 10_000
# What an earlier crash may have left of a scratch: nothing, or bytes that no log has.
SCRATCHES = [None, HEADER + b"1\t1\t1\tgone\tff\n2\t2"]


class Crashes(Worker):
    """Runs of commands, with a crash at each of their calls. `states` are the different ones that may be left; how many there were in
    all, at how many moments."""

    def __init__(self):
        super().__init__()
        self.states, self.count, self.moments = {}, 0, 0

    def found(self):
        return self.passed, self.failures, (list(self.states), self.count, self.moments)

    def traced(self, disk, command, rules, what):
        """Runs a command on what a disk shows, tries what a crash may leave at each call, and gives the disk at each. The disk has the bytes
        as they are, of the version of the command; all else is seen as of version 5."""
        seen = COMMANDS[command].seen
        self.lay_out(command, seen(disk.text_of(LOG)), seen(disk.text_of(SCRATCH)))
        ended = run([*STRACE, "-o", f"{self.room}.trace", *self.words(command)], cwd="/")
        self.want(f"{what}: ends", ended, (0, b"", b""))
        self.want(f"{what}: the log", seen(read(f"{self.room}/{LOG}")), rules.done)
        trace, disks = (read(f"{self.room}.trace") or b"").decode(errors="replace"), []
        try:
            for number, (call, wrong) in enumerate(follow(disk, trace, self.room), 1):
                self.check(f"{what}: {call}, change {number}", not wrong, lambda: wrong)
                self.crash(disk, command, rules, False, f"{what}: a crash after change {number}, {call}")
                shown = seen(disk.text_of(LOG))
                if self.check(f"{what}: the log after change {number}, {call}", rules.allow(shown, False), lambda: short(shown)):
                    disks.append(copy.deepcopy(disk))
        except Unknown as call:
            self.check(f"{what}: its calls", False, lambda: f"the disk model has no row for {call}")
        self.want(f"{what}: the log by its calls", seen(disk.text_of(LOG)), rules.done)
        self.crash(disk, command, rules, True, f"{what}: a crash after its end")
        return disks

    def crash(self, disk, command, rules, is_done, what):
        """Tries each log that a crash may leave by the rules, and keeps the states."""
        seen = COMMANDS[command].seen
        images = [(seen(log), seen(scratch)) for log, scratch in disk.images()]
        bad = [log for log, _ in images if not rules.allow(log, is_done)]
        self.check(what, not bad, lambda: f"{len(bad)} of {len(images)} logs aren't allowed, such as {short(bad[0])}")
        self.states.update(dict.fromkeys(State(command, *it) for it in images if it[0] not in bad))
        self.count += len(images)
        self.moments += 1


def explore(case):
    """A command on a log of a kind, with a crash at each call, and with a kill at each call and a crash in a second command."""
    command, kind, scratch = case
    it, start, seen = Crashes(), KINDS[kind], COMMANDS[command].seen
    rules, what = Rules(command, start), f"{command} on {kind}{' beside a scratch' if scratch else ''}"
    disks = it.traced(Disk(seen(start), seen(scratch)), command, rules, what)
    for (number, disk), second in itertools.product(enumerate(disks, 1), CHANGES if command in CHANGES else []):
        after = Rules(second, disk.text_of(LOG), rules.left)
        it.traced(copy.deepcopy(disk), second, after, f"{what}, killed after change {number}, then {second}")
    return it.found()


def recover(states):
    """The same command again on states that a crash left, with a crash at each call."""
    it = Crashes()
    for state in states:
        what = f"{state.command} again, with the log {short(state.log)} and the scratch {short(state.scratch)}"
        seen = COMMANDS[state.command].seen
        it.traced(Disk(seen(state.log), seen(state.scratch)), state.command, Rules(state.command, state.log), what)
    return it.found()


def sample(states, most):
    return states if len(states) <= most else random.Random(SEED).sample(states, most)


def without_tails(images, texts):
    """Those of the images that are a prefix of one of these texts."""
    return sorted({log for log, _ in images if any(text.startswith(log) for text in texts)})


def try_model(trials):
    """The examples of docs/DISK_MODEL.md."""
    disk = Disk(b"abc")
    log = disk.names[LOG]
    log.append(b"defg")
    images = disk.images()
    trials.want("four bytes behind three", without_tails(images, [b"abcdefg"]), [b"abc", b"abcd", b"abcde", b"abcdef", b"abcdefg"])
    tails = [it for it, _ in images if not b"abcdefg".startswith(it)]
    trials.check("zeros behind a prefix", {b"abc\0", b"abc\0\0", b"abc\0\0\0\0", b"abcdef\0"} <= set(tails), tails)
    trials.check("each tail", all(it.startswith(b"abc") and len(it) <= 7 and b"\n" not in it for it in tails), tails)
    log.sync()
    trials.want("what is synced", disk.images(), [(b"abcdefg", None)])
    log.cut(5)
    trials.want("a cut", without_tails(disk.images(), [b"abcdefg"]), [b"abcde", b"abcdef", b"abcdefg"])
    log.sync()
    disk.make(SCRATCH)
    disk.sync()
    scratch = disk.names[SCRATCH]
    scratch.append(b"x")
    trials.want("an append to a scratch", {it for it, _ in disk.images()}, {b"abcde"})
    scratch.sync()
    scratch.append(b"y")
    disk.rename(SCRATCH, LOG)
    trials.want("a rename", without_tails(disk.images(), [b"xy", b"abcde"]), [b"abcde", b"x", b"xy"])
    new = Disk(None)
    new.make(LOG)
    new.names[LOG].append(b"ab")
    trials.want("a new file without a line has no tail", {it for it, _ in new.images()}, {None, b"", b"a", b"ab"})
    new.names[LOG].append(b"\ncd")
    tails = [it for it, _ in new.images() if it and not b"ab\ncd".startswith(it)]
    trials.check("one with a line may have one", {b"ab\n\0", b"ab\n\0\0", b"ab\nc\0"} <= set(tails), tails)
    trials.check("each behind the line", all(it.startswith(b"ab\n") and len(it) <= 5 for it in tails), tails)


def is_of_version_7(command, kind, scratch):
    """Whether the command takes such a log for one of version 7: `repair` isn't asked for it, and goes by the first line."""
    return "version 4" not in kind and (not command.startswith("repair") or (KINDS[kind] or b"").startswith(HEADER))


def sweep_all(sweep, recoveries=RECOVERIES, recovered=RECOVERED):
    """All of it; gives what was done. `clib.py` tries it of the library."""
    first, later, count, moments = {}, {}, 0, 0
    of_version_7 = [it for it in itertools.product(CHANGES_V7, KINDS, SCRATCHES) if is_of_version_7(*it)]
    for states, more, at in sweep.over(explore, [*itertools.product(CHANGES, KINDS, SCRATCHES), *of_version_7]):
        first.update(dict.fromkeys(states))
        count, moments = count + more, moments + at
    begun = sample(list(first), recoveries)
    for states, more, at in sweep.over(recover, in_parts(begun, 8)):
        later.update(dict.fromkeys(it for it in states if it not in first))
        count, moments = count + more, moments + at
    tried = [*first, *sample(list(later), recovered)]
    sweep.try_again(tried)
    return (
        f"{count} states at {moments} moments, {len(first) + len(later)} of them different, {len(tried)} given to the program, "
        f"{len(begun)} recovered with a crash at each call"
    )


def trial(trials, program, room):
    try_model(trials)
    if shutil.which("strace") is None:
        return trials.skip("all but the model", "strace isn't there")
    if run(["strace", "-o", f"{room}/TRACE", "true"])[0] != 0:
        return trials.skip("all but the model", "strace may not trace here")
    with multiprocessing.Pool(os.cpu_count(), Worker.begin, (program, room)) as pool:
        sweep = Sweep(trials, pool)
        print(f"{trials.script}: {sweep_all(sweep)}")
        sweep.end()
    return None


if __name__ == "__main__":
    sys.exit(main(__file__, trial))
