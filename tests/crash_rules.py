"""What a crash may leave of a log by the rules, and how that is tried of many: by processes that work at one time.

`crash_states.py` and `real_disks.py` take these from here.
"""
import os
import shutil
from collections import namedtuple

from changes import CHANGES, CHANGES_V7, ENTRIES, LOGS, left_by
from disk_model import LOG, SCRATCH
from log_format import HEADER, Log, reading_of
from trials import read, run, short, write

# How many failures are told; the others are only counted.
TOLD = 20
MORE_LOGS = {
    "an empty log": b"",
    "a header alone": HEADER,
    "a log with a tail of zeros": HEADER + ENTRIES + bytes(9),
    "a torn log that is due": LOGS["a log that is due"] + b"7\t8\t40\tout",
    "a torn log of version 4": LOGS["a log of version 4"] + b"7\t8\t9\tc\tc",
    "a log of version 4 with many entries": b"# ninja log v4\n" + b"1\t2\t3\ta\tcc\tx\n" * 100 + b"4\t5\t6\tb\t\n",
}
KINDS = {**LOGS, **MORE_LOGS}
COMMANDS = {**CHANGES, **CHANGES_V7}

# What is left at a moment: a log and a scratch, each a text or None, seen as of version 5, and the command that may have left them.
State = namedtuple("State", "command log scratch")


def lines_of(text):
    """The bytes of the whole lines of a log, or None where it is missing."""
    return None if text is None else text[: text.rfind(b"\n") + 1]


def mended(state):
    """The log when the command has been done again."""
    return left_by(COMMANDS[state.command], state.log)[-1]


class Rules:
    """What a crash may leave of a log while a command runs on it. `earlier` are logs that it may leave since an earlier command."""

    def __init__(self, command, start, earlier=()):
        self.left = left_by(COMMANDS[command], start)
        self.done = self.left[-1]
        self.lines = {lines_of(it) for it in [*earlier, *self.left]}

    def allow(self, log, is_done):
        if is_done:
            return log == self.done
        return lines_of(log) in self.lines and (log is None or reading_of(log) == "log")


class Worker:
    """What a process works with, and what passed and what failed in it."""

    program, room = "", ""

    def __init__(self):
        self.passed, self.failures = 0, []

    @classmethod
    def begin(cls, program, room):
        cls.program, cls.room = program, f"{room}/{os.getpid()}"

    def want(self, what, got, wanted):
        self.check(what, got == wanted, lambda: f"{short(got)} in place of {short(wanted)}")

    def check(self, what, is_good, why):
        if is_good:
            self.passed += 1
        else:
            self.failures.append((what, why()))
        return is_good

    def lay_out(self, command, log, scratch):
        """Makes the folder anew, with these files and those of the command."""
        shutil.rmtree(self.room, ignore_errors=True)
        os.makedirs(self.room)
        change = COMMANDS[command]
        for name, text in {LOG: change.seen(log), SCRATCH: change.seen(scratch), **change.files}.items():
            write(f"{self.room}/{name}", text)

    def words(self, command, folder=None):
        """The command line, by full paths."""
        change, folder = COMMANDS[command], folder or self.room
        return [self.program, *(f"{folder}/{it}" if it == LOG or it in change.files else it for it in change.words)]

    def answer(self, log):
        """Tries what the program says of a log."""
        path, wanted = f"{self.room}/{LOG}", Log(log or b"")
        self.lay_out("record", log, None)
        self.want(f"check, of the log {short(log)}", run([self.program, "check", path]), (0, wanted.report(), b""))
        self.want(f"show, of the log {short(log)}", run([self.program, "show", path]), (0, wanted.shown(), b""))

    def mend(self, state):
        """Tries the command again on a state that a crash left."""
        self.lay_out(*state)
        what = f"{state.command}, with the log {short(state.log)} and the scratch {short(state.scratch)}"
        self.want(f"{what}: ends", run(self.words(state.command), cwd="/"), (0, b"", b""))
        self.want(f"{what}: the log", COMMANDS[state.command].seen(read(f"{self.room}/{LOG}")), mended(state))


def answer(logs):
    """A task of a process."""
    it = Worker()
    for log in logs:
        it.answer(log)
    return it.passed, it.failures, None


def mend(states):
    """A task of a process."""
    it = Worker()
    for state in states:
        it.mend(state)
    return it.passed, it.failures, None


class Sweep:
    """Has tasks worked on by a pool of processes, and tells what failed."""

    def __init__(self, trials, pool):
        self.trials, self.pool, self.told = trials, pool, 0

    def over(self, work, tasks):
        """What the work on each task found beside what passed and what failed, in order."""
        for passed, failures, found in self.pool.imap(work, tasks):
            self.trials.passed += passed
            self.fail(failures)
            yield found

    def try_again(self, states):
        """Tries what the program says of states, and the command again on each."""
        list(self.over(mend, in_parts(states, 40)))
        logs = list(dict.fromkeys(it for state in states for it in (state.log, mended(state))))
        list(self.over(answer, in_parts(logs, 40)))

    def fail(self, failures):
        """Counts each failure, and tells of the first of all."""
        shown = failures[: max(0, TOLD - self.told)]
        for what, why in shown:
            self.trials.check(what, False, why)
        self.trials.failed += len(failures) - len(shown)
        self.told += len(failures)

    def end(self):
        if self.told > TOLD:
            print(f"{self.trials.script}: FAILED: {self.told - TOLD} more")


def in_parts(states, size):
    return [states[at : at + size] for at in range(0, len(states), size)]
