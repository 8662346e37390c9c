#!/usr/bin/env python3
"""Tries what docs/CLI.md says of a log that somebody else changes while `apply` has it: between any two lines its file is edited, renamed,
removed or rewritten, also by Ninja's own tools.

    python3 tests/between.py PROGRAM

Whatever is acknowledged is in the file that the name shows, or the answer is a failure; a file of somebody else is not written over; an open
takes the file that the name shows then, and locks it; where nobody changed anything, nothing fails; and whoever reads finds entries that were
written so, and no others. tests/clib.py tries the library's writer by the same rules.
"""
import os
import random
import shutil
import subprocess
import sys
from concurrent.futures import ThreadPoolExecutor

from log_format import HEADER, Log, as_version, line_of
from trials import SECONDS, is_locked, main, read, run, short, write

LOG = ".ninja_log"
MANIFEST = b"rule r\n  command = touch $out\nbuild a b c d e f g h other: r\n"
# What stands in a log before, and in one that somebody else puts in its place.
BEFORE = [(b"a", (1, 2, 3, 4)), (b"b", (5, 6, 7, 8))]
OTHER = [(b"other", (9, 9, 9, 9)), (b"a", (9, 8, 7, 6))]
# What is asked for, one after another.
EVENTS = ["open", "record c", "sync", "record d", "sync", "recompact", "record e", "sync", "record a", "restat b", "record f", "close",
          "open", "record g", "sync", "record h", "recompact", "close"]
# Those whose `ok` acknowledges all that was recorded.
KEEPERS = {"open", "sync", "recompact", "restat", "close"}
RANDOM = 300
# What an open cuts away, and how long somebody makes the log behind that: no byte, one, and about the digit of its version.
TORN = b"9\t9\t9\tto"
SHORT = (0, 1, 13, 14, 15)


def text_of(entries, version):
    return as_version(HEADER + b"".join(line_of(*it) for it in entries), version)


def table_of(text):
    """The last entry of each output, of a log of version 4 to 7; None where the bytes are no log."""
    try:
        return Log(as_version(text, {b"6": 6, b"7": 7}.get(text[13:14], 5))).table
    except AssertionError:
        return None


class Apply:
    """`apply` on a log: what is asked, and whether it was done."""

    def __init__(self, words, room):
        how = {"stdin": subprocess.PIPE, "stdout": subprocess.PIPE, "stderr": subprocess.DEVNULL}
        self.ran = subprocess.Popen(words, cwd=room, **how)

    LINES = {"close": "stop"}

    def ask(self, what, name=None, entry=None):
        line = self.LINES.get(what, what)
        if what == "record":
            line += "\t%d\t%d\t%d\t%s\t%x" % (*entry[:3], name.decode(), entry[3])
        if what == "restat":
            line += f"\t{entry[2]}\t{name.decode()}"
        return self.say(line) == "ok"

    def say(self, line):
        self.ran.stdin.write(line.encode() + b"\n")
        self.ran.stdin.flush()
        return self.ran.stdout.readline().decode().strip()

    def end(self):
        self.ran.communicate(timeout=SECONDS)


class Others:
    """What somebody else does to the log in a folder. Each answers whether the log may be another for `apply` then."""

    def __init__(self, program, room, version):
        self.program, self.room, self.version = program, room, version
        self.log, self.away = f"{room}/{LOG}", f"{room}/away"
        # What another nlog recorded, as far as nobody took its file away.
        self.recorded = set()

    def put(self, text):
        write(f"{self.room}/new", text)
        os.rename(f"{self.room}/new", self.log)
        self.recorded.clear()
        return True

    def removes(self):
        if os.path.exists(self.log):
            os.remove(self.log)
        self.recorded.clear()
        return True

    def renames(self):
        if os.path.exists(self.log):
            os.rename(self.log, self.away)
        self.recorded.clear()
        return True

    def renames_and_renames_back(self):
        if os.path.exists(self.log):
            os.rename(self.log, self.away)
            os.rename(self.away, self.log)
        # (a change of its names changes the file's time, which counts)
        return True

    def replaces(self):
        return self.put(text_of(OTHER, self.version))

    def replaces_by_a_copy(self):
        return self.put(read(self.log) or b"")

    def replaces_and_another_nlog_records(self):
        self.put(text_of(OTHER, self.version))
        ran = run([self.program, "record", "--log-version", "auto", LOG, "1", "2", "3", "by-nlog", "c"], cwd=self.room)
        assert ran == (0, b"", b""), ran
        self.recorded.add(b"by-nlog")
        return True

    def links_another_name_to_it(self):
        if os.path.exists(self.log):
            shutil.rmtree(self.away, ignore_errors=True)
            if os.path.exists(self.away):
                os.remove(self.away)
            os.link(self.log, self.away)
        return True

    def appends(self, text=None):
        if not os.path.exists(self.log):
            return False
        with open(self.log, "ab") as it:
            it.write(line_of(*OTHER[0]) if text is None else text)
        return True

    def appends_a_part_of_a_line(self):
        return self.appends(b"1\t2\t3")

    def appends_zeros(self):
        return self.appends(bytes(20))

    def empties(self):
        if not os.path.exists(self.log):
            return False
        os.truncate(self.log, 0)
        self.recorded.clear()
        return True

    def makes_it_version_4(self):
        return self.names(b"4")

    def makes_it_version_6(self):
        return self.names(b"6")

    def names(self, digit):
        with open(self.log, "r+b") as it:
            it.seek(13)
            it.write(digit)
        return True

    def cuts_the_last_line(self):
        text = read(self.log) or b""
        if text.count(b"\n") < 2:
            return False
        os.truncate(self.log, len(text) - 3)
        self.recorded.clear()
        return True

    def has_ninja_recompact(self):
        before = os.stat(self.log).st_ino if os.path.exists(self.log) else 0
        run(["ninja", "-t", "recompact"], cwd=self.room)
        after = os.stat(self.log).st_ino if os.path.exists(self.log) else 0
        self.recorded.clear()
        return before != after

    def builds_by_ninja(self):
        before = read(self.log)
        run(["ninja", "a"], cwd=self.room)
        if read(self.log) != before:
            self.recorded.clear()
        return read(self.log) != before


ACTIONS = ["removes", "renames", "renames_and_renames_back", "replaces", "replaces_by_a_copy", "replaces_and_another_nlog_records", "links_another_name_to_it",
           "appends", "appends_a_part_of_a_line", "appends_zeros", "empties", "cuts_the_last_line"]
BY_NINJA = ["has_ninja_recompact", "builds_by_ninja"]
# What makes a log of version 7 another between a `stop` and the next `open`, and the version that it has then.
ANEW = [("makes_it_version_4", 5), ("makes_it_version_6", 6), ("empties", 5), ("removes", 5)]
# Those that write entries of their own: Ninja reads some damaged lines as entries, and writes these anew; the last field of a line of version 4
# is a command, and no hash.
WRITERS = {"appends", "replaces_and_another_nlog_records", "builds_by_ninja", "has_ninja_recompact", "makes_it_version_4"}
# Those that take bytes away from the file: a line that is written behind such a cut may stand where the first line was.
CUTTERS = {"empties", "cuts_the_last_line"}


class Play:
    """One run: the events, with what somebody else does behind some of them; and what is wrong with it, or None."""

    def __init__(self, speaker, others):
        self.speaker, self.others, self.log = speaker, others, others.log
        # The table that a load must find once it is acknowledged, but for names that others wrote since the open; and whether
        # anything of it is yet to be acknowledged.
        self.wanted, self.theirs, self.is_pending = {}, set(), False
        # Whether the log is open; whether it may be another file by now; whether it was cut while it was open.
        self.is_open, self.is_touched, self.is_cut = False, False, False
        # All entries that were ever written, by whomever.
        self.written = {*BEFORE, *OTHER}

    def ask(self, event, number):
        """Asks for an event, and gives what is wrong with its answer, or None."""
        what, _, name = event.partition(" ")
        name, entry = name.encode(), (number, number + 1, number + 2, number + 3)
        if what == "restat":
            entry = (*self.wanted.get(name, entry)[:2], number, self.wanted.get(name, entry)[3])
        before = read(self.log)
        if what in ("record", "restat"):
            self.written.add((name, entry))
        is_done = self.speaker.ask(what, name, entry)
        text = read(self.log)
        if not is_done:
            if not self.is_touched and self.is_open:
                return "it fails, and nobody changed the log"
            if text != before:
                return f"it fails, and the log that the name shows is written: {before!r} to {text!r}"
            self.is_open = False
            return None
        if what == "open":
            return self.opened(text)
        if what == "record":
            self.wanted[name], self.is_pending = entry, True
            return None
        if what == "restat" and name in self.wanted:
            self.wanted[name] = entry
        if what == "close" and not self.is_pending:
            # (what was acknowledged before may be gone since: a close says nothing of it)
            self.is_open = False
            return None
        self.is_pending = False
        if what in KEEPERS and (text is None or not self.has_all(table_of(text))):
            return f"it is acknowledged, and the log is {text!r}; wanted: {self.wanted}"
        if what == "close":
            self.is_open = False
        return None

    def has_all(self, table):
        """Whether a load finds all that is wanted, and of its names nothing else."""
        return table is not None and all(table.get(name) == entry or name in self.theirs for name, entry in self.wanted.items())

    def opened(self, text):
        """What is wrong with a log that was just opened."""
        self.is_open, self.is_touched, self.is_pending, self.theirs = True, False, False, set()
        if text is None or not text.endswith(b"\n"):
            return f"an open is acknowledged, and the log is {text!r}"
        if not is_locked(self.log):
            return "an open is acknowledged, and the file that the name shows isn't locked"
        self.wanted = table_of(text)
        return None

    def garbage(self):
        """What somebody who reads the log now finds that nobody wrote."""
        text = read(self.log)
        found = {} if text is None else table_of(text)
        if found is None:
            return None if self.is_cut else f"a reader finds what is no log: {text!r}"
        strange = [it for it in found.items() if it not in self.written]
        return f"a reader finds {strange}" if strange else None

    def run(self, plan, events):
        for number, event in enumerate(events):
            wrong = self.ask(event, 100 + 10 * number)
            if wrong is None and not self.is_open and event != "close":
                # (the way on after a failure)
                self.speaker.ask("close")
                wrong = self.ask("open", 100 + 10 * number + 5)
                if wrong is None and not self.is_open:
                    # (a line behind a cut that reached into the first line: no page promises more than a refusal)
                    return None if self.is_cut and table_of(read(self.log) or b"") is None else "it can't be opened after a failure"
            if wrong is None:
                wrong = self.garbage()
            if wrong is not None:
                return f"at {number}, {event}: {wrong}"
            for action in plan.get(number, ()):
                before = table_of(read(self.log) or b"") or {}
                self.is_touched |= getattr(self.others, action)()
                self.is_cut |= self.is_open and action in CUTTERS
                after = table_of(read(self.log) or b"") or {}
                if action in WRITERS:
                    self.written |= {*after.items()}
                    self.theirs |= {name for name in after if after[name] != before.get(name)}
        lost = {it for it in self.others.recorded if it not in (table_of(read(self.log) or b"") or {})}
        return f"what another nlog recorded is lost: {lost}" if lost else None


def plans(actions):
    """Each action behind each event, and some at random, up to three a run."""
    for action in actions:
        for number in range(len(EVENTS) - 1):
            yield f"somebody {action} behind {number}, {EVENTS[number]}".replace("_", " "), {number: [action]}
    for seed in range(RANDOM):
        chance = random.Random(seed)
        plan = {number: [chance.choice(actions)] for number in chance.sample(range(len(EVENTS) - 1), chance.randrange(4))}
        yield f"random run {seed}, {plan}", plan


def play(program, speaker, room, version, plan, events=EVENTS, left=None):
    """Makes a log, and plays a run on it, which leaves one of the version `left`. `speaker` is made of the folder."""
    os.makedirs(room)
    write(f"{room}/{LOG}", text_of(BEFORE, version))
    write(f"{room}/build.ninja", MANIFEST)
    others, made = Others(program, room, version), speaker(room)
    try:
        wrong = Play(made, others).run(plan, events)
        first = (read(others.log) or b"")[: len(HEADER)]
        return f"the log begins with {first!r}" if wrong is None and left and first != as_version(HEADER, left) else wrong
    except (AssertionError, OSError, ValueError) as it:
        return f"{type(it).__name__}: {it}"
    finally:
        made.end()
        shutil.rmtree(room)


def ninja_version():
    """The version of the log that the machine's Ninja writes, or None where there is none."""
    if shutil.which("ninja") is None:
        return None
    minor = int(run(["ninja", "--version"])[1].split(b".")[1])
    return 5 if minor < 12 else 6 if minor == 12 else 7


def tries(trials, program, speaker, room, what):
    """All plans, on logs of version 5 and 7."""
    # (a Ninja starts a log of a later version over, as one of its own)
    written_by = ninja_version()
    if written_by is None:
        trials.skip(f"{what}: what Ninja's own tools do", "ninja isn't there")
    rows = [(version, *row) for version in (5, 7) for row in plans(ACTIONS + BY_NINJA * (version == written_by))]

    def one(numbered):
        number, (version, _, plan) = numbered
        return play(program, speaker, f"{room}/{number}", version, plan)

    with ThreadPoolExecutor(os.cpu_count()) as pool:
        for (version, about, _), wrong in zip(rows, pool.map(one, enumerate(rows))):
            trials.check(f"{what}, a log of version {version}, {about}", wrong is None, short(wrong))


def anew(trials, program, speaker, room):
    """An open finds the version anew."""
    for action, left in ANEW:
        wrong = play(program, speaker, f"{room}/{action}", 7, {EVENTS.index("close"): [action]}, left=left)
        trials.check(f"apply, a log of version 7, somebody {action.replace('_', ' ')} behind a close", wrong is None, short(wrong))


def shortened(trials, speaker, room):
    """Nothing is acknowledged of a log that somebody made shorter behind an open which cut a torn line away, whatever the log's version."""
    for version in (5, 6, 7):
        for length in SHORT:
            for keeper in ("sync", "close", "recompact"):
                folder = f"{room}/{version}-{length}-{keeper}"
                os.makedirs(folder)
                write(f"{folder}/{LOG}", text_of(BEFORE, version) + TORN)
                apply = speaker(folder)
                is_open = apply.ask("open")
                os.truncate(f"{folder}/{LOG}", length)
                apply.ask("record", b"c", (1, 2, 3, 4))
                is_kept = apply.ask(keeper)
                about = f"{keeper} of a log of version {version} that has {length} bytes behind the cut of its torn line"
                trials.want(f"apply, {about}: whether it opens, and is acknowledged", (is_open, is_kept), (True, False))
                again = apply.ask("close"), apply.ask("open"), apply.ask("record", b"c", (1, 2, 3, 4)), apply.ask("sync")
                text = read(f"{folder}/{LOG}")
                is_there = not again[-1] or (table_of(text) or {}).get(b"c") == (1, 2, 3, 4)
                trials.check(f"apply, {about}: what is acknowledged behind a new open", is_there, f"{again}, {text!r}")
                apply.end()


def trial(trials, program, room):
    def speaker(folder):
        return Apply([program, "apply", LOG], folder)

    shortened(trials, speaker, f"{room}/shortened")
    tries(trials, program, speaker, f"{room}/apply", "apply")
    anew(trials, program, speaker, f"{room}/anew")


if __name__ == "__main__":
    sys.exit(main(__file__, trial))
