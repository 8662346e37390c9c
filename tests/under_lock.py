#!/usr/bin/env python3
"""Tries each command that changes a log beside others that change it: what was acknowledged stays, and each
answer leaves what it says.

    python3 tests/under_lock.py PROGRAM [--only PART]

recorders: forty processes record, some by `record` and some by `apply`, while a command changes the log again
    and again, and is killed now and
    then: each of 1,000 acknowledged records stands (NLOG_RECORDS names another number, for a slow program).
waits: an `apply` records, and puts intents, while a command waits for the lock: what it acknowledged stands,
    and no entry gets a time
    that its file had before.
opens: no command makes a LOG that has to be there, not even if it goes while the command looks (wants
    strace).
devices: a LOG that a symbolic link turns to a file of another device with the same inode number is another
    (wants to mount a tmpfs).
refusals: a `prune`, `retime`, `mend` or `repair` that refuses leaves LOG as it was.
notes: what `-v` says of rights comes with each status.
folders: `mend -C DIR` looks at relative names below DIR, and at absolute ones as they stand.
"""
import fcntl
import os
import random
import re
import shutil
import subprocess
import sys
import threading
import time
from concurrent.futures import ThreadPoolExecutor
from itertools import chain
from typing import Dict, List, NamedTuple, Optional

from between import Apply
from log_format import HEADER, Log, line_of
from trials import SECONDS, main_of_parts, read, run, write
from two_writers import WAITING, begin

RECORDS, RECORDERS = int(os.environ.get("NLOG_RECORDS", "1000")), 40
# One of so many recorders is an `apply`, which records so many entries and syncs them at once.
EVERY, AT_ONCE = 4, 5
COMMAND = "cc"
HASH = 0xCC
SECOND = 1_000_000_000
# The times of files and entries here: none is newer than its entry, unless a trial says so.
OLD, NEW = 1_700_000_000 * SECOND, 1_800_000_000 * SECOND


class Word(NamedTuple):
    """A command that looks and changes, and the files that it wants beside LOG. FILE stands for a list that
    has each name of a trial."""

    words: List[str]
    # What a line of FILE is, of a name.
    line: bytes = b""
    # Whether it leaves a log as it is that has no damaged line.
    is_for_damage: bool = False


WORDS: Dict[str, Word] = {
    "prune": Word(["prune", "LOG", "FILE"], b"%s: cc\n"),
    "retime": Word(["retime", "LOG"]),
    "mend": Word(["mend", "LOG"], is_for_damage=True),
    "repair": Word(["repair", "LOG"]),
    "recompact": Word(["recompact", "LOG", "FILE"], b"%s\n"),
    "restat": Word(["restat", "LOG", "FILE"], b"%d\t%%s\n" % NEW),
}


def entry(number: int):
    """The numbers of an entry, which tell it from any other."""
    return number, number + 1, NEW, number + 16


def touch(path: str, stamp: int, text: bytes = b"") -> None:
    write(path, text)
    os.utime(path, ns=(stamp, stamp))


def table_at(path: str) -> Dict:
    return Log(read(path)).table


def lay(room: str, word: Word, names: List[bytes], text: bytes) -> None:
    """A folder with LOG, and with the list that a command wants."""
    os.makedirs(room, exist_ok=True)
    write(f"{room}/LOG", text)
    write(f"{room}/FILE", b"".join(word.line % name for name in names) if word.line else b"")


# -- recorders -----------------------------------------------------------------------------------------------


class Recorders:
    """Processes that record, and which of their records were acknowledged."""

    def __init__(self, program: str, room: str, records: int):
        self.program, self.room, self.todo = program, room, iter(range(records))
        self.lock, self.done = threading.Lock(), set()

    def take(self, count: int) -> List[int]:
        with self.lock:
            return [number for _, number in zip(range(count), self.todo)]

    def run(self, recorder: int) -> None:
        by_apply = recorder % EVERY == 0
        while numbers := self.take(AT_ONCE if by_apply else 1):
            is_done = self.by_apply(numbers) if by_apply else self.by_record(numbers[0])
            with self.lock:
                if is_done:
                    self.done.update(numbers)
                else:
                    # (who waits for the lock too long is refused, and asks again)
                    self.todo = chain(numbers, self.todo)

    def by_record(self, number: int) -> bool:
        start, end, mtime, _ = entry(number)
        words = [self.program, "record", "LOG", str(start), str(end), str(mtime), f"out{number}", COMMAND]
        return run(words, cwd=self.room)[0] == 0

    def by_apply(self, numbers: List[int]) -> bool:
        lines = [
            "open", *("record\t%d\t%d\t%d\tout%d\t%x" % (*entry(it)[:3], it, HASH) for it in numbers), "sync",
            "stop",
        ]
        script = "\n".join([*lines, ""]).encode()
        said = run([self.program, "apply", "LOG"], cwd=self.room, stdin=None, input=script)[1]
        return said == b"ok\n" * len(lines)


def spoil(log: str) -> None:
    """Adds a line that is no entry, as whoever has the lock may."""
    while True:
        with open(log, "ab") as file:
            fcntl.flock(file, fcntl.LOCK_EX)
            if os.fstat(file.fileno()).st_ino == os.stat(log).st_ino:
                file.write(b"7\t8\n")
                return


class Changing(threading.Thread):
    """Runs a command again and again, and kills each third of its runs at some moment, until it is told to
    end."""

    def __init__(self, program: str, room: str, word: Word):
        super().__init__()
        self.words, self.room, self.spoils = [program, *word.words], room, word.is_for_damage
        self.is_over, self.chance = threading.Event(), random.Random(1)
        self.ends: Dict[Optional[int], int] = {}

    def run(self) -> None:
        took = 0.05
        while not self.is_over.is_set():
            if self.spoils:
                spoil(f"{self.room}/LOG")
            at, ran = time.monotonic(), begin(self.words, self.room)
            if self.chance.randrange(3) == 0:
                time.sleep(self.chance.random() * took)
                ran.kill()
            ran.communicate(timeout=SECONDS)
            took = took if ran.returncode else time.monotonic() - at
            self.ends[ran.returncode] = self.ends.get(ran.returncode, 0) + 1


def try_recorders(trials, program, room, records=RECORDS):
    names = [b"out%d" % number for number in range(records)]
    for what, word in WORDS.items():
        folder = f"{room}/{what}"
        # (`prune` keeps each output that has a file)
        lay(
            folder, word, [b"first"] if what == "prune" else names, HEADER + line_of(b"first", (1, 2, NEW, 3))
        )
        for name in (b"first", *names):
            touch(f"{folder}/{name.decode()}", NEW)
        recorders, changing = Recorders(program, folder, records), Changing(program, folder, word)
        changing.start()
        with ThreadPoolExecutor(RECORDERS) as pool:
            list(pool.map(recorders.run, range(RECORDERS)))
        changing.is_over.set()
        changing.join()
        left = table_at(f"{folder}/LOG")
        lost = [it for it in sorted(recorders.done) if left.get(b"out%d" % it, ())[:3] != entry(it)[:3]]
        trials.want(f"{what} beside recorders: how many were acknowledged", len(recorders.done), records)
        trials.check(
            f"{what} beside recorders: it changed the log",
            changing.ends.get(0, 0) + changing.ends.get(3, 0) > 2, repr(changing.ends),
        )
        trials.check(
            f"{what} beside recorders: what was acknowledged stands", not lost,
            f"{len(lost)} of {len(recorders.done)} are lost: {lost[:9]}",
        )
        shutil.rmtree(folder)


# -- waits ---------------------------------------------------------------------------------------------------


class Waiting:
    """An `apply` that has the log open, and a command that waits for it."""

    def __init__(self, program: str, room: str, words: List[str]):
        self.apply = Apply([program, "apply", "LOG"], room)
        self.is_open = self.apply.ask("open")
        self.ran = begin([program, words[0], "-v", *words[1:]], room)
        # (it says so once it has looked at all that it looks at before it waits)
        self.is_waiting = self.ran.stderr.readline() == WAITING

    def end(self):
        """Ends both: how the command ended, with what it printed."""
        self.apply.end()
        out, err = self.ran.communicate(timeout=SECONDS)
        return self.ran.returncode, out, err


def try_waits(trials, program, room):
    for what, word in WORDS.items():
        if what != "recompact":
            try_record_meanwhile(trials, program, f"{room}/record-{what}", what, word)
    for what in ("retime", "mend", "prune", "repair"):
        try_intent_meanwhile(trials, program, f"{room}/intent-{what}", what, WORDS[what])
    try_time_meanwhile(trials, program, f"{room}/time")
    try_ninja(trials, program, f"{room}/ninja")


def try_record_meanwhile(trials, program, room, what, word):
    """What is recorded and synced while a command waits stands, of an output that LOG hadn't, and of one that
    it had."""
    lay(room, word, [b"known"], HEADER + line_of(b"known", (1, 2, OLD, 3)))
    touch(f"{room}/known", OLD)
    waiting = Waiting(program, room, word.words)
    trials.want(f"{what} waits for an apply", (waiting.is_open, waiting.is_waiting), (True, True))
    touch(f"{room}/known", NEW)
    touch(f"{room}/fresh", NEW)
    asked = [
        waiting.apply.ask("record", name, entry(number)) for number, name in enumerate((b"known", b"fresh"))
    ]
    trials.want(
        f"{what}: what is recorded while it waits is acknowledged", [*asked, waiting.apply.ask("sync")],
        [True] * 3,
    )
    trials.want(f"{what}: it ends once it has the lock", waiting.end()[0], 0)
    trials.want(
        f"{what}: what was recorded while it waited stands", table_at(f"{room}/LOG"),
        {b"known": entry(0), b"fresh": entry(1)},
    )


def try_intent_meanwhile(trials, program, room, what, word):
    """An intent that is put while a command waits stays one: it has no time."""
    lay(room, word, [b"known"], HEADER + line_of(b"known", (1, 2, OLD, 3)))
    touch(f"{room}/known", OLD)
    waiting = Waiting(program, room, word.words)
    begun = waiting.apply.say(f"begin\t7\t{HASH:x}\tknown")
    trials.want(
        f"{what}: a build begins while it waits", (waiting.is_waiting, begun, waiting.apply.ask("sync")),
        (True, "ok", True),
    )
    trials.check(f"{what}: it ends once it has the lock", waiting.end()[0] in (0, 3))
    trials.want(
        f"{what}: an intent stays one", table_at(f"{room}/LOG"), {b"known": (7, 7, 0, 2**64 - 1 - HASH)}
    )


def try_time_meanwhile(trials, program, room):
    """The time that an entry gets is none that its file had before it was recorded."""
    lay(
        room, WORDS["retime"], [],
        HEADER + line_of(b"made", (1, 2, OLD, 3)) + line_of(b"left", (1, 2, OLD, 3)),
    )
    touch(f"{room}/made", OLD + 1)
    touch(f"{room}/left", OLD + 2)
    waiting = Waiting(program, room, WORDS["retime"].words)
    touch(f"{room}/made", NEW)
    asked = waiting.apply.ask("record", b"made", entry(5)), waiting.apply.ask("sync")
    ended = waiting.end()[0]
    trials.want(
        "retime: a command is done while it waits", (waiting.is_waiting, asked, ended),
        (True, (True, True), 0),
    )
    trials.want(
        "retime: it sets no time of before", table_at(f"{room}/LOG"),
        {b"made": entry(5), b"left": (1, 2, OLD + 2, 3)},
    )


MANIFEST = """rule make
  command = cat $in > $out
  generator = 1
build out: make in
"""


def try_ninja(trials, program, room):
    """A generator's output whose build began while `retime` waited, and was killed: Ninja makes it again."""
    if shutil.which("ninja") is None:
        return trials.skip("waits: what Ninja makes", "ninja isn't there")
    os.mkdir(room)
    write(f"{room}/build.ninja", MANIFEST)
    touch(f"{room}/in", OLD, b"one\n")
    trials.want("retime and Ninja: a build", run(["ninja"], cwd=room)[0], 0)
    os.rename(f"{room}/.ninja_log", f"{room}/LOG")
    trials.want("retime and Ninja: nothing is to be done", b"no work to do" in ninja(room), True)
    waiting = Waiting(program, room, ["retime", "LOG", "--log-version", "auto"])
    begun = waiting.apply.say(f"begin\t7\t{HASH:x}\tout"), waiting.apply.ask("sync")
    # (the command has written a part when it is killed)
    write(f"{room}/out", b"on")
    trials.want(
        "retime and Ninja: a build begins meanwhile", (waiting.is_waiting, begun, waiting.end()[0]),
        (True, ("ok", True), 0),
    )
    trials.want("retime and Ninja: its output is to be made", b"no work to do" in ninja(room), False)
    return None


def ninja(room: str) -> bytes:
    """What Ninja says that it would do by LOG."""
    shutil.copy(f"{room}/LOG", f"{room}/.ninja_log")
    return run(["ninja", "-n"], cwd=room)[1]


# -- opens ---------------------------------------------------------------------------------------------------

OPENS = ["prune", "retime", "mend", "repair"]
DAMAGED = HEADER + line_of(b"known", (1, 2, OLD, 3)) + b"7\t8\t9\tknown\n"


def try_opens(trials, program, room):
    try_made(trials, program, f"{room}/missing")
    strace = shutil.which("strace")
    if strace is None or run([strace, "-o", "/dev/null", "true"])[0] != 0:
        return trials.skip("opens", "strace isn't there, or may not trace here")
    for what in OPENS:
        text = DAMAGED if what in ("mend", "repair") else HEADER + line_of(b"known", (1, 2, OLD, 3))
        folder = f"{room}/{what}"
        lay(folder, WORDS[what], [b"known"], text)
        touch(f"{folder}/known", OLD)
        words = [program, *WORDS[what].words]
        run([strace, "-f", "-e", "trace=open,openat,creat", "-o", f"{folder}/calls", *words], cwd=folder)
        opens = re.findall(
            r'(?m)^\d+ +open(?:at)?\((?:AT_FDCWD, )?"(?:[^"]*/)?LOG", ([A-Z_|]+)',
            read(f"{folder}/calls").decode(),
        )
        trials.check(f"{what} opens LOG", bool(opens), repr(opens))
        trials.check(f"{what} would not make LOG", not any("O_CREAT" in it for it in opens), repr(opens))
        # It goes behind the last look: before the open that has the lock.
        for number in range(1, len(opens) + 1):
            write(f"{folder}/LOG", text)
            gone(strace, words, folder, number)
            trials.check(
                f"{what}, LOG is removed before its open {number}: it isn't made",
                not os.path.exists(f"{folder}/LOG"), repr(read(f"{folder}/LOG")),
            )
    return None


def try_made(trials, program: str, room: str) -> None:
    """The words that docs/CLI.md has make a missing LOG make it."""
    os.mkdir(room)
    for words in (
        ["repair", "--missing-ok", "LOG"], ["recompact", "LOG", os.devnull], ["restat", "LOG", os.devnull]
    ):
        trials.want(f"{words[0]} of a missing LOG", run([program, *words], cwd=room), (0, b"", b""))
        trials.want(f"{words[0]} of a missing LOG: it is made", read(f"{room}/LOG"), HEADER)
        os.remove(f"{room}/LOG")
    for what in OPENS:
        status = 0 if what == "mend" else 1
        trials.want(
            f"{what} of a missing LOG: its status", run([program, *WORDS[what].words], cwd=room)[0], status
        )
        trials.want(f"{what} of a missing LOG: what is there", os.listdir(room), [])


def gone(strace: str, words: List[str], folder: str, number: int) -> None:
    """Runs a command that is stopped a while before its open of LOG of this number, when LOG is removed."""
    calls = f"{folder}/stopped"
    write(calls, b"")
    traced = [strace, "-f", "-P", f"{folder}/LOG", "-P", "LOG", "-e", "trace=open,openat", "-o", calls]
    traced += ["-e", "inject=open,openat:delay_enter=300000:when=1+"]
    unread = {"stdout": subprocess.DEVNULL, "stderr": subprocess.DEVNULL}
    with subprocess.Popen([*traced, *words], cwd=folder, **unread) as ran:
        # (a call stands in the file once it began; it ends a while later)
        while ran.poll() is None:
            if len(re.findall(rb"(?m)^\d+ +open", read(calls))) >= number:
                break
            time.sleep(0.01)
        try:
            os.remove(f"{folder}/LOG")
        except FileNotFoundError:
            pass


# -- devices -------------------------------------------------------------------------------------------------


def mount(disk: str) -> bool:
    os.makedirs(disk)
    return run(["mount", "-t", "tmpfs", "tmpfs", disk])[0] == 0


def try_devices(trials, program, room):
    """Files of two devices with one inode number are two."""
    disks = [f"{room}/{name}" for name in ("here", "there")]
    mounted = [disk for disk in disks if mount(disk)]
    try:
        if len(mounted) < 2:
            return trials.skip("devices", "no tmpfs may be mounted here")
        return turn(trials, program, room, [f"{disk}/LOG" for disk in disks])
    finally:
        for disk in mounted:
            run(["umount", disk])


def turn(trials, program, room, logs):
    text = HEADER + line_of(b"known", (1, 2, NEW, 3))
    for log in logs:
        write(log, text)
        os.utime(log, ns=(OLD, OLD))
    here, there = map(os.stat, logs)
    trials.want(
        "devices: both files have one number and length", (here.st_ino, here.st_size),
        (there.st_ino, there.st_size),
    )
    trials.check("devices: of two devices", here.st_dev != there.st_dev)
    for keeper in ("sync", "close", "recompact"):
        link(room, logs[0])
        apply = Apply([program, "apply", "LOG"], room)
        trials.want(f"devices: an apply opens the first, {keeper}", apply.ask("open"), True)
        write(logs[1], text)
        recorded = apply.ask("record", b"lost", entry(1))
        write(logs[1], read(logs[0]))
        link(room, logs[1])
        trials.want(
            f"devices: {keeper} of a log that is turned to another", (recorded, apply.ask(keeper)),
            (True, False),
        )
        apply.end()
        write(logs[0], text)
    return None


def link(room: str, log: str) -> None:
    os.symlink(log, f"{room}/new")
    os.rename(f"{room}/new", f"{room}/LOG")


# -- refusals ------------------------------------------------------------------------------------------------


class Refusal(NamedTuple):
    """Words that are refused, or that find what they tell of, with what LOG and FILE are, and how they
    end."""

    words: List[str]
    log: bytes
    file: bytes
    status: int
    said: bytes


PLAIN = HEADER + line_of(b"a", (1, 2, NEW, 3)) + line_of(b"b", (1, 2, NEW, 4)) + line_of(b"c", (1, 2, NEW, 5))
SEVEN = b"# ninja log v7\n" + PLAIN[len(HEADER) :]
REFUSALS = {
    "prune of no target": Refusal(["prune", "LOG", "FILE"], PLAIN, b"", 1, b"nlog: bad line 1\n"),
    "prune of a bad line": Refusal(["prune", "LOG", "FILE"], PLAIN, b"a: cc\nb\n", 1, b"nlog: bad line 2\n"),
    "prune of missing targets": Refusal(["prune", "LOG", "GONE"], PLAIN, b"", 1, b"nlog: cannot read\n"),
    "prune of most outputs": Refusal(
        ["prune", "LOG", "FILE"], PLAIN, b"x: cc\n", 1, b"nlog: most outputs of LOG aren't here\n"
    ),
    "prune of another version": Refusal(
        ["prune", "--log-version", "6", "LOG", "FILE"], PLAIN, b"a: cc\n", 1,
        b"nlog: log version not supported\n",
    ),
    "prune of no log": Refusal(
        ["prune", "LOG", "FILE"], b"hello\n", b"a: cc\n", 1, b"nlog: not a ninja log\n"
    ),
    "prune of a damaged log": Refusal(["prune", "LOG", "FILE"], PLAIN + b"torn", b"a: cc\n", 3, b""),
    "retime of another version": Refusal(
        ["retime", "--log-version", "6", "LOG"], SEVEN, b"", 1, b"nlog: log version not supported\n"
    ),
    "retime of no log": Refusal(["retime", "LOG"], b"hello\n", b"", 1, b"nlog: not a ninja log\n"),
    "retime of a damaged log": Refusal(["retime", "LOG"], PLAIN + b"1\t2\n", b"", 3, b""),
    "retime of a file of before 1970": Refusal(
        ["retime", "LOG"], PLAIN + line_of(b"early", (1, 2, 3, 4)), b"", 1, b"nlog: negative time at pair 0\n"
    ),
    "mend of no file": Refusal(
        ["mend", "LOG"], PLAIN + b"torn", b"", 1, b"nlog: most outputs of LOG aren't here\n"
    ),
    "mend of no log": Refusal(["mend", "LOG"], b"hello\n", b"", 1, b"nlog: not a ninja log\n"),
    "repair of another version": Refusal(
        ["repair", "--log-version", "7", "LOG"], PLAIN + b"torn", b"", 1, b"nlog: log version not supported\n"
    ),
    "repair of no log": Refusal(["repair", "LOG"], b"hello\n", b"", 1, b"nlog: not a ninja log\n"),
    "recompact of a bad line": Refusal(
        ["recompact", "LOG", "FILE"], PLAIN, b"a\tb\n", 1, b"nlog: bad line 1\n"
    ),
    "restat of a bad line": Refusal(["restat", "LOG", "FILE"], PLAIN, b"7\ta\nb\n", 1, b"nlog: bad line 2\n"),
    "record of a bad number": Refusal(
        ["record", "LOG", "1", "2", "x", "n", "c"], PLAIN + b"torn", b"", 1, b"nlog: bad number\n"
    ),
}


def try_refusals(trials, program, room):
    touch(f"{room}/early", 0)
    os.utime(f"{room}/early", ns=(-SECOND, -SECOND))
    for what, refusal in REFUSALS.items():
        write(f"{room}/LOG", refusal.log)
        write(f"{room}/FILE", refusal.file)
        before = os.stat(f"{room}/LOG")
        status, _, said = run([program, *refusal.words], cwd=room)
        trials.want(
            f"{what}: its end", (status, said.split(b"\nnlog: run it")[0].rstrip(b"\n")),
            (refusal.status, refusal.said.rstrip(b"\n")),
        )
        after = os.stat(f"{room}/LOG")
        trials.want(f"{what}: LOG's bytes", read(f"{room}/LOG"), refusal.log)
        trials.want(
            f"{what}: LOG is the file that it was", (after.st_ino, after.st_mtime_ns),
            (before.st_ino, before.st_mtime_ns),
        )
        trials.want(f"{what}: what is beside it", sorted(os.listdir(room)), ["FILE", "LOG", "early"])


# -- notes ---------------------------------------------------------------------------------------------------


class Noted(NamedTuple):
    """Words, the log that they are given, how they end, and whether they write LOG anew."""

    words: List[str]
    log: bytes
    status: int
    is_rewritten: bool


NEWER = HEADER + line_of(b"known", (1, 2, OLD - 1, 3))
WHOLE = HEADER + line_of(b"known", (1, 2, OLD, 3))
# (a second line of the same output is dropped by each that writes LOG anew)
TWICE = WHOLE + line_of(b"known", (1, 2, OLD, 4))
NOTES = {
    "mend that finds a newer output": Noted(["mend", "-v", "LOG"], NEWER, 3, True),
    "mend that finds a damaged line": Noted(["mend", "-v", "LOG"], DAMAGED, 3, True),
    "mend that finds a line of no output": Noted(["mend", "-v", "LOG"], WHOLE + b"\n", 0, True),
    "mend that would change": Noted(["mend", "-v", "--dry-run", "LOG"], NEWER, 3, False),
    "mend of a whole log": Noted(["mend", "-v", "LOG"], WHOLE, 0, False),
    "prune": Noted(["prune", "-v", "LOG", "FILE"], TWICE, 0, True),
    "prune of a damaged log": Noted(["prune", "-v", "LOG", "FILE"], DAMAGED, 3, False),
    "retime": Noted(["retime", "-v", "LOG"], TWICE, 0, True),
    "retime of a damaged log": Noted(["retime", "-v", "LOG"], DAMAGED, 3, False),
    "repair": Noted(["repair", "-v", "LOG"], TWICE, 0, True),
    "recompact": Noted(["recompact", "-v", "LOG", "FILE"], TWICE, 0, True),
    "restat": Noted(["restat", "-v", "LOG", "TIMES"], TWICE, 0, True),
}
LIST_LOST = b"it keeps no access control list; if it had one, its group has the rights of the mask\n"
MASKED = b"nlog: LOG LOG: " + LIST_LOST
UNSYNCED = b"it can't be synced, so a power cut may undo a rename: Invalid argument (os error 22)\n"


def try_notes(trials, program, room):
    """Of LOG's rights, and of a folder that can't be synced, it is said with each status, where LOG is
    written anew."""
    touch(f"{room}/known", OLD)
    write(f"{room}/TIMES", b"%d\tknown\n" % OLD)
    strace = shutil.which("strace")
    unsynced = [
        strace, "-f", "-o", "/dev/null", "-P", room, "-e", "trace=fsync", "-e", "inject=fsync:error=EINVAL"
    ]
    if strace is None or run([*unsynced, "true"])[0] != 0:
        trials.skip("notes of a folder that can't be synced", "strace isn't there, or may not trace here")
        strace = None
    for what, noted in NOTES.items():
        write(f"{room}/FILE", b"known: cc\n" if noted.words[0] == "prune" else b"known\n")
        folder = b"nlog: folder %s: %s" % (room.encode(), UNSYNCED)
        for mode, masked in ((0o640, [MASKED]), (0o644, [])):
            for tracer, told in [([], []), (unsynced, [folder])] if strace else [([], [])]:
                shutil.rmtree(f"{room}/LOG.recompact", ignore_errors=True)
                write(f"{room}/LOG", noted.log)
                os.chmod(f"{room}/LOG", mode)
                before = os.stat(f"{room}/LOG").st_ino
                status, _, said = run([*tracer, program, *noted.words], cwd=room)
                trials.want(f"notes, {what}: its end", status, noted.status)
                trials.want(
                    f"notes, {what}: whether it writes LOG anew", os.stat(f"{room}/LOG").st_ino != before,
                    noted.is_rewritten,
                )
                wanted = [*masked, *told] if noted.is_rewritten else []
                about = f"mode {mode:03o}{', a folder without a sync' if told else ''}"
                lines = [
                    line.replace(b"folder .:", b"folder %s:" % room.encode())
                    for line in said.splitlines(keepends=True)
                ]
                trials.want(f"notes, {what}, {about}", sorted(lines), sorted(wanted))


# -- folders -------------------------------------------------------------------------------------------------


def try_folders(trials, program, room):
    """Where `mend -C DIR` looks for the files of outputs, and what it then says of them."""
    for folder in ("build", "elsewhere", "apart"):
        os.mkdir(f"{room}/{folder}")
    far, trap = f"{room}/apart/far", f"{room}/build{room}/apart"
    os.makedirs(trap)
    text = HEADER + line_of(b"near", (1, 2, OLD, 3)) + line_of(far.encode(), (1, 2, OLD, 4)) + line_of(
        b"../apart/up", (1, 2, OLD, 5)
    )
    cases = {
        # The times of near, of far, of a file with far's name below the folder, and of up; and the outputs
        # that are newer than their entries.
        "nothing is newer": ((OLD, OLD, NEW, OLD), []),
        "the absolute one is": ((OLD, NEW, OLD, OLD), [far]),
        "the relative one is": ((NEW, OLD, OLD, OLD), ["near"]),
        "the one above is": ((OLD, OLD, OLD, NEW), ["../apart/up"]),
        "each is": ((NEW, NEW, OLD, NEW), ["near", far, "../apart/up"]),
    }
    paths = [f"{room}/build/near", far, f"{trap}/far", f"{room}/apart/up"]
    for what, (stamps, newer) in cases.items():
        for cwd in ("build", "elsewhere"):
            write(f"{room}/build/LOG", text)
            for path, stamp in zip(paths, stamps):
                touch(path, stamp)
            log = "LOG" if cwd == "build" else "../build/LOG"
            wanted = (3 if newer else 0, "".join(f"newer\t{name}\n" for name in newer).encode(), b"")
            trials.want(
                f"folders: mend -C from {cwd}, {what}",
                run([program, "mend", "-C", f"{room}/build", log], cwd=f"{room}/{cwd}"), wanted,
            )
            left = table_at(f"{room}/build/LOG")
            begun = [name for name in left if left[name][2] == 0]
            trials.want(
                f"folders: what is built again, from {cwd}, {what}", begun, [name.encode() for name in newer]
            )


PARTS = {
    "recorders": try_recorders,
    "waits": try_waits,
    "opens": try_opens,
    "devices": try_devices,
    "refusals": try_refusals,
    "notes": try_notes,
    "folders": try_folders,
}

if __name__ == "__main__":
    sys.exit(main_of_parts(__file__, PARTS))
