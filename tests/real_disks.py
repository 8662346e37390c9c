#!/usr/bin/env python3
"""Tries what real file systems leave of logs when the power is lost, on a disk whose writes are kept.

    python3 tests/real_disks.py PROGRAM [IMAGES [MODE..]]

Wants to be root with the right to mount, /dev/fuse, loop devices, and the file systems with their mkfs; it says what it skips.

On each file system the commands that change a log run over logs of each kind. Between them logs are written line by line without a sync,
as Ninja does; logs are kept by `apply` and by the library's writer, which sync now and then; and another program syncs another file. Then so
many images of the disk are made: its writes up to some moment, where of those since the last flush each may be lost or torn. Each is
mounted, so that the file system repairs itself, and read.

- A log that a command changed has to be one that the rules allow, and the changed one where the command had ended.
- Of a log that `apply` or the writer keeps, what a sync, a stop or a close acknowledged has to be there, each entry whole.
- Of a log that was written line by line, what was synced has to be there. The rest is compared with docs/DISK_MODEL.md.
- What is in the model, `check` and `show` have to read, and a `record` to mend.

Without IMAGES it makes some, of the commonest modes alone; docs/DISK_MODEL.md has what many images of each mode gave.
"""
import copy
import ctypes
import itertools
import multiprocessing
import os
import random
import shutil
import signal
import subprocess
import sys
import time
from collections import Counter, namedtuple
from concurrent.futures import ThreadPoolExecutor

from changes import CHANGES
from crash_rules import KINDS, Rules, State, Sweep, Worker, in_parts, lines_of
from disk_model import File
from log_format import HEADER, line_of, reading_of
from recording_disk import LIBC, MS_RDONLY, Blocks, Recorded, RecordingDisk, Served, leave_mounts, loop_device, mount, unmount, unmount_below
from trials import SECONDS, choose, main, read, run, short, usage, write, writer_driver

SEED = 20240229
# How many images are made of a mode where the words don't say.
FEW = 30
MEGA = 1 << 20
# How the disk is made, and mounted as which file system; its size; whether a torn write loses its end or sectors anywhere, of which size;
# what a crash may leave beside what the model allows; how many images may be mounted at one time.
Mode = namedtuple("Mode", "make kind options size torn sector leaves at_once")
EXT4 = ["mkfs.ext4", "-q", "-F", "-b", "4096", "-E", "nodiscard,lazy_itable_init=0,lazy_journal_init=0"]
EXT3 = ["mkfs.ext3", *EXT4[1:]]
NEW = {"new zeros", "no log"}
MODES = {
    "ext4": Mode(EXT4, "ext4", "", 64 * MEGA, "end", 512, NEW, None),
    "xfs": Mode(["mkfs.xfs", "-q", "-f", "-K"], "xfs", "nouuid", 320 * MEGA, "any", 512, set(), None),
    # Copies of one btrfs can't be told apart, and its own blocks have sectors of 4,096 bytes.
    "btrfs": Mode(["mkfs.btrfs", "-q", "-f", "-K"], "btrfs", "", 256 * MEGA, "any", 4096, set(), 1),
    "ext4, any sectors": Mode(EXT4, "ext4", "", 64 * MEGA, "any", 512, {*NEW, "outside"}, None),
    "ext4 data=journal": Mode(EXT4, "ext4", "data=journal", 64 * MEGA, "any", 512, set(), None),
    "ext4 data=writeback": Mode(EXT4, "ext4", "data=writeback", 64 * MEGA, "end", 512, {*NEW, "outside"}, None),
    "ext4 nodelalloc": Mode(EXT4, "ext4", "nodelalloc", 64 * MEGA, "end", 512, {*NEW, "outside"}, None),
    "ext4 nodelalloc,data=writeback": Mode(EXT4, "ext4", "nodelalloc,data=writeback", 64 * MEGA, "end", 512, {*NEW, "outside"}, None),
    "ext3": Mode(EXT3, "ext3", "", 64 * MEGA, "end", 512, {*NEW, "outside"}, None),
}
COMMON = ["ext4", "xfs", "btrfs"]
# The last ones make new logs, one after another.
CASES = [*itertools.product(CHANGES, KINDS), *[("record", "a missing log")] * 12]
# How many sets of logs are written line by line, and how many lines each.
SETS, LINES = 8, 20
# The driver of the library's writer, where it can be built.
DRIVER = {"path": None}
# What a log of an image is. As the model allows: `prefix`, and with a tail `zeros` or `tail` (other bytes). `new tail`: a log with a tail that
# nobody ever synced; `new zeros`: such a tail makes it no log. `no log`: zeros alone, which a command was about to make a log. `outside`: bytes
# of the log stand behind lost ones. `lost`: none of these.
VERDICTS = ["prefix", "zeros", "tail", "new tail", "new zeros", "no log", "outside", "lost"]
ROW = "{:<31}{:>7}{:>7}" + "{:>10}" * len(VERDICTS)

# From this moment on a crash may leave this of a log.
Mark = namedtuple("Mark", "name wanted")


class Still:
    """A log that is durable, and that nobody writes."""

    def __init__(self, text):
        self.text = text

    def said(self, log):
        return f"{short(log)} in place of {short(self.text)}"

    def verdict(self, log):
        return "prefix" if log == self.text else "lost"


class Changing(Rules):
    """A log that a command changes."""

    def __init__(self, command, start):
        super().__init__(command, start)
        self.start = start

    def said(self, log):
        return f"{short(log)}, made of {short(self.start)}"

    def verdict(self, log):
        if self.allow(log, False):
            return "zeros" if log != self.start and b"\0" in (log or b"") else "prefix"
        return "no log" if not lines_of(self.start) and log.strip(b"\0") == b"" else "lost"


class Growing(File):
    """A log that is written without a sync. `is_named`: its name is durable."""

    is_named = True

    def said(self, log):
        """How much of it is there, in words."""
        same = len(os.path.commonprefix([log or b"", self.longest]))
        return f"{len(log or b'')} bytes of {len(self.longest)}, {same} as they were written, {self.durable_len} synced"

    def verdict(self, log):
        if log is None:
            return "lost" if self.is_named else "prefix"
        same = len(os.path.commonprefix([log, self.longest]))
        tail = log[same:]
        if same < self.durable_len:
            return "lost"
        if not tail:
            return "prefix"
        if len(log) > len(self.longest) or b"\n" in tail:
            return "outside"
        if self.durable_len == 0:
            return "new tail" if b"\n" in log[:same] else "new zeros"
        return "tail" if tail.strip(b"\0") else "zeros"


class Recording:
    """A file system on which there are commands and writers, and what its logs may be at each moment."""

    def __init__(self, mode, room):
        self.mode, self.room, self.chance = mode, room, random.Random(SEED)
        self.wrong, self.is_done = [], False
        self.disk = RecordingDisk(f"{room}/disk", Recorded(Blocks(mode.size)))

    def path(self, name):
        return f"{self.room}/mounted/{name}"

    def mark(self, name, wanted):
        self.disk.ask("mark", Mark(name, copy.copy(wanted)))

    def make(self):
        """Makes the file system, lays the files out, and runs all there is to run: the disk as it began, and what came then."""
        os.makedirs(f"{self.room}/mounted")
        with self.disk.device() as device:
            status, out, err = run([*self.mode.make, device])
            if status != 0:
                raise OSError(status, (out + err).decode(errors="replace").strip())
            mount(device, f"{self.room}/mounted", self.mode.kind, 0, self.mode.options)
            try:
                self.lay_out()
                self.run_all()
            finally:
                # What is written from here on is no part of the recording.
                base, events = self.disk.ask("all_of")
                unmount(f"{self.room}/mounted")
        self.disk.close()
        return base, events

    def lay_out(self):
        for number, (command, kind) in enumerate(CASES):
            os.makedirs(self.path(number))
            for name, text in {"LOG": KINDS[kind], **CHANGES[command].files}.items():
                write(self.path(f"{number}/{name}"), text)
        for number in range(SETS):
            os.makedirs(self.path(f"set{number}"))
            write(self.path(f"set{number}/old"), HEADER + self.lines(3))
            write(self.path(f"set{number}/cut"), HEADER + self.lines(2) + b"7\t8\t9\t" + b"torn" * (number + 1) ** 3)
            for who in self.keepers():
                os.makedirs(self.path(f"{who}{number}"))
                write(self.path(f"{who}{number}/LOG"), HEADER + self.lines(2))
        write(self.path("other"), b"")
        self.sync(self.path("."), LIBC.syncfs)
        self.disk.ask("begin")
        for number, (_, kind) in enumerate(CASES):
            self.mark(f"{number}/LOG", Still(KINDS[kind]))

    @staticmethod
    def sync(path, how=os.fsync):
        number = os.open(path, os.O_RDONLY)
        try:
            how(number)
        finally:
            os.close(number)

    def lines(self, count):
        names = [b"out/%d/%s" % (self.chance.randrange(999), b"n" * self.chance.choice([1, 9, 80, 900])) for _ in range(count)]
        return b"".join(line_of(it, (1, 2, self.chance.randrange(2**60), self.chance.randrange(2**64))) for it in names)

    def run_all(self):
        """The commands and the writers, while another program syncs another file."""
        with ThreadPoolExecutor(1) as pool:
            other = pool.submit(self.sync_other)
            try:
                for number, case in enumerate(CASES):
                    self.change(number, *case)
                    if number < SETS:
                        self.write_set(f"set{number}")
                        for who in self.keepers():
                            self.keep(who, f"{who}{number}/LOG")
            finally:
                self.is_done = True
            other.result()

    def sync_other(self):
        """Another program, which syncs its own file now and then. A file system may make more durable then than that file."""
        chance = random.Random(SEED)
        with open(self.path("other"), "ab", 0) as it:
            while not self.is_done:
                time.sleep(chance.choice([0, 0, 0.001, 0.01]))
                it.write(b"x" * 99)
                os.fsync(it.fileno())

    def change(self, number, command, kind):
        name, rules = f"{number}/LOG", Changing(command, KINDS[kind])
        self.mark(name, rules)
        ended = run(Worker().words(command, self.path(number)), cwd="/")
        if ended != (0, b"", b"") or read(self.path(name)) != rules.done:
            self.wrong.append(f"{command} on {kind}: {ended}")
        self.mark(name, Still(rules.done))

    def write_set(self, folder):
        """Writes to an old log and to a new one, line by line, and cuts a third."""
        files = {name: Growing(read(self.path(f"{folder}/{name}")) or b"") for name in ("old", "new", "cut")}
        files["new"].is_named = False
        at = self.chance.randrange(LINES)
        for step in range(LINES):
            for name in "old", "new":
                more = HEADER if name == "new" and step == 0 else self.lines(1)
                files[name].append(more)
                self.mark(f"{folder}/{name}", files[name])
                with open(self.path(f"{folder}/{name}"), "ab", 0) as it:
                    it.write(more)
                self.after(f"{folder}/{name}", files[name])
            if step == at:
                whole = len(lines_of(files["cut"].visible))
                files["cut"].cut(whole)
                self.mark(f"{folder}/cut", files["cut"])
                os.truncate(self.path(f"{folder}/cut"), whole)
            time.sleep(self.chance.choice([0, 0, 0.001, 0.01]))

    @staticmethod
    def keepers():
        """Who keeps a log open: the words of its lines, and what it answers where all went well."""
        return {"apply": b"ok"} if DRIVER["path"] is None else {"apply": b"ok", "writer": b"NLOG_OK"}

    def keep(self, who, name):
        """A log that is kept open by one who is asked, line by line: what is acknowledged by a sync, or at the end, is durable."""
        words = [Worker.program, "apply", self.path(name)] if who == "apply" else [DRIVER["path"], "write", self.path(name), "0"]
        file, done = Growing(read(self.path(name))), self.keepers()[who]
        with subprocess.Popen(words, stdin=subprocess.PIPE, stdout=subprocess.PIPE, cwd="/") as it:
            def ask(line):
                it.stdin.write(line + b"\n")
                it.stdin.flush()
                answer = it.stdout.readline().strip()
                if answer != done:
                    self.wrong.append(f"{who} answers {answer!r} to {line!r}")

            ask(b"open")
            for _ in range(LINES):
                line = self.lines(1)
                file.append(line)
                self.mark(name, file)
                numbers, output, digits = line[:-1].split(b"\t")[:3], *line[:-1].split(b"\t")[3:]
                if who == "apply":
                    ask(b"record\t" + line[:-1])
                else:
                    ask(b"record " + b" ".join([*numbers, digits, output.hex().encode()]))
                self.after(name, file)
                if self.chance.random() < 0.3:
                    ask(b"sync")
                    file.sync()
                    self.mark(name, file)
            ask(b"stop" if who == "apply" else b"close")
            file.sync()
            self.mark(name, file)
        if read(self.path(name)) != file.visible:
            self.wrong.append(f"{who} left another log than it was asked for")

    def after(self, name, file):
        """What comes behind a line: mostly nothing; or the system begins to write the file, because its bytes have waited for long; or
        somebody syncs the file with its folder."""
        chance = self.chance.random()
        if 0.03 < chance < 0.1:
            self.sync(self.path(name), lambda it: LIBC.sync_file_range(it, ctypes.c_long(0), ctypes.c_long(0), 2))
        elif chance < 0.03:
            self.sync(self.path(name))
            self.sync(os.path.dirname(self.path(name)))
            file.sync()
            file.is_named = True
            self.mark(name, file)


class Images:
    """Images of a recording. `wanted` has what the logs may be at the moment that it has gone to."""

    def __init__(self, mode, base, events):
        self.mode, self.events = mode, events
        self.durable = Blocks(mode.size)
        self.durable.blocks = dict(base)
        self.at, self.pending, self.wanted = 0, [], {}

    def go_to(self, moment):
        """Goes on to the moment behind so many events."""
        for event in self.events[self.at : moment]:
            if event is None:
                for at, text in self.pending:
                    self.durable.write(at, text)
                self.pending = []
            elif isinstance(event, Mark):
                self.wanted[event.name] = event.wanted
            else:
                self.pending.append(event)
        self.at = moment

    def image(self, chance):
        """All of what isn't durable is there, or none, or all but one write, or each is there, lost or torn."""
        blocks = Blocks(self.mode.size, self.durable)
        way = chance.choice(["all", "none", "all but one", "each", "each"])
        one = chance.randrange(len(self.pending)) if self.pending else 0
        for number, (at, text) in enumerate(self.pending):
            fate = {"all": 0, "none": 1, "all but one": int(number == one)}.get(way)
            fate = chance.choice([0, 0, 1, 2]) if fate is None else fate
            if fate == 0:
                blocks.write(at, text)
            elif fate == 2:
                self.tear(blocks, at, text, chance)
        return blocks

    def tear(self, blocks, at, text, chance):
        size = self.mode.sector
        count = chance.randrange(len(text) // size + 1)
        for place in range(0, len(text), size):
            if place < count * size if self.mode.torn == "end" else chance.random() < 0.5:
                blocks.write(at + place, text[place : place + size])


class Task:
    """What the processes work on: set before they begin."""

    mode, base, events = None, None, None


def begin(program, room):
    """Begins a process that can be ended even while it waits for a disk."""
    signal.signal(signal.SIGTERM, signal.SIG_DFL)
    signal.signal(signal.SIGINT, signal.SIG_IGN)
    Worker.begin(program, room)


def record(words):
    """Records a mode: its disk as it began, what came then, and what is wrong; or why there is no such disk here."""
    name, room = words
    it = Recording(MODES[name], room)
    try:
        return (*it.make(), it.wrong)
    except OSError as error:
        return error.strerror


def judge(moments):
    """Reads the images of some moments, in order, and counts what they left. Gives the logs that the program has to read, too."""
    it, counts, logs = Worker(), Counter(), {}
    folder, mode = f"{it.room}.images", MODES[Task.mode]
    os.makedirs(f"{folder}/mounted", exist_ok=True)
    images = Images(mode, Task.base, Task.events)
    for moment, seed in moments:
        images.go_to(moment)
        images.image(random.Random(seed)).write_to(f"{folder}/image")
        found = read_all(f"{folder}/image", mode, f"{folder}/mounted", images.wanted)
        os.remove(f"{folder}/image")
        what = f"{Task.mode}: an image behind {moment} of {len(Task.events)} events, seed {seed}"
        counts["images"] += 1
        if it.check(f"{what}: is mounted and read", isinstance(found, dict), lambda: found):
            judge_image(it, what, found, images.wanted, counts, logs)
    return it.passed, it.failures, (counts, list(logs))


def read_all(image, mode, folder, names):
    """The logs of an image by their names, or why it can't be mounted and read."""
    with loop_device(image) as device:
        try:
            mount(device, folder, mode.kind, MS_RDONLY, mode.options)
        except OSError as error:
            return error.strerror
        try:
            return {name: read(f"{folder}/{name}") for name in names}
        except OSError as error:
            return error.strerror
        finally:
            unmount(folder)


def judge_image(it, what, found, wanted, counts, logs):
    verdicts = {name: wanted[name].verdict(log) for name, log in found.items()}
    counts.update(set(verdicts.values()))
    allowed = {"prefix", "zeros", "tail", "new tail"}
    wrong = [name for name, verdict in verdicts.items() if verdict not in allowed | MODES[Task.mode].leaves]
    it.check(what, not wrong, lambda: f"{len(wrong)} logs, such as {wrong[0]}, {verdicts[wrong[0]]}: {wanted[wrong[0]].said(found[wrong[0]])}")
    logs.update(dict.fromkeys(log for name, log in found.items() if verdicts[name] in allowed and reading_of(log or b"") == "log"))


def moments_of(events, images):
    """So many moments behind writes, each with a seed, in some lists, each in order."""
    chance = random.Random(SEED)
    behind = [at for at, event in enumerate(events, 1) if is_write(event)]
    chosen = [(chance.choice(behind), chance.randrange(2**32)) for _ in range(images)]
    return [sorted(it) for it in in_parts(chosen, 8)]


def try_mode(trials, program, room, name, images):
    """Tries one mode, and gives what its images left."""
    with multiprocessing.Pool(1, begin, (program, room)) as pool:
        recorded = pool.apply(record, ((name, f"{room}/{name}"),))
    if isinstance(recorded, str):
        trials.skip(name, recorded)
        return Counter()
    base, events, wrong = recorded
    if not trials.check(f"{name}: the recording", not wrong, "; ".join(wrong)):
        return Counter()
    Task.mode, Task.base, Task.events = name, base, events
    total, logs = Counter(writes=sum(map(is_write, events))), {}
    with multiprocessing.Pool(MODES[name].at_once or os.cpu_count(), begin, (program, room)) as pool:
        sweep = Sweep(trials, pool)
        for counts, found in sweep.over(judge, moments_of(events, images)):
            total.update(counts)
            logs.update(dict.fromkeys(found))
    with multiprocessing.Pool(os.cpu_count(), begin, (program, room)) as pool:
        sweep = Sweep(trials, pool)
        sweep.try_again([State("record", log, None) for log in logs])
        sweep.end()
    return total


def is_write(event):
    return event is not None and not isinstance(event, Mark)


def why_not(mode):
    """Why a mode can't be tried here, or None."""
    if shutil.which(mode.make[0]) is None:
        return f"{mode.make[0]} isn't there"
    return None if mode.kind in (read("/proc/filesystems") or b"").decode().split() else f"this system has no {mode.kind}"


def why_not_here(room):
    """Enters a name space of mounts of its own, and tells why no disk can be recorded here, or None."""
    if sys.platform != "linux" or os.geteuid() != 0:
        return "it wants to be root on Linux"
    for path in "/dev/fuse", "/dev/loop-control":
        if not os.path.exists(path):
            return f"{path} isn't there"
    try:
        leave_mounts()
    except OSError as error:
        return f"no name space of mounts may be made here ({error.strerror})"
    try:
        disk = RecordingDisk(f"{room}/first", Served(Blocks(MEGA)))
        with disk.device():
            pass
        disk.close()
    except OSError as error:
        unmount_below(room)
        return f"no disk of its own may be mounted here ({error.strerror})"
    return None


def too_long(*_):
    raise TimeoutError("it takes too long")


def trial(trials, program, room, images, names):
    why = why_not_here(room)
    if why:
        return trials.skip("all of it", why)
    DRIVER["path"] = writer_driver(trials, room)
    signal.signal(signal.SIGTERM, lambda *_: sys.exit(1))
    signal.signal(signal.SIGALRM, too_long)
    print(f"{trials.script}: " + ROW.format("images in which a log is", "writes", "images", *VERDICTS))
    try:
        for name in names:
            why = why_not(MODES[name])
            if why:
                trials.skip(name, why)
                continue
            signal.alarm(SECONDS + images)
            it = try_mode(trials, program, room, name, images)
            print(f"{trials.script}: " + ROW.format(name, it["writes"], it["images"], *(it[verdict] for verdict in VERDICTS)), flush=True)
    finally:
        signal.alarm(0)
        unmount_below(room)
    return None


def begin_trial():
    """Takes the words behind the program: how many images, and of which modes."""
    chosen = choose(__file__, [*MODES])
    words, sys.argv[2:] = sys.argv[2:], []
    images, *names = words or [str(FEW), *(COMMON if len(chosen) == len(MODES) else chosen)]
    if not images.isdigit() or not set(names) <= set(MODES):
        return usage(__file__, f"PROGRAM [IMAGES [MODE..]], and a MODE is one of: {'; '.join(MODES)}")
    return main(__file__, lambda *it: trial(*it, int(images), names or MODES))


if __name__ == "__main__":
    sys.exit(begin_trial())
