#!/usr/bin/env python3
"""Tries the commands that change a log on a disk that is full, and what the pages advise.

    python3 tests/full_disk.py PROGRAM

Wants the right to mount a tmpfs, at least in a name space of its own (unshare). Each command has to end with `nlog: the folder
failed` and status 1, `check` still reads all that the log held, and once there is room the same command does its work. So
does the repair that docs/DAMAGE.md names. So do the words that ask the files of the outputs, and `mend`.
"""
import os
import re
import shutil
import subprocess
import sys

from changes import CHANGES, FAILED, left_by
from examples import TOP
from log_format import HEADER, Log, line_of, text_of
from trials import fill_up, main, read, run, write

PAGE = 4096
PAGES = 16
IS_INSIDE = "NLOG_FULL_DISK"
# How much longer than a page of the disk the log is: the next line fits to no byte, to some, or whole.
ENDS = {"at the end of a page": 0, "nine bytes before the end of a page": -9}


def log_of_length(length):
    """A log of so many bytes, with an entry of `a`, one of `b` and one of a long name."""
    lines = HEADER + b"1\t2\t10\ta\taa\n3\t4\t20\tb\tbb\n"
    line = b"1\t2\t3\t%s\tcc\n"
    return lines + line % (b"n" * (length - len(lines) - len(line % b"")))


def try_full(trials, program, disk, command, end):
    change = CHANGES[command]
    start = log_of_length(PAGE + ENDS[end])
    left = left_by(change, start)
    words = [program, *(f"{disk}/{it}" if it in ("LOG", "KEEP", "TIMES") else it for it in change.words)]
    what = f"{command} on a full disk, with the log {end}"
    write(f"{disk}/LOG", start)
    for name, text in change.files.items():
        write(f"{disk}/{name}", text)
    fill_up(f"{disk}/fill")
    trials.want(f"{what}: ends", run(words, cwd="/"), (1, b"", FAILED))
    text = read(f"{disk}/LOG")
    trials.check(f"{what}: the log", text in left and text.startswith(start), repr(text))
    if command == "record":
        trials.want(f"{what}: how much of the line is there", len(text) - len(start), -ENDS[end])
    trials.want(f"{what}: check", run([program, "check", f"{disk}/LOG"]), (0, Log(text).report(), b""))
    trials.want(f"{what}: show", run([program, "show", f"{disk}/LOG"]), (0, Log(start).shown(), b""))
    os.remove(f"{disk}/fill")
    trials.want(f"{what}: ends once there is room", run(words, cwd="/"), (0, b"", b""))
    trials.want(f"{what}: the log once there is room", read(f"{disk}/LOG"), left[-1])
    for name in os.listdir(disk):
        os.remove(f"{disk}/{name}")


def repair():
    """The words of the repair that docs/DAMAGE.md names."""
    return re.search(r"repeat `nlog (repair LOG)`", read(f"{TOP}/docs/DAMAGE.md").decode())[1].split()


def try_repair(trials, program, disk, kind, start, left):
    """The repair that the pages name, on a full disk, which has so much left of the log, and then on one with room: no entry is lost, and the
    log is a new file."""
    what = f"the repair of {kind}"
    words = [program, *(f"{disk}/LOG" if it == "LOG" else it for it in repair())]
    write(f"{disk}/LOG", start)
    before = os.stat(f"{disk}/LOG").st_ino
    fill_up(f"{disk}/fill")
    trials.want(f"{what}: ends on a full disk", run(words, cwd="/"), (1, b"", FAILED))
    trials.want(f"{what}: the log on a full disk", read(f"{disk}/LOG"), left)
    trials.want(f"{what}: what is left beside it", sorted(os.listdir(disk)), ["LOG", "LOG.recompact", "fill"])
    os.remove(f"{disk}/LOG.recompact")
    os.remove(f"{disk}/fill")
    trials.want(f"{what}: ends", run(words, cwd="/"), (0, b"", b""))
    trials.want(f"{what}: the log", read(f"{disk}/LOG"), text_of(Log(start).table))
    trials.want(f"{what}: what is there", os.listdir(disk), ["LOG"])
    trials.check(f"{what}: it is a new file", os.stat(f"{disk}/LOG").st_ino != before)
    os.remove(f"{disk}/LOG")


REPAIRS = {
    "a whole log": HEADER + b"1\t2\t10\ta\taa\n3\t4\t20\tb\tbb\n5\t6\t30\ta\tcc\n",
    "a log with a torn line": HEADER + b"1\t2\t10\ta\taa\n3\t4\t20\tb\tbb\n5\t6\t3",
    "a log of version 4": b"# ninja log v4\n1\t2\t3\ta\tcc\tx\n4\t5\t6\tb\t\n",
}

# In a folder with the files `a` and `b`.
LONG = (b"n" * 3000, (1, 2, 3, 4))
PART = b"3\t4\t2"
JOINED = HEADER + line_of(*LONG) + line_of(b"a", (1, 2, 10, 0xAA)) + PART + line_of(b"a", (5, 6, 30, 0xBB)) + line_of(b"edge", (1, 2, 3, 4))
STAMP = 1_700_000_000_000_000_000
WHOLE = JOINED.replace(PART, b"")

# What the words that ask the files leave of WHOLE, in such a folder.
SETTLED = {
    # A name that the system can't look up stays, as in Ninja.
    "prune": text_of(dict([LONG, (b"a", (5, 6, 30, 0xBB)), (b"edge", (1, 2, 3, 4))])),
    "retime": text_of(dict([LONG, (b"a", (5, 6, STAMP, 0xBB)), (b"edge", (1, 2, 3, 4))])),
    "mend": text_of(dict([LONG, (b"a", (2, 2, 0, 2**64 - 1 - 0xAA)), (b"edge", (1, 2, 3, 4))])),
}
# What it prints, and with which status it ends: of a name that the system can't look up nothing is known.
MENDED = (3, b"unsure\t%s\ndamaged\ta\n" % LONG[0], b"")


def try_settled(trials, program, disk, room, option):
    """A log on a full disk stays as it was, and once there is room the same command does its work."""
    words = {"prune": ["prune", f"{disk}/LOG", "targets"], "retime": ["retime", f"{disk}/LOG"], "mend": ["mend", f"{disk}/LOG"]}[option]
    words, start, done = [program, *words], JOINED if option == "mend" else WHOLE, MENDED if option == "mend" else (0, b"", b"")
    write(f"{room}/targets", b"target: cc\nedge: cc\n")
    write(f"{disk}/LOG", start)
    fill_up(f"{disk}/fill")
    trials.want(f"{option} on a full disk: ends", run(words, cwd=room), (1, b"", FAILED))
    trials.want(f"{option} on a full disk: the log", read(f"{disk}/LOG"), start)
    os.remove(f"{disk}/fill")
    trials.want(f"{option}: ends once there is room", run(words, cwd=room), done)
    trials.want(f"{option}: the log once there is room", read(f"{disk}/LOG"), SETTLED[option])
    trials.want(f"{option}: what is there", os.listdir(disk), ["LOG"])
    os.remove(f"{disk}/LOG")


# The files, of the time STAMP, are no newer than these entries, and the torn line tells that `b` was made
# again.
TORN = HEADER + line_of(*LONG) + line_of(b"a", (1, 2, STAMP, 0xAA)) + line_of(b"b", (1, 2, STAMP, 0xBB)) + b"7\t9\t8\tb"
TOLD = (3, b"unsure\t%s\ndamaged\tb\n" % LONG[0], b"")


def try_told(trials, program, disk, room, word):
    """What a torn line tells is there after a command that failed, and `mend` says it."""
    write(f"{disk}/LOG", TORN)
    fill_up(f"{disk}/fill")
    trials.want(
        f"{word} of a torn log on a full disk: ends", run([program, word, f"{disk}/LOG"], cwd=room),
        (1, b"", FAILED),
    )
    trials.want(f"{word} of a torn log on a full disk: the log", read(f"{disk}/LOG"), TORN)
    os.remove(f"{disk}/fill")
    trials.want(
        f"{word} of a torn log on a full disk: what `mend` says then",
        run([program, "mend", f"{disk}/LOG"], cwd=room), TOLD,
    )
    trials.want(f"{word} of a torn log on a full disk: what is there then", os.listdir(disk), ["LOG"])
    os.remove(f"{disk}/LOG")


def try_by_files(trials, program, disk, room):
    for name in ("a", "b"):
        write(f"{room}/{name}", b"")
        os.utime(f"{room}/{name}", ns=(0, STAMP))
    for option in SETTLED:
        try_settled(trials, program, disk, room, option)
    for word in ("repair", "mend"):
        try_told(trials, program, disk, room, word)


def mount(disk):
    """Mounts a small disk, and tells why it can't."""
    os.makedirs(disk)
    status, _, err = run(["mount", "-t", "tmpfs", "-o", f"size={PAGES * PAGE}", "tmpfs", disk])
    return None if status == 0 else err.decode(errors="replace").split("\n")[0]


def trial(trials, program, room):
    disk = f"{room}/disk"
    why = mount(disk)
    if why is not None:
        return trials.skip("all of it", f"no tmpfs may be mounted here ({why})")
    try:
        for command in CHANGES:
            for end in ENDS:
                try_full(trials, program, disk, command, end)
        for kind, start in REPAIRS.items():
            try_repair(trials, program, disk, kind, start, start)
        try_by_files(trials, program, disk, room)
    finally:
        run(["umount", disk])
    return None


def may_mount_only_inside():
    """Whether a tmpfs can be mounted only by a user who is root in a name space of its own."""
    if os.geteuid() == 0 or IS_INSIDE in os.environ or shutil.which("unshare") is None:
        return False
    return run(["unshare", "-rm", "true"])[0] == 0


if __name__ == "__main__":
    if may_mount_only_inside():
        inside = ["unshare", "-rm", sys.executable, __file__, *sys.argv[1:]]
        sys.exit(subprocess.run(inside, env={**os.environ, IS_INSIDE: "1"}, check=False).returncode)
    sys.exit(main(__file__, trial))
