#!/usr/bin/env python3
"""What short tests end before: long names and commands, long lists, high line numbers, a word too many, and files of other rights.

    python3 tests/limits.py PROGRAM

Names and lines of each length up to the limits of docs/FORMAT.md, by `record` and by `replay`; scripts with lists of 40 and 1,000
numbers, a fuse beyond 1,000, and lines of 1,000 names or pairs, against tests/run_model.py; bad lines past 255 and 65,536; words too
many; help onto a full output; what begins no log and never ends; files that are named `-`; the mode of each file that is made; files
that may not be read or written, by a user who has no rights.
"""
import itertools
import os
import resource
import shutil
import signal
import stat
import subprocess
import sys

from log_format import HEADER, MAX_NAME, Log, command_hash, line_of, text_of
from run_model import bad_line, printed
from trials import main, read, run, write

CANNOT_READ = (1, b"", b"nlog: cannot read\n")
FOLDER_FAILED = (1, b"", b"nlog: the folder failed\n")
DONE = (0, b"", b"")
COMMANDS = ("show", "check", "hash", "entries", "damage", "doubt", "builds", "summary", "compare", "trace", "picture", "hash-file", "mend", "record", "recompact", "restat", "repair", "replay", "apply")
SMALL = HEADER + b"1\t2\t3\ta\taa\n4\t5\t6\tb\tbb\n"
# By docs/FORMAT.md: the hash of the command `cc<TAB>x`.
COMMAND, HASH = "cc\tx", 0x72274E7A30810C7B
LEAST = (-(2**31), -(2**31), -(2**63))
# The most bytes of a word that Linux hands to a program.
LONGEST_WORD = 131_071
# A user who owns nothing else.
NOBODY = 65_534


def try_names(trials, program, room):
    """Names of each length, by `record`, and what is then read of them, kept and restated."""
    log, keep, times = f"{room}/LOG", f"{room}/KEEP", f"{room}/TIMES"
    table = {}
    for size in (1, 255, 256, 300, 301, 4096, 4097, 32_768, 65_535, MAX_NAME):
        name = b"n" * (size - 1) + b"%x" % (size % 16)
        words = ["record", log, "--", *map(str, LEAST), name, COMMAND]
        trials.want(f"a name of {size} bytes: record", run([program, *words]), DONE)
        table[name] = (*LEAST, HASH)
        trials.want(f"a name of {size} bytes: the log", read(log), text_of(table))
    longest = line_of(name, table[name])
    trials.want("the longest entry line", len(longest), 65_599)
    trials.want("names of each length: show", run([program, "show", log]), (0, Log(text_of(table)).shown(), b""))
    trials.want("names of each length: check", run([program, "check", log]), (0, Log(text_of(table)).report(), b""))
    write(times, b"7\t" + name + b"\n")
    table[name] = (*LEAST[:2], 7, HASH)
    trials.want("the longest name: restat", run([program, "restat", log, times]), DONE)
    trials.want("the longest name: the log after restat", read(log), text_of(table))
    write(keep, name)
    trials.want("the longest name: recompact", run([program, "recompact", log, keep]), DONE)
    trials.want("the longest name: the log after recompact", read(log), text_of({name: table[name]}))
    os.remove(log)
    ended = run([program, "record", log, "1", "2", "3", b"n" * (MAX_NAME + 1), COMMAND])
    trials.want("a name that is too long: record", ended, (1, b"", b"nlog: name too long\n"))
    trials.want("a name that is too long: the log", read(log), None)
    for size in (131_070, LONGEST_WORD):
        command = b"c" * size
        trials.want(f"a command of {size} bytes: hash", run([program, "hash", command]), (0, b"%x\n" % command_hash(command), b""))


def names(count):
    return [b"out/%d" % number for number in range(count)]


def records(count):
    return [b"record\t" + line_of(name, (1, 2, 3, number))[:-1] for number, name in enumerate(names(count))]


def cut_fates(count):
    """Numbers for as many crashes: most leave a part of the line that wasn't synced."""
    return [7 if number % 3 else 100 for number in range(count)]


def scripts():
    """What a script tries, and its lines."""
    for count in (31, 32, 33, 40, 256, 257, 1000):
        fates = b"fates" + b"".join(b"\t%d" % it for it in cut_fates(count))
        yield f"{count} numbers of fates", [fates, b"open"] + [it for line in records(count + 1) for it in (line, b"crash", b"open")]
        # Each takes a byte of an append, so the call that fails has come as far as there are numbers.
        writes = b"writes" + b"\t1" * count
        yield f"{count} numbers of writes", [writes, b"fates\t0", b"fuse\tappend_log\t%d" % (count + 5), b"open", *records(count)]
    for nth in (255, 256, 257, 1000, 1001, 2049):
        yield f"a fuse of {nth}", [b"fuse\tappend_log\t%d" % nth, b"fates\t0", b"open", *records(2100)]
    yield "the greatest fuse", [b"fuse\tany\t%d" % (2**63 - 1), b"open", *records(1100)]
    for count in (999, 1000, 1001):
        lines = [b"open", *records(count + 2)]
        yield f"a recompaction with {count} names", [*lines, b"\t".join([b"recompact", *names(count)])]
        pairs = [b"\t%d\t%s" % (number + 9, name) for number, name in enumerate(names(count))]
        yield f"a restat with {count} pairs", [*lines, b"restat" + b"".join(pairs)]
        yield f"a negative time behind {count} pairs", [*lines, b"restat" + b"".join(pairs) + b"\t-1\tout/0"]
    longest = b"record\t" + line_of(b"n" * MAX_NAME, (*LEAST, HASH))[:-1]
    yield "the longest entry", [b"open", longest, b"record\t1\t2\t3\ta\tb", longest, b"sync", b"recompact"]


def try_scripts(trials, program, room):
    for what, lines in scripts():
        script = b"\n".join(lines)
        trials.want(f"{what}: a good script", bad_line(script), None)
        write(f"{room}/SCRIPT", script)
        trials.want(f"{what}: replay", run([program, "replay", f"{room}/SCRIPT"]), (0, printed(script), b""))


def try_bad_lines(trials, program, room):
    """The number of a bad line that others stand before."""
    log, file = f"{room}/LOG", f"{room}/FILE"
    write(log, SMALL)
    rows = (
        ("replay", [file], [], b"open\n", b"opened\n"),
        ("recompact", [log, file], [], b"a\n", b"a\tb\n"),
        ("restat", [log, file], [], b"7\ta\n", b"07\ta\n"),
        ("summary", [log, "--graph", file], [b"digraph ninja {\n"], b'"a" [label="b"]\n', b'"a" [label="b"] \n'),
    )
    for word, words, first, good, bad in rows:
        for number in (1, 2, 255, 256, 257, 1001, 65_535, 65_536, 65_537, 70_001):
            write(file, b"".join([*first, *[good] * number][: number - 1]) + bad + good + bad)
            trials.want(f"{word}: a bad line {number}", run([program, word, *words]), (1, b"", b"nlog: bad line %d\n" % number))
    trials.want("bad lines: the log", read(log), SMALL)


def try_words(trials, program, room):
    """Words too many, with and without `--`."""
    values = ["LOG", "1", "2", "3", "out", "a"]
    rows = [
        ["record", *values, "b"],
        ["record", "--", *values, "b"],
        ["record", "LOG", "--", *values[1:], "b"],
        ["record", "--", *values, "b", "c", "d", "e"],
        ["recompact", "--", "LOG", "KEEP", "b"],
        ["restat", "--", "LOG", "TIMES", "b"],
        ["show", "--", "LOG", "b"],
        ["check", "--", "LOG", "b"],
        ["hash", "--", "x", "b"],
        ["entries", "--", "LOG", "b"],
        ["damage", "--", "LOG", "b"],
        ["doubt", "--", "LOG", "b"],
        ["builds", "--", "LOG", "b"],
        ["summary", "--", "LOG", "b"],
        ["compare", "--", "LOG", "NEW", "b"],
        ["trace", "--", "LOG", "b"],
        ["picture", "--", "LOG", "b"],
        ["hash-file", "--", "FILE", "b"],
        ["mend", "--", "LOG", "b"],
        ["repair", "--", "LOG", "b"],
        ["replay", "--", "SCRIPT", "b"],
        ["apply", "--", "LOG", "SCRIPT", "b"],
    ]
    for words in rows:
        what = " ".join(words)
        status, out, err = run([program, *words], cwd=room)
        trials.want(f"{what}: status and output", (status, out), (2, b""))
        trials.check(f"{what}: message", err.startswith(b"error: unexpected argument 'b' found\n"), repr(err))
        trials.want(f"{what}: files that it made", os.listdir(room), [])
    trials.want("as many words as record takes", run([program, "record", "--", *values], cwd=room), DONE)
    trials.want("as many words as record takes: the log", read(f"{room}/LOG"), HEADER + line_of(b"out", (1, 2, 3, command_hash(b"a"))))


def try_full_output(trials, program, room):
    if not os.path.exists("/dev/full"):
        return trials.skip("help onto a full output", "there is no /dev/full")
    for words in (["--help"], ["-h"], ["--version"], ["-V"], *([word, flag] for word in COMMANDS for flag in ("--help", "-h"))):
        what = " ".join(words)
        status, out, err = run([program, *words])
        trials.check(what, (status, err) == (0, b"") and out != b"", f"status {status}, {err!r}")
        with open("/dev/full", "wb") as full:
            ended = run([program, *words], capture_output=False, stdout=full, stderr=subprocess.PIPE)
        trials.want(f"{what} onto a full output", ended, (1, None, b"nlog: cannot write\n"))
    return None


def try_dash(trials, program, room):
    """`-` is the name of a file, and not standard input, on which a good text stands."""
    log, dash, line = f"{room}/LOG", f"{room}/-", line_of(b"a", (1, 2, 3, HASH))

    def want(what, words, given, wanted, left=None):
        trials.want(f"{what}: ends", run([program, *words], cwd=room, stdin=None, input=given), wanted)
        trials.want(f"{what}: LOG", read(log), left)

    want("show of a file - that is missing", ["show", "-"], SMALL, DONE)
    want("check of a file - that is missing", ["check", "-"], SMALL, (0, Log(b"").report(), b""))
    want("replay of a file - that is missing", ["replay", "-"], b"open\n", CANNOT_READ)
    want("entries of a file - that is missing", ["entries", "-"], SMALL, CANNOT_READ)
    want("damage of a file - that is missing", ["damage", "-"], SMALL + b"x", CANNOT_READ)
    want("damage of a file - that may be missing", ["damage", "--missing-ok", "-"], SMALL + b"x", DONE)
    want("hash-file of a file - that is missing", ["hash-file", "-"], SMALL, CANNOT_READ)
    write(log, SMALL)
    want("recompact by a file - that is missing", ["recompact", "LOG", "-"], b"a\n", CANNOT_READ, SMALL)
    want("restat by a file - that is missing", ["restat", "LOG", "-"], b"7\ta\n", CANNOT_READ, SMALL)
    write(dash, b"8\tb\n")
    want("restat by a file -", ["restat", "LOG", "-"], b"7\ta\n", DONE, HEADER + b"1\t2\t3\ta\taa\n4\t5\t8\tb\tbb\n")
    write(dash, b"b\n")
    want("recompact by a file -", ["recompact", "LOG", "-"], b"a\n", DONE, HEADER + b"4\t5\t8\tb\tbb\n")
    os.remove(log)
    os.remove(dash)
    want("record in a file -", ["record", "-", "1", "2", "3", "a", COMMAND], SMALL, DONE)
    trials.want("record in a file -: the file", read(dash), HEADER + line)
    want("show of a file -", ["show", "-"], SMALL, (0, line, b""))
    want("check of a file -", ["check", "-"], SMALL, (0, Log(HEADER + line).report(), b""))
    want("entries of a file -", ["entries", "-"], SMALL, (0, line, b""))
    want("hash-file of a file -", ["hash-file", "-"], SMALL, (0, b"%x\n" % command_hash(HEADER + line), b""))
    write(dash, HEADER + line + b"x")
    want("damage of a file -", ["damage", "-"], SMALL, (3, b"3\ttorn\t1\t-\t-\n", b""))
    want("repair of a file -", ["repair", "-"], SMALL, DONE)
    trials.want("repair of a file -: the file", read(dash), HEADER + line)
    os.remove(dash)
    want("repair of a file - that is missing", ["repair", "-"], SMALL, CANNOT_READ)
    trials.want("repair of a file - that is missing: the file", read(dash), None)
    want("repair of a file - that may be missing", ["repair", "--missing-ok", "-"], SMALL, DONE)
    trials.want("repair of a file - that may be missing: the file", read(dash), HEADER)


def mode_of(path):
    return stat.S_IMODE(os.stat(path).st_mode)


def try_modes(trials, program, room):
    """The mode of a LOG that is made is that of a new file; one that is there keeps its own, also where it is rewritten."""
    record = ["record", "LOG", "1", "2", "3", "a", COMMAND]
    repair = ["repair", "--missing-ok", "LOG"]
    rows = [(record, None), (["recompact", "LOG", "KEEP"], SMALL), (["restat", "LOG", "TIMES"], SMALL), (record, SMALL)]
    rows += [(repair, None), (repair, SMALL)]
    write(f"{room}/KEEP", b"b\n")
    write(f"{room}/TIMES", b"7\tb\n")
    for mask, mode in [(it, 0o640) for it in (0, 0o002, 0o022, 0o027, 0o077)] + [(0o022, it) for it in (0o600, 0o644, 0o664, 0o666, 0o755)]:
        for words, start in rows:
            log = f"{room}/LOG"
            write(log, start)
            if start is not None:
                os.chmod(log, mode)
            before = os.umask(mask)
            try:
                trials.want(f"{words[0]} under the mask {mask:03o}", run([program, *words], cwd=room), DONE)
            finally:
                os.umask(before)
            # One that is missing is made by the open, and rewritten by a repair.
            wanted = mode if start is not None else 0o666 & ~mask
            what = f"{words[0]} of a {'missing LOG' if start is None else f'LOG of mode {mode:03o}'} under the mask {mask:03o}: mode"
            trials.want(what, oct(mode_of(log)), oct(wanted))
            os.remove(log)
    # With whose rights a file is run isn't kept.
    for mode in (0o4777, 0o2755, 0o1666, 0o7640):
        for words in (["recompact", "LOG", "KEEP"], ["restat", "LOG", "TIMES"], repair):
            write(f"{room}/LOG", SMALL)
            os.chmod(f"{room}/LOG", mode)
            trials.want(f"{words[0]} of a LOG of mode {mode:04o}", run([program, *words], cwd=room), DONE)
            trials.want(f"{words[0]} of a LOG of mode {mode:04o}: mode", oct(mode_of(f"{room}/LOG")), oct(mode & 0o777))
    # An access control list can't be seen: its mask stands where the group's rights do.
    lost = b"nlog: LOG LOG: it keeps no access control list; if it had one, its group has the rights of the mask\n"
    for mode, said in ((0o640, lost), (0o664, lost), (0o644, b""), (0o600, b""), (0o604, b"")):
        for words, verbose in ((repair, True), (repair, False), (record, True)):
            write(f"{room}/LOG", SMALL)
            os.chmod(f"{room}/LOG", mode)
            wanted = (0, b"", said if verbose and words is repair else b"")
            asked = [words[0], "-v", *words[1:]] if verbose else words
            trials.want(f"{' '.join(asked[:2])} of a LOG of mode {mode:04o}", run([program, *asked], cwd=room), wanted)
    # A scratch that a crash left is emptied.
    for words, left in (["recompact", "LOG", "KEEP"], HEADER + b"4\t5\t6\tb\tbb\n"), (repair, SMALL):
        write(f"{room}/LOG", SMALL)
        write(f"{room}/LOG.recompact", SMALL * 2)
        trials.want(f"{words[0]} where a scratch is left", run([program, *words], cwd=room), DONE)
        trials.want(f"{words[0]} where a scratch is left: the log", read(f"{room}/LOG"), left)


def without_rights():
    """Ends a process's rights, where it has those of root."""
    if os.geteuid() == 0:
        os.setgroups([])
        os.setgid(NOBODY)
        os.setuid(NOBODY)


# The owner, the group and the mode of LOG; the user who rewrites it, and the groups of that; and what LOG then has. The owner stays where the
# user is root, and the group where the user is in it. Else nobody may do more: who was in the old group may be one of the others now, and the
# other way round, and the old owner may be either.
OTHER, SHARED = 65_533, 65_532
OWNERS = [
    ((NOBODY, NOBODY, 0o4777), (0, [0]), (NOBODY, NOBODY, 0o777)),
    ((NOBODY, SHARED, 0o640), (0, [0]), (NOBODY, SHARED, 0o640)),
    ((0, SHARED, 0o600), (0, [0]), (0, SHARED, 0o600)),
    ((OTHER, OTHER, 0o666), (NOBODY, [NOBODY]), (NOBODY, NOBODY, 0o666)),
    ((OTHER, OTHER, 0o6777), (NOBODY, [NOBODY]), (NOBODY, NOBODY, 0o777)),
    ((OTHER, OTHER, 0o646), (NOBODY, [NOBODY]), (NOBODY, NOBODY, 0o644)),
    ((OTHER, OTHER, 0o606), (NOBODY, [NOBODY]), (NOBODY, NOBODY, 0o600)),
    ((OTHER, OTHER, 0o466), (NOBODY, [NOBODY]), (NOBODY, NOBODY, 0o444)),
    ((OTHER, SHARED, 0o660), (NOBODY, [NOBODY, SHARED]), (NOBODY, SHARED, 0o660)),
    ((OTHER, SHARED, 0o664), (NOBODY, [SHARED]), (NOBODY, SHARED, 0o664)),
    ((OTHER, SHARED, 0o460), (NOBODY, [NOBODY, SHARED]), (NOBODY, SHARED, 0o440)),
    ((NOBODY, OTHER, 0o640), (NOBODY, [NOBODY]), (NOBODY, NOBODY, 0o600)),
    ((NOBODY, OTHER, 0o644), (NOBODY, [NOBODY]), (NOBODY, NOBODY, 0o644)),
    ((NOBODY, OTHER, 0o604), (NOBODY, [NOBODY]), (NOBODY, NOBODY, 0o600)),
    ((NOBODY, SHARED, 0o640), (NOBODY, [NOBODY, SHARED]), (NOBODY, SHARED, 0o640)),
]


def try_owners(trials, program, room):
    """Whose a rewritten LOG is, and what others may do then."""
    if os.geteuid() != 0:
        return trials.skip("LOGs of other users", "it is not run by root")
    for path in os.path.dirname(program), os.path.dirname(room), room:
        os.chmod(path, 0o755)
    folder = f"{room}/folder"
    os.mkdir(folder)
    os.chmod(folder, 0o777)
    for (owner, group, mode), (user, groups), wanted in OWNERS:
        log = f"{folder}/LOG"
        write(log, SMALL)
        os.chown(log, owner, group)
        os.chmod(log, mode)

        def become(user=user, groups=groups):
            os.setgroups(groups)
            os.setgid(groups[0])
            os.setuid(user)

        what = f"user {user} of {groups} repairs a LOG of {owner}, {group}, {mode:04o}"
        trials.want(what, run([program, "repair", log], cwd="/", preexec_fn=become), DONE)
        now = os.stat(log)
        trials.want(f"{what}: LOG's then", (now.st_uid, now.st_gid, oct(mode_of(log))), (*wanted[:2], oct(wanted[2])))
        os.remove(log)
    return None


def try_watched(trials, program, room):
    """Nobody who may not open LOG may open its copy while it is written: one of the user's own group tries all the while."""
    if os.geteuid() != 0:
        return trials.skip("a copy that another user watches", "it is not run by root")
    log = f"{room}/LOG"
    for path in os.path.dirname(room), room:
        os.chmod(path, 0o755)
    write(log, HEADER + b"".join(line_of(b"%d" % it, (1, 2, 3, it)) for it in range(20_000)))
    os.chown(log, 0, SHARED)
    os.chmod(log, 0o640)
    with subprocess.Popen([program, "repair", log]) as repair:
        watcher = os.fork()
        if watcher == 0:
            os.setgroups([0])
            os.setuid(NOBODY)
            while os.getppid() != 1:
                try:
                    os.close(os.open(f"{log}.recompact", os.O_RDONLY))
                    os._exit(1)
                except FileNotFoundError:
                    pass
                except PermissionError:
                    # (it is there, and is kept from others)
                    continue
    os.kill(watcher, signal.SIGTERM)
    trials.want("a copy that another user watches: the repair", repair.returncode, 0)
    trials.want("a copy that another user watches: it was opened", os.waitpid(watcher, 0)[1], signal.SIGTERM)
    return None


# The mode of the folder, that of LOG in it, or None where LOG is missing, the words, and how they end.
RECORD = ["record", "LOG", "1", "2", "3", "new", COMMAND]
RECOMPACT, RESTAT = ["recompact", "LOG", "KEEP"], ["restat", "LOG", "TIMES"]
SHOW, CHECK, REPAIR, MAKE = ["show", "LOG"], ["check", "LOG"], ["repair", "LOG"], ["repair", "--missing-ok", "LOG"]
COMPARED = b"hashes\tcompared\n" + b"".join(b"total\t%b\t0\t0\t0\t0\n" % it for it in (b"new", b"gone", b"changed", b"slower", b"faster", b"unfinished")) + b"total\tsame\t2\t0\t2\t2\n"
READS = (SHOW, CHECK, ["entries", "LOG"], ["damage", "LOG"], ["doubt", "LOG"], ["builds", "LOG"], ["summary", "LOG"], ["compare", "LOG", "LOG"], ["trace", "LOG"], ["picture", "LOG"], ["hash-file", "LOG"])
WRITES = (RECORD, RECOMPACT, RESTAT, REPAIR)
SECRETS = (["recompact", "LOG", "SECRET"], ["restat", "LOG", "SECRET"], ["replay", "SECRET"], ["hash-file", "SECRET"], ["summary", "--graph", "SECRET", "LOG"])
RIGHTS = [
    *((0o700, mode, words, CANNOT_READ) for mode in (0, 0o200) for words in READS),
    *((0o700, mode, words, FOLDER_FAILED) for mode in (0, 0o200, 0o400) for words in WRITES),
    *((0o600, 0o600, words, CANNOT_READ) for words in READS),
    *((0o600, 0o600, words, FOLDER_FAILED) for words in WRITES),
    *((0o500, 0o600, words, FOLDER_FAILED) for words in (RECOMPACT, RESTAT, REPAIR)),
    *((0o500, None, words, FOLDER_FAILED) for words in (RECORD, MAKE)),
    *((0o700, 0o600, words, CANNOT_READ) for words in SECRETS),
]
# What the same user may do, with what is printed and the log that is left.
MAY = [
    (0o500, 0o400, SHOW, Log(SMALL).shown(), SMALL),
    (0o500, 0o400, CHECK, Log(SMALL).report(), SMALL),
    (0o500, 0o600, RECORD, b"", SMALL + line_of(b"new", (1, 2, 3, HASH))),
    (0o700, None, RECORD, b"", HEADER + line_of(b"new", (1, 2, 3, HASH))),
    (0o700, 0o600, RECOMPACT, b"", HEADER + b"4\t5\t6\tb\tbb\n"),
    (0o700, 0o600, RESTAT, b"", HEADER + b"1\t2\t3\ta\taa\n4\t5\t7\tb\tbb\n"),
    (0o500, 0o400, ["entries", "LOG"], SMALL[len(HEADER) :], SMALL),
    (0o500, 0o400, ["damage", "LOG"], b"", SMALL),
    (0o500, 0o400, ["builds", "LOG"], b"1\t2\t2\t4\t2\tsure\n", SMALL),
    (0o500, 0o400, ["summary", "-n", "0", "LOG"], b"commands\t2\noutputs\t2\nwall\t4\ntotal\t2\nbusy\t2\nalone\t2\nparallel\t0.50\nslowest\t1\ta\n", SMALL),
    (0o500, 0o400, ["compare", "LOG", "LOG"], COMPARED, SMALL),
    (0o500, 0o400, ["hash-file", "LOG"], b"%x\n" % command_hash(SMALL), SMALL),
    (0o700, None, MAKE, b"", HEADER),
    (0o700, 0o600, REPAIR, b"", SMALL),
    # A folder that may be searched and not read can't be synced.
    (0o300, 0o600, RECORD, b"", SMALL + line_of(b"new", (1, 2, 3, HASH))),
    (0o300, 0o600, RECOMPACT, b"", HEADER + b"4\t5\t6\tb\tbb\n"),
    (0o300, 0o600, RESTAT, b"", HEADER + b"1\t2\t3\ta\taa\n4\t5\t7\tb\tbb\n"),
    (0o300, 0o600, REPAIR, b"", SMALL),
]


def reason(room, mode, log_mode, words):
    """What is said, by `--verbose`, of a file that may not be opened: which it is."""
    folder = f"{room}/folder"
    if "SECRET" in words:
        part = {"recompact": "KEEP", "restat": "TIMES", "replay": "SCRIPT", "hash-file": "FILE", "summary": "FILE"}[words[0]]
        place = f"{part} {room}/SECRET"
    elif words in WRITES and mode == 0o500 and log_mode is not None:
        place = f"scratch {folder}/LOG.recompact"
    else:
        place = f"{'FILE' if words[0] == 'hash-file' else 'LOG'} {folder}/LOG"
    return f"nlog: {place}: Permission denied (os error 13)\n".encode()


def run_without_rights(program, room, mode, log_mode, words, text=SMALL):
    """Runs a command in a new folder, of which the user is the owner: how it ended, the log, and the names of the files."""
    folder = f"{room}/folder"
    log = f"{folder}/LOG"
    os.mkdir(folder)
    if log_mode is not None:
        write(log, text)
        os.chmod(log, log_mode)
    if os.geteuid() == 0:
        for path in [folder, *([log] if log_mode is not None else [])]:
            os.chown(path, NOBODY, NOBODY)
    os.chmod(folder, mode)
    paths = {"LOG": log, **{it: f"{room}/{it}" for it in ("KEEP", "TIMES", "SECRET")}}
    ended = run([program, *(paths.get(it, it) for it in words)], cwd="/", preexec_fn=without_rights)
    os.chmod(folder, 0o700)
    if os.path.exists(log):
        os.chmod(log, 0o600)
    left, names_left = read(log), os.listdir(folder)
    shutil.rmtree(folder)
    return ended, left, names_left


def try_rights(trials, program, room):
    """What may not be read isn't missing, and what may not be written stays."""
    for path in os.path.dirname(program), os.path.dirname(room), room:
        os.chmod(path, 0o755)
    for name, text, mode in (("KEEP", b"b\n", 0o644), ("TIMES", b"7\tb\n", 0o644), ("SECRET", b"", 0)):
        write(f"{room}/{name}", text)
        os.chmod(f"{room}/{name}", mode)
    try:
        run([program], cwd="/", preexec_fn=without_rights)
    except subprocess.SubprocessError as error:
        return trials.skip("files that may not be read or written", f"no process without rights can be started ({error})")
    # One that may not be written is read all the same, and what is no log said to be none.
    for (text, why), words in itertools.product(((b"x\n", b"not a ninja log"), (b"# ninja log v9\n", b"log version not supported")), WRITES):
        what = f"{words[0]} on {text!r}, which may not be written"
        ended, left, names_left = run_without_rights(program, room, 0o700, 0o400, words, text)
        trials.want(f"{what}: ends", ended, (1, b"", b"nlog: " + why + b"\n"))
        trials.want(f"{what}: the log", (left, names_left), (text, ["LOG"]))
    rows = [(*row[:4], None if row[1] is None else SMALL) for row in RIGHTS]
    rows += [(*row[:3], (0, row[3], b""), row[4]) for row in MAY]
    for mode, log_mode, words, wanted, left in rows:
        log = "missing" if log_mode is None else f"of mode {log_mode:03o}"
        what = f"{' '.join(words)} in a folder of mode {mode:03o}, LOG {log}"
        got = run_without_rights(program, room, mode, log_mode, words)
        trials.want(what, got, (wanted, left, [] if left is None else ["LOG"]))
        said = wanted[2] and wanted[2] + reason(room, mode, log_mode, words)
        if wanted[0] == 0 and log_mode is None:
            said = f"nlog: LOG {room}/folder/LOG: it is missing, and was read as empty\n".encode()
        if wanted[0] == 0 and mode == 0o300:
            said = f"nlog: folder {room}/folder: it can't be synced, so a power cut may undo a rename: Permission denied (os error 13)\n".encode()
        got = run_without_rights(program, room, mode, log_mode, [*words, "-v"])
        trials.want(f"{what}, by -v", got, ((*wanted[:2], said), left, [] if left is None else ["LOG"]))
    return None


def try_file_size(trials, program, room):
    """Past the limit on the size of a file the system ends the command, unless it was started with that signal ignored. LOG has its entries."""
    log, scratch = f"{room}/LOG", f"{room}/LOG.recompact"

    def limited(most, ignored):
        signal.signal(signal.SIGXFSZ, signal.SIG_IGN if ignored else signal.SIG_DFL)
        resource.setrlimit(resource.RLIMIT_FSIZE, (most, resource.RLIM_INFINITY))

    too_large = f"nlog: the folder failed\nnlog: scratch {scratch}: File too large (os error 27)\n".encode()
    for ignored, wanted in ((False, (-signal.SIGXFSZ, b"", b"")), (True, (1, b"", too_large))):
        write(log, SMALL)
        ended = run([program, "repair", "-v", log], preexec_fn=lambda it=ignored: limited(20, it), restore_signals=False)
        trials.want(f"a scratch past the limit, the signal {'ignored' if ignored else 'not ignored'}", ended, wanted)
        trials.want("the log beside it", read(log), SMALL)
        trials.want("and it is repaired after it", run([program, "repair", log]), DONE)
        trials.want("with all its entries", read(log), SMALL)


def try_no_end(trials, program, room):
    """What begins no log is refused at once, though it never ends: to read all of it would want more memory than there is."""
    for word in ("builds", "summary", "trace", "picture", "doubt"):
        with open("/dev/zero", "rb") as it:
            ended = run([program, word], stdin=it, preexec_fn=lambda: resource.setrlimit(resource.RLIMIT_AS, (2**28, 2**28)))
        trials.want(f"{word} of zeros without an end", ended, (1, b"", b"nlog: not a ninja log\n"))


def trial(trials, program, room):
    for number, part in enumerate((try_names, try_scripts, try_bad_lines, try_words, try_full_output, try_dash, try_modes, try_owners, try_watched, try_rights, try_file_size, try_no_end)):
        os.mkdir(f"{room}/{number}")
        part(trials, program, f"{room}/{number}")


if __name__ == "__main__":
    sys.exit(main(__file__, trial))
