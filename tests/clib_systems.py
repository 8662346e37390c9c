"""What a file system can't do, what the commands of a build do to its log, and what else a system may answer the library's writer: for clib.py.

A build tool has to be able to go on where a program that only appends would (docs/LIBRARY.md, "The log or its folder may be gone").
"""
import fcntl
import os
import re
import select
import shutil
import signal
import subprocess
import time

import full_disk
from clib_driver import A, B, D, FIND, RECORD, STRICT_DRIVER, answers_of, asked, drivers, hexed, may_trace
from log_format import HEADER, line_of
from trials import SECONDS, Pauses, is_locked, read, run, until_open, write

RECORD_D = f"record -1 0 -5 ffffffffffffffff {hexed(b'd')}"
LOCKED = "LOCKED EWOULDBLOCK flock log"


def begun(driver, path, **more):
    return subprocess.Popen([*driver, "write", path, "0"], stdin=subprocess.PIPE, stdout=subprocess.PIPE, **more)


# ---- Syncs that a file system doesn't have, and locks ----


def no_syncs(trials, made, room):
    """A sync of the folder that can't be had is none, and each of the file still counts; what fails otherwise is a failure."""
    os.mkdir(f"{room}/nosync")
    log = f"{room}/nosync/log"
    lines = ["open", RECORD, "sync", "recompact", RECORD_D, "close", "look", "sync", "close"]
    for error, is_none in (("EINVAL", True), ("ENOSYS", True), ("EOPNOTSUPP", True), ("EROFS", True), ("EIO", False), ("ENOSPC", False), ("EBADF", False)):
        for text, left in ((HEADER + B + b"4", HEADER + B + A + D), (HEADER + B * 101, HEADER + B + A + D), (None, HEADER + A + D)):
            for it in os.listdir(f"{room}/nosync"):
                os.remove(f"{room}/nosync/{it}")
            write(log, text)
            driver = ["strace", "-o", f"{room}/TRACE", "-P", f"{room}/nosync", "-e", f"inject=fsync:error={error}", made["C11"]]
            said = asked(driver, "write", log, 0, lines)[1]
            what = f"a folder whose syncs answer {error}, {text and text[:30]!r}"
            if is_none:
                trials.want(what, said, ["OK"] * 9)
                trials.want(f"{what}: the log", read(log), left)
            else:
                name = error if error in ("EIO", "ENOSPC") else "E?"
                trials.want(what, said[:2], [f"FAULT {name} fsync folder", "NOT_OPEN"])
                trials.want(f"{what}: the log", read(log), text or b"")
    # The file's own are asked for all the same, and have to be answered.
    write(log, HEADER + B)
    run(["strace", "-y", "-o", f"{room}/TRACE", "-e", "trace=fsync", "-e", "inject=fsync:error=EINVAL:when=1+2", made["C11"], "write", log, "0"], input=b"open\nclose\n", stdin=None)
    calls = re.findall(r"(?m)^fsync\(\d+<([^>]*)>\) += (\S+)", read(f"{room}/TRACE").decode())
    trials.want("the folder's sync is none, and the file's is done", [(os.path.basename(path), answer) for path, answer in calls], [("nosync", "-1"), ("log", "0")])
    driver = ["strace", "-o", f"{room}/TRACE", "-P", log, "-e", "inject=fsync:error=EINVAL", made["C11"]]
    trials.want("a log that can't be synced", asked(driver, "write", log, 0, ["open", "is_open"])[1], ["FAULT EINVAL fsync log", "OK 0"])


def no_locks(trials, made, room):
    """A file system without locks: the log is opened without one, also where it is shared."""
    log = f"{room}/nolock"
    for error in ("ENOLCK", "ENOSYS", "EOPNOTSUPP"):
        for is_shared in (False, True):
            write(log, HEADER + B)
            driver = ["strace", "-o", f"{room}/TRACE", "-e", "trace=flock", "-e", f"inject=flock:error={error}", made["C11"]]
            lines = ["shared"] * is_shared + ["open", RECORD, "sync", "recompact", RECORD_D, "close", "look", RECORD, "close"]
            trials.want(f"locks that answer {error}, {is_shared}", asked(driver, "write", log, 0, lines)[1], ["OK"] * len(lines))
            trials.want("the log then", read(log), HEADER + B + A + D + A)
    driver = ["strace", "-o", f"{room}/TRACE", "-e", "trace=flock", "-e", "inject=flock:error=EIO", made["C11"]]
    trials.want("a lock that fails", asked(driver, "write", log, 0, ["open", "is_open"])[1], ["FAULT EIO flock log", "OK 0"])


def only_read(trials, made, room):
    """A file system that may only be read: a log that is missing isn't made, and what one holds is told before that it can't be changed."""
    folder = f"{room}/only-read"
    why = full_disk.mount(folder)
    if why is not None:
        trials.skip("a file system that may only be read", f"no tmpfs may be mounted here ({why})")
        return
    texts = {"good": HEADER + A, "due": HEADER + A * 101, "torn": HEADER + A + b"4\t5", "text": b"hello\n", "other": b"# ninja log v9\n", "empty": b""}
    said = {"text": "NOT_A_LOG", "other": "OTHER_VERSION 9"}
    refused = "FAULT EROFS open log"
    for name, text in texts.items():
        write(f"{folder}/{name}", text)
    run(["mount", "-o", "remount,ro", folder])
    try:
        for name in [*texts, "missing"]:
            status, path = said.get(name, refused), f"{folder}/{name}"
            # (the steps that a driver writes down are those of a log which may be written)
            for way, driver in [it for it in drivers(made) if it[0] != "steps"]:
                for begin in ([], ["shared"]):
                    answers = asked(driver, "write", path, 0, [*begin, "open", RECORD, "close"])[1]
                    trials.want(f"{way}: an open of one that is {name}", answers, ["OK"] * len(begin) + [status, "NOT_OPEN", "NOT_OPEN"])
                    looked = [status, "NOT_OPEN", "NOT_OPEN", "NOT_OPEN"] if name in said else ["OK", f"OK {int(name in ('good', 'due', 'torn'))}", refused, "BROKEN"]
                    answers = asked(driver, "write", path, 0, [*begin, "look", "count", RECORD, "close"])[1]
                    trials.want(f"{way}: a look at one that is {name}", answers, ["OK"] * len(begin) + looked)
        trials.want("the files", sorted(os.listdir(folder)), sorted(texts))
    finally:
        run(["umount", folder])


# ---- Locks that the process has already ----


def lent(trials, made, room):
    """`flock LOG COMMAND`: the command has the lock by the descriptor that it was started with, and waits for nothing; others do."""
    log = f"{room}/lent"
    for way, driver in drivers(made):
        for is_shared in (False, True):
            for begin in ("open", "look"):
                write(log, HEADER + B)
                about, lines = f"{way}, {'shared' if is_shared else 'alone'}, {begin}: ", ["wait 300", *["shared"] * is_shared, begin, RECORD, "sync", RECORD_D]
                with open(log, "rb") as held:
                    fcntl.flock(held, fcntl.LOCK_EX)
                    os.set_inheritable(held.fileno(), True)
                    writer = begun(driver, log, pass_fds=[held.fileno()])
                    trials.want(f"{about}a log whose lock was lent", [answers_of(writer, it) for it in lines], ["OK"] * len(lines))
                    trials.check(f"{about}the lock is held", is_locked(log))
                    trials.want(f"{about}others wait", asked([made["C11"]], "write", log, 0, ["wait 30", "open"])[1][1:], [LOCKED])
                    trials.want(f"{about}its rewriting and its close", [answers_of(writer, it) for it in ("recompact", "close")], ["OK", "OK"])
                    writer.communicate()
                trials.want(f"{about}the log", read(log), HEADER + B + A + D)
        # A descriptor without the lock, with a shared one, and one that is closed at the start of a program are no lock.
        for kind in ("without", "shared", "closed"):
            write(log, HEADER + B)
            with open(log, "rb") as held, open(log, "rb") as other:
                fcntl.flock(held, fcntl.LOCK_SH if kind == "shared" else fcntl.LOCK_EX)
                given = {"without": [other.fileno()], "shared": [held.fileno()], "closed": []}[kind]
                trials.want(f"{way}: a descriptor {kind}", asked(driver, "write", log, 0, ["wait 30", "open"], pass_fds=given)[1], ["OK", LOCKED])
        # A child of the process that has the log open has no part in its lock.
        write(log, HEADER + B)
        writer = begun(driver, log)
        trials.want(f"{way}: a writer", answers_of(writer, "open"), "OK")
        trials.want(f"{way}: another in its child", answers_of(writer, "rival"), "LOCKED")
        writer.communicate()
    if shutil.which("flock") is None:
        trials.skip("flock(1)", "it isn't there")
        return
    write(log, HEADER + B)
    trials.want("flock(1) of the log", asked(["flock", log, made["C11"]], "write", log, 0, ["wait 300", "shared", "look", RECORD, "close"])[1], ["OK"] * 5)
    trials.want("the log then", read(log), HEADER + B + A)


# ---- Signals ----


def interrupted(trials, made, room):
    """A signal that comes while a lock is awaited ends the wait at once, whether it is handled or kept back; and the call may be made again."""
    log, ended = f"{room}/interrupted", "LOCKED EINTR flock log"
    # (a program without threads, over a C library that has one call of the mask for these)
    unthreaded = [(it, [made[it]]) for it in ("without pthread_sigmask",) if it in made]
    with open(log, "ab") as held, Pauses() as clock:
        for way, driver in [*drivers(made), *unthreaded]:
            for number, is_kept in ((signal.SIGUSR1, False), (signal.SIGINT, True), (signal.SIGTERM, True), (signal.SIGHUP, True)):
                for begin, line in (([], "open"), (["look"], RECORD), (["shared", "open"], RECORD), (["shared", "open"], "sync")):
                    write(log, HEADER + B)
                    writer, about = begun(driver, log), f"{way}, {signal.Signals(number).name} in {line[:6]} behind {begin}: "
                    first = ["block"] * is_kept + begin
                    trials.want(f"{about}before", [answers_of(writer, it) for it in first], ["OK"] * len(first))
                    fcntl.flock(held, fcntl.LOCK_EX)
                    writer.stdin.write(f"{line}\n".encode())
                    writer.stdin.flush()
                    # (one that is handled before the wait ends nothing)
                    while not select.select([writer.stdout], [], [], 0.15)[0]:
                        writer.send_signal(number)
                    trials.want(f"{about}it is told", writer.stdout.readline().decode().strip(), f"NLOG_{ended}")
                    said = answers_of(writer, "took")
                    trials.check(f"{about}at once", int(said.split()[1]) < 3000 * clock.slower(), said)
                    trials.want(f"{about}the log then", read(log), HEADER + B)
                    fcntl.flock(held, fcntl.LOCK_UN)
                    trials.want(f"{about}once more", answers_of(writer, line), "OK")
                    writer.communicate()
    # Behind a wait the caller's signals are as they were: one that ends the process does.
    for begin, line in (([], "open"), (["shared", "open"], RECORD)):
        write(log, HEADER + B)
        writer = begun([made["C11"]], log)
        trials.want("a wait that ends", [answers_of(writer, it) for it in ["wait 30", *begin]], ["OK"] * (1 + len(begin)))
        with open(log, "ab") as held:
            fcntl.flock(held, fcntl.LOCK_EX)
            trials.want("as it does", answers_of(writer, line), LOCKED)
        writer.send_signal(signal.SIGTERM)
        # (one that doesn't end by the signal does once its input has ended)
        writer.communicate()
        trials.want("the process ends by a signal", writer.returncode, -signal.SIGTERM)
    # A stop and its end are no end of a wait.
    write(log, HEADER + B)
    writer = begun([made["C11"]], log)
    trials.want("a wait", [answers_of(writer, it) for it in ("block", "wait 400")], ["OK", "OK"])
    with open(log, "ab") as held:
        fcntl.flock(held, fcntl.LOCK_EX)
        writer.stdin.write(b"open\n")
        writer.stdin.flush()
        time.sleep(0.1)
        writer.send_signal(signal.SIGSTOP)
        writer.send_signal(signal.SIGCONT)
        trials.want("a stop and its end are no end of a wait", writer.stdout.readline().decode().strip(), f"NLOG_{LOCKED}")
    writer.communicate()


# ---- A log or a folder that a command takes away ----

# What is done to the folder `out` of a log that holds B and a record of A, lines to the writer and what each is answered, alone and shared; and
# the log that is left in each case.
GONE = "FAULT ENOENT stat log"
TAKEN = {
    "its log is removed": (
        lambda folder: os.remove(f"{folder}/log"),
        ([RECORD_D, "sync", RECORD_D, "close", "open", RECORD_D, "close"], ["OK", GONE, "BROKEN", "BROKEN", "OK", "OK", "OK"], HEADER + D),
        ([RECORD_D, "count", "sync", "close"], ["OK", "OK 1", "OK", "OK"], HEADER + D),
    ),
    "its log is replaced": (
        lambda folder: (write(f"{folder}/new", HEADER + B * 2), os.rename(f"{folder}/new", f"{folder}/log")),
        ([RECORD_D, "sync", "close", "open", "close"], ["OK", "FAULT ESTALE stat log", "BROKEN", "OK", "OK"], HEADER + B * 2),
        ([RECORD_D, "count", "sync", "close"], ["OK", "OK 2", "OK", "OK"], HEADER + B * 2 + D),
    ),
    "it is removed": (
        shutil.rmtree,
        ([RECORD_D, "close", "open", "is_open"], ["OK", GONE, "FAULT ENOENT open folder", "OK 0"], None),
        ([RECORD_D, RECORD_D, "close", "open", "look", "count", "close"], ["FAULT ENOENT open log", "BROKEN", "BROKEN", "FAULT ENOENT open folder", "OK", "OK 0", "OK"], None),
    ),
    "it is removed and made again": (
        lambda folder: (shutil.rmtree(folder), os.mkdir(folder)),
        ([RECORD_D, "close", "open", RECORD_D, "close"], ["OK", GONE, "OK", "OK", "OK"], HEADER + D),
        ([RECORD_D, "count", "sync", "recompact", "close"], ["OK", "OK 1", "OK", "OK", "OK"], HEADER + D),
    ),
    "another is put there": (
        lambda folder: (shutil.rmtree(folder), os.mkdir(folder), write(f"{folder}/log", HEADER + A + B)),
        ([RECORD_D, "close", "open", RECORD_D, "close"], ["OK", GONE, "OK", "OK", "OK"], HEADER + A + B + D),
        ([RECORD_D, "count", "close"], ["OK", "OK 3", "OK"], HEADER + A + B + D),
    ),
}
# The same behind a look at B, before the first change.
LOOKED = {
    "its log is removed": (["OK", "OK 1", "OK"], HEADER + D),
    "its log is replaced": (["OK", "OK 2", "OK"], HEADER + B * 2 + D),
    "it is removed": (["FAULT ENOENT open log", "BROKEN", "BROKEN"], None),
    "it is removed and made again": (["OK", "OK 1", "OK"], HEADER + D),
    "another is put there": (["OK", "OK 3", "OK"], HEADER + A + B + D),
}


def taken(trials, made, room):
    """A command of a build takes the log or its folder away, or puts another there: what each call answers, and that the writer can go on."""
    folder = f"{room}/out"
    for what, (change, *ways) in TAKEN.items():
        for way, driver in drivers(made):
            for is_shared, (lines, answers, left) in enumerate(ways):
                shutil.rmtree(folder, ignore_errors=True)
                os.mkdir(folder)
                write(f"{folder}/log", HEADER + B)
                writer, about = begun(driver, f"{folder}/log"), f"{way}, {'shared' if is_shared else 'alone'}, {what}: "
                first = ["shared"] * is_shared + ["open", RECORD]
                trials.want(f"{about}before", [answers_of(writer, it) for it in first], ["OK"] * len(first))
                change(folder)
                trials.want(f"{about}{[it[:6] for it in lines]}", [answers_of(writer, it) for it in lines], answers)
                writer.communicate()
                trials.want(f"{about}the log", read(f"{folder}/log"), left)
            answers, left = LOOKED[what]
            shutil.rmtree(folder, ignore_errors=True)
            os.mkdir(folder)
            write(f"{folder}/log", HEADER + B)
            writer = begun(driver, f"{folder}/log")
            trials.want(f"{way}, {what} behind a look: before", [answers_of(writer, it) for it in ("look", "count")], ["OK", "OK 1"])
            change(folder)
            trials.want(f"{way}, {what} behind a look", [answers_of(writer, it) for it in (RECORD_D, "count", "close")], answers)
            writer.communicate()
            trials.want(f"{way}, {what} behind a look: the log", read(f"{folder}/log"), left)


# ---- Files of other kinds ----


def in_the_root(trials, made, room):
    """A log in the root folder, whose path has no folder before the slash."""
    root = f"{room}/root"
    os.mkdir(root)
    ran = run(["cc", "-static", *STRICT_DRIVER, made["archive"], "-o", f"{root}/driver"])
    if ran[0] != 0:
        trials.skip("a log in the root folder", f"no static program can be made: {ran[2][-100:]!r}")
        return
    enter = ["chroot", root] if os.geteuid() == 0 else ["unshare", "--user", "--map-root-user", "chroot", root]
    if shutil.which(enter[0]) is None or run([*enter, "/driver", "misuse"])[0] != 0:
        trials.skip("a log in the root folder", "no other root can be entered")
        return
    for path in ("/log", "log", "//log", "/./log"):
        for begin in ("open", "look"):
            write(f"{root}/log", HEADER + B + b"4\t5")
            said = asked([*enter, "/driver"], "write", path, 0, [begin, RECORD, "sync", "recompact", RECORD_D, "close"])
            trials.want(f"a log {path} of the root folder, {begin}", said[:2], (0, ["OK"] * 6))
            trials.want("the log then", read(f"{root}/log"), HEADER + B + A + D)
            trials.want("and the files", sorted(os.listdir(root)), ["driver", "log"])
    os.remove(f"{root}/log")
    trials.want("one that is missing", asked([*enter, "/driver"], "write", "/log", 0, ["look", RECORD, "close"])[1], ["OK"] * 3)
    trials.want("the log then", read(f"{root}/log"), HEADER + A)
    trials.want("a load of it", run([*enter, "/driver", "load", "/log"])[1], b"NLOG_OK - 1\n")


def grown_in_a_read(trials, made, room):
    """A file that grows while it is read counts with what it has by then, or in an open to read, which has no lock, with what it had; and a file that
    shrinks ends where it then does."""
    log, many = f"{room}/growing", b"".join(line_of(b"%d" % i, (i, i, i, i)) for i in range(30000))
    for what, begin, end in (("load", ["load"], "load"), ("open", ["open", "count", "close"], "write"), ("look", ["look", "count", "close"], "write")):
        for change, wanted in ((lambda: append(log, A + D), 3), (lambda: append(log, many), 30001), (lambda: os.truncate(log, len(HEADER)), 0)):
            write(log, HEADER + B)
            words = ["strace", "-o", f"{room}/TRACE", "-P", log, "-e", "trace=pread64", "-e", "inject=pread64:delay_enter=1500000:when=1", made["C11"], end, log, *(["0"] if end == "write" else [])]
            reader = subprocess.Popen(words, stdin=subprocess.PIPE, stdout=subprocess.PIPE)
            reader.stdin.write("\n".join(begin).encode() + b"\n")
            reader.stdin.flush()
            # (its read is late by 1.5 seconds)
            until_open(reader, log)
            change()
            said = reader.communicate(timeout=SECONDS)[0].decode().replace("NLOG_", "").split("\n")[:-1]
            wanted = min(wanted, 1) if what == "look" else wanted
            trials.want(f"a file that changes while it is read, by {what}", said, [f"OK - {wanted}"] if end == "load" else ["OK", f"OK {wanted}", "OK"])


def append(path, text):
    with open(path, "ab") as it:
        it.write(text)


def scratches(trials, made, room):
    """The scratch's name is the log's with `.recompact` behind it, whole: one that lies there, whatever the path's length, is taken away."""
    folder = room
    for length in (1, 100, 200, 200):
        folder = f"{folder}/{'f' * length}"
        os.mkdir(folder)
        for name in ("l", "l" * 200, "l" * 245):
            log = f"{folder}/{name}"
            write(log, HEADER + A + B)
            write(f"{log}.recompact", b"left by a stop\n")
            said = asked([made["C11"]], "write", log, 0, ["open", f"dead {hexed(b'a')}", "recompact", "close"])[1]
            about = f"a path of {len(log)} bytes, {len(name)} of the name: "
            trials.want(f"{about}a rewriting", said, ["OK"] * 4)
            trials.want(f"{about}the files", os.listdir(folder), [name])
            trials.want(f"{about}the log", read(log), HEADER + B)
            os.remove(log)


GIB = 2**30


def large(trials, made, room):
    """A log of more than 4 GiB, mostly one long line without a block on the disk: its length is told, kept and cut to in full."""
    log = f"{room}/large"
    free = int(re.search(r"MemAvailable:\s+(\d+) kB", read("/proc/meminfo").decode())[1]) * 1024 if os.path.exists("/proc/meminfo") else 0
    if free < 6 * GIB:
        trials.skip("a log of more than 4 GiB", f"{free // 2**20} MiB of memory are free")
        return
    write(log, HEADER + A)
    with open(log, "r+b") as it:
        it.seek(4 * GIB + 5)
        it.write(b"\n" + B + b"4\t5")
    if os.stat(log).st_blocks * 512 > GIB:
        trials.skip("a log of more than 4 GiB", "the file system has no files with holes")
        os.remove(log)
        return
    size = 4 * GIB + 6 + len(B)
    writer = begun([made["C11"]], log)
    trials.want("a log of more than 4 GiB", [answers_of(writer, it) for it in ("look", "count")], ["OK", "OK 2"])
    trials.want("its first change", [answers_of(writer, it) for it in (RECORD_D, "count", "sync")], ["OK", "OK 3", "OK"])
    trials.want("its length", os.stat(log).st_size, size + len(D))
    trials.want("its rewriting", [answers_of(writer, it) for it in ("recompact", "close")], ["OK", "OK"])
    writer.communicate()
    trials.want("the log then", read(log), HEADER + A + B + D)


def trial(trials, made, room):
    lent(trials, made, room)
    only_read(trials, made, room)
    interrupted(trials, made, room)
    taken(trials, made, room)
    in_the_root(trials, made, room)
    scratches(trials, made, room)
    large(trials, made, room)
    if may_trace(trials, room):
        no_syncs(trials, made, room)
        no_locks(trials, made, room)
        grown_in_a_read(trials, made, room)
