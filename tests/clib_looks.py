"""A log that the library's writer opens to read, and changes later: for clib.py.

What the writer reads then and what it leaves is taken from docs/FORMAT.md and docs/LIBRARY.md: an open of what the file holds at the first
change, but that lines which were appended meanwhile make no rewriting.
"""
import fcntl
import os
import re
import shutil
import subprocess
from concurrent.futures import ThreadPoolExecutor

from clib_driver import A, B, D, FIND, LONG, RECORD, V7, answers_of, asked, drivers, hexed, may_trace, opened, version_seen
from log_format import HEADER, Log, as_version, command_hash, entry_of, line_of, text_of
from trials import is_locked, read, run, write

DUE = HEADER + A * 101 + B
MANY = HEADER + b"".join(line_of(b"out%d" % i, (i, i + 1, i * 7, i)) for i in range(20000))

# Lines of more than a block.
LINES = b"".join(line_of(b"%d" % i + LONG[1:], (i, i, i, i)) for i in range(5))

# A log, the version that is asked for, lines to the writer with their answers, and the log that is left, if any.
LOOKS = [
    # Nothing is made, written or locked; and a close does nothing.
    (None, 0, ["look", "count", FIND, "version", "rewrote", "is_due", "is_open", "close", "is_open"], ["OK", "OK 0", "NOT_FOUND", "OK 5", "OK 0", "OK 0", "OK 1", "OK", "OK 0"], None),
    (None, 7, ["look", "version", "close"], ["OK", "OK 7", "OK"], None),
    (b"", 6, ["look", "version", "close"], ["OK", "OK 6", "OK"], b""),
    (HEADER[:7], 0, ["look", "count", "close"], ["OK", "OK 0", "OK"], HEADER[:7]),
    (V7[:-1], 0, ["look", "version", "close"], ["OK", "OK 7", "OK"], V7[:-1]),
    (HEADER + A + B + b"4\t5", 0, ["look", "count", FIND, "at 1", "at 2", "is_due", "free"], ["OK", "OK 2", "OK 1 2 3 aa", "OK 4 5 6 bb 62", "NOT_FOUND", "OK 0", "OK"], HEADER + A + B + b"4\t5"),
    (DUE, 0, ["look", "count", "is_due", "rewrote", "close"], ["OK", "OK 2", "OK 1", "OK 0", "OK"], DUE),
    (b"# ninja log v4\n1\t2\t3\ta\tcc\n", 0, ["look", "version", "is_due", FIND, "close"], ["OK", "OK 5", "OK 1", "OK 1 2 3 %x" % command_hash(b"cc"), "OK"], b"# ninja log v4\n1\t2\t3\ta\tcc\n"),
    (b"hello\n", 0, ["look", "close", "look"], ["NOT_A_LOG", "NOT_OPEN", "NOT_A_LOG"], b"hello\n"),
    (b"# ninja log v8\n", 0, ["look", "is_due"], ["OTHER_VERSION 8", "NOT_OPEN"], b"# ninja log v8\n"),
    (V7 + A, 5, ["look"], ["OTHER_VERSION 7"], V7 + A),
    # The states: a look of an open writer, an open behind a look, what is refused before anything is done, and a look behind a close.
    (HEADER + A, 0, ["is_due", "look", "look", "shared", "open", "look", "open", "is_due", "close", "look", FIND, "close", "close"],
     ["NOT_OPEN", "OK", "ALREADY_OPEN", "ALREADY_OPEN", "OK", "ALREADY_OPEN", "ALREADY_OPEN", "OK 0", "OK", "OK", "OK 1 2 3 aa", "OK", "NOT_OPEN"], HEADER + A),
    (HEADER + A + b"4\t5", 0, ["look", f"record 1 2 3 aa {hexed(b'a' + bytes([9]))}", f"edge 1 2 3 aa {hexed(b'x', b'')}", "edge 1 2 3 aa", "begin 7 0 0 cc", "close"],
     ["OK", "BAD_NAME", "BAD_NAME", "OK", "OK", "OK"], HEADER + A + b"4\t5"),
    # What is refused of an open log: the lock of a shared one is let go of.
    (HEADER, 0, ["look", RECORD, *[f"{it} {hexed(b'x', b'')}" for it in ("edge 1 2 3 aa", "begin 7 0 0 cc", "plan 7 0 0 cc")], f"record 1 2 3 aa {hexed(b'')}", "close"], ["OK", "OK", *["BAD_NAME"] * 4, "OK"], HEADER + A),
    # What the open owes is done by the first change.
    (None, 0, ["look", RECORD, FIND, "close"], ["OK", "OK", "OK 1 2 3 aa", "OK"], HEADER + A),
    (None, 7, ["look", "open", "version", "close"], ["OK", "OK", "OK 7", "OK"], V7),
    (HEADER[:7], 0, ["look", "sync", "close"], ["OK", "OK", "OK"], HEADER),
    (HEADER + A + b"4\t5", 0, ["look", f"record 4 5 6 bb {hexed(b'b')}", "close"], ["OK", "OK", "OK"], HEADER + A + B),
    (HEADER + A + b"4\t5", 0, ["look", "open", "rewrote", "close"], ["OK", "OK", "OK 0", "OK"], HEADER + A),
    (DUE + b"4\t5", 0, ["look", f"record -1 0 -5 ffffffffffffffff {hexed(b'd')}", "rewrote", "is_due", "close"], ["OK", "OK", "OK 1", "OK 0", "OK"], HEADER + A + B + D),
    (V7 + A * 101 + B, 0, ["look", "open", "rewrote", "close"], ["OK", "OK", "OK 1", "OK"], V7 + A + B),
    (b"# ninja log v4\n1\t2\t3\ta\tcc\n", 5, ["look", "sync", "rewrote", "close"], ["OK", "OK", "OK 1", "OK"], HEADER + line_of(b"a", (1, 2, 3, command_hash(b"cc")))),
    # Marks before the look, and between it and the first change.
    (DUE, 0, [f"dead {hexed(b'a')}", "look", "count", "open", "count", "close"], ["OK", "OK", "OK 1", "OK", "OK 1", "OK"], HEADER + B),
    (DUE, 0, ["look", f"dead {hexed(b'a')}", "count", "open", "count", f"record 1 2 3 aa {hexed(b'a')}", "recompact", "count", "close"],
     ["OK", "OK", "OK 2", "OK", "OK 1", "OK", "OK", "OK 2", "OK"], HEADER + B + A),
    (HEADER + A + B, 0, ["look", f"dead {hexed(b'a')}", "open", "count", "recompact", "count", "close"], ["OK", "OK", "OK", "OK 2", "OK", "OK 1", "OK"], HEADER + B),
    (HEADER + A + B, 0, ["look", f"time 9 {hexed(b'a')}", "restat", "close"], ["OK"] * 4, HEADER + b"1\t2\t9\ta\taa\n" + B),
    (HEADER + A + B, 0, ["look", f"time -9 {hexed(b'a')}", "restat", "clear", "restat", "close"], ["OK", "OK", "NEGATIVE_TIME 0", "OK", "OK", "OK"], HEADER + A + B),
    (HEADER + A + B, 0, ["look", f"begin 7 0 0 cc {hexed(b'none')}", f"begin 7 0 0 cc {hexed(b'b')}", "close"], ["OK"] * 4, HEADER + A + B + b"7\t7\t0\tb\tffffffffffffff33\n"),
    (HEADER, 0, ["look", "close"] * 40 + ["look", RECORD, "close"] * 20, ["OK"] * 140, HEADER + A * 20),
]


def looks(trials, made, room):
    """Lines to a writer that opens to read: what each is answered, the log, and that nothing else is there."""
    os.mkdir(f"{room}/looks")
    log = f"{room}/looks/log"
    for held, version, lines, answers, left in LOOKS:
        for way, driver in drivers(made):
            for is_shared in (False, True):
                if is_shared and "shared" in lines:
                    continue
                for it in os.listdir(f"{room}/looks"):
                    os.remove(f"{room}/looks/{it}")
                write(log, held)
                what = f"{way}, {'shared' if is_shared else 'alone'}: {[it[:30] for it in lines]} on {held and held[:60]!r}"
                said = asked(driver, "write", log, version, [*(["shared"] if is_shared else []), *lines])
                trials.want(what, said, (0, [*(["OK"] if is_shared else []), *answers], b""))
                trials.want(f"{what}: the log", read(log), left)
                trials.want(f"{what}: the files", os.listdir(f"{room}/looks"), [] if left is None else ["log"])
    # A folder that isn't there is an empty log's, and is looked for again by the first change.
    path = f"{room}/looks/none/log"
    for way, driver in drivers(made):
        shutil.rmtree(f"{room}/looks/none", ignore_errors=True)
        trials.want(f"{way}: a folder that is missing", asked(driver, "write", path, 0, ["look", "count", RECORD, FIND, "close"])[1], ["OK", "OK 0", "FAULT ENOENT open folder", "BROKEN", "BROKEN"])
        writer = begun(driver, path)
        trials.want(f"{way}: and then made", [answers_of(writer, it) for it in ("look", "count")], ["OK", "OK 0"])
        os.mkdir(f"{room}/looks/none")
        trials.want(f"{way}: is found", [answers_of(writer, it) for it in (RECORD, FIND, "close")], ["OK", "OK 1 2 3 aa", "OK"])
        writer.communicate()
        trials.want(f"{way}: the log in it", read(path), HEADER + A)
    unreadable(trials, made, room)


def begun(driver, path, version=0, **more):
    return subprocess.Popen([*driver, "write", path, str(version)], stdin=subprocess.PIPE, stdout=subprocess.PIPE, **more)


def unreadable(trials, made, room):
    """Which call and which file can't be read is told as by an open, and the writer is closed."""
    os.mkdir(f"{room}/looks/folder")
    os.symlink("loop", f"{room}/looks/loop")
    write(f"{room}/looks/file", b"")
    os.mkfifo(f"{room}/looks/pipe")
    rows = [("folder", "FAULT EISDIR fstat log"), ("file/log", "FAULT ENOTDIR open folder"), ("loop", "FAULT ELOOP open log"), ("pipe", "FAULT EINVAL fstat log"), ("n" * 300, "FAULT ENAMETOOLONG open log")]
    for name, said in rows:
        for way, driver in drivers(made):
            answers = asked(driver, "write", f"{room}/looks/{name}", 0, ["look", "count", "close", "look"])[1]
            trials.want(f"{way}: a look at {name[:20]}", answers, [said, "NOT_OPEN", "NOT_OPEN", said])
    # A name that has no room for the scratch's: it is read, and the first change is refused.
    longest = os.pathconf(room, "PC_NAME_MAX")
    write(f"{room}/looks/{'n' * longest}", HEADER + A)
    said = asked([made["C11"]], "write", f"{room}/looks/{'n' * longest}", 0, ["look", FIND, RECORD, FIND, "close", "look", "open", "is_open"])[1]
    trials.want("a name without room for the scratch", said, ["OK", "OK 1 2 3 aa", "FAULT ENAMETOOLONG stat scratch", "BROKEN", "BROKEN", "OK", "FAULT ENAMETOOLONG stat scratch", "OK 0"])


# ---- Others between the look and the first change ----

BEFORE = {
    "missing": None,
    "empty": b"",
    "begun": HEADER[:9],
    "kept": HEADER + A + B,
    "torn": HEADER + A + B + b"7\t8\t9\tc",
    "due": DUE,
    "due and torn": DUE + b"7\t8\t9\tc",
    "of version 7": V7 + A + B,
    "of version 4": b"# ninja log v4\n1\t2\t3\ta\tcc\n",
    "with a line that is no entry": HEADER + A + b"x\n" + B,
    "long": HEADER + LINES + A + B,
}


def grown(more):
    def change(log, text):
        with open(log, "ab") as it:
            it.write(more)
        return (text or b"") + more

    return change


def put(make):
    """Another file in the log's place."""

    def change(log, text):
        new = make(text or b"")
        write(f"{log}.new", new)
        os.rename(f"{log}.new", log)
        return new

    return change


def in_its_time(change):
    """A change of the log, which was then written when the log was."""

    def work(log, text):
        times = os.stat(log) if text is not None else None
        new = change(log, text)
        if times is not None:
            os.utime(log, ns=(times.st_atime_ns, times.st_mtime_ns))
        return new

    return work


def over(make):
    """Other bytes in the same file."""

    def change(log, text):
        new = make(text or b"")
        with open(log, "ab") as it:
            os.truncate(log, 0)
            it.write(new)
        return new

    return change


def gone(log, _):
    if os.path.exists(log):
        os.remove(log)


def another(text):
    """As long, and with the same end: the first entry has another start."""
    at = text.find(b"\n") + 1
    return text[:at] + (b"7" if text[at : at + 1] != b"7" else b"8") + text[at + 1 :] if at < len(text) else text


WHAT = {
    "nothing": lambda log, text: text,
    "appends a line": grown(D),
    "appends lines of many blocks": grown(D + LINES + D),
    "appends a torn line": grown(D + b"5\t5"),
    "appends a line that is no entry": grown(D + b"y\n" + D),
    "appends a number of another spelling": grown(b"01\t2\t3\tz\taa\n"),
    "ends a line that was torn": grown(b"\tcc\n"),
    "appends so many lines that it is due": grown(D * 400),
    "cuts the torn tail": over(lambda text: text[: text.rfind(b"\n") + 1]),
    "cuts it, and appends": over(lambda text: text[: text.rfind(b"\n") + 1] + D),
    "puts a copy there": put(lambda text: text),
    "puts one of the same length and end there": put(another),
    "puts one of the same length, end and time there": in_its_time(put(another)),
    "writes others of the same length and end": over(another),
    "writes others of the same length, end and time": in_its_time(over(another)),
    "writes another end, and more": over(lambda text: text.replace(b"4\t5\t6\tb", b"4\t5\t7\tb") + D),
    "puts another log there": put(lambda _: HEADER + D),
    "puts one of version 7 there": put(lambda _: V7 + D),
    "puts one of version 8 there": put(lambda _: b"# ninja log v8\n"),
    "puts no log there": put(lambda _: b"hello\n"),
    "puts a due one there": put(lambda _: HEADER + D * 101),
    "cuts it to its first line": over(lambda text: text[: text.find(b"\n") + 1]),
    "empties it": over(lambda _: b""),
    "removes it": gone,
}


def expected(before, after, is_same):
    """What the first change finds: its status, and the text."""
    status, change, text = opened(after or b"", 0)
    whole = (before or b"")[: (before or b"").rfind(b"\n") + 1]
    if status != "OK" or not is_same or not whole or before == after or not after.startswith(whole) or before.startswith(b"# ninja log v4"):
        return status, text
    lines = after[len(whole) :].split(b"\n")
    if lines.pop() != b"" or any(entry_of(it, 5) is None or line_of(*entry_of(it, 5)) != it + b"\n" for it in lines):
        return status, text
    # It grew by entries alone: it is rewritten if it was due at the look.
    if opened(before, 0)[1] != "REPLACE":
        return status, after
    version = version_seen(after)
    return status, as_version(text_of(dict([*Log(as_version(before, version)).table.items(), *map(lambda it: entry_of(it, 5), lines)])), version)


NEW = b"7\t8\t9\tnew\tcc\n"
# The first change, and what it makes of the text.
CHANGES = {
    f"record 7 8 9 cc {hexed(b'new')}": lambda text: text + NEW,
    f"edge 7 8 9 cc {hexed(b'new', b'a')}": lambda text: text + NEW + NEW.replace(b"new", b"a"),
    f"begin 7 0 0 cc {hexed(b'a', b'none')}": lambda text: text + (b"7\t7\t0\ta\tffffffffffffff33\n" if b"\ta\t" in text else b""),
    "sync": lambda text: text,
    "open": lambda text: text,
    "recompact": lambda text: rewritten(text, lambda table: table),
    "restat": lambda text: rewritten(text, lambda table: {name: (*it[:2], 77, it[3]) if name == b"a" else it for name, it in table.items()}),
    "close": None,
}


def rewritten(text, change):
    version = version_seen(text)
    return as_version(text_of(change(Log(as_version(text, version)).table)), version)


def between(trials, made, room):
    """Somebody else changes the log between the look and the first change, in each way: the writer finds what is there then."""
    rows = [(kind, what, line) for kind in BEFORE for what in WHAT for line in CHANGES]

    def one(number):
        kind, what, line = rows[number]
        folder = f"{room}/between-look{number}"
        os.mkdir(folder)
        log, before, said = f"{folder}/log", BEFORE[kind], []
        write(log, before)
        way, driver = drivers(made)[number % len(drivers(made))]
        is_shared = number % 7 < 3
        writer = begun(driver, log)
        begin = ["shared"] * is_shared + ["look", f"time 77 {hexed(b'a')}", "count"]
        said += [answers_of(writer, it) for it in begin]
        table = Log(as_version(opened(before or b"", 0)[2], version_seen(opened(before or b"", 0)[2]))).table
        wanted = ["OK"] * (len(begin) - 1) + [f"OK {len(table)}"]
        inode = os.stat(log).st_ino if before is not None else None
        after = WHAT[what](log, before)
        is_same = after is not None and os.stat(log).st_ino == inode
        status, text = expected(before, after, is_same)
        if line == "close":
            said += [answers_of(writer, it) for it in (line, "is_open")]
            wanted += ["OK", "OK 0"]
            left = after
        elif status != "OK":
            more = f" {after[13:14].decode()}" if status == "OTHER_VERSION" else ""
            said += [answers_of(writer, it) for it in (line, FIND, "close")]
            wanted += [status + more, *(["NOT_OPEN"] * 2 if line == "open" else ["BROKEN"] * 2)]
            left = after
        else:
            left = CHANGES[line](text)
            table = Log(as_version(left, version_seen(left))).table
            found = table.get(b"a")
            said += [answers_of(writer, it) for it in (line, "count", FIND, "is_open", "close")]
            wanted += ["OK", f"OK {len(table)}", "NOT_FOUND" if found is None else "OK %d %d %d %x" % found, "OK 1", "OK"]
        writer.communicate()
        held, files = read(log), os.listdir(folder)
        shutil.rmtree(folder)
        good = (said, held, files, writer.returncode) == (wanted, left, [] if left is None else ["log"], 0)
        return good, f"{way}, a log that is {kind}, another {what}, and then {line[:9]}{', shared' if is_shared else ''}", f"{said} for {wanted}, {(held or b'')[-200:]!r} for {(left or b'')[-200:]!r}, {files}"

    with ThreadPoolExecutor(2) as pool:
        for good, what, why in pool.map(one, range(len(rows))):
            trials.check(what, good, why)
    locked(trials, made, room)


def locked(trials, made, room):
    """A log that another has locked as the first change comes: nothing is done, the log is open to read, and the change may be made again."""
    log, refused = f"{room}/locked-look", "LOCKED EWOULDBLOCK flock log"
    for way, driver in drivers(made):
        for is_shared in (False, True):
            write(log, HEADER + A + b"4\t5")
            writer, about = begun(driver, log), f"{way}, {'shared' if is_shared else 'alone'}: "
            with open(log, "ab") as held:
                fcntl.flock(held, fcntl.LOCK_EX)
                lines = ["shared"] * is_shared + ["wait 30", "look", FIND]
                trials.want(f"{about}a look at a log that is locked", [answers_of(writer, it) for it in lines][-2:], ["OK", "OK 1 2 3 aa"])
                changes = [it for it in CHANGES if it != "close"]
                trials.want(f"{about}each change", [answers_of(writer, it) for it in changes], [refused] * len(changes))
                trials.want(f"{about}it is open to read still", [answers_of(writer, it) for it in ("is_open", FIND, "count")], ["OK 1", "OK 1 2 3 aa", "OK 1"])
                trials.want(f"{about}the log then", read(log), HEADER + A + b"4\t5")
                held.write(b"\t6\tb\tbb\n")
            trials.want(f"{about}it goes on", [answers_of(writer, it) for it in (f"record -1 0 -5 ffffffffffffffff {hexed(b'd')}", "count")], ["OK", "OK 3"])
            trials.want(f"{about}whether it is locked then", is_locked(log), not is_shared)
            trials.want(f"{about}a close", answers_of(writer, "close"), "OK")
            writer.communicate()
            trials.want(f"{about}the log at last", read(log), HEADER + A + B + D)


# A torn line, or a part of the first one, and what others put in its place, of the same length.
TORN = [
    *((b"1\t2\t3\t" + b"n" * length, lambda length: b"7\t8\t9\t" + b"m" * (length - 10) + b"\tcc\n") for length in (10, 40, 300, 500, 900, 1018, 3000, 60000)),
    (b"1\t2\t3\tmain.o", lambda length: b"7\t8\t9\tma\tcc\n"),
    # Lines, of which the last is torn again, by the same end.
    (b"1\t2\t3\t" + b"n" * 400000, lambda length: NEW * 9 + b"n" * (length - 9 * len(NEW))),
    (b"1\t2\t3\t" + b"n" * 30, lambda length: NEW + b"n" * (length - len(NEW))),
    (b"1\t2\t3\t" + b"n" * 3000, lambda length: NEW + b"n" * (length - len(NEW))),
    (b"1\t2\t3\ta\taa", lambda length: b"1\t2\t3\tb\taa"),
]


def in_its_place(trials, made, room):
    """Another repairs the log and records as many bytes as it took away, within one tick of the clock: what it recorded stands."""
    log = f"{room}/place"
    ways = [it for it in drivers(made) if it[0] in ("C11", "sanitized")] + [("timeless", [made["timeless"]])] * ("timeless" in made)
    for way, driver in ways:
        for whole in (HEADER + A + B, BEFORE["long"]):
            for torn, lines in TORN:
                new = lines(len(torn))
                for line in (RECORD, "open", "recompact"):
                    write(log, whole + torn)
                    writer = begun(driver, log)
                    said = [answers_of(writer, "look")]
                    in_its_time(over(lambda _: whole + new))(log, whole + torn)
                    said += [answers_of(writer, it) for it in (line, "close")]
                    writer.communicate()
                    left = opened(whole + new, 0)[2]
                    left = left + A if line == RECORD else text_of(Log(left).table) if line == "recompact" else left
                    trials.want(f"{way}: a torn line of {len(torn)} bytes, {new[:30]!r} in its place, {line[:9]}", (said, read(log)), (["OK"] * 3, left))
        # The bytes of the torn line tell what the writer can't trust, and whether there is a log at all.
        for text, new, lines, answers, left in (
            (HEADER + A + B + b"1\t2\t3\ta\t", HEADER + A + B + b"1\t2\t3\tb\t", ["wary", "look", "open", "close"], ["OK"] * 4, HEADER + A),
            (HEADER[:9], b"hello, wo", ["look", RECORD, "close"], ["OK", "NOT_A_LOG", "BROKEN"], b"hello, wo"),
        ):
            write(log, text)
            writer = begun(driver, log)
            said = [answers_of(writer, it) for it in lines[:-2]]
            in_its_time(over(lambda _, new=new: new))(log, text)
            said += [answers_of(writer, it) for it in lines[-2:]]
            writer.communicate()
            trials.want(f"{way}: {new[-9:]!r} in the place of {text[-9:]!r}", (said, read(log)), (answers, left))


# ---- What it costs ----

# So many bytes before the end of what was read are read again.
LAST = 1024
MEMORY_CALLS = {"brk", "mmap", "munmap", "mremap", "madvise", "fcntl", "getpid"}
LOOKED = ["openat", "openat", "stat", "pread64", "pread64"]
# The calls of the system of the first change behind a look, where the log is the one that was read: those of an open but for the read.
LOCKED = ["stat", "openat", "flock", "stat", "stat", "pread64"]
COSTS = [
    (HEADER + B, RECORD, [*LOCKED, "fsync", "fsync", "write"]),
    (HEADER + B + b"4", RECORD, [*LOCKED, "fsync", "fsync", "ftruncate", "fsync", "fsync", "write"]),
    (HEADER + B, "open", [*LOCKED, "fsync", "fsync"]),
    (HEADER + B, "close", []),
]


def calls_of(room):
    """The calls of a trace, as a list for each line that was answered, and how many bytes were read for each."""
    calls, got = [[]], [0]
    for name, rest in re.findall(r"(?m)^(\w+)\((.*)$", read(f"{room}/TRACE").decode()):
        if name == "write" and rest.startswith("1,"):
            calls.append([])
            got.append(0)
        elif name not in MEMORY_CALLS:
            calls[-1].append(re.sub(r"^newf?stat(at)?$|^fstat(at64)?$", "stat", name))
            counted = re.search(r"= (\d+)$", rest)
            if name == "pread64" and counted:
                got[-1] += int(counted[1])
    return calls, got


def costs(trials, made, room):
    """How many calls of the system a look and the first change make, and how much they read: a log that didn't change is read once."""
    log = f"{room}/costs-look"
    for text, line, wanted in COSTS:
        write(log, text)
        lines = ["is_open", "look", FIND, "count", line]
        asked(["strace", "-o", f"{room}/TRACE", made["C11"]], "write", log, 0, lines)
        calls, got = calls_of(room)
        closed = ["close"] * (2 if line == "close" else 1)
        ends = [it for it in calls[4] if it != "close" or line == "close"]
        trials.want(f"the calls of a look at {text[-9:]!r}", calls[1], LOOKED)
        trials.want("of what reads", calls[2:4], [[], []])
        trials.want(f"of the first {line[:9]}", ends, wanted or closed)
    # (the last block of the second is shorter than what is compared)
    short = MANY[: MANY.index(b"\n", 262144) + 1]
    for text, more, most in ((MANY, b"", LAST), (MANY, D * 3, LAST + len(D) * 3), (short, b"", LAST)):
        write(log, text)
        writer = subprocess.Popen(["strace", "-o", f"{room}/TRACE", made["C11"], "write", log, "0"], stdin=subprocess.PIPE, stdout=subprocess.PIPE)
        trials.want("a look at a long log", [answers_of(writer, it) for it in ("is_open", "look")], ["OK 0", "OK"])
        with open(log, "ab") as it:
            it.write(more)
        trials.want("a record behind it", [answers_of(writer, it) for it in (RECORD, "close")], ["OK", "OK"])
        writer.communicate()
        calls, got = calls_of(room)
        # (what comes behind the last newline of the first block is read again)
        again = 262144 - 1 - text.rindex(b"\n", 0, 262144) if len(text) >= 262144 else 0
        trials.want("the look reads the log once", got[1], len(text) + again)
        trials.want(f"the first record reads what it must, where another added {len(more)} bytes", got[2], most)
        trials.want("the log then", read(log), text + more + A)


# ---- What fails ----

FAILING = {
    "openat": ("EACCES", "EIO", "EMFILE"),
    "flock": ("EIO",),
    "fstat": ("EIO",),
    "newfstatat": ("EIO",),
    "pread64": ("EIO",),
    "fsync": ("EIO", "ENOSPC"),
    "ftruncate": ("EIO",),
    "write": ("ENOSPC",),
    "unlinkat": ("EACCES",),
    "renameat": ("EIO",),
}
FAILED = {
    "kept": (HEADER + B, RECORD),
    "torn": (HEADER + B + b"4\t5", RECORD),
    "due": (HEADER + B * 101 + D, RECORD),
    "missing": (None, RECORD),
    "rewritten": (HEADER + B, "recompact"),
}


def failing(trials, made, room):
    """Each call of the system that a look and the first change make fails in turn: a look leaves the files alone, a change that fails breaks the
    writer, what was acknowledged stands, and a writer that is closed opens again."""
    os.mkdir(f"{room}/failing-look")
    log, count = f"{room}/failing-look/log", 0
    paths = [it for path in (f"{room}/failing-look", log, f"{log}.recompact") for it in ("-P", path)]
    for kind, (text, line) in FAILED.items():
        base = {} if text is None else Log(text).table
        for call, errors in FAILING.items():
            for error in errors:
                for nth in range(1, 40):
                    for it in os.listdir(f"{room}/failing-look"):
                        os.remove(f"{room}/failing-look/{it}")
                    write(log, text)
                    # (the one that writes its steps down opens and reads the log by itself)
                    plain = made["C11"] if call in ("openat", "fstat", "newfstatat", "pread64", "flock") else made.get("steps", made["C11"])
                    driver = ["strace", "-o", f"{room}/TRACE", *paths, "-e", f"trace={call}", "-e", f"inject={call}:error={error}:when={nth}", plain]
                    said = asked(driver, "write", log, 0, ["look", line, "sync", "close"])[1]
                    if b"(INJECTED)" not in read(f"{room}/TRACE"):
                        break
                    count += 1
                    what, left = f"a look and {line[:9]} of a log that is {kind}, {call} {nth} fails by {error}", read(log)
                    if said[0] != "OK":
                        good = said[0].startswith(f"FAULT {error}") or said[0] == "FAULT E?" or said[0].startswith("FAULT E? ")
                        trials.check(f"{what}: the look", good and said[1:] == ["NOT_OPEN"] * 3 and left == text, said)
                        continue
                    found = Log(left or b"").table
                    acknowledged = dict(base)
                    if said[1] == "OK" and line == RECORD:
                        acknowledged[b"a"] = (1, 2, 3, 0xAA)
                    states = {tuple(it.split()[0] for it in said[1:])}
                    allowed = {("OK", "OK", "OK"), ("FAULT", "BROKEN", "BROKEN"), ("OK", "FAULT", "BROKEN"), ("OK", "OK", "FAULT")}
                    trials.check(f"{what}: the answers", states <= allowed, said)
                    trials.check(f"{what}: what stands", all(found.get(name) == it for name, it in acknowledged.items()) and set(found) <= {*acknowledged, b"a"}, left)
                    again = asked([made["C11"]], "write", log, 0, ["look", f"record 4 5 6 bb {hexed(b'e')}", "close"])[1]
                    trials.want(f"{what}: another writer goes on", again, ["OK"] * 3)
    trials.check("many calls failed", count > 90, count)
    print(f"clib.py: {count} calls of the system failed behind a look")


def torn_tails(trials, made, room):
    """Whatever the length of the tail that is torn when the log is read, the last 512 bytes of its lines tell whether it begins as it did."""
    log, whole = f"{room}/tails.log", HEADER + B * 40 + line_of(b"x" * 700, (1, 2, 3, 0xAA))
    at = len(whole) - 512
    other = (b"x" * 700)[: at - len(HEADER + B * 40) - 6] + b"y" + b"x" * 507
    for torn in (0, 1, 300, 511, 512, 513, 700, 1000, 1023, 1024, 1025, 5000):
        for way, driver in drivers(made):
            write(log, whole + b"t" * torn)
            writer = begun(driver, log)
            said = [answers_of(writer, it) for it in ("look", f"find {hexed(other)}")]
            with open(log, "r+b") as it:
                it.truncate(len(whole))
                it.seek(at)
                it.write(b"y")
                it.seek(0, os.SEEK_END)
                it.write(D)
            said += [answers_of(writer, it) for it in (RECORD, f"find {hexed(other)}", "count", "close")]
            writer.communicate()
            trials.want(f"{way}: a byte that changes behind a look at a torn tail of {torn} bytes", said, ["OK", "NOT_FOUND", "OK", "OK 1 2 3 aa", "OK 4", "OK"])
            trials.want(f"{way}: the log then", read(log), whole[:at] + b"y" + whole[at + 1 :] + D + A)


def trial(trials, made, room):
    looks(trials, made, room)
    torn_tails(trials, made, room)
    between(trials, made, room)
    in_its_place(trials, made, room)
    if may_trace(trials, room):
        costs(trials, made, room)
        failing(trials, made, room)
