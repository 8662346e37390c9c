#!/usr/bin/env python3
"""Tries the library for C: include/nlog.h, crates/nl_c and the C below lib/.

    python3 tests/clib.py PROGRAM

It builds tests/clib/driver.c, which calls each function, as C11 and as C++17, without a warning, and under AddressSanitizer; and takes what
the format says of each log from log_format.py. tests/clib/tool.c has the commands of the program over the library: so the trials of the
program's system calls, of writes that are cut, of a full disk, of what a crash leaves, and of `apply` are made of the library too, by the
same rules. Writers run at once, one beside PROGRAM too, and are killed.

Parts of it are clib_ends.py (how calls end where something fails, or is large), clib_looks.py (a log that is opened to read), clib_wary.py (a writer that drops what can't be trusted), clib_plans.py (plans), clib_shared.py
(calls by chance of three that share a log), clib_names.py (many names, and hostile ones), clib_rights.py (who may
read and write a log that is rewritten), clib_systems.py (what a file system can't do, and what is done to a log), clib_steps.py (the steps of a
change) and clib_packages.py (how the library is taken).

Wants `rt` and `cc`; a C++ compiler, gcc, clang, AddressSanitizer, ThreadSanitizer, valgrind, ctypes, strace, rustc, cmake, pkg-config, and the right
to mount a tmpfs, where they are there. Each that is missing is said.
"""
import ctypes
import fcntl
import multiprocessing
import os
import random
import re
import resource
import shutil
import signal
import subprocess
import sys
import threading
import time
from concurrent.futures import ThreadPoolExecutor
from glob import glob

import apply_calls
import between
import clib_ends
import clib_looks
import clib_names
import clib_packages
import clib_plans
import clib_rights
import clib_shared
import clib_steps
import clib_systems
import clib_wary
import crash_states
import full_disk
import short_writes
import system_calls
from clib_driver import A, B, D, DRIVER, FIND, LONG, RECORD, STATUS, STRICT, TOP, V7, answers_of, asked, drivers, hexed, may_trace, opened, version_seen
from crash_rules import Sweep, Worker
from log_format import HEADER, MAX_LINE, MAX_NAME, Log, as_version, command_hash, command_hash_v7, entry_of, line_of, reading_of, text_of
from log_lines import damage_of, distrusted_of
from trials import BUILD_SECONDS, SECONDS, Pauses, is_locked, is_within, main, read, run, until_open, write

TOOL, SHARER, PLANS, READERS, NAMED, RUST = (f"{TOP}/tests/clib/{it}" for it in ("tool.c", "shared.c", "plans.c", "readers.c", "names.c", "safe.rs"))
VERSION_OF_NAMES = "NLOG_0.2"
# The calls which a driver writes down, or counts (clib_steps.py).
RECORDED = ["fsync", "ftruncate64", "write", "openat64", "unlinkat", "renameat", "flock", "fchmod", "close", "fstat64", "fstatat64", "mmap64", "munmap", "malloc", "calloc", "free",
            "carried_written", "carried_sync"]
SANITIZED = ["-fsanitize=address,undefined", "-fno-sanitize-recover=all"]


def build(trials, room):
    """The driver by the names of how it was built, the tool, and the shared object."""
    archive, made = f"{room}/libnlog.a", {}
    ran = run([f"{TOP}/lib/archive.sh", archive], stdout=subprocess.PIPE, stderr=subprocess.STDOUT, capture_output=False, timeout=BUILD_SECONDS)
    if not trials.check("lib/archive.sh makes the archive", ran[0] == 0, (ran[1] or b"")[-800:].decode(errors="replace")):
        return made
    proved = run([f"{TOP}/lib/proved.sh", "nl_c", "x86_64"], timeout=BUILD_SECONDS)[1].decode().strip()
    run(["objcopy", f"--redefine-syms={TOP}/lib/proved.names", proved, f"{room}/proved.a"])
    parts = [*sorted(glob(f"{TOP}/lib/*.c")), f"{room}/proved.a"]
    ways = [
        ("C11", ["cc", "-std=c11", "-O2", *STRICT, DRIVER, archive]),
        ("C++17", ["c++", "-x", "c++", "-std=c++17", *STRICT, DRIVER, "-x", "none", archive]),
        ("sanitized", ["cc", "-std=c11", "-g", *SANITIZED, *STRICT, DRIVER, *parts]),
        ("refused", ["cc", "-std=c11", "-DREFUSES", "-Wl,--wrap=malloc,--wrap=realloc,--wrap=calloc,--wrap=free", *STRICT, DRIVER, archive]),
        ("steps", ["cc", "-std=c11", "-O2", "-DRECORDS", f"-Wl,{','.join(f'--wrap={it}' for it in RECORDED)}", *STRICT, DRIVER, *parts]),
        ("timeless", ["cc", "-std=c11", "-O2", "-DTIMELESS", "-Wl,--wrap=fstat64,--wrap=fstatat64", *STRICT, DRIVER, archive]),
        ("tool", ["cc", "-std=c11", "-O2", *STRICT, TOOL, archive]),
        ("sharer", ["cc", "-std=c11", "-g", *SANITIZED, *STRICT, SHARER, *parts] if sanitizes(room) else ["cc", "-std=c11", *STRICT, SHARER, archive]),
        ("plans", ["cc", "-std=c11", "-O2", *STRICT, PLANS, archive]),
        ("names", ["cc", "-std=c11", "-O2", *STRICT, NAMED, archive]),
        ("readers", ["cc", "-std=c11", "-g", *STRICT, "-Wl,--wrap=sigprocmask", READERS, "-pthread", archive]),
        ("without pthread_sigmask", ["cc", "-std=c11", "-no-pie", *STRICT, "-Wl,--defsym=pthread_sigmask=0", DRIVER, archive]),
        ("readers by threads", ["cc", "-std=c11", "-g", "-fsanitize=thread", *STRICT, READERS, *parts, "-pthread"]),
        ("rust", ["rustc", "--edition", "2021", "-D", "warnings", "-L", room, "-l", "static=nlog", RUST]),
    ]
    for name, words in ways:
        if shutil.which(words[0]) is None:
            trials.skip(f"the driver as {name}", f"{words[0]} isn't there")
            continue
        if name == "sanitized" and not sanitizes(room):
            trials.skip("the driver under AddressSanitizer", "it isn't there")
            continue
        if name == "readers by threads" and not sanitizes(room, ["-fsanitize=thread"]):
            trials.skip("readers under ThreadSanitizer", "it isn't there")
            continue
        ran = run([*words, "-o", f"{room}/{name}"])
        if trials.check(f"the driver is built as {name} without a warning", ran[0] == 0 and not ran[2], ran[2][-800:].decode(errors="replace")):
            made[name] = f"{room}/{name}"
    made["shared"], made["archive"] = f"{room}/libnlog.so", archive
    return made


def prototypes(trials, room):
    """Each file of the library's C, by each compiler, with the warnings that show a function which its own header doesn't declare."""
    warnings = ["-Wall", "-Wextra", "-Wpedantic", "-Wmissing-prototypes", "-Wstrict-prototypes", "-Werror", "-I", f"{TOP}/include"]
    for compiler in filter(shutil.which, ("gcc", "clang", "musl-gcc", "aarch64-linux-gnu-gcc")):
        for part in sorted(glob(f"{TOP}/lib/*.c")):
            ran = run([compiler, "-std=c11", "-O2", *warnings, "-c", part, "-o", f"{room}/part.o"])
            trials.check(f"{os.path.basename(part)} by {compiler}, without a warning", ran[0] == 0 and not ran[2], ran[2][-800:].decode(errors="replace"))


def names(trials, room):
    """The names of the archive and of the shared object: those of the header, and no other. The writer's own calls are local."""
    own = {it for it in exported() if it.startswith("carried_")}
    inner = set(re.findall(r"(?m) t (carried_\w+)$", run(["nm", f"{room}/libnlog.a"])[1].decode()))
    trials.want("the writer's own calls, in the archive", inner, own)
    for path, words in ((f"{room}/libnlog.a", ["-g"]), (f"{room}/libnlog.so", ["-D"])):
        said = run(["nm", *words, "--defined-only", path])[1].decode()
        found = {it.partition("@")[0] for it in re.findall(r"(?m) [A-Za-z] (\S+)$", said)} - {VERSION_OF_NAMES}
        trials.want(f"the names of {os.path.basename(path)}", found, declared() | {"nlog_status_name"})
    links = {it: os.readlink(f"{room}/{it}") for it in ("libnlog.so", "libnlog.so.0")}
    trials.want("the links of the shared object", links, dict.fromkeys(links, "libnlog.so.0.2.0"))
    if shutil.which("objdump"):
        said = run(["objdump", "-p", f"{room}/libnlog.so"])[1].decode()
        found = re.findall(r"(?m)^ +(SONAME|NEEDED) +(\S+)", said)
        said = run(["objdump", "-T", f"{room}/libnlog.so"])[1].decode()
        trials.want("the versions of its names", set(re.findall(r"(?m) (\S+) +nlog_\w+$", said)), {VERSION_OF_NAMES})
        trials.want("what the shared object is called and needs", found, [("NEEDED", "libc.so.6"), ("SONAME", "libnlog.so.0")])


def exported():
    """The functions that the proved part exports."""
    sources = [read(f"{TOP}/crates/nl_c/src/{it}").decode() for it in sorted(os.listdir(f"{TOP}/crates/nl_c/src"))]
    return {it for source in sources for it in re.findall(r'pub extern "C" fn (\w+)', source)}


def declared():
    """The functions that the header declares."""
    return set(re.findall(r"(?m)^\w[\w *]*?(nlog_\w+)\([^;{]*\);", read(f"{TOP}/include/nlog.h").decode()))


def sanitizes(room, how=SANITIZED):
    write(f"{room}/empty.c", b"int main(void) { return 0; }\n")
    return run(["cc", *how, f"{room}/empty.c", "-o", f"{room}/empty"])[0] == 0 and run([f"{room}/empty"])[0] == 0


def linked(trials, made, room):
    """The driver by each compiler that is there, over the archive and over the shared object."""
    for compiler in ("gcc", "clang"):
        if shutil.which(compiler) is None:
            trials.skip(f"the driver by {compiler}", "it isn't there")
            continue
        for how, libraries in (("archive", [f"{room}/libnlog.a"]), ("shared object", [f"-L{room}", f"-Wl,-rpath,{room}", "-lnlog"])):
            ran = run([compiler, "-std=c11", *STRICT, DRIVER, *libraries, "-o", f"{room}/linked"])
            trials.check(f"{compiler} links the {how} without a warning", ran[0] == 0 and not ran[2], ran[2][-800:].decode(errors="replace"))
            trials.want(f"and that by {compiler} over the {how} runs", run([f"{room}/linked", "misuse"]), (0, b"done\n", b""))


# ---- A log in memory ----


def logs():
    """Logs, and texts that are none, by what is said of them."""
    odd = [b"\xff\xfe", b" ", b"a b", b"\r", b"x" * MAX_NAME, "ü".encode(), b"a\x01"]
    entries = b"".join(line_of(name, (-(2**31) + i, 2**31 - 1 - i, -(2**63) + i if i % 2 else 2**63 - 1, 2**64 - 1 - i)) for i, name in enumerate(odd))
    many = b"".join(line_of(b"out%d" % (i % 997), (i, i + 1, i * 7, i)) for i in range(2000))
    yield "a good log", HEADER + A + B + b"7\t8\t9\ta\tcc\n"
    yield "a torn log", HEADER + A + b"4\t5\t6\tb"
    yield "a torn hash, which would be an entry", HEADER + A + B[:-1]
    yield "skipped lines", HEADER + b"\n" + A + b"01\t2\t3\tx\taa\n1\t2\t3\tx\tAA\n" + B + b"1\t2\t3\t" + b"x" * (MAX_NAME + 1) + b"\taa\n"
    yield "odd names and the ends of each number", HEADER + entries
    yield "many lines, which are not due", HEADER + many
    yield "a due log", HEADER + A * 101 + B
    yield "one line fewer than due", HEADER + A * 100
    yield "a log of version 4", b"# ninja log v4\n1\t2\t3\ta\tcc x.c\n4\t5\t6\tb\t\n"
    for version in (6, 7):
        yield f"a log of version {version}", as_version(HEADER, version) + A + B + b"5\t5\t5\t5\t5\n"
        yield f"a torn first line of version {version}", as_version(HEADER, version)[:-1]
        yield f"version {version} with more digits", as_version(HEADER[:-1], version) + b"5\n" + A
    yield "no bytes", b""
    yield "a part of the first line", HEADER[:9]
    yield "the first line less its digit", HEADER[:13]
    yield "the first line alone", HEADER
    yield "another version", b"# ninja log v8\n" + A
    yield "version 50", b"# ninja log v50\n" + A
    yield "version 6 and a carriage return", b"# ninja log v6\r\n" + A
    yield "a foreign text", b"hello, world\n" + A
    yield "a foreign text with a digit at its place", b"hello, world!6\n" + A
    yield "zero bytes", bytes(100)
    yield "a short first line with a digit behind it", b"# ninja log\nv6\n"


def said_of(text, names):
    """What the driver prints of a text."""
    version = version_seen(text)
    seen = as_version(text, version)
    said = [STATUS[reading_of(seen)].encode() + b"\n"]
    if said == [b"NLOG_OK\n"]:
        log = Log(seen)
        counts = (log.version if version == 5 else version, log.total, len(log.table), log.skipped, log.whole, log.torn)
        said += [b"%d %d %d %d %d %d " % counts + (b"yes\n" if log.is_due() else b"no\n"), log.shown()]
        for name in reversed(names):
            found = log.table.get(name)
            said.append(name + (b" NLOG_NOT_FOUND\n" if found is None else b" NLOG_OK %d\n" % found[2]))
    return b"".join(said)


def reads(trials, made, room):
    names = [b"a", b"b", b"out996", b"5", b"nothing", b"aa"]
    for what, text in logs():
        path = f"{room}/read.log"
        write(path, text)
        for way, driver in drivers(made):
            trials.want(f"{what} by {way}", run([*driver, "read", path, *names]), (0, said_of(text, names), b""))
    # Each prefix of a log, of which some end in its first line.
    text = as_version(HEADER, 7) + A + B
    for at in range(len(text)):
        write(path, text[:at])
        trials.want(f"a prefix of {at} bytes", run([made["C11"], "read", path]), (0, said_of(text[:at], []), b""))


def hashes(trials, made, room):
    path, chance = f"{room}/command", random.Random(7)
    for len_ in [*range(70), 255, 4096]:
        command = bytes(chance.randrange(256) for _ in range(len_))
        write(path, command)
        wanted = b"%x %x\n" % (command_hash(command), command_hash_v7(command))
        trials.want(f"the hashes of {len_} bytes", run([made["C11"], "hash", path]), (0, wanted, b""))


def lines(trials, made, room):
    """One line by itself, of each version."""
    odd = [b"", b"1\t2\t3\ta", b"1\t2\t3\ta\tAA", b"01\t2\t3\ta\taa", b"1\t2\t3\ta\tb\taa", b"1\t2\t3\t\taa", b"1\t2\t3\t" + b"n" * (MAX_NAME + 1) + b"\taa",
           b"1\t2\t9223372036854775808\ta\taa", b"2147483648\t2\t3\ta\taa", b"1\t2\t3\ta\t" + b"x" * 262144]
    good = [A[:-1], B[:-1], b"-2147483648\t2147483647\t-9223372036854775808\t" + b"n" * MAX_NAME + b"\tffffffffffffffff", b"1\t2\t3\ta b\t0", b"1\t2\t3\ta\tcc x.c\ty"]
    for line in odd + good:
        write(f"{room}/line", line)
        for version in (4, 5, 6, 7):
            entry = entry_of(line, 4 if version == 4 else 5)
            wanted = b"NLOG_NOT_FOUND\n" if entry is None else b"NLOG_OK " + line_of(*entry)
            trials.want(f"the line {line[:40]!r} of version {version}", run([made["C11"], "line", str(version), f"{room}/line"]), (0, wanted, b""))


def damaged(chance):
    """Logs with lines that are no entries: parts of lines, lines behind a part, zero bytes, long ones."""
    yield HEADER + A[:-4] + B + A[:7] + B + b"\0\0\0\0" + A + b"\n" + b"\t\t\t\t\n" + B[:-1]
    yield HEADER + A + b"x" * MAX_LINE + b"\n" + b"y" * (MAX_LINE + 1) + b"\n" + B + b"z" * (MAX_LINE + 1)
    yield HEADER + b"5\t" * 70000 + b"1\t2\t3\tlast\taa\n" + A + b"9" * (MAX_LINE - len(A) + 1) + A[:-1]
    yield HEADER + b"\t2\t3\ta\taa\n" + b"a\t2\t3\ta\taa\n" + b"-1\t2\t3\ta\taa\n" + b"1\t2\t3\t-\taa\taa\n" + b"01\t2\t3\tb c\taa"
    yield HEADER + b"x" * MAX_LINE + A + A + b"9" * MAX_LINE + A[:-1]
    yield HEADER + b"x1\t2\t3\tone digit\ta\n" + b"x1\t2\t3\tno digit\t\n"
    yield b"# ninja log v4\n1\t2\t3\ta\tcc\tx.c\n1\t2\t3\ta\n4\t51\t2\t3\tb\tcc x.c\n4\t5\t6\tb\tcc"
    for _ in range(300):
        parts = [line_of(b"out%d" % chance.randrange(9), (chance.randrange(99), chance.randrange(99), chance.randrange(-9, 99), chance.randrange(2**64))) for _ in range(9)]
        for at in range(len(parts)):
            if chance.random() < 0.4:
                low, high = sorted(chance.randrange(len(parts[at]) + 1) for _ in range(2))
                parts[at] = chance.choice([parts[at][:high], parts[at][low:], parts[at][:low] + parts[at][high:], parts[at] + b"\n", parts[at].replace(b"\t", b"", 1)])
        yield as_version(HEADER, chance.choice([5, 6, 7])) + b"".join(parts)


def damage(trials, made, program, room):
    """Each line that is no entry, as the page of `nlog damage` has it, and as PROGRAM prints it."""
    path, known, distrusted = f"{room}/damaged.log", 0, 0
    for text in [*(text for _, text in logs()), *damaged(random.Random(5))]:
        write(path, text)
        status = STATUS[reading_of(as_version(text, version_seen(text)))]
        wanted = damage_of(text) if status == "NLOG_OK" else status.encode() + b"\n"
        for way, driver in drivers(made):
            trials.want(f"the damage of {text[:60]!r} by {way}", run([*driver, "damage", path]), (0, wanted, b""))
            found = distrusted_of(text) if status == "NLOG_OK" else wanted
            trials.want(f"what can't be trusted of {text[:60]!r} by {way}", run([*driver, "distrusted", path]), (0, found, b""))
        if status == "NLOG_OK":
            known += wanted.count(b"\n")
            distrusted += found.count(b"\n")
            trials.want(f"that of {text[:60]!r} by the program", run([program, "damage", path]), (3 if wanted else 0, wanted, b""))
    trials.check("many lines are told", known > 600, str(known))
    trials.check("many outputs can't be trusted", distrusted > 50, str(distrusted))


def misuse(trials, made, room):
    for way, driver in drivers(made):
        trials.want(f"handles that hold no log, and short buffers, by {way}", run([*driver, "misuse"]), (0, b"done\n", b""))
    path = f"{room}/valgrind.log"
    write(path, HEADER + b"".join(line_of(b"out%d" % i, (i, i, i, i)) for i in range(300)) + b"1\t2")
    if "refused" in made:
        trials.want("memory that is refused at each place of a load", run([made["refused"], "refuse", path]), (0, b"done\n", b""))
    if shutil.which("valgrind") is None:
        trials.skip("reads and leaks under valgrind", "valgrind isn't there")
        return
    asks = "\n".join(["open", f"record 1 2 3 aa {b'a'.hex()}", f"dead {b'out7'.hex()}", f"time 5 {b'a'.hex()}", "recompact", "restat", "at 0", "sync", "close", "look", "find 61", "close", "look", "record 1 2 3 aa 61", "close", "look", "free", "open"])
    for words in (["misuse"], ["read", path, "out7"], ["write", f"{room}/valgrind-write.log", "0"]):
        # No block may be left at the end, reachable or not.
        ran = run(["valgrind", "-q", "--error-exitcode=9", "--leak-check=full", "--show-leak-kinds=all", "--errors-for-leak-kinds=all", made["C11"], *words], input=asks.encode() + b"\n", stdin=None)
        trials.check(f"{words[0]} under valgrind", ran[0] == 0 and not ran[2], ran[2][-600:].decode(errors="replace"))


def large(trials, made, room):
    """Beyond sizes at which a body could stop that only small logs try: entries of a load, bytes of an open, records to one log."""
    log, count = f"{room}/large.log", 8_000_001
    with open(log, "wb") as it:
        it.write(HEADER)
        for first in range(0, count, 100_000):
            it.write(b"".join(b"1\t2\t3\t%d\taa\n" % i for i in range(first, min(first + 100_000, count))))
    trials.want(f"a load of {count} outputs", run([made["C11"], "large", log, "0"]), (0, b"%d\n" % count, b""))
    names = [b"%d" % i + LONG[: MAX_NAME - 6] for i in range(1100)]
    text = HEADER + b"".join(line_of(name, (1, 2, 3, 0xAA)) for name in names)
    lines = b"".join(b"%d\t%d\t0\tmore\taa\n" % (i, i) for i in range(200_001))
    write(log, text)
    said = run([made["C11"], "large", log, "200001"])
    trials.check("a log of more than 64 MiB", len(text) > 64 << 20, len(text))
    trials.want("it is opened, and takes 200,001 records", said, (0, b"%d\n" % len(names), b""))
    trials.check("the log then", read(log) == text + lines)
    os.remove(log)


class Handle(ctypes.Structure):
    _fields_ = [("made", ctypes.c_uint64), ("at", ctypes.c_void_p)]


class Entry(ctypes.Structure):
    _fields_ = [("start_ms", ctypes.c_int32), ("end_ms", ctypes.c_int32), ("mtime", ctypes.c_int64), ("hash", ctypes.c_uint64)]


def by_ctypes(trials, made, room):
    """The shared object, as a script in Python has it."""
    if "shared" not in made:
        return
    try:
        library = ctypes.CDLL(made["shared"])
    except OSError as why:
        trials.skip("the shared object by ctypes", why)
        return
    size, log, entry, count = ctypes.c_size_t, Handle(), Entry(), ctypes.c_size_t(9)
    library.nlog_command_hash.restype = library.nlog_command_hash_v7.restype = ctypes.c_uint64
    text = HEADER + A + B
    trials.want("ctypes: a handle of zeros", library.nlog_count(ctypes.byref(log), ctypes.byref(count)), 1)
    trials.want("ctypes: a load", library.nlog_load(ctypes.byref(log), text, size(len(text))), 0)
    trials.want("ctypes: the count", (library.nlog_count(ctypes.byref(log), ctypes.byref(count)), count.value), (0, 2))
    found = library.nlog_find(ctypes.byref(log), b"b", size(1), ctypes.byref(entry))
    trials.want("ctypes: an entry", (found, entry.start_ms, entry.end_ms, entry.mtime, entry.hash), (0, 4, 5, 6, 0xBB))
    trials.want("ctypes: no entry", library.nlog_find(ctypes.byref(log), b"c", size(1), ctypes.byref(entry)), 5)
    trials.want("ctypes: a hash", library.nlog_command_hash(b"cc x.c", size(6)), command_hash(b"cc x.c"))
    if trials.check("ctypes: the library names a status", hasattr(library, "nlog_status_name")):
        library.nlog_status_name.restype = ctypes.c_char_p
        trials.want("ctypes: the names of statuses", [library.nlog_status_name(it) for it in (0, 5, 14, 15)], [b"NLOG_OK", b"NLOG_NOT_FOUND", b"NLOG_FORKED", b"NLOG_?"])
    library.nlog_free(ctypes.byref(log))
    trials.want("ctypes: a handle that was freed", library.nlog_count(ctypes.byref(log), ctypes.byref(count)), 1)
    # The writer.
    writer, path = ctypes.c_void_p(), f"{room}/ctypes.log"
    write(path, HEADER + A)
    entry = Entry(4, 5, 6, 0xBB)
    trials.want("ctypes: a writer", library.nlog_writer_new(ctypes.byref(writer), path.encode(), ctypes.c_uint32(0)), 0)
    trials.want("ctypes: a record before an open", library.nlog_writer_record(writer, b"b", size(1), ctypes.byref(entry)), 7)
    trials.want("ctypes: an open", library.nlog_writer_open(writer), 0)
    trials.want("ctypes: a record", library.nlog_writer_record(writer, b"b", size(1), ctypes.byref(entry)), 0)
    trials.want("ctypes: the count of the writer", (library.nlog_writer_count(writer, ctypes.byref(count)), count.value), (0, 2))
    trials.want("ctypes: a close", library.nlog_writer_close(writer), 0)
    library.nlog_writer_free(ctypes.byref(writer))
    trials.want("ctypes: the writer is gone", writer.value, None)
    trials.want("ctypes: the log", read(path), HEADER + A + B)


def header(trials, program):
    """That the header has each export but the writer's own, and no more, and the numbers of the statuses those of the code; that the page has each field
    of its structs; and that the program says the header's version."""
    text = read(f"{TOP}/include/nlog.h").decode()
    proved = {it for it in exported() if not it.startswith("carried_")}
    c_parts = "".join(read(f"{TOP}/lib/{it}").decode() for it in ("writer.c", "nlog_reads.c", "nlog_damage.c"))
    written = set(re.findall(r"(?m)^\w[\w *]*?(nlog_(?:writer_\w+|load_file|load_file_distrusted|next_damage))\(", c_parts))
    own = set(re.findall(r"(?m)^nlog_status (carried_\w+)\(", read(f"{TOP}/lib/writer.h").decode()))
    trials.want("the functions that the writer alone has", own, exported() - proved)
    trials.want("the functions that the header declares", declared(), proved | written)
    numbers = {name: int(number) for name, number in re.findall(r"NLOG_(\w+) = (\d+),", text)}
    statuses = {name: int(number) for name, number in re.findall(r"const (\w+): u32 = (\d+);", read(f"{TOP}/crates/nl_c/src/status.rt").decode())}
    trials.want("the numbers of the statuses", {name: numbers.get(name) for name in statuses}, statuses)
    version = int(re.search(r"#define NLOG_VERSION (\d+)", text)[1])
    said = f"{version // 1000000}.{version // 1000 % 1000}.{version % 1000}"
    trials.want("the version", said, re.search(r"\n## The library for C (\d+\.\d+\.\d+)", read(f"{TOP}/CHANGELOG.md").decode())[1])
    trials.want("the program's version", run([program, "--version"]), (0, f"nlog {said}\n".encode(), b""))
    page = read(f"{TOP}/docs/LIBRARY.md").decode().partition("\n## The structs\n")[2].partition("\n## ")[0]
    page = dict(re.findall(r"(?s)\n- `(nlog\w*)`: (.*?)(?=\n- |\Z)", page))
    structs = re.findall(r"(?s)typedef struct (\w+) \{\n(.*?)\n\} \1;", text)
    trials.want("the structs on the page", list(page), [name for name, _ in structs])
    for name, body in structs:
        fields = re.findall(r"(\w+)[,;]", re.sub(r"(?s)/\*.*?\*/", "", body))
        trials.want(f"the fields of {name} on the page", re.findall(r"`([a-z]\w*)`", page.get(name, "")), fields)


def pages(trials, room):
    """The programs in C of docs/LIBRARY.md, as they stand there: the first one is a build tool, whose log its next run reads."""
    os.mkdir(f"{room}/pages")
    write(f"{room}/pages/in.txt", b"hello\n")
    blocks = re.findall(r"(?s)```c\n(.*?)```", read(f"{TOP}/docs/LIBRARY.md").decode())
    printed = [b"made a.txt\n", b"a.o: another command\na.o\nb.o\n", b"line 2 is no entry, distrust b.o\nline 3 is torn\n"]
    trials.want("the number of examples", len(blocks), len(printed))
    for i, (block, wanted) in enumerate(zip(blocks, printed)):
        path = f"{room}/page{i}"
        write(f"{path}.c", block.encode())
        ran = run(["cc", "-std=c11", *STRICT, f"{path}.c", f"{room}/libnlog.a", "-o", path])
        if trials.check(f"example {i} is built", ran[0] == 0 and not ran[2], ran[2][-800:].decode(errors="replace")):
            trials.want(f"example {i}", run([path], cwd=f"{room}/pages"), (0, wanted, b""))
        if shutil.which("c++"):
            ran = run(["c++", "-x", "c++", "-std=c++17", *STRICT, "-c", f"{path}.c", "-o", f"{path}.o"])
            trials.check(f"example {i} is C++ too", ran[0] == 0 and not ran[2], ran[2][-800:].decode(errors="replace"))
    log, command = f"{room}/pages/.ninja_log", b"cat in.txt > a.txt"
    wants_entry_of(trials, "the first", log, b"a.txt", command)
    trials.want("it made its output", read(f"{room}/pages/a.txt"), b"hello\n")
    before = read(log)
    trials.want("its next run", run([f"{room}/page0"], cwd=f"{room}/pages"), (0, b"nothing to do\n", b""))
    trials.want("that leaves the log", read(log), before)
    # An output whose record was lost is made again; a command that fails is told, and a file that does with its call.
    write(log, before.replace(b"\ta.txt\t", b"\t"))
    trials.want("a damaged log", run([f"{room}/page0"], cwd=f"{room}/pages"), (0, b"made a.txt\n", b""))
    changes_meanwhile(trials, f"{room}/page0", f"{room}/pages")
    os.remove(log)
    os.remove(f"{room}/pages/in.txt")
    ended = run([f"{room}/page0"], cwd=f"{room}/pages")
    trials.want("a command that fails", (ended[0], ended[1], ended[2].endswith(b"failed: cat in.txt > a.txt\n")), (1, b"", True))
    trials.want("its log has no entry that any command passes for", read(log), HEADER)
    os.remove(log)
    os.mkdir(log)
    trials.want("a file that fails", run([f"{room}/page0"], cwd=f"{room}/pages"), (1, b"", b"open: a file failed: .ninja_log: fstat: Is a directory\n"))


def changes_meanwhile(trials, tool, folder):
    """An input that changes while the command runs, before its output is written or later: the tool makes the output again, and so does Ninja."""
    commands, manifest = f"{folder}/commands", b"rule cat\n  command = cat in.txt > a.txt\nbuild a.txt: cat in.txt\n"
    os.mkdir(commands)
    write(f"{folder}/build.ninja", manifest)
    env = {**os.environ, "PATH": f"{commands}:{os.environ.get('PATH', os.defpath)}"}
    change = "sleep 0.05; echo later > in.txt"
    for when, script in (("behind", f'/bin/cat "$@"; {change}'), ("before", f'/bin/cat "$@" > text; {change}; sleep 0.05; /bin/cat text')):
        for again in (["ninja"], [tool]):
            what = f"an input that changes {when} its command's end, and {os.path.basename(again[0])[:5]}"
            if shutil.which(again[0]) is None:
                trials.skip(what, "it isn't there")
                continue
            for it in (".ninja_log", "a.txt"):
                if os.path.exists(f"{folder}/{it}"):
                    os.remove(f"{folder}/{it}")
            write(f"{folder}/in.txt", b"hello\n")
            time.sleep(0.05)
            trials.want(f"{what}: made", run([tool], cwd=folder)[:2], (0, b"made a.txt\n"))
            said = run(again, cwd=folder)
            trials.check(f"{what}: nothing to do", b"no work to do" in said[1] or said[1] == b"nothing to do\n", said)
            write(f"{commands}/cat", f"#!/bin/sh\n{script}\n".encode())
            os.chmod(f"{commands}/cat", 0o755)
            os.remove(f"{folder}/a.txt")
            trials.want(f"{what}: made beside the change", run([tool], cwd=folder, env=env)[:2], (0, b"made a.txt\n"))
            os.remove(f"{commands}/cat")
            trials.want(f"{what}: of the input before", (read(f"{folder}/a.txt"), read(f"{folder}/in.txt")), (b"hello\n", b"later\n"))
            trials.want(f"{what}: it is made again", run(again, cwd=folder)[0], 0)
            trials.want(f"{what}: of the input now", read(f"{folder}/a.txt"), b"later\n")


def wants_entry_of(trials, about, log, name, command):
    """The log's last line is the entry of a command that made this output just now."""
    lines = (read(log) or b"").split(b"\n")
    found = entry_of(lines[-2], 5) if len(lines) > 2 else None
    trials.want(f"{about}: the entry of {name}", found and (found[0], found[1][3]), (name, command_hash(command)))
    trials.check(f"{about}: its times", bool(found) and found[1][0] <= found[1][1] < 60_000 and abs(found[1][2] // 10**9 - time.time()) < 600, str(found))


# ---- A log on disk ----

# Names that a log can't hold.
NAMES = [b"", b"a\tb", b"a\nb", b"a\0b", b"n" * (MAX_NAME + 1)]
# Lines that ask for intents, for a command of the hash cc, and the lines of these: the hash has each of its 64 bits turned over.
BEGIN_A, BEGIN_A_AGAIN = f"begin 7 0 0 cc {hexed(b'a')}", f"begin 8 0 0 cc {hexed(b'a')}"
INTENT_A, INTENT_B = (b"7\t7\t0\t%s\tffffffffffffff33\n" % it for it in (b"a", b"b"))
PLAN = f"plan 7 0 0 cc {hexed(b'a', b'none', b'b')}"
E = b"-9\t-9\t0\ta\tffffffffffffff32\n"

# Numbers of versions that aren't read, and as which they are told.
OTHERS = [(b"1", 1), (b"8", 8), (b"50", 50), (b"0", 0), (b"05", 0), (b"007", 0), (b"%d" % (2**64 - 1), 2**64 - 1), (b"%d" % 2**64, 2**64 - 1), (b"1" + b"0" * 20, 2**64 - 1), (b"9" * 300, 2**64 - 1)]
# A log, the version that is asked for, lines to the writer, what each is answered, and the log that is left.
TURNS = [
    (None, 0, ["open", "version", "rewrote", "is_open", "close", "is_open"], ["OK", "OK 5", "OK 0", "OK 1", "OK", "OK 0"], HEADER),
    (None, 7, ["open", "version", "close"], ["OK", "OK 7", "OK"], V7),
    (None, 6, ["open", RECORD, "close"], ["OK", "OK", "OK"], b"# ninja log v6\n" + A),
    (None, 4, ["open", "is_open", "close"], ["OTHER_VERSION", "NO_HANDLE", "NO_HANDLE", "NO_HANDLE"], None),
    (None, 8, ["open"], ["OTHER_VERSION", "NO_HANDLE"], None),
    (b"", 0, ["open", "close"], ["OK", "OK"], HEADER),
    (HEADER[:7], 0, ["open", "version", "close"], ["OK", "OK 5", "OK"], HEADER),
    (V7[:-1], 0, ["open", "version", "close"], ["OK", "OK 7", "OK"], V7),
    # Before an open, after a close, and twice.
    (HEADER, 0, [RECORD, f"edge 1 2 3 aa {hexed(b'a')}", "sync", "recompact", "restat", "count", FIND, "at 0", "version", "rewrote", "close", "open", "open", "close", "close", RECORD, "free", "open"],
     ["NOT_OPEN"] * 11 + ["OK", "ALREADY_OPEN", "OK", "NOT_OPEN", "NOT_OPEN", "OK", "NO_HANDLE"], HEADER),
    (None, 0, ["open", RECORD, FIND, f"find {hexed(b'b')}", "count", "at 0", "at 1", "sync", "close"],
     ["OK", "OK", "OK 1 2 3 aa", "NOT_FOUND", "OK 1", "OK 1 2 3 aa 61", "NOT_FOUND", "OK", "OK"], HEADER + A),
    (HEADER + A + b"4\t5", 0, ["open", f"edge 4 5 6 bb {hexed(b'b')}", f"record -1 0 -5 ffffffffffffffff {hexed(b'd')}", f"find {hexed(b'd')}", "close"],
     ["OK", "OK", "OK", "OK -1 0 -5 ffffffffffffffff", "OK"], HEADER + A + B + D),
    (HEADER, 0, ["open", f"edge 1 2 3 aa {hexed(b'x', b'y', b'z')}", "edge 1 2 3 aa", "count", "close"], ["OK", "OK", "OK", "OK 3", "OK"],
     HEADER + b"".join(b"1\t2\t3\t%s\taa\n" % it for it in (b"x", b"y", b"z"))),
    # The intents of a command's outputs, of which one has no entry; then they are there, and the command has run for one of them.
    (HEADER + A + B, 0, [BEGIN_A, "open", f"begin 7 0 0 cc {hexed(b'a', b'none', b'b')}", FIND, f"begin 8 0 0 cc {hexed(b'b', b'a')}", "begin 7 0 0 cc", f"record 4 5 6 cc {hexed(b'b')}",
                         f"begin 7 0 0 cc {hexed(b'a', NAMES[1])}", "close"],
     ["NOT_OPEN", "OK", "OK", "OK 7 7 0 ffffffffffffff33", "OK", "OK", "OK", "BAD_NAME", "OK"], HEADER + A + B + INTENT_A + INTENT_B + b"4\t5\t6\tb\tcc\n"),
    # An intent of another moment stands, and one for another command takes its place.
    (HEADER + A, 0, ["open", BEGIN_A, BEGIN_A_AGAIN, f"begin -9 0 0 cd {hexed(b'a')}", *[f"begin 7 0 0 cc {hexed(it)}" for it in NAMES], "count", "close"],
     ["OK", "OK", "OK", "OK", *["BAD_NAME"] * 5, "OK 1", "OK"], HEADER + A + INTENT_A + E),
    # A plan, of which one name has no entry; what is withdrawn of it, once; and one name that was recorded since.
    (HEADER + A + B, 0, [PLAN, "open", PLAN, FIND, "withdraw", f"record 4 5 6 cc {hexed(b'b')}", f"withdraw {hexed(b'b', b'a', b'none')}", f"withdraw {hexed(b'a')}",
                         f"plan 7 0 0 cc {hexed(b'a', NAMES[1])}", "plan 7 0 0 cc", "close"],
     ["NOT_OPEN", "OK", "OK 11 1 2 3 aa 00 11 4 5 6 bb", "OK 7 7 0 ffffffffffffff33", "OK 0", "OK", "OK 1", "OK 0", "BAD_NAME", "OK", "OK"],
     HEADER + A + B + INTENT_A + INTENT_B + b"4\t5\t6\tb\tcc\n" + A),
    # The longest name, by each call that takes one.
    (HEADER + line_of(LONG, (1, 2, 3, 0xAA)), 0, ["shared", "open", f"begin 7 0 0 cc {hexed(LONG)}", f"plan 8 0 0 cc {hexed(LONG)}", f"withdraw {hexed(LONG)}", f"plan 8 1 0 cc {hexed(LONG)}",
                                                  f"record 4 5 6 bb {hexed(LONG)}", f"find {hexed(LONG)}", "sync", f"find {hexed(LONG)}", f"time 9 {hexed(LONG)}", "restat", f"edge 4 5 6 bb {hexed(LONG, b'a')}",
                                                  f"dead {hexed(LONG)}", "recompact", "close"],
     ["OK", "OK", "OK", "OK 11 7 7 0 ffffffffffffff33", "OK 1", "OK 11 7 7 0 ffffffffffffff33", "OK", "OK 8 8 0 ffffffffffffff33", "OK", "OK 4 5 6 bb", *["OK"] * 6], HEADER + b"4\t5\t6\ta\tbb\n"),
    # An intent is planned over too, and one is written anew where that is asked for. A rewriting ends each plan.
    (HEADER + A + INTENT_A, 0, ["open", BEGIN_A_AGAIN, f"plan 8 1 0 cc {hexed(b'a', b'none')}", "recompact", f"withdraw {hexed(b'a')}", "close"],
     ["OK", "OK", "OK 11 7 7 0 ffffffffffffff33 01", "OK", "OK 0", "OK"], HEADER + b"".join(b"8\t8\t0\t%s\tffffffffffffff33\n" % it for it in (b"a", b"none"))),
    # Marks: a recompaction uses up those of the dead and leaves those of times, of which the last of a name counts; an open uses up those of names
    # that the log lacks.
    (HEADER + A + B, 0, [f"dead {hexed(b'a', b'nothing')}", "open", f"time 8 {hexed(b'b')} 7 {hexed(b'b')}", "recompact", RECORD, "recompact", "restat", "close"],
     ["OK"] * 8, HEADER + b"4\t5\t7\tb\tbb\n" + A),
    (HEADER + A, 0, [f"dead {hexed(b'b')}", "open", f"record 4 5 6 bb {hexed(b'b')}", "recompact", "count", f"dead {hexed(b'b')}", "recompact", "count", "close"],
     ["OK", "OK", "OK", "OK", "OK 2", "OK", "OK", "OK 1", "OK"], HEADER + A),
    (HEADER + A, 0, ["open", f"time 8 {hexed(b'b')} 5 {hexed(b'a')} -1 {hexed(b'a')} -2 {hexed(b'c')}", "restat", "close"],
     ["OK", "OK", "NEGATIVE_TIME 2", "OK"], HEADER + A),
    (HEADER, 0, [f"check {hexed(it)}" for it in [*NAMES, b"n" * MAX_NAME]], [*["BAD_NAME"] * 5, "OK"], HEADER),
    (HEADER, 0, ["open", *[f"dead {hexed(it)}" for it in NAMES], *[f"time 5 {hexed(it)}" for it in NAMES], "close"], ["OK", *["BAD_NAME"] * 10, "OK"], HEADER),
    # A name that a log can't hold is refused, and no line of its edge is written.
    (HEADER, 0, ["open", *[f"record 1 2 3 aa {hexed(it)}" for it in NAMES], f"edge 1 2 3 aa {hexed(b'a', NAMES[2])}", f"dead {hexed(b'')}", f"time 5 {hexed(NAMES[1])}", "count", "close"],
     ["OK", *["BAD_NAME"] * 8, "OK 0", "OK"], HEADER),
    (HEADER, 0, ["open", f"record -2147483648 -2147483648 -9223372036854775808 ffffffffffffffff {hexed(LONG)}", f"find {hexed(LONG)}", "close"],
     ["OK", "OK", "OK -2147483648 -2147483648 -9223372036854775808 ffffffffffffffff", "OK"], HEADER + line_of(LONG, (-2**31, -2**31, -2**63, 2**64 - 1))),
    # An edge that is longer than a block, and a rewriting of more than one.
    (HEADER, 0, ["open", "edge 1 2 3 aa " + hexed(*[b"%d" % i + LONG[1:] for i in range(6)]), "recompact", RECORD, "close"], ["OK"] * 5,
     HEADER + b"".join(b"1\t2\t3\t%d%s\taa\n" % (i, LONG[1:]) for i in range(6)) + A),
    (HEADER + A + B, 0, ["open", f"dead {hexed(b'a')}", "recompact", FIND, "count", RECORD, "recompact", "count", "close"],
     ["OK", "OK", "OK", "NOT_FOUND", "OK 1", "OK", "OK", "OK 2", "OK"], HEADER + B + A),
    # Marks before an open of a log that is due, and of one that isn't; marks that are cleared.
    (HEADER + A * 101 + B, 0, [f"dead {hexed(b'a')}", "open", "rewrote", "count", "close", "open", "rewrote", "close"], ["OK", "OK", "OK 1", "OK 1", "OK", "OK", "OK 0", "OK"], HEADER + B),
    (HEADER + A + B, 0, [f"dead {hexed(b'a')}", "open", "rewrote", "count", "close"], ["OK", "OK", "OK 0", "OK 2", "OK"], HEADER + A + B),
    (HEADER + A + B, 0, [f"dead {hexed(b'a')}", "clear", "open", "recompact", "close"], ["OK"] * 5, HEADER + A + B),
    (HEADER + A + B, 0, ["open", f"time 9 {hexed(b'a')} 8 {hexed(b'none')}", "restat", "restat", "close"], ["OK"] * 5, HEADER + b"1\t2\t9\ta\taa\n" + B),
    (HEADER + A + B, 0, ["open", f"time 9 {hexed(b'a')} -1 {hexed(b'b')}", "restat", "clear", "restat", "close"], ["OK", "OK", "NEGATIVE_TIME 1", "OK", "OK", "OK"], HEADER + A + B),
    (b"hello\n", 0, ["open", "sync", "close"], ["NOT_A_LOG", "NOT_OPEN", "NOT_OPEN"], b"hello\n"),
    (b"# ninja log v8\n" + A, 0, ["open"], ["OTHER_VERSION 8"], b"# ninja log v8\n" + A),
    (b"# ninja log v6\n" + A + b"4\t5", 0, ["open", "version", f"record 4 5 6 bb {hexed(b'b')}", "close"], ["OK", "OK 6", "OK", "OK"], b"# ninja log v6\n" + A + B),
    (V7 + A * 101 + B, 0, ["open", "version", FIND, "rewrote", "close"], ["OK", "OK 7", "OK 1 2 3 aa", "OK 1", "OK"], V7 + A + B),
    *[(text, version, ["open"], [f"OTHER_VERSION {chr(text[13])}"], text) for text, version in ((V7 + A, 5), (V7 + A, 6), (HEADER + A, 7), (b"# ninja log v4\n", 6))],
    *[(b"# ninja log v%s\n" % number, 0, ["open", "close"], [f"OTHER_VERSION {said}", "NOT_OPEN"], b"# ninja log v%s\n" % number) for number, said in OTHERS],
    (b"# ninja log v4\n1\t2\t3\ta\tcc\n", 5, ["open", "version", "rewrote", "close"], ["OK", "OK 5", "OK 1", "OK"], HEADER + line_of(b"a", (1, 2, 3, command_hash(b"cc")))),
    (HEADER + A * 101 + B + b"4\t5", 0, ["open", "rewrote", "close"], ["OK", "OK 1", "OK"], HEADER + A + B),
    # Due logs that begin with their own rewriting: a cut in place could leave an older entry.
    (HEADER + B + (A.replace(b"a\taa", b"b\taa") + B) * 60, 0, ["open", "rewrote", f"find {hexed(b'b')}", "close"], ["OK", "OK 1", "OK 4 5 6 bb", "OK"], HEADER + B),
    (HEADER + A * 101 + b"4\t5", 0, ["open", "rewrote", "close"], ["OK", "OK 1", "OK"], HEADER + A),
    # The number of a version is that of the last open that was refused.
    (b"# ninja log v8\n", 0, ["other", "open", "other", "look", "other"], ["OK 0", "OTHER_VERSION 8", "OK 8", "OTHER_VERSION 8", "OK 8"], b"# ninja log v8\n"),
    (HEADER, 0, ["other", "open", "other", "close", "other"], ["OK 0", "OK", "OK 0", "OK", "OK 0"], HEADER),
    # Many opens and closes of one writer.
    (HEADER, 0, ["open", RECORD, "close"] * 50, ["OK"] * 150, HEADER + A * 50),
]


def turns(trials, made, room):
    """Lines to the writer, what each is answered, and the files that are left."""
    os.mkdir(f"{room}/turns")
    log = f"{room}/turns/.ninja_log"
    for held, version, lines, answers, left in TURNS:
        for way, driver in drivers(made):
            for it in os.listdir(f"{room}/turns"):
                os.remove(f"{room}/turns/{it}")
            write(log, held)
            what = f"{way}: {[it[:30] for it in lines]} on {held and held[:60]!r}"
            trials.want(what, asked(driver, "write", log, version, lines), (0, answers, b""))
            trials.want(f"{what}: the log", read(log), left)
            trials.want(f"{what}: the files", os.listdir(f"{room}/turns"), [] if left is None else [".ninja_log"])
    # A name without a folder, one in the folder above, and the mode of the files.
    for path in (".ninja_log", "./.ninja_log", "../turns/.ninja_log"):
        for mask in (0o022, 0o077):
            run(["rm", "-f", log])
            before = os.umask(mask)
            try:
                trials.want(f"a writer of {path}", asked([made["C11"]], "write", path, 0, ["open", RECORD, "close"], cwd=f"{room}/turns")[1], ["OK"] * 3)
                trials.want(f"the mode of {path}", oct(os.stat(log).st_mode & 0o777), oct(0o666 & ~mask))
                trials.want(f"a writer of {path}, again", asked([made["C11"]], "write", path, 0, ["open", "recompact", "close"], cwd=f"{room}/turns")[1], ["OK"] * 3)
                trials.want(f"the mode of {path}, rewritten", oct(os.stat(log).st_mode & 0o777), oct(0o666 & ~mask))
            finally:
                os.umask(before)
            trials.want(f"the log {path}", read(log), HEADER + A)
    for way, driver in drivers(made):
        run([*driver, "closed", log, f"{room}/closed.txt"])
        trials.want(f"{way}: closed streams", read(f"{room}/closed.txt"), b"NLOG_OK NLOG_OK NLOG_OK NLOG_OK NLOG_OK 0 0 0\n")


def openings(trials, made, room):
    """Each kind of log, opened as each version: the status, whether it is rewritten, and the log that is left."""
    log = f"{room}/opening.log"
    every = [*logs(), ("a due log whose rewriting it begins with", HEADER + A * 101 + b"9\t9"), ("a torn digit of version 7", b"# ninja log v7")]
    for what, text in every:
        for version in (0, 5, 6, 7):
            write(log, text)
            status, change, whole = opened(text, version)
            about = f"{what}, opened as {version}"
            said = asked([made["C11"]], "write", log, version, ["open", "rewrote", "count", "close"])
            if status == "OK":
                count = len(Log(as_version(whole, int(whole[13:14]))).table)
                wanted = ["OK", f"OK {int(change == 'REPLACE')}", f"OK {count}", "OK"]
            else:
                wanted = [*[it for it in said[1][:1] if it.split()[0] == status], *["NOT_OPEN"] * 3]
            trials.want(about, said, (0, wanted, b""))
            trials.want(f"{about}: the log", read(log), text if status != "OK" else whole)
        for version in (1, 4, 8, 2**32 - 1):
            trials.want(f"{what}, asked for as {version}", asked([made["C11"]], "write", log, version, ["open"])[1], ["OTHER_VERSION", "NO_HANDLE"])


def failing(trials, made, room):
    """Files that can't be opened, read or written: the status, the errno, the call and the file."""
    os.mkdir(f"{room}/failing")
    log = f"{room}/failing/log"
    os.mkdir(f"{room}/failing/folder")
    os.symlink("loop", f"{room}/failing/loop")
    write(f"{room}/failing/file", b"")
    rows = [
        (f"{room}/failing/none/log", ["FAULT ENOENT open folder", "NOT_OPEN"], "FAULT ENOENT"),
        (f"{room}/failing/folder", ["FAULT EISDIR open log", "NOT_OPEN"], "FAULT EISDIR"),
        (f"{room}/failing/file/log", ["FAULT ENOTDIR open folder", "NOT_OPEN"], "FAULT ENOTDIR"),
        (f"{room}/failing/loop", ["FAULT ELOOP open log", "NOT_OPEN"], "FAULT ELOOP"),
        (f"{room}/failing/{'n' * 300}", ["FAULT ENAMETOOLONG stat scratch", "NOT_OPEN"], "FAULT ENAMETOOLONG"),
    ]
    for path, answers, loaded in rows:
        for way, driver in drivers(made):
            trials.want(f"{way}: a writer of {path[-40:]}", asked(driver, "write", path, 0, ["open", RECORD]), (0, answers, b""))
            trials.want(f"{way}: a load of {path[-40:]}", run([*driver, "load", path]), (0, f"NLOG_{loaded}\n".encode(), b""))
    for text, said in ((None, "FAULT ENOENT"), (b"", "OK - 0"), (HEADER + A + B + b"4", "OK - 2"), (b"hello\n", "NOT_A_LOG -"), (b"# ninja log v8\n", "OTHER_VERSION -"),
                       (HEADER + b"".join(line_of(b"%d" % i, (i, i, i, i)) for i in range(50000)), "OK - 50000")):
        write(log, text)
        trials.want(f"a load of {text and text[:30]!r}", run([made["C11"], "load", log]), (0, f"NLOG_{said}\n".encode(), b""))
        trials.want("which leaves the file", read(log), text)
    no_files(trials, made, room)
    long_names(trials, made, f"{room}/long")
    # A symbolic link: a record goes to its file, and a rewriting takes its place.
    write(log, HEADER + A)
    os.symlink("log", f"{room}/failing/link")
    trials.want("a writer of a link", asked([made["C11"]], "write", f"{room}/failing/link", 0, ["open", f"record 4 5 6 bb {hexed(b'b')}", "close"])[1], ["OK"] * 3)
    trials.check("the link stays", os.path.islink(f"{room}/failing/link") and read(log) == HEADER + A + B)
    trials.want("a rewriting of a link", asked([made["C11"]], "write", f"{room}/failing/link", 0, ["open", f"dead {hexed(b'a')}", "recompact", "close"])[1], ["OK"] * 4)
    trials.check("it takes its place", not os.path.islink(f"{room}/failing/link") and read(f"{room}/failing/link") == HEADER + B and read(log) == HEADER + A + B)
    # A scratch that can't be taken away is one that the open log's rewriting meets; the writer is broken until it is closed.
    os.mkdir(f"{room}/failing/log.recompact")
    said = asked([made["C11"]], "write", log, 0, ["open", f"dead {hexed(b'a')}", "recompact", RECORD, FIND, "count", "version", "sync", "is_open", "open", "close", "open", "count", "close"])[1]
    wanted = ["OK", "OK", "FAULT EISDIR unlink scratch", *["BROKEN"] * 5, "OK 0", "BROKEN", "BROKEN", "OK", "OK 2", "OK"]
    trials.want("a folder in the scratch's place", said, wanted)
    trials.want("the log then", read(log), HEADER + A + B)
    os.rmdir(f"{room}/failing/log.recompact")
    without_rights(trials, made, f"{room}/rights")


def no_files(trials, made, room):
    """What is no regular file: it is refused, without a wait for a pipe's other end, or for memory to run out."""

    def begin():
        resource.setrlimit(resource.RLIMIT_CPU, (5, 5))

    os.mkfifo(f"{room}/failing/pipe")
    os.symlink("/dev/zero", f"{room}/failing/zero")
    for path, error in ((f"{room}/failing/pipe", "EINVAL"), (f"{room}/failing/zero", "EINVAL"), ("/dev/null", "EINVAL"), (f"{room}/failing/folder", "EISDIR")):
        for way, driver in drivers(made):
            trials.want(f"{way}: a load of {path[-12:]}", run([*driver, "load", path], preexec_fn=begin), (0, f"NLOG_FAULT {error}\n".encode(), b""))
    for name in ("pipe", "zero"):
        said = run([made["C11"], "write", f"{room}/failing/{name}", "0"], input=b"open\nopen\n", stdin=None, preexec_fn=begin)
        trials.want(f"a writer of a {name}", said, (0, b"NLOG_FAULT EINVAL fstat log\n" * 2, b""))
        os.remove(f"{room}/failing/{name}")


def long_names(trials, made, folder):
    """Names of a log up to the longest: one whose scratch would have too long a name is refused before anything is changed."""
    os.mkdir(folder)
    longest = os.pathconf(folder, "PC_NAME_MAX") - len(".recompact")
    for length in (longest - 1, longest, longest + 1, longest + 5, longest + 10, longest + 11):
        path = f"{folder}/{'n' * length}"
        for text in (None, HEADER + A):
            if length <= longest + 10:
                write(path, text)
            for way, driver in drivers(made):
                said = asked(driver, "write", path, 0, ["open", "recompact", "close"])[1]
                if length <= longest:
                    trials.want(f"{way}: a log of a name of {length} bytes", said, ["OK"] * 3)
                else:
                    trials.want(f"{way}: a log of a name of {length} bytes", said, ["FAULT ENAMETOOLONG stat scratch", "NOT_OPEN", "NOT_OPEN"])
                    trials.want("the files then", os.listdir(folder), [] if text is None or length > longest + 10 else ["n" * length])
                if text is not None and length <= longest + 10:
                    trials.want("the log then", read(path), text)
        for it in os.listdir(folder):
            os.remove(f"{folder}/{it}")


NOBODY = 65534


def without_rights(trials, made, room):
    """Files that the user may not read or write."""

    def end_rights():
        if os.geteuid() == 0:
            os.setgroups([])
            os.setgid(NOBODY)
            os.setuid(NOBODY)

    os.mkdir(room)
    driver, log = shutil.copy(made["C11"], f"{room}/driver"), f"{room}/folder/log"
    os.chmod(os.path.dirname(room), 0o711)
    os.chmod(room, 0o711)
    os.chmod(driver, 0o755)
    try:
        run([driver, "misuse"], cwd="/", preexec_fn=end_rights)
    except subprocess.SubprocessError as error:
        trials.skip("files that may not be read or written", f"no process without rights can be started ({error})")
        return
    # A system where a lock wants the right to write: what may only be read isn't locked.
    refusing = ["strace", "-o", "/dev/null", "-e", "inject=flock:error=EBADF"] if may_trace(trials, os.path.dirname(room)) else []
    rows = [
        (0o700, 0o400, HEADER + A, ["FAULT EACCES open log", "NOT_OPEN", "NOT_OPEN"]),
        (0o700, 0o400, b"hello\n", ["NOT_A_LOG", "NOT_OPEN", "NOT_OPEN"]),
        (0o700, 0o400, b"# ninja log v9\n", ["OTHER_VERSION 9", "NOT_OPEN", "NOT_OPEN"]),
        (0o700, 0o200, HEADER + A, ["FAULT EACCES open log", "NOT_OPEN", "NOT_OPEN"]),
        (0o600, 0o600, HEADER + A, ["FAULT EACCES open log", "NOT_OPEN", "NOT_OPEN"]),
        (0o500, None, None, ["FAULT EACCES open log", "NOT_OPEN", "NOT_OPEN"]),
        (0o300, 0o600, HEADER + A, ["OK", "OK", "OK"]),
        (0o300, 0o600, HEADER + A * 101 + B + b"4", ["OK", "OK", "OK"], HEADER + A + B),
        (0o300, None, None, ["OK", "OK", "OK"], HEADER),
        (0o500, 0o600, HEADER + A, ["OK", "FAULT EACCES open scratch", "BROKEN"]),
        (0o500, 0o600, HEADER + A * 101 + B, ["FAULT EACCES open scratch", "NOT_OPEN", "NOT_OPEN"]),
    ]
    for mode, log_mode, text, answers, *left in rows:
        os.mkdir(f"{room}/folder")
        write(log, text)
        for path, its in ((log, log_mode), (f"{room}/folder", mode)):
            if its is not None:
                os.chmod(path, its)
                if os.geteuid() == 0:
                    os.chown(path, NOBODY, NOBODY)
        for way in [[], *([refusing] if refusing and log_mode == 0o400 else [])]:
            said = asked([*way, driver], "write", log, 0, ["open", "recompact", "close"], cwd="/", preexec_fn=end_rights)
            trials.want(f"{way} a folder of mode {mode:o}, a log of {log_mode} with {text and text[:30]!r}", said, (0, answers, b""))
        os.chmod(f"{room}/folder", 0o700)
        trials.want("the log then", read(log), left[0] if left else text)
        shutil.rmtree(f"{room}/folder")


# ---- Memory ----

# Lines of which the last one's memory is refused, on a log, and the tables that may be found then.
REFUSED = [
    (HEADER + A, ["open"], []),
    (HEADER + A * 101 + B + b"4\t5", ["open"], []),
    (b"# ninja log v4\n1\t2\t3\ta\tcc\n", ["open"], []),
    (None, ["open"], []),
    (HEADER, ["open", RECORD], [b"a"]),
    (HEADER, ["open", "edge 1 2 3 aa " + hexed(*[b"%d" % i + LONG[1:] for i in range(6)])], [b"%d" % i + LONG[1:] for i in range(6)]),
    (HEADER + A, ["open", f"edge 1 2 3 aa {hexed(*[b'%d' % i for i in range(40)])}"], [b"%d" % i for i in range(40)]),
    (HEADER + A + B, ["open", f"dead {hexed(b'a')}"], []),
    (HEADER + A + B, ["open", f"dead {hexed(b'a')}", "recompact"], []),
    (HEADER + A + B, ["open", f"time 3 {hexed(b'a')}"], []),
    (HEADER + A + B, ["open", f"time 3 {hexed(b'a')}", "restat"], []),
    (HEADER + A, ["open", RECORD, "sync"], []),
    (HEADER + A + B, ["open", f"begin 7 0 0 cc {hexed(b'a', b'b')}"], []),
    # A look, and the first change behind one.
    *[(text, ["look"], []) for text in (None, HEADER + A + b"4\t5", HEADER + A * 101 + B)],
    (None, ["look", RECORD], [b"a"]),
    (HEADER + B + b"4\t5", ["look", RECORD], [b"a"]),
    (HEADER + B * 101, ["look", RECORD], [b"a"]),
    (HEADER + B * 101, ["look", "recompact"], []),
    (HEADER + B, ["look", f"edge 1 2 3 aa {hexed(*[b'%d' % i for i in range(40)])}"], [b"%d" % i for i in range(40)]),
]


def refusals(trials, made, room):
    """Memory that is refused at each place of a call: what was there stands, and the call does its work where it is made again."""
    if "refused" not in made:
        return
    log, count = f"{room}/refused.log", 0
    for held, lines, new in REFUSED:
        base = [] if held is None else list(Log(as_version(held, 5)).table)
        for at in range(200):
            if os.path.exists(log):
                os.remove(log)
            write(log, held)
            ended, out, err = run([made["refused"], "refuse-call", log, str(at), str(len(lines))], input="\n".join(lines).encode() + b"\n", stdin=None)
            first, second = out.decode().split()[:2] if len(out.split()) == 3 else ("?", "?")
            if first == "NLOG_OK":
                trials.want(f"{lines[-1][:30]} with all its memory", (ended, second, err), (0, "NLOG_OK", b""))
                break
            count += 1
            what = f"{lines[-1][:30]} on {held and held[:40]!r}, with memory refused at place {at}"
            trials.want(what, (ended, err, first, second), (0, b"", "NLOG_OUT_OF_MEMORY", "NLOG_OK"))
            left = read(log) or b""
            found = list(Log(left).table)
            dead = [b"a"] if f"dead {hexed(b'a')}" in lines else []
            kept = [it for it in base if it not in dead]
            more = [it for it in found if it not in base]
            trials.check(f"{what}: the log", [it for it in found if it in kept] == kept and more == new, left[:300])
        else:
            trials.check(f"{lines[-1][:30]} is done at last", False)
    trials.check("memory was refused", count > 200, count)
    print(f"clib.py: memory was refused at {count} places of calls of the writer")


def refused_anew(trials, made, room):
    """Memory that is refused where a call of a shared log, or the first change behind a look, has to read the log anew: that breaks the writer, and no
    entry is lost. Where the log was read before, the call can be made again."""
    if "refused" not in made:
        return
    log, broken = f"{room}/refused-anew.log", 0
    for lines in (["shared", "open", "torn", RECORD], ["wary", "shared", "open", "torn", RECORD], ["shared", "look", "torn", RECORD], ["wary", "look", "torn", "sync"],
                  ["shared", "open", "torn", f"plan 7 0 0 cc {hexed(b'b')}"]):
        for at in range(200):
            write(log, HEADER + B + D)
            ended, out, err = run([made["refused"], "refuse-call", log, str(at), str(len(lines))], input="\n".join(lines).encode() + b"\n", stdin=None)
            said, what = out.decode().replace("NLOG_", "").split(), f"{lines} with memory refused at place {at}"
            if said == ["OK"] * 3:
                break
            broken += said[1:2] == ["BROKEN"]
            trials.check(f"{what}: {said}", (ended, err) == (0, b"") and said in (["OUT_OF_MEMORY", "OK", "OK"], ["OUT_OF_MEMORY", "BROKEN", "BROKEN"]), err)
            left = asked([made["C11"]], "write", log, 0, ["open", f"find {hexed(b'd')}", "close"])[1]
            trials.want(f"{what}: the log", (left, read(log).startswith(HEADER + B + D)), (["OK", "OK -1 0 -5 ffffffffffffffff", "OK"], True))
        else:
            trials.check(f"{lines} are done at last", False)
    trials.check("some writers were broken", broken > 20, broken)


def kept_memory(trials, made, room):
    """How much memory a load, a look and an open take: the table, and none of the log's bytes; and a writer, while it is open what a load takes, and
    behind its close less."""
    for first in ("open", "look"):
        kept_memory_behind(trials, made, f"{room}/kept.log", first)


def kept_memory_behind(trials, made, log, first):
    """Behind an open, or a look and the first change."""
    names = [b"%d" % i + LONG[: MAX_NAME - 3] for i in range(100)]
    write(log, HEADER + b"".join(line_of(name, (i, i, i, i)) for i in range(3) for name in names))
    size, table, buffers = os.stat(log).st_size, 100 * MAX_NAME, 1_000_000
    loader, writer = (subprocess.Popen([made["C11"], "write", log, "0"], stdin=subprocess.PIPE, stdout=subprocess.PIPE) for _ in range(2))
    try:
        begun = [resident(it.pid, "VmRSS") for it in (loader, writer) if answers_of(it, "is_open")]
        trials.want(f"a log of long names, {first}", [answers_of(loader, "load"), answers_of(writer, first)], ["OK", "OK"])
        loaded, most = resident(loader.pid, "VmRSS") - begun[0], resident(writer.pid, "VmHWM") - begun[1]
        peak = resident(loader.pid, "VmHWM") - begun[0]
        trials.check("a load of a file takes the table, and not the bytes", peak < table + 3_000_000, f"{peak} bytes for a log of {size}")
        trials.check(f"an {first} takes the table, and not the bytes", most < table + 4_000_000, f"{most} bytes for a log of {size}")
        held = [resident(writer.pid, "VmRSS") - begun[1]]
        again = {answers_of(writer, f"record {i} 2 3 aa {hexed(names[i % 20])}") for i in range(60)}
        trials.want("records without a sync", again, {"OK"})
        held.append(resident(writer.pid, "VmRSS") - begun[1])
        trials.want("its rewriting", [answers_of(writer, it) for it in ("recompact", "count")], ["OK", "OK 100"])
        held.append(resident(writer.pid, "VmRSS") - begun[1])
        trials.check("an open log takes what a load does", max(held) < 1.1 * loaded + buffers, f"{held} bytes, and {loaded} of a load")
        trials.want("its close", [answers_of(writer, it) for it in ("close", "is_open")], ["OK", "OK 0"])
        left = resident(writer.pid, "VmRSS") - begun[1]
        # What malloc doesn't give back is no more than the table.
        trials.check("a close frees the table", left < table + 1_000_000, f"{left} bytes are left of {most}")
    except FileNotFoundError:
        trials.skip("the memory of a writer", "/proc isn't there")
    loader.communicate()
    writer.communicate()


def resident(pid, what):
    """So many bytes a process has in memory, or had at the most."""
    return 1024 * int(re.search(rf"(?m)^{what}:\s+(\d+) kB", read(f"/proc/{pid}/status").decode())[1])


def readers(trials, made, room):
    """Threads that read one handle, and one writer, at once: each answer is right, and no word of memory is written that another reads."""
    log, text = f"{room}/readers.log", HEADER + b"".join(line_of(b"out%d" % i, (i, i + 1, i * 7, i)) for i in range(1000))
    ways = [(name, [made[name]], "300000") for name in ("readers", "readers by threads") if name in made]
    if shutil.which("valgrind") is None:
        trials.skip("readers under helgrind", "valgrind isn't there")
    elif "readers" in made:
        ways.append(("readers under helgrind", ["valgrind", "-q", "--tool=helgrind", "--error-exitcode=9", made["readers"]], "3000"))
    for name, words, times in ways:
        write(log, text)
        trials.want(f"{name}: four threads", run([*words, log, times]), (0, b"0 wrong answers\n", b""))
        trials.want(f"{name}: the log", read(log), text)
    # A signal that the other thread blocks ends a wait, whichever thread is the first.
    with open(log, "rb") as held:
        fcntl.flock(held, fcntl.LOCK_EX)
        for name, words, _ in ways[:2]:
            waiting = subprocess.Popen([*words, log, "0"], stdout=subprocess.PIPE)
            trials.want(f"{name}: one thread waits for a lock", waiting.stdout.readline(), b"it waits\n")
            while waiting.poll() is None:
                waiting.send_signal(signal.SIGUSR1)
                time.sleep(0.05)
            trials.want(f"{name}: and a signal ends that", waiting.communicate()[0], b"NLOG_LOCKED EINTR\n")


# ---- Locks, and processes at once ----


def locks(trials, made, program, room):
    """A log that another has locked: it is waited for, 10 seconds at most; and the file is the one that the name shows then."""
    os.mkdir(f"{room}/locks")
    log, lines = f"{room}/locks/log", ["open", RECORD, "close"]
    write(log, HEADER + B)
    with open(log, "rb") as held:
        fcntl.flock(held, fcntl.LOCK_EX)
        with Pauses() as clock:
            said = asked([made["C11"]], "write", log, 0, ["open", "took", *lines[1:]])[1]
            trials.want("a log that stays locked", [said[0], *said[2:]], ["LOCKED EWOULDBLOCK flock log", "NOT_OPEN", "NOT_OPEN"])
            took(trials, "it waits for 10 seconds", said[1], 10000, clock)
        trials.want("the log stays", read(log), HEADER + B)
        for is_replaced in (False, True):
            fcntl.flock(held, fcntl.LOCK_EX)
            waiting = subprocess.Popen([made["C11"], "write", log, "0"], stdin=subprocess.PIPE, stdout=subprocess.PIPE)
            waiting.stdin.write("\n".join(lines).encode() + b"\n")
            waiting.stdin.flush()
            time.sleep(0.3)
            trials.want("it waits", waiting.poll(), None)
            if is_replaced:
                write(f"{log}.new", HEADER + D)
                os.rename(f"{log}.new", log)
            fcntl.flock(held, fcntl.LOCK_UN)
            trials.want("and goes on", waiting.communicate(timeout=SECONDS)[0], b"NLOG_OK\n" * 3)
            trials.want(f"the log that is {'there now' if is_replaced else 'let go of'}", read(log), HEADER + (D if is_replaced else B) + A)
    # The log stays locked over rewritings, and until the close.
    first = subprocess.Popen([made["C11"], "write", log, "0"], stdin=subprocess.PIPE, stdout=subprocess.PIPE)
    for line in ("open", "recompact", RECORD, "recompact"):
        first.stdin.write(line.encode() + b"\n")
        first.stdin.flush()
        trials.want(f"the first's {line}", first.stdout.readline(), b"NLOG_OK\n")
        trials.check(f"the log is locked behind {line}", is_locked(log))
    held = close_on_exec(first.pid, f"{room}/locks")
    if held is None:
        trials.skip("that descriptors are close-on-exec", "/proc isn't there")
    else:
        trials.want("its descriptors of the log and the folder, each close-on-exec", held, [("locks", True), ("log", True)])
    second = subprocess.Popen([program, "record", log, "4", "5", "6", "beside", "cc"])
    time.sleep(0.3)
    trials.want("nlog record waits", second.poll(), None)
    first.communicate(b"record 4 5 6 bb " + hexed(b"b").encode() + b"\nclose\n", timeout=SECONDS)
    trials.want("and ends", second.wait(SECONDS), 0)
    trials.want("both stand", set(Log(read(log)).table), {b"d", b"a", b"b", b"beside"})


def forks(trials, made, room):
    """A fork while the log is open: the child may free the writer and no more, and the parent's log stays open, whole and locked."""
    refused = " ".join(["FORKED"] * 26)
    ways = drivers(made)
    if may_trace(trials, room):
        # A system that clears no page in a child.
        ways.append(("C11 by its number", ["strace", "-o", f"{room}/TRACE", "-e", "inject=madvise:error=EINVAL", made["C11"]]))
    for way, driver in ways:
        for is_shared in (False, True):
            log, what = f"{room}/fork.log", f"{way}, {'shared' if is_shared else 'alone'}, "
            write(log, HEADER + A)
            parent = subprocess.Popen([*driver, "write", log, "0"], stdin=subprocess.PIPE, stdout=subprocess.PIPE)
            for line in [*(["shared"] if is_shared else []), "open", f"record 4 5 6 bb {hexed(b'b')}"]:
                trials.want(f"{what}{line}", answers_of(parent, line), "OK")
            trials.want(f"{what}each call in a child", answers_of(parent, "call-in-child"), f"{refused} freed")
            trials.want(f"{what}the child ends", parent.stdout.readline(), b"NLOG_OK\n")
            trials.want(f"{what}the log is locked behind it", is_locked(log), not is_shared)
            for line in ("recompact", f"record -1 0 -5 ffffffffffffffff {hexed(b'd')}", "close"):
                trials.want(f"{what}the parent's {line}", answers_of(parent, line), "OK")
            trials.want(f"{what}the log", read(log), HEADER + A + B + D)
            trials.want(f"{what}a closed writer in a child", answers_of(parent, "open-in-child"), "OK OK OK closed")
            parent.stdout.readline()
            ended = parent.communicate(f"open\nfind {hexed(b'child')}\nclose\n".encode())[0]
            trials.want(f"{what}what it recorded", ended, b"NLOG_OK\nNLOG_OK 7 8 9 a\nNLOG_OK\n")
            # Of a log that is open to read too: it is the parent's, and the child's part closes the child's descriptor alone.
            write(log, HEADER + A + b"4\t5")
            parent = subprocess.Popen([*driver, "write", log, "0"], stdin=subprocess.PIPE, stdout=subprocess.PIPE)
            for line in [*(["shared"] if is_shared else []), "look"]:
                trials.want(f"{what}{line}", answers_of(parent, line), "OK")
            trials.want(f"{what}each call in a child, behind a look", answers_of(parent, "call-in-child"), f"{refused} freed")
            trials.want(f"{what}that child ends", parent.stdout.readline(), b"NLOG_OK\n")
            trials.want(f"{what}it changed nothing", read(log), HEADER + A + b"4\t5")
            said = [answers_of(parent, line) for line in (f"record 4 5 6 bb {hexed(b'b')}", "close")]
            parent.communicate()
            trials.want(f"{what}the parent goes on", (said, read(log)), (["OK", "OK"], HEADER + A + B))


def took(trials, what, said, least, clock):
    """A wait took so many milliseconds by the driver's own clock, and no more than 3 seconds of a clock of pauses over that."""
    trials.check(what, least <= int(said.split()[1]) < (least + 3000) * clock.slower(), said)


def waits(trials, made, room):
    """How long a lock is waited for, which the caller says; and a close of a shared log that another has: nothing is done, and it can be closed
    again."""
    log, said = f"{room}/waits.log", "LOCKED EWOULDBLOCK flock log"
    with open(log, "ab") as held, Pauses() as clock:
        for way, driver in drivers(made):
            write(log, HEADER + A)
            for wait in (0, 25, 700):
                fcntl.flock(held, fcntl.LOCK_EX)
                *answers, time_taken = asked(driver, "write", log, 0, [f"wait {wait}", "open", "took"])[1]
                trials.want(f"{way}: an open that waits {wait} ms", answers, ["OK", said])
                took(trials, f"{way}: it waits {wait} ms", time_taken, wait, clock)
                fcntl.flock(held, fcntl.LOCK_UN)
            writer = subprocess.Popen([*driver, "write", log, "0"], stdin=subprocess.PIPE, stdout=subprocess.PIPE)
            begun = [answers_of(writer, it) for it in ("shared", "open", f"record 4 5 6 bb {hexed(b'b')}", "wait 60")]
            trials.want(f"{way}: a shared log", begun, ["OK"] * 4)
            fcntl.flock(held, fcntl.LOCK_EX)
            lines = ["close", "is_open", RECORD, "sync", "recompact", "close", "is_open"]
            trials.want(f"{way}: which another has", [answers_of(writer, it) for it in lines], [said, "OK 1", *[said] * 4, "OK 1"])
            trials.want(f"{way}: the log then", read(log), HEADER + A + B)
            fcntl.flock(held, fcntl.LOCK_UN)
            trials.want(f"{way}: and lets go of", [answers_of(writer, it) for it in (RECORD, "close", "close")], ["OK", "OK", "NOT_OPEN"])
            writer.communicate()
            trials.want(f"{way}: the log at last", read(log), HEADER + A + B + A)
            locked_anew(trials, f"{way}: ", driver, f"{room}/anew.log")


def locked_anew(trials, about, driver, log):
    """A shared log in whose place another puts a new file, which it keeps locked: the writer stays open, and goes on once it is let go of."""
    write(log, HEADER + A)
    writer = subprocess.Popen([*driver, "write", log, "0"], stdin=subprocess.PIPE, stdout=subprocess.PIPE)
    trials.want(f"{about}a shared log", [answers_of(writer, it) for it in ("shared", "open", "wait 60")], ["OK"] * 3)
    write(f"{log}.new", HEADER + D)
    with open(f"{log}.new", "ab") as held:
        fcntl.flock(held, fcntl.LOCK_EX)
        os.rename(f"{log}.new", log)
        said = [answers_of(writer, it) for it in (RECORD, "is_open", "sync", "is_open", FIND)]
        locked = "LOCKED EWOULDBLOCK flock log"
        trials.want(f"{about}another has the new file", said, [locked, "OK 1", locked, "OK 1", "OK 1 2 3 aa"])
    trials.want(f"{about}it goes on", [answers_of(writer, it) for it in (RECORD, "count", "close")], ["OK", "OK 2", "OK"])
    writer.communicate()
    trials.want(f"{about}the new file", read(log), HEADER + D + A)


def holds(trials, made, room):
    """A shared log whose lock is held over calls: others wait until it is let go of, by a release or a close, and then both stand."""
    log, other = f"{room}/holds.log", ["wait 30", f"record 4 5 6 bb {hexed(b'b')}", "close"]
    for way, driver in drivers(made):
        for end in ("release", "close", "free"):
            write(log, HEADER)
            writer = subprocess.Popen([*driver, "write", log, "0"], stdin=subprocess.PIPE, stdout=subprocess.PIPE)
            said = [answers_of(writer, it) for it in ("hold", "release", "shared", "look", "hold", RECORD, RECORD, "sync", "recompact", "hold")]
            trials.want(f"{way}: a log that is held", said, ["NOT_OPEN", "NOT_OPEN", *["OK"] * 8])
            trials.want(f"{way}: others wait", (is_locked(log), asked([made["C11"]], "write", log, 0, ["wait 30", "open"])[1][1]), (True, "LOCKED EWOULDBLOCK flock log"))
            trials.want(f"{way}: its {end}", (answers_of(writer, end), is_locked(log)), ("OK", False))
            trials.want(f"{way}: another then", asked([made["C11"]], "write", log, 0, [other[0], "open", *other[1:]])[1], ["OK"] * 4)
            if end == "release":
                trials.want(f"{way}: and the first", [answers_of(writer, it) for it in (RECORD, "count", "close")], ["OK", "OK 2", "OK"])
            writer.communicate()
            trials.want(f"{way}: the log", read(log), HEADER + A + B + A * (end == "release"))
        # Holds don't nest.
        writer = subprocess.Popen([*driver, "write", log, "0"], stdin=subprocess.PIPE, stdout=subprocess.PIPE)
        trials.want(f"{way}: two holds", [answers_of(writer, it) for it in ("shared", "open", "hold", "hold")], ["OK"] * 4)
        trials.want(f"{way}: end by one release", (is_locked(log), answers_of(writer, "release"), is_locked(log)), (True, "OK", False))
        trials.want(f"{way}: behind which another does nothing", [answers_of(writer, it) for it in ("release", "close")], ["OK", "OK"])
        writer.communicate()
        # What stands in the log's place is seen before a sync, and a lock that another has is told.
        write(log, HEADER)
        writer = subprocess.Popen([*driver, "write", log, "0"], stdin=subprocess.PIPE, stdout=subprocess.PIPE)
        trials.want(f"{way}: a log that is held", [answers_of(writer, it) for it in ("shared", "open", "wait 30", "hold", RECORD)], ["OK"] * 5)
        write(f"{log}.new", HEADER + D)
        os.rename(f"{log}.new", log)
        trials.want(f"{way}: and replaced", [answers_of(writer, it) for it in ("sync", "release", "close", "open")], ["FAULT ESTALE stat log", "BROKEN", "BROKEN", "OK"])
        with open(log, "ab") as held:
            fcntl.flock(held, fcntl.LOCK_EX)
            trials.want(f"{way}: and that another has", [answers_of(writer, it) for it in ("hold", "is_open")], ["LOCKED EWOULDBLOCK flock log", "OK 1"])
        trials.want(f"{way}: and lets go of", [answers_of(writer, it) for it in ("hold", "close")], ["OK", "OK"])
        writer.communicate()


def lives_on(trials, made, room):
    """A child that was forked while the log was open lives on behind the close: the log is unlocked all the same."""
    log = f"{room}/lives.log"
    for way, driver in drivers(made):
        for lines in ([RECORD, "close"], ["recompact", "close"], ["free"], ["close"]):
            write(log, HEADER)
            first = subprocess.Popen([*driver, "write", log, "0"], stdin=subprocess.PIPE, stdout=subprocess.PIPE)
            what = f"{way}, a child that outlives {lines}"
            trials.want(what, [answers_of(first, it) for it in ("open", "keep-child", *lines)], ["OK"] * (2 + len(lines)))
            with Pauses() as clock:
                said = asked([made["C11"]], "write", log, 0, ["open", "took", "close"])[1]
                trials.want(f"{what}: the next open", [said[0], said[2]], ["OK", "OK"])
                took(trials, f"{what}: it waits for nothing", said[1], 0, clock)
            first.communicate()


# Lines to a writer that is open behind A and has recorded B, on a log to which something else was done, what each is answered, and the log that
# is left: gone, longer by a line, or another file.
KEPT_AWAY = [
    ("gone", ["sync", RECORD, "close", "open", "count", "close"], ["FAULT ENOENT stat log", "BROKEN", "BROKEN", "OK", "OK 0", "OK"], HEADER),
    ("gone", [RECORD, "close", "close"], ["OK", "FAULT ENOENT stat log", "NOT_OPEN"], None),
    ("gone", ["recompact", "close"], ["FAULT ENOENT stat log", "BROKEN"], None),
    ("longer", ["recompact", "close", "open", "recompact", "close"], ["FAULT ESTALE stat log", "BROKEN", "OK", "OK", "OK"], HEADER + A + B + D),
    ("longer", ["sync", "close"], ["FAULT ESTALE stat log", "BROKEN"], HEADER + A + B + D),
    ("another", ["close", "open", FIND, "close"], ["FAULT ESTALE stat log", "OK", "NOT_FOUND", "OK"], HEADER + D),
    ("another", [f"time 9 {hexed(b'a')}", "restat", "sync"], ["OK", "FAULT ESTALE stat log", "BROKEN"], HEADER + D),
]


def kept_away(trials, made, room):
    """A log that somebody else removes, writes or replaces while it is open: nothing more is acknowledged, and what was written stays."""
    os.mkdir(f"{room}/away")
    log, begun = f"{room}/away/log", ["open", f"record 4 5 6 bb {hexed(b'b')}"]
    for how, lines, answers, left in KEPT_AWAY:
        for way, driver in drivers(made):
            write(log, HEADER + A)
            what = f"{way}, a log that is {how}, {lines}"
            writer = subprocess.Popen([*driver, "write", log, "0"], stdin=subprocess.PIPE, stdout=subprocess.PIPE)
            trials.want(f"{what}: before", [answers_of(writer, it) for it in begun], ["OK"] * 2)
            if how == "longer":
                with open(log, "ab") as it:
                    it.write(D)
            else:
                os.remove(log)
                write(log, HEADER + D if how == "another" else None)
            trials.want(what, [answers_of(writer, it) for it in lines], answers)
            writer.communicate()
            trials.want(f"{what}: the log", read(log), left)
            for it in os.listdir(f"{room}/away"):
                os.remove(f"{room}/away/{it}")


def moved(trials, made, room):
    """The working folder changes, or the log's folder is moved, while the log is open: the log is the one of the beginning."""
    for how in ("cd", "mv"):
        # (the driver that writes its steps down looks at the log by its path)
        for way, driver in [it for it in drivers(made) if it[0] != "steps"]:
            for name in ("one", "two"):
                shutil.rmtree(f"{room}/{name}", ignore_errors=True)
                os.mkdir(f"{room}/{name}")
                write(f"{room}/{name}/log", HEADER + A if name == "one" else HEADER + D)
            path = "log" if how == "cd" else f"{room}/one/log"
            writer = subprocess.Popen([*driver, "write", path, "0"], stdin=subprocess.PIPE, stdout=subprocess.PIPE, cwd=f"{room}/one")
            said = [answers_of(writer, "open")]
            if how == "cd":
                said.append(answers_of(writer, f"cd {hexed(f'{room}/two'.encode())}"))
            else:
                os.rename(f"{room}/one", f"{room}/three")
                os.mkdir(f"{room}/one")
                write(f"{room}/one/log", HEADER + D)
            said += [answers_of(writer, it) for it in (f"record 4 5 6 bb {hexed(b'b')}", "sync", "recompact", RECORD, "close")]
            writer.communicate()
            what = f"{way}, {how} while a log is open"
            trials.want(what, set(said), {"OK"})
            ours, others = ("one", "two") if how == "cd" else ("three", "one")
            trials.want(f"{what}: the log", read(f"{room}/{ours}/log"), HEADER + A + B + A)
            trials.want(f"{what}: another of its name", read(f"{room}/{others}/log"), HEADER + D)
            for name in (ours, others):
                trials.want(f"{what}: the files", os.listdir(f"{room}/{name}"), ["log"])
                shutil.rmtree(f"{room}/{name}")


class Writer(between.Apply):
    """The library's writer on a log, as between.py asks it."""

    def ask(self, what, name=None, entry=None):
        line = what
        if what == "record":
            line = "record %d %d %d %x %s" % (*entry, name.hex())
        if what == "restat":
            self.say(f"time {entry[2]} {name.hex()}")
        return self.say(line) == "NLOG_OK"


def changed_between(trials, made, program, room):
    """Somebody else changes the log between any two calls: the rules are those of between.py."""
    between.tries(trials, program, lambda folder: Writer([made["C11"], "write", between.LOG, "0"], folder), f"{room}/between", "the writer")


def close_on_exec(pid, folder):
    """The open files of a process in a folder, and whether each is close-on-exec; None where that can't be told."""
    if not os.path.isdir(f"/proc/{pid}/fdinfo"):
        return None
    found = []
    for fd in os.listdir(f"/proc/{pid}/fd"):
        path = os.readlink(f"/proc/{pid}/fd/{fd}")
        if path.startswith(folder):
            flags = int(re.search(r"flags:\s+(\d+)", read(f"/proc/{pid}/fdinfo/{fd}").decode())[1], 8)
            found.append((os.path.basename(path), bool(flags & 0o2000000)))
    return sorted(found)


def at_once(trials, made, program, room):
    """Writers at once, each of which opens the log, records and closes again and again, with records and rewritings of the program beside."""
    os.mkdir(f"{room}/once")
    log, count = f"{room}/once/log", 40

    def ours(number):
        name = [hexed(b"ours%d-%d" % (number, i)) for i in range(count)]
        lines = [it for i in range(count) for it in ("open", f"record 1 2 3 aa {name[i]}", *(["recompact"] if i % 7 == number else []), "close")]
        ended, answers, _ = asked([made["C11"]], "write", log, 0, lines)
        return ended == 0 and set(answers) == {"OK"}

    def theirs(number):
        words = [["record", log, "1", "2", "3", f"theirs{number}-{i}", "cc"] if i % 5 else ["repair", "--missing-ok", log] for i in range(count)]
        return all(run([program, *it])[0] == 0 for it in words)

    with ThreadPoolExecutor(6) as pool:
        ended = list(pool.map(lambda one: one[0](one[1]), [(ours, 0), (ours, 1), (ours, 2), (theirs, 0), (theirs, 1)]))
    trials.want("each of those at once ends well", ended, [True] * 5)
    wanted = {b"ours%d-%d" % (n, i) for n in range(3) for i in range(count)} | {b"theirs%d-%d" % (n, i) for n in range(2) for i in range(count) if i % 5}
    trials.want("and all that was recorded stands", set(Log(read(log)).table), wanted)


def shares(trials, made, program, room):
    """Writers that share a log from their open to their close, one of which rewrites it now and then, and records of the program between their calls."""
    starts = {
        "missing": (None, set()),
        "torn": (HEADER + A + b"4\t5", {b"a"}),
        "of version 7": (b"# ninja log v7\n" + A, {b"a"}),
        "due": (HEADER + A * 101, {b"a"}),
    }
    for number, (kind, (text, before)) in enumerate(starts.items()):
        log, count = f"{room}/share{number}.log", 120
        if text is not None:
            write(log, text)
        words = [[made["sharer"], log, "0", str(n), str(count), "25" if n == 0 else "0"] for n in range(4)]
        open_ones = [subprocess.Popen(it, stdout=subprocess.PIPE) for it in words]
        theirs = []
        while kind == "missing" and any(it.poll() is None for it in open_ones) and len(theirs) < 5:
            theirs.append(run([program, "record", log, "1", "2", "3", f"theirs{len(theirs)}", "cc"])[0])
        ended = [(it.communicate()[0], it.returncode) for it in open_ones]
        trials.want(f"{kind}: each that shares the log ends well", [it[1] for it in ended], [0] * 4)
        trials.want(f"{kind}: and so does what the program records between", theirs, [0] * len(theirs))
        found = read(log)
        said = [int(it[0].split()[1]) for it in ended if it[0].startswith(b"outputs: ")]
        wanted = before | {b"%d/%d" % (n, i) for n in range(4) for i in range(count)} | {b"theirs%d" % i for i in range(len(theirs))}
        trials.want(f"{kind}: all that was recorded stands", {it.split(b"\t")[3] for it in found.split(b"\n")[1:-1]}, wanted)
        trials.check(f"{kind}: the last one saw what all recorded", max(said, default=0) >= len(wanted) - 5, f"{said}")
        trials.want(f"{kind}: the version is kept", found[:15], text[:15] if text is not None else HEADER)
        trials.check(f"{kind}: no scratch is left", not os.path.exists(f"{log}.recompact"))


def killed(trials, made, room):
    """A process that is killed at some moment: all that a sync acknowledged is in the log, and the next one goes on from there."""
    chance = random.Random(11)
    for turn in range(12):
        log, wanted, stood = f"{room}/killed{turn}.log", chance.randrange(1, 60), 0
        driver = subprocess.Popen([made["C11"], "many", log, "100000000", "16"], stdout=subprocess.PIPE)
        for line in driver.stdout:
            stood = int(line) if line.strip().isdigit() else stood
            if stood == wanted * 16:
                threading.Timer(chance.random() * 0.01, os.kill, (driver.pid, signal.SIGKILL)).start()
        trials.want(f"turn {turn}: it was killed", driver.wait(), -signal.SIGKILL)
        found = Log(read(log)).table
        trials.check(f"turn {turn}: all that was acknowledged is there", len(found) >= stood >= wanted * 16, f"{len(found)} of {stood}")
        trials.check(f"turn {turn}: each entry is one that was recorded", all(found[b"out%d" % i] == (i, i + 5, 1000 + i, i + 1) for i in range(len(found))))
        said = asked([made["C11"]], "write", log, 0, ["open", f"find {hexed(b'out%d' % (stood - 1))}", "close"])[1]
        trials.want(f"turn {turn}: the next writer goes on", said, ["OK", f"OK {stood - 1} {stood + 4} {stood + 999} {stood:x}", "OK"])


# ---- Calls of the system that fail ----


def syncs_that_fail(trials, made, room):
    """A sync that fails, of the log, of its folder or of a scratch: nothing is acknowledged, the writer is broken, and no later sync of that
    file counts: the next open writes a new one, or is refused where it was the folder's."""
    log, lines = f"{room}/sync/log", ["open", RECORD, "sync", RECORD, FIND, "close", "open", "rewrote", FIND, "close", "open", "rewrote", "close"]
    # The syncs of the first open are the first two.
    opened, later, folder = ["fsync sync", "fsync log"], ["OK", "OK 1", "OK 1 2 3 aa", "OK", "OK", "OK 0", "OK"], "FAULT EIO fsync folder"
    os.mkdir(f"{room}/sync")
    write(log, HEADER + B)
    driver = ["strace", "-y", "-o", f"{room}/TRACE", "-e", "inject=fsync:error=EIO:when=3", made.get("steps", made["C11"])]
    wanted = ["OK", "OK", "FAULT EIO fsync log", "BROKEN", "BROKEN", "BROKEN", *later]
    trials.want("a sync that fails", asked(driver, "write", log, 0, lines)[1], wanted)
    trials.want("the log then", read(log), HEADER + B + A)
    calls = re.findall(r"(?m)^(fsync|rename)\w*\(\d+<([^>]*)>", read(f"{room}/TRACE").decode())
    names = [call if call == "rename" else f"{call} {os.path.basename(path)}" for call, path in calls]
    trials.want("its syncs", names, [*opened, "fsync log", "fsync log.recompact", "rename", *opened, *opened])
    trials.want("another writer opens the log", asked([made.get("steps", made["C11"])], "write", log, 0, ["open", FIND, "close"])[1], ["OK", "OK 1 2 3 aa", "OK"])
    # Behind the rename of a rewriting: the log is the new one, and the folder is not asked to keep its name once more.
    write(log, HEADER + A + B)
    driver = ["strace", "-y", "-o", f"{room}/TRACE", "-e", "inject=fsync:error=EIO:when=4", made.get("steps", made["C11"])]
    said = asked(driver, "write", log, 0, ["open", "recompact", "recompact", "close", "open", "open"])[1]
    trials.want("a sync of the folder that fails behind a rename", said, ["OK", folder, "BROKEN", "BROKEN", folder, folder])
    trials.want("the syncs that are asked for", len(re.findall(rb"(?m)^fsync\(", read(f"{room}/TRACE"))), 4)
    # In an open: the writer is closed, and the next open makes a new file, or is refused.
    for nth, why, later in ((1, "folder", [folder, "NOT_OPEN", "NOT_OPEN"]), (2, "log", ["OK", "OK 1", "OK"])):
        write(log, HEADER + B + b"4\t5")
        driver = ["strace", "-o", f"{room}/TRACE", "-e", f"inject=fsync:error=EIO:when={nth}", made.get("steps", made["C11"])]
        wanted = [f"FAULT EIO fsync {why}", "OK 0", *later]
        trials.want(f"a sync of the {why} that fails in an open", asked(driver, "write", log, 0, ["open", "is_open", "open", "rewrote", "close"])[1], wanted)
        trials.want("the log then", read(log), HEADER + B + (b"4\t5" if why == "folder" else b""))
    # Permissions that can't be kept, and then of a scratch: the log is as it was, and its own syncs count.
    write(log, HEADER + B)
    os.chmod(log, 0o666)
    driver = ["strace", "-o", f"{room}/TRACE", "-e", "inject=fchmod:error=EPERM", made.get("steps", made["C11"])]
    said = asked(driver, "write", log, 0, ["open", "recompact", "close", "open", "rewrote", "close"])[1]
    trials.want("an fchmod that fails", said, ["OK", "FAULT EPERM fchmod scratch", "BROKEN", "OK", "OK 0", "OK"])
    trials.want("the log then", read(log), HEADER + B)
    os.remove(log)
    write(log, HEADER + B)
    driver = ["strace", "-o", f"{room}/TRACE", "-e", "inject=fsync:error=EIO:when=3", made.get("steps", made["C11"])]
    said = asked(driver, "write", log, 0, ["open", "recompact", "close", "open", "rewrote", "close"])[1]
    trials.want("a sync of a scratch that fails", said, ["OK", "FAULT EIO fsync scratch", "BROKEN", "OK", "OK 0", "OK"])


def writes_that_fail(trials, made, room):
    """A write of a record that fails breaks the writer until it is opened again; a close syncs what was recorded, and no more than that."""
    log = f"{room}/writes.log"
    write(log, HEADER + B)
    driver = ["strace", "-o", f"{room}/TRACE", "-P", log, "-e", "inject=write:error=ENOSPC:when=1", made.get("steps", made["C11"])]
    said = asked(driver, "write", log, 0, ["open", RECORD, RECORD, "sync", "recompact", "count", "is_open", "close", "open", RECORD, "close"])[1]
    trials.want("a write that fails", said, ["OK", "FAULT ENOSPC write log", *["BROKEN"] * 4, "OK 0", "BROKEN", "OK", "OK", "OK"])
    trials.want("the log then", read(log), HEADER + B + A)
    for lines, wanted in ((["open", RECORD, "close"], ["fsync", "write", "fsync"]), (["open", RECORD, "sync", "close"], ["fsync", "write", "fsync"]), (["open", "close"], ["fsync"])):
        run(["strace", "-o", f"{room}/TRACE", "-P", log, made.get("steps", made["C11"]), "write", log, "0"], input="\n".join(lines).encode() + b"\n", stdin=None)
        trials.want(f"the calls of {lines}", re.findall(r"(?m)^(fsync|write)\(", read(f"{room}/TRACE").decode()), wanted)


# The calls of the system that a call of the writer makes, alone and where the log is shared.
HELD = f"record 7 8 9 cc {hexed(b'held')}"
COSTS = {
    RECORD: (["write"], ["flock", "stat", "write", "lseek", "flock"]),
    BEGIN_A: (["write"], ["flock", "stat", "write", "lseek", "flock"]),
    BEGIN_A_AGAIN: ([], ["flock", "stat", "flock"]),
    "sync": (["stat", "fsync"], ["flock", "stat", "fsync", "flock"]),
    FIND: ([], []),
    "hold": ([], ["flock", "stat"]),
    HELD: (["write"], ["write", "lseek"]),
    "release": ([], ["flock"]),
}


def costs(trials, made, room):
    """How many calls of the system a record, an intent, a sync and a look-up make."""
    log = f"{room}/costs.log"
    for is_shared in (False, True):
        write(log, HEADER + B)
        lines = [*(["shared"] if is_shared else []), "open", RECORD, RECORD, BEGIN_A, BEGIN_A_AGAIN, "sync", FIND, "hold", HELD, HELD, "release", "close"]
        asked(["strace", "-o", f"{room}/TRACE", made["C11"]], "write", log, 0, lines)
        parts, calls = [], []
        for call in re.findall(r"(?m)^(\w+)\((\d*)", read(f"{room}/TRACE").decode()):
            if call == ("write", "1"):
                parts, calls = [*parts, calls], []
            else:
                calls.append(re.sub(r"^newf?stat(at)?$|^fstat(at64)?$", "stat", call[0]))
        for line, found in zip(lines, parts):
            if line in COSTS:
                trials.want(f"the calls of {line[:10]}, {'shared' if is_shared else 'alone'}", found, COSTS[line][is_shared])


def joins(trials, made, room):
    """What others append to a log that is shared: it alone is read, and nothing is synced for it. Where it isn't all whole lines of entries, or
    the log was cut or replaced, the log is read and opened anew, repaired. And how often a lock is asked for."""
    log, many = f"{room}/joins.log", b"".join(line_of(b"out%d" % i, (i, i, i, i)) for i in range(20000))
    long_lines = b"".join(line_of(b"%d" % i + LONG[1:], (i, i, i, i)) for i in range(9))
    rows = [
        ("nothing", b"", b"", False),
        ("a line", A, A, False),
        ("more lines than a block holds", A + long_lines + A, A + long_lines + A, False),
        ("a line that is no entry", A + b"x\n", A + b"x\n", True),
        ("a number of another spelling", A + b"01\t2\t3\tc\taa\n", A + b"01\t2\t3\tc\taa\n", True),
        ("a torn line", A + b"4\t5", A, True),
        ("a part of a line", b"4\t5", b"", True),
        ("a longer line than an entry's", b"x" * 300000 + b"\n" + A, b"x" * 300000 + b"\n" + A, True),
        ("a longer part of a line than an entry's", A + b"x" * 300000, A, True),
    ]
    for first in (HEADER, V7):
        for what, more, stands, is_anew in rows:
            about = f"version {chr(first[13])}, another appends {what}: "
            write(log, first + many)
            words = ["strace", "-o", f"{room}/TRACE", made["C11"], "write", log, "0"]
            writer = subprocess.Popen(words, stdin=subprocess.PIPE, stdout=subprocess.PIPE)
            lines = ["shared", "open", f"record -1 0 -5 ffffffffffffffff {hexed(b'd')}"]
            trials.want(f"{about}a shared log", [answers_of(writer, it) for it in lines], ["OK"] * 3)
            with open(log, "ab") as it:
                it.write(more)
            lines, new = [f"record 4 5 6 bb {hexed(b'b')}", "count", "version"], Log(first.replace(b"v7", b"v5") + stands)
            wanted = ["OK", f"OK {20002 + len(new.table)}", f"OK {chr(first[13])}"]
            trials.want(f"{about}a record", [answers_of(writer, it) for it in lines], wanted)
            trials.want(f"{about}it is found", answers_of(writer, FIND), "OK 1 2 3 aa" if A in stands else "NOT_FOUND")
            trials.want(f"{about}a close", answers_of(writer, "close"), "OK")
            writer.communicate()
            trials.want(f"{about}the log", read(log), first + many + D + stands + B)
            calls = re.split(r"(?m)^write\(1.*$", read(f"{room}/TRACE").decode())[3]
            trials.want(f"{about}whether it is synced", "fsync(" in calls, is_anew)
            got = sum(int(it) for it in re.findall(r"(?m)^pread64\(.* = (\d+)$", calls))
            trials.check(f"{about}how much is read", got == len(more) if not is_anew else got >= len(many), f"{got} bytes")
    # What another cuts off, or puts in the log's place, is read anew.
    for about, change in (("cut", lambda: os.truncate(log, len(HEADER + A))), ("replaced", lambda: os.rename(f"{log}.new", log))):
        write(log, HEADER + A + B)
        write(f"{log}.new", HEADER + A)
        writer = subprocess.Popen([made["C11"], "write", log, "0"], stdin=subprocess.PIPE, stdout=subprocess.PIPE)
        trials.want(f"a shared log that is {about}", [answers_of(writer, it) for it in ("shared", "open")], ["OK"] * 2)
        change()
        lines = [f"record -1 0 -5 ffffffffffffffff {hexed(b'd')}", "count", f"find {hexed(b'b')}", "close"]
        trials.want(f"{about}: a record", [answers_of(writer, it) for it in lines], ["OK", "OK 2", "NOT_FOUND", "OK"])
        writer.communicate()
        trials.want(f"{about}: the log", read(log), HEADER + A + D)
    # A log that is due by what others append is rewritten by the next open.
    write(log, HEADER + A)
    writer = subprocess.Popen([made["C11"], "write", log, "0"], stdin=subprocess.PIPE, stdout=subprocess.PIPE)
    trials.want("a shared log that gets due", [answers_of(writer, it) for it in ("shared", "open")], ["OK"] * 2)
    with open(log, "ab") as it:
        it.write(A * 200)
    trials.want("it isn't rewritten by a record", [answers_of(writer, it) for it in (f"record 4 5 6 bb {hexed(b'b')}", "close")], ["OK"] * 2)
    trials.want("the log then", read(log), HEADER + A * 201 + B)
    trials.want("but by an open", [answers_of(writer, it) for it in ("open", "rewrote", "close")], ["OK", "OK 1", "OK"])
    writer.communicate()
    trials.want("the log at last", read(log), HEADER + A + B)


def pauses(trials, made, room):
    """A lock is asked for often at first, for those that take turns; and the wait ends by the clock, also where a pause takes longer than it was to."""
    log = f"{room}/pauses.log"
    write(log, HEADER)
    for wait, late in ((100, 0), (500, 0), (500, 50), (500, 700)):
        with open(log, "rb") as held:
            fcntl.flock(held, fcntl.LOCK_EX)
            words = ["strace", "-ttt", "-o", f"{room}/TRACE", "-e", "trace=flock,ppoll", "-e", f"inject=ppoll:delay_exit={late * 1000}", made["C11"]]
            trials.want(f"a wait of {wait} ms, each pause {late} late", asked(words, "write", log, 0, [f"wait {wait}", "open"])[1], ["OK", "LOCKED EWOULDBLOCK flock log"])
        found = [(float(at) * 1000, int(ns or 0) / 1e6) for at, ns in re.findall(r"(?m)^([\d.]+) (?:flock|ppoll).*?(?:tv_nsec=(\d+)|$)", read(f"{room}/TRACE").decode())]
        asked_for = [it for it in found if it[1] > 0]
        about = f"the pauses of a wait of {wait} ms, each {late} late"
        trials.check(f"{about}: one of a millisecond, and no longer ones than 20", asked_for[0][1] == 1 and all(0 < it <= 20 for _, it in asked_for), asked_for)
        trials.check(f"{about}: longer by and by", all(pause <= 1 + (at - found[0][0]) / 16 for at, pause in asked_for), asked_for)
        trials.check(f"{about}: no more than the wait", sum(pause + late for _, pause in asked_for[:-1]) <= wait, asked_for)
        trials.want(f"{about}: a lock is asked for before and behind each", len(found), 2 * len(asked_for) + 1)


def signals(trials, made, room):
    """Calls that signals interrupt, each of them every other time: all is done. A wait for a lock takes no less time."""
    log = f"{room}/signals.log"
    for call in ("openat", "flock", "pread64", "ftruncate", "fsync", "write"):
        write(log, HEADER + B + b"4\t5")
        # The log and its scratch are opened by their folder.
        paths = [it for path in (room, log, f"{log}.recompact") for it in ("-P", path)]
        driver = ["strace", "-o", f"{room}/TRACE", *paths, "-e", f"inject={call}:error=EINTR:when=1+2", made["C11"]]
        said = asked(driver, "write", log, 0, ["open", RECORD, "sync", "recompact", "close"])[1]
        trials.want(f"{call} that is interrupted", said, ["OK"] * 5)
        trials.want("the log then", read(log), HEADER + B + A)
        trials.check("it was interrupted", b"EINTR" in read(f"{room}/TRACE"))
    write(log, HEADER)
    with open(log, "rb") as held, Pauses() as clock:
        fcntl.flock(held, fcntl.LOCK_EX)
        driver = ["strace", "-o", f"{room}/TRACE", "-e", "trace=flock", "-e", "inject=flock:error=EINTR:when=2+3", made["C11"]]
        said = asked(driver, "write", log, 0, ["open", "took"])[1]
        trials.want("flocks that are interrupted", said[:1], ["LOCKED EWOULDBLOCK flock log"])
        took(trials, "10 seconds pass all the same", said[1], 10000, clock)


def replaced(trials, made, room):
    """A log that is rewritten between the open of its file and the lock: the lock is one of a file without a name, and the new one is opened."""
    log = f"{room}/replaced.log"
    for wait in (10000, 0):
        write(log, HEADER + B)
        words = ["strace", "-o", f"{room}/TRACE", "-e", "trace=flock", "-e", "inject=flock:delay_enter=1500000:when=1", made["C11"], "write", log, "0"]
        waiting = subprocess.Popen(words, stdin=subprocess.PIPE, stdout=subprocess.PIPE)
        waiting.stdin.write(f"wait {wait}\nopen\n{RECORD}\nclose\n".encode())
        waiting.stdin.flush()
        # (its call is late by 1.5 seconds)
        until_open(waiting, log)
        write(f"{log}.new", HEADER + D)
        os.rename(f"{log}.new", log)
        trials.want(f"a log that is rewritten before the lock, with a wait of {wait} ms", waiting.communicate(timeout=SECONDS)[0], b"NLOG_OK\n" * 4)
        trials.want("the new log has the record", read(log), HEADER + D + A)
        trials.want("it was locked twice", len(re.findall(rb"(?m)^flock\(.*LOCK_EX", read(f"{room}/TRACE"))), 2)


def by_path(line, folders):
    """A call of a trace as if it were by paths: the library names a file by the folder that it holds open. An unlock is as the close that follows
    it, and no effect of a command."""
    line = re.sub(r"^flock\([^,]*, LOCK_UN\)", "flock(LOCK_UN)", line)
    return re.sub(r'(\d+)(?:<[^>]*>)?, "([^"/]+)"', lambda it: f'AT_FDCWD, "{folders[it[1]]}{it[2]}"' if it[1] in folders else it[0], line)


def traced_by_path(program, case, room, inject=()):
    ended, calls = TRACED(program, case, room, inject)
    return ended, [by_path(it, dict.fromkeys(re.findall(rf"(\d+)<{re.escape(room)}>", it), f"{room}/")) for it in calls]


def follow_by_path(disk, trace, room):
    """As `follow`, whose traces have each byte of a path in hexadecimal digits."""
    folders, lines = {}, []
    for line in trace.split("\n"):
        lines.append(by_path(line, folders))
        opened = re.match(r'openat\(AT_FDCWD, "([^"]*)".*\) = (\d+)$', line)
        if opened and bytes.fromhex(opened[1].replace("\\x", "")).decode(errors="replace") == room:
            folders[opened[2]] = opened[1] + "\\x2f"
        closed = re.match(r"close\((\d+)\)", line)
        if closed:
            folders.pop(closed[1], None)
    return FOLLOW(disk, "\n".join(lines), room)


TRACED, FOLLOW = system_calls.traced, crash_states.follow


def by_the_rules_of_the_program(trials, made, room):
    """The trials of the program's system calls, of writes that are cut, of a full disk, of `apply`, and of what a crash may leave, on the tool."""
    if "tool" not in made:
        return
    system_calls.traced, crash_states.follow = traced_by_path, follow_by_path
    # (the library looks at the log's name in places of its own: `moved`, `kept_away` and `changed_between` try what that is for)
    system_calls.LOOKS_FIRST, system_calls.note = False, lambda *_: b""
    # (its `repair` is an open and a rewriting)
    system_calls.REPAIRS_WHOLE = False
    wanted, done = system_calls.effects_wanted, system_calls.effect

    def wanted_of_tool(case):
        """The library syncs the folder before the log; and behind the change the log alone, since its folder is durable since the open, or since the
        rename."""
        found = [it for it in wanted(case) if it != "look LOG"]
        for at in range(len(found) - 1):
            if found[at : at + 2] == ["sync LOG", "sync folder"]:
                found[at : at + 2] = ["sync folder", "sync LOG"]
        return [*found[:-2], found[-1]] if found[-2:] == ["sync folder", "sync LOG"] else found

    system_calls.effects_wanted = wanted_of_tool
    system_calls.effect = lambda *call: None if done(*call) == "look LOG" else done(*call)
    passed = {}

    def part(name, work):
        before, trials.about = trials.passed + trials.failed, f"the tool, {name}: "
        os.mkdir(f"{room}/{name}")
        work(f"{room}/{name}")
        trials.about = ""
        passed[name] = trials.passed + trials.failed - before

    def calls(folder):
        with ThreadPoolExecutor(os.cpu_count()) as pool:
            for number, case in enumerate(system_calls.CASES):
                system_calls.sweep(trials, made["tool"], case, f"{folder}/{number}", pool, False)

    def applied(folder):
        with ThreadPoolExecutor(os.cpu_count()) as pool:
            for number, (name, (text, version)) in enumerate(apply_calls.KINDS.items()):
                apply_calls.sweep(trials, made["tool"], apply_calls.Kind(name, text, version), f"{folder}/{number}", pool)

    def crashes(folder):
        with multiprocessing.Pool(os.cpu_count(), Worker.begin, (made["tool"], folder)) as pool:
            sweep = Sweep(trials, pool)
            print(f"clib.py: {crash_states.sweep_all(sweep, 100, 500)}")
            sweep.end()

    def full(folder):
        why = full_disk.mount(f"{folder}/disk")
        if why is not None:
            trials.skip("a full disk", f"no tmpfs may be mounted here ({why})")
            return
        try:
            for command in full_disk.CHANGES:
                for end in full_disk.ENDS:
                    full_disk.try_full(trials, made["tool"], f"{folder}/disk", command, end)
            for kind, start in full_disk.REPAIRS.items():
                # (its open cuts a torn line before the rewriting)
                full_disk.try_repair(trials, made["tool"], f"{folder}/disk", kind, start, start[: full_disk.Log(start).whole])
        finally:
            run(["umount", f"{folder}/disk"])

    part("short writes", lambda folder: short_writes.trial(trials, made["tool"], folder))
    part("full disk", full)
    if may_trace(trials, room):
        part("system calls", calls)
        part("apply", applied)
        part("crashes", crashes)
    print(f"clib.py: of the tool: {', '.join(f'{count} on {name}' for name, count in passed.items())}")


# ---- Other languages, and time ----


def by_rust(trials, made, room):
    if "rust" not in made:
        return
    write(f"{room}/rust.log", HEADER + A + b"4\t5")
    trials.want("a program in Rust", run([made["rust"], f"{room}/rust.log"]), (0, b"a 3\nout.o 7\nnot a ninja log\n", b""))
    trials.want("the log then", read(f"{room}/rust.log"), HEADER + A + line_of(b"out.o", (1, 2, 7, command_hash(b"cc"))))


def records(trials, made, room):
    """The time of a record beside that of fprintf and fflush of the same line, of outputs that come again, and of new ones, and of a shared log."""
    count = 100_000
    for kind, outputs, how in (("an output that comes again", count // 10, []), ("a new output", count, []), ("a shared log", count // 10, ["shared"]), ("a shared log that is held", count // 10, ["held"])):
        write(f"{room}/plain.log", HEADER)
        write(f"{room}/ours.log", HEADER)
        status, out, _ = run([made["C11"], "time", f"{room}/ours.log", f"{room}/plain.log", str(count), str(outputs), *how])
        ours, theirs = (int(it) for it in out.split()) if status == 0 else (0, 1)
        text = read(f"{room}/ours.log") if status == 0 else b""
        trials.want(f"as many lines, each of {kind}", text.count(b"\n"), count + 1)
        trials.want(f"the lines that fprintf wrote, each of {kind}", text == read(f"{room}/plain.log"), True)
        print(f"clib.py: a record of {kind} takes {ours} ns, fprintf and fflush of the line {theirs} ns: {ours / theirs:.2f} times as long")


def trial(trials, program, room):
    header(trials, program)
    for word in ("rt", "cc", "ar", "nm", "objcopy"):
        if shutil.which(word) is None:
            trials.skip("all but the header", f"{word} isn't there")
            return
    made = build(trials, room)
    if "C11" not in made:
        return
    os.mkdir(f"{room}/steps-taken")
    os.environ["NLOG_STEPS"] = f"{room}/steps-taken"
    prototypes(trials, room)
    names(trials, room)
    linked(trials, made, room)
    reads(trials, made, room)
    hashes(trials, made, room)
    lines(trials, made, room)
    damage(trials, made, program, room)
    misuse(trials, made, room)
    large(trials, made, room)
    by_ctypes(trials, made, room)
    pages(trials, room)
    openings(trials, made, room)
    turns(trials, made, room)
    failing(trials, made, room)
    refusals(trials, made, room)
    refused_anew(trials, made, room)
    kept_memory(trials, made, room)
    readers(trials, made, room)
    locks(trials, made, program, room)
    forks(trials, made, room)
    waits(trials, made, room)
    holds(trials, made, room)
    lives_on(trials, made, room)
    kept_away(trials, made, room)
    moved(trials, made, room)
    changed_between(trials, made, program, room)
    at_once(trials, made, program, room)
    shares(trials, made, program, room)
    killed(trials, made, room)
    if may_trace(trials, room):
        syncs_that_fail(trials, made, room)
        writes_that_fail(trials, made, room)
        costs(trials, made, room)
        joins(trials, made, room)
        pauses(trials, made, room)
        signals(trials, made, room)
        replaced(trials, made, room)
    clib_ends.trial(trials, made, room, may_trace(trials, room))
    clib_looks.trial(trials, made, room)
    clib_wary.trial(trials, made, room)
    clib_plans.trial(trials, made, program, room, may_trace(trials, room))
    clib_shared.trial(trials, made, room)
    clib_names.trial(trials, made, room)
    clib_rights.trial(trials, made, room)
    clib_systems.trial(trials, made, room)
    clib_packages.trial(trials, made, program, room)
    by_the_rules_of_the_program(trials, made, room)
    if "steps" in made:
        clib_steps.steps(trials, f"{room}/steps-taken")
    by_rust(trials, made, room)
    records(trials, made, room)


if __name__ == "__main__":
    sys.exit(main(__file__, trial))
