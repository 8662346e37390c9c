"""The driver of the library for C as the trials ask it, and what an open makes of a log: for clib.py and its parts."""
import os
import shutil

from log_format import HEADER, MAX_NAME, Log, as_version, reading_of, text_of
from log_lines import distrusted_of
from trials import run


def hexed(*names):
    return " ".join(it.hex() or "-" for it in names)


TOP = os.path.dirname(os.path.dirname(os.path.abspath(__file__)))
DRIVER = f"{TOP}/tests/clib/driver.c"
STRICT = ["-Wall", "-Wextra", "-Wpedantic", "-Werror", "-D_POSIX_C_SOURCE=200809L", "-I", f"{TOP}/include"]
STRICT_DRIVER = ["-std=c11", "-O2", *STRICT, DRIVER]
A, B = b"1\t2\t3\ta\taa\n", b"4\t5\t6\tb\tbb\n"
D = b"-1\t0\t-5\td\tffffffffffffffff\n"
LONG = b"n" * MAX_NAME
V7 = b"# ninja log v7\n"
RECORD = f"record 1 2 3 aa {hexed(b'a')}"
FIND = f"find {hexed(b'a')}"
STATUS = {"log": "NLOG_OK", "not a ninja log": "NLOG_NOT_A_LOG", "log version not supported": "NLOG_OTHER_VERSION"}


def version_seen(text):
    """The version as one of which a text is seen: 6 or 7 if its first line says so."""
    return {b"# ninja log v6": 6, b"# ninja log v7": 7}.get(text.partition(b"\n")[0], 5)


def asked(driver, how, path, version, lines, **more):
    """Runs the driver on lines: how it ended, with its answers as words behind `NLOG_`."""
    ran = run([*driver, how, path, str(version)], input="\n".join(lines).encode() + b"\n", stdin=None, **more)
    return ran[0], ran[1].decode().replace("NLOG_", "").split("\n")[:-1], ran[2]


def drivers(made):
    return [(name, [made[name]]) for name in ("C11", "C++17", "sanitized", "steps") if name in made]


def opened(text, version):
    """What an open makes of the bytes, by docs/FORMAT.md: its status, the change and the text, both None where it is refused."""
    named = {b"# ninja log v6": 6, b"# ninja log v7": 7}.get(text.partition(b"\n")[0], 5)
    as_asked = as_version(text, version or named)
    status = STATUS[reading_of(as_asked)]
    if status != "NLOG_OK" or version in (6, 7) and text.startswith(b"# ninja log v4\n"):
        return "OTHER_VERSION" if status == "NLOG_OK" else status[5:], None, None
    log = Log(as_asked)
    if log.whole == 0:
        change, whole = "APPEND", HEADER
    elif log.is_due():
        change, whole = "REPLACE", text_of(log.table)
    else:
        change, whole = "CUT" if log.torn else "KEEP", as_asked[: log.whole]
    return "OK", change, as_version(whole, version or named)


def opened_warily(text, version):
    """The same of a writer that drops the entries of outputs that can't be trusted."""
    status, change, whole = opened(text, version)
    doubted = Log(HEADER + distrusted_of(text)).table if status == "OK" else {}
    if not doubted:
        return status, change, whole
    table = Log(as_version(whole, version_seen(whole))).table
    return status, "REPLACE", as_version(text_of({name: it for name, it in table.items() if name not in doubted}), version_seen(whole))


def answers_of(process, line):
    """Asks a driver that runs for one more line, and gives what it answers, as words behind `NLOG_`."""
    process.stdin.write(line.encode() + b"\n")
    process.stdin.flush()
    return process.stdout.readline().decode().replace("NLOG_", "").strip()


def may_trace(trials, room):
    if shutil.which("strace") is None:
        trials.skip("calls of the system that fail, and what a crash leaves", "strace isn't there")
        return False
    if run(["strace", "-o", f"{room}/TRACE", "-e", "inject=write:error=EIO", "true"])[0] != 0:
        trials.skip("calls of the system that fail, and what a crash leaves", "strace may not trace here")
        return False
    return True
