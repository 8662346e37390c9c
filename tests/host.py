#!/usr/bin/env python3
"""Tries the C that the proved program is linked with: each function of lib/heap.c and lib/program/host.c, by the contracts of the toolchain's
libc/src/heap.rt and os/src/c.rt.

    python3 tests/host.py

tests/clib/host.c calls them in the place of the proved program. It is compiled by cc, under AddressSanitizer, for ARM64, which qemu-aarch64 runs, and
over musl. Wants cc; AddressSanitizer, aarch64-linux-gnu-gcc, qemu-aarch64, musl-gcc. Each that is missing is said.
"""
import os
import shutil
import sys
import tempfile
from errno import EBADF, ENAMETOOLONG, ENOENT, ENOTDIR

from trials import Trials, main_alone, run, usage

TOP = os.path.dirname(os.path.dirname(os.path.abspath(__file__)))
SOURCES = [f"{TOP}/tests/clib/host.c", f"{TOP}/lib/heap.c", f"{TOP}/lib/program/host.c"]
STRICT = ["-std=c11", "-D_POSIX_C_SOURCE=200809L", "-Wall", "-Wextra", "-Wpedantic", "-Werror"]
# How it is compiled, and what runs it. musl gives no words to what runs before `main`, and none is taken there.
WAYS = {
    "cc": (["cc", "-O2"], []),
    "AddressSanitizer": (["cc", "-g", "-fsanitize=address,undefined", "-fno-sanitize-recover=all"], []),
    "a static program": (["cc", "-O2", "-static"], []),
    "ARM64": (["aarch64-linux-gnu-gcc", "-O2", "-static"], ["qemu-aarch64"]),
    "musl": (["musl-gcc", "-O2", "-static"], []),
}
WORDS = [b"", b"one", b"two words", b"\xff\x80=", b"n" * 65_536]
# (AddressSanitizer is to refuse memory as malloc does)
VALUES = {b"ASAN_OPTIONS": b"allocator_may_return_null=1", b"EMPTY": b"", b"A": b"value", b"AB": b"\xc3\xa9", b"LONG": b"v" * 65_536}


def put(text, room):
    """What is answered of a text for a room of so many bytes, and the room with the byte behind it."""
    if text is None:
        return b"-1 " + b"23" * (room + 1)
    answer = len(text) if len(text) <= room else -2
    return b"%d %s" % (answer, text[:room].ljust(room + 1, b"#").hex().encode())


def cases(name, variables):
    """Each line for the driver, with what it has to print, of a process with that name and with these variables in its environment, in order."""
    words = [name, *WORDS]
    entries = [b"%s=%s" % (it, VALUES[it]) for it in variables]
    for at, word in enumerate([*words, None, None]):
        for room in {0, 1, 3, len(word or b""), len(word or b"") + 1, max(len(word or b""), 1) - 1}:
            yield b"arg %d %d" % (at, room), put(word, room)
    yield b"arg %d 4" % (2**64 - 1), put(None, 4)
    for variable in (*VALUES, b"NONE", b"a", b"A=value"):
        value = VALUES.get(variable)
        for room in {0, 1, len(value or b""), len(value or b"") + 1, max(len(value or b""), 1) - 1}:
            yield b"env %s %d" % (variable, room), put(value, room)
    for at, entry in enumerate([*entries, None, None]):
        for room in {0, 2, len(entry or b""), len(entry or b"") + 1, max(len(entry or b""), 1) - 1}:
            yield b"env_at %d %d" % (at, room), put(entry, room)
    yield b"env_at %d 4" % (2**64 - 1), put(None, 4)
    for number in (0, 2, 28, 2**31 - 1):
        yield b"set %d" % number, b"%d %d" % (number, number)
    for align in (1, 2, 4, 8, 16):
        for size in (0, 1, 15, 16, 17, 100_000):
            yield b"alloc %d %d" % (size, align), b"ok aligned"
        yield b"alloc %d %d" % (2**62, align), b"refused not null"
        for old, kept, size in ((0, 0, 16), (16, 16, 16), (16, 16, 100_000), (100_000, 40, 48), (100_000, 100_000, 100_000), (48, 0, 0)):
            yield b"resize %d %d %d %d" % (old, kept, size, align), b"ok aligned %d" % kept
        yield b"resize 48 48 %d %d" % (2**62, align), b"refused aligned 48"
    opened = b"folder closed by exec to read"
    for folder, name, wanted in ((b".", b"here", opened), (b".", b".", opened), (b"here", b"below", opened), (b"here", b"..", opened), (b"here", b"up/", opened),
                                 (b"here", b"up/here", opened), (b"here", b"up", b"-1 %d" % ENOTDIR), (b"here", b"file", b"-1 %d" % ENOTDIR),
                                 (b"here", b"dangling", b"-1 %d" % ENOTDIR), (b"here", b"to-file", b"-1 %d" % ENOTDIR), (b"here", b"none", b"-1 %d" % ENOENT),
                                 (b"here", b"file/", b"-1 %d" % ENOTDIR), (b"here", b"n" * 256, b"-1 %d" % ENAMETOOLONG), (b"none", b"here", b"-1 %d" % EBADF)):
        yield b"open %s %s" % (folder, name), wanted


def try_way(trials, way, compiler, runner, room):
    for it in (compiler[0], *runner):
        if shutil.which(it) is None:
            return trials.skip(f"by {way}", f"{it} isn't there")
    program = f"{room}/{way}"
    made = run([*compiler, *STRICT, *SOURCES, "-o", program])
    if made[0] != 0 and way in ("AddressSanitizer", "a static program") and b"cannot find" in made[2]:
        return trials.skip(f"by {way}", "what it is linked with isn't there")
    if not trials.check(f"{way}: it is compiled without a warning", made[0] == 0 and not made[2], made[2][-600:]):
        return None
    # (qemu-aarch64 takes the name by -0, and turns the environment round)
    asked = list(cases(b"a name", reversed(VALUES) if runner else VALUES))
    words, more = ([*runner, "-0", "a name", program, *WORDS], {}) if runner else ([b"a name", *WORDS], {"executable": program})
    status, out, err = run(words, cwd=f"{room}/files", env=VALUES, input=b"".join(line + b"\n" for line, _ in asked), stdin=None, **more)
    lines = out.split(b"\n")[:-1]
    trials.want(f"{way}: how it ends, with the status of `proved_main`", (status, b"ERROR" in err), (7, False))
    if not trials.want(f"{way}: how many answers", len(lines), len(asked)):
        return None
    for (line, wanted), got in zip(asked, lines):
        trials.want(f"{way}: {line.decode()}", got, wanted)
    return None


def main():
    trials = Trials(__file__)
    if len(sys.argv) != 1:
        return usage(__file__, "")
    with tempfile.TemporaryDirectory() as room:
        os.makedirs(f"{room}/files/here/below")
        for name, to in (("up", ".."), ("dangling", "nothing"), ("to-file", "file")):
            os.symlink(to, f"{room}/files/here/{name}")
        with open(f"{room}/files/here/file", "wb"):
            pass
        for way, (compiler, runner) in WAYS.items():
            try_way(trials, way, compiler, runner, room)
    return trials.end()


if __name__ == "__main__":
    sys.exit(main_alone(__file__, main))
