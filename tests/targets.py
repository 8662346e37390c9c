#!/usr/bin/env python3
"""Tries nlog for ARM64, which qemu-aarch64 runs, and over musl: the program and the library for C, by what the trials of x86-64 ask.

    python3 tests/targets.py

The program for ARM64 is asked what examples.py, commands.py, apply.py and the first thousand of fuzz.py ask, and system_calls.py of what goes well. The
library's driver is built for ARM64 and over musl, and asked what clib.py asks of reading, hashes, lines and writing. What measures memory or a process of
another kind is left out under qemu-aarch64: it is one itself.

Wants rt, which proves both for ARM64 where tests/verdicts.py didn't; aarch64-linux-gnu-gcc and its tools, qemu-aarch64, strace; musl-gcc. Each that is
missing is said.
"""
import os
import re
import shutil
import sys
import tempfile

import apply
import clib
import commands
import examples
import system_calls
from changes import CASES
from clib_driver import STRICT_DRIVER
from trials import BUILD_SECONDS, Trials, in_memory, main_alone, run, usage, write

TOP = os.path.dirname(os.path.dirname(os.path.abspath(__file__)))
FUZZED = 1000
# What a limit on memory says of a program, it says of qemu-aarch64.
LIMITED = "ulimit -v"


def by_qemu(path, program):
    """A program for this system that has qemu-aarch64 run one for ARM64."""
    write(path, f"#!/bin/sh\nexec qemu-aarch64 -0 nlog '{program}' \"$@\"\n")
    os.chmod(path, 0o755)
    return path


def has(trials, what, *tools):
    missing = [it for it in tools if shutil.which(it) is None]
    if missing:
        trials.skip(what, f"{', '.join(missing)} isn't there")
    return not missing


def try_examples(trials, program):
    listed = examples.commands_of(program)
    trials.check("the program's help lists commands", listed)
    for page in examples.PAGES:
        examples.try_page(trials, page, program, listed, lambda it: LIMITED not in it.command)


def try_program(trials, folder, room):
    made = run([f"{TOP}/lib/program.sh", "--target", "aarch64", f"{folder}/nlog-arm64"], timeout=BUILD_SECONDS)
    if not trials.check("lib/program.sh makes the program for ARM64", made[0] == 0, (made[1] + made[2])[-600:].decode(errors="replace")):
        return
    program = by_qemu(f"{folder}/nlog", f"{folder}/nlog-arm64")
    trials.about = "the program for ARM64: "
    try_examples(trials, program)
    for part in (commands, apply):
        os.mkdir(f"{room}/{part.__name__}")
        part.trial(trials, program, f"{room}/{part.__name__}")
    said = run([sys.executable, f"{TOP}/tests/fuzz.py", program, f"{FUZZED}"])[1].decode(errors="replace")
    passed, failed = map(int, re.search(r"(\d+) passed, (\d+) failed\n$", said).groups())
    trials.passed += passed
    trials.want(f"fuzz.py, of which {passed} passed: {said[:600]}", failed, 0)
    if has(trials, "the system calls of the program for ARM64", "strace"):
        for number, case in enumerate(CASES):
            for _ in system_calls.Sweep(trials, program, case, f"{room}/calls{number}").undisturbed():
                pass


def try_library(trials, what, words, env, runner, room):
    """The library by a compiler: its driver, asked what reads, and what writes."""
    os.mkdir(room)
    archive = f"{room}/libnlog.a"
    made = run([f"{TOP}/lib/archive.sh", *words, archive], env={**os.environ, **env}, timeout=BUILD_SECONDS)
    if not trials.check(f"lib/archive.sh makes the library {what}", made[0] == 0, (made[1] + made[2])[-600:].decode(errors="replace")):
        return
    compiler = env.get("CC", "aarch64-linux-gnu-gcc")
    for how, more in (("static", ["-static", archive]), *[("shared", [f"-L{room}", "-lnlog", f"-Wl,-rpath,{room}"])] * (compiler != "musl-gcc")):
        trials.about = f"the {how} library {what}: "
        ran = run([compiler, *STRICT_DRIVER, *more, "-o", f"{room}/{how}"])
        if not trials.check("the driver is built without a warning", ran[0] == 0 and not ran[2], ran[2][-600:].decode(errors="replace")):
            continue
        driver = {"C11": runner(f"{room}/run-{how}", f"{room}/{how}")}
        for part in (clib.reads, clib.hashes, clib.lines, clib.turns):
            os.makedirs(f"{room}/{how}-{part.__name__}")
            part(trials, driver, f"{room}/{how}-{part.__name__}")


def main():
    trials = Trials(__file__)
    if len(sys.argv) != 1:
        return usage(__file__, "")
    cross = [f"aarch64-linux-gnu-{it}" for it in ("gcc", "ar", "nm", "objcopy", "strip")]
    with tempfile.TemporaryDirectory() as folder, tempfile.TemporaryDirectory(dir=in_memory()) as room:
        if has(trials, "the program for ARM64", "rt", *cross, "qemu-aarch64"):
            os.environ["QEMU_LD_PREFIX"] = "/usr/aarch64-linux-gnu"
            try_program(trials, folder, room)
            try_library(trials, "for ARM64", ["--target", "aarch64"], {}, by_qemu, f"{room}/arm64")
        trials.about = ""
        if has(trials, "the library over musl", "rt", "musl-gcc", "ar", "nm", "objcopy"):
            try_library(trials, "over musl", [], {"CC": "musl-gcc"}, lambda _, program: program, f"{room}/musl")
    return trials.end()


if __name__ == "__main__":
    sys.exit(main_alone(__file__, main))
