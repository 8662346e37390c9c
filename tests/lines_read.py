#!/usr/bin/env python3
"""Whether each line of a log is read once as nl_builds makes its builds: the calls that read one are counted under valgrind.

    python3 tests/lines_read.py

No clause speaks of how often a line is read. An entry line is read by `read_entry`, which looks through its name by `first_forbidden`; the compiler may
put either into its caller, and the other is counted then. A program over the libraries that the gate made, as Rattle's own compiler makes it, reads
logs of each version, as written, written anew and with intents. Skipped where valgrind, `rt` or a library of the gate is missing.
"""
import os
import re
import shutil
import subprocess
import sys
import tempfile

import edits
from trials import Trials, main_alone, run, write

TOP = os.path.dirname(os.path.dirname(os.path.abspath(__file__)))
PROGRAM = """//! How many entries and builds a log of standard input has.
#![tactic(auto)]

use nl_builds::read_builds;
use nl_table::NO_SECRET;
use std::io;
use std::io::Read;

fn main(rt: HostRuntime) -> io::Result<()> {
    let mut text = Vec::new(rt.alloc());
    rt.stdin().read_to_end(&mut text)?;
    match read_builds(rt.alloc(), NO_SECRET, text.as_slice()) {
        Ok(log) => {
            let entries = log.told.entries.len();
            let builds = log.told.builds.len();
            println!(rt; "{entries} {builds}")?;
        }
        Err(fault) => println!(rt; "{fault}")?,
    }
    Ok(())
}
"""
COUNT = 400
READERS = ["read_entry", "first_forbidden"]


def line(number, began, name=None):
    return f"{number}\t{number + 20}\t{began + number * 10**6}\t{name or f'out/{number}.o'}\t{number:x}\n"


def intent(number):
    return f"{number}\t{number}\t0\tout/{number}.o\t{number:x}\n"


def logs():
    """Of each log its name, its lines behind the header, and how many entries are of commands."""
    began, later = 10**18, 10**18 + 10**12
    half = COUNT // 2
    first = [line(i, began) for i in range(half)]
    second = [line(i, later, f"out/{i + half}.o") for i in range(half)]
    yield "as written", first + second, COUNT
    yield "written anew", [it for both in zip(second, first) for it in both], COUNT
    yield "with intents", [it for i in range(half) for it in (intent(i), line(i, began))], half


def program(room):
    """Builds the program over the libraries of the gate, and says what was wrong."""
    kit, crates = edits.kit_of(), edits.crates(TOP)
    words = [*crates["nl_builds"].words(kit)]
    folder = f"{room}/told/src"
    os.makedirs(folder)
    write(f"{folder}/main.rt", PROGRAM.encode())
    words[1:3] = ["told", "src/main.rt"]
    words[words.index("--links") + 1] = "told="
    own = f"nl_builds={crates['nl_builds'].library('nl_builds')}"
    built = ["build", *words, "--extern", own, "--toolchain", f"{kit}/toolchain", "--backend", "rattle", "-o", f"{room}/told.o"]
    linked = ["--target", "x86_64-unknown-linux-gnu", "--toolchain", f"{kit}/toolchain", "-o", f"{room}/program", f"{room}/told.o"]
    for of in ([f"{kit}/bin/rattle", *built], [f"{kit}/bin/rattle-link", *linked, f"{kit}/c/libos_c.a", f"{kit}/c/liblibc_c.a"]):
        ran = subprocess.run(of, cwd=f"{room}/told", stdout=subprocess.PIPE, stderr=subprocess.STDOUT, text=True, errors="replace", check=False)
        if ran.returncode:
            return ran.stdout[-900:]
    return None


def calls(profile):
    """How often the reader of a line that the compiler left a function was called, by callgrind."""
    with open(profile, encoding="utf-8") as it:
        text = it.read()
    of = [found[1] for name in READERS if (found := re.search(rf"(?m)^c?fn=(\(\d+\)) \S*::{name}$", text))]
    return sum(map(int, re.findall(rf"(?m)^cfn={re.escape(of[0])}(?: .*)?\ncalls=(\d+)", text))) if of else None


def main():
    trials = Trials(__file__)
    libraries = [f"{TOP}/crates/{it}/out/rlib/{it}.rlib" for it in ("nl_fields", "nl_lines", "nl_table", "nl_folder", "nl_versions", "nl_builds")]
    missing = [it for it in ("rt", "valgrind") if shutil.which(it) is None] + [os.path.relpath(it, TOP) for it in libraries if not os.path.isdir(it)]
    if missing:
        trials.skip("how often a line is read", f"{missing[0]} isn't there")
        return trials.end()
    with tempfile.TemporaryDirectory() as room:
        wrong = program(room)
        if trials.check("a program over nl_builds", wrong is None, wrong):
            for name, lines, kept in logs():
                for version in (5, 6, 7):
                    text = f"# ninja log v{version}\n{''.join(lines)}".encode()
                    said = run(["valgrind", "-q", "--tool=callgrind", f"--callgrind-out-file={room}/calls", f"{room}/program"], input=text, stdin=None)
                    what = f"a log of version {version}, {name}"
                    trials.want(f"{what}: its entries", said[1].split()[:1], [b"%d" % kept])
                    trials.want(f"{what}: calls that read a line", calls(f"{room}/calls"), len(lines))
    return trials.end()


if __name__ == "__main__":
    sys.exit(main_alone(__file__, main))
