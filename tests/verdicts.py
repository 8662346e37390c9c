#!/usr/bin/env python3
"""Takes the verdicts on the program and on the library for C, for each processor, over the libraries that the gate left, and keeps what was compiled of
what was proved, where lib/proved.sh looks for it: python3 tests/verdicts.py

Each verdict rests on contracts of foreign functions, which nothing proves: tests/counts has their names, and tests/counts.py holds them to it. They are
the same for each processor. `rt ci` prints three of them alone, nothing of what an earlier run proved, and only of x86-64. The second processor's
verdict takes what the first one's check kept, since most of a proof is of what both have. Wants `rt`, and that `rt ci` has passed.
"""
import os
import re
import subprocess
import sys
import tempfile
from concurrent.futures import ThreadPoolExecutor

from edits import QUIET, TOP, crates, kit_of
from trials import Trials, main_alone, write

# Each part, with what is made of it.
PARTS = {"nlog": "nlog.o", "nl_c": "libnl_c.a"}
TARGETS = ("x86_64", "aarch64")


def verdict(crate, target, kit, jobs, kept):
    """What the verdict on a part for a processor says. The part is compiled, too."""
    folder = f"{crate.folder}/out/{target}"
    os.makedirs(folder, exist_ok=True)
    words = [f"{kit}/bin/rattle", "build", *crate.words(kit, jobs), "--list-axioms", "--incremental", kept, "--target", f"{target}-unknown-linux-gnu"]
    words += ["--toolchain", f"{kit}/toolchain", "--backend", "llvm", "-o", f"{folder}/{PARTS[crate.name]}"]
    return subprocess.run(words, cwd=crate.folder, **QUIET).stdout


def try_part(trials, crate, kit, jobs):
    axioms = {}
    with tempfile.TemporaryDirectory() as kept:
        for target in TARGETS:
            made = f"{crate.folder}/out/{target}/{PARTS[crate.name]}"
            for it in (made, f"{crate.folder}/out/{target}/sources"):
                if os.path.exists(it):
                    os.remove(it)
            said = verdict(crate, target, kit, jobs, kept)
            axioms[target] = re.findall(r"(?m)^  (\S+) +reached$", said)
            proved = re.search(rf"(?m)^logic=proved .*?\baxioms=(\d+)\b.* target={target}-unknown-linux-gnu .*$", said)
            if trials.check(f"{crate.name} is proved for {target}", proved and os.path.exists(made), said[-600:]):
                write(f"{crate.folder}/out/{target}/verdict", f"{proved[0]}\n")
                write(f"{crate.folder}/out/{target}/sources", sources_now())
            if target == TARGETS[0]:
                print(f"{trials.script}: tried {proved[1] if proved else 0} axioms of {crate.name}: {' '.join(sorted(axioms[target]))}")
    for target in TARGETS[1:]:
        trials.want(f"the axioms of {crate.name} for {target}", axioms[target], axioms[TARGETS[0]])


def sources_now():
    """The sum of what was proved, as lib/proved.sh compares it."""
    return subprocess.run([f"{TOP}/lib/proved.sh", "--sources"], stdout=subprocess.PIPE, check=True).stdout


def main():
    trials, kit, listed = Trials(__file__), kit_of(), crates(TOP)
    jobs = len(os.sched_getaffinity(0))
    with ThreadPoolExecutor() as pool:
        for it in [pool.submit(try_part, trials, listed[name], kit, jobs) for name in PARTS]:
            it.result()
    return trials.end()


if __name__ == "__main__":
    sys.exit(main_alone(__file__, main))
