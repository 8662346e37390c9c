#!/usr/bin/env python3
"""Runs the tests of tests/library: those of the libraries that a run of the program doesn't show.

A test is run and not proved, since a proof of a test says nothing of what it asserts: so they are no crates of their own, which the gate
would prove, but files of Rattle that are put into one crate here, built once by `rt try`, with checks, and run one by one.

    python3 tests/library.py [NAME]

NAME is a folder of tests/library: its tests alone. Wants `rt`, and no proof; it is skipped where that is missing.
"""
import os
import re
import shutil
import sys
import tempfile

from trials import BUILD_SECONDS, SECONDS, Trials, choose, read, run, usage, write

TOP = os.path.dirname(os.path.dirname(os.path.abspath(__file__)))
LIBRARY = f"{TOP}/tests/library"
# `growths.py` runs those of `growths`.
PARTS = ["fields", "lines", "table", "builds", "folder", "files", "system", "session", "words", "disk", "program", "reports", "doubt", "distrust", "looks"]
CRATE = "nl_library_tests"
USES = "nl_fields nl_lines nl_table nl_builds nl_folder nl_versions nl_files nl_session nl_tool_words nl_tool_texts nl_os nl_tool_print nl_reports nl_tool_doubt nl_distrust nl_tool_change nl_tool clap"
TEST = r"(?m)^#\[test\]\nfn (\w+)"


def crates(room, name, uses):
    """Copies the crates that the tests stand on into a folder, with a crate of this name for the tests, and gives the folder of its sources."""
    with open(f"{TOP}/crates.txt", encoding="utf-8") as it:
        write(f"{room}/crates.txt", f"{it.read()}{name}: {uses}\n".encode())
    ignored = shutil.ignore_patterns("out", "edits", "proofs")
    shutil.copytree(f"{TOP}/crates", f"{room}/crates", ignore=ignored)
    src = f"{room}/crates/{name}/src"
    os.makedirs(src)
    return src


def modules(trials, part):
    """The modules that a part of the tests lists, which are all of its files, and the text of each."""
    listed = re.findall(r"(?m)^mod (\w+);$", read(f"{LIBRARY}/{part}.rattle").decode())
    trials.want(f"the files of tests/library/{part}", set(os.listdir(f"{LIBRARY}/{part}")), {f"{it}.rattle" for it in listed})
    return {it: read(f"{LIBRARY}/{part}/{it}.rattle").decode() for it in listed}


def lay_out(trials, src, files, below=""):
    """Whether the files, whose names begin so in tests/library alone, stand as `rt fmt` lays them out."""
    run(["rt", "fmt"], cwd=os.path.dirname(src), timeout=BUILD_SECONDS)
    for file, text in files.items():
        trials.want(f"the layout of tests/library/{file}.rattle", read(f"{src}/{file[len(below):]}.rt"), text)


def tests(trials, room, parts):
    """Makes the tests of these parts into a crate, runs them, and judges each."""
    src, files, names = crates(room, CRATE, USES), {}, set()
    for part in parts:
        files[part] = read(f"{LIBRARY}/{part}.rattle")
        os.mkdir(f"{src}/{part}")
        for module, text in modules(trials, part).items():
            files[f"{part}/{module}"] = text.encode()
            names |= {f"{part}::{module}::{it}" for it in re.findall(TEST, text)}
    import system_bugs  # (it takes the crates from here)
    for part in filter(system_bugs.PLACES.get, parts):
        trials.want(f"the places of bugs that aren't in the source: {part}", system_bugs.misplaced(part), [])
    for file, text in files.items():
        write(f"{src}/{file}.rt", text)
    write(f"{src}/lib.rt", ("#![tactic(auto)]\n\n" + "".join(f"#[cfg(test)]\nmod {it};\n" for it in parts)).encode())
    lay_out(trials, src, files)
    words = ["rt", "try", "--test", "--seconds", str(SECONDS)]
    status, out, err = run(words, cwd=os.path.dirname(src), timeout=BUILD_SECONDS)
    text = (out + err).decode(errors="replace")
    ends = dict(re.findall(r"(?m)^test (\S+) \.\.\. (.*)$", text))
    if not trials.want("the tests that ran", set(ends), names):
        print(text[-3000:])
    for name in sorted(ends):
        said = re.search(rf"(?ms)^test {name} \.\.\. .*?(?=^test |\Z)", text)
        trials.check(name, ends[name] == "ok", said[0])
    trials.want("the status", status, 0)


def main():
    chosen = choose(__file__, PARTS)
    trials, words = Trials(__file__), sys.argv[1:]
    if words and words not in [[it] for it in PARTS]:
        return usage(__file__, f"[{'|'.join(PARTS)}]")
    if shutil.which("rt") is None:
        trials.skip("the tests of the libraries", "rt isn't there")
    else:
        with tempfile.TemporaryDirectory() as room:
            tests(trials, room, words or chosen)
    return trials.end()


if __name__ == "__main__":
    sys.exit(main())
