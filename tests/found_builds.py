#!/usr/bin/env python3
"""Tries what `nlog builds` says of the logs of real builds, whose truth is known.

    python3 tests/found_builds.py PROGRAM

The projects are those of bench/builds_found.py: some of each kind, by the machine's ninja, and by those in the folder that NLOG_NINJAS names, as
`ninja-1.12.1/ninja`. Each is built a few times. Its log is looked at as it was written, rewritten by `ninja -t recompact` and by `nlog repair`, and
rewritten on the way and added to since, as each run of CMake does. Of all of them

- each build that is called sure is one that Ninja made, whole, but one at the most: the clock of a busy machine may hide a border;
- of what was written anew nothing is sure, and each build says how many of its outputs later ones may have taken, which is as many or more, but
  for the lines of version 5 that have an older time than their build; and all lines but its own are as many or more at any rate;
- the last build is right in as many as docs/BUILDS.md says, less what so few logs may lack by chance;
- with Ninja 1.11.1, whose logs tell the least, it is right in 90 of 100 logs of hard projects that weren't written anew, and in 95 of 100 of CMake's, less that.

A build as written is right if just its lines are of one build; one that was found again, if it has as many commands and outputs as one, and took as
long. Wants ninja, cc and cmake.
"""
import collections
import concurrent.futures
import os
import re
import shutil
import subprocess
import sys
import tempfile

from trials import main, run, write

TOP = os.path.dirname(os.path.dirname(os.path.abspath(__file__)))
sys.path.insert(0, f"{TOP}/bench")
import builds_found  # noqa: E402
from ninja_builds import entries_of  # noqa: E402

# How many projects there are of each kind, and how often each is built at the most.
KINDS = [("hard", 4, 8), ("easy", 2, 5), ("real", 2, 5), ("cmake", 2, 6), ("cmakegen", 2, 6)]
OLD, *NINJAS = "1.11.1", "1.12.1", "1.13.2"
OLD_KINDS = [("hard", 16, 8), ("easy", 2, 5), ("real", 2, 5), ("cmake", 4, 6), ("cmakegen", 4, 6)]
SEED = 4000
# What the page calls a project, and a log.
PROJECTS = {"hard": "hard", "easy": "easy", "real": "plain", "cmake": "CMake", "cmakegen": "CMake"}
LOGS = {"written": "written", "mixed": "mixed", "recompacted": "anew", "repaired": "anew"}
# The logs of a project are of the same builds, so they are right or wrong together.
TOGETHER, HARD_TOGETHER, CMAKE_TOGETHER = 6, 2, 3
MANIFEST = "build.ninja"

Told = collections.namedtuple("Told", "shape word taken")


def ninjas():
    """Each ninja that is there, by its version."""
    paths = [shutil.which("ninja"), *(f"{os.environ['NLOG_NINJAS']}/ninja-{it}/ninja" for it in NINJAS if "NLOG_NINJAS" in os.environ)]
    asked = ((path, run([path, "--version"])) for path in paths if path and os.path.exists(path))
    return {out.decode().strip(): os.path.abspath(path) for path, (status, out, _) in asked if status == 0}


def shape_of(entries):
    """How many commands and outputs there are, from the first START to the last END, and all commands together."""
    commands = {(it.start, it.end, it.hash) for it in entries}
    return (len(commands), len(entries), max(it.end for it in entries) - min(it.start for it in entries), sum(end - start for start, end, _ in commands))


def repaired_by(program):
    """A rewriter, as those of builds_found."""
    def repaired(known):
        path = known.builds.path("repaired")
        write(path, known.text)
        subprocess.run([program, "repair", path], check=True)
        with open(path, "rb") as it:
            return it.read()
    return repaired


def told_by(program, path):
    """The builds that the program tells of a log."""
    status, out, err = run([program, "builds", path])
    for line in out.decode().splitlines():
        _, *shape, word = line.split("\t")[:6]
        yield Told(tuple(map(int, shape)), word, int(line.split("\t")[6]) if word == "again" else None)
    if status != 0:
        yield Told((0, 0, 0, 0), f"status {status}: {err!r}", None)


class Judge:
    """What the program tells of logs, beside the truth."""

    def __init__(self, trials, program):
        self.trials, self.program = trials, program
        self.count, self.right, self.sure, self.wrong = collections.Counter(), collections.Counter(), 0, 0

    def take(self, about, key, path, kept):
        """Judges one log, and counts it under a key."""
        self.trials.about = f"{about}: {kept['how']}: "
        text = kept["text"].encode(errors="surrogateescape")
        write(path, text)
        entries, labels, told = entries_of(text), kept["labels"], list(told_by(self.program, path))
        places = collections.defaultdict(list)
        for place, label in enumerate(labels):
            places[label].append(place)
        truth = [places[label] for label in sorted(places)]
        if not self.trials.check("each line is of one build", sum(it.shape[1] for it in told) == len(entries) == len(labels), str(told)) or len(truth) < 2:
            return
        shapes = {shape_of([entries[i] for i in it]): it for it in truth}
        # What kept an older time, in version 5: such a line is sorted too early.
        old = [lines[i] for lines in truth for i in builds_found.old_times([entries[i] for i in lines])] if text.startswith(b"# ninja log v5") else []
        alone = {shape_of([entries[i] for i in it]) for it in truth if all(entries[i].name == MANIFEST for i in it)}
        ends, is_right, at = [], [], 0
        for it in told:
            lines = list(range(at, at + it.shape[1]))
            at += it.shape[1]
            is_right.append(it.shape in shapes if it.word == "again" else lines in truth)
            ends.append(it.shape if it.word == "again" else lines)
            if it.word == "sure":
                self.sure += 1
                self.wrong += not is_right[-1]
                if self.wrong == 1 and not is_right[-1]:
                    print(f"found_builds.py: {self.trials.about}sure, and not one that Ninja made: lines {lines[0]} to {lines[-1]} of {text!r}")
                self.trials.check("sure builds are ones that Ninja made", is_right[-1] or self.wrong == 1, f"lines {lines[0]} to {lines[-1]} of {text!r}")
            elif it.word == "again" and is_right[-1] and kept["had"]:
                label = labels[shapes[it.shape][0]]
                lost, early = dict(kept["had"])[label] - it.shape[1], sum(labels[i] > label for i in old)
                self.trials.check("later builds took as many outputs as it says, or fewer", lost <= it.taken + early, f"{lost} of {it}, {early} too early")
                again = sum(other.shape[1] for other in told if other.word == "again") - it.shape[1]
                self.trials.check("later builds took as many outputs as the other builds found again have, or fewer", lost <= again, f"{lost} of {again}")
        last = next(it for it in reversed(truth) if not all(entries[i].name == MANIFEST for i in it))
        found = next((end for it, end in zip(reversed(told), reversed(ends)) if it.shape not in alone), None)
        self.count[key] += 1
        self.right[key] += found == last or found == shape_of([entries[i] for i in last])

    def hold(self, what, shares, together):
        """Of the logs of each key so great a share is right, less what they may lack by chance."""
        logs = [(self.count[key], share) for key, share in shares.items()]
        wanted, spread = sum(n * share for n, share in logs), sum(n * share * (1 - share) for n, share in logs)
        right, least = sum(self.right[key] for key in shares), wanted - 4 * (together * spread) ** 0.5 - together
        self.trials.check(f"the last build is right in {what}", right >= least, f"{right} of {sum(n for n, _ in logs)}, not {least:.1f}")


def claims():
    """Of 100 logs, how many have their last build told right, by the page: of each kind of project and of log, with each Ninja."""
    with open(f"{TOP}/docs/BUILDS.md", encoding="utf-8") as it:
        rows = [[field.strip(" *") for field in line.split("|")[1:-1]] for line in it if line.startswith("|")]
    top = next(it for it in rows if it[:2] == ["Projects", "Log"])
    versions = [re.match(r"[\d.]+", it).group() for it in top[2:]]
    return {(row[0], row[1], version): float(field.split(", ")[1].strip(" *")) for row in rows if row[0] in PROJECTS.values() for version, field in zip(versions, row[2:]) if "," in field}


def trial(trials, program, _):
    with tempfile.TemporaryDirectory() as room:   # on a disk, as the builds of the page were
        try_in(trials, program, room)


def try_in(trials, program, room):
    found = ninjas()
    for version in (OLD, *NINJAS):
        if found and version not in found:
            trials.skip(f"the builds of Ninja {version}", "it isn't there, or NLOG_NINJAS doesn't name the folder that has it")
    if not found or not shutil.which("cc") or not shutil.which("cmake"):
        trials.skip("all of it", "ninja, cc or cmake isn't there")
        return
    rewriters, jobs = (("recompacted", builds_found.recompacted), ("repaired", repaired_by(program))), []
    with concurrent.futures.ThreadPoolExecutor(max_workers=12) as lanes:
        for version, ninja in found.items():
            for kind, count, most in OLD_KINDS if version == OLD else KINDS:
                for seed in range(SEED, SEED + count):
                    folder = f"{room}/{version}-{kind}-{seed}"
                    jobs.append((version, kind, seed, folder, lanes.submit(builds_found.made, ninja, kind, seed, folder, rewriters, most)))
    judge, said = Judge(trials, program), claims()
    for version, kind, seed, folder, made in jobs:
        for kept in made.result():
            judge.take(f"{kind} {seed} with Ninja {version}", (PROJECTS[kind], LOGS[kept["how"]], version), f"{folder}/log", kept)
    trials.about = ""
    trials.check("some builds are called sure", judge.sure > 0)
    for log in sorted(set(LOGS.values())):
        judge.hold(f"as many logs, {log}, as the page says", {key: said[key] / 100 for key in judge.count if key[1] == log and key in said}, TOGETHER)
    old = [key for key in judge.count if key[2] == OLD]
    judge.hold("90 of 100 logs of hard projects that weren't written anew", {key: 0.9 for key in old if key[0] == "hard" and key[1] != "anew"}, HARD_TOGETHER)
    judge.hold("95 of 100 logs of CMake's projects", {key: 0.95 for key in old if key[0] == "CMake"}, CMAKE_TOGETHER)
    print(f"found_builds.py: right of all: {', '.join(f'{judge.right[key]} of {judge.count[key]} {key}' for key in sorted(judge.count))}")


if __name__ == "__main__":
    sys.exit(main(__file__, trial))
