#!/usr/bin/env python3
"""How often the last build of a log is told right: logs of real builds whose truth is known, as written, written anew, and added to since.

    python3 bench/builds_found.py [--seeds N] [--first N] [--kinds KIND,..] [--keep FOLDER] NINJA [NINJA ..]
    python3 bench/builds_found.py --judge FOLDER

NINJA is the path of a ninja of 1.11 to 1.13. Of each kind N projects are built with each, a random number of times (3 to 14):

- hard: commands of 2 to 250 ms, builds within half a second, a third with `restat` or a copy that keeps its time; a manifest that is made again;
- easy: that of ninja_times.py, of 12 to 40 C files, with pauses of a half to two seconds;
- real: the same, of whose changes none is of a file that is copied, and one in 17 of a generated header's input;
- cmake: three libraries by CMake, which runs `ninja -t recompact` at each generate;
- cmakegen: the same, in a fifth of whose changes the input of a custom command is touched or changed.

Of each project up to six logs are kept: as it was written (or `mixed`, where it was written anew once on the way and then added to), by
`ninja -t recompact`, and in the order of first appearance. With --keep they are kept as JSON, a file for each project, and --judge tells of
such a folder. Then a table: of how many the last build that isn't the manifest's alone is right by tests/builds_model.py (and apart, of
those where a command of it kept a time of before it, and of those where each has its own); how many builds are
right; how many are called sure, of them wrong; and how many right ones as written aren't called sure. Wants cc and cmake.
"""
import argparse
import collections
import glob
import json
import os
import random
import shutil
import subprocess
import sys
import tempfile
import time

TOP = os.path.dirname(os.path.dirname(os.path.abspath(__file__)))
sys.path.insert(0, f"{TOP}/tests")
import builds_model as model  # noqa: E402
from ninja_builds import LOG, Builds, Project, Tree, entries_of  # noqa: E402

RULES = """rule late
  command = sleep $t; cp -f $in1 $out
rule early
  command = cp -f $in1 $out; sleep $t
rule changed
  command = sleep $t; cmp -s $in1 $out || cp -f $in1 $out
  restat = 1
rule changed_early
  command = cmp -s $in1 $out || cp -f $in1 $out; sleep $t
  restat = 1
rule keep
  command = sleep $t; cp -p $in1 $out
rule two
  command = cp -f $in1 $stem.b; sleep $t; cp -f $in1 $stem
rule make
  command = sleep $t; cp $in1 $out
  generator = 1
rule make_restat
  command = sleep $t; cp $in1 $out
  generator = 1
  restat = 1
"""

CMAKE = """cmake_minimum_required(VERSION 3.10)
project(p C)
add_custom_command(OUTPUT ${CMAKE_BINARY_DIR}/gen.h
  COMMAND ${CMAKE_COMMAND} -E copy_if_different ${CMAKE_SOURCE_DIR}/gen.in ${CMAKE_BINARY_DIR}/gen.h DEPENDS ${CMAKE_SOURCE_DIR}/gen.in)
add_custom_target(gen DEPENDS ${CMAKE_BINARY_DIR}/gen.h)
include_directories(${CMAKE_BINARY_DIR})
"""


class Hard(Builds):
    """Short commands of each kind, builds close behind each other."""

    def __init__(self, ninja, folder, seed, jobs):
        super().__init__(ninja, folder, seed, jobs, 0)
        os.makedirs(self.path("in"))
        self.count, self.turn, self.flag, self.edges = self.random.randint(6, 40), 0, 0, []
        for i in range(self.count):
            kind = self.random.choices(["late", "early", "changed", "changed_early", "keep", "two"], [9, 1, 3, 1, 1, 2])[0]
            self.edges.append([kind, self.length(), sorted(self.random.sample(range(i), min(i, self.random.choice([0, 0, 1, 1, 2]))))])
            self.write(f"in/{i}", f"{i} 0\n")
        self.maker = self.random.choice(["make", "make_restat"])
        self.manifest()
        shutil.copy(self.path("in/manifest"), self.path("build.ninja"))

    def length(self):
        return 0.002 * 125 ** self.random.random()

    def write(self, name, text):
        with open(self.path(name), "w", encoding="utf-8") as it:
            it.write(text)

    def manifest(self):
        lines = [RULES]
        for i, (kind, seconds, needs) in enumerate(self.edges):
            outputs = f"out/{i} out/{i}.b" if kind == "two" else f"out/{i}"
            inputs = " ".join([f"in/{i}", *(f"out/{it}" for it in needs)])
            lines.append(f"build {outputs}: {kind} {inputs}\n  stem = out/{i}\n  in1 = in/{i}\n  t = {seconds:.3f}")
        lines.append(f"build build.ninja: {self.maker} in/manifest\n  in1 = in/manifest\n  t = {self.length():.3f}")
        self.write("in/manifest", "\n".join([*lines, f"# {self.flag}", ""]))

    def step(self):
        rand = self.random
        what = rand.choices(["some", "few", "flags", "stop", "part"], [6, 4, 1, 1, 1])[0]
        for i in rand.sample(range(self.count), rand.randint(1, self.count if what == "some" else min(3, self.count))):
            self.turn += 1
            self.write(f"in/{i}", f"{i} {self.turn if rand.random() < 0.8 else 0}\n")
        if what == "flags":
            self.flag += 1
            self.edges[rand.randrange(self.count)][1] = self.length()
            self.manifest()
        time.sleep(rand.uniform(0, 0.5))
        if what == "stop":
            self.build(stop_after=rand.uniform(0.02, 0.3))
            time.sleep(rand.uniform(0, 0.3))
        self.build(*([f"out/{rand.randrange(self.count)}"] if what == "part" else []))


class Real(Project):
    OFTEN = [8, 1, 1, 0, 1, 4, 1, 1]


class Generated(Tree):
    """The custom command's input is among what changes."""

    def step(self):
        if self.random.random() < 0.2:
            if self.random.random() < 0.5:
                os.utime(f"{self.source}/gen.in")
            else:
                self.append(f"{self.source}/gen.in", f"// {self.random.random()}\n")
            if self.random.random() < 0.5:
                self.build()
                return
        super().step()


def cmake_source(folder, rand):
    os.makedirs(folder)
    count, text = rand.randint(8, 24), CMAKE
    for part in range(3):
        text += f"add_library(l{part} STATIC {' '.join(f'f{i}.c' for i in range(part, count, 3))})\nadd_dependencies(l{part} gen)\n"
    files = {"CMakeLists.txt": text + "add_executable(app main.c)\ntarget_link_libraries(app l0 l1 l2)\n", "gen.in": "#define G 1\n", "main.c": "int main(void){return 0;}\n"}
    files.update({f"f{i}.c": f'#include "gen.h"\nint f{i}(void){{return G;}}\n' for i in range(count)})
    for name, content in files.items():
        with open(f"{folder}/{name}", "w", encoding="utf-8") as it:
            it.write(content)


def key_of(it):
    """What a line keeps when the log is written anew. CMake sets the MTIME of the manifest's."""
    return it.start, it.end, it.name, it.hash, None if it.name == "build.ninja" else it.mtime


class Known:
    """The lines of a log with the build of each, whoever wrote it anew since."""

    def __init__(self, builds):
        self.builds, self.text, self.labels, self.number, self.anew = builds, b"", [], 0, False

    def update(self, ran=True):
        """After a run of Ninja, or of CMake: each line that wasn't there is of the next build."""
        text = self.builds.log()
        self.anew |= bool(self.text) and not text.startswith(self.text)
        known = {key_of(it): label for it, label in zip(entries_of(self.text), self.labels)}
        entries = entries_of(text)
        if text.startswith(self.text):
            self.labels = self.labels + [None] * (len(entries) - len(self.labels))
        else:
            self.labels = [known.get(key_of(it)) for it in entries]
        self.text, new = text, [i for i, it in enumerate(self.labels) if it is None]
        if new:
            self.number += ran
            made = [i for i in new if entries[i].name == "build.ninja"]
            for i in new:
                self.labels[i] = self.number + bool(made and i > made[-1])
            self.number = max(self.labels[i] for i in new)

    def take(self, text):
        """The log is written anew as this."""
        last = {it.name: label for it, label in zip(entries_of(self.text), self.labels)}
        self.text, self.labels, self.anew = text, [last[it.name] for it in entries_of(text)], True
        with open(self.builds.path(LOG), "wb") as it:
            it.write(text)


def recompacted(known):
    subprocess.run([known.builds.ninja, "-t", "recompact"], cwd=known.builds.folder, capture_output=True, check=True)
    text = known.builds.log()
    with open(known.builds.path(LOG), "wb") as it:
        it.write(known.text)
    return text


def in_first_order(known):
    first, *lines = known.text[:-1].split(b"\n")
    return b"\n".join([first, *{line.split(b"\t")[3]: line for line in lines}.values(), b""])


def made(ninja, kind, seed, room, rewriters=(("recompacted", recompacted), ("first order", in_first_order)), most=14):
    """The logs of a project, with the number of the build of each line. It is built `most` times at the most."""
    rand = random.Random(seed * 7919 + 13)
    if kind == "hard":
        builds = Hard(ninja, f"{room}/p", seed, rand.choice([1, 2, 3, 4, 8]))
    elif kind in ("easy", "real"):
        builds = (Project if kind == "easy" else Real)(ninja, f"{room}/p", seed, rand.choice([2, 4]), rand.choice([0.5, 1.0, 2.0]), rand.choice([12, 24, 40]))
        os.makedirs(builds.path("gen"), exist_ok=True)
    else:
        cmake_source(f"{room}/source", rand)
        builds = (Tree if kind == "cmake" else Generated)(ninja, f"{room}/t", seed, 4, 0.3, f"{room}/source", [])
    known, run, kept = Known(builds), builds.build, []
    known.update()

    def build(*words, **more):
        status = run(*words, **more)
        known.update()
        return status

    def keep(how, text, labels):
        # How many lines each build had, where none was lost.
        had = [] if known.anew else list(collections.Counter(known.labels).items())
        kept.append({"how": how, "text": text.decode(errors="surrogateescape"), "labels": labels, "had": had})

    def keep_all():
        keep("mixed" if known.anew else "written", known.text, known.labels)
        last = {it.name: label for it, label in zip(entries_of(known.text), known.labels)}
        for how, rewrite in rewriters:
            text = rewrite(known)
            keep(how, text, [last[it.name] for it in entries_of(text)])

    builds.build = build
    builds.build()
    steps = rand.randint(3, most)
    turn, (_, rewrite) = rand.randint(1, steps), rand.choice(rewriters)
    for step in range(steps):
        builds.step()
        if kind.startswith("cmake") and rand.random() < 0.15:
            builds.configure()
            known.update(ran=False)
        if not kind.startswith("cmake") and step + 1 == turn and rand.random() < 0.7:
            keep_all()
            known.take(rewrite(known))
    keep_all()
    return kept


def last_of(groups, entries):
    """The last build that isn't the manifest's alone."""
    return next((it for it in reversed(groups) if any(entries[i].name != "build.ninja" for i in it)), groups[-1])


def groups_of(version, entries):
    """The places of the lines of each build, and the builds, by the model."""
    moved, commands, builds = model.builds_of(version, entries)
    places, at, line = collections.defaultdict(list), 0, 0
    for i, it in enumerate(entries):
        places[it].append(i)
    for it in builds:
        count = sum(c.outputs for c in commands[at: at + it.commands])
        yield sorted(places[e].pop(0) for e in moved[line: line + count]), it
        at, line = at + it.commands, line + count


def old_times(entries):
    """The places of the lines of a build that kept a time of before it, to 8 ms. In version 6 and 7 such are few."""
    began = max(it.mtime - it.end * model.MS for it in entries)
    return [i for i, it in enumerate(entries) if it.mtime - it.start * model.MS + 8 * model.MS < began]


def judge(kept, key, table):
    for it in kept:
        version, entries = model.read(it["text"])
        true = collections.defaultdict(list)
        for i, label in enumerate(it["labels"]):
            true[label].append(i)
        truth, told = [true[label] for label in sorted(true)], list(groups_of(version, entries))
        if len(truth) < 2 or len(entries) != len(it["labels"]):
            continue
        own = not old_times([entries[i] for i in last_of(truth, entries)])
        row = table[(*key, "anew" if it["how"] in ("recompacted", "first order") else it["how"], "own" if own else "old")]
        row["logs"] += 1
        row["last"] += last_of(truth, entries) == last_of([places for places, _ in told], entries)
        for places, build in told:
            right = places in truth
            row["right"] += right
            row["sure"] += build.sure
            row["wrong"] += build.sure and not right
            row["unsure"] += right and not build.sure and not build.again


def main():
    words = argparse.ArgumentParser(description=__doc__, formatter_class=argparse.RawDescriptionHelpFormatter)
    for name, default in (("seeds", 20), ("first", 1)):
        words.add_argument(f"--{name}", type=int, default=default, metavar="N")
    words.add_argument("--kinds", default="hard,easy,real,cmake,cmakegen")
    words.add_argument("--keep", metavar="FOLDER")
    words.add_argument("--judge", metavar="FOLDER")
    words.add_argument("NINJA", nargs="*")
    given, table = words.parse_args(), collections.defaultdict(collections.Counter)
    for ninja in map(os.path.abspath, given.NINJA):
        version = subprocess.run([ninja, "--version"], check=True, capture_output=True, text=True).stdout.strip()
        for kind in given.kinds.split(","):
            for seed in range(given.first, given.first + given.seeds):
                with tempfile.TemporaryDirectory(prefix="builds-found-") as room:
                    kept = made(ninja, kind, seed, room)
                judge(kept, (version, kind), table)
                if given.keep:
                    os.makedirs(given.keep, exist_ok=True)
                    with open(f"{given.keep}/{version}-{kind}-{seed}.json", "w", encoding="utf-8") as it:
                        json.dump(kept, it)
    for path in sorted(glob.glob(f"{given.judge}/*.json")) if given.judge else []:
        with open(path, encoding="utf-8") as it:
            judge(json.load(it), tuple(os.path.basename(path).split("-")[:2]), table)
    print("| Ninja | Projects | Log | times of the last build | logs | last build right | builds right | sure | of them wrong | right and unsure |")
    print("|---" * 10 + "|")
    for key, row in sorted(table.items()):
        share = f"{100 * row['last'] / row['logs']:.1f} of 100"
        unsure = "-" if key[2] == "anew" else f"{100 * row['unsure'] / max(1, row['right']):.0f} of 100"
        print("|", " | ".join(map(str, (*key, row["logs"], share, row["right"], row["sure"], row["wrong"], unsure))), "|")
    return 0


if __name__ == "__main__":
    sys.exit(main())
