#!/usr/bin/env python3
"""Builds random projects with a Ninja and with the same Ninja on the library, and compares what the two do.

    python3 integrations/ninja/differ.py PLAIN PATCHED [PROJECTS [SEED]]

A project is a manifest (with, at times, commands that run Ninja itself in the same folder), sources and, mostly, a log: entries of outputs
that are there, that are gone and that are of no edge, older entries of them, lines that are no entries, a torn last line. Then come a few
steps: builds of all or of some outputs, and such as only tell what they would do; edits of sources and of the manifest; outputs that are
removed; `-t recompact`, `-t restat`, `-t cleandead`; a last line of the log that is cut. After each step the two must have ended alike,
said the same (but for times and the order of lines), have the same files with the same bytes, and the same logs but for the order of
entries: their outputs, their hashes, the numbers that both were given, and of other time stamps which are those of before the step.

A torn line is followed by a recompaction, since a build by the plain one then spoils the log: faults.py shows that.

The patched one writes intents, and so one differs from the other where a command fails, or a record is lost: faults.py shows that too. Here an
output whose last entry is such an intent has an older entry, or none, in the other log, which may be missing then, and no reason to be built is
compared of it. Until it was built no file gets another time by hand, and the file whose record was cut off is removed. Where one log is due,
which may be that of the patched one first, both are rewritten. An output whose line was torn may have no entry in the patched log until it is
built.

An intent that a build left which failed, or in which another Ninja rewrote the patched log, or that stood over an output without an entry, may
cost its command once more, and no other one may. Commands of the plain one alone are a difference all the same.
"""
import os
import random
import re
import shutil
import subprocess
import sys
import tempfile
import time

sys.path.insert(0, os.path.dirname(os.path.dirname(os.path.abspath(__file__))))
from builds import LOG, tick

# The outputs of one command have the same time, of which 1.11.1 records the latest. A restat within a build is of a file whose time is
# given: whether the time of an output is the one that was recorded for it is told by the clock's ticks.
RULES = """rule copy
  command = cat $in > $out
rule each
  command = for it in $out; do cat $in > "$$it"; done; set -- $out; touch -r "$$1" -- "$$@"
rule same
  command = cat $in > $out.new; if cmp -s $out.new $out; then rm $out.new; else mv $out.new $out; fi
  restat = 1
rule made
  command = cat $in > $out; echo $tag >> $out
  generator = 1
rule fails
  command = test ! -e broken && cat $in > $out
rule deps
  command = cat $in > $out; echo "$out: s0 s1" > $out.d
  depfile = $out.d
  deps = gcc
rule file
  command = cat $in > $out; echo "$out: s1" > $out.d
  depfile = $out.d
rule list
  command = cat $rspfile > $out
  rspfile = $out.rsp
  rspfile_content = $in $tag
rule dyn
  command = cat $in > $out; touch -r $out $hidden
rule gone
  command = true
rule nested
  command = cat $in > $out; "$$NINJA" -t restat dead0 > /dev/null
  generator = 1
rule inner
  command = "$$NINJA" -j1 $inside > /dev/null && cat $in > $out
rule remake
  command = cp $in $out
  generator = 1
"""
NAMES = ["o%d", "a b%d", "c:d%d", "sub/o%d", "x$y%d", "-o%d", "it's %d", "back\\o%d", "\u00fc%d", "q\"%d", "o%d.h", "[%d]*", "e=%d;"]


def escaped(name):
    return re.sub(r"([$ :])", r"$\1", name)


class Project:
    """What is built. It changes as its steps go on, and each manifest is written for both Ninjas."""

    def __init__(self, random_numbers, version):
        self.random, self.version = random_numbers, version
        self.sources = [f"s{it}" for it in range(self.random.randint(2, 5))]
        self.edges = []
        self.tag = 0
        self.is_remade = self.random.random() < 0.15
        self.has_dyndep = self.random.random() < 0.3
        # A command that runs this Ninja in the same folder, on another output.
        self.has_inner = self.random.random() < 0.3
        self.names = 0
        for _ in range(self.random.randint(1, 12)):
            self.add_edge()

    def name(self):
        self.names += 1
        return self.random.choice(NAMES) % self.names

    def add_edge(self):
        rule = self.random.choice(["copy"] * 4 + ["each", "each", "same", "same", "made", "fails", "deps", "file", "list", "gone", "nested", "phony"])
        outs = [self.name() for _ in range(self.random.randint(2, 4) if rule == "each" else 1)]
        if rule in ("same", "deps", "file", "list"):  # these build other names from the output's
            outs = [f"p{self.names}"]
        made = [it for edge in self.edges for it in edge[1]]
        ins = self.random.sample(self.sources + made, min(self.random.randint(1, 3), len(self.sources + made)))
        self.edges.append([rule, outs, ins, self.random.random() < 0.2])

    def manifest(self):
        lines = [RULES]
        for rule, outs, ins, has_order in self.edges:
            lines.append(f"build {' '.join(map(escaped, outs))}: {rule} {' '.join(map(escaped, ins))}{' || s0' if has_order else ''}\n")
            if rule in ("made", "list", "copy"):
                lines.append(f"  tag = {self.tag}\n" if rule != "copy" else "")
        if self.has_inner:
            lines.append("build inside: copy s0\nbuild outside: inner s1\n  inside = inside\n")
        if self.has_dyndep:
            lines.append("build dynout: dyn s0 || dd\n  dyndep = dd\n  hidden = hid.den other\n")
        if self.is_remade:
            lines.append("build build.ninja: remake build.ninja.in\n")
        return "".join(lines)

    def outputs(self):
        return [it for edge in self.edges for it in edge[1]]

    def log(self):
        """A log of lines that this Ninja writes, and of some that are no entries to either reader."""
        version = 4 if self.version == 5 and self.random.random() < 0.2 else self.version
        names = self.outputs() + [f"dead{it}" for it in range(5)] + self.sources
        text = f"# ninja log v{version}\n"
        for _ in range(self.random.choice([0, 3, 20, 150, 400])):
            if self.random.random() < 0.05:
                text += self.random.choice(["", "no entry", f"# ninja log v{version}", "1\t2\t3", "x" * 300]) + "\n"
            command = "%x" % self.random.getrandbits(self.random.choice([8, 64])) if version > 4 else self.random.choice(["cc x", "", "a\tb"])
            times = (self.random.randint(0, 5000), self.random.randint(0, 5000), self.random.choice([0, 1, 10**9, 1_900_000_000_000_000_000]))
            text += "%d\t%d\t%d\t" % times + f"{self.random.choice(names)}\t{command}\n"
        return text

    def changed(self):
        """Changes the manifest in one way."""
        what = self.random.choice(["tag", "add", "drop", "rule"])
        if what == "tag":
            self.tag += 1
        elif what == "add":
            self.add_edge()
        elif what == "drop" and len(self.edges) > 1:
            edge = self.random.choice(self.edges)
            if not any(set(edge[1]) & set(it[2]) for it in self.edges):
                self.edges.remove(edge)
        elif what == "rule":
            for edge in self.edges:
                if edge[0] in ("copy", "gone"):
                    edge[0] = self.random.choice(["copy", "each", "gone"])
                    break


class Side:
    """One Ninja, and the folder where it builds."""

    def __init__(self, ninja, folder):
        self.ninja, self.folder = ninja, folder
        os.makedirs(f"{folder}/sub")
        self.before = {}
        # What was given both sides: the times of files and of entries, and when a command of the log began and ended.
        self.known, self.given = {0}, set()
        # The entries as they stand, and whether a build rewrites the log.
        self.entries, self.is_due = {}, False

    def path(self, name):
        return f"{self.folder}/{name}"

    def write(self, name, text):
        with open(self.path(name), "w", encoding="utf-8", newline="") as it:
            it.write(text)

    def run(self, words):
        env = {**os.environ, "NINJA": self.ninja, "TERM": "dumb", "NINJA_STATUS": ""}
        done = subprocess.run([self.ninja, *words], cwd=self.folder, env=env, stdin=subprocess.DEVNULL, stdout=subprocess.PIPE, stderr=subprocess.STDOUT, check=False)
        said = re.sub(rb"\b\d{9,}\b", b"TIME", done.stdout)
        return done.returncode, sorted(said.split(b"\n"))

    def bytes(self, name):
        try:
            with open(self.path(name), "rb") as it:
                return it.read()
        except FileNotFoundError:
            return None

    def files(self):
        """Each file with its bytes, but what is Ninja's own."""
        found = {}
        for folder, _, names in os.walk(self.folder):
            for name in names:
                path = os.path.relpath(os.path.join(folder, name), self.folder)
                if path not in (LOG, ".ninja_deps", ".ninja_lock"):
                    found[path] = self.bytes(path)
        return found

    def log(self):
        """The header, and of each output its hash, its times where they are known, and else whether its time stamp is that of before."""
        text = self.bytes(LOG)
        if text is None:
            self.entries, self.is_due = {}, False
            return None
        lines, found, kept = text.split(b"\n"), {}, {}
        self.entries, total = {}, 0
        for line in lines[1:-1]:
            fields = line.split(b"\t", 4)
            if len(fields) < 5:
                continue
            start, end, mtime, name, command = fields
            kept[name] = mtime
            self.entries[name] = tuple(fields)
            total += 1
            mtime = mtime if int(mtime) in self.known else self.before.get(name) == mtime
            found[name] = (command, mtime, (start, end) if (start, end) in self.given else None)
        self.before = kept
        found[b"header"], found[b"torn"] = lines[0], lines[-1]
        self.is_due = total > 100 and total > 3 * len(self.entries)
        return found


def apart(one, other):
    """What two answers differ in."""
    if isinstance(one, dict) and isinstance(other, dict):
        one, other = ({k: v for k, v in it.items() if one.get(k, 0) != other.get(k, 0)} for it in (one, other))
    return f"{one!r:.600}\n    and {other!r:.600}"


def not_withdrawn(text):
    """Each entry's place and line, but for those over an intent that stood before it: as the entry, or as an intent that no command followed."""
    at, since = 0, {}  # of each name the entry that stood, and the intents behind it
    for line in text.split(b"\n"):
        fields = line.split(b"\t")
        if len(fields) == 5:
            stood = since.setdefault(fields[3], [])
            if len(stood) < 2 or line not in stood:
                yield at, line
            if fields[0] != fields[1] or fields[2] != b"0":
                stood.clear()
            stood.append(line)
        at += len(line) + 1


class Differ:
    def __init__(self, ninjas, room):
        self.ninjas, self.room = ninjas, room
        self.steps = self.commands = self.intents = 0
        self.lost = set()  # the outputs of lines that were torn
        self.left = set()  # those over which an intent was left: because the build failed, a Ninja within it rewrote the log, or they had no entry
        self.apart = set()  # those of them that the patched one alone has built since
        self.is_over = False  # whether one of their files is another one by now

    @staticmethod
    def begun(sides):
        """The outputs whose command began, by the patched log, and has no record yet; or lost it, as another Ninja rewrote the log meanwhile. Then
        those of them that had no entry have no intent either."""
        plain, patched = (it.entries for it in sides)
        found = {name for name, it in patched.items() if it[0] == it[1] and it[2] == b"0" and (name not in plain or plain[name][4] != it[4])}
        records = {(*plain[name][:3], plain[name][4]) for name in found if name in plain}
        return found | {name for name, it in plain.items() if name not in patched and (*it[:3], it[4]) in records}

    @staticmethod
    def file(side):
        """Which file the log is."""
        return os.stat(side.path(LOG)).st_ino if os.path.exists(side.path(LOG)) else None

    def compare(self, sides, what, answers, is_left=False):
        """What the two differ in, if anything."""
        self.steps += 1
        before = self.begun(sides)
        logs = [it.log() for it in sides]
        after = self.begun(sides)
        self.intents += len(after - before)
        again, is_more = self.left & before, False
        # What had no entry can't get it back where its command turns out not to be needed.
        self.left = (self.left | {name for name in after - before if is_left or name not in sides[0].entries}) & after
        # What can't be trusted has no entry in the patched log until it is built.
        self.lost = {name for name in self.lost if name not in sides[1].entries}
        for name in self.lost:
            (logs[0] or {}).pop(name, None)
        if answers[0] is not None:
            answers = [(status, [it for it in said if not (it.startswith(b"ninja explain: ") and any(name in it for name in before | after | self.lost))]) for status, said in answers]
            # A command over whose output an intent was left may run once more.
            (status, less), (other, more) = answers
            if again and status == other and all(more.count(it) >= less.count(it) for it in less if it != b"ninja: no work to do."):
                is_more = less != more
                answers, self.apart = [(status, less)] * 2, self.apart | again
        for it in logs:
            for name in after | self.apart:
                (it or {}).pop(name, None)
        # The plain one makes no log before its first record.
        if logs[0] is None and after and logs[1] == {b"header": (logs[1] or {}).get(b"header"), b"torn": b""}:
            logs[1] = None
        for name, of_sides in (("answers", answers), ("files", [it.files() for it in sides]), ("logs", logs)):
            if of_sides[0] != of_sides[1]:
                # The file that was built once more may have other bytes than one that no command made. From there on the two differ.
                self.is_over = is_more and name == "files"
                return None if self.is_over else f"after {what}: {name}: {apart(*of_sides)}"
        return None

    def project(self, random_numbers, version, folder):
        """Takes a project through its steps: what the two first differed in."""
        project = Project(random_numbers, version)
        self.lost, self.left, self.apart, self.is_over = set(), set(), set(), False
        sides = [Side(it, f"{folder}/{at}") for at, it in enumerate(self.ninjas)]

        def both(name, text):
            sides[0].write(name, text)
            sides[1].write(name, text)
            dated(name, os.stat(sides[0].path(name)).st_mtime_ns)

        def dated(name, mtime):
            for side in sides:
                if os.path.exists(side.path(name)):
                    os.utime(side.path(name), ns=(mtime, mtime))
                side.known.add(mtime)

        def manifest():
            both("build.ninja.in", project.manifest())
            if not project.is_remade or not os.path.exists(sides[0].path("build.ninja")):
                both("build.ninja", project.manifest())

        def run(*words):
            text, file = sides[1].bytes(LOG) or b"", self.file(sides[1])
            # While it is open, no other file has its number.
            with open(os.devnull if file is None else sides[1].path(LOG), "rb"):
                answers = [it.run(words) for it in sides]
                is_same = file == self.file(sides[1])
            self.commands += 1
            # A falling end begins a build, for whoever reports of them, but for that of a line that was withdrawn. A command may rewrite the log.
            more = sides[1].bytes(LOG) or b""
            ends = [int(line.split(b"\t")[1]) for at, line in not_withdrawn(more) if at >= len(text)]
            if text.endswith(b"\n") and more.startswith(text) and is_same and not project.has_inner and not project.is_remade and ends != sorted(ends):
                return f"after {words}: an end falls within a build: {ends}"
            tick(folder)
            # A Ninja within the build may have found the patched log due, which has more lines: then both are rewritten.
            if file is not None and project.has_inner and not is_same:
                for it in sides:
                    it.run(["-t", "recompact"])
            is_rewritten = not is_same and (project.has_inner or any(edge[0] == "nested" for edge in project.edges))
            difference = self.compare(sides, words, answers, answers[1][0] != 0 or is_rewritten)
            if not difference and not self.is_over and sides[0].is_due != sides[1].is_due:
                return run("-t", "recompact")
            return difference

        for name in project.sources:
            both(name, name)
        both("dd", "ninja_dyndep_version = 1\nbuild dynout | hid.den other: dyndep\n")
        tick(folder)
        manifest()
        if random_numbers.random() < 0.7:
            text = project.log()
            both(LOG, text)
            for line in text.encode().split(b"\n"):
                fields = line.split(b"\t")
                if len(fields) >= 5:
                    for side in sides:
                        side.given.add((fields[0], fields[1]))
                        side.known.add(int(fields[2]))
            for name in random_numbers.sample(project.outputs(), random_numbers.randint(0, len(project.outputs()))) + ["dead0", "dead1"]:
                both(name, "there")
                dated(name, random_numbers.choice([10**12, 1_800_000_000_000_000_000]))
            difference = self.compare(sides, "the beginning", [None, None])
            if difference:
                return difference
        tick(folder)
        for _ in range(random_numbers.randint(4, 12)):
            difference = self.step(random_numbers, project, sides, (both, dated, manifest, run))
            tick(folder)
            if difference or self.is_over:
                return difference
        return None

    def step(self, random_numbers, project, sides, calls):
        """One step at random."""
        both, dated, manifest, run = calls
        what = random_numbers.choice(["build"] * 5 + ["one", "ask", "edit", "edit", "change", "change", "remove", "break", "tear", "recompact", "restat", "cleandead", "clean"])
        some = random_numbers.sample(project.outputs(), 1)
        if what == "build":
            return run("-j1", "-v", "-k0", "-d", "explain")
        if what == "one":
            return run("-j1", "-v", "-k0", *(it for it in some if not it.startswith("-")))
        if what == "ask":
            return run("-n", "-v", "-d", "explain")
        if what == "edit":
            both(random_numbers.choice(project.sources), str(random_numbers.random()))
        elif what == "change":
            project.changed()
            manifest()
        elif what == "break":
            for side in sides:
                if os.path.exists(side.path("broken")):
                    os.remove(side.path("broken"))
                else:
                    side.write("broken", "")
        elif what == "remove":
            for side in sides:
                if os.path.exists(side.path(some[0])):
                    os.remove(side.path(some[0]))
        elif what == "tear":
            texts = [it.bytes(LOG) or b"" for it in sides]
            places = [it[:-1].rfind(b"\n") + 1 for it in texts]
            # Rewritten logs are in other orders.
            names = {it[at:].split(b"\t")[3] for it, at in zip(texts, places) if it[at:].count(b"\t") > 3}
            kept = {os.fsencode(it) for it in [*project.sources, "build.ninja"]}
            # A name that is cut may be another one.
            others = {it for it in sides[1].entries if any(it != name and name.startswith(it) for name in names)}
            if min(places) > 0 and len(names) == 1 and not others and not names & (self.begun(sides) | kept):
                cut = random_numbers.randint(1, 20)
                for side, text, at in zip(sides, texts, places):
                    for name in names:
                        if os.path.isfile(side.path(os.fsdecode(name))):
                            os.remove(side.path(os.fsdecode(name)))
                    with open(side.path(LOG), "wb") as it:
                        it.write(text[: max(at, len(text) - cut)])
                self.lost |= names
                return run("-t", "recompact")
        elif what == "restat" and not self.begun(sides):
            # (-t cleandead removes a source that no edge takes any more, if a line of the log is of it)
            near = next((os.stat(sides[0].path(it)).st_mtime_ns for it in project.sources if os.path.exists(sides[0].path(it))), 10**18)
            for name in [*project.outputs(), "dynout", "hid.den", "other", "inside", "outside"]:
                dated(name, near + random_numbers.randint(-5, 5))
            return run("-t", "restat", *(["--", *some] if random_numbers.random() < 0.5 else []))
        # What has an intent counts for no dead output.
        elif what in ("recompact", "clean") or what == "cleandead" and not self.begun(sides):
            return run("-t", what)
        return None


def main(plain, patched, projects="300", seed=None):
    seed = seed or str(time.time_ns() % 10**9)
    print(f"seed {seed}")
    room = os.path.realpath(tempfile.mkdtemp())
    failed = 0
    differ = Differ([plain, patched], room)
    try:
        subprocess.run([plain], cwd=room, stdout=subprocess.DEVNULL, stderr=subprocess.DEVNULL, check=False)
        os.makedirs(f"{room}/look")
        with open(f"{room}/look/build.ninja", "w", encoding="utf-8") as it:
            it.write("rule c\n  command = touch $out\nbuild a: c\n")
        subprocess.run([plain], cwd=f"{room}/look", stdout=subprocess.DEVNULL, check=True)
        with open(f"{room}/look/{LOG}", "rb") as it:
            version = int(it.readline().split(b"v")[-1])
        for at in range(int(projects)):
            folder = f"{room}/{at}"
            os.makedirs(folder)
            difference = differ.project(random.Random(f"{seed} {at}"), version, folder)
            if difference:
                failed += 1
                print(f"FAILED: project {at}: {difference}")
            shutil.rmtree(folder)
    finally:
        shutil.rmtree(room, ignore_errors=True)
    print(f"{differ.commands} runs of each, {differ.steps} comparisons, {differ.intents} outputs whose command began and has no record")
    print(f"{int(projects) - failed} passed, {failed} failed")
    return failed > 0


if __name__ == "__main__":
    if len(sys.argv) not in (3, 4, 5):
        sys.exit(__doc__)
    sys.exit(main(*map(os.path.abspath, sys.argv[1:3]), *sys.argv[3:]))
