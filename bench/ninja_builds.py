"""Projects that ninja_times.py builds again and again with a real Ninja, and what it saw of each build.

`Project` is made here: C files with headers, and an edge of each kind that records another time: rules with `restat`, several outputs, a
generator, dependencies in a file or kept by Ninja, copies that keep the time of what they copy, outputs that a later edge changes. `Tree` is
a source tree that has a CMakeLists.txt. Both take the same random changes from the same seed, whatever the Ninja.
"""
import collections
import os
import random
import shutil
import signal
import subprocess
import time

LOG = ".ninja_log"

# A line of the log, and where it ends in the file.
Entry = collections.namedtuple("Entry", "start end mtime name hash to")
# One run of Ninja: where its lines in the log begin and end, when it started, and the time of each output at its end.
Ran = collections.namedtuple("Ran", "at to started times")

RULES = """rule cc
  command = cc -O0 $flags -MMD -MF $out.d -c $in -o $out
  depfile = $out.d
  deps = gcc
rule cc_file
  command = cc -O0 $flags -MMD -MF $out.d -c $in -o $out
  depfile = $out.d
rule ar
  command = rm -f $out && ar rcs $out $in
rule link
  command = cc $in -o $out
rule changed
  command = grep -v '^//' $in > $out.new; if cmp -s $out.new $out; then rm $out.new; else mv $out.new $out; fi
  restat = 1
rule changed_both
  command = for part in a b; do grep "^$$part" $in > $stem.$$part.new; if cmp -s $stem.$$part.new $stem.$$part; then rm $stem.$$part.new; else $
    mv $stem.$$part.new $stem.$$part; fi; done
  restat = 1
rule two
  command = grep -c . $in > $stem.a && sleep 0.02 && cat $in > $stem.b
rule copy
  command = ln -f $in $out 2> /dev/null || (rm -rf $out && cp -af $in $out)
rule keep_time
  command = cp -p $in $out
rule slow
  command = cat $in > $out && sleep 0.1
rule folder
  command = mkdir -p $out && cat $in > $out/text && touch $out
rule strip
  command = objcopy --strip-debug $in && touch $out
rule make
  command = cp $in $out
  generator = 1
"""


def entries_of(text):
    """The entries of a log's bytes, as Ninja wrote them."""
    found, at = [], text.find(b"\n") + 1
    for line in text[at:].split(b"\n")[:-1]:
        at += len(line) + 1
        fields = line.split(b"\t")
        if len(fields) == 5:
            found.append(Entry(int(fields[0]), int(fields[1]), int(fields[2]), os.fsdecode(fields[3]), fields[4], at))
    return found


def time_of(path):
    """The time of a file in nanoseconds; None where it is missing."""
    try:
        return os.stat(path).st_mtime_ns
    except OSError:
        return None


class Builds:
    """A build folder, the Ninja that builds in it, and the runs that added to its log."""

    def __init__(self, ninja, folder, seed, jobs, pause):
        self.ninja, self.folder, self.jobs, self.pause = ninja, folder, jobs, pause
        self.random, self.runs, self.rewritten = random.Random(seed), [], 0

    def path(self, name):
        return os.path.join(self.folder, name)

    def log(self):
        try:
            with open(self.path(LOG), "rb") as it:
                return it.read()
        except FileNotFoundError:
            return b""

    def build(self, *words, stop_after=None):
        """Waits some time, runs Ninja, and keeps what it added. If Ninja wrote the log anew, the runs before are forgotten."""
        time.sleep(self.random.expovariate(1 / self.pause) if self.pause else 0)
        before, started = self.log(), time.time_ns()
        with subprocess.Popen([self.ninja, "-j", f"{self.jobs}", *words], cwd=self.folder, stdin=subprocess.DEVNULL, stdout=subprocess.DEVNULL,
                              stderr=subprocess.DEVNULL, start_new_session=True) as ran:
            if stop_after is not None:
                time.sleep(stop_after)
                os.killpg(ran.pid, signal.SIGINT) if ran.poll() is None else None
            status = ran.wait()
        text = self.log()
        if before and not text.startswith(before):
            self.runs, self.rewritten = [], self.rewritten + 1
            return status
        added = [it for it in entries_of(text) if it.to > len(before)]
        if added:
            at = max(len(before), text.find(b"\n") + 1)
            self.runs.append(Ran(at, len(text), started, {it.name: time_of(self.path(it.name)) for it in added}))
        return status

    def borders(self):
        """Where each build begins. When Ninja has made its manifest again it begins anew, with a clock of its own."""
        found, entries = [], entries_of(self.log())
        for ran in self.runs:
            added = [it for it in entries if ran.at < it.to <= ran.to]
            found.append(added[0].to)
            made = [i for i, it in enumerate(added) if it.name == "build.ninja"]
            if made and made[-1] + 1 < len(added):
                found.append(added[made[-1] + 1].to)
        return found


class Project(Builds):
    """Some hundred C files, and an edge of each kind."""

    OFTEN = [8, 1, 3, 5, 1, 4, 1, 1]   # how often each change is made

    def __init__(self, ninja, folder, seed, jobs, pause, files):
        super().__init__(ninja, folder, seed, jobs, pause)
        self.files, self.modules = files, max(2, files // 25)
        self.flags = ["-DN=0"] * self.modules
        self.turn = 0
        for it in ("src", "in"):
            os.makedirs(self.path(it))
        for i in range(files):
            self.source(i)
        for m in range(self.modules):
            self.write(f"src/m{m}.h", "#define M 1\n")
            for kind in ("changed", "both", "two", "slow", "copy", "keep", "folder"):
                self.write(f"in/{kind}{m}", "#define A 1\n" if kind == "changed" else "a 1\nb 1\n")
        self.manifest()
        shutil.copy(self.path("in/manifest"), self.path("build.ninja"))

    def write(self, name, text):
        with open(self.path(name), "w", encoding="utf-8") as it:
            it.write(text)

    def source(self, i, body="return N"):
        m = i % self.modules
        self.turn = getattr(self, "turn", 0) + 1
        self.write(f"src/f{i}.c", f'#include "m{m}.h"\n#include "../gen/changed{m}.h"\nint f{i}(void) {{ {body} + M + A + {self.turn}; }}\n')

    def manifest(self):
        lines = [RULES]
        for i in range(self.files):
            m = i % self.modules
            rule = "cc_file" if m % 2 else "cc"
            lines.append(f"build obj/f{i}.o: {rule} src/f{i}.c || gen/changed{m}.h\n  flags = {self.flags[m]}")
        for m in range(self.modules):
            objects = " ".join(f"obj/f{i}.o" for i in range(m, self.files, self.modules))
            lines += [f"build lib/m{m}.a: ar {objects}", f"build gen/changed{m}.h: changed in/changed{m}"]
            lines += [f"build both/{m}.a both/{m}.b: changed_both in/both{m}\n  stem = both/{m}"]
            lines += [f"build two/{m}.a two/{m}.b: two in/two{m}\n  stem = two/{m}", f"build slow/{m}: slow in/slow{m}"]
            lines += [f"build copy/{m}: copy in/copy{m}", f"build keep/{m}: keep_time in/keep{m}", f"build folder/{m}: folder in/folder{m}"]
        self.write("src/main.c", "int main(void) { return 0; }\n")
        libraries = " ".join(f"lib/m{m}.a" for m in range(self.modules))
        lines += ["build obj/main.o: cc src/main.c", f"build app: link obj/main.o {libraries}", "build strip/app: strip app"]
        lines += ["build build.ninja: make in/manifest", ""]
        self.write("in/manifest", "\n".join(lines))

    def some(self, most):
        return [self.random.randrange(self.files) for _ in range(self.random.randint(1, most))]

    def step(self):
        """One change, and the builds that follow."""
        module = self.random.randrange(self.modules)
        what = self.random.choices(["sources", "header", "comment", "kinds", "flags", "part", "stop", "fail"], self.OFTEN)[0]
        if what in ("sources", "part", "stop", "fail"):
            chosen = self.some(12 if what == "stop" else 4)
            for i in chosen:
                self.source(i)
            if what == "fail":
                self.source(chosen[0], "return nothing")
                self.build("-k", "0")
                self.source(chosen[0])
            if what == "stop":
                self.build(stop_after=self.random.uniform(0.02, 0.15))
            if what == "part":
                self.build(f"obj/f{chosen[0]}.o")
                return
        elif what == "header":
            self.write(f"src/m{module}.h", f"#define M {self.random.randrange(9)}\n")
        elif what == "comment":
            # The edge runs, and leaves its output as it was, or changes it.
            self.write(f"in/changed{module}", f"#define A {self.random.choice([1, 1, 1, 2])}\n// {self.random.random()}\n")
        elif what == "kinds":
            for kind in self.random.sample(["both", "two", "slow", "copy", "keep", "folder"], 3):
                self.write(f"in/{kind}{module}", f"a {self.random.random()}\nb 1\n")
        else:
            self.flags[module] = f"-DN={self.random.randrange(100)}"
            self.manifest()
        self.build()

    def kind(self, name):
        """By which rule an output is made."""
        folder = name.split("/")[0]
        return {"obj": "compiled", "lib": "ar", "app": "link", "gen": "restat", "both": "restat, two outputs", "two": "two outputs",
                "slow": "written, then 0.1 s more", "copy": "linked", "keep": "copied with its time", "folder": "folder", "strip": "touched",
                "build.ninja": "generator"}[folder]


class Tree(Builds):
    """A tree that CMake describes, laid out in a folder of its own."""

    def __init__(self, ninja, folder, seed, jobs, pause, source, options):
        super().__init__(ninja, f"{folder}/build", seed, jobs, pause)
        self.source = f"{folder}/source"
        shutil.copytree(source, self.source, symlinks=True)
        self.options, self.flags = list(options), "-O0"
        os.makedirs(self.folder)
        self.configure()
        self.build()
        used = {os.path.normpath(self.path(it)) for it in self.inputs()}
        self.sources = sorted(it for it in used if it.startswith(self.source + "/") and it.endswith((".cc", ".cpp", ".c")))

    def configure(self):
        subprocess.run(["cmake", "-G", "Ninja", f"-DCMAKE_MAKE_PROGRAM={self.ninja}", "-DCMAKE_BUILD_TYPE=", f"-DCMAKE_CXX_FLAGS={self.flags}",
                        *self.options, self.source], cwd=self.folder, check=True, capture_output=True)

    def inputs(self):
        out = subprocess.run([self.ninja, "-t", "deps"], cwd=self.folder, check=True, capture_output=True, text=True).stdout
        return {line.strip() for line in out.splitlines() if line.startswith("    ")}

    def append(self, path, text):
        with open(path, "a", encoding="utf-8") as it:
            it.write(text)

    def step(self):
        what = self.random.choices(["sources", "again", "cmake", "stop", "flags"], [8, 2, 1, 1, 0])[0]
        for path in self.random.sample(self.sources, min(len(self.sources), self.random.randint(1, 2))):
            self.append(path, f"// {self.random.random()}\n")
        if what == "cmake":
            self.append(f"{self.source}/CMakeLists.txt", f"# {self.random.random()}\n")
        if what == "stop":
            self.build(stop_after=self.random.uniform(0.1, 2))
        if what == "again":
            self.build()
            os.utime(self.random.choice(self.sources))
        self.build()

    def kind(self, name):
        if name == "build.ninja":
            return "generator"
        return "compiled" if name.endswith(".o") else "ar" if name.endswith(".a") else "other"
