#!/usr/bin/env python3
"""`nlog mend` behind real builds: no stale output is left of a log that lost its end.

    [NLOG_NINJAS=FOLDER] [NLOG_CUTS=N] python3 tests/mended.py PROGRAM

Takes the machine's own Ninja and each FOLDER/*/ninja. A build with edges of each kind goes from one manifest to another and back. Then its log is
cut, at some of its bytes or, with NLOG_CUTS=0, at each, and zero bytes are left in place of what is lost, or nothing. It is mended, the manifest
goes back to an earlier one, and Ninja says what it would make: an output that it leaves has to be what its edge makes. The same without `mend`
shows stale outputs, else this trial would try nothing. Some of the cuts are followed by a build that is done.

Beside that: that `nlog doubt` names each output that would be stale without `mend`, that no file but LOG was changed, that to mend again changes
nothing, that a whole log is left alone, files that became sources, another folder, outputs outside of the folder, a log in a `builddir`, and a file
system that counts whole seconds, which wants the right to mount.
"""
import os
import random
import re
import shutil
import sys
import tempfile
import time

from log_format import HEADER, Log
from trials import main, read, run, write

SEED = 20240229
CUTS = int(os.environ.get("NLOG_CUTS", "40"))
LOG = ".ninja_log"

# The rules, and each edge: its rule, its outputs and its input. Each has a command of its own for each manifest `{v}`, whose last words are its number.
RULES = """builddir = {builddir}
rule plain
  command = cat $in > $out; echo {v} >> $out # $id
rule slow
  command = sleep 0.04; cat $in > $out; echo {v} >> $out # $id
rule early
  command = cat $in > $out; echo {v} >> $out; sleep 0.04 # $id
rule two
  command = for it in $out; do cat $in > $$it; echo {v} >> $$it; done # $id
rule listed
  command = cat $out.rsp > $out # $id
  rspfile = $out.rsp
  rspfile_content = listed {v}
rule changed
  command = (cat $in; echo {v}) > $out.new; cmp -s $out.new $out || mv $out.new $out; rm -f $out.new # $id
  restat = 1
rule kept
  command = test {v} && cat $in > $out.new; cmp -s $out.new $out || mv $out.new $out; rm -f $out.new # $id
  restat = 1
rule old
  command = cp -p $in.{v} $out # $id
rule tree
  command = mkdir -p $out; echo {v} > $out/file # $id
rule generated
  command = cat $in > $out # $id
  generator = 1
"""
EDGES = [
    ("plain", ["plain"], "source"), ("slow", ["slow"], "source"), ("early", ["early"], "source"), ("plain", ["sub/deep/below"], "source"),
    ("two", ["two_a", "two_b"], "source"), ("listed", ["listed"], "source"), ("changed", ["changed"], "source"), ("plain", ["after"], "changed"),
    ("kept", ["kept"], "source"), ("plain", ["behind"], "kept"), ("generated", ["generated"], "source"), ("plain", ["../outside/up"], "source"),
    ("plain", ["{room}/outside/absolute"], "source"), ("old", ["old"], "source"), ("tree", ["tree"], "source"), ("plain", ["with$ space"], "source"),
]
# What each output holds whose edge isn't `plain`.
HELD = {
    "listed": "listed {v}", "after": "source\n{v}\n{v}\n", "kept": "source\n", "generated": "source\n", "old": "old {v}\n", "tree": "{v}\n",
}
# Of these no time tells: a directory, whatever is done, and in version 5 a file that is given an old time.
UNTOLD = {5: {"tree", "old"}, 6: {"tree"}, 7: {"tree"}}


class Life:
    """A build in a folder of its own, which goes on from manifest to manifest."""

    def __init__(self, program, room, ninja, version, builddir=".", pause=0.05):
        self.program, self.room, self.ninja_path, self.version, self.builddir, self.pause = program, room, ninja, version, builddir, pause
        self.folder, self.log = f"{room}/build", os.path.normpath(f"{room}/build/{builddir}/{LOG}")
        os.makedirs(self.folder)
        write(f"{self.folder}/source", "source\n")
        for v in "AB":
            write(f"{self.folder}/source.{v}", f"old {v}\n")
            os.utime(f"{self.folder}/source.{v}", (1_600_000_000, 1_600_000_000))

    def describe(self, v, more=""):
        lines = [RULES.format(v=v, builddir=self.builddir)]
        for at, (rule, outputs, source) in enumerate(EDGES):
            lines.append(f"build {' '.join(outputs)}: {rule} {source}\n  id = {at}\n".replace("{room}", self.room))
        write(f"{self.folder}/build.ninja", "".join(lines) + more)

    def ninja(self, *words):
        status, out, err = run([self.ninja_path, *words], cwd=self.folder)
        return status, out + err

    def build(self, v):
        self.describe(v)
        time.sleep(self.pause)
        return self.ninja()

    def mend(self, *words, cwd=None):
        return run([self.program, "mend", *words], cwd=cwd or self.folder)

    def outputs(self):
        """Each output: the number of its edge, and what it holds."""
        for at, (rule, outputs, source) in enumerate(EDGES):
            for it in outputs:
                yield it.replace("$ ", " ").replace("{room}", self.room), at, HELD.get(it, "source\n{v}\n")

    def has(self, name):
        path = os.path.join(self.folder, name)
        held = read(f"{path}/file" if os.path.isdir(path) else path)
        return None if held is None else held.decode()

    def wrong(self, v):
        """The outputs that don't hold what this manifest makes."""
        return {name for name, at, held in self.outputs() if self.has(name) != held.format(v=v)}

    def stale(self, v):
        """The outputs that Ninja leaves by this manifest, and that don't hold what it makes."""
        self.describe(v)
        status, said = self.ninja("-n", "-v")
        if status != 0:
            return {said.decode(errors="replace")}
        made = {int(it) for it in re.findall(rb"# (\d+)\n", said)}
        return {name for name in self.wrong(v) if not any(name == it and at in made for it, at, _ in self.outputs())}

    def tree(self):
        """Each file below the room but LOG: its kind, size, times and bytes."""
        found = {}
        for folder, folders, names in os.walk(self.room):
            for name in names:
                path = f"{folder}/{name}"
                if path != self.log:
                    it = os.lstat(path)
                    found[path] = it.st_mode, it.st_size, it.st_mtime_ns, it.st_ctime_ns, it.st_ino, read(path)
        return found


def lost_ends(text, chance, count):
    """The text cut at some of its bytes behind the first line, or at each; each time as it is, and with zero bytes in place of the rest."""
    places = range(text.index(b"\n") + 1, len(text) + 1)
    if count and count < len(places):
        places = sorted(chance.sample(places, count))
    for at in places:
        yield at, "cut", text[:at]
        if at < len(text):
            yield at, "zeros", text[:at] + bytes(len(text) - at)


def try_cuts(trials, life, chance, count):
    """Each cut of the log of a life: mended, no output is stale by either manifest; as it is, some are."""
    for v in "ABAB":
        trials.check(f"the build by {v}", life.build(v)[0] == 0)
    whole, controls, cuts, told = read(life.log), 0, 0, 0
    trials.want("a whole log: nothing is stale by another manifest", life.stale("A"), set())
    for at, kind, text in lost_ends(whole, chance, count):
        what = f"version {life.version}, {kind} at {at}: "
        write(life.log, text)
        stale = life.stale("A"), life.stale("B")
        controls += bool(stale[0])
        write(life.log, text)
        files = life.tree()
        status, out, err = run([life.program, "doubt", life.log], cwd=life.folder)
        doubted = {it.split(b"\t")[1].decode() for it in out.splitlines() if it.startswith((b"newer\t", b"unsure\t"))}
        trials.want(f"{what}what `doubt` says", (status in (0, 3), err), (True, b""))
        trials.want(f"{what}what is stale and isn't doubted", (stale[0] | stale[1]) - doubted - UNTOLD[life.version], set())
        status, out, err = life.mend()
        cuts += 1
        told += out.count(b"newer\t")
        trials.check(f"{what}it is mended", status in (0, 3) and err == b"" and (status == 3) == (out != b""), repr((status, out, err)))
        trials.check(f"{what}no file but LOG was changed", files == life.tree())
        left = read(life.log)
        untold = {it.split(b"\t")[1].decode() for it in out.splitlines() if it.startswith(b"unsure\t")}
        for v in "AB":
            stale = life.stale(v)
            trials.want(f"{what}what is stale by {v}", stale - UNTOLD[life.version] - untold, set())
        trials.want(f"{what}Ninja's look changes nothing", read(life.log), left)
        again = life.mend()
        trials.check(f"{what}to mend again changes nothing", read(life.log) == left and b"newer" not in again[1] and b"damaged" not in again[1], repr(again))
    trials.check(f"version {life.version}: without `mend` some output is stale", controls > 0)
    print(f"version {life.version}: {cuts} cuts, {controls} with a stale output without mend, {told} told newer")
    write(life.log, whole)


def try_builds(trials, program, room, ninja, version, chance, count):
    """Lives that end with a cut: mended with --all, and built by an earlier manifest, each output is what its edge makes."""
    for number in range(count):
        life = Life(program, f"{room}/life{number}", ninja, version)
        for v in "ABA"[: 2 + number % 2]:
            life.build(v)
        whole = read(life.log)
        last = whole.rstrip(b"\n").count(b"\n")
        at = chance.randrange(whole.index(b"\n") + 1, len(whole))
        write(life.log, whole[:at] + bytes((len(whole) - at) * (number % 3 == 0)))
        status, out, err = life.mend("--all")
        trials.check(f"life {number}, {last} lines: it is mended", status in (0, 3) and err == b"", repr((status, out, err)))
        v = "AB"[number % 2]
        trials.want(f"life {number}: the build", life.build(v)[0], 0)
        untold = {"old"} if version == 5 else set()
        trials.want(f"life {number}, cut at {at}: what isn't as its edge makes it", life.wrong(v) - untold, set())


def try_whole(trials, life):
    """A whole log is left alone, and few of its outputs are named."""
    for _ in range(3):
        for v in "AB":
            life.build(v)
    text = read(life.log)
    status, out, err = life.mend("--dry-run")
    named = [it for it in out.splitlines() if it.startswith((b"newer\t", b"damaged\t"))]
    trials.check("a whole log: few of its outputs are named", len(named) <= 2 and err == b"", repr((status, out, err)))
    trials.want("a whole log: --dry-run leaves it alone", read(life.log), text)
    life.mend()
    trials.check("a whole log: none but these was changed", sum(a != b for a, b in zip(table(text), table(read(life.log)))) <= 2)


def table(text):
    return list(Log(HEADER + text.split(b"\n", 1)[1]).table.items())


def try_sources(trials, life):
    """A file whose rule was dropped, and which was then edited by hand, is left alone, and Ninja goes on."""
    life.describe("A", "build config.h: plain source\n  id = 90\nbuild user: plain config.h\n  id = 91\n")
    life.ninja()
    time.sleep(0.1)
    write(f"{life.folder}/config.h", "by hand\n")
    life.describe("A", "build user: plain config.h\n  id = 91\n")
    status, out, err = life.mend()
    trials.check("a file that became a source: it is named", status == 3 and b"newer\tconfig.h\n" in out, repr((status, out, err)))
    trials.want("a file that became a source: it stands", read(f"{life.folder}/config.h"), b"by hand\n")
    status, said = life.ninja()
    trials.check("a file that became a source: the build", status == 0, repr(said))
    trials.want("a file that became a source: it is used", life.has("user"), "by hand\nA\n")


def try_folders(trials, life):
    """From another folder it is refused, and -C names the build's; a log in a builddir."""
    text = read(life.log)
    elsewhere = f"{life.room}/elsewhere"
    os.makedirs(elsewhere)
    words = "nlog: most outputs of LOG aren't here\nnlog: run it in the folder of the build, or name that to mend by -C\n".encode()
    cut = b"".join(it + b"\n" for it in text.split(b"\n")[:-3] if b"outside" not in it) + b"0\t7\t"
    write(life.log, cut)
    trials.want("in another folder", life.mend(life.log, cwd=elsewhere), (1, b"", words))
    trials.want("in another folder LOG stays", read(life.log), cut)
    got = life.mend(life.log, "-C", life.folder, cwd=elsewhere)
    trials.check("with -C", got[0] == 3 and got[2] == b"", repr(got))
    trials.check("with -C LOG is repaired", read(life.log).endswith(b"\n"))
    write(life.log, cut)
    if life.builddir == ".":
        here = life.mend("-C", life.folder, cwd=elsewhere)
        trials.want("with -C and without LOG", here, got)
    else:
        trials.want("without LOG, which is in a builddir: it is missing", life.mend("-C", life.folder, cwd=elsewhere), (0, b"", b""))
        trials.want("from the build's folder", life.mend(f"{life.builddir}/{LOG}"), got)
    write(life.log, text)


def try_seconds(trials, program, room, ninja, version, chance):
    """The same on a file system that counts whole seconds. Builds are further apart, because within one second nothing tells them apart."""
    image, disk = f"{room}.image", f"{room}.seconds"
    os.mkdir(disk)
    write(image, b"")
    os.truncate(image, 32 << 20)
    for words in (["mkfs.ext3", "-q", "-F", "-I", "128", image], ["mount", "-o", "loop", image, disk]):
        if shutil.which(words[0]) is None or run(words)[0] != 0:
            return trials.skip("a file system of whole seconds", f"{words[0]} isn't there, or may not do it")
    try:
        try_cuts(trials, Life(program, f"{disk}/cuts", ninja, version, pause=2.5), chance, min(CUTS or 20, 20))
    finally:
        run(["umount", disk])
    return None


def version_of(life):
    return int(re.match(rb"# ninja log v(\d)\n", read(life.log))[1])


def try_ninja(trials, program, room, ninja):
    chance = random.Random(SEED)
    first = Life(program, f"{room}/first", ninja, 5)
    first.build("A")
    version = version_of(first)
    first.version = version
    trials.about = f"{os.path.basename(os.path.dirname(ninja)) or 'ninja'}, version {version}: "
    try_cuts(trials, Life(program, f"{room}/cuts", ninja, version), chance, CUTS)
    try_builds(trials, program, f"{room}/lives", ninja, version, chance, 6 if CUTS and CUTS <= 40 else 60)
    try_whole(trials, Life(program, f"{room}/whole", ninja, version))
    try_sources(trials, first)
    for at, builddir in enumerate((".", "out")):
        life = Life(program, f"{room}/folders{at}", ninja, version, builddir)
        life.build("A")
        life.build("B")
        try_folders(trials, life)
    trials.about += "whole seconds, "
    try_seconds(trials, program, room, ninja, version, chance)
    trials.about = ""


def trial(trials, program, room):
    if shutil.which("ninja") is None:
        trials.skip("all of it", "Ninja isn't there")
        return
    # The times of a file system in memory are as fine as those of a disk, but a disk is what builds stand on.
    with tempfile.TemporaryDirectory() as disk:
        try_ninja(trials, program, f"{disk}/own", "ninja")
        others = os.environ.get("NLOG_NINJAS")
        for name in sorted(os.listdir(others)) if others else []:
            path = f"{others}/{name}/ninja"
            if os.access(path, os.X_OK) and os.path.isfile(path):
                try_ninja(trials, program, f"{disk}/{name}", path)


if __name__ == "__main__":
    sys.exit(main(__file__, trial))
