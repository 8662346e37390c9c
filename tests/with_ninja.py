#!/usr/bin/env python3
"""Tries the commands that change a log with each real Ninja that is at hand, on logs that it wrote.

    [NLOG_NINJAS=FOLDER] python3 tests/with_ninja.py PROGRAM

Takes the machine's own Ninja and each FOLDER/*/ninja, with the version of the log that it writes: 5 (Ninja 1.11), 6 (1.12) or 7 (1.13).
What Ninja makes of a log is told by what it says of a build: `no work to do`, or why an output is to be made again; and by what
`ninja -t recompact` keeps of the log.

`prune` and `retime` are run beside a copy of the build that Ninja itself recompacts or restats. `mend` is run on logs
whose lines are lost, torn or joined. And what the pages say of Ninja is tried: what a build loses whose log is rewritten, and which time
stamps it records.
"""
import os
import re
import shlex
import shutil
import sys
import time

from log_format import HEADER, Log, as_version, line_of
from log_lines import damage_of, distrusted_of, plain_of
from trials import fill_up, main, read, run, write

MANIFEST = """rule copy
  command = cat $in > $out
rule link
  command = cat $rspfile > $out
  rspfile = $out.rsp
  rspfile_content = $in
build a.o: copy a.c
build b.o: copy b.c
build app: link a.o b.o
build note: copy {note}
"""
SLOW = """rule slow
  command = {wait}cat $in > $out
  restat = 1
build slow: slow {note}
"""
QUICK = """rule quick
  command = cat $in > $out
build quick: quick n1
"""
OUTPUTS = [b"a.o", b"b.o", b"app", b"note"]
IDLE = b"ninja: no work to do.\n"
LOG = ".ninja_log"
# How Ninja says why an output is made again.
UNKNOWN = b"ninja explain: command line not found in log for %s"
OTHER = b"ninja explain: command line changed for %s"
OLDER = b"ninja explain: recorded mtime of %s older than most recent input"


def intent(line):
    """The line of the intent over the entry of a line."""
    start, end, mtime, name, value = line[:-1].split(b"\t")
    return line_of(name, (int(end), int(end), 0, 2**64 - 1 - int(value, 16)))


class Build:
    """A small build in a folder of its own, made once by a Ninja, which writes logs of this version."""

    def __init__(self, program, room, path="ninja", version=5):
        self.program, self.room, self.path, self.version, self.took = program, room, path, version, 0.0
        os.makedirs(room)
        for name in ("a.c", "b.c", "n1", "n2"):
            write(f"{room}/{name}", name.encode())
        self.describe("n1")
        self.ninja()

    def describe(self, note):
        """Says in the manifest from which file `note` is made."""
        write(f"{self.room}/build.ninja", MANIFEST.format(note=note).encode())

    def ninja(self, *words):
        """Runs Ninja: its status, and all that it says."""
        begun = time.monotonic()
        status, out, err = run([self.path, *words], cwd=self.room)
        self.took = max(self.took, time.monotonic() - begun)
        return status, out + err

    def later(self):
        """Waits for longer than any command took so far, and than the tick of a file system: what runs now has a newer file by each version."""
        time.sleep(0.1 + self.took)

    def is_idle(self):
        return self.ninja() == (0, IDLE)

    def why(self):
        """What Ninja says of the work that there is, and why, of which it does nothing."""
        return self.ninja("-n", "-d", "explain")[1]

    def option(self):
        """What nlog is told of the version: nothing where the log is of version 5."""
        return [] if self.version == 5 else ["--log-version", f"{self.version}"]

    def nlog(self, word, *words):
        option = [] if word in ("damage", "doubt", "mend", "repair") else self.option()
        return run([self.program, word, *option, *words], cwd=self.room)

    def prune(self, log=LOG):
        """Recompacts the log by what Ninja builds, as docs/RECIPES.md says."""
        ninja, nlog = shlex.quote(self.path), shlex.quote(self.program)
        line = f"{ninja} -t targets all > targets && {nlog} prune -- {log} targets"
        return run(["sh", "-c", line], cwd=self.room)

    def retime(self, log=LOG):
        return run([self.program, "retime", "--", log], cwd=self.room)

    def mirror(self):
        """A copy of the build, for Ninja to work on."""
        copy = object.__new__(Build)
        vars(copy).update(vars(self), room=f"{self.room}-mirror")
        shutil.rmtree(copy.room, ignore_errors=True)
        shutil.copytree(self.room, copy.room, symlinks=True)
        return copy

    def add(self, text):
        """Adds to the manifest, and builds."""
        with open(f"{self.room}/build.ninja", "a", encoding="utf-8") as it:
            it.write(text)
        return self.ninja()[0]

    def remove(self, *names):
        for name in names:
            os.remove(f"{self.room}/{name}")

    def log(self):
        return Log(self.text())

    def text(self):
        """The bytes of the log, as one of version 5."""
        return as_version(read(f"{self.room}/{LOG}"), self.version)

    def write_log(self, text):
        """Takes this text of version 5 for the log, with the version of the build's own Ninja."""
        write(f"{self.room}/{LOG}", as_version(text, self.version))

    def write_lines(self, name, lines):
        write(f"{self.room}/{name}", b"".join(it + b"\n" for it in lines))

    def tear(self, name):
        """Cuts the log inside the last line, which has to be that of the output `name`."""
        text = read(f"{self.room}/{LOG}")
        last = text[: -1].rfind(b"\n") + 1
        assert b"\t" + name + b"\t" in text[last:]
        write(f"{self.room}/{LOG}", text[: text.index(b"\t" + name, last) + 3])

    def cut_hash(self, name, behind=b""):
        """Cuts three bytes off the log, in the hash of the output `name`, and writes these bytes behind the part."""
        text = read(f"{self.room}/{LOG}")
        part = text[text[:-1].rfind(b"\n") + 1 : -3]
        assert b"\t" + name + b"\t" in part and part[-1:] != b"\t"
        write(f"{self.room}/{LOG}", text[:-3] + behind)


def try_recompact(trials, build):
    build.write_lines("KEEP", OUTPUTS)
    # A second entry of `note`, so that there is a line to drop.
    build.describe("n2")
    build.ninja()
    before = build.log()
    trials.check("recompact: Ninja's log has a line to drop", before.total > len(before.table))
    trials.want("recompact: ends", build.nlog("recompact", LOG, "KEEP"), (0, b"", b""))
    trials.want("recompact: the log", (build.log().table, build.log().total), (before.table, len(OUTPUTS)))
    trials.check("recompact: Ninja has no work to do", build.is_idle(), repr(build.why()))
    build.write_lines("KEEP", OUTPUTS[1:])
    build.nlog("recompact", LOG, "KEEP")
    trials.check("recompact without a.o: Ninja makes it again", UNKNOWN % b"a.o" in build.why(), repr(build.why()))
    trials.want("recompact without a.o: Ninja builds", build.ninja()[0], 0)
    trials.check("recompact without a.o: and has no work then", build.is_idle(), repr(build.why()))


def recompact_beside(trials, build, what, kept, dropped=()):
    """Recompacts by what Ninja builds, and a copy by Ninja: both keep the same entries, `kept` among them."""
    mirror = build.mirror()
    trials.want(f"{what}: Ninja recompacts", mirror.ninja("-t", "recompact")[0], 0)
    trials.want(f"{what}: prune ends", build.prune(), (0, b"", b""))
    table = build.log().table
    trials.want(f"{what}: the log is the one that Ninja makes", sorted(table.items()), sorted(mirror.log().table.items()))
    trials.check(f"{what}: what is kept", set(kept) <= set(table) and not set(dropped) & set(table), repr(sorted(table)))


def try_keep_without_manifest(trials, build):
    os.remove(f"{build.room}/build.ninja")
    before, mirror = read(f"{build.room}/{LOG}"), build.mirror()
    trials.check("no manifest: Ninja doesn't recompact", mirror.ninja("-t", "recompact")[0] not in (0, None))
    status = build.prune()[0]
    trials.check("no manifest: the second command isn't run", status not in (0, None), repr(status))
    said = run(["sh", "-c", f"{shlex.quote(build.path)} -t targets all 2> /dev/null | {shlex.quote(build.program)} prune {LOG}"], cwd=build.room)
    trials.want("no manifest: behind a pipe it is refused", said, (1, b"", b"nlog: bad line 1\n"))
    trials.want("no manifest: the log stays", read(f"{build.room}/{LOG}"), before)
    trials.want("no manifest: as Ninja leaves it", sorted(build.log().table), sorted(mirror.log().table))


def try_keep_odd_names(trials, build):
    """Their files are gone, so that they are kept as what an edge builds."""
    names = ["c: d", "-dash", " led by a space", "back\\slash"]
    shown = ["c$:$ d", "-dash", "$ led$ by$ a$ space", "back\\slash"]
    text = "rule odd\n  command = cat $in > $out\n" + "".join(f"build {it}: odd a.c\n" for it in shown)
    trials.want("odd names: Ninja builds", build.add(text), 0)
    recompact_beside(trials, build, "odd names", [it.encode() for it in names])
    build.remove(*names)
    recompact_beside(trials, build, "odd names without their files", [it.encode() for it in names])


def try_keep_dyndep(trials, build):
    write(f"{build.room}/dd", b"ninja_dyndep_version = 1\nbuild made | there gone: dyndep\n")
    text = "rule three\n  command = touch made there gone\nbuild made: three || dd\n  dyndep = dd\n"
    trials.want("dyndep: Ninja builds", build.add(text), 0)
    recompact_beside(trials, build, "dyndep", [b"made", b"there", b"gone"])
    trials.check("dyndep: Ninja has no work to do", build.is_idle(), repr(build.why()))
    build.remove("gone")
    recompact_beside(trials, build, "dyndep without a file", [b"made", b"there"], [b"gone"])


def try_keep_what_left(trials, build):
    manifest = read(f"{build.room}/build.ninja")
    text = "".join(f"build {it}: copy a.c\n" for it in ("there", "gone", "$ led$ by$ a$ space", "led$ there$ ", "back\\slash"))
    trials.want("left: Ninja builds", build.add(text), 0)
    write(f"{build.room}/build.ninja", manifest)
    build.remove("gone")
    names = [b"there", b" led by a space", b"led there ", b"back\\slash"]
    recompact_beside(trials, build, "left", [*OUTPUTS, *names], [b"gone"])
    trials.want("left: Ninja cleans what is dead", build.ninja("-t", "cleandead")[0], 0)
    trials.want("left: and the file is gone", read(f"{build.room}/there"), None)


def restat_beside(trials, build, what, names):
    """Restats by the files, and a copy by Ninja: both give these names the same time stamps."""
    mirror = build.mirror()
    trials.want(f"{what}: Ninja restats", mirror.ninja("-t", "restat")[0], 0)
    trials.want(f"{what}: retime ends", build.retime(), (0, b"", b""))
    table, other = build.log().table, mirror.log().table
    trials.want(f"{what}: the time stamps", {it: table[it][2] for it in names}, {it: other[it][2] for it in names})


def try_times(trials, build):
    text = "rule odd\n  command = cat $in > $out\nbuild -dash: odd a.c\nbuild it's$ \"so\": odd a.c\n"
    trials.want("retime: Ninja builds", build.add(text), 0)
    os.utime(f"{build.room}/a.o", ns=(0, 1_700_000_000_000_000_007))
    os.utime(f"{build.room}/-dash", ns=(0, 1_700_000_009_000_000_000))
    # A link to an older file: Ninja takes the time stamp of that one.
    build.remove("b.o")
    os.utime(f"{build.room}/b.c", ns=(0, 1_500_000_000_000_000_000))
    os.symlink("b.c", f"{build.room}/b.o")
    restat_beside(trials, build, "retime", [*OUTPUTS, b"-dash"])
    trials.want("retime: of a link", build.log().table[b"b.o"][2], 1_500_000_000_000_000_000)
    trials.want("retime: of a name that looks like an option", build.log().table[b"-dash"][2], 1_700_000_009_000_000_000)
    was = build.log().table[b"note"][2]
    build.remove("note")
    os.utime(f"{build.room}/app", ns=(0, 1_700_000_001_000_000_000))
    restat_beside(trials, build, "retime without a file", [b"a.o", b"app"])
    trials.want("retime without a file: its entry", build.log().table[b"note"][2], was)


def try_times_of_none(trials, build):
    for text in (HEADER, HEADER + b"1\t2\t3\tgone\taa\n"):
        build.write_log(text)
        trials.want(f"a log without files, {text!r}: retime ends", build.retime(), (0, b"", b""))
        trials.want(f"a log without files, {text!r}: the log", build.text(), text)


def try_restat(trials, build):
    table = build.log().table
    build.write_lines("TIMES", [b"%d\t%s" % (table[it][2], it) for it in OUTPUTS])
    trials.want("restat to the same times: ends", build.nlog("restat", LOG, "TIMES"), (0, b"", b""))
    trials.check("restat to the same times: Ninja has no work to do", build.is_idle(), repr(build.why()))
    later = {it: os.stat(f"{build.room}/{it.decode()}").st_mtime_ns for it in OUTPUTS}
    build.write_lines("TIMES", [b"%d\t%s" % (later[it], it) for it in OUTPUTS])
    build.nlog("restat", LOG, "TIMES")
    trials.want("restat to the times of the files: the log", {n: it[2] for n, it in build.log().table.items()}, later)
    trials.check("restat to the times of the files: Ninja has no work to do", build.is_idle(), repr(build.why()))
    build.write_lines("TIMES", [b"1\tb.o"])
    build.nlog("restat", LOG, "TIMES")
    trials.check("restat to an old time: Ninja makes b.o again", OLDER % b"b.o" in build.why(), repr(build.why()))
    trials.want("restat to an old time: Ninja builds", build.ninja()[0], 0)
    trials.check("restat to an old time: and has no work then", build.is_idle(), repr(build.why()))


def try_torn(trials, build):
    """The log ends in a part of the line of `note`. Ninja alone doesn't know then by which command it was made."""
    build.describe("n2")
    build.ninja()
    start, end, mtime, _ = build.log().table[b"note"]
    build.tear(b"note")
    torn = build.log().torn
    trials.check("torn: check tells of it", f"torn {torn}\n".encode() in build.nlog("check", LOG)[1] and torn > 0)
    trials.check("torn: Ninja goes by the entry before", OTHER % b"note" in build.why(), repr(build.why()))
    words = [str(it) for it in (start, end, mtime)]
    trials.want("record: ends", build.nlog("record", LOG, *words, "note", "cat n2 > note"), (0, b"", b""))
    trials.want("record: nothing is torn", build.log().torn, 0)
    trials.check("record: Ninja has no work to do", build.is_idle(), repr(build.why()))
    trials.want("record: ninja -t recompact", build.ninja("-t", "recompact")[0], 0)
    kept = build.log()
    trials.want("record: what ninja -t recompact keeps of it", kept.table.get(b"note", ())[:3], (start, end, mtime))
    trials.want("record: the entries that it keeps", sorted(kept.table), sorted(OUTPUTS))
    trials.check("record: Ninja has no work to do after that", build.is_idle(), repr(build.why()))


def try_other_command(trials, build):
    """A, B, A: a line of B that was torn and then recorded by nlog isn't lost, so Ninja sees that A is to be run."""
    build.describe("n2")
    build.ninja()
    start, end, mtime, _ = build.log().table[b"note"]
    build.tear(b"note")
    build.nlog("record", LOG, str(start), str(end), str(mtime), "note", "cat n2 > note")
    build.describe("n1")
    trials.check("A, torn B, A: Ninja runs A again", OTHER % b"note" in build.why(), repr(build.why()))
    build.ninja()
    trials.want("A, torn B, A: the output is that of A", read(f"{build.room}/note"), b"n1")


def try_lost_whole(trials, build):
    """A, B, and B's line cut off whole: neither `damage` nor Ninja sees that it is lost. `doubt` does, and `mend` has the output made again."""
    build.later()
    build.describe("n2")
    build.ninja()
    whole = build.text()
    build.write_log(whole[: whole[:-1].rindex(b"\n") + 1])
    build.describe("n1")
    trials.want("a lost line: damage", build.nlog("damage", LOG), (0, b"", b""))
    trials.check("a lost line: Ninja finds nothing to do", build.is_idle(), repr(build.why()))
    trials.want("a lost line: over a stale file", read(f"{build.room}/note"), b"n2")
    trials.want("a lost line: doubt", build.nlog("doubt", LOG), (3, b"newer\tnote\n", b""))
    # Somebody has made the manifest by hand since.
    build.write_log(build.text() + line_of(b"build.ninja", (0, 1, 1, 1)))
    trials.want("a lost line: doubt of the manifest", build.nlog("doubt", LOG), (3, b"newer\tnote\nnewer\tbuild.ninja\n", b""))
    others = {name: it for name, it in build.log().table.items() if name not in (b"note", b"build.ninja")}
    trials.want("a lost line: mend", build.nlog("mend"), (3, b"newer\tnote\nnewer\tbuild.ninja\n", b""))
    trials.want("a lost line: mend removes no file", [os.path.exists(f"{build.room}/{it}") for it in ("note", "build.ninja")], [True, True])
    trials.want("a lost line: mend changes no other entry", {name: it for name, it in build.log().table.items() if name in others}, others)
    trials.check("a lost line: Ninja makes the output again", OTHER % b"note" in build.why(), repr(build.why()))
    build.ninja()
    trials.want("a lost line: the output is that of A", read(f"{build.room}/note"), b"n1")
    trials.want("a lost line: the doubt that is left", build.nlog("doubt", LOG), (3, b"no-time\tbuild.ninja\n", b""))
    trials.want("a lost line: to mend again", build.nlog("mend"), (0, b"", b""))


def try_long_restat(trials, build):
    """A takes long and has `restat`, so MTIME is its file's own time; B is fast, and its line is lost. Ninja has no work to do over B's file,
    which is newer than A can have left it, or unsure where no other command tells when A's build began."""
    for more, why in (("", b"unsure"), (QUICK, b"newer")):
        for wait, note in (("sleep 2 && ", "n1"), ("", "n2")):
            build.took = 0.0
            build.later()
            write(f"{build.room}/build.ninja", (SLOW.format(wait=wait, note=note) + more).encode())
            build.ninja()
        whole = build.text()
        build.write_log(whole[: whole[:-1].rindex(b"\n") + 1])
        write(f"{build.room}/build.ninja", (SLOW.format(wait="sleep 2 && ", note="n1") + more).encode())
        trials.check(f"a long restat, {why}: Ninja finds nothing to do", build.is_idle(), repr(build.why()))
        trials.want(f"a long restat, {why}: over a stale file", read(f"{build.room}/slow"), b"n2")
        # Ninja 1.11 has the file's own time for each output, as the later ones have it for a `restat`.
        for version in (6, 7) if build.version == 5 else ():
            write(f"{build.room}/later.log", as_version(build.text(), version))
            trials.want(f"a long restat, as of version {version}: doubt", build.nlog("doubt", "later.log"), (3, why + b"\tslow\n", b""))
        trials.want(f"a long restat: doubt, {why}", build.nlog("doubt", LOG), (3, (b"newer" if build.version == 5 else why) + b"\tslow\n", b""))
        build.remove("slow")


def try_cut_anywhere(trials, build):
    """A log of some builds, cut behind each of its bytes: `doubt` names just the outputs with an older entry whose last line was cut away."""
    for step in range(4):
        build.later()
        build.describe(("n2", "n1")[step % 2])
        write(f"{build.room}/{'ab'[step % 2]}.c", b"%d" % step)
        build.ninja()
    whole = build.text()
    trials.check("a log of some builds: of each output some entries", len(Log(whole).table) == 4 and whole.count(b"\n") > 12, repr(whole))
    for size in range(len(HEADER), len(whole) + 1):
        build.write_log(whole[:size])
        left = Log(whole[:size]).table
        lost = b"".join(b"newer\t%s\n" % name for name, it in left.items() if it != Log(whole).table[name])
        trials.want(f"cut to {size} bytes: doubt", build.nlog("doubt", LOG), (3 if lost else 0, lost, b""))


def try_joined(trials, build):
    """A, torn B, a line of Ninja's behind it: what `check` tells of it, and that `mend` has the output made again."""
    build.describe("n2")
    build.ninja()
    build.tear(b"note")
    build.ninja()
    trials.want("a joined line: skipped", build.log().skipped, 1)
    build.describe("n1")
    trials.check("a joined line: Ninja finds nothing to do", build.is_idle(), repr(build.why()))
    trials.want("a joined line: over a stale file", read(f"{build.room}/note"), b"n2")
    others = {name: it for name, it in build.log().table.items() if name != b"note"}
    if build.version == 5:
        trials.want("a joined line: doubt", build.nlog("doubt", LOG), (3, b"newer\tnote\n", b""))
    trials.want("a joined line: mend", build.nlog("mend"), (3, b"damaged\tnote\n", b""))
    trials.want("a joined line: the other entries", {name: it for name, it in build.log().table.items() if name != b"note"}, others)
    trials.check("a joined line: Ninja makes the output again", OTHER % b"note" in build.why(), repr(build.why()))
    build.ninja()
    trials.want("a joined line: it is that of A", read(f"{build.room}/note"), b"n1")


def try_joined_in_hash(trials, build):
    """A, B torn in its hash, A again, and the line of another output behind the part. `damage` names both. Ninja takes the line for
    an entry of the first, with another hash; a rewriting drops it, and A's entry counts. `mend` doubts both."""
    for zeros in (b"", bytes(100)):
        what = f"torn in its hash, with {len(zeros)} zero bytes"
        build.describe("n2")
        build.ninja()
        build.cut_hash(b"note", zeros)
        build.describe("n1")
        write(f"{build.room}/a.c", b"changed")
        build.ninja("a.o")
        trials.want(f"{what}: damage", build.nlog("damage", LOG), (3, damage_of(build.text()), b""))
        trials.check(f"{what}: it names both", damage_of(build.text()).split(b"\t")[3:] == [b"a.o", b"note\n"], repr(damage_of(build.text())))
        trials.check(f"{what}: while the line stands Ninja makes the output again", OTHER % b"note" in build.why(), repr(build.why()))
        mirror = build.mirror()
        trials.want(f"{what}: repair ends", mirror.nlog("repair", LOG), (0, b"", b""))
        trials.check(f"{what}: repaired, Ninja lets it be", b"note" not in mirror.why(), repr(mirror.why()))
        trials.want(f"{what}: a stale file", read(f"{mirror.room}/note"), b"n2")
        others = {name: it for name, it in build.log().table.items() if name not in (b"note", b"a.o")}
        # The two were first made side by side, so either may stand first.
        both = b"".join(b"damaged\t%s\n" % name for name in build.log().table if name not in others)
        trials.want(f"{what}: mend", build.nlog("mend"), (3, both, b""))
        trials.want(f"{what}: the other entries", {name: it for name, it in build.log().table.items() if name in others}, others)
        build.ninja()
        trials.want(f"{what}: the output is that of A", read(f"{build.room}/note"), b"n1")


def try_zeros(trials, build):
    """A, B torn in its hash, and zero bytes in place of the rest: `damage` names the output in its last column, and `mend` has it made again."""
    build.describe("n2")
    build.ninja()
    build.cut_hash(b"note", bytes(5000))
    build.describe("n1")
    trials.check("zeros: damage names the output", build.nlog("damage", LOG)[1].endswith(b"\t-\tnote\n"))
    trials.check("zeros: Ninja finds nothing to do", build.is_idle(), repr(build.why()))
    trials.want("zeros: mend", build.nlog("mend"), (3, b"damaged\tnote\n", b""))
    build.ninja()
    trials.want("zeros: the output is that of A", read(f"{build.room}/note"), b"n1")


# Lines that are no entries, of outputs with a file, and what follows a buffer of Ninja's.
READ = [
    b"5\t6\t7\tjoined\tc01\t5\t6\t7\tbehind\t7e",
    b"+5\t06\t\tplus\t+a",
    b"5\t6\t7\tthird",
    b"x\ty\tz\tletters\tq",
    b"5\t6\t7\tzero\tab\0\0\0\0\0",
    b"5\t6\t7\tcapitals\t0XABCg",
    b"5\t6\t7\treturn\tab\r",
    b"5\t6\t7\tbefore\tab" + b"x" * 262_144,
    b"y" * 262_144 + b"5\t6\t7\tpast\tab",
    b"y" * 262_143 + b"5\t6\t7\tinside\tab",
    b"y" * 262_130 + b"\t6\t7\tlongest\tab",
    b"5\t6\t" + b"y" * 600_000 + b"7\t8\t9\tthrice\tcd",
]


def try_plain_reading(trials, build):
    """What Ninja takes lines for that are no entries, by what it writes anew; and that for each output that isn't distrusted it has our entry."""
    names = {it for line in READ for it in re.split(rb"[\t\0]", line) if 3 < len(it) < 10}
    for name in names:
        write(f"{build.room}/{name.decode()}", b"")
    entries = [line_of(name, (1, 2, 3, 0xD)) for name in sorted(names)]
    text = build.text() + b"".join(entries) + b"".join(line + b"\n" for line in READ) + b"5\t6\t7\tplus\tee"
    build.write_log(text)
    wanted = {name: 0xD for name in names} | dict(filter(None, map(plain_of, READ)))
    trials.check("plain reading: some lines are taken for entries, and some aren't", 5 < sum(map(bool, map(plain_of, READ))) < len(READ))
    trials.want("plain reading: ninja -t recompact ends", build.ninja("-t", "recompact")[0], 0)
    found = {name: numbers[3] for name, numbers in build.log().table.items() if name in names}
    trials.want("plain reading: the hash of each output", found, {name: it for name, it in wanted.items() if name in names})
    distrusted = Log(HEADER + distrusted_of(text)).table
    others = {name for name, it in found.items() if it != 0xD}
    trials.check("plain reading: what Ninja takes another entry of is distrusted", others and others <= distrusted.keys(), repr(others - distrusted.keys()))


def try_joined_anywhere(trials, build):
    """A line that is torn at each of its bytes, with each of these behind it: where the two are no entry, `mend` has the last name made again, and
    that of the part where its end can be told. `out/x` has no file, and that of `a.o` is newer than its entry."""
    kept, was = line_of(b"a.o", (0, 1, 2, 3)), line_of(b"out/x", (0, 9, 1_700_000_000_000_000_000, 0xA2))
    note = line_of(b"note", (0, 9, 1_700_000_000_000_000_000, 0xA1))
    first = HEADER + kept + was + note
    behind = [line_of(b"note", (it, 3_000_000, 1_700_000_000_000_000_002, 0xC3)) for it in (0, 5, 1234567)]
    for start in (0, 7, 1234567):
        torn = line_of(b"out/x", (start, 2_000_000, 1_700_000_000_000_000_001, 0xB2))
        for cut in range(1, len(torn)):
            rests = [*behind, bytes(9) + behind[0]]
            for rest in rests:
                text = first + torn[:cut] + rest
                if not Log(text).skipped:
                    continue
                is_told = torn[:cut].count(b"\t") == 4 or b"\0" in rest and torn[:cut].endswith(b"out/x")
                build.write_log(text)
                build.nlog("mend")
                left = intent(kept) + (intent(was) if is_told else was) + intent(note)
                trials.want(f"mend of {text!r}", build.text(), HEADER + left)


def try_joined_thrice(trials, build):
    """Two torn lines in one, and the line behind them: `mend` has all three made again."""
    names = [b"a.o", b"b.o", b"app", b"note"]
    lines = [line_of(it, (0, 5, 1_700_000_000_000_000_001, 0xABCDEF)) for it in names]
    build.write_log(HEADER + b"".join(lines) + lines[1][:-3] + lines[2][:-4] + lines[3])
    trials.want("three lines in one: mend", build.nlog("mend"), (3, b"newer\ta.o\ndamaged\tb.o\ndamaged\tapp\ndamaged\tnote\n", b""))
    trials.want("three lines in one: what is left", build.text(), HEADER + b"".join(map(intent, lines)))


def try_settling_at_damage(trials, build):
    """`prune` and `retime` stop at a damaged log, print what `damage` tells, and leave the log."""
    build.describe("n2")
    build.ninja()
    whole = build.text()
    for what, text in (("torn", whole[:-3]), ("skipped", whole + b"x\n"), ("zeros", whole + bytes(9))):
        for name, settle in (("prune", build.prune), ("retime", build.retime)):
            build.write_log(text)
            trials.want(f"a log that is {what}: {name} ends", settle(), (3, damage_of(text), b""))
            trials.want(f"a log that is {what}: {name} leaves it", build.text(), text)


def try_names_like_options(trials, build):
    """The words on a log whose name begins with `-` do what they do on another."""
    whole = build.text()
    words = {"prune": build.prune, "retime": build.retime, "mend": lambda log: build.nlog("mend", "--", log)}
    for name, text in (("prune", whole), ("retime", whole), ("mend", whole + whole.split(b"\n")[1][:-3])):
        left = []
        for log in ("its.log", "-its.log", "it=s.log"):
            write(f"{build.room}/{log}", as_version(text, build.version))
            trials.want(f"{name} of {log} ends", words[name](log)[::2], (3 if name == "mend" else 0, b""))
            left.append(read(f"{build.room}/{log}"))
        trials.want(f"{name}: what is left of a log whose name begins with `-`, or has a `=`", left[1:], left[:1] * 2)


def try_changed_in_a_build(trials, build):
    """Why a log is changed while no build runs: Ninja goes on to write to the file whose name another has taken."""
    text = "rule both\n  command = {nlog} {words} && touch $out\nbuild zero: copy a.c\nbuild one: both zero\nbuild two: copy one\n"
    option = " ".join(build.option())
    words = {
        "restat": f"restat {option} {LOG} /dev/null",
        "record on a log that became due": f"record {option} {LOG} 1 2 3 other1 c",
    }
    manifest = read(f"{build.room}/build.ninja")
    for what, it in words.items():
        if "due" in what:
            build.write_log(text_nearly_due(build))
        write(f"{build.room}/build.ninja", manifest)
        trials.want(f"{what} in a build: the build ends", build.add(text.format(nlog=build.program, words=it)), 0)
        table = build.log().table
        trials.check(f"{what} in a build: what was recorded before it stands", b"zero" in table, repr(sorted(table)))
        lost = {b"one", b"two"} - set(table)
        trials.want(f"{what} in a build: what is recorded until the end of the build is lost", lost, {b"one", b"two"})
        trials.check(f"{what} in a build: and is built again", UNKNOWN % b"one" in build.why(), repr(build.why()))
        build.remove("zero", "one", "two")


def text_nearly_due(build):
    """The build's log with other outputs, each with three lines: one line more of `zero`, which is made again, makes it due."""
    table = {**build.log().table, b"zero": (1, 2, 3, 4), **{b"other%d" % it: (1, 2, 3, 4) for it in range(40)}}
    return HEADER + b"".join(line_of(*it) for it in table.items()) * 3


def try_mtime(trials, build):
    """What docs/FORMAT.md says of the time stamps that Ninja records."""
    text = """rule two
  command = touch -d @1700000001.5 $out && touch -d @1700000003 p
rule same
  command = test -e $out || cp $in $out
  restat = 1
rule none
  command = true
rule later
  command = touch -d @2000000003 $out
  restat = 1
rule generates
  command = touch -d @2000000005 $out
  generator = 1
build p q: two
build kept: same a.c b.c
build none: none
build late: later
build generated: generates
"""
    for number in ("a", "b"):
        os.utime(f"{build.room}/{number}.c", ns=(0, 1_600_000_000_000_000_000))
    trials.want("mtime: Ninja builds", build.add(text.replace("cp $in $out", "cp a.c $out")), 0)
    table = build.log().table
    trials.want("one command: the same numbers for each output", table[b"p"], table[b"q"])
    trials.want("mtime: a later output of a restat rule", table[b"late"][2], 2_000_000_003_000_000_000)
    trials.want("mtime: a later output of a generator", table[b"generated"][2], 2_000_000_005_000_000_000)
    if build.version > 5:
        return try_mtime_of_a_start(trials, build, table)
    trials.want("mtime: the newest output", table[b"p"][2], 1_700_000_003_000_000_000)
    trials.want("mtime: no output", table[b"none"][2], 0)
    later = table[b"kept"][2] + 5_000_000_000
    os.utime(f"{build.room}/b.c", ns=(0, later))
    trials.want("mtime: Ninja builds again", build.ninja("kept")[0], 0)
    return trials.want("mtime: an output that a restat rule left, the newest input", build.log().table[b"kept"][2], later)


def try_mtime_of_a_start(trials, build, table):
    """From Ninja 1.12 on, the time stamp is that of a file which is written when the command starts."""
    first, last = (stamp_of(f"{build.room}/{it}") for it in ("a.o", "p.o"))
    for name in (b"p", b"none"):
        trials.check(f"mtime: when the command of {name.decode()} started", first <= table[name][2] <= last, repr((first, table[name][2], last)))
    os.utime(f"{build.room}/b.c", ns=(0, last + 5_000_000_000))
    before = stamp_of(f"{build.room}/before")
    trials.want("mtime: Ninja builds again", build.ninja("kept")[0], 0)
    kept, after = build.log().table[b"kept"][2], stamp_of(f"{build.room}/after")
    trials.check("mtime: of an output that a restat rule left, when the command started", before <= kept <= after, repr((before, kept, after)))


def stamp_of(path):
    """The time stamp that a file has, or gets now."""
    if not os.path.exists(path):
        write(path, b"")
    return os.stat(path).st_mtime_ns


def try_hash(trials, build):
    """Hashes as Ninja does, also of a command with a response file."""
    table = build.log().table
    for name, command in ((b"a.o", "cat a.c > a.o"), (b"app", "cat app.rsp > app;rspfile=a.o b.o")):
        wanted = (0, b"%x\n" % table[name][3], b"")
        trials.want(f"hash: that of {name.decode()} in Ninja's log", build.nlog("hash", command), wanted)


def try_version_4(trials, build):
    """A log of version 4, which has the commands: Ninja takes what nlog makes of it for the log of the same build."""
    commands = {b"a.o": b"cat a.c > a.o", b"b.o": b"cat b.c > b.o", b"app": b"cat app.rsp > app;rspfile=a.o b.o", b"note": b"cat n1 > note"}
    lines = [b"%d\t%d\t%d\t%s\t%s" % (*it[:3], name, commands[name]) for name, it in build.log().table.items()]
    table = build.log().table
    build.write_lines(LOG, [b"# ninja log v4", *lines])
    build.write_lines("KEEP", OUTPUTS)
    trials.want("version 4: recompact ends", build.nlog("recompact", LOG, "KEEP"), (0, b"", b""))
    trials.want("version 4: the log", (build.log().version, build.log().table), (5, table))
    trials.check("version 4: Ninja has no work to do", build.is_idle(), repr(build.why()))


def try_other_version(trials, build):
    """A log of another version than Ninja's own: where Ninja is 1.12 or 1.13, it drops all entries, also those of a log that nlog made."""
    if build.version == 5:
        return
    entries, lines = build.log().table, read(f"{build.room}/{LOG}")[len(HEADER) :]
    for version in (5, 6, 7):
        if version == build.version:
            continue
        build.write_lines(LOG, [b"# ninja log v%d" % version])
        write(f"{build.room}/{LOG}", read(f"{build.room}/{LOG}") + lines)
        said = build.ninja("-d", "explain", "note")[1]
        why = b"too old" if version < build.version else b"too new"
        trials.check(f"version {version}: Ninja starts over", b"build log version is " + why + b"; starting over" in said, repr(said))
        left = set(build.log().table)
        trials.check(f"version {version}: the entries are gone", left < set(entries), repr(left))
        build.ninja()
    os.remove(f"{build.room}/{LOG}")
    trials.want("a missing log: record ends", run([build.program, "record", LOG, "1", "2", "3", "out", "c"], cwd=build.room), (0, b"", b""))
    said = build.ninja("note")[1]
    trials.check("a missing log, made without the option: Ninja starts over", b"starting over" in said, repr(said))


def touching(room, names):
    write(f"{room}/build.ninja", "rule c\n  command = touch $out\n".encode() + b"".join(b"build %s: c\n" % it for it in names))


def both_recompact(trials, build, what, text, before=(), room=None):
    """What is left of this log of version 5 where Ninja recompacts, and where nlog does, by a command before theirs; with nlog's status."""
    room = room or build.room
    touching(room, [b"a", b"z"])
    write(f"{room}/KEEP", b"a\nz\n")
    left = []
    for words in ([build.path, "-t", "recompact"], [build.program, "recompact", *build.option(), LOG, "KEEP"]):
        write(f"{room}/{LOG}", as_version(text, build.version))
        if what == "a full disk":
            fill_up(f"{room}/fill")
        status = run([*before, *words], cwd=room)[0]
        found = read(f"{room}/{LOG}")
        left.append((status, found if found is None else as_version(found, build.version)))
        for name in ("fill", f"{LOG}.recompact"):
            if os.path.exists(f"{room}/{name}"):
                os.remove(f"{room}/{name}")
    return left


# Many lines of outputs that are gone, between two that are kept.
LONG = HEADER + b"1\t2\t3\ta\taa\n" + b"".join(b"1\t2\t3\tgone/obj/some/long/name/of/an/output%d.o\tabc\n" % (it % 90) for it in range(9000)) \
    + b"1\t2\t3\tz\tbb\n"


def try_full_disk(trials, build):
    """Ninja empties the log, and says that all is well; nlog leaves it, and says that the folder failed."""
    room, text = f"{build.room}/full", HEADER + b"1\t2\t3\ta\taa\n1\t2\t3\tz\tbb\n"
    os.makedirs(room)
    if run(["mount", "-t", "tmpfs", "-o", "size=64k", "tmpfs", room])[0] != 0:
        return trials.skip("a full disk", "nothing can be mounted")
    try:
        ninja, nlog = both_recompact(trials, build, "a full disk", text, room=room)
    finally:
        run(["umount", room])
    trials.want("a full disk: Ninja ends with status 0, and an empty log", ninja, (0, b""))
    return trials.want("a full disk: nlog ends with status 1, and the log as it was", nlog, (1, text))


def try_read_error(trials, build):
    """Ninja takes an error in the middle of the log for its end; nlog leaves the log."""
    if shutil.which("strace") is None:
        return trials.skip("a read error, a kill at the rename", "strace isn't there")
    before = ["strace", "-o", "/dev/null", "-P", LOG, "-e", "trace=read,pread64", "-e", "inject=read,pread64:error=EIO:when=2+"]
    ninja, nlog = both_recompact(trials, build, "a read error", LONG, before)
    trials.check("a read error: Ninja ends with status 0, and without the last entry", ninja[0] == 0 and Log(ninja[1]).table.keys() == {b"a"}, repr(ninja)[:200])
    return trials.want("a read error: nlog ends with status 1, and the log as it was", nlog, (1, LONG))


def try_kill(trials, build):
    """Ninja killed before the new log has its name leaves none; nlog leaves the old one."""
    if shutil.which("strace") is None:
        return
    before = ["strace", "-o", "/dev/null", "-e", "trace=rename", "-e", "inject=rename:signal=SIGKILL"]
    ninja, nlog = both_recompact(trials, build, "a kill at the rename", LONG, before)
    trials.want("a kill at the rename: Ninja leaves no log", ninja[1], None)
    trials.want("a kill at the rename: nlog leaves the log", Log(nlog[1] or b"").table.keys(), Log(LONG).table.keys())


def try_a_b_a(trials, build):
    """A, torn B, B again behind the torn line, A: Ninja alone finds nothing to do over what B made."""
    build.describe("n2")
    build.ninja()
    build.tear(b"note")
    build.ninja()
    build.describe("n1")
    trials.check("A, torn B, B, A: Ninja finds nothing to do", build.is_idle(), repr(build.why()))
    trials.want("A, torn B, B, A: over what B made", read(f"{build.room}/note"), b"n2")
    # The same with a repair before B is run again.
    build.describe("n2")
    build.remove("note")
    build.ninja()
    build.tear(b"note")
    trials.want("A, torn B, repair: ends", build.nlog("repair", LOG), (0, b"", b""))
    build.ninja()
    build.describe("n1")
    trials.check("A, torn B, repair, B, A: Ninja runs A again", OTHER % b"note" in build.why(), repr(build.why()))


PARTS = [
    try_a_b_a,
    try_full_disk,
    try_read_error,
    try_kill,
    try_recompact,
    try_keep_without_manifest,
    try_keep_odd_names,
    try_keep_dyndep,
    try_keep_what_left,
    try_restat,
    try_times,
    try_times_of_none,
    try_torn,
    try_other_command,
    try_lost_whole,
    try_long_restat,
    try_cut_anywhere,
    try_joined,
    try_joined_in_hash,
    try_zeros,
    try_plain_reading,
    try_joined_anywhere,
    try_joined_thrice,
    try_settling_at_damage,
    try_names_like_options,
    try_changed_in_a_build,
    try_mtime,
    try_hash,
    try_version_4,
    try_other_version,
]
# What is of version 5 alone: logs of version 4.
OF_VERSION_5 = [try_version_4]


def ninjas():
    """The machine's own Ninja, and each of the folder that is named."""
    own = [shutil.which("ninja")] if shutil.which("ninja") else []
    folder = os.environ.get("NLOG_NINJAS", "")
    return own + [f"{folder}/{it}/ninja" for it in sorted(os.listdir(folder))] if folder else own


def try_with(trials, program, room, path):
    """Runs each part with the Ninja of this path."""
    number = run([path, "--version"])[1].decode().strip()
    first = (read(f"{Build(program, f'{room}/look', path).room}/{LOG}") or b"").split(b"\n")[0]
    if first not in (b"# ninja log v5", b"# ninja log v6", b"# ninja log v7"):
        return trials.skip(f"Ninja {number}", f"it writes {first.decode(errors='replace')!r}, and nlog reads versions 4 to 7")
    version, trials.about = int(first[-1:]), f"Ninja {number}: "
    for at, part in enumerate(PARTS):
        if part in OF_VERSION_5 and version != 5:
            continue
        build = Build(program, f"{room}/{at}", path, version)
        trials.check(f"{part.__name__}: Ninja has no work to do at first", build.is_idle())
        part(trials, build)
    return None


def trial(trials, program, room):
    found = ninjas()
    if not found:
        trials.skip("all of it", "Ninja isn't there")
    for at, path in enumerate(found):
        try_with(trials, program, f"{room}/{at}", path)


if __name__ == "__main__":
    sys.exit(main(__file__, trial))
