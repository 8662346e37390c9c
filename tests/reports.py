#!/usr/bin/env python3
"""Tries the reports of docs/RECIPES.md, as they stand there, on logs of odd names and numbers, and where a part of one fails.

    python3 tests/reports.py PROGRAM

What each has to print is worked out here from the page and docs/FORMAT.md: the entries of the last build, each command once with its time,
dates, and two logs compared. `builds` and `summary` print what is worked out by hand, and so is the JSON of `trace`, which Python's reader reads;
`picture` draws as many bars as are counted by hand, in XML that Python's reader reads, and a browser and rsvg too, if they are there;
the log of a real build is told and drawn too, if Ninja is there. A script that can't do its work has to print nothing
and to end with another status than 0: where the log is missing, is none, or can't be read, where there is no room for its files, and where
these may grow to so many bytes and no further. Each awk that is there is tried: mawk, gawk, that of busybox and the one true awk. Wants
GNU's date, and iconv.
"""
import datetime
import heapq
import itertools
import json
import os
import random
import re
import resource
import shutil
import signal
import sys
import xml.etree.ElementTree as ElementTree
import zlib

from examples import read_page
from log_format import HEADER, Log, as_version, line_of
from log_lines import asked_of, builds_of, compare_of, entries_of, picture_of, summary_of, trace_of
from simulated import Graph, graph_text, random_project
from trials import main, read, run, write

AWKS = {"mawk": ["mawk"], "gawk": ["gawk"], "busybox": ["busybox", "awk"], "original-awk": ["original-awk"]}
PAGE = "docs/RECIPES.md"
SCRIPTS = ("last.sh", "dates.sh")
NANO = 1_700_000_000_000_000_000

# Names that JSON, a shell or an awk may take for something else. A name holds any byte but NUL, tab and newline.
NAMES = [
    b'a "quoted" name', b"back\\slash\\", b"\\u0041\\n\\\"", b"\\", b'"', b"%s %d %%", b"a b  c", b"-n", b"-", b"@x", b"name=value", b"old=1",
    b"1e5", b"100000", b"0100000", b"+1", b"0x10", b"nan", b"</script>", b"$HOME `x` $(y) 'z'", b"&\\&", b"\xc3\xa9\xe2\x82\xac\xf0\x9f\x98\x80",
    b"\xff", b"x\xffy\xc3", b"\xc3(", b"\r", b"out\r", b"\x7f", b" ", *(b"c%c" % it for it in range(1, 32) if it not in (9, 10)),
    b'"' * 65_536, b"n" * 65_536,
]


def odd_log():
    """A first build, and one of a command for each name, four at a time, in the order of their ends."""
    lines = [line_of(b"earlier", (0, 9_000, NANO, 1)), line_of(NAMES[0], (9_000, 9_001, NANO, 2))]
    for number, name in enumerate(NAMES):
        end = number * 10
        # Commands of one time and hash are two, where their stamps are. By MTIME all are of one build.
        start = max(0, end - 35)
        lines.append(line_of(name, (start, end, NANO + start * 1_000_000 + number * 7, 0x100000 + number)))
    return HEADER + b"".join(lines)


LOGS = {
    "no bytes": b"",
    "a header": HEADER,
    "odd names": odd_log(),
    # Two outputs of one command, not side by side; two commands of one time; and a line that is no entry.
    "several outputs": HEADER
    + b"0\t9\t1\tgone\ta\n0\t5\t7\tx\ta\n3\t5\t7\ty\ta\n0\t5\t7\tz\ta\nno entry\n0\t5\t7\tw\tb\n5\t5\t7\tv\tb\n5\t9\t0\tu\tc\n0\t5\t3\ttorn",
    "odd numbers": HEADER
    + b"-2147483648\t-7\t-1700000000000000000\tleast\t0\n-7\t-5\t-1\tx\t1e5\n9\t-5\t12345678901\tback\t1e5\n"
    + b"0\t2147483647\t9223372036854775807\tlast\tffffffffffffffff\n1\t2147483647\t0\tnone\t2\n2\t2147483647\t999999999\tearly\t3\n",
    "version 4": b"# ninja log v4\n1\t2\t3\ta\tcc\tx\n0\t1\t1700000000000000000\tb\t\n",
    # In the last line END rises, and MTIME is of 100 seconds later.
    "a later build": HEADER + line_of(b"c", (0, 90, NANO - 1_000_000_000, 3)) + line_of(b"a", (0, 40, NANO, 1)) + line_of(b"b", (5, 45, NANO, 2)) + line_of(b"a", (5, 50, NANO + 100_000_000_000, 1)),
    # By the order of its lines the second build began 100 seconds before the first. They are found again by their moments, the other way round.
    "written anew": HEADER + line_of(b"a", (5, 55, NANO + 100_000_000_000, 1)) + line_of(b"b", (10, 50, NANO, 2)),
    # The same, and a build behind it, by which END falls and `a` comes again.
    "written anew and added to": HEADER
    + line_of(b"a", (5, 55, NANO + 100_000_000_000, 1)) + line_of(b"b", (10, 50, NANO, 2)) + line_of(b"a", (0, 20, NANO + 200_000_000_000, 3)),
    # All began at one moment, so they are of one build, and END falls because the log was written anew in another order.
    "one build in another order": HEADER + line_of(b"a", (0, 9, NANO, 1)) + line_of(b"b", (0, 5, NANO, 2)) + line_of(b"c", (0, 7, NANO, 3)),
    # Two builds of two commands, half a second apart. One command of the second wrote its output when it had just begun.
    "an early output": HEADER
    + line_of(b"y", (0, 50, NANO + 550_000_000, 1)) + line_of(b"a", (0, 100, NANO + 100_000_000, 2))
    + line_of(b"x", (0, 450, NANO + 502_000_000, 3)) + line_of(b"b", (0, 120, NANO + 120_000_000, 4)),
    # Two builds of two commands, 500 seconds apart, whose lines take turns.
    "taking turns": HEADER + b"0\t100\t1000000000000\ta\t1\n0\t50\t1500000000000\tb\t2\n60\t90\t1000060000000\tc\t3\n40\t80\t1500040000000\td\t4\n",
    "the manifest last": HEADER + line_of(b"a", (0, 40, NANO, 1)) + line_of(b"build.ninja", (0, 30, NANO + 100_000_000_000, 9)),
    "many builds": HEADER + b"".join(line_of(b"o%d" % (it % 7), (it % 10, it % 10 + 5, NANO + it, it)) for it in range(995)),
}
ODD_NAMES = b"1\t2\t2\t9001\t9001\t%b\n2\t%d\t%d\t%d\t%d\t%b\n"
# What `builds` must print of each, by hand; and another text for version 6 and 7, where MTIME less START tells.
BUILT = {
    "no bytes": b"",
    "a header": b"",
    # A command of no time at its end, four of 10, 20 and 30 ms that begin at 0, and the others of 35 ms each.
    # In version 5 the commands of the second tell of moments that are far from each other, so borders may hide.
    "odd names": ODD_NAMES % (b"unsure", len(NAMES), len(NAMES), 10 * len(NAMES) - 10, 60 + 35 * (len(NAMES) - 4), b"unsure"),
    # MTIME 0 of its last command tells nothing, so a border may hide beside it.
    "several outputs": b"1\t1\t1\t9\t9\tunsure\n2\t6\t6\t9\t21\tunsure\n",
    # By MTIME another build begins at its fourth.
    "odd numbers": b"1\t3\t3\t2147483643\t2147483643\tunsure\n2\t3\t3\t2147483647\t6442450938\tunsure\n",
    "version 4": b"1\t1\t1\t1\t1\tunsure\n2\t1\t1\t1\t1\tunsure\n",
    # END doesn't fall before its last build.
    "a later build": b"1\t1\t1\t90\t90\tsure\n2\t2\t2\t45\t80\tunsure\n3\t1\t1\t45\t45\tunsure\n",
    "written anew": b"1\t1\t1\t40\t40\tagain\t1\n2\t1\t1\t50\t50\tagain\t0\n",
    "written anew and added to": b"1\t1\t1\t40\t40\tagain\t1\n2\t1\t1\t50\t50\tagain\t0\n3\t1\t1\t20\t20\tsure\n",
    "one build in another order": b"1\t1\t1\t9\t9\tunsure\n2\t2\t2\t7\t12\tunsure\n",
    "an early output": b"1\t2\t2\t120\t220\tagain\t2\n2\t2\t2\t450\t500\tagain\t0\n",
    "taking turns": b"1\t2\t2\t100\t130\tagain\t2\n2\t2\t2\t80\t90\tagain\t0\n",
    "the manifest last": b"1\t1\t1\t40\t40\tsure\n2\t1\t1\t30\t30\tsure\n",
    "many builds": b"".join(b"%d\t10\t10\t14\t50\tsure\n" % it for it in range(1, 100)) + b"100\t5\t5\t9\t25\tsure\n",
}
BUILT_LATE = {
    "odd names": ODD_NAMES % (b"sure", len(NAMES), len(NAMES), 10 * len(NAMES) - 10, 60 + 35 * (len(NAMES) - 4), b"sure"),
    # The last line began before the fourth can have, so the log was written anew. Lines that tell nothing come first, by END: `least`, `x` and
    # `none`. Behind them come `early`, `back`, which began within the 2147483647 ms of these, and `last`.
    "odd numbers": b"1\t5\t5\t4294967295\t6442450934\tagain\t1\n2\t1\t1\t2147483647\t2147483647\tagain\t0\n",
    "a later build": b"1\t1\t1\t90\t90\tsure\n2\t2\t2\t45\t80\tsure\n3\t1\t1\t45\t45\tsure\n",
}
# What `summary` has to print of each, by hand: commands, outputs, wall, total, busy, alone, parallel, slowest, and how many outputs later builds may
# have taken. Of `odd names` the script works it out.
SUMMED = {
    "no bytes": None,
    "a header": None,
    # Its last build: 0 to 5 three commands of two hashes run, from 3 four, and from 5 to 9 one.
    "several outputs": (6, 6, 9, 21, 9, 4, b"2.33", 5, b"x"),
    # Its last build: 0 to 1 one runs, 1 to 2 two, and then three. Three times the wall is 3 ms more than the total.
    "odd numbers": (3, 3, 2147483647, 6442450938, 2147483647, 1, b"2.99", 2147483647, b"last"),
    "version 4": (1, 1, 1, 1, 1, 1, b"1.00", 1, b"b"),
    "a later build": (1, 1, 45, 45, 45, 45, b"1.00", 45, b"a"),
    "written anew": (1, 1, 50, 50, 50, 50, b"1.00", 50, b"a", 0),
    "written anew and added to": (1, 1, 20, 20, 20, 20, b"1.00", 20, b"a"),
    # 0 to 5 two run, and to 7 one.
    "one build in another order": (2, 2, 7, 12, 7, 2, b"1.71", 7, b"c"),
    # 0 to 50 two run, and to 450 one.
    "an early output": (2, 2, 450, 500, 450, 400, b"1.11", 450, b"x", 0),
    # 0 to 40 one runs, to 50 two, and to 80 one.
    "taking turns": (2, 2, 80, 90, 80, 70, b"1.12", 50, b"b", 0),
    "the manifest last": (1, 1, 40, 40, 40, 40, b"1.00", 40, b"a"),
    # Five, from 0 to 9, each a millisecond behind the other and 5 ms long: 0 to 1 and 8 to 9 one runs.
    "many builds": (5, 5, 9, 25, 9, 2, b"2.77", 5, b"o3"),
}
SUMMED_LATE = {"odd numbers": (1, 1, 2147483647, 2147483647, 2147483647, 2147483647, b"1.00", 2147483647, b"last", 0)}
# What `summary --all` has to print of each, by hand: the sums over its builds, with the last entry of each output alone.
SUMMED_ALL = {
    "no bytes": None,
    "a header": None,
    "several outputs": (7, 7, 18, 30, 18, 13, b"1.66", 9, b"gone"),
    "odd numbers": (6, 6, 4294967290, 8589934581, 4294967290, 2147483644, b"2.00", 2147483647, b"last"),
    "version 4": (2, 2, 2, 2, 2, 2, b"1.00", 1, b"a"),
    # `c`, `b` and the second `a`, each in a build of its own.
    "a later build": (3, 3, 175, 175, 175, 175, b"1.00", 90, b"c"),
    "written anew": (2, 2, 90, 90, 90, 90, b"1.00", 50, b"a"),
    # Its second build has no output left.
    "written anew and added to": (2, 2, 60, 60, 60, 60, b"1.00", 40, b"b"),
    "one build in another order": (3, 3, 16, 21, 16, 11, b"1.31", 9, b"a"),
    "an early output": (4, 4, 570, 720, 570, 420, b"1.26", 450, b"x"),
    "taking turns": (4, 4, 180, 220, 180, 140, b"1.22", 100, b"a"),
    "the manifest last": (2, 2, 70, 70, 70, 70, b"1.00", 40, b"a"),
    # Two of its last build but one, from 8 to 14, and the five of its last.
    "many builds": (7, 7, 15, 35, 15, 4, b"2.33", 5, b"o1"),
}
# In version 6 and 7 one command alone of the first build runs up to -5, and from 1 to 2; `early` and `none` then run up to the end.
SUMMED_ALL_LATE = {"odd numbers": (6, 6, 6442450942, 8589934581, 6442450936, 4294967291, b"1.33", 2147483647, b"last")}
# How many bars `picture` has to draw of each, by hand, and how many for commands that are too short: those of no time, or of less than half a
# pixel of 1,440.
DRAWN = {
    "no bytes": (0, []),
    "a header": (0, []),
    "odd names": (len(NAMES) - 1, [1]),
    "several outputs": (5, [1]),
    "odd numbers": (3, []),
    "version 4": (1, []),
    "a later build": (1, []),
    "written anew": (1, []),
    "written anew and added to": (1, []),
    "one build in another order": (2, []),
    "an early output": (2, []),
    "taking turns": (2, []),
    "the manifest last": (1, []),
    "many builds": (5, []),
}
DRAWN_LATE = {"odd numbers": (1, [])}
BROWSERS = ("chromium", "chromium-browser", "google-chrome")
SVG = "{http://www.w3.org/2000/svg}"
KEYS = b"commands\t%d\noutputs\t%d\nwall\t%d\ntotal\t%d\nbusy\t%d\nalone\t%d\nparallel\t%s\nslowest\t%d\t%s\n"
# A log of hashes that an awk may take for one number, and of names that are numbers.
OLD = HEADER + b"0\t5\t1\ta\t1e5\n0\t5\t1\tb\t100\n0\t5\t1\tc\tab\n0\t5\t1\t1e5\t7\n0\t5\t1\tgone\t0\n"


class Entry:
    def __init__(self, line):
        start, end, mtime, self.name, self.hash = line.split(b"\t")
        self.start, self.end, self.mtime = int(start), int(end), int(mtime)
        self.command, self.took = (start, end, mtime, self.hash), int(end) - int(start)


def last_build(text):
    """The lines of the entries since END last fell, and of these the first of each command."""
    lines = []
    for line in entries_of(text).split(b"\n")[:-1]:
        if lines and Entry(line).end < Entry(lines[-1]).end:
            lines = []
        lines.append(line)
    commands = {}
    for line in lines:
        commands.setdefault(Entry(line).command, Entry(line))
    return lines, list(commands.values())


def date_of(mtime):
    """The second of a stamp that is a time after the first ten of 1970, or before 1970; else the beginning of 1970."""
    seconds = 0 if -(10**9) < mtime < 10**10 else abs(mtime) // 10**9 * (1 if mtime > 0 else -1)
    return str(datetime.datetime(1970, 1, 1) + datetime.timedelta(seconds=seconds)).encode()


class Reports:
    """The reports of the page, in a folder, with an awk."""

    def __init__(self, trials, program, room, awk):
        self.trials, self.room, self.awk = trials, room, awk
        files, examples = read_page(PAGE)
        self.commands = [it.command for it in examples]
        os.makedirs(f"{room}/bin")
        for name in SCRIPTS:
            write(f"{room}/{name}", files[name])
        words = [shutil.which(AWKS[awk][0]), *AWKS[awk][1:]]
        write(f"{room}/bin/awk", f'#!/bin/sh\nexec {" ".join(words)} "$@"\n'.encode())
        os.chmod(f"{room}/bin/awk", 0o755)
        path = f"{room}/bin:{os.path.dirname(program)}:{os.environ.get('PATH', os.defpath)}"
        self.how = {"cwd": room, "env": {"PATH": path, "LANG": "C.UTF-8", "HOME": room, "TMPDIR": room}}

    def script(self, *words, **how):
        return run(["sh", *words], **{**self.how, **how})

    def command(self, part, without=""):
        """The one command of the page that has this part."""
        found = [it for it in self.commands if part in it]
        assert len(found) == 1, (part, found)
        return run(["bash", "-o", "pipefail", "-c", found[0].replace(without, "")], **self.how)

    def want(self, what, got, wanted):
        self.trials.want(f"{self.awk}, {what}", got, wanted)

    def try_log(self, kind, text):
        lines, commands = last_build(text)
        write(f"{self.room}/LOG", text)
        last = b"".join(it + b"\n" for it in lines)
        self.want(f"{kind}: the last build", self.script("last.sh", "LOG"), (0, last, b""))
        write(f"{self.room}/last.txt", last)
        status, out, err = self.command("| sort -rn", " | head -n 1")
        slow = out.split(b"\n")[:-1]
        times = [int(it.split(b"\t")[0]) for it in slow]
        self.want(f"{kind}: the slowest, how it ends", (status, err), (0, b""))
        self.want(f"{kind}: the slowest", sorted(slow), sorted(b"%d\t%s" % (it.took, it.name) for it in commands))
        self.want(f"{kind}: the slowest, their order", times, sorted(times, reverse=True))
        shown = [Entry(it) for it in Log(text).shown().split(b"\n")[:-1]]
        dates = b"".join(b"%s\t%s\n" % (date_of(it.mtime), it.name) for it in shown)
        self.want(f"{kind}: dates", self.script("dates.sh", "LOG"), (0, dates, b""))

    def try_versions(self):
        """A log of version 6 or 7 gives the reports of the same log of version 5, and so does one whose name begins with `-`."""
        write(f"{self.room}/LOG", OLD)
        rows = [("last.sh", "{}"), ("dates.sh", "{}")]
        for version, name in ((5, "-LOG"), (5, "LO=G"), (6, "six"), (7, "seven"), (7, "-seven")):
            write(f"{self.room}/{name}", as_version(OLD, version))
            for words in rows:
                wanted = self.script(*(it.format("LOG") for it in words))
                self.want(f"{words} of LOG", (wanted[0], wanted[2]), (0, b""))
                self.want(f"{words} of {name}, of version {version}", self.script(*(it.format(name) for it in words)), wanted)
            os.remove(f"{self.room}/{name}")

    def try_failures(self):
        """A script that can't do its work prints nothing, and says so by its status."""
        write(f"{self.room}/LOG", OLD)
        write(f"{self.room}/NONE", b"hello\n")
        rows = [("last.sh", "{}"), ("dates.sh", "{}")]
        for words in rows:
            name = " ".join(words)
            for log, said in (("missing", b""), ("NONE", b"nlog: not a ninja log\n"), ("bin", b"nlog: cannot read\n")):
                ended = self.script(*(it.format(log) for it in words))
                said = b"nlog: cannot read\n" if (words[0], log) == ("last.sh", "missing") else said
                self.want(f"{name} of {log}", ended, (1, b"", said))
            good = [it.format("LOG") for it in words]
            env = {**self.how["env"], "TMPDIR": f"{self.room}/missing"}
            status, out, _ = self.script(*good, env=env)
            self.want(f"{name} without a folder for its files", (status != 0, out), (True, b""))
            self.try_limits(name, good)
        before = sorted(os.listdir(self.room))
        self.script("last.sh", "NONE")
        self.want("the files that a script leaves", sorted(os.listdir(self.room)), before)

    def try_limits(self, name, words):
        whole, stopped = self.script(*words), 0
        for most in range(0, 200, 7):
            ended = self.script(*words, preexec_fn=limit(most), restore_signals=False)
            stopped += ended[0] != 0
            wanted = whole[1] if ended[0] == 0 else b""
            self.want(f"{name}, its files limited to {most} bytes, ended with {ended[0]}", ended[1], wanted)
        self.want(f"{name} of files that are limited: stopped, but not always", 0 < stopped < 29, True)


def by_hand(rows, late, kind, version):
    """What has to be printed of a log of this version."""
    return late.get(kind, rows[kind]) if version > 5 else rows[kind]


def counted(row):
    """The first lines of a summary of these numbers."""
    return KEYS % row[:9] + b"".join(b"again\t%d\n" % it for it in row[9:]) if row else b""


def try_builds(trials, program, room):
    """What `builds` and `summary` print, by hand, of each version, and what `trace` and `picture` do of each and `compare` of each two logs."""
    trials.want("the logs of which builds are told", set(BUILT), set(LOGS))
    place = b"LOG %s/LOG" % room.encode()
    for (kind, text), version in itertools.product(LOGS.items(), (5, 6, 7)):
        about = f"{kind}, version {version}"
        write(f"{room}/LOG", as_version(text, version))
        built = by_hand(BUILT, BUILT_LATE, kind, version)
        # By hand: which of its builds were found again, and which of them the last is.
        again = [b"again" in it for it in built.splitlines()]
        said = [b"nlog: %s: it was written anew, so builds were found again by their time stamps\n" % place if it else b"" for it in (any(again), again[-1:] == [True])]
        trials.want(f"{about}: builds by docs/BUILDS.md", builds_of(as_version(text, version)), built)
        trials.want(f"{about}: builds", run([program, "builds", f"{room}/LOG"]), (0, built, said[0]))
        trials.want(f"{about}: summary", run([program, "summary", f"{room}/LOG"]), (0, summary_of(text, version=version), said[1]))
        for number in range(1, 5):
            got = run([program, "summary", "-n", "2", "--build", str(number), f"{room}/LOG"])
            wanted = (0, summary_of(text, 2, number, version=version), said[0] if again[number - 1 : number] == [True] else b"")
            trials.want(f"{about}: summary of build {number}", got, wanted)
            for word, told in (("trace", trace_of), ("picture", picture_of)):
                got = run([program, word, "--build", str(number), f"{room}/LOG"])
                trials.want(f"{about}: {word} of build {number}", got, (0, told(text, version, number), wanted[2]))
        got = run([program, "summary", "-n", "3", "--all", f"{room}/LOG"])
        trials.want(f"{about}: summary of all outputs", got, (0, summary_of(text, 3, of_all=True, version=version), said[0]))
        for word, told in (("trace", trace_of), ("picture", picture_of)):
            got = run([program, word, "--all", f"{room}/LOG"])
            trials.want(f"{about}: {word} of all builds", got, (0, told(text, version, of_all=True), said[0]))
        for rule in ("extension", "folder", "top", "work"):
            got = run([program, "summary", f"--kind={rule}", f"{room}/LOG"])
            trials.want(f"{about}: its kinds by {rule}", got, (0, summary_of(text, rule=rule, version=version), said[1]))
        status, out, err = run([program, "trace", f"{room}/LOG"])
        trials.want(f"{about}: trace", (status, out, err), (0, trace_of(text, version), said[1]))
        told = json.loads(out.decode())
        trials.want(f"{about}: whether it is said to be rewritten", [it["args"]["rewritten"] for it in told[:1]], again[-1:])
        trials.want(f"{about}: its lanes", lanes_that_fail(told), [])
        status, out, err = run([program, "picture", f"{room}/LOG"])
        trials.want(f"{about}: picture", (status, out, err), (0, picture_of(text, version), said[1]))
        trials.want(f"{about}: whether its picture says so", b"found again" in out, again[-1:] == [True])
        want_drawn(trials, f"{about}: its picture", out, *by_hand(DRAWN, DRAWN_LATE, kind, version))
        trials.want(f"{about}: its numbers", run([program, "summary", "-n", "0", f"{room}/LOG"]), (0, summary_of(text, 0, version=version), said[1]))
        for words, rows, late in (({}, SUMMED, SUMMED_LATE), ({"of_all": True}, SUMMED_ALL, SUMMED_ALL_LATE)):
            if kind in rows:
                wanted = counted(by_hand(rows, late, kind, version))
                trials.want(f"{about}: the summary by docs/CLI.md, {words}", summary_of(text, 0, version=version, **words), wanted)
    for (kind, old), (other, new) in itertools.product(LOGS.items(), repeat=2):
        # Of each two one is of version 5, 6 or 7 by turns.
        versions = [5 + len(it) % 3 if text.startswith(HEADER) else None for it, text in ((kind, old), (other, new))]
        write(f"{room}/OLD", as_version(old, versions[0] or 5))
        write(f"{room}/NEW", as_version(new, versions[1] or 5))
        got = run([program, "compare", "-n", "3", f"{room}/OLD", f"{room}/NEW"])
        trials.want(f"{kind}, version {versions[0]}, and {other}, version {versions[1]}: compare", got, (0, compare_of(old, new, versions, 3), b""))


# Two logs, and what `compare` prints of them by hand: `x` and `y` are of one command, which meets the later one of `y`. That of `u` didn't end. `p` and
# `q` are of one command in the second log, which meets that of `p`.
BEFORE = b"# ninja log v7\n0\t10\t1\tx\t1\n0\t10\t1\ty\t1\n0\t20\t1\tz\t2\n0\t5\t1\tw\t3\n0\t7\t1\tu\t4\n0\t9\t1\tv\t5\n0\t8\t1\tp\t7\n0\t30\t1\tq\t7\n"
AFTER = b"# ninja log v7\n0\t13\t1\ty\t1\n0\t20\t1\tz\t9\n0\t4\t1\tw\t3\n5\t5\t0\tu\t0\n0\t6\t1\tn\t6\n0\t8\t1\tp\t7\n0\t8\t1\tq\t7\n"
COMPARED = (
    b"hashes\tcompared\ntotal\tnew\t1\t6\t0\t6\ntotal\tgone\t2\t-39\t39\t0\ntotal\tchanged\t1\t0\t20\t20\n%btotal\tunfinished\t1\t-7\t7\t0\n%b"
    b"new\t6\t0\t6\tn\ngone\t-30\t30\t0\tq\ngone\t-9\t9\t0\tv\nchanged\t0\t20\t20\tz\n%bunfinished\t-7\t7\t0\tu\n"
)
SLOWER, FASTER, NO_SLOWER, NO_FASTER = (b"total\t%b\n" % it for it in (b"slower\t1\t3\t10\t13", b"faster\t1\t-1\t5\t4", b"slower\t0\t0\t0\t0", b"faster\t0\t0\t0\t0"))
# By the least difference.
DIFFERENT = {
    0: (SLOWER + FASTER, b"total\tsame\t1\t0\t8\t8\n", b"slower\t3\t10\t13\tx\nfaster\t-1\t5\t4\tw\n"),
    1: (SLOWER + FASTER, b"total\tsame\t1\t0\t8\t8\n", b"slower\t3\t10\t13\tx\nfaster\t-1\t5\t4\tw\n"),
    2: (SLOWER + NO_FASTER, b"total\tsame\t2\t-1\t13\t12\n", b"slower\t3\t10\t13\tx\n"),
    3: (SLOWER + NO_FASTER, b"total\tsame\t2\t-1\t13\t12\n", b"slower\t3\t10\t13\tx\n"),
    4: (NO_SLOWER + NO_FASTER, b"total\tsame\t3\t2\t23\t25\n", b""),
}


def try_compared(trials, program, room):
    """What `compare` prints of commands of several outputs, by hand, and by the least difference."""
    write(f"{room}/OLD", BEFORE)
    write(f"{room}/NEW", AFTER)
    for least, parts in DIFFERENT.items():
        trials.want(f"compare at least {least} by docs/CLI.md", compare_of(BEFORE, AFTER, least=least), COMPARED % parts)
        trials.want(f"compare at least {least}", run([program, "compare", f"--at-least={least}", f"{room}/OLD", f"{room}/NEW"]), (0, COMPARED % parts, b""))


def lanes_that_fail(events):
    """The lanes of a trace that hold two commands at one time, and those beyond the most commands that run at one time."""
    bars = [(it["ts"], it["ts"] + it["dur"], it["tid"]) for it in events if it["ph"] == "X"]
    bars = [it for it in bars if it[0] < it[1]]
    both = [(one, other) for at, one in enumerate(bars) for other in bars[:at] if one[2] == other[2] and one[0] < other[1] and other[0] < one[1]]
    most = max((sum(it[0] <= bar[0] < it[1] for it in bars) for bar in bars), default=0)
    return both + [it for it in bars if it[2] > max(most, 1)]


class Drawn:
    """A picture by its parts: its bars, each by where it begins and ends, its lane's place, and its title; the names in bars; the axis; all texts."""

    def __init__(self, picture):
        root = ElementTree.fromstring(picture)
        self.name, self.wide, self.tall = root[0].text, *(int(it) for it in root.get("viewBox").split()[2:])
        group = root.find(f"{SVG}g")
        box = lambda it: (int(it.get("x")), int(it.get("x")) + int(it.get("width")), int(it.get("y")), it.find(f"{SVG}title").text)
        self.bars = [box(it) for it in group if it.tag == f"{SVG}rect"]
        self.feet = [int(it.get("y")) + int(it.get("height")) for it in group if it.tag == f"{SVG}rect"]
        self.names = [(int(it.get("x")), int(it.get("y")), it.text) for it in group if it.tag == f"{SVG}text"]
        self.axis = [(int(it.get("x")), it.text) for it in root.findall(f"{SVG}text") if it.get("text-anchor") == "middle"]
        around = lambda it: (int(it.get("x")), int(it.get("x")) + int(it.get("width")), int(it.get("y")))
        self.outlines = [around(it) for it in root.findall(f"{SVG}rect") if it.get("class") == "c"]
        self.texts = [it.text for it in root.iter(f"{SVG}text")]
        self.labelled = root[0].tag == f"{SVG}title" and root.get("aria-labelledby") == root[0].get("id") and root.get("role") == "img"


def bars_of(picture):
    return Drawn(picture).bars


def milliseconds(text):
    """A time in words as a number."""
    units = {"ms": 1, "s": 1000, "min": 60_000, "h": 3_600_000}
    words = text.split()
    return round(sum(float(number) * units[unit] for number, unit in zip(words[::2], words[1::2])))


# How far the lines of an axis may stand apart, in milliseconds, by docs/CLI.md.
ROUND = {digit * 10**zeros * unit for unit in (1, 3_600_000) for zeros in range(8) for digit in (1, 2, 5)} | {1000 * it for it in (15, 30, 60, 120, 300, 900, 1800)}


def want_drawn(trials, what, picture, count, short):
    """A picture is XML with so many bars of one command, and so many of short commands, which tell their number."""
    try:
        drawn = Drawn(picture)
    except (ElementTree.ParseError, AttributeError) as why:
        return trials.check(what, False, why)
    bars = drawn.bars
    joined, long = ([it for it in bars if bool(re.fullmatch(r"\d+ short", it[3])) == is_short] for is_short in (True, False))
    both = [(one, other) for one, other in itertools.pairwise(sorted(long, key=lambda it: (it[2], it[0]))) if one[2] == other[2] and one[1] > other[0]]
    trials.want(f"{what}: bars that lie over each other", both, [])
    trials.want(f"{what}: the titles that aren't two lines", [it for it in long if it[3].count("\n") != 1], [])
    outside = [it for it, foot in zip(bars, drawn.feet) if not (1000 <= it[0] <= it[1] <= 15410 and 1000 <= it[2] <= foot <= drawn.tall)]
    trials.want(f"{what}: bars out of bounds", (outside, drawn.labelled), ([], True))
    ticks = [milliseconds(it) for _, it in drawn.axis]
    wall = re.search(r" in (.*), ", drawn.name)[1]
    # A time in words is rounded down to a part of its second unit.
    dropped = next(it for unit, it in (("h", 59_999), ("min", 999), ("ms", 0), ("s", 99)) if unit in wall.split())
    least, most = milliseconds(wall), milliseconds(wall) + dropped
    wrong = [it for it, ms in zip(drawn.axis, ticks) if not ms * 14400 // max(1, most) <= it[0] - 1000 <= ms * 14400 // max(1, least)]
    trials.want(f"{what}: ticks that don't stand at their time", wrong, [])
    steps = {later - sooner for sooner, later in itertools.pairwise(ticks)}
    trials.check(f"{what}: round ticks", ticks[0] == 0 and len(ticks) <= 13 and len(steps) <= 1 and steps <= ROUND, drawn.axis)
    # A name stands in the bar that it begins.
    by_place = {(it[0] + 40, it[2] + 135): it for it in long}
    torn = [it for it in drawn.names if not re.split("\u2026$", it[2])[0] in by_place.get(it[:2], ("", "", "", ""))[3]]
    wide = [it for it in long if it[1] - it[0] >= 1700]
    named = {it[:2] for it in drawn.names}
    bare = [it for it in wide if (it[0] + 40, it[2] + 135) not in named] if len({it[2] for it in bars}) <= 64 else []
    trials.want(f"{what}: names that aren't those of their bars, and wide bars without one", (torn, bare), ([], []))
    return trials.want(f"{what}: bars", (len(long), sorted(int(it[3].split()[0]) for it in joined)), (count, short))


# How long a picture may take to be shown, in seconds of a processor.
SHOWN = 20
SIZES = {1: 1, 20: 4, 566: 2, 20_000: 8, 300_000: 64}


def build_of(count, lanes):
    """A log of one build: so many commands, so many at a time, of odd lengths."""
    lines, ends = [], [(0, it) for it in range(lanes)]
    for it in range(count):
        start, lane = heapq.heappop(ends)
        end = start + (37 * it % 101 + 1) * (20 if it % 97 == 0 else 1)
        heapq.heappush(ends, (end, lane))
        lines.append((end, line_of(b"sub/folder/f\xc3\xa9%d.%s" % (it, (b"o", b"c", b"a", b"so", b"test", b"html")[it % 6]), (start, end, NANO, it))))
    return HEADER + b"".join(it for _, it in sorted(lines))


def processor(words):
    """The status of a command, what it prints, and the seconds of a processor that it and its children took."""
    before = resource.getrusage(resource.RUSAGE_CHILDREN)
    ended = run(words)
    after = resource.getrusage(resource.RUSAGE_CHILDREN)
    return ended, after.ru_utime + after.ru_stime - before.ru_utime - before.ru_stime


def pixels_of(path):
    """The width, the height, and the set of colours of a PNG."""
    image = read(path)
    at, parts, wide, tall, depth = 8, b"", 0, 0, 0
    while at < len(image):
        size, kind = int.from_bytes(image[at : at + 4], "big"), image[at + 4 : at + 8]
        body = image[at + 8 : at + 8 + size]
        if kind == b"IHDR":
            wide, tall, depth = int.from_bytes(body[:4], "big"), int.from_bytes(body[4:8], "big"), 4 if body[9] == 6 else 3
        parts += body if kind == b"IDAT" else b""
        at += 12 + size
    rows, row, raw, colours = wide * depth, bytearray(wide * depth), zlib.decompress(parts), set()
    for y in range(tall):
        how, line = raw[y * (rows + 1)], bytearray(raw[y * (rows + 1) + 1 : (y + 1) * (rows + 1)])
        for x in range(rows) if how else ():
            left, up, slant = line[x - depth] if x >= depth else 0, row[x], row[x - depth] if x >= depth else 0
            near = min((left, up, slant), key=lambda it: abs(left + up - slant - it)) if how == 4 else 0
            line[x] = (line[x] + (0, left, up, (left + up) // 2, near)[how]) % 256
        row = line
        colours |= {bytes(line[x : x + 3]) for x in range(0, rows, depth)}
    return wide, tall, colours


def try_shown(trials, program, room):
    """Pictures of builds of many sizes, as Chromium shows them, light and dark, and rsvg."""
    browser, rsvg = next((it for it in BROWSERS if shutil.which(it)), None), shutil.which("rsvg-convert")
    if browser is None:
        trials.skip("pictures by a browser", f"none of {', '.join(BROWSERS)} is there")
    if rsvg is None:
        trials.skip("pictures by rsvg", "rsvg-convert isn't there")
    for count, lanes in SIZES.items():
        about = f"{count:,} commands"
        write(f"{room}/LOG", build_of(count, lanes))
        status, out, err = run([program, "picture", f"{room}/LOG"])
        trials.want(f"{about}: picture", (status, err), (0, b""))
        write(f"{room}/build.svg", out)
        drawn = Drawn(out)
        trials.check(f"{about}: how many there are", drawn.name.startswith(f"{count} command"), drawn.name)
        told = [re.fullmatch(r"(\d+) short", it[3]) for it in drawn.bars]
        want_drawn(trials, about, out, sum(it is None for it in told), sorted(int(it[1]) for it in told if it))
        trials.want(f"{about}: those in its bars", sum(int(it[1]) if it else 1 for it in told), count)
        if rsvg:
            ended, took = processor([rsvg, "-z", "0.5", "-o", f"{room}/rsvg.png", f"{room}/build.svg"])
            trials.want(f"{about}: rsvg", ended, (0, b"", b""))
            trials.check(f"{about}: the time of rsvg", took <= SHOWN, took)
            want_shown(trials, f"{about}: by rsvg", f"{room}/rsvg.png", drawn.tall // 10, b"\xff\xff\xff")
        for mode, page in ((1, b"\xff\xff\xff"), (0, b"\x1b\x1b\x1b")) if browser else ():
            tall = min(drawn.tall // 10, 2000)
            words = [browser, "--headless", "--no-sandbox", "--disable-gpu", "--hide-scrollbars", f"--user-data-dir={room}/shown", f"--window-size=1600,{tall}", "--force-device-scale-factor=0.5"]
            words += [f"--blink-settings=preferredColorScheme={mode}", f"--screenshot={room}/shown.png", f"file://{room}/build.svg"]
            ended, took = processor(words)
            trials.want(f"{about}: a browser, {mode}", ended[0], 0)
            trials.check(f"{about}: the time of a browser, {mode}", took <= SHOWN, took)
            want_shown(trials, f"{about}: by a browser, {mode}", f"{room}/shown.png", tall, page)
    return None


def want_shown(trials, what, path, tall, page):
    """An image, half as large, has this height, the colour of the page, and that of commands that compile."""
    wide, high, colours = pixels_of(path)
    trials.check(f"{what}: its size", wide == 800 and abs(2 * high - tall) <= 2, (wide, high, tall))
    return trials.check(f"{what}: its colours", {page, b"\x56\xb4\xe9"} <= colours, sorted(colours)[:9])


def try_browser(trials, program, room):
    """A browser reads the picture of odd names as an image of its size, and shows no error of XML."""
    browser = next((it for it in BROWSERS if shutil.which(it)), None)
    if browser is None:
        return trials.skip("a picture in a browser", f"none of {', '.join(BROWSERS)} is there")
    write(f"{room}/LOG", LOGS["odd names"])
    write(f"{room}/build.svg", run([program, "picture", f"{room}/LOG"])[1])
    words = [browser, "--headless", "--no-sandbox", "--disable-gpu", f"--user-data-dir={room}/browser", "--dump-dom", f"file://{room}/build.svg"]
    status, shown, _ = run(words)
    # One of each bar, and that of the picture.
    trials.want("a picture in a browser: how it ends, and its titles", (status, len(re.findall(b"<title[ >]", shown)), b"parsererror" in shown), (0, len(NAMES) + 1, False))
    return None


def try_many(trials, program, room):
    """A build of 20,000 commands, eight at a time: it takes at most 400 bytes a command, and as many commands are in its bars."""
    lines, ends, number = [], [0] * 8, 20_000
    for it in range(number):
        lane = ends.index(min(ends))
        start, took = ends[lane], (3, 0, 17, 1, 250)[it % 5]
        ends[lane] = start + took
        lines.append((ends[lane], line_of(b"out/some/folder/of/the/build/file%d.%s" % (it, b"abcdefghijkl"[it % 12 : it % 12 + 1]), (start, ends[lane], 1, it))))
    text = HEADER + b"".join(it[1] for it in sorted(lines, key=lambda it: it[0]))
    write(f"{room}/LOG", text)
    status, out, err = run([program, "picture", f"{room}/LOG"])
    trials.want(f"{number:,} commands: picture", (status, out, err), (0, picture_of(text), b""))
    bars = bars_of(out)
    told = [re.fullmatch(r"(\d+) short", it[3]) for it in bars]
    trials.check(f"{number:,} commands: its size", len(out) <= 400 * number, len(out))
    trials.want(f"{number:,} commands: those in its bars", sum(int(it[1]) if it else 1 for it in told), number)
    # By hand: a pixel of a lane has one bar of short commands, and two others at most, because each of these takes half a pixel or more.
    return trials.check(f"{number:,} commands: its bars", len(bars) <= 8 * 1440 * (1 + 2), len(bars))


def try_ninja(trials, program, room):
    """What `trace` and `picture` print of the log of a real build of four commands at a time, one with two outputs."""
    if shutil.which("ninja") is None:
        return trials.skip("a trace of a real build", "Ninja isn't there")
    os.makedirs(f"{room}/built")
    rules = ["rule wait", "  command = sleep 0.0$in && touch $out", "build two.a two.b: wait 3"] + [f"build out{it}: wait {it % 4}" for it in range(30)]
    write(f"{room}/built/build.ninja", "\n".join([*rules, ""]).encode())
    for it in range(4):
        write(f"{room}/built/{it}", b"")
    trials.want("a real build", run(["ninja", "-j4"], cwd=f"{room}/built")[0], 0)
    log = f"{room}/built/.ninja_log"
    status, out, err = run([program, "trace", log])
    events = json.loads(out.decode())
    trials.want("a real build: trace", (status, out, err), (0, trace_of(read(log)), b""))
    trials.want("a real build: its lanes", lanes_that_fail(events), [])
    trials.check("a real build: no more lanes than jobs", max(it["tid"] for it in events if it["ph"] == "X") <= 4, out)
    status, out, err = run([program, "picture", log])
    trials.want("a real build: picture", (status, out, err), (0, picture_of(read(log)), b""))
    counts = [re.fullmatch(r"(\d+) short", it[3]) for it in bars_of(out)]
    trials.want("a real build: the commands in its bars", sum(int(it[1]) if it else 1 for it in counts), 31)
    trials.check("a real build: both outputs are told", any(it[3].startswith("two.a and 1 more\n") for it in bars_of(out)), out)
    told = sorted(tuple(it["args"]["outputs"]) for it in events if it["ph"] == "X")
    return trials.want("a real build: its outputs", told, sorted([("two.a", "two.b"), *((f"out{it}",) for it in range(30))]))


# A graph in which `b` needs `a`, and the log of its build.
GRAPH = b'digraph ninja {\nrankdir="LR"\nnode [fontsize=10]\nedge [fontsize=10]\n"1" [label="b"]\n"2" -> "1" [label=" cc"]\n"2" [label="a"]\n}\n'
GRAPHED = b"# ninja log v7\n0\t40\t1\ta\tcc\n40\t60\t1\tb\tdd\n"
ON_PATH = b"critical-path\t60\non-path\t40\t0\t40\ta\non-path\t20\t40\t60\tb\n"


# Three commands, of which the second waits for the first, and by hand the bars of these two: of 100 ms the first takes 40 and the second 60.
OUTLINED = b"# ninja log v7\n0\t40\t1\ta\tcc\n0\t90\t1\tlone\tee\n40\t100\t1\tb\tdd\n"
OUTLINES = [(11800, 11940, 540), (1000, 6760, 1100), (6760, 15400, 1100)]


def try_outlines(trials, program, room):
    """The outlines of the critical path in a picture, by hand, and as rsvg shows them."""
    write(f"{room}/GRAPH", GRAPH)
    write(f"{room}/LOG", OUTLINED)
    status, out, err = run([program, "picture", "--graph", f"{room}/GRAPH", f"{room}/LOG"])
    trials.want("a picture with a graph", (status, out, err), (0, picture_of(OUTLINED, path=[b"a", b"b"]), b""))
    drawn = Drawn(out)
    trials.want("the outlines of a critical path", (drawn.outlines, "critical path" in drawn.texts), (OUTLINES, True))
    write(f"{room}/LOG", OUTLINED.replace(b"\ta\t", b"\tx\t").replace(b"\tb\t", b"\ty\t"))
    got = run([program, "picture", "--graph", f"{room}/GRAPH", f"{room}/LOG"])
    trials.want("a picture with another build's graph", got, (1, b"", b"nlog: not the graph of this build\n"))
    if shutil.which("rsvg-convert") is None:
        return trials.skip("pictures by rsvg: an outline", "rsvg-convert isn't there")
    for name, image in (("outlined", out), ("plain", re.sub(rb'<rect class="c"[^>]*>', b"", out))):
        write(f"{room}/{name}.svg", image)
        trials.want(f"rsvg, {name}", run(["rsvg-convert", "-o", f"{room}/{name}.png", f"{room}/{name}.svg"]), (0, b"", b""))
    colours = [b"\xd0\x00\x00" in pixels_of(f"{room}/{it}.png")[2] for it in ("outlined", "plain")]
    return trials.want("the colour of an outline by rsvg", colours, [True, False])


def try_graphs(trials, program, room):
    """What `summary --graph` prints, by hand, and of graphs that are broken."""
    eight = summary_of(GRAPHED, 0)
    rows = {
        "a graph": (GRAPH, eight + ON_PATH, 0),
        "a graph with empty lines behind it": (GRAPH + b"\n\n", eight + ON_PATH, 0),
        "a graph without its last newline": (GRAPH[:-1], eight + ON_PATH, 0),
        "nodes without names": (b'digraph ninja {\n"1" -> "2"\n"3" [label="cc", shape=ellipse]\n}\n', b"", "other"),
        "nodes that the log lacks": (GRAPH.replace(b'"a"', b'"c"').replace(b'"b"', b'"d"'), b"", "other"),
        "a name anew": (GRAPH.replace(b"}\n", b'"2" [label="x"]\n}\n'), eight + b"critical-path\t20\non-path\t20\t40\t60\tb\nnot-in-graph\t1\t40\n", 0),
        "a graph of the first command alone": (GRAPH.replace(b'"b"', b'"d"'), eight + b"critical-path\t40\non-path\t40\t0\t40\ta\nnot-in-graph\t1\t20\n", 0),
        "an empty file": (b"", b"", 1),
        "a log": (GRAPHED, b"", 1),
        "a graph without its end": (GRAPH[:-2], b"", 8),
        "a torn line": (GRAPH[: GRAPH.index(b" cc")], b"", 6),
        "a torn name": (GRAPH[: GRAPH.index(b'"a"') + 2], b"", 7),
        "a text behind the end": (GRAPH + b"x", b"", 9),
        "carriage returns": (GRAPH.replace(b"\n", b"\r\n"), b"", 1),
        "a cycle": (GRAPH.replace(b"}\n", b'"1" -> "2"\n}\n'), b"", None),
    }
    write(f"{room}/LOG", GRAPHED)
    for what, (text, out, line) in rows.items():
        write(f"{room}/GRAPH", text)
        got = run([program, "summary", "-n", "0", "--graph", f"{room}/GRAPH", f"{room}/LOG"])
        if line == "other":
            trials.want(what, got, (1, b"", b"nlog: not the graph of this build\n"))
        elif line is None:
            # One of the two lines of the cycle is told.
            trials.check(what, got in [(1, b"", b"nlog: bad line %d\n" % it) for it in (6, 8)], got)
        else:
            trials.want(what, got, (1, b"", b"nlog: bad line %d\n" % line) if line else (0, out, b""))
    write(f"{room}/GRAPH", GRAPH)
    # Half of `a` gains 20 ms, and then half of `b` 10; where another path is as long but for 5 ms, that is all.
    got = run([program, "summary", "--graph", f"{room}/GRAPH", f"{room}/LOG"])
    trials.want("gains", got, (0, summary_of(GRAPHED) + ON_PATH + b"gain\t20\ta\ngain\t10\tb\n", b""))
    beside = GRAPHED.replace(b"40\t60", b"0\t55\t1\tc\tee\n40\t60")
    write(f"{room}/BESIDE", beside)
    write(f"{room}/GRAPH", GRAPH.replace(b"}\n", b'"3" [label="c"]\n}\n'))
    got = run([program, "summary", "-n", "1", "--graph", f"{room}/GRAPH", f"{room}/BESIDE"])
    trials.want("a gain beside another path", got, (0, summary_of(beside, 1) + ON_PATH + b"gain\t5\ta\n", b""))
    write(f"{room}/GRAPH", GRAPH)
    piped = run(["bash", "-c", f"'{program}' summary -n 0 --graph <(cat '{room}/GRAPH') '{room}/LOG'"])
    trials.want("a graph by a pipe", piped, (0, eight + ON_PATH, b""))
    got = run([program, "summary", "-n", "0", "--graph", "-", f"{room}/LOG"], stdin=None, input=GRAPH)
    trials.want("a graph by standard input", got, (0, eight + ON_PATH, b""))
    try_outlines(trials, program, room)
    # The builds of `written anew` are found again, the first of `b`, which the graph has, and the last of `a`.
    write(f"{room}/ANEW", LOGS["written anew"])
    said = b"nlog: LOG %s/ANEW: it was written anew, so builds were found again by their time stamps\n" % room.encode()
    got = run([program, "summary", "-n", "0", "--build", "1", "--graph", f"{room}/GRAPH", f"{room}/ANEW"])
    wanted = summary_of(LOGS["written anew"], 0, 1) + b"critical-path\t40\non-path\t40\t10\t50\tb\n"
    trials.want("a graph of a build that is found again", got, (0, wanted, said))
    # Of all builds, each START and END from the beginning of its own.
    got = run([program, "summary", "-n", "0", "--all", "--graph", f"{room}/GRAPH", f"{room}/ANEW"])
    wanted = summary_of(LOGS["written anew"], 0, of_all=True) + b"critical-path\t90\non-path\t50\t5\t55\ta\non-path\t40\t10\t50\tb\n"
    trials.want("a graph of all builds", got, (0, wanted, said))
    write(f"{room}/ANEW", HEADER)
    trials.want("a graph of no build", run([program, "summary", "--graph", f"{room}/GRAPH", f"{room}/ANEW"]), (0, b"", b""))
    # A path of 100,000 commands, whose edges come in the order of Ninja, from the end on.
    count = 100_000
    edges = b"".join(b'"%d" [label="%d"]\n"%d" -> "%d" [label=" cc"]\n' % (it, it, it - 1, it) for it in range(count, 0, -1))
    write(f"{room}/GRAPH", b"digraph ninja {\n" + edges + b"}\n")
    write(f"{room}/LOG", b"# ninja log v7\n" + b"".join(b"%d\t%d\t%d\t%d\t%x\n" % (it, it + 1, NANO + it * 1_000_000, it, it) for it in range(1, count + 1)))
    status, out, err = run([program, "summary", "-n", "0", "--graph", f"{room}/GRAPH", f"{room}/LOG"])
    wanted = b"critical-path\t100000\n" + b"".join(b"on-path\t1\t%d\t%d\t%d\n" % (it, it + 1, it) for it in range(1, count + 1))
    return trials.want("a path of 100,000 commands", (status, out[out.find(b"critical-path"):], err), (0, wanted, b""))


# `app` needs three objects, of 10, 20 and 30 ms: two at a time, the third begins when the first has ended. And what is no number of commands.
FOUR = [((0, 10), [b"a.o"]), ((0, 20), [b"b.o"]), ((0, 30), [b"c.o"]), ((30, 35), [b"app"])]
FOUR_GRAPH = graph_text([([b"a.c"], [b"a.o"], b"cc"), ([b"b.c"], [b"b.o"], b"cc"), ([b"c.c"], [b"c.o"], b"cc"), ([b"a.o", b"b.o", b"c.o"], [b"app"], b"link")], [b"app"])
FOUR_ESTIMATES = b"estimate\t1\t65\t65\nestimate\t2\t45\t35\nestimate\t3\t35\t35\nestimate\t4\t35\t35\n"
NO_COUNTS = ["", "0", "1,", ",1", "1,,2", "01", "+1", "1.5", "1, 2", "9223372036854775808", "x"]


def log_of_build(version, commands):
    """The log of one build of these commands, each a START, an END and its outputs."""
    lines = []
    for place, ((start, end), outputs) in enumerate(commands):
        lines += [(end, place, line_of(it, (start, end, NANO + (end if version < 6 else start) * 1_000_000, place + 1))) for it in outputs]
    return b"# ninja log v%d\n" % version + b"".join(it for _, _, it in sorted(lines))


def estimates_of(program, room, graph, log, counts):
    write(f"{room}/GRAPH", graph)
    write(f"{room}/LOG", log)
    status, out, err = run([program, "summary", "-n", "0", "--graph", f"{room}/GRAPH", "--jobs", counts, f"{room}/LOG"])
    at = out.find(b"estimate\t")
    return status, out[at:] if at >= 0 else b"", err


def try_estimates(trials, program, room):
    """What `summary --jobs` prints: by hand, and of graphs at random by a simulation that is written here."""
    trials.want("estimates by hand", estimates_of(program, room, FOUR_GRAPH, log_of_build(7, FOUR), "1,2,3,4"), (0, FOUR_ESTIMATES, b""))
    for counts in NO_COUNTS:
        got = estimates_of(program, room, FOUR_GRAPH, log_of_build(7, FOUR), counts)
        trials.want(f"{counts!r} is no number of commands", got, (1, b"", b"nlog: bad number\n"))
    status, out, _ = run([program, "summary", "--jobs", "4", f"{room}/LOG"])
    trials.want("estimates without a graph", (status, out), (2, b""))
    # By this graph `b.o` needs `a.o`, and by the log one command made both.
    both = [((0, 10), [b"a.o", b"b.o"])]
    got = estimates_of(program, room, graph_text([([b"a.c"], [b"a.o"], b"cc"), ([b"a.o"], [b"b.o"], b"cc")], [b"b.o"]), log_of_build(7, both), "2")
    trials.want("a command that waits for itself", got, (1, b"", b"nlog: not the graph of this build\n"))
    numbers = (1, 2, 3, 8, 1000)
    for seed in range(60):
        rng = random.Random(seed)
        edges, targets = random_project(seed, rng.randrange(1, 80))
        graph = graph_text(edges, targets)
        # Some commands didn't run, and the graph lacks one of those that did.
        ran = [outputs for _, outputs, rule in edges if rule != b"phony" and rng.random() < 0.9] + [[b"elsewhere"]]
        starts = [rng.randrange(300) for _ in ran]
        commands = [((start, start + rng.choice((0, 1, 10, 10, 25, 200))), outputs) for start, outputs in zip(starts, ran)]
        for version in (5, 6, 7):
            log = log_of_build(version, commands)
            # Those of one END are told in their order, and then they are taken by START.
            told = sorted(sorted(commands, key=lambda it: it[0][1]), key=lambda it: it[0][0])
            model = Graph(graph, [(end - start, outputs) for (start, end), outputs in told])
            wanted = b"".join(b"estimate\t%d\t%d\t%d\n" % (it, model.wall(it, version > 5), model.floor(it)) for it in numbers)
            got = estimates_of(program, room, graph, log, ",".join(map(str, numbers)))
            other = (1, b"", b"nlog: not the graph of this build\n")
            trials.want(f"estimates {seed} of version {version}", got, (0, wanted, b"") if len(ran) > 1 else other)


# Two projects that CMake lays out: an archive, a generated header and two programs; and a chain of generated sources with a library of each folder.
CMAKE = "cmake_minimum_required(VERSION 3.13)\nproject(%s C)\n"
UNITS = {f"u{it}.c": f"int u{it}(int x) {{ return x * {it} + 1; }}\n" for it in range(9)}
HEADER_OF = "add_custom_command(OUTPUT made.h COMMAND ${CMAKE_COMMAND} -E copy ${CMAKE_SOURCE_DIR}/base.h made.h DEPENDS base.h)\n"
PROJECTS = {
    "archive": {
        **UNITS,
        "base.h": "#define MADE 1\n",
        "main.c": '#include "made.h"\nint u1(int);\nint main(void) { return u1(MADE) - 2; }\n',
        "CMakeLists.txt": CMAKE % "archive" + HEADER_OF
        + "add_library(units STATIC " + " ".join(UNITS) + ")\nadd_executable(one main.c ${CMAKE_BINARY_DIR}/made.h)\nadd_executable(two main.c ${CMAKE_BINARY_DIR}/made.h)\n"
        + "target_include_directories(one PRIVATE ${CMAKE_BINARY_DIR})\ntarget_include_directories(two PRIVATE ${CMAKE_BINARY_DIR})\ntarget_link_libraries(one units)\ntarget_link_libraries(two units)\n",
    },
    "chain": {
        "CMakeLists.txt": CMAKE % "chain" + "add_subdirectory(low)\nadd_subdirectory(high)\n"
        + "".join(f"add_custom_command(OUTPUT s{it}.c COMMAND ${{CMAKE_COMMAND}} -E copy {src} s{it}.c DEPENDS {src})\n" for it, src in enumerate(["${CMAKE_SOURCE_DIR}/main.c", "s0.c", "s1.c"]))
        + "add_executable(chained s2.c)\ntarget_link_libraries(chained high low)\n",
        "main.c": "int high(void);\nint main(void) { return high(); }\n",
        "low/CMakeLists.txt": "add_library(low STATIC low.c more.c)\n",
        "low/low.c": "int low(void) { return 0; }\n",
        "low/more.c": "int more(void) { return 1; }\n",
        "high/CMakeLists.txt": "add_library(high SHARED high.c)\ntarget_link_libraries(high low)\n",
        "high/high.c": "int low(void);\nint high(void) { return low(); }\n",
    },
}


def try_projects(trials, program, room):
    """The estimates of real builds, by the graphs that Ninja prints of them, and by the simulation that is written here."""
    for name, files in PROJECTS.items():
        if not all(shutil.which(it) for it in ("cmake", "ninja", "cc")):
            trials.skip(f"estimates of the project {name}", "CMake, Ninja or a C compiler isn't there")
            continue
        top = f"{room}/project-{name}"
        for path, text in files.items():
            os.makedirs(os.path.dirname(f"{top}/{path}"), exist_ok=True)
            write(f"{top}/{path}", text.encode())
        laid = run(["cmake", "-G", "Ninja", "-DCMAKE_POSITION_INDEPENDENT_CODE=ON", "-S", top, "-B", f"{top}/out"])
        trials.want(f"the project {name}: laid out and built", (laid[0], run(["ninja", "-j3"], cwd=f"{top}/out")[0]), (0, 0))
        graph, log = run(["ninja", "-t", "graph"], cwd=f"{top}/out")[1], read(f"{top}/out/.ninja_log")
        jobs = sorted((job for it in asked_of(log) for job in it.jobs), key=lambda it: it.start)
        model = Graph(graph, [(max(0, it.end - it.start), it.outputs) for it in jobs])
        trials.check(f"the project {name}: its commands", len(jobs) > 6, len(jobs))
        numbers = (1, 2, 3, 4, 16, 1000)
        wanted = b"".join(b"estimate\t%d\t%d\t%d\n" % (it, model.wall(it, not log.startswith(HEADER)), model.floor(it)) for it in numbers)
        trials.want(f"the project {name}: its estimates", estimates_of(program, room, graph, log, ",".join(map(str, numbers))), (0, wanted, b""))
    return None


def try_ninja_graph(trials, program, room):
    """The critical path of a real build, by the graph that Ninja prints of it."""
    if shutil.which("ninja") is None:
        return trials.skip("the critical path of a real build", "Ninja isn't there")
    os.makedirs(f"{room}/graphed")
    # Outputs, inputs, implicit ones, those for the order alone, and how long the command takes.
    builds = [
        ("gen", "src", "", "", 3),
        ('a$ "b"', "src", "head", "gen", 5),
        ("two.a two.b", 'a$ "b"', "", "", 2),
        ("lone", "src", "", "", 4),
    ]
    lines = ["rule wait", "  command = sleep 0.0$time && touch $out"]
    for outs, ins, implicit, order, time in builds:
        lines += [f"build {outs}: wait {ins} | {implicit} || {order}", f"  time = {time}"]
    lines += ["build all: phony two.a lone", "default all", ""]
    write(f"{room}/graphed/build.ninja", "\n".join(lines).encode())
    for name in ("src", "head"):
        write(f"{room}/graphed/{name}", b"")
    trials.want("a real build with a graph", run(["ninja", "-j4"], cwd=f"{room}/graphed")[0], 0)
    status, graph, _ = run(["ninja", "-t", "graph"], cwd=f"{room}/graphed")
    trials.want("the graph of a real build", status, 0)
    write(f"{room}/graphed/GRAPH", graph)
    log = f"{room}/graphed/.ninja_log"
    ran = {fields[3]: (int(fields[0]), int(fields[1])) for fields in (line.split(b"\t") for line in read(log).splitlines()[1:])}
    # By the manifest, and not by the graph: there are two ways to the targets.
    paths = [[b"gen", b'a "b"', b"two.a"], [b"lone"]]
    path = max(paths, key=lambda names: sum(ran[it][1] - ran[it][0] for it in names))
    length = sum(ran[it][1] - ran[it][0] for it in path)
    wanted = b"critical-path\t%d\n" % length
    wanted += b"".join(b"on-path\t%d\t%d\t%d\t%b\n" % (ran[it][1] - ran[it][0], *ran[it], it) for it in path)
    got = run([program, "summary", "-n", "0", "--graph", f"{room}/graphed/GRAPH", log])
    return trials.want("the critical path of a real build", got, (0, summary_of(read(log), 0) + wanted, b""))


def limit(most):
    def begin():
        signal.signal(signal.SIGXFSZ, signal.SIG_IGN)
        resource.setrlimit(resource.RLIMIT_FSIZE, (most, most))

    return begin


def trial(trials, program, room):
    version = run(["date", "--version"])[1]
    if shutil.which("iconv") is None or not re.match(rb"date \(GNU", version):
        return trials.skip("all of it", "iconv or GNU's date isn't there")
    try_builds(trials, program, room)
    try_compared(trials, program, room)
    try_ninja(trials, program, room)
    try_graphs(trials, program, room)
    try_estimates(trials, program, room)
    try_projects(trials, program, room)
    try_ninja_graph(trials, program, room)
    try_many(trials, program, room)
    try_shown(trials, program, room)
    try_browser(trials, program, room)
    try_awks(trials, program, room)
    return None


def try_awks(trials, program, room):
    """Each report by each awk."""
    for awk, words in AWKS.items():
        if shutil.which(words[0]) is None or run([*words, "BEGIN {}"])[0] != 0:
            trials.skip(f"the reports by {awk}", "it isn't there")
            continue
        reports = Reports(trials, program, f"{room}/{awk}", awk)
        for kind, text in LOGS.items():
            reports.try_log(kind, text)
        reports.try_versions()
        reports.try_failures()


if __name__ == "__main__":
    sys.exit(main(__file__, trial))
