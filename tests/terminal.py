#!/usr/bin/env python3
"""Tries what the program prints at a terminal: reports for a person, why something was refused, which log is read where none is named,
and how far a log is read where that takes long.

    python3 tests/terminal.py PROGRAM

A pseudoterminal stands for standard output, for standard error, or for all three streams. The screens that are wanted are laid out by hand.
"""
import os
import pty
import re
import subprocess
import sys
import tempfile
import termios
import time
import unicodedata

from examples import blocks, read_page, stripped
from trials import main, run

LOG = (
    b"# ninja log v7\n0\t40\t1000000000000\tb.o\tbb\n10\t50\t1000010000000\ta.o\taa\n10\t50\t1000010000000\ta.d\taa\n50\t70\t1000050000000\tapp\tcc\n"
    b"5\t65\t1500005000000\tlib/\xc3\xa4 b.o\tbd\n"
)
EARLIER = b"# ninja log v7\n0\t45\t1\tb.o\tbb\n0\t50\t1\ta.o\taa\n0\t5\t1\told.o\tee\n"

BUILDS = """\
Build          Began (UTC)  Elapsed  Commands  Outputs  Known
    1  1970-01-01 00:16:40    70 ms         3        4  sure
    2  1970-01-01 00:25:00    60 ms         1        1  sure
""".encode()
SUMMARY = """\
Build 2 of 2
60 ms  elapsed
60 ms  of work
    1  commands
    1  outputs
 1.00  at a time on average
    1  at a time at most
60 ms  at best with 1 at a time
60 ms  with one command alone
  0 s  with none

Slowest commands
 Time  Share  Output
60 ms   100%  lib/ä b.o

Kinds of commands
 Time  Share  Commands  Kind
60 ms   100%         1  compile
""".encode()
FIRST = """\
Build 1 of 2
 70 ms  elapsed
100 ms  of work
     3  commands
     4  outputs
  1.42  at a time on average
     2  at a time at most
 50 ms  at best with 2 at a time
 40 ms  with one command alone
   0 s  with none

Slowest commands
 Time  Share  Output
40 ms    40%  b.o

Kinds of commands
 Time  Share  Commands  Kind
80 ms    80%         2  compile
""".encode()
ALL = """\
All 2 builds, each output once
130 ms  elapsed
160 ms  of work
     4  commands
     5  outputs
  1.23  at a time on average
     2  at a time at most
 80 ms  at best with 2 at a time
100 ms  with one command alone
   0 s  with none
""".encode()
# One build, whose first output is the slowest: its name has three characters, of five bytes.
WIDE = b"# ninja log v7\n0\t9\t1\t\xe2\x82\xac.o\tbb\n0\t9\t1\tlonger.o\tcc\n"
# Names that a terminal would obey: an escape sequence, each control character of one byte that a name may have,
# a carriage return and a backspace over what stands before, one of two bytes, whole and cut, bytes that are no
# UTF-8, and what turns the order of the characters behind it; what stays: umlauts, a backslash, 0x9b within
# characters.
CONTROLS = bytes(it for it in range(1, 32) if it not in (9, 10)) + b"\x7f"
HOSTILE = [
    b"\x1b[2J\x1b]0;owned\x07.o",
    b"safe\r\x08\x08evil.o",
    b"one" + CONTROLS + b".o",
    b"csi \xc2\x9b2J.o",
    "äß€Û蛛.o".encode(),
    b"a\\b\x80\x9b\xff.o",
    "turned \u202eo.c\u2066".encode(),
    b"half \xc2",
    b"\x9b2J half",
    b"cut \xe2\x82.o",
]
HOSTILE_SHOWN = [
    b"\\x1b[2J\\x1b]0;owned\\x07.o",
    b"safe\\x0d\\x08\\x08evil.o",
    b"one" + b"".join(b"\\x%02x" % it for it in CONTROLS) + b".o",
    b"csi \\xc2\\x9b2J.o",
    "äß€Û蛛.o".encode(),
    b"a\\b\\x80\\x9b\\xff.o",
    b"turned \\xe2\\x80\\xaeo.c\\xe2\\x81\\xa6",
    b"half \\xc2",
    b"\\x9b2J half",
    b"cut \\xe2\\x82.o",
]
# What turns the order of the characters behind it, and what ends a line.
TURNING = {*map(chr, (0x61C, 0x200E, 0x200F, *range(0x2028, 0x202F), *range(0x2066, 0x206A)))}
# Of the commands of both, that of `b.o` took 5 ms less, and that of `a.o` and `a.d` 10 ms.
COMPARED = """\
Commands  Change    Old    New  Class
       2  +80 ms    0 s  80 ms  new
       1   -5 ms   5 ms    0 s  gone
       0     0 s    0 s    0 s  changed
       0     0 s    0 s    0 s  slower
       2  -15 ms  95 ms  80 ms  faster
       0     0 s    0 s    0 s  unfinished
       0     0 s    0 s    0 s  same

Commands: new
Change    Old    New  Output
+60 ms    0 s  60 ms  lib/ä b.o
+20 ms    0 s  20 ms  app

Commands: gone
Change    Old    New  Output
 -5 ms   5 ms    0 s  old.o

Commands: faster
Change    Old    New  Output
-10 ms  50 ms  40 ms  a.o
 -5 ms  45 ms  40 ms  b.o
""".encode()
# A build of some time, found again with an output that a later one took, and names too long for 40 columns, and for 80.
LONG = (
    b"# ninja log v7\n0\t999\t0\tshort\tdd\n0\t59999\t0\tless\tff\n0\t60000\t0\tminute\tee\n"
    b"0\t166843\t0\tlib/Transforms/Scalar/CMakeFiles/LLVMScalarOpts.dir/ScalarReplacementOfAggregates.cpp.o\tbb\n"
    b"100\t4700100\t0\tbin/\xc3\xa4\xc3\xb6\xc3\xbc/a-name-of-forty-two-characters-or-so.exe\tcc\n"
)
LONG_NAMES = {
    80: ("bin/äöü/a-name-of-forty-two-characters-or-so.exe", "…Files/LLVMScalarOpts.dir/ScalarReplacementOfAggregates.cpp.o"),
    40: ("…characters-or-so.exe", "…ntOfAggregates.cpp.o"),
}
LONG_TOLD = """\
Build 1 of 1
1 h 18 min  elapsed
1 h 23 min  of work
         5  commands
         5  outputs
      1.06  at a time on average
         5  at a time at most
1 h 18 min  at best with 5 at a time
1 h 15 min  with one command alone
       0 s  with none

Slowest commands
      Time  Share  Output
1 h 18 min    94%  {}
2 min 46 s     3%  {}
     1 min     1%  minute
    59.9 s     1%  less
    999 ms     0%  short

Kinds of commands
      Time  Share  Commands  Kind
1 h 20 min    96%         4  link
2 min 46 s     3%         1  compile
"""
LOST = "nlog: LOG {}: No such file or directory (os error 2)\n"


def read_all(end):
    """What was written to a terminal, until nobody has it open; its line ends are those of the program."""
    found = b""
    while True:
        try:
            more = os.read(end, 65536)
        except OSError:
            more = b""
        if not more:
            os.close(end)
            return found.replace(b"\r\n", b"\n")
        found += more


def screen(columns=None):
    """The environment of a terminal of so many columns, in a time zone without an offset."""
    it = {name: value for name, value in os.environ.items() if name != "COLUMNS"}
    return {**it, "TZ": "UTC", **({} if columns is None else {"COLUMNS": str(columns)})}


def at_terminal(words, is_output, text=b"", pause=0.0, env=None, cwd=None):
    """Runs a program with a terminal for standard output, or for standard error: its status, and what it wrote to each. Standard input has two
    halves of the text, with a pause between them."""
    ours, theirs = pty.openpty()
    other = tempfile.TemporaryFile()
    streams = {"stdout": theirs, "stderr": other} if is_output else {"stdout": other, "stderr": theirs}
    ran = subprocess.Popen(words, stdin=subprocess.PIPE, env=env or screen(), cwd=cwd, **streams)
    os.close(theirs)
    half = len(text) // 2
    ran.stdin.write(text[:half])
    ran.stdin.flush()
    time.sleep(pause)
    ran.stdin.write(text[half:])
    ran.stdin.close()
    shown, status = read_all(ours), ran.wait()
    other.seek(0)
    return (status, shown, other.read()) if is_output else (status, other.read(), shown)


def typed(words, room, text=b""):
    """Runs a program with one terminal for all three streams, at which a text is typed, and Ctrl-D: its status, and what the terminal shows."""
    ours, theirs = pty.openpty()
    mode = termios.tcgetattr(theirs)
    mode[3] &= ~termios.ECHO
    termios.tcsetattr(theirs, termios.TCSANOW, mode)
    os.write(ours, text + b"\x04")
    ran = subprocess.Popen(words, stdin=theirs, stdout=theirs, stderr=theirs, cwd=room, env=screen())
    os.close(theirs)
    shown = read_all(ours)
    return ran.wait(), shown


def try_reports(trials, program, room, log, earlier):
    long = f"{room}/long"
    with open(long, "wb") as file:
        file.write(LONG)
    told = {columns: LONG_TOLD.format(*names).encode() for columns, names in LONG_NAMES.items()}
    cases = (
        ("builds", ["builds", log], None, BUILDS),
        ("summary", ["summary", log], None, SUMMARY),
        ("summary --build", ["summary", "-n", "1", "--build", "1", log], None, FIRST),
        ("summary --all", ["summary", "-n", "0", "--all", log], None, ALL),
        ("summary of no log", ["summary", os.devnull], None, b""),
        ("summary of a build that isn't there", ["summary", "--build", "9", log], None, b"2  builds in LOG\n"),
        ("summary, 80 columns", ["summary", long], 80, told[80]),
        ("summary, where nothing tells how many", ["summary", long], None, told[80]),
        ("summary, where COLUMNS is no number", ["summary", long], "wide", told[80]),
        ("summary, 40 columns", ["summary", long], 40, told[40]),
        ("compare", ["compare", earlier, log], None, COMPARED),
        ("compare, with the totals alone", ["compare", "-n", "0", earlier, log], None, COMPARED[: COMPARED.index(b"\nCommands: new")]),
    )
    for what, words, columns, wanted in cases:
        words = [program, *words]
        trials.want(f"{what}: at a terminal", at_terminal(words, True, env=screen(columns)), (0, wanted, b""))
        trials.check(f"{what}: no line is too long", columns == 40 or all(len(it.decode()) <= 80 for it in wanted.split(b"\n")))
        piped = run(words, env=screen(columns))
        trials.check(f"{what}: tabs in a pipe", not piped[1] or b"\t" in piped[1], repr(piped[1]))
        trials.want(f"{what}: with --tabs", at_terminal([*words, "--tabs"], True, env=screen(columns)), piped)
        trials.want(f"{what}: with --tabs, to a pipe", run([*words, "--tabs"]), piped)
    east = {**screen(), "TZ": "EST5"}
    trials.want("builds: by the clock of the place", at_terminal([program, "builds", log], True, env=east)[1].split(b"\n")[1], b"    1  1969-12-31 19:16:40    70 ms         3        4  sure")
    trials.check("builds: whose clock it is", b"UTC" not in at_terminal([program, "builds", log], True, env=east)[1])
    # What isn't a report, or is for programs, is as it is everywhere.
    for word in ("show", "check", "entries", "damage", "trace", "picture"):
        words = [program, word, "--log-version", "auto", log]
        piped = run(words)
        trials.want(f"{word}: at a terminal", at_terminal(words, True), piped)
        trials.want(f"{word}: with --tabs", run([*words, "--tabs"])[0], 2)


def try_pages(trials, program, room):
    """What pages show of a terminal, over the files that they give."""
    for page in ("docs/CLI.md", "docs/RECIPES.md"):
        here = f"{room}/{os.path.basename(page)}"
        os.mkdir(here)
        for name, text in read_page(page)[0].items():
            with open(f"{here}/{name}", "wb") as file:
                file.write(text)
        shown = [(at, words[1].split(), block) for at, above, block in blocks(page) for words in re.finditer(r"[Aa]t a terminal `nlog ([^`]+)` shows$", above)]
        trials.check(f"{page}: a screen", len(shown) == 1)
        for at, words, block in shown:
            trials.want(f"{page}:{at}", at_terminal([program, *words], True, cwd=here), (0, stripped(block).encode(), b""))


def try_refusals(trials, program, room, log):
    """At a terminal a refusal says why, and in a pipe only where that is asked for."""
    lost, graph = f"{room}/lost", f"{room}/graph"
    with open(graph, "wb") as file:
        file.write(b'digraph ninja {\n"0" [label="elsewhere.o"]\n}\n')
    cases = (
        (["builds", lost], b"", "cannot read", f"LOG {lost}: No such file or directory (os error 2)"),
        (["show", log], b"", "log version not supported", f"LOG {log}: version 7; add --log-version auto"),
        (["check"], b"hello\n", "not a ninja log", 'standard input: it begins with "hello\\x0a"'),
        (["summary", "--build", "0", log], b"", "bad number", "BUILD 0: it is less than 1"),
        (["record", lost, "1", "2", "x", "out", "c"], b"", "bad number", "MTIME x: it isn't a number"),
        (["summary", "--graph", graph, log], b"", "not the graph of this build", f"FILE {graph}: no output of the build is in it, or one needs itself"),
        (["summary", "--graph", graph, "--jobs", "4,0", log], b"", "bad number", "N 4,0: number 2: it is less than 1"),
        (["summary", "--graph", graph, "--jobs", "x,4", log], b"", "bad number", "N x,4: number 1: it isn't a number"),
        (["summary", "--graph", graph, "--jobs", "1,2,9223372036854775808,0", log], b"", "bad number", "N 1,2,9223372036854775808,0: number 3: it isn't a number of 64 bits"),
        (["summary", "--graph", graph, "--jobs", f"{'9,' * 20_000}0", log], b"", "bad number", f"N {'9,' * 20_000}0: number 20001: it is less than 1"),
    )
    for words, text, fault, why in cases:
        words = [program, *words]
        both = f"nlog: {fault}\nnlog: {why}\n".encode()
        what = f"{words[1]}: {fault}"
        trials.want(f"{what}: at a terminal", at_terminal(words, False, text), (1, b"", both))
        trials.want(f"{what}: in a pipe", run(words, stdin=None, input=text), (1, b"", f"nlog: {fault}\n".encode()))
        trials.want(f"{what}: in a pipe, with -v", run([*words[:2], "-v", *words[2:]], stdin=None, input=text), (1, b"", both))
    trials.want("show: a missing log at a terminal", at_terminal([program, "show", lost], False), (0, b"", b""))
    script = b"open\r\nget\nrecord\t1\nget\t\nopen\n\n" + b"x" * 262_144 + b"\nstop\nstop"
    bad = ((1, "no event begins so"), (2, "the values are wrong"), (3, "the values are wrong"), (4, "the name is empty"), (6, "no event begins so"), (7, "a line has at most 262143 bytes"), (9, "no newline ends it"))
    said = "".join(f"nlog: standard input: line {number}: {why}\n" for number, why in bad).encode()
    answers = b"bad line\n" * 4 + b"ok\n" + b"bad line\n" * 2 + b"ok\nbad line\n"
    for what, ended, wanted in (
        ("with -v", run([program, "apply", "-v", f"{room}/kept"], stdin=None, input=script), (0, answers, said)),
        ("in a pipe", run([program, "apply", f"{room}/kept"], stdin=None, input=script), (0, answers, b"")),
    ):
        trials.want(f"apply: why a line is bad, {what}", ended, wanted)


def try_typed(trials, program, room):
    """With a terminal for standard input a report is of the log of the folder, and what reads standard input says so."""
    here = f"{room}/here"
    os.mkdir(here)
    reads = b"nlog: it reads standard input, up to Ctrl-D\n"
    lost = b"nlog: cannot read\n" + LOST.format(".ninja_log").encode()
    for word in ("entries", "damage", "doubt", "builds", "summary", "trace", "picture"):
        trials.want(f"{word}: no log in the folder", typed([program, word], here), (1, lost))
    with open(f"{here}/.ninja_log", "wb") as file:
        file.write(LOG)
    trials.want("builds: the log of the folder", typed([program, "builds"], here), (0, BUILDS))
    trials.want("summary: the log of the folder", typed([program, "summary"], here), (0, SUMMARY))
    for word in ("entries", "damage", "trace", "picture"):
        trials.want(f"{word}: the log of the folder", typed([program, word], here), (0, run([program, word, f"{here}/.ninja_log"])[1]))
    trials.want("builds: from a pipe", run([program, "builds"], stdin=None, input=b"", cwd=here), (0, b"", b""))
    # The seven read what is typed.
    for words, printed in ((["show"], b""), ([], b""), (["replay"], b"log 0\n")):
        trials.want(f"{words}: standard input", typed([program, *words], here), (0, reads + printed))
    trials.want("check: standard input", typed([program, "check"], here, b"hello\n"), (1, reads + b'nlog: not a ninja log\nnlog: standard input: it begins with "hello\\x0a"\n'))
    trials.want("hash: no standard input", typed([program, "hash", "cc"], here), (0, run([program, "hash", "cc"])[1]))


def try_controls(trials, program, room):
    """A name's control characters are shown by their numbers at a terminal, and stay as they are in a pipe."""
    log, earlier = f"{room}/hostile", f"{room}/tame"
    for path, lines in ((log, [b"0\t%d\t1\t%s\t%x\n" % (4 + at, name, at) for at, name in enumerate(HOSTILE)]), (earlier, [])):
        with open(path, "wb") as file:
            file.write(b"# ninja log v7\n" + b"".join(lines))
    for words in (["summary", log], ["summary", "--kind", "folder", log], ["compare", earlier, log], ["builds", log]):
        piped = run([program, *words])
        status, shown, said = at_terminal([program, *words], True, env=screen(200))
        what = f"{words[0]} of names that a terminal would obey"
        for name, by_number in zip(HOSTILE, HOSTILE_SHOWN):
            trials.check(f"{what}: in a pipe as it is", words[0] == "builds" or name in piped[1], repr(name))
            trials.check(f"{what}: by its number", words[0] == "builds" or by_number in shown, repr(name))
        trials.want(f"{what}: at a terminal", (status, said), (piped[0], piped[2]))
        trials.check(f"{what}: no control character", is_quiet(shown), repr(shown))
        tabs = at_terminal([program, *words, "--tabs"], True)[1]
        trials.want(f"{what}: with --tabs", tabs, by_numbers(piped[1]))


def by_numbers(text):
    """A text as a terminal is to get it: each control character but a tab and a newline, what turns the
    order, and
    each byte that is no UTF-8, by the numbers of its bytes."""
    shown = []
    for character in text.decode(errors="surrogateescape"):
        is_obeyed = unicodedata.category(character) in ("Cc", "Cs") or character in TURNING
        in_bytes = character.encode(errors="surrogateescape")
        is_plain = character in "\t\n" or not is_obeyed
        shown.append(in_bytes if is_plain else b"".join(b"\\x%02x" % byte for byte in in_bytes))
    return b"".join(shown)


def is_quiet(text):
    return by_numbers(text) == text


QUIET_LOG = b"# ninja log v7\n" + b"".join(
    b"0\t%d\t%d\t%s\t%x\n" % (4 + at, 10**18, name, at) for at, name in enumerate(HOSTILE)
)
# (a damaged line of each name)
QUIET_DAMAGED = QUIET_LOG + b"".join(b"0\t5\t7\t%s\t0xx\n" % name for name in HOSTILE)
QUIET_SCRIPT = b"open\n" + b"".join(b"record\t1\t2\t3\t%s\ta\nget\t%s\n" % (name, name) for name in HOSTILE) + b"table\nstop\n"
QUIET_EVENTS = b"open\n" + b"".join(b"record\t1\t2\t3\t%s\ta\n" % name for name in HOSTILE) + b"stop\n"
# The words that print the same at a terminal as in a pipe, but for what a terminal would obey; what LOG is
# then, and the status.
QUIET_WORDS = {
    "show": (["show", "--log-version", "auto", "LOG"], QUIET_LOG, 0),
    "entries": (["entries", "LOG"], QUIET_LOG, 0),
    "damage": (["damage", "LOG"], QUIET_DAMAGED, 3),
    "doubt": (["doubt", "LOG"], QUIET_DAMAGED, 3),
    "mend": (["mend", "LOG"], QUIET_DAMAGED, 3),
    "mend --dry-run": (["mend", "--dry-run", "LOG"], QUIET_DAMAGED, 3),
    "prune": (["prune", "LOG", "FILE"], QUIET_DAMAGED, 3),
    "retime": (["retime", "LOG"], QUIET_DAMAGED, 3),
    "trace": (["trace", "LOG"], QUIET_LOG, 0),
    "picture": (["picture", "LOG"], QUIET_LOG, 0),
    "apply": (["apply", "LOG", "SCRIPT"], QUIET_LOG, 0),
    "replay": (["replay", "EVENTS"], QUIET_LOG, 0),
}


def try_quiet(trials, program, room):
    """No word lets a terminal have what it would obey, and in a pipe the bytes are as they are."""
    here = f"{room}/quiet"
    os.mkdir(here)
    for name, text in {"FILE": b"a: cc\n", "SCRIPT": QUIET_SCRIPT, "EVENTS": QUIET_EVENTS, "EMPTY": b"# ninja log v7\n", **dict.fromkeys(HOSTILE, b"")}.items():
        with open(
            os.path.join(here.encode(), name if isinstance(name, bytes) else name.encode()), "wb"
        ) as file:
            file.write(text)

    def both(words, text):
        """How the words end in a pipe, and at a terminal, on a LOG of this text."""
        for how in (lambda it: run(it, cwd=here), lambda it: at_terminal(it, True, cwd=here)):
            with open(f"{here}/LOG", "wb") as file:
                file.write(text)
            yield how([program, *words])

    for what, (words, text, status) in QUIET_WORDS.items():
        piped, shown = both(words, text)
        trials.want(
            f"{what}: its status, and standard error", [(it[0], it[2]) for it in (piped, shown)],
            [(status, b"")] * 2,
        )
        # (`trace` and `picture` have names by JSON's rules, and XML's)
        if what not in ("trace", "picture"):
            trials.check(
                f"{what}: in a pipe each name as it is", all(name in piped[1] for name in HOSTILE),
                repr(piped[1]),
            )
        printed = shown[1]
        if what.startswith("mend"):
            # (its last line says what was done)
            printed, last = re.fullmatch(rb"(?s)(.*\n)([^\n]*\n)", printed).groups()
            trials.check(
                f"{what}: a last line at a terminal alone", b"outputs" in last and last not in piped[1],
                repr(last),
            )
        trials.want(f"{what}: at a terminal what it would obey is by numbers", printed, by_numbers(piped[1]))
    for columns in range(10, 50):
        for words in (
            ["summary", "LOG"], ["summary", "--kind", "folder", "LOG"], ["compare", "EMPTY", "LOG"],
            ["builds", "LOG"],
        ):
            shown = at_terminal([program, *words], True, env=screen(columns), cwd=here)
            trials.check(
                f"{words[0]} in {columns} columns: nothing that a terminal would obey",
                shown[0] == 0 and is_quiet(shown[1]), repr(shown),
            )
    try_quiet_refusals(trials, program, here)


MEND_WHOLE = b"# ninja log v7\n1\t2\t%d\ta\taa\n1\t2\t%d\tb\tbb\n"
LATER, EARLY = 4_000_000_000_000_000_000, 1_000_000_000
MEND_UNSURE = MEND_WHOLE % (LATER, LATER) + b"1\t2\t%d\tfolder\tcc\n" % LATER
# What `mend` says last at a terminal: the log, the options, and the line, or None where it says nothing.
MENDED = {
    "nothing is amiss": (MEND_WHOLE % (LATER, LATER), [], None),
    "nothing would be": (MEND_WHOLE % (LATER, LATER), ["--dry-run"], None),
    "one is newer": (MEND_WHOLE % (LATER, EARLY), [], "1 output will be built again; LOG was repaired"),
    "one would be": (
        MEND_WHOLE % (LATER, EARLY), ["--dry-run"], "1 output would be built again; LOG is as it was"
    ),
    "two are newer": (MEND_WHOLE % (EARLY, EARLY), [], "2 outputs will be built again; LOG was repaired"),
    "two would be": (
        MEND_WHOLE % (EARLY, EARLY), ["--dry-run"], "2 outputs would be built again; LOG is as it was"
    ),
    "a line tells of no output": (
        MEND_WHOLE % (LATER, LATER) + b"\n", [], "0 outputs will be built again; LOG was repaired"
    ),
    "it would tell of none": (MEND_WHOLE % (LATER, LATER) + b"\n", ["--dry-run"], None),
    "a line is torn": (
        MEND_WHOLE % (LATER, LATER) + b"1\t2\t3\ta", [], "1 output will be built again; LOG was repaired"
    ),
    "a directory is unsure": (MEND_UNSURE, [], "0 outputs will be built again; LOG is as it was"),
    "a directory would be unsure": (
        MEND_UNSURE, ["--dry-run"], "0 outputs would be built again; LOG is as it was"
    ),
    "all that is unsure is to be": (MEND_UNSURE, ["--all"], "1 output will be built again; LOG was repaired"),
    "all that is unsure would be": (
        MEND_UNSURE, ["--all", "--dry-run"], "1 output would be built again; LOG is as it was"
    ),
}


def try_mended(trials, program, room):
    """What `mend` says last at a terminal is what it did."""
    here = f"{room}/mended"
    os.mkdir(here)
    for name in "ab":
        open(f"{here}/{name}", "wb").close()
    os.mkdir(f"{here}/folder")
    for what, (text, options, line) in MENDED.items():
        with open(f"{here}/LOG", "wb") as file:
            file.write(text)
        _, shown, said = at_terminal([program, "mend", *options, "LOG"], True, cwd=here)
        trials.want(
            f"mend at a terminal, {what}", (shown.splitlines()[-1:], said),
            ([] if line is None else [line.encode()], b""),
        )
        with open(f"{here}/LOG", "rb") as file:
            is_other = file.read() != text
        trials.want(
            f"mend at a terminal, {what}: whether LOG was repaired", is_other, "was repaired" in (line or "")
        )


# Files with names that a terminal would obey, as far as words may have them (a word is UTF-8).
QUIET_PATHS = [name for name in HOSTILE if name == name.decode(errors="ignore").encode()]


def try_quiet_refusals(trials, program, here):
    """What a refusal says on standard error."""
    os.utime(os.path.join(here.encode(), HOSTILE[0]), ns=(0, -(10**9)))
    early = b"# ninja log v5\n1\t2\t3\t%s\taa\n" % HOSTILE[0]
    with open(f"{here}/LOG", "wb") as file:
        file.write(early)
    cases = [["retime", "LOG"]]
    for name in QUIET_PATHS:
        gone = f"gone {name.decode()}"
        cases += [
            ["builds", gone], ["recompact", "LOG", gone], ["record", f"{gone}/LOG", "1", "2", "3", "a", "c"],
            ["record", "LOG", "1", "2", name.decode(), "a", "c"],
        ]
        cases += [["summary", "--graph", gone, "LOG"], ["check", name.decode()], ["mend", "-C", gone, "LOG"]]
        words = [[gone], ["show", "LOG", gone], ["show", "--log-version", gone, "LOG"], ["show", f"--{gone}"]]
        for wrong in words:
            status, out, said = at_terminal([program, *wrong], False, cwd=here)
            piped = run([program, *wrong], cwd=here)
            trials.want(
                f"wrong words {wrong}: at a terminal", (status, out, said), (2, b"", by_numbers(piped[2]))
            )
    for name in HOSTILE:
        path = os.path.join(here.encode(), b"begins")
        with open(path, "wb") as file:
            file.write(name + b"\n")
        cases.append(["check", "begins"])
        piped = run([program, "check", "-v", "begins"], cwd=here)
        trials.check(
            f"check of what begins like {name}: in a pipe it is escaped, too", is_quiet(piped[2]), repr(piped)
        )
    for words in cases:
        status, out, said = at_terminal([program, *words], False, cwd=here)
        piped = run([program, words[0], "-v", *words[1:]], cwd=here)
        trials.want(
            f"a refusal of {words}: at a terminal", (status, out, said),
            (piped[0], piped[1], by_numbers(piped[2])),
        )


def try_progress(trials, program):
    """Progress is told of a log whose second half comes late."""
    text = b"# ninja log v5\n" + b"".join(b"%d\t%d\t1\tout%d\t%x\n" % (at, at + 1, at, at) for at in range(100_000))
    for word in ("show", "check", "builds", "summary", "trace", "picture", "doubt"):
        words = [program, word]
        wanted = run(words, stdin=None, input=text)
        status, printed, said = at_terminal(words, False, text, 2.3)
        trials.want(f"{word}: a log that comes late", (status, printed), wanted[:2])
        lines = said.split(b"\r")
        trials.check(f"{word}: how much is read", lines[0].startswith(b"nlog: ") and lines[0].endswith(b" MB read"), repr(said))
        trials.check(f"{word}: no more than the text", int(lines[0].split(b" ")[1]) <= len(text) // 1_000_000, repr(said))
        trials.want(f"{word}: the line is taken away", (said.endswith(b"\r"), lines[-2].strip()), (True, b""))
    for words, why in ((["show"], "at once"), (["builds"], "at once")):
        trials.want(f"{words[0]}: a log that comes {why}", at_terminal([program, *words], False, text[:10_000])[2], b"")
    # Nothing is told if standard error is no terminal.
    ran = subprocess.Popen([program, "check"], stdin=subprocess.PIPE, stdout=subprocess.PIPE, stderr=subprocess.PIPE)
    ran.stdin.write(text[:1000])
    ran.stdin.flush()
    time.sleep(2.3)
    trials.want("check: standard error is a pipe", ran.communicate(text[1000:])[1], b"")


def trial(trials, program, room):
    if sys.platform != "linux":
        trials.skip("all", "pseudoterminals are those of Linux")
        return
    log, earlier = f"{room}/log", f"{room}/earlier"
    for path, text in ((log, LOG), (earlier, EARLIER)):
        with open(path, "wb") as file:
            file.write(text)
    try_reports(trials, program, room, log, earlier)
    try_pages(trials, program, room)
    try_refusals(trials, program, room, log)
    try_typed(trials, program, room)
    try_controls(trials, program, room)
    try_quiet(trials, program, room)
    try_mended(trials, program, room)
    try_progress(trials, program)


if __name__ == "__main__":
    sys.exit(main(__file__, trial))
