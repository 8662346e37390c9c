#!/usr/bin/env python3
"""Tries `apply`: what is answered to each line, that an answer comes before the next line is read, and a build that is killed and goes on.

    python3 tests/apply.py PROGRAM
"""
import itertools
import os
import random
import select
import signal
import subprocess
import sys
import threading
import time

from log_format import as_version, command_hash, command_hash_v7, line_of
from log_lines import distrusted_of
from trials import SECONDS, is_within, main, read, run, seconds_of, write

BUILD = f"{os.path.dirname(os.path.dirname(os.path.abspath(__file__)))}/examples/build.py"
HEADER = b"# ninja log v5\n"
A, B = b"1\t2\t3\ta\taa\n", b"4\t5\t6\tb\tbb\n"
LONGEST = b"1\t2\t3\t" + b"n" * 65536 + b"\taa\n"
KEPT = b"recompact\ta" + b"".join(b"\t" + it * 65536 for it in (b"x", b"y", b"z")) + b"\t" + b"w" * 65520
# A line that was torn behind its name, with the next line joined to it.
JOINED = b"7\t8\t9\ta\tc4\t5\t6\tb\tcc\n"
LONG = b"get\t" + b"x" * 262140
# A line of 262,143 bytes that begins a command, with one output that has an entry.
MOST = b"begin\t7\tab\ta\tcc" + b"\tb" * 131064
# What a log holds or None where it is missing, the lines, the answers, the status, what is said of it, and what the log then holds.
TURNS = [
    (None, b"", b"", 0, b"", b""),
    (None, b"open\n", b"ok\n", 0, b"", HEADER),
    (None, b"sync\nstop\nget\ta\ntable\nrecord\t" + A + b"recompact\nrestat\n", b"S1 NotOpen\n" * 7, 0, b"", b""),
    (None, b"open\nopen\n", b"ok\nS2 AlreadyOpen\n", 0, b"", HEADER),
    (None, b"open\nrecord\t" + A + b"get\ta\nget\tb\ntable\n", b"ok\nok\n" + A + b"none\n" + A + b"end\n", 0, b"", HEADER + A),
    (HEADER + A, b"open\nrecord\t" + B + b"record\t7\t8\t9\ta\tcc\nget\ta\ntable\nsync\nstop\nget\ta\n",
     b"ok\nok\nok\n7\t8\t9\ta\tcc\n7\t8\t9\ta\tcc\n" + B + b"end\nok\nok\nS1 NotOpen\n", 0, b"", HEADER + A + B + b"7\t8\t9\ta\tcc\n"),
    (HEADER + A + B, b"open\nrecompact\tb\ntable\n", b"ok\nok\n" + B + b"end\n", 0, b"", HEADER + B),
    (HEADER + A, b"open\nrestat\t9\ta\nrestat\t1\ta\t-1\ta\nget\ta\n", b"ok\nok\nS4 NegativeTime 1\n1\t2\t9\ta\taa\n", 0, b"", HEADER + b"1\t2\t9\ta\taa\n"),
    # A part of a line is cut away by the open, and what is no log is refused and stays.
    (HEADER + A + b"4\t5\t6\tb", b"open\ntable\n", b"ok\n" + A + b"end\n", 0, b"", HEADER + A),
    (b"hello\n", b"open\nget\ta\n", b"S5 NotALog\nS1 NotOpen\n", 0, b"", b"hello\n"),
    (b"# ninja log v8\n", b"open\n", b"S6 OtherVersion\n", 0, b"", b"# ninja log v8\n"),
    (HEADER + A, b"stop\nopen\nstop\nopen\nget\ta\n", b"S1 NotOpen\nok\nok\nok\n" + A, 0, b"", HEADER + A),
    # A line that is too long, and the longest one.
    (HEADER, b"open\n" + LONG + b"\nrecompact\t" + b"x" * 262133 + b"\nget\ta\n", b"ok\nbad line\nbad line\nnone\n", 0, b"", HEADER),
    # The longest name, and what can be none.
    (HEADER, b"open\nget\t" + b"x" * 65536 + b"\nget\t" + b"x" * 65537 + b"\nget\t\nget\ta\tb\nget\ta\0\n", b"ok\nnone\n" + b"bad line\n" * 4, 0, b"", HEADER),
    (None, b"get\t\nget\ta\tb\nget\ta\n", b"bad line\nbad line\nS1 NotOpen\n", 0, b"", b""),
    # More names than a line may hold keep nothing and drop nothing; a carriage return is a part of the last name.
    (HEADER + A, b"open\nrecompact" + b"\tname" * 52427 + b"\nget\ta\n", b"ok\nbad line\n" + A, 0, b"", HEADER + A),
    (HEADER + A, b"open\r\nget\ta\n", b"bad line\nS1 NotOpen\n", 0, b"", HEADER + A),
    (HEADER + A, b"open\nget\ta\r\nrecompact\ta\r\ntable\n", b"ok\nnone\nok\nend\n", 0, b"", HEADER),
    # Without names all is kept, by a recompact and by the open of a log that is due; with names these alone.
    (HEADER + A + B, b"open\nrecompact\ntable\n", b"ok\nok\n" + A + B + b"end\n", 0, b"", HEADER + A + B),
    (HEADER + A * 101 + B, b"open\ntable\n", b"ok\n" + A + B + b"end\n", 0, b"", HEADER + A + B),
    (HEADER + A * 101 + B, b"open\tb\ntable\n", b"ok\n" + B + b"end\n", 0, b"", HEADER + B),
    (HEADER + A, b"open\nrestat\ntable\n", b"ok\nok\n" + A + b"end\n", 0, b"", HEADER + A),
    # The longest name, and the longest line that asks for an event.
    (HEADER, b"open\nrecord\t" + LONGEST + b"get\t" + b"n" * 65536 + b"\n", b"ok\nok\n" + LONGEST, 0, b"", HEADER + LONGEST),
    (HEADER + A + B, b"open\n" + KEPT + b"\ntable\n", b"ok\nok\n" + A + b"end\n", 0, b"", HEADER + A),
    # An intent over each entry that could pass, with the complement of the hash; none over one that stands already, or where no entry is.
    (HEADER + A + B, b"begin\t7\tab\ta\nopen\nbegin\t7\tab\ta\tc\tb\nbegin\t9\tab\ta\nbegin\t9\tac\ta\ntable\n",
     b"S1 NotOpen\nok\nok\nok\nok\n9\t9\t0\ta\tffffffffffffff53\n7\t7\t0\tb\tffffffffffffff54\nend\n", 0, b"",
     HEADER + A + B + b"7\t7\t0\ta\tffffffffffffff54\n7\t7\t0\tb\tffffffffffffff54\n9\t9\t0\ta\tffffffffffffff53\n"),
    # Several begin with one sync; one intent for a name that comes twice, and the moments and hashes at the ends of their ranges.
    (HEADER + A + B, b"open\nbegin\t-2147483648\t0\ta\ta\nbegin\t2147483647\tffffffffffffffff\tb\tc\tb\nsync\ntable\nstop\nbegin\t7\tab\ta\n",
     b"ok\nok\nok\nok\n-2147483648\t-2147483648\t0\ta\tffffffffffffffff\n2147483647\t2147483647\t0\tb\t0\nend\nok\nS1 NotOpen\n", 0, b"",
     HEADER + A + B + b"-2147483648\t-2147483648\t0\ta\tffffffffffffffff\n2147483647\t2147483647\t0\tb\t0\n"),
    # What only looks like an intent gets one, and a record behind an intent counts.
    (HEADER + b"7\t7\t0\ta\taa\n", b"open\nbegin\t7\tab\ta\nget\ta\nrecord\t" + A + b"get\ta\nbegin\t7\tab\ta\nget\ta\n",
     b"ok\nok\n7\t7\t0\ta\tffffffffffffff54\nok\n" + A + b"ok\n7\t7\t0\ta\tffffffffffffff54\n", 0, b"",
     HEADER + b"7\t7\t0\ta\taa\n7\t7\t0\ta\tffffffffffffff54\n" + A + b"7\t7\t0\ta\tffffffffffffff54\n"),
    # The longest name, the most names of the longest line, and one byte more.
    (HEADER + LONGEST, b"open\nbegin\t7\tab\t" + b"n" * 65536 + b"\nbegin\t7\tab\t" + b"n" * 65537 + b"\nget\ta\n",
     b"ok\nok\nbad line\nnone\n", 0, b"", HEADER + LONGEST + b"7\t7\t0\t" + b"n" * 65536 + b"\tffffffffffffff54\n"),
    (HEADER + A, b"open\n" + MOST + b"\nbegin\t17" + MOST[7:] + b"\nget\ta\n",
     b"ok\nok\nbad line\n7\t7\t0\ta\tffffffffffffff54\n", 0, b"", HEADER + A + b"7\t7\t0\ta\tffffffffffffff54\n"),
    # What is no moment, no hash in its one spelling, and no name.
    (HEADER + A, b"open\nbegin\nbegin\t\nbegin\t7\tab\nbegin\t7\tab\t\nbegin\t07\tab\ta\nbegin\t7\tAB\ta\nbegin\t7\t0ab\ta\nbegin\t2147483648\tab\ta\nbegin\t7\tab\ta\t\n",
     b"ok\n" + b"bad line\n" * 9, 0, b"", HEADER + A),
    # A closed log alone tells what can't be trusted, and nothing is changed. After the open no line tells of it.
    (HEADER + A + B + b"7\t8\t9\ta", b"distrusted\ndistrusted\n", (A + b"end\n") * 2, 0, b"", HEADER + A + B + b"7\t8\t9\ta"),
    (HEADER + A + B + b"7\t8\t9\ta", b"distrusted\nopen\ndistrusted\nget\ta\nstop\ndistrusted\nget\ta\n",
     A + b"end\nok\nS2 AlreadyOpen\n" + A + b"ok\nend\nS1 NotOpen\n", 0, b"", HEADER + A + B),
    # Both outputs of a joined line, in its order, but none that has no entry, or one behind the line.
    (HEADER + B + A + JOINED, b"distrusted\nopen\nstop\ndistrusted\n", A + B + b"end\nok\nok\n" + A + B + b"end\n", 0, b"", HEADER + B + A + JOINED),
    (HEADER + B + A + JOINED + A, b"distrusted\n", B + b"end\n", 0, b"", HEADER + B + A + JOINED + A),
    (HEADER + B + JOINED, b"distrusted\n", B + b"end\n", 0, b"", HEADER + B + JOINED),
    (HEADER + JOINED + A + B, b"distrusted\n", b"end\n", 0, b"", HEADER + JOINED + A + B),
    # The older entry stands behind more bytes than are asked for at a time, and so does the line; the longest name.
    (HEADER + A + B * 90000 + b"7\t8\t9\ta\tc", b"distrusted\n", A + b"end\n", 0, b"", HEADER + A + B * 90000 + b"7\t8\t9\ta\tc"),
    (HEADER + LONGEST + LONGEST[:-3], b"distrusted\n", LONGEST + b"end\n", 0, b"", HEADER + LONGEST + LONGEST[:-3]),
    # A whole log, none yet, one that is torn within its first line, and what is no log.
    (HEADER + A, b"distrusted\nopen\nget\ta\n", b"end\nok\n" + A, 0, b"", HEADER + A),
    (None, b"distrusted\n", b"end\n", 0, b"", b""),
    (b"# ninja lo", b"distrusted\n", b"end\n", 0, b"", b"# ninja lo"),
    (b"hello\n", b"distrusted\nopen\n", b"S5 NotALog\n" * 2, 0, b"", b"hello\n"),
    (b"# ninja log v8\n" + A, b"distrusted\nopen\n", b"S6 OtherVersion\n" * 2, 0, b"", b"# ninja log v8\n" + A),
    # Of version 4 the command's hash is that of its text.
    (b"# ninja log v4\n" + A + b"7\t8\t9\ta", b"distrusted\n", b"1\t2\t3\ta\t%x\nend\n" % command_hash(b"aa"), 0, b"", b"# ninja log v4\n" + A + b"7\t8\t9\ta"),
    # A line that is cut off is not done, however it looks.
    (HEADER, b"open\nrecord\t1\t2\t3\ta\taa", b"ok\nbad line\n", 0, b"", HEADER),
    (HEADER, b"open\nget\ta", b"ok\nbad line\n", 0, b"", HEADER),
]
BAD = [b"", b"opens", b"open\t", b"open\t\t", b"get", b"gets\ta", b"table\t", b"table\ta", b"distruste", b"distrusted\t", b"distrusted\ta", b"sync\t", b"stop\ta", b"crash", b"writes\t1", b"fates\t1", b"tails\t1",
       b"fuse\tany\t1", b"record", b"record\t1\t2\t3\ta", b"record\t01\t2\t3\ta\taa", b"record\t1\t2\t3\t\taa", b"restat\t1", b"restat\tx\ta", b"recompact\t", b" sync"]


def apply(program, log, lines, *words, **how):
    return run([program, "apply", *words, log], input=lines, stdin=None, **how)


def hash_line(command, version):
    return b"%x\n" % (command_hash_v7(command) if version == 7 else command_hash(command))


def turns(trials, program, room):
    log = f"{room}/turns.log"
    cases = TURNS + [(HEADER + A, b"open\n" + bad + b"\nget\ta\n", b"ok\nbad line\n" + A, 0, b"", HEADER + A) for bad in BAD]
    for held, lines, answers, status, said, left in cases:
        what = lines[:60]
        if os.path.exists(log):
            os.remove(log)
        if held is not None:
            write(log, held)
        trials.want(f"the answers to {what}", apply(program, log, lines), (status, answers, said))
        trials.want(f"the log behind {what}", read(log) if os.path.exists(log) else None, left)


# Moments and hashes in their one spelling, and others; names, and what is none.
MOMENTS = [b"0", b"7", b"-1", b"2147483647", b"-2147483648"], [b"2147483648", b"-2147483649", b"-0", b"07", b"", b"+7", b" 7", b"1e3", b"-", b"a"]
HASHES = [b"0", b"ab", b"c0ffee", b"ffffffffffffffff"], [b"10000000000000000", b"AB", b"0ab", b"", b"0x1", b"g", b"-1"]
OUTPUTS = [b"a", b"b", b"c", b"\xff.o", b"two words", b"b\r"], [b"", b"a\0"]


def keeps_many(trials, program, room):
    """32,000 names that an `open` or a `recompact` keeps of 300,000 outputs: no name is compared with each of the others."""
    log, keep = f"{room}/many.log", f"{room}/many.keep"
    lines = [b"1\t2\t3\tn%d\ta\n" % it for it in range(300_000)]
    kept = [b"n%d" % it for it in range(200_000, 232_000)]
    left = HEADER + b"".join(lines[200_000:232_000])
    write(keep, b"\n".join(kept))

    def alone():
        write(log, HEADER + b"".join(lines))
        return seconds_of([program, "recompact", log, keep])

    trials.want("many names: nlog recompact", (alone()[0], read(log)), ((0, b"", b""), left))
    # A log of version 4 is due, and has commands: the hash of an empty command is known. A name may come twice.
    of_four, left_of_four = ([it[:-2] + end for it in lines] for end in (b"\n", b"87c2bc0beaf1d91d\n"))
    for header, text, left, words, answers in (
        (HEADER, lines, left, b"open\nrecompact", b"ok\nok\n"),
        (b"# ninja log v4\n", of_four, HEADER + b"".join(left_of_four[200_000:232_000]), b"open", b"ok\n"),
        (HEADER, lines, left, b"open\nrecompact\tn231999", b"ok\nok\n"),
    ):
        asked = words + b"".join(b"\t" + it for it in kept) + b"\n"

        def applied(header=header, text=text, asked=asked):
            write(log, header + b"".join(text))
            return seconds_of([program, "apply", log], stdin=None, input=asked)

        what = f"many names: {words[:15]} of {header}"
        trials.want(what, (applied()[0], read(log) == left), ((0, answers, b""), True))
        trials.check(f"{what}: at most 4 times as long as nlog recompact", *is_within(4, lambda it=applied: it()[1], lambda: alone()[1]))


def begins(trials, program, room):
    """Lines that begin a command, of good fields and of bad ones, by a table that is kept here."""
    chance, log = random.Random(19), f"{room}/begins.log"
    table = {b"a": (b"1", b"2", b"3", b"aa"), b"b": (b"4", b"5", b"6", b"bb"), b"two words": (b"7", b"7", b"0", b"ffffffffffffff54")}

    def line_of(name):
        start, end, mtime, command = table[name]
        return b"\t".join([start, end, mtime, name, command]) + b"\n"

    def pick(choices):
        is_good = chance.random() < 0.85
        return chance.choice(choices[not is_good]), is_good

    text, lines, answers = HEADER + b"".join(map(line_of, table)), [b"open\n"], [b"ok\n"]
    write(log, text)
    for _ in range(5000):
        fields = [pick(MOMENTS), pick(HASHES), *(pick(OUTPUTS) for _ in range(chance.randrange(5)))]
        fields = fields[: chance.randrange(len(fields) + 1)] if chance.random() < 0.1 else fields
        lines.append(b"\t".join([b"begin", *(it for it, _ in fields)]) + b"\n")
        is_good = len(fields) > 2 and all(it for _, it in fields)
        answers.append(b"ok\n" if is_good else b"bad line\n")
        if is_good:
            moment, command, *names = [it for it, _ in fields]
            intent = (moment, moment, b"0", b"%x" % (int(command, 16) ^ (2**64 - 1)))
            for name in names:
                if name in table and (table[name][0] != table[name][1] or table[name][2:] != intent[2:]):
                    table[name] = intent
                    text += line_of(name)
    trials.want("the answers to lines that begin", apply(program, log, b"".join(lines) + b"table\n"), (0, b"".join([*answers, *map(line_of, table), b"end\n"]), b""))
    trials.want("the log behind lines that begin", read(log), text)
    trials.check("lines that begin of both kinds", min(answers.count(b"ok\n"), answers.count(b"bad line\n")) > 1000, str(len(answers)))


def odd_names(trials, program, room):
    """The client of examples/build.py over names of each kind: an answer is always that to its own line."""
    sys.path.insert(0, os.path.dirname(BUILD))
    from build import Log
    write(f"{room}/odd.log", HEADER + A)
    log = Log(program, f"{room}/odd.log")
    for name in ("two words", "-x", "a\r", os.fsdecode(b"\xff.o")):
        fields = ["1", "2", "3", name, "aa"]
        trials.want(f"the entry of {name!r} before it is recorded", log.get(name), None)
        log.do("record", *fields)
        trials.want(f"the entry of {name!r}", log.get(name), fields)
    for name, wanted in [("a\nsync", ValueError), ("a\tb", ValueError), ("x" * 262140, OSError)]:
        try:
            trials.check(f"the name {name[:9]!r} is refused", False, repr(log.get(name)))
        except wanted:
            trials.want(f"the answer behind {name[:9]!r}", log.get("a"), ["1", "2", "3", "a", "aa"])
    log.close()
    log.nlog.stdout.close()
    trials.want("a build whose log's name begins with `-`", run([sys.executable, BUILD, program, "-its.log", "3"], cwd=room), (0, b"0\n3\n", b""))
    trials.want("its log", (read(f"{room}/-its.log") or b"").count(b"\n"), 4)
    write(f"{room}/eight.log", b"# ninja log v8\n" + A)
    try:
        trials.check("a log of version 8 is refused", False, repr(Log(program, f"{room}/eight.log")))
    except OSError as it:
        trials.want("why a log of version 8 is refused", str(it), "S6 OtherVersion")
    trials.want("the log of version 8", read(f"{room}/eight.log"), b"# ninja log v8\n" + A)


def versions(trials, program, room):
    """Logs of version 6 and 7: the answers are those of version 5, and the log is left of its version."""
    log = f"{room}/versions.log"
    for (held, lines, answers, status, said, left), version in itertools.product(TURNS, (6, 7)):
        if as_version(held or b"", version) == (held or b""):
            continue
        what = f"{lines[:60]} as of version {version}"
        write(log, as_version(held, version))
        trials.want(f"the answers to {what}", apply(program, log, lines), (status, answers, said))
        trials.want(f"the log behind {what}", read(log), as_version(left, version))


def hashes(trials, program, room):
    """The hash of a command is that of the log's version; the longest command, and none of a log that isn't open."""
    log = f"{room}/hashes.log"
    commands = [b"", b"cc\tx", b" c\0\r", b"x" * 262138]
    lines = b"hash\tx\nopen\n" + b"".join(b"hash\t" + it + b"\n" for it in commands) + b"hash\nhash\t" + b"x" * 262139 + b"\nhashes\tx\nstop\nhash\t\n"
    for version in (4, 5, 6, 7):
        write(log, b"# ninja log v%d\n" % version)
        said = b"S1 NotOpen\nok\n" + b"".join(hash_line(it, version) for it in commands) + b"bad line\n" * 3 + b"ok\nS1 NotOpen\n"
        trials.want(f"the hashes of a log of version {version}", apply(program, log, lines), (0, said, b""))


def distrusts(trials, program, room):
    """What can't be trusted of damaged logs of each version, before an open and behind it; what stands then, by the definition of it."""
    chance, log, told, cut = random.Random(29), f"{room}/distrusted.log", 0, 0
    for i in range(400):
        version = 4 + i % 4
        parts = [line_of(b"out%d" % chance.randrange(9), (chance.randrange(99), chance.randrange(99), chance.randrange(-9, 99), chance.randrange(2**64))) for _ in range(9)]
        for at in range(len(parts)):
            if chance.random() < 0.4:
                low, high = sorted(chance.randrange(len(parts[at]) + 1) for _ in range(2))
                parts[at] = chance.choice([parts[at][:high], parts[at][low:], parts[at][:low] + parts[at][high:], parts[at] + b"\n", parts[at].replace(b"\t", b"\0", 1)])
        text = b"# ninja log v%d\n" % version + b"".join(parts)
        write(log, text)
        before = distrusted_of(text)
        trials.want(f"what can't be trusted of {text!r}", apply(program, log, b"distrusted\n"), (0, before + b"end\n", b""))
        trials.want("the log that told it", read(log), text)
        trials.want(f"the open of {text!r}", apply(program, log, b"distrusted\nopen\nstop\n"), (0, before + b"end\nok\nok\n", b""))
        behind = distrusted_of(read(log))
        trials.want(f"what can't be trusted then of {text!r}", apply(program, log, b"distrusted\n"), (0, behind + b"end\n", b""))
        told, cut = told + before.count(b"\n"), cut + (behind != before)
    trials.check("many outputs can't be trusted", told > 100, str(told))
    trials.check("many opens leave nothing that tells it", cut > 20, str(cut))


def joined_writers(trials, program, room):
    """A writer without `begin` is cut off within the last field of a line, and the next writer may join its line to that. A client that asks
    what can't be trusted, and removes those files, never builds on them; a client that doesn't ask does. Then both go back to the old commands."""
    log, names = f"{room}/joined.log", [b"out%d" % i for i in range(6)]
    for asks in (True, False):
        stale = 0
        for seed in range(60):
            chance = random.Random(seed)
            files, text = dict.fromkeys(names, "A"), HEADER + b"".join(line_of(name, (1, 2, 3, 0xA)) for name in names)
            first, *others = chance.sample(names, 4)
            line = line_of(first, (4, 5, 6, 0xB))
            files[first] = "B"
            text += line[: chance.randint(line.rindex(b"\t") + 1, len(line) - 1)]
            for name in others[: chance.randrange(4)]:
                files[name] = "B"
                text += line_of(name, (7, 8, 9, 0xB))
            write(log, text)
            if asks:
                *gone, end = apply(program, log, b"distrusted\n")[1].splitlines()
                trials.want("the end of what is told", end, b"end")
                for it in gone:
                    del files[it.split(b"\t")[3]]
            opened, *entries = apply(program, log, b"open\n" + b"".join(b"get\t" + it + b"\n" for it in names))[1].splitlines(True)
            trials.want("its open", opened, b"ok\n")
            stale += sum(files.get(name) == "B" and it == line_of(name, (1, 2, 3, 0xA)) for name, it in zip(names, entries))
        trials.check(f"stale outputs of a client that {'asks' if asks else 'asks nothing'}", (stale == 0) == asks, str(stale))


def asked(trials, program, room):
    """A log that is new, or has no whole first line, gets the version that is asked for. A log of another version is refused, and stays."""
    log = f"{room}/asked.log"
    lines = b"open\nhash\tcc\nrecord\t" + A + b"stop\nopen\nget\ta\n"
    for version in (5, 6, 7):
        header = as_version(HEADER, version)
        for held in (None, *(header[:size] for size in range(16))):
            if os.path.exists(log):
                os.remove(log)
            write(log, held)
            what = f"{held!r} where {version} is asked for"
            said = b"ok\n" + hash_line(b"cc", version) + b"ok\nok\nok\n" + A
            trials.want(f"the answers over {what}", apply(program, log, lines, "--log-version", str(version)), (0, said, b""))
            trials.want(f"the log, {what}", read(log), header + A)
        for other in (4, 5, 6, 7, 8):
            if other != version and (version, other) != (5, 4):
                held = b"# ninja log v%d\n" % other + A
                said = b"S6 OtherVersion\n" + b"S1 NotOpen\n" * 3 + b"S6 OtherVersion\nS1 NotOpen\nS6 OtherVersion\n"
                write(log, held)
                trials.want(f"the answers over version {other} where {version} is asked for", apply(program, log, lines + b"distrusted\n", f"--log-version={version}"), (0, said, b""))
                trials.want(f"the log of version {other} where {version} is asked for", read(log), held)
    four = b"# ninja log v4\n" + A
    for words in ([], ["--log-version=5"], ["--log-version=auto"]):
        write(log, four)
        a = b"1\t2\t3\ta\t" + hash_line(b"aa", 4)
        trials.want(f"the answers over version 4 by {words}", apply(program, log, b"open\ntable\n", *words), (0, b"ok\n" + a + b"end\n", b""))
        trials.want(f"the log of version 4 by {words}", read(log), HEADER + a)
    for held, left in [(None, HEADER), (b"", HEADER), (b"# ninja lo", HEADER), (b"# ninja log v7", b"# ninja log v7\n")]:
        if os.path.exists(log):
            os.remove(log)
        write(log, held)
        trials.want(f"the answer over {held!r} by auto", apply(program, log, b"open\n", "--log-version", "auto"), (0, b"ok\n", b""))
        trials.want(f"the log {held!r} by auto", read(log), left)


def reopened(trials, program, room):
    """The version is found anew at each open: another changes the digit of the first line between a `stop` and an `open`, empties the log,
    removes it or puts another in its place."""
    for found, then in [(7, 4), (7, 5), (7, 6), (6, 7), (5, 7), (5, 6), (6, 4), (7, 8)]:
        first = b"1\t2\t3\ta\t" + hash_line(b"aa", 4) if then == 4 else A
        again(trials, program, room, found, b"# ninja log v%d\n" % then + A, then, first, False)
    for held, then in [(b"", 5), (b"# ninja lo", 5), (b"# ninja log v6", 6), (None, 5)]:
        again(trials, program, room, 7, held, then, b"", False)
    for held, then in [(b"", 5), (b"# ninja log v6\n", 6), (b"# ninja log v7\n" + A, 7)]:
        again(trials, program, room, 5, held, then, A if A in held else b"", True)


def again(trials, program, room, found, held, then, table, is_new):
    """A log of version `found`, in a new file if `is_new`, has these bytes before it is opened again, as one of version `then`."""
    log, new = f"{room}/again.log", f"{room}/again.new"
    what = f"version {found}, and then {held!r}" + (" of another file" if is_new else "")
    write(log, b"# ninja log v%d\n" % found + A)
    child = start(program, log)
    child.stdin.write(b"open\nhash\tcc\nstop\n")
    wanted = b"ok\n" + hash_line(b"cc", found) + b"ok\n"
    trials.want(f"the first answers over {what}", all_heard(child, len(wanted)), wanted)
    if held is None:
        os.remove(log)
    else:
        write(new if is_new else log, held)
        if is_new:
            os.rename(new, log)
    child.stdin.write(b"open\ntable\nhash\tcc\nrecord\t" + B + b"stop\n")
    child.stdin.close()
    wanted, left = b"ok\n" + table + b"end\n" + hash_line(b"cc", then) + b"ok\nok\n", b"# ninja log v%d\n" % max(then, 5) + table + B
    if then == 8:
        wanted, left = b"S6 OtherVersion\n" + b"S1 NotOpen\n" * 4, held
    trials.want(f"the answers over {what}", child.stdout.read(), wanted)
    trials.want(f"the end over {what}", (child.wait(SECONDS), child.stderr.read()), (0, b""))
    trials.want(f"the log of {what}", read(log), left)
    child.stdout.close()
    child.stderr.close()


def all_heard(child, count):
    """What the program says, up to so many bytes."""
    said = b""
    while len(said) < count:
        more = heard(child, SECONDS)
        if not more:
            break
        said += more
    return said


def start(program, log):
    return subprocess.Popen([program, "apply", log], stdin=subprocess.PIPE, stdout=subprocess.PIPE, stderr=subprocess.PIPE, bufsize=0)


def heard(child, seconds):
    """What the program says within this time."""
    ready = select.select([child.stdout], [], [], seconds)[0]
    return os.read(child.stdout.fileno(), 1 << 20) if ready else None


def prompt(trials, program, room):
    """An answer comes while the input stays open, and none before its line is whole."""
    log = f"{room}/prompt.log"
    child = start(program, log)
    for line, answer in [(b"open\n", b"ok\n"), (b"record\t" + A, b"ok\n"), (b"get\ta\n", A), (b"get\tb\n", b"none\n"), (b"\n", b"bad line\n"), (b"sync\n", b"ok\n")]:
        child.stdin.write(line)
        trials.want(f"the answer to {line} through a pipe", heard(child, SECONDS), answer)
    child.stdin.write(b"syn")
    trials.want("the answer to a part of a line", heard(child, 0.2), None)
    child.stdin.write(b"c\nget\tb\nget\ta\n")
    said = b""
    while len(said) < len(b"ok\nnone\n" + A):
        more = heard(child, SECONDS)
        if not more:
            break
        said += more
    trials.want("the answers to lines that come at once", said, b"ok\nnone\n" + A)
    trials.want("what is on disk while the input is open", read(log), HEADER + A)
    child.stdin.close()
    trials.want("the status at the end", child.wait(SECONDS), 0)
    child.stdout.close()
    child.stderr.close()


def unread(trials, program, room):
    """Where the answers aren't read, a client that goes on to write stands still; and all is answered once they are."""
    child, count = start(program, f"{room}/unread.log"), 100000
    lines = b"open\n" + b"".join(b"get\tout%d\n" % it for it in range(count))
    writer = threading.Thread(target=lambda: (child.stdin.write(lines), child.stdin.close()), daemon=True)
    writer.start()
    writer.join(1)
    trials.check("a client that doesn't read stands still", writer.is_alive())
    trials.want("the answers once they are read", child.stdout.read(), b"ok\n" + b"none\n" * count)
    writer.join(SECONDS)
    trials.want("the status then", child.wait(SECONDS), 0)
    child.stdout.close()
    child.stderr.close()


def closed(trials, program, room):
    """Standard output that is closed or full ends it, and what was answered or done before stands."""
    log = f"{room}/closed.log"
    child = start(program, log)
    child.stdin.write(b"open\nrecord\t" + A)
    said = b""
    while said != b"ok\nok\n":
        said += heard(child, SECONDS) or b"?"
        if b"?" in said:
            break
    child.stdout.close()
    child.stdin.write(b"record\t" + B)
    trials.want("the status where standard output is closed", child.wait(SECONDS), 1)
    trials.want("what is said of it", child.stderr.read(), b"nlog: cannot write\n")
    child.stderr.close()
    child.stdin.close()
    trials.want("the log where standard output is closed", read(log), HEADER + A + B)
    if os.path.exists("/dev/full"):
        with open("/dev/full", "wb") as full:
            ran = run([program, "apply", log], input=b"open\nrecord\t7\t8\t9\tc\tcc\n", stdin=None, stdout=full, capture_output=False, stderr=subprocess.PIPE)
        trials.want("the end where standard output is full", (ran[0], ran[2]), (1, b"nlog: cannot write\n"))
        trials.want("the log where standard output is full", read(log), HEADER + A + B)
    trials.want("the answers where LOG's folder is missing", apply(program, f"{room}/gone/log", b"open\nget\ta\n"), (1, b"", b"nlog: the folder failed\n"))


def wanted(count):
    """The lines of the entries of the build, by name, from its own definition."""
    sys.path.insert(0, os.path.dirname(BUILD))
    from build import entry
    return {entry(i)[3]: "\t".join(entry(i)) for i in range(count)}


def killed(trials, program, room):
    """A build of 10,000 commands goes on after kills at random moments: of the build, of its nlog, or of both."""
    log, count, chance = f"{room}/build.log", 10000, random.Random(25)
    lines = wanted(count)
    kills = stood = 0
    while True:
        words = [sys.executable, BUILD, program, log, str(count)]
        # Without a buffer, so that what follows the last line that was read is there for `communicate`.
        child = subprocess.Popen(words, stdout=subprocess.PIPE, stderr=subprocess.PIPE, bufsize=0, start_new_session=True)
        # By what it says that stands, and not by the clock: so it is killed as often on a fast machine.
        target, last = stood + chance.randrange(1, 600), 0
        for line in child.stdout:
            last = int(line)
            stood = max(stood, last)
            if last >= min(target, count):
                break
        if last < count:
            time.sleep(chance.random() * 0.004)
            if kills % 3 == 0:
                os.killpg(child.pid, signal.SIGKILL)
            elif kills % 3 == 1:
                child.kill()
            else:
                end_below(child.pid)
        # Standard error ends when the build and its nlog have both ended.
        out = child.communicate()[0].split()
        stood = max([stood] + [int(it) for it in out])
        shown = run([program, "show", log])[1].decode().splitlines() if os.path.exists(log) else []
        names = {it.split("\t")[3]: it for it in shown}
        bad = [it for name, it in names.items() if lines.get(name) != it]
        missing = [f"out{i}" for i in range(stood) if f"out{i}" not in names]
        trials.check(f"the log after kill {kills}", not bad and not missing, f"not written: {bad[:3]}; missing: {missing[:3]}")
        if child.returncode == 0:
            break
        kills += 1
        if kills > 60:
            break
    trials.want("the log of the whole build", run([program, "show", log])[1].decode().splitlines(), list(lines.values()))
    trials.check("the build was killed", kills >= 10, f"{kills} kills")


def end_below(pid):
    """Kills the one process that this one started."""
    for child in read(f"/proc/{pid}/task/{pid}/children").split():
        try:
            os.kill(int(child), signal.SIGKILL)
        except ProcessLookupError:
            pass


def trial(trials, program, room):
    turns(trials, program, room)
    begins(trials, program, room)
    keeps_many(trials, program, room)
    odd_names(trials, program, room)
    versions(trials, program, room)
    hashes(trials, program, room)
    distrusts(trials, program, room)
    joined_writers(trials, program, room)
    asked(trials, program, room)
    reopened(trials, program, room)
    prompt(trials, program, room)
    unread(trials, program, room)
    closed(trials, program, room)
    killed(trials, program, room)


if __name__ == "__main__":
    sys.exit(main(__file__, trial))
