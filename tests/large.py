#!/usr/bin/env python3
"""Logs, KEEP, TIMES and scripts of some 100 MB, through each command, in files and by a pipe.

    python3 tests/large.py PROGRAM

One log has 1,000,001 entries of as many outputs, and a graph of as many nodes; the second has names of up to 65,536 bytes, lines that are no entries, too long ones among
them, and a torn line, and is due to be recompacted; the third has lines that were written behind torn ones; the fourth has 1,000,001 builds. The files are made line by line
by a rule, and what is wanted is computed from that rule, or from `log_format`, a line at a time; it is compared by its length and its hash,
so that no more of it is held in memory. `entries` and `damage` may take no more memory than for a small log, and `trace` and `picture` no
more than the commands take of a log whose texts are long; these end soon where nobody reads on.
"""
import contextlib
import hashlib
import os
import random
import resource
import shutil
import subprocess
import sys
import tempfile
import threading
from functools import partial
from itertools import accumulate, chain
from typing import Iterator, Optional

from log_format import HEADER, MAX_LINE, MAX_NAME, as_version, command_hash, entry_of, line_of
from log_lines import PARTS, drawn, kinds_of, named_first, ranked_kinds
from trials import SECONDS, main, run

ENTRIES = 1_000_001
# Outputs that KEEP and TIMES have, and the log hasn't.
OTHERS = 200_000
# A script's records and their outputs, and how many of these the longest lines name.
RECORDS, OUTPUTS, KEPT, STAMPED = 800_000, 4_000, 3_700, 2_900
LARGE = 80_000_000
PIECE = 1 << 20
# How many kilobytes the words may take that keep no table: libraries, stack and all. The logs have 15 times as many.
SMALL = 6_000
# Commands at one time, how many kilobytes these take, and how many bytes of their text are read at least.
WIDE, SPARE, READ = 200_000, 120_000, 1_000
# What the files of one part take at once.
ROOM = 600_000_000


class Sum:
    """The length and the hash of a text that is given in pieces."""

    def __init__(self, pieces=()):
        self.size, self.hash = 0, hashlib.blake2b()
        for it in pieces:
            self.add(it)

    def add(self, piece):
        self.size += len(piece)
        self.hash.update(piece)

    def value(self):
        return self.size, self.hash.hexdigest()[:32]


def sum_of(pieces):
    return Sum(pieces).value()


def pieces_of(file):
    return iter(lambda: file.read(PIECE), b"")


def sum_of_file(path):
    """None where it is missing."""
    try:
        with open(path, "rb") as it:
            return sum_of(pieces_of(it))
    except FileNotFoundError:
        return None


def make(path, pieces):
    with open(path, "wb") as it:
        it.writelines(pieces)


def streamed(words, piped=None):
    """Runs a program, with this file as standard input by a pipe: its status, the sum of its output, and standard error."""
    source = subprocess.Popen(["cat", piped], stdout=subprocess.PIPE) if piped else None
    given = source.stdout if source else subprocess.DEVNULL
    with subprocess.Popen(words, stdin=given, stdout=subprocess.PIPE, stderr=subprocess.PIPE) as child:
        if source:
            source.stdout.close()
        # A program that hangs is killed, and has then no status of its own.
        clock = threading.Timer(SECONDS, child.kill)
        clock.start()
        printed, said = sum_of(pieces_of(child.stdout)), child.stderr.read()
        status = child.wait()
        clock.cancel()
    if source:
        source.wait()
    return status, printed, said


def held(words, most=SMALL):
    """A command that may take no more kilobytes of memory."""
    return ["sh", "-c", 'ulimit -v "$0" && exec "$@"', str(most), *words]


def left_early(words, most):
    """Runs a program whose output is closed once so many bytes were read: its status, standard error, what was read, and its seconds of
    processors."""
    with subprocess.Popen(words, stdin=subprocess.DEVNULL, stdout=subprocess.PIPE, stderr=subprocess.PIPE, bufsize=0) as child:
        pieces, count = [], 0
        while count < most and (piece := child.stdout.read(min(PIECE, most - count))):
            pieces.append(piece)
            count += len(piece)
        got = b"".join(pieces)
        child.stdout.close()
        said = child.stderr.read()
        _, status, used = os.wait4(child.pid, 0)
        child.returncode = os.waitstatus_to_exitcode(status)
    return child.returncode, said, got, used.ru_utime + used.ru_stime


class Large:
    """A log in a file with what is wanted of it."""

    def __init__(self, trials, program, room, what):
        self.trials, self.program, self.room, self.what = trials, program, room, what
        self.log, self.keep, self.times = f"{room}/LOG", f"{room}/KEEP", f"{room}/TIMES"

    def want_sizes(self, *paths):
        for path in paths:
            size = os.path.getsize(path)
            self.trials.check(f"{self.what}: the size of {os.path.basename(path)}", size > LARGE, f"{size} bytes")

    def want_printed(self, word, pieces, status=0):
        """Tries a command that reads the log, or a script in its place, by a file, and by a pipe."""
        wanted = (status, sum_of(pieces), b"")
        self.trials.want(f"{self.what}: {word} of a file", streamed([self.program, word, self.log]), wanted)
        self.trials.want(f"{self.what}: {word} of a pipe", streamed([self.program, word], self.log), wanted)

    def want_held(self, word, pieces, status=0):
        """The same of a word that keeps no table, in the memory that a small log takes."""
        wanted = (status, sum_of(pieces), b"")
        self.trials.want(f"{self.what}: {word} of a file, in little memory", streamed(held([self.program, word, self.log])), wanted)
        self.trials.want(f"{self.what}: {word} of a pipe, in little memory", streamed(held([self.program, word]), self.log), wanted)

    def want_more(self):
        """What keeps a table finds no such memory: so the limit is one."""
        ended = streamed(held([self.program, "show", self.log]))
        self.trials.want(f"{self.what}: show in little memory", ended, (1, sum_of([]), b"nlog: out of memory\n"))

    def want_log(self, words, pieces):
        """Tries a command that changes the log."""
        word = words[0]
        self.trials.want(f"{self.what}: {word}", run([self.program, *words]), (0, b"", b""))
        self.trials.want(f"{self.what}: the log after {word}", sum_of_file(self.log), sum_of(pieces))


# The log of many entries: the number N of an output gives all that there is to know of it.


def name_of(number):
    return b"out/obj/some/folder/of/a/build/that/is/named/at/length/part%07d.o" % number


def numbers_of(number):
    # Its output is written as the command ends, so that all are of one build.
    return number, number + 7, 1_700_000_000_000_000_000 + (number + 7) * 1_000_000, 2**64 - 1 - number


def is_kept(number):
    return number % 3 != 0


def mtime_of(number):
    """What TIMES has for an output, in its last line: none for each fifth."""
    return None if number % 5 == 0 else 1_800_000_000_000_000_000 + number


def lines(numbers):
    return (line_of(name_of(it), numbers_of(it)) for it in numbers)


def touched_lines(numbers):
    for it in numbers:
        start, end, mtime, command = numbers_of(it)
        yield line_of(name_of(it), (start, end, mtime_of(it) or mtime, command))


def keep_lines():
    """The outputs to keep, after outputs that the log hasn't, from the last to the first, and then once more."""
    kept = list(filter(is_kept, range(ENTRIES)))
    for number in chain(range(ENTRIES + OTHERS - 1, ENTRIES - 1, -1), reversed(kept), kept):
        yield b"%s\n" % name_of(number)


def times_lines():
    """Each seventh output has an earlier line."""
    for number in range(0, ENTRIES, 7):
        if mtime_of(number) is not None:
            yield b"5\t%s\n" % name_of(number)
    for number in range(ENTRIES + OTHERS):
        if mtime_of(number) is not None:
            yield b"%d\t%s\n" % (mtime_of(number), name_of(number))


def report(version, total, unique, skipped, torn, due):
    return b"version %d\ntotal %d\nunique %d\nskipped %d\ntorn %d\ndue %s\n" % (version, total, unique, skipped, torn, due)


def summed(commands, *counts):
    """What `summary` prints of a build whose commands have one output each."""
    return b"commands\t%d\noutputs\t%d\nwall\t%d\ntotal\t%d\nbusy\t%d\nalone\t%d\nparallel\t%s\nslowest\t%d\t%s\n" % (commands, commands, *counts)


def listed(by_time, by_weight):
    """The lists behind: each command's milliseconds, its weighted milliseconds as a text, and its output."""
    rows = [(b"time", *it) for it in by_time] + [(b"weight", *it) for it in by_weight]
    return b"".join(b"by-%s\t%d\t%s\t%s\n" % it for it in rows)


def kind_listed(*numbers):
    """The lists behind these of one kind, with its commands, their milliseconds and the weighted ones."""
    return b"".join(b"kinds-by-%s\t%d\t%d\t%d.00\t.o\n" % (key, *numbers) for key in (b"time", b"weight"))


def bar(build, name, command, took, lane, began):
    """The event that `trace` prints of a command of one output; times are in milliseconds from the first START."""
    kept = b'"hash":"%x","outputs":["%s"]' % (command, name)
    return b'{"args":{%s},"dur":%d,"name":"%s","ph":"X","pid":%d,"tid":%d,"ts":%d}' % (kept, took * 1000, name, build, lane, began * 1000)


def runs(build, count, at):
    return b'{"args":{"commands":%d},"name":"running","ph":"C","pid":%d,"ts":%d}' % (count, build, at * 1000)


def traced(build, events):
    """What `trace` prints of a build of these events."""
    yield b'[{"args":{"name":"build %d","rewritten":false},"name":"process_name","ph":"M","pid":%d}' % (build, build)
    for it in events:
        yield b"," + it
    yield b"]"


def many_traced():
    """Seven run at a time but in the beginning and at the end, and each has the lane of the one that has just ended."""
    for number in range(ENTRIES):
        yield bar(1, name_of(number), numbers_of(number)[3], 7, number % 7 + 1, number)
        yield runs(1, min(number + 1, 7), number)
        yield runs(1, min(7, ENTRIES - 1 - number), number + 7)


def graph_lines():
    """The graph of a build in which each command needs the one that ends as it begins. Of its seven paths the first is the longest, because
    the second begins only with its second command. Ninja prints a graph from the end of each path on."""
    yield b"digraph ninja {\n"
    for number in reversed(range(ENTRIES)):
        yield b'"0x%x" [label="%s"]\n' % (number, name_of(number))
        if number > 6 and number != 8:
            yield b'"0x%x" -> "0x%x" [label=" cc"]\n' % (number - 7, number)
    yield b"}\n"


def path_lines():
    """The critical path by this graph. Half of 7 ms is 3; the other paths are a whole command shorter."""
    ran = range(0, ENTRIES, 7)
    yield b"critical-path\t%d\n" % (7 * len(ran))
    for number in ran:
        yield b"on-path\t7\t%d\t%d\t%s\n" % (number, number + 7, name_of(number))
    for number in ran[:10]:
        yield b"gain\t4\t%s\n" % name_of(number)


# By docs/FORMAT.md: the hash of the command `cc<TAB>x`.
RECORDED = line_of(b"new", (11, 12, -13, 0x72274E7A30810C7B))
RECORD = ["--", "11", "12", "-13", "new", "cc\tx"]


def slower_lines():
    """The log of many entries, where each command but a third of them takes 1 or 2 ms more."""
    for it in range(ENTRIES):
        start, end, mtime, command = numbers_of(it)
        yield line_of(name_of(it), (start, end + it % 3, mtime, command))


def compared(old, *rows):
    """What `compare` prints but for its lists, of rows with the class, the count and the sum of the differences, where each took 7 ms."""
    counts = {kind: (count, apart) for kind, count, apart in rows}
    yield b"hashes\tcompared\n"
    for kind in (b"new", b"gone", b"changed", b"slower", b"faster", b"unfinished", b"same"):
        count, apart = counts.get(kind, (0, 0))
        yield b"total\t%s\t%d\t%d\t%d\t%d\n" % (kind, count, apart, old * count, old * count + apart)


def try_many(trials, program, room):
    large = Large(trials, program, room, f"a log of {ENTRIES:,} outputs")
    everything, counts = range(ENTRIES), (5, ENTRIES, ENTRIES, 0, 0, b"no")
    make(large.log, chain([HEADER], lines(everything)))
    make(large.keep, keep_lines())
    make(large.times, times_lines())
    large.want_sizes(large.log, large.keep, large.times)
    large.want_printed("show", lines(everything))
    large.want_printed("check", [report(*counts)])
    large.want_held("entries", lines(everything))
    large.want_held("damage", [])
    large.want_printed("builds", [b"1\t%d\t%d\t%d\t%d\tsure\n" % (ENTRIES, ENTRIES, ENTRIES + 6, 7 * ENTRIES)])
    large.want_printed("doubt", (b"missing\t%s\n" % name_of(it) for it in everything), 3)
    # A command runs 7 ms, and one begins in each: so one alone runs in the first and the last of them.
    # Of the first and the last the time counts 1 + 1/2 + .. + 1/7, of the next ones 1/2 + .. + 1/7 + 1/7, and so on; all take 7 ms.
    weights = [b"2.59", b"1.73", b"1.37", b"1.18", b"1.08", b"1.02", b"1.00", b"1.00", b"1.00", b"1.00"]
    first = [(7, weight, name_of(it)) for it, weight in enumerate(weights)]
    ends = chain.from_iterable([(7, weight, name_of(it)), (7, weight, name_of(ENTRIES - 1 - it))] for it, weight in enumerate(weights[:5]))
    counts_told = summed(ENTRIES, ENTRIES + 6, 7 * ENTRIES, ENTRIES + 6, 2, b"6.99", 7, name_of(0))
    told = [counts_told, listed(first, ends), kind_listed(ENTRIES, 7 * ENTRIES, ENTRIES + 6)]
    large.want_printed("summary", told)
    for words, wanted in ((["--build", "1"], told), (["--build", "2"], [b"builds\t1\n"]), (["--all"], told)):
        got = streamed([program, "summary", *words, large.log])
        trials.want(f"{large.what}: summary {' '.join(words)}", got, (0, sum_of(wanted), b""))
    other = f"{room}/OTHER"
    make(other, graph_lines())
    large.want_sizes(other)
    words = ["summary", "--graph", other]
    trials.want(f"{large.what}: a graph", streamed([program, *words, large.log]), (0, sum_of(chain(told, path_lines())), b""))
    trials.want(f"{large.what}: a graph, and no log", streamed([program, *words, os.devnull]), (0, sum_of([]), b""))
    make(other, chain([HEADER], slower_lines()))
    # Of three commands one took as long as before, one 1 ms more, and one 2 ms more. The first of the later two are told.
    counts_of = [len(everything[at::3]) for at in range(3)]
    rows = (b"slower\t2\t7\t9\t%s\n" % name_of(it) for it in range(2, 32, 3))
    wanted = chain(compared(7, (b"slower", counts_of[1] + counts_of[2], counts_of[1] + 2 * counts_of[2]), (b"same", counts_of[0], 0)), rows)
    trials.want(f"{large.what}: compare", streamed([program, "compare", large.log, other]), (0, sum_of(wanted), b""))
    # And each is gone from one that is empty.
    make(other, [HEADER])
    rows = (b"gone\t-7\t7\t0\t%s\n" % name_of(it) for it in range(10))
    wanted = chain(compared(7, (b"gone", ENTRIES, -7 * ENTRIES)), rows)
    trials.want(f"{large.what}: compare to an empty log", streamed([program, "compare", large.log, other]), (0, sum_of(wanted), b""))
    os.remove(other)
    large.want_printed("trace", traced(1, many_traced()))
    # Each takes less than half a pixel, so the bars are those of seven lanes and 1,440 pixels.
    large.want_printed("picture", [drawn([(it, it + 7, None, [name_of(it)]) for it in everything], [it % 7 for it in everything])])
    large.want_more()
    with open(large.log, "ab") as it:
        it.write(b"1\t2\t3\ttorn")
    large.want_held("damage", [b"%d\ttorn\t10\t-\t-\n" % (ENTRIES + 2)], 3)
    large.want_log(["repair", large.log], chain([HEADER], lines(everything)))
    with open(large.log, "ab") as it:
        it.write(b"1\t2\t3\ttorn")
    large.want_log(["record", large.log, *RECORD], chain([HEADER], lines(everything), [RECORDED]))
    large.want_printed("check", [report(5, ENTRIES + 1, ENTRIES + 1, 0, 0, b"no")])
    large.want_log(["restat", large.log, large.times], chain([HEADER], touched_lines(everything), [RECORDED]))
    large.want_log(["recompact", large.log, large.keep], chain([HEADER], touched_lines(filter(is_kept, everything))))
    # The same as a log of version 7, by its first line and by the option.
    kept, header = list(filter(is_kept, everything)), as_version(HEADER, 7)
    with open(large.log, "r+b") as it:
        it.write(header)
    shown = streamed([program, "show", "--log-version", "auto", large.log])
    trials.want(f"{large.what}: show of version 7", shown, (0, sum_of(touched_lines(kept)), b""))
    large.want_held("entries", touched_lines(kept))
    large.want_log(["repair", large.log], chain([header], touched_lines(kept)))
    large.want_log(["restat", "--log-version", "7", large.log, large.times], chain([header], touched_lines(kept)))
    unasked = streamed([program, "show", large.log])
    trials.want(f"{large.what}: show where no version is asked for", unasked, (1, sum_of([]), b"nlog: log version not supported\n"))


def try_script(trials, program, room):
    """Records, and then a recompaction and a restat by lines of nearly the longest length."""
    large = Large(trials, program, room, "a long script")
    kept, stamped = range(KEPT), range(STAMPED)
    recompact = b"recompact" + b"".join(b"\t" + name_of(it) for it in kept)
    restat = b"restat" + b"".join(b"\t%d\t%s" % (it + 5, name_of(it)) for it in stamped)
    for line in recompact, restat:
        trials.check(f"{large.what}: one of its longest lines", MAX_LINE - 50_000 < len(line) <= MAX_LINE, f"{len(line)} bytes")
    records = (b"record\t" + line_of(name_of(it % OUTPUTS), numbers_of(it)) for it in range(RECORDS))
    make(large.log, chain([b"open\n"], records, [recompact, b"\n", restat, b"\n"]))
    large.want_sizes(large.log)
    left = [HEADER]
    for it in kept:
        # The last records are of all outputs in turn.
        start, end, mtime, command = numbers_of(RECORDS - OUTPUTS + it)
        left.append(line_of(name_of(it), (start, end, it + 5 if it in stamped else mtime, command)))
    large.want_printed("replay", [b"ok\n" * (RECORDS + 3), b"log %d\n" % sum(map(len, left)), *left])
    built = f"{room}/BUILT"
    trials.want(f"{large.what}: apply", streamed([program, "apply", built, large.log]), (0, sum_of([b"ok\n" * (RECORDS + 3)]), b""))
    trials.want(f"{large.what}: the log after apply", sum_of_file(built), sum_of(left))


# The log of long names.
SEED = 7


def long_name(number):
    """Names of 65,036 to 65,536 bytes; one in five has the longest length."""
    size = MAX_NAME - number % 5 * 100
    return (b"%06d/" % number) * (size // 7) + b"n" * (size % 7)


def long_lines(chance):
    """1,600 entries of 400 outputs, and lines that are no entries: two in 40, one of them too long."""
    for at in range(1_600):
        if at % 40 == 7:
            yield b"1\t2\t3\t%s\tf\n" % (b"x" * (MAX_NAME + 1))
        if at % 40 == 33:
            yield b"y" * (MAX_LINE + 1 + at) + b"\n"
        yield line_of(long_name(chance.randrange(400)), (-at, at, 2**60 + at, at * 2**50))


def log_of_table(table):
    return chain([HEADER], (line_of(*it) for it in table.items()))


def try_long(trials, program, room):
    large = Large(trials, program, room, "a log of long names")
    torn = b"1\t2\t3\t" + b"t" * 200_000
    make(large.log, chain([HEADER], long_lines(random.Random(SEED)), [torn]))
    # The rule of long_lines has no five fields in a line that is too long, and too long a name in one that is skipped.
    table, skipped, damaged = {}, 0, []
    for number, line in enumerate(long_lines(random.Random(SEED)), 2):
        entry = entry_of(line[:-1], 5)
        if entry is None:
            skipped += 1
            what = b"long" if len(line) > MAX_LINE + 1 else b"skipped"
            damaged.append(b"%d\t%s\t%d\t-\t%s\n" % (number, what, len(line) - 1, named_first(line[:-1])))
        else:
            table[entry[0]] = entry[1]
    damaged.append(b"%d\ttorn\t%d\t-\t-\n" % (number + 1, len(torn)))
    names = list(table)
    # Each name five times: the last line of TIMES counts.
    make(large.keep, (b"%s\n" % name for _ in range(5) for name in names[1::2]))
    make(large.times, (b"%d\t%s\n" % (time, name) for time in (9, 5, 6, 7, 8) for name in names[::2]))
    trials.want(f"{large.what}: lines that are no entries", skipped, 80)
    trials.want(f"{large.what}: the longest name", max(map(len, names)), MAX_NAME)
    large.want_sizes(large.log)
    large.want_printed("show", (line_of(*it) for it in table.items()))
    large.want_printed("check", [report(5, 1_600, len(table), skipped, len(torn), b"yes")])
    large.want_held("entries", (line for line in long_lines(random.Random(SEED)) if entry_of(line[:-1], 5)))
    large.want_held("damage", damaged, 3)
    # Each command has a hash of its own, and runs from before 0 as long behind it.
    # Their MTIMEs tell of moments that are far from each other, so borders may hide.
    large.want_printed("builds", [b"1\t%d\t%d\t%d\t%d\tunsure\n" % (1_600, 1_600, 2 * 1_599, 1_599 * 1_600)])
    # The last runs 2 x 1,599 ms, and the one before it 2 x 1,598 of these.
    entries = [entry_of(line[:-1], 5) for line in long_lines(random.Random(SEED))]
    ends = [(it[0], it[1][1]) for it in entries if it]
    slowest = ends[:-11:-1]
    counts_told = summed(1_600, 2 * 1_599, 1_599 * 1_600, 2 * 1_599, 2, b"800.00", 2 * 1_599, slowest[0][0])
    # In the milliseconds from t before 0 to t + 1 behind it those run that end later: the one that ends at 1,599 alone in the last.
    parts = [2 * it for it in accumulate((PARTS // (1_599 - t) for t in range(1_599)), initial=0)]
    rows = [(2 * end, b"%d.%02d" % divmod(parts[end] * 100 // PARTS, 100), name) for name, end in slowest]
    kinds = kinds_of("extension", [(2 * end, parts[end], name) for name, end in ends])
    kinds_told = ranked_kinds(b"kinds-by-time", 1, kinds, 10) + ranked_kinds(b"kinds-by-weight", 2, kinds, 10)
    large.want_printed("summary", [counts_told, listed(rows, rows), kinds_told])
    large.want_log(["repair", large.log], log_of_table(table))
    large.want_log(["record", large.log, *RECORD], chain(log_of_table(table), [RECORDED]))
    table[b"new"] = 11, 12, -13, 0x72274E7A30810C7B
    for name in names[::2]:
        table[name] = (*table[name][:2], 8, table[name][3])
    large.want_log(["restat", large.log, large.times], log_of_table(table))
    large.want_log(["recompact", large.log, large.keep], log_of_table({name: table[name] for name in names[1::2]}))


# The damaged log.


def joined_lines(version, count):
    """Each line with what `entries` prints of it, or None and the output that `damage` names. Of four lines one is an entry, one stands
    behind the half of a line, one behind a byte, and one has no fifth field."""
    for number in range(count):
        name, (start, end, mtime, _) = name_of(number), numbers_of(number)
        first = b"%d\t%d\t%d\t%s" % (start, end, mtime, name)
        last = b"cc -c %d.c" % number if version == 4 else b"%x" % number
        line = b"%s\t%s\n" % (first, last)
        if number % 4 == 0:
            yield line, line_of(name, (start, end, mtime, command_hash(last) if version == 4 else number)), None
        elif number % 4 == 1:
            yield b"7\tx\t9\t%s%s" % (name, line), None, name
        elif number % 4 == 2:
            yield b"x" + line, None, name
        else:
            yield first + b"\n", None, b"-"


def try_damaged(trials, program, room):
    for version, count in (5, 720_000), (4, 90_000):
        large = Large(trials, program, room, f"a damaged log of version {version}")
        lines_with = partial(joined_lines, version, count)
        make(large.log, chain([b"# ninja log v%d\n" % version], (line for line, _, _ in lines_with()), [b"torn"]))
        if version == 5:
            large.want_sizes(large.log)
        damage = (
            b"%d\tskipped\t%d\t%s\t%s\n" % (number, len(line) - 1, output, named_first(line[:-1]))
            for number, (line, _, output) in enumerate(lines_with(), 2)
            if output
        )
        large.want_held("damage", chain(damage, [b"%d\ttorn\t4\t-\t-\n" % (count + 2)]), 3)
        large.want_held("entries", (entry for _, entry, _ in lines_with() if entry))
        large.want_log(["repair", large.log], chain([HEADER], (entry for _, entry, _ in lines_with() if entry)))


def try_builds(trials, program, room):
    """A million builds, each of one command, and each a second behind the end of the one before: END falls from each line to the next."""
    large = Large(trials, program, room, f"a log of {ENTRIES:,} builds")
    make(large.log, chain([HEADER], (line_of(name_of(it), (-it, ENTRIES - it, (it + 1) * (ENTRIES + 1_000) * 1_000_000, it % 7)) for it in range(ENTRIES))))
    large.want_sizes(large.log)
    large.want_printed("builds", (b"%d\t1\t1\t%d\t%d\tsure\n" % (it + 1, ENTRIES, ENTRIES) for it in range(ENTRIES)))
    row, last = (ENTRIES, b"%d.00" % ENTRIES, name_of(ENTRIES - 1)), (ENTRIES - 1) % 7
    only = [bar(ENTRIES, row[2], last, ENTRIES, 1, 0), runs(ENTRIES, 1, 0), runs(ENTRIES, 0, ENTRIES)]
    large.want_printed("trace", traced(ENTRIES, only))
    large.want_printed("picture", [drawn([(0, ENTRIES, None, [row[2]])], [0])])
    large.want_printed("summary", [summed(1, ENTRIES, ENTRIES, ENTRIES, ENTRIES, b"1.00", ENTRIES, row[2]), listed([row], [row]), kind_listed(1, ENTRIES, ENTRIES)])


def wide_name(number):
    """A name whose bytes mostly take three in a picture, and six in JSON."""
    return b"\1" * 60 + b"%07d" % number


def wide_traced():
    for number in range(WIDE):
        yield bar(1, wide_name(number).replace(b"\1", b"\\u0001"), number, 1000, number + 1, 0)
        yield runs(1, WIDE, 0)
        yield runs(1, 0, 1000)


def try_wide(trials, program, room):
    """Commands that all run at one time, so that each has a bar of its own. The program writes its texts as it makes them, because beside the
    commands there is no room for either. If nobody reads on, it ends before it made most of the text."""
    large = Large(trials, program, room, f"a log of {WIDE:,} commands at one time")
    make(large.log, chain([HEADER], (line_of(wide_name(it), (0, 1000, 1_700_000_000_000_000_000 + it, it)) for it in range(WIDE))))
    pictured = drawn([(0, 1000, it, [wide_name(it)]) for it in range(WIDE)], range(WIDE))
    for word, pieces in ("trace", list(traced(1, wide_traced()))), ("picture", [pictured]):
        size, wanted = sum(map(len, pieces)), sum_of(pieces)
        # The commands take nine tenths of what it may take.
        trials.check(f"{large.what}: the text of {word} is a quarter as long as what it may take", size > SPARE * 250, f"{size} bytes")
        ended = streamed(held([program, word, large.log], SPARE))
        trials.want(f"{large.what}: {word} in the memory of its commands", ended, (0, wanted, b""))
        _, _, _, whole = left_early([program, word, large.log], size)
        status, said, got, taken = left_early([program, word, large.log], READ)
        begun = b"".join(pieces[:READ])[:READ]
        trials.want(f"{large.what}: {word} whose output is closed", (status, said, got), (1, b"nlog: cannot write\n", begun))
        trials.check(f"{large.what}: {word} whose output is closed ends early", taken < whole * 2 / 3, f"{taken:.2f} of {whole:.2f} s")


def try_hash(trials, program, room):
    """A command of zeros: by docs/FORMAT.md each group of eight leaves the value but for the factor, and the rest of three does too."""
    size, factor, word = 100_000_003, 0xC6A4A7935BD1E995, 2**64
    value = (0xDECAFBADDECAFBAD ^ size * factor % word) * pow(factor, size // 8 + 1, word) % word
    value = (value ^ value >> 47) * factor % word
    large = Large(trials, program, room, "a long command")
    make(large.log, [])
    os.truncate(large.log, size)
    large.want_printed("hash-file", [b"%x\n" % (value ^ value >> 47)])


@contextlib.contextmanager
def roomy(trials, room: str, what: str = "all of it") -> Iterator[Optional[str]]:
    """This folder, or another if this one, which may be in memory, has too little room; or None."""
    with tempfile.TemporaryDirectory() as other:
        found = [it for it in (room, other) if shutil.disk_usage(it).free > ROOM]
        if not found:
            trials.skip(what, f"there is no room for files of {ROOM:,} bytes")
        yield found[0] if found else None


def trial(trials, program, room):
    with roomy(trials, room) as folder:
        if folder is None:
            return
        for part in try_many, try_script, try_long, try_damaged, try_builds, try_wide, try_hash:
            part(trials, program, folder)
            for it in os.listdir(folder):
                os.remove(f"{folder}/{it}")
    used = [resource.getrusage(it) for it in (resource.RUSAGE_SELF, resource.RUSAGE_CHILDREN)]
    seconds = [it.ru_utime + it.ru_stime for it in used]
    print(f"large.py: {seconds[0]:.0f} s of processors here and {seconds[1]:.0f} s in the program, "
          f"{used[0].ru_maxrss // 1024} and {used[1].ru_maxrss // 1024} MB of memory")


if __name__ == "__main__":
    sys.exit(main(__file__, trial))
