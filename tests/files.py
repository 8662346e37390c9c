#!/usr/bin/env python3
"""The words that look at the files of outputs, against a model of its own: `doubt`, `prune`, `retime` and `mend`.

    python3 tests/files.py PROGRAM [CASES [SEED]]

The model is docs/CLI.md written as a program: what a file's kind and its time are to an entry of each version. Each case is a log of versions 4
to 7, with files, folders and names without a file, whose times are at each border of the rules and beside it. The seed is fixed.

So that the model is a rival and no echo, each fault of FAULTS is put into it in turn: with each of them some case has to come out otherwise than
the program has it.
"""
import os
import random
import shutil
import sys

from log_format import HEADER, WORD, Log, as_version, line_of
from log_lines import distrusted_of
from trials import main_by_chance, read, run, short, write

CASES, SEED = 1200, 20240229
NAMES = [b"a", b"b", b"c", b"d", b"two words", b"folder/c", b"folder", b"a/below a file", b"gone", b"gone/too", b"n" * 256, b"no UTF-8 \xff"]
MILLI = 1_000_000
FAULTS = {
    "doubt": ["the same time is newer", "each log is of version 5", "each log is of version 7", "an entry without a time is compared", "a file of 1970 has its own time",
              "a folder is a file", "what can't be looked at is missing", "what is missing is passed over", "the first entry counts",
              "a build began at MTIME less START", "builds may overlap", "the bound is exact", "superseded lines tell nothing", "lengths tell nothing", "any difference of lengths tells",
              "a fifth is no matter", "7 ms are near", "near moments are earlier", "each moment is sure", "no moment is sure", "a short command tells nothing", "lengths are of 5 ms",
              "no file is late", "9 ms are late", "20 ms are no matter", "a quarter is no matter", "no file is early",
              "a file that isn't behind MTIME is judged", "there is no tick", "no change time counts", "change times always count", "one copy is a copied tree",
              "change times count in each version"],
    "prune": ["a target without a file goes", "a file that is no target goes", "a folder is no file", "what can't be looked at goes", "what is missing stays",
              "any folder will do", "half may not go"],
    "retime": ["a file of 1970 has its own time", "a folder is a file", "what is missing is of 0", "only later times are taken", "an intent has a time"],
    "mend": ["damage tells nothing", "what is damaged is newer", "what is missing is told of", "an intent is told of", "what is unsure is passed over", "what is unsure is taken",
             "--all is passed over", "--dry-run is passed over", "one name is taken", "what is taken is dropped", "the moment is START", "MTIME stands", "the hash stands",
             "a whole log is written anew", "damage alone is left", "no file has to be here"],
}


def took(entry):
    """The milliseconds that a command ran: none if END is before START, as a clock that was put back leaves it."""
    start, end = entry[:2]
    return max(0, end - start)


def less(entry, at):
    """MTIME less START, where `at` is 0, or less END, where it is 1, in whole milliseconds."""
    return entry[2] // MILLI - entry[at]


def spread(lengths):
    return max(lengths) - min(lengths)


def tick_of(lines, fault):
    """By how much a time may be early: a second if the file system counts whole ones, so that each MTIME is one."""
    return 1000 if fault != "there is no tick" and all(it[2] % (1000 * MILLI) == 0 for it in lines) else 0


def build_of(entry, lines, fault):
    """When the build of an entry began, by all lines of its log."""
    own, lines = less(entry, 0), [it for it in lines if it[2] > 0]
    if fault == "a build began at MTIME less START":
        return own
    bound = max(less(it, 1) for it in lines if it[2] // MILLI <= entry[2] // MILLI or fault == "builds may overlap")
    bound -= 0 if fault == "the bound is exact" else 5 + tick_of(lines, fault)
    lengths = [took(it) for it in lines if abs(less(it, 0) - own) <= (7 if fault == "7 ms are near" else 8)]
    by = max(0 if fault == "any difference of lengths tells" else 12, 0 if fault == "a fifth is no matter" else min(lengths) // 5)
    if spread(lengths) > by and fault != "lengths tell nothing":
        bound = own - 8 if fault == "near moments are earlier" else max(bound, own - 8)
    return min([own, *(less(it, 0) for it in lines if less(it, 0) >= bound)])


def is_sure(moment, lines, fault):
    """Whether a build surely began then: a command that took no time did, or two of different lengths."""
    if fault in ("each moment is sure", "no moment is sure"):
        return fault == "each moment is sure"
    lengths = [took(it) for it in lines if it[2] > 0 and 0 <= less(it, 0) - moment <= (5 if fault == "lengths are of 5 ms" else 6)]
    return min(lengths) <= 12 and fault != "a short command tells nothing" or spread(lengths) > 12


def why_behind(entry, lines, time, last, fault):
    """What a file tells in a log of version 6 or 7, by its time and the last one that counts, which is behind MTIME."""
    moment, tick = build_of(entry, lines, fault), tick_of([it for it in lines if it[2] > 0], fault)
    end = moment + entry[1]
    if last // MILLI >= end + {"no file is late": 0, "9 ms are late": 9}.get(fault, 8) + tick:
        return b"newer"
    early = max(0 if fault == "20 ms are no matter" else 20, 0 if fault == "a quarter is no matter" else took(entry) // 4) + tick
    if time > entry[2] and last // MILLI + early < end and not is_sure(moment, lines, fault) and fault != "no file is early":
        return b"unsure"
    return b""


def time_of(kind, time, fault):
    """A file's time as Ninja has it, to whom 0 is none: each of the first second of 1970 is 1."""
    return time if time >= 10**9 or fault == "a file of 1970 has its own time" else 1


def are_copied(files, fault):
    """Whether more than half of these files were changed more than a second behind their times: so is a tree that was copied."""
    if fault in ("change times always count", "no change time counts"):
        return fault == "no change time counts"
    moved = sum(changed > time_of(kind, time, fault) + 1000 * MILLI for kind, time, changed in files)
    return moved > len(files) // 2 if fault != "one copy is a copied tree" else moved > 0


def doubt_of(table, version, files, targets, lines, fault=None):
    """What `doubt` prints, by the last entry of each output and by all lines."""
    lines = list(table.values()) if fault == "superseded lines tell nothing" else lines
    is_copied = are_copied([files[name] for name in table if files[name][0] == "file"], fault)
    for name, entry in table.items():
        kind, time, changed = files[name]
        if kind == "folder" and fault == "a folder is a file":
            kind = "file"
        if kind == "unknown" and fault == "what can't be looked at is missing":
            kind = "missing"
        if kind != "file":
            if (kind, fault) != ("missing", "what is missing is passed over"):
                yield b"%s\t%s\n" % ({"folder": b"directory"}.get(kind, kind.encode()), name)
            continue
        if entry[2] == 0 and fault != "an entry without a time is compared":
            yield b"no-time\t%s\n" % name
            continue
        time = time_of(kind, time, fault)
        is_start = version > 5 and fault != "each log is of version 5" or fault == "each log is of version 7"
        last = max(time, changed) if (is_start or fault == "change times count in each version") and not is_copied else time
        if last <= entry[2] - (fault == "the same time is newer") and fault != "a file that isn't behind MTIME is judged":
            continue
        why = why_behind(entry, lines, time, last, fault) if is_start and entry[2] > 0 else b"newer" if last > entry[2] - (fault == "the same time is newer") else b""
        if why:
            yield b"%s\t%s\n" % (why, name)


ELSEWHERE = b"nlog: most outputs of LOG aren't here\nnlog: run it in the folder of the build, or name that to mend by -C\n"


def is_elsewhere(table, kept, fault):
    """Whether `prune` refuses to keep these lines alone: more outputs would go than stay."""
    return fault != "any folder will do" and len(table) - len(kept) > len(kept) - (fault == "half may not go")


def prune_of(table, version, files, targets, lines, fault=None):
    """What `prune` keeps: each target, and whatever is there."""
    for name, entry in table.items():
        kind = files[name][0]
        is_there = {"folder": fault != "a folder is no file", "unknown": fault != "what can't be looked at goes", "missing": fault == "what is missing stays"}.get(kind, True)
        if fault == "a file that is no target goes":
            is_there = False
        if is_there or name in targets and fault != "a target without a file goes":
            yield line_of(name, entry)


def retime_of(table, version, files, targets, lines, fault=None):
    """What `retime` leaves: of each file its time, but not over an intent, because a command would pass for it."""
    for name, (start, end, mtime, command) in table.items():
        kind, time = files[name][:2]
        is_taken = kind == "file" or kind == "folder" and fault == "a folder is a file"
        is_taken = is_taken and (start != end or mtime != 0 or fault == "an intent has a time")
        if kind == "missing" and fault == "what is missing is of 0":
            is_taken, time = True, 0
            mtime = 0
        elif is_taken and (fault != "only later times are taken" or time > mtime):
            mtime = time_of(kind, time, fault)
        yield line_of(name, (start, end, mtime, command))


def reasons_of(table, version, files, lines, damaged, fault):
    """Which outputs `mend` tells of, and why. No command passes for an intent, so a file that it is about tells nothing."""
    doubts = dict(reversed(it[:-1].split(b"\t", 1)) for it in doubt_of(table, version, files, (), lines))
    for name, (start, end, mtime, _) in table.items():
        why = doubts.get(name)
        if name in damaged and fault != "damage tells nothing":
            why = b"newer" if fault == "what is damaged is newer" else b"damaged"
        if (start, mtime) == (end, 0) and fault != "an intent is told of" or why == b"missing" and fault != "what is missing is told of":
            continue
        if why not in (None, b"damaged", b"newer"):
            why = None if fault == "what is unsure is passed over" else b"unsure"
        if why:
            yield name, why


def mend_of(log, text, version, files, lines, damaged, options, fault=None):
    """The status of `mend`, what it prints, and the log that it leaves."""
    table = log.table
    if table and all(files[name][0] == "missing" for name in table) and fault != "no file has to be here":
        return 1, b"", text
    told = dict(reasons_of(table, version, files, lines, damaged, fault))
    has_all = "--all" in options and fault != "--all is passed over" or fault == "what is unsure is taken"
    taken = [name for name, why in told.items() if why != b"unsure" or has_all][: 1 if fault == "one name is taken" else None]
    is_due = taken or (log.torn or log.skipped) and fault != "damage alone is left" or fault == "a whole log is written anew"
    left = text
    if is_due and ("--dry-run" not in options or fault == "--dry-run is passed over"):
        after = dict(table)
        for name in taken:
            start, end, mtime, number = table[name]
            moment = start if fault == "the moment is START" else end
            after[name] = moment, moment, mtime if fault == "MTIME stands" else 0, number if fault == "the hash stands" else WORD - number
            if fault == "what is taken is dropped":
                del after[name]
        left = as_version(HEADER + b"".join(line_of(*it) for it in after.items()), max(version, 5))
    return 3 if told else 0, b"".join(b"%s\t%s\n" % (why, name) for name, why in told.items()), left


MODELS = {"doubt": doubt_of, "prune": prune_of, "retime": retime_of}


def moments_of(chance, began):
    """The START, END and MTIME of some lines: those of two builds, where MTIME is START's moment, the file's own time, or another one."""
    lines, is_coarse = [], chance.random() < 0.1
    for _ in range(chance.randrange(1, 3)):
        lengths = chance.choice([[0, 5, 12, 13], [60, 72, 73], [13, 14, 25, 26], [1000, 1012, 1013, 1200, 1201]]) * 6
        for _ in range(chance.randrange(1, 9)):
            start = chance.choice([0, 0, 3, 100, 1000])
            end = start + chance.choice([*lengths, 0, 5, 12, 13, 14, 25, 26, 60, 72, 73, 75, 400, 1000, 1012, 1013, 1200, 1201, -20])
            tick = chance.choice([0, 0, 1, 5 * MILLI, 6 * MILLI, 7 * MILLI, 8 * MILLI, 9 * MILLI, *[chance.randrange(20 * MILLI)] * 4])
            at = chance.choice([start, start, start, end, (start + end) // 2])
            mtime = began + MILLI * at + chance.choice([-1, 1]) * tick
            lines.append((start, end, mtime // 10**9 * 10**9 if is_coarse else mtime))
        began += MILLI * chance.choice([0, 70, 1100, 2000, 60_000])
    return lines


def times_by(entry, lines):
    """A file's times at the borders of the rules, and beside them."""
    start, end, mtime = entry[:3]
    times = [mtime, 0, mtime + 10**12]
    if mtime > 0:
        for moment in {build_of(entry, lines, None), less(entry, 0)}:
            late = moment + end
            borders = [late, late + 8, late + 9, late - 20, late - took(entry) // 4, (mtime // MILLI + late) // 2]
            times += [MILLI * (it + tick) for it in borders for tick in {0, tick_of(lines, None)}]
    return times


def made(path, kind, time):
    """Makes a file or a folder of a time, None for now, and gives its time and the time of its last change."""
    if kind == "file":
        write(path, b"")
    if time is not None:
        os.utime(path, ns=(time, time))
    stat = os.stat(path)
    return stat.st_mtime_ns, stat.st_ctime_ns


KINDS = {b"folder": "folder", b"n" * 256: "unknown", b"no UTF-8 \xff": "unknown", b"gone": "missing", b"gone/too": "missing", b"a/below a file": "missing"}


def a_case(chance, room):
    """A log, its version, its outputs' files by kind and times, which are made in a room of their own, some targets, and the log's entries.

    A file has a time of its own, or that of its writing, which is now, as its change time always is. Then the log is of now too.
    """
    version, entries = chance.choice([4, 5, 6, 6, 7, 7]), []
    shutil.rmtree(room, ignore_errors=True)
    os.makedirs(f"{room}/folder")
    is_now = chance.random() < 0.3
    files = {name: (KINDS.get(name, "file"), 0, 0) for name in NAMES}
    if chance.random() < 0.1:
        # A name below one that isn't there either, in place of a file.
        files[b"a"] = "missing", 0, 0
    began = chance.choice([5_001_000_000, 1_700_000_000_123_456_789])
    if is_now:
        for name, (kind, *_) in files.items():
            if kind == "file":
                files[name] = kind, *made(os.path.join(os.fsencode(room), name), kind, chance.choice([None, None, None, 10**18]))
        began = files[b"b"][2] - MILLI * (chance.choice([0, 0, 3, 100]) + chance.choice([0, 5, 13, 60, 73, 1000]) + chance.choice([6, 7, 8, 9, 10, 40]))
    last = {}
    lines = []
    for start, end, mtime in moments_of(chance, began):
        name = chance.choice(NAMES)
        mtime = chance.choice([0, 1, -5 * 10**9]) if chance.random() < 0.06 else mtime
        entries.append((start, end, mtime, chance.randrange(1, 99)))
        last[name] = entries[-1]
        line = line_of(name, entries[-1])
        lines.append(line.rsplit(b"\t", 1)[0] + b"\tcc\n" if version == 4 else line)
    text = b"# ninja log v4\n" + b"".join(lines) if version == 4 else as_version(HEADER + b"".join(lines), version)
    for name, (kind, *_) in files.items():
        time = max(0, chance.choice(times_by(last[name], entries) if name in last else [9]) + chance.choice([-1, 0, 1]))
        path = os.path.join(os.fsencode(room), name)
        if name == b"no UTF-8 \xff":
            write(path, b"")
        if kind == "folder" or kind == "file" and not is_now:
            files[name] = kind, *made(path, kind, time)
    return text, version, files, [it for it in NAMES[:-2] if chance.random() < 0.3] or [b"other"], entries


def harmed(text, version, table, lines, chance):
    """A log with an intent behind its lines, or damage, or both, and all its entries: a line is torn, or two stand in one."""
    name = chance.choice([*table])
    if chance.random() < 0.3:
        moment = chance.randrange(9)
        lines = [*lines, (moment, moment, 0, 7)]
        text += b"%d\t%d\t0\t%s\t7\n" % (moment, moment, name)
    if chance.random() < 0.6:
        line = line_of(chance.choice([*table]), (1, 2, 3, 4))
        is_joined = version > 4 and chance.random() < 0.5
        text += b"5\t6\t7" + line if is_joined else line[: chance.randrange(1, len(line))]
    return text, lines


class Rivals:
    """Compares the words with the models, and keeps which faults no case has seen."""

    def __init__(self, trials, program, room):
        self.trials, self.program, self.room = trials, program, room
        self.unseen = {(word, fault) for word, faults in FAULTS.items() for fault in faults}

    def case(self, what, chance):
        text, version, files, targets, lines = a_case(chance, f"{self.room}/files")
        seen = as_version(text, version) if version > 5 else text
        table = Log(seen).table
        first = {}
        for line in seen.split(b"\n")[1:-1]:
            first.setdefault(line.split(b"\t")[3], line)
        write(f"{self.room}/targets", b"".join(it + b": cc\n" for it in targets))
        for word, model in MODELS.items():
            write(f"{self.room}/log", text)
            words = {"doubt": ["doubt", "../log"], "prune": ["prune", "../log", "../targets"], "retime": ["retime", "../log"]}[word]
            words += ["--log-version", "auto"] if word != "doubt" else []
            ended = run([self.program, *words], cwd=f"{self.room}/files")

            def wanted(fault=None, model=model, word=word):
                by = Log(HEADER + b"".join(it + b"\n" for it in first.values())).table if fault == "the first entry counts" and version > 4 else table
                kept = list(model(by, version, files, targets, lines, fault))
                told = b"".join(kept)
                if word == "doubt":
                    return 3 if told else 0, told, b""
                if word == "prune" and is_elsewhere(by, kept, fault):
                    return 1, b"", ELSEWHERE, text
                return 0, b"", b"", as_version(HEADER + told, version) if version > 5 else HEADER + told

            got = ended if word == "doubt" else (*ended, read(f"{self.room}/log"))
            self.trials.check(f"{what}, {' '.join(words)} of {short(text)} with {short(files)}", got == wanted(), f"{short(got)} in place of {short(wanted())}")
            self.unseen -= {(word, fault) for fault in FAULTS[word] if wanted(fault) != got}
        self.mend(what, text, version, table, files, lines, random.Random(f"{SEED} {what}"))

    def mend(self, what, text, version, table, files, lines, chance):
        text, lines = harmed(text, version, table, lines, chance)
        seen = as_version(text, version) if version > 5 else text
        log, damaged = Log(seen), {it.split(b"\t")[3] for it in distrusted_of(seen).splitlines()}
        options = [it for it in ("--all", "--dry-run") if chance.random() < 0.3]
        write(f"{self.room}/log", text)
        ended = run([self.program, "mend", "../log", *options], cwd=f"{self.room}/files")
        got = ended[0], ended[1], read(f"{self.room}/log")

        def wanted(fault=None):
            return mend_of(log, text, version, files, lines, damaged, options, fault)

        self.trials.check(f"{what}, mend {' '.join(options)} of {short(text)} with {short(files)}", got == wanted(), f"{short(got)} in place of {short(wanted())}")
        self.unseen -= {("mend", fault) for fault in FAULTS["mend"] if wanted(fault) != got}


def trial(trials, program, room, count, chance):
    rivals = Rivals(trials, program, room)
    for number in range(count):
        rivals.case(f"case {number}", chance)
    # What a case shows depends on when its files changed too, so more are tried where a fault wasn't seen.
    while CASES <= count and rivals.unseen and number < 4 * count:
        number += 1
        rivals.case(f"case {number}", chance)
    for word, faults in FAULTS.items():
        for fault in faults if count >= CASES else []:
            trials.check(f"{word}, with the fault that {fault}, comes out otherwise", (word, fault) not in rivals.unseen)


if __name__ == "__main__":
    sys.exit(main_by_chance(__file__, CASES, SEED, trial))
