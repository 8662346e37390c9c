#!/usr/bin/env python3
"""What MTIME is in the log of each Ninja; whether builds border where it jumps; and what it tells of entries that a cut took.

    python3 bench/ninja_times.py [--tree FOLDER ..] [--files N] [--steps N] [--tree-steps N] [--cuts N] [--seed N] [--jobs N]
                                 [--pause SECONDS] [--room FOLDER] [--nlog PROGRAM] NINJA [NINJA ..]

NINJA is the path of a ninja of 1.11 to 1.13. With each, two projects that are made here (ninja_builds.py) are built again and again, with a
random change and a pause before each build; and so is each FOLDER, a source tree with a CMakeLists.txt. Then it prints tables:

- times: MTIME less the file's own time as the build ended, and MTIME less START and less END, as a clock, less the moment when Ninja was started;
- borders: of the places where a build begins, how many a rule finds, misses, and names falsely, in the log as it was written;
- rewritten: whether a rule tells a log that was written anew, by `ninja -t recompact` or in the order of first appearance;
- doubt: the log cut at random places, each entry that is left compared with its output's file. Lost are the outputs whose last entry the
  cut took, of which an older one is left. Found, missed, false: those that a rule names of them, doesn't name, and names beside them.
  Of the missed, those are told whose file wasn't written since the older entry, so that nothing is stale. With PROGRAM, a built nlog, the same of
  what `nlog doubt` names on the same cuts, run in the folder of the build.

The builds are made in a folder of FOLDER, or of the machine's place for such; what file system that is, is printed. Wants cc, and for the
trees cmake and a C++ compiler. A table is a page's: lines of Markdown.
"""
import argparse
import datetime
import os
import platform
import random
import stat
import subprocess
import sys
import tempfile

from ninja_builds import LOG, Project, Tree, entries_of, time_of

MS = 10**6


def version_of(ninja):
    return subprocess.run([ninja, "--version"], check=True, capture_output=True, text=True).stdout.strip()


def row(*cells):
    print(f"| {' | '.join(str(it) for it in cells)} |")


def head(*cells):
    print()
    row(*cells)
    print("|---" * len(cells) + "|")


def spread(values, unit=MS):
    """The least, the hundredth, the middle, the ninety-ninth hundredth and the greatest, in milliseconds."""
    if not values:
        return "-"
    values = sorted(values)
    return " / ".join(f"{values[min(len(values) - 1, int(share * len(values)))] / unit:,.1f}" for share in (0, 0.01, 0.5, 0.99, 1))


# ---- What MTIME is ----


def measure_times(all_builds):
    head("Ninja", "Edges", "Entries", "as the file's", "before it", "behind it", "file's time less MTIME, of the last two (ms)")
    for version, many in all_builds.items():
        seen = {}
        for builds in many:
            for it, _, file_time in entries_of_runs(builds):
                seen.setdefault(builds.kind(it.name), []).append((file_time or 0) - it.mtime)
        for kind in sorted(seen):
            apart = seen[kind]
            row(version, kind, len(apart), sum(it == 0 for it in apart), sum(it > 0 for it in apart), sum(it < 0 for it in apart), spread([it for it in apart if it]))
    head("Ninja", "Entries", "MTIME less START, less the moment when Ninja was started (ms)", "MTIME less END, less it (ms)")
    for version, many in all_builds.items():
        for what, is_meant in (("all", lambda kind: True), ("compiled, ar, link", lambda kind: kind in ("compiled", "ar", "link"))):
            found = [(it, started) for builds in many for it, started, _ in entries_of_runs(builds, first=True) if is_meant(builds.kind(it.name))]
            row(version, f"{len(found)} ({what})", *(spread([it.mtime - getattr(it, at) * MS - started for it, started in found]) for at in ("start", "end")))


def measure_neighbours(all_builds):
    head("Ninja", "From a line to the next", "pairs", "MTIME less END grows by (ms)", "MTIME less START grows by (ms)")
    for version, many in all_builds.items():
        within, across = [], []
        for builds in many:
            entries, borders = [it for it in entries_of(builds.log()) if it.to > builds.runs[0].at], set(builds.borders())
            for last, now in zip(entries, entries[1:]):
                (across if now.to in borders else within).append((last, now))
        for what, pairs in (("within a build", within), ("to another build", across)):
            grows = [[now.mtime - getattr(now, at) * MS - last.mtime + getattr(last, at) * MS for last, now in pairs] for at in ("end", "start")]
            row(version, what, len(pairs), *map(spread, grows))


def entries_of_runs(builds, first=False):
    """Each entry of a run, the run's start, and the file's time at its end. `first`: none behind a manifest that was made again."""
    entries = entries_of(builds.log())
    for ran in builds.runs:
        for it in entries:
            if ran.at < it.to <= ran.to:
                yield it, ran.started, ran.times[it.name]
                if first and it.name == "build.ninja":
                    break


# ---- Where builds border ----


def end_falls(entries, slack):
    """Where END is less than that of the line before."""
    return {now.to for last, now in zip(entries, entries[1:]) if now.end < last.end}


def end_differs(entries, slack):
    """Where END falls, or MTIME less END isn't that of the line before, to the slack."""
    apart = {now.to for last, now in zip(entries, entries[1:]) if abs(now.mtime - now.end * MS - last.mtime + last.end * MS) > slack}
    return apart | end_falls(entries, slack)


def start_differs(entries, slack):
    """Where END falls, or MTIME less START isn't that of the line before, to the slack."""
    apart = {now.to for last, now in zip(entries, entries[1:]) if abs(now.mtime - now.start * MS - last.mtime + last.start * MS) > slack}
    return apart | end_falls(entries, slack)


def rises(at):
    """Where END falls, or MTIME less END (or START) has risen by as much as the build so far has lasted, and by more than the slack.

    A build begins once the one before has ended, so its moments are at least as much later. A build's moment is the greatest MTIME less END,
    or the least MTIME less START, because a command writes its output between the two. A time stamp of before the build says nothing.
    """

    def rule(entries, slack):
        found, base, least, last = set(), None, None, None
        for it in entries:
            key = told(it, at, least, slack)
            if last and (it.end < last.end or key is not None and base is not None and key - base > max(slack, last.end * MS - slack)):
                found.add(it.to)
                least = least if base is None else base + last.end * MS
                base, key = None, told(it, at, least, slack)
            if key is not None:
                base = key if base is None else (max if at == "end" else min)(base, key)
            last = it
        return found

    return rule


def told(entry, at, least, slack):
    """What an entry tells of the moment when its build began, where its time stamp isn't of before that."""
    if entry.mtime <= 0 or least is not None and entry.mtime < least - slack:
        return None
    return entry.mtime - getattr(entry, at) * MS


RULES = [("END falls", end_falls, [0]), ("or MTIME less END differs", end_differs, [10, 100, 1000]),
         ("or MTIME less START differs", start_differs, [10, 100, 1000]),
         ("or MTIME less END rises by what the build lasted", rises("end"), [10, 20, 100]),
         ("or MTIME less START rises by what the build lasted", rises("start"), [10, 20, 100])]


def measure_borders(all_builds):
    head("Ninja", "A border is where", "slack (ms)", "borders", "found", "missed", "of these behind the manifest", "false")
    for version, many in all_builds.items():
        for what, rule, slacks in RULES:
            for slack in slacks:
                total = [0] * 5
                for builds in many:
                    entries = [it for it in entries_of(builds.log()) if it.to > builds.runs[0].at]
                    real, named = set(builds.borders()[1:]), rule(entries, slack * MS)
                    behind = {now.to for last, now in zip(entries, entries[1:]) if last.name == "build.ninja"}
                    counts = len(real), len(real & named), len(real - named), len((real - named) & behind), len(named - real)
                    total = [a + b for a, b in zip(total, counts)]
                row(version, what, slack or "-", *total)


# ---- Logs that were written anew ----


def falls_back(entries, at, which, slack):
    """How many builds by the rule there are, and how many of them must have begun before the one that they follow, by the least or the greatest of the
    moments that their entries tell."""
    borders, bases = rises(at)(entries, slack), [None]
    for it in entries:
        if it.to in borders:
            bases.append(None)
        key = told(it, at, None, slack)
        if key is not None:
            bases[-1] = key if bases[-1] is None else which(bases[-1], key)
    return len(bases), sum(None not in it and it[1] < it[0] - slack for it in zip(bases, bases[1:]))


def measure_rewritten(all_builds, slack=20):
    head("Ninja", "Log", "lines", "END falls", "builds by MTIME less END, of them before the one before", "by MTIME less START, of them before it", "the latest by START before that of it")
    for version, many in all_builds.items():
        for builds in many:
            text = builds.log()
            last = {it.name: it for it in entries_of(text)}
            recompacted = subprocess.run([builds.ninja, "-t", "recompact"], cwd=builds.folder, capture_output=True)
            anew = entries_of(builds.log())
            with open(builds.path(LOG), "wb") as it:
                it.write(text)
            if recompacted.returncode:
                sys.exit(f"ninja_times.py: ninja -t recompact: {recompacted.stderr.decode()}")
            for what, entries in (("as it was written", entries_of(text)), ("recompacted by Ninja", anew), ("in the order of first appearance", list(last.values()))):
                told_by = [" / ".join(map(str, falls_back(entries, at, which, slack * MS))) for at, which in (("end", max), ("start", min), ("start", max))]
                row(version, what, len(entries), len(end_falls(entries, 0)), *told_by)


# ---- Doubt ----


def differs(entry, file_time, slack):
    return file_time != entry.mtime


def newer(entry, file_time, slack):
    return file_time > entry.mtime


def newer_than_its_end(entry, file_time, slack):
    return file_time > entry.mtime + (entry.end - entry.start) * MS + slack


DOUBTS = [("isn't MTIME", differs, [0]), ("is newer than MTIME", newer, [0]),
          ("is newer than MTIME and the command's length", newer_than_its_end, [0, 2, 5, 10, 20, 100])]


def look(builds):
    """What can be told of each output's file: its time, or why none is."""
    found = {}
    for it in entries_of(builds.log()):
        if it.name not in found:
            try:
                file = os.stat(builds.path(it.name))
                found[it.name] = "a directory" if stat.S_ISDIR(file.st_mode) else file.st_mtime_ns
            except OSError:
                found[it.name] = "missing"
    return found


def measure_doubt(all_builds, cuts, seed):
    head("Ninja", "Named is an output whose file", "slack (ms)", "lost", "found", "missed", "of these not written since", "false", "false in the whole log")
    kinds = {}
    for version, many in all_builds.items():
        for what, rule, slacks in DOUBTS:
            for slack in slacks:
                total = [0] * 6
                for builds in many:
                    total = [a + b for a, b in zip(total, doubt(builds, rule, slack * MS, random.Random(seed), cuts, kinds.setdefault((version, what, slack), {})))]
                row(version, what, slack or "-", *total)
    head("Ninja", "Rule", "slack (ms)", "named falsely in the whole log, by edge")
    for (version, what, slack), found in kinds.items():
        if found:
            row(version, what, slack or "-", ", ".join(f"{kind}: {count}" for kind, count in sorted(found.items())))


def measure_program(all_builds, cuts, seed, program):
    head("Ninja", "lost", "found by `nlog doubt`", "missed", "of these not written since", "false", "false in the whole log", "other words")
    for version, many in all_builds.items():
        total, kinds, words = [0] * 6, {}, {}
        for builds in many:
            total = [a + b for a, b in zip(total, doubt(builds, None, 0, random.Random(seed), cuts, kinds, program, words))]
        row(version, *total, ", ".join(f"{word}: {count}" for word, count in sorted(words.items())) or "-")
        if kinds:
            print(f"<!-- {version}: named falsely in the whole log, by edge: {', '.join(f'{kind}: {count}' for kind, count in sorted(kinds.items()))} -->")


def told_by(program, builds, text, words):
    """The outputs that `nlog doubt` names as newer in a log of these bytes, run where the build is. Its other words are counted."""
    path = builds.path("cut.log")
    with open(path, "wb") as it:
        it.write(text)
    ended = subprocess.run([program, "doubt", "cut.log"], cwd=builds.folder, capture_output=True)
    os.remove(path)
    lines = [os.fsdecode(it).split("\t") for it in ended.stdout.split(b"\n")[:-1]]
    if ended.returncode != (3 if lines else 0) or ended.stderr:
        sys.exit(f"ninja_times.py: nlog doubt ended with {ended.returncode}: {ended.stderr.decode()}")
    for word, _ in lines:
        if word != "newer":
            words[word] = words.get(word, 0) + 1
    return {name for word, name in lines if word == "newer"}


def doubt(builds, rule, slack, random_, cuts, kinds, program=None, words=None):
    """Lost, found, missed, missed that weren't written since, false, and false where nothing is cut: by a rule, or by what the program prints."""
    text = builds.log()
    entries, files, lost = entries_of(text), look(builds), [0] * 6
    at = text.find(b"\n") + 1
    ends = {it.name: it for it in entries}

    def named(last, cut):
        if program:
            return told_by(program, builds, text[:cut], words)
        return {name for name, it in last.items() if isinstance(files[name], int) and it.mtime and rule(it, files[name], slack)}

    for _ in range(cuts):
        cut = random_.randrange(at, entries[-1].to)
        last = {it.name: it for it in entries if it.to <= cut}
        taken = {name for name, it in last.items() if ends[name] is not it and isinstance(files[name], int)}
        it = named(last, cut)
        wrote = {name for name in taken - it if was_written(builds, name, last[name])}
        lost = [a + b for a, b in zip(lost, (len(taken), len(taken & it), len(taken - it), len(taken - it - wrote), len(it - taken), 0))]
    whole = named(ends, len(text))
    for name in whole:
        kinds[builds.kind(name)] = kinds.get(builds.kind(name), 0) + 1
    lost[5] = len(whole)
    return lost


def was_written(builds, name, entry):
    """Whether the file has another time than it had as the run that wrote this entry ended."""
    for ran in builds.runs:
        if ran.at < entry.to <= ran.to:
            return ran.times[name] != time_of(builds.path(name))
    return True


def make(ninja, given, room):
    """The projects that this Ninja has built, some time."""
    made = []
    for i in range(2):
        folder = f"{room}/made{i}"
        os.makedirs(folder)
        made.append((Project(ninja, folder, given.seed + i, given.jobs, given.pause, given.files), given.steps))
        made[-1][0].build()
    for i, tree in enumerate(given.tree):
        folder, options = f"{room}/tree{i}", ["-DBUILD_TESTING=OFF"]
        os.makedirs(folder)
        made.append((Tree(ninja, folder, given.seed, given.jobs, given.pause, tree, options), given.tree_steps))
    for builds, steps in made:
        for _ in range(steps):
            entries = entries_of(builds.log())
            # Ninja would soon write it anew.
            if len(entries) > 0.8 * max(100, 3 * len({it.name for it in entries})):
                break
            builds.step()
        print(f"<!-- {version_of(ninja)}: {os.path.basename(builds.folder)}: {len(builds.runs)} runs that added lines, {len(entries_of(builds.log()))} lines, "
              f"{len({it.name for it in entries_of(builds.log())})} outputs, written anew by Ninja {builds.rewritten} times -->", flush=True)
    return [it for it, _ in made if it.runs]


def main():
    words = argparse.ArgumentParser(description=__doc__, formatter_class=argparse.RawDescriptionHelpFormatter)
    words.add_argument("--tree", action="append", default=[], metavar="FOLDER")
    for name, default in (("files", 500), ("steps", 120), ("tree-steps", 8), ("cuts", 100), ("seed", 1), ("jobs", os.cpu_count() or 2)):
        words.add_argument(f"--{name}", type=int, default=default, metavar="N")
    words.add_argument("--pause", type=float, default=0.5, metavar="SECONDS")
    words.add_argument("--room", metavar="FOLDER")
    words.add_argument("--nlog", metavar="PROGRAM")
    words.add_argument("NINJA", nargs="+")
    given = words.parse_args()
    given.tree = [os.path.abspath(it) for it in given.tree]
    if given.room:
        os.makedirs(given.room, exist_ok=True)
    with tempfile.TemporaryDirectory(prefix="ninja-times-", dir=given.room) as room:
        kind = subprocess.run(["stat", "-f", "-c", "%T", room], capture_output=True, text=True).stdout.strip()
        print(f"<!-- {datetime.date.today()}, Linux {platform.release()}, {kind}, {given.jobs} commands at a time, seed {given.seed} -->")
        all_builds = {}
        for ninja in map(os.path.abspath, given.NINJA):
            version = version_of(ninja)
            os.makedirs(f"{room}/{version}")
            all_builds[version] = make(ninja, given, f"{room}/{version}")
        measure_times(all_builds)
        measure_neighbours(all_builds)
        measure_borders(all_builds)
        measure_rewritten(all_builds)
        measure_doubt(all_builds, given.cuts, given.seed)
        if given.nlog:
            measure_program(all_builds, given.cuts, given.seed, os.path.abspath(given.nlog))
    return 0


if __name__ == "__main__":
    sys.exit(main())
