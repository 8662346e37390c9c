#!/usr/bin/env python3
"""The builds of a log, by the rule of docs/BUILDS.md, in plain Python: a second opinion on the crate nl_builds.

    python3 tests/builds_model.py LOG ..

prints a line for each build: its number, how many commands and outputs there are up to its end, `written` or `found`, how many of its
outputs later builds may have taken, `sure` or `unsure`, and when it began in nanoseconds, or `-`. `builds_of` is the value for other scripts.
"""
import bisect
import collections
import sys

import log_format

MS = 10**6
SLACK = 20 * MS   # by so much the clocks of a file system and of a build may differ
AGREES = 6 * MS   # two that tell of one moment differ by no more
AT_ONCE = 1       # a command that waited for another starts so many milliseconds behind its end, or fewer
ONE_MOMENT = 10 * MS   # two that tell when a build of version 5 began differ by no more
MANIFEST = "build.ninja"

Entry = collections.namedtuple("Entry", "start end mtime name hash")
Command = collections.namedtuple("Command", "start end mtime hash outputs manifest")
Build = collections.namedtuple("Build", "commands began again taken sure")
NONE, MAYBE, UNSURE, SURE = range(4)


def read(text):
    """The version and the entries of a log, which is given as text."""
    version, lines, _ = log_format.lines_of(text.encode(errors="surrogateescape"))
    entries = filter(None, (log_format.entry_of(line, version) for line in lines))
    return version, [Entry(*numbers[:3], name.decode(errors="surrogateescape"), numbers[3]) for name, numbers in entries]


def is_intent(it):
    return it.start == it.end and it.mtime == 0


def recorded(entries):
    """The entries that are of commands: no intents, and none that stands again over its name's intent."""
    last, stood, kept = {}, {}, []
    for it in entries:
        if not is_intent(it):
            pending = it.name in last and is_intent(last[it.name])
            if not (pending and stood.get(it.name) == it):
                kept.append(it)
            stood[it.name] = it
        last[it.name] = it
    return kept


def unfinished(entries):
    """The outputs whose last entry is an intent, each where its first entry stands."""
    return [name for name, it in {it.name: it for it in entries}.items() if is_intent(it)]


def commands_of(entries):
    """Neighbours of one START, END and hash, up to where the first output comes again, or the last one. If their MTIMEs differ it tells nothing."""
    found, names = [], []
    for it in entries:
        last = found[-1] if found else None
        if last and (last.start, last.end, last.hash) == (it.start, it.end, it.hash) and it.name not in (names[0], names[-1]):
            names.append(it.name)
            found[-1] = last._replace(outputs=last.outputs + 1, mtime=last.mtime if last.mtime == it.mtime else 0, manifest=last.manifest or it.name == MANIFEST)
        else:
            names = [it.name]
            found.append(Command(it.start, it.end, it.mtime, it.hash, 1, it.name == MANIFEST))
    return found


def kind_of(version):
    """Whether MTIME is of the start; None where it isn't known."""
    return None if version == 4 else version >= 6


def lo(c):
    """Its build began then or later."""
    return c.mtime - c.end * MS if c.mtime > 0 else None


def hi(c):
    """Its build began then or before."""
    return c.mtime - c.start * MS if c.mtime > 0 else None


def least(*of):
    return min((it for it in of if it is not None), default=None)


def greatest(*of):
    return max((it for it in of if it is not None), default=None)


def ups(commands):
    """Of each command the least `hi` from it to where END next falls."""
    found = []
    for i in reversed(range(len(commands))):
        joins = found and commands[i].end <= commands[i + 1].end
        found.append(least(hi(commands[i]), found[-1] if joins else None))
    return found[::-1]


def waited(c, it):
    """Whether `c` began as that one ended."""
    return 0 <= c.start - it.end <= AT_ONCE


def waits(commands):
    """Whether each command waited for one before it in its row."""
    found, ends = [], set()
    for k, c in enumerate(commands):
        if k and c.end < commands[k - 1].end:
            ends = set()
        found.append(any(c.start - it in ends for it in range(AT_ONCE + 1)))
        ends.add(c.end)
    return found


def ties(commands):
    """Whether each command is tied: it, or one behind it in its row, waited for one before it."""
    first, row, ends = [], 0, [it.end for it in commands]
    for k, c in enumerate(commands):
        row = k if k and c.end < commands[k - 1].end else row
        j = bisect.bisect_left(ends, c.start - AT_ONCE, row, k)
        first.append(j if j < k and waited(c, commands[j]) else k)
    for k in reversed(range(len(commands) - 1)):
        if commands[k].end <= commands[k + 1].end:
            first[k] = min(first[k], first[k + 1])
    return [it < k for k, it in enumerate(first)]


class Seen:
    """A build so far."""

    def __init__(self, first, sure, past):
        self.first, self.sure, self.past, self.pieces, self.alone = first, sure, past, [], []
        self.count, self.outputs, self.hides, self.began, self.lo, self.hi, self.top, self.ended, self.last = 0, 0, False, None, None, None, None, None, None

    def told(self, late, c, up):
        if late is None or c.mtime <= 0:
            return None
        if late:
            return up
        return lo(c) if self.past is None or self.past < hi(c) + SLACK else None

    def take(self, late, c, up, tied=False, waited_for_none=False, hides=False):
        m = self.told(late, c, up)
        self.began = least(self.began, m) if late else greatest(self.began, m)
        self.lo, self.hi, self.top = greatest(self.lo, lo(c)), least(self.hi, hi(c)), greatest(self.top, hi(c))
        self.hides = self.hides or hides or c.mtime <= 0
        self.ended = c.end if self.ended is None else max(self.ended, c.end)
        if not (tied and self.pieces):
            self.pieces.append([])
        self.pieces[-1].append(c)
        if waited_for_none:
            self.alone.append(c)
        self.last, self.count, self.outputs = c, self.count + 1, self.outputs + c.outputs

    def behind(self, m):
        """By that moment another build had begun, behind the end of this one."""
        return m is not None and self.began is not None and m > self.began + SLACK and m + SLACK > self.began + self.ended * MS

    def end(self):
        return self.past if self.began is None else self.began + self.ended * MS

    def close(self):
        """Whether it began less than 10 ms behind the end of the build before it, or before that."""
        return self.past is not None and self.began is not None and self.began < self.past + ONE_MOMENT

    def doubtful(self, late, early):
        """Whether a border may hide in it, and early, where the log may have been written anew, also another build's command, or whether it is
        a part of the build before it."""
        if self.hides or early and self.close():
            return True
        if late is not False:
            return False
        return any(max(map(lo, it)) + ONE_MOMENT < self.lo for it in self.pieces) or early and any(hi(c) + ONE_MOMENT < self.lo for c in self.alone)


def mark(late, seen, c, up, tied):
    if c.end < seen.last.end or (c.start, c.end, c.hash) == (seen.last.start, seen.last.end, seen.last.hash):
        return SURE
    if seen.last.manifest:
        return UNSURE
    if late is None:
        return NONE
    m = seen.told(late, c, up)
    if seen.behind(m):
        if late and seen.behind(lo(c)):
            return SURE
        return MAYBE if tied else UNSURE
    if c.hash == seen.last.hash or late and m is not None and seen.began is not None and m > seen.began + AGREES:
        return MAYBE
    return NONE


def written(late, commands, tied, waited_for, sure=True):
    """The builds of these commands, as Ninja wrote them, and whether the border before the first is sure."""
    found = []
    for i, (c, up, is_tied, has_waited) in enumerate(zip(commands, ups(commands), tied, waited_for)):
        is_ = mark(late, found[-1], c, up, is_tied) if found else SURE if sure else UNSURE
        if is_ in (UNSURE, SURE):
            found.append(Seen(i, is_ == SURE, found[-1].end() if found else None))
        found[-1].take(late, c, up, is_tied, not has_waited, is_ == MAYBE)
    return found


def is_back(late, end, b):
    """Whether its commands tell that it began before the build before it had ended, or have no moment in common."""
    if late:
        return b.hi is not None and (b.hi + SLACK < b.lo or end is not None and b.hi + SLACK <= end)
    return end is not None and b.top is not None and b.top + SLACK <= end


def is_same(last, b):
    """Whether two builds tell of one moment, in version 5."""
    return last.lo is not None and b.lo is not None and abs(b.lo - last.lo) <= ONE_MOMENT <= last.ended * MS


def first_back(late, seen):
    """How many commands stand before the first build that is back."""
    end, last = None, None
    for it in seen:
        if is_back(late, end, it) or late is False and last is not None and is_same(last, it):
            return it.first
        last = it
        end = None if it.lo is None else it.lo + it.last.end * MS
    return None


def new_names(entries):
    """How many entries stand before the first name that comes again."""
    names = set()
    for it in entries:
        if it.name in names:
            break
        names.add(it.name)
    return len(names)


def whole_commands(commands, count):
    found = 0
    for c in commands:
        if c.outputs > count:
            break
        found, count = found + 1, count - c.outputs
    return found


def moments(late, commands):
    """When the build of each began, of commands by their moments. In version 5 the last build began at the greatest `lo`, and has those whose
    MTIME is of then or later, but for the slack; and so on with those before. The manifest parts those before it from those behind."""
    if late:
        return [hi(c) for c in commands]
    tops, top, found, began = [], None, [], None
    for c in commands:
        top = greatest(top, lo(c)) if not c.manifest else None
        tops.append(top)
    for c, top in zip(reversed(commands), reversed(tops)):
        began = top if began is None or c.mtime + SLACK < began else began
        found.append(lo(c) if c.manifest else began)
        began = began if not c.manifest else None
    return found[::-1]


def again(late, entries):
    """The entries by their moments, and the builds of their commands."""
    of = sorted(entries, key=lambda it: (it.end, it.hash))
    of.sort(key=lambda it: (it.mtime > 0, it.mtime - (it.start * MS if late else 0) if it.mtime > 0 else 0))
    commands, found = commands_of(of), []
    for i, (c, m) in enumerate(zip(commands, moments(late, commands))):
        if not found or found[-1].last.manifest or c.manifest or c.mtime > 0 and found[-1].behind(m):
            found.append(Seen(i, False, None))
        found[-1].take(True, c, m)
    return of, commands, found


def sure_builds(late, seen, new=0):
    """Each build as written, and whether its borders are sure and none can hide in it or beside it. `new` commands are of new names.

    In version 5 what hides behind END that falls counts only where the log may have been written anew.
    """
    doubt = [it.doubtful(late, it.first < new) for it in seen]
    for i, it in enumerate(seen):
        borders = it.sure and (i + 1 == len(seen) or seen[i + 1].sure)
        beside_it = any(doubt[max(0, i - 1):i + 2]) if late or it.first < new else doubt[i]
        yield Build(it.count, it.began, False, 0, late is not None and borders and not beside_it)


def builds_of(version, entries):
    """The entries that are of commands, these, and the builds, each in order."""
    late, entries = kind_of(version), recorded(entries)
    commands = commands_of(entries)
    tied, waited_for = ties(commands), waits(commands)
    seen = written(late, commands, tied, waited_for)
    back = first_back(late, seen) if late is not None else None
    cut = whole_commands(commands, new_names(entries))
    if back is None or back >= cut:
        return entries, commands, list(sure_builds(late, seen, cut))
    k = sum(it.outputs for it in commands[:cut])
    of, found, builds = again(late, entries[:k])
    later = commands[cut:]
    out, left = [], k
    for it in builds:
        left -= it.outputs
        out.append(Build(it.count, it.began, True, left, False))
    sure = bool(later) and later[0].end < commands[cut - 1].end
    return of + entries[k:], found + later, out + list(sure_builds(late, written(late, later, tied[cut:], waited_for[cut:], sure)))


def lines_of(version, entries):
    """A line for each build."""
    _, commands, found = builds_of(version, entries)
    at, outputs = 0, 0
    for it in found:
        outputs += sum(c.outputs for c in commands[at:at + it.commands])
        at += it.commands
        yield (at, outputs, "found" if it.again else "written", it.taken, it.sure, it.began)


def main():
    for path in sys.argv[1:]:
        with open(path, errors="surrogateescape", newline="\n") as it:
            version, entries = read(it.read())
        for number, (at, outputs, how, taken, sure, began) in enumerate(lines_of(version, entries), 1):
            print(number, at, outputs, how, taken, "sure" if sure else "unsure", "-" if began is None else began, sep="\t")
    return 0


if __name__ == "__main__":
    sys.exit(main())
