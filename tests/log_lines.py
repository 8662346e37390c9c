"""What `entries`, `damage`, `builds`, `summary`, `compare`, `trace` and `picture` print, and what a graph says, read from docs/CLI.md and docs/FORMAT.md; which lines are entries is from `log_format`, and where builds border from `builds_model`."""
import bisect
import collections
import itertools
import json
import os
import re

import builds_model as model
from log_format import MAX_LINE, entry_of, line_of, lines_of

# A millisecond has so many parts, which each number up to 22 divides.
PARTS = 232_792_560
# A command of a build. A build is its commands, how many outputs later builds may have taken if it was found again, and whether it is sure.
Job = collections.namedtuple("Job", "start end hash outputs")
Build = collections.namedtuple("Build", "jobs taken sure")


def named_last(line, version):
    """The output that the last five fields of a line name, the first of them from some digit on, or `-`."""
    fields = line.split(b"\t")
    if len(fields) < 5 or len(line) > MAX_LINE:
        return b"-"
    first, *others = fields[-5:]
    for at, byte in enumerate(first):
        entry = entry_of(b"\t".join([first[at:], *others]), version) if byte in b"0123456789" else None
        if entry:
            return entry[0]
    return b"-"


def named_first(line):
    """The output that plain Ninja takes a line for an entry of, what stands between its third tab and its fourth, or `-`."""
    fields = line.split(b"\t")
    return fields[3] if len(line) <= MAX_LINE and len(fields) >= 5 and fields[3] else b"-"


def damage_line(number, what, line, version):
    return b"%d\t%s\t%d\t%s\t%s\n" % (number, what, len(line), named_last(line, version), named_first(line))


def damage_of(text):
    """What `damage` prints of a log."""
    version, lines, rest = lines_of(text)
    told = []
    for number, line in enumerate(lines, 2):
        if len(line) > MAX_LINE:
            told.append(damage_line(number, b"long", line, version))
        elif not entry_of(line, version):
            told.append(damage_line(number, b"skipped", line, version))
    if rest:
        told.append(damage_line(text.count(b"\n") + 1, b"torn", rest, version))
    return b"".join(told)


def plain_of(line):
    """The name and the hash that plain Ninja takes a line for an entry of, or None (docs/FORMAT.md, "What plain Ninja reads")."""
    fields = line[len(line) // 262_144 * 262_144 :].split(b"\t", 4)
    if len(fields) < 5:
        return None
    return fields[3], int(re.match(rb"[ \n\r\f\v]*\+?(?:0[xX])?([0-9a-fA-F]*)", fields[4])[1] or b"0", 16)


def distrusted_of(text):
    """The entries of the outputs that can't be trusted, in the order in which the log mentions them from its end."""
    version, lines, rest = lines_of(text)
    entries = [None if len(line) > MAX_LINE else entry_of(line, version) for line in lines]
    table = dict(filter(None, entries))
    settled, found = set(), {}
    for line, entry in [(rest, None), *reversed(list(zip(lines, entries)))]:
        if entry:
            settled.add(entry[0])
        else:
            found.update((name, table[name]) for name in re.split(rb"[\t\0]", line)[3:] if name in table and name not in settled and name not in found)
    return b"".join(line_of(*it) for it in found.items())


def entries_of(text):
    """What `entries` prints of a log."""
    version, lines, _ = lines_of(text)
    entries = (entry_of(line, version) for line in lines)
    return b"".join(line_of(*it) for it in entries if it)


def told_of(text, version=None):
    """The builds of a log, and the outputs whose command didn't end. `version`: the log's, if it is seen here as one of version 5."""
    seen, lines = model.read(text.decode(errors="surrogateescape"))
    entries, commands, builds = model.builds_of(version if version and seen == 5 else seen, lines)
    names = (it.name.encode(errors="surrogateescape") for it in entries)
    jobs = iter([Job(it.start, it.end, it.hash, list(itertools.islice(names, it.outputs))) for it in commands])
    told = [Build(list(itertools.islice(jobs, it.commands)), it.taken if it.again else None, it.sure) for it in builds]
    return told, [it.encode(errors="surrogateescape") for it in model.unfinished(lines)]


def lasting(builds, waiting):
    """The builds with the last entry of each output alone, and none of the outputs that wait."""
    gone, found = set(waiting), []
    for build in reversed(builds):
        jobs = []
        for job in reversed(build.jobs):
            outputs = []
            for name in reversed(job.outputs):
                outputs += [] if name in gone else [name]
                gone.add(name)
            jobs += [job._replace(outputs=outputs[::-1])] if outputs else []
        found += [build._replace(jobs=jobs[::-1], taken=build.taken and 0)] if jobs else []
    return found[::-1]


def last_of(builds):
    """The last build that isn't the manifest's alone, or else the last one, with its number, as a list of one or none."""
    others = [it for it in enumerate(builds, 1) if len(it[1].jobs) > 1 or b"build.ninja" not in it[1].jobs[0].outputs]
    return (others or list(enumerate(builds, 1)))[-1:]


def asked_of(text, number=None, of_all=False, version=None):
    """The builds that `summary` tells of: the last one, that of a number, or all with the last entry of each output; and None where there are fewer."""
    builds, waiting = told_of(text, version)
    if of_all:
        return lasting(builds, waiting)
    if number is None:
        return [it for _, it in last_of(builds)]
    return builds[number - 1 : number] or None


def is_found_again(builds):
    return any(it.taken is not None for it in builds)


def said_of(text, place, word="builds", number=None, of_all=False, version=None):
    """What a word says on standard error of a log that stands there."""
    told = told_of(text, version)[0] if word == "builds" else asked_of(text, number, of_all, version) or []
    return b"nlog: %s: it was written anew, so builds were found again by their time stamps\n" % place if is_found_again(told) else b""


def wall_of(jobs):
    """The milliseconds from the first START to the last END."""
    return max(0, max(it.end for it in jobs) - min(it.start for it in jobs))


def time_of(job):
    return max(0, job.end - job.start)


def counts_of(builds):
    """Commands, outputs, wall and total of builds, one after another."""
    jobs = [job for it in builds for job in it.jobs]
    return len(jobs), sum(len(it.outputs) for it in jobs), sum(wall_of(it.jobs) for it in builds), sum(map(time_of, jobs))


def builds_of(text, version=None):
    """What `builds` prints of a log."""
    told = b""
    for number, build in enumerate(told_of(text, version)[0], 1):
        word = (b"sure" if build.sure else b"unsure") if build.taken is None else b"again\t%d" % build.taken
        told += b"%d\t%d\t%d\t%d\t%d\t%s\n" % (number, *counts_of([build]), word)
    return told


def time_where(jobs, holds):
    """The milliseconds in which so many commands run as the test wants."""
    moments = sorted({it for job in jobs for it in job[:2]})
    pairs = zip(moments, moments[1:])
    return sum(to - at for at, to in pairs if holds(sum(it.start <= at < it.end for it in jobs)))


def told_commands(jobs):
    """Each command's milliseconds, its weighted milliseconds in parts of one, and its first output."""
    moments = sorted({it for job in jobs for it in job[:2]})
    running = [(at, to, sum(it.start <= at < it.end for it in jobs)) for at, to in zip(moments, moments[1:])]
    told = []
    for job in jobs:
        weight = sum((to - at) * (PARTS // count) for at, to, count in running if job.start <= at < job.end)
        told.append((time_of(job), weight, job.outputs[0]))
    return told


def slowest_of(told):
    """The time and the first output of the first command that took the longest."""
    time, _, name = max(told, key=lambda it: it[0])
    return time, name


def ranked_of(key, rank, told, most):
    """The lines of so many commands at most, the highest rank first; those of one rank stay in their order."""
    rows = sorted(told, key=lambda it: -it[rank])[:most]
    return b"".join(b"%s\t%d\t%d.%02d\t%s\n" % (key, time, weight // PARTS, weight * 100 // PARTS % 100, name) for time, weight, name in rows)


def kind_of(rule, name):
    """The kind of an output: its extension with its dot, its folder, the first of its folders, or the word of what its command does."""
    if rule == "work":
        return [*WORKS][work_of(name)].encode()
    if rule == "folder":
        return name[: name.rfind(b"/") + 1]
    if rule == "top":
        return name[: name.find(b"/") + 1]
    # A dot at the beginning counts, too.
    return os.path.splitext(b"x" + name.rsplit(b"/", 1)[-1])[1]


def kinds_of(rule, told):
    """The kinds of commands in the order of first appearance, each with the count of its commands, their times and their weights."""
    kinds = {}
    for time, weight, name in told:
        kind = kind_of(rule, name)
        kinds[kind] = [it + more for it, more in zip(kinds.get(kind, (0, 0, 0)), (1, time, weight))]
    return kinds


def ranked_kinds(key, rank, kinds, most):
    """The lines of so many kinds at most, the largest sum first; those of one sum stay in their order."""
    rows = sorted(kinds.items(), key=lambda it: -it[1][rank])[:most]
    told = ((key, count, time, weight // PARTS, weight * 100 // PARTS % 100, kind or b"(none)") for kind, (count, time, weight) in rows)
    return b"".join(b"%s\t%d\t%d\t%d.%02d\t%s\n" % it for it in told)


def lanes_of(commands, fault=None):
    """Of commands, each a START and an END, in the order of START: the lowest lane that is free as each begins. `fault`: one of those that
    tests/rivals.py plants in what this and the pictures and comparisons below tell."""
    lanes, ends = [], []
    for start, end in commands:
        is_free = (lambda busy: busy < start) if fault == "a lane is free a moment later" else (lambda busy: busy <= start)
        free = [lane for lane, busy in enumerate(ends) if is_free(busy) and fault != "no lane is given twice"] + [len(ends)]
        free = free[-2:] if fault == "the highest free lane is taken" else free
        lanes.append(free[0])
        ends[free[0] : free[0] + 1] = [max(start, end)]
    return lanes


def in_turn(builds):
    """The commands of builds one after another on one clock, each build's by START: it begins as the one before it has ended, the first at 0."""
    clock, told = 0, []
    for build in builds:
        jobs = sorted(build.jobs, key=lambda it: it.start)
        at = lambda moment: min(max(0, moment - jobs[0].start) + clock, 2**32 - 1)
        jobs = [it._replace(start=at(it.start), end=at(it.end)) for it in jobs]
        clock = max([clock, *(max(it.start, it.end) for it in jobs)])
        told += jobs
    return told


def events_of(text, version=None, number=None, of_all=False):
    """The events that `trace` tells of a log, as JSON values: of its last build, of that of a number, or of all."""
    builds = asked_of(text, number, of_all, version) or []
    if not builds:
        return []
    taken = max((it.taken for it in builds if it.taken is not None), default=None)
    number = 0 if of_all else number or last_of(told_of(text, version)[0])[0][0]
    name = "all builds" if of_all else f"build {number}"
    known = {"name": name, "rewritten": False} if taken is None else {"name": f"{name}, found again", "rewritten": True, "taken": taken}
    events = [{"name": "process_name", "ph": "M", "pid": number, "args": known}]
    jobs = in_turn(builds)
    for job, lane in zip(jobs, lanes_of([it[:2] for it in jobs])):
        names = [it.decode(errors="replace") for it in job.outputs]
        bar = {"ts": job.start * 1000, "dur": time_of(job) * 1000, "name": names[0], "args": {"hash": f"{job.hash:x}", "outputs": names}}
        events.append({"ph": "X", "pid": number, "tid": lane + 1, **bar})
        for at in (job.start, max(job.start, job.end)):
            count = sum(it.start <= at < it.end for it in jobs)
            events.append({"ph": "C", "pid": number, "name": "running", "ts": at * 1000, "args": {"commands": count}})
    return events


def trace_of(text, version=None, number=None, of_all=False):
    """What `trace` prints of a log."""
    return json.dumps(events_of(text, version, number, of_all), sort_keys=True, separators=(",", ":"), ensure_ascii=False).encode()


def name_in_xml(name, most=100):
    """A name in the text of a picture: what isn't UTF-8 and what XML can't have is U+FFFD, and of a long one the beginning stands."""

    def shown(part):
        text = re.sub("[\x00-\x1f\ufffe\uffff]", "\ufffd", part.decode(errors="replace"))
        for mark, entity in (("&", "&#38;"), ("<", "&lt;"), (">", "&gt;"), ('"', "&#34;")):
            text = text.replace(mark, entity)
        return text.encode()

    return shown(name) if len(shown(name)) <= most else shown(name[:20]) + b".."


# What a command does, by the extension of its first output, in the order of the legend.
WORKS = {
    "compile": ".o .obj .lo .pch .gch .pcm .bc .class".split(),
    "link": ["", *".so .exe .dll .dylib .wasm".split()],
    "archive": ".a .lib .rlib .jar".split(),
    "generate": ".c .h .cc .cpp .cxx .hpp .inc .def .py .rs .go .js .json .cmake".split(),
    "test": ".test .passed .tap".split(),
    "other": [],
}
SECOND, MINUTE, HOUR = 1000, 60_000, 3_600_000
STEPS = [
    *(digit * 10**zeros for zeros in range(4) for digit in (1, 2, 5)), 10 * SECOND, 15 * SECOND, 30 * SECOND,
    *(it * MINUTE for it in (1, 2, 5, 15, 30)), *(it * HOUR for it in (1, 2, 5, 10, 20, 50, 100)),
]


STYLE = (
    "svg{fill:#222;background:#fff}.p{fill:#fff}.m{fill:#666}.g{stroke:#ddd;stroke-width:10}.q{fill:#cfd8e3}.t{fill:#111}.t text{pointer-events:none}"
    ".k0{fill:#56b4e9}.k1{fill:#e69f00}.k2{fill:#f0e442}.k3{fill:#009e73}.k4{fill:#cc79a7}.k5{fill:#bbb}"
    "@media(prefers-color-scheme:dark){svg{fill:#eee;background:#1b1b1b}.p{fill:#1b1b1b}.m{fill:#aaa}.g{stroke:#444}.q{fill:#3b4656}}"
)


def work_of(name):
    """Where in the legend a command of this output stands."""
    extension = kind_of("extension", name).decode("latin-1")
    return next((at for at, those in enumerate(WORKS.values()) if extension in those), len(WORKS) - 1)


def in_words(time):
    """A time in two units at most; what is less is dropped."""
    if time == 0:
        return "0 s"
    if time < SECOND:
        return f"{time} ms"
    if time < MINUTE:
        return f"{time // 100 / 10:g} s"
    unit, small, first, second = (MINUTE, SECOND, "min", "s") if time < HOUR else (HOUR, MINUTE, "h", "min")
    rest = time % unit // small
    return f"{time // unit} {first}" + (f" {rest} {second}" if rest else "")


def cut(name, most, fault=None):
    """The last part of a name, of which so many bytes at most stand, of whole characters."""
    text = (name if fault == "the folder stands in a bar" else name.rsplit(b"/", 1)[-1]).decode(errors="replace").encode()
    if len(text) <= most:
        return name_in_xml(text, 5 * len(text))
    begun = text[: most - 1].decode(errors="ignore").encode()
    return name_in_xml(begun, 5 * len(begun)) + "\u2026".encode()


def picture_of(text, version=None, number=None, of_all=False, path=None, fault=None):
    """What `picture` prints of a log: of its last build, of that of a number, or of all. `path`: the first outputs of the commands with an outline."""
    builds = asked_of(text, number, of_all, version)
    jobs = in_turn(builds or [])
    taken = max((it.taken for it in builds or [] if it.taken is not None), default=None)
    said = f"no such build; builds: {len(told_of(text, version)[0])}" if builds is None else None
    if taken is not None:
        said = "builds were found again" if of_all else f"found again: later builds may have taken {taken} of its outputs"
    return drawn(jobs, lanes_of([it[:2] for it in jobs], fault), said, path, fault)


OUTLINE = (
    "<style>.c{fill:none;stroke:#d00000;stroke-width:30;pointer-events:none}@media(prefers-color-scheme:dark){.c{stroke:#ff6b6b}}</style>\n"
    '<rect class="c" x="11800" y="540" width="140" height="140"/><text x="12000" y="655">critical path</text>\n'
)


def drawn(commands, lanes, said=None, path=None, fault=None):
    """The picture of commands in their lanes, in tenths of a pixel: the build is 14,400 wide, from 1000 on. A command is its START, its END,
    anything, and its outputs. `said`: what is said of the build. `path`: those with an outline, by their first outputs."""
    out, short, times = [], {}, [0] * len(WORKS)
    began, top = commands[0][0] if commands else 0, max(lanes, default=0)
    wall = max([max(it[:2]) for it in commands], default=0) - began
    work = (lambda names: work_of(names[-1])) if fault == "the last output tells the kind" else (lambda names: work_of(names[0]))
    for start, end, _, names in commands:
        times[work(names)] += 1 if fault == "parts are of commands" else max(0, end - start)
    pitch = 220 if top < 64 else max(1, 8000 // (top + 1))
    high, foot = pitch - pitch // 8, 1100 + pitch * (top + 1) + 1200
    tall = foot + 600 + 180 * (min(10, len(commands)) + 1)
    tenths = (sum(times) * 10 + (wall // 2 if fault == "tenths are rounded" else 0)) // max(wall, 1)
    title = "%d command%s in %s, %d.%d at a time" % (len(commands), "" if len(commands) == 1 else "s", in_words(wall), *divmod(tenths, 10))
    out.append(
        '<svg xmlns="http://www.w3.org/2000/svg" width="1600" height="%d" viewBox="0 0 16000 %d" role="img" aria-labelledby="t" font-family="sans-serif"'
        ' font-size="120">\n<title id="t">%s</title>\n' % (tall // 10, tall, title)
    )
    out.append("<style>%s</style>\n" % STYLE)
    out.append('<rect class="p" width="100%%" height="100%%"/>\n<text x="1000" y="380" font-size="220">%s</text>\n' % title)
    if said is not None:
        out.append('<text class="m" x="15400" y="380" text-anchor="end">%s</text>\n' % said)
    for at, (word, time) in enumerate(zip(WORKS, times)):
        x = 1000 + 1800 * at
        line = '<rect class="k%d" x="%d" y="540" width="140" height="140"/><text x="%d" y="655">%s %d %%</text>\n'
        half = sum(times) // 2 if fault == "parts are rounded" else 0
        out.append(line % (at, x, x + 200, word, (time * 100 + half) // max(1, sum(times))))
    step = next(it for it in STEPS if wall <= (13 if fault == "the axis has thirteen steps" else 12) * it)
    for at in range(0, wall + 1, step):
        x = 1000 + at * 14400 // max(wall, 1)
        out.append('<path class="g" d="M%d 1000V%d"/><text class="m" x="%d" y="950" text-anchor="middle">%s</text>\n' % (x, foot, x, in_words(at)))
    out.append('<g class="t" font-size="110">\n')
    start_of = '<rect class="k%d" x="%d" y="%d" width="%d" height="%d"><title>'

    def draw_short(lane):
        place, pixel, count = short.pop(lane)
        out.append((start_of + "%d short</title></rect>\n") % (place, pixel * 10, 1100 + pitch * lane, 10, high, count))

    for (start, end, _, names), lane in zip(commands, lanes):
        x, until = (1000 + (it - began) * 14400 // max(wall, 1) for it in (start, max(start, end)))
        place, width, y = work(names), until - x, 1100 + pitch * lane
        if width < {"a bar is half as narrow": 2, "a bar is narrow a tenth later": 6}.get(fault, 5):
            # (those of a lane come from left to right)
            if lane in short and (short[lane][1] != x // 10 or fault == "each short command has a bar"):
                draw_short(lane)
            held = short.setdefault(lane, [place, x // 10, 0])
            held[0] = place if fault == "the last short command gives the colour" else held[0]
            held[2] = 1 if fault == "short commands aren't counted" else held[2] + 1
            continue
        more = " and %d more" % (len(names) - 1) if len(names) > 1 and fault != "more outputs aren't told" else ""
        told = *divmod(max(0, end - start), 1000), *divmod(start - began, 1000)
        end_of = "%s\n%d.%03d s from %d.%03d s</title></rect>\n" % (more, *told)
        gap = 0 if width < {"the gap begins later": 21, "each bar has a gap": 6}.get(fault, 20) else 6
        out += [start_of % (place, x, y, width - gap, high), name_in_xml(names[0]), end_of]
        room = min(23 if fault == "a name has 23 letters" else 22, max(0, width - 80) // 70)
        if room >= (5 if fault == "four letters are no room" else 4) and top < (65 if fault == "65 lanes have names" else 64):
            out += ['<text x="%d" y="%d">' % (x + 40, y + 135), cut(names[0], room, fault), "</text>\n"]
    for lane in sorted(short, reverse=fault == "the last lane's short commands come first"):
        draw_short(lane)
    curve, starts, ends = "", [it[0] for it in commands], sorted(max(it[:2]) + (fault == "the curve has what just ended") for it in commands)
    for at in range(480):
        moment = began + at * wall // 480
        count = bisect.bisect(starts, moment) - bisect.bisect(ends, moment)
        curve += "V%dH%d" % (foot - count * 800 // (top + 1), 1030 + 30 * at)
    out.append('</g>\n<path class="q" d="M1000 %d%sV%dz"/>\n' % (foot, curve, foot))
    for y, told in ((foot - 720, "%d at a time" % (top + 1)), (foot, "0")):
        out.append('<text class="m" x="950" y="%d" text-anchor="end">%s</text>\n' % (y, told))
    out += [] if path is None else [OUTLINE]
    for name in path or ():
        (start, end, *_), lane = next(it for it in zip(commands, lanes) if name in it[0][3])
        x, until = (1000 + (it - began) * 14400 // max(wall, 1) for it in (start, max(start, end)))
        out.append('<rect class="c" x="%d" y="%d" width="%d" height="%d"/>\n' % (x, 1100 + pitch * lane, max(10, until - x), high))
    out.append('<text x="1000" y="%d">The commands that took the longest:</text>\n' % (foot + 600))
    slow = commands[::-1] if fault == "of two alike the last is listed first" else commands
    slow = sorted(slow, key=lambda it: -max(0, it[1] - it[0]))[: 9 if fault == "nine are listed" else 10]
    for at, (start, end, _, names) in enumerate(slow):
        y = foot + 780 + 180 * at
        line = '<text x="1900" y="%d" text-anchor="end">%s</text><text x="2050" y="%d">'
        out += [line % (y, in_words(max(0, end - start)), y), name_in_xml(names[0]), "</text>\n"]
    return b"".join(it if isinstance(it, bytes) else it.encode() for it in [*out, "</svg>\n"])


def summary_of(text, most=10, number=None, of_all=False, rule="extension", version=None):
    """What `summary` prints of a log: of its last build, of that of a number, or of all with the last entry of each output alone."""
    (builds, waiting), asked = told_of(text, version), asked_of(text, number, of_all, version)
    unfinished = b"unfinished\t%d\n" % len(waiting) if waiting else b""
    if not asked:
        return (b"builds\t%d\n" % len(builds) if asked is None else b"") + unfinished
    commands, outputs, wall, total = counts_of(asked)
    busy, alone = (sum(time_where(it.jobs, holds) for it in asked) for holds in (lambda count: count > 0, lambda count: count == 1))
    parallel = b"%d.%02d" % divmod(total * 100 // wall, 100) if wall else b"0.00"
    told = [row for it in asked for row in told_commands(it.jobs)]
    counts = (commands, outputs, wall, total, busy, alone, parallel, *slowest_of(told))
    eight = b"commands\t%d\noutputs\t%d\nwall\t%d\ntotal\t%d\nbusy\t%d\nalone\t%d\nparallel\t%s\nslowest\t%d\t%s\n" % counts
    again = b"again\t%d\n" % max(it.taken or 0 for it in asked) if is_found_again(asked) and not of_all else b""
    slowest = ranked_of(b"by-time", 0, told, most) + ranked_of(b"by-weight", 1, told, most)
    kinds = kinds_of(rule, told)
    return eight + again + unfinished + slowest + ranked_kinds(b"kinds-by-time", 1, kinds, most) + ranked_kinds(b"kinds-by-weight", 2, kinds, most)


def graph_line(line):
    """What a line of a graph says: a node's ID and its name, or the IDs of an edge's ends, each as a tuple; or None where it is bad."""
    parts = line.split(b'"', 2)
    if len(parts) < 3 or parts[0]:
        return () if line.startswith((b"rankdir=", b"node [", b"edge [")) else None
    own, rest = parts[1:]
    if rest.startswith(b' [label="'):
        label = rest[len(b' [label="') :]
        if label.endswith(b'"]'):
            return "node", own, label[:-2]
        return () if label.endswith(b'", shape=ellipse]') else None
    ends = rest[len(b' -> "') :].split(b'"', 1) if rest.startswith(b' -> "') else ()
    if len(ends) < 2 or ends[1] and not (ends[1].startswith(b" [") and ends[1].endswith(b"]")):
        return None
    return "edge", own, ends[0]


def graph_of(text):
    """The last name of each node of a graph and the ends of its edges, each with its line; or the number of the first bad line."""
    lines = text.split(b"\n")
    lines = lines if lines[-1] else lines[:-1]
    names, edges = {}, []
    if lines[:1] != [b"digraph ninja {"]:
        return 1
    for number, line in enumerate(lines[1:], 2):
        if line == b"}":
            return next((it for it, more in enumerate(lines[number:], number + 1) if more), (names, edges))
        said = graph_line(line)
        if said is None:
            return number
        if said[:1] == ("node",):
            names[said[1]] = said[2]
        elif said:
            edges.append((*said[1:], number))
    return len(lines) + 1


def lines_of_cycles(edges):
    """The lines of the edges from whose end a way leads back to where they begin."""
    ways = collections.defaultdict(set)
    for start, end, _ in edges:
        ways[start].add(end)

    def reached(start):
        seen, left = {start}, [start]
        while left:
            more = ways[left.pop()] - seen
            seen |= more
            left += more
        return seen

    return [line for start, end, line in edges if start in reached(end)]


def bad_graph_lines(text):
    """The lines of a graph one of which is told as bad: the first bad one, or those of cycles; none if the graph is read."""
    graph = graph_of(text)
    return [graph] if isinstance(graph, int) else lines_of_cycles(graph[1])


def paths_of(graph, text, number=None, of_all=False, version=None, most=0):
    """What `summary` may print behind the summary by the text of a graph without a cycle: that of each path than which none is longer, what the
    graph lacks, and of so many commands of the path what is gained by half their time. None of it where the graph lacks all commands: then it is refused."""
    jobs = sorted((job for it in asked_of(text, number, of_all, version) or [] for job in it.jobs), key=lambda it: it.start)
    if not jobs:
        return {b""}
    ran = {name: place for place, job in enumerate(jobs) for name in job.outputs}
    names, edges = graph_of(graph)
    nodes = [*names, *(it for edge in edges for it in edge[:2])]
    lacking = [it for it in jobs if not {*it.outputs} & {*names.values()}]
    if len(lacking) == len(jobs):
        return set()
    ways = collections.defaultdict(set)
    for start, end, _ in edges:
        ways[start].add(end)

    def longest(half=None):
        """The length of the longest paths, and the outputs of each that took time, if the command at this place took half of it."""
        found = {}

        def of(own):
            if own not in found:
                place = ran.get(names.get(own))
                time = 0 if place is None else time_of(jobs[place]) // (1 + (place == half))
                later = [of(it) for it in ways.get(own, ())] or [(0, {()})]
                far = max(length for length, _ in later)
                front = (names[own],) if time else ()
                found[own] = time + far, {front + it for length, told in later if length == far for it in told}
            return found[own]

        far = max(length for length, _ in map(of, nodes))
        return far, {it for length, told in map(of, nodes) if length == far for it in told}

    def told_of_path(path):
        on_path = [jobs[ran[it]] for it in path]
        lines = [b"on-path\t%d\t%d\t%d\t%s\n" % (time_of(job), *job[:2], name) for job, name in zip(on_path, path)]
        slowest = sorted(path, key=lambda it: -time_of(jobs[ran[it]]))[:most]
        return b"".join(lines), b"".join(b"gain\t%d\t%s\n" % (far - longest(ran[it])[0], it) for it in slowest)

    far, paths = longest()
    behind = b"not-in-graph\t%d\t%d\n" % (len(lacking), sum(map(time_of, lacking))) if lacking else b""
    return {(b"critical-path\t%d\n" % far) + lines + behind + gains for lines, gains in map(told_of_path, paths)}


CLASSES = (b"new", b"gone", b"changed", b"slower", b"faster", b"unfinished", b"same")


def class_of(old, new, hashes, least, fault=None):
    """The class of a command that ran in both logs: a difference of less milliseconds than `least` is none."""
    if hashes and old.hash != new.hash:
        return b"changed"
    change = time_of(new) - time_of(old)
    least = {"the limit is no difference": least + 1, "no difference is too small": 0}.get(fault, least)
    if abs(change) < least or change == 0:
        return b"same"
    return b"slower" if change > 0 else b"faster"


def compare_of(old, new, versions=(None, None), most=10, least=0, fault=None):
    """What `compare` prints of two logs of these versions, which are seen here as of version 5."""
    (before, waited), (after, waits) = (told_of(*it) for it in zip((old, new), versions))
    left_of = (lambda builds, _: builds) if fault == "entries that were made again count" else lasting
    before, after = ([job for it in left_of(*told) for job in it.jobs] for told in ((before, waited), (after, waits)))
    if fault == "each output is compared":
        before, after = ([job._replace(outputs=[it]) for job in jobs for it in job.outputs] for jobs in (before, after))
    hashes = len({(version or lines_of(text)[0]) == 7 for text, version in zip((old, new), versions)}) == 1
    hashes = {"hashes are always compared": True, "hashes are never compared": False}.get(fault, hashes)
    places, left, rows = {name: at for at, job in enumerate(after) for name in job.outputs}, set(range(len(after))), []
    for job in before:
        # Of the outputs the first one whose command has met none.
        outputs = job.outputs[::-1] if fault == "the last output meets first" else job.outputs[:1] if fault == "the first output alone meets" else job.outputs
        at = next((places[it] for it in outputs if places.get(it) in left), None)
        if fault != "a command is met twice" or at is None:
            left.discard(at)
        gone = b"gone" if fault == "what doesn't end is gone" else b"unfinished"
        kind = class_of(job, after[at], hashes, least, fault) if at is not None else gone if {*waits} & {*job.outputs} else b"gone"
        rows.append((kind, time_of(job), time_of(after[at]) if at is not None else 0, job.outputs[0]))
    fresh = b"new" if fault == "what didn't end is new" else b"unfinished"
    for at in sorted(left, reverse=fault == "the last new command comes first"):
        rows.append((fresh if {*waited} & {*after[at].outputs} else b"new", 0, time_of(after[at]), after[at].outputs[0]))
    told = [b"hashes\tcompared\n" if hashes else b"hashes\tnot-compared\n"]
    for kind in CLASSES:
        own = [it for it in rows if it[0] == kind]
        own = own[:most] if fault == "a sum is of what is listed" else own
        times = [sum(it[at] for it in own) for at in (1, 2)]
        told.append(b"total\t%s\t%d\t%d\t%d\t%d\n" % (kind, len(own), times[1] - times[0], *times))
    cost = {"what takes longest comes first": lambda it: -it[2], "what lost most comes first": lambda it: it[1] - it[2]}.get(fault, lambda it: -abs(it[2] - it[1]))
    for kind in CLASSES if fault == "what is the same is listed" else CLASSES[:-1]:
        own = sorted((it for it in rows if it[0] == kind), key=cost)
        told += [b"%s\t%d\t%d\t%d\t%s\n" % (kind, it[2] - it[1], *it[1:]) for it in own[: most + (fault == "one more is listed")]]
    return b"".join(told)
