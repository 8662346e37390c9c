#!/usr/bin/env python3
"""A log that is stopped at each call of its folder in turn, by scripts for `replay`.

    python3 tests/stops.py PROGRAM

- The first call that fails is the nth, n counted up until none does. Then the power is lost, or the log closed, and it is opened again, with
  each of many fates of the bytes that weren't durable, and with zero bytes in place of those that are lost. What is found must be the table
  of one of the histories that docs/PROMISES.md allows for the replies: `Histories` follows durable and pending updates, and knows nothing of
  bytes.
- What the power loss leaves is looked at before it is opened too: of the 48 texts each that the call which failed allows, and no other; and
  the same with a tail of zero bytes, where any byte of the log was durable.
- Each of these texts is then opened with each call of that open failing in turn, so that its repair is stopped; the power is lost, with a
  tail or without, or the log closed, and it is opened again. That must leave what one open would have, byte for byte. A log that is due is
  stopped so too, and some that a tail stands in. A torn header isn't: a script has one fuse, and it would take that to leave one
  (`tests/library/session` and `system_calls.py` stop this repair).
- A few runs are worked out by hand, with the bytes before the last open and after it.
"""
import itertools
import subprocess
import sys

from log_format import HEADER, Log, reading_of
from trials import SECONDS, main, run, short

HASH = 15
TIMES = 1, 2, 3

# Each event, and the update that it asks for.
EVENTS = [
    (b"open", None),
    (b"record\t1\t2\t3\ta\tf", ("enter", b"a")),
    (b"sync", None),
    (b"record\t1\t2\t3\tb\tf", ("enter", b"b")),
    (b"recompact\tb", ("keep", b"b")),
    (b"record\t1\t2\t3\tc\tf", ("enter", b"c")),
    (b"restat\t9\tc", ("touch", b"c")),
    (b"stop", None),
    (b"open", None),
]


# A log that is due, and what an open makes of it.
DUE = HEADER + b"1\t2\t3\ta\tf\n" * 101
DUE_OPENED = HEADER + b"1\t2\t3\ta\tf\n"

A, B, C = (b"1\t2\t3\t%s\tf\n" % name for name in (b"a", b"b", b"c"))
RESTATED = HEADER + B + b"1\t2\t9\tc\tf\n"

# The first and the last of some calls, and the texts that a power loss may leave where one of them fails: a text and any part of what
# wasn't durable behind it, or the new log where the rename may have been durable.
LEFT = [
    (1, 2, b"", b"", []),
    (3, 4, b"", HEADER, []),
    (5, 6, HEADER, A, []),
    (7, 11, HEADER + A, B, []),
    (12, 13, HEADER + A, B, [HEADER + B]),
    (14, 19, HEADER + B, C, []),
    (20, 21, HEADER + B, C, [RESTATED]),
    (22, 24, RESTATED, b"", []),
]


# The tail that a power loss is told to leave: none, or as long a one as fits.
TAILS = (), (100,)

# Logs in which the lost bytes of a line came back as zero bytes: some of the line, all of it, and behind a log that is due.
TAILED = [HEADER + A + B[:3] + bytes(7), HEADER + A + B[:9] + bytes(1), HEADER + A + bytes(len(B)), DUE + bytes(4)]


# The calls of these that append to the log. One that fails adds a part of the line, and so a tail has the place of a part.
APPENDS = 3, 5, 7, 14


def table_of(updates):
    """The last entry of each output, in the order in which the outputs first appear."""
    table = {}
    for kind, name in updates:
        if kind == "enter":
            table[name] = (*TIMES, HASH)
        elif kind == "keep":
            table = {kept: entry for kept, entry in table.items() if kept == name}
        elif name in table:
            table[name] = (*TIMES[:2], 9, HASH)
    return table


class Histories:
    """What may be durable, what is pending, and how much of that the bytes show: all that the replies allow."""

    def __init__(self):
        self.states = {((), (), 0)}

    def follow(self, event, update, reply):
        self.states = {after for state in self.states for after in self.after(state, event, update, reply)}

    @staticmethod
    def after(state, event, update, reply):
        durable, pending, shown = state
        found = durable + pending[:shown]
        if event == b"crash":
            return {(durable + pending[:kept], (), 0) for kept in range(len(pending) + 1)}
        if event == b"open":
            return {(found, (), 0)} if reply == b"ok" else {state, (found, (), 0)}
        if event == b"sync":
            return {(durable + pending, (), 0)} if reply == b"ok" else {state}
        if update is None:
            return {state}
        more = pending + (update,)
        if reply != b"ok":
            return {(durable, more, shown), (durable, more, len(more))}
        if update[0] == "enter":
            return {(durable, more, len(more))}
        return {(durable + more, (), 0)}

    def tables(self):
        return [list(table_of(durable + pending[:shown]).items()) for durable, pending, shown in self.states]


def replay(program, settings, events):
    """The replies to the events, and the log."""
    script = b"\n".join([*settings, *events]) + b"\n"
    ran = subprocess.run([program, "replay"], input=script, capture_output=True, timeout=SECONDS)
    if ran.returncode != 0:
        return [], b""
    *replies, rest = ran.stdout.split(b"\n", len(events))
    size, log = rest.split(b"\n", 1)
    return replies, log if size == b"log %d" % len(log) else b""


def told(fate, tails=()):
    """The settings of what fails and crashes leave."""
    return [word + b"".join(b"\t%d" % number for number in numbers) for word, numbers in ((b"fates", fate), (b"tails", tails)) if numbers]


def fates():
    """What is left of the call that failed, and at the crash: the file that was the log or the scratch, and bytes."""
    for count in range(81):
        yield (count,)
        for which in (0, 1):
            yield which, count
            yield count, which, count


def tailed_fates():
    """Each part that a failed append of a line may add with each part of it that a crash keeps; and each side of a rename."""
    yield from fates_up_to(len(HEADER), 2)
    yield from itertools.product((0, 1), (0, 1), range(len(B) + 1))


def ends():
    """How a run ends that met a fault: by a power loss without a tail or with one, or a close; and the fates to try."""
    for end, tails, all_fates in ((b"crash", (), fates()), (b"crash", (100,), tailed_fates()), (b"stop", (), fates())):
        for fate in all_fates:
            yield end, tails, fate


def first_fault(program, nth, events, fate=(0,), tails=()):
    """The place of the first event that fails where the nth call does, or None."""
    replies, _ = replay(program, [b"fuse\tany\t%d" % nth, *told(fate, tails)], events)
    return replies.index(b"S8 Fault") if b"S8 Fault" in replies else None


def followed(asked, replies):
    """The tables that the replies allow."""
    histories = Histories()
    for (event, update), reply in zip(asked, replies):
        histories.follow(event, update, reply)
    return histories.tables()


def try_found(trials, what, asked, ran):
    """Tries the table of the log that is left, where the last event has gone well."""
    replies, log = ran
    if not replies or replies[-1] != b"ok" or reading_of(log) != "log":
        trials.check(what, False, f"the last event: {replies[-1:]}, and the log {log}")
        return
    found, allowed = list(Log(log).table.items()), followed(asked, replies)
    trials.check(what, found in allowed, f"{found} isn't among {allowed}")


def try_stops(trials, program):
    """Stops the events at each call."""
    trials.want("how many fates there are", len(set(fates())), 81 * 5)
    for nth in range(1, 1000):
        at = first_fault(program, nth, [event for event, _ in EVENTS])
        if at is None:
            break
        left = {tails: set() for tails in TAILS}
        for end, tails, fate in ends():
            settings = [b"fuse\tany\t%d" % nth, *told(fate, tails)]
            what = f"call {nth}, {end.decode()}, fates {fate}, tails {tails}"
            asked = [*EVENTS[: at + 1], (end, None), (b"open", None)]
            try_found(trials, what, asked, replay(program, settings, [event for event, _ in asked]))
            if end == b"crash":
                asked.pop()
                ran = replay(program, settings, [event for event, _ in asked])
                try_found(trials, f"{what}, before the open", asked, ran)
                left[tails].add(ran[1])
        for tails, texts in left.items():
            trials.want(f"call {nth}, tails {tails}: the texts that a power loss leaves", sorted(texts), sorted(texts_left(nth, sum(tails))))
    trials.want("how many calls were stopped", nth - 1, 24)


def texts_left(nth, tail=0):
    """The texts that a power loss may leave where this call fails, with a tail of so many zero bytes as far as they have place."""
    return {text for first, last, *texts in LEFT if first <= nth <= last for text in all_of(*texts, tail, nth in APPENDS)}


def all_of(durable, pending, others, tail, appends):
    texts = list(others)
    for count in range(len(pending) + 1):
        most = min(tail, len(pending) - count) if durable else 0
        texts += [durable + pending[:count] + bytes(size) for size in (range(most + 1) if appends else [most])]
    return texts


def beginning(text):
    """The events after which the log is this text, all of it durable, and the fate and the tail of the power loss that they end in."""
    if not text:
        return [], (), ()
    *lines, rest = text[len(HEADER) :].split(b"\n")
    torn = rest.rstrip(b"\0")
    events = [b"open", *(b"record\t" + line for line in lines), b"sync"]
    if rest:
        # Any record whose line begins so.
        events.append(next(it for it, _ in EVENTS if it.startswith(b"record\t" + torn)))
    return [*events, b"crash"], (len(torn),), (len(rest) - len(torn),)


def stacked(text):
    """How an open of this text is stopped: the fates to try, how many calls there are, and the log when it is done."""
    log = Log(text)
    if not text:
        # A read, a sync, the header line and a sync.
        return fates_up_to(len(HEADER), 2), 4, HEADER
    # Two reads and a sync; a cut and a sync.
    calls = 5 if log.torn else 3
    if log.is_due():
        # A scratch with two lines, its sync, the rename and a sync.
        return fates_up_to(3, 3), calls + 6, DUE_OPENED
    return fates_up_to(max(1, log.torn), 2), calls, text[: log.whole]


def ends_of(text):
    """How an open of this text ends that met a fault: a tail has a place only where a part of the text is cut away."""
    return [(b"crash", ()), (b"stop", ()), *([(b"crash", (100,))] if Log(text).torn else [])]


def fates_up_to(most, numbers):
    """Lists of one number or more, each up to `most`."""
    for count in range(1, numbers + 1):
        yield from itertools.product(range(most + 1), repeat=count)


def try_stacked(trials, program, text):
    """Stops the open that repairs a text that a power loss left, at each of its calls."""
    begin, spent, zeros = beginning(text)
    what = short(text)
    trials.want(f"{what}: the beginning", replay(program, told(spent, zeros), begin), ([b"ok"] * len(begin), text))
    tried, calls, wanted = stacked(text)
    tried, stopped = list(tried), 0
    for nth in range(1, 1000):
        at = first_fault(program, nth, [*begin, b"open"], spent or (0,), zeros)
        if at is None:
            break
        if at < len(begin):
            continue
        stopped += 1
        for (end, tails), fate in itertools.product(ends_of(text), tried):
            settings = [b"fuse\tany\t%d" % nth, *told(spent + fate, zeros + tails)]
            ran = replay(program, settings, [*begin, b"open", end, b"open"])
            replies = [*[b"ok"] * len(begin), b"S8 Fault", b"ok" if end == b"crash" else b"S1 NotOpen", b"ok"]
            trials.want(f"{what}: call {stopped} of its open, {end.decode()}, fates {fate}, tails {tails}", ran, (replies, wanted))
    trials.want(f"{what}: how many calls of its open were stopped", stopped, calls)


# The bytes and the fate of a script that leaves a whole log of 25 bytes, and 3 bytes behind it: 28 in all.
WHOLE = b"# ninja log v5\n1\t2\t3\tx\ta\n"
TORN = b"open\nrecord\t1\t2\t3\tx\ta\nsync\nrecord\t1\t2\t3\ty\tb\ncrash\n"
DONE = b"ok\nok\nok\nok\nok\n"

# A script, and what is printed of it.
WORKED = [
    (b"fates\t3\n" + TORN, DONE + b"log 28\n" + WHOLE + b"1\t2"),
    (b"fates\t3\n" + TORN + b"open\n", DONE + b"ok\nlog 25\n" + WHOLE),
    # The cut fails, and leaves a byte of the three. The power loss then leaves none,
    (b"fates\t3\t1\t0\nfuse\tcut_log\t1\n" + TORN + b"open\n", DONE + b"S8 Fault\nlog 26\n" + WHOLE + b"1"),
    (b"fates\t3\t1\t0\nfuse\tcut_log\t1\n" + TORN + b"open\ncrash\n", DONE + b"S8 Fault\nok\nlog 25\n" + WHOLE),
    (b"fates\t3\t1\t0\nfuse\tcut_log\t1\n" + TORN + b"open\ncrash\nopen\n", DONE + b"S8 Fault\nok\nok\nlog 25\n" + WHOLE),
    # or all, since the cut wasn't durable.
    (b"fates\t3\t1\nfuse\tcut_log\t1\n" + TORN + b"open\ncrash\n", DONE + b"S8 Fault\nok\nlog 28\n" + WHOLE + b"1\t2"),
    (b"fates\t3\t1\nfuse\tcut_log\t1\n" + TORN + b"open\ncrash\nopen\n", DONE + b"S8 Fault\nok\nok\nlog 25\n" + WHOLE),
    # The sync behind the cut fails: the three bytes may come back, two of them here.
    (b"fates\t3\t2\nfuse\tsync_log\t5\n" + TORN + b"open\n", DONE + b"S8 Fault\nlog 25\n" + WHOLE),
    (b"fates\t3\t2\nfuse\tsync_log\t5\n" + TORN + b"open\ncrash\n", DONE + b"S8 Fault\nok\nlog 27\n" + WHOLE + b"1\t"),
    (b"fates\t3\t2\nfuse\tsync_log\t5\n" + TORN + b"open\ncrash\nopen\n", DONE + b"S8 Fault\nok\nok\nlog 25\n" + WHOLE),
    # The power loss leaves zero bytes in place of the other seven of the line, or three of them; the next open cuts them away,
    (b"fates\t3\ntails\t9\n" + TORN, DONE + b"log 35\n" + WHOLE + b"1\t2" + bytes(7)),
    (b"fates\t3\ntails\t3\n" + TORN, DONE + b"log 31\n" + WHOLE + b"1\t2" + bytes(3)),
    (b"fates\t3\ntails\t9\n" + TORN + b"open\n", DONE + b"ok\nlog 25\n" + WHOLE),
    # and a cut that isn't durable may bring back two bytes of the ten, and zero bytes in place of the others.
    (b"fates\t3\t2\ntails\t9\t9\nfuse\tsync_log\t5\n" + TORN + b"open\ncrash\n", DONE + b"S8 Fault\nok\nlog 35\n" + WHOLE + b"1\t" + bytes(8)),
    # Of the header of an empty log 7 bytes are left.
    (b"fates\t7\nfuse\tsync_log\t2\nopen\n", b"S8 Fault\nlog 15\n# ninja log v5\n"),
    (b"fates\t7\nfuse\tsync_log\t2\nopen\ncrash\n", b"S8 Fault\nok\nlog 7\n# ninja"),
    (b"fates\t7\nfuse\tsync_log\t2\nopen\ncrash\nopen\n", b"S8 Fault\nok\nok\nlog 15\n# ninja log v5\n"),
    # Nothing of it was durable, so no zero bytes stand behind them.
    (b"fates\t7\ntails\t9\nfuse\tsync_log\t2\nopen\ncrash\n", b"S8 Fault\nok\nlog 7\n# ninja"),
]


def try_worked(trials, program):
    for script, wanted in WORKED:
        trials.want(f"worked by hand: {script}", run([program, "replay"], stdin=None, input=script), (0, wanted, b""))


def trial(trials, program, room):
    try_worked(trials, program)
    try_stops(trials, program)
    left = set().union(*(texts_left(nth) for nth in range(1, 25)))
    trials.want("how many texts there are", len(left), 48)
    begun = [text for text in sorted(left) if not text or len(text) >= len(HEADER)]
    for text in [*begun, DUE, DUE + b"1\t2", *TAILED]:
        try_stacked(trials, program, text)


if __name__ == "__main__":
    sys.exit(main(__file__, trial))
