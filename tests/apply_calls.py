#!/usr/bin/env python3
"""Tries `apply` with each of its system calls disturbed: what was answered, and what the log then holds.

    python3 tests/apply_calls.py PROGRAM

Wants strace, and that it may trace. A script of one line of each kind runs on logs of several kinds. Where the program is killed as a call
begins, or the call fails with EIO or EINTR, for each call in turn: the answers are those of the script, up to a first refusal, from which on
no line changes the log; the log has the table behind the lines that were answered, or the one more that was on its way, each entry whole,
and of a command that begins maybe the first intents alone;
status 0 with all answers comes only of a log that has it all; what was recorded is synced before a `stop` is answered; and an `apply` after
it finds the table that is there.

Then each sync in turn fails in a run that opens the log again. If it was the log's own, the next open puts a new file in its place, and all
goes on. If it was the first of all, or the folder's, no open succeeds.
"""
import os
import re
import shutil
import sys
from concurrent.futures import ThreadPoolExecutor

from changes import LOGS
from log_format import HEADER, Log, as_version, line_of
from trials import main, read, run, write

WAYS = {"kill": "signal=SIGKILL", "error": "error=EIO", "interrupt": "error=EINTR"}
ENDS = ("exit_group", "exit")
# Where `brk` fails it answers the old end of memory, and never the number of an error: the C library takes that for an address.
NO_ERROR = (*ENDS, "brk")
# What a line may be answered where the folder or memory failed at it or before it.
REFUSED = {b"S1 NotOpen", b"S3 Broken", b"S7 OutOfMemory", b"S8 Fault"}
# One of the names has no entry, and the first comes twice.
BEGIN = b"begin\t60\tdd\tx\tgone\tx\ty\n"
X, Y, Z = (b"x", (1, 2, 3, 0xAA)), (b"y", (4, 5, 6, 0xBB)), (b"z", (7, 8, 9, 0xCC))
KINDS = {
    "a torn log": (LOGS["a log with a torn line"], 5),
    "a missing log": (None, 5),
    "a log of a torn header": (LOGS["a log of a torn header"], 5),
    "a log of version 4": (LOGS["a log of version 4"], 5),
    "a log that is due": (LOGS["a log that is due"], 5),
    "a torn log of version 7": (as_version(LOGS["a log with a torn line"], 7), 7),
}


def add(entry):
    return lambda table: {**table, entry[0]: entry[1]}


def lines_of(table):
    return b"".join(line_of(*it) for it in table.items())


def restat(table):
    return {name: (*it[:2], 50, it[3]) if name == b"x" else it for name, it in table.items()}


def begun(*names):
    """Puts an intent over each of these names that has an entry."""
    intent = (60, 60, 0, 0xDD ^ (2**64 - 1))
    return lambda table: {name: intent if name in names else it for name, it in table.items()}


# Each line of the script, what it makes of the table, and what is answered, by the table then.
SCRIPT = [
    (b"open\n", dict, lambda table: b"ok\n"),
    (b"record\t" + line_of(*X), add(X), lambda table: b"ok\n"),
    (b"sync\n", dict, lambda table: b"ok\n"),
    (b"get\tx\n", dict, lambda table: line_of(b"x", table[b"x"])),
    (b"record\t" + line_of(*Y), add(Y), lambda table: b"ok\n"),
    (b"restat\t50\tx\n", restat, lambda table: b"ok\n"),
    (BEGIN, begun(b"x", b"y"), lambda table: b"ok\n"),
    # Two commands more that begin: of what begins already, and of no entry.
    (b"begin\t61\tdd\ty\tx\n", dict, lambda table: b"ok\n"),
    (b"begin\t61\tee\tgone\n", dict, lambda table: b"ok\n"),
    (b"sync\n", dict, lambda table: b"ok\n"),
    (b"recompact\tx\ty\n", lambda table: {name: it for name, it in table.items() if name in (b"x", b"y")}, lambda table: b"ok\n"),
    (b"table\n", dict, lambda table: lines_of(table) + b"end\n"),
    (b"record\t" + line_of(*Z), add(Z), lambda table: b"ok\n"),
    (b"stop\n", dict, lambda table: b"ok\n"),
    # The open cut what was torn.
    (b"distrusted\n", dict, lambda table: b"end\n"),
]


class Kind:
    """A kind of log, the tables behind each line of the script, and the answers."""

    def __init__(self, name, text, version):
        self.name, self.text, self.version = name, text, version
        self.tables = [self.table_of(text)]
        self.answers = []
        for _, change, answer in SCRIPT:
            self.tables.append(change(self.tables[-1]))
            self.answers.append(answer(self.tables[-1]))

    def table_of(self, text):
        return Log(as_version(text or b"", self.version)).table


def traced(program, kind, room, inject=()):
    """Runs the script on a log in a new folder: how it ended, and its system calls."""
    os.makedirs(room)
    if kind.text is not None:
        write(f"{room}/LOG", kind.text)
    write(f"{room}/SCRIPT", b"".join(line for line, _, _ in SCRIPT))
    words = ["strace", "-y", "-o", f"{room}/TRACE", "-e", "signal=none", *inject, program, "apply", f"{room}/LOG", f"{room}/SCRIPT"]
    ended = run(words, cwd="/")
    return ended, [it for it in (read(f"{room}/TRACE") or b"").decode(errors="replace").split("\n") if re.match(r"\w+\(", it)]


def read_answers(kind, out):
    """How many lines were answered as the script wants, and what is wrong with the rest."""
    count = 0
    while count < len(SCRIPT) and out.startswith(kind.answers[count]):
        out = out[len(kind.answers[count]) :]
        count += 1
    # Where a line was refused the last one may tell what can't be trusted, as of a log that was never opened.
    refusals = re.sub(rb"\A(S\d \w+\n(?:S\d \w+\n|ok\n)*)(?:[^\n]*\t[^\n]*\n)*end\n\Z", rb"\1", out).split(b"\n")
    if refusals.pop():
        # A kill between two writes of one answer leaves the first of its bytes.
        return count, "" if count < len(SCRIPT) and kind.answers[count].startswith(out) else f"it answered {out!r}"
    # A log that is broken is stopped all the same.
    stopped = len(SCRIPT) - 2 - count
    wrong = [it for at, it in enumerate(refusals) if it not in REFUSED and not (at == stopped > 0 and it == b"ok")]
    if wrong and not (count < len(SCRIPT) and kind.answers[count].startswith(out)):
        return count, f"it answered {out!r}"
    if count + len(refusals) > len(SCRIPT):
        return count, "there are more answers than lines"
    return count, ""


def disturbed(program, kind, room, how, call):
    """Runs the script with one call disturbed: what is wrong with how it ended and with what it left."""
    word, nth, line = call
    (status, out, err), _ = traced(program, kind, room, ["-e", f"inject={word}:{WAYS[how]}:when={nth}"])
    count, said = read_answers(kind, out)
    wrong = [said] if said else []
    left = read(f"{room}/LOG")
    try:
        found = kind.table_of(left)
        skipped = Log(as_version(left or b"", kind.version)).skipped
    except AssertionError:
        return [*wrong, f"it left what is no log: {left!r}"]
    allowed = kind.tables[count : count + 2]
    if SCRIPT[count : count + 1] and SCRIPT[count][0] == BEGIN:
        # Its intents are written line by line.
        allowed.append(begun(b"x")(kind.tables[count]))
    if found not in allowed:
        wrong.append(f"behind {count} answers the log has {found!r}")
    if skipped:
        wrong.append(f"the log has {skipped} lines that are no entries")
    if how == "kill" and status != -9:
        wrong.append(f"it wasn't killed, but ended with status {status}")
    if how != "kill" and status not in (0, 1):
        wrong.append(f"it ended with status {status}, and said {err!r}")
    if status == 0 and (count, found) != (len(SCRIPT), kind.tables[-1]) and not set(out.split(b"\n")) & REFUSED:
        wrong.append("it ended with status 0, and neither did all nor said so")
    again = run([program, "apply", f"{room}/LOG"], stdin=None, input=b"open\ntable\nstop\n")
    if again != (0, b"ok\n" + lines_of(found) + b"end\nok\n", b""):
        wrong.append(f"after it `apply` answers {again!r}")
    return wrong


def stop_syncs(trials, kind, calls):
    """What was recorded last is synced before the `stop` behind it is answered."""
    recorded = max((at for at, call in enumerate(calls) if re.match(r"write\(\d+<[^>]*/LOG>", call)), default=0)
    # Behind it comes one answer more.
    answered = [0, 0, *(at for at, call in enumerate(calls) if call.startswith("write(1<"))][-2]
    synced = [at for at, call in enumerate(calls) if re.match(r"f(data)?sync\(\d+<[^>]*/LOG>", call)]
    trials.check(f"{kind.name}: a stop syncs before it is answered", any(recorded < at < answered for at in synced), f"{recorded}, {synced}, {answered}")


def sweep(trials, program, kind, room, pool):
    ended, calls = traced(program, kind, f"{room}/whole")
    trials.want(f"{kind.name}: the answers", ended, (0, b"".join(kind.answers), b""))
    left = read(f"{room}/whole/LOG") or b""
    trials.want(f"{kind.name}: the log", as_version(left, kind.version), HEADER + lines_of(kind.tables[-1]))
    stop_syncs(trials, kind, calls)
    counts, chosen = {}, []
    for call in calls:
        word = call.split("(")[0]
        counts[word] = counts.get(word, 0) + 1
        chosen.append((word, counts[word], call.replace(f"{room}/whole", "ROOM")))
    begin = next(i for i, call in enumerate(chosen) if i and "ROOM" in call[2])
    runs = [(how, call) for how in WAYS for call in chosen[begin:] if how == "kill" or call[0] not in NO_ERROR]
    found = pool.map(lambda one: disturbed(program, kind, f"{room}/{one[0]}", *one[1]), enumerate(runs))
    for (how, call), wrong in zip(runs, found):
        trials.check(f"{kind.name}: {how} at {call[2][:120]}", not wrong, "; ".join(wrong))
    return len(chosen) - begin


# A run that goes on after a failure: what is asked, and whether that is answered by `ok`.
ON = [b"open", b"record\t" + line_of(*X)[:-1], b"sync", b"stop", b"open", b"get\tx", b"record\t" + line_of(*Y)[:-1], b"sync", b"stop"]


def asked_on(program, text, room, inject=()):
    """Runs these lines on a log: how it ended, its calls, and whether the log is a new file."""
    os.makedirs(room)
    write(f"{room}/LOG", text)
    before = os.stat(f"{room}/LOG").st_ino
    words = ["strace", "-y", "-o", f"{room}/TRACE", "-e", "signal=none", "-e", "trace=write,fsync", *inject, program, "apply", f"{room}/LOG"]
    ended = run(words, stdin=None, input=b"".join(line + b"\n" for line in ON))
    calls = (read(f"{room}/TRACE") or b"").decode(errors="replace").split("\n")
    return ended, calls, os.stat(f"{room}/LOG").st_ino != before


def answers_on(failed, is_of_log):
    """What the lines are answered where a sync fails in this one, and the table that the log has at the end."""
    mode, is_lost, said, table = "closed", False, [], {}
    for number, line in enumerate(ON):
        word = line.split(b"\t")[0]
        refused = {"closed": b"S1 NotOpen", "broken": b"S3 Broken"}.get(mode)
        fails = number == failed or is_lost and word == b"open"
        # (a folder that was never synced takes no replacement)
        is_lost |= number == failed and (number == 0 or not is_of_log)
        if word == b"open":
            mode, answer = ("closed", b"S8 Fault") if fails else ("open", b"ok")
        elif word == b"stop" and mode != "closed":
            mode, answer = "closed", b"S8 Fault" if fails else b"ok"
        elif refused:
            answer = refused
        elif word == b"get":
            answer = line_of(b"x", table[b"x"])[:-1] if b"x" in table else b"none"
        elif fails:
            mode, answer = "broken", b"S8 Fault"
        else:
            answer = b"ok"
        if word == b"record" and answer == b"ok":
            table.update([X if line.startswith(b"record\t1") else Y])
        said.append(answer)
    return b"".join(it + b"\n" for it in said), table


def goes_on(trials, program, room):
    """Each sync in turn fails: what is answered then, and what the log has."""
    for version in (5, 7):
        text = as_version(HEADER, version)
        ended, calls, _ = asked_on(program, text, f"{room}/whole{version}")
        trials.want(f"version {version}: the answers where nothing fails", ended, (0, answers_on(None, True)[0], b""))
        line, syncs = 0, []
        for call in calls:
            line += call.startswith("write(1<")
            if call.startswith("fsync("):
                syncs.append((line, "/LOG>" in call))
        trials.check(f"version {version}: there are syncs of both", {True, False} <= {it for _, it in syncs}, str(syncs))
        for nth, (line, is_of_log) in enumerate(syncs, 1):
            what = f"version {version}, the sync {nth}, of the {'log' if is_of_log else 'folder'} in line {line}, {ON[line].decode()}, fails"
            ended, _, is_new = asked_on(program, text, f"{room}/{version}-{nth}", ["-e", f"inject=fsync:error=EIO:when={nth}"])
            answers, table = answers_on(line, is_of_log)
            trials.want(f"{what}: the answers", ended[1], answers)
            trials.want(f"{what}: the table", Log(as_version(read(f"{room}/{version}-{nth}/LOG"), version)).table, table)
            opens_again = is_of_log and 0 < line < 4
            trials.want(f"{what}: whether the log is a new file", is_new, opens_again)


def trial(trials, program, room):
    if shutil.which("strace") is None:
        return trials.skip("all of it", "strace isn't there")
    if run(["strace", "-o", f"{room}/TRACE", "-e", "inject=write:error=EIO", "true"])[0] != 0:
        return trials.skip("all of it", "strace may not trace here")
    goes_on(trials, program, f"{room}/on")
    count = 0
    with ThreadPoolExecutor(os.cpu_count()) as pool:
        for number, (name, (text, version)) in enumerate(KINDS.items()):
            count += sweep(trials, program, Kind(name, text, version), f"{room}/{number}", pool)
    print(f"apply_calls.py: {count} calls of {len(KINDS)} runs were disturbed, each in {len(WAYS)} ways")
    return None


if __name__ == "__main__":
    sys.exit(main(__file__, trial))
