#!/usr/bin/env python3
"""Tries the system calls of the commands that change a log: their order, and what a kill or an error at each of them leaves; and what
the commands that read one print where a call fails.

    python3 tests/system_calls.py PROGRAM

Wants strace, and that it may trace. Where a command is killed as a call begins, or the call fails with EIO or EINTR, for each
call in turn, the log has to be one that the rules let it leave; later kills leave no less of the work; status 0 comes only of a
log that is done, and never where a call on LOG met EIO; the second line of the refusal, by `--verbose`, has the file of the call
and the error that it met; and the same command again does its work. A folder that can't be synced is said to be so, and is no failure. A command that reads prints all with its own status, or a part
of it and status 1, and says which file it couldn't read or write.
"""
import os
import re
import shutil
import sys
from concurrent.futures import ThreadPoolExecutor

from changes import CASES, FAILED, RECORDED, UNREAD, try_left
from log_format import HEADER, Log, command_hash, line_of, text_of
from log_lines import trace_of
from trials import main, read, run, write

# How a call is disturbed. One that was interrupted may be made again.
WAYS = {"kill": "signal=SIGKILL", "error": "error=EIO", "interrupt": "error=EINTR"}
# What the C library says of these errors.
SAYS = {"error": b"Input/output error (os error 5)", "interrupt": b"Interrupted system call (os error 4)"}
# What says that a folder has no sync, with what the C library says of it; and two errors that are failures.
NO_SYNCS = {
    "EINVAL": b"Invalid argument (os error 22)",
    "EROFS": b"Read-only file system (os error 30)",
    "ENOSYS": b"Function not implemented (os error 38)",
    "EOPNOTSUPP": b"Operation not supported (os error 95)",
}
FAILED_SYNCS = {"EIO": b"Input/output error (os error 5)", "ENOSPC": b"No space left on device (os error 28)"}
# The calls that end the process: one that fails would leave it no way to end.
ENDS = ("exit_group", "exit")
# Calls that the work is done without, where one fails.
LET_GO = ("close", "execve", "fchown", "flistxattr", "fremovexattr")
# A look at the file of a path. With `--verbose` a command that changes a log begins with one, since it says of a log that is missing that it
# is; where that look fails, nothing is said.
LOOKS = ("stat", "newfstatat", "statx")
LOOKS_FIRST = True
# Whether `repair` writes the whole log beside LOG before anything of LOG is cut.
REPAIRS_WHOLE = True
CALL = re.compile(r"(\w+)\((.*?)\) += (\S+)")
# The mode of a new file here, which each LOG has; a scratch has it once it is whole.
MASK = os.umask(0o022)
os.umask(MASK)
NEW_MODE = 0o666 & ~MASK


def lines_of(log):
    return [HEADER, *(line_of(*it) for it in log.table.items())]


def effects_wanted(case):
    """What the command does to the files and the folder, in order, by docs/DISK_MODEL.md."""
    log = Log(case.start or b"")
    sync = ["sync LOG", "sync folder", "look LOG"]

    def rewrite(text):
        write = f"write LOG.recompact {sum(len(it) for it in lines_of(Log(text)))}"
        mode = [f"mode LOG.recompact {NEW_MODE:#o}".replace("0o", "0")] * (NEW_MODE != 0o600)
        return ["look LOG", "make LOG.recompact 0600", "lock LOG.recompact", write, *mode, "sync LOG.recompact", "look LOG", "rename", *sync]

    # (a look that finds no file has no effect)
    wanted = ["make LOG"] if case.start is None else ["look LOG"]
    wanted += ["lock LOG", "look LOG", *sync]
    if case.change.words[0] == "repair" and REPAIRS_WHOLE:
        return [*wanted, *rewrite(case.done)]
    if log.torn:
        wanted += [f"cut LOG {log.whole}", *sync]
    if log.whole == 0:
        wanted += [f"write LOG {len(HEADER)}", *sync]
    if log.is_due():
        wanted += rewrite(text_of(log.table))
    if case.change.words[0] == "record":
        return [*wanted, f"write LOG {len(line_of(*RECORDED))}", *sync]
    return [*wanted, *rewrite(case.done), *sync]


def note(case, room):
    """What is said on standard error of a command that is done."""
    return b"" if case.start is not None else f"nlog: LOG {room}/LOG: it is missing, and was read as empty\n".encode()


def effect(call, room, is_missing):
    """What a call did to a file of the room, or None. The log is missing at the beginning, or isn't."""
    parts = CALL.match(call)
    if not parts or parts[3].startswith(("-", "?")) or room not in parts[2]:
        return None
    name, words, answer = parts[1], parts[2].replace(f"{room}/", ""), parts[3]
    file = re.match(r"\d+<([^>]*)>", words)
    file = "folder" if file and file[1] == room else file[1] if file else ""
    if name in ("fsync", "fdatasync"):
        return f"sync {file}"
    if name in ("write", "pwrite64", "writev"):
        return f"write {file} {answer}"
    if name == "fchmod":
        return f"mode {file} {words.split(', ')[-1]}"
    if name == "ftruncate":
        return f"cut {file} {words.split(', ')[-1]}"
    if name.startswith("rename"):
        return "rename"
    if name == "flock":
        return f"lock {file}"
    if name in LOOKS and f'"{room}/LOG"' in parts[2]:
        return "look LOG"
    if name == "openat" and "O_CREAT" in words:
        made = re.search(r'"([^"]*)"', words)[1]
        return f"make {made} {words.split(', ')[-1]}" if "O_EXCL" in words else f"make {made}" if is_missing else None
    return name if name in ("unlink", "unlinkat", "truncate", "link") else None


def traced(program, case, room, inject=()):
    """Runs a case in a new folder: how it ended, and its system calls."""
    os.makedirs(room)
    case.fill(room)
    nlog, command, *values = case.words(program, room)
    words = ["strace", "-y", "-o", f"{room}/TRACE", "-e", "signal=none", *inject, nlog, command, "--verbose", *values]
    status, out, err = run(words, cwd="/")
    calls = [it for it in (read(f"{room}/TRACE") or b"").decode(errors="replace").split("\n") if re.match(r"\w+\(", it)]
    return (status, out, err), calls


def reason(line, room, how):
    """What is said of the call of this line, which failed so."""
    for name, part in (("KEEP", "KEEP"), ("TIMES", "TIMES"), ("LOG.recompact", "scratch"), ("LOG", "LOG")):
        if f"ROOM/{name}" in line:
            return f"nlog: {part} {room}/{name}: ".encode() + SAYS[how] + b"\n"
    return f"nlog: folder {room}: ".encode() + SAYS[how] + b"\n"


class Sweep:
    """A case, each call of which is disturbed in turn."""

    def __init__(self, trials, program, case, room):
        self.trials, self.program, self.case, self.room = trials, program, case, room
        self.seen = set()

    def undisturbed(self):
        """Tries the case by itself, and gives its calls: the name, which of that name it is, and the line."""
        room = f"{self.room}/whole"
        ended, calls = traced(self.program, self.case, room)
        name, trials = self.case.name, self.trials
        trials.want(f"{name}: ends", ended, (0, b"", note(self.case, room)))
        trials.want(f"{name}: the log", read(f"{room}/LOG"), self.case.done)
        trials.want(f"{name}: its effects", [it for it in (effect(c, room, self.case.start is None) for c in calls) if it], effects_wanted(self.case))
        counts = {}
        for call in calls:
            word = call.split("(")[0]
            counts[word] = counts.get(word, 0) + 1
            yield word, counts[word], call.replace(room, "ROOM")

    def disturbed(self, at, how, call, is_first_look):
        """Runs the case with one call disturbed: what is wrong with how it ended, and which of the logs it left."""
        word, count, line = call
        room = f"{self.room}/{how}{at:05d}"
        (status, out, err), _ = traced(self.program, self.case, room, ["-e", f"inject={word}:{WAYS[how]}:when={count}"])
        left = read(f"{room}/LOG")
        wrong = []
        if out:
            wrong.append(f"it printed {out!r}")
        if left not in self.case.left:
            wrong.append(f"it left {left!r}")
        if status == 0 and left != self.case.done:
            wrong.append("it ended with status 0 before its work was done")
        if how == "kill" and status != -9:
            wrong.append(f"it wasn't killed, but ended with status {status}")
        if how != "kill" and is_first_look:
            if (status, err) != (0, b""):
                wrong.append(f"status {status} with {err!r} after a look that failed")
        elif how != "kill" and "ROOM" in line and word not in LET_GO and (how == "error" or status != 0):
            text = (UNREAD if re.search(r"ROOM/(KEEP|TIMES)", line) else FAILED) + reason(line, room, how)
            if (status, err) != (1, text):
                wrong.append(f"status {status} with {err!r} in place of 1 with {text!r}")
        return wrong, left, read(f"{room}/LOG.recompact"), room

    def judge(self, at, how, call, found):
        """Tries what one run left, where no run before left the same, and gives its place among the logs that may be left."""
        wrong, left, scratch, room = found
        what = f"{self.case.name}: {how} at call {at}, {call[2][:120]}"
        self.trials.check(what, not wrong, "; ".join(wrong))
        if left in self.case.left and (left, scratch) not in self.seen:
            self.seen.add((left, scratch))
            try_left(self.trials, what, self.program, self.case, room)
        shutil.rmtree(room)
        return self.case.left.index(left) if left in self.case.left else 0


def sweep(trials, program, case, room, pool, is_first):
    """Disturbs each call of a case: from the program's beginning on for the first of a command, else from its first file on."""
    it = Sweep(trials, program, case, room)
    calls = list(it.undisturbed())
    begin = 1 if is_first else next(i for i, call in enumerate(calls) if i and "ROOM" in call[2])
    first_look = next((i for i, c in enumerate(calls) if LOOKS_FIRST and c[0] in LOOKS and '"ROOM/LOG"' in c[2]), None)
    for how in WAYS:
        chosen = [(i, c) for i, c in enumerate(calls) if i >= begin and (how == "kill" or c[0] not in ENDS)]
        found = list(pool.map(lambda one: it.disturbed(one[0], how, one[1], one[0] == first_look), chosen))
        places = [it.judge(at, how, call, one) for (at, call), one in zip(chosen, found)]
        if how == "kill":
            trials.check(f"{case.name}: a later kill leaves no less", places == sorted(places), str(places))
    return len(calls) - begin


# A log that is damaged, and what each word that reads a file prints of it, with its status.
DAMAGED = HEADER + b"1\t2\t10\ta\taa\nx\n3\t4\t20\ta\tbb\n5\t6"
READERS = {
    "show": (0, b"3\t4\t20\ta\tbb\n"),
    "check": (0, Log(DAMAGED).report()),
    "entries": (0, b"1\t2\t10\ta\taa\n3\t4\t20\ta\tbb\n"),
    "damage": (3, b"3\tskipped\t1\t-\t-\n5\ttorn\t3\t-\t-\n"),
    "doubt": (3, b"missing\ta\n"),
    "builds": (0, b"1\t2\t2\t3\t2\tsure\n"),
    "summary": (0, b"commands\t2\noutputs\t2\nwall\t3\ntotal\t2\nbusy\t2\nalone\t2\nparallel\t0.66\nslowest\t1\ta\n" + b"by-time\t1\t1.00\ta\n" * 2 + b"by-weight\t1\t1.00\ta\n" * 2 + b"kinds-by-time\t2\t2\t2.00\t(none)\nkinds-by-weight\t2\t2\t2.00\t(none)\n"),
    "trace": (0, trace_of(DAMAGED)),
    "hash-file": (0, b"%x\n" % command_hash(DAMAGED)),
}
UNWRITTEN = b"nlog: cannot write\n"
# It answers the old end of memory where it fails, and never the number of an error.
NO_ERROR = (*ENDS, "brk")


def read_traced(program, word, room, inject=()):
    """Runs a word that reads a log in a new folder: how it ended, and its system calls."""
    os.makedirs(room)
    write(f"{room}/LOG", DAMAGED)
    ended = run(["strace", "-y", "-o", f"{room}/TRACE", "-e", "signal=none", *inject, program, word, "-v", f"{room}/LOG"], cwd="/")
    return ended, [it for it in (read(f"{room}/TRACE") or b"").decode(errors="replace").split("\n") if re.match(r"\w+\(", it)]


def read_disturbed(program, word, room, how, call):
    """What is wrong with how a word ended that reads, with one call disturbed."""
    name, count, line = call
    status, text = READERS[word]
    (ended, out, err), _ = read_traced(program, word, room, ["-e", f"inject={name}:{WAYS[how]}:when={count}"])
    file = "FILE" if word == "hash-file" else "LOG"
    wrong = [] if read(f"{room}/LOG") == DAMAGED else ["LOG was changed"]
    if word == "doubt" and name == "statx" and '"a"' in line:
        # The file of the output itself, of which nothing can be told then.
        text = b"unknown\ta\n"
    if not text.startswith(out):
        wrong.append(f"it printed {out!r}")
    if how == "kill":
        return wrong + ([] if ended == -9 else [f"it wasn't killed, but ended with status {ended}"])
    if ended == status:
        return wrong + ([] if (out, err) == (text, b"") else [f"it ended well with {out!r} and {err!r}"])
    said = {
        UNREAD + f"nlog: {file} {room}/LOG: ".encode() + SAYS[how] + b"\n",
        UNWRITTEN + b"nlog: standard output: " + SAYS[how] + b"\n",
        b"nlog: out of memory\n",
    }
    if ended != 1 or err not in said:
        wrong.append(f"status {ended} with {err!r}")
    elif ("ROOM/LOG" in line) != (err.startswith(UNREAD)) or (name == "write") != (err.startswith(UNWRITTEN)):
        wrong.append(f"{err!r} is said of another call")
    return wrong


def sweep_readers(trials, program, room, pool):
    """Disturbs each call of the words that read, from the one on that opens LOG."""
    count = 0
    for word, (status, text) in READERS.items():
        ended, calls = read_traced(program, word, f"{room}/{word}")
        trials.want(f"{word} ends", ended, (status, text, b""))
        counts, chosen = {}, []
        for call in calls:
            name = call.split("(")[0]
            counts[name] = counts.get(name, 0) + 1
            chosen.append((name, counts[name], call.replace(f"{room}/{word}", "ROOM")))
        begin = next(i for i, call in enumerate(chosen) if i and "ROOM" in call[2])
        runs = [(how, call) for how in WAYS for call in chosen[begin:] if how == "kill" or call[0] not in NO_ERROR]
        found = pool.map(lambda one, word=word: read_disturbed(program, word, f"{room}/{word}{one[0]}", *one[1]), enumerate(runs))
        for (how, call), wrong in zip(runs, found):
            trials.check(f"{word}: {how} at {call[2][:120]}", not wrong, "; ".join(wrong))
        count += len(chosen) - begin
    return count


# A log that `mend` finds damaged, an output of which has a file; what it leaves, and what it prints.
MENDING = HEADER + b"1\t2\t10\ta\taa\n1\t3\t10\tb\tbb\n3\t4\t20\ta\tc"
MENDED = HEADER + b"2\t2\t0\ta\tffffffffffffff55\n1\t3\t10\tb\tbb\n"
TOLD = b"damaged\ta\n"


def mend_traced(program, room, inject=()):
    """Runs `mend` in a new folder: how it ended, and its system calls."""
    os.makedirs(room)
    write(f"{room}/LOG", MENDING)
    write(f"{room}/a", b"")
    ended = run(["strace", "-y", "-o", f"{room}/TRACE", "-e", "signal=none", *inject, program, "mend", "-v", f"{room}/LOG", "-C", room], cwd="/")
    return ended, [it for it in (read(f"{room}/TRACE") or b"").decode(errors="replace").split("\n") if re.match(r"\w+\(", it)]


def mend_disturbed(program, room, how, call):
    """What is wrong with what `mend` leaves with one call disturbed: LOG is as it was or mended, and the same command then does its work."""
    name, count, line = call
    (ended, out, err), _ = mend_traced(program, room, ["-e", f"inject={name}:{WAYS[how]}:when={count}"])
    left, wrong = read(f"{room}/LOG"), []
    if left not in (MENDING, MENDED):
        wrong.append(f"it left {left!r}")
    if read(f"{room}/a") != b"":
        wrong.append("it changed a file")
    if how != "kill" and ended in (0, 3) and left != MENDED:
        wrong.append(f"status {ended}, {err!r} over {left!r}")
    if how != "kill" and ended == 3 and out != TOLD:
        wrong.append(f"it printed {out!r}")
    again = run([program, "mend", f"{room}/LOG", "-C", room], cwd="/")
    if again not in ((3, TOLD, b""), (0, b"", b"")) or read(f"{room}/LOG") != MENDED or again[0] != (3 if left == MENDING else 0):
        wrong.append(f"again: {again!r} and {read(f'{room}/LOG')!r}")
    return wrong


def sweep_mend(trials, program, room, pool):
    """Disturbs each call of `mend`, from the one on that opens LOG."""
    ended, calls = mend_traced(program, f"{room}/mend")
    trials.want("mend ends", (ended, read(f"{room}/mend/LOG")), ((3, TOLD, b""), MENDED))
    steps = [it for it in (effect(call, f"{room}/mend", False) for call in calls) if it and not it.startswith(("look", "lock"))]
    rewrite = ["make LOG.recompact 0600", f"write LOG.recompact {len(MENDED)}", *[f"mode LOG.recompact 0{NEW_MODE:o}"] * (NEW_MODE != 0o600), "sync LOG.recompact", "rename"]
    trials.want("mend: what it does, in order", steps, ["sync LOG", "sync folder", *rewrite, "sync LOG", "sync folder"])
    counts, chosen = {}, []
    for call in calls:
        name = call.split("(")[0]
        counts[name] = counts.get(name, 0) + 1
        chosen.append((name, counts[name], call.replace(f"{room}/mend", "ROOM")))
    begin = next(i for i, call in enumerate(chosen) if call[0] != "execve" and "ROOM/LOG" in call[2])
    # Where the look at an output's file fails, nothing is known of it.
    runs = [(how, call) for how in WAYS for call in chosen[begin:] if (how == "kill" or call[0] not in NO_ERROR) and not re.search("ROOM/[ab]", call[2])]
    found = pool.map(lambda one: mend_disturbed(program, f"{room}/mend{one[0]}", *one[1]), enumerate(runs))
    for (how, call), wrong in zip(runs, found):
        trials.check(f"mend: {how} at {call[2][:120]}", not wrong, "; ".join(wrong))
    return len(chosen) - begin


def try_folders(trials, program, room):
    """A folder that can't be synced: the command does its work, and says so once, if asked. Any other error of that sync is a failure."""
    for number, case in enumerate(CASES):
        for error, said in {**NO_SYNCS, **FAILED_SYNCS}.items():
            for asked in (["--verbose"], []):
                here = f"{room}/{number}{error}{len(asked)}"
                os.makedirs(here)
                case.fill(here)
                nlog, command, *values = case.words(program, here)
                inject = ["-P", here, "-e", f"inject=fsync:error={error}"]
                ended = run(["strace", "-o", f"{here}.trace", "-e", "signal=none", *inject, nlog, command, *asked, *values], cwd="/")
                folder = f"nlog: folder {here}: ".encode()
                what = f"{case.name}, {' '.join(asked)} in a folder whose syncs answer {error}"
                if error in NO_SYNCS:
                    told = note(case, here) + folder + b"it can't be synced, so a power cut may undo a rename: " + said + b"\n"
                    trials.want(what, (ended, read(f"{here}/LOG")), ((0, b"", told if asked else b""), case.done))
                else:
                    told = folder + said + (b"; LOG keeps its entries" if error == "ENOSPC" else b"") + b"\n"
                    trials.want(what, ended, (1, b"", FAILED + (told if asked else b"")))


def trial(trials, program, room):
    if shutil.which("strace") is None:
        return trials.skip("all of it", "strace isn't there")
    if run(["strace", "-o", f"{room}/TRACE", "-e", "inject=write:error=EIO", "true"])[0] != 0:
        return trials.skip("all of it", "strace may not trace here")
    commands, count = set(), 0
    with ThreadPoolExecutor(os.cpu_count()) as pool:
        for number, case in enumerate(CASES):
            word = case.change.words[0]
            count += sweep(trials, program, case, f"{room}/{number}", pool, word not in commands)
            commands.add(word)
        count += sweep_readers(trials, program, f"{room}/readers", pool)
        count += sweep_mend(trials, program, f"{room}/mends", pool)
    try_folders(trials, program, f"{room}/folders")
    print(f"system_calls.py: {count} calls of {len(CASES) + len(READERS)} runs were disturbed, each in {len(WAYS)} ways")
    return None


if __name__ == "__main__":
    sys.exit(main(__file__, trial))
