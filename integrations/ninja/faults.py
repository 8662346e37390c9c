#!/usr/bin/env python3
"""Tries a Ninja beside the same Ninja on the library where a log is damaged, a disk or a read fails, or a process is killed.

    python3 integrations/ninja/faults.py PLAIN PATCHED

The faults of README.md are shown on the plain one, and shown to be gone on the patched one: a torn line, a full disk, a read error, a kill
within a rewriting; commands that were killed, failed or interrupted. Then each other row of its table: what intents are written, and when they
are synced; logs of other versions, damaged ones and files that are no logs; names that a log can't hold, times before 1970, a log that is
locked, a build that does nothing.
"""
import fcntl
import itertools
import os
import shutil
import signal
import subprocess
import sys
import tempfile
import time

sys.path.insert(0, os.path.dirname(os.path.dirname(os.path.abspath(__file__))))
from builds import LOG, Builder, echoing, entries_of, interrupted, kinds_of, long_log, making, names_in, tagged, touching, traced, with_file
from trials import Trials, fill_up, read, write

IDLE = "ninja: no work to do.\n"


def try_torn(trial, ninja, header, is_plain):
    """A, B whose line is torn, B again, A."""
    for word in "AB":
        echoing(word)
        ninja.run()
    text = read(LOG)
    last = text[:-1].rfind(b"\n") + 1
    write(LOG, text[: text.index(b"\tout", last) + 3])
    trial.check("torn: B is run again", ninja.run()[0] == 0)
    echoing("A")
    said = ninja.run()[1]
    trial.want("torn: A after that", (said == IDLE, read("out")), (True, b"B\n") if is_plain else (False, b"A\n"))


def try_full_disk(trial, ninja, header, is_plain):
    os.makedirs("full")
    if subprocess.run(["mount", "-t", "tmpfs", "-o", "size=64k", "tmpfs", "full"], stderr=subprocess.DEVNULL, check=False).returncode != 0:
        return print("skipped: a full disk: nothing can be mounted")
    try:
        os.chdir("full")
        touching("a", "b")
        text = header + b"1\t2\t3\ta\taa\n1\t2\t3\tb\tbb\n"
        write(LOG, text)
        fill_up("fill")
        status = ninja.run("-t", "recompact")[0]
        trial.want("a full disk: -t recompact: did it fail, and the log", (status != 0, read(LOG)), (False, b"") if is_plain else (True, text))
        if not is_plain:
            for word in ("restat", "recompact"):
                trial.check(f"a full disk: -t {word} fails", ninja.run("-t", word)[0] != 0)
                trial.want(f"a full disk: the log after -t {word}", read(LOG), text)
            os.remove("fill")
            trial.want("once there is room: -t recompact", ninja.run("-t", "recompact")[0], 0)
            trial.want("once there is room: the log", read(LOG), text)
            # The log fills its page. A command that ran is told by what it leaves, for which there is room on another disk.
            write("build.ninja", f"rule c\n  command = touch {ninja.folder}/ran\nbuild a: c\n")
            text += b"1\t2\t3\t" + b"x" * (4096 - len(text) - 10) + b"\taa\n"
            write(LOG, text)
            fill_up("fill")
            status, said = ninja.run()
            trial.check("a full disk: a build fails, and runs no command", len(text) == 4096 and status != 0 and not os.path.exists(f"{ninja.folder}/ran"), said)
    finally:
        os.chdir(ninja.folder)
        subprocess.run(["umount", "full"], check=False)
    return None


def try_read_error(trial, ninja, header, is_plain):
    touching("a", "z")
    text = long_log(header)
    for when in ("1", "2+"):
        write(LOG, text)
        before = traced("-P", LOG, "-e", "trace=read,pread64", "-e", f"inject=read,pread64:error=EIO:when={when}")
        status, said = ninja.run("-t", "recompact", before=before)
        if is_plain:
            trial.check(f"a read error, {when}: status 0, and entries are lost", status == 0 and set(names_in(read(LOG))) < {b"a", b"z"}, repr((status, said)))
        else:
            trial.check(f"a read error, {when}: it fails and says so", status == 1 and "nput/output error" in said, repr((status, said)))
            trial.want(f"a read error, {when}: the log", read(LOG), text)


def try_kill(trial, ninja, header, is_plain):
    """At the system call that gives the new log its name."""
    touching("a", "z")
    for it in "az":
        write(it, it)
    for word in ("recompact", "restat"):
        text = long_log(header)
        write(LOG, text)
        ninja.run("-t", word, before=traced("-e", "trace=rename,renameat,renameat2", "-e", "inject=rename,renameat,renameat2:signal=SIGKILL"))
        if is_plain:
            trial.want(f"a kill at the rename of {word}: the log", read(LOG), None)
            continue
        found = read(LOG)
        trial.check(f"a kill at the rename of {word}: a whole log is there", found is not None and found.startswith(header) and {b"a", b"z"} <= set(names_in(found)))
        trial.want(f"after that: -t {word}", ninja.run("-t", word)[0], 0)
        trial.check("after that: the entries", {b"a", b"z"} <= set(names_in(read(LOG))))
        trial.want("after that: no other file is left", [it for it in os.listdir(".") if it.startswith(LOG + ".")], [])


def try_killed(trial, ninja, header, is_plain):
    """A, B with a kill behind the command, and A again."""
    tagged("A")
    ninja.run()
    tagged("B")
    trial.want("killed: B", with_file("die", ninja.run)[0], -signal.SIGKILL)
    trial.want("killed: the lines", kinds_of("out"), ["record"] if is_plain else ["record", "intent"])
    tagged("A")
    explained = ninja.run("-n", "-d", "explain")[1]
    said = ninja.run()[1]
    trial.want("killed: A after that", (said == IDLE, read("out")), (True, b"B\n") if is_plain else (False, b"A\n"))
    if not is_plain:
        trial.check("killed: it says why", "command line changed for out" in explained, explained)
        tagged("B")
        ninja.run()
        hashes = [it[3] for it in entries_of("out")]
        trial.want("killed: the intent has the complement of B's hash", hashes[1], 2**64 - 1 - hashes[-1])
        ends = [it[1] for it in entries_of("out")][-2:]
        trial.check("killed: within a build no end falls", ends == sorted(ends), repr(ends))


def try_failed(trial, ninja, header, is_plain):
    """A, B that fails when it has written its output, and A again; a command that fails over an output that was removed; one that fails twice."""
    tagged("A")
    ninja.run()
    tagged("B")
    trial.check("failed: B", with_file("fail", ninja.run)[0] != 0)
    tagged("A")
    said = ninja.run()[1]
    trial.want("failed: A after that", (said == IDLE, read("out")), (True, b"B\n") if is_plain else (False, b"A\n"))
    tagged("A")
    ninja.run()
    os.remove("out")
    trial.check("failed: over a removed output", with_file("fail", ninja.run)[0] != 0)
    trial.want("failed: is there nothing to do behind it", ninja.run()[1] == IDLE, is_plain)
    tagged("B")
    trial.check("failed: once", with_file("fail", ninja.run)[0] != 0)
    count = len(entries_of("out"))
    trial.check("failed: twice", with_file("fail", ninja.run)[0] != 0)
    trial.want("failed: twice: an intent more", kinds_of("out")[count:], [] if is_plain else ["intent"])


def try_interrupted(trial, ninja, header, is_plain):
    """A build that is interrupted removes the outputs that a command wrote; the others it leaves."""
    tagged("A")
    ninja.run()
    tagged("B")
    trial.check("interrupted: B", interrupted(ninja) not in (0, -signal.SIGINT))
    trial.want("interrupted: the output is removed", read("out"), None)
    tagged("A")
    trial.want("interrupted: A after that", (ninja.run()[0], read("out")), (0, b"A\n"))
    making("rule c\n  command = $more && echo B > out\nbuild out: c\n")
    interrupted(ninja)
    trial.want("interrupted before it wrote: the output stays", read("out"), b"A\n")
    tagged("A")
    trial.want("interrupted before it wrote: is there nothing to do for A", ninja.run()[1] == IDLE, is_plain)


FAULTS = [("torn", try_torn), ("full", try_full_disk), ("read", try_read_error), ("kill", try_kill),
          ("killed", try_killed), ("failed", try_failed), ("interrupted", try_interrupted)]


# ---- what the patched one does otherwise ----


def try_plain(trial, ninja, header):
    """What README.md says of the plain one."""
    own, lines = int(header[-2:-1]), b"1\t2\t3\tgone\taa\n"
    touching("a")
    newer = b"# ninja log v8\n" + lines
    write(LOG, newer)
    ninja.run()
    found = read(LOG)
    if own == 5:
        trial.check("plain: a newer log gets lines of this version", found.startswith(newer) and names_in(found) == [b"gone", b"a"], repr(found))
        write(LOG, b"# ninja log v3\n" + lines)
        trial.check("plain: a recompaction of an old log fails", ninja.run("-t", "recompact")[0] == 1)
    else:
        trial.check("plain: a newer log is removed", found.startswith(header) and names_in(found) == [b"a"], repr(found))
    write(LOG, b"something else\n")
    said = ninja.run()[1]
    trial.check("plain: what is no log is removed, as an old version", "starting over" in said and b"something" not in read(LOG) and not os.path.exists(LOG + ".not-a-log"), said)
    write(LOG, header[:7])
    trial.check("plain: a torn first line is taken for an old version", "starting over" in ninja.run()[1])
    os.chmod(LOG, 0o640)
    ninja.run("-t", "recompact")
    trial.check("plain: a rewritten log has other permissions", os.stat(LOG).st_mode & 0o777 != 0o640)
    text = read(LOG)
    write(LOG, text.replace(b"\n", b"\r\n"))
    trial.want("plain: a carriage return behind a hash is passed over", ninja.run()[1], IDLE)
    write(LOG, header + b"1\t2\t3\ta\tcommand\n")
    ninja.run("-t", "restat")
    trial.check("plain: a hash is what strtoull makes of it", read(LOG).endswith(b"\ta\tc\n"), repr(read(LOG)))
    write("build.ninja", "rule c\n  command = touch $out\nbuild a\tb: c\n")
    os.remove(LOG)
    ninja.run()
    trial.check("plain: a name with a tab is an entry of another output", b"\ta\tb\t" in read(LOG), repr(read(LOG)))
    touching("a")
    ninja.run()
    os.utime("a", (-5, -5))
    ninja.run("-t", "restat", "a")
    trial.check("plain: a time before 1970 is negative", b"\t-5000000000\ta\t" in read(LOG), repr(read(LOG)))


def try_distrusted(trial, ninja, header):
    """A and B by plain Ninja, of which B's line is torn; then A at once, or behind lines that plain Ninja wrote behind the torn one."""
    plain = Builder([ninja.plain], ninja.folder)

    def described(word, other="x"):
        write("build.ninja", f"rule c\n  command = echo $word > $out\nbuild out: c\n  word = {word}\nbuild other: c\n  word = {other}\n")

    def tear():
        for it in (LOG, "out", "other"):
            if os.path.exists(it):
                os.remove(it)
        for word in "AB":
            described(word)
            plain.run("-j1")
        write(LOG, read(LOG)[:-6])

    def tear_at_end():
        tear()
        described("A")

    def join_its_own():
        tear()
        plain.run()
        described("A")

    def join_another():
        tear()
        described("A", "y")
        plain.run("other")

    def is_whole():
        return read(LOG).startswith(header) and read(LOG).endswith(b"\n") and all(it.count(b"\t") == 4 for it in read(LOG).split(b"\n")[1:-1])

    for name, make in (("at the end", tear_at_end), ("its own line behind it", join_its_own), ("another's behind it", join_another)):
        make()
        text, other = read(LOG), b"y\n" if make == join_another else b"x\n"
        trial.want(f"distrusted: {name}: it is damaged, and B stands", (is_whole(), read("out")), (False, b"B\n"))
        trial.check(f"distrusted: {name}: -n says so", "command line not found in log for out" in ninja.run("-n", "-d", "explain")[1])
        trial.want(f"distrusted: {name}: the log after -n", read(LOG), text)
        trial.want(f"distrusted: {name}: A after that", (ninja.run()[0], read("out"), read("other")), (0, b"A\n", other))
        trial.want(f"distrusted: {name}: the log is whole, with both", (is_whole(), sorted(names_in(read(LOG)))), (True, [b"other", b"out"]))
        trial.want(f"distrusted: {name}: then", ninja.run(), (0, IDLE))
        for word in ("recompact", "restat"):
            make()
            names = [] if make == join_another else [b"other"]
            trial.want(f"distrusted: {name}: -t {word}", (ninja.run("-t", word)[0], is_whole(), names_in(read(LOG))), (0, True, names))
            trial.want(f"distrusted: {name}: A after -t {word}", (ninja.run()[0], read("out")), (0, b"A\n"))
        # A kill at each call that changes the log, or makes it durable.
        kills = 0
        for call, when in itertools.product(["fsync", "ftruncate", "renameat", "unlinkat", "fchmod", "write"], range(1, 8)):
            make()
            before = traced("-P", LOG, "-P", f"{LOG}.recompact", "-P", ".", "-e", f"trace={call}", "-e", f"inject={call}:signal=SIGKILL:when={when}")
            if ninja.run(before=before)[0] == 0:
                continue
            kills += 1
            trial.want(f"distrusted: {name}: A after a kill at {call} {when}", (ninja.run()[0], read("out")), (0, b"A\n"))
        trial.check(f"distrusted: {name}: kills", kills > 6, kills)
    touching("out", "other")
    ninja.run()
    # A line that names no output.
    write(LOG, read(LOG) + b"1\t2\t3\tnobody\n")
    text = read(LOG)
    trial.want("distrusted: none: there is nothing to do", (ninja.run(), read(LOG)), ((0, IDLE), text))


def try_restat_rule(trial, ninja, header):
    """A rule with restat: its record follows its intent, also where its output doesn't change, and what depends on it isn't built then."""
    def described(word, text):
        making(f"rule c\n  command = : {word}; echo {text} > $out.new; (cmp -s $out.new $out && rm $out.new || mv $out.new $out) && $more\n  restat = 1\n"
               "rule d\n  command = cat $in > $out\nbuild out: c\nbuild down: d out\ndefault down\n")
    described("A", "x")
    ninja.run()
    described("B", "x")
    ninja.run()
    trial.want("restat: the lines", (kinds_of("out"), kinds_of("down")), (["record", "intent", "record"], ["record", "intent", "record"]))
    trial.want("restat: what depends on it has the entry that it had", entries_of("down")[2], entries_of("down")[0])
    trial.want("restat: nothing is left to do", ninja.run()[1], IDLE)
    described("A", "x")
    with_file("die", ninja.run)
    described("B", "x")
    trial.check("restat: killed, and B again: it runs", ninja.run()[1] != IDLE)
    trial.want("restat: what depends on it does, since nothing tells that it didn't", kinds_of("down")[-2:], ["intent", "record"])
    described("B", "y")
    with_file("die", ninja.run)
    described("B", "x")
    ninja.run()
    trial.want("restat: what it wrote before the kill is gone", (read("out"), read("down"), ninja.run()[1]), (b"x\n", b"x\n", IDLE))


def try_outputs(trial, ninja, header):
    """A command with several outputs: an intent of each that has an entry. Those that a dyndep file names have one too."""
    making("rule c\n  command = touch $out && $more\nbuild a b: c\n")
    ninja.run()
    making("rule c\n  command = : ; touch $out && $more\nbuild a b c: c\n")
    with_file("die", ninja.run)
    trial.want("outputs: the lines", [kinds_of(it) for it in "abc"], [["record", "intent"], ["record", "intent"], []])
    trial.check("outputs: all are built again", ninja.run()[1] != IDLE and ninja.run()[1] == IDLE)
    write("dd", "ninja_dyndep_version = 1\nbuild out | hid: dyndep\n")
    for word in ("A", "B"):
        making(f"rule c\n  command = : {word}; touch out hid && $more\nbuild out: c || dd\n  dyndep = dd\n")
        if word == "A":
            ninja.run()
    with_file("die", ninja.run)
    trial.want("dyndep: the lines", [kinds_of(it) for it in ("out", "hid")], [["record", "intent"]] * 2)


def try_generator(trial, ninja, header):
    """A generator's output is judged by its time stamp: with an input it is made again, also without an entry; without one it isn't."""
    def described(inputs):
        making(f"rule g\n  command = touch out && $more\n  generator = 1\nbuild out: g {inputs}\n")
    write("in", "")
    described("in")
    ninja.run()
    os.remove("out")
    with_file("die", ninja.run)
    trial.want("a generator: the lines", kinds_of("out"), ["intent", "record", "intent"])
    trial.check("a generator: it runs again", ninja.run()[1] != IDLE and ninja.run()[1] == IDLE)
    os.remove("out")
    with_file("die", ninja.run)
    ninja.run("-t", "restat", "out")
    trial.check("a generator: it runs again behind -t restat too", ninja.run()[1] != IDLE)
    described("")
    os.remove("out")
    with_file("die", ninja.run)
    trial.want("a generator without inputs: it isn't made again", ninja.run()[1], IDLE)
    os.remove(LOG)
    os.remove("out")
    described("in")
    with_file("die", ninja.run)
    trial.want("a generator without an entry: the lines", kinds_of("out"), ["intent"])
    trial.check("a generator without an entry: it runs again", ninja.run()[1] != IDLE and ninja.run()[1] == IDLE)
    making("rule g\n  command = touch out && $ninja && $more\n  generator = 1\nbuild out: g in\n  ninja = " + " ".join(ninja.command) + " -t recompact\n")
    os.remove("out")
    ninja.run()
    trial.want("a generator that rewrites the log: its record stands", (kinds_of("out")[-1], ninja.run()[1]), ("record", IDLE))


def try_no_intent(trial, ninja, header):
    """What runs no command writes none: -n, tools, phony edges. What -t restat and -t recompact make of one."""
    touching("a")
    with open("build.ninja", "a", encoding="ascii") as it:
        it.write("build all: phony a\ndefault all\n")
    ninja.run()
    trial.want("phony: the log", names_in(read(LOG)), [b"a"])
    write("build.ninja", read("build.ninja").replace(b"touch", b"touch --"))
    text = read(LOG)
    for words in (["-n"], ["-t", "query", "a"], ["-t", "commands"], ["-t", "targets"], ["-t", "cleandead"], ["-t", "clean"]):
        trial.want(f"{words}: the log", (ninja.run(*words)[0], read(LOG)), (0, text))
    os.remove(LOG)
    tagged("A")
    with_file("fail", ninja.run)
    trial.want("a first build that fails: no log", read(LOG), None)
    ninja.run()
    tagged("B")
    with_file("die", ninja.run)
    intent = entries_of("out")[-1]
    ninja.run("-t", "recompact")
    trial.want("-t recompact keeps an intent", entries_of("out"), [intent])
    ninja.run("-t", "restat")
    trial.want("-t restat leaves it as it is", entries_of("out"), [intent])
    tagged("A")
    trial.check("-t restat: it is built again", ninja.run()[1] != IDLE)


def try_due(trial, ninja, header):
    """A command that runs again adds two lines, and what its record follows goes by the next rewriting: behind three builds and not four."""
    names = [f"o{it}" for it in range(40)]
    counts = []
    for word in range(4):
        write("build.ninja", f"rule c\n  command = : {word}; touch $out\n" + "".join(f"build {it}: c\n" for it in names))
        ninja.run()
        counts.append(len(names_in(read(LOG))))
    trial.want("due: the lines after each build", counts, [40, 120, 200, 120])
    ninja.run("-t", "recompact")
    trial.want("due: no intent is left", {tuple(kinds_of(it)) for it in names}, {("record",)})


def try_syncs(trial, ninja, header):
    """The intents of all edges are written at once, and synced once, before the first command; by `outputs` these too, before their records."""
    for value in ("", "intents", "outputs", "none"):
        write(LOG, header)
        for word in "AB":
            write("build.ninja", f"rule c\n  command = : {word}; touch $out\n" + "".join(f"build o{it}: c\n" for it in range(40)) + "build all: phony " + " ".join(f"o{it}" for it in range(40)) + "\ndefault all\n")
            before = ["strace", "-y", "-o", "calls", "-e", "signal=none", "-e", "trace=write,fsync,clone,clone3,vfork"]
            trial.want(f"syncs, {value!r}: ends", ninja.run("-j4", before=before, NINJA_LOG_SYNC=value)[0], 0)
        calls = []
        for it in read("calls").decode().splitlines():
            if it.startswith(("clone", "vfork")):
                calls.append("start")
            elif f"{LOG}>" in it:
                calls.append("fsync" if it.startswith("fsync") else "write")
            elif it.startswith("fsync") and "/o" in it:
                calls.append("output")
        begun = calls[: calls.index("start")] if "start" in calls else calls
        trial.want(f"syncs, {value!r}: before the first command", begun, [] if value == "none" else ["fsync", "write", "fsync"])
        rest = calls[len(begun):]
        ends = [at for at, it in enumerate(rest) if it == "write"]
        trial.want(f"syncs, {value!r}: the records", len(ends), 40)
        if value == "outputs":
            trial.check("syncs, outputs: each record follows the sync of its output", all(rest[at - 1] == "output" for at in ends), repr(rest))
        trial.want(f"syncs, {value!r}: and no more syncs", rest.count("fsync"), 1 if value == "none" else 0)
    trial.want("syncs: the first build of a folder has none", with_fresh(ninja), 0)
    for words in ([], ["-n"], ["-t", "recompact"], ["-t", "restat"], ["-t", "cleandead"]):
        status, said = ninja.run(*words, NINJA_LOG_SYNC="1")
        trial.check(f"syncs: another value is refused by {words}", status == 1 and "NINJA_LOG_SYNC is none of" in said, said)
    trial.want("syncs: with a limit on the load", ninja.run("-l", "1000", NINJA_LOG_SYNC="outputs")[0], 0)


def with_fresh(ninja):
    """How many syncs of the log a build makes in a folder without one, beside the two of the open: no output has an entry."""
    os.remove(LOG)
    ninja.run("-j4", before=["strace", "-y", "-o", "calls", "-e", "signal=none", "-e", "trace=fsync"], NINJA_LOG_SYNC="intents")
    return sum(f"{LOG}>" in it for it in read("calls").decode().splitlines()) - 2


def try_unreadable(trial, ninja, header):
    """By `outputs`, a file that can't be read is synced by a descriptor that may write it; a folder that can't be read has a warning, once."""
    if os.getuid() != 0:
        return print("skipped: outputs that can't be read: another user's builds can't be tried")
    os.makedirs("closed")
    write("build.ninja", "rule c\n  command = touch $out && chmod 200 $out\nbuild o: c\nbuild closed/a: c\nbuild closed/b: c\n")
    for it in (ninja.folder, "closed"):
        os.chown(it, 65534, 65534)
    os.chmod("closed", 0o311)
    status, said = ninja.run(before=["setpriv", "--reuid=65534", "--regid=65534", "--clear-groups", "strace", "-f", "-y", "-o", "calls", "-e", "trace=fsync"], NINJA_LOG_SYNC="outputs")
    trial.check("can't be read: it ends, with one warning", status == 0 and said.count("warning: can't sync 'closed/'") == said.count("warning:") == 1, said)
    synced = {it.split("<")[1].split(">")[0] for it in read("calls").decode().splitlines() if "fsync" in it}
    trial.check("can't be read: the outputs are synced", {f"{ninja.folder}/{it}" for it in ("o", "closed/a", "closed/b")} <= synced, repr(synced))
    return None


def try_withdrawn(trial, ninja, header):
    """What never started has the entry that it had, once a build failed or was interrupted. What started has its intent, whatever became of it."""
    text = "rule c\n  command = echo $word > $out && (test $out != a || ($more))\nbuild a: c\nbuild b: c a\nbuild z: c b\n"
    making("word = A\n" + text)
    ninja.run()
    making("word = B\n" + text)
    trial.check("withdrawn: it fails", with_file("fail", lambda: ninja.run("-j1"))[0] != 0)
    trial.want("withdrawn: the lines", [kinds_of(it) for it in "abz"], [["record", "intent"], *[["record", "intent", "record"]] * 2])
    trial.want("withdrawn: the entries", [entries_of(it)[0] == entries_of(it)[-1] for it in "abz"], [False, True, True])
    trial.check("withdrawn: it is interrupted", interrupted(ninja) != 0)
    trial.want("withdrawn: the entries after that", [(kinds_of(it)[-1], entries_of(it)[0] == entries_of(it)[-1]) for it in "abz"], [("intent", False), *[("record", True)] * 2])
    # Another Ninja began z meanwhile, and was killed when it had written it: its intent isn't taken back.
    making(f"word = B\n{text}".replace("test $out != a", "test $out = b"))
    write("inner.ninja", f"rule c\n  command = echo C > $out && kill -9 $$PPID\nbuild z: c\n")
    making("rule c\n  command = " + " ".join(ninja.command) + " -f inner.ninja; false\nrule d\n  command = echo $word > $out\nword = B\nbuild a: c\nbuild z: d a\n")
    ninja.run("-j1", "z")
    trial.want("withdrawn: not over another's intent", (read("z"), kinds_of("z")[-1]), (b"C\n", "intent"))
    making("word = A\n" + text)
    trial.want("withdrawn: it is made again", (ninja.run()[0], read("z")), (0, b"A\n"))


def try_stopped(trial, ninja, header):
    """What runs behind a SIGKILL that b's command gives Ninja: of the same manifest what plain Ninja runs. If it went back, what never started too."""
    text = "rule c\n  command = echo $word > $out; echo $out >> ran; (test $out != b || ($more))\nbuild a: c\nbuild b: c || a\nbuild z: c || b\n"
    for name, command, back in (("plain", [ninja.plain], b"a\n"), ("patched", ninja.command, b"a\nb\nz\n")):
        for then, wanted in (("B", b"b\nz\n"), ("A", back)):
            builder = Builder(command, f"{ninja.folder}/{name}{then}")
            for word in ("A", "B"):
                making(f"word = {word}\n{text}")
                status = with_file("die", builder.run)[0] if word == "B" else builder.run()[0]
            write("ran", "")
            making(f"word = {then}\n{text}")
            trial.want(f"stopped: {name}: {then} after that", (status, builder.run()[0], read("ran")), (-signal.SIGKILL, 0, wanted))


def try_late_dyndep(trial, ninja, header):
    """A dyndep file that the build makes names an output, and an input that has to be made: these have their intents before they start."""
    made = "ninja_dyndep_version = 1\nbuild out | hid: dyndep | more\n".replace("\n", "\\n")
    for word in "AB":
        making(f"rule d\n  command = printf '{made}' > dd; : {word}\nrule c\n  command = echo {word} > $out; test $out != out || (echo {word} > hid; $more)\nbuild dd: d\nbuild more: c\nbuild out: c || dd\n  dyndep = dd\ndefault out\n")
        status = with_file("die", ninja.run)[0] if word == "B" else ninja.run()[0]
    trial.want("a late dyndep file: it is killed", status, -signal.SIGKILL)
    trial.want("a late dyndep file: the lines", [kinds_of(it)[-1] for it in ("dd", "more", "out", "hid")], ["record", "record", "intent", "intent"])
    write("build.ninja", read("build.ninja").replace(b"echo B", b"echo A"))
    trial.want("a late dyndep file: A after that", (ninja.run()[0], read("out"), read("hid")), (0, b"A\n", b"A\n"))


def try_no_place(trial, ninja, header):
    """A log that is a link to /dev/null, and a command that removes the log's folder: as plain Ninja has it."""
    plain = Builder([ninja.plain], ninja.folder)
    touching("a")
    for builder in (plain, ninja):
        os.symlink("/dev/null", LOG)
        trial.want("a link to /dev/null: twice", [builder.run()[0] for _ in range(2)], [0, 0])
        trial.check("a link to /dev/null: it stays, and what was made isn't known", os.path.islink(LOG) and "no work" not in builder.run("-n")[1])
        os.remove(LOG)
        os.remove("a")
    for builder in (plain, ninja):
        os.makedirs("bd", exist_ok=True)
        write("build.ninja", "builddir = bd\nrule c\n  command = touch $out $more\nbuild a: c\nbuild b: c a\n  more = && rm -rf bd\nbuild d: c b\n")
        for turn in range(2):
            trial.want(f"a command removes the log's folder, {turn}", (builder.run("-j1")[0], os.path.exists("bd")), (0, False))
    touching("a")
    for text in (b"something else\n", b"# ninja log v05\n", b"# ninja log v3\n"):
        write(LOG, text)
        trial.want(f"{text}: -n leaves it", (ninja.run("-n")[0], read(LOG)), (0, text))


def try_moved(trial, ninja, header):
    """A builddir that moves takes its log with it. Once it comes back, so does what that log says: as plain Ninja has it."""
    for builder in (Builder([ninja.plain], f"{ninja.folder}/plain"), Builder(ninja.command, f"{ninja.folder}/patched")):
        for folder, word in (("one", "A"), ("two", "B"), ("one", "A")):
            echoing(word)
            write("build.ninja", f"builddir = {folder}\n".encode() + read("build.ninja"))
            said = builder.run()[1]
        trial.want("a builddir that moves and comes back: it is stale", (said, read("out")), (IDLE, b"B\n"))


def try_order(trial, ninja, header):
    """A rewritten log has its outputs in the order in which they first appeared."""
    names = [f"o{it * 7 % 40}" for it in range(40)]
    touching(*names)
    write(LOG, header + b"".join(b"1\t2\t3\t%s\taa\n" % it.encode() for it in [*names, *names[5:]]))
    ninja.run("-t", "recompact")
    trial.want("the order after -t recompact", names_in(read(LOG)), [it.encode() for it in names])


def try_torn_header(trial, ninja, header):
    """A first line that was cut off is completed, and nothing is said."""
    touching("a")
    write(LOG, header[:7])
    status, said = ninja.run()
    trial.check("a torn first line: no warning", status == 0 and "warning" not in said, said)
    trial.check("a torn first line: a new log", read(LOG).startswith(header) and names_in(read(LOG)) == [b"a"], repr(read(LOG)))


def try_permissions(trial, ninja, header):
    """A rewritten log keeps its permissions; a log that is a folder is refused."""
    touching("a")
    ninja.run()
    os.chmod(LOG, 0o640)
    ninja.run("-t", "recompact")
    trial.want("permissions after -t recompact", os.stat(LOG).st_mode & 0o777, 0o640)
    os.remove(LOG)
    os.mkdir(LOG)
    os.remove("a")
    status, said = ninja.run()
    trial.check("a log that is a folder: refused before a command runs", status == 1 and "s a directory" in said and not os.path.exists("a"), said)


def try_damaged(trial, ninja, header):
    """A number that no Ninja wrote is damage, and so is a carriage return: the file is kept under the first free name."""
    touching("a")
    lines = b"1\t2\t3\ta\taa\n"
    kept = {}
    for at, (word, says) in enumerate((("v05", "damaged first line"), ("v0", "damaged first line"), ("v100", "damaged first line"), ("v18446744073709551615", "damaged first line"),
                                      ("v", "damaged first line"), ("v5x", "damaged first line"), ("v-5", "damaged first line"), (header[12:-1].decode() + "\r", "CR before each newline"))):
        text = b"# ninja log " + word.encode() + b"\n" + lines
        write(LOG, text)
        status, said = ninja.run()
        name = f"{LOG}.damaged" + (f".{at + 1}" if at else "")
        kept[name] = text
        trial.check(f"{word!r}: it starts over, and says so", status == 0 and says in said and "starting over" in said and f"as {name}" in said, said)
        trial.check(f"{word!r}: a new log", read(LOG).startswith(header) and names_in(read(LOG)) == [b"a"], repr(read(LOG)))
        trial.want(f"{word!r}: all are kept", {it: read(it) for it in kept}, kept)
    os.remove(f"{LOG}.damaged.3")
    os.symlink("nowhere", f"{LOG}.damaged.3")
    write(LOG, b"# ninja log v007\n")
    trial.check("a name that a link takes isn't free", "as .ninja_log.damaged.9" in ninja.run()[1] and os.path.islink(f"{LOG}.damaged.3"))


def try_other_versions(trial, ninja, header):
    own = int(header[-2:-1])
    lines = b"1\t2\t3\ta\taa\n"
    touching("a")
    for version in range(1, own) if own > 5 else (1, 2, 3):
        write(LOG, b"# ninja log v%d\n" % version + lines)
        status, said = ninja.run()
        trial.check(f"version {version}: it starts over, and says so", status == 0 and "build log version" in said and "starting over" in said, said)
        trial.check(f"version {version}: a new log", read(LOG).startswith(header) and names_in(read(LOG)) == [b"a"], repr(read(LOG)))
        os.remove("a")
        write(LOG, b"# ninja log v%d\n" % version + lines)
        trial.want(f"version {version}: -t recompact", (ninja.run("-t", "recompact")[0], read(LOG)), (0, header if own == 5 else b"# ninja log v%d\n" % version + lines))
    for version in (own + 1, own + 2, 8, 9, 10, 77, 99):
        text = b"# ninja log v%d\n" % version + lines
        for words in ([], ["-n"], ["-t", "recompact"], ["-t", "restat"]):
            write(LOG, text)
            status, said = ninja.run(*words)
            trial.check(f"version {version}, {words}: refused", status == 1 and f"version {version} is too new; remove {LOG} to start over" in said and not os.path.exists("a"), said)
            trial.want(f"version {version}, {words}: the log", read(LOG), text)


def try_no_log(trial, ninja, header):
    touching("a")
    text = b"something else\n1\t2\t3\ta\taa\n"
    write(LOG, text)
    status, said = ninja.run()
    trial.check("no log: it starts over, and says so", status == 0 and "not a build log; starting over" in said, said)
    trial.want("no log: it is kept", read(LOG + ".not-a-log"), text)
    trial.check("no log: a new log", read(LOG).startswith(header) and names_in(read(LOG)) == [b"a"], repr(read(LOG)))
    write(LOG, bytes(100))
    status, said = ninja.run()
    trial.check("a second one: it starts over too", status == 0 and "not a build log; starting over" in said and f"as {LOG}.not-a-log.2" in said, said)
    trial.want("a second one: both are kept", (read(LOG + ".not-a-log"), read(LOG + ".not-a-log.2")), (text, bytes(100)))


def try_names(trial, ninja, header):
    """Names with a tab: the plain one writes lines of them that are entries of other outputs."""
    write("build.ninja", "rule c\n  command = touch $out\nbuild a: c\nbuild a\tb: c\nbuild a\tc: c\n")
    status, said = ninja.run("-j1")
    trial.check("a tab: it is built", status == 0 and all(map(os.path.exists, ("a", "a\tb", "a\tc"))), said)
    trial.want("a tab: one warning", said.count("warning:"), 1)
    trial.want("a tab: the log", names_in(read(LOG)), [b"a"])
    said = ninja.run("-n", "-v")[1]
    trial.check("a tab: these alone are built again", "a\tb" in said and "a\tc" in said and "touch a\n" not in said, said)


def try_early_time(trial, ninja, header):
    touching("a", "b")
    ninja.run()
    os.utime("a", (-5, -5))
    os.utime("b", (77, 77))
    trial.want("a time before 1970: -t restat", ninja.run("-t", "restat")[0], 0)
    times = {it.split(b"\t")[3]: it.split(b"\t")[2] for it in read(LOG).split(b"\n")[1:-1]}
    trial.want("a time before 1970: the log", times, {b"a": b"0", b"b": b"77000000000"})


def try_idle(trial, ninja, header):
    """A build that does nothing writes nothing, also where the log has a torn line."""
    touching("a")
    ninja.run()
    text = read(LOG) + b"1\t2\t3\tb"
    write(LOG, text)
    os.chmod(LOG, 0o444)
    os.utime(LOG, (1000, 1000))
    status, said = ninja.run(before=["strace", "-f", "-o", "calls", "-e", "trace=openat,open,write,pwrite64,ftruncate,rename,fsync,fdatasync,flock"])
    trial.want("no work: ends", (status, said), (0, IDLE))
    trial.want("no work: the log", (read(LOG), os.stat(LOG).st_mtime), (text, 1000))
    calls = [it for it in read("calls").decode().splitlines() if LOG in it]
    trial.check("no work: the log is opened for reading alone", bool(calls) and all("O_RDONLY" in it for it in calls), repr(calls))
    os.chmod(LOG, 0o644)


def try_calls(trial, ninja, header):
    """An edge of many outputs is recorded by one write, and its intents by one; a build of a generator's edges reads the log once."""
    def calls(text, before=b""):
        write("build.ninja", text)
        write(LOG, header + before)
        trial.want("calls: a build", ninja.run("-j1", before=["strace", "-f", "-o", "calls", "-P", LOG, "-e", "trace=write,pread64,flock"])[0], 0)
        found = [it.split("(")[0].split()[-1] for it in read("calls").decode().splitlines() if "(" in it]
        return [found.count(it) for it in ("write", "pread64", "flock")]

    many = " ".join(f"o{it}" for it in range(200))
    lines = b"".join(b"1\t2\t3\to%d\taa\n" % it for it in range(200))
    trial.want("calls: the records of 200 outputs", calls(f"rule c\n  command = : $out\nbuild {many}: c\n")[0], 1)
    trial.want("calls: their intents and their records", calls(f"rule c\n  command = : $out\nbuild {many}: c\n", lines)[0], 2)
    trial.want("calls: the lines", len(names_in(read(LOG))), 600)
    long = b"".join(b"1\t2\t3\tx%d\taa\n" % it for it in range(40000))
    rule = "rule c\n  command = touch $out\n  generator = 1\n"
    one, ten = (calls(rule + "".join(f"build g{count}.{it}: c\n" for it in range(count)), long) for count in (1, 10))
    trial.want("calls: reads of the log, where 1 and 10 edges of a generator run", (one[1], ten[0]), (ten[1], 10))
    trial.want("calls: locks", (one[2], ten[2]), (4, 22))
    # The log grows before its second block is read.
    reads = []
    for is_growing in (False, True):
        write("build.ninja", "rule c\n  command = touch $out\nbuild o: c\n")
        write(LOG, header + b"".join(b"1\t2\t3\tx%d\taa\n" % it for it in range(200000)))
        write("calls", "")
        child = subprocess.Popen(["strace", "-o", "calls", "-P", LOG, "-e", "trace=pread64", "-e", "inject=pread64:delay_enter=500000:when=2", *ninja.command], stdout=subprocess.DEVNULL, stderr=subprocess.DEVNULL)
        while b"pread64" not in read("calls"):
            time.sleep(0.01)
        if is_growing:
            with open(LOG, "ab") as it:
                it.write(b"1\t2\t3\tgrown\taa\n")
        trial.want("calls: a log that grows: ends", child.wait(), 0)
        reads.append(read("calls").count(b"pread64("))
        os.remove("o")
    trial.check("calls: a log that grows while it is read is read once", reads[1] <= reads[0] + 2 and {b"grown", b"o"} <= set(names_in(read(LOG))), repr(reads))


def try_foreseen(trial, ninja, header):
    """How much of its time 1.13.2 takes for gone goes by the last run of each command; one that began and has no record counts nothing."""
    if header[-2:-1] != b"7":
        return
    write("build.ninja", "rule c\n  command = sleep 0.2; touch $out\nbuild a: c\nbuild b: c\n")
    for more, least, most in ((b"", 0, 5), (b"7\t7\t0\tb\tcc\n", 40, 60)):
        for it in "ab":
            if os.path.exists(it):
                os.remove(it)
        write(LOG, header + b"".join(b"0\t100000\t5\t%c\taa\n" % it for it in b"ab") + more)
        said = ninja.run("-j1", NINJA_STATUS="[%P] ")[1]
        trial.check(f"foreseen, behind {more!r}: the first of two", least <= int(said.split("%")[0].strip("[ ")) <= most, said)


def try_kill_in_a_build(trial, ninja, header):
    """Killed while it builds, what it recorded stands, and no lock is left."""
    write("build.ninja", "rule c\n  command = touch $out\nrule d\n  command = kill -9 $$PPID; sleep 1\nbuild a: c\nbuild b: d a\n")
    status = ninja.run("-j1")[0]
    trial.want("a kill: the build", status, -signal.SIGKILL)
    trial.want("a kill: the log", names_in(read(LOG)), [b"a"])
    touching("a", "b")
    trial.want("a kill: the next build", ninja.run()[0], 0)
    trial.want("a kill: the log after that", sorted(names_in(read(LOG))), [b"a", b"b"])


def try_inner(trial, ninja, header):
    """A command that runs Ninja in the same folder, on another output."""
    write("build.ninja", f"rule c\n  command = touch $out\nrule d\n  command = '{ninja.command[0]}' c && touch $out\nbuild a: c\nbuild b: d a\nbuild c: c\nbuild e: c b\ndefault e\n")
    status, said = ninja.run()
    trial.want("a build in a build: ends", status, 0)
    trial.want("a build in a build: the log", names_in(read(LOG)), [b"a", b"c", b"b", b"e"])
    trial.want("a build in a build: nothing is left to do", ninja.run("e", "c"), (0, IDLE))


def try_two(trial, ninja, header):
    """Two builds in one folder at once."""
    write("build.ninja", "rule c\n  command = touch $out\n" + "".join(f"build {side}{it}: c\n" for side in "ab" for it in range(150))
          + "".join(f"build {side}: phony " + " ".join(f"{side}{it}" for it in range(150)) + "\n" for side in "ab"))
    both = [subprocess.Popen([*ninja.command, "-j2", it], stdout=subprocess.DEVNULL) for it in "ab"]
    trial.want("two builds at once: both end", [it.wait() for it in both], [0, 0])
    trial.want("two builds at once: the log", sorted(names_in(read(LOG))), sorted(f"{side}{it}".encode() for side in "ab" for it in range(150)))
    trial.want("two builds at once: nothing is left to do", ninja.run(), (0, IDLE))


def try_locked(trial, ninja, header):
    """A log that another process has locked is waited for, for ten seconds. A build that records nothing doesn't wait."""
    touching("a")
    ninja.run()
    with open(LOG, "rb") as it:
        fcntl.flock(it, fcntl.LOCK_EX)
        began = time.monotonic()
        trial.want("locked: no work to do", ninja.run(), (0, IDLE))
        at_once = time.monotonic() - began
        touching("a", "b")
        text, began = read(LOG), time.monotonic()
        status, said = ninja.run()
        trial.check("locked: and nothing to do was found at once", at_once < (time.monotonic() - began) / 2, at_once)
        trial.check("locked: refused, and says so", status == 1 and "build log .ninja_log: another process" in said, said)
        trial.check("locked: before a command runs", not os.path.exists("b"))
        trial.want("locked: the log", read(LOG), text)
        child = subprocess.Popen([*ninja.command], stdout=subprocess.PIPE, stderr=subprocess.STDOUT, text=True)
        time.sleep(0.5)
        child.send_signal(signal.SIGINT)
        began = time.monotonic()
        said = child.communicate()[0]
        trial.check("locked: an interrupted wait ends, and says so", child.returncode not in (0, 1) and "interrupted by user" in said and "rror" not in said and time.monotonic() - began < 2, repr((child.returncode, said)))
    trial.want("once it is free", ninja.run()[0], 0)
    trial.want("once it is free: the log", names_in(read(LOG)), [b"a", b"b"])


OTHERWISE = [try_distrusted, try_restat_rule, try_outputs, try_generator, try_no_intent, try_due, try_syncs, try_unreadable, try_withdrawn, try_stopped, try_late_dyndep, try_no_place, try_moved, try_order, try_torn_header, try_permissions, try_damaged, try_other_versions, try_no_log, try_names, try_early_time, try_idle, try_calls, try_foreseen, try_kill_in_a_build, try_inner, try_two, try_locked]


def main(plain, patched):
    trial = Trials(__file__)
    room = os.path.realpath(tempfile.mkdtemp())
    os.chmod(room, 0o755)
    try:
        look = Builder([plain], f"{room}/look")
        touching("a")
        look.run()
        header = read(LOG).split(b"\n")[0] + b"\n"
        has_strace = shutil.which("strace") and subprocess.run(traced("true"), check=False).returncode == 0
        for name, part in FAULTS:
            if name in ("read", "kill") and not has_strace:
                print(f"skipped: {name}: nothing can be traced")
                continue
            for which, path in (("plain", plain), ("patched", patched)):
                before = trial.failed
                part(trial, Builder([path], f"{room}/{name}-{which}"), header, which == "plain")
                print(f"{name}: {which}: {'FAILED' if trial.failed > before else 'the fault is there' if which == 'plain' else 'the fault is gone'}")
        try_plain(trial, Builder([plain], f"{room}/plain"), header)
        for at, part in enumerate(OTHERWISE):
            if part in (try_distrusted, try_calls, try_idle, try_syncs, try_unreadable) and not has_strace:
                print(f"skipped: {part.__name__}: nothing can be traced")
                continue
            ninja = Builder([patched], f"{room}/{at}")
            ninja.plain = plain
            part(trial, ninja, header)
    finally:
        os.chdir("/")
        shutil.rmtree(room, ignore_errors=True)
    return trial.end()


if __name__ == "__main__":
    if len(sys.argv) != 3:
        sys.exit(__doc__)
    sys.exit(main(*map(os.path.abspath, sys.argv[1:])))
