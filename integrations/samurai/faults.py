#!/usr/bin/env python3
"""Tries samurai beside samurai on the library where a log is damaged, a disk fails, or a process is killed.

    python3 integrations/samurai/faults.py PLAIN PATCHED

PLAIN and PATCHED are programs muon. Each row of the tables in README.md is tried by a function here: on both where plain samurai has the fault,
which is shown to be there and to be gone, and else on the patched one. NLOG_PROGRAM names the program nlog, which tells hashes.
"""
import fcntl
import os
import shutil
import signal
import subprocess
import sys
import tempfile
import time

sys.path.insert(0, os.path.dirname(os.path.dirname(os.path.abspath(__file__))))
from builds import LOG, Builder, echoing, entries_of, interrupted, kinds_of, making, names_in, tagged, touching, traced, with_file
from log_format import command_hash
from trials import Trials, fill_up, read, write

HEADER = b"# ninja log v5\n"
# Behind so many outputs the last one of a manifest stands in the part of the log that plain samurai has written before a build ends.
MANY = 150


def above(text, count=MANY):
    """A manifest with so many outputs above a text."""
    write("build.ninja", "rule touch\n  command = touch $out\n" + "".join(f"build some/long/name/of/an/output{it}: touch\n" for it in range(count)) + text)


def tagged_above(word):
    above(f"rule c\n  command = echo {word} > out && (test ! -e die || kill -9 $$PPID) && test ! -e fail\nbuild out: c\n")


def is_whole(text):
    return text.startswith(HEADER) and text.endswith(b"\n") and all(it.count(b"\t") == 4 for it in text.split(b"\n")[1:-1])


def mtime_of(name):
    return os.stat(name).st_mtime_ns


# ---- faults of plain samurai ----


def try_killed(trial, samu, is_plain):
    """A, B with a kill behind the command, and A again."""
    tagged_above("A")
    samu.run()
    tagged_above("B")
    trial.want("killed: B", with_file("die", samu.run)[0], -signal.SIGKILL)
    if not is_plain:
        trial.want("killed: the lines", kinds_of("out"), ["record", "intent"])
    tagged_above("A")
    explained = samu.run("-n", "-d", "explain")[1]
    samu.run()
    trial.want("killed: A after that", read("out"), b"B\n" if is_plain else b"A\n")
    if not is_plain:
        trial.want("killed: it says why, and that of no other", [it for it in explained.splitlines() if "explain" in it], ["samu: explain out: command line changed"])
        tagged_above("B")
        samu.run()
        entries = entries_of("out")
        trial.want("killed: the intent has the complement of B's hash", entries[1][3], 2**64 - 1 - entries[-1][3])


def try_lost(trial, samu, is_plain):
    """A kill in a build, and an interruption by control-C, take the log of what ran before."""
    for what, stop in (("killed", lambda: with_file("die", samu.run)), ("interrupted", lambda: interrupted(samu))):
        making("rule c\n  command = echo $out > $out && $more\nrule d\n  command = touch $out\nbuild out: c\nbuild other: d\n")
        for it in (LOG, "out", "other"):
            if os.path.exists(it):
                os.remove(it)
        samu.run()
        os.remove("out")
        stop()
        explained = samu.run("-n", "-d", "explain")[1]
        trial.want(f"{what}: is an output built again that wasn't touched", "explain other" in explained, is_plain)
        trial.check(f"{what}: the output whose command ran is built again", "explain out" in explained, explained)


def try_failed(trial, samu, is_plain):
    """A, B that fails when it has written its output, and A again; one that fails twice."""
    tagged("A")
    samu.run()
    tagged("B")
    trial.want("failed: B", with_file("fail", samu.run)[0], 1)
    tagged("A")
    samu.run()
    trial.want("failed: A after that", read("out"), b"B\n" if is_plain else b"A\n")
    if not is_plain:
        tagged("B")
        with_file("fail", samu.run)
        count = len(entries_of("out"))
        with_file("fail", samu.run)
        trial.want("failed: twice: an intent more", kinds_of("out")[count:], ["intent"])


def tear(samu, name):
    """A and B by this one, of which B's line is torn behind so much of its output's name; the manifest is back at A."""
    for it in (LOG, "out"):
        if os.path.exists(it):
            os.remove(it)
    for word in "AB":
        echoing(word)
        samu.run()
    text = read(LOG)
    write(LOG, text[: text.rindex(b"\tout") + 1] + name)
    echoing("A")


def try_torn(trial, samu, is_plain):
    for name in (b"", b"ou", b"out", b"out\t"):
        tear(samu, name)
        samu.run()
        trial.want(f"torn at {name}: A after that", read("out"), b"B\n" if is_plain and name != b"out\t" else b"A\n")
        trial.check(f"torn at {name}: the log is whole after that", is_whole(read(LOG)), repr(read(LOG)))


def try_joined(trial, samu, is_plain):
    """A line that is torn, and the line of another output that Ninja writes behind it: that of both is B, and the manifest is back at A."""
    write("build.ninja", "rule c\n  command = echo A > $out\nbuild out: c\nbuild other: c\n")
    samu.run()
    kept = [b"0\t0\t%d\t%s\t%x\n" % (mtime_of(it), it.encode(), entries_of(it)[-1][3]) for it in ("out", "other")]
    for cut in (b"0\t0\t5\tout\t", b"0\t0\t5\tout\taa"):
        for it in ("out", "other"):
            write(it, "B\n")
        write(LOG, HEADER + b"".join(kept) + cut + b"3\t4\t5\tother\tbb\n")
        samu.run()
        trial.want(f"joined: {cut}: A after that", [read(it) for it in ("out", "other")], [b"A\n", b"B\n" if is_plain else b"A\n"])
        trial.check(f"joined: {cut}: the log is whole after that", is_whole(read(LOG)), repr(read(LOG)))


def try_full_disk(trial, samu, is_plain):
    os.makedirs("full")
    if subprocess.run(["mount", "-t", "tmpfs", "-o", "size=64k", "tmpfs", "full"], stderr=subprocess.DEVNULL, check=False).returncode != 0:
        return print("skipped: a full disk: nothing can be mounted")
    try:
        os.chdir("full")
        # A command that ran is told by what it leaves, for which there is room on another disk.
        write("build.ninja", f"rule c\n  command = touch {samu.folder}/ran\nbuild a: c\nbuild b: c\n")
        # The log fills its page.
        text = HEADER + b"1\t2\t3\ta\taa\n"
        text += b"1\t2\t3\t" + b"x" * (4096 - len(text) - 10) + b"\taa\n"
        samu.run("-n")
        write(LOG, text)
        fill_up("fill")
        status, said = samu.run()
        trial.want("a full disk: its status, did a command run, and does the log stand", (len(text), status, os.path.exists(f"{samu.folder}/ran"), read(LOG).startswith(text)), (4096, 0, True, False) if is_plain else (4096, 1, False, True))
        if not is_plain:
            trial.check("a full disk: it says so", "No space left" in said, said)
            os.remove("fill")
            trial.want("once there is room", (samu.run()[0], kinds_of("a"), kinds_of("b")), (0, ["record", "intent", "record"], ["record"]))
    finally:
        os.chdir(samu.folder)
        subprocess.run(["umount", "full"], check=False)
    return None


def try_write_error(trial, samu, is_plain):
    """A log that can't be written, before a command and behind it."""
    touching("a")
    for when in (1, 2):
        if os.path.exists("a"):
            os.remove("a")
        write(LOG, HEADER + b"1\t2\t3\ta\taa\n")
        status, said = samu.run(before=["strace", "-f", "-o", "/dev/null", "-P", LOG, "-e", "trace=write", "-e", f"inject=write:error=EIO:when={when}+"])
        if is_plain:
            trial.want(f"a log that can't be written, {when}: the status", status, 0)
            continue
        trial.check(f"a log that can't be written, {when}: it says so", status == 1 and "write .ninja_log: Input/output error" in said, repr((status, said)))
        trial.want(f"a log that can't be written, {when}: did the command run", os.path.exists("a"), when == 2)


def try_rewriting(trial, samu, is_plain):
    """A kill while a log is written anew: at the first write of plain samurai, at the rename of the patched one."""
    touching("a", "z")
    samu.run()
    lines = read(LOG)[len(HEADER):]
    write(LOG, HEADER + lines + b"1\t2\t3\tgone\tabc\n" * 200 + lines)
    os.remove("a")
    calls = "write" if is_plain else "rename,renameat,renameat2"
    status = samu.run(before=["strace", "-f", "-o", "/dev/null", "-P", LOG, "-P", f"{LOG}.recompact", "-e", f"trace={calls}", "-e", f"inject={calls}:signal=SIGKILL"])[0]
    trial.check("a kill in a rewriting", status != 0)
    found = read(LOG)
    trial.want("a kill in a rewriting: are the entries there", {b"a", b"z"} <= set(names_in(found)), not is_plain)
    if not is_plain:
        trial.want("after that: a build", samu.run()[0], 0)
        trial.want("after that: the log", (sorted(set(names_in(read(LOG)))), is_whole(read(LOG))), ([b"a", b"z"], True))
        trial.want("after that: no other file is left", [it for it in os.listdir(".") if it.startswith(LOG + ".")], [])


def try_two(trial, samu, is_plain):
    """Two builds in one folder at once."""
    write("build.ninja", "rule c\n  command = sleep 0.01; touch $out\n" + "".join(f"build {side}{it}: c\n" for side in "ab" for it in range(150))
          + "".join(f"build {side}: phony " + " ".join(f"{side}{it}" for it in range(150)) + "\n" for side in "ab"))
    both = [subprocess.Popen([*samu.command, "-j2", it], stdout=subprocess.DEVNULL, stderr=subprocess.DEVNULL) for it in "ab"]
    trial.want("two builds at once: both end", [it.wait() for it in both], [0, 0])
    wanted = sorted(f"{side}{it}".encode() for side in "ab" for it in range(150))
    trial.want("two builds at once: is the log whole, with all", sorted(names_in(read(LOG))) == wanted and is_whole(read(LOG)), not is_plain)
    trial.want("two builds at once: is nothing left to do", samu.run("a", "b") == (0, ""), not is_plain)


def try_inner(trial, samu, is_plain):
    """A command that runs samurai in the same folder, on another output."""
    inner = " ".join(samu.command)
    write("build.ninja", f"rule c\n  command = touch $out\nrule d\n  command = {inner} c && touch $out\nbuild a: c\nbuild b: d a\nbuild c: c\nbuild e: c b\ndefault e\n")
    trial.want("a build in a build: ends", samu.run()[0], 0)
    trial.want("a build in a build: has the log all", names_in(read(LOG)) == [b"a", b"c", b"b", b"e"], not is_plain)
    if not is_plain:
        trial.want("a build in a build: nothing is left to do", samu.run("e", "c"), (0, ""))


def try_idle(trial, samu, is_plain):
    """What builds nothing writes nothing and locks nothing, also where the log has a torn line: a build with nothing to do, -n, an unknown name."""
    touching("a", "b")
    samu.run()
    os.remove("a")
    for words, status in ((["b"], 0), (["-n"], 0), (["b", "nobody"], 1)):
        write(LOG, read(LOG) + b"1\t2\t3\tz")
        os.utime(LOG, (1000, 1000))
        text = read(LOG)
        calls = "trace=openat,open,write,pwrite64,ftruncate,rename,renameat,fsync,fdatasync,flock"
        found = samu.run(*words, before=["strace", "-f", "-o", "calls", "-e", calls])[0]
        about = [it for it in read("calls").decode().splitlines() if LOG in it]
        trial.want(f"idle, {words}: ends", found, status)
        trial.want(f"idle, {words}: is the log as it was", (read(LOG), os.stat(LOG).st_mtime) == (text, 1000), not is_plain)
        if not is_plain:
            trial.check(f"idle, {words}: the log is opened for reading alone", bool(about) and all("O_RDONLY" in it for it in about), repr(about))
        if is_plain:
            samu.run("b")


def try_other_versions(trial, samu, is_plain):
    """Logs of other versions and files that are no logs: plain samurai empties them, and says nothing."""
    touching("a")
    lines = b"1\t2\t3\ta\taa\n"
    kept = {}
    for at, first in enumerate((b"# ninja log v3\n", b"# ninja log v6\n", b"# ninja log v7\n", b"# ninja log v99\n", b"# ninja log v\n", b"something else\n")):
        text = first + lines
        write(LOG, text)
        status, said = samu.run("-n")
        if is_plain:
            trial.want(f"{first}: -n takes it away", (status, read(LOG), "samu" in said), (0, HEADER, False))
            continue
        trial.want(f"{first}: -n leaves it, and says so", (status, read(LOG), said.count("build log")), (0, text, 1))
        status, said = samu.run()
        name = f"{LOG}.old" + (f".{at + 1}" if at else "")
        kept[name] = text
        trial.check(f"{first}: it starts over, and says so", status == 0 and "starting over" in said and f"as {name}\n" in said, said)
        trial.want(f"{first}: all are kept", {it: read(it) for it in kept}, kept)
        trial.want(f"{first}: a new log", (names_in(read(LOG)), is_whole(read(LOG))), ([b"a"], True))


def try_version_4(trial, samu, is_plain):
    """A log of version 4, which has the commands in place of their hashes."""
    touching("a")
    write("a", "")
    write(LOG, b"# ninja log v4\n0\t0\t%d\ta\ttouch a\n" % mtime_of("a"))
    said = samu.run("-n")[1]
    trial.want("version 4: is it built again", "touch a" in said, is_plain)
    if not is_plain:
        touching("a", "b")
        samu.run()
        trial.want("version 4: it is made one of version 5", (sorted(names_in(read(LOG))), is_whole(read(LOG)), os.path.exists(LOG + ".old")), ([b"a", b"b"], True, False))


def try_forgotten(trial, samu, is_plain):
    """Another manifest in the same folder: its build takes away the entries of the outputs that it doesn't make."""
    touching("a")
    samu.run()
    write("other.ninja", "rule c\n  command = touch $out\nbuild b: c\n")
    samu.run("-f", "other.ninja")
    trial.want("forgotten: is there nothing to do of the first manifest", samu.run("-n") == (0, ""), not is_plain)


def try_names(trial, samu, is_plain):
    """A name with a tab: its line is an entry of another output."""
    write("build.ninja", "rule c\n  command = touch '$out'\nbuild a: c\nbuild a\tb: c\nbuild a\tc: c\n")
    status, said = samu.run("-j1")
    trial.check("a tab: it is built", status == 0 and all(map(os.path.exists, ("a", "a\tb", "a\tc"))), said)
    if is_plain:
        trial.check("a tab: a line is an entry of another output", b"\ta\tb\t" in read(LOG), repr(read(LOG)))
        return
    trial.want("a tab: the log", names_in(read(LOG)), [b"a"])
    trial.want("a tab: one warning", said.count("can't hold"), 1)
    said = samu.run("-n", "-v")[1]
    trial.check("a tab: these alone are built again", "a\tb" in said and "a\tc" in said and "touch 'a'\n" not in said, said)


def try_times(trial, samu, is_plain):
    """When a command began and ended."""
    write("build.ninja", "rule c\n  command = sleep 0.2; touch $out\nbuild a: c\nbuild b: c a\n")
    began = time.monotonic()
    samu.run()
    took = 1000 * (time.monotonic() - began)
    spans = [entries_of(it)[-1][:2] for it in "ab"]
    if is_plain:
        trial.want("times: none", spans, [(0, 0), (0, 0)])
    else:
        trial.check("times: the milliseconds of the build", 0 <= spans[0][0] < spans[0][1] <= spans[1][0] < spans[1][1] <= took and spans[0][1] - spans[0][0] >= 200, repr(spans))


def try_generator(trial, samu, is_plain):
    """A generator's output is judged by its time stamp: with an input it is made again, without one it isn't."""
    def described(inputs):
        making(f"rule g\n  command = touch out && $more\n  generator = 1\nbuild out: g {inputs}\n")
    write("in", "")
    described("in")
    samu.run()
    os.remove("out")
    samu.run()
    os.remove("out")
    with_file("die", samu.run)
    trial.want("a generator: is it made again", samu.run()[1] != "", not is_plain)
    if not is_plain:
        trial.want("a generator: the lines", kinds_of("out"), ["intent", "record"] * 2 + ["intent", "intent", "record"])
        trial.want("a generator: nothing is left to do", samu.run(), (0, ""))
    described("")
    os.remove("out")
    with_file("die", samu.run)
    trial.want("a generator without inputs: it isn't made again", samu.run(), (0, ""))


def try_removed(trial, samu, is_plain):
    """A command that removes the log, or its folder: what is recorded in it then is lost."""
    write("build.ninja", f"rule c\n  command = touch $out\nrule d\n  command = rm {LOG}; touch $out\nbuild a: c\nbuild b: d a\nbuild e: c b\n")
    trial.want("removed: ends", samu.run()[0], 0)
    trial.want("removed: the log", read(LOG), None if is_plain else HEADER)
    write("build.ninja", "builddir = bd\nrule c\n  command = touch $out $more\nbuild a2: c\nbuild b2: c a2\n  more = && rm -rf bd\nbuild e2: c b2\n")
    os.makedirs("bd")
    trial.want("removed: the folder", (samu.run("-j1")[0], os.path.exists("bd")), (0, False))


def try_locked(trial, samu, is_plain):
    """A log that another process has locked is waited for, for ten seconds. What builds nothing doesn't wait."""
    touching("a")
    samu.run()
    with open(LOG, "rb") as it:
        fcntl.flock(it, fcntl.LOCK_EX)
        began = time.monotonic()
        trial.want("locked: nothing to do", samu.run(), (0, ""))
        at_once = time.monotonic() - began
        touching("a", "b")
        text, began = read(LOG), time.monotonic()
        status, said = samu.run("-k0")
        trial.check("locked: and nothing to do was found at once", is_plain or at_once < (time.monotonic() - began) / 2, at_once)
        trial.want("locked: does it end well, and is the log written", (status == 0, read(LOG) != text, os.path.exists("b")), (is_plain,) * 3)
        trial.want("locked: does it say so", "build log .ninja_log: another process" in said, not is_plain)
    trial.want("once it is free", (samu.run()[0], sorted(names_in(read(LOG)))), (0, [b"a", b"b"]))


def try_torn_header(trial, samu, is_plain):
    """A first line that was cut off is completed, and nothing is said; plain samurai empties the log, also in a run that builds nothing."""
    touching("a")
    write(LOG, HEADER[:7])
    samu.run("-n")
    trial.want("a torn first line: -n", read(LOG), HEADER if is_plain else HEADER[:7])
    status, said = samu.run()
    trial.check("a torn first line: nothing is said", status == 0 and "samu:" not in said, said)
    trial.want("a torn first line: a new log", (names_in(read(LOG)), is_whole(read(LOG)), os.path.exists(LOG + ".old")), ([b"a"], True, False))


FAULTS = [try_killed, try_lost, try_failed, try_torn, try_joined, try_full_disk, try_write_error, try_rewriting, try_two, try_inner, try_idle,
          try_other_versions, try_version_4, try_forgotten, try_names, try_times, try_generator, try_removed, try_locked, try_torn_header]


# ---- what is as it was, and what the library adds ----


def try_hashes(trial, samu):
    """The hash of each command is the one that plain samurai writes, and the one that nlog tells."""
    commands = [": " + "x" * it for it in range(1, 70)] + [": \u00fc$$(true)", ": a  b"]
    write("build.ninja", "".join(f"rule c{at}\n  command = {it}\nbuild o{at}: c{at}\n" for at, it in enumerate(commands))
          + "rule r\n  command = : $rspfile\n  rspfile = $out.rsp\n  rspfile_content = some text\nbuild r: r\n")
    found = []
    for command in ([samu.plain, "samu"], samu.command):
        if os.path.exists(LOG):
            os.remove(LOG)
        trial.want("hashes: a build", Builder(command, samu.folder).run()[0], 0)
        found.append({it: entries_of(it)[-1][3] for it in [*(f"o{at}" for at in range(len(commands))), "r"]})
    trial.want("hashes: those of plain samurai", found[1], found[0])
    texts = {f"o{at}": it.replace("$$", "$") for at, it in enumerate(commands)}
    texts["r"] = ": r.rsp;rspfile=some text"
    trial.want("hashes: those of docs/FORMAT.md", found[1], {it: command_hash(text.encode()) for it, text in texts.items()})
    program = os.environ.get("NLOG_PROGRAM", "")
    if not os.access(program, os.X_OK):
        return print("skipped: hashes by nlog hash: NLOG_PROGRAM names no program")
    told = {it: int(subprocess.run([program, "hash", text], stdout=subprocess.PIPE, check=True).stdout.split()[0], 16) for it, text in texts.items()}
    trial.want("hashes: those of nlog hash", found[1], told)
    return None


def try_distrusted(trial, samu):
    """A torn line by plain samurai, and a kill at each call that changes the log, or makes it durable, while the patched one mends it."""
    plain = Builder([samu.plain, "samu"], samu.folder)
    kills = 0
    for call in ("fsync", "ftruncate", "renameat", "unlinkat", "fchmod", "write"):
        for when in range(1, 6):
            tear(plain, b"out")
            before = traced("-P", LOG, "-P", f"{LOG}.recompact", "-P", ".", "-e", f"trace={call}", "-e", f"inject={call}:signal=SIGKILL:when={when}")
            if samu.run(before=before)[0] == 0:
                continue
            kills += 1
            trial.want(f"distrusted: A after a kill at {call} {when}", (samu.run()[0], read("out")), (0, b"A\n"))
    trial.check("distrusted: kills", kills > 6, kills)


def try_restat_rule(trial, samu):
    """A rule with restat: its record follows its intent, also where its output doesn't change, and what depends on it isn't built then."""
    def described(word, text):
        making(f"rule c\n  command = : {word}; echo {text} > $out.new; (cmp -s $out.new $out && rm $out.new || mv $out.new $out) && $more\n  restat = 1\n"
               "rule d\n  command = cat $in > $out\nbuild out: c\nbuild down: d out\ndefault down\n")
    described("A", "x")
    samu.run()
    described("B", "x")
    samu.run()
    trial.want("restat: the lines", (kinds_of("out"), kinds_of("down")), (["record", "intent", "record"], ["record", "intent", "record"]))
    trial.want("restat: what depends on it has the entry that it had", entries_of("down")[2], entries_of("down")[0])
    trial.want("restat: nothing is left to do", samu.run(), (0, ""))
    described("A", "x")
    with_file("die", samu.run)
    described("B", "x")
    trial.check("restat: killed, and B again: it runs", samu.run()[1] != "")
    trial.want("restat: what depends on it does, since nothing tells that it didn't", kinds_of("down")[-2:], ["intent", "record"])
    described("B", "y")
    with_file("die", samu.run)
    described("B", "x")
    samu.run()
    trial.want("restat: what it wrote before the kill is gone", (read("out"), read("down"), samu.run()), (b"x\n", b"x\n", (0, "")))


def try_outputs(trial, samu):
    """A command with several outputs: an intent of each that has an entry, by one write, and a time of its own in each record."""
    making("rule c\n  command = touch $out && touch -d @7 b && $more\nbuild a | b: c\n")
    samu.run()
    trial.want("outputs: the times", [entries_of(it)[-1][2] for it in "ab"], [mtime_of("a"), 7 * 10**9])
    making("rule c\n  command = : ; touch $out && $more\nbuild a b c: c\n")
    with_file("die", lambda: samu.run(before=["strace", "-o", "calls", "-P", LOG, "-e", "trace=write"]))
    trial.want("outputs: the lines", [kinds_of(it) for it in "abc"], [["record", "intent"], ["record", "intent"], []])
    trial.want("outputs: the intents are one write", read("calls").count(b"write("), 1)
    trial.check("outputs: all are built again", samu.run()[1] != "" and samu.run() == (0, ""))


def try_manifest(trial, samu):
    """A manifest that is made anew by its own rule, in a folder of its own for the log."""
    def described(word):
        return f"builddir = sub\nrule g\n  command = cp $in $out\n  generator = 1\nrule c\n  command = echo {word} > $out\nbuild build.ninja: g source\nbuild out: c\n"
    write("source", described("A"))
    write("build.ninja", described("A"))
    trial.want("a manifest: the first build", (samu.run()[0], read("out"), read(LOG)), (0, b"A\n", None))
    time.sleep(0.02)
    write("source", described("B"))
    trial.want("a manifest: it is made anew, and so is the output", (samu.run()[0], read("out")), (0, b"B\n"))
    trial.want("a manifest: the log", sorted(names_in(read(f"sub/{LOG}"))), [*[b"build.ninja"] * 2, *[b"out"] * 3])
    trial.want("a manifest: nothing is left to do", samu.run(), (0, ""))


def try_due(trial, samu):
    """A log that is due is rewritten by the first command, and keeps what is made or is there; its permissions stay."""
    names = [f"o{it * 7 % 40}" for it in range(40)]
    write("there", "")
    touching(*names)
    lines = b"".join(b"1\t2\t3\t%s\taa\n" % it.encode() for it in [*names, "gone", "there"])
    write(LOG, HEADER + lines * 4)
    os.chmod(LOG, 0o640)
    samu.run("-n")
    trial.want("due: -n leaves it", read(LOG), HEADER + lines * 4)
    samu.run("o3")
    trial.want("due: the log", names_in(read(LOG)), [it.encode() for it in [*names, "there", "o3", "o3"]])
    trial.want("due: the permissions", os.stat(LOG).st_mode & 0o777, 0o640)


def try_refused(trial, samu):
    """A log that is a folder, and a read error: an error before a command runs, as by plain samurai."""
    touching("a")
    os.mkdir(LOG)
    for command in ([samu.plain, "samu"], samu.command):
        status = Builder(command, samu.folder).run()[0]
        trial.want(f"a log that is a folder, {command[0]}", (status, os.path.exists("a")), (1, False))
    os.rmdir(LOG)
    text = HEADER + b"1\t2\t3\ta\taa\n"
    for command in ([samu.plain, "samu"], samu.command):
        write(LOG, text)
        before = traced("-P", LOG, "-e", "trace=read,pread64", "-e", "inject=read,pread64:error=EIO")
        status = Builder(command, samu.folder).run(before=before)[0]
        trial.want(f"a read error, {command[0]}", (status, os.path.exists("a"), read(LOG)), (1, False, text))


def try_early_time(trial, samu):
    """An output from before 1970."""
    write("build.ninja", "rule c\n  command = touch -d @-5 $out\nbuild a: c\n")
    trial.want("before 1970: a build", samu.run()[0], 0)
    trial.want("before 1970: nothing is left to do", samu.run(), (0, ""))


def try_syncs(trial, samu):
    """All intents are written at once, and synced once, before the first command; with `none` there are none."""
    for value in ("", "intents", "none"):
        for word in "AB":
            write("build.ninja", f"rule c\n  command = : {word}; touch $out\nbuild o1: c\nbuild o2: c\n")
            before = ["strace", "-y", "-o", "calls", "-e", "signal=none", "-e", "trace=write,fsync,clone,clone3,vfork,fork"]
            trial.want(f"syncs, {value!r}: ends", samu.run("-j1", before=before, NINJA_LOG_SYNC=value)[0], 0)
        calls = []
        for it in read("calls").decode().splitlines():
            if it.startswith(("clone", "vfork", "fork")):
                calls.append("start")
            elif f"{LOG}>" in it:
                calls.append("fsync" if it.startswith("fsync") else "write")
        begun = ["fsync", "write", "fsync", "start"] if value != "none" else ["start", "fsync"]
        wanted = [*begun, "write", "start", "write", "fsync"]
        trial.want(f"syncs, {value!r}: the calls", calls, wanted)
    for value, words in (("outputs", []), ("1", []), ("1", ["-n"])):
        status, said = samu.run(*words, NINJA_LOG_SYNC=value)
        trial.check(f"syncs, {value!r} {words}: refused", status == 1 and "NINJA_LOG_SYNC is neither" in said, said)


def try_hands(trial, samu):
    """A folder that changes hands: plain samurai keeps an intent, and no command passes for it there either."""
    plain = Builder([samu.plain, "samu"], samu.folder)
    tagged("A")
    samu.run()
    tagged("B")
    with_file("die", samu.run)
    tagged("A")
    trial.check("hands: plain samurai builds it again", "explain out: command line changed" in plain.run("-n", "-d", "explain")[1])
    plain.run("-n")
    trial.want("hands: the intent stands", kinds_of("out"), ["intent"])
    trial.want("hands: A by plain samurai", (plain.run()[0], read("out"), samu.run()), (0, b"A\n", (0, "")))


def try_places(trial, samu):
    """As plain samurai has it: a log that is a link to /dev/null is refused, and a builddir that moves and comes back has a stale output."""
    for name, command in (("plain", [samu.plain, "samu"]), ("patched", samu.command)):
        builder = Builder(command, f"{samu.folder}/{name}")
        touching("a")
        os.symlink("/dev/null", LOG)
        trial.want(f"a link to /dev/null, {name}", (builder.run()[0], os.path.exists("a"), os.path.islink(LOG)), (1, False, True))
        for folder, word in (("one", "A"), ("two", "B"), ("one", "A")):
            os.makedirs(folder, exist_ok=True)
            echoing(word)
            write("build.ninja", f"builddir = {folder}\n".encode() + read("build.ninja"))
            ended = builder.run()
        trial.want(f"a builddir that moves and comes back, {name}", (ended, read("out")), ((0, ""), b"B\n"))


OTHERWISE = [try_hashes, try_distrusted, try_restat_rule, try_outputs, try_manifest, try_due, try_refused, try_early_time, try_syncs, try_hands, try_places]
TRACED = [try_write_error, try_rewriting, try_idle, try_distrusted, try_outputs, try_refused, try_syncs]


def main(plain, patched):
    trial = Trials(__file__)
    room = os.path.realpath(tempfile.mkdtemp())
    has_strace = shutil.which("strace") and subprocess.run(traced("true"), check=False).returncode == 0
    try:
        for part in [*FAULTS, *OTHERWISE]:
            name = part.__name__
            if part in TRACED and not has_strace:
                print(f"skipped: {name}: nothing can be traced")
                continue
            if part in OTHERWISE:
                samu = Builder([patched, "samu"], f"{room}/{name}")
                samu.plain = plain
                part(trial, samu)
                continue
            for which, path in (("plain", plain), ("patched", patched)):
                before = trial.failed
                part(trial, Builder([path, "samu"], f"{room}/{name}-{which}"), which == "plain")
                print(f"{name}: {which}: {'FAILED' if trial.failed > before else 'the fault is there' if which == 'plain' else 'the fault is gone'}")
    finally:
        os.chdir("/")
        shutil.rmtree(room, ignore_errors=True)
    return trial.end()


if __name__ == "__main__":
    if len(sys.argv) != 3:
        sys.exit(__doc__)
    sys.exit(main(*map(os.path.abspath, sys.argv[1:])))
