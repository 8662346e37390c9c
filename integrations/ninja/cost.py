#!/usr/bin/env python3
"""Measures what a Ninja on the library costs beside the same Ninja without it.

    python3 integrations/ninja/cost.py PLAIN PATCHED [EDGES [ROUNDS [COMMANDS]]]

Both Ninjas do each in turn, ROUNDS (9) times, and medians are compared. Processor time is that of Ninja's own process, user and system, which
the kernel counts in nanoseconds; the commands' own is left out. Instructions are counted by valgrind, where it is there, in one run of each:
they are those of Ninja's own process outside of the kernel, and the same on a busy machine.

- Trivial commands, of 300, 1,000 and EDGES (10000) outputs: a build that finds nothing to do; one in which all run again, so that each output gets
  an intent, of which instructions are counted for up to 1,000; and the calls of the system of that, for each command, by strace, but for
  those by which it waits.
- The clock of COMMANDS (40) commands of 100 ms, that all run again, by four at a time, on the disk that has the folder of temporary files; of the
  plain one, of the patched one, and of it with NINJA_LOG_SYNC=outputs.
- On a log of 850,000 lines over 300,000 outputs (60 MB): a build of one edge, one that finds nothing to do, and -t recompact with all outputs
  in the manifest, with the memory. By the clock, four Ninjas at once of 40 edges each. In processor time, 50 edges of a generator, before each of
  which plain Ninja closes its log.
- A plan of 100,000 edges up to its first command, which kills Ninja: processor time, the clock and memory.

Fails where the patched one takes more than LIMITS has times as much, and NOISE of a time; of calls, so many more a command. What goes by a time
or by the clock is measured up to TURNS times, until it is within its limit, because other processes may have run meanwhile.
"""
import os
import re
import shutil
import statistics
import subprocess
import sys
import tempfile
import time

# What is wanted; and how much more a time may be, because other processes run too.
LIMITS = {"nothing to do": 1.01, "again": 1.03, "calls": 0.3, "clock": 1.02, "one": 1.0, "memory": 1.2, "recompact": 1.05, "at once": 1.1, "generator": 1.1}
NOISE = 0.05
TURNS = 4
# The calls of the system by which Ninja waits for its commands: their number differs from run to run.
WAITS = "ppoll,pselect6,rt_sigreturn,rt_sigpending,rt_sigprocmask,read"
LOG = ".ninja_log"


def lay_out(folder, edges, command=": > $out"):
    os.makedirs(folder, exist_ok=True)
    with open(f"{folder}/build.ninja", "w", encoding="utf-8") as it:
        it.write(f"rule touch\n  command = {command}\n")
        it.writelines(f"build out/{at // 100}/f{at}.o: touch\n" for at in range(edges))
        it.write("build all: phony")
        it.writelines(f" out/{at // 100}/f{at}.o" for at in range(edges))
        it.write("\ndefault all\n")


def run(words, folder, status=0, **env):
    """Runs a program: the milliseconds of its own process and of the clock, and its memory in MB."""
    began = time.monotonic()
    child = subprocess.Popen(words, cwd=folder, stdout=subprocess.DEVNULL, stderr=subprocess.DEVNULL, env={**os.environ, **env})
    os.waitid(os.P_PID, child.pid, os.WEXITED | os.WNOWAIT)
    with open(f"/proc/{child.pid}/schedstat", encoding="ascii") as it:
        own = int(it.read().split()[0]) / 1e6
    _, ended, usage = os.wait4(child.pid, 0)
    child.returncode = ended
    if ended != status:
        sys.exit(f"{words} ended with status {ended}")
    return own, (time.monotonic() - began) * 1000, usage.ru_maxrss / 1024


def told(before, pattern, words, folder):
    """A number that a program tells of one that it runs."""
    done = subprocess.run([*before, *words], cwd=folder, stdout=subprocess.DEVNULL, stderr=subprocess.PIPE, text=True, check=True)
    return int(re.findall(pattern, done.stderr)[-1].replace(",", ""))


class Costs:
    def __init__(self, ninjas, rounds):
        self.ninjas, self.rounds, self.passed, self.failed = ninjas, rounds, 0, 0

    def tell(self, what, unit, plain, patched, limit=None, is_more=False):
        value = patched - plain if is_more else patched / plain
        is_good = limit is None or value <= limit
        self.passed, self.failed = self.passed + is_good, self.failed + (not is_good)
        print(f"{'ok' if is_good else 'FAILED'}: {what}: plain {plain:.1f} {unit}, patched {patched:.1f} {unit}, {'more' if is_more else 'ratio'} {value:.3f}", flush=True)

    def compare(self, what, units, measure, rounds=None):
        """Of what a call gives for each Ninja, in turn: a number for each unit, beside which its limit stands."""
        for turn in range(1, TURNS + 1):
            medians = self.medians(measure, rounds or self.rounds)
            ratios = [patched / plain for plain, patched in medians]
            if rounds or all(limit is None or it <= limit for it, (_, limit) in zip(ratios, units)):
                break
            print(f"{what}: turn {turn} of {TURNS}: ratio {', '.join(f'{it:.3f}' for it in ratios)}", flush=True)
        for (unit, limit), (plain, patched) in zip(units, medians):
            self.tell(what, unit, plain, patched, limit)

    def medians(self, measure, rounds):
        """For each number that the call gives: that of the plain one, and of the patched one."""
        found = {name: [] for name in self.ninjas}
        for turn in range(rounds):
            for name in list(self.ninjas) if turn % 2 == 0 else list(reversed(self.ninjas)):
                found[name].append(measure(name))
        return list(zip(*[[statistics.median(it) for it in zip(*found[name])] for name in self.ninjas]))

    def task(self, what, limit, prepare, more=(), has_counts=True):
        """Of a run by words in a folder, which a call prepares: its instructions, where these are counted, and its processor time. The limit is about the
        first of these. `more`: its memory, with a limit."""
        def counted(name):
            return (told(["valgrind", "--tool=cachegrind", "--cache-sim=no", "--cachegrind-out-file=/dev/null"], r"I +refs: +([\d,]+)", *prepare(name)) / 1e6,)
        has_counts = has_counts and shutil.which("valgrind") is not None
        if has_counts:
            self.compare(what, [("million instructions", limit)], counted, 1)
        self.compare(what, [("ms", None if has_counts else limit + NOISE), *more], lambda name: run(*prepare(name))[::2])


def trivial(costs, room, edges):
    """One folder for each Ninja."""
    folder = lambda name: f"{room}/{name}-{edges}"
    words = lambda name: ([costs.ninjas[name], "-j2"], folder(name))
    for name in costs.ninjas:
        lay_out(folder(name), edges)
        run(*words(name))

    def again(name):
        shutil.rmtree(f"{folder(name)}/out")
        return words(name)

    costs.task(f"nothing to do, {edges} edges", LIMITS["nothing to do"], words)
    costs.task(f"all run again, {edges} edges", LIMITS["again"], again, has_counts=edges <= 1000)
    if shutil.which("strace"):
        calls = [told(["strace", "-c", "-e", f"trace=!{WAITS}", "-o", "/dev/stderr"], r"(\d+)\s+(?:\d+\s+)?total", *again(name)) / edges for name in costs.ninjas]
        costs.tell(f"calls of the system a command, {edges} edges", "calls", *calls, LIMITS["calls"], True)


def clock(costs, room, commands):
    def measure(folder, **env):
        def once(name):
            lay_out(f"{room}/{folder}-{name}", commands, f": {time.monotonic()}; sleep 0.1; : > $out")
            return run([costs.ninjas[name], "-j4"], f"{room}/{folder}-{name}", **env)[1:]
        return once
    costs.compare(f"the clock, {commands} commands of 100 ms", [("ms", LIMITS["clock"] + NOISE)], measure("clock"))
    costs.compare(f"the clock, {commands} commands of 100 ms, outputs synced", [("ms", None)], measure("outputs", NINJA_LOG_SYNC="outputs"))


def write_log(path, lines):
    """By pieces: a program that is started has at least the memory that this one had."""
    with open(path, "wb") as it:
        it.writelines(lines)
        os.fsync(it.fileno())


def long_log(header, lines, outputs):
    yield header
    for at in range(lines):
        yield b"%d\t%d\t%d\tobj/dir%d/some/folder/file%d.o\t%x\n" % (at % 1000, at % 1000 + 5, 1700000000000000000 + at, at % outputs // 100, at % outputs, at * 40503)


def beside_a_long_log(costs, room, header):
    os.makedirs(room)
    write_log(f"{room}/log", long_log(header, 850000, 300000))

    def fresh(name, manifest):
        folder = f"{room}/{name}"
        shutil.rmtree(folder, ignore_errors=True)
        os.makedirs(folder)
        shutil.copyfile(f"{room}/log", f"{folder}/{LOG}")
        for at, it in enumerate(manifest):
            write_log(f"{folder}/build{at}.ninja", [it.encode()])
        os.sync()
        return folder

    one = "rule c\n  command = : > $out\nbuild one: c\n"
    whole = f"{room}/whole"  # a manifest with all outputs of the log
    write_log(whole, (b"rule c\n  command = :\n" if at < 0 else b"build obj/dir%d/some/folder/file%d.o: c\n" % (at // 100, at) for at in range(-1, 300000)))
    memory = [("MB", LIMITS["memory"])]
    costs.task("one edge, 850,000 lines", LIMITS["one"], lambda name: ([costs.ninjas[name], "-f", "build0.ninja"], fresh(name, [one])), memory)
    costs.task("nothing to do, 850,000 lines", LIMITS["one"], lambda name: ([costs.ninjas[name], "-f", "build0.ninja"], f"{room}/{name}"), memory)
    costs.task("-t recompact, 850,000 lines", LIMITS["recompact"], lambda name: ([costs.ninjas[name], "-f", whole, "-t", "recompact"], fresh(name, [])), memory)

    def at_once(count, rule, edges):
        def measure(name):
            folder = fresh(name, [rule + "".join(f"build o{number}.{at}: c\n" for at in range(edges)) for number in range(count)])
            began = time.monotonic()
            children = [subprocess.Popen([costs.ninjas[name], "-j2", "-f", f"build{it}.ninja"], cwd=folder, stdout=subprocess.DEVNULL) for it in range(count)]
            if any([it.wait() for it in children]):
                sys.exit(f"{count} at once: one ended badly")
            return ((time.monotonic() - began) * 1000,)
        return measure
    costs.compare("the clock, four at once, 850,000 lines", [("ms", LIMITS["at once"] + NOISE)], at_once(4, "rule c\n  command = : > $out\n", 40))
    generator = "rule c\n  command = : > $out\n  generator = 1\n" + "".join(f"build o{at}: c\n" for at in range(50))
    costs.compare("50 edges of a generator, 850,000 lines", [("ms", LIMITS["generator"] + NOISE)], lambda name: run([costs.ninjas[name], "-j2", "-f", "build0.ninja"], fresh(name, [generator])))


def large_plan(costs, room, header):
    """Each output has an entry of another command."""
    edges = 100000
    def measure(name):
        lay_out(f"{room}/{name}", edges, "kill -9 $$PPID; false")
        write_log(f"{room}/{name}/{LOG}", (header if at < 0 else b"1\t2\t3\tout/%d/f%d.o\taa\n" % (at // 100, at) for at in range(-1, edges)))
        return run([costs.ninjas[name], "-j1"], f"{room}/{name}", status=9)
    costs.compare("a plan of 100,000 edges, up to its first command", [("ms", None), ("ms of the clock", None), ("MB", None)], measure)


def main(plain, patched, edges="10000", rounds="9", commands="40"):
    room = os.path.realpath(tempfile.mkdtemp())
    costs = Costs({"plain": plain, "patched": patched}, int(rounds))
    try:
        lay_out(f"{room}/first", 1)
        run([plain], f"{room}/first")
        with open(f"{room}/first/{LOG}", "rb") as it:
            header = it.readline()
        for count in sorted({300, 1000, int(edges)}):
            trivial(costs, f"{room}/time", count)
        large_plan(costs, f"{room}/plan", header)
        clock(costs, f"{room}/clock", int(commands))
        beside_a_long_log(costs, f"{room}/long", header)
    finally:
        shutil.rmtree(room, ignore_errors=True)
    print(f"{costs.passed} passed, {costs.failed} failed")
    return costs.failed > 0


if __name__ == "__main__":
    if len(sys.argv) not in (3, 4, 5, 6):
        sys.exit(__doc__)
    sys.exit(main(*map(os.path.abspath, sys.argv[1:3]), *sys.argv[3:]))
