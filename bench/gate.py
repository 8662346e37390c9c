#!/usr/bin/env python3
"""Where the time of the gate goes: by crate its proof, the checks of its edits, the compilers; each trial; and the longest chain of proofs.

    python3 bench/gate.py [--keep FILE] [COMMAND ..]
    python3 bench/gate.py --read FILE

Runs the command, `./test.sh` where none is given, at the top of the repository, and samples the processes below it five times a second
(/proc, Linux alone). Processor time is user and system together, of each process and of those it has waited for. FILE keeps what was seen
of each process, a line of JSON each, so that the tables can be printed again. Clock times mean something only where nothing else runs.

How a process of the kit is told: by its crate, `--backend`, and where it runs. A check of many edits is one process; what each of them took,
`python3 tests/edits.py --times` says.
"""
import json
import os
import re
import subprocess
import sys
import time
from glob import glob

TOP = os.path.dirname(os.path.dirname(os.path.abspath(__file__)))
TICK = os.sysconf("SC_CLK_TCK")
STEP = 0.2


def stat(pid):
    """The parent of a process, when it began, its processor time, and that of the processes it has waited for."""
    try:
        with open(f"/proc/{pid}/stat", encoding="utf-8", errors="replace") as it:
            rest = it.read().rpartition(")")[2].split()
    except OSError:
        return None
    return int(rest[1]), int(rest[19]), sum(map(int, rest[11:13])) / TICK, sum(map(int, rest[13:15])) / TICK


def words_of(pid):
    try:
        with open(f"/proc/{pid}/cmdline", "rb") as it:
            return it.read().replace(b"\0", b" ").decode(errors="replace").strip()
    except OSError:
        return ""


def folder_of(pid):
    try:
        return os.readlink(f"/proc/{pid}/cwd")
    except OSError:
        return ""


def look(root, seen, begun):
    """Takes in how each process below the root stands."""
    found = {int(it): stat(it) for it in os.listdir("/proc") if it.isdigit()}
    below = {root}
    while True:
        more = {pid for pid, it in found.items() if it and it[0] in below} - below
        if not more:
            break
        below |= more
    now = time.time() - begun
    for pid in below:
        if not found.get(pid):
            continue
        parent, at, cpu, waited = found[pid]
        it = seen.setdefault((pid, at), {"pid": pid, "ppid": parent, "start": now, "cmd": "", "cwd": ""})
        it.update(cpu=cpu, waited=waited, last=now)
        # (a process has its parent's words until it starts a program)
        if now - it["start"] < 3 or not it["cmd"]:
            words = words_of(pid)
            if words and words != it["cmd"]:
                it.update(cmd=words, cwd=folder_of(pid))


def sampled(command):
    """Runs a command, and gives what was seen of each process, and its status."""
    seen, begun = {}, time.time()
    ran = subprocess.Popen(command, cwd=TOP)
    while ran.poll() is None:
        look(ran.pid, seen, begun)
        time.sleep(STEP)
    own = os.times()
    print(f"\n{' '.join(command)}: status {ran.returncode}, {clock(time.time() - begun)} of the clock, "
          f"{clock(own.children_user + own.children_system)} of processors\n")
    return [*seen.values()], ran.returncode


def task_of(record):
    """What a process works at: its kind, and its crate or script; or None."""
    words = record["cmd"].split()
    script = next((re.fullmatch(r"(?:.*/)?tests/(\w+)\.py", it) for it in words[:3] if it.endswith(".py")), None)
    if script and script[1] != "edits" and "python" in words[0]:
        by = " by the second compiler" if words[-1].endswith(".by-rattle") else ""
        return "trial", script[1] + by
    if len(words) < 4 or not words[0].endswith("/rattle") or words[1] not in ("check", "build") or "--crate-name" not in words:
        return None
    crate = words[words.index("--crate-name") + 1]
    if "/nlog-edits-" in record["cwd"]:
        return "edits", crate
    if "--crate-checked" in words:
        return f"compiled by {words[words.index('--backend') + 1]}", crate
    return "proof", crate


def tasks_in(records):
    """The tasks, each with its processor time and that of all below it, in the order in which they began."""
    records = sorted(records, key=lambda it: it["start"])
    tasks, of_pid = [], {}
    for it in records:
        above = of_pid.get(it["ppid"])
        found = above or task_of(it) and {"task": task_of(it), "start": it["start"], "end": 0, "sum": 0, "top": it["cpu"] + it.get("waited", 0)}
        of_pid[it["pid"]] = found
        if not found:
            continue
        if not above:
            tasks.append(found)
        found["sum"] += it["cpu"]
        found["end"] = max(found["end"], it["last"])
    for it in tasks:
        it["cpu"] = max(it["sum"], it["top"])
    return tasks


def edits_of(crate):
    """How many edits a crate has."""
    return len(glob(f"{TOP}/crates/{crate}/edits/*.edit"))


def crates():
    """The crates in the order of crates.txt, with those of the repository on which each stands."""
    found = {}
    with open(f"{TOP}/crates.txt", encoding="utf-8") as it:
        for line in it:
            name, is_crate, below = line.partition("#")[0].partition(":")
            if is_crate:
                found[name.split()[0]] = [it for it in below.split()]
    return {name: [it for it in below if it in found] for name, below in found.items()}


def clock(seconds):
    return f"{int(seconds) // 60} min {int(seconds) % 60:02} s" if seconds >= 60 else f"{seconds:.0f} s"


def table(titles, rows):
    print(f"| {' | '.join(titles)} |\n|{'---|' * len(titles)}")
    for row in rows:
        print(f"| {' | '.join(str(it) for it in row)} |")
    print()


def chains(below, lasts):
    """How long each proof ends after the beginning where each begins once those that it waits for have ended, and by which chain."""
    ends = {}

    def end(crate):
        if crate not in ends:
            before = max(map(end, below[crate]), default=(0, ()))
            ends[crate] = before[0] + lasts.get(crate, 0), (*before[1], (crate, lasts.get(crate, 0)))
        return ends[crate]

    return sorted(map(end, below), reverse=True)


def report(records):
    tasks, below = tasks_in(records), crates()
    of = lambda kind, name: [it for it in tasks if it["task"] == (kind, name)]
    spent = lambda kind, name: sum(it["cpu"] for it in of(kind, name))
    kinds = ["proof", "edits", "compiled by llvm", "compiled by rattle"]
    rows = [[name, *(spent(kind, name) for kind in kinds)] for name in below]
    rows.append(["all", *(sum(row[at] for row in rows) for at in range(1, 5))])
    counts = [(edits_of(name), len(of("edits", name))) for name in below]
    counts.append(tuple(map(sum, zip(*counts))))
    shown = lambda seconds: clock(seconds) if seconds else ""
    titles = ["Crate", "Proof", "Edits", "in checks", "Processors", "LLVM", "Second compiler", "All"]
    table(titles, [[row[0], shown(row[1]), *(it or "" for it in count), *map(shown, [*row[2:], sum(row[1:])])] for row, count in zip(rows, counts)])
    lasts = {name: max(it["end"] for it in of("proof", name)) - min(it["start"] for it in of("proof", name)) for name in below if of("proof", name)}
    trials = dict.fromkeys(it["task"][1] for it in tasks if it["task"][0] == "trial")
    table(["Trial", "Processor time"], [[name, clock(spent("trial", name))] for name in trials])
    others = sum(spent("trial", it) for it in trials)
    print(f"Proofs, edits and compilers {clock(sum(rows[-1][1:]))}, trials {clock(others)} of processors.")
    for length, chain in chains(below, lasts)[:3]:
        print(f"Chain of {clock(length)}: {', '.join(f'{crate} {clock(last)}' for crate, last in chain)}.")


def main(words):
    if words[:1] == ["--read"] and len(words) == 2:
        with open(words[1], encoding="utf-8") as it:
            report([json.loads(line) for line in it])
        return 0
    keep = words[1] if words[:1] == ["--keep"] and len(words) > 1 else None
    command = words[2:] if keep else words
    if command[:1] and command[0].startswith("--"):
        print("usage: python3 bench/gate.py [--keep FILE] [COMMAND ..] | --read FILE", file=sys.stderr)
        return 2
    records, status = sampled(command or ["./test.sh"])
    if keep:
        with open(keep, "w", encoding="utf-8") as it:
            it.writelines(json.dumps(record) + "\n" for record in records)
    report(records)
    return status


if __name__ == "__main__":
    sys.exit(main(sys.argv[1:]))
