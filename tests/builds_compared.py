#!/usr/bin/env python3
"""Compares what nl_builds tells of logs with what builds_model.py tells of them.

    python3 tests/builds_compared.py [COUNT [SEED [LOG ..]]]

COUNT random logs of versions 5 to 7 (300) are made, of few names and of times at the limits of the rule, some in another order; to these come the LOGs. A
program that prints the builds of each is built by `rt try`, with checks and without a proof. Skipped where `rt` is missing.
"""
import itertools
import os
import random
import shutil
import subprocess
import sys
import tempfile

import builds_model as model
from trials import Trials, main_alone

TOP = os.path.dirname(os.path.dirname(os.path.abspath(__file__)))
MS = model.MS
CRATES = ["nl_fields", "nl_lines", "nl_table", "nl_folder", "nl_versions", "nl_builds"]
# The moments of the program count from before all that there can be.
EARLIEST = (1 << 31) * MS
PROGRAM = """//! For each log of standard input, behind which a line of = stands, its builds.
#![tactic(auto)]

use nl_builds::{How, read_builds};
use nl_table::NO_SECRET;
use std::io;
use std::io::Read;
use std::str;

fn main(rt: HostRuntime) -> io::Result<()> {
    let mut text = Vec::new(rt.alloc());
    rt.stdin().read_to_end(&mut text)?;
    let mut at = 0;
    let mut from = 0;
    while at < text.len() {
        if text[at] == b'=' && (at == 0 || text[at - 1] == b'\\n') {
            match read_builds(rt.alloc(), NO_SECRET, &text[from..at]) {
                Ok(log) => {
                    for build in log.told.builds.as_slice() {
                        let (sure, commands) = (build.is_sure, build.to);
                        let (word, taken) = match build.how {
                            How::AsWritten => ("written", 0),
                            How::FoundAgain { taken } => ("found", taken),
                        };
                        let outputs = log.told.commands[commands - 1].to;
                        let began = build.began.unwrap_or(0);
                        println!(rt; "{commands}\\t{outputs}\\t{word}\\t{taken}\\t{sure}\\t{began}")?;
                    }
                    for name in log.unfinished.as_slice() {
                        println!(rt; "unfinished\\t{}", str::from_utf8(name).unwrap_or("?"))?;
                    }
                }
                Err(fault) => println!(rt; "{fault}")?,
            }
            println!(rt; "=")?;
            from = at + 2;
            at += 1;
        }
        at += 1;
    }
    Ok(())
}
"""


def random_entries(rand):
    """Entries of few names, with times at the limits of the rule."""
    names = [f"o{i}" for i in range(rand.choice([2, 5, 12]))] + (["build.ninja"] if rand.random() < 0.4 else [])
    found, began, in_turn, last = [], 10**12, rand.random() < 0.4, None
    for i in range(rand.randint(0, 24)):
        if not last or rand.random() > 0.2:
            if rand.random() < 0.15:
                began += rand.choice([0, 1, 5, 19, 20, 21, 40, 100, 1000]) * MS + rand.choice([0, 0, 1, -1])
            if rand.random() < 0.1:
                began -= rand.choice([5, 30, 200, 5000]) * MS
            start = rand.choice([0, 1, 3, 5, 10, 20, rand.randint(0, 120)])
            end = start + rand.choice([0, 1, 2, 3, 20, 40, rand.randint(0, 150)])
            mtime = began + rand.choice([start, end, end, start, rand.randint(0, 200)]) * MS + rand.choice([0, 0, 0, 1, -1, 6 * MS, rand.randint(-(10**7), 10**7)])
            last = start, end, rand.choice([0, -5, 1]) if rand.random() < 0.05 else mtime, rand.randint(1, 3)
        start, end, mtime, number = last
        name = names[i % len(names)] if in_turn else rand.choice(names)
        stood = [it for it in found if it.name == name and not model.is_intent(it)]
        if rand.random() < 0.06:
            found.append(model.Entry(3, 3, 0, name, 7))
        elif stood and rand.random() < 0.06:
            found += [model.Entry(3, 3, 0, name, 7), stood[-1]]
        else:
            found.append(model.Entry(start, end, mtime, name, number))
    if rand.random() < 0.3:
        rand.shuffle(found)
    return list({it.name: it for it in found}.values()) if rand.random() < 0.3 else found


def text_of(version, entries):
    return f"# ninja log v{version}\n" + "".join(f"{it.start}\t{it.end}\t{it.mtime}\t{it.name}\t{it.hash:x}\n" for it in entries)


def wanted_of(version, entries):
    for commands, outputs, how, taken, sure, began in model.lines_of(version, entries):
        yield f"{commands}\t{outputs}\t{how}\t{taken}\t{'true' if sure else 'false'}\t{0 if began is None else began + EARLIEST}"
    for name in model.unfinished(entries):
        yield f"unfinished\t{name}"
    yield "="


def told(room, text):
    """What the program prints of these logs."""
    with open(f"{TOP}/crates.txt", encoding="utf-8") as it:
        lines = [line for line in it if line.split(":")[0] in CRATES]
    for name in CRATES:
        shutil.copytree(f"{TOP}/crates/{name}", f"{room}/crates/{name}", ignore=shutil.ignore_patterns("out", "edits"))
    shutil.copy(f"{TOP}/HANDLES", room)
    os.makedirs(f"{room}/crates/told/src")
    for path, content in (("crates.txt", "".join(lines) + "told: nl_fields nl_table nl_builds\n"), ("crates/told/src/main.rt", PROGRAM), ("crates/told/stdin", ""), ("crates/told/stdout", ""), ("logs", text)):
        with open(f"{room}/{path}", "w", encoding="utf-8", errors="surrogateescape") as it:
            it.write(content)
    subprocess.run(["git", "init", "-q", room], check=True)
    with open(f"{room}/logs", "rb") as it:
        ran = subprocess.run(["rt", "try"], cwd=f"{room}/crates/told", stdin=it, capture_output=True, check=False)
    return ran.stdout.decode(errors="surrogateescape").splitlines()


def main():
    trials = Trials(__file__)
    if not shutil.which("rt"):
        trials.skip("what nl_builds tells", "rt isn't there")
        return trials.end()
    count, seed = (int(it) for it in (sys.argv[1:3] + ["300", "1"][len(sys.argv[1:3]):]))
    rand, logs = random.Random(seed), []
    for _ in range(count):
        logs.append((rand.choice([5, 6, 7]), random_entries(rand)))
    for path in sys.argv[3:]:
        with open(path, encoding="utf-8", errors="surrogateescape", newline="\n") as it:
            logs.append(model.read(it.read()))
    with tempfile.TemporaryDirectory(prefix="nl-builds-") as room:
        found = iter(told(room, "".join(text_of(*it) + "=\n" for it in logs)))
    again = 0
    for number, log in enumerate(logs):
        wanted = list(wanted_of(*log))
        again += any("\tfound\t" in line for line in wanted)
        trials.want(f"log {number}: {text_of(*log)!r}", list(itertools.islice(found, len(wanted))), wanted)
    trials.check("some logs are found again", again > count // 10)
    return trials.end()


if __name__ == "__main__":
    sys.exit(main_alone(__file__, main))
