#!/usr/bin/env python3
"""Tries that no build by examples/build.py trusts a stale output, whatever cuts it off, and that one which begins no command does.

    python3 tests/begun_builds.py PROGRAM

A life of a folder is some builds whose commands change and come back, each with the log that the one before left. Most are cut off behind
any line that `apply` answered, or within a command: by a kill, which leaves the log as it then is, or a part of the line that was on its way;
or by a power cut, which leaves any log that `disk_model` lets a crash leave, and of each output that wasn't synced the old file or the new
one. An output whose command was cut off is half of it. After each build that came to its end an output is stale if it was taken for fresh,
and its file is that of another command, or of half a one.

- The build of the example has none, after kills and power cuts.
- Without the sync behind its begins it has none after kills, and some after power cuts.
- With no begin it has some after either.
"""
import multiprocessing
import os
import random
import sys

from disk_model import LOG, Disk
from trials import main, read, write

sys.path.insert(0, f"{os.path.dirname(os.path.dirname(os.path.abspath(__file__)))}/examples")
import build

SEED = 20261126
OUTPUTS, FLAGS = 14, "ABC"
# Lives of a case that has no stale output, and of one that has.
LIVES, SOME_LIVES = 260, 60
# Few start at once, so that a build of few outputs has several turns.
build.AT_ONCE = 4
# How a build is cut off, and what it leaves out; whether it then has stale outputs.
CASES = [
    ("kill", None, False),
    ("power", None, False),
    ("kill", "the sync", False),
    ("power", "the sync", True),
    ("kill", "the begin", True),
    ("power", "the begin", True),
]


class Cut(Exception):
    """The build is cut off."""


class Watched(build.Log):
    """The log of a build, which leaves something out, and is watched line by line."""

    def __init__(self, program, life, leaves_out):
        self.life, self.leaves_out, self.before = life, leaves_out, ""
        super().__init__(program, life.log)

    def ask(self, *fields):
        answer = super().ask(*fields)
        self.life.answered(fields[0])
        return answer

    def do(self, *fields):
        before, self.before = self.before, fields[0]
        is_left_out = fields[0] == "begin" if self.leaves_out == "the begin" else (before, fields[0]) == ("begin", "sync")
        if self.leaves_out is None or not is_left_out:
            super().do(*fields)


class Life:
    """A folder: its log, which command made each output's file, and what a power cut may leave of both."""

    def __init__(self, program, room, seed, how, leaves_out):
        self.program, self.log, self.chance = program, f"{room}/{LOG}", random.Random(seed)
        self.how, self.leaves_out = how, leaves_out
        self.files, self.possible = {}, {}
        self.disk, self.left, self.states, self.stale, self.cuts = None, 0, 0, 0, 0

    def step(self):
        self.left -= 1
        if self.left == 0:
            raise Cut

    def answered(self, word):
        """Sees what a line made of the log."""
        text = read(self.log)
        if word in ("open", "sync", "stop"):
            self.disk, self.whole = Disk(text), text
        else:
            self.whole = self.disk.text_of(LOG)
            assert text.startswith(self.whole), f"{word} changed what was there"
            self.disk.names[LOG].append(text[len(self.whole) :])
        if word == "record":
            # Before a record the build syncs its output.
            self.possible.clear()
        self.step()

    def run(self, i, flag):
        """A command, which may be cut off half way."""
        old = self.files.get(i)
        self.files[i] = f"half of {flag}"
        self.possible[i] = [old, self.files[i]]
        self.step()
        self.files[i] = flag
        self.possible[i].append(flag)
        self.step()

    def cut(self, log):
        """What is left where a build is cut off."""
        self.cuts += 1
        log.nlog.kill()
        log.nlog.wait()
        text = self.disk.text_of(LOG)
        if self.how == "kill":
            text = text[: self.chance.choice([len(text), self.chance.randint(len(self.whole), len(text))])]
        else:
            text = self.chance.choice(self.disk.images())[0]
            self.files.update((i, self.chance.choice(files)) for i, files in self.possible.items())
        self.possible.clear()
        write(self.log, text)

    def build(self, flag, is_cut):
        """One build, which may be cut off."""
        ran, log = set(), None
        # Some 10 lines and steps an output.
        self.left = self.chance.randint(2, OUTPUTS * 6) if is_cut else -1
        try:
            log = Watched(self.program, self, self.leaves_out)
            for _ in build.build(log, OUTPUTS, flag, lambda i, flag: (ran.add(i), self.run(i, flag))):
                pass
            log.close()
        except Cut:
            self.cut(log)
            return
        finally:
            if log is not None:
                log.nlog.stdin.close()
                log.nlog.stdout.close()
        self.possible.clear()
        self.states += OUTPUTS
        self.stale += sum(i not in ran and self.files.get(i) != flag for i in range(OUTPUTS))

    def live(self):
        flag = FLAGS[0]
        self.build(flag, False)
        for _ in range(self.chance.randint(4, 8)):
            flag = self.chance.choice([it for it in FLAGS if it != flag])
            self.build(flag, self.chance.random() < 0.6)
        for _ in range(2):
            self.build(self.chance.choice(FLAGS), False)
        return self.states, self.stale, self.cuts


def lives(case):
    program, room, seeds, how, leaves_out = case
    found = []
    for seed in seeds:
        os.makedirs(f"{room}/{seed}")
        found.append(Life(program, f"{room}/{seed}", seed, how, leaves_out).live())
    return [sum(it) for it in zip(*found)]


def trial(trials, program, room):
    parts = os.cpu_count()
    with multiprocessing.Pool(parts) as pool:
        for number, (how, leaves_out, has_stale) in enumerate(CASES):
            seeds = [range(SEED + part, SEED + (SOME_LIVES if has_stale else LIVES), parts) for part in range(parts)]
            found = pool.map(lives, [(program, f"{room}/{number}/{part}", it, how, leaves_out) for part, it in enumerate(seeds)])
            states, stale, cuts = (sum(it) for it in zip(*found))
            what = f"{how}, {'all of the build' if leaves_out is None else f'without {leaves_out}'}"
            print(f"{trials.script}: {what}: {stale} of {states} output states are stale, {cuts} builds were cut off")
            trials.check(f"{what}: stale outputs", stale > 0 if has_stale else stale == 0, f"{stale} of {states}")
            enough = (4000, 100) if has_stale else (20_000, 600)
            trials.check(f"{what}: enough was tried", states >= enough[0] and cuts >= enough[1], f"{states} states, {cuts} cuts")


if __name__ == "__main__":
    sys.exit(main(__file__, trial))
