#!/usr/bin/env python3
"""`picture` and `compare` beside models of their own, in which each fault of FAULTS is planted.

The models are docs/CLI.md written as a program (log_lines.py). A picture is of one build: of a few commands or of some 65 at a time, so short that
bars are of all widths, or long enough for names, many of which begin as another ends. A comparison is of logs in which outputs are made again,
move to other commands, or wait for a command that didn't end. Both have to be to the byte what the program prints. So that the models are rivals
and no echo, with each fault some case has to come out otherwise than the program has it. The seed is fixed.

    python3 tests/rivals.py PROGRAM [CASES [SEED]]
"""
import sys

from log_format import as_version, line_of
from log_lines import compare_of, picture_of
from trials import main_by_chance, run, short, write

CASES, SEED = 300, 20240229
MILLI = 1_000_000
BEGAN = 1_700_000_000_000
ENDS = [".o", ".o", ".so", "", ".a", ".c", ".h", ".test", ".txt", ".x.o"]
STEMS = ["a", "main", "deep/er/lexer", "out/d", "a name of more than twenty-two letters", "f/x&y<z", "\u00e9t\u00e9", "long/" + "n" * 90]
FAULTS = {
    "picture": ["a lane is free a moment later", "no lane is given twice", "the highest free lane is taken", "the folder stands in a bar",
                "the last output tells the kind", "parts are of commands", "tenths are rounded", "parts are rounded", "the axis has thirteen steps",
                "a bar is half as narrow", "a bar is narrow a tenth later", "each short command has a bar", "the last short command gives the colour",
                "short commands aren't counted", "more outputs aren't told", "the gap begins later", "each bar has a gap", "a name has 23 letters",
                "four letters are no room", "65 lanes have names", "the last lane's short commands come first", "the curve has what just ended",
                "of two alike the last is listed first", "nine are listed"],
    "compare": ["entries that were made again count", "each output is compared", "hashes are always compared", "hashes are never compared",
                "the last output meets first", "the first output alone meets", "a command is met twice", "what doesn't end is gone", "what didn't end is new",
                "the last new command comes first", "a sum is of what is listed", "what takes longest comes first", "what lost most comes first",
                "what is the same is listed", "one more is listed", "the limit is no difference", "no difference is too small"],
}


def a_log(version, commands, waiting=()):
    """A log of commands in the order in which they ended, each a START, an END, a hash, and the names of its outputs."""
    lines = [line_of(name.encode(), (start, end, (BEGAN + start) * MILLI, told)) for start, end, told, names in commands for name in names]
    lines += [line_of(name.encode(), (0, 0, 0, 0)) for name in waiting]
    return b"# ninja log v%d\n" % version + b"".join(lines)


def a_build(chance):
    """The commands of one build, no output of which is made twice."""
    kind, commands, ends = chance.choice(["few", "short", "many", "round"]), [], [0]
    wall = {"short": 14_400, "round": 480}.get(kind) or chance.choice([1, 12, 130, 5_000, 60_000, 8_000_000, chance.randrange(1, 2**31)])
    count = chance.choice([63, 64, 65, 66]) if kind == "many" else chance.randrange(1, 60)
    for number in range(count):
        start = 0 if kind == "many" and number else chance.choice([chance.choice(ends), chance.randrange(wall), chance.randrange(wall)])
        least = {"short": 0, "many": wall // 2}.get(kind, 0)
        end = min(wall, start + chance.choice([least, chance.randrange(30 if kind == "short" else wall + 1), max(least, wall // 40)]))
        names = [f"{chance.choice(STEMS)}{number}{chance.choice(ENDS)}"]
        names += [f"more{number}.{it}{chance.choice(ENDS)}" for it in range(chance.choice([0, 0, 0, 1, 2]))]
        commands.append((start, end, number, names))
        ends.append(end if end < wall else 0)
    return sorted(commands, key=lambda it: it[1])


def a_side(chance):
    """A log of some builds of the same outputs."""
    commands, clock = [], 0
    names = [f"{stem}{end}" for stem in "abcdefg" for end in (".o", ".h")]
    for _ in range(chance.choice([1, 1, 2])):
        left = chance.sample(names, len(names))
        for _ in range(chance.randrange(1, 9)):
            outputs = [left.pop() for _ in range(min(len(left), chance.choice([1, 1, 1, 2, 3])))]
            start = clock + chance.randrange(50)
            commands.append((start, start + chance.choice([0, 5, 10, 20, 21, 40]), chance.choice([1, 2]), outputs)) if outputs else None
    commands.sort(key=lambda it: it[1])
    version = chance.choice([5, 6, 7])
    return version, a_log(version, commands, chance.sample(names, chance.choice([0, 0, 1, 2])))


class Rivals:
    """Compares the words with the models, and keeps which faults no case has seen."""

    def __init__(self, trials, program, room):
        self.trials, self.program, self.room = trials, program, room
        self.unseen = {(word, fault) for word, faults in FAULTS.items() for fault in faults}

    def want(self, what, word, words, told):
        ended = run([self.program, word, *words])
        self.trials.check(f"{what}, {word}", ended == (0, told(None), b""), f"{short(ended)} in place of {short(told(None))}")
        self.unseen -= {(of, fault) for of, fault in self.unseen if of == word and told(fault) != ended[1]}

    def case(self, what, chance):
        version = chance.choice([5, 6, 7])
        text = a_log(version, a_build(chance))
        write(f"{self.room}/log", text)
        self.want(f"{what} of {short(text)}", "picture", [f"{self.room}/log"], lambda fault: picture_of(as_version(text, version), version, fault=fault))
        sides = [a_side(chance), a_side(chance)]
        for place, (_, log) in zip("ab", sides):
            write(f"{self.room}/{place}", log)
        most, least = chance.choice([0, 1, 3, 10]), chance.choice([0, 1, 5, 20])
        seen, versions = [as_version(log, it) for it, log in sides], [it for it, _ in sides]
        words = ["-n", str(most), "--at-least", str(least), f"{self.room}/a", f"{self.room}/b"]
        self.want(f"{what} of {short(sides)}", "compare", words, lambda fault: compare_of(*seen, versions, most, least, fault))


def trial(trials, program, room, count, chance):
    rivals = Rivals(trials, program, room)
    for number in range(count):
        rivals.case(f"case {number}", chance)
    for word, faults in FAULTS.items():
        for fault in faults if count >= CASES else []:
            trials.check(f"{word}, with the fault that {fault}, comes out otherwise", (word, fault) not in rivals.unseen)


if __name__ == "__main__":
    sys.exit(main_by_chance(__file__, CASES, SEED, trial))
