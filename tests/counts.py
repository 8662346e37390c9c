#!/usr/bin/env python3
"""Holds what the parts of ./test.sh tried to tests/counts, so that the gate can't shrink unseen.

    python3 tests/counts.py [--strict] SAID

SAID is all that the parts printed, each behind a line `part: WORDS`. What a part tried is the sum of its last line, and what it says by itself,
in lines `SCRIPT: tried NUMBER WHAT`, or `WHAT: NAME..`. In tests/counts is a row `NUMBER WHAT` of each: so much is tried at the least, or exactly
that where names stand below the row, or at most (`NUMBER at most: WHAT`). A part is named by its first words there.

What a part skipped is named, and with --strict fails. Below the row of a part stands how many checks a skip leaves out, and so many fewer it then
has to try; once, or as often as the row says (`3 x NUMBER WHAT`). A kind that is skipped more often fails. The last line is `N passed, M failed`.
"""
import os
import re
import sys
from typing import List, NamedTuple, Optional

from trials import Trials, main_alone, usage

TOP = os.path.dirname(os.path.dirname(os.path.abspath(__file__)))
ROW = re.compile(r"(    )?(?:(\d+) x )?(?:(\d+) (at most: )?)?(.*)")


class Skip(NamedTuple):
    """How many checks a skip leaves out, and how often it may come."""

    number: int
    times: int


class Row:
    """A row of tests/counts: how much is tried at least, or at most, the names that are just those, and each kind of skip, by how it begins."""

    def __init__(self, number: int, is_most: bool):
        self.number, self.is_most, self.names, self.skips = number, is_most, [], {}

    def kind_of(self, skip: str) -> Optional[str]:
        return next((begin for begin in self.skips if skip.startswith(begin)), None)

    def left_out(self, skips: List[str]) -> int:
        """How many checks these skips leave out, each kind as often as it may come."""
        return sum(skip.number * min(skip.times, self.often(begin, skips)) for begin, skip in self.skips.items())

    def often(self, kind: str, skips: List[str]) -> int:
        return sum(self.kind_of(skip) == kind for skip in skips)


def rows_of(text):
    rows = {}
    for line in text.split("\n"):
        is_below, times, number, is_most, what = ROW.fullmatch(line.partition("#")[0].rstrip()).groups()
        if is_below and number:
            row.skips[what] = Skip(int(number), int(times or 1))
        elif is_below:
            row.names += what.split()
        elif number:
            row = rows[what] = Row(int(number), bool(is_most))
    return rows


def row_of_part(rows, words):
    """The name of the row that has the first words of a part."""
    words = words.split()
    return next((" ".join(words[:many]) for many in range(len(words), 0, -1) if " ".join(words[:many]) in rows), " ".join(words))


def told(rows, said):
    """What was tried, with its number and the names that were told of it, and the skips: the part's row, and what was said."""
    tried, skips = {}, []
    for part in said.split("\npart: ")[1:]:
        words, _, text = part.partition("\n")
        name = row_of_part(rows, words)
        last = re.search(r"(\d+) passed, (\d+) failed$", text.strip())
        tried[name] = int(last[1]) + int(last[2]) if last else 0, []
        # (a part may say it in more than one place)
        skips += [(name, it) for it in dict.fromkeys(re.findall(r"(?m)^(?:\S+: )?skipped: (.*)$", text))]
        for number, what, names in re.findall(r"(?m)^\S+: tried (\d+) ([^:\n]+)(?:: (.*))?$", text):
            tried[what] = int(number), names.split()
    return tried, skips


def judge(trials, rows, said, is_strict):
    tried, skips = told(rows, "\n" + said)
    for what, row in rows.items():
        number, names = tried.get(what, (0, []))
        own = [skip for part, skip in skips if part == what]
        least = row.number - row.left_out(own)
        for kind, skip in row.skips.items():
            often = row.often(kind, own)
            if often > skip.times:
                trials.check(f"{what}: {kind}", False, f"it is skipped {often} times, and tests/counts allows {skip.times}")
        if row.is_most:
            trials.check(what, number <= row.number, f"there are {number}, and tests/counts allows {row.number}")
        elif row.names:
            trials.want(f"{what}: the names", (number, sorted(names)), (row.number, sorted(row.names)))
        else:
            trials.check(what, what in tried and number >= least, f"{number} were tried, and tests/counts wants {least} at the least")
    for what in tried:
        trials.check(f"{what} has a row in tests/counts", what in rows)
    for part, skip in skips:
        kind = rows[part].kind_of(skip) if part in rows else None
        number = None if kind is None else rows[part].skips[kind].number
        print(f"{trials.script}: skipped: {part}: {skip} ({'nobody counted how many' if number is None else number} checks)")
        if is_strict:
            trials.check(f"nothing is skipped by {part}", False, skip)


def main():
    words = sys.argv[1:]
    is_strict = words[:1] == ["--strict"]
    if len(words) != 1 + is_strict:
        return usage(__file__, "[--strict] SAID")
    trials, texts = Trials(__file__), []
    for path in (f"{TOP}/tests/counts", words[-1]):
        with open(path, encoding="utf-8", errors="replace") as it:
            texts.append(it.read())
    judge(trials, rows_of(texts[0]), texts[1], is_strict)
    return trials.end()


if __name__ == "__main__":
    sys.exit(main_alone(__file__, main))
