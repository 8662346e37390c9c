#!/usr/bin/env python3
"""Tries each word that takes many of something with 1,000,000 of it, and with the longest names, beside a
plain model; and on logs of hostile names.

    python3 tests/many.py PROGRAM [--only PART]

targets, mended, retimed, repaired, lines: that word, of 1,000,000 entries, whose log has more than 100 MB,
and of some that have names of 65,536 bytes.
hostile: names that have one hash in a table without a secret, or with half of one: no word that reads a log
    takes some times as long as for as many other names.
NLOG_MANY names another number than 1,000,000, for a slow program. large.py has the other words.
"""
import os
import shutil
import sys
from itertools import chain, repeat
from typing import Callable, Dict, Iterable, List, NamedTuple

from large import make, roomy, streamed, sum_of, sum_of_file
from log_format import HEADER, MAX_NAME, WORD, line_of
from trials import is_within, main_of_parts, seconds_of, write

MANY = int(os.environ.get("NLOG_MANY", "1000000"))
# The longest names come in logs of 100 MB and more.
LONGEST = max(4, MANY * 110 // MAX_NAME)
SECOND = 1_000_000_000
OLD, NEW = 1_700_000_000 * SECOND, 1_800_000_000 * SECOND
Lines = Iterable[bytes]


class Names(NamedTuple):
    """So many names, each by its number."""

    about: str
    count: int
    of: Callable[[int], bytes]
    # Whether the system looks it up: of a longer name nothing is known.
    is_looked_up: bool

    def all(self) -> Lines:
        return map(self.of, range(self.count))


PLAIN = Names("names of a hundred bytes", MANY, lambda number: b"out/%07d" % number + b"n" * 89, True)
LONG = Names(
    "names of the most bytes", LONGEST, lambda number: b"%07d" % number + b"n" * (MAX_NAME - 7), False
)
BOTH = (PLAIN, LONG)


def numbers_of(number: int):
    return number, number + 7, NEW + number, WORD - number


def entries(numbers: Iterable[int], names: Names, changed: Callable = lambda number: None) -> Lines:
    """The lines of these entries, with the numbers that changed."""
    for number in numbers:
        yield line_of(names.of(number), changed(number) or numbers_of(number))


HERE = line_of(b"here", numbers_of(0))


class Trial:
    """A word over a log of many names in a folder of its own."""

    def __init__(self, trials, program: str, room: str, names: Names):
        self.trials, self.program, self.room, self.names = trials, program, room, names
        self.log, self.numbers = f"{room}/LOG", range(names.count)
        # A file of an output, because no word takes a folder without any.
        write(f"{room}/here", b"")
        os.utime(f"{room}/here", ns=(OLD, OLD))

    def fill(self, behind: Lines = ()) -> None:
        make(self.log, chain([HEADER], entries(self.numbers, self.names), [HERE], behind))
        size = os.path.getsize(self.log)
        self.trials.check(f"{self.names.about}: the size of LOG", size > 100 * MANY, f"{size} bytes")

    def want(self, words: List[str], status: int, printed: Lines, left: Lines, said: str = "") -> None:
        """How a word ends, what it prints, and what it leaves of LOG."""
        what = f"{words[0]} of {self.names.count:,} {self.names.about}"
        at = os.getcwd()
        os.chdir(self.room)
        try:
            ended = streamed([self.program, *words])
        finally:
            os.chdir(at)
        self.trials.want(what, ended, (status, sum_of(printed), said.encode()))
        self.trials.want(f"{what}: LOG then", sum_of_file(self.log), sum_of(chain([HEADER], left)))


def over_both(part: Callable) -> Callable:
    """A trial of both kinds of names, each in an empty folder."""

    def run_both(trials, program, room):
        with roomy(trials, room, part.__name__[len("try_") :]) as folder:
            for at, names in enumerate(BOTH if folder else ()):
                os.mkdir(f"{folder}/{at}")
                part(Trial(trials, program, f"{folder}/{at}", names), names)
                shutil.rmtree(f"{folder}/{at}")

    return run_both


def try_targets(trial, names):
    """`prune` keeps the last two thirds, which TARGETS has in another order, and behind as many others; and
    what can't be looked up."""
    trial.fill()
    kept = range(names.count // 3, names.count)
    others = (b"other/%s: cc\n" % name[: MAX_NAME - 6] for name in names.all())
    targets = (b"%s: cc\n" % names.of(number) for number in reversed(kept))
    make(f"{trial.room}/TARGETS", chain(others, targets))
    left = entries(kept if names.is_looked_up else trial.numbers, names)
    trial.want(["prune", "LOG", "TARGETS"], 0, [], chain(left, [HERE]))


def try_mended(trial, names):
    """`mend` puts an intent over the last output of which a damaged line tells, and over each third."""

    def is_damaged(number):
        return number % 3 == 0 or number == names.count - 1

    def intent(number):
        return (number + 7, number + 7, 0, number) if is_damaged(number) else None

    trial.fill(b"7\t8\t9\t%s\n" % names.of(number) for number in trial.numbers if is_damaged(number))
    told = (number for number in trial.numbers if is_damaged(number) or not names.is_looked_up)
    printed = (
        b"%s\t%s\n" % (b"damaged" if is_damaged(number) else b"unsure", names.of(number)) for number in told
    )
    said = f"nlog: LOG LOG: 1 of {names.count + 1} outputs are here\n" if names.is_looked_up else ""
    trial.want(["mend", "LOG"], 3, printed, chain(entries(trial.numbers, names, intent), [HERE]), said)


def try_retimed(trial, names):
    """`retime` sets the time of the one output that has a file."""
    trial.fill()
    start, end, _, told = numbers_of(0)
    left = chain(entries(trial.numbers, names), [line_of(b"here", (start, end, OLD, told))])
    trial.want(["retime", "LOG"], 0, [], left)


def try_repaired(trial, names):
    """`repair` drops as many older entries and damaged lines."""

    def later(number):
        return 1, 2, 3, number

    damaged = (b"7\t8\t9\t%s\n" % name for name in names.all())
    trial.fill(chain.from_iterable(zip(damaged, entries(trial.numbers, names, later))))
    trial.want(["repair", "LOG"], 0, [], chain(entries(trial.numbers, names, later), [HERE]))


def try_lines(trial, names):
    """`apply` records as many entries as lines, begins each third again, and answers a table of all."""
    make(trial.log, [HEADER])
    begun, intent = range(0, names.count, 3), (9, 9, 0, WORD - 5)
    records = (b"record\t%d\t%d\t%d\t%s\t%x\n" % (*numbers_of(number)[:3], names.of(number), WORD - number)
               for number in trial.numbers)
    begins = (b"begin\t9\t5\t%s\n" % names.of(number) for number in begun)
    make(f"{trial.room}/SCRIPT", chain([b"open\n"], records, begins, [b"sync\n", b"table\n"]))
    table = entries(trial.numbers, names, lambda number: None if number % 3 else intent)
    printed = chain(repeat(b"ok\n", names.count + len(begun) + 2), table, [b"end\n"])
    left = chain(entries(trial.numbers, names), entries(begun, names, lambda number: intent))
    trial.want(["apply", "LOG", "SCRIPT"], 0, printed, left)


# -- hostile -------------------------------------------------------------------------------------------------

# As many as take some seconds where they have one hash, and no time where they haven't.
HOSTILE, RATIO = max(3_000, MANY // 50), 5
# After so many seconds of processors a word is killed.
MOST = 60
# The last eight bytes are the factor of the hash without a secret, and make a product zero whatever stands
# before them (bench/colliding_log.py).
FACTOR = (0x9E3779B97F4A7C15).to_bytes(8, "little")


def hostile(number: int) -> bytes:
    return b"%08d" % number + FACTOR


def harmless(number: int) -> bytes:
    return hostile(number)[:-1] + b"x"


class Files(NamedTuple):
    """The files that the words read: of each line a number and a name is made."""

    name: str
    first: bytes
    line: Callable[[int, bytes], bytes]
    last: bytes = b""


def entry_line(number: int, name: bytes) -> bytes:
    return line_of(name, numbers_of(number))


FILES = [
    Files("LOG", HEADER, entry_line),
    Files(
        "DAMAGED", HEADER,
        lambda number, name: entry_line(number, name) if number % 2 else b"7\t8\t9\t%s\n" % name,
    ),
    Files("BEHIND", HEADER, lambda number, name: entry_line(number, name) + b"7\t8\t9\t%s\n" % name),
    Files("TARGETS", b"", lambda _, name: b"%s: cc\n" % name),
    Files("KEEP", b"", lambda _, name: name + b"\n"),
    Files("TIMES", b"", lambda _, name: b"7\t%s\n" % name),
    Files(
        "SCRIPT", b"open\n", lambda number, name: b"record\t1\t2\t3\t%s\t%x\n" % (name, number),
        b"sync\nstop\n",
    ),
    Files("DOT", b"digraph ninja {\n", lambda number, name: b'"%d" [label="%s"]\n' % (number, name), b"}\n"),
]
# (`replay` reads a script, and no log: its table has no secret)
HOSTILE_WORDS = {
    **{
        word: [word, "LOG"]
        for word in (
            "show", "check", "entries", "doubt", "builds", "summary", "trace", "picture", "retime", "repair",
            "mend",
        )
    },
    **{
        f"{word} of damaged lines": [word, "BEHIND"]
        for word in ("damage", "doubt", "mend", "repair", "show", "summary", "builds")
    },
    **{f"{word} of a log that lacks half": [word, "DAMAGED"] for word in ("damage", "doubt", "mend")},
    "prune": ["prune", "LOG", "TARGETS"],
    "recompact": ["recompact", "LOG", "KEEP"],
    "restat": ["restat", "LOG", "TIMES"],
    "record": ["record", "LOG", "1", "2", "3", "new", "cc"],
    "apply": ["apply", "LOG", "SCRIPT"],
    "apply that distrusts": ["apply", "BEHIND", "DISTRUSTED"],
    "compare": ["compare", "LOG", "LOG"],
    "compare of a log that lacks half": ["compare", "DAMAGED", "LOG"],
    "summary by a graph": ["summary", "--graph", "DOT", "LOG"],
}


def try_hostile(trials, program, room):
    for kind, name_of in (("hostile", hostile), ("harmless", harmless)):
        os.mkdir(f"{room}/{kind}")
        for file in FILES:
            names = (file.line(number, name_of(number)) for number in range(HOSTILE))
            make(f"{room}/{kind}/{file.name}", [file.first, *names, file.last])
        write(f"{room}/{kind}/DISTRUSTED", b"distrusted\nopen\nstop\n")
        # (`mend` and `prune` want to find a file)
        write(f"{room}/{kind}/here", b"")
    for what, words in HOSTILE_WORDS.items():
        ends = {}

        def taken(kind, words=words, ends=ends):
            folder = f"{room}/{kind}"
            shutil.copytree(folder, f"{folder}.now")
            ended, seconds = seconds_of([program, *words], MOST, cwd=f"{folder}.now")
            shutil.rmtree(f"{folder}.now")
            ends[kind] = ended[0], len(ended[1]), len(ended[2])
            return seconds

        is_good, why = is_within(
            RATIO, lambda taken=taken: taken("hostile"), lambda taken=taken: taken("harmless")
        )
        trials.check(f"hostile: {what}", is_good, why)
        trials.check(
            f"hostile: {what}: it does its work", ends["hostile"][0] == ends["harmless"][0] in (0, 3),
            repr(ends),
        )


PARTS: Dict[str, Callable] = {
    "targets": over_both(try_targets),
    "mended": over_both(try_mended),
    "retimed": over_both(try_retimed),
    "repaired": over_both(try_repaired),
    "lines": over_both(try_lines),
    "hostile": try_hostile,
}

if __name__ == "__main__":
    sys.exit(main_of_parts(__file__, PARTS))
