#!/usr/bin/env python3
"""Each option of each word alone, each two together, and each way in which LOG and the streams may be: python3 tests/options.py PROGRAM

The matrix is made of what `--help` prints: a word, an option or a value that it lists and this page doesn't know fails. What is wanted are rules that each
word keeps, whatever it prints: `-v` and `--tabs` change nothing of a pipe, `-n` shortens lists, a graph adds lines, an output that can't be written is told.
The sizes are lists of more than 1,000, 65,536 and 1,000,000 lines, and commands that end in a space, a tab or a newline."""
import itertools
import os
import pty
import re
import subprocess
import sys

from log_format import command_hash, command_hash_v7
from trials import main, read, run, write

ENTRIES = ("0\t40\t1000000000\tb.o\tbb", "10\t50\t2000000000\tout/a.o\taa", "10\t50\t2000000000\tout/a.d\taa", "50\t70\t3000000000\tapp\tcc", "0\t30\t4000000000\tb.o\tbc")
GRAPH = 'digraph ninja {\n"1" -> "2"\n"1" [label="b.o"]\n"2" [label="app"]\n"3" -> "2"\n"3" [label="out/a.o"]\n}\n'
TARGETS = "b.o: cc\nout/a.o: cc\nout/a.d: cc\napp: link\n"
NEWLINE = b"\n"

# What stands for a value: a file of the folder with its text, or the value itself.
FILES = {
    "LOG": "LOG",
    "OLD": "OLD",
    "NEW": "LOG",
    "KEEP": "KEEP",
    "TIMES": "TIMES",
    "TARGETS": "TARGETS",
    "SCRIPT": "SCRIPT",
    "FILE": "FILE",
}
VALUES = {"START": "1", "END": "2", "MTIME": "3", "NAME": "new.o", "COMMAND": "cc -c new.c"}
OPTIONS = {
    "--log-version": "auto",
    "--build": "1",
    "--kind": "folder",
    "--lines": "1",
    "--graph": "GRAPH",
    "--jobs": "1,4",
    "--at-least": "5",
    "-C": ".",
}
FLAGS = ("--missing-ok", "--all", "--tabs", "--verbose", "--dry-run")
# Two that can't be met together, with status 2, and one that wants another.
APART = {frozenset(("--all", "--build"))}
WANTS = {"--jobs": "--graph"}
# These take a LOG that is missing for an empty one by themselves.
MADE = ("show", "check", "record", "recompact", "restat", "apply", "mend")
CHANGE = ("record", "recompact", "restat", "prune", "retime", "repair", "apply", "mend")


class Word:
    """A word as its help tells it: its values, and its options."""

    def __init__(self, name, text):
        self.name = name
        usage = re.search(rf"(?m)^Usage: nlog {name}(?: \[OPTIONS\])?(.*)$", text)
        self.values = re.findall(r"([<\[])(\w+)[>\]]", usage[1] if usage else "")
        listed = text.partition("\nOptions:\n")[2].partition("\n\n")[0]
        self.options = {}
        for short, long, value in re.findall(r"(?m)^ +(-\w)?(?:, )? *(--[\w-]+)?(?: <(\w+)>)?  ", listed):
            if (long or short) not in ("--help", "-h", ""):
                self.options[long or short] = value
        # `mend` looks for LOG in its folder, so none is read from standard input.
        self.reads = [it for kind, it in self.values if kind == "["] if name != "mend" else []

    def words(self, options=(), log="LOG", without=()):
        words = [self.name]
        for it in options:
            words += [it, *([OPTIONS[it]] if self.options[it] else [])]
        for _, it in self.values:
            if it not in without:
                words.append(VALUES.get(it) or (log if it == "LOG" else FILES[it]))
        return words


def words_of(trials, program):
    """The words that the program lists, less `help`."""
    text = run([program, "--help"])[1].decode()
    listed = re.findall(r"(?m)^  ([a-z][a-z-]*)  ", text.partition("Commands:\n")[2].partition("\n\n")[0])
    made = [Word(it, run([program, it, "--help"])[1].decode()) for it in listed if it != "help"]
    trials.check("the help lists words", len(made) >= 19, listed)
    for it in made:
        unknown = [key for key, value in it.options.items() if key not in (OPTIONS if value else FLAGS)]
        unknown += [key for _, key in it.values if key not in FILES and key not in VALUES]
        trials.want(f"{it.name}: what its help lists and this trial doesn't know", unknown, [])
    return made


def lay_out(room, version=5):
    """The folder of a build, with a log of the version, and what the words read beside it."""
    for at in os.listdir(room):
        if at != "out":
            os.remove(f"{room}/{at}")
    os.makedirs(f"{room}/out", exist_ok=True)
    log = "\n".join((f"# ninja log v{version}", *ENTRIES, ""))
    script = "open\nrecord\t1\t2\t3\tn\tf\nstop\n"
    for name, text in (("LOG", log), ("OLD", log.replace("0\t40", "0\t35")), ("GRAPH", GRAPH), ("KEEP", "b.o\napp\n"), ("TIMES", "7\tapp\n"), ("TARGETS", TARGETS), ("SCRIPT", script), ("FILE", "cc")):
        write(f"{room}/{name}", text)
    for at, name in enumerate(("b.o", "out/a.o", "out/a.d", "app")):
        write(f"{room}/{name}", name)
        os.utime(f"{room}/{name}", ns=(0, (2 + at) * 10**9))


def done(program, room, words, **how):
    """How a command ends, with the log that it leaves."""
    ended = run([program, *words], cwd=room, **how)
    return (*ended, read(f"{room}/LOG"))


def fresh(program, room, words, version=5, **how):
    lay_out(room, version)
    return done(program, room, words, **how)


def at_terminal(program, room, words):
    """What a command prints to a terminal, its line ends as in a pipe, and its status."""
    lay_out(room)
    own, other = pty.openpty()
    with subprocess.Popen([program, *words], cwd=room, stdin=subprocess.DEVNULL, stdout=other, stderr=subprocess.PIPE) as ran:
        os.close(other)
        said = b""
        try:
            while piece := os.read(own, 65536):
                said += piece
        except OSError:
            pass
        ran.communicate()
    os.close(own)
    return ran.returncode, said.replace(b"\r\n", NEWLINE)


def is_sublist(some, lines):
    """Whether some lines stand among others, in their order."""
    rest = iter(lines)
    return all(it in rest for it in some)


def try_option(trials, what, option, without, ended):
    """One option more than without it."""
    status, out, errors, log = ended
    lines, before = out.split(NEWLINE), without[1].split(NEWLINE)
    if option in ("--verbose", "--tabs", "--missing-ok", "--log-version", "-C"):
        trials.want(f"{what}: it changes no output, log or status", (status, out, log), (without[0], without[1], without[3]))
        if option == "--verbose":
            trials.check(f"{what}: it adds to what is said", errors.startswith(without[2]), errors)
    elif option == "--dry-run":
        trials.want(f"{what}: it prints the same", (status, out), without[:2])
        trials.check(f"{what}: the log is as it was", log.startswith(b"# ninja log v5\n0\t40\t1000000000\tb.o"), log)
    elif option == "--lines":
        heads = [it.partition(b"\t")[0] for it in lines]
        trials.check(f"{what}: its lines are among those of before", is_sublist(lines, before), out)
        named = [it for it in set(heads) if it.startswith((b"by-", b"kinds-by-")) or it in (b"new", b"gone", b"changed", b"slower", b"faster")]
        trials.check(f"{what}: each list has one line", all(heads.count(it) == 1 for it in named), out)
    elif option in ("--graph", "--jobs"):
        trials.check(f"{what}: what was told stays, and more is", is_sublist(before, lines) and len(lines) > len(before) or b"<svg" in out, out)
    elif option == "--kind":
        kept = [it for it in before if not it.startswith(b"kinds-")]
        trials.want(f"{what}: the other lines", [it for it in lines if not it.startswith(b"kinds-")], kept)
    trials.check(f"{what}: its status", status in (0, 3), (status, errors))


def try_matrix(trials, program, room, word):
    """Each option, and each two."""
    plain = fresh(program, room, word.words())
    trials.check(f"{word.name}: it is done", plain[0] in (0, 3), plain)
    single = {}
    for it in word.options:
        if it in WANTS:
            continue
        single[it] = fresh(program, room, word.words([it]))
        try_option(trials, f"{word.name} {it}", it, plain, single[it])
    for one, other in itertools.permutations(word.options, 2):
        both, what = word.words([one, other]), f"{word.name} {one} {other}"
        ended = fresh(program, room, both)
        if frozenset((one, other)) in APART:
            trials.want(f"{what}: refused", (ended[0], ended[1]), (2, b""))
            trials.check(f"{what}: the log", ended[3] == plain[3] or word.name not in CHANGE)
        elif one in WANTS and other != WANTS[one] or other in WANTS and one != WANTS[other]:
            trials.want(f"{what}: refused, for want of another", (ended[0], ended[1]), (2, b""))
        elif one in single:
            try_option(trials, what, other, single[one], ended)


def try_streams(trials, program, room, word):
    """LOG missing, left out or read from a pipe, and an output that is full or closed."""
    plain = fresh(program, room, word.words())
    if "--log-version" in word.options and word.name not in ("hash", "hash-file"):
        for version in (6, 7):
            ended = fresh(program, room, word.words(["--log-version"]), version)
            trials.check(f"{word.name}: a log of version {version}", ended[0] in (0, 3) and ended[3].startswith(b"# ninja log v%d\n" % version), ended)
    if any(it == "LOG" for _, it in word.values):
        lay_out(room)
        os.remove(f"{room}/LOG")
        ended = done(program, room, word.words())
        if word.name in MADE:
            trials.check(f"{word.name}: a LOG that is missing", ended[0] == 0 and not ended[2], ended)
        else:
            trials.want(f"{word.name}: a LOG that is missing is refused", ended, (1, b"", b"nlog: cannot read\n", None))
            lay_out(room)
            write(f"{room}/LOG", b"")
            empty = done(program, room, word.words())
        if "--missing-ok" in word.options:
            os.remove(f"{room}/LOG")
            ended = done(program, room, word.words(["--missing-ok"]))
            trials.want(f"{word.name}: a LOG that is missing, for an empty one", (ended[0], ended[1]), (empty[0], empty[1]))
    for it in word.reads:
        lay_out(room)
        text = read(f"{room}/{FILES[it]}")
        ended = done(program, room, word.words(without=[it]), stdin=None, input=text)
        trials.want(f"{word.name}: {it} left out", (ended[0], ended[1], ended[3]), (plain[0], plain[1], plain[3]))
    with open("/dev/full", "wb") as full:
        lay_out(room)
        ended = run([program, *word.words()], cwd=room, capture_output=False, stdout=full, stderr=subprocess.PIPE)
    closed, own = os.pipe()
    os.close(closed)
    lay_out(room)
    torn = run([program, *word.words()], cwd=room, capture_output=False, stdout=own, stderr=subprocess.PIPE)
    os.close(own)
    wanted = (1, None, b"nlog: cannot write\n") if plain[1] else (plain[0], None, plain[2])
    trials.want(f"{word.name}: standard output is full", ended, wanted)
    trials.want(f"{word.name}: a pipe that nobody reads", torn, wanted)
    options = [it for it in ("--tabs",) if it in word.options]
    ended = at_terminal(program, room, word.words(options))
    if options or word.name not in CHANGE:
        trials.want(f"{word.name} {' '.join(options)}: a terminal", ended, plain[:2])


# -- sizes --------------------------------------------------------------------------------------------------------------------------------

SIZES = (1_001, 65_537, 1_000_001)


def try_lists(trials, program, room):
    """Lists of many lines: each line of them counts, the last ones too."""
    for size in SIZES:
        lines = [b"1\t2\t3\tout%d\t%x" % (it, it + 1) for it in range(size)]
        log = b"# ninja log v5\n" + NEWLINE.join(lines) + NEWLINE
        keep = b"".join(b"out%d\n" % it for it in range(1, size))
        targets = b"".join(b"out%d: cc\n" % it for it in range(1, size))
        times = b"".join(b"%d\tout%d\n" % (it + 7, it) for it in range(size))
        kept = b"# ninja log v5\n" + NEWLINE.join(lines[1:]) + NEWLINE
        timed = b"# ninja log v5\n" + b"".join(b"1\t2\t%d\tout%d\t%x\n" % (it + 7, it, it + 1) for it in range(size))
        apply = b"open\n" + b"".join(b"get\tout%d\n" % it for it in range(size)) + b"stop\n"
        answers = b"ok\n" + b"".join(it + NEWLINE for it in lines) + b"ok\n"
        for words, text, wanted in (
            (["recompact", "LOG", "FILE"], keep, (0, b"", b"", kept)),
            (["prune", "LOG", "FILE"], targets, (0, b"", b"", kept)),
            (["restat", "LOG", "FILE"], times, (0, b"", b"", timed)),
            (["apply", "LOG", "FILE"], apply, (0, answers, b"", log)),
            (["apply", "LOG", "FILE"], b"open" + b"".join(b"\tout%d" % it for it in range(min(size, 20_000))) + b"\nstop\n", None),
        ):
            write(f"{room}/LOG", log)
            write(f"{room}/FILE", text)
            ended = done(program, room, words)
            if wanted:
                trials.check(f"{' '.join(words)}: {size} lines", ended == wanted, f"status {ended[0]}, {ended[2][:100]!r}, {len(ended[1])} and {len(ended[3])} bytes")
            else:
                trials.want(f"{' '.join(words)}: names of one line, of {size}", (ended[0], ended[1], ended[3]), (0, b"ok\nok\n", log))
        write(f"{room}/LOG", log)
        ended = done(program, room, ["summary", "LOG", "-n", str(size - 1)])
        trials.want(f"summary -n {size - 1}: its lists", [ended[1].count(b"\n" + it + b"\t") for it in (b"by-time", b"by-weight")], [size - 1] * 2)


def try_commands(trials, program, room):
    """A command is hashed to its last byte, whatever that is."""
    for command in ("", " ", "\t", "\n", "cc ", "cc\t", "cc\n", " cc", "cc\n\n", "cc -c 'a b' ", "x" * 1023, "x" * 1024 + "\n", "x" * 100_000 + " "):
        text = command.encode()
        for version, hashed in ((5, command_hash(text)), (7, command_hash_v7(text))):
            line = b"%x\n" % hashed
            told = [fresh(program, room, ["hash", "--log-version", str(version), "--", command])[:3]]
            told.append(fresh(program, room, ["hash-file", "--log-version", str(version)], stdin=None, input=text)[:3])
            trials.want(f"hash {short_of(command)} of version {version}", told, [(0, line, b"")] * 2)
            ended = fresh(program, room, ["record", "--log-version", "auto", "--", "LOG", "1", "2", "3", "out", command], version)
            trials.check(f"record {short_of(command)} of version {version}", ended[3].endswith(b"\n1\t2\t3\tout\t" + line), ended[3][-80:])


def short_of(text):
    return repr(text if len(text) < 30 else text[:10] + ".." + text[-5:])


def trial(trials, program, room):
    words = words_of(trials, program)
    for word in words:
        try_matrix(trials, program, room, word)
        try_streams(trials, program, room, word)
    lay_out(room)
    try_commands(trials, program, room)
    try_lists(trials, program, room)


if __name__ == "__main__":
    sys.exit(main(__file__, trial))
