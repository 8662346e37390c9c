#!/usr/bin/env python3
"""Damaged and hostile logs: what `show`, `check`, `entries`, `damage`, `builds`, `summary`, `compare`, `trace`, `picture` and `hash-file` say of each, whole and in pieces of one byte.

    python3 tests/damaged.py PROGRAM

Each text is read from a file, and from standard input in pieces of one byte (those of a text of more than 70,000 bytes are longer between
its first 1,000 bytes and its last): that is one end of a pair of sockets, on which a piece is sent when the one before was read, so that no
read gives more. The end of the text is the end of what is sent. Both ways have to give the same: literal answers,
taken from docs/FORMAT.md and docs/CLI.md, and where each byte of a log is replaced those of `log_format`; what `entries`, `damage`, `builds`,
`summary`, `trace` and `picture` print is that of `log_lines` beside. Each text is read once more as a log of version 6 or 7, its digit changed, by words that are asked for it,
and by words that go by its first line. At last come names that collide in a table without a secret, which `bench/colliding_log.py` finds: they change no
answer, and cost no word more time than as many others.
"""
import fcntl
import itertools
import os
import socket
import subprocess
import sys
import termios
import threading

from log_format import MAX_LINE, Log, as_version, command_hash, reading_of
from log_lines import bad_graph_lines, builds_of, compare_of, damage_of, entries_of, named_first, paths_of, picture_of, said_of, summary_of, trace_of
from trials import SECONDS, is_within, main, read, run, seconds_of, short, write

BENCH = f"{os.path.dirname(os.path.dirname(os.path.abspath(__file__)))}/bench"
NO_LOG = (1, b"", b"nlog: not a ninja log\n")
OTHER_VERSION = (1, b"", b"nlog: log version not supported\n")
NOT_DUE, DUE = "no", "yes"

HEADERS = {5: b"# ninja log v5\n", 4: b"# ninja log v4\n"}
LOG = b"# ninja log v5\n1\t2\t10\ta\taa\n3\t4\t20\tb\tbb\n5\t6\t30\ta\tcc\n"
# Its commands are `cc<TAB>x`, and twice none.
OLD_LOG = b"# ninja log v4\n1\t2\t10\ta\tcc\tx\n3\t4\t20\tb\t\n5\t6\t30\ta\t\n"

# Logs of each kind, what `show` prints of each, and the six numbers of `check`.
KINDS = [
    (b"", b"", (5, 0, 0, 0, 0, "no")),
    (HEADERS[5], b"", (5, 0, 0, 0, 0, "no")),
    (b"# ninja lo", b"", (5, 0, 0, 0, 10, "no")),
    (b"# ninja log v5", b"", (5, 0, 0, 0, 14, "no")),
    (HEADERS[5] + b"0\t5\t1700000000000000000\tout\t0\n", b"0\t5\t1700000000000000000\tout\t0\n", (5, 1, 1, 0, 0, "no")),
    # The last entry of an output counts, in the place of its first.
    (HEADERS[5] + b"1\t2\t10\ta\taa\n3\t4\t20\tb\tbb\n5\t6\t30\ta\tcc\n", b"5\t6\t30\ta\tcc\n3\t4\t20\tb\tbb\n", (5, 3, 2, 0, 0, "no")),
    (
        HEADERS[5] + b"-2147483648\t2147483647\t9223372036854775807\tmax\tffffffffffffffff\n0\t0\t-9223372036854775808\tmin\t0\n",
        b"-2147483648\t2147483647\t9223372036854775807\tmax\tffffffffffffffff\n0\t0\t-9223372036854775808\tmin\t0\n",
        (5, 2, 2, 0, 0, "no"),
    ),
    # Other spellings of numbers are no entries.
    (HEADERS[5] + b"007\t1\t1\to\ta\n-0\t1\t1\to\ta\n1\t2147483648\t1\to\ta\n1\t1\t1\to\t00ab\n1\t1\t1\to\tAB\n", b"", (5, 0, 0, 5, 0, "no")),
    (HEADERS[5] + b"1\t2\t3\tok\tff\n1\t2\t3\tout\tabc", b"1\t2\t3\tok\tff\n", (5, 1, 1, 0, 13, "no")),
    # A torn line with a whole one behind it, and a header in the midst.
    (HEADERS[5] + b"1\t2\t3\tou4\t5\t6\tout\tab\n1\t2\t3\tz\t1\n", b"1\t2\t3\tz\t1\n", (5, 1, 1, 1, 0, "no")),
    (HEADERS[5] + HEADERS[5] + b"1\t2\t3\tz\t1\n", b"1\t2\t3\tz\t1\n", (5, 1, 1, 1, 0, "no")),
    # The hashes of the commands `cc<TAB>x` and none, and a line without a command.
    (
        b"# ninja log v4\n1\t2\t3\ta\tcc\tx\n4\t5\t6\tb\t\n",
        b"1\t2\t3\ta\t72274e7a30810c7b\n4\t5\t6\tb\t87c2bc0beaf1d91d\n",
        (4, 2, 2, 0, 0, "yes"),
    ),
    (b"# ninja log v4\n1\t2\t3\ta\n", b"", (4, 0, 0, 1, 0, "yes")),
    (HEADERS[4], b"", (4, 0, 0, 0, 0, "yes")),
    (HEADERS[4] + b"1\t2\t3\ta\tcc\tx\n4\t5\t6\tb\tcc", b"1\t2\t3\ta\t72274e7a30810c7b\n", (4, 1, 1, 0, 10, "yes")),
    (HEADERS[4] * 2 + b"1\t2\t3\ta\tff\n1\t2\t4\ta\tcc\tx\n", b"1\t2\t4\ta\t72274e7a30810c7b\n", (4, 2, 1, 1, 0, "yes")),
    (HEADERS[5] + b"1\t2\t3\ta\tcc\tx\n", b"", (5, 0, 0, 1, 0, "no")),
    # Lines of 262,143 and 262,144 bytes are skipped.
    (HEADERS[5] + b"7" * 262_143 + b"\n" + b"7" * 262_144 + b"\n1\t2\t3\tz\t1\n", b"1\t2\t3\tz\t1\n", (5, 1, 1, 2, 0, "no")),
    # It is due past a hundred entries of one output.
    (HEADERS[5] + b"1\t2\t3\ta\ta\n" * 100, b"1\t2\t3\ta\ta\n", (5, 100, 1, 0, 0, "no")),
    (HEADERS[5] + b"1\t2\t3\ta\ta\n" * 101, b"1\t2\t3\ta\ta\n", (5, 101, 1, 0, 0, "yes")),
]

# The first length and the last of a prefix; its version, entries, outputs and whole lines in bytes, whether it is due, and what is shown.
PREFIXES = [
    (0, 14, 5, 0, 0, 0, NOT_DUE, b""),
    (15, 26, 5, 0, 0, 15, NOT_DUE, b""),
    (27, 38, 5, 1, 1, 27, NOT_DUE, b"1\t2\t10\ta\taa\n"),
    (39, 50, 5, 2, 2, 39, NOT_DUE, b"1\t2\t10\ta\taa\n3\t4\t20\tb\tbb\n"),
    (51, 51, 5, 3, 2, 51, NOT_DUE, b"5\t6\t30\ta\tcc\n3\t4\t20\tb\tbb\n"),
]
# Up to 13 bytes they are those of a torn header of version 5. 14 bytes are no log.
OLD_PREFIXES = [
    (0, 13, 5, 0, 0, 0, NOT_DUE, b""),
    (15, 28, 4, 0, 0, 15, DUE, b""),
    (29, 38, 4, 1, 1, 29, DUE, b"1\t2\t10\ta\t72274e7a30810c7b\n"),
    (39, 48, 4, 2, 2, 39, DUE, b"1\t2\t10\ta\t72274e7a30810c7b\n3\t4\t20\tb\t87c2bc0beaf1d91d\n"),
    (49, 49, 4, 3, 2, 49, DUE, b"5\t6\t30\ta\t87c2bc0beaf1d91d\n3\t4\t20\tb\t87c2bc0beaf1d91d\n"),
]

LONGEST = b"n" * 65_536
# More than the longest entry line in a log.
LONG = 70_000
EXTREMES = b"-2147483648\t-2147483648\t-9223372036854775808\t" + LONGEST

# What stands before the hash or the command of a line, and whether it is that of an entry.
FIRSTS = [
    (b"1\t2\t3\ta\0b", False),
    (b"1\t2\t3\t\0", False),
    (b"1\t2\t3\t", False),
    (b"1\t2\t3\ta\r", True),
    (b"1\t2\t3\t\r", True),
    (b"1\t2\t3\ta b", True),
    (b"1\t2\t3\t\x01\x1b[2J\x7f", True),
    (b"1\t2\t3\t\xff\xfe\x80", True),
    (b"1\t2\t3\t\xc3", True),
    (b"1\t2\t3\t# ninja log v5", True),
    (b"1\t2\t3\t" + LONGEST, True),
    (b"1\t2\t3\t" + LONGEST + b"n", False),
    (EXTREMES, True),
    (b"2147483647\t2147483647\t9223372036854775807\tn", True),
    (b"-2147483649\t2\t3\tn", False),
    (b"1\t-2147483649\t3\tn", False),
    (b"1\t2\t-9223372036854775809\tn", False),
    (b"2147483648\t2\t3\tn", False),
    (b"1\t2147483648\t3\tn", False),
    (b"1\t2\t9223372036854775808\tn", False),
    (b"1\t2\t99999999999999999999\tn", False),
    (b"010\t2\t3\tn", False),
    (b"+1\t2\t3\tn", False),
    (b"1\t-0\t3\tn", False),
    (b"1\t2\t-\tn", False),
    (b"1\t2\t\tn", False),
    (b" 1\t2\t3\tn", False),
    (b"1\t2\t0x3\tn", False),
]

# The fifth text of a line of version 5, and whether it is a hash.
HASHES = [
    (b"0", True),
    (b"f", True),
    (b"ffffffffffffffff", True),
    (b"f\r", False),
    (b"f\t", False),
    (b"f\tf", False),
    (b"cc\tx", False),
    (b"", False),
    (b"00ab", False),
    (b"AB", False),
    (b"-1", False),
    (b"0xa", False),
    (b"g", False),
    (b"f\0", False),
    (b"10000000000000000", False),
]

# The last field of a line of version 4 is a command, whatever it holds; its hash. All but the last are those of docs/FORMAT.md.
COMMANDS = [
    (b"", b"87c2bc0beaf1d91d"),
    (b"cc\tx", b"72274e7a30810c7b"),
    (b"\x01\0\0\0\0\0\0\0", b"3a9d607d30e0111"),
    (b"cc -c a.c -o a.o ", b"92985dffe8565ffa"),
    (b"f\r", b"%x" % command_hash(b"f\r")),
]

# Lines that are no entries in either version.
SKIPPED = [b"", b"\r", b"\0", b"\t\t\t\t", b"1\t2\t3\ta", b"hello", b"# ninja log v5", b"# ninja log v4", b"x" * 262_143, b"x" * 262_144]

# Texts that are no log, or one of another version.
REFUSED = [
    (b"# ninja log v5\r\n", NO_LOG),
    (b"# ninja log v4\r\n", NO_LOG),
    (b"# ninja log v5 \n", NO_LOG),
    (b"# ninja log v5\0\n", NO_LOG),
    (b"\xef\xbb\xbf# ninja log v5\n", NO_LOG),
    (b"\n# ninja log v5\n", NO_LOG),
    (b"# ninja log v\n", NO_LOG),
    (b"# ninja log v8\n", OTHER_VERSION),
    (b"# ninja log v05\n", OTHER_VERSION),
    (b"# ninja log v55\n", OTHER_VERSION),
    (b"# ninja log v04\n", OTHER_VERSION),
    (b"# ninja log v3\n", OTHER_VERSION),
    (b"# ninja log v4 \n", NO_LOG),
    (b"1\t2\t3\tz\t1\n# ninja log v5\n", NO_LOG),
    (b"x" * 262_143 + b"\n", NO_LOG),
    (b"x" * 262_144 + b"\n", NO_LOG),
    # Lines of 262,143 and 262,144 bytes.
    (b"# ninja log v" + b"7" * 262_130 + b"\n", OTHER_VERSION),
    (b"# ninja log v" + b"7" * 262_131 + b"\n", NO_LOG),
    # There is no newline.
    (b"# ninja log v4", NO_LOG),
    (b"# ninja log v8", NO_LOG),
    (b"# ninja log v5\r", NO_LOG),
    (b"# ninja log v5 ", NO_LOG),
    (b"# ninja logs", NO_LOG),
    (b"hello", NO_LOG),
    (b"\0", NO_LOG),
    (b"x" * 262_144, NO_LOG),
]


# A line that is no entry, or the same bytes behind the last newline, and the output that `damage` names. Which of them are an entry as a
# line of their own stands in ALONE.
NAMED = [
    # Behind a torn line that was cut in its name, in a number, and right behind a tab.
    (5, b"1\t2\t3\tou4\t5\t6\tout\tab", b"out"),
    (5, b"1\t24\t5\t6\tout\tab\t4\t5\t6\tlast\tab", b"last"),
    (5, b"1\t2\t4\t5\t6\tout\tab", b"out"),
    (5, b"x4\t5\t6\tout\tab", b"out"),
    # From some digit on the first field is a number, here from the last one at least.
    (5, b"99999999999\t5\t6\tout\tab", b"out"),
    (5, b"007\t5\t6\tout\tab", b"out"),
    (5, b"x-5\t5\t6\tout\tab", b"out"),
    (5, b"x5-\t5\t6\tout\tab", b"-"),
    (5, b"5x\t5\t6\tout\tab", b"-"),
    (5, b"x\t5\t6\tout\tab", b"-"),
    (5, b"\t5\t6\tout\tab", b"-"),
    # The other fields have no second spelling.
    (5, b"1\t05\t6\tout\tab", b"-"),
    (5, b"1\t5\t-0\tout\tab", b"-"),
    (5, b"1\t5\t6\t\tab", b"-"),
    (5, b"1\t5\t6\to\0t\tab", b"-"),
    (5, b"1\t5\t6\tout\tAB", b"-"),
    (5, b"1\t5\t6\tout\tab\r", b"-"),
    (5, b"1\t5\t6\tout\t", b"-"),
    (5, b"5\t6\tout\tab", b"-"),
    (5, b"x1\t5\t6\t-\tab", b"-"),
    (5, b"x1\t5\t6\t" + LONGEST + b"\tab", LONGEST),
    (5, b"x1\t5\t6\t" + LONGEST + b"n\tab", b"-"),
    (4, b"x1\t5\t6\tout\tcc -c", b"out"),
    (4, b"x1\t5\t6\tout\t", b"out"),
    (4, b"x\t2\t3\tou4\t5\t6\tout\tcc", b"out"),
    # The command of the last five fields has no tab.
    (4, b"x1\t5\t6\tout\tcc\tx", b"-"),
    (4, b"1\t2\t3\tout", b"-"),
    # A line of 262,143 bytes, and one of a byte more, which is looked at no further.
    (5, b"x" * 262_130 + b"1\t2\t3\tout\tabc", b"out"),
    (5, b"x" * 262_131 + b"1\t2\t3\tout\tabc", b"-"),
]
# The same of bytes that are torn, and would be an entry with a newline.
ALONE = [
    (5, b"1\t2\t3\tout\tabc", b"out"),
    (5, b"1\t2\t3\tout\t", b"-"),
    (5, b"1\t2\t3\tout", b"-"),
    (5, EXTREMES + b"\tffffffffffffffff", LONGEST),
    (4, b"1\t2\t3\tout\tcc -", b"out"),
    (4, b"1\t2\t3\tout\t", b"out"),
    (4, b"1\t2\t3\tout\tcc\tx", b"-"),
]


def counts(version, total, unique, skipped, torn, due):
    """What `check` prints."""
    return b"version %d\ntotal %d\nunique %d\nskipped %d\ntorn %d\ndue %s\n" % (version, total, unique, skipped, torn, due.encode())


def pieces(text):
    """The text in pieces of one byte, or past LONG bytes of 997 between its first and its last 1,000 bytes."""
    at = 0
    while at < len(text):
        size = 997 if len(text) > LONG and 1000 <= at < len(text) - 2000 else 1
        yield text[at : at + size]
        at += size


def send(into, text):
    """Sends a text in pieces, and then its end. On a stream, where a read takes all that there is, each waits for the one before."""
    is_stream = into.type == socket.SOCK_STREAM
    try:
        for it in pieces(text):
            into.sendall(it)
            while is_stream and waiting(into):
                pass
        into.shutdown(socket.SHUT_WR)
    except OSError:
        # The program ended before it read all of it, as it may.
        pass


def waiting(into):
    """How much of what was sent nobody has read."""
    return int.from_bytes(fcntl.ioctl(into, termios.TIOCOUTQ, bytes(4)), sys.byteorder)


def pair(text):
    """A message is a piece. But of one that is longer than what a read asks for the end is lost, so long pieces go by a stream."""
    return socket.socketpair(socket.AF_UNIX, socket.SOCK_STREAM if len(text) > LONG else socket.SOCK_SEQPACKET)


def run_in_pieces(words, text):
    """Runs a program whose standard input is this text in pieces. The writing side is shut, and stays there."""
    ours, theirs = pair(text)
    with ours:
        with theirs:
            child = subprocess.Popen(words, stdin=theirs, stdout=subprocess.PIPE, stderr=subprocess.PIPE)
        sender = threading.Thread(target=send, args=(ours, text))
        sender.start()
        try:
            out, err = child.communicate(timeout=SECONDS)
            status = child.returncode
        except subprocess.TimeoutExpired:
            child.kill()
            child.communicate()
            status, out, err = None, b"", f"it had not ended after {SECONDS} seconds".encode()
        sender.join()
    return status, out, err


class Readings:
    """Reads texts by the program in each way."""

    def __init__(self, trials, program, room):
        self.trials, self.program, self.file, self.other = trials, program, f"{room}/LOG", f"{room}/OTHER"
        self.pieces = hasattr(socket, "SOCK_SEQPACKET")
        if not self.pieces:
            trials.skip("pieces of one byte", "there are no sockets of the kind SOCK_SEQPACKET here")
            return
        ours, theirs = pair(b"xy")
        with ours, theirs:
            send(ours, b"xy")
            given = [os.read(theirs.fileno(), 100) for _ in range(3)]
        trials.want("pieces of one byte, and their end", given, [b"x", b"y", b""])

    def want(self, what, text, shown, checked):
        """Tries `show` and `check` on a text, given to what a command prints or to how it ends, and the words that keep no table."""
        self.want_each(what, text, {"show": shown, "check": checked, **answers_through(text)})
        self.want_compared(what, text)

    def want_compared(self, what, text):
        """Tries `compare` of a log and the text, and of the text and that log; and the text as one of version 7, whose hashes are others."""
        write(self.other, OTHER)
        for bytes_read in (text, as_version(text, 7)):
            write(self.file, bytes_read)
            version = named(bytes_read)
            seen = as_version(bytes_read, version)
            reading = reading_of(seen)
            for at, (both, versions) in enumerate([((OTHER, seen), (5, version)), ((seen, OTHER), (version, 5))]):
                wanted = (0, compare_of(*both, versions), b"") if reading == "log" else (1, b"", b"nlog: " + reading.encode() + b"\n")
                paths = (self.file, self.other) if at else (self.other, self.file)
                self.trials.want(f"{what}, as of version {version}: compare {'to' if at else 'from'} another", run([self.program, "compare", *paths]), wanted)

    def want_each(self, what, text, answers):
        write(self.file, text)
        for word, wanted in answers.items():
            place = b"LOG %s" % self.file.encode()
            self.trials.want(f"{what}: {word}", run([self.program, word, self.file]), told_at(word, wanted, text, place))
            if self.pieces:
                got = run_in_pieces([self.program, word], text)
                self.trials.want(f"{what}: {word} in pieces", got, told_at(word, wanted, text, b"standard input"))
        self.want_as(what, text, answers)

    def want_as(self, what, text, answers):
        """Tries the same bytes as a log of version 6 or 7: the answers are the same but for the version, and version 4 is another one."""
        version = 6 + len(text) % 2
        write(self.file, as_version(text, version))
        for word in ("show", "check"):
            if word not in answers:
                continue
            wanted = answers[word] if isinstance(answers[word], tuple) else (0, answers[word], b"")
            if text.startswith(HEADERS[4]):
                wanted = OTHER_VERSION
            elif word == "check":
                wanted = (wanted[0], wanted[1].replace(b"version 5\n", b"version %d\n" % version), wanted[2])
            ended = run([self.program, word, "--log-version", f"{version}", self.file])
            self.trials.want(f"{what}, as of version {version}: {word}", ended, wanted)
        # The words that go by the first line, which has the digit.
        if not text.startswith(HEADERS[5][:-1]):
            return
        through = answers_through(text, version)
        for word, wanted in answers.items():
            if word == "hash-file":
                continue
            wanted = through[word] if word in ("builds", "summary", "trace", "picture") else wanted
            place = b"LOG %s" % self.file.encode()
            in_pieces = told_at(word, wanted, text, b"standard input", version)
            wanted = told_at(word, wanted, text, place, version)
            words = [self.program, word]
            if word in ("show", "check"):
                words.append("--log-version=auto")
                wanted = in_pieces = (wanted[0], wanted[1].replace(b"version 5\n", b"version %d\n" % version), wanted[2])
            self.trials.want(f"{what}, of version {version}: {word}", run([*words, self.file]), wanted)
            if self.pieces:
                self.trials.want(f"{what}, of version {version}: {word} in pieces", run_in_pieces(words, as_version(text, version)), in_pieces)


def try_kinds(readings):
    for text, shown, (*numbers, due) in KINDS:
        readings.want(f"the log {short(text)}", text, shown, counts(*numbers, due))


def many():
    """2,000 entries of 1,000 outputs, and the last of each. One name in ten has some 5,000 bytes, and the last as many as a name may have."""
    lines = {}
    log = HEADERS[5]
    for number in range(2000):
        size = 65_533 if number % 1000 == 999 else 5_000 if number % 10 == 0 else 10
        name = b"n" * size + b"%x" % (number % 1000)
        lines[name] = b"%d\t%d\t%d\t%s\t%x\n" % (number, number + 7, number * 3, name, number)
        log += lines[name]
    return log, b"".join(lines.values())


def try_many(trials, program, room):
    log, shown = many()
    write(f"{room}/LOG", log)
    trials.want("2,000 entries of 1,000 outputs: show", run([program, "show", f"{room}/LOG"]), (0, shown, b""))
    trials.want("2,000 entries of 1,000 outputs: check", run([program, "check", f"{room}/LOG"]), (0, counts(5, 2000, 1000, 0, 0, NOT_DUE), b""))


def try_prefixes(readings):
    for text, rows in (LOG, PREFIXES), (OLD_LOG, OLD_PREFIXES):
        for first, last, version, total, unique, whole, due, shown in rows:
            for size in range(first, last + 1):
                checked = counts(version, total, unique, 0, size - whole, due)
                readings.want(f"{size} bytes of a log of version {text[13:14].decode()}", text[:size], shown, checked)
    readings.want("14 bytes of a log of version 4", OLD_LOG[:14], NO_LOG, NO_LOG)


def answers_of(text):
    """What `show` and `check` have to answer, by docs/FORMAT.md written as a program."""
    reading = reading_of(text)
    if reading != "log":
        refusal = (1, b"", b"nlog: " + reading.encode() + b"\n")
        return refusal, refusal
    log = Log(text)
    return log.shown(), log.report()


# A log that texts are compared with.
OTHER = b"# ninja log v5\n1\t9\t3\tx\taa\n2\t2\t0\ty\t1\n1\t2\t3\ta\taa\n1\t5\t3\tb\tbb\n0\t7\t3\tother\tcc\n"


def named(text):
    """The version by which a word goes that looks at the first line."""
    found = [version for version in (6, 7) for line in [b"# ninja log v%d\n" % version] if text.startswith(line) or text == line[:-1]]
    return found[0] if found else 5


def found(told):
    """How `damage` ends that prints this."""
    return (3 if told else 0, told, b"")


def answers_through(text, version=None):
    """What the words that keep no table must answer of a text of version 5 or, with its digit, of this version."""
    reading = reading_of(text)
    hashed = b"%x\n" % command_hash(text)
    if reading != "log":
        refusal = (1, b"", b"nlog: " + reading.encode() + b"\n")
        return {"entries": refusal, "damage": refusal, "builds": refusal, "summary": refusal, "trace": refusal, "picture": refusal, "hash-file": hashed}
    told = {"entries": entries_of(text), "damage": found(damage_of(text)), "builds": builds_of(text, version)}
    reports = {"summary": summary_of(text, version=version), "trace": trace_of(text, version), "picture": picture_of(text, version)}
    return {**told, **reports, "hash-file": hashed}


def told_at(word, wanted, text, place, version=None):
    """How a word ends of a log that stands there, by what it prints or how it ends."""
    if isinstance(wanted, tuple):
        return wanted
    return 0, wanted, said_of(text, place, word, version=version) if word in ("builds", "summary", "trace", "picture") else b""


def try_damage(readings):
    """What `damage` says of a line, and of the same bytes behind the last newline."""
    first = {5: b"1\t2\t3\ty\t0\n", 4: b"1\t2\t3\ty\t\n"}
    for version, line, output in NAMED:
        kind = b"long" if len(line) > 262_143 else b"skipped"
        outputs = b"%s\t%s" % (output, named_first(line))
        told = b"3\t%s\t%d\t%s\n4\ttorn\t%d\t%s\n" % (kind, len(line), outputs, len(line), outputs)
        text = HEADERS[version] + first[version] + line + b"\n" + line
        readings.want_each(f"version {version}, twice {short(line)}", text, {"damage": found(told)})
    for version, rest, output in ALONE:
        text = HEADERS[version] + first[version] + rest
        told = b"3\ttorn\t%d\t%s\t%s\n" % (len(rest), output, named_first(rest))
        readings.want_each(f"version {version}, torn {short(rest)}", text, {"damage": found(told)})


def try_replaced(readings):
    for text, byte in itertools.product((LOG, OLD_LOG), (b"\t", b"\n", b"\0", b"\xff")):
        for at in range(len(text)):
            changed = text[:at] + byte + text[at + 1 :]
            if changed != text:
                readings.want(f"byte {at} of a log of version {text[13:14].decode()} is {byte}", changed, *answers_of(changed))


def try_line(readings, version, line, shown):
    """A line between two entries, which stay what they are. `shown`: the entry that the line is, or None."""
    before, after, z = b"1\t2\t3\ty\t0\n", b"1\t2\t3\tz\t0\n", b"1\t2\t3\t%s\t0\n"
    if version == 4:
        before, after, z = b"1\t2\t3\ty\t\n", b"1\t2\t3\tz\t\n", b"1\t2\t3\t%s\t87c2bc0beaf1d91d\n"
    total, skipped = (2, 1) if shown is None else (3, 0)
    readings.want(
        f"version {version}, the line {short(line)}",
        HEADERS[version] + before + line + b"\n" + after,
        z % b"y" + (shown or b"") + z % b"z",
        counts(version, total, total, skipped, 0, DUE if version == 4 else NOT_DUE),
    )


def try_lines(readings):
    longest = EXTREMES + b"\tffffffffffffffff\n"
    readings.trials.want("the longest entry line", len(longest), 65_599)
    try_line(readings, 5, longest[:-1], longest)
    for first, is_entry in FIRSTS:
        try_line(readings, 5, first + b"\tf", first + b"\tf\n" if is_entry else None)
        try_line(readings, 4, first + b"\tcc\tx", first + b"\t72274e7a30810c7b\n" if is_entry else None)
    for text, is_hash in HASHES:
        line = b"1\t2\t3\ta\t" + text
        try_line(readings, 5, line, line + b"\n" if is_hash else None)
    for command, its_hash in COMMANDS:
        try_line(readings, 4, b"1\t2\t3\ta\t" + command, b"1\t2\t3\ta\t" + its_hash + b"\n")
    # A line of 262,143 bytes, and one of a byte more.
    command = b"c" * 262_135
    try_line(readings, 4, b"1\t2\t3\ta\t" + command, b"1\t2\t3\ta\t%x\n" % command_hash(command))
    try_line(readings, 4, b"1\t2\t3\ta\t" + command + b"c", None)
    for version, line in itertools.product((5, 4), SKIPPED):
        try_line(readings, version, line, None)


def try_refused(readings):
    for text, wanted in REFUSED:
        readings.want(f"the text {short(text)}", text, wanted, wanted)
        if text.endswith(b"\n"):
            readings.want(f"a log behind {short(text)}", text + LOG, wanted, wanted)


# Of the form that Ninja prints: `b` needs `a` and `c`, which one command makes of `src`; and the log of its build.
GRAPH = b'''digraph ninja {
rankdir="LR"
node [fontsize=10, shape=box, height=0.25]
edge [fontsize=10]
"0x1" [label="b"]
"0x2" [label="link", shape=ellipse]
"0x2" -> "0x1"
"0x3" -> "0x2" [arrowhead=none]
"0x4" -> "0x2" [arrowhead=none style=dotted]
"0x3" [label="a"]
"0x5" [label="cc", shape=ellipse]
"0x5" -> "0x3"
"0x5" -> "0x4"
"0x6" -> "0x5" [arrowhead=none]
"0x6" [label="src"]
"0x4" [label="c"]
}
'''
GRAPHED = b"# ninja log v7\n0\t40\t1\ta\tcc\n0\t40\t1\tc\tcc\n40\t60\t1\tb\tdd\n"


def try_graphs(trials, program, room):
    graph, log = f"{room}/GRAPH", f"{room}/LOG"
    write(log, GRAPHED)
    eight = summary_of(as_version(GRAPHED, 7), 0, version=7)
    texts = [GRAPH[:size] for size in range(len(GRAPH))]
    texts += [GRAPH[:at] + byte + GRAPH[at + 1 :] for at in range(len(GRAPH)) for byte in (b"\n", b"\0", b'"', b"2")]
    texts += [GRAPH[:at] + GRAPH[at + 1 :] for at in range(len(GRAPH))]
    # An ID and a name of many bytes, a line of as many, and one without an end.
    long = b"x" * 1_000_000
    texts += [GRAPH.replace(b"0x3", long), GRAPH.replace(b'"a"', b'"%s"' % long), GRAPH.replace(b"node [", b"node [" + long), GRAPH.replace(b"}\n", long)]
    for text in texts:
        write(graph, text)
        bad = bad_graph_lines(text)
        paths = [] if bad else paths_of(text, as_version(GRAPHED, 7), version=7)
        wanted = [(1, b"", b"nlog: bad line %d\n" % it) for it in bad] or [(0, eight + it, b"") for it in paths]
        wanted = wanted or [(1, b"", b"nlog: not the graph of this build\n")]
        got = run([program, "summary", "-n0", "--graph", graph, log])
        trials.check(f"the graph {short(text)}", got in wanted, f"{short(got)} in place of {short(wanted[0])}")
    write(graph, GRAPH)
    path = b"critical-path\t60\non-path\t40\t0\t40\t%s\non-path\t20\t40\t60\tb\n"
    in_pieces = run_in_pieces([program, "summary", "-n0", "--graph", graph], GRAPHED)
    trials.check("a graph, and a log in pieces", in_pieces in [(0, eight + path % it, b"") for it in (b"a", b"c")], in_pieces)


def try_colliding(trials, program, room):
    """6,000 names of one hash: 5,000 in a log of 8,000 entries, the first 3,000 twice, and 1,000 that it lacks."""
    status, made, _ = run([sys.executable, f"{BENCH}/colliding_log.py", "--names", "6000"])
    names = [line.split(b"\t")[3] for line in made.split(b"\n")[1:-1]]
    if not trials.check("6,000 names that collide", status == 0 and len(set(names)) == 6000, f"status {status}, {len(set(names))} names"):
        return
    log, keep, times = f"{room}/LOG", f"{room}/KEEP", f"{room}/TIMES"
    once = [b"1\t2\t3\t%s\ta\n" % name for name in names[:5000]]
    last = [b"4\t5\t6\t%s\tb\n" % name for name in names[:3000]]
    text = HEADERS[5] + b"".join(once + last)
    table = last + once[3000:]
    shown, checked = b"".join(table), counts(5, 8000, 5000, 0, 0, NOT_DUE)
    write(log, text)
    trials.want("colliding names: show", run([program, "show", log]), (0, shown, b""))
    trials.want("colliding names: check", run([program, "check", log]), (0, checked, b""))
    # Which names KEEP has, and which lines are left.
    for what, kept, left in (
        ("all and those that the log lacks", names, table),
        ("the last 2,000 of them, and those that it lacks", names[3000:], once[3000:]),
        ("every other one", names[:5000:2], table[::2]),
        ("those that it lacks alone", names[5000:], []),
        ("none", [], []),
    ):
        write(log, text)
        write(keep, b"".join(name + b"\n" for name in kept))
        trials.want(f"colliding names, KEEP has {what}: recompact", run([program, "recompact", log, keep]), (0, b"", b""))
        trials.want(f"colliding names, KEEP has {what}: the log", read(log), HEADERS[5] + b"".join(left))
    write(log, text)
    write(times, b"".join(b"7\t%s\n" % name for name in names[2000:]))
    trials.want("colliding names: restat", run([program, "restat", log, times]), (0, b"", b""))
    wanted = last[:2000] + [b"4\t5\t7\t%s\tb\n" % name for name in names[2000:3000]] + [b"1\t2\t7\t%s\ta\n" % name for name in names[3000:5000]]
    trials.want("colliding names: the log after restat", read(log), HEADERS[5] + b"".join(wanted))


# A hostile log has so many bytes, and a word takes so many times as long on it as on another at most.
HOSTILE, TIMES_AS_LONG = 5_000_000, 3


def words_on(program, room, names):
    """Each word that reads a log, on one with these outputs: a call that runs it, and gives its status and its seconds of processors."""
    os.mkdir(room)
    log, other, keep, times, targets, graph, script = (f"{room}/{it}" for it in ("LOG", "OTHER", "KEEP", "TIMES", "TARGETS", "GRAPH", "SCRIPT"))
    text = HEADERS[5] + b"".join(b"%d\t%d\t3\t%s\ta\n" % (at % 9, at % 9 + 1, name) for at, name in enumerate(names))
    # Where one line is an intent, the words that tell builds look each name up, because a line may stand again over its name's intent.
    text += b"9\t9\t0\t%s\t5\n" % names[0]
    # The text ends in half a line, which may be about each output.
    torn = text + b"1\t2\t3\t" + names[0]
    for path, lines in ((keep, names), (times, [b"7\t" + it for it in names]), (targets, [it + b": cc" for it in names])):
        write(path, b"".join(it + b"\n" for it in lines))
    write(graph, b'digraph ninja {\nedge [fontsize=10]\n' + b"".join(b'"%s" [label="%s"]\n"%s" -> "all"\n' % (it, it, it) for it in names) + b"}\n")
    # A closed log is opened once more, and as many names as a line has room for get an intent, and are kept.
    few = b"\t".join(names[: (MAX_LINE - 100) // (len(names[0]) + 1)])
    asked = b"distrusted\nopen\nstop\nopen\n" + b"".join(b"get\t%s\n" % it for it in names[::50])
    write(script, asked + b"begin\t1\taa\t%s\nrecompact\t%s\nstop\n" % (few, few))
    write(other, text)
    reads = [["show"], ["check"], ["entries"], ["damage"], ["doubt"], ["builds"], ["summary"], ["summary", "--kind", "folder"], ["summary", "--all"]]
    reads += [["summary", "--graph", graph], ["compare", other], ["trace"], ["picture"]]
    changes = [(["record"], ["1", "2", "3", "new", "cc"]), (["recompact"], [keep]), (["restat"], [times]), (["repair"], []), (["apply"], [script])]
    changes += [(["prune"], [targets]), (["retime"], [])]

    def ended(before, behind):
        # Of damage these two tell alone, and `apply` says what can't be trusted.
        write(log, torn if before == ["apply"] else text)
        (status, _, _), seconds = seconds_of([program, *before, log, *behind], 60)
        return status, seconds

    commands = [*((it, []) for it in reads), *changes]
    return {" ".join(os.path.basename(it) for it in before): lambda it=(before, behind): ended(*it) for before, behind in commands}


def try_hostile(trials, program, room):
    """Logs of 5 MB whose names have one hash in a table without a secret, short and long, beside logs whose names haven't."""
    for front in ("", "a folder whose name is long, so that it is hashed in many steps/and/another/"):
        count = HOSTILE // (len(front) + 25)
        status, made, _ = run([sys.executable, f"{BENCH}/colliding_log.py", "--names", str(count), "--front", front])
        names = [line.split(b"\t")[3] for line in made.split(b"\n")[1:-1]]
        if not trials.check(f"{count} names that collide", status == 0 and len(set(names)) == count, f"status {status}"):
            return
        hostile = words_on(program, f"{room}/hostile {count}", names)
        # The last byte of each is another.
        others = words_on(program, f"{room}/others {count}", [it[:-1] + b"x" for it in names])
        for word, call in hostile.items():
            statuses = set()

            def seconds(call, statuses=statuses):
                status, taken = call()
                statuses.add(status)
                return taken

            is_good, why = is_within(TIMES_AS_LONG, lambda it=call: seconds(it), lambda it=others[word]: seconds(it))
            trials.check(f"{word}, of {count} names that collide: the status", len(statuses) == 1, statuses)
            trials.check(f"{word}, of {count} names that collide", is_good, why)


def trial(trials, program, room):
    readings = Readings(trials, program, room)
    try_kinds(readings)
    try_many(trials, program, room)
    try_prefixes(readings)
    try_damage(readings)
    try_replaced(readings)
    try_lines(readings)
    try_refused(readings)
    try_graphs(trials, program, room)
    try_colliding(trials, program, room)
    try_hostile(trials, program, room)


if __name__ == "__main__":
    sys.exit(main(__file__, trial))
