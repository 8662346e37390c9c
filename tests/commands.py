#!/usr/bin/env python3
"""Each command over words and files of each kind: what it prints, on which stream, its status, and the files that it leaves.

    python3 tests/commands.py PROGRAM

What is wanted stands here as whole bytes, worked out by hand from docs/FORMAT.md and docs/CLI.md.
"""
import fcntl
import itertools
import os
import shutil
import sys

from log_format import as_version, command_hash, command_hash_v7
from log_lines import drawn
from trials import main, read, run, write

HEADER = b"# ninja log v5\n"

NO_LOG = b"nlog: not a ninja log\n"
OTHER_VERSION = b"nlog: log version not supported\n"
CANNOT_READ = b"nlog: cannot read\n"
FOLDER_FAILED = b"nlog: the folder failed\n"

# What the C library says of an error of the system.
NO_FILE = b"No such file or directory (os error 2)\n"
NO_FOLDER = b"Not a directory (os error 20)\n"
A_FOLDER = b"Is a directory (os error 21)\n"
LONG_NAME = b"File name too long (os error 36)\n"

# First lines that are refused, and what is said of them.
REFUSED = [
    (b"# ninja log v8\n", OTHER_VERSION),
    (b"# ninja log v66\n", OTHER_VERSION),
    (b"# ninja log v05\n", OTHER_VERSION),
    (b"# ninja log v04\n", OTHER_VERSION),
    (b"# ninja log v3\n", OTHER_VERSION),
    (b"# ninja log v4", NO_LOG),
    (b"hello", NO_LOG),
    (b"\n", NO_LOG),
    (b"# ninja log v5 \n", NO_LOG),
    (b"# ninja log v8", NO_LOG),
    (b"# ninja log v7 \n", NO_LOG),
    (b"# ninja log v7\r\n", NO_LOG),
    (b"\x1f\x8b\x08\0\0\0\0\0\0\x03\n", NO_LOG),
    (b"\xef\xbb\xbf# ninja log v5\n", NO_LOG),
    (b"\xff\xfe#\0 \0", NO_LOG),
    (b"\xfe\xff\0#\0 ", NO_LOG),
    (b"# ninjadeps\n\4\0\0\0", NO_LOG),
    (b"# ninja log v\r\n", NO_LOG),
    # 20 bytes of it are told, each that isn't shown as it is by its number.
    (b'a"\\\t \x1b[31m\x7f\x80\xffABCDEFGHIJKL\n', NO_LOG),
]
# What such a file is mistaken for, by its beginning.
LOOKS = {
    b"\x1f\x8b": b"it is gzip: unpack it first",
    b"\xef\xbb\xbf": b"it begins with a byte order mark",
    b"\xff\xfe": b"it begins with a byte order mark",
    b"\xfe\xff": b"it begins with a byte order mark",
    b"# ninjadeps": b"it is Ninja's log of dependencies, .ninja_deps",
}
# Those that are refused by the words that have the option, where it isn't given.
UNASKED = [
    (b"# ninja log v6\n", OTHER_VERSION),
    (b"# ninja log v7\n", OTHER_VERSION),
    (b"# ninja log v6", NO_LOG),
]

HASHES = [
    ("", b"87c2bc0beaf1d91d\n"),
    ("cc -c a.c -o a.o ", b"92985dffe8565ffa\n"),
    ("cc\tx", b"72274e7a30810c7b\n"),
]

# START, END, MTIME and NAME of `record`, why they are refused, and what more is said with `--verbose`.
BAD_WORDS = [
    ("x", "2", "3", "a", b"bad number", b"START x: it isn't a number"),
    ("x", "y", "z", "", b"bad number", b"START x: it isn't a number"),
    ("+1", "2", "3", "a", b"bad number", b"START +1: it isn't a number"),
    ("-0", "2", "3", "a", b"bad number", b"START -0: a number has no zero in front"),
    ("1", "2147483648", "3", "a", b"bad number", b"END 2147483648: it isn't from -2147483648 to 2147483647"),
    ("1", "-2147483649", "x", "a", b"bad number", b"END -2147483649: it isn't from -2147483648 to 2147483647"),
    ("1", "-", "3", "a", b"bad number", b"END -: it isn't a number"),
    ("1", "2", "007", "a", b"bad number", b"MTIME 007: a number has no zero in front"),
    ("1", "2", "", "", b"bad number", b"MTIME : it isn't a number"),
    ("1", "2", "1.5", "", b"bad number", b"MTIME 1.5: it isn't a number"),
    ("1", "2", "9223372036854775808", "a", b"bad number", b"MTIME 9223372036854775808: it isn't a number of 64 bits"),
    ("1", "2", "3", "", b"empty name", b"NAME: it has no byte"),
    ("1", "2", "3", "a\tb", b"bad byte in name at 1", b"NAME: byte 1 is a tab"),
    ("1", "2", "3", "ab\n", b"bad byte in name at 2", b"NAME: byte 2 is a newline"),
    ("1", "2", "3", "n" * 65_536 + "\t", b"bad byte in name at 65536", b"NAME: byte 65536 is a tab"),
    ("1", "2", "3", "n" * 65_537, b"name too long", b"NAME: it has 65537 bytes, and a name at most 65536"),
]

LOG = HEADER + b"1\t2\t10\ta\taa\n3\t4\t20\tb\tbb\n5\t6\t30\ta\tcc\n"

OK, NEW = b"1\t2\t3\tok\tff\n", b"4\t5\t6\tout\t72274e7a30810c7b\n"

# A log before `record` adds NEW, and after it.
RECORDS = [
    (None, HEADER + NEW),
    (b"", HEADER + NEW),
    (HEADER, HEADER + NEW),
    (b"# ninja lo", HEADER + NEW),
    (b"# ninja log v4\n", HEADER + NEW),
    (HEADER + OK + b"1\t2\t3\tout\tabc", HEADER + OK + NEW),
    # A skipped line stays.
    (HEADER + b"skipped\n" + OK, HEADER + b"skipped\n" + OK + NEW),
    (
        b"# ninja log v4\n1\t2\t3\ta\tcc\tx\n4\t5\t6\tb\t\n",
        HEADER + b"1\t2\t3\ta\t72274e7a30810c7b\n4\t5\t6\tb\t87c2bc0beaf1d91d\n" + NEW,
    ),
    # It is rewritten past a hundred entries of one output.
    (HEADER + OK * 100, HEADER + OK * 100 + NEW),
    (HEADER + OK * 101, HEADER + OK + NEW),
]

# KEEP, why it is refused, the log that it leaves, and what more is said of it with `--verbose`.
KEEPS = [
    (b"b\n\n", b"", HEADER + b"3\t4\t20\tb\tbb\n"),
    (b"", b"", HEADER),
    # A last line without a newline counts; a name without an entry is nothing.
    (b"zz\na", b"", HEADER + b"5\t6\t30\ta\tcc\n"),
    (b"\na\tb", b"bad line 2", LOG, b"line 2: a name has no tab"),
    (b"b\n\n\na\0\n\t\n", b"bad line 4", LOG, b"line 4: a name has no zero byte"),
    # The longest line has 262,143 bytes, which is no name; a longer one is bad too, with its newline and without.
    (b"b\n" + b"x" * 262_144, b"bad line 2", LOG, b"line 2: a line has at most 262143 bytes"),
    (b"b\n" + b"x" * 262_144 + b"\n", b"bad line 2", LOG, b"line 2: a line has at most 262143 bytes"),
    (b"b\n" + b"x" * 262_143 + b"\n\t\n", b"bad line 2", LOG, b"line 2: a name has at most 65536 bytes"),
    (b"n" * 65_536 + b"\nb\n", b"", HEADER + b"3\t4\t20\tb\tbb\n"),
    (b"n" * 65_537 + b"\nb\n", b"bad line 1", LOG, b"line 1: a name has at most 65536 bytes"),
    # Twelve lines, of which the last is bad.
    (b"\n" * 11 + b"a\tb\n", b"bad line 12", LOG, b"line 12: a name has no tab"),
]

# The same of TIMES.
TIMES = [
    (b"7\ta\n8\ta\n", b"", HEADER + b"5\t6\t8\ta\tcc\n3\t4\t20\tb\tbb\n"),
    # No time changes, and what is stale goes.
    (b"\n9\tzz", b"", HEADER + b"5\t6\t30\ta\tcc\n3\t4\t20\tb\tbb\n"),
    (b"7\ta\n007\tb\n", b"bad line 2", LOG, b"line 2: before the tab, a number has no zero in front"),
    (b"7 a\n", b"bad line 1", LOG, b"line 1: there is no tab"),
    (b"7\t\n", b"bad line 1", LOG, b"line 1: the name is empty"),
    (b"\ta\n", b"bad line 1", LOG, b"line 1: before the tab, it isn't a number"),
    (b"7\ta\tb\n", b"bad line 1", LOG, b"line 1: a name has no tab"),
    (b"9223372036854775808\ta\n", b"bad line 1", LOG, b"line 1: before the tab, it isn't a number of 64 bits"),
    # A line that is right says nothing, and the last one may have no newline.
    (b"7\ta\n-1\tb\n7", b"bad line 3", LOG, b"line 3: there is no tab"),
    (b"-1\ta", b"negative time at pair 0", LOG, b"line 1: the time stamp is negative"),
    # Pairs are counted, and not lines.
    (b"\n7\ta\n-9223372036854775808\tb\n-1\ta\n", b"negative time at pair 1", LOG, b"line 3: the time stamp is negative"),
    (b"7\ta\n\n8\tb\n-1\tzz", b"negative time at pair 2", LOG, b"line 4: the time stamp is negative"),
]

# A log, what `entries` prints of it, what `damage` prints, and what `repair` leaves.
MERGED = HEADER + b"0\t7\t17\tlib.o\tc5\n0\t9\t17\tnote\ta1\n3\t5\t18\tno0\t8\t19\tnote\tb2\n4\t9\t19\tap"
THROUGH = [
    (b"", b"", b"", HEADER),
    (HEADER, b"", b"", HEADER),
    (b"# ninja lo", b"", b"1\ttorn\t10\t-\t-\n", HEADER),
    # Older entries are listed, and `show` has the last ones alone.
    (LOG, LOG[len(HEADER) :], b"", HEADER + b"5\t6\t30\ta\tcc\n3\t4\t20\tb\tbb\n"),
    (
        b"# ninja log v4\n1\t2\t3\ta\tcc\tx\nx\n4\t5\t6\tb\t\n",
        b"1\t2\t3\ta\t72274e7a30810c7b\n4\t5\t6\tb\t87c2bc0beaf1d91d\n",
        b"3\tskipped\t1\t-\t-\n",
        HEADER + b"1\t2\t3\ta\t72274e7a30810c7b\n4\t5\t6\tb\t87c2bc0beaf1d91d\n",
    ),
    # A line behind a torn one names its output; a number that isn't spelled so is no entry, but its last digit is one.
    (
        MERGED,
        b"0\t7\t17\tlib.o\tc5\n0\t9\t17\tnote\ta1\n",
        b"4\tskipped\t23\tnote\tno0\n5\ttorn\t9\t-\t-\n",
        HEADER + b"0\t7\t17\tlib.o\tc5\n0\t9\t17\tnote\ta1\n",
    ),
    (HEADER + b"007\t1\t1\to\ta\n" + OK, OK, b"2\tskipped\t11\to\to\n", HEADER + OK),
    (HEADER + b"\t1\t1\to\ta\n\n\t\t\t\t\n", b"", b"2\tskipped\t8\t-\to\n3\tskipped\t0\t-\t-\n4\tskipped\t4\t-\t-\n", HEADER),
    (HEADER + OK + b"1\t2\t3\tout\tabc", OK, b"3\ttorn\t13\tout\tout\n", HEADER + OK),
    # The longest line has 262,143 bytes; a longer one is looked at no further, with its newline and without.
    (
        HEADER + b"x" * 262_143 + b"\n" + b"x" * 262_144 + b"\n" + OK + b"x" * 262_144,
        OK,
        b"2\tskipped\t262143\t-\t-\n3\tlong\t262144\t-\t-\n5\ttorn\t262144\t-\t-\n",
        HEADER + OK,
    ),
    # More than one piece of each.
    (
        HEADER + (OK + b"007\t1\t1\t" + b"o" * 60_000 + b"\ta\n") * 40,
        OK * 40,
        b"".join(b"%d\tskipped\t60010\t" % (2 * n + 3) + b"o" * 60_000 + b"\t" + b"o" * 60_000 + b"\n" for n in range(40)),
        HEADER + OK,
    ),
]

FILE = HEADER + b"1\t2\t3\tfile\tff\n"
INPUT = HEADER + b"4\t5\t6\tinput\tab\nx\n"
FILE_HASH, INPUT_HASH = (b"%x\n" % command_hash(it) for it in (FILE, INPUT))
FILE_SHOWN, INPUT_SHOWN = b"1\t2\t3\tfile\tff\n", b"4\t5\t6\tinput\tab\n"
FILE_CHECKED = b"version 5\ntotal 1\nunique 1\nskipped 0\ntorn 0\ndue no\n"
INPUT_CHECKED = b"version 5\ntotal 1\nunique 1\nskipped 1\ntorn 0\ndue no\n"
NOTHING_CHECKED = b"version 5\ntotal 0\nunique 0\nskipped 0\ntorn 0\ndue no\n"
SIX, SEVEN = (b"# ninja log v%d\n1\t2\t3\tout\t8072fc2ac19230e4\nx\n" % it for it in (6, 7))
FOUR, FOUR_SHOWN = b"# ninja log v4\n1\t2\t3\ta\tcc\tx\n", b"1\t2\t3\ta\t72274e7a30810c7b\n"
# Each has one command of one output, which took 1 ms. In version 4 END alone tells of builds.
FILE_BUILT = INPUT_BUILT = NEW_BUILT = b"1\t1\t1\t1\t1\tsure\n"
FOUR_BUILT = b"1\t1\t1\t1\t1\tunsure\n"
BAD_NUMBER = b"nlog: bad number\n"
# Two builds of one command, 2 ms and 1 ms, of which the first began 100 seconds behind the other.
ANEW = b"# ninja log v7\n0\t2\t1700000100000000000\ta\t1\n0\t1\t1700000000000000000\tb\t2\n"
ANEW_BUILT = b"1\t1\t1\t1\t1\tagain\t1\n2\t1\t1\t2\t2\tagain\t0\n"
ANEW_COUNTED = b"commands\t1\noutputs\t1\nwall\t2\ntotal\t2\nbusy\t2\nalone\t2\nparallel\t1.00\nslowest\t2\ta\n"
ALL_ANEW = b"commands\t2\noutputs\t2\nwall\t3\ntotal\t3\nbusy\t3\nalone\t3\nparallel\t1.00\nslowest\t2\ta\n"
ONE_COUNTED = b"commands\t1\noutputs\t1\nwall\t1\ntotal\t1\nbusy\t1\nalone\t1\nparallel\t1.00\nslowest\t1\t%b\n"
# What `compare` prints but for its lists: whether hashes were compared, and of each class the count, the difference and both times.
COMPARED = b"hashes\t%bcompared\n" + b"".join(b"total\t%b\t%%b\n" % it for it in (b"new", b"gone", b"changed", b"slower", b"faster", b"unfinished", b"same"))
NONE = b"0\t0\t0\t0"
ONE_SUMMED = ONE_COUNTED + b"by-time\t1\t1.00\t%b\nby-weight\t1\t1.00\t%b\nkinds-by-time\t1\t1\t1.00\t(none)\nkinds-by-weight\t1\t1\t1.00\t(none)\n"
# Three commands, one after another, and what `summary` prints of them: of 1 ms, 2 ms and 4 ms, in folders of each depth.
NESTED = b"# ninja log v7\n0\t1\t1\ta.o\t1\n1\t3\t1\tlib/b.o\t2\n3\t7\t1\tlib/x/c\t3\n"
NESTED_COUNTED = b"commands\t3\noutputs\t3\nwall\t7\ntotal\t7\nbusy\t7\nalone\t7\nparallel\t1.00\nslowest\t4\tlib/x/c\n"
# A graph of its last output and of that of SIX and SEVEN.
GRAPH = b'digraph ninja {\n"1" [label="lib/x/c"]\n"2" [label="out"]\n}\n'
KINDS_COUNTED = NESTED_COUNTED + (
    b"by-time\t4\t4.00\tlib/x/c\nby-time\t2\t2.00\tlib/b.o\nby-time\t1\t1.00\ta.o\n"
    b"by-weight\t4\t4.00\tlib/x/c\nby-weight\t2\t2.00\tlib/b.o\nby-weight\t1\t1.00\ta.o\n"
)
KINDS_RANKED = {
    "extension": b"".join(b"kinds-by-%b\t1\t4\t4.00\t(none)\nkinds-by-%b\t2\t3\t3.00\t.o\n" % (it, it) for it in (b"time", b"weight")),
    "folder": b"".join(b"kinds-by-%b\t1\t4\t4.00\tlib/x/\nkinds-by-%b\t1\t2\t2.00\tlib/\nkinds-by-%b\t1\t1\t1.00\t(none)\n" % (it, it, it) for it in (b"time", b"weight")),
    "top": b"".join(b"kinds-by-%b\t2\t6\t6.00\tlib/\nkinds-by-%b\t1\t1\t1.00\t(none)\n" % (it, it) for it in (b"time", b"weight")),
    "work": b"".join(b"kinds-by-%b\t1\t4\t4.00\tlink\nkinds-by-%b\t2\t3\t3.00\tcompile\n" % (it, it) for it in (b"time", b"weight")),
}
# It begins 0 ms behind the first START, and nothing runs once it has ended.
ONE_TRACED = (
    b'[{"args":{"name":"build 1","rewritten":false},"name":"process_name","ph":"M","pid":1},'
    b'{"args":{"hash":"%b","outputs":["%b"]},"dur":1000,"name":"%b","ph":"X","pid":1,"tid":1,"ts":0},'
    b'{"args":{"commands":1},"name":"running","ph":"C","pid":1,"ts":0},{"args":{"commands":0},"name":"running","ph":"C","pid":1,"ts":1000}]'
)
INPUT_TRACED, FILE_TRACED = ONE_TRACED % (b"ab", b"input", b"input"), ONE_TRACED % (b"ff", b"file", b"file")
FOUR_TRACED, NEW_TRACED = ONE_TRACED % (b"72274e7a30810c7b", b"a", b"a"), ONE_TRACED % (b"8072fc2ac19230e4", b"out", b"out")
NOTHING_PICTURED = drawn([], [])


def pictured(name):
    """The picture of one command of 1 ms."""
    return drawn([(0, 1, None, [name])], [0])


INPUT_PICTURED, FILE_PICTURED, FOUR_PICTURED, NEW_PICTURED = map(pictured, (b"input", b"file", b"a", b"out"))
NEW_SHOWN = b"1\t2\t3\tout\t8072fc2ac19230e4\n"
NEW_CHECKED = b"version %d\ntotal 1\nunique 1\nskipped 1\ntorn 0\ndue no\n"
REPLAYED = b"ok\nS2 AlreadyOpen\nlog 15\n# ninja log v5\n"
HASH = b"72274e7a30810c7b\n"

NO_COMMAND = b"""error: unrecognized subcommand 'frob'

Usage: nlog [COMMAND]

For more information, try '--help'.
"""

NO_VALUE = b"""error: the following required arguments were not provided:
  <COMMAND>

Usage: nlog hash <COMMAND>

For more information, try '--help'.
"""

NO_LOG_NAME = NO_VALUE.replace(b"COMMAND", b"LOG").replace(b"nlog hash", b"nlog repair")
NO_LOG_TO_APPLY = NO_LOG_NAME.replace(b"nlog repair <LOG>", b"nlog apply <LOG> [SCRIPT]")
TWO_SCRIPTS = b"""error: unexpected argument 'two' found

Usage: nlog apply [OPTIONS] <LOG> [SCRIPT]

For more information, try '--help'.
"""

MORE = b"\nFor more information, try '--help'.\n"
NO_VERSION = b"""error: a value is required for '--log-version <VERSION>' but none was supplied
""" + MORE
TWO_VERSIONS = b"""error: the argument '--log-version <VERSION>' cannot be used multiple times

Usage: nlog show [OPTIONS] [LOG]
""" + MORE
# That a value is no version, and that a command, here with its usage, has no such option.
BAD_VERSION = b"""error: invalid value '%s' for '--log-version <VERSION>': it is 5, 6, 7 or auto

Usage: nlog [COMMAND]
""" + MORE
NO_OPTION = b"""error: unexpected argument '--log-version' found

  tip: to pass '--log-version' as a value, use '-- --log-version'

Usage: nlog %s
""" + MORE

# The words that have no version but the one of their log, and what they say of a number.
STREAMED = ("entries", "damage", "doubt", "builds", "summary", "trace", "picture")
NO_NUMBER = BAD_VERSION.replace(b"5, 6, 7 or auto", b"auto")

# An option that the program alone doesn't have, a value behind one that takes none, a value too few of six, and an option that is there twice.
NO_SHORT_OPTION = b"""error: unexpected argument '-v' found

Usage: nlog [COMMAND]
""" + MORE
HELP_OF_A_VALUE = b"""error: unexpected value 'x' for '--help' found; no more were expected

Usage: nlog --help
""" + MORE
ONE_TOO_FEW = b"""error: the following required arguments were not provided:
  <COMMAND>

Usage: nlog record <LOG> <START> <END> <MTIME> <NAME> <COMMAND>
""" + MORE
TWO_VERBOSE = TWO_VERSIONS.replace(b"--log-version <VERSION>", b"--verbose")

# Of the option by which a log may be missing, as a command says which doesn't have it.
NO_MISSING = NO_OPTION.replace(b"--log-version", b"--missing-ok")
TWO_BUILDS = TWO_VERSIONS.replace(b"--log-version <VERSION>", b"--build <BUILD>").replace(b"nlog show", b"nlog summary")
TWO_KINDS = TWO_VERSIONS.replace(b"--log-version <VERSION>", b"--kind <RULE>").replace(b"nlog show", b"nlog summary")
NO_KIND = b"error: invalid value '%b' for '--kind <RULE>': it is extension, folder, top or work\n\nUsage: nlog [COMMAND]\n" + MORE
TWO_GRAPHS = TWO_BUILDS.replace(b"--build <BUILD>", b"--graph <FILE>")
NO_GRAPH = NO_VERSION.replace(b"--log-version <VERSION>", b"--graph <FILE>")
TWO_SCOPES = b"error: the argument '--build <BUILD>' cannot be used with '--all'\n\nUsage: nlog [COMMAND]\n" + MORE
TWO_MISSING = TWO_VERSIONS.replace(b"--log-version <VERSION>", b"--missing-ok").replace(b"nlog show", b"nlog entries")
TWO_LEAST = TWO_VERSIONS.replace(b"--log-version <VERSION>", b"--at-least <MS>").replace(b"nlog show [OPTIONS] [LOG]", b"nlog compare [OPTIONS] <OLD> <NEW>")
GRAPH_AS_LOG = b"error: the argument '--graph -' reads standard input, so LOG is required with it\n\nUsage: nlog [COMMAND]\n" + MORE
NO_LEAST = NO_VERSION.replace(b"--log-version <VERSION>", b"--at-least <MS>")
# Its second build began 100 seconds before the first: of what both say that tell of them.
IS_ANEW = b"nlog: LOG anew: it was written anew, so builds were found again by their time stamps\n"
# What a log that is missing was, with `--verbose`.
IS_MISSING = b": it is missing, and was read as empty\n"

BEFORE_THE_COMMAND = b"""error: unexpected argument '--log-version' found

  tip: a similar argument exists: '--version'

Usage: nlog --version
""" + MORE

# Logs of versions that are long, by their names.
LONG_VERSIONS = {"digits18": b"8" * 18, "digits19": b"9" * 19, "digits500": b"1" * 500, "digits": b"7" * 262_130}

# Words, where INPUT is standard input and `file` is FILE, `four`, `six`, `seven`, `nested`, `anew` and `graph` FOUR, SIX, SEVEN, NESTED, ANEW and GRAPH, `eight` a log of version 8; the status and both outputs.
WORDS = [
    ([], 0, INPUT_SHOWN, b""),
    (["show"], 0, INPUT_SHOWN, b""),
    (["show", "file"], 0, FILE_SHOWN, b""),
    (["show", "--", "-file"], 0, FILE_SHOWN, b""),
    (["show", "missing"], 0, b"", b""),
    (["show", ""], 0, b"", b""),
    (["show", "folder"], 1, b"", CANNOT_READ),
    (["show", "file/"], 1, b"", CANNOT_READ),
    (["show", "file/log"], 1, b"", CANNOT_READ),
    (["check"], 0, INPUT_CHECKED, b""),
    (["check", "file"], 0, FILE_CHECKED, b""),
    (["check", "missing"], 0, NOTHING_CHECKED, b""),
    (["check", ""], 0, NOTHING_CHECKED, b""),
    (["check", "folder"], 1, b"", CANNOT_READ),
    (["check", "file/log"], 1, b"", CANNOT_READ),
    (["hash", "cc\tx"], 0, HASH, b""),
    (["hash-file", "file"], 0, FILE_HASH, b""),
    (["hash-file"], 0, INPUT_HASH, b""),
    (["hash-file", "--log-version", "5", "file"], 0, FILE_HASH, b""),
    (["hash-file", "--log-version", "6", "file"], 0, FILE_HASH, b""),
    (["hash-file", "file", "--log-version=7"], 0, b"%x\n" % command_hash_v7(FILE), b""),
    (["hash-file", "--log-version", "auto", "file"], 0, FILE_HASH, b""),
    (["hash-file", "--log-version", "7"], 0, b"%x\n" % command_hash_v7(INPUT), b""),
    (["hash-file", "--log-version", "7", "missing"], 1, b"", CANNOT_READ),
    (["hash-file", "missing"], 1, b"", CANNOT_READ),
    (["hash-file", "folder"], 1, b"", CANNOT_READ),
    (["entries"], 0, INPUT_SHOWN, b""),
    (["entries", "file"], 0, FILE_SHOWN, b""),
    (["entries", "missing"], 1, b"", CANNOT_READ),
    (["entries", ""], 1, b"", CANNOT_READ),
    (["entries", "--missing-ok", "missing"], 0, b"", b""),
    (["entries", "file", "--missing-ok"], 0, FILE_SHOWN, b""),
    (["entries", "--missing-ok"], 0, INPUT_SHOWN, b""),
    (["entries", "--missing-ok", "folder"], 1, b"", CANNOT_READ),
    (["entries", "--missing-ok", "file/log"], 1, b"", CANNOT_READ),
    (["entries", "folder"], 1, b"", CANNOT_READ),
    (["doubt"], 3, b"missing\tinput\n", b""),
    (["doubt", "file"], 3, b"newer\tfile\n", b""),
    (["doubt", "--", "-file"], 3, b"newer\tfile\n", b""),
    (["doubt", "missing"], 1, b"", CANNOT_READ),
    (["doubt", ""], 1, b"", CANNOT_READ),
    (["doubt", "folder"], 1, b"", CANNOT_READ),
    (["doubt", "file/log"], 1, b"", CANNOT_READ),
    (["builds"], 0, INPUT_BUILT, b""),
    (["builds", "file"], 0, FILE_BUILT, b""),
    (["builds", "--", "-file"], 0, FILE_BUILT, b""),
    (["builds", "missing"], 1, b"", CANNOT_READ),
    (["builds", ""], 1, b"", CANNOT_READ),
    (["builds", "missing", "--missing-ok"], 0, b"", b""),
    (["builds", "--missing-ok", "file"], 0, FILE_BUILT, b""),
    (["builds", "folder"], 1, b"", CANNOT_READ),
    (["builds", "file/log"], 1, b"", CANNOT_READ),
    (["summary"], 0, ONE_SUMMED % ((b"input",) * 3), b""),
    (["summary", "-n", "0"], 0, ONE_COUNTED % b"input", b""),
    (["summary", "--lines", "9223372036854775807"], 0, ONE_SUMMED % ((b"input",) * 3), b""),
    (["summary", "file", "-n1"], 0, ONE_SUMMED % ((b"file",) * 3), b""),
    (["summary", "--lines=0", "file"], 0, ONE_COUNTED % b"file", b""),
    (["summary", "-n", "9223372036854775808"], 1, b"", BAD_NUMBER),
    (["summary", "--lines=-1"], 1, b"", BAD_NUMBER),
    (["summary", "-n", "01"], 1, b"", BAD_NUMBER),
    (["summary", "-n", "+1"], 1, b"", BAD_NUMBER),
    (["summary", "-n", ""], 1, b"", BAD_NUMBER),
    (["summary", "-n", "x", "folder"], 1, b"", BAD_NUMBER),
    (["summary", "file"], 0, ONE_SUMMED % ((b"file",) * 3), b""),
    (["summary", "--", "-file"], 0, ONE_SUMMED % ((b"file",) * 3), b""),
    (["summary", "missing"], 1, b"", CANNOT_READ),
    (["summary", "--missing-ok", "missing"], 0, b"", b""),
    (["summary", "--build", "1", "file"], 0, ONE_SUMMED % ((b"file",) * 3), b""),
    (["summary", "--build=2", "file"], 0, b"builds\t1\n", b""),
    (["summary", "file", "-n0", "--build", "9223372036854775807"], 0, b"builds\t1\n", b""),
    (["summary", "--missing-ok", "missing", "--build", "1"], 0, b"builds\t0\n", b""),
    (["summary", "--all", "file"], 0, ONE_SUMMED % ((b"file",) * 3), b""),
    (["summary", "file", "--all", "-n", "0"], 0, ONE_COUNTED % b"file", b""),
    (["summary", "--missing-ok", "missing", "--all"], 0, b"", b""),
    (["summary", "--all", "missing"], 1, b"", CANNOT_READ),
    (["summary", "--all", "--build", "x", "missing"], 2, b"", TWO_SCOPES),
    (["summary", "--build=1", "file", "--all"], 2, b"", TWO_SCOPES),
    (["summary", "--all", "-n", "x", "file"], 1, b"", BAD_NUMBER),
    *[(["summary", f"--kind={rule}", "-n9", "nested"], 0, KINDS_COUNTED + ranked, b"") for rule, ranked in KINDS_RANKED.items()],
    (["summary", "-n9", "nested"], 0, KINDS_COUNTED + KINDS_RANKED["extension"], b""),
    (["summary", "nested", "--kind", "top", "--all", "-n", "9"], 0, KINDS_COUNTED + KINDS_RANKED["top"], b""),
    *[(["summary", "--kind", rule, "missing"], 2, b"", NO_KIND % rule.encode()) for rule in ("", "Folder", "exts", "x", "folder,top")],
    (["summary", "--kind", "x", "--all", "--build=1", "file"], 2, b"", TWO_SCOPES),
    (["summary", "--kind", "x", "-n", "x", "file"], 2, b"", NO_KIND % b"x"),
    (["summary", "--kind", "top", "file", "--kind=top"], 2, b"", TWO_KINDS),
    (["summary", "file", "--kind"], 2, b"", NO_VERSION.replace(b"--log-version <VERSION>", b"--kind <RULE>")),
    (["summary", "--build", "1", "file", "--build=1"], 2, b"", TWO_BUILDS),
    (["summary", "file", "--build"], 2, b"", NO_VERSION.replace(b"--log-version <VERSION>", b"--build <BUILD>")),
    (["summary", "--build", "9223372036854775808"], 1, b"", BAD_NUMBER),
    *[(["summary", f"--build={number}"], 1, b"", BAD_NUMBER) for number in ("0", "-1", "01", "+1", "", "x", "last")],
    (["summary", "--missing-ok", "-n", "0", "file"], 0, ONE_COUNTED % b"file", b""),
    # The numbers are looked at first, then the graph, then LOG.
    (["summary", "--graph"], 2, b"", NO_GRAPH),
    (["summary", "--graph", "file", "--graph=file"], 2, b"", TWO_GRAPHS),
    (["summary", "--graph", "-"], 2, b"", GRAPH_AS_LOG),
    (["summary", "--graph=-", "--all"], 2, b"", GRAPH_AS_LOG),
    (["summary", "--graph", "missing", "missing"], 1, b"", CANNOT_READ),
    (["summary", "--graph=", "file"], 1, b"", CANNOT_READ),
    (["summary", "--graph", "-", "file"], 1, b"", b"nlog: bad line 1\n"),
    (["summary", "--graph", "-", "missing"], 1, b"", b"nlog: bad line 1\n"),
    (["summary", "--graph", "graph", "file"], 1, b"", b"nlog: not the graph of this build\n"),
    (["summary", "--all", "--graph=graph", "file"], 1, b"", b"nlog: not the graph of this build\n"),
    (["summary", "--build", "2", "--graph=graph", "file"], 0, b"builds\t1\n", b""),
    (["summary", "--graph=graph", "-n0", "seven"], 0, ONE_COUNTED % b"out" + b"critical-path\t1\non-path\t1\t1\t2\tout\n", b""),
    (["summary", "--graph=graph", "-n0", "nested"], 0, NESTED_COUNTED + b"critical-path\t4\non-path\t4\t3\t7\tlib/x/c\nnot-in-graph\t2\t3\n", b""),
    (["summary", "--graph=graph", "missing", "--missing-ok"], 0, b"", b""),
    (["summary", "--graph", "folder", "--missing-ok", "missing"], 1, b"", CANNOT_READ),
    (["summary", "--graph", "file", "missing"], 1, b"", b"nlog: bad line 1\n"),
    (["summary", "--graph", "missing", "-n", "x", "file"], 1, b"", BAD_NUMBER),
    (["summary", "--graph", "missing", "--build=0", "file"], 1, b"", BAD_NUMBER),
    (["summary", "--all", "--build", "1", "--graph", "missing"], 2, b"", TWO_SCOPES),
    (["summary", "folder"], 1, b"", CANNOT_READ),
    (["compare", "file", "missing"], 1, b"", CANNOT_READ),
    (["compare", "missing", "file"], 1, b"", CANNOT_READ),
    (["compare", "file", ""], 1, b"", CANNOT_READ),
    (["compare", "file", "folder"], 1, b"", CANNOT_READ),
    (["compare", "file/log", "file", "--missing-ok"], 1, b"", CANNOT_READ),
    (["compare", "--missing-ok", "missing", "absent"], 0, COMPARED % (b"", *[NONE] * 7), b""),
    (["compare", "--missing-ok", "missing", "file"], 0, COMPARED % (b"", b"1\t1\t0\t1", *[NONE] * 6) + b"new\t1\t0\t1\tfile\n", b""),
    (["compare", "file", "missing", "--missing-ok"], 0, COMPARED % (b"", NONE, b"1\t-1\t1\t0", *[NONE] * 5) + b"gone\t-1\t1\t0\tfile\n", b""),
    (["compare", "file", "missing", "--missing-ok", "-n", "0"], 0, COMPARED % (b"", NONE, b"1\t-1\t1\t0", *[NONE] * 5), b""),
    (["compare", "file", "file"], 0, COMPARED % (b"", *[NONE] * 6, b"1\t0\t1\t1"), b""),
    (["compare", "-n1", "--", "-file", "file"], 0, COMPARED % (b"", *[NONE] * 6, b"1\t0\t1\t1"), b""),
    (["compare", "--lines", "9223372036854775807", "file", "file"], 0, COMPARED % (b"", *[NONE] * 6, b"1\t0\t1\t1"), b""),
    (["compare", "-n", "9223372036854775808", "file", "file"], 1, b"", BAD_NUMBER),
    (["compare", "--lines=-1", "missing", "file"], 1, b"", BAD_NUMBER),
    (["compare", "-n", "01", "file", "folder"], 1, b"", BAD_NUMBER),
    # A difference of less milliseconds is none; N is looked at before MS, and both before the logs.
    (["compare", "nested", "nested", "--at-least", "0"], 0, COMPARED % (b"", *[NONE] * 6, b"3\t0\t7\t7"), b""),
    (["compare", "--at-least", "9223372036854775807", "nested", "nested"], 0, COMPARED % (b"", *[NONE] * 6, b"3\t0\t7\t7"), b""),
    (["compare", "--at-least=2", "missing", "file", "--missing-ok"], 0, COMPARED % (b"", b"1\t1\t0\t1", *[NONE] * 6) + b"new\t1\t0\t1\tfile\n", b""),
    *[(["compare", f"--at-least={number}", "missing", "file"], 1, b"", BAD_NUMBER) for number in ("9223372036854775808", "-1", "01", "+1", "", "x", "1.5")],
    (["compare", "--at-least", "1", "--at-least=1", "file", "file"], 2, b"", TWO_LEAST),
    (["compare", "file", "file", "--at-least"], 2, b"", NO_LEAST),
    (["summary", "--at-least", "1", "file"], 2, b"", NO_OPTION.replace(b"--log-version", b"--at-least") % b"summary [OPTIONS] [LOG]"),
    # Of what was written anew.
    (["builds", "anew"], 0, ANEW_BUILT, IS_ANEW),
    (["builds", "-v", "anew"], 0, ANEW_BUILT, IS_ANEW),
    (["summary", "-n0", "anew"], 0, ANEW_COUNTED + b"again\t0\n", IS_ANEW),
    (["summary", "-n0", "--build=1", "anew"], 0, ONE_COUNTED % b"b" + b"again\t1\n", IS_ANEW),
    (["summary", "-n0", "--build=3", "anew"], 0, b"builds\t2\n", b""),
    (["summary", "-n0", "--all", "anew"], 0, ALL_ANEW, IS_ANEW),
    (["compare", "-n0", "anew", "anew"], 0, COMPARED % (b"", *[NONE] * 6, b"2\t0\t3\t3"), b""),
    (["trace"], 0, INPUT_TRACED, b""),
    (["picture"], 0, INPUT_PICTURED, b""),
    (["trace", "file"], 0, FILE_TRACED, b""),
    (["picture", "file"], 0, FILE_PICTURED, b""),
    (["trace", "--", "-file"], 0, FILE_TRACED, b""),
    (["picture", "--", "-file"], 0, FILE_PICTURED, b""),
    (["trace", "missing"], 1, b"", CANNOT_READ),
    (["picture", "missing"], 1, b"", CANNOT_READ),
    (["trace", ""], 1, b"", CANNOT_READ),
    (["picture", ""], 1, b"", CANNOT_READ),
    (["trace", "missing", "--missing-ok"], 0, b"[]", b""),
    (["picture", "missing", "--missing-ok"], 0, NOTHING_PICTURED, b""),
    (["trace", "--missing-ok", "file"], 0, FILE_TRACED, b""),
    (["picture", "--missing-ok", "file"], 0, FILE_PICTURED, b""),
    (["trace", "folder"], 1, b"", CANNOT_READ),
    (["picture", "folder"], 1, b"", CANNOT_READ),
    (["damage"], 3, b"3\tskipped\t1\t-\t-\n", b""),
    (["damage", "file"], 0, b"", b""),
    (["damage", "missing"], 1, b"", CANNOT_READ),
    (["damage", "--missing-ok", "missing"], 0, b"", b""),
    (["damage", "--missing-ok"], 3, b"3\tskipped\t1\t-\t-\n", b""),
    (["damage", "folder"], 1, b"", CANNOT_READ),
    (["repair"], 2, b"", NO_LOG_NAME),
    (["repair", "folder"], 1, b"", b"nlog: the folder failed\n"),
    (["repair", "missing"], 1, b"", CANNOT_READ),
    (["repair", ""], 1, b"", CANNOT_READ),
    (["repair", "missing/log"], 1, b"", CANNOT_READ),
    (["repair", "--log-version", "7", "missing"], 1, b"", CANNOT_READ),
    (["repair", "--missing-ok", "folder"], 1, b"", b"nlog: the folder failed\n"),
    (["repair", "--missing-ok", "missing/log"], 1, b"", b"nlog: the folder failed\n"),
    # A look that fails otherwise says nothing of whether LOG is there.
    (["repair", "file/log"], 1, b"", b"nlog: the folder failed\n"),
    (["show", "--missing-ok", "missing"], 2, b"", NO_MISSING % b"show [OPTIONS] [LOG]"),
    (["doubt", "--missing-ok", "missing"], 2, b"", NO_MISSING % b"doubt [OPTIONS] [LOG]"),
    (["record", "--missing-ok", "missing"], 2, b"", NO_MISSING % b"record [OPTIONS] <LOG> <START> <END> <MTIME> <NAME> <COMMAND>"),
    (["apply", "--missing-ok", "missing"], 2, b"", NO_MISSING % b"apply [OPTIONS] <LOG> [SCRIPT]"),
    (["entries", "--missing-ok", "file", "--missing-ok"], 2, b"", TWO_MISSING),
    # Behind `--` it is a file.
    (["entries", "--", "--missing-ok"], 1, b"", CANNOT_READ),
    (["replay"], 1, b"", b"nlog: bad line 1\n"),
    (["replay", "script"], 0, REPLAYED, b""),
    (["replay", "file"], 1, b"", b"nlog: bad line 1\n"),
    (["replay", "missing"], 1, b"", CANNOT_READ),
    (["replay", "folder"], 1, b"", CANNOT_READ),
    (["apply"], 2, b"", NO_LOG_TO_APPLY),
    (["apply", "none", "script", "two"], 2, b"", TWO_SCRIPTS),
    # The script is opened before LOG, which is not made.
    (["apply", "none", "missing"], 1, b"", CANNOT_READ),
    (["apply", "none", "folder"], 1, b"", CANNOT_READ),
    # INPUT is three lines without an `open`, and they are bad.
    (["apply", "none"], 0, b"bad line\n" * 3, b""),
    (["apply", "file", "asks"], 0, b"ok\n" + FILE_SHOWN + b"none\n" + FILE_SHOWN + b"end\n", b""),
    (["apply", "--", "file", "asks"], 0, b"ok\n" + FILE_SHOWN + b"none\n" + FILE_SHOWN + b"end\n", b""),
    # The last line has no newline, and is not done.
    (["apply", "file", "script"], 0, b"ok\nbad line\n", b""),
    # No line is answered where LOG can't be read.
    (["apply", "folder", "script"], 1, b"", b"nlog: the folder failed\n"),
    (["apply", "seven", "script"], 0, b"ok\nbad line\n", b""),
    (["apply", "six", "asks"], 0, b"ok\nnone\nnone\n" + NEW_SHOWN + b"end\n", b""),
    (["apply", "eight", "script"], 0, b"S6 OtherVersion\nbad line\n", b""),
    (["entries", "six"], 0, NEW_SHOWN, b""),
    (["entries", "seven"], 0, NEW_SHOWN, b""),
    (["doubt", "four"], 3, b"missing\ta\n", b""),
    (["doubt", "six"], 3, b"missing\tout\n", b""),
    (["doubt", "seven"], 3, b"missing\tout\n", b""),
    (["doubt", "eight"], 1, b"", OTHER_VERSION),
    (["doubt", "script"], 1, b"", NO_LOG),
    (["builds", "four"], 0, FOUR_BUILT, b""),
    (["builds", "six"], 0, NEW_BUILT, b""),
    (["builds", "seven"], 0, NEW_BUILT, b""),
    (["builds", "eight"], 1, b"", OTHER_VERSION),
    (["builds", "script"], 1, b"", NO_LOG),
    (["summary", "four"], 0, ONE_SUMMED % ((b"a",) * 3), b""),
    (["summary", "six"], 0, ONE_SUMMED % ((b"out",) * 3), b""),
    (["summary", "seven"], 0, ONE_SUMMED % ((b"out",) * 3), b""),
    (["summary", "eight"], 1, b"", OTHER_VERSION),
    (["summary", "script"], 1, b"", NO_LOG),
    (["compare", "six", "seven"], 0, COMPARED % (b"not-", *[NONE] * 6, b"1\t0\t1\t1"), b""),
    (["compare", "seven", "six"], 0, COMPARED % (b"not-", *[NONE] * 6, b"1\t0\t1\t1"), b""),
    (["compare", "six", "six"], 0, COMPARED % (b"", *[NONE] * 6, b"1\t0\t1\t1"), b""),
    (["compare", "seven", "seven"], 0, COMPARED % (b"", *[NONE] * 6, b"1\t0\t1\t1"), b""),
    (["compare", "four", "six"], 0, COMPARED % (b"", b"1\t1\t0\t1", b"1\t-1\t1\t0", *[NONE] * 5) + b"new\t1\t0\t1\tout\ngone\t-1\t1\t0\ta\n", b""),
    (["compare", "eight", "six"], 1, b"", OTHER_VERSION),
    (["compare", "six", "eight"], 1, b"", OTHER_VERSION),
    (["compare", "script", "six"], 1, b"", NO_LOG),
    (["compare", "six", "script"], 1, b"", NO_LOG),
    (["trace", "four"], 0, FOUR_TRACED, b""),
    (["picture", "four"], 0, FOUR_PICTURED, b""),
    (["trace", "six"], 0, NEW_TRACED, b""),
    (["picture", "six"], 0, NEW_PICTURED, b""),
    (["trace", "seven"], 0, NEW_TRACED, b""),
    (["picture", "seven"], 0, NEW_PICTURED, b""),
    (["trace", "eight"], 1, b"", OTHER_VERSION),
    (["picture", "eight"], 1, b"", OTHER_VERSION),
    (["trace", "script"], 1, b"", NO_LOG),
    (["picture", "script"], 1, b"", NO_LOG),
    (["damage", "seven"], 3, b"3\tskipped\t1\t-\t-\n", b""),
    (["damage", "eight"], 1, b"", OTHER_VERSION),
    (["--version"], 0, b"nlog 0.2.0\n", b""),
    (["frob"], 2, b"", NO_COMMAND),
    # A file in the place of a command, with or without more.
    *(([path, *more], 2, b"", NO_COMMAND.replace(b"frob", path.encode()) + b"nlog: a command comes first: nlog show %b\n" % path.encode()) for path in (".ninja_log", "out/log", "a.log") for more in ([], ["--verbose"])),
    (["help", "frob"], 2, b"", NO_COMMAND),
    (["help", "show", "frob"], 2, b"", NO_COMMAND.replace(b"nlog [COMMAND]", b"nlog show [OPTIONS] [LOG]")),
    (["hash"], 2, b"", NO_VALUE),
    (["-v"], 2, b"", NO_SHORT_OPTION),
    (["--help=x"], 2, b"", HELP_OF_A_VALUE),
    (["record", "file", "1", "2", "3", "out"], 2, b"", ONE_TOO_FEW),
    (["show", "-v", "--verbose"], 2, b"", TWO_VERBOSE),
    (["hash", b"\xff"], 2, b"", b"nlog: cannot read the words: invalid data\n"),
    # The version of a log, in each place that it may have.
    (["show", "--log-version", "7", "seven"], 0, NEW_SHOWN, b""),
    (["show", "seven", "--log-version", "7"], 0, NEW_SHOWN, b""),
    (["show", "--log-version=7", "seven"], 0, NEW_SHOWN, b""),
    (["show", "--log-version=7", "--", "seven"], 0, NEW_SHOWN, b""),
    (["show", "--log-version", "6", "six"], 0, NEW_SHOWN, b""),
    (["show", "--log-version", "5", "file"], 0, FILE_SHOWN, b""),
    (["show", "--log-version", "5"], 0, INPUT_SHOWN, b""),
    # With 5, what is done without it: a log of version 4 is taken too, and with 6 or 7 it is not.
    (["show", "--log-version", "5", "four"], 0, FOUR_SHOWN, b""),
    (["check", "--log-version", "5", "four"], 0, b"version 4\ntotal 1\nunique 1\nskipped 0\ntorn 0\ndue yes\n", b""),
    (["show", "--log-version", "6", "four"], 1, b"", OTHER_VERSION),
    (["show", "--log-version", "7", "missing"], 0, b"", b""),
    (["show", "--log-version", "7", "folder"], 1, b"", CANNOT_READ),
    (["show", "seven"], 1, b"", OTHER_VERSION),
    (["show", "--log-version", "5", "seven"], 1, b"", OTHER_VERSION),
    (["show", "--log-version", "6", "seven"], 1, b"", OTHER_VERSION),
    (["show", "--log-version", "7", "six"], 1, b"", OTHER_VERSION),
    (["show", "--log-version", "7", "file"], 1, b"", OTHER_VERSION),
    (["show", "--log-version", "7"], 1, b"", OTHER_VERSION),
    (["check", "--log-version", "7", "seven"], 0, NEW_CHECKED % 7, b""),
    (["check", "six", "--log-version=6"], 0, NEW_CHECKED % 6, b""),
    (["check", "--log-version", "5", "file"], 0, FILE_CHECKED, b""),
    (["show", "--log-version", "auto", "seven"], 0, NEW_SHOWN, b""),
    (["show", "six", "--log-version=auto"], 0, NEW_SHOWN, b""),
    (["show", "--log-version", "auto", "file"], 0, FILE_SHOWN, b""),
    (["show", "--log-version", "auto"], 0, INPUT_SHOWN, b""),
    (["show", "--log-version", "auto", "four"], 0, FOUR_SHOWN, b""),
    (["show", "--log-version", "auto", "eight"], 1, b"", OTHER_VERSION),
    (["show", "--log-version", "auto", "script"], 1, b"", NO_LOG),
    (["show", "--log-version", "auto", "folder"], 1, b"", CANNOT_READ),
    (["check", "--log-version", "auto", "four"], 0, b"version 4\ntotal 1\nunique 1\nskipped 0\ntorn 0\ndue yes\n", b""),
    (["check", "--log-version", "auto", "seven"], 0, NEW_CHECKED % 7, b""),
    (["check", "--log-version", "auto", "six"], 0, NEW_CHECKED % 6, b""),
    (["check", "--log-version", "auto", "missing"], 0, NOTHING_CHECKED, b""),
    (["hash", "--log-version", "auto", "cc\tx"], 0, HASH, b""),
    (["check", "--log-version", "7", "missing"], 0, NOTHING_CHECKED.replace(b"5", b"7"), b""),
    (["check", "--log-version", "6", "seven"], 1, b"", OTHER_VERSION),
    (["hash", "--log-version", "7", "cc\tx"], 0, b"8072fc2ac19230e4\n", b""),
    (["hash", "cc\tx", "--log-version=7"], 0, b"8072fc2ac19230e4\n", b""),
    (["hash", "--log-version=7", ""], 0, b"5a6ef77074ebc84b\n", b""),
    (["hash", "--log-version", "6", "cc\tx"], 0, HASH, b""),
    (["hash", "--log-version", "5", "cc\tx"], 0, HASH, b""),
    (["--log-version", "7", "show", "seven"], 2, b"", BEFORE_THE_COMMAND),
    (["--log-version", "7"], 2, b"", BEFORE_THE_COMMAND),
    # Behind `--` it is a value.
    (["show", "--", "--log-version=7"], 0, b"", b""),
    (["hash", "--", "--log-version"], 0, b"%x\n" % command_hash(b"--log-version"), b""),
    (["show", "--log-version"], 2, b"", NO_VERSION),
    (["show", "--log-version="], 2, b"", BAD_VERSION % b""),
    (["show", "seven", "--log-version", "4"], 2, b"", BAD_VERSION % b"4"),
    (["show", "seven", "--log-version", "Auto"], 2, b"", BAD_VERSION % b"Auto"),
    (["check", "--log-version=auto ", "seven"], 2, b"", BAD_VERSION % b"auto "),
    (["check", "--log-version=07"], 2, b"", BAD_VERSION % b"07"),
    (["hash", "--log-version", "seven", "c"], 2, b"", BAD_VERSION % b"seven"),
    (["show", "--log-version", "7", "seven", "--log-version", "7"], 2, b"", TWO_VERSIONS),
    (["replay", "--log-version", "7"], 2, b"", NO_OPTION % b"replay [OPTIONS] [SCRIPT]"),
    # These take `auto` alone, which is what they do without it.
    *[([word, "--log-version", version], 2, b"", NO_NUMBER % version.encode()) for word in STREAMED for version in ("5", "7", "8", "Auto", "")],
    *[([word, "--log-version"], 2, b"", NO_VERSION) for word in STREAMED],
    (["entries", "--log-version", "auto", "file"], 0, FILE_SHOWN, b""),
    (["entries", "seven", "--log-version=auto"], 0, NEW_SHOWN, b""),
    (["entries", "--log-version", "auto", "four"], 0, FOUR_SHOWN, b""),
    (["entries", "--log-version", "auto", "eight"], 1, b"", OTHER_VERSION),
    (["entries", "--log-version", "auto"], 0, INPUT_SHOWN, b""),
    (["damage", "--log-version", "auto", "seven"], 3, b"3\tskipped\t1\t-\t-\n", b""),
    (["damage", "--log-version=auto", "--missing-ok", "missing"], 0, b"", b""),
    (["doubt", "--log-version", "auto", "seven"], 3, b"missing\tout\n", b""),
    (["builds", "--log-version", "auto", "seven"], 0, NEW_BUILT, b""),
    (["trace", "--log-version", "auto", "six"], 0, NEW_TRACED, b""),
    (["picture", "--log-version", "auto", "six"], 0, NEW_PICTURED, b""),
    (["summary", "--log-version", "auto", "six"], 0, ONE_SUMMED % ((b"out",) * 3), b""),
    (["compare", "--log-version", "auto", "six", "six"], 0, COMPARED % (b"", *[NONE] * 6, b"1\t0\t1\t1"), b""),
    *[(["compare", "--log-version", version, "six", "six"], 2, b"", NO_NUMBER % version.encode()) for version in ("5", "7", "8", "")],
    (["repair", "--log-version", "auto", "eight"], 1, b"", OTHER_VERSION),
    (["apply", "--log-version", "auto", "six", "asks"], 0, b"ok\nnone\nnone\n" + NEW_SHOWN + b"end\n", b""),
    (["repair", "--log-version", "7"], 2, b"", NO_LOG_NAME.replace(b"repair <LOG>", b"repair --log-version <VERSION> <LOG>")),
    (["repair", "seven", "--log-version"], 2, b"", NO_VERSION),
    (["repair", "seven", "--log-version", "4"], 2, b"", BAD_VERSION % b"4"),
    (["hash-file", "file", "--log-version=07"], 2, b"", BAD_VERSION % b"07"),
    # Of the commands that change a log: one of another version than the one that is asked for is refused, and stays.
    (["record", "--log-version", "6", "seven", "1", "2", "3", "n", "c"], 1, b"", OTHER_VERSION),
    (["record", "--log-version", "7", "file", "1", "2", "3", "n", "c"], 1, b"", OTHER_VERSION),
    (["record", "seven", "1", "2", "3", "n", "c"], 1, b"", OTHER_VERSION),
    (["recompact", "--log-version=5", "seven", "file"], 1, b"", b"nlog: bad line 2\n"),
    (["recompact", "--log-version=5", "seven", "/dev/null"], 1, b"", OTHER_VERSION),
    (["recompact", "seven", "missing", "--log-version", "7"], 1, b"", CANNOT_READ),
    (["restat", "six", "/dev/null", "--log-version", "7"], 1, b"", OTHER_VERSION),
    (["restat", "six", "file", "--log-version", "8"], 2, b"", BAD_VERSION % b"8"),
    (["record", "seven", "--log-version"], 2, b"", NO_VERSION),
    (["apply", "--log-version", "7", "file", "asks"], 0, b"S6 OtherVersion\n" + b"S1 NotOpen\n" * 3, b""),
    (["apply", "file", "asks", "--log-version", "5"], 0, b"ok\n" + FILE_SHOWN + b"none\n" + FILE_SHOWN + b"end\n", b""),
    (["apply", "file", "asks", "--log-version", "8"], 2, b"", BAD_VERSION % b"8"),
    # What is wrong with the words comes before LOG is looked at.
    (["record", "--log-version", "auto", "folder", "x", "2", "3", "n", "c"], 1, b"", b"nlog: bad number\n"),
    (["record", "--log-version", "auto", "folder", "1", "2", "3", "n", "c"], 1, b"", b"nlog: the folder failed\n"),
    (["recompact", "--log-version", "auto", "eight", "/dev/null"], 1, b"", OTHER_VERSION),
    (["restat", "--log-version", "auto", "seven", "missing"], 1, b"", CANNOT_READ),
    # A LOG that is no file of the system's.
    (["record", "folder", "1", "2", "3", "n", "c"], 1, b"", b"nlog: the folder failed\n"),
    # Behind a refusal the file that it is of, and why.
    (["show", "--verbose", "file"], 0, FILE_SHOWN, b""),
    (["check", "-v", "missing"], 0, NOTHING_CHECKED, b"nlog: LOG missing" + IS_MISSING),
    (["show", "missing", "-v"], 0, b"", b"nlog: LOG missing" + IS_MISSING),
    (["show", "-v", ""], 0, b"", b"nlog: LOG " + IS_MISSING),
    (["show", "-v", "--log-version", "7", "missing"], 0, b"", b"nlog: LOG missing" + IS_MISSING),
    (["entries", "-v", "--missing-ok", "missing"], 0, b"", b"nlog: LOG missing" + IS_MISSING),
    (["damage", "-v", "--missing-ok", "missing"], 0, b"", b"nlog: LOG missing" + IS_MISSING),
    (["builds", "-v", "--missing-ok", "missing"], 0, b"", b"nlog: LOG missing" + IS_MISSING),
    (["summary", "-v", "--missing-ok", "missing"], 0, b"", b"nlog: LOG missing" + IS_MISSING),
    (["compare", "-v", "--missing-ok", "missing", "file", "-n0"], 0, COMPARED % (b"", b"1\t1\t0\t1", *[NONE] * 6), b"nlog: LOG missing" + IS_MISSING),
    (["compare", "-v", "--missing-ok", "file", "missing", "-n0"], 0, COMPARED % (b"", NONE, b"1\t-1\t1\t0", *[NONE] * 5), b"nlog: LOG missing" + IS_MISSING),
    (["compare", "-v", "--missing-ok", "absent", "missing"], 0, COMPARED % (b"", *[NONE] * 7), b"nlog: LOG missing" + IS_MISSING),
    (["compare", "-v", "missing", "folder"], 1, b"", CANNOT_READ + b"nlog: LOG missing: " + NO_FILE),
    (["compare", "-v", "file", "missing"], 1, b"", CANNOT_READ + b"nlog: LOG missing: " + NO_FILE),
    (["compare", "-v", "file", "folder"], 1, b"", CANNOT_READ + b"nlog: LOG folder: " + A_FOLDER),
    (["compare", "-v", "eight", "missing"], 1, b"", OTHER_VERSION + b"nlog: LOG eight: version 8\n"),
    (["compare", "-v", "six", "eight"], 1, b"", OTHER_VERSION + b"nlog: LOG eight: version 8\n"),
    (["compare", "-v", "script", "six"], 1, b"", NO_LOG + b'nlog: LOG script: it begins with "open\\x0a"\n'),
    (["compare", "-v", "six", "script"], 1, b"", NO_LOG + b'nlog: LOG script: it begins with "open\\x0a"\n'),
    (["trace", "-v", "--missing-ok", "missing"], 0, b"[]", b"nlog: LOG missing" + IS_MISSING),
    (["picture", "-v", "--missing-ok", "missing"], 0, NOTHING_PICTURED, b"nlog: LOG missing" + IS_MISSING),
    (["entries", "-v", "missing"], 1, b"", CANNOT_READ + b"nlog: LOG missing: " + NO_FILE),
    (["damage", "-v", "missing"], 1, b"", CANNOT_READ + b"nlog: LOG missing: " + NO_FILE),
    (["builds", "-v", "missing"], 1, b"", CANNOT_READ + b"nlog: LOG missing: " + NO_FILE),
    (["summary", "-v", "missing"], 1, b"", CANNOT_READ + b"nlog: LOG missing: " + NO_FILE),
    (["trace", "-v", "missing"], 1, b"", CANNOT_READ + b"nlog: LOG missing: " + NO_FILE),
    (["picture", "-v", "missing"], 1, b"", CANNOT_READ + b"nlog: LOG missing: " + NO_FILE),
    (["repair", "-v", "missing"], 1, b"", CANNOT_READ + b"nlog: LOG missing: " + NO_FILE),
    (["show", "-v"], 0, INPUT_SHOWN, b""),
    (["damage", "-v"], 3, b"3\tskipped\t1\t-\t-\n", b""),
    (["hash", "--", "-v"], 0, b"%x\n" % command_hash(b"-v"), b""),
    (["show", "-v", "folder"], 1, b"", CANNOT_READ + b"nlog: LOG folder: " + A_FOLDER),
    (["check", "file/log", "--verbose"], 1, b"", CANNOT_READ + b"nlog: LOG file/log: " + NO_FOLDER),
    (["entries", "-v", "folder"], 1, b"", CANNOT_READ + b"nlog: LOG folder: " + A_FOLDER),
    (["doubt", "-v", "folder"], 1, b"", CANNOT_READ + b"nlog: LOG folder: " + A_FOLDER),
    (["doubt", "-v", "missing"], 1, b"", CANNOT_READ + b"nlog: LOG missing: " + NO_FILE),
    (["doubt", "eight", "-v"], 1, b"", OTHER_VERSION + b"nlog: LOG eight: version 8\n"),
    (["summary", "-v", "-n", "x", "seven"], 1, b"", b"nlog: bad number\nnlog: N x: it isn't a number\n"),
    (["compare", "-v", "-n", "x", "six", "seven"], 1, b"", b"nlog: bad number\nnlog: N x: it isn't a number\n"),
    (["compare", "-v", "--lines=-1", "six", "missing"], 1, b"", b"nlog: bad number\nnlog: N -1: it is less than 0\n"),
    (["compare", "-v", "--at-least", "x", "six", "missing"], 1, b"", b"nlog: bad number\nnlog: MS x: it isn't a number\n"),
    (["compare", "-v", "--at-least=-1", "six", "missing"], 1, b"", b"nlog: bad number\nnlog: MS -1: it is less than 0\n"),
    (["compare", "-v", "--at-least", "01", "six", "missing"], 1, b"", b"nlog: bad number\nnlog: MS 01: a number has no zero in front\n"),
    (["compare", "-v", "--at-least", "9223372036854775808", "six", "six"], 1, b"", b"nlog: bad number\nnlog: MS 9223372036854775808: it isn't a number of 64 bits\n"),
    (["compare", "-v", "--at-least", "x", "-n", "y", "six", "six"], 1, b"", b"nlog: bad number\nnlog: N y: it isn't a number\n"),
    (["summary", "-v", "-n", "", "seven"], 1, b"", b"nlog: bad number\nnlog: N : it isn't a number\n"),
    (["summary", "-v", "--lines=007", "seven"], 1, b"", b"nlog: bad number\nnlog: N 007: a number has no zero in front\n"),
    (["summary", "-v", "--build", "x", "seven"], 1, b"", b"nlog: bad number\nnlog: BUILD x: it isn't a number\n"),
    (["summary", "-v", "--build=0", "missing"], 1, b"", b"nlog: bad number\nnlog: BUILD 0: it is less than 1\n"),
    (["summary", "-v", "--build=-3", "seven"], 1, b"", b"nlog: bad number\nnlog: BUILD -3: it is less than 1\n"),
    (["summary", "-v", "--build=00", "seven"], 1, b"", b"nlog: bad number\nnlog: BUILD 00: a number has no zero in front\n"),
    (["summary", "-v", "--build=9223372036854775808", "-n1"], 1, b"", b"nlog: bad number\nnlog: BUILD 9223372036854775808: it isn't a number of 64 bits\n"),
    (["summary", "-v", "--build=0", "-n", "x", "seven"], 1, b"", b"nlog: bad number\nnlog: N x: it isn't a number\n"),
    (["summary", "-v", "--lines=-1", "seven"], 1, b"", b"nlog: bad number\nnlog: N -1: it is less than 0\n"),
    (["summary", "-v", "--lines=-0", "seven"], 1, b"", b"nlog: bad number\nnlog: N -0: a number has no zero in front\n"),
    (["summary", "-v", "-n", "9223372036854775808", "seven"], 1, b"", b"nlog: bad number\nnlog: N 9223372036854775808: it isn't a number of 64 bits\n"),
    (["summary", "-v", "--graph", "missing", "folder"], 1, b"", CANNOT_READ + b"nlog: FILE missing: " + NO_FILE),
    (["summary", "-v", "--graph=folder", "file"], 1, b"", CANNOT_READ + b"nlog: FILE folder: " + A_FOLDER),
    (["summary", "-v", "--graph", "file", "missing"], 1, b"", b"nlog: bad line 1\nnlog: FILE file: line 1\n"),
    (["summary", "-v", "--graph=graph", "file"], 1, b"", b"nlog: not the graph of this build\nnlog: FILE graph: no output of the build is in it, or one needs itself\n"),
    (["summary", "-v", "--graph=-", "file"], 1, b"", b"nlog: bad line 1\nnlog: standard input: line 1\n"),
    (["summary", "-v", "--graph", "missing", "-n", "x", "seven"], 1, b"", b"nlog: bad number\nnlog: N x: it isn't a number\n"),
    (["builds", "-v", "folder"], 1, b"", CANNOT_READ + b"nlog: LOG folder: " + A_FOLDER),
    (["builds", "eight", "-v"], 1, b"", OTHER_VERSION + b"nlog: LOG eight: version 8\n"),
    (["builds", "-v"], 0, INPUT_BUILT, b""),
    (["summary", "-v", "folder"], 1, b"", CANNOT_READ + b"nlog: LOG folder: " + A_FOLDER),
    (["summary", "eight", "-v"], 1, b"", OTHER_VERSION + b"nlog: LOG eight: version 8\n"),
    (["trace", "-v", "folder"], 1, b"", CANNOT_READ + b"nlog: LOG folder: " + A_FOLDER),
    (["picture", "-v", "folder"], 1, b"", CANNOT_READ + b"nlog: LOG folder: " + A_FOLDER),
    (["trace", "eight", "-v"], 1, b"", OTHER_VERSION + b"nlog: LOG eight: version 8\n"),
    (["picture", "eight", "-v"], 1, b"", OTHER_VERSION + b"nlog: LOG eight: version 8\n"),
    (["damage", "-v", "folder"], 1, b"", CANNOT_READ + b"nlog: LOG folder: " + A_FOLDER),
    (["hash-file", "-v", "missing"], 1, b"", CANNOT_READ + b"nlog: FILE missing: " + NO_FILE),
    (["replay", "missing", "-v"], 1, b"", CANNOT_READ + b"nlog: SCRIPT missing: " + NO_FILE),
    (["replay", "-v"], 1, b"", b"nlog: bad line 1\nnlog: standard input: line 1: no event begins so\n"),
    (["replay", "file", "-v"], 1, b"", b"nlog: bad line 1\nnlog: SCRIPT file: line 1: no event begins so\n"),
    (["replay", "wrong", "-v"], 1, b"", b"nlog: bad line 2\nnlog: SCRIPT wrong: line 2: the values are wrong, or the line stands where it must not\n"),
    (["replay", "late", "-v"], 1, b"", b"nlog: bad line 3\nnlog: SCRIPT late: line 3: the values are wrong, or the line stands where it must not\n"),
    (["apply", "-v", "none", "missing"], 1, b"", CANNOT_READ + b"nlog: SCRIPT missing: " + NO_FILE),
    (["recompact", "-v", "seven", "missing"], 1, b"", CANNOT_READ + b"nlog: KEEP missing: " + NO_FILE),
    (["recompact", "-v", "seven", "file"], 1, b"", b"nlog: bad line 2\nnlog: KEEP file: line 2: a name has no tab\n"),
    (["restat", "-v", "seven", "folder"], 1, b"", CANNOT_READ + b"nlog: TIMES folder: " + A_FOLDER),
    (["restat", "-v", "six", "file"], 1, b"", b"nlog: bad line 1\nnlog: TIMES file: line 1: there is no tab\n"),
    (["restat", "-v", "six", "/dev/null"], 1, b"", OTHER_VERSION + b"nlog: LOG six: version 6; add --log-version auto\n"),
    # The version is that of LOG, whatever KEEP and TIMES begin with.
    (["recompact", "-v", "seven", "header"], 1, b"", OTHER_VERSION + b"nlog: LOG seven: version 7; add --log-version auto\n"),
    (["recompact", "-v", "eight", "names"], 1, b"", OTHER_VERSION + b"nlog: LOG eight: version 8\n"),
    (["restat", "-v", "six", "pairs"], 1, b"", OTHER_VERSION + b"nlog: LOG six: version 6; add --log-version auto\n"),
    (["show", "-v", "seven"], 1, b"", OTHER_VERSION + b"nlog: LOG seven: version 7; add --log-version auto\n"),
    (["show", "-v", "--log-version", "7", "four"], 1, b"", OTHER_VERSION + b"nlog: LOG four: version 4; add --log-version auto\n"),
    # A version of any length, from a file, from standard input and from the log that is to be changed.
    *[([word, "-v", log, *rest], 1, b"", OTHER_VERSION + b"nlog: LOG %s: version %s\n" % (log.encode(), digits)) for log, digits in LONG_VERSIONS.items() for word, *rest in (["show"], ["damage"], ["record", "1", "2", "3", "n", "c"], ["recompact", "names"])],
    (["record", "-v", "folder", "1", "2", "3", "n", "c"], 1, b"", b"nlog: the folder failed\nnlog: LOG folder: " + A_FOLDER),
    (["record", "-v", "missing/log", "1", "2", "3", "n", "c"], 1, b"", b"nlog: the folder failed\nnlog: LOG missing/log: " + NO_FILE),
    (["record", "-v", "n" * 256, "1", "2", "3", "n", "c"], 1, b"", b"nlog: the folder failed\nnlog: LOG " + b"n" * 256 + b": " + LONG_NAME),
    (["show", "-v", "script"], 1, b"", NO_LOG + b'nlog: LOG script: it begins with "open\\x0a"\n'),
]

# What a log that is missing at first has after each of these commands, one after the other.
OWN = [
    (["record", "own/x", "--", "1", "2", "3", "a", "cc\tx"], HEADER + b"1\t2\t3\ta\t72274e7a30810c7b\n"),
    (["record", "own/x", "--", "-1", "2", "3", "b", "cc\tx"], HEADER + b"1\t2\t3\ta\t72274e7a30810c7b\n-1\t2\t3\tb\t72274e7a30810c7b\n"),
    (["restat", "own/x", "own/times"], HEADER + b"1\t2\t3\ta\t72274e7a30810c7b\n-1\t2\t9\tb\t72274e7a30810c7b\n"),
    (["recompact", "own/x", "own/keep"], HEADER + b"-1\t2\t9\tb\t72274e7a30810c7b\n"),
]

# Those that make a log which is missing.
MADE = [
    ["record", "own/z", "1", "2", "3", "a", "cc\tx"],
    ["recompact", "own/z", "own/keep"],
    ["restat", "own/z", "own/times"],
    ["repair", "--missing-ok", "own/z"],
]

# The same of logs of versions 4 to 7, each asked for by its number or by `auto`: a torn header, a torn line, one of version 4 that stays, and the hash of version 7.
OWN_AS = [
    ("7", ["record", "--", "1", "2", "3", "a", "cc\tx"], None, b"# ninja log v7\n1\t2\t3\ta\t8072fc2ac19230e4\n"),
    ("6", ["record", "--", "1", "2", "3", "a", "cc\tx"], b"# ninja log v6", b"# ninja log v6\n1\t2\t3\ta\t72274e7a30810c7b\n"),
    ("6", ["record", "--", "1", "2", "3", "a", "cc\tx"], b"# nin", b"# ninja log v6\n1\t2\t3\ta\t72274e7a30810c7b\n"),
    ("7", ["restat", "times"], b"# ninja log v7\n1\t2\t3\tb\t4\n5\t6", b"# ninja log v7\n1\t2\t9\tb\t4\n"),
    ("7", ["recompact", "keep"], b"# ninja log v7\n1\t2\t3\tb\t4\n1\t2\t3\tc\t4\n", b"# ninja log v7\n1\t2\t3\tb\t4\n"),
    ("5", ["recompact", "keep"], b"# ninja log v4\n1\t2\t3\tb\tcc\tx\n", b"# ninja log v5\n1\t2\t3\tb\t72274e7a30810c7b\n"),
    ("7", ["recompact", "keep"], b"# ninja log v4\n1\t2\t3\tb\tcc\tx\n", OTHER_VERSION),
    # A repair of a log of 0 to 14 bytes, and of others.
    *[(str(version), ["repair", "--missing-ok"], log, b"# ninja log v%d\n" % version) for version in (5, 6, 7) for log in (None, *(b"# ninja log v"[:size] for size in range(14)), b"# ninja log v%d" % version)],
    *[("auto", ["repair", "--missing-ok"], log, HEADER) for log in (None, b"", b"# ninja log v", b"# ninja log v5")],
    ("auto", ["repair"], b"# ninja log v7", b"# ninja log v7\n"),
    ("7", ["repair"], b"# ninja log v7\n1\t2\t3\tb\t4\n5\t6", b"# ninja log v7\n1\t2\t3\tb\t4\n"),
    ("5", ["repair"], b"# ninja log v4\n1\t2\t3\tb\tcc\tx\n", b"# ninja log v5\n1\t2\t3\tb\t72274e7a30810c7b\n"),
    ("6", ["repair"], b"# ninja log v4\n1\t2\t3\tb\tcc\tx\n", OTHER_VERSION),
    ("7", ["repair"], b"# ninja log v5\n1\t2\t3\tb\t4\n", OTHER_VERSION),
    ("5", ["repair"], b"# ninja log v7\n1\t2\t3\tb\t4\n", OTHER_VERSION),
    ("6", ["restat", "times"], b"# ninja log v4\n1\t2\t3\tb\tcc\tx\n", OTHER_VERSION),
    ("7", ["record", "--", "1", "2", "3", "a", "cc\tx"], b"# ninja log v4\n", OTHER_VERSION),
    ("auto", ["record", "--", "1", "2", "3", "a", "cc\tx"], None, b"# ninja log v5\n1\t2\t3\ta\t72274e7a30810c7b\n"),
    ("auto", ["record", "--", "1", "2", "3", "a", "cc\tx"], b"", b"# ninja log v5\n1\t2\t3\ta\t72274e7a30810c7b\n"),
    ("auto", ["record", "--", "1", "2", "3", "a", "cc\tx"], b"# ninja log v7\n", b"# ninja log v7\n1\t2\t3\ta\t8072fc2ac19230e4\n"),
    ("auto", ["record", "--", "1", "2", "3", "a", "cc\tx"], b"# ninja log v7", b"# ninja log v7\n1\t2\t3\ta\t8072fc2ac19230e4\n"),
    ("auto", ["record", "--", "1", "2", "3", "a", "cc\tx"], b"# ninja log v6\n", b"# ninja log v6\n1\t2\t3\ta\t72274e7a30810c7b\n"),
    ("auto", ["record", "--", "1", "2", "3", "a", "cc\tx"], b"# ninja log v4\n", b"# ninja log v5\n1\t2\t3\ta\t72274e7a30810c7b\n"),
    ("auto", ["record", "--", "1", "2", "3", "a", "cc\tx"], b"# ninja log v8\n", OTHER_VERSION),
    ("auto", ["restat", "times"], b"# ninja log v7\n1\t2\t3\tb\t4\n5\t6", b"# ninja log v7\n1\t2\t9\tb\t4\n"),
    ("auto", ["restat", "times"], b"# ninja log v6\n1\t2\t3\tb\t4\n", b"# ninja log v6\n1\t2\t9\tb\t4\n"),
    ("auto", ["recompact", "keep"], b"# ninja log v7\n1\t2\t3\tb\t4\n1\t2\t3\tc\t4\n", b"# ninja log v7\n1\t2\t3\tb\t4\n"),
    ("auto", ["recompact", "keep"], b"# ninja log v4\n1\t2\t3\tb\tcc\tx\n", b"# ninja log v5\n1\t2\t3\tb\t72274e7a30810c7b\n"),
]


def asked(program, room, words, given=b""):
    return run([program, *words], cwd=room, stdin=None, input=given)


def refused(why):
    """How a command ends, by why it is refused: where that is nothing, it is done."""
    return (1, b"", b"nlog: " + why + b"\n") if why else (0, b"", b"")


def told(log):
    """What more is said of a first line that is refused."""
    line = log[: log.index(b"\n") + 1] if b"\n" in log else log
    version = line[len(b"# ninja log v") : -1] if line.startswith(b"# ninja log v") and line.endswith(b"\n") else b""
    if version.isdigit():
        return b"version " + version + (b"; add --log-version auto" if version in (b"6", b"7") else b"")
    for start, text in LOOKS.items():
        if line.startswith(start):
            return text
    if line.endswith(b"\r\n"):
        return b"its first line ends in a carriage return"
    return b'it begins with "' + b"".join(b"%c" % it if 31 < it < 127 and it not in b'"\\' else b"\\x%02x" % it for it in line[:20]) + b'"'


def try_refused(trials, program, room):
    """First lines that are refused, by each command that reads a log; the file stays as it is."""
    write(f"{room}/keep", b"a\n")
    write(f"{room}/negative", b"-1\ta")
    asking = [["show"], ["check"], ["show", "log"], ["check", "log"], ["record", "log", "1", "2", "3", "a", "c"], ["recompact", "log", "keep"], ["restat", "log", "negative"]]
    auto = [[*words, "--log-version=auto"] for words in asking]
    others = [[word, *log] for log in ([], ["log"]) for word in STREAMED] + [["repair", "log"]]
    for log, why, each in [(*it, asking + auto + others) for it in REFUSED] + [(*it, asking) for it in UNASKED]:
        write(f"{room}/log", log)
        for words in [words for words in each if "log" not in words]:
            trials.want(f"{words} < {log!r}", asked(program, room, words, log), (1, b"", why))
            more = (1, b"", why + b"nlog: standard input: " + told(log) + b"\n")
            trials.want(f"{words} < {log!r}, and more", asked(program, room, [words[0], "-v", *words[1:]], log), more)
        for words in [words for words in each if "log" in words]:
            trials.want(f"{words[0]} of a file, {log!r}", asked(program, room, words), (1, b"", why))
            more = (1, b"", why + b"nlog: LOG log: " + told(log) + b"\n")
            trials.want(f"{words[0]} of a file, {log!r}, and more", asked(program, room, [words[0], "-v", *words[1:]]), more)
            trials.want(f"the file after {words[0]}, {log!r}", read(f"{room}/log"), log)


# What is at a name, its time in nanoseconds if it is a file, and what `doubt` says of it in a log of version 5, where MTIME is the file's own
# time, and in one of 6 or 7, where the file may be less than 8 ms behind the end of the command: of an entry of 0 to 7 ms with MTIME 5,001,000,000.
DOUBTS = [
    (b"older", 5_000_999_999, None, None),
    (b"same", 5_001_000_000, None, None),
    (b"a nanosecond", 5_001_000_001, b"newer", None),
    (b"while it ran", 5_008_000_000, b"newer", None),
    (b"a tick later", 5_015_999_999, b"newer", None),
    (b"-later", 5_016_000_000, b"newer", b"newer"),
    (b"in a folder/much later", 1_700_000_000_000_000_000, b"newer", b"newer"),
    (b"of 1970", 0, None, None),
    (b"of before 1970", -1_000_000_000, None, None),
    (b"no file", None, b"missing", b"missing"),
    (b"same/below a file", None, b"missing", b"missing"),
    (b"a folder", None, b"directory", b"directory"),
    (b"a link to same", None, None, None),
    (b"a link to a folder", None, b"directory", b"directory"),
    (b"a link to nothing", None, b"missing", b"missing"),
    (b"a link to itself", None, b"unknown", b"unknown"),
    (b"n" * 256, None, b"unknown", b"unknown"),
    (b"no UTF-8 \xff", 4_000_000_000, b"unknown", b"unknown"),
]


def try_doubt(trials, program, room):
    """What `doubt` says of files of each kind and time, in the folder in which it runs, and that an entry without a time isn't compared."""
    for name in (b"in a folder", b"a folder"):
        os.mkdir(os.path.join(os.fsencode(room), name))
    for name, time, _, _ in DOUBTS:
        path = os.path.join(os.fsencode(room), name)
        if time is not None:
            write(path, b"")
            os.utime(path, ns=(time, time))
        elif name.startswith(b"a link to "):
            target = {b"nothing": b"none", b"itself": name, b"a folder": b"a folder", b"same": b"same"}[name[10:]]
            os.symlink(target, path)
    for version in (5, 6, 7):
        lines = b"".join(b"0\t7\t5001000000\t%s\tff\n" % name for name, *_ in DOUBTS)
        write(f"{room}/doubts", as_version(HEADER + b"0\t7\t5001000000\tolder\tff\n" + lines, version))
        wanted = b"".join(b"%s\t%s\n" % (why, name) for name, why in ((it[0], it[2 if version == 5 else 3]) for it in DOUBTS) if why)
        trials.want(f"doubt of a log of version {version}", asked(program, room, ["doubt", "doubts"]), (3, wanted, b""))
        write(f"{room}/doubts", as_version(HEADER + b"0\t7\t5001000000\tsame\tff\n0\t7\t5001000000\ta link to same\tff\n", version))
        trials.want(f"doubt of none, version {version}", asked(program, room, ["doubt", "doubts"]), (0, b"", b""))
        write(f"{room}/doubts", as_version(HEADER + b"0\t7\t0\tsame\tff\n0\t7\t0\tno file\tff\n", version))
        trials.want(f"doubt without a time, version {version}", asked(program, room, ["doubt", "doubts"]), (3, b"no-time\tsame\nmissing\tno file\n", b""))
        # Ninja counts a file of the first second of 1970 as one of 1 ns, since 0 stands for none.
        write(f"{room}/doubts", as_version(HEADER + b"0\t0\t1\tof 1970\tff\n", version))
        trials.want(f"doubt of a file of 1970, version {version}", asked(program, room, ["doubt", "doubts"]), (0, b"", b""))
        # One command of a second alone doesn't tell when it started: its file is as it left it if it was written as it ended.
        write(f"{room}/doubts", as_version(HEADER + b"".join(b"0\t%d\t5001000000\t%s\tff\n" % it for it in ((1000, b"same"), (1000, b"a tick later"))), version))
        wanted = b"newer\ta tick later\n" if version == 5 else b"unsure\ta tick later\n"
        trials.want(f"doubt of a long command alone, version {version}", asked(program, room, ["doubt", "doubts"]), (3, wanted, b""))
        write(f"{room}/doubts", as_version(HEADER + b"".join(b"0\t%d\t5001000000\t%s\tff\n" % it for it in ((7, b"same"), (1000, b"a tick later"))), version))
        wanted = (3, b"newer\ta tick later\n", b"") if version == 5 else (0, b"", b"")
        trials.want(f"doubt of a long command beside a short one, version {version}", asked(program, room, ["doubt", "doubts"]), wanted)
    write(f"{room}/doubts", HEADER + b"0\t0\t-1\tof 1970\tff\n")
    trials.want("doubt of a file of 1970 behind a time of before", asked(program, room, ["doubt", "doubts"]), (3, b"newer\tof 1970\n", b""))
    try_settling(trials, program, room)


# Entries of version 5, of a file that is as old as its entry, of a newer one, of none, of a folder, of an intent and of one without a time; and each
# with an intent over it: the end twice, the time 0, and the complement of the hash, by hand.
MENDS = {
    "old": (b"0\t7\t5000000000\told\ta1\n", b"7\t7\t0\told\tffffffffffffff5e\n"),
    "new": (b"0\t9\t5000000000\tnew\tb2\n", b"9\t9\t0\tnew\tffffffffffffff4d\n"),
    "gone": (b"3\t4\t5000000000\tgone\tc3\n", b"4\t4\t0\tgone\tffffffffffffff3c\n"),
    "folder": (b"-5\t-2\t5000000000\tfolder\t0\n", b"-2\t-2\t0\tfolder\tffffffffffffffff\n"),
    "intent": (b"2\t2\t0\tintent\te5\n", b"2\t2\t0\tintent\te5\n"),
    "timeless": (b"2\t3\t0\ttimeless\tffffffffffffffff\n", b"3\t3\t0\ttimeless\t0\n"),
}
ELSEWHERE = b"nlog: most outputs of LOG aren't here\nnlog: run it in the folder of the build, or name that to mend by -C\n"


def mends(intents, names="old new gone folder intent timeless"):
    """The lines of these entries, with an intent over each of some."""
    return HEADER + b"".join(MENDS[it][it in intents.split()] for it in names.split())


# What `mend` prints of a log, with which status, and the log that it leaves.
MEND_ROWS = [
    ([], mends(""), 3, b"newer\tnew\nunsure\tfolder\nunsure\ttimeless\n", mends("new")),
    (["--dry-run"], mends(""), 3, b"newer\tnew\nunsure\tfolder\nunsure\ttimeless\n", mends("")),
    (["--all"], mends(""), 3, b"newer\tnew\nunsure\tfolder\nunsure\ttimeless\n", mends("new folder timeless")),
    (["--all", "--dry-run"], mends(""), 3, b"newer\tnew\nunsure\tfolder\nunsure\ttimeless\n", mends("")),
    ([], mends("new"), 3, b"unsure\tfolder\nunsure\ttimeless\n", mends("new")),
    (["--all"], mends("new folder timeless"), 0, b"", mends("new folder timeless")),
    ([], mends("", "old"), 0, b"", mends("", "old")),
    # A torn line that names an output, one that doesn't, and one that names no output whole.
    ([], mends("", "old") + b"3\t4\t9\told\tb", 3, b"damaged\told\n", mends("old", "old")),
    ([], mends("", "old gone") + b"3\t4\t9\tgone", 3, b"damaged\tgone\n", mends("gone", "old gone")),
    ([], mends("", "old") + b"3\t4\t9\tol", 0, b"", mends("", "old")),
    ([], mends("", "old") + b"3\t4", 0, b"", mends("", "old")),
    (["--dry-run"], mends("", "old") + b"3\t4\t9\told\tb", 3, b"damaged\told\n", mends("", "old") + b"3\t4\t9\told\tb"),
    (["--dry-run"], mends("", "old") + b"3\t4", 0, b"", mends("", "old") + b"3\t4"),
    # A damaged line behind which its output has an entry, and one of an intent.
    ([], HEADER + b"x\ty\tz\told\tb\n" + MENDS["old"][0], 0, b"", mends("", "old")),
    ([], mends("", "old intent") + b"3\t4\t9\tintent\tb", 0, b"", mends("", "old intent")),
    # Two lines joined, and zero bytes.
    ([], mends("", "old gone") + b"3\t4\t9\told\tb3\t4\t9\tgone\tc3\n", 3, b"damaged\told\ndamaged\tgone\n", mends("old gone", "old gone")),
    ([], mends("", "old") + b"3\t4\t9\told\0\0\0\0", 3, b"damaged\told\n", mends("old", "old")),
    # The last entry of an output counts. A whole log that has older ones stays as it is.
    ([], mends("", "old new old"), 3, b"newer\tnew\n", mends("new", "old new")),
    ([], mends("", "old old"), 0, b"", mends("", "old old")),
    ([], HEADER, 0, b"", HEADER),
    ([], b"", 0, b"", b""),
    ([], HEADER[:9], 0, b"", HEADER),
    (["--all"], b"# ninja log v4\n0\t7\t5000000000\tnew\tcc\tx\n", 3, b"newer\tnew\n", HEADER + b"7\t7\t0\tnew\t8dd8b185cf7ef384\n"),
]


def try_mend(trials, program, room):
    """What `mend` prints, its status, and the log that it leaves; where LOG and the outputs are; what is refused."""
    here, other = f"{room}/mended", f"{room}/mended elsewhere"
    os.makedirs(f"{here}/folder")
    os.makedirs(other)
    for name, time in (("old", 5), ("new", 100), ("intent", 100), ("timeless", 100)):
        write(f"{here}/{name}", b"")
        os.utime(f"{here}/{name}", (time, time))
    log = f"{here}/.ninja_log"
    for version in (5, 6, 7):
        for words, text, status, out, left in MEND_ROWS:
            if version > 5 and (text.startswith(b"# ninja log v4") or len(text) < len(HEADER)):
                continue
            # By each way to say where LOG and its outputs are.
            for way, folder in (([], here), (["-C", here], other), ([".ninja_log"], here), ([log, "-C", "../mended"], other), (["-C", "mended", "mended/.ninja_log"], room)):
                write(log, as_version(text, version))
                what = f"mend {words + way}, version {version}, {text!r}"
                trials.want(what, run([program, "mend", *words, *way], cwd=folder), (status, out, b""))
                trials.want(f"{what}: the log", read(log), as_version(left, version))
    trials.want("mend leaves no other file", sorted(os.listdir(here)), [".ninja_log", "folder", "intent", "new", "old", "timeless"])
    # A whole log that needs nothing isn't written.
    write(log, mends("", "old"))
    was = os.stat(log)
    run([program, "mend"], cwd=here)
    trials.want("mend of a log that is well: its file", (os.stat(log).st_ino, os.stat(log).st_mtime_ns), (was.st_ino, was.st_mtime_ns))
    # In another folder.
    for text in (mends(""), mends("", "old") + b"3\t4\t9\told\tb", mends("", "gone")):
        write(log, text)
        for words in ([log], [log, "--all"], [log, "--dry-run"], [log, "-v"], [log, "-C", other]):
            trials.want(f"mend {words} elsewhere, {text!r}", run([program, "mend", *words], cwd=other), (1, b"", ELSEWHERE))
            trials.want(f"mend {words} elsewhere, {text!r}: the log", read(log), text)
    # Where few of the outputs are.
    for count in (9, 10, 19, 20):
        write(log, mends("", "old") + b"".join(b"0\t1\t2\tout%d\ta\n" % it for it in range(count - 1)))
        said = b"nlog: LOG .ninja_log: 1 of %d outputs are here\n" % count if count > 19 else b""
        trials.want(f"mend, where one of {count} outputs is", run([program, "mend"], cwd=here), (0, b"", said))
    for name, words, wanted in (
        ("a missing log", ["none"], (0, b"", b"")),
        ("a missing log, and more", ["-v", "none"], (0, b"", b"nlog: LOG none: it is missing, and was read as empty\n")),
        ("a missing log in a folder, and more", ["-v", "-C", "folder"], (0, b"", b"nlog: LOG folder/.ninja_log: it is missing, and was read as empty\n")),
        ("a missing folder", ["-C", "none"], (1, b"", CANNOT_READ)),
        ("a missing folder, and more", ["-v", "-C", "none"], (1, b"", CANNOT_READ + b"nlog: folder none: " + NO_FILE)),
        ("an empty folder's name", ["-C", ""], (1, b"", CANNOT_READ)),
        ("a folder as LOG", ["-v", "folder"], (1, b"", b"nlog: the folder failed\nnlog: LOG folder: " + A_FOLDER)),
        ("no log", ["../no log"], (1, b"", NO_LOG)),
        ("no log, and more", ["../no log", "-v"], (1, b"", NO_LOG + b'nlog: LOG ../no log: it begins with "hello\\x0a"\n')),
        ("another version", ["../eight log", "-v"], (1, b"", OTHER_VERSION + b"nlog: LOG ../eight log: version 8\n")),
    ):
        write(f"{room}/no log", b"hello\n")
        write(f"{room}/eight log", b"# ninja log v8\n")
        trials.want(f"mend of {name}", run([program, "mend", *words], cwd=here), wanted)
    trials.want("mend makes no log", os.path.exists(f"{here}/none"), False)
    # The names as they are, and a name that begins with `/`.
    odd = [b"no UTF-8 \xff", b"two words", os.fsencode(f"{here}/old"), b"old/below"]
    write(f"{here}/two words", b"")
    write(log, HEADER + b"".join(b"0\t1\t5000000000\t%s\ta\n" % it for it in odd))
    trials.want("mend of odd names", run([program, "mend", "-C", here], cwd=other), (3, b"unsure\t%s\nnewer\ttwo words\n" % odd[0], b""))
    left = HEADER + b"".join((b"1\t1\t0\t%s\tfffffffffffffff5\n" if it == b"two words" else b"0\t1\t5000000000\t%s\ta\n") % it for it in odd)
    trials.want("mend of odd names: the log", read(log), left)


# What stands in TARGETS of `prune`, and how it is refused, or the names that it keeps of `a`, `b: c`, ` led`, `x.o`, whose files aren't there.
MANIFESTS = [
    (b"a: cc\n", [b"a"]),
    (b"a: cc", [b"a"]),
    (b"a: phony\n\nx.o: cc_1.2-b\n", [b"a", b"x.o"]),
    (b"b: c: phony\n led: cc\n", [b"b: c", b" led"]),
    (b"other: cc\n", []),
    (b"a: \n", [b"a"]),
    (b"", b"1: there is no target"),
    (b"\n\n", b"1: there is no target"),
    (b"a: cc\nb\n", b"2: no target, colon, space and rule"),
    (b"a: cc\n\na:cc\n", b"3: no target, colon, space and rule"),
    (b"a : cc d\n", b"1: no target, colon, space and rule"),
    (b": cc\n", b"1: the name is empty"),
    (b"a\tb: cc\n", b"1: a name has no tab"),
    (b"a\0b: cc\n", b"1: a name has no zero byte"),
    (b"a" * 65_537 + b": cc\n", b"1: a name has at most 65536 bytes"),
    (b"x.o: cc\n" + b"a" * 262_140 + b": cc\n", b"2: a line has at most 262143 bytes"),
]


def try_settling(trials, program, room):
    """`prune` and `retime`: by files of each kind, by TARGETS, and what stops them. The files are those of try_doubt."""
    lines = {name: b"0\t7\t9\t%s\tff\n" % name for name, *_ in DOUBTS}
    for version in (5, 6, 7):
        # What has no file stays if it is a target.
        text = HEADER + b"0\t7\t9\tmade: here\tff\n" + b"".join(lines.values())
        kept = HEADER + b"0\t7\t9\tmade: here\tff\n" + b"".join(it for name, it in lines.items() if (name, b"missing") not in [(row[0], row[2]) for row in DOUBTS])
        for words, given in ((["log", "targets"], b""), (["--", "log", "targets"], b""), (["log", "--log-version", "auto"], b"made: here: cc\n")):
            write(f"{room}/log", as_version(text, version))
            write(f"{room}/targets", b"made: here: cc\nunknown: phony\n")
            trials.want(f"prune {words}: of version {version}", asked(program, room, ["prune", *words], given), (0, b"", b""))
            trials.want(f"prune {words}: the log of version {version}", read(f"{room}/log"), as_version(kept, version))
        times = {name: time or 1 for name, time, *_ in DOUBTS if time is not None and b"\xff" not in name and time >= 0}
        times[b"a link to same"] = times[b"same"]
        left = {name: it for name, it in lines.items() if name != b"of before 1970"}
        write(f"{room}/log", as_version(HEADER + b"".join(left.values()), version))
        trials.want(f"retime: of version {version}", asked(program, room, ["retime", "log"]), (0, b"", b""))
        wanted = HEADER + b"".join(b"0\t7\t%d\t%s\tff\n" % (times.get(name, 9), name) for name in left)
        trials.want(f"retime: the log of version {version}", read(f"{room}/log"), as_version(wanted, version))
    # With a time stamp a command would pass for an intent, so that the output of one that never ended is never made again.
    intents = b"5\t5\t0\tsame\tff\n0\t7\t9\tno file\tff\n"
    write(f"{room}/log", HEADER + b"0\t7\t9\tsame\tff\n" + intents)
    trials.want("retime: an intent", (asked(program, room, ["retime", "log"]), read(f"{room}/log")), ((0, b"", b""), HEADER + intents))
    # A log that isn't due, and ones that an open would write anew: due, and of version 4.
    last = b"0\t7\t9\tsame\tff\n0\t7\t9\tno file\tff\n0\t7\t9\tof before 1970\tff\n"
    for text in (HEADER + last, HEADER + last * 40, b"# ninja log v4\n" + last):
        for words in ([], ["--log-version", "5"]):
            write(f"{room}/log", text)
            was, what = os.stat(f"{room}/log").st_ino, f"retime {words}: of before 1970, {len(text)} bytes"
            trials.want(what, asked(program, room, ["retime", "-v", "log", *words]), (1, b"", b"nlog: negative time at pair 1\nnlog: LOG log: the file of output \"of before 1970\" is from before 1970\n"))
            trials.want(f"{what}: the log", (read(f"{room}/log"), os.stat(f"{room}/log").st_ino), (text, was))
    try_manifests(trials, program, room)
    try_settling_stops(trials, program, room)


def try_manifests(trials, program, room):
    names, there = [b"a", b"b: c", b" led", b"x.o"], [b"here %d" % it for it in range(4)]
    for name in there:
        write(f"{room}/{name.decode()}", b"")
    log = HEADER + b"".join(b"1\t2\t3\t%s\tff\n" % it for it in [*names, *there])
    for text, wanted in MANIFESTS:
        for values, place in ((["lines"], b"TARGETS lines"), ([], b"standard input")):
            what = f"prune {values} of {text[:30]}"
            write(f"{room}/log", log)
            write(f"{room}/lines", text)
            end = asked(program, room, ["prune", "-v", "log", *values], text)
            if isinstance(wanted, list):
                trials.want(what, end, (0, b"", b""))
                trials.want(f"{what}: the log", read(f"{room}/log"), HEADER + b"".join(b"1\t2\t3\t%s\tff\n" % it for it in [*names, *there] if it in [*wanted, *there]))
            else:
                said = b"nlog: bad line %s\nnlog: %s: line %s\n" % (wanted.split(b":")[0], place, wanted)
                trials.want(what, end, (1, b"", said))
                trials.want(f"{what}: the log", read(f"{room}/log"), log)
    # Of four outputs two may go, and not three, as they would in the folder of another build.
    for targets, is_kept in ((b"a: cc\nx.o: cc\n", True), (b"a: cc\nunknown: cc\n", False), (b"unknown: cc\n", False)):
        log = HEADER + b"".join(b"1\t2\t3\t%s\tff\n" % it for it in names)
        write(f"{room}/log", log)
        trials.want(f"prune by {targets}, without a file", asked(program, room, ["prune", "log"], targets), (0, b"", b"") if is_kept else (1, b"", ELSEWHERE))
        left = HEADER + b"".join(b"1\t2\t3\t%s\tff\n" % it for it in (b"a", b"x.o")) if is_kept else log
        trials.want(f"prune by {targets}, without a file: the log", read(f"{room}/log"), left)
    write(f"{room}/log", HEADER)
    trials.want("prune without an output", asked(program, room, ["prune", "log"], b"a: cc\n"), (0, b"", b""))


def try_settling_stops(trials, program, room):
    """What ends the two words, what more is said of it, and that LOG is then as it was."""
    write(f"{room}/one", b"a: cc\n")
    torn = HEADER + b"1\t2\t3\ta\tff\nx\n1\t2\t3\tb"
    found = (3, b"3\tskipped\t1\t-\t-\n4\ttorn\t7\t-\t-\n", b"")
    begins = b'nlog: LOG log: it begins with "hello"\n'
    rows = [(torn, found), (b"hello", (1, b"", NO_LOG + begins)), (b"# ninja log v8\n", (1, b"", OTHER_VERSION + b"nlog: LOG log: version 8\n"))]
    rows.append((None, (1, b"", CANNOT_READ + b"nlog: LOG log: " + NO_FILE)))
    for text, wanted in rows:
        for words in (["prune", "log", "one"], ["retime", "log"]):
            if os.path.exists(f"{room}/log"):
                os.remove(f"{room}/log")
            if text is not None:
                write(f"{room}/log", text)
            trials.want(f"{words} on {text!r}", asked(program, room, [*words, "-v"]), wanted)
            trials.want(f"{words} on {text!r}: the log", read(f"{room}/log"), text)
            trials.check(f"{words} on {text!r}: no scratch", not os.path.exists(f"{room}/log.recompact"))
    # A log of another version than the one that is asked for is refused before damage is told of it, and so is what is no log.
    for version, others in ((4, (6, 7)), (5, (6, 7)), (6, (5, 7)), (7, (5, 6))):
        for asked_for in others:
            for words in (["prune", "log", "one"], ["retime", "log"]):
                for damage in (b"", b"x\n1\t2\t3\tb"):
                    text = b"# ninja log v%d\n1\t2\t3\ta\tff\n" % version + damage
                    write(f"{room}/log", text)
                    what = f"{words} of version {asked_for} on {text!r}"
                    status, out, err = asked(program, room, [*words, "-v", "--log-version", str(asked_for)])
                    trials.want(what, (status, out, err.splitlines()[:1]), (1, b"", OTHER_VERSION.splitlines()))
                    trials.check(f"{what}: the version", b"nlog: LOG log: version %d" % version in err, repr(err))
                    trials.want(f"{what}: the log", read(f"{room}/log"), text)
    for words in (["prune", "log", "one"], ["retime", "log"]):
        for version in ("5", "6", "7"):
            write(f"{room}/log", b"hello")
            trials.want(f"{words} of version {version} on no log", asked(program, room, [*words, "-v", "--log-version", version]), (1, b"", NO_LOG + begins))
            write(f"{room}/log", as_version(torn, int(version)))
            trials.want(f"{words} of version {version} on damage", asked(program, room, [*words, "-v", "--log-version", version]), found)
            os.remove(f"{room}/log")
            trials.want(f"{words} of version {version} without a log", asked(program, room, [*words, "-v", "--log-version", version]), (1, b"", CANNOT_READ + b"nlog: LOG log: " + NO_FILE))
    write(f"{room}/log", HEADER)
    rows = [
        (["prune", "log", "missing"], (1, b"", CANNOT_READ + b"nlog: TARGETS missing: " + NO_FILE)),
        (["prune", "log", "-"], (1, b"", CANNOT_READ + b"nlog: TARGETS -: " + NO_FILE)),
        (["prune", "log", "a folder"], (1, b"", CANNOT_READ + b"nlog: TARGETS a folder: " + A_FOLDER)),
        (["prune", "a folder", "one"], (1, b"", FOLDER_FAILED + b"nlog: LOG a folder: " + A_FOLDER)),
        (["retime", "a folder"], (1, b"", FOLDER_FAILED + b"nlog: LOG a folder: " + A_FOLDER)),
        (["retime", "--", "--files"], (1, b"", CANNOT_READ + b"nlog: LOG --files: " + NO_FILE)),
        # What is asked for first is refused first.
        (["prune", "missing", "missing"], (1, b"", CANNOT_READ + b"nlog: TARGETS missing: " + NO_FILE)),
    ]
    for words, wanted in rows:
        trials.want(f"{words}", asked(program, room, [words[0], "-v", *words[1:]]), wanted)
    trials.want("the log behind them", read(f"{room}/log"), HEADER)
    wrong = [["prune"], ["prune", "log", "one", "two"], ["prune", "log", "one", "--log-version", "8"], ["prune", "log", "--missing-ok"]]
    wrong += [["retime"], ["retime", "log", "one"], ["retime", "log", "--log-version", "8"], ["recompact", "log", "--manifest", "one"], ["restat", "log", "--files"]]
    for words in wrong:
        status, out, err = asked(program, room, words)
        trials.want(f"{words}: wrong words", (status, out, err[:7]), (2, b"", b"error: "))


def try_changes(trials, program, room):
    """The commands that change a log, by their words and by KEEP and TIMES, and what a bad one leaves."""
    for start, end, mtime, name, why, more in BAD_WORDS:
        what = f"record of {start!r} {end!r} {mtime!r} {name[:9]!r}"
        trials.want(what, asked(program, room, ["record", "--", "none", start, end, mtime, name, "c"]), refused(why))
        trials.want(f"{what}, and more", asked(program, room, ["record", "-v", "--", "none", start, end, mtime, name, "c"]), refused(why + b"\nnlog: " + more))
        trials.want(f"{what}: the log", read(f"{room}/none"), None)
    for place, (log, left) in enumerate(RECORDS):
        file = f"record{place}"
        write(f"{room}/{file}", log)
        what = f"record after {log!r}"
        trials.want(what, asked(program, room, ["record", file, "4", "5", "6", "out", "cc\tx"]), refused(b""))
        trials.want(f"{what}: the log", read(f"{room}/{file}"), left)
    for command, rows in (("recompact", KEEPS), ("restat", TIMES)):
        for text, why, left, *more in rows:
            what = f"{command} by {text[:40]!r}"
            write(f"{room}/log", LOG)
            write(f"{room}/file", text)
            for it in more:
                said = why + b"\nnlog: " + (b"KEEP" if command == "recompact" else b"TIMES") + b" file: " + it
                trials.want(f"{what}, and more", asked(program, room, [command, "-v", "log", "file"]), refused(said))
                write(f"{room}/log", LOG)
            trials.want(what, asked(program, room, [command, "log", "file"]), refused(why))
            trials.want(f"{what}: the log", read(f"{room}/log"), left)
            trials.want(f"{what}: the file", read(f"{room}/file"), text)
        # The file of names or times is refused before the log, one that is missing or locked too.
        write(f"{room}/log", b"hello")
        write(f"{room}/file", b"\n\t\n")
        with open(f"{room}/log", "rb") as held:
            fcntl.flock(held, fcntl.LOCK_EX)
            for log, version in itertools.product(("log", "none"), ([], ["--log-version=7"], ["--log-version=auto"])):
                for file, why in (("missing", b"cannot read"), ("file", b"bad line 2")):
                    what = f"{command} {version} {log} {file}"
                    trials.want(what, asked(program, room, [command, *version, log, file]), refused(why))
                    trials.want(f"{what}: the log that was missing", os.path.exists(f"{room}/none"), False)
        trials.want(f"{command}: the file that is no log", read(f"{room}/log"), b"hello")


def try_through(trials, program, room):
    """The commands that go through a log, and what a repair leaves of it; a second one changes nothing."""
    for (log, entries, damage, left), version in itertools.product(THROUGH, (5, 6, 7)):
        if version > 5 and as_version(log, version) == log:
            continue
        log, left = as_version(log, version), as_version(left, version)
        what = f"{log[:40]!r} of {len(log)} bytes"
        write(f"{room}/log", log)
        for given, end in (([], log), (["log"], b"")):
            trials.want(f"entries {given} of {what}", asked(program, room, ["entries", *given], end), (0, entries, b""))
            status = 3 if damage else 0
            trials.want(f"damage {given} of {what}", asked(program, room, ["damage", *given], end), (status, damage, b""))
        trials.want(f"the log, {what}", read(f"{room}/log"), log)
        for turn in ("first", "second"):
            trials.want(f"the {turn} repair of {what}", asked(program, room, ["repair", "log"]), (0, b"", b""))
            trials.want(f"the {turn} repair of {what}: the log", read(f"{room}/log"), left)
        trials.want(f"damage after it, {what}", asked(program, room, ["damage", "log"]), (0, b"", b""))
        trials.want(f"show of the entries, {what}", asked(program, room, ["show"], HEADER + entries)[1], left[len(HEADER) :])
        # `apply` opens what was left, and leaves it so.
        answers = b"ok\n" + left[len(HEADER) :] + b"end\n"
        trials.want(f"apply after it, {what}", asked(program, room, ["apply", "log"], b"open\ntable\n"), (0, answers, b""))
        trials.want(f"the log after it, {what}", read(f"{room}/log"), left)
    trials.want("repair of a log that is missing", asked(program, room, ["repair", "none"]), (1, b"", CANNOT_READ))
    trials.want("repair of a log that is missing: no log", read(f"{room}/none"), None)
    trials.want("repair of a log that may be missing", asked(program, room, ["repair", "--missing-ok", "none"]), (0, b"", b""))
    trials.want("repair of a log that is missing: the log", read(f"{room}/none"), HEADER)
    for command, wanted in HASHES:
        trials.want(f"hash-file of {command!r}", asked(program, room, ["hash-file"], command.encode()), (0, wanted, b""))


def try_words(trials, program, room):
    os.mkdir(f"{room}/folder")
    write(f"{room}/file", FILE)
    write(f"{room}/-file", FILE)
    write(f"{room}/six", SIX)
    write(f"{room}/seven", SEVEN)
    write(f"{room}/nested", NESTED)
    write(f"{room}/anew", ANEW)
    write(f"{room}/graph", GRAPH)
    write(f"{room}/four", FOUR)
    write(f"{room}/eight", b"# ninja log v8\n")
    write(f"{room}/header", b"# ninja log v9\n")
    for name, digits in LONG_VERSIONS.items():
        write(f"{room}/{name}", b"# ninja log v" + digits + b"\n1\t2\t3\ta\ta\n")
    write(f"{room}/names", b"b\nc\n")
    write(f"{room}/pairs", b"9\tb\n")
    write(f"{room}/script", b"open\nopen")
    write(f"{room}/wrong", b"open\nrecord\t1\n")
    write(f"{room}/late", b"open\n\nwrites\t1\nfrob")
    write(f"{room}/asks", b"open\nget\tfile\nget\tinput\ntable\n")
    before = sorted(os.listdir(room))
    for words, status, out, err in WORDS:
        trials.want(f"{words}", asked(program, room, words, INPUT), (status, out, err))
        trials.want(f"{words}: the file", read(f"{room}/file"), FILE)
    # `apply` makes a log that is missing, to lock it.
    trials.want("the files that are there", sorted(os.listdir(room)), sorted([*before, "none"]))
    for command, wanted in HASHES:
        trials.want(f"hash {command!r}", asked(program, room, ["hash", command]), (0, wanted, b""))


def try_own(trials, program, room):
    """The commands that change a log leave its file and no other."""
    os.mkdir(f"{room}/own")
    write(f"{room}/own/keep", b"b\n")
    write(f"{room}/own/times", b"9\tb\n")
    for words, left in OWN:
        trials.want(f"{words}", asked(program, room, words, INPUT), (0, b"", b""))
        trials.want(f"{words}: the log", read(f"{room}/own/x"), left)
        trials.want(f"{words}: the files", sorted(os.listdir(f"{room}/own")), ["keep", "times", "x"])
    # With `--verbose` each says of a log that was missing that it was, and then no more.
    for word, *values in MADE:
        words = [word, "-v", *values]
        ended = asked(program, room, words, INPUT)
        trials.want(f"{words} of a missing log", ended, (0, b"", b"nlog: LOG own/z" + IS_MISSING))
        trials.want(f"{words}: the log that was made", (read(f"{room}/own/z") or b"").startswith(HEADER), True)
        trials.want(f"{words} again", asked(program, room, words, INPUT), (0, b"", b""))
        os.remove(f"{room}/own/z")
    trials.want("KEEP and TIMES", (read(f"{room}/own/keep"), read(f"{room}/own/times")), (b"b\n", b"9\tb\n"))
    for version, (word, *values), log, left in OWN_AS:
        write(f"{room}/own/y", log)
        what = f"{word} of {log!r} for version {version}"
        values = [f"own/{it}" if it in ("keep", "times") else it for it in values]
        flags = [it for it in values if it == "--missing-ok"]
        ended = asked(program, room, [word, *flags, "--log-version", version, "own/y", *(it for it in values if it not in flags)], INPUT)
        is_refused = left == OTHER_VERSION
        trials.want(what, ended, (1, b"", OTHER_VERSION) if is_refused else (0, b"", b""))
        trials.want(f"{what}: the log", read(f"{room}/own/y"), log if is_refused else left)
        os.remove(f"{room}/own/y")
    trials.want("the files of each version", sorted(os.listdir(f"{room}/own")), ["keep", "times", "x"])


def trial(trials, program, room):
    for part in (try_refused, try_doubt, try_mend, try_changes, try_through, try_words, try_own):
        folder = f"{room}/{part.__name__}"
        os.mkdir(folder)
        part(trials, program, folder)
        shutil.rmtree(folder)


if __name__ == "__main__":
    sys.exit(main(__file__, trial))
