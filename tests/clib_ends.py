"""How the calls of the library end where something is missing, fails, or is as large as it may be: for clib.py.

What a failing call leaves open and locked is held to the states of the writer by clib_steps.py, in each trial whose driver writes its calls down.
"""
import os

from clib_driver import A, B, D, FIND, LONG, RECORD, answers_of, asked, drivers, hexed, opened_warily
from clib_systems import begun
from log_format import HEADER, Log, line_of
from trials import is_within, read, run, write

TORN = HEADER + A + B + b"7\t8\t9\ta\tc"


def files_that_fail(trials, made, room):
    """After a rename that fails, or a log that ends early while it is copied, the log is as it was, and the next open goes on."""
    log = f"{room}/ends"
    for begin in (["open"], ["shared", "open"], ["look"]):
        write(log, HEADER + A + B)
        driver = ["strace", "-o", f"{room}/TRACE", "-e", "inject=renameat:error=EIO:when=1", made.get("steps", made["C11"])]
        said = asked(driver, "write", log, 0, [*begin, f"dead {hexed(b'a')}", "recompact", RECORD, "close", "open", "count", "recompact", "count", "close"])[1]
        trials.want(f"a rename that fails, behind {begin}", said[len(begin):], ["OK", "FAULT EIO rename scratch", "BROKEN", "BROKEN", "OK", "OK 2", "OK", "OK 2", "OK"])
        trials.want("the log then", read(log), HEADER + A + B)
        os.path.exists(f"{log}.recompact") and os.remove(f"{log}.recompact")
    # The sync of the log fails in the first open, so the second one copies it; there the file ends early.
    write(log, HEADER + A + B)
    driver = ["strace", "-o", f"{room}/TRACE", "-P", log, "-e", "inject=fsync:error=EIO:when=1", "-e", "inject=pread64:retval=0:when=5", made.get("steps", made["C11"])]
    said = asked(driver, "write", log, 0, ["open", "open", "open", "rewrote", "count", "close"])[1]
    trials.want("a log that ends early while it is copied", said, ["FAULT EIO fsync log", "FAULT ESTALE pread log", "OK", "OK 1", "OK 2", "OK"])
    trials.want("the log then", read(log), HEADER + A + B)


def widths(trials, made, room):
    """Edges whose lines have the widest numbers, just as long as the buffer is, and longer: under AddressSanitizer too."""
    log, entry = f"{room}/widths", (-2**31, -2**31, -2**63, 2**64 - 1)
    words = "%d %d %d %x" % entry
    for count, last in ((4, 0), (5, 0), (5, 1), (6, 3), (12, 0)):
        names = [b"%02d" % i + LONG[2:] for i in range(count)] + [b"x" * last] * (last > 0)
        for way, driver in drivers(made):
            write(log, HEADER)
            said = asked(driver, "write", log, 0, ["open", f"edge {words} {hexed(*names)}", "count", "close"])
            trials.want(f"{way}: an edge of {count} long names and {last} bytes", said, (0, ["OK", "OK", f"OK {len(names)}", "OK"], b""))
            trials.want("the log then", read(log), HEADER + b"".join(line_of(it, entry) for it in names))


def devices(trials, made, room):
    """A file of another device with the number and the times of the log's: it is another."""
    if "timeless" not in made:
        return
    log, late = f"{room}/devices", b"".join(line_of(b"late%d" % i, (i, i, i, i)) for i in range(200))
    write(log, HEADER + A + late)
    said = asked([made["timeless"]], "write", log, 0, ["open", RECORD, "device", "sync", "close"])[1]
    trials.want("a log that is of another device by its next sync", said, ["OK", "OK", "OK", "FAULT ESTALE stat log", "BROKEN"])
    write(log, HEADER + A + late)
    writer = begun([made["timeless"]], log)
    trials.want("a look", [answers_of(writer, it) for it in ("look", FIND)], ["OK", "OK 1 2 3 aa"])
    with open(log, "r+b") as it:
        it.write(HEADER + A.replace(b"3", b"4"))
    said = [answers_of(writer, it) for it in ("device", f"record 4 5 6 bb {hexed(b'b')}", FIND, "close")]
    writer.communicate()
    trials.want("a log that is of another device by its first change is read anew", said, ["OK", "OK", "OK 1 2 4 aa", "OK"])


def distrusted(trials, made, room):
    """Memory that is refused where distrusted outputs are marked, and where a file is loaded with them: nothing is passed over, and nothing leaks."""
    if "refused" not in made:
        return
    path, refused = f"{room}/distrusted", 0
    many = HEADER + b"".join(line_of(b"out%d" % i, (i, i, i, i)) for i in range(40)) + b"".join(b"x\t1\t2\tout%d\tout%d\t5\n" % (i, i) for i in range(40))
    for text in (TORN, many):
        kept = Log(opened_warily(text, 0)[2]).table
        for word in ("open", "look"):
            for at in range(300):
                write(path, text)
                ended, out, err = run([made["refused"], "refuse-call", path, str(at), "2"], input=f"wary\n{word}\n".encode(), stdin=None)
                first, second, _ = out.decode().split()
                refused += first != "NLOG_OK"
                trials.check(f"a wary {word} with memory refused at place {at}", (ended, err, second) == (0, b"", "NLOG_OK") and first in ("NLOG_OK", "NLOG_OUT_OF_MEMORY"), (ended, out, err))
                if word == "open":
                    trials.want(f"a wary {word} with memory refused at place {at}: the log", Log(read(path)).table, kept)
                if first == "NLOG_OK":
                    break
    trials.check("memory was refused to wary opens", refused > 40, str(refused))


BLOCK, MAX_LINE = 262144, 262143


def blocks(trials, made, room):
    """A file is loaded in blocks as its bytes are loaded from memory, wherever a block ends, with lines and rests of all lengths."""
    log, line = f"{room}/blocks", [line_of(b"%07d" % (i % 9000), (i, i + 1, i * 7, 10**15 + i)) for i in range(24_000)]
    four = [b"%d\t%d\t%d\t%07d\tcc -c %d.c\n" % (i, i + 1, i * 7, i % 9000, i) for i in range(24_000)]
    rests = [b"", b"7", b"7\t8\t9\ta", b"r" * MAX_LINE, b"r" * (MAX_LINE + 1), b"r" * (2 * BLOCK + 5)]
    for version, lines in ((b"5", line), (b"6", line), (b"7", line), (b"4", four)):
        first = b"# ninja log v" + version + b"\n"
        for pad in (0, 1, 2, MAX_LINE - 1, MAX_LINE, MAX_LINE + 1, BLOCK + 9, 3 * BLOCK):
            # A line that is no entry shifts the others against the blocks.
            shift = b"x" * pad + b"\n" if pad else b""
            for count in (5000, 24_000):
                for rest in rests if version == b"5" or pad == 1 else rests[:2]:
                    write(log, first + b"".join(lines[: count // 2]) + shift + b"".join(lines[count // 2 : count]) + rest)
                    wanted = b"NLOG_OK %s %d %d %d %d %d\n" % (version, count, min(count, 9000), pad > 0, os.stat(log).st_size - len(rest), len(rest))
                    trials.want(f"version {version}, {count} lines, {pad} bytes that are no entry, a rest of {len(rest)}", run([made["C11"], "load-both", log]), (0, wanted, b""))
    for whole in range(BLOCK - 2, BLOCK + 3):
        # The last newline of a block is its last byte, or stands just before or behind it.
        lines = HEADER + b"".join(line[:4000])
        lines += b"y" * (whole - len(lines) - 1) + b"\n" + A + B
        write(log, lines)
        trials.want(f"a line that ends at {whole}", run([made["C11"], "load-both", log])[:2], (0, b"NLOG_OK 5 4002 4002 1 %d 0\n" % len(lines)))
        opened = asked([made["C11"]], "write", log, 0, ["open", "count", "close"])[1]
        trials.want(f"an open of a log with a line that ends at {whole}", (opened, read(log)), (["OK", "OK 4002", "OK"], lines))
    for text, wanted in ((b"# ninja log v9\n" + b"".join(line), b"OTHER_VERSION"), (b"ninja\n" + b"".join(line), b"NOT_A_LOG"), (b"z" * (BLOCK + 7) + b"\n" + A, b"NOT_A_LOG"), (b"z" * (3 * BLOCK), b"NOT_A_LOG")):
        write(log, text)
        trials.want(f"a file of {len(text)} bytes that begins {text[:14]}", run([made["C11"], "load-both", log])[:2], (0, b"NLOG_%s 0 0 0 0 0 0\n" % wanted))


def sizes(trials, made, room):
    """More marks, and more outputs of a rewriting, than a body could stop at; and that a record takes no longer behind many."""
    log, count = f"{room}/sizes", 101_000
    write(log, HEADER + b"".join(b"1\t2\t3\t%d\taa\n" % i for i in range(count)) + B)
    lines = [f"dead {hexed(*[b'%d' % i for i in range(first, first + 1000)])}" for first in range(0, count, 1000)]
    times = ["time " + " ".join(f"7 {hexed(b'%d' % i)}" for i in range(first, first + 500)) for first in range(0, count, 500)]
    said = asked([made["C11"]], "write", log, 0, ["open", *times, "restat", *lines, "recompact", "count", "close"], timeout=600)[1]
    trials.want(f"{count} marks of each kind", (set(said[:-2]), said[-2:]), ({"OK"}, ["OK 1", "OK"]))
    trials.want("the log then", read(log), HEADER + B)
    many = 8_000_002
    with open(log, "wb") as it:
        it.write(HEADER)
        for first in range(0, many, 100_000):
            it.write(b"".join(b"1\t2\t3\t%d\taa\n" % i for i in range(first, min(first + 100_000, many))))
    said = asked([made["C11"]], "write", log, 0, ["open", f"dead {hexed(b'7')}", "recompact", "count", "close"], timeout=600)[1]
    trials.want(f"a rewriting of {many - 1} outputs", said, ["OK", "OK", "OK", f"OK {many - 1}", "OK"])
    with open(log, "rb") as it:
        trials.want("its lines", sum(block.count(b"\n") for block in iter(lambda: it.read(1 << 24), b"")), many)
    os.remove(log)

    def seconds_of(records):
        write(log, HEADER)
        write(f"{log}.plain", HEADER)
        status, out, _ = run([made["C11"], "time", log, f"{log}.plain", str(records), str(records)])
        return int(out.split()[0]) if status == 0 else 10**9

    trials.check("a record behind 200,000 takes no longer than behind 20,000", *is_within(3, lambda: seconds_of(200_000), lambda: seconds_of(20_000)))

    def seconds_of_edge(names):
        write(log, HEADER)
        status, out, _ = run([made["C11"], "edges", log, str(names), str(160_000 // names)])
        return int(out) if status == 0 else 10**9

    trials.check("a name of an edge of 80,000 takes no longer than of one of 100", *is_within(4, lambda: seconds_of_edge(80_000), lambda: seconds_of_edge(100)))
    # What grows by half or more asks for memory some 30 times for these lines; what grows line by line would ask 80,000 times.
    if "refused" in made:
        write(log, HEADER)
        asked_for = [int(run([made["refused"], "edges", log, "80000", "1"])[1] or -1) for _ in range(2)]
        trials.check("an edge of 80,000 outputs that come again asks for memory up to 100 times", 0 <= asked_for[1] <= 100, f"{asked_for} times")


def trial(trials, made, room, may_trace):
    widths(trials, made, room)
    devices(trials, made, room)
    distrusted(trials, made, room)
    sizes(trials, made, room)
    blocks(trials, made, room)
    if may_trace:
        files_that_fail(trials, made, room)
