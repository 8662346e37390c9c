#!/usr/bin/env python3
"""A small build that keeps its log by `nlog apply`, and goes on where an earlier one ended.

    python3 examples/build.py NLOG LOG COUNT [FLAG]

For each of COUNT outputs it asks the log for the entry. Where that is missing, or has another command's hash, the command is run (here that
does nothing), and its entry recorded. Another FLAG makes another command of each. A build whose outputs must outlive a power cut syncs each
of them before it records it.

Sixteen commands start at once. Each is begun before it runs, so an output whose record was lost doesn't pass for that of an earlier
command. One sync is enough for all of them, and with it the records of the commands before them stand. Each time it prints how many outputs
then stand, whatever comes.
"""
import os
import subprocess
import sys
import zlib

AT_ONCE = 16


class Log:
    """A log that `nlog apply` keeps: a line is asked, and its answer is awaited."""

    def __init__(self, nlog, path):
        self.nlog = subprocess.Popen([nlog, "apply", "--", path], stdin=subprocess.PIPE, stdout=subprocess.PIPE)
        self.do("open")

    def ask(self, *fields):
        # A name with a newline would be two lines, and each answer after it that to another one.
        if any(it in field for field in fields for it in "\t\n"):
            raise ValueError("a tab or a newline in a name")
        self.nlog.stdin.write(os.fsencode("\t".join(fields)) + b"\n")
        self.nlog.stdin.flush()
        answer = os.fsdecode(self.nlog.stdout.readline())
        if not answer.endswith("\n"):
            raise OSError("nlog ended")
        return answer[:-1]

    def do(self, *fields):
        answer = self.ask(*fields)
        if answer != "ok":
            raise OSError(answer)

    def get(self, name):
        answer = self.ask("get", name)
        if answer == "none":
            return None
        # Any other answer, as `S3 Broken`, is no entry.
        if answer.count("\t") != 4:
            raise OSError(answer)
        return answer.split("\t")

    def close(self):
        """Closes the log, and says so where `nlog` fails even then."""
        self.do("stop")
        self.nlog.stdin.close()
        if self.nlog.wait() != 0:
            raise OSError("nlog failed")


def entry(i, flag=""):
    """The fields of an output's entry: those that start at once take turns. A build of Ninja's logs would ask for the
    hash by the line `hash`, and take MTIME before the command, as the time in nanoseconds of a file that is made then."""
    start = i // AT_ONCE * 100
    return str(start), str(start + 5 + i % AT_ONCE), str(1000 + i), f"out{i}", format(zlib.crc32(b"make out%d %s" % (i, os.fsencode(flag))), "x")


def build(log, count, flag, run):
    """Brings the outputs up to date by `run(i, flag)`, which runs a command, and yields how many of them stand, whatever comes."""
    for first in range(0, count, AT_ONCE):
        stale = [i for i in range(first, min(first + AT_ONCE, count)) if log.get(f"out{i}") != list(entry(i, flag))]
        for i in stale:
            start, _, _, name, command = entry(i, flag)
            log.do("begin", start, command, name)
        log.do("sync")
        yield first
        for i in stale:
            run(i, flag)
            log.do("record", *entry(i, flag))
    log.do("sync")
    yield count


def main(nlog, path, count, flag=""):
    log = Log(nlog, path)
    for stand in build(log, int(count), flag, lambda i, flag: None):
        print(stand, flush=True)
    log.close()


if __name__ == "__main__":
    main(*sys.argv[1:])
