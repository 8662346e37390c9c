"""What a crash may leave of a log and its scratch, by docs/DISK_MODEL.md, from the system calls that changed them.

A `Disk` is a folder with its files. `follow` does to it what the calls of a trace did, call by call; between two calls `images` gives
what a crash may leave. Each call that touches the files has to be one that the disk model has a row for: `Unknown` tells of any other.
"""
import re

LOG, SCRATCH, FOLDER = "LOG", "LOG.recompact", "."
# strace, so that `follow` can read what it writes: whole texts, in hexadecimal.
STRACE = ["strace", "-xx", "-s", "10000000", "-e", "signal=none"]
CALL = re.compile(r"(\w+)\((.*)\) += (\d+)")
TEXT = re.compile(r'"((?:\\x[0-9a-f]{2})*)"')
# Calls that change no file.
PASSED = re.compile(r"close|read\w*|pread64|lseek|[fl]?stat|newfstatat|statx|f?access|faccessat2?|flock|fchmod|fchown|f\w+xattr|fadvise64|execve")
# Bytes of a tail in place of zeros, such as a block may hold that was another file's. There is no newline.
STALE = b"7\t8\t9\tz\tff\r\xff"


class Unknown(Exception):
    """A call that the disk model has no row for."""


class File:
    """A file: what a read gives, the longest text that may be on disk, and how many of its first bytes a crash can't take away."""

    def __init__(self, text=b""):
        self.visible, self.longest, self.durable_len, self.is_cut = text, text, len(text), False

    def append(self, more):
        self.visible += more
        self.longest, self.is_cut = self.visible, False

    def cut(self, size):
        self.visible, self.durable_len, self.is_cut = self.visible[:size], min(self.durable_len, size), True

    def sync(self):
        self.longest, self.durable_len, self.is_cut = self.visible, len(self.visible), False

    def prefixes(self):
        return [self.longest[:count] for count in range(self.durable_len, len(self.longest) + 1)]

    def images(self):
        """Each prefix that a crash may leave, without a tail, and with one of a byte, of half of the room there is, and of all of it.

        Where nothing of the file is durable, a tail stands behind a whole line alone.
        """
        for prefix in self.prefixes():
            yield prefix
            room = len(self.longest) - len(prefix) if self.durable_len > 0 or b"\n" in prefix else 0
            for size in {1, room // 2, room} if room > 1 else {room} - {0}:
                yield prefix + bytes(size)
                yield prefix + (STALE * room)[:size]

    def few_images(self):
        """The shortest, the longest, and half of that with zeros behind it. Nothing reads a scratch."""
        half = max(self.durable_len, len(self.longest) // 2)
        return [self.longest[: self.durable_len], self.longest[:half] + bytes(len(self.longest) - half), self.longest]


class Disk:
    """A folder with a log and a scratch. `names` has its files by their names, and `shown` each such table that a crash may leave."""

    def __init__(self, log, scratch=None):
        given = {LOG: log, SCRATCH: scratch}
        self.names = {name: File(text) for name, text in given.items() if text is not None}
        self.shown = [dict(self.names)]

    def make(self, name):
        self.names[name] = File()
        self.shown.append(dict(self.names))

    def rename(self, old, new):
        self.names[new] = self.names.pop(old)
        self.shown.append(dict(self.names))

    def remove(self, name):
        del self.names[name]
        self.shown.append(dict(self.names))

    def sync(self):
        self.shown = [dict(self.names)]

    def text_of(self, name):
        return self.names[name].visible if name in self.names else None

    def is_settled(self):
        """Whether no cut of the log, and no file in its place, awaits a sync."""
        log = self.names.get(LOG)
        return log is None or not log.is_cut and all(it.get(LOG, log) is log for it in self.shown)

    def images(self):
        """What a crash may leave of the log and of the scratch: each image of the one, and a few of the other."""
        found = {}
        for names in self.shown:
            logs = list(names[LOG].images()) if LOG in names else [None]
            scratches = names[SCRATCH].few_images() if SCRATCH in names else [None]
            found.update(((log, scratches[-1]), None) for log in logs)
            found.update(((logs[-1], scratch), None) for scratch in scratches)
        return list(found)


class Process:
    """A process by its calls. `hands` has its open files by their numbers: the file or the folder, and the place where it stands."""

    def __init__(self, disk, room):
        self.disk, self.room, self.hands = disk, room, {}

    def name_of(self, path):
        """The name of a path in the folder, or None where it is no path of the folder."""
        path = path.decode(errors="replace")
        if path.startswith(f"{self.room}/"):
            return path[len(self.room) + 1 :]
        return FOLDER if path == self.room else None

    def do(self, call, words, answer):
        """Does a call. If it changes the disk or makes it durable, it gives what is wrong with that, mostly an empty text, and otherwise None."""
        texts = [bytes.fromhex(it.replace("\\x", "")) for it in TEXT.findall(words)]
        names = [self.name_of(it) for it in texts[:2]]
        number = re.match(r"\d+", words)
        if number and int(number[0]) in self.hands:
            return self.do_to_open(call, int(number[0]), words, texts, answer)
        if not {LOG, SCRATCH, FOLDER}.intersection(names):
            return None
        if call in ("open", "openat"):
            return self.open(names[0], words, answer)
        if call.startswith("rename") and names == [SCRATCH, LOG] and "RENAME" not in words:
            self.disk.rename(SCRATCH, LOG)
            return ""
        if call in ("unlink", "unlinkat") and names[0] == SCRATCH and "AT_REMOVEDIR" not in words:
            self.disk.remove(SCRATCH)
            return ""
        if PASSED.fullmatch(call):
            return None
        raise Unknown(call)

    def open(self, name, how, number):
        if re.search(r"O_D?SYNC|O_DIRECT\b|O_TMPFILE", how):
            raise Unknown(how)
        is_new = name != FOLDER and name not in self.disk.names
        if is_new:
            self.disk.make(name)
        file = self.disk if name == FOLDER else self.disk.names[name]
        self.hands[number] = [file, None if "O_APPEND" in how else 0]
        is_emptied = "O_TRUNC" in how and file.visible != b""
        if is_emptied:
            file.cut(0)
        return "" if is_new or is_emptied else None

    def do_to_open(self, call, number, words, texts, answer):
        """Does a call to an open file."""
        hand = self.hands[number]
        file, place = hand
        last = int(words.split(", ")[-1]) if call in ("ftruncate", "pwrite64") else 0
        if call == "fcntl" and "F_DUPFD" in words:
            self.hands[answer] = hand
            return None
        if call in ("fsync", "fdatasync"):
            file.sync()
            return ""
        if call == "ftruncate" and last <= len(file.visible):
            file.cut(last)
            return ""
        if call in ("write", "writev", "pwrite64"):
            return self.write(hand, b"".join(texts)[:answer], last if call == "pwrite64" else place)
        if call == "close":
            del self.hands[number]
        elif call in ("lseek", "read") and place is not None:
            hand[1] = answer + (place if call == "read" else 0)
        elif not PASSED.fullmatch(call) and not (call == "fcntl" and "DUP" not in words) and not (call == "mmap" and "PRIVATE" in words):
            raise Unknown(call)
        return None

    def write(self, hand, text, place):
        """Adds a text to the end of a file."""
        file, stands = hand
        if place not in (None, len(file.visible)):
            raise Unknown("a write that isn't at the end")
        is_wrong = file is self.disk.names.get(LOG) and not self.disk.is_settled()
        file.append(text)
        if stands is not None:
            hand[1] = len(file.visible)
        return "the log grows while a cut or a rename of it awaits a sync" if is_wrong else ""


def follow(disk, trace, room):
    """Does to a disk what the calls of a trace did in a folder. Yields each call that changed it or made it durable, and what is wrong
    with it."""
    process = Process(disk, room)
    for line in trace.split("\n"):
        parts = CALL.match(line)
        wrong = process.do(parts[1], parts[2], int(parts[3])) if parts else None
        if wrong is not None:
            yield parts[1], wrong
