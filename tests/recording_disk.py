"""A disk whose writes are kept: a loop device over a file that a process of its own serves by FUSE, without a library.

Wants to be root. Where the process is in a mount name space of its own (`leave_mounts`), whatever ends it leaves no mount and no loop
device: the file goes with the process that serves it, and that one with the process that made it.
"""
import contextlib
import ctypes
import errno
import fcntl
import multiprocessing
import os
import select
import signal
import struct
import time

from trials import SECONDS

BLOCK = 4096
ZEROS = bytes(BLOCK)
MOST_WRITE = 1 << 20
LOOP_CTL_GET_FREE, LOOP_CONFIGURE, AUTOCLEAR = 0x4C82, 0x4C0A, 4
MS_RDONLY, MS_NOSUID, MS_NODEV, MS_REC, MS_PRIVATE = 1, 2, 4, 16384, 1 << 18
DETACH, CLONE_NEWNS, PR_SET_PDEATHSIG = 2, 0x20000, 1
LIBC = ctypes.CDLL(None, use_errno=True)

# The numbers of FUSE's requests, and what is answered to them.
LOOKUP, FORGET, GETATTR, SETATTR, OPEN, READ, WRITE, RELEASE, FSYNC, FLUSH, INIT = 1, 2, 3, 4, 14, 15, 16, 18, 20, 25, 26
INTERRUPT, DESTROY, FORGETS = 36, 38, 42
BIG_WRITES, MAX_PAGES, DIRECT_IO, FOREVER = 1 << 5, 1 << 22, 1, 1 << 30
NAME = "disk"


def failed(what):
    number = ctypes.get_errno()
    return OSError(number, os.strerror(number), what)


def mount(source, folder, kind, flags=0, options=""):
    source, folder, kind, options = (it.encode() for it in (source, folder, kind, options))
    if LIBC.mount(source, folder, kind, ctypes.c_ulong(flags), options) != 0:
        raise failed(folder.decode())


def unmount(folder):
    """Waits for a while where something is still in use."""
    end = time.monotonic() + SECONDS
    while LIBC.umount2(folder.encode(), 0) != 0:
        if ctypes.get_errno() != errno.EBUSY or time.monotonic() > end:
            raise failed(folder)
        time.sleep(0.001)


def unmount_below(folder):
    """Takes away what is still mounted below a folder, the last one first."""
    with open("/proc/self/mounts", encoding="utf-8", errors="replace") as it:
        places = [line.split(" ")[1].replace("\\040", " ") for line in it]
    for place in reversed(places):
        if place.startswith(f"{folder}/"):
            LIBC.umount2(place.encode(), DETACH)


def leave_mounts():
    """Enters a name space of mounts of its own: what is mounted from here on goes away with its processes."""
    if LIBC.unshare(CLONE_NEWNS) != 0:
        raise failed("unshare")
    mount("none", "/", "none", MS_REC | MS_PRIVATE)


class Blocks:
    """The bytes of a disk of this size: what was written, over a disk below, over zeros."""

    def __init__(self, size, below=None):
        self.size, self.below, self.blocks = size, below, {}

    def block(self, number):
        found = self.blocks.get(number)
        if found is None:
            return self.below.block(number) if self.below else ZEROS
        return found

    def read(self, at, size):
        first, last = at // BLOCK, (at + size - 1) // BLOCK
        return b"".join(self.block(it) for it in range(first, last + 1))[at - first * BLOCK :][:size]

    def write(self, at, text):
        first, last = at // BLOCK, (at + len(text) - 1) // BLOCK
        text = self.block(first)[: at % BLOCK] + text + self.block(last)[(at + len(text) - 1) % BLOCK + 1 :]
        for place, number in enumerate(range(first, last + 1)):
            block = text[place * BLOCK : (place + 1) * BLOCK]
            self.blocks[number] = ZEROS if block == ZEROS else block

    def all_blocks(self):
        """Each block that was written, by its number."""
        return {**self.below.all_blocks(), **self.blocks} if self.below else self.blocks

    def write_to(self, path):
        """Makes a file of all of it, with holes for the zeros."""
        with open(path, "wb", 0) as it:
            it.truncate(self.size)
            for number, block in self.all_blocks().items():
                if block != ZEROS:
                    os.pwrite(it.fileno(), block, number * BLOCK)


class Served:
    """What a disk holds, in the process that serves it. The process that made the disk calls its other functions by `RecordingDisk.ask`."""

    def __init__(self, blocks):
        self.blocks, self.is_open = blocks, False

    def wrote(self, at, text):
        """Is told of each write."""

    def synced(self):
        """Is told of each flush."""

    def is_closed(self):
        return not self.is_open


class Recorded(Served):
    """A disk that keeps what is written from `begin` on. `events` has a place and a text for each write, None for each flush, and the
    marks that are put between."""

    def __init__(self, blocks):
        super().__init__(blocks)
        self.base, self.events = None, []

    def begin(self):
        self.base, self.blocks = self.blocks, Blocks(self.blocks.size, self.blocks)

    def wrote(self, at, text):
        if self.base:
            self.events.append((at, text))

    def synced(self):
        if self.base:
            self.events.append(None)

    def mark(self, mark):
        self.events.append(mark)

    def all_of(self):
        return self.base.blocks, self.events


class Server:
    """Answers the requests for the one file of a FUSE file system."""

    def __init__(self, folder, served):
        self.served = served
        self.pipe = os.open("/dev/fuse", os.O_RDWR | os.O_CLOEXEC)
        mount("nlog", folder, "fuse", MS_NOSUID | MS_NODEV, f"fd={self.pipe},rootmode=40000,user_id=0,group_id=0")

    def serve(self, asked):
        """Until the file system is unmounted, or nobody is there to ask."""
        waiting = select.poll()
        waiting.register(self.pipe, select.POLLIN)
        waiting.register(asked, select.POLLIN)
        while True:
            for number, _ in waiting.poll():
                if number == self.pipe:
                    answer = self.answer(os.read(self.pipe, MOST_WRITE + BLOCK))
                    # A request that was interrupted wants no answer any more.
                    with contextlib.suppress(FileNotFoundError):
                        if answer:
                            os.write(self.pipe, answer)
                else:
                    name, words = asked.recv()
                    asked.send(getattr(self.served, name)(*words))

    def answer(self, request):
        _, kind, unique, node = struct.unpack_from("<IIQQ", request)
        if kind in (FORGET, FORGETS, INTERRUPT):
            return None
        try:
            body = self.body(kind, node, request[40:])
        except OSError as error:
            return struct.pack("<IiQ", 16, -error.errno, unique)
        return struct.pack("<IiQ", 16 + len(body), 0, unique) + body

    def body(self, kind, node, words):
        if kind == INIT:
            sizes = 12, 9, MOST_WRITE, 1, MOST_WRITE // BLOCK
            return struct.pack("<IIIIHHIIH34x", 7, 31, BLOCK, BIG_WRITES | MAX_PAGES, *sizes)
        if kind == LOOKUP and words.rstrip(b"\0") == NAME.encode():
            return struct.pack("<QQQQII", 2, 0, FOREVER, FOREVER, 0, 0) + self.attributes(2)
        if kind in (GETATTR, SETATTR):
            return struct.pack("<QII", FOREVER, 0, 0) + self.attributes(node)
        if kind == OPEN:
            self.served.is_open = True
            return struct.pack("<QII", 0, DIRECT_IO, 0)
        if kind in (READ, WRITE):
            return self.moved(kind, words)
        if kind == FSYNC:
            self.served.synced()
        if kind == RELEASE:
            self.served.is_open = False
        if kind in (FSYNC, FLUSH, RELEASE, DESTROY):
            return b""
        raise OSError(errno.ENOENT if kind == LOOKUP else errno.EOPNOTSUPP, "")

    def moved(self, kind, words):
        _, at, size = struct.unpack_from("<QQI", words)
        blocks = self.served.blocks
        if kind == READ:
            return blocks.read(at, min(size, blocks.size - at))
        text = words[40 : 40 + size]
        blocks.write(at, text)
        self.served.wrote(at, text)
        return struct.pack("<II", size, 0)

    def attributes(self, node):
        mode, size = (0o40700, 0) if node == 1 else (0o100600, self.served.blocks.size)
        return struct.pack("<QQQQQQIIIIIIIIII", node, size, size // 512, 0, 0, 0, 0, 0, 0, mode, 1, 0, 0, 0, BLOCK, 0)


class RecordingDisk:
    """A disk with what is `served`, on which file systems are made and mounted by way of `device`."""

    def __init__(self, folder, served):
        self.folder = folder
        os.makedirs(folder, exist_ok=True)
        self.pipe, theirs = multiprocessing.Pipe()
        self.server = os.fork()
        if self.server == 0:
            self.pipe.close()
            serve_and_end(folder, served, theirs)
        theirs.close()
        why = self.pipe.recv()
        if why is not None:
            raise why

    def ask(self, name, *words):
        """Has the process that serves the disk call a function of what is served."""
        self.pipe.send((name, words))
        return self.pipe.recv()

    def close(self):
        unmount(self.folder)
        self.pipe.close()
        os.waitpid(self.server, 0)

    @contextlib.contextmanager
    def device(self):
        """A loop device over the file, by its path. In the end nobody uses it any more."""
        with loop_device(f"{self.folder}/{NAME}") as path:
            yield path
        end = time.monotonic() + SECONDS
        while not self.ask("is_closed"):
            if time.monotonic() > end:
                raise OSError(errno.EBUSY, "the disk is still in use", self.folder)
            time.sleep(0.001)


def serve_and_end(folder, served, asked):
    """The life of a process that serves a disk. It ends with its parent."""
    LIBC.prctl(PR_SET_PDEATHSIG, signal.SIGKILL)
    signal.signal(signal.SIGINT, signal.SIG_IGN)
    signal.signal(signal.SIGTERM, signal.SIG_DFL)
    try:
        server = Server(folder, served)
        asked.send(None)
        server.serve(asked)
    except EOFError:
        pass
    except OSError as error:
        with contextlib.suppress(OSError):
            asked.send(error)
    finally:
        os._exit(0)


@contextlib.contextmanager
def loop_device(path):
    """A loop device over a file, by its path. It is gone when nobody uses it any more."""
    file = os.open(path, os.O_RDWR)
    try:
        path, device = attached(file)
    finally:
        os.close(file)
    try:
        yield path
    finally:
        os.close(device)


def attached(file):
    """Attaches a file to a loop device that is free: its path, and itself, opened."""
    for _ in range(100):
        with open("/dev/loop-control", "rb") as control:
            number = fcntl.ioctl(control, LOOP_CTL_GET_FREE)
        device = os.open(f"/dev/loop{number}", os.O_RDWR)
        try:
            fcntl.ioctl(device, LOOP_CONFIGURE, struct.pack("<II40xIIII176x64x", file, 512, 0, 0, 0, AUTOCLEAR))
            return f"/dev/loop{number}", device
        except OSError as error:
            os.close(device)
            if error.errno != errno.EBUSY:
                raise
    raise OSError(errno.EBUSY, "no loop device is free")
