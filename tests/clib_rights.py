"""Who may read and write a log that the library's writer writes anew: for clib.py.

Wanted is what docs/SECURITY.md says: the new file has the rights of the old one as far as the process may give them, and nobody but its owner may do
with it what he might not with the old one. That is asked for each of several persons, by the rules of POSIX for a mode and for an ACL.
"""
import os
import re
import shutil
import struct
import subprocess
import time

from clib_driver import A, B, answers_of, asked, drivers, hexed, may_trace
from log_format import HEADER
from trials import SECONDS, read, run, write

OWNER, WRITER, THIRD, SHARED = 12001, 12002, 12003, 13001
# Persons by their number and their groups, their own first.
PERSONS = {
    "the owner": (OWNER, [OWNER]),
    "the owner, of the group": (OWNER, [OWNER, SHARED]),
    "the writer": (WRITER, [WRITER]),
    "the writer, of the group": (WRITER, [WRITER, SHARED]),
    "one of the group": (THIRD, [THIRD, SHARED]),
    "one of the writer's group": (THIRD, [THIRD, WRITER]),
    "one of both groups": (THIRD, [THIRD, SHARED, WRITER]),
    "another": (THIRD, [THIRD]),
}
ACL, DEFAULT, LABEL, CAPABILITY = "system.posix_acl_access", "system.posix_acl_default", "security.nlog", "security.capability"
# The classes of an ACL.
OF_OWNER, OF_USER, OF_GROUP, OF_NAMED_GROUP, MASK, OF_OTHERS = 1, 2, 4, 8, 16, 32


def acl_of(owner, users, group, groups, mask, others):
    """An ACL as the system keeps it."""
    named = [*((OF_USER, may, it) for it, may in users.items()), (OF_GROUP, group, 2**32 - 1), *((OF_NAMED_GROUP, may, it) for it, may in groups.items())]
    return struct.pack("<I", 2) + b"".join(struct.pack("<HHI", *it) for it in [(OF_OWNER, owner, 2**32 - 1), *named, (MASK, mask, 2**32 - 1), (OF_OTHERS, others, 2**32 - 1)])


def attribute(path, name):
    try:
        return os.getxattr(path, name)
    except OSError:
        return None


def may(path, person):
    """What a person may do with a file, as the bits of a mode."""
    about, acl, (number, groups) = os.stat(path), attribute(path, ACL), person
    if number == about.st_uid:
        return about.st_mode >> 6 & 7
    entries = list(struct.iter_unpack("<HHI", acl[4:])) if acl else [(OF_GROUP, about.st_mode >> 3 & 7, 0), (MASK, 7, 0), (OF_OTHERS, about.st_mode & 7, 0)]
    mask = next(bits for tag, bits, _ in entries if tag == MASK)
    users = [bits for tag, bits, it in entries if tag == OF_USER and it == number]
    of_groups = [bits for tag, bits, it in entries if (tag == OF_GROUP and about.st_gid in groups) or (tag == OF_NAMED_GROUP and it in groups)]
    if users:
        return users[0] & mask
    if of_groups:
        return sum(1 << bit for bit in range(3) if any(it >> bit & 1 for it in of_groups)) & mask
    return next(bits for tag, bits, _ in entries if tag == OF_OTHERS)


def become(person):
    """Gives a process a person's rights; None: it keeps those of root."""

    def work():
        os.umask(0o022)
        if person is not None:
            os.setgroups(PERSONS[person][1])
            os.setgid(PERSONS[person][1][0])
            os.setuid(PERSONS[person][0])

    return work


def rights_of(path):
    about = os.stat(path)
    return about.st_uid, about.st_gid, oct(about.st_mode & 0o7777)


class Room:
    """A folder that each person may write in, with a log of the owner's in it, and the driver."""

    def __init__(self, trials, made, room):
        self.trials, self.folder = trials, f"{room}/rights-kept"
        self.log, self.driver = f"{self.folder}/logs/log", f"{self.folder}/driver"
        os.makedirs(f"{self.folder}/logs")
        shutil.copy(made["C11"], self.driver)
        for path, mode in ((os.path.dirname(room), 0o711), (room, 0o711), (self.folder, 0o755), (f"{self.folder}/logs", 0o777), (self.driver, 0o755)):
            os.chmod(path, mode)

    def log_of(self, mode, text=HEADER + A + B, **attributes):
        for it in os.listdir(f"{self.folder}/logs"):
            os.remove(f"{self.folder}/logs/{it}")
        write(self.log, text)
        os.chown(self.log, OWNER, SHARED)
        os.chmod(self.log, mode)
        for name, value in attributes.items():
            os.setxattr(self.log, {"acl": ACL, "label": LABEL, "capability": CAPABILITY}[name], value)

    def rewrite(self, what, person, wanted, words=(), lines=("open", "recompact", "close")):
        """Rewrites the log as a person: nobody gains, but the new owner; `wanted` is its new owner, group and mode."""
        before, trials = {name: may(self.log, it) for name, it in PERSONS.items()}, self.trials
        what = f"{what} that {person or 'root'} writes anew"
        said = asked([*words, self.driver], "write", self.log, 0, lines, cwd="/", preexec_fn=become(person))
        trials.want(what, said, (0, ["OK"] * len(lines), b""))
        trials.want(f"{what}: its rights", rights_of(self.log), (*wanted[:2], oct(wanted[2])))
        owner = os.stat(self.log).st_uid
        gained = {name: (before[name], may(self.log, it)) for name, it in PERSONS.items() if it[0] != owner and may(self.log, it) & ~before[name]}
        trials.want(f"{what}: who gains a right", gained, {})
        trials.want(f"{what}: the files", os.listdir(f"{self.folder}/logs"), ["log"])


# The mode of the owner's log, who writes it anew, and the mode that is left where the owner, the group or both are kept. Setuid, setgid and the
# sticky bit go.
MODES = [
    *((mode, None, (OWNER, SHARED, mode & 0o777)) for mode in (0o600, 0o640, 0o660, 0o664, 0o666, 0o755, 0o4777, 0o2775, 0o1666, 0o6755, 0o4600)),
    *((mode, "the owner, of the group", (OWNER, SHARED, mode & 0o777)) for mode in (0o600, 0o640, 0o664, 0o4755, 0o2777)),
    # Of the group that the process has none of: who was of it may be of the others now, and the other way round.
    *((mode, "the owner", (OWNER, OWNER, left)) for mode, left in ((0o600, 0o600), (0o640, 0o600), (0o644, 0o644), (0o664, 0o644), (0o646, 0o644), (0o604, 0o600), (0o2771, 0o711))),
    # Of another owner: the old one is of the group or of the others now.
    *((mode, "the writer, of the group", (WRITER, SHARED, left)) for mode, left in ((0o660, 0o660), (0o664, 0o664), (0o666, 0o666), (0o4777, 0o777), (0o466, 0o444), (0o670, 0o660))),
    *((mode, "the writer", (WRITER, WRITER, left)) for mode, left in ((0o666, 0o666), (0o646, 0o644), (0o606, 0o600), (0o626, 0o622), (0o6777, 0o777), (0o456, 0o444), (0o667, 0o666))),
]


def modes(trials, room):
    for mode, person, wanted in MODES:
        for lines, text in ((("open", "recompact", "close"), HEADER + A + B), (("open", "close"), HEADER + A * 101 + B)):
            room.log_of(mode, text)
            room.rewrite(f"a log of mode {mode:o}, {lines}", person, wanted, lines=lines)
            trials.want("the log then", read(room.log), HEADER + A + B)


RW_FOR_WRITER = acl_of(6, {WRITER: 6}, 0, {}, 6, 0)
READ_FOR_THIRD = acl_of(6, {THIRD: 4}, 0, {}, 4, 0)
NONE_FOR_THIRD = acl_of(6, {WRITER: 6, THIRD: 0}, 6, {WRITER: 0}, 6, 4)
# An ACL, its mode, who writes the log anew, and the owner, the group, the mode and the ACL that are left.
ACLS = [
    *((acl, person, (OWNER, SHARED, mode, acl)) for person in (None, "the owner, of the group") for acl, mode in ((RW_FOR_WRITER, 0o660), (READ_FOR_THIRD, 0o640), (NONE_FOR_THIRD, 0o664))),
    *((acl, "the writer, of the group", (WRITER, SHARED, mode, acl)) for acl, mode in ((RW_FOR_WRITER, 0o660), (NONE_FOR_THIRD, 0o664))),
    # Of another group its classes would mean others.
    *((acl, "the writer", (WRITER, WRITER, 0o600, None)) for acl in (RW_FOR_WRITER, acl_of(6, {WRITER: 6}, 6, {}, 6, 6))),
    *((acl, "the owner", (OWNER, OWNER, 0o600, None)) for acl in (READ_FOR_THIRD, NONE_FOR_THIRD)),
]


def acls(trials, room):
    """An ACL is kept where owner and group mean the same by it; else nobody but the owner has a right."""
    room.log_of(0o600)
    try:
        os.setxattr(room.log, ACL, READ_FOR_THIRD)
    except OSError as error:
        trials.skip("logs with an ACL", f"the file system has none ({error})")
        return
    for acl, person, (*wanted, left) in ACLS:
        room.log_of(0o600, acl=acl)
        what = f"a log with the ACL {acl[4:].hex()}"
        room.rewrite(what, person, wanted)
        trials.want(f"{what} that {person or 'root'} wrote anew: its ACL", attribute(room.log, ACL), left)
    # One that the folder gives to new files isn't the log's.
    os.setxattr(f"{room.folder}/logs", DEFAULT, acl_of(6, {THIRD: 6}, 6, {}, 6, 6))
    for person in (None, "the owner, of the group"):
        for acl, mode in ((None, 0o644), (READ_FOR_THIRD, 0o640)):
            room.log_of(mode)
            os.removexattr(room.log, ACL)
            os.chmod(room.log, mode)
            if acl is not None:
                os.setxattr(room.log, ACL, acl)
            room.rewrite(f"a log of mode {mode:o} in a folder with an ACL", person, (OWNER, SHARED, mode))
            trials.want("its ACL", attribute(room.log, ACL), acl)
    os.removexattr(f"{room.folder}/logs", DEFAULT)


def labels(trials, room):
    """What else the system knows a file's rights by is kept where the process may; a capability goes, as setuid does."""
    room.log_of(0o644)
    try:
        os.setxattr(room.log, LABEL, b"kept")
    except OSError as error:
        trials.skip("logs with a label", f"the file system has none ({error})")
        return
    room.rewrite("a log with a label", None, (OWNER, SHARED, 0o644))
    trials.want("its label", attribute(room.log, LABEL), b"kept")
    room.log_of(0o644, label=b"kept")
    room.rewrite("a log with a label", "the owner, of the group", (OWNER, SHARED, 0o600))
    trials.want("its label then", attribute(room.log, LABEL), None)
    # An ACL widens: it comes behind the label, or not at all.
    for person, mode, *left in ((None, 0o664, NONE_FOR_THIRD, b"kept"), ("the owner, of the group", 0o600, None, None)):
        try:
            room.log_of(0o600, acl=NONE_FOR_THIRD, label=b"kept")
        except OSError as error:
            trials.skip("logs with a label and an ACL", f"the file system has none ({error})")
            break
        room.rewrite("a log with a label and an ACL", person, (OWNER, SHARED, mode))
        trials.want("both then", [attribute(room.log, it) for it in (ACL, LABEL)], left)
    try:
        room.log_of(0o755, capability=struct.pack("<5I", 0x02000001, 1, 0, 0, 0))
    except OSError as error:
        trials.skip("a log with a capability", str(error))
        return
    room.rewrite("a log with a capability", None, (OWNER, SHARED, 0o755))
    trials.want("its capability", attribute(room.log, CAPABILITY), None)


def refused(trials, room):
    """Each call that would keep a right is refused: what isn't kept is taken away from all but the owner, and the rewriting is done."""
    deny = ["strace", "-f", "-o", "/dev/null", "-e"]
    rows = [
        ("fchown", "EPERM", None, 0o664, None, (0, 0, 0o644)),
        ("fchown", "ENOSYS", None, 0o4646, None, (0, 0, 0o644)),
        ("flistxattr", "EIO", None, 0o664, None, (OWNER, SHARED, 0o600)),
        ("flistxattr", "EOPNOTSUPP", None, 0o664, None, (OWNER, SHARED, 0o664)),
        ("flistxattr", "ENOSYS", None, 0o664, None, (OWNER, SHARED, 0o664)),
        ("fremovexattr", "EPERM", None, 0o664, None, (OWNER, SHARED, 0o600)),
        ("fremovexattr", "EOPNOTSUPP", None, 0o664, None, (OWNER, SHARED, 0o664)),
        *((call, error, None, 0o600, acl, (OWNER, SHARED, 0o600)) for call in ("fsetxattr", "fgetxattr") for error in ("EPERM", "EOPNOTSUPP") for acl in (READ_FOR_THIRD, NONE_FOR_THIRD)),
    ]
    for call, error, person, mode, acl, wanted in rows:
        room.log_of(mode)
        if acl is not None:
            try:
                os.setxattr(room.log, ACL, acl)
            except OSError:
                continue
        room.rewrite(f"{call} answers {error}: a log of mode {mode:o}", person, wanted, [*deny, f"inject={call}:error={error}"])
        trials.want(f"{call} answers {error}: its ACL", attribute(room.log, ACL), None)


def watched(trials, room):
    """Nobody but its owner may use a scratch until it is whole. It gets its owner, then its other rights, and then its sync."""
    for mode in (0o666, 0o644, 0o4777):
        room.log_of(mode)
        words = ["strace", "-o", f"{room.folder}/TRACE", "-e", "trace=openat,write,fchown,fchmod,fsync,renameat", "-e", "inject=fchmod:delay_enter=1500000"]
        writer = subprocess.Popen([*words, room.driver, "write", room.log, "0"], stdin=subprocess.PIPE, stdout=subprocess.PIPE, cwd="/", preexec_fn=become(None))
        trials.want("a log that is watched", answers_of(writer, "open"), "OK")
        writer.stdin.write(b"recompact\n")
        writer.stdin.flush()
        scratch, seen, until = f"{room.log}.recompact", set(), time.monotonic() + SECONDS
        while time.monotonic() < until and not any(size == len(HEADER + A + B) for _, size in seen):
            try:
                about = os.stat(scratch)
                seen.add((oct(about.st_mode & 0o7777), about.st_size))
            except FileNotFoundError:
                if seen:
                    break
        trials.want(f"a log of mode {mode:o}: the mode of its scratch, up to its end", {it for it, _ in seen}, {"0o600"})
        opened = run(["cat", scratch], preexec_fn=become("another"))
        trials.check(f"a log of mode {mode:o}: another can't read its scratch", opened[0] == 1 and opened[1] == b"", opened)
        trials.want("it is written anew", writer.stdout.readline(), b"NLOG_OK\n")
        writer.communicate()
        trials.want("its rights", rights_of(room.log), (OWNER, SHARED, oct(mode & 0o777)))
        calls = read(f"{room.folder}/TRACE").decode()
        calls = calls[calls.index("O_EXCL") :]
        fd = re.search(r"= (\d+)", calls)[1]
        order = re.findall(rf"(?m)^(?:(write|fchown|fchmod|fsync)\({fd}[,)]|(renameat)\()", calls)
        trials.want("the calls, in order", [one or two for one, two in order][:5], ["write", "fchown", "fchmod", "fsync", "renameat"])
        trials.check("the mode that the scratch is made with", re.match(r"O_EXCL[^,]*, 0600\)", calls), calls[:40])


def kept(trials, made, room):
    """A rewriting keeps the permissions of a log of one's own."""
    log = f"{room}/modes"
    for way, driver in drivers(made):
        for mode in (0o600, 0o640, 0o644, 0o664, 0o666, 0o755, 0o4755):
            for text, lines in ((HEADER + A * 101 + B, ["open", "close"]), (HEADER + A, ["open", "recompact", "close"]), (HEADER + A, ["look", f"dead {hexed(b'a')}", "recompact", "close"])):
                write(log, text)
                os.chmod(log, mode)
                trials.want(f"{way}: a log of mode {mode:o}, {lines}", set(asked(driver, "write", log, 0, lines)[1]), {"OK"})
                trials.want(f"{way}: its mode behind {lines}", oct(os.stat(log).st_mode & 0o7777), oct(mode & 0o777))
        write(log, HEADER + A)
        writer = subprocess.Popen([*driver, "write", log, "0"], stdin=subprocess.PIPE, stdout=subprocess.PIPE)
        trials.want(f"{way}: a log that gets another mode", answers_of(writer, "open"), "OK")
        os.chmod(log, 0o620)
        trials.want(f"{way}: and is rewritten", answers_of(writer, "recompact"), "OK")
        trials.want(f"{way}: it has that mode", oct(os.stat(log).st_mode & 0o7777), oct(0o620))
        writer.communicate()
        os.remove(log)


def trial(trials, made, room):
    kept(trials, made, room)
    if os.geteuid() != 0:
        trials.skip("logs of other users, and what a rewriting leaves them", "no process of another user can be started")
        return
    place = Room(trials, made, room)
    modes(trials, place)
    acls(trials, place)
    labels(trials, place)
    if may_trace(trials, room):
        refused(trials, place)
        watched(trials, place)
