"""Many names, and names that were chosen to have one hash: each call of the library that takes or keeps
names. A part of clib.py.

Names that were chosen for the whole secret of the process make the calls slow: one of the two factors of
their hash is 0 (`mix` of crates/nl_table/src/secret.rt). Names that were chosen for a process without a
secret make them no slower than others do. tests/clib/names.c gives the library its random numbers.
"""
import os
import random
from typing import Dict, List, NamedTuple, Tuple

from log_format import HEADER, line_of
from trials import is_within, read, run, write

MASK = 2**64 - 1
STATE, FACTOR = 0x243F6A8885A308D3, 0x9E3779B97F4A7C15
LEN, HOSTILE, MANY = 16, 4000, 1_000_000
# A name for a process without a secret, whose second half is the factor.
UNSAFE = b"\0\t\n"


class Call(NamedTuple):
    """A call: which log it finds, and how many outputs and lines for each name the log has then."""

    log: str
    outputs: int
    lines: int


CALLS: Dict[str, Call] = {
    "load": Call("full", 1, 1),
    "distrusted": Call("damaged", 1, 1),
    "edge": Call("empty", 1, 1),
    "begin": Call("full", 1, 2),
    "plan": Call("full", 1, 2),
    "withdraw": Call("full", 1, 3),
    "replan": Call("full", 1, 2),
    "dead": Call("empty", 0, 0),
    "cleared": Call("empty", 0, 0),
    "rewritten": Call("empty", 0, 0),
    "recompact": Call("full", 0, 0),
    "restat": Call("full", 1, 1),
    "find": Call("full", 1, 1),
    "join": Call("empty", 1, 1),
    "loose": Call("full", 1, 3),
}
# Those that keep names in a table, and not only look them up: they tell that the whole secret counts.
KEEPS = ["load", "distrusted", "edge", "plan", "replan", "dead", "cleared", "rewritten", "join"]
# Those that other trials don't give a million names.
LARGE = ["distrusted", "edge", "begin", "dead", "recompact", "restat", "find", "join", "loose"]


def log_of(kind: str, names: List[bytes]) -> bytes:
    """The log that a call finds: with no entry, with one of each name, or with a damaged line behind each."""
    if kind == "empty":
        return HEADER
    behind = {"full": b"", "damaged": b"4\t5"}[kind]
    lines = (line_of(name, (1, 2, 3, 4)) for name in names)
    return HEADER + b"".join(line + (behind + line if behind else b"") for line in lines)


def is_safe(key: int) -> bool:
    return not set(key.to_bytes(8, "little")) & set(UNSAFE)


def secret_of(chance: random.Random) -> Tuple[int, int]:
    """Two random numbers, for which hostile names can be spelled whichever of them is the first."""
    while True:
        keys = chance.getrandbits(64), chance.getrandbits(64)
        if all(is_safe(two ^ FACTOR) and is_safe(started(one, two)) for one, two in (keys, keys[::-1])):
            return keys


def started(key0: int, key1: int) -> int:
    """What the hasher joins with the first half of a name of this length."""
    return ((key0 ^ STATE) + (key1 ^ FACTOR) * LEN) & MASK


def chosen(half: str, key0: int, key1: int) -> List[bytes]:
    """Names of one hash under a secret: one of the two factors of the product is 0."""
    numbers = [b"%08d" % i for i in range(HOSTILE)]
    if half == "second":
        return [number + (key1 ^ FACTOR).to_bytes(8, "little") for number in numbers]
    return [started(key0, key1).to_bytes(8, "little") + number for number in numbers]


def taken(trials, made, room: str, keys: Tuple[int, int], word: str, names: List[bytes], about: str) -> float:
    """How long a call takes, in seconds."""
    call, log = CALLS[word], f"{room}/log"
    write(f"{room}/names", b"".join(names))
    write(log, log_of(call.log, names))
    words = [made["names"], *map(str, keys), word, log, f"{room}/names", str(len(names))]
    out = run(words)[1].decode().split()
    trials.want(f"{about}: the outputs and the lines", out[1:], [str(it * len(names)) for it in call[1:]])
    return int(out[0]) / 1e6 if out and out[0].isdigit() else float("inf")


def hostile(trials, made, room: str) -> None:
    """Names that were chosen for a process without a secret, and for this one's."""
    keys = secret_of(random.Random(89))
    others = [b"%08d" % i + b"ordinary" for i in range(2 * HOSTILE)]
    for word in CALLS:
        for half in ("first", "second"):
            about = f"{word} of names of one hash, by the {half} half"

            def time_of(names: List[bytes], word=word, about=about) -> float:
                return taken(trials, made, room, keys, word, names, about)

            unsecret, known = chosen(half, 0, 0), [*chosen(half, *keys), *chosen(half, *keys[::-1])]
            is_fast, why = is_within(5, lambda: time_of(unsecret), lambda: time_of(others))
            trials.check(f"{about} without the secret", is_fast, why)
            if word in KEEPS:
                slow, fast = time_of(known), time_of(others)
                why = f"{slow:.3f} s, beside {fast:.3f} s"
                trials.check(f"{about} under all of the secret", slow > 3 * fast, why)


def many(trials, made, room: str) -> None:
    """A million names, by each call."""
    names = [b"%08d" % i + b"ordinary" for i in range(MANY)]
    for word in LARGE:
        took = taken(trials, made, room, (1, 2), word, names, f"{word} of a million names")
        trials.check(f"{word} of a million names ends", took < float("inf"))
    os.remove(f"{room}/log")


def trial(trials, made, room: str) -> None:
    os.mkdir(f"{room}/many")
    hostile(trials, made, f"{room}/many")
    many(trials, made, f"{room}/many")
    trials.check("no scratch is left", read(f"{room}/many/log.recompact") is None)
