#!/usr/bin/env python3
"""Writes a log whose names all have one hash in a table without a secret, to show what a hostile log costs.

    colliding_log.py --names N [--front TEXT] > FILE          (up to 1,000,000)

The last eight bytes of each name are those of the hasher's multiplier: they make one factor zero, and so the hash,
whatever the eight letters before them are, and the text before these.
"""
import argparse, itertools, sys

from name_hash import MULTIPLIER, name_hash

LETTERS = b"abcdefghijklmnopqrstuvwxyz"


def main():
    args = argparse.ArgumentParser(description=__doc__, formatter_class=argparse.RawDescriptionHelpFormatter)
    args.add_argument("--names", type=int, required=True)
    args.add_argument("--front", default="")
    args = args.parse_args()
    wanted = args.names
    if not 0 < wanted <= 1000000:
        raise SystemExit("colliding_log.py: 0 < names <= 1000000")
    end = MULTIPLIER.to_bytes(8, "little")
    front = args.front.encode()
    names = [front + bytes(it) + end for it in itertools.islice(itertools.product(LETTERS, repeat=8), wanted)]
    if len(set(map(name_hash, names[:1000]))) != 1:
        raise SystemExit("colliding_log.py: the hash is another")
    out = sys.stdout.buffer
    out.write(b"# ninja log v5\n")
    for name in names:
        out.write(b"1\t2\t3\t" + name + b"\ta\n")


main()
