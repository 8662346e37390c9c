#!/usr/bin/env python3
"""The hash of a name as nlog's table takes it, in 32 bits.

    name_hash.py < NAMES

reads names, a line each, and says how many different hashes they have by a secret of this run, and how many chance would leave.
"""
import os, sys

SEED = 0x243F6A8885A308D3
MULTIPLIER = 0x9E3779B97F4A7C15
BITS = 64


def folded_multiply(a, b):
    product = a * b
    return product % 2**BITS ^ product >> BITS


def read(data, at, size):
    return int.from_bytes(data[at : at + size], "little")


def short(data):
    """Up to 8 bytes as one number, by reads that may overlap."""
    size = len(data)
    if size >= 4:
        return read(data, 0, 4) | read(data, size - 4, 4) << 32
    return data[0] | data[size // 2] << 8 | data[-1] << 16 if data else 0


def name_hash(name, key0=0, key1=0):
    """The map's 32 bits, under a secret of two numbers, or under none: docs/PERFORMANCE.md, "The hash of a name"."""
    size, factor = len(name), MULTIPLIER ^ key1
    state = ((SEED ^ key0) + factor * size) % 2**BITS
    if size <= 8:
        state = folded_multiply(state ^ short(name), factor)
    else:
        # The last 16 bytes are taken at the end, also where some of them were taken before.
        for at in [*range(0, size - 16, 16), max(size - 16, 0)]:
            second = size - 8 if at == max(size - 16, 0) else at + 8
            state = folded_multiply(read(name, at, 8) ^ state, read(name, second, 8) ^ factor)
    return (state ^ state >> 32) % 2**32


def main():
    names = set(line.rstrip(b"\n") for line in sys.stdin.buffer)
    keys = [int.from_bytes(os.urandom(8), "little") for _ in range(2)]
    hashes = len(set(name_hash(name, *keys) for name in names))
    chance = 2**32 * (1 - (1 - 2.0**-32) ** len(names))
    print("%d names, %d hashes; by chance %.1f" % (len(names), hashes, chance))


if __name__ == "__main__":
    main()
