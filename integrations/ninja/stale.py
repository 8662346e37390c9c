#!/usr/bin/env python3
"""Crashes builds by a Ninja and by the same Ninja on the library, and counts the stale outputs that each takes for fresh.

    python3 integrations/ninja/stale.py PLAIN PATCHED [STATES [SEED]]

A life is a folder with OUTPUTS outputs: of chains, of commands with two outputs, of rules with restat. The commands of some change from build
to build, and come back (A, B, A). Most builds crash:

- a command kills Ninja when it has written its output, and before its record;
- Ninja is killed at a random moment, and its commands go on to their end;
- Ninja is killed at one of its calls of the system that is about the log, as in the middle of a rewriting;
- it is interrupted at one;
- behind any of these, or a build that ended well, a power cut takes bytes of the log that no sync made durable, or makes zeros of them: the last
  ones, all, or some with others behind them. The outputs stand. And `-t restat` or `-t recompact` may be run.

After each build that ended well each output is looked at: is it what its command makes of its inputs? So many kinds of lives are lived, until
STATES (20000) outputs were looked at in each of the first two, and half as many in the others:

- `default`: the patched one as it is, kills and power cuts. No output may be stale;
- `killed`: the same with kills alone. No output may be stale;
- `two`: as `default`, by two Ninjas at once that share the log, and have half of the outputs each. No output may be stale;
- `hands`: the folder changes hands, at random, between the plain one and the patched one. No output that the patched one made last may be stale.
  What the plain one made, and lost, may be;
- `torn`: the folder changes hands in turn, and of no command more is lost than the hash of its line, which may be torn, and be joined by the
  next. Behind a build by the patched one no output may be stale, whoever made it.

Each kind has controls, in which some output has to be stale, else nothing was tried: `plain`, all is built by the plain one; `no intents`, the
patched one has NINJA_LOG_SYNC=none; `no sync`, no sync of the patched one does anything.

A library that is loaded before the C library's tells which bytes of the log were synced, and kills at a call.
"""
import os
import sys

sys.path.insert(0, os.path.dirname(os.path.dirname(os.path.abspath(__file__))))
from lives import live_all

OUTPUTS = 60
KINDS = {"default": 1, "killed": 1, "two": 0.5, "hands": 0.5, "torn": 0.5}
CONTROLS = {"default": ["plain", "no intents", "no sync"], "killed": ["plain", "no intents"], "two": ["plain", "no intents", "no sync"],
            "hands": ["no intents", "no sync"], "torn": ["plain"]}


def main(plain, patched, states="20000", seed=None):
    return live_all(__file__, KINDS, CONTROLS, {"plain": [plain], "patched": [patched]}, states, seed, OUTPUTS, has_tools=True)


if __name__ == "__main__":
    if len(sys.argv) not in (3, 4, 5):
        sys.exit(__doc__)
    sys.exit(main(*map(os.path.abspath, sys.argv[1:3]), *sys.argv[3:]))
