#!/usr/bin/env python3
"""Crashes builds by samurai and by samurai on the library, and counts the stale outputs that each takes for fresh.

    python3 integrations/samurai/stale.py PLAIN PATCHED [STATES [SEED]]

PLAIN and PATCHED are programs muon. The lives are those of integrations/ninja/stale.py, which says what a life is and how its builds crash. Here a
folder has OUTPUTS outputs, so that the log is longer than what samurai keeps in memory of it. Until STATES (20000) outputs were looked at in each
of the first two, and half as many in the others:

- `default`: the patched one as it is, kills and power cuts. No output may be stale;
- `killed`: the same with kills alone. No output may be stale;
- `two`: as `default`, by two samurais at once that share the log, and have half of the outputs each. No output may be stale;
- `hands`: the folder changes hands, at random, between the plain one and the patched one. No output that the patched one made last may be stale.
  What the plain one made, and lost, may be.

Each kind has the controls `plain`, `no intents` and `no sync`, in which some output has to be stale, else nothing was tried.
"""
import os
import sys

sys.path.insert(0, os.path.dirname(os.path.dirname(os.path.abspath(__file__))))
from lives import live_all

OUTPUTS = 150
KINDS = {"default": 1, "killed": 1, "two": 0.5, "hands": 0.5}
CONTROLS = {"default": ["plain", "no intents", "no sync"], "killed": ["plain", "no intents"], "two": ["plain", "no intents", "no sync"],
            "hands": ["no intents", "no sync"]}


def main(plain, patched, states="20000", seed=None):
    return live_all(__file__, KINDS, CONTROLS, {"plain": [plain, "samu"], "patched": [patched, "samu"]}, states, seed, OUTPUTS)


if __name__ == "__main__":
    if len(sys.argv) not in (3, 4, 5):
        sys.exit(__doc__)
    sys.exit(main(*map(os.path.abspath, sys.argv[1:3]), *sys.argv[3:]))
