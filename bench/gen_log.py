#!/usr/bin/env python3
"""Writes a build log of version 5 that looks like that of a large C++ tree.

    gen_log.py --entries N --outputs M [--names tree|short|long] [--seed S] > FILE

The same arguments give the same bytes. All M outputs appear once, in order, as a full build leaves them; the other
N - M entries are those of later builds, in which some files are built far more often than others. Names are those of
a tree, of 50 to 90 bytes, or short ones of 6 bytes, or long ones of 200.
"""
import argparse, random, sys

FOLDERS = ["lib/Target/X86/CMakeFiles/LLVMX86CodeGen.dir", "lib/Transforms/Scalar/CMakeFiles/LLVMScalarOpts.dir",
           "lib/CodeGen/GlobalISel/CMakeFiles/LLVMGlobalISel.dir", "obj/content/browser/renderer_host/renderer_host",
           "obj/third_party/blink/renderer/core/layout/layout", "obj/services/network/public/cpp/network_service",
           "gen/protos/autofill/core/browser/proto", "tools/clang/lib/Sema/CMakeFiles/clangSema.dir",
           "unittests/ExecutionEngine/Orc/CMakeFiles/OrcJITTests.dir"]
WORDS = ["Lower", "Select", "Build", "Frame", "Node", "Layout", "Inline", "Vector", "Loop", "Value", "Type", "Print"]
SUFFIXES = [".cpp.o"] * 6 + [".o"] * 2 + [".pb.cc.o", ".inc", ".a", ".stamp"]


def output(i, kind, random_):
    if kind == "short":
        return "o%05x" % i
    pick = lambda xs: xs[random_.randrange(len(xs))]
    name = "%s/%s%s%d%s" % (pick(FOLDERS), pick(WORDS), pick(WORDS), i, pick(SUFFIXES))
    if kind == "long":
        return ("out/of/a/deep/tree/" * 11)[:199 - len(name)] + "/" + name
    return name


def main():
    args = argparse.ArgumentParser(description=__doc__, formatter_class=argparse.RawDescriptionHelpFormatter)
    args.add_argument("--entries", type=int, required=True)
    args.add_argument("--outputs", type=int, required=True)
    args.add_argument("--names", choices=["tree", "short", "long"], default="tree")
    args.add_argument("--seed", type=int, default=1)
    args = args.parse_args()
    if not 0 < args.outputs <= args.entries:
        raise SystemExit("gen_log.py: 0 < outputs <= entries")
    random_ = random.Random(args.seed)
    names = [output(i, args.names, random_) for i in range(args.outputs)]
    hashes = [random_.getrandbits(64) for _ in names]
    write = sys.stdout.write
    write("# ninja log v5\n")
    clock = 0
    for i in range(args.entries):
        at = i
        if i >= args.outputs:
            at = int(random_.random() ** 3 * args.outputs)
            if random_.random() < 0.2:
                hashes[at] = random_.getrandbits(64)
        end = clock + 5 + int(random_.random() ** 2 * 30000)
        mtime = 1700000000 * 10**9 + i * 1000003 + end
        write("%d\t%d\t%d\t%s\t%x\n" % (clock, end, mtime, names[at], hashes[at]))
        clock = 0 if (i + 1) % args.outputs == 0 else clock + int(random_.random() * 12)


main()
