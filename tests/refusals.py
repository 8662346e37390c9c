#!/usr/bin/env python3
"""Tries what holds the gate: the runner of the edits, tests/edits.py, on a small crate that is made for it, and tests/counts.py on what a run may
say: python3 tests/refusals.py

Of contracts it tries which lack the cause of an Err, or what one leaves. Each edit of the table is put in beside the others, and must end as the table says: a bug is refused; a local that has another name is let
through, also where another edit of the batch breaks what its function calls; an edit that doesn't compile, and one whose function or old text
is gone, is an error of its own; one that names a clause which it doesn't break is refused elsewhere. With no edit in them all of these
functions are let through. It wants `rt`. Of each row of tests/counts it fails if less was tried. The last line is `N passed, M failed`.
"""
import contextlib
import io
import os
import re
import subprocess
import sys
import tempfile

import contracts
import counts
from trials import Trials, main_alone

TOP = os.path.dirname(os.path.dirname(os.path.abspath(__file__)))

CODE = """//! Sums, for the trials of the runner of the edits.
#![tactic(auto)]
ghost use Rattle.std.specs.Prelude.{◌≡◌, ◌+◌, ◌≤◌};

use twice as doubled;

const STEP: u32 = 3;

/// Twice the number.
pub fn twice(number: u32) -> u32
    requires small { number ≤ 1000 }
    ensures value { result ≡ number + number }
    ensures larger { number ≤ result }
{
    let sum = number + number;
    sum
}

/// The number after this one.
pub fn next(number: u32) -> u32
    requires small { number ≤ 3000 }
    ensures value { result ≡ number + 1 }
    ensures larger { number ≤ result }
{
    let sum = number + 1;
    sum
}

/// The number after twice this one, by a call that the code's text doesn't name.
pub fn after_twice(number: u32) -> u32
    requires small { number ≤ 1000 }
    ensures value { result ≡ number + number + 1 }
{
    let double = doubled(number);
    double + 1
}

/// The number before the next but one.
pub fn before_two(number: u32) -> u32
    requires small { number ≤ 1000 }
    ensures value { result ≡ number + 1 }
{
    let two = next(number);
    two
}

/// The number three further on.
pub fn stepped(number: u32) -> u32
    requires small { number ≤ 1000 }
    ensures value { result ≡ number + 3 }
{
    number + STEP
}

/// What there may be one more of.
pub trait More {
    fn more(&self, number: u32) -> u32
        requires small { number ≤ 1000 }
        ensures value { result ≡ number + 1 };
}

impl<T> More for T {
    fn more(&self, number: u32) -> u32 {
        1 + number
    }
}

/// The larger one.
pub fn larger(a: u32, b: u32) -> u32
    ensures value { a ≤ result }
    ensures other { b ≤ result }
{
    if a < b { b } else { a }
}
"""

# Each edit: its name, what its first line names, its old and new texts, how it must end, and a word of the message.
EDITS = [
    ("a_sum_is_thrice", "`twice`, clause `value`", [("    let sum = number + number;", "    let sum = number + number + number;")], "refused", "clause-value"),
    ("a_sum_is_thrice_once_more", "`twice`, clause `value`", [("    let sum = number + number;", "    let sum = number + number + number;")], "refused", "clause-value"),
    ("a_local_has_another_name", "`next`, clause `value`", [("    let sum = number + 1;", "    let after = number + 1; let sum = after;")], "LET THROUGH", ""),
    ("a_neighbour_breaks_what_is_called", "`after_twice`, clause `value`", [("let double = doubled(number);", "let twofold = doubled(number);"), ("    double + 1", "    twofold + 1")], "LET THROUGH", ""),
    ("a_neighbour_is_called_by_its_name", "`before_two`, its one clause", [("    let two = next(number);", "    let one = next(number); let two = one;")], "LET THROUGH", ""),
    ("a_constant_is_larger", "`stepped`, clause `value`", [("const STEP: u32 = 3;", "const STEP: u32 = 4;")], "refused", "returns"),
    ("one_more_is_two_of_each_type", "`AnyMore::more`, clause `value`", [("        1 + number", "        2 + number")], "refused", "returns"),
    ("the_other_clause_is_broken", "`larger`, clause `other`", [("if a < b { b } else { a }", "if a < b { b } else { b }")], "REFUSED ELSEWHERE", "clause-value"),
    ("a_type_is_wrong", "`larger`, clause `value`", [("if a < b { b } else { a }", "if a < b { b } else { true }")], "BAD EDIT", "it doesn't compile"),
    ("its_function_is_gone", "`thrice`, clause `value`", [("    number + STEP", "    number")], "BAD EDIT", "`thrice` is the name of 0 functions"),
    ("its_clause_is_gone", "`twice`, clause `count`", [("    let sum = number + number;", "    let sum = number;")], "BAD EDIT", "has no clause `count`"),
    ("its_old_text_is_gone", "`next`, clause `value`", [("    let sum = number + 2;", "    let sum = number;")], "BAD EDIT", "stands 0 times"),
    ("it_names_another_function", "`twice`, clause `value`", [("    number + STEP", "    number")], "BAD EDIT", "it changes `stepped`"),
]
# The functions and clauses that these name, but for those of edits that can't be applied: copies of an edit add none.
PLACES = 8

# Functions, and what the contract of each lacks.
CONTRACTS = [
    ("pub fn a(n: u8) -> Result<u8, Fault>\n    ensures ok { IfOk result (λ m. m ≡ n) }\n{", ["no clause has the cause of an Err"]),
    ("pub fn b(n: u8) -> Result<u8, Fault>\n    ensures cause { OnErr result (n ≡ 0) }\n{", []),
    ("pub fn c(n: u8) -> Result<u8, Fault>\n    ensures faults { IfErr result IsFault }\n{", ["no clause has the cause of an Err"]),
    ("pub fn d<F: Of<u8>>(f: &mut F) -> ToolResult\n    ensures call { Calls result f.old }\n{", ["no clause says what an Err leaves of f"]),
    ("pub fn e(f: &mut Folder) -> ToolResult\n    ensures call {\n        Calls result f.old f.new\n    }\n{", []),
    ("pub fn g(f: &mut Folder) -> ToolResult\n    ensures cause { OnErr result (Is f.old) }\n    ensures ok { IsOk result → f.new ≡ f.old }\n{", ["no clause says what an Err leaves of f"]),
    ("pub fn h(f: &mut Folder) -> ToolResult\n    ensures cause { OnErr result (Is f.old) }\n    ensures rises { f.old ≤ f.new }\n{", []),
    ("pub fn i(f: Folder) -> (Folder, Result<u8, Fault>)\n    ensures { (n : ℕ) → IfOk result.1 (λ m. m ≡ n) }\n{", ["no clause has the cause of an Err"]),
    ("pub fn j(out: &mut Vec<u8>) -> AllocResult\n    ensures ok { IfOk result (λ _. out.new ≡ out.old) }\n{", ["no clause says what an Err leaves of out"]),
    ("pub fn k(n: u8) -> Result<Vec<u8>, AllocError> {", []),
    ("pub trait T {\n    fn l(&mut self, buf: &mut [u8]) -> Result<usize, Fault>\n        ensures call { Reads result self.old self.new };", []),
    ("pub trait T {\n    fn m(&mut self) -> Result<usize, Fault>;", ["no clause has the cause of an Err", "no clause says what an Err leaves of self"]),
    ("fn n(n: u8) -> Result<u8, Fault>\n    ensures call { IsErr result ⊎ Holds n }\n{", ["clause `call` holds of any Err"]),
    ("fn o(n: u8) -> (u8, Result<u8, Fault>)\n    ensures call { (IsErr result.1 × (result.0 ≡ n)) ⊎ Holds n }\n{", ["clause `call` holds of any Err"]),
    ("pub fn q(n: &str) -> ToolResult\n    ensures faults { IfErr result (IsFaultOf n.now) }\n{", []),
    ("pub fn r(n: u8) -> ToolResult\n    ensures faults { IfErr result (λ e. e ≡ ToolFault.Memory) }\n{", []),
    ("pub fn s<R>(n: R) -> ToolResult\nwhere\n    R: Read,\n    ensures cause { OnErr result (Is n) }\n{", []),
    ("pub fn p(n: u8) -> u8\n    ensures { result ≡ n }\n{", []),
]


def made(room):
    """A repository of the one crate."""
    folder = f"{room}/crates/sums"
    for it in ("src", "edits"):
        os.makedirs(f"{folder}/{it}")
    os.mkdir(f"{room}/.git")
    files = {f"{room}/crates.txt": "sums:\n", f"{room}/HANDLES": "Handles allowed: none.\n", f"{folder}/src/lib.rt": CODE}
    for name, place, pairs, _, _ in EDITS:
        lines = [f"why: nothing, it is a trial; refused at {place}", "file: src/lib.rt"]
        files[f"{folder}/edits/{name}.edit"] = "\n".join([*lines, *(f"old: {old}\nnew: {new}" for old, new in pairs)]) + "\n"
    for path, text in files.items():
        with open(path, "w", encoding="utf-8") as it:
            it.write(text)


def told(room, *words):
    """What the runner says of each edit, and its last lines."""
    ran = subprocess.run([sys.executable, f"{TOP}/tests/edits.py", "--tree", room, *words], stdin=subprocess.DEVNULL, stdout=subprocess.PIPE, stderr=subprocess.STDOUT, text=True)
    return dict(re.findall(r"^sums/(\w+): (.*)$", ran.stdout, re.M)), ran.stdout.strip().split("\n")


def try_runner(trials, room):
    made(room)
    said, lines = told(room)
    for name, _, _, end, word in EDITS:
        found = said.get(name, "passed over")
        trials.check(name, found.startswith(end) and word in found, f"it must be '{end}' with '{word}', and it is '{found}'")
    # (beside them one check is made with no edit in it)
    unedited = re.search(r"(?m)^edits.py: tried 1 check with no edit in it: (\d+) functions of sums$", "\n".join(lines))
    trials.want("the places of the edits", [it for it in lines if "places of edits" in it], [f"edits.py: tried {PLACES} places of edits of sums"])
    well = sum(it[3] == "refused" for it in EDITS)
    if trials.check("a check with no edit in it", unedited, lines[-4:]):
        trials.want("the last line", lines[-1], f"{well + int(unedited[1])} passed, {len(EDITS) - well} failed")
    # (an edit by itself ends as it does beside the others)
    for name in ("a_neighbour_breaks_what_is_called", "a_sum_is_thrice"):
        alone, _ = told(room, "--singly", "sums", name)
        trials.want(f"{name}, alone", alone.get(name, "").split(" at ")[0], said.get(name, "").split(" at ")[0])
    unedited, lines = told(room, "--unedited", "sums", "a_sum_is_thrice", "a_constant_is_larger", "the_other_clause_is_broken")
    trials.want("with no edit in them", ({*unedited.values()}, lines[-1]), ({"LET THROUGH"}, "3 passed, 0 failed"))


def try_contracts(trials):
    """What the contracts of the table lack."""
    for text, wanted in CONTRACTS:
        head = list(contracts.FUNCTION.finditer(text))[-1]
        function = contracts.function_at("sums", text, head)
        lacks = [*contracts.unsaid(function), *(contracts.untold(function) if function.is_met() else ())]
        trials.want(text, lacks, wanted)


def said_of(rows, but=None, less=1, skips=()):
    """What a run says that tries what tests/counts wants, but of one row less, or nothing (None), and with these skips."""
    parts, tried = [], []
    for what, row in rows.items():
        number, names = row.number, row.names
        if what == but:
            if less is None:
                continue
            number, names = number - less, names[less:] if less > 0 else names
        if re.match(r"(python3|rt|integrations/\S+)( |$)", what):
            skipped = [f"trial: skipped: {skip}" for skip in skips if what == but]
            parts += [f"part: {what} PROGRAM", *skipped, f"{number} passed, 0 failed"]
        else:
            tried.append(f"edits.py: tried {number} {what}{': ' if names else ''}{' '.join(names)}")
    return "\n".join([*parts[:1], *tried, *parts[1:]])


def try_counts(trials):
    """Each row of tests/counts is held: a run fails if it tries less, or nothing, if a part has no row, and with --strict if it skips
    something."""
    with open(f"{TOP}/tests/counts", encoding="utf-8") as it:
        rows = counts.rows_of(it.read())

    def fails(said, is_strict=False):
        judged = Trials("counts.py")
        with contextlib.redirect_stdout(io.StringIO()):
            counts.judge(judged, rows, said, is_strict)
        return judged.failed

    trials.want("all of tests/counts", fails(said_of(rows)), 0)
    trials.want("nothing", fails(""), sum(not row.is_most for row in rows.values()))
    for what, row in rows.items():
        trials.want(f"one less: {what}", fails(said_of(rows, what)), not row.is_most)
        trials.want(f"one more: {what}", fails(said_of(rows, what, -1)), bool(row.names) or row.is_most)
        trials.want(f"none: {what}", fails(said_of(rows, what, None)), not row.is_most)
        for kind, (number, times) in row.skips.items():
            for less, is_strict, failed in ((number, False, 0), (number + 1, False, 1), (number, True, 1)):
                # (of a part that may be skipped as a whole there is no less)
                if less <= row.number:
                    trials.want(f"{what}, {less} less for {kind}, strict {is_strict}", fails(said_of(rows, what, less, [f"{kind}: why"]), is_strict), failed)
            often = [f"{kind}: why {at}" for at in range(times + 1)]
            trials.want(f"{what}, skipped as often as it may be: {kind}", fails(said_of(rows, what, min(number * times, row.number), often[1:])), 0)
            trials.want(f"{what}, skipped once more than that: {kind}", fails(said_of(rows, what, min(number * times, row.number), often)), 1)
    trials.want("another name", fails(re.sub(r"(tried \d+ axioms of \w+: )\S+", r"\1other::other", said_of(rows))), sum(bool(it.names) for it in rows.values()))
    trials.want("a part without a row", fails(said_of(rows) + "\npart: python3 tests/other.py\n3 passed, 0 failed"), 1)


def main():
    trials = Trials(__file__)
    with tempfile.TemporaryDirectory(prefix="nlog-refusals-") as room:
        try_runner(trials, room)
    try_contracts(trials)
    try_counts(trials)
    return trials.end()


if __name__ == "__main__":
    sys.exit(main_alone(__file__, main))
