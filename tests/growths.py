#!/usr/bin/env python3
"""Refuses each growth of the tests of tests/library/growths in turn, the nth in each, n counted up to the first that it doesn't ask for.

A test ends in Ok where nothing was refused; in `Refused` where the call under test was, or in `Faulted` where that was the growth of its
folder, once it has seen what is left and that the same call then succeeds; in `Setup` where any other growth of the test was refused. Its
last growth is one of its own, in which it ends in `Setup`: so a test that ends in Ok for some n, and for a greater one doesn't, has passed
over a refusal. Each other end is a failure, and so is a test that asks for fewer growths, or more, than stand here.

    python3 tests/growths.py

The tests are made into one program, which is built once, with its growth LAST refused: it takes LAST - n places before the test.

Wants `rt`, and no proof; it is skipped where that is missing.
"""
import os
import re
import shutil
import sys
import tempfile

from library import TEST, crates, lay_out, modules
from trials import BUILD_SECONDS, SECONDS, Trials, main_alone, run, write

CRATE, USES = "nl_growths", "nl_fields nl_lines nl_table nl_folder nl_session"
# The growth that is refused, and no test asks for so many.
LAST = 32

# What each test has to end in for some n, beside Ok and `Setup` (it may end in nothing else), and for how many growths it asks.
REFUSED, FAULTED, BOTH, NONE = {"Refused"}, {"Faulted"}, {"Refused", "Faulted"}, set()
ENDS = {
    "fields::a_name_that_was_refused_is_read": (REFUSED, 2),
    "fields::a_name_that_was_refused_is_copied": (REFUSED, 3),
    "fields::an_entry_that_was_refused_is_copied": (REFUSED, 2),
    "fields::a_refused_line_leaves_the_vector": (REFUSED, 3),
    "fields::a_refused_hash_leaves_the_vector": (REFUSED, 3),
    "lines::a_reader_that_was_refused_is_made": (REFUSED, 2),
    "lines::a_line_takes_no_memory": (NONE, 2),
    "table::a_refused_put_leaves_the_table_and_gives_the_entry_back": (REFUSED, 8),
    "table::a_refused_edge_leaves_the_table": (REFUSED, 20),
    "table::names_that_were_refused_are_a_set": (REFUSED, 4),
    "table::a_log_that_was_refused_is_loaded": (REFUSED, 8),
    "table::a_log_of_version_4_that_was_refused_is_loaded": (REFUSED, 8),
    "opening::an_empty_log_that_was_refused_is_opened": (BOTH, 4),
    "opening::an_empty_log_that_was_refused_is_opened_after_a_crash": (BOTH, 4),
    "opening::a_torn_log_that_was_refused_is_opened": (REFUSED, 9),
    "opening::a_torn_log_that_was_refused_is_mended": (BOTH, 13),
    "opening::a_torn_log_that_was_refused_is_mended_after_a_crash": (BOTH, 13),
    "opening::a_log_that_is_due_and_was_refused_is_opened": (BOTH, 12),
    "opening::a_log_that_is_due_and_was_refused_is_opened_after_a_crash": (BOTH, 12),
    "opening::a_log_of_version_4_that_was_refused_is_opened": (BOTH, 13),
    "opening::a_log_of_version_4_that_was_refused_is_opened_after_a_crash": (BOTH, 13),
    "calls::a_refused_record_leaves_the_log": (BOTH, 12),
    "calls::a_refused_record_leaves_the_log_after_a_crash": (BOTH, 12),
    "calls::a_refused_edge_leaves_the_log": (BOTH, 20),
    "calls::a_refused_edge_leaves_the_log_after_a_crash": (BOTH, 20),
    "calls::a_refused_begin_leaves_the_log": (BOTH, 28),
    "calls::a_refused_begin_leaves_the_log_after_a_crash": (BOTH, 28),
    "calls::a_begin_of_what_has_no_entry_takes_no_memory": (NONE, 13),
    "calls::a_recompaction_takes_no_memory_but_the_folders": (FAULTED, 14),
    "calls::a_recompaction_takes_no_memory_but_the_folders_before_a_crash": (FAULTED, 14),
    "calls::a_restat_takes_no_memory_but_the_folders": (FAULTED, 14),
    "calls::a_restat_takes_no_memory_but_the_folders_before_a_crash": (FAULTED, 14),
    "calls::a_sync_takes_no_memory": (NONE, 12),
    "calls::a_stop_takes_no_memory": (NONE, 10),
    "runs::a_refused_run_leaves_what_its_answers_left": (BOTH, 23),
}

MAIN = """//! One of the tests, after so many growths.
#![tactic(auto)]

%s
use std::rt::Env;
use std::test::Fail;

fn word<'a>(rt: &HostRuntime, place: usize, buf: &'a mut [u8]) -> &'a [u8] {
    match rt.arg(place, buf) {
        Ok(len) => &buf[..len],
        Err(_) => &[],
    }
}

fn main(rt: HostRuntime) -> Result<(), Fail> {
    let (mut name, mut before) = ([0u8; 256], [0u8; 256]);
    for _ in word(&rt, 2, &mut before) {
        let taken: Vec<u8> = Vec::with_capacity(rt.alloc(), 1)?;
        drop(taken);
    }
    match word(&rt, 1, &mut name) {
%s        _ => Err("there is no such test")?,
    }
}
"""


def program(trials, room):
    """Makes the tests into a program, in a copy of the crates that they stand on, and gives their names."""
    src, names, parts = crates(room, CRATE, USES), [], modules(trials, "growths")
    for module, text in parts.items():
        write(f"{src}/{module}.rt", text.encode())
        names += [f"{module}::{it}" for it in re.findall(TEST, text)]
    calls = "".join(f'        b"{name}" => {name}(rt),\n' for name in names)
    write(f"{src}/main.rt", (MAIN % ("".join(f"mod {it};\n" for it in parts), calls)).encode())
    lay_out(trials, src, {f"growths/{it}": text.encode() for it, text in parts.items()}, "growths/")
    for module, text in parts.items():
        write(f"{src}/{module}.rt", re.sub(TEST, r"pub fn \1", text).encode())
    return names


def ends_of(room, names):
    """How each test ended for each n, by its name, and all that was printed."""
    cases = f"{room}/cases"
    os.mkdir(cases)
    for place, name in enumerate(names):
        for nth in range(1, ENDS[name][1] + 2):
            write(f"{cases}/{place}-{nth}", b"")
            before = "x" * (LAST - nth)
            write(f"{cases}/{place}-{nth}.args", f"{name}\n{before}\n".encode())
    words = ["rt", "try", "--seconds", str(SECONDS), "--fail-alloc", str(LAST), "--cases", cases]
    status, _, err = run(words, cwd=f"{room}/crates/{CRATE}", timeout=BUILD_SECONDS)
    text = err.decode(errors="replace")
    ends = {name: [None] * (ENDS[name][1] + 1) for name in names}
    for said, place, nth, how in re.findall(r"(?ms)(.*?)^case=(\d+)-(\d+) run=([^\n]*)\n", text):
        error = re.search(r"(?m)^error: (.*)$", said)
        is_error = error and how.startswith("ended status=1 ")
        ends[names[int(place)]][int(nth) - 1] = "Ok" if how.startswith("ended status=0 ") else error[1] if is_error else f"{how}: {said[-300:]}"
    return ends, f"status {status}, {text[-900:]!r}"


def judge(trials, name, ends):
    """Whether a test ended as it may for each n, and in each way that it must."""
    wanted, growths = ENDS[name]
    for nth, end in enumerate(ends, 1):
        what = f"{name}, growth {nth}"
        trials.check(what, end in wanted | {"Ok", "Setup"}, f"it ended in {end}")
        trials.check(what, end == "Ok" or "Ok" not in ends[: nth - 1], "a growth before this one was refused, and passed over")
    trials.want(f"{name}, what met refusals", wanted & set(ends), wanted)
    trials.want(f"{name}, the last growth that it asks for", len(ends) - ends[::-1].index("Setup") if "Setup" in ends else 0, growths)


def main():
    trials = Trials(__file__)
    if len(sys.argv) > 1:
        trials.check("it takes no word", False)
    elif shutil.which("rt") is None:
        trials.skip("a growth that is refused in each test", "rt isn't there")
    else:
        with tempfile.TemporaryDirectory() as room:
            names = program(trials, room)
            if trials.want("the tests", set(names), set(ENDS)):
                ends, printed = ends_of(room, names)
                if trials.check("each test ran for each growth", all(None not in it for it in ends.values()), printed):
                    for name in ENDS:
                        judge(trials, name, ends[name])
                    print(f"{os.path.basename(__file__)}: growth {max(it for _, it in ENDS.values())} was the last that a test asked for")
    return trials.end()


if __name__ == "__main__":
    sys.exit(main_alone(__file__, main))
