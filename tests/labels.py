#!/usr/bin/env python3
"""Holds the table of clause labels in CONTRIBUTING.md to the code, and contracts to what each owes: python3 tests/labels.py

A label that crosses crates stands in the table, in a row of its own, and each row is of such a label: one that callers meet in two crates
or more. They meet a clause of a public function, of a method of a trait or of a type's trait, and a part of a call's relation (a field of a
record of a `specs/Calls` of RELATIONS, whose clause is `call`); laws.rt is left out. A row has one sense: none has a label that another has,
a semicolon, or a cell of more than CELL words. Each edit can be applied, and its first line names the function that it changes and a clause
of it.

Contracts are total: of a public function or a method of a trait that answers a Result, a clause has the cause of an Err, and one says of each
parameter that it may change what an Err leaves of it. No clause at all, of whatever function, is met by any Err. Of each crate it says how many
there are that lack this, of which tests/counts has the most. It reads the repository's texts alone, and needs no toolchain.
"""

import collections
import re
import sys

from contracts import functions_of, sources, unsaid, untold
from edits import TOP, BadEdit, Edit, crates, text_of
from trials import Trials, main_alone

LAWS = "laws.rt"
# The words of a cell, at most.
CELL = 30
RECORD = re.compile(r"^pub record (\w+).*\n(?:    .*\n)*((?:  (?:pub|  |--).*\n)*)", re.MULTILINE)
FIELD = re.compile(r"^  pub (\w+) :", re.MULTILINE)

# The crates with relations of calls in specs/Calls, and the records there that are values and no relations.
RELATIONS = ("nl_session", "nl_tool_change")
VALUES = {"FolderView", "Meaning"}


def rows_of_table(page):
    """The rows of the table, each as its labels and the cell of what they say. Rows that name a theme have no label."""
    rows = page[page.index("| Label | Says |") :].split("\n\n")[0].split("\n")[2:]
    cells = [it.strip("|").split("|") for it in rows]
    return [(re.findall(r"`([a-z]\w*)`", it[0]), it[1]) for it in cells if "`" in it[0]]


def labels_in_use():
    """Each label that callers meet outside of laws, with the crates where they do."""
    found = collections.defaultdict(set)
    for path in sources(LAWS):
        for function in functions_of(path):
            for clause in function.clauses if function.is_met() else ():
                if clause.label and clause.kind in ("ensures", "requires"):
                    found[clause.label].add(function.crate)
    for crate in RELATIONS:
        for name, fields in RECORD.findall(text_of(f"{TOP}/crates/{crate}/specs/Calls.antt")):
            for field in FIELD.findall(fields) if name not in VALUES else []:
                found[field].add(crate)
    return found


def faults_of_table(rows, used):
    """Says of each row and of each label that crosses crates what is wrong with it, if something is."""
    times = collections.Counter(label for labels, _ in rows for label in labels)
    for labels, says in rows:
        name = ", ".join(labels)
        yield None if len(labels) == 1 else f"{name}: a row of the table in CONTRIBUTING.md has {len(labels)} labels"
        yield None if ";" not in says else f"{name}: the table in CONTRIBUTING.md has two senses of it"
        yield None if len(says.split()) <= CELL else f"{name}: its cell in CONTRIBUTING.md has {len(says.split())} words"
    for label, crates in sorted(used.items()):
        if len(crates) > 1:
            where = ", ".join(sorted(crates))
            yield None if label in times else f"{label}: callers meet it in {where}, and the table in CONTRIBUTING.md doesn't have it"
    for label, count in sorted(times.items()):
        yield None if len(used.get(label, ())) > 1 else f"{label}: it stands in the table in CONTRIBUTING.md, and crosses no crates"
        yield None if count == 1 else f"{label}: the table in CONTRIBUTING.md has it {count} times"


def faults_of_edits():
    """Says of each edit why it can't be tried, if it can't."""
    for crate in crates(TOP).values():
        for name in crate.edits():
            try:
                Edit(crate, name)
                yield None
            except BadEdit as why:
                yield f"{crate.name}/{name}: {why}"


def lacks():
    """What the contracts of each crate lack of being total."""
    found = collections.defaultdict(list)
    for path in sources(LAWS):
        for function in functions_of(path):
            owes = function.is_met() and function.owner != "impl .. for"
            for lack in (*unsaid(function), *(untold(function) if owes else ())):
                found[function.crate].append(f"{path[len(TOP) + 1 :]}: {function.name}: {lack}")
    return found


def main():
    trials = Trials(__file__)
    for crate, found in lacks().items():
        if found:
            print("\n".join([*found, f"{trials.script}: tried {len(found)} lacks of contracts of {crate}"]))
    for fault in (*faults_of_table(rows_of_table(text_of(f"{TOP}/CONTRIBUTING.md")), labels_in_use()), *faults_of_edits()):
        trials.check(fault, not fault)
    return trials.end()


if __name__ == "__main__":
    sys.exit(main_alone(__file__, main))
