#!/usr/bin/env python3
"""Tries the edits of crates/NAME/edits: each puts a bug into one function, which the prover must refuse at the clause that the edit names.

    python3 tests/edits.py [--singly] [--lanes N] [--times] [CRATE [EDIT ..]]

An edit is a file NAME.edit: a line `why:`, what would break for a user, and then `; refused at `PLACE`, clause `LABEL``; a line `file:`; and
lines `old:` and `new:` by twos, each old text standing once in the file. It changes code, and no contract, definition or proof.

Many edits are put into a copy of the crate at once, and one check tells of each. No two of them are in one function, or in a function and
one that it calls: the check doesn't try what waits for a callee. Only the edited functions are checked. Every other function is taken by its
contract, which the gate has proved: its body is `unreachable!()`, which costs least, and its proof is a hole. An edit of a constant stands
alone, and what it names is checked. It takes the libraries that the gate or `rt check` left in crates/*/out, where these are not older than
their sources, and else has `rt check` make them.

An edit is refused where its own function is, at a goal of the clause that it names. Every other end is a failure: it is let through, it is
refused elsewhere, it doesn't compile, or it can't be applied. With --singly each edit is in a check of its own, with --times each line has
the seconds that its function took.

A run over all crates ends with one of the checks, with no edit in it, where each function must be let through: else the runner refuses what it
should not. The commit's hash says which, so that each comes round. The last line is `N passed, M failed`.
Of each crate it says how many places its edits name, a function with a clause or a goal: copies of an edit add none.
"""
import argparse
import concurrent.futures
import os
import re
import resource
import shutil
import subprocess
import sys
import tempfile
import threading
import time
from glob import glob

from trials import main_alone

TOP = os.path.dirname(os.path.dirname(os.path.abspath(__file__)))
# What a check takes at the most, in bytes.
MEMORY = 3_000_000_000
QUIET = {"stdin": subprocess.DEVNULL, "stdout": subprocess.PIPE, "stderr": subprocess.STDOUT, "errors": "replace", "text": True}

HEAD = re.compile(r"^(\s*)(?:pub(?:\([^)]*\))?\s+)?(?:(?:const|unsafe|extern \"C\")\s+)*fn\s+(\w+)")
NAMED = re.compile(r"; refused at `([^`]+)`, (?:clauses? `(\w+)`(?: and `(\w+)`)?|goal `([^`]+)`|its one clause)$")
CLAUSE = re.compile(r"\bensures\*?\s+([a-z]\w*)\s*\{")
# What a proof file says where the edit took away a name that it cites: this tells little of the contract.
TAKEN_AWAY = re.compile(r"has no field|is not in scope|has no `|was not admitted|was rejected|were rejected|was not checked|were not checked")


class BadEdit(Exception):
    """An edit that can't be tried, and why."""


# -- the sources --------------------------------------------------------------------------------------------------------------------------


def text_of(path):
    with open(path, encoding="utf-8") as it:
        return it.read()


def write(path, text):
    with open(path, "w", encoding="utf-8") as it:
        it.write(text)


def parts_of(text):
    """The parts of a list between commas, where angle and round brackets are closed."""
    found, depth = [""], 0
    for at, it in enumerate(text):
        depth += (it in "<(") - (it in ")" or it == ">" and text[at - 1] != "-")
        if it == "," and not depth:
            found.append("")
        else:
            found[-1] += it
    return [it.strip() for it in found if it.strip()]


def type_name(text, parameters):
    """What a check calls a type, or a trait: its name and those of what it is of, less lifetimes and the block's own parameters."""
    text = re.sub(r"^(&|'\w+ |mut )+", "", text.strip())
    if text.startswith("("):
        parts = parts_of(text[1:-1])
        return f"Tuple{len(parts)}{''.join(type_name(it, parameters) for it in parts)}"
    name, _, rest = text.partition("<")
    name = name.rpartition("::")[2].strip()
    of = "".join(type_name(it, parameters) for it in parts_of(rest.rpartition(">")[0]) if not it.startswith("'"))
    return "" if name in parameters else name[:1].upper() + name[1:] + of


def of_impl(head, others):
    """What a check calls an impl block: its type (`Any` of a block for each type) and its trait. `others`: other names of types, with what
    these are of."""
    head = re.sub(r"\s+where\b.*|\s*\{.*", "", head).strip()
    parameters = set()
    if head.startswith("<"):
        parameters = {re.sub(r"^const ", "", it).partition(":")[0].strip() for it in parts_of(head[1 : end_of(head)])}
        head = head[end_of(head) + 1 :]
    trait, is_of, whom = head.partition(" for ")
    name, _, rest = head.partition("<")
    # The block of one instance of a type has what that is of in its name.
    own = [it for it in parts_of(rest.rpartition(">")[0]) if not it.startswith("'") and it not in parameters]
    if not is_of and (name.strip() in others or own):
        return "+".join([name.strip(), *parts_of(rest.rpartition(">")[0])])
    return (type_name(whom, parameters) or "Any") + type_name(trait, parameters) if is_of else type_name(head, parameters)


def end_of(head):
    """Where the first angle bracket of a text is closed."""
    depth = 0
    for at, it in enumerate(head):
        depth += (it == "<") - (it == ">" and head[at - 1] != "-")
        if not depth:
            return at
    return len(head) - 1


class Function:
    """A function as `rt fmt` lays it out: the path that a check prints, its first line, the first of its body, and its last."""

    def __init__(self, path, file, first, body, last, lines):
        self.path, self.file, self.first, self.body, self.last = path, file, first, body, last
        # (the rows between the braces)
        opened = [row for row in range(first, last) if lines[row].endswith("{") and (row in (first, body) or lines[row].startswith(lines[last][:-1] + ")"))]
        self.inner = range(opened[-1] + 1, last) if opened else range(last, last)
        self.head, self.text = lines[first:body], "\n".join(lines[body : last + 1])
        self.clauses = CLAUSE.findall("\n".join(self.head))

    def calls(self, other, text):
        """Whether a text of this function's body may call the other function, by its name, and by its type's if it has one."""
        *_, of, name = ["", *other.path.split("::")]
        if not of[:1].isupper():
            return bool(re.search(rf"(?<![.\w]){name}\b", text))
        own, of = self.path.split("::")[-2:-1] == [of], of.partition("+")[0]
        named = rf"\.{name}\(|\b{of}(::<[^>]*>)?::{name}\b" + (rf"|\bSelf::{name}\b" if own else "")
        return bool(re.search(named, text)) or name == "from" and "?" in text


def functions(file, text):
    """The functions of a file that have a body of their own, less those of a trait."""
    lines, found, block = text.split("\n"), [], ""
    others = set(re.findall(r"(?m)^(?:pub(?:\([^)]*\))? )?type (\w+)<", text))
    module = [it for it in file[len("src/") : -len(".rt")].split("/") if it not in ("lib", "main", "mod")]
    # (a method of a type's own block is named by the module that the type is of)
    homes = {it: path.split("::") for path, names in re.findall(r"(?m)^use crate::([\w:]+)::(\{[^}]*\}|\w+);", text) for it in re.findall(r"\w+", names)}
    for first, line in enumerate(lines):
        if line.startswith("impl"):
            block = of_impl(line[len("impl") :], others)
        elif re.match(r"(pub(\([^)]*\))? )?(unsafe )?trait\b", line):
            block = None
        elif line == "}":
            block = ""
        head = HEAD.match(line)
        if not head or block is None:
            continue
        body = last = first
        if not line.endswith(("}", ";")):
            for last in range(first, len(lines)):
                if lines[last].rstrip() == head[1] + "}":
                    break
                if lines[last] == head[1] + "{" or last == first and line.endswith("{"):
                    body = last
        home = homes.get(block, module) if head[1] else module
        path = "::".join([*home, *([block] if head[1] and block else []), head[2]])
        found.append(Function(path, file, first, body, last, lines))
    return found


class Crate:
    """A crate of crates.txt: its folder, its functions, the crates below it, and the words of a check of it."""

    def __init__(self, top, name, listed, is_static):
        self.top, self.name, self.folder, self.is_static = top, name, f"{top}/crates/{name}", is_static
        self.deps = [it for it in listed[name] if it in listed]
        self.of_kit = ["std", *[it for it in listed[name] if it not in listed]]
        self.below_of = lambda it: dict.fromkeys(below for own in listed[it] if own in listed for below in [own, *self.below_of(own)])
        self.below = [*self.below_of(name)]
        self.root = next(it for it in ("src/lib.rt", "src/main.rt") if os.path.exists(f"{self.folder}/{it}"))
        self.functions = {}
        for path in sorted(glob(f"{self.folder}/src/**/*.rt", recursive=True)):
            file = os.path.relpath(path, self.folder)
            self.functions.update({it.path: it for it in functions(file, text_of(path))})

    def named(self, place):
        """The functions of this name: by a suffix of the path, or by the type and the method of a trait's impl."""
        of, _, name = place.rpartition("::")
        found = [it for path, it in self.functions.items() if f"::{path}".endswith(f"::{place}")]
        return found or [it for path, it in self.functions.items() if of and re.search(rf"::{re.escape(of)}[A-Z]\w*::{name}$", f"::{path}")]

    def edits(self):
        return sorted(os.path.basename(it)[: -len(".edit")] for it in glob(f"{self.folder}/edits/*.edit"))

    def library(self, name):
        return f"{self.top}/crates/{name}/out/rlib/{name}.rlib"

    def is_built(self, name):
        """Whether a library is there, and no older than the sources of its crate and of the crates below."""
        if not os.path.isdir(self.library(name)):
            return False
        folders = [f"{self.top}/crates/{it}/{part}" for it in (name, *self.below_of(name)) for part in ("src", "specs", "proofs")]
        return max(os.path.getmtime(it) for at in folders for it in glob(f"{at}/**/*.*", recursive=True)) <= os.path.getmtime(self.library(name))

    def build_below(self):
        """Has `rt` make the libraries below where one is missing or old. Those of the gate have no stamp, and stand together alone."""
        stamped = {os.path.exists(f"{os.path.dirname(self.library(it))}/stamp") for it in self.below}
        if len(stamped) < 2 and all(map(self.is_built, self.below)):
            return
        ran = subprocess.run(["rt", "check", "--only", ""], cwd=self.folder, **QUIET)
        if ran.returncode:
            raise SystemExit(f"edits.py: the libraries below {self.name} can't be made: {ran.stdout[-600:]}")

    def words(self, kit, jobs=1):
        """The words of `rattle check` for this crate, those of `rt check` but for what is kept."""
        words = ["--crate-name", self.name, self.root]
        for name in self.of_kit:
            words += ["--extern", f"{name}={kit}/rlibs/{name}.rlib"]
        words += ["-L", f"dependency={kit}/rlibs"]
        for name in self.deps:
            words += ["--extern", f"{name}={self.library(name)}"]
        for name in self.below:
            words += ["-L", f"dependency={os.path.dirname(self.library(name))}"]
        words += ["--antt-project", f"{kit}/rattle/logic/antt-project.json", "--logic-built", f"{kit}/logic_built"]
        return words + ["--links", f"{self.name}=", "--jobs", f"{jobs}"] + ["--crate-type", "staticlib"] * self.is_static


def kit_of():
    """The folder of the toolchain."""
    return os.path.dirname(subprocess.run(["rt", "doc"], stdout=subprocess.PIPE, text=True, check=True).stdout.strip())


def crates(top):
    """The crates of crates.txt, by name."""
    listed, static = {}, set()
    for line in text_of(f"{top}/crates.txt").split("\n"):
        name, is_crate, rest = line.partition("#")[0].partition(":")
        if is_crate:
            listed[name.split()[0]] = rest.split()
            static |= {name.split()[0]} if "staticlib" in name.split() else set()
    return {name: Crate(top, name, listed, name in static) for name in listed}


# -- the edits ----------------------------------------------------------------------------------------------------------------------------


class Edit:
    """An edit of a crate: the texts that it makes, the function that it changes, and the one that must be refused, with the clauses."""

    def __init__(self, crate, name):
        self.crate, self.name, self.texts, self.lines, why, file, old = crate, name, {}, {}, "", None, None
        self.seconds, self.apart = 0, set()
        changed = set()
        for line in text_of(f"{crate.folder}/edits/{name}.edit").split("\n"):
            if line.startswith("why: "):
                why = line
            elif line.startswith("file: "):
                file = line[6:].strip()
                if not file.startswith("src/") or not os.path.exists(f"{crate.folder}/{file}"):
                    raise BadEdit(f"there is no file {file} of the crate's code")
            elif line.startswith("old: "):
                old = line[5:]
            elif line.startswith("new:"):
                if not file or not old:
                    raise BadEdit("a 'new:' line stands before a 'file:' or an 'old:' line")
                changed |= self.replace(file, old, line[4:][1:])
                old = None
        if not changed:
            raise BadEdit("it has no 'old:' and 'new:' lines")
        self.named(why, changed)

    def replace(self, file, old, new):
        """Puts the new text in the place of the old one, and gives the function in which that stands."""
        text = self.texts.get(file) or text_of(f"{self.crate.folder}/{file}")
        if text.count(old) != 1:
            raise BadEdit(f"an 'old:' text stands {text.count(old)} times in {file}, and not once")
        row = text[: text.index(old)].count("\n")
        self.texts[file] = text.replace(old, new)
        self.lines.setdefault(file, set()).add(row)
        return {next((it for it in self.crate.functions.values() if it.file == file and it.body <= row <= it.last), None)}

    def named(self, why, changed):
        """Finds the function that the first line names: the changed function, if one is changed."""
        found = NAMED.search(why)
        if not found:
            raise BadEdit("its first line isn't 'why: ..; refused at `PLACE`, clause `LABEL`'")
        place, *clauses, self.goal = found.groups()
        self.clauses = [it for it in clauses if it]
        places = self.crate.named(place)
        if len(places) != 1:
            raise BadEdit(f"`{place}` is the name of {len(places)} functions of the crate, and not of one")
        self.function, self.is_wide = places[0], None in changed or len(changed) > 1
        if not self.is_wide and changed != {self.function}:
            raise BadEdit(f"it changes `{changed.pop().path}`, and names `{place}`")
        lacking = [it for it in self.clauses if it not in self.function.clauses]
        if lacking and self.function.clauses:
            raise BadEdit(f"`{place}` has no clause `{lacking[0]}`")

    def new_text(self):
        """The changed lines, as they are then."""
        return "\n".join(self.texts[file].split("\n")[row] for file, rows in self.lines.items() for row in rows)

    def places(self):
        """The function with each clause, or the goal, that the first line names."""
        return {(self.function.path, it) for it in self.clauses or [self.goal or ""]}

    def meets(self, goals):
        """Whether one of the goals is of what this edit names."""
        if self.goal:
            return any(self.goal == it or it.startswith(f"{self.goal}-") for it in goals)
        # (where a clause has the goal for itself, as one that stands alone or has a star, the goal has no label)
        return bool(goals) and all(
            any(re.search(rf"clause-{it}(-|$)", goal) or goal.startswith("returns") and "clause-" not in goal for goal in goals) for it in self.clauses or [""]
        )

    def stands_with(self, other):
        """Whether both can be tried in one check."""
        if self.is_wide or other.is_wide or self.function is other.function or other.name in self.apart or self.name in other.apart:
            return False
        return not any(a.function.calls(b.function, a.function.text + a.new_text()) for a, b in ((self, other), (other, self)))


def batches(edits, singly):
    """Puts edits together, first those that stand with the fewest others."""
    made = []
    apart = {it: sum(not it.stands_with(other) for other in edits) for it in edits}
    for it in sorted(edits, key=lambda it: -apart[it]):
        room = [] if singly else [batch for batch in made if all(it.stands_with(other) for other in batch)]
        room[0].append(it) if room else made.append([it])
    return made


# -- the checks ---------------------------------------------------------------------------------------------------------------------------


HOLE = """use Rattle.{crate}.proofs.{dotted}.Statement.{{statement}}

pub {name}_spec : {{M : Type 1}} → statement M
{name}_spec = ?
"""


class Room:
    """A copy of a crate, in which batches are checked one after another over what the checks before them kept."""

    def __init__(self, crate, kit, folder, is_unedited):
        self.crate, self.kit, self.folder, self.is_unedited = crate, kit, f"{folder}/nlog-edits-{crate.name}", is_unedited
        for part in ("src", "specs", "proofs"):
            if os.path.isdir(f"{crate.folder}/{part}"):
                shutil.copytree(f"{crate.folder}/{part}", f"{self.folder}/{part}")

    def hold(self, asked):
        """Puts a hole in the place of the proof of each function that is not asked for."""
        for path in self.crate.functions:
            own, to = (f"{at}/proofs/{path.replace('::', '/')}" for at in (self.crate.folder, self.folder))
            shutil.rmtree(to, ignore_errors=True)
            if path not in asked:
                os.makedirs(to)
                write(f"{to}/Proof.antt", HOLE.format(crate=self.crate.name, dotted=path.replace("::", "."), name=path.rpartition("::")[2]))
            elif os.path.isdir(own):
                shutil.copytree(own, to)

    def check(self, batch):
        """Checks the functions of a batch with its edits: what was said, and when the check had ended with each function."""
        asked = {it.function.path for it in batch}
        self.hold(asked)
        files = {it.file for it in self.crate.functions.values()} | {file for it in batch for file in it.texts}
        made = {file: text_of(f"{self.crate.folder}/{file}").split("\n") for file in files}
        edited = {(file, row) for it in batch for file, rows in it.lines.items() for row in rows}
        for it in self.crate.functions.values():
            # (lines stay where they are, because what is said of a goal names its line)
            if it.path not in asked and it.inner and edited.isdisjoint((it.file, row) for row in it.inner):
                made[it.file][it.inner.start : it.inner.stop] = ["unreachable!()"] + [""] * (len(it.inner) - 1)
        for it in batch:
            for file, rows in it.lines.items():
                for row in rows if not self.is_unedited else ():
                    made[file][row] = it.texts[file].split("\n")[row]
        for file, lines in made.items():
            write(f"{self.folder}/{file}", "\n".join(lines))
        words = [f"{self.kit}/bin/rattle", "check", *self.crate.words(self.kit), "--incremental", "kept", "--progress", "--allow-holes"]
        words += [it for path in sorted(asked) for it in ("--only", path)]
        said, times, last = [], {}, time.time()
        with subprocess.Popen(words, cwd=self.folder, **QUIET) as ran:
            for line in ran.stdout:
                said.append(line)
                found = re.match(rf"checked {self.crate.name}::(\S+), ", line)
                if found:
                    times[found[1]] = time.time() - last
                last = time.time()
        if ran.returncode not in (0, 1):
            last = said[-1].strip() if said else "it said nothing"
            raise SystemExit(f"edits.py: a check of {self.crate.name} ended with status {ran.returncode}: {last}")
        return "".join(said), times


class Told:
    """What a check told: whether it reached the prover, and of each function whether it is refused, at which goals of its own, and what waits."""

    def __init__(self, crate, batch, said):
        self.reached = bool(re.search(r"^only=\d+ \w+=\d+$", said, re.M))
        self.line, self.goals, self.waiting, self.unread = {}, {}, {}, []
        for name, rest in re.findall(rf"^fn {crate.name}::(\S+): (.*)$", said, re.M):
            own, _, calls = rest.partition("; it calls ") if "; it calls " in rest else rest.partition(": it calls ")
            self.line[name] = rest
            self.waiting[name] = [it[len(crate.name) + 2 :] for it in re.findall(r"`([^`]+)`", calls)]
            self.goals[name] = re.findall(r"`([^`]+)`", own.partition("did not prove ")[2])
        for file, row, goal in re.findall(r"^note: (?:\./)?(src/\S+?):(\d+):\d+: it is not proved [^\n]*?\(`([^`]+)`\)", said, re.M):
            of = [it.path for it in crate.functions.values() if it.file == file and it.first < int(row) <= it.last + 1]
            self.goals.setdefault(of[-1] if of else "", []).append(goal)
        for path, text in re.findall(r"^(?:\./)?proofs/(\S+?)/\w+\.antt:\d+:\d+: error: (.*)$", said, re.M):
            goal = re.match(r"`([^`]+)`", text)
            if goal and not TAKEN_AWAY.search(text):
                self.goals.setdefault(path.replace("/", "::"), []).append(goal[1])
        self.untried = re.findall(rf"has not tried the goals of `{crate.name}::([^`]+)`", said)
        # (an error in the code, and none of a goal: it doesn't compile, or a text can't be read)
        errors = re.findall(r"^(?:\./)?(src/\S+?):(\d+):\d+: error(?:\[[^\]]*\])?: (.*)$", said, re.M)
        self.broken = [(file, int(row), text) for file, row, text in errors]

    def of(self, path):
        """The function's own goals that are refused, and those of its closures."""
        *module, name = path.split("::")
        closure = f"::fn::{'::'.join(module[-1:] + [name]) if module[-1:] and module[-1][:1].isupper() else name}::"
        return [*dict.fromkeys(goal for at, goals in self.goals.items() for goal in goals if at == path or closure in f"::{at}")]


def judge(edit, told, batch):
    """The end of an edit: refused, let through, .. or None where another edit of the batch hides it, which is then kept apart."""
    path = edit.function.path
    goals, line = told.of(path), told.line.get(path, "")
    if edit.meets(goals):
        return "refused", goals
    others = {it.function.path: it for it in batch if it is not edit}
    if told.waiting.get(path) and not goals or path in told.untried:
        behind = [others[it] for it in told.waiting.get(path, []) if it in others]
        if others:
            edit.apart |= {it.name for it in behind or others.values()}
            return None, goals
    if re.match(r"proved|no holes|depends on a hole in", line):
        return "LET THROUGH", goals
    if goals:
        return "REFUSED ELSEWHERE", goals
    return "NO VERDICT", [line or "nothing was said of it"]


def broken(told, batch):
    """The edits of a batch that don't compile: those on whose lines an error stands."""
    return [(it, text) for it in batch for file, row, text in told.broken if row - 1 in it.lines.get(file, ())]


def tried(crate, edits, kit, given, say):
    """Tries the edits of a crate, and says of each how it ended. Gives how many were refused as they must be, and how many not."""
    passed = failed = checks = tries = 0
    todo = edits
    with tempfile.TemporaryDirectory(prefix="nlog-edits-") as folder:
        room, wanted = Room(crate, kit, folder, given.unedited), "LET THROUGH" if given.unedited else "refused"
        while todo:
            again = []
            for batch in batches(todo, given.singly or tries > 3):
                said, times = room.check(batch)
                told, ends = Told(crate, batch, said), []
                if given.keep:
                    write(f"{given.keep}/{crate.name}.{checks}", said)
                checks += 1
                if not told.reached:
                    bad = dict((it.name, (it, text)) for it, text in broken(told, batch))
                    if not bad and len(batch) > 1:
                        # (an error elsewhere, as of a name that an edit took: it is one of these, and each tells by itself)
                        for it in batch:
                            it.apart |= {other.name for other in batch}
                        again += batch
                        continue
                    last = said.strip().split("\n")[-1][:200]
                    for it in batch:
                        if it.name in bad or len(batch) == 1:
                            ends.append((it, "BAD EDIT", [f"it doesn't compile: {bad[it.name][1] if it.name in bad else last}"]))
                        else:
                            again.append(it)
                else:
                    for it in batch:
                        end, goals = judge(it, told, batch)
                        ends.append((it, end, goals)) if end else again.append(it)
                for it, end, goals in ends:
                    passed, failed = passed + (end == wanted), failed + (end != wanted)
                    it.seconds = sum(spent for at, spent in times.items() if at == it.function.path)
                    say(it, end, goals)
            todo, tries = again, tries + 1
    return passed, failed


def sampled(top, work):
    """A crate and the edits of one check, by the hash of the last commit, or the first ones if there is no commit."""
    made = [(crate, batch) for crate, edits in work for batch in batches(edits, False)]
    said = subprocess.run(["git", "rev-parse", "HEAD"], cwd=top, **QUIET)
    crate, batch = made[int(said.stdout, 16) % len(made) if said.returncode == 0 else 0]
    return crate, [Edit(crate, it.name) for it in batch]


def lanes_of(number):
    """How many checks run side by side: one a processor, and as many as the free memory holds."""
    with open("/proc/meminfo", encoding="ascii") as it:
        free = int(re.search(r"MemAvailable:\s+(\d+)", it.read())[1]) * 1024
    return number or max(1, min(len(os.sched_getaffinity(0)), free // MEMORY))


def main():
    words = argparse.ArgumentParser(description=__doc__.split("\n\n")[0])
    words.add_argument("--singly", action="store_true", help="each edit in a check of its own")
    words.add_argument("--lanes", type=int, default=0, help="so many checks side by side, in place of one a processor")
    words.add_argument("--unedited", action="store_true", help="the same checks with no edit in them: each function must be let through")
    words.add_argument("--keep", metavar="FOLDER", help="a folder for what each check says, in a file CRATE.N")
    words.add_argument("--times", action="store_true", help="each line has the seconds that its function took")
    words.add_argument("--tree", default=TOP, help="another repository than this one")
    words.add_argument("names", nargs="*", metavar="CRATE [EDIT ..]", help="one crate alone, or some of its edits")
    given = words.parse_args()
    kit = kit_of()
    found, printing, passed, failed, work = crates(os.path.abspath(given.tree)), threading.Lock(), 0, 0, []
    if given.names and given.names[0] not in found:
        words.error(f"crates.txt has no crate {given.names[0]}")

    def say(edit, end, goals):
        shown = ", ".join(f"`{it}`" if end != "BAD EDIT" else it for it in goals[: 6 if given.names else 2])
        more = f" and {len(goals) - 2} more" if not given.names and len(goals) > 2 else ""
        at = f" at `{edit.function.path}`: {shown}{more}" if end == "refused" else f": {shown}" if shown else ""
        with printing:
            print(f"{edit.crate.name}/{edit.name}: {end}{at}{f' [{edit.seconds:.1f} s]' if given.times else ''}", flush=True)

    def tell(edit, end, goals):
        if end != "LET THROUGH":
            print(f"{edit.crate.name}/{edit.name}: with no edit in it, `{edit.function.path}` is {end}: {', '.join(goals[:2])}", flush=True)

    for crate in found.values():
        names, edits = crate.edits(), []
        if given.names[:1] and crate.name != given.names[0]:
            continue
        for name in given.names[1:] or names:
            try:
                if name.removesuffix(".edit") not in names:
                    raise BadEdit("there is no such edit")
                edits.append(Edit(crate, name.removesuffix(".edit")))
            except BadEdit as why:
                failed += 1
                print(f"{crate.name}/{name}: BAD EDIT: {why}", flush=True)
        if edits:
            crate.build_below()
            work.append((crate, edits))
    # (those that take the longest first)
    work.sort(key=lambda it: -len(it[1]) * sum(len(f.text) for f in it[0].functions.values()))
    tasks = [(*it, kit, given, say) for it in work]
    if work and not given.names and not given.unedited:
        tasks.append((*sampled(given.tree, work), kit, argparse.Namespace(**{**vars(given), "unedited": True}), tell))
    with concurrent.futures.ThreadPoolExecutor(lanes_of(given.lanes)) as pool:
        for (crate, edits, *_, how), (good, bad) in zip(tasks, pool.map(lambda it: tried(*it), tasks)):
            passed, failed = passed + good, failed + bad
            places = {it for edit in edits for it in edit.places()}
            print(f"edits.py: tried {len(places)} places of edits of {crate.name}" if how is say else f"edits.py: tried 1 check with no edit in it: {len(edits)} functions of {crate.name}")
    used = resource.getrusage(resource.RUSAGE_CHILDREN)
    print(f"{len(work)} crates, {used.ru_utime + used.ru_stime:.0f} s of processors")
    print(f"{passed} passed, {failed} failed")
    return bool(failed)


if __name__ == "__main__":
    sys.exit(main_alone(__file__, main))
