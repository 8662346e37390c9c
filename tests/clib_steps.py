"""The steps that the library's writer takes, held to those that the definition tells: for clib.py.

`steps_of` of crates/nl_c/specs/Changes.antt is the list of steps that make a file the text, of which a law says what each prefix leaves. Here it is
read from that file, and what the writer did in each call of a driver that writes its calls of the system down (tests/clib/driver.c) is compared
with it, step by step: in an open, in the first change behind an open to read, in a shared call that reads anew, in a recompact and a restat.

Beside these steps it holds each call, however it ends, to what the states of the writer say (lib/writer.c, lib/lock.c): which files are open then,
and which of them are locked; that no step is taken without the lock, nor behind a new lock without a look; that a scratch is its owner's alone until
it is whole; which pages and how much memory are left. And it holds the proved calls to their premises: `carried_written` comes where the file
has the text, and `carried_sync` behind a sync of it.
"""
import os
import re

from clib_driver import TOP, opened, opened_warily
from log_format import HEADER, Log, as_version
from trials import read

CHANGES = ["KEEP", "APPEND", "CUT", "REPLACE"]


class Definition:
    """The definitions of Changes.antt that tell a list of steps, as they stand there."""

    def __init__(self):
        self.text = read(f"{TOP}/crates/nl_c/specs/Changes.antt").decode()
        self.numbers = {name: int(value) for name, value in re.findall(r"(?m)^(keep|append|cut|replace) = (\d)$", self.text)}
        self.steps = self.body(r"file_steps change bytes text")
        # What comes before these, and what each end of a call lets go of, of a log that isn't shared and of one that is.
        self.first = [it for it in self.body(r"steps_of change bytes text") if it not in ("∷", "file_steps", "change", "bytes", "text")]
        ends = {"open": r"Stays (?:%s|is_shared)", "broken": r"Breaks (?:%s|is_shared)", "closed": r"Closes (?:%s|is_shared)"}
        self.ends = {state: [[it for it in self.body(rf"exit_of {head % word}") if it not in ("∷", "[]")] for word in ("false", "true")] for state, head in ends.items()}
        self.no_bytes, self.some_bytes = self.body(r"emptied \[\]"), self.body(r"emptied \(b ∷ bytes\)")

    def body(self, head):
        found = re.search(rf"(?ms)^{head} = (.*?)(?=^\S|\Z)", self.text)
        return re.findall(r"∷|\+\+|==|\[\]|[()]|\w+", re.sub(r"--.*", "", found[1]))

    def steps_of(self, change, found, text):
        """The steps that make a file of the bytes `found`, all of it durable first, one of the text."""
        names = {**self.numbers, "change": self.numbers[change.lower()], "bytes": found, "text": text}
        value, rest = self.expression(list(self.steps), names)
        assert not rest, rest
        return value

    def expression(self, words, names):
        if words[0] == "if":
            one, two = names[words[1]], names[words[3]]
            assert words[2] == "==" and words[4] == "then"
            first, words = self.expression(words[5:], names)
            assert words[0] == "else"
            second, words = self.expression(words[1:], names)
            return (first if one == two else second), words
        value, words = self.item(words, names)
        if words and words[0] == "∷":
            rest, words = self.expression(words[1:], names)
            return [value, *rest], words
        if words and words[0] == "++":
            rest, words = self.expression(words[1:], names)
            return [*value, *rest], words
        return value, words

    def item(self, words, names):
        head, words = words[0], words[1:]
        if head == "[]":
            return [], words
        if head == "(":
            value, words = self.expression(words, names)
            assert words[0] == ")"
            return value, words[1:]
        if head == "length":
            return len(names[words[0]]), words[1:]
        if head == "emptied":
            value, rest = self.expression(list(self.some_bytes if names[words[0]] else self.no_bytes), names)
            assert not rest
            return value, words[1:]
        if head in ("CutLog", "WriteLog", "WriteScratch"):
            value, words = self.item(words, names)
            return (head, value), words
        if head in ("SyncLog", "StartScratch", "SyncScratch", "Replace"):
            return (head,), words
        return (int(head) if head.isdigit() else names[head]), words


def records_of(path):
    """What the driver wrote down: each record's words, and its bytes."""
    text, at = read(path), 0
    while at < len(text):
        end = text.index(b"\n", at)
        words = text[at:end].decode().split(" ")
        length = int(words[4])
        yield words[:4], text[end + 1 : end + 1 + length]
        at = end + 1 + length


def steps_taken(calls):
    """Calls of the system as steps, each with whether it was done. A sync of the log is that of its folder and then of its file, a scratch is
    made if its name is free, and writes in a row are one."""
    taken = []
    for (what, file, number, is_done), data in calls:
        done = is_done == "1"
        if what == "sync" and file == "f":
            taken.append((("SyncFolder",), done))
        elif what == "sync" and file == "l":
            if taken and taken[-1] == (("SyncFolder",), True):
                taken.pop()
                taken.append((("SyncLog",), done))
            else:
                taken.append((("SyncFile",), done))
        elif what == "sync" and file == "s":
            taken.append((("SyncScratch",), done))
        elif what == "cut" and file == "l":
            taken.append((("CutLog", int(number)), done))
        elif what == "write":
            name = {"l": "WriteLog", "s": "WriteScratch"}.get(file, f"write of {file}")
            if taken and taken[-1][0][0] == name and taken[-1][1]:
                data = taken.pop()[0][1] + data
            taken.append(((name, data), done))
        elif what == "unlink":
            taken.append((("Unlink",), done))
        elif what == "make":
            if taken and taken[-1] == (("Unlink",), True):
                taken.pop()
            taken.append((("StartScratch",), done))
        elif what == "rename":
            taken.append((("Replace",), done))
        elif what in ("sync", "cut"):
            taken.append(((f"{what} of {file}",), done))
    return taken


STEPS = {"sync", "cut", "write", "unlink", "make", "rename"}
# The calls that add lines.
ADDING = ("record", "edge", "begin", "plan", "withdraw")


class Held:
    """The files of a writer as a driver's calls leave them, each with whether it is locked, from one call of the writer to the next. What each end
    of a call lets go of is `exit_of` of the definition, and what comes before a step the head of `steps_of`."""

    def __init__(self, definition):
        self.definition = definition
        self.files, self.is_lent, self.swapped, self.length = {}, False, "", 0

    def follow(self, word, before, status, calls, is_shared, was_open):
        """What is wrong with the order of these calls, or None."""
        # A log that is the writer's alone may have been moved, or removed.
        self.length = self.length if was_open and not is_shared else len(before)
        length, scratch, is_looked, is_clean, filled, has_written = self.length, 0, was_open and word not in ("sync", "recompact", "restat", "plan", "close"), False, False, False
        is_loose = self.is_loose(word, before, calls, is_shared and was_open)
        lent = any(it[0] == "lock" and it[1] == "l" and it[3] == "0" for it, _ in calls) and status in ("NLOG_OK", "NLOG_NEGATIVE_TIME")
        for (what, file, number, is_done), _ in calls:
            number, done = int(number), is_done == "1"
            if what == "lock" and done:
                self.files[file], is_looked, self.is_lent = True, file != "l" and is_looked, self.is_lent and file != "l"
            elif what == "lock" and file == "l":
                self.is_lent = lent
            elif what == "unlock" and file in self.files:
                self.files[file] = False
            elif what == "look":
                is_looked = True
            elif what == "close":
                if file in "lo" and number == 1:
                    return f"{file} is closed, and isn't unlocked"
                self.files.pop(file, None)
            elif what == "mode" and (file != "s" or not filled or number & ~0o777):
                return f"the mode {number:o} of {file}, filled: {filled}"
            elif what == "written" and (number > length or has_written and number != length if done else status == "NLOG_OK" and not is_shared and was_open):
                return f"{number} bytes are said to be written of {length}"
            elif what == "synced" and not (done and is_clean):
                return "what isn't synced is said to be"
            if what not in STEPS:
                continue
            if "Lock" in self.definition.first and not (self.files.get("l") or self.is_lent or is_loose) and file != "f":
                return f"{what} of {file} without the lock"
            if "Look" in self.definition.first and not is_looked:
                return f"{what} of {file} behind no look"
            is_clean = what == "sync" and file == "l" and done
            if is_clean:
                self.swapped = ""
            if what == "make" and done:
                self.files["s"], scratch, filled = False, 0, False
                if number != 0o600:
                    return f"a scratch of mode {number:o}"
            if what == "write" and file == "s":
                scratch += number
                filled = True
                if not self.files.get("s"):
                    return "the scratch isn't locked"
            if what == "write" and file == "l":
                length, has_written = length + number, True
            if what == "cut" and done:
                length = number
            if what == "rename":
                # The name may show either file: the one that isn't the log's stays locked until a sync, or the close.
                self.swapped = "o" if done else "s"
                if done:
                    length = scratch
                    self.files = {{"l": "o", "s": "l"}.get(it, it): locked for it, locked in self.files.items()}
            self.length = length
        return None

    @staticmethod
    def is_loose(word, before, calls, is_shared):
        """Whether a call is a record that needs no lock: each of its names has an intent, or no entry."""
        if word not in ("record", "edge") or not is_shared or any(it[0] == "lock" for it, _ in calls):
            return False
        table, own = Log(as_version(before, 5)).table, Log(HEADER + b"".join(data for it, data in calls if it[0] == "write")).table
        return all(it not in table or table[it][0] == table[it][1] and table[it][2] == 0 for it in own)

    def left(self, text, pages, state, is_shared):
        """What is wrong with what is open behind a call, or None."""
        found = {}
        for file, locked, closes in re.findall(r"(.)(\d)(\d) ", text):
            if closes == "0" or file in found:
                return f"{text}: twice, or not close-on-exec"
            found[file] = locked == "1"
        self.files = found
        if state == "closed":
            self.swapped = ""
        if pages != (0 if state == "closed" else 1):
            return f"{pages} pages"
        if state == "read":
            return f"{text}: not the file that was read, or locked" if found.keys() - {"f", "r"} or found.get("r") else None
        lets_go = self.definition.ends[state][is_shared]
        if "Close" in lets_go:
            return f"{text}: open behind a close" if text else None
        if found.keys() & {"s", "o"} != set(self.swapped) or not found.get(self.swapped, True):
            return f"{text}: the file before a rename, or behind one, {state}, {self.swapped}"
        if "r" in found or state == "open" and ("f" not in found or "l" not in found and not is_shared):
            return f"{text}: of an open log"
        if "l" in found and not self.is_lent and (state == "open" or not is_shared) and found["l"] == ("Unlock" in lets_go):
            return f"{text}: the lock, shared: {is_shared}"
        return None


def is_begun(taken, told):
    """Whether the steps are the first that were told. The last may have failed, or have written a part."""
    for at, (step, done) in enumerate(taken):
        if at >= len(told):
            return False
        if done and step == told[at]:
            continue
        is_last = at == len(taken) - 1
        part = step[0] == told[at][0] and (len(step) == 1 or step == told[at] or step[0].startswith("Write") and told[at][1].startswith(step[1]))
        # A sync that failed at its folder, and a scratch whose name wasn't free.
        part = part or (step[0], told[at][0]) in (("SyncFolder", "SyncLog"), ("Unlink", "StartScratch"))
        # A write that failed behind one that was done.
        return is_last and part or (at == len(taken) - 2 and part and taken[-1][0] == (step[0], b"") and not taken[-1][1])
    return True


class Process:
    """The writer of one process, as far as its steps go by it."""

    def __init__(self, definition):
        self.definition, self.version, self.told = definition, 0, 0
        self.state, self.change, self.is_pending, self.is_unsound, self.is_shared, self.is_held = "closed", None, False, False, False, False
        self.opened, self.held, self.blocks = opened, Held(definition), None

    def openings(self, before):
        """The steps that an open of these bytes may owe."""
        status, change, text = self.opened(before, self.version)
        changes = [] if status != "OK" else ["REPLACE" if self.is_unsound else change]
        if self.state == "read" and self.change is not None:
            changes += ["REPLACE" if self.change == "REPLACE" else "KEEP"]
        return changes, text

    def lists(self, word, before, after, own, is_done):
        """The lists of steps that a call may take. `after`: the log behind it, to which the call itself added what `own` says."""
        mine = {"record": [("WriteLog", own)] if own else [], "sync": [("SyncLog",)], "close": [("SyncLog",)] if self.is_pending else []}
        mine["edge"], mine["begin"], mine["withdraw"], mine["hold"] = mine["record"], mine["record"], mine["record"], []
        mine["plan"] = [("WriteLog", own), ("SyncLog",)] if own else []
        rewriting = self.definition.steps_of("REPLACE", b"", after)[1:]
        mine["recompact"] = mine["restat"] = rewriting
        last = mine.get(word, [])
        if word not in (*mine, "open") or word == "close" and not last or self.state in ("closed", "broken") and word != "open":
            return [[]]
        if self.state == "open" and not self.is_shared:
            return [last]
        changes, _ = self.openings(before)
        text = after[: len(after) - len(own)] if word in ADDING else after
        # The log of a call that failed isn't the text.
        is_other = word in ("recompact", "restat") or not is_done
        first = []
        for change in changes:
            text_then = self.opened(before, self.version)[2] if is_other else text
            steps = self.definition.steps_of(change, before, text_then or b"")
            if self.is_unsound:
                steps = steps[1:]
            first.append([*steps, *last])
        # An edge of no name changes nothing.
        return [*first, *([last] if self.state == "open" else [[]] if word in ADDING else [])]

    def call(self, word, before, status, after, calls):
        """One call: what is wrong with it, or None."""
        left = {it[0]: (int(it[2]), data.decode()) for it, data in calls if it[0] in ("held", "pages", "blocks")}
        calls = [it for it in calls if it[0][0] not in left]
        wrong = self.held.follow(word, before, status, calls, self.is_shared and not self.is_held, self.state == "open")
        of_steps = self.steps(word, before, status, after, calls)
        if word in ("dead", "time", "load", "wary", "free") or left["blocks"][0] < 0:
            self.blocks = None
        if self.state == "closed" and self.blocks is not None and left["blocks"][0] > self.blocks + 1:
            wrong = wrong or f"{left['blocks'][0]} blocks of memory behind a close, and {self.blocks} at first"
        self.is_held = self.state == "open" and word != "release" and (self.is_held or word == "hold" and status == "NLOG_OK")
        held = self.held.left(left["held"][1], left["pages"][0], self.state, self.is_shared and not self.is_held)
        return of_steps or wrong or held

    def steps(self, word, before, status, after, calls):
        """What is wrong with its steps, or None."""
        taken = steps_taken(calls)
        writes = [step for step, _ in taken if step[0] == "WriteLog"]
        own = writes[-1][1] if word in ADDING and writes else b""
        # The first line and a record in a row are one run of writes.
        if own.startswith(HEADER[:13]) and word != "open":
            taken[-1:] = [((("WriteLog", own[:15])), True), (("WriteLog", own[15:]), taken[-1][1])] if own[15:] else taken[-1:]
            own = own[15:]
        steps = [step for step, _ in taken]
        done = status not in ("NLOG_FAULT", "NLOG_OUT_OF_MEMORY", "NLOG_LOCKED") and all(it for _, it in taken)
        # What a rewriting wrote that failed stands in the scratch.
        scratch = b"".join(step[1] for step, _ in taken if step[0] == "WriteScratch")
        lists = self.lists(word, before, scratch or after if word in ("recompact", "restat") and not done else after, own, done)
        if word in ("sync", "plan", "close"):
            # Behind an open the folder is durable: the last sync may be of the file alone.
            lists += [[*it[:-1], ("SyncFile",)] for it in lists if it[-1:] == [("SyncLog",)]]
        if done and status in ("NLOG_OK", "NLOG_NEGATIVE_TIME", "NLOG_BAD_NAME"):
            good = steps in lists or status != "NLOG_OK" and any(is_begun(taken, it) for it in lists)
        else:
            good = any(is_begun(taken, [*it, ("WriteLog", own)]) for it in lists) or not taken
        self.settle(word, status, taken, before)
        return None if good else f"{[(it[0][0], it[1]) for it in taken]} for one of {[[it[0] for it in them] for them in lists]}"

    def settle(self, word, status, taken, before):
        for (step, *_), done in taken:
            if step == "WriteLog" and word in ADDING:
                self.is_pending = True
            if step in ("SyncLog", "SyncFile"):
                self.is_unsound = not done
                self.is_pending = self.is_pending and not done
            if step == "Replace" and done:
                self.is_unsound = False
        if status == "NLOG_OK" and word == "shared":
            self.is_shared = True
        if status == "NLOG_OK" and word == "wary":
            self.opened = opened_warily
        if word == "look" and status == "NLOG_OK":
            self.state, self.change = "read", self.opened(before, self.version)[1]
        elif word == "open" and self.state in ("closed", "read"):
            if not (status == "NLOG_LOCKED" and self.state == "read"):
                self.state = "open" if status == "NLOG_OK" else "closed"
            self.is_pending = False
        elif word in ("close", "free") and status not in ("NLOG_LOCKED",):
            self.state, self.is_pending = "closed", False
        elif word in (*ADDING, "hold", "sync", "recompact", "restat") and self.state in ("read", "open"):
            if status in ("NLOG_OK", "NLOG_NEGATIVE_TIME"):
                # An edge of no name is no change.
                self.state = self.state if not taken and word in ADDING and self.state == "read" else "open"
            elif status not in ("NLOG_LOCKED", "NLOG_BAD_NAME"):
                self.state = "broken"


def steps(trials, folder):
    """Compares what each process of the driver did with what the definition tells."""
    definition, count, rewritings = Definition(), 0, 0
    trials.want("the numbers of the changes", [definition.numbers[it.lower()] for it in CHANGES], [0, 1, 2, 3])
    trials.want("what comes before the steps", definition.first, ["Lock", "Look"])
    trials.want("what the ends let go of", definition.ends, {"open": [[], ["Unlock"]], "broken": [[], []], "closed": [["Unlock", "Close"]] * 2})
    for name in sorted(os.listdir(folder)):
        process = word = before = None
        calls = []
        for words, data in records_of(f"{folder}/{name}"):
            if words[0] == "run":
                process = Process(definition)
                process.version, process.blocks = int(words[1]), last
            elif words[0] == "call":
                word, before, calls = words[1], data, []
            elif words[0] == "done":
                wrong = process.call(word, before, words[1], data, calls)
                count += bool(calls)
                rewritings += any(it[0][0] == "rename" for it in calls)
                if wrong is not None:
                    trials.check(f"the steps of {word} on {before[:60]!r}, {words[1]}", False, wrong)
                word = None
            elif word is not None:
                calls.append((words, data))
            last = int(words[2]) if words[0] == "blocks" else None
        os.remove(f"{folder}/{name}")
    trials.check("many calls took steps, and each took those that are told", count > 700 and rewritings > 100, f"{count} calls, {rewritings} rewritings")
    print(f"clib.py: {count} calls of the writer took the steps that steps_of of Changes.antt tells, {rewritings} of them a rewriting")
