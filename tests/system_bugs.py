#!/usr/bin/env python3
"""Plants bugs in `OsSystem` and in `OsHost` that the prover lets through, since nothing is proved of what the system does, and wants each to
be seen by a test of tests/library/system or tests/library/looks.

    python3 tests/system_bugs.py

All of them are put into one copy of the crates, each behind the question whether the file `planted/NUMBER` is there. It is built once, by
`rt try`, and there is one test for each bug, which makes its file and then calls the tests of its part. Such a test has to fail;
without a bug each test has to pass. `rt try` runs one test after another, so the program that it built is copied, and runs them side by side. It wants `rt`, and no proof.
"""
import contextlib
import os
import re
import shutil
import signal
import subprocess
import sys
import tempfile
import time
from concurrent.futures import ThreadPoolExecutor

from library import CRATE, LIBRARY, TEST, TOP, USES, crates
from trials import PAUSE, SECONDS, Trials, main_alone, read, run, write

# A text that stands once in the source, the part of it that the bugs replace, and for each bug what it does and its code.
SYSTEM = [
    ("SystemCall::Sync, file.role, file.file.sync_all())", "file.file.sync_all()", {
        "a file is not synced": "Ok(())",
        "a file is synced without its length": "file.file.sync_data()",
        "a file is synced twice": "{ let _ = file.file.sync_all(); file.file.sync_all() }",
        "a scratch gets its rights behind its sync": "{ let answer = file.file.sync_all(); if let Some(rights) = file.rights { let _ = take_rights(&file.file, rights); file.rights = None; } answer }",
    }),
    ("let answer = folder.sync_all();", "folder.sync_all()", {"the folder is not synced": "Ok(())"}),
    ("self.folder = Some(folder);", "self.folder = Some(folder);", {"the folder is opened for each sync": "drop(folder);"}),
    ("match self.lock(file, FileRole::Log)? {", "self.lock(file, FileRole::Log)?", {"the log is not locked": "Lock::None"}),
    ("Lock::Taken => {}", "{}", {
        "a lock is taken, and the name not looked at": "let answer = file.try_clone(); let handle = self.note_failure(SystemCall::Duplicate, FileRole::Log, answer)?; self.locks.clear(); self.hold(Some(Locked { handle, id }))?; return Ok(Some(changed));",
        "a lock is let go of at once": "return Ok(Some(changed));",
    }),
    ("Lock::Held => return Ok(None),", "None", {"a log that another has locked is taken": "Some(changed)"}),
    ("if Sign::of(&found).id != id {", "Sign::of(&found).id != id", {"a file that has lost the name is locked": "false"}),
    ("self.locks.clear();\n        self.hold(Some(Locked { handle, id }))?;", "self.locks.clear();", {"the lock of a file that has lost the name is kept": ""}),
    ("self.hold(Some(Locked { handle, id }))?;", "self.hold(Some(Locked { handle, id }))?;", {"the handle of a lock is closed": "drop(handle); self.hold(None)?;"}),
    ("self.hold(lock)?;\n        Ok(file)", "self.hold(lock)?;", {"a log that was made is not locked": "drop(lock);"}),
    ("self.scratch_lock = self.lock_new(&file)?;", "self.lock_new(&file)?", {
        "a scratch is not locked": "None",
        "the lock of a scratch is let go of": "{ drop(self.lock_new(&file)?); None }",
    }),
    ("self.scratch_lock = None;\n        match self.rt.remove_file", "self.scratch_lock = None;", {"the lock of an old scratch is kept": ""}),
    ("match self.rt.remove_file(&self.paths.scratch) {", "self.rt.remove_file(&self.paths.scratch)", {
        "an old scratch is not removed": "Ok(())",
        "the log is removed": "self.rt.remove_file(&self.paths.log)",
    }),
    ("Err(error) if error.kind() != ErrorKind::NotFound => {", "error.kind() != ErrorKind::NotFound", {"a missing scratch is a failure": "true"}),
    ("let lock = self.scratch_lock.take();\n        let held", "self.scratch_lock.take()", {
        "the lock of the new log is forgotten": "{ self.scratch_lock = None; None }",
        "the lock of a scratch is forgotten if its rename failed": "if answer.is_ok() { self.scratch_lock.take() } else { self.scratch_lock = None; None }",
    }),
    ("if answer.is_ok() {\n            self.locks.clear();", "answer.is_ok()", {
        "the lock of the log is forgotten if a rename failed": "true",
        "the lock of the old log is kept behind a rename": "false",
    }),
    ("self.rt.rename(&self.paths.scratch, &self.paths.log)", "self.rt.rename(&self.paths.scratch, &self.paths.log)", {
        "the log is renamed to the scratch": "self.rt.rename(&self.paths.log, &self.paths.scratch)",
        "no rename is made": "Ok(())",
    }),
    (".create_new(true)", ".create_new(true)", {"whatever has the name of the scratch is opened": ".create_new(!IS).create(IS)"}),
    ("let mode = if rights.is_some() { OWN_MODE } else { NEW_MODE };", "if rights.is_some() { OWN_MODE } else { NEW_MODE }", {"anyone may open a scratch": "NEW_MODE"}),
    ("if let Some(rights) = file.rights {", "file.rights", {"a scratch keeps the rights of its own": "None", "a scratch gets its rights behind its sync": "None"}),
    ("let answer = take_rights(&file.file, rights);", "take_rights(&file.file, rights)", {"a scratch keeps its mode if that can't be set": "{ let _ = take_rights(&file.file, rights); Ok(()) }"}),
    ("file.rights = None;", "file.rights = None;", {"each sync of a scratch sets its mode": ""}),
    ("let made = self.note_failure(SystemCall::Stat, FileRole::Scratch, file.metadata())?;", "self.note_failure(SystemCall::Stat, FileRole::Scratch, file.metadata())?", {
        "a scratch gets its rights before it is whole": "{ let made = self.note_failure(SystemCall::Stat, FileRole::Scratch, file.metadata())?; if let Some(rights) = rights { let answer = take_rights(&file, rights); self.note_failure(SystemCall::SetMode, FileRole::Scratch, answer)?; } made }",
    }),
    ("if !self.locks.is_empty() &&", "!self.locks.is_empty()", {"a copy gets the rights of another file": "false"}),
    ("match self.open_or_read(!self.is_begun) {", "!self.is_begun", {"a log that was removed is made again": "true", "a missing log is not made": "false"}),
    ("how.read(true).append(true).create(may_make && self.makes);", ".append(true)", {
        "a log is not appended to": ".append(!IS).write(IS)",
        "a log is emptied": ".append(!IS).write(IS)",
    }),
    (".create(may_make && self.makes);", ".create(", {"a log is emptied": ".truncate(IS).create("}),
    ("may_make && self.makes);", "self.makes", {"a missing log is made where none is to be": "true"}),
    ("Err(error) if self.is_begun && error.kind() == ErrorKind::NotFound => {", "self.is_begun && error.kind() == ErrorKind::NotFound", {
        "a log that is gone is a failure": "false",
        "a log that can't be opened is gone": "true",
    }),
    *((f"self.check_denial(SystemCall::{call}, file.role)?;", f"self.check_denial(SystemCall::{call}, file.role)?;", {f"a log that may only be read is asked for a {call.lower()}": ""}) for call in ("Write", "Cut", "Sync")),
    ("if shown == Some(file.id) && found.is_some_and(|it| file.is_as_left(&it)) {", "shown == Some(file.id) && found.is_some_and(|it| file.is_as_left(&it))", {
        "a look finds no other file": "true",
        "a look finds no change": "shown == Some(file.id)",
    }),
    ("Ok(found) if file.is_as_left(&found) => file.file.set_len(len),", "file.is_as_left(&found)", {"a log is cut that another changed": "true"}),
    ("SystemCall::Cut, file.role, answer);\n        file.changed = None;", "file.changed = None;", {"a cut is taken for that of another": ""}),
    ("file.read_to = file.read_to.min(len);", "file.read_to = file.read_to.min(len);", {"a log is as long as it was before a cut": ""}),
    ("file.len = if answer.is_ok() { Some(len) } else { None };", "file.len = if answer.is_ok() { Some(len) } else { None };", {"a log is longer than it was cut to": ""}),
    ("errno: error.raw_os_error(),", "error.raw_os_error()", {"the number of an error is lost": "None"}),
    ("SystemCall::Read, file.role, file.file.read_at(buf, at))?;", "file.file.read_at(buf, at)", {"a read begins at the first byte": "file.file.read_at(buf, 0)"}),
    ("if at == file.read_to && !buf.is_empty() {", "at == file.read_to && !buf.is_empty()", {"the end of a log is forgotten": "false"}),
    ("let answer = match file.file.write(bytes) {", "file.file.write(bytes)", {"bytes are added twice": "{ let _ = file.file.write(bytes); file.file.write(bytes) }"}),
    ("file.len = added.map(|(len, count)| len.saturating_add(count as u64));", "file.len = added.map(|(len, count)| len.saturating_add(count as u64));", {"an append is taken for that of another": ""}),
    ("self.is_begun = true;", "self.is_begun = true;", {"each open makes a missing log": ""}),
    ("if file.descriptor() > LAST_STREAM {", "file.descriptor() > LAST_STREAM", {"a file has the descriptor of a standard stream": "true"}),
    ("how.read(true), &self.paths.folder);", "&self.paths.folder", {"the log is synced as its folder": "&self.paths.log"}),
    ("if kind != ErrorKind::PermissionDenied && kind", "kind != ErrorKind::PermissionDenied", {"a log that can't be opened is opened for reading": "false"}),
    ("self.sync_file(file).map_err", "self.sync_file(file)", {"the look comes before the sync": "{ let _ = self.look(file); self.sync_file(file) }"}),
    ("let answer = self.look(file);\n        file.changed", "self.look(file)", {"the look comes before the sync": "Ok(())"}),
    ("let Some(pause) = wait.pause(Sign::of(&metadata), now) else {", "wait.pause(Sign::of(&metadata), now)", {
        "a wait has no end": "{ let _ = wait.pause(Sign::of(&metadata), now); Some(1) }",
        "no lock is waited for": "{ let _ = wait.pause(Sign::of(&metadata), now); None }",
    }),
    ("now.saturating_sub(wait.began) >= PATIENCE", "now.saturating_sub(wait.began) >= PATIENCE", {"a short wait is told of": "true", "a long wait isn't told of": "false"}),
    ("self.tells = false;", "self.tells = false;", {"a wait is told of at each turn": ""}),
    ("thread::sleep(&self.rt, Duration::from_millis(pause));", "thread::sleep(&self.rt, Duration::from_millis(pause));", {"a wait has no pauses": ""}),
    ("if error.kind() == ErrorKind::Unsupported\n", "error.kind() == ErrorKind::Unsupported", {"no lock can fail": "true", "a system call that is missing is a failure": "false"}),
    ("|| error.raw_os_error() == Some(NO_LOCKS)", "error.raw_os_error() == Some(NO_LOCKS)", {"a file system without locks is a failure": "false"}),
]


def looks(path):
    """Bugs of a look at a path, each of which would be one of all looks."""
    found = f"fs::metadata(self.rt, {path})"
    file = "match {} {{ Ok(it) if !it.is_dir() => FileState::Written(FileTimes {{ written: {}, changed: {} }}), it => state_of(it) }}"
    written, changed = "time_of(it.mtime(), it.mtime_nsec())", "time_of(it.ctime(), it.ctime_nsec())"
    return {
        "a link is an output by itself": f"state_of(fs::symlink_metadata(self.rt, {path}))",
        "a folder is a file": file.format(found, written, changed).replace(" if !it.is_dir()", ""),
        "a file has the time of its change": file.format(found, changed, changed),
        "a change has the time of the write": file.format(found, written, written),
        "the part of a second is lost": file.format(found, "time_of(it.mtime(), 0)", changed),
        "the first second of 1970 counts": file.format(found, "it.mtime() * NANOSECONDS + it.mtime_nsec()", changed),
        "a file of 1970 has no time": file.format(found, "if it.mtime() == 0 { 0 } else { time_of(it.mtime(), it.mtime_nsec()) }", changed),
        "an output below a file may be there": f"match {found} {{ Err(e) if e.kind() == ErrorKind::NotADirectory => FileState::Unknown, it => state_of(it) }}",
        "a file that can't be looked at is missing": f"match {found} {{ Err(_) => FileState::Missing, it => state_of(it) }}",
    }


HOST = [
    ("state_of(fs::metadata(self.rt, name))", "state_of(fs::metadata(self.rt, name))", looks("name")),
    ("state_of(fs::metadata(self.rt, path.as_str()))", "state_of(fs::metadata(self.rt, path.as_str()))", {f"{it}, below a folder": bug for it, bug in looks("path.as_str()").items()}),
    ("let Ok(name) = str::from_utf8(name) else {\n            return FileState::Unknown;", "FileState::Unknown", {"a name that isn't UTF-8 is missing": "FileState::Missing"}),
    ("= folder else {", "folder", {"the folder of the build is passed over": "None"}),
    ('match format!(in self.alloc; "{folder}/{name}") {', 'format!(in self.alloc; "{folder}/{name}")', {"a name is looked for beside the folder": 'format!(in self.alloc; "{folder}{name}")'}),
    ("Telling::new(self.rt, tells, fs::open(self.rt, path)?)", "fs::open(self.rt, path)?", {"why a file can't be opened is lost": "fs::open(self.rt, path).map_err(|_| io::Error::from(ErrorKind::NotFound))?"}),
    ("= makes;", "makes", {"each log is made": "true", "no log is made": "false"}),
]
# Of each part of tests/library the source whose bugs it has to see, and these.
PLACES = {"system": ("nl_os/src/os_system.rt", SYSTEM), "looks": ("nl_tool/src/host.rt", HOST)}
# What is left of a call of a runtime of the tests that asks for a bug.
ASKS = ("    fn metadata(&self, path: &str) -> io::Result<Metadata> {\n", '        if path.starts_with("planted/") {\n            return self.rt.metadata(path);\n        }\n')


def ask(number, runtime):
    """The code that asks for a bug."""
    return f'{runtime}.metadata("planted/{number}").is_ok()'


def misplaced(part):
    """The texts that stand elsewhere than once in the source."""
    path, sites = PLACES[part]
    source = read(f"{TOP}/crates/{path}").decode()
    return [text for text, _, _ in sites if source.count(text) != 1]


def planted(source, sites, first):
    """The source with all bugs, and the name of each; the first of them has this number."""
    names, spans = [], []

    def asked(name, runtime="self.rt"):
        return ask(first + names.index(name), runtime)

    for text, part, bugs in sites:
        assert part in text and source.count(text) == 1, f"{source.count(text)} times: {text}"
        code = f"{{ {part} }}"
        if part.startswith("."):
            # (a word of a chain is no value by itself: one text is of each of its bugs)
            names += [it for it in bugs if it not in names]
            code, = {it.replace("IS", "(" + " || ".join(map(asked, bugs)) + ")") for it in bugs.values()}
            bugs = {}
        for name, bug in bugs.items():
            names += [name] * (name not in names)
            # (one function has the runtime alone)
            runtime = "rt" if "LAST_STREAM" in text else "self.rt"
            code = f"if {asked(name, runtime)} {{ {bug} }} else {code}"
        code = f"{{ {code} }}" if part == "{}" else code if part[0] == "." or part[-1] == ";" else f"({code})"
        start = source.index(text) + text.index(part)
        spans.append((start, start + len(part), code))
    for start, end, code in sorted(spans, reverse=True):
        source = source[:start] + code + source[end:]
    return source, names


def without_asserts(text):
    """A module whose assertions are errors, since no function but a test itself may abort."""
    while (start := text.find("assert!(rt;")) >= 0:
        depth, comma, at = 1, None, start + len("assert!(rt;")
        while depth:
            literal = re.compile(r'b?"(?:[^"\\\\]|\\\\.)*"').match(text, at)
            at = literal.end() if literal else at + 1
            mark = "" if literal else text[at - 1]
            depth += (mark in "([{" and mark != "") - (mark in ")]}" and mark != "")
            if mark == "," and depth == 1 and comma is None:
                comma = at - 1
        holds = text[start + len("assert!(rt;") : comma or at - 1].strip()
        text = f'{text[:start]}if !({holds}) {{ return Err("it is seen".into()); }}{text[at:].removeprefix(",").removeprefix(";")}'
    return text


def bug_tests(numbers, bodies, texts):
    """A test for each bug of these numbers, and one without, each of which calls all the others, once what another left is removed."""
    folders = {"planted", *re.findall(r'"(\w+)/', texts), *re.findall(r'create_dir\(&rt, "(\w+)"', texts)}
    files = {f"{it}{end}" for it in re.findall(r'"([\w.]+\.(?:log|new))"', texts) for end in ("", ".recompact")}
    begins = [f'    let _ = fs::remove_dir_all(&rt, "{it}");' for it in sorted(folders)]
    begins += [f'    let _ = fs::remove_file(&rt, "{it}");' for it in sorted(files)]
    calls = [f"    super::{it}(rt.clone()?)?;" for it in bodies]
    lines = ["use std::fs;", "use std::test::Fail;", "fn all(rt: HostRuntime, bug: &str) -> Result<(), Fail> {", *begins]
    lines += ['    fs::create_dir(&rt, "planted")?;', '    fs::write(&rt, bug, "")?;', *calls, "    Ok(())", "}"]
    for name in ["none", *numbers]:
        lines += ["#[test]", f"fn bug_{name}(rt: HostRuntime) -> Result<(), Fail> {{", f'    all(rt, "planted/{name}")', "}"]
    return "\n".join(lines) + "\n"


def lay_out(room):
    """Makes the crate of the tests, with the bugs below it: the part and the name of each bug, and the folder of the crate."""
    src, found = crates(room, CRATE, USES), []
    for part, (path, sites) in PLACES.items():
        source, names = planted(read(f"{room}/crates/{path}").decode(), sites, len(found))
        write(f"{room}/crates/{path}", source.encode())
        numbers = range(len(found), len(found) + len(names))
        found += [(part, name) for name in names]
        os.mkdir(f"{src}/{part}")
        root, bodies, texts = read(f"{LIBRARY}/{part}.rattle").decode(), [], ""
        for module in re.findall(r"(?m)^mod (\w+);$", root):
            text = read(f"{LIBRARY}/{part}/{module}.rattle").decode()
            texts += text
            bodies += [f"{module}::{it}" for it in re.findall(TEST, text)]
            text = without_asserts(text.replace(ASKS[0], "".join(ASKS)).replace("#[test]\nfn ", "pub fn "))
            write(f"{src}/{part}/{module}.rt", text.encode())
        write(f"{src}/{part}/bugs.rt", bug_tests(numbers, bodies, texts).encode())
        write(f"{src}/{part}.rt", f"{root}mod bugs;\n".encode())
    modules = "".join(f"#[cfg(test)]\nmod {part};\n" for part in PLACES)
    write(f"{src}/lib.rt", f"#![tactic(auto)]\n\n{modules}".encode())
    return found, os.path.dirname(src)


def built(folder, room):
    """The words that start the program of the tests, but for a test's name, and what was said if there is none: `rt try` begins with the first
    test once it has built the program, which is then copied."""
    said = f"{room}/said"
    with open(said, "wb") as out:
        how = {"cwd": folder, "env": {**os.environ, "TMPDIR": room}, "stdin": subprocess.DEVNULL, "stdout": out, "stderr": subprocess.STDOUT}
        ran = subprocess.Popen(["rt", "try", "--test", "--seconds", str(SECONDS)], **how)
    found = None
    while found is None and ran.poll() is None:
        time.sleep(PAUSE)
        found = next((words for words in map(words_of, below(ran.pid)) if words[-1:] and "::bugs::" in words[-1]), None)
    if found:
        program = shutil.copy(found[-2], f"{room}/program")
        for pid in (*below(ran.pid), ran.pid):
            with contextlib.suppress(ProcessLookupError):
                os.kill(pid, signal.SIGKILL)
        found = [*found[:-2], program]
    ran.wait()
    return found, read(said).decode(errors="replace")


def below(pid):
    """The processes that this one started, and those that these did, those first that are the lowest."""
    try:
        tasks = [read(f"/proc/{pid}/task/{task}/children") or b"" for task in os.listdir(f"/proc/{pid}/task")]
    except OSError:
        return []
    return [found for child in b" ".join(tasks).split() for found in (*below(int(child)), int(child))]


def words_of(pid):
    try:
        return (read(f"/proc/{pid}/cmdline") or b"").decode(errors="surrogateescape").split("\0")[:-1]
    except OSError:
        return []


def seen(words, room, part, name):
    """The status of the test of a bug of this number, or of none, in a folder of its own."""
    folder = f"{room}/{part}-{name}"
    os.mkdir(folder)
    status = run([*words, f"{part}::bugs::bug_{name}"], cwd=folder, env={})[0]
    shutil.rmtree(folder, ignore_errors=True)
    return status


def main():
    trials = Trials(__file__)
    if shutil.which("rt") is None:
        trials.skip("the bugs", "rt isn't there")
        return trials.end()
    with tempfile.TemporaryDirectory() as room:
        bugs, folder = lay_out(room)
        words, said = built(folder, os.path.realpath(room))
        if not trials.check("the tests are built", words, said[-3000:]):
            return trials.end()
        # (most of a test is waited for, so there are more at a time than processors)
        with ThreadPoolExecutor(2 * (os.cpu_count() or 1)) as pool:
            none = [*pool.map(lambda part: seen(words, room, part, "none"), PLACES)]
            ends = [*pool.map(lambda number: seen(words, room, bugs[number][0], number), range(len(bugs)))]
    for part, end in zip(PLACES, none):
        trials.want(f"{part}: without a bug", end, 0)
    for (part, name), end in zip(bugs, ends):
        trials.check(f"{part}: {name}", end not in (0, None), f"no test fails: status {end}")
    return trials.end()


if __name__ == "__main__":
    sys.exit(main_alone(__file__, main))
