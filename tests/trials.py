"""What the trials of this folder share: their words, what passed and what failed, and the last line.

Each trial takes `--list`, which prints its cases, and beside its words `--only NAME`, which runs those with NAME in
their name, or that NAME is a pattern of, as `dam*`. The cases of a trial are the functions that it calls one after
another. What it does itself, between them, always runs, and a trial without cases runs as one.
"""
import ast
import fcntl
import functools
import inspect
import os
import random
import resource
import shutil
import subprocess
import sys
import tempfile
import textwrap
import threading
import time
from fnmatch import fnmatchcase
from typing import Any, Callable, Dict, List, NamedTuple

# After so many seconds of the clock what runs here has hung, and is ended; and what is proved or built. Neither is a bound of how long it may take.
SECONDS, BUILD_SECONDS = 1200, 4 * 3600
PAUSE = 0.02


class Trials:
    """What a script found. It ends by `end`, whose last line is `N passed, M failed`, behind what was skipped."""

    def __init__(self, script):
        self.script = os.path.basename(script)
        self.passed, self.failed, self.skipped = 0, 0, []
        # What is said before each of what failed.
        self.about = ""

    def want(self, what, got, wanted):
        """Passes where the two are equal."""
        return self.check(what, got == wanted, f"{short(got)} in place of {short(wanted)}")

    def check(self, what, is_good, why=""):
        if is_good:
            self.passed += 1
        else:
            self.failed += 1
            print(f"{self.script}: FAILED: {self.about}{what}{': ' if why else ''}{why}")
        return is_good

    def skip(self, what, why):
        self.skipped.append(what)
        print(f"{self.script}: skipped: {what}: {why}")

    def end(self):
        skipped = f"skipped {', '.join(self.skipped)}: " if self.skipped else ""
        print(f"{skipped}{self.passed} passed, {self.failed} failed", flush=True)
        return 1 if self.failed else 0


def short(it):
    """A value as a message shows it, without the middle of a long one."""
    text = repr(it)
    return text if len(text) < 400 else f"{text[:200]} .. {text[-180:]}"


def usage(script, words="PROGRAM"):
    """Says how a script is run, and gives the status of wrong words. Its last line tells a caller that it tried nothing."""
    print(f"usage: python3 tests/{os.path.basename(script)} {words}", file=sys.stderr)
    print("0 passed, 1 failed", flush=True)
    return 2


class Case(NamedTuple):
    """A function that a trial calls as a step of its own: its name, and where the trial finds it."""

    name: str
    home: Dict[str, Any]
    key: str

    def leave_out(self, trial: Callable) -> None:
        """Has the trial's own calls of the function do nothing. What else calls it still does."""
        part = self.home[self.key]

        @functools.wraps(part)
        def run_for_others(*words, **how):
            return 0 if sys._getframe(1).f_code is trial.__code__ else part(*words, **how)

        self.home[self.key] = run_for_others


def calls_of(trial: Callable) -> List[ast.expr]:
    """What a trial calls without a use of the answer, or to count, and what its loops run over, in its order."""
    found = []
    for node in ast.walk(ast.parse(textwrap.dedent(inspect.getsource(trial)))):
        if isinstance(node, (ast.Expr, ast.AugAssign)) and isinstance(node.value, ast.Call):
            found.append(node.value.func)
        elif isinstance(node, ast.For) and isinstance(node.iter, ast.Tuple):
            found += node.iter.elts
        elif isinstance(node, ast.For) and isinstance(node.iter, ast.Call):
            found += [name for word in node.iter.args if isinstance(word, ast.Tuple) for name in word.elts]
    return sorted(found, key=lambda call: (call.lineno, call.col_offset))


def cases_of(trial: Callable) -> List[Case]:
    """The cases of a trial: functions that begin with `try_` or take the trials first, of other modules too."""
    found = {}
    for call in calls_of(trial):
        if isinstance(call, ast.Name):
            home, key, name = trial.__globals__, call.id, call.id[4:] if call.id.startswith("try_") else call.id
        elif isinstance(call, ast.Attribute) and isinstance(call.value, ast.Name):
            module = trial.__globals__.get(call.value.id)
            home, key, name = vars(module) if inspect.ismodule(module) else {}, call.attr, call.value.id
        else:
            continue
        part = home.get(key)
        first = [*inspect.signature(part).parameters][:1] if inspect.isfunction(part) else []
        if key.startswith("try_") and part or first == ["trials"]:
            found[name] = Case(name, home, key)
    return [*found.values()] if len(found) > 1 else []


def choose(script: str, cases: List[str]) -> List[str]:
    """Takes `--only NAME` from the script's words, and gives the cases that it names. With `--list`, and where there is
    no such case, it ends the script."""
    if sys.argv[1:] == ["--list"]:
        print(*cases, sep="\n")
        sys.exit(0)
    if "--only" not in sys.argv[1:-1]:
        return cases
    at = sys.argv.index("--only")
    name, sys.argv[at : at + 2] = sys.argv[at + 1], []
    chosen = [case for case in cases if name in case or fnmatchcase(case, name)]
    if not chosen:
        print(f"{os.path.basename(script)}: FAILED: no case has `{name}` in its name, and --list prints the cases")
        print("0 passed, 1 failed")
        sys.exit(1)
    return chosen


def choose_of(script: str, trial: Callable) -> None:
    """The same of the functions that a trial calls: it then calls no others."""
    cases = cases_of(trial)
    chosen = choose(script, [case.name for case in cases] or [stem_of(script)])
    for case in cases:
        if case.name not in chosen:
            case.leave_out(trial)


def stem_of(script: str) -> str:
    return os.path.splitext(os.path.basename(script))[0]


def main_alone(script: str, trial: Callable[[], int]) -> int:
    """Runs a trial that takes its own words, and gives the status to end with."""
    choose_of(script, trial)
    return trial()


def main(script, trial, words=None, rows=None):
    """Runs a trial on the program that the words name, and gives the status to end with. Rows are a list of names that
    the trial goes through itself: these are its cases, and those that aren't chosen are taken from the list."""
    trials = Trials(script)
    if rows:
        rows[:] = choose(script, rows[:])
    elif words is None:
        choose_of(script, trial)
    words = sys.argv[1:] if words is None else words
    if len(words) != 1:
        return usage(script, "PROGRAM [--only NAME]")
    if not os.path.isfile(words[0]):
        trials.check("its one word is the path of the program", False, "it is not there")
        return trials.end()
    with tempfile.TemporaryDirectory() as folder, tempfile.TemporaryDirectory(dir=in_memory()) as room:
        program = shutil.copy(words[0], f"{folder}/nlog")
        os.chmod(program, 0o755)
        trial(trials, program, room)
    return trials.end()


def main_of_parts(script: str, parts: Dict[str, Callable]) -> int:
    """Runs the parts of a trial, each in a folder of its own; says how much each tried and how long it took, and gives
    the status to end with."""
    chosen = choose(script, [*parts])

    def trial(trials, program, room):
        for name in chosen:
            before, at = trials.passed + trials.failed, time.monotonic()
            os.mkdir(f"{room}/{name}")
            parts[name](trials, program, f"{room}/{name}")
            print(f"{trials.script}: {name}: {trials.passed + trials.failed - before} in {time.monotonic() - at:.1f} s", flush=True)

    return main(script, trial, sys.argv[1:])


def main_by_chance(script, cases, seed, trial):
    """Runs a trial that makes cases by chance, as many as its words say, and gives the status to end with."""
    choose(script, [stem_of(script)])
    words, numbers = sys.argv[1:], sys.argv[2:]
    if not words or len(numbers) > 2 or not all(it.isdecimal() for it in numbers):
        return usage(script, "PROGRAM [CASES [SEED]]")
    trials, numbers = Trials(script), [*map(int, numbers), *(cases, seed)[len(numbers) :]]
    with tempfile.TemporaryDirectory(dir=in_memory()) as room:
        trial(trials, os.path.abspath(words[0]), room, numbers[0], random.Random(numbers[1]))
    return trials.end()


def in_memory():
    """A folder in which a sync takes no time, where there is one: the trials make thousands."""
    return "/dev/shm" if os.access("/dev/shm", os.W_OK | os.X_OK) else None


def run(words, **how):
    """Runs a program: its status, standard output and standard error. Status None: it didn't end."""
    how = {"stdin": subprocess.DEVNULL, "capture_output": True, "timeout": SECONDS, **how}
    try:
        ran = subprocess.run(words, **how)
    except subprocess.TimeoutExpired:
        return None, b"", f"it had not ended after {SECONDS} seconds".encode()
    return ran.returncode, ran.stdout, ran.stderr


def seconds_of(words, most=SECONDS, **how):
    """How a program ends, and how long the processors took: it is killed where they take more seconds than this."""
    before = resource.getrusage(resource.RUSAGE_CHILDREN)
    ended = run(words, preexec_fn=lambda: resource.setrlimit(resource.RLIMIT_CPU, (most, most)), **how)
    after = resource.getrusage(resource.RUSAGE_CHILDREN)
    return ended, after.ru_utime + after.ru_stime - before.ru_utime - before.ru_stime


def is_within(times, one, other):
    """Whether one of two things takes at most so many times as long as the other, and how long each took, in seconds of processors. Each is done
    up to five times, and its least time counts, because another process can only lengthen it."""
    least = [float("inf")] * 2
    for _ in range(5):
        least = [min(was, it()) for was, it in zip(least, (one, other))]
        if least[0] <= times * least[1]:
            break
    return least[0] <= times * least[1], f"{least[0]:.3f} s, beside {least[1]:.3f} s"


class Pauses:
    """A clock that counts pauses of its own, each of `PAUSE` seconds. On a busy machine it is as late as whatever waits, so upper bounds go by it,
    and lower bounds by the system's clock."""

    def __enter__(self):
        self.seconds, self.since, self.is_over = 0.0, time.monotonic(), threading.Event()
        threading.Thread(target=self.count, daemon=True).start()
        return self

    def count(self):
        while not self.is_over.wait(PAUSE):
            self.seconds += PAUSE

    def __exit__(self, *_):
        self.is_over.set()

    def slower(self):
        """How many times as long as it should a pause took."""
        return max(1.0, (time.monotonic() - self.since) / max(self.seconds, PAUSE))


def until_open(ran, path):
    """Waits until a process, or a child of it, has a file open, or has ended."""
    while ran.poll() is None and path not in opened_by(ran.pid):
        time.sleep(0.001)


def opened_by(pid):
    """The files that a process and its children have open; fewer where one of them is just being closed."""
    found = set()
    try:
        with open(f"/proc/{pid}/task/{pid}/children", encoding="ascii") as it:
            for each in (pid, *it.read().split()):
                found.update(os.readlink(f"/proc/{each}/fd/{fd}") for fd in os.listdir(f"/proc/{each}/fd"))
    except OSError:
        pass
    return found


def writer_driver(trials, room):
    """Builds the driver of the library's writer (tests/clib/driver.c), and gives its path; or None where there isn't what that takes."""
    top = os.path.dirname(os.path.dirname(os.path.abspath(__file__)))
    if shutil.which("rt") is None or shutil.which("cc") is None:
        return trials.skip("what the library's writer does", "rt or cc isn't there")
    archive, driver = f"{room}/libnlog.a", f"{room}/driver"
    made = run([f"{top}/lib/archive.sh", archive], timeout=BUILD_SECONDS)
    if made[0] == 0:
        words = ["cc", "-std=c11", "-O2", "-D_POSIX_C_SOURCE=200809L", "-I", f"{top}/include", f"{top}/tests/clib/driver.c"]
        made = run([*words, archive, "-o", driver])
    is_made = trials.check("the driver of the library's writer is built", made[0] == 0, (made[1] + made[2])[-400:].decode(errors="replace"))
    return driver if is_made else None


def is_locked(path):
    """Whether another has the lock of a file (flock). None has that of one that is missing."""
    if not os.path.exists(path):
        return False
    with open(path, "rb") as it:
        try:
            fcntl.flock(it, fcntl.LOCK_EX | fcntl.LOCK_NB)
        except BlockingIOError:
            return True
    return False


def read(path):
    """The bytes of a file, or None where it is missing."""
    try:
        with open(path, "rb") as it:
            return it.read()
    except FileNotFoundError:
        return None


def write(path, text):
    """Makes a file of these bytes, or of a text's. None: makes none."""
    if text is not None:
        with open(path, "wb") as it:
            it.write(text if isinstance(text, bytes) else text.encode())


def fill_up(path):
    """Fills the file system with this file."""
    with open(path, "wb", buffering=0) as it:
        try:
            while it.write(bytes(512)):
                pass
        except OSError:
            return
