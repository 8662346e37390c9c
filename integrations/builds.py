"""What the trials of the folders beside this file share: a build tool in a folder, manifests, and what stands in a log."""
import os
import signal
import subprocess
import sys
import time

sys.path.insert(0, f"{os.path.dirname(os.path.dirname(os.path.abspath(__file__)))}/tests")
from trials import read, write

LOG = ".ninja_log"

# A shell has what it runs in the background ignore an interruption, and each tool that is started here would, too.
signal.signal(signal.SIGINT, signal.default_int_handler)


class Builder:
    """A build tool, by the words that run it, in a folder of its own."""

    def __init__(self, command, folder):
        self.command, self.folder, self.plain = command, folder, None
        os.makedirs(folder, exist_ok=True)
        os.chdir(folder)

    def run(self, *words, before=(), **env):
        """Its status, and what it says."""
        done = subprocess.run([*before, *self.command, *words], stdout=subprocess.PIPE, stderr=subprocess.STDOUT, text=True, check=False, env={**os.environ, **env})
        return done.returncode, done.stdout


def echoing(word):
    write("build.ninja", f"rule c\n  command = echo {word} > out\nbuild out: c\n")


def touching(*names):
    write("build.ninja", "rule c\n  command = touch $out\n" + "".join(f"build {it}: c\n" for it in names))


def making(text):
    """A manifest of commands that `die` kills with their builder when they have run, that `fail` fails then, and that `hang` holds before they end."""
    more = "(test ! -e die || kill -9 $$PPID) && test ! -e fail && (test ! -e hang || (touch held; sleep 60))"
    write("build.ninja", f"more = {more}\n{text}")


def tagged(word):
    making(f"rule c\n  command = echo {word} > out && $more\nbuild out: c\n")


def entries_of(name):
    """The lines of an output: their start, end, time stamp and hash."""
    lines = [it.split(b"\t") for it in (read(LOG) or b"").split(b"\n")[1:-1]]
    return [(int(it[0]), int(it[1]), int(it[2]), int(it[4], 16)) for it in lines if len(it) == 5 and it[3] == name.encode()]


def is_intent(entry):
    return entry[0] == entry[1] and entry[2] == 0


def kinds_of(name):
    """The lines of an output, as `intent` or `record`."""
    return ["intent" if is_intent(it) else "record" for it in entries_of(name)]


def with_file(name, call):
    """Makes a call while a file is there."""
    write(name, "")
    answer = call()
    os.remove(name)
    return answer


def names_in(text):
    return [it.split(b"\t")[3] for it in (text or b"").split(b"\n")[1:-1] if it.count(b"\t") == 4]


def long_log(header):
    gone = b"".join(b"1\t2\t3\tgone/obj/some/long/name/of/an/output%d.o\tabc\n" % (it % 90) for it in range(9000))
    return header + b"1\t2\t3\ta\taa\n" + gone + b"1\t2\t3\tz\tbb\n"


def traced(*words):
    return ["strace", "-f", "-o", "/dev/null", *words]


def interrupted(builder):
    """Interrupts a build whose command hangs: its status."""
    write("hang", "")
    child = subprocess.Popen(builder.command, stdout=subprocess.DEVNULL, stderr=subprocess.DEVNULL)
    while not os.path.exists("held"):
        time.sleep(0.01)
    child.send_signal(signal.SIGINT)
    os.remove("hang")
    status = child.wait()
    os.remove("held")
    return status


def tick(folder):
    """Waits until a file that is written now has a later time stamp than any before."""
    path = f"{folder}/tick"
    with open(path, "w", encoding="utf-8"):
        begun = os.stat(path).st_mtime_ns
    while True:
        time.sleep(0.001)
        with open(path, "w", encoding="utf-8") as it:
            it.write("x")
        if os.stat(path).st_mtime_ns > begun:
            return
