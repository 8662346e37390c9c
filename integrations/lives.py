"""Folders in which builds crash, and whose stale outputs are counted that a build tool takes for fresh. ninja/stale.py says more of them."""
import collections
import os
import random
import shutil
import signal
import subprocess
import tempfile
import time

from builds import LOG, tick
from trials import Trials, in_memory, read, write

RULES = """rule c
  command = exec {maker} $name $tag $out -- $in
rule same
  command = exec {maker} -s $name $tag $out -- $in
  restat = 1
"""

# A command: it writes its outputs, with `-s` those alone that change, says who made them, and kills its builder where it is told to.
MAKER = r"""
#include <fcntl.h>
#include <signal.h>
#include <stdio.h>
#include <stdlib.h>
#include <string.h>
#include <unistd.h>

static char text[1 << 20], old[1 << 20];

static size_t get(const char *path, char *to, size_t room) {
  int fd = open(path, O_RDONLY);
  ssize_t len = fd < 0 ? 0 : read(fd, to, room);
  if (fd >= 0) close(fd);
  return len < 0 ? 0 : (size_t)len;
}

static void put(const char *path, const char *bytes, size_t len) {
  int fd = open(path, O_WRONLY | O_CREAT | O_TRUNC, 0666);
  if (fd < 0 || write(fd, bytes, len) != (ssize_t)len || close(fd) != 0) exit(1);
}

int main(int count, char **words) {
  int is_same = strcmp(words[1], "-s") == 0, at = 2 + is_same, first = at + 1;
  const char *maker = getenv("MAKER");
  char path[4096];
  size_t len = (size_t)snprintf(text, sizeof text, "%s\n", words[at]);
  while (strcmp(words[++at], "--") != 0) continue;
  while (++at < count) len += get(words[at], text + len, sizeof text - len);
  for (at = first; strcmp(words[at], "--") != 0; at++) {
    if (!is_same || get(words[at], old, sizeof old) != len || memcmp(old, text, len) != 0) put(words[at], text, len);
    snprintf(path, sizeof path, "%s.by", words[at]);
    snprintf(old, sizeof old, "%s\n", maker);
    put(path, old, strlen(old));
  }
  snprintf(path, sizeof path, "kill.%s", words[1 + is_same]);
  if (access(path, F_OK) == 0) kill(getppid(), SIGKILL);
  return 0;
}
"""

SHIM = r"""
#define _GNU_SOURCE
#include <dlfcn.h>
#include <fcntl.h>
#include <signal.h>
#include <stdarg.h>
#include <stdio.h>
#include <stdlib.h>
#include <string.h>
#include <sys/stat.h>
#include <unistd.h>

static int left = -1, synced = -1, no_sync;

__attribute__((constructor)) static void begin(void) {
  const char *kill_at = getenv("KILL_AT"), *path = getenv("SYNCED");
  if (kill_at) left = atoi(kill_at);
  if (path) synced = open(path, O_WRONLY | O_CREAT | O_APPEND | O_CLOEXEC, 0666);
  no_sync = getenv("NO_SYNC") != NULL;
  unsetenv("LD_PRELOAD");
}

static int is_log(const char *path) { return path && strstr(path, ".ninja_log") != NULL; }

static int is_log_fd(int fd) {
  char link[64], path[4096];
  ssize_t len;
  snprintf(link, sizeof link, "/proc/self/fd/%d", fd);
  len = readlink(link, path, sizeof path - 1);
  if (len < 0) return 0;
  path[len] = 0;
  return is_log(path);
}

static void count(int is_one) {
  if (is_one && left > 0 && --left == 0) kill(getpid(), SIGKILL);
}

#define REAL(name) ((__typeof__(&name))dlsym(RTLD_NEXT, #name))

int fsync(int fd) {
  struct stat it;
  int answer, is_one = is_log_fd(fd);
  char line[64];
  count(is_one);
  if (no_sync) return 0;
  answer = REAL(fsync)(fd);
  if (answer == 0 && is_one && synced >= 0 && fstat(fd, &it) == 0) {
    int len = snprintf(line, sizeof line, "%llu %lld\n", (unsigned long long)it.st_ino, (long long)it.st_size);
    if (REAL(write)(synced, line, (size_t)len) != len) abort();
  }
  return answer;
}

ssize_t write(int fd, const void *bytes, size_t len) {
  count(is_log_fd(fd));
  return REAL(write)(fd, bytes, len);
}

int ftruncate(int fd, off_t len) {
  count(is_log_fd(fd));
  return REAL(ftruncate)(fd, len);
}

int rename(const char *from, const char *to) {
  count(is_log(to));
  return REAL(rename)(from, to);
}

int renameat(int a, const char *from, int b, const char *to) {
  count(is_log(to));
  return REAL(renameat)(a, from, b, to);
}

int unlink(const char *path) {
  count(is_log(path));
  return REAL(unlink)(path);
}

int unlinkat(int folder, const char *path, int how) {
  count(is_log(path));
  return REAL(unlinkat)(folder, path, how);
}

int fclose(FILE *file) {
  count(is_log_fd(fileno(file)));
  return REAL(fclose)(file);
}
"""


class Life:
    """A folder with so many outputs, what it builds, and what was found in it. Of a control it is known what it is without."""

    def __init__(self, numbers, name, builders, shim, folder, outputs):
        self.numbers, self.builders, self.shim, self.folder = numbers, builders, shim, folder
        self.kind, _, self.without = name.partition(", ")
        self.states = self.stale = 0
        self.happened = collections.Counter()
        os.makedirs(folder)
        os.chdir(folder)
        self.tags = ["A"] * outputs
        self.edges = []  # of a rule, outputs and inputs
        made = []
        self.halves = [[], []]  # of `two`: what each of two builders makes
        while len(made) < outputs:
            rule = numbers.choice(["c", "c", "c", "c", "same"])
            outs = [f"o{len(made) + it}" for it in range(2 if rule == "c" and numbers.random() < 0.25 and len(made) + 1 < outputs else 1)]
            # Without an input the hash alone tells what is stale, and not the time stamp too.
            half = self.halves[len(self.edges) % 2]
            before = half if self.kind == "two" else made
            self.edges.append((rule, outs, numbers.choice([[], ["source"], [*numbers.sample(before, 1)]]) if before else []))
            made += outs
            half += outs

    def manifest(self):
        lines = [RULES.format(maker=f"{os.path.dirname(self.folder)}/maker")]
        for at, (rule, outs, ins) in enumerate(self.edges):
            lines.append(f"build {' '.join(outs)}: {rule} {' '.join(ins)}\n  tag = {self.tags[at]}\n  name = {outs[0]}\n")
        write("build.ninja", "".join(lines))

    def change(self):
        """Commands that change, and come back."""
        for at in range(len(self.edges)):
            if self.numbers.random() < 0.2:
                self.tags[at] = "B" if self.tags[at] == "A" else "A"
        self.manifest()

    def synced(self):
        """How many bytes of the log that is there are durable."""
        inode = os.stat(LOG).st_ino
        lens = [int(it.split()[1]) for it in (read("synced") or b"").splitlines() if int(it.split()[0]) == inode]
        return lens[-1] if lens else 0

    def power_cut(self):
        """Of the bytes behind the last sync some are lost, or are zeros: at the end, or with others behind them."""
        if not os.path.exists(LOG):
            return
        text = read(LOG)
        kept = min(len(text), self.synced())
        if kept == len(text):
            return
        at = self.numbers.choice([kept, self.numbers.randint(kept, len(text)), max(kept, len(text) - self.numbers.randint(1, 200))])
        end = self.numbers.choice([at, at, len(text), self.numbers.randint(at, len(text))])
        if self.kind == "hands" and not self.has_tools:
            end = at  # plain samurai reads a log up to its first zero, and drops the intents behind it
        how = "zeros" if end == len(text) > at else "holes" if end > at else "all lost" if at == kept else "lines lost" if text[at - 1 : at] == b"\n" else "lines half lost"
        self.happened[how] += at < len(text)
        write(LOG, text[:at] + bytes(end - at) + (text[end:] if end > at else b""))

    def tear(self):
        """Takes a part of the last line's hash, with its newline."""
        text = read(LOG)
        if text.endswith(b"\n") and b"\t" in text:
            os.truncate(LOG, self.numbers.randint(text.rindex(b"\t") + 1, len(text) - 1))
            self.happened["torn"] += 1

    def build(self, crash, who=None):
        """Runs a build to its end, or into a crash: its status."""
        who = "plain" if self.without == "plain" else who or (self.numbers.choice(["plain", "patched"]) if self.kind == "hands" else "patched")
        env = {**os.environ, "MAKER": who, "LD_PRELOAD": self.shim, "SYNCED": f"{self.folder}/synced", "NINJA_LOG_SYNC": "none" if self.without == "no intents" else ""}
        if self.without == "no sync":
            env["NO_SYNC"] = "1"
        for it in os.listdir("."):
            if it.startswith("kill."):
                os.remove(it)
        if crash == "command":
            write(f"kill.{self.numbers.choice(self.edges)[1][0]}", "")
        if crash == "call":
            env["KILL_AT"] = str(self.numbers.randint(1, 40))
        # What the builder runs holds an end of the pipe, so that no command of a killed one is left when the next build begins.
        ours, theirs = os.pipe()
        words = [*self.builders[who], f"-j{self.numbers.choice([1, 3])}"]
        children = [subprocess.Popen([*words, *it], env=env, pass_fds=[theirs], stdin=subprocess.DEVNULL, stdout=subprocess.DEVNULL, stderr=subprocess.DEVNULL) for it in (self.halves if self.kind == "two" else [[]])]
        os.close(theirs)
        if crash in ("moment", "interrupt"):
            time.sleep(self.numbers.random() * 0.05)
            self.numbers.choice(children).send_signal(signal.SIGKILL if crash == "moment" else signal.SIGINT)
        status = max(abs(it.wait()) for it in children)
        self.happened["kills" if crash != "interrupt" else "interrupts"] += status != 0
        self.happened[f"builds by {who}"] += 1
        os.read(ours, 1)
        os.close(ours)
        return status

    def tool(self):
        """What a user may run between two builds, or none."""
        words = self.numbers.choice([[], [], ["restat"], ["recompact"]])
        if words and self.without != "plain" and self.kind != "hands" and self.has_tools:
            self.happened[words[0]] += 1
            subprocess.run([*self.builders["patched"], "-t", *words], stdout=subprocess.DEVNULL, stderr=subprocess.DEVNULL, check=False)

    def wanted(self):
        """What each output is, by its command and its inputs."""
        found = {"source": b"source\n"}
        for at, (_, outs, ins) in enumerate(self.edges):
            for it in outs:
                found[it] = self.tags[at].encode() + b"\n" + b"".join(found[other] for other in ins)
        return found

    def live(self, builds):
        write("source", "source\n")
        self.manifest()
        for _ in range(builds):
            tick(".")
            crash = self.numbers.choice(["command", "command", "moment", "interrupt", "call", "none", "none"])
            status = self.build(crash)
            if status != 0 or crash == "none":
                if status == 0:
                    self.look()
                if self.kind != "killed" and self.numbers.random() < 0.7:
                    self.power_cut()
                self.tool()
            if self.numbers.random() < 0.8:
                self.change()

    def live_torn(self, builds):
        """As live, without a crash that loses more of a line than its hash. No log of three builds is due, so plain Ninja rewrites none."""
        write("source", "source\n")
        self.manifest()
        for at in range(builds):
            tick(".")
            who = "patched" if at % 3 == 2 else "plain"
            self.build("none", who)
            if who == "patched":
                self.look()
                subprocess.run([*self.builders["plain" if self.without else who], "-t", "recompact"], stdout=subprocess.DEVNULL, check=True)
            if self.numbers.random() < 0.8:
                self.tear()
            if self.numbers.random() < 0.8:
                self.change()

    def look(self):
        """Of a folder that changes hands those count as stale that the patched one made."""
        wanted = self.wanted()
        stale = [it for it in wanted if read(it) != wanted[it]]
        if self.kind == "hands":
            # An output made of a stale input is right by its own command.
            stale = [it for it in stale if read(f"{it}.by") == b"patched\n" and self.is_own(it)]
        self.states, self.stale = self.states + len(wanted) - 1, self.stale + len(stale)

    def is_own(self, name):
        """Whether an output isn't what its command makes of its inputs as they are."""
        for at, (_, outs, ins) in enumerate(self.edges):
            if name in outs:
                return read(name) != self.tags[at].encode() + b"\n" + b"".join(read(it) or b"" for it in ins)
        return False


def live_all(script, kinds, controls, builders, states, seed, outputs, has_tools=False):
    """Lives lives of each kind, until so many outputs were looked at, times its share; and of its controls until some are stale, and a tenth as many were."""
    seed = seed or str(time.time_ns() % 10**9)
    print(f"seed {seed}")
    trial = Trials(script)
    room = os.path.realpath(tempfile.mkdtemp(dir=in_memory()))
    try:
        for name, text, flags in (("shim.so", SHIM, ["-shared", "-fPIC"]), ("maker", MAKER, ["-static"])):
            subprocess.run([*os.environ.get("CXX", "c++").split(), "-x", "c", "-O1", *flags, "-o", f"{room}/{name}", "-"], input=text, text=True, check=True)
        for kind, share in [(it, share) for of, share in kinds.items() for it in (of, *(f"{of}, {it}" for it in controls[of]))]:
            looked = stale = lives = 0
            happened = collections.Counter()
            is_control = ", " in kind
            while looked < int(states) * (0.1 if is_control else share) or (is_control and not stale and looked < int(states)):
                life = Life(random.Random(f"{seed} {kind} {lives}"), kind, builders, f"{room}/shim.so", f"{room}/life", outputs)
                life.has_tools = has_tools
                (life.live_torn if life.kind == "torn" else life.live)(40)
                looked, stale, lives, happened = looked + life.states, stale + life.stale, lives + 1, happened + life.happened
                os.chdir(room)
                shutil.rmtree(life.folder, ignore_errors=True)
            print(f"{kind}: {looked} outputs in {lives} lives: {stale} stale; {', '.join(f'{many} {it}' for it, many in sorted(happened.items()))}", flush=True)
            trial.check(f"{kind}: {stale} stale", (stale > 0) == bool(life.without), "" if stale else "nothing was tried")
    finally:
        os.chdir("/")
        shutil.rmtree(room, ignore_errors=True)
    return trial.end()
