#!/usr/bin/env python3
"""Tries the completions for bash, zsh and fish: what each shell offers behind each word, of the commands, options and values that the help has.

    python3 tests/completions.py PROGRAM

They have to be the ones that completions/make.py makes of PROGRAM. Each shell is asked by its own machinery: bash by the function,
fish by `complete -C`, zsh at a terminal. Wants bash, zsh and fish; each that is missing is said.
"""
import os
import pty
import re
import select
import shutil
import sys
import time

from trials import SECONDS, main, read, run, write

TOP = os.path.dirname(os.path.dirname(os.path.abspath(__file__)))
FILES = {"LOG", "OLD", "NEW", "KEEP", "TIMES", "TARGETS", "SCRIPT", "FILE"}
STREAMED = ("entries", "damage", "doubt", "builds", "summary", "compare", "trace", "picture")
# Prints what is completed of the words, of which the last one is begun.
BASH = '. "$0"; COMP_WORDS=("$@"); COMP_CWORD=$(($# - 1)); _nlog; printf "%s\\n" "${COMPREPLY[@]}"'
FISH = 'source $argv[1]; complete -C "$argv[2]"'
# zsh says between two bytes 0 what it would offer: each call of compadd that offers something is asked for its words.
ZSH = r"""
PROMPT= PS2= RPROMPT=
unsetopt prompt_cr prompt_sp beep
fpath=("$1" $fpath)
autoload -Uz compinit && compinit -D
bindkey -e
bindkey '^I' asked
bindkey '^M' undefined-key
zstyle ':completion:*' insert-tab false
asked() { print -n $'\0'; zle complete-word; print -n $'\0' }
zle -N asked
compadd() {
    if [[ ${@[1,(i)(-|--)]} == *-(O|A|D)\ * ]]; then
        builtin compadd "$@"
        return
    fi
    local -a offered
    builtin compadd -A offered "$@"
    (($#offered)) && print -rl -- $offered
    builtin compadd "$@"
}
print ready
"""


def line_of(words):
    return " ".join(["nlog", *(it.replace(" ", "\\ ") for it in words)])


def by_bash(_, words, folder):
    return run(["bash", "-c", BASH, f"{TOP}/completions/nlog.bash", "nlog", *words], cwd=folder)[1].decode().split("\n")


def by_fish(room, words, folder):
    said = run(["fish", "--no-config", "-c", FISH, f"{TOP}/completions/nlog.fish", line_of(words)], cwd=folder, env={**os.environ, "HOME": room})[1]
    return [it.partition("\t")[0] for it in said.decode().split("\n")]


class Zsh:
    """A zsh at a terminal of its own, in a folder, which has the completion below `fpath`."""

    def __init__(self, room, folder):
        os.mkdir(f"{room}/fpath")
        shutil.copy(f"{TOP}/completions/nlog.zsh", f"{room}/fpath/_nlog")
        write(f"{room}/setup.zsh", ZSH)
        self.pid, self.fd = pty.fork()
        if self.pid == 0:
            os.chdir(folder)
            os.execvpe("zsh", ["zsh", "-f", "-i"], {"PATH": os.environ.get("PATH", os.defpath), "HOME": room, "TERM": "dumb"})
        os.write(self.fd, f". {room}/setup.zsh {room}/fpath\n".encode())
        self.until(lambda it: b"\nready\r\n" in it)

    def until(self, is_all):
        said, end = b"", time.monotonic() + SECONDS
        while not is_all(said):
            if not select.select([self.fd], [], [], max(0, end - time.monotonic()))[0]:
                raise TimeoutError(said)
            said += os.read(self.fd, 65536)
        return said

    def offers(self, words):
        # (what stands on the line goes first)
        os.write(self.fd, b"\x15" + line_of(words).encode() + b"\t")
        said = self.until(lambda it: it.count(b"\0") >= 2).split(b"\0")[1]
        return [it.strip().rstrip("=").replace("\\ ", " ") for it in said.decode().split("\n")]

    def end(self):
        os.close(self.fd)
        os.waitpid(self.pid, 0)


def options_of(help_text):
    """The options of a help, long and short."""
    found = re.findall(r"(?m)^ +(?=-)(-[A-Za-z])?(?:, )? *(--[a-z]+(?:-[a-z]+)*)?", help_text[help_text.index("Options:") :].split("\n\n")[0])
    return [it for both in found for it in both if it]


def cases(program, shell):
    """Words of which the last is begun, with what a shell completes of it."""
    help_text = run([program, "--help"])[1].decode()
    commands = re.findall(r"(?m)^  ([a-z-]+) ", help_text[help_text.index("Commands:") : help_text.index("Options:")])
    files = ["a file", "b.log"]
    yield ["re"], [it for it in commands if it.startswith("re")]
    yield ["--"], [it for it in options_of(help_text) if it.startswith("--")]
    yield ["frob", ""], []
    yield ["help", ""], commands
    yield ["help", "re"], [it for it in commands if it.startswith("re")]
    yield ["help", "show", ""], []
    for name in commands:
        if name == "help":
            continue
        own = run([program, name, "--help"])[1].decode()
        options = options_of(own)
        yield [name, "-"], options
        yield [name, "--"], [it for it in options if it.startswith("--")]
        values = re.findall(r"[\[<]([A-Z]+)[\]>]", re.search(r"Usage: (.*)", own)[1].replace("[OPTIONS]", ""))
        for at, value in enumerate([*values, "none"]):
            for before in ([], ["--"]):
                # zsh offers options where there is nothing else to say.
                others = options if shell == "zsh" and value == "none" and not before else []
                yield [name, *before, *["1"] * at, ""], files if value in FILES else others
                yield [name, *before, *["1"] * at, "b"], ["b.log"] if value in FILES else []
        if "--log-version" in own:
            yield [name, "--log-version", ""], ["auto"] if name in STREAMED else ["5", "6", "7", "auto"]
            yield [name, "--log-version", "7", ""], files if values[0] in FILES else []
            yield [name, "--log-version=7", "b"], ["b.log"] if values[0] in FILES else []
            # Behind `--` it is the first value.
            yield [name, "--", "--log-version", ""], files if values[1:2] and values[1] in FILES else []
        if "--kind" in own:
            yield [name, "--kind", ""], ["extension", "folder", "top", "work"]
            yield [name, "--kind", "f"], ["folder"]
            yield [name, "--kind", "top", "b"], ["b.log"]
            yield [name, "--", "--kind", ""], []
        if "--graph" in own:
            yield [name, "--graph", ""], files
            yield [name, "--graph", "b"], ["b.log"]
            yield [name, "--graph", "b.log", "b"], ["b.log"]


def trial(trials, program, room):
    folder = f"{room}/files"
    os.mkdir(folder)
    for name in ("b.log", "a file"):
        write(f"{folder}/{name}", b"")
    os.mkdir(f"{room}/made")
    made = run([sys.executable, f"{TOP}/completions/make.py", program, f"{room}/made"])
    trials.want("completions/make.py ends well", made, (0, b"", b""))
    for name in ("nlog.bash", "nlog.zsh", "nlog.fish"):
        trials.check(f"completions/{name} is what completions/make.py makes", read(f"{room}/made/{name}") == read(f"{TOP}/completions/{name}"))
    zsh = Zsh(room, folder) if shutil.which("zsh") else None
    ways = {"bash": by_bash, "fish": by_fish, "zsh": lambda _, words, __: zsh.offers(words)}
    for shell, ask in ways.items():
        if shutil.which(shell) is None:
            trials.skip(f"what {shell} completes", f"{shell} isn't there")
            continue
        for words, wanted in cases(program, shell):
            trials.want(f"{shell} completes {words}", sorted({it for it in ask(room, words, folder) if it}), sorted(wanted))
    if zsh:
        zsh.end()


if __name__ == "__main__":
    sys.exit(main(__file__, trial))
