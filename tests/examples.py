#!/usr/bin/env python3
"""Runs the examples of README.md and of the pages of docs/ for users of the program with a built program, and compares what they print and
how they end.

    python3 tests/examples.py PROGRAM

An example is a line `$ COMMAND` of an indented block, and the lines after it are what a terminal shows of it. What begins
with `nlog:` or `error:` is wanted on standard error, the rest on standard output. The status is the one that docs/CLI.md
gives: 2 with wrong words, 1 with a refusal, else 0; an example `$ echo $?` after it states another. The rows of the tables
of messages are examples too: standard error begins with their text, and nothing is printed. `<TAB>` on a page is a tab.

A paragraph that ends in "file `NAME` holds" (or "file `NAME`, without a newline at its end, holds") says that the block after
it is that file. The examples of a page run in order in one folder, with the page's files and the program on the path: nothing
of the repository is there, and they leave nothing in it.

A picture that a page shows, `![..](docs/NAME.svg)`, is the file NAME.svg that its examples make.

The script fails where an example differs, and where docs/CLI.md has none for a command that the program's help lists. Its last line is
`N passed, M failed`.
"""
import filecmp
import os
import re
import subprocess
import sys
import tempfile

from trials import SECONDS, main

TOP = os.path.dirname(os.path.dirname(os.path.abspath(__file__)))
PAGES = ["README.md", "docs/CLI.md", "docs/HELP.md", "docs/REPLAY.md", "docs/DAMAGE.md", "docs/RECIPES.md"]

# The head of a table of messages.
MESSAGES = "| Text | Cause | Example |"


class Example:
    """A command of a page, and what is wanted of it: of a row of a table the beginning of standard error, and no output."""

    def __init__(self, where, command, shown, is_row=False):
        at = re.search(r"(?m)^(nlog|error): ", shown)
        at = at.start() if at else len(shown)
        self.where, self.command, self.is_row = where, command, is_row
        self.out, self.err = shown[:at], shown[at:]
        self.status = status_with(self.err)

    def differs(self, status, out, err):
        """Says in what a run differs from this, or nothing."""
        if status != self.status:
            return f"status {status} in place of {self.status}; standard error: {err!r}"
        if out != self.out:
            return f"standard output {out!r} in place of {self.out!r}"
        if not (err.startswith(self.err) if self.is_row else err == self.err):
            return f"standard error {err!r} in place of {self.err!r}"
        return None


def status_with(err):
    """The status that docs/CLI.md gives to a text on standard error."""
    if err.startswith(("error: ", "nlog: cannot read the words")):
        return 2
    return 1 if err else 0


def lines_of(page):
    with open(f"{TOP}/{page}", encoding="utf-8") as it:
        return it.read().split("\n")


def blocks(page):
    """Gives the indented blocks of a page: the number of the first line, the paragraph before it, and its lines."""
    paragraph, block, is_over = [], [], True
    for number, line in enumerate([*lines_of(page), "."], 1):
        if line.startswith("    ") or block and not line:
            block.append(line[4:])
            continue
        if block:
            yield number - len(block), " ".join(paragraph), block
            block, is_over = [], True
        if line and is_over:
            paragraph = []
        if line:
            paragraph.append(line)
        is_over = not line


def stripped(lines):
    """The text of these lines without the empty ones at its end."""
    text = "".join(f"{it}\n" for it in lines).rstrip("\n")
    return f"{text}\n".replace("<TAB>", "\t") if text else ""


def file_of(paragraph, block):
    """The name and the bytes of the file that a block gives, by the end of the paragraph before it."""
    named = re.search(r"\b[Ff]ile `([\w.]+)`(, without a newline at its end,)? holds$", paragraph)
    if not named or any(it.startswith("$ ") for it in block):
        return None
    text = stripped(block)
    return named[1], (text.rstrip("\n") if named[2] else text).encode()


def read_block(page, start, block):
    """The examples of a block, in order."""
    examples = []
    starts = [i for i, line in enumerate(block) if line.startswith("$ ")]
    for at, end in zip(starts, [*starts[1:], len(block)]):
        command, shown = block[at][2:].replace("<TAB>", "\t"), stripped(block[at + 1 : end])
        if command == "echo $?" and examples:
            examples[-1].status = int(shown)
        else:
            examples.append(Example(f"{page}:{start + at}", command, shown))
    return examples


def read_rows(page):
    """The examples in the rows of the tables of messages."""
    is_table = False
    for number, line in enumerate(lines_of(page), 1):
        is_table = line == MESSAGES or is_table and line.startswith("|")
        if not is_table or not line.startswith("| `"):
            continue
        cells = [it.strip().replace("\\|", "|") for it in re.split(r"(?<!\\)\|", line)]
        text = re.match(r"`([^`]*)`", cells[1])[1]
        shown = text if text.startswith(("error:", "nlog:")) else f"nlog: {text}\n"
        for command in re.findall(r"`([^`]+)`", cells[3]):
            yield Example(f"{page}:{number}", command, shown, is_row=True)


def read_page(page):
    """The files of a page, and its examples, first those of its blocks."""
    files, examples = {}, []
    for start, paragraph, block in blocks(page):
        given = file_of(paragraph, block)
        if given:
            files[given[0]] = given[1]
        else:
            examples += read_block(page, start, block)
    return files, [*examples, *read_rows(page)]


def run(room, program, command):
    """Runs a command in a folder, and returns its status, standard output and standard error."""
    path = f"{os.path.dirname(program)}:{os.environ.get('PATH', os.defpath)}"
    env = {"PATH": path, "HOME": room, "LANG": "C.UTF-8"}
    how = {"cwd": room, "env": env, "stdin": subprocess.DEVNULL, "capture_output": True, "timeout": SECONDS}
    try:
        ran = subprocess.run(["bash", "-c", command], **how)
    except subprocess.TimeoutExpired:
        return None, "", f"it had not ended after {SECONDS} seconds"
    return ran.returncode, ran.stdout.decode(errors="replace"), ran.stderr.decode(errors="replace")


def fill(room, files):
    """Puts a page's files into a folder of their own."""
    for name, text in files.items():
        with open(f"{room}/{name}", "wb") as it:
            it.write(text)


def commands_of(program):
    """The commands that the program's help lists, without `help` itself."""
    with tempfile.TemporaryDirectory() as room:
        out = run(room, program, "nlog --help")[1]
    listed = re.search(r"(?m)^Commands:\n((?:  .*\n)+)", out)
    return re.findall(r"(?m)^  (?!help )([a-z-]+) ", listed[1]) if listed else []


def lacking(page, examples, commands):
    """The words that a page owes an example of, and shows none."""
    # The page of the command line shows each, that of the help screens each one's; the first page shows a few.
    owed = {"docs/CLI.md": [*commands, "--version"], "docs/HELP.md": ["--help", *(f"{it} --help" for it in commands)]}
    for word in owed.get(page, []):
        if not any(re.search(rf"(^|[/ (])nlog {word}(?![\w-])", it.command) for it in examples):
            yield f"`nlog {word}`"
    if page == "docs/CLI.md" and not any(re.search(r"(^|[/ (])nlog( <.*)?$", it.command) for it in examples):
        yield "`nlog` without a word"


def try_page(trials, page, program, commands, is_tried=lambda _: True):
    files, examples = read_page(page)
    for it in lacking(page, examples, commands):
        trials.check(f"{page} shows no example of {it}", False)
    with tempfile.TemporaryDirectory(prefix="nlog-examples-") as room:
        fill(room, files)
        for example in filter(is_tried, examples):
            why = example.differs(*run(room, program, example.command))
            trials.check(f"{example.where}: {example.command}", not why, why)
        for path in re.findall(r"!\[[^]]*\]\(([^)]+)\)", "\n".join(lines_of(page))):
            made = f"{room}/{os.path.basename(path)}"
            is_made = os.path.exists(made) and filecmp.cmp(made, f"{TOP}/{path}", shallow=False)
            trials.check(f"{page}: {path} is what its examples make", is_made)


def trial(trials, program, _):
    commands = commands_of(program)
    trials.check("the program's help lists commands", commands)
    for page in PAGES:
        try_page(trials, page, program, commands)


if __name__ == "__main__":
    sys.exit(main(__file__, trial, rows=PAGES))
