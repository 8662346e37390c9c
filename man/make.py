#!/usr/bin/env python3
"""Makes docs/HELP.md and man/nlog.1 of what a built program prints as its help, and of the messages of docs/CLI.md.

    python3 man/make.py PROGRAM

What neither says stands in man/nlog.1.in, where a line `@NAME@` is replaced by the part of that name. tests/manual.py tells whether both pages are
what this makes.
"""
import os
import re
import subprocess
import sys

TOP = os.path.dirname(os.path.dirname(os.path.abspath(__file__)))
HELP, MANUAL = f"{TOP}/docs/HELP.md", f"{TOP}/man/nlog.1"
ABOUT = """# Help screens

This page has what `--help` prints of the program and of each command. `python3 man/make.py PROGRAM`
makes it. [CLI.md](CLI.md) says what the words, options and values mean.
"""
# The options of each command.
COMMON = ("--verbose", "--help", "--version")


def text_of(path):
    with open(path, encoding="utf-8") as it:
        return it.read()


def screens(program):
    """The help screens, in order: the words of each, and its text."""

    def help_of(words):
        return subprocess.run([program, *words, "--help"], capture_output=True, check=True, encoding="utf-8").stdout

    found = [("", [], help_of([]))]
    for name in re.findall(r"(?m)^  ([a-z-]+) ", found[0][2].split("Commands:")[1].split("Options:")[0]):
        if name != "help":
            found.append((name, [name], help_of([name])))
    # In the order of the page of commands: `replay` is the last.
    return sorted(found, key=lambda it: it[0] == "replay")


def help_page(found):
    page = [ABOUT]
    for title, words, text in found:
        shown = "".join(f"    {it}".rstrip() + "\n" for it in [f"$ {' '.join(['nlog', *words, '--help'])}", *text.rstrip("\n").split("\n")])
        page.append(f"## `{' '.join(['nlog', title]).strip()}`\n\n{shown}")
    return "\n".join(page)


def escaped(text):
    """A text as a manual page has it, with what stands in backquotes in bold."""
    text = text.replace("\\", "\\e").replace("-", "\\-").replace("'", "\\(aq")
    text = re.sub(r"`([^`]*)`", r"\\fB\1\\fP", text)
    return re.sub(r"(?m)^\.", "\\\\&.", text)


def capital(text):
    return text[0].upper() + text[1:]


def sentence(text):
    """A text as the lines of a sentence, each of at most 80 columns."""
    lines = [""]
    for word in escaped(f"{text}.").split(" "):
        if lines[-1] and len(lines[-1]) + len(word) > 79:
            lines.append("")
        lines[-1] += (" " if lines[-1] else "") + word
    return "\n".join(lines)


def words_of(title, text):
    """A command with its values, as the page has it."""
    usage = re.search(r"Usage: nlog (.*)", text)[1].replace("[OPTIONS] ", "")
    usage = re.sub(r"^[a-z-]+ ?", "", usage)
    values = re.sub(r"<([A-Z]+)>|([A-Z]+)(?=\])", lambda it: f"\\fI{it[1] or it[2]}\\fP", usage).replace("\\fP \\fI", " ")
    return f"\\fB{escaped(title)}\\fP {values}"


def commands(found):
    return "\n".join(f".TP\n{words_of(title, text)}\n{sentence(text.split(chr(10))[0])}" for title, _, text in found[1:])


def with_commands(option, titles):
    return "" if any(it in option for it in COMMON) else "\n" + sentence("With " + ", ".join(titles))


def options(found):
    """Each option once, with each of its texts, and the commands that say so of it, unless each does."""
    said = {}
    for title, _, text in found:
        for line in text.rstrip("\n").split("Options:\n")[1].split("\n\n")[0].split("\n"):
            option, about = re.fullmatch(r" *(-.*?) {2,}(.*)", line).groups()
            said.setdefault(option, {}).setdefault(about, []).append(f"`{title}`")
    page = []
    for option, texts in said.items():
        tag = re.sub(r"--?[A-Za-z][A-Za-z-]*", lambda it: f"\\fB{escaped(it[0])}\\fP", option)
        page.append(".TP\n" + re.sub(r"<([A-Z]+)>", r"\\fI\1\\fP", tag))
        page.append("\n.IP\n".join(sentence(about) + with_commands(option, titles) for about, titles in texts.items()))
    return "\n".join(page)


def messages():
    """The messages with status 1, by the table of docs/CLI.md."""
    page = text_of(f"{TOP}/docs/CLI.md")
    table = page[page.index("These messages end with status 1.") : page.index("These messages end with status 2.")]
    rows = re.findall(r"(?m)^\| `([^`]+)` \| ([^|]+) \|", table)
    return "\n".join(f".TP\n\\fB{escaped(re.sub(' [0-9]+$', '', text))}\\fP" + (" \\fIN\\fP" if re.search(" [0-9]+$", text) else "") + f"\n{sentence(capital(cause))}" for text, cause in rows)


def manual(found):
    page = text_of(f"{MANUAL}.in")
    for name, part in (("COMMANDS", commands(found)), ("OPTIONS", options(found)), ("MESSAGES", messages())):
        page = page.replace(f"@{name}@", part)
    return page


def main(given):
    if len(given) != 1:
        print(__doc__, file=sys.stderr)
        return 2
    found = screens(os.path.abspath(given[0]))
    for path, text in ((HELP, help_page(found)), (MANUAL, manual(found))):
        with open(path, "w", encoding="utf-8") as it:
            it.write(text)
    return 0


if __name__ == "__main__":
    sys.exit(main(sys.argv[1:]))
