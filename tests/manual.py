#!/usr/bin/env python3
"""Tries the manual page: that it is shown without a warning, that it and docs/HELP.md are what man/make.py makes of the program's help, and that
it has each command, option and message. And what install.sh puts.

    python3 tests/manual.py PROGRAM

Wants groff, and mandoc, to format the page; each is skipped where it is missing. The commands are those that the help of the
program lists, the messages those of the table of docs/CLI.md.
"""
import os
import re
import shutil
import sys

from trials import main, read, run, write

TOP = os.path.dirname(os.path.dirname(os.path.abspath(__file__)))
sys.path.insert(0, f"{TOP}/man")
import make  # noqa: E402

PAGE, LIBRARY_PAGE = f"{TOP}/man/nlog.1", f"{TOP}/man/nlog.3"
SECTIONS = ["NAME", "SYNOPSIS", "DESCRIPTION", "COMMANDS", "OPTIONS", "FILES", "EXIT STATUS", "DIAGNOSTICS", "EXAMPLES", "CAVEATS", "SEE ALSO"]
# How each formatter says what is wrong with a page.
FORMATTERS = {"groff": ["groff", "-ww", "-man", "-Tutf8", "-z"], "mandoc": ["mandoc", "-Tlint"]}
LIBRARY_SECTIONS = ["NAME", "LIBRARY", "SYNOPSIS", "DESCRIPTION", "RETURN VALUE", "EXAMPLES", "CAVEATS", "SEE ALSO"]


def plain(text):
    """The page without its requests, fonts and escapes, its words with one space between them."""
    text = re.sub(r"\\f[A-Z]", "", text.replace("\\-", "-").replace("\\(aq", "'"))
    text = re.sub(r"(?m)^\.[A-Z]+ ?", "", text).replace('"', "")
    return re.sub(r"\s+", " ", text)


def literal(text):
    """The text of the page's examples, as it is shown."""
    for escape, shown in (("\\-", "-"), ("\\(aq", "'"), ("\\e", "\\")):
        text = text.replace(escape, shown)
    return text


def messages():
    """The texts of the messages of docs/CLI.md that end with status 1, without their numbers."""
    page = read(f"{TOP}/docs/CLI.md").decode()
    table = page[page.index("These messages end with status 1.") : page.index("These messages end with status 2.")]
    return [re.sub(r" [0-9]+$", "", it) for it in re.findall(r"(?m)^\| `([^`]+)`", table)]


def options_of(help_text):
    """The options of a help, long and short."""
    found = re.findall(r"(?m)^ +(-[A-Za-z])?(?:, )? *(--[a-z]+(?:-[a-z]+)*|(?<=-C ))", help_text[help_text.index("Options:") :].split("\n\n")[0])
    return [it for both in found for it in both if it]


def try_library_page(trials):
    """The page on the library: it has each function and status of the header, and the first example of docs/LIBRARY.md."""
    page, header = read(LIBRARY_PAGE).decode(), read(f"{TOP}/include/nlog.h").decode()
    trials.want("its sections", re.findall(r"(?m)^\.SH (.*)$", page), LIBRARY_SECTIONS)
    synopsis, text = plain(page[: page.index(".SH DESCRIPTION")]), plain(page[page.index(".SH DESCRIPTION") :])
    functions = re.findall(r"(?m)^(?!static)(\w[\w *]*?nlog_\w+\([^;{]*\));", header)
    trials.check("there are functions", len(functions) > 30, functions)
    for it in functions:
        trials.check(f"the synopsis has {it}", re.sub(r"\s+", "", it) in re.sub(r"\s+", "", synopsis))
        name = re.search(r"nlog_\w+(?=\()", it)[0]
        trials.check(f"the description has {name}", f"{name} ()" in text)
    for it in re.findall(r"(?m)^  (NLOG_\w+) = \d+,", header):
        trials.check(f"it has {it}", it in text)
    trials.check("its example is the first of docs/LIBRARY.md", re.search(r"(?s)```c\n(.*?)```", read(f"{TOP}/docs/LIBRARY.md").decode())[1] in literal(page))


def try_install(trials, program, room):
    """install.sh, where the command that proves and builds is one that does nothing, and the program is there."""
    top = f"{room}/top"
    for name in ("install.sh", "man/nlog.1", "man/nlog.3", "completions/nlog.bash", "completions/nlog.zsh", "completions/nlog.fish", "include/nlog.h", "CHANGELOG.md"):
        os.makedirs(os.path.dirname(f"{top}/{name}"), exist_ok=True)
        shutil.copy(f"{TOP}/{name}", f"{top}/{name}")
    os.makedirs(f"{top}/crates/nlog/out")
    shutil.copy(program, f"{top}/crates/nlog/out/nlog")
    write(f"{top}/rt", b"#!/bin/sh\n")
    os.mkdir(f"{top}/lib")
    write(f"{top}/lib/archive.sh", b"#!/bin/sh\nshift 2; cp include/nlog.h $1; cd `dirname $1`; cp $1 libnlog.so.0.2.0; ln -s libnlog.so.0.2.0 libnlog.so\n".replace(b"include", f"{top}/include".encode()))
    for name in ("rt", "lib/archive.sh"):
        os.chmod(f"{top}/{name}", 0o755)
    env = {**os.environ, "PATH": f"{top}:{os.environ.get('PATH', os.defpath)}"}
    env.pop("DESTDIR", None)
    for turn in ("first", "second"):
        status, _, err = run(["sh", f"{top}/install.sh", f"{room}/prefix"], env=env)
        trials.want(f"the {turn} installation", (status, err), (0, b""))
    try_destdir(trials, f"{top}/install.sh", room, env)
    made = {os.path.relpath(f"{folder}/{it}", f"{room}/prefix") for folder, _, files in os.walk(f"{room}/prefix") for it in files}
    wanted = {"bin/nlog": program, "share/man/man1/nlog.1": PAGE, "share/bash-completion/completions/nlog": f"{TOP}/completions/nlog.bash"}
    wanted.update({"share/zsh/site-functions/_nlog": f"{TOP}/completions/nlog.zsh", "share/fish/vendor_completions.d/nlog.fish": f"{TOP}/completions/nlog.fish"})
    if shutil.which("cc") and shutil.which("ar") and shutil.which("objcopy"):
        for name in ("lib/libnlog.a", "lib/libnlog.so", "lib/libnlog.so.0.2.0", "include/nlog.h"):
            wanted[name] = f"{TOP}/include/nlog.h"
        wanted["share/man/man3/nlog.3"] = LIBRARY_PAGE
        write(f"{room}/page", b".so man3/nlog.3\n")
        calls = re.findall(r"(?m)^\w[\w *]*?(nlog_\w+)\(", read(f"{TOP}/include/nlog.h").decode())
        trials.check("there are calls", len(calls) > 40 and "nlog_status_name" in calls, calls)
        wanted.update((f"share/man/man3/{it}.3", f"{room}/page") for it in calls)
        trials.want("the link of the shared object", os.readlink(f"{room}/prefix/lib/libnlog.so"), "libnlog.so.0.2.0")
        about = read(f"{room}/prefix/lib/pkgconfig/nlog.pc")
        trials.check("what it says of the library", about and b"\nVersion: 0.2.0\n" in about and f"prefix={room}/prefix\n".encode() in about, about)
        made.discard("lib/pkgconfig/nlog.pc")
        for it, says in (("nlog-config.cmake", b"libnlog.so.0.2.0"), ("nlog-config-version.cmake", b'PACKAGE_VERSION "0.2.0"')):
            about = read(f"{room}/prefix/lib/cmake/nlog/{it}")
            trials.check(f"what {it} says of the library", about and says in about and room.encode() not in about, about)
            made.discard(f"lib/cmake/nlog/{it}")
    else:
        trials.skip("that install.sh puts the library", "cc, ar or objcopy isn't there")
    trials.want("what it puts", made, set(wanted))
    for name, path in wanted.items():
        trials.check(f"it puts {name}", read(f"{room}/prefix/{name}") == read(path))


def try_destdir(trials, script, room, env):
    """A package: all is put below DESTDIR, and says PREFIX. And a PREFIX with a space, of which pkg-config makes flags that are whole."""
    prefix = f"{room}/a place"
    status, _, err = run(["sh", script, prefix], env={**env, "DESTDIR": f"{room}/package"})
    trials.want("an installation below DESTDIR", (status, err), (0, b""))
    trials.check("all is below it", os.path.exists(f"{room}/package{prefix}/bin/nlog") and not os.path.exists(prefix))
    status, _, err = run(["sh", script, "relative"], env={**env, "DESTDIR": f"{room}/package"}, cwd=room)
    trials.want("DESTDIR and a relative PREFIX", (status, err), (2, b"install.sh: with DESTDIR, PREFIX begins with /\n"))
    folder = f"{room}/package{prefix}/lib/pkgconfig"
    if shutil.which("pkg-config") is None or not os.path.isdir(folder):
        trials.skip("the flags of nlog.pc", "pkg-config, or the library, isn't there")
        return
    asked = {**env, "PKG_CONFIG_PATH": folder}
    for variable, wanted in (("libdir", f"{prefix}/lib"), ("includedir", f"{prefix}/include")):
        trials.want(f"its {variable}", run(["pkg-config", f"--variable={variable}", "nlog"], env=asked)[1].decode().strip(), wanted)
    flags = run(["sh", "-c", "eval \"set -- $(pkg-config --cflags --libs nlog)\"; printf '%s\\n' \"$@\""], env=asked)[1].decode().split("\n")[:-1]
    trials.want("its flags", flags, [f"-I{prefix}/include", f"-L{prefix}/lib", "-lnlog"])


def trial(trials, program, room):
    try_formatters(trials)
    try_library_page(trials)
    try_help(trials, program)
    try_install(trials, program, room)


def try_formatters(trials):
    """Each formatter takes both pages."""
    for name, words in FORMATTERS.items():
        if shutil.which(name) is None:
            trials.skip(f"the page as {name} formats it", f"{name} isn't there")
        else:
            for path in (PAGE, LIBRARY_PAGE):
                trials.want(f"{name} has no warning of {os.path.basename(path)}", run([*words, path]), (0, b"", b""))


def try_help(trials, program):
    """The help, and the pages that are made of it."""
    screens = make.screens(program)
    trials.want("docs/HELP.md", read(make.HELP).decode(), make.help_page(screens))
    for title, words, text in screens:
        trials.want(f"nlog help {title}", run([program, "help", *words]), (0, text.encode(), b""))
    page = read(PAGE).decode()
    trials.want("man/nlog.1", page, make.manual(screens))
    trials.want("its sections", re.findall(r"(?m)^\.SH (.*)$", page), SECTIONS)
    text = plain(page)
    help_text = run([program, "--help"])[1].decode()
    commands = re.findall(r"(?m)^  ([a-z-]+) ", help_text[help_text.index("Commands:") : help_text.index("Options:")])
    trials.want("the number of commands", len(commands), 22)
    for name in commands:
        if name == "help":
            continue
        usage = re.search(r"Usage: (.*)", run([program, name, "--help"])[1].decode())[1]
        trials.check(f"the synopsis of {name}", re.sub("[<>]", "", usage.replace("[OPTIONS] ", "")).split(" ", 1)[1] in text, usage)
        for option in options_of(run([program, name, "--help"])[1].decode()):
            trials.check(f"the option {option} of {name}", option == "-h" or option in text)
    for option in re.findall(r"--[a-z]+", help_text[help_text.index("Options:") : help_text.index("\n\n", help_text.index("Options:"))]):
        trials.check(f"the option {option}", option in text)
    trials.want("the number of messages", len(messages()), 14)
    for it in messages():
        trials.check(f"the message {it!r}", it in text[text.index("Each comes as") :])
    line = "ninja -t targets all > targets && nlog prune .ninja_log targets"
    trials.check(f"{line} is there", line in text)


if __name__ == "__main__":
    sys.exit(main(__file__, trial))
