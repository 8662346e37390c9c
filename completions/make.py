#!/usr/bin/env python3
"""Makes the completions for bash, zsh and fish of what the help screens of the program say: nlog.bash, nlog.zsh and nlog.fish in this folder.

    python3 completions/make.py PROGRAM [FOLDER]

The commands, options and values are those of `--help`, the words that an option takes those that its refusal names. A value is completed by
files where its name is that of a file.
"""
import os
import re
import subprocess
import sys

FOLDER = os.path.dirname(os.path.abspath(__file__))
# The values that are files. A log is one, whatever else the usage calls it.
FILES = {"LOG", "OLD", "NEW", "KEEP", "TIMES", "TARGETS", "SCRIPT", "FILE", "DIR"}


class Option:
    """An option: its spellings, the name of its value or none, the words that its value may be, and what it does."""

    def __init__(self, short, long, value, does, words):
        self.spellings, self.long, self.short = [it for it in (short, long) if it], long, short
        self.value, self.does, self.words = value, does, words


class Command:
    """A command: what it does, its options, and the names of its values, in order."""

    def __init__(self, name, does, options, values):
        self.name, self.does, self.options, self.values = name, does, options, values


def said(program, *words):
    """What the program prints of words that read nothing: help, or a refusal."""
    ran = subprocess.run([program, *words], stdin=subprocess.DEVNULL, stdout=subprocess.PIPE, stderr=subprocess.STDOUT, check=False)
    return ran.stdout.decode()


def options_of(program, screen, words=(), values=()):
    """The options of a help screen, which these words print. What an option takes is what the refusal of a word that none takes says."""
    part = screen[screen.index("\nOptions:\n") + 1 :].split("\n\n")[0]
    for short, long, value, does in re.findall(r"(?m)^ +(?=-)(?:(-[A-Za-z]),? ?)? *(--[a-z-]+)?(?: ?<([A-Z]+)>)? +(.*)$", part):
        asks = value and value not in FILES
        names = re.search(r": it is ([a-z0-9, ]+)$", said(program, *words, f"{long}=?", *values).split("\n")[0]) if asks else None
        yield Option(short, long, value, does, re.split(r", | or ", names[1]) if names else [])


def command_of(program, name, does):
    screen = said(program, name, "--help")
    usage = re.search(r"(?m)^Usage: (.*)$", screen)[1].replace("[OPTIONS]", "")
    values = re.findall(r"[<\[]([A-Z]+)[>\]]", usage)
    return Command(name, does, [*options_of(program, screen, [name], values)], values)


def commands_of(program):
    screen = said(program, "--help")
    part = screen[screen.index("\nCommands:\n") + 1 : screen.index("\nOptions:\n")]
    own = [*options_of(program, screen)]
    # `help` has no help screen of its own: behind it stands a command.
    return own, [command_of(program, *it) if it[0] != "help" else Command(*it, [], []) for it in re.findall(r"(?m)^  ([a-z-]+) +(.*)$", part)]


def quoted(text):
    return "'" + text.replace("'", "'\\''") + "'"


BASH = """\
# Completion of the words of nlog for bash: `. completions/nlog.bash`, or as a file `nlog` where bash-completion looks for it.
# completions/make.py makes it.

# What an option takes: its words, or files or folders; it takes no value where this fails.
_nlog_takes() {
    case $1 in
@TAKES@
        *) return 1 ;;
    esac
}

# The options of a command.
_nlog_options() {
    case $1 in
@OPTIONS@
    esac
}

# Sets COMPREPLY by what a value may be.
_nlog_reply() {
    case $1 in
        -f | -d)
            compopt -o filenames 2> /dev/null
            mapfile -t COMPREPLY < <(compgen "$1" -- "$2")
            ;;
        *) mapfile -t COMPREPLY < <(compgen -W "$1" -- "$2") ;;
    esac
}

_nlog() {
    local word=${COMP_WORDS[COMP_CWORD]} command=${COMP_WORDS[1]} values=0 dashes='' at takes
    COMPREPLY=()
    if ((COMP_CWORD == 1)); then
        _nlog_reply '@COMMANDS@' "$word"
        return
    fi
    # How many values stand before the word, without that of an option. Behind `--` each word is one.
    for ((at = 2; at < COMP_CWORD; at++)); do
        if [[ ! $dashes && ${COMP_WORDS[at]} == -- ]]; then
            dashes=yes
        elif [[ ! $dashes ]] && takes=$(_nlog_takes "$command:${COMP_WORDS[at]}"); then
            # Bash has the `=` of `--log-version=7` as a word of its own.
            [[ ${COMP_WORDS[at + 1]} == '=' ]] && at=$((at + 1))
            if ((++at >= COMP_CWORD)); then
                _nlog_reply "$takes" "$word"
                return
            fi
        elif [[ $dashes || ${COMP_WORDS[at]} != -?* ]]; then
            values=$((values + 1))
        fi
    done
    if [[ ! $dashes && $word == -* ]]; then
        _nlog_reply "$(_nlog_options "$command")" "$word"
        return
    fi
    case $command:$values in
        @FILES@) _nlog_reply -f "$word" ;;
        help:0) _nlog_reply '@NAMES@' "$word" ;;
    esac
}

complete -F _nlog nlog
"""


def bash_takes(option):
    return "-d" if option.value == "DIR" else "-f" if option.value in FILES else " ".join(option.words)


def bash(own, commands):
    takes = {}
    for command in commands:
        for option in command.options:
            if option.value:
                takes.setdefault(bash_takes(option), []).extend(f"{command.name}:{it}" for it in option.spellings)
    spelt = [(it.name, " ".join(spelling for option in it.options for spelling in option.spellings)) for it in commands if it.options]
    names = [it.name for it in commands]
    own = [it for option in own for it in option.spellings]
    parts = {
        "TAKES": "\n".join(f"        {' | '.join(where)}) printf %s '{words}' ;;" for words, where in takes.items()),
        "OPTIONS": "\n".join(f"        {name}) printf %s '{options}' ;;" for name, options in spelt),
        "COMMANDS": " ".join([*names, *own]),
        "NAMES": " ".join(names),
        "FILES": " | ".join(f"{it.name}:{at}" for it in commands for at, value in enumerate(it.values) if value in FILES),
    }
    text = BASH
    for name, part in parts.items():
        text = text.replace(f"@{name}@", part)
    return text


def zsh_option(option):
    does = re.sub(r"([\\\[\]:])", r"\\\1", option.does)
    value = ""
    if option.value:
        value = f":{option.value}:" + ("_files" if option.value in FILES else f"({' '.join(option.words)})" if option.words else " ")
    ends = {"--help": "(- *)", "--version": "(- *)"}.get(option.long, f"({' '.join(option.spellings)})")
    takes = {"-": "+", "": ""}
    specs = []
    for it in option.spellings:
        sign = "" if not option.value else "=" if it.startswith("--") else takes["-"]
        specs.append(quoted(f"{ends}{it}{sign}[{does}]{value}"))
    return specs


def zsh(own, commands):
    lines = ["#compdef nlog", "# Completion of the words of nlog for zsh, as a file `_nlog` in a folder of fpath. completions/make.py makes it.", ""]
    lines += ["_nlog() {", "  local curcontext=$curcontext state line ret=1", "  local -a commands", "  commands=("]
    lines += [f"    {quoted(f'{it.name}:{it.does}')}" for it in commands]
    lines += ["  )", "  _arguments -C -S \\"]
    lines += [f"    {spec} \\" for it in own for spec in zsh_option(it)]
    lines += ["    ': :->command' '*:: :->values' && ret=0", "  case $state in", "    command) _describe -t commands command commands && ret=0 ;;", "    values)"]
    lines += ["      curcontext=${curcontext%:*:*}:nlog-$words[1]:", "      case $words[1] in"]
    lines += ["        help) ((CURRENT == 2)) && _describe -t commands command commands && ret=0 ;;"]
    for command in commands:
        if command.name == "help":
            continue
        lines += [f"        {command.name})", "          _arguments -S -s \\"]
        lines += [f"            {spec} \\" for it in command.options for spec in zsh_option(it)]
        values = [quoted(f":{it}:{'_files' if it in FILES else ' '}") for it in command.values]
        lines += [f"            {' '.join(values)} && ret=0", "          ;;"]
    lines += ["      esac", "      ;;", "  esac", "  return ret", "}", "", '_nlog "$@"', ""]
    return "\n".join(lines)


def fish_quoted(text):
    return "'" + text.replace("\\", "\\\\").replace("'", "\\'") + "'"


def fish(own, commands):
    valued = sorted({it for command in commands for option in command.options if option.value for it in option.spellings})
    files = [f"{it.name}:{at}" for it in commands for at, value in enumerate(it.values) if value in FILES]
    lines = ["# Completion of the words of nlog for fish. completions/make.py makes it.", ""]
    lines += ["# Whether the word is a value that is a file: the command, and how many values stand before it. Behind `--` each word is one."]
    lines += ["function __nlog_takes_file", "    set -l words (commandline -opc)", "    set -l command $words[2]", "    set -e words[1..2]"]
    lines += ["    set -l values 0", "    set -l is_of_option no", "    set -l is_behind no", "    for word in $words", "        if test $is_of_option = yes"]
    lines += ["            set is_of_option no", '        else if test $is_behind = no -a "$word" = --', "            set is_behind yes"]
    lines += [f"        else if test $is_behind = no; and contains -- $word {' '.join(valued)}", "            set is_of_option yes"]
    lines += ["        else if test $is_behind = yes; or not string match -qr -- '^-.' $word", "            set values (math $values + 1)", "        end", "    end"]
    lines += [f"    contains -- $command:$values {' '.join(files)}", "end", ""]
    lines += ["function __nlog_has_command", "    test (count (commandline -opc)) -gt 1", "end", ""]
    lines += ["function __nlog_is", "    set -l words (commandline -opc)", "    contains -- $words[2] $argv", "end", ""]
    lines += ["complete -c nlog -f", "complete -c nlog -n __nlog_takes_file -F"]
    lines += [f"complete -c nlog -n 'not __nlog_has_command' -a {it.name} -d {fish_quoted(it.does)}" for it in commands]
    behind = "__nlog_is help; and test (count (commandline -opc)) -eq 2"
    lines += [f"complete -c nlog -n '{behind}' -a {fish_quoted(' '.join(it.name for it in commands))}"]
    lines += [fish_option("not __nlog_has_command", it) for it in own]
    lines += [fish_option(f"__nlog_is {command.name}", it) for command in commands for it in command.options]
    return "\n".join([*lines, ""])


def fish_option(when, option):
    words = ["complete -c nlog", "-n", fish_quoted(when), *[f"-s {it[1:]}" for it in [option.short] if it], *[f"-l {it[2:]}" for it in [option.long] if it]]
    if option.value:
        words += ["-r -F" if option.value in FILES else "-x"]
        words += [f"-a {fish_quoted(' '.join(option.words))}"] if option.words else []
    return " ".join([*words, "-d", fish_quoted(option.does)])


def main():
    if len(sys.argv) not in (2, 3) or sys.argv[1].startswith("-"):
        print("usage: python3 completions/make.py PROGRAM [FOLDER]", file=sys.stderr)
        return 2
    found = commands_of(os.path.abspath(sys.argv[1]))
    for shell, text in (("bash", bash(*found)), ("zsh", zsh(*found)), ("fish", fish(*found))):
        with open(f"{sys.argv[2] if len(sys.argv) == 3 else FOLDER}/nlog.{shell}", "w", encoding="utf-8") as it:
            it.write(text)
    return 0


if __name__ == "__main__":
    sys.exit(main())
