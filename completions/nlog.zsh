#compdef nlog
# Completion of the words of nlog for zsh, as a file `_nlog` in a folder of fpath. completions/make.py makes it.

_nlog() {
  local curcontext=$curcontext state line ret=1
  local -a commands
  commands=(
    'show:Prints the last entry of each output, in the order in which the outputs first appear'
    'check:Prints what a log holds: version, total, unique, skipped, torn, due'
    'hash:Prints the hash of a command as a log holds it, in hexadecimal'
    'entries:Prints each entry, older ones included, in the order of the file'
    'damage:Prints a line for each line that is no entry; status 3 where there is one'
    'doubt:Prints the outputs whose files aren'\''t as a log says; status 3 where there is one'
    'builds:Prints a line for each build that a log tells of: what it ran, and how long'
    'summary:Prints how long a build took, how much ran at a time, and its slowest commands'
    'compare:Prints which commands are new, gone, changed, slower and faster in another log'
    'trace:Prints a build as JSON for a trace viewer: a lane for what ran beside others'
    'picture:Draws a build as SVG: a bar for each command, and how many ran at a time'
    'hash-file:Prints the hash of a command that stands in a file: of each of its bytes'
    'mend:Has Ninja make each output anew that a log can'\''t vouch for; run it after a crash'
    'record:Adds one entry to a log; prints nothing'
    'recompact:Rewrites a log with the last entry of each output that KEEP names; prints nothing'
    'restat:Rewrites a log with the time stamps that TIMES gives; prints nothing'
    'prune:Rewrites a log with the last entry of each output that a build has; prints nothing'
    'retime:Rewrites a log with the time stamps that the outputs'\'' files have; prints nothing'
    'repair:Rewrites a log with the last entry of each output; prints nothing'
    'replay:Runs the events of a script on a log in memory, and prints the replies and that log'
    'apply:Answers lines that ask for changes and entries, one after another, on one open log'
    'help:Print this message or the help of the given subcommand(s)'
  )
  _arguments -C -S \
    '(- *)-h[Print help]' \
    '(- *)--help[Print help]' \
    '(- *)-V[Print version]' \
    '(- *)--version[Print version]' \
    ': :->command' '*:: :->values' && ret=0
  case $state in
    command) _describe -t commands command commands && ret=0 ;;
    values)
      curcontext=${curcontext%:*:*}:nlog-$words[1]:
      case $words[1] in
        help) ((CURRENT == 2)) && _describe -t commands command commands && ret=0 ;;
        show)
          _arguments -S -s \
            '(--log-version)--log-version=[5, 6 or 7\: the version of LOG; auto\: the one that its first line names; 4 or 5 where it is left out]:VERSION:(5 6 7 auto)' \
            '(-v --verbose)-v[Says which file or value a refusal is of, and why; also that LOG is missing, or locked]' \
            '(-v --verbose)--verbose[Says which file or value a refusal is of, and why; also that LOG is missing, or locked]' \
            '(- *)-h[Print help]' \
            '(- *)--help[Print help]' \
            ':LOG:_files' && ret=0
          ;;
        check)
          _arguments -S -s \
            '(--log-version)--log-version=[5, 6 or 7\: the version of LOG; auto\: the one that its first line names; 4 or 5 where it is left out]:VERSION:(5 6 7 auto)' \
            '(-v --verbose)-v[Says which file or value a refusal is of, and why; also that LOG is missing, or locked]' \
            '(-v --verbose)--verbose[Says which file or value a refusal is of, and why; also that LOG is missing, or locked]' \
            '(- *)-h[Print help]' \
            '(- *)--help[Print help]' \
            ':LOG:_files' && ret=0
          ;;
        hash)
          _arguments -S -s \
            '(--log-version)--log-version=[5, 6 or 7\: the version of the logs that hold the hash; auto\: 5, as where it is left out]:VERSION:(5 6 7 auto)' \
            '(-v --verbose)-v[Says which file or value a refusal is of, and why; also that LOG is missing, or locked]' \
            '(-v --verbose)--verbose[Says which file or value a refusal is of, and why; also that LOG is missing, or locked]' \
            '(- *)-h[Print help]' \
            '(- *)--help[Print help]' \
            ':COMMAND: ' && ret=0
          ;;
        entries)
          _arguments -S -s \
            '(--log-version)--log-version=[auto alone\: the version that LOG'\''s first line names, as where it is left out]:VERSION:(auto)' \
            '(--missing-ok)--missing-ok[Takes a LOG that is missing for an empty one]' \
            '(-v --verbose)-v[Says which file or value a refusal is of, and why; also that LOG is missing, or locked]' \
            '(-v --verbose)--verbose[Says which file or value a refusal is of, and why; also that LOG is missing, or locked]' \
            '(- *)-h[Print help]' \
            '(- *)--help[Print help]' \
            ':LOG:_files' && ret=0
          ;;
        damage)
          _arguments -S -s \
            '(--log-version)--log-version=[auto alone\: the version that LOG'\''s first line names, as where it is left out]:VERSION:(auto)' \
            '(--missing-ok)--missing-ok[Takes a LOG that is missing for an empty one]' \
            '(-v --verbose)-v[Says which file or value a refusal is of, and why; also that LOG is missing, or locked]' \
            '(-v --verbose)--verbose[Says which file or value a refusal is of, and why; also that LOG is missing, or locked]' \
            '(- *)-h[Print help]' \
            '(- *)--help[Print help]' \
            ':LOG:_files' && ret=0
          ;;
        doubt)
          _arguments -S -s \
            '(--log-version)--log-version=[auto alone\: the version that LOG'\''s first line names, as where it is left out]:VERSION:(auto)' \
            '(-v --verbose)-v[Says which file or value a refusal is of, and why; also that LOG is missing, or locked]' \
            '(-v --verbose)--verbose[Says which file or value a refusal is of, and why; also that LOG is missing, or locked]' \
            '(- *)-h[Print help]' \
            '(- *)--help[Print help]' \
            ':LOG:_files' && ret=0
          ;;
        builds)
          _arguments -S -s \
            '(--log-version)--log-version=[auto alone\: the version that LOG'\''s first line names, as where it is left out]:VERSION:(auto)' \
            '(--missing-ok)--missing-ok[Takes a LOG that is missing for an empty one]' \
            '(--tabs)--tabs[Puts a tab between fields at a terminal too, in place of columns]' \
            '(-v --verbose)-v[Says which file or value a refusal is of, and why; also that LOG is missing, or locked]' \
            '(-v --verbose)--verbose[Says which file or value a refusal is of, and why; also that LOG is missing, or locked]' \
            '(- *)-h[Print help]' \
            '(- *)--help[Print help]' \
            ':LOG:_files' && ret=0
          ;;
        summary)
          _arguments -S -s \
            '(--log-version)--log-version=[auto alone\: the version that LOG'\''s first line names, as where it is left out]:VERSION:(auto)' \
            '(--missing-ok)--missing-ok[Takes a LOG that is missing for an empty one]' \
            '(--build)--build=[The number of a build in `builds`; left out, the last that made more than `build.ninja`]:BUILD: ' \
            '(--all)--all[Tells of all builds, one after another, with the last entry of each output alone]' \
            '(--kind)--kind=[What a kind goes by\: extension, folder, top (the first folder), or work (what its command does); left out, extension, or work at a terminal]:RULE:(extension folder top work)' \
            '(-n --lines)-n+[How many lines a list has at most\: 10 where it is left out, 0 for none]:N: ' \
            '(-n --lines)--lines=[How many lines a list has at most\: 10 where it is left out, 0 for none]:N: ' \
            '(--graph)--graph=[What `ninja -t graph` prints\: the critical path is told too; `-` is standard input]:FILE:_files' \
            '(--jobs)--jobs=[Numbers with commas\: estimates by the graph how long the build takes with so many commands at a time]:LIST: ' \
            '(--tabs)--tabs[Puts a tab between fields at a terminal too, in place of columns]' \
            '(-v --verbose)-v[Says which file or value a refusal is of, and why; also that LOG is missing, or locked]' \
            '(-v --verbose)--verbose[Says which file or value a refusal is of, and why; also that LOG is missing, or locked]' \
            '(- *)-h[Print help]' \
            '(- *)--help[Print help]' \
            ':LOG:_files' && ret=0
          ;;
        compare)
          _arguments -S -s \
            '(--log-version)--log-version=[auto alone\: the version that LOG'\''s first line names, as where it is left out]:VERSION:(auto)' \
            '(--missing-ok)--missing-ok[Takes a LOG that is missing for an empty one]' \
            '(-n --lines)-n+[How many lines a list has at most\: 10 where it is left out, 0 for none]:N: ' \
            '(-n --lines)--lines=[How many lines a list has at most\: 10 where it is left out, 0 for none]:N: ' \
            '(--at-least)--at-least=[A command whose times differ by less than MS milliseconds is `same`]:MS: ' \
            '(--tabs)--tabs[Puts a tab between fields at a terminal too, in place of columns]' \
            '(-v --verbose)-v[Says which file or value a refusal is of, and why; also that LOG is missing, or locked]' \
            '(-v --verbose)--verbose[Says which file or value a refusal is of, and why; also that LOG is missing, or locked]' \
            '(- *)-h[Print help]' \
            '(- *)--help[Print help]' \
            ':OLD:_files' ':NEW:_files' && ret=0
          ;;
        trace)
          _arguments -S -s \
            '(--log-version)--log-version=[auto alone\: the version that LOG'\''s first line names, as where it is left out]:VERSION:(auto)' \
            '(--missing-ok)--missing-ok[Takes a LOG that is missing for an empty one]' \
            '(--build)--build=[The number of a build in `builds`; left out, the last that made more than `build.ninja`]:BUILD: ' \
            '(--all)--all[Tells of all builds, one after another, with the last entry of each output alone]' \
            '(-v --verbose)-v[Says which file or value a refusal is of, and why; also that LOG is missing, or locked]' \
            '(-v --verbose)--verbose[Says which file or value a refusal is of, and why; also that LOG is missing, or locked]' \
            '(- *)-h[Print help]' \
            '(- *)--help[Print help]' \
            ':LOG:_files' && ret=0
          ;;
        picture)
          _arguments -S -s \
            '(--log-version)--log-version=[auto alone\: the version that LOG'\''s first line names, as where it is left out]:VERSION:(auto)' \
            '(--missing-ok)--missing-ok[Takes a LOG that is missing for an empty one]' \
            '(--build)--build=[The number of a build in `builds`; left out, the last that made more than `build.ninja`]:BUILD: ' \
            '(--all)--all[Tells of all builds, one after another, with the last entry of each output alone]' \
            '(--graph)--graph=[What `ninja -t graph` prints\: the critical path has an outline; `-` is standard input]:FILE:_files' \
            '(-v --verbose)-v[Says which file or value a refusal is of, and why; also that LOG is missing, or locked]' \
            '(-v --verbose)--verbose[Says which file or value a refusal is of, and why; also that LOG is missing, or locked]' \
            '(- *)-h[Print help]' \
            '(- *)--help[Print help]' \
            ':LOG:_files' && ret=0
          ;;
        hash-file)
          _arguments -S -s \
            '(--log-version)--log-version=[5, 6 or 7\: the version of the logs that hold the hash; auto\: 5, as where it is left out]:VERSION:(5 6 7 auto)' \
            '(-v --verbose)-v[Says which file or value a refusal is of, and why; also that LOG is missing, or locked]' \
            '(-v --verbose)--verbose[Says which file or value a refusal is of, and why; also that LOG is missing, or locked]' \
            '(- *)-h[Print help]' \
            '(- *)--help[Print help]' \
            ':FILE:_files' && ret=0
          ;;
        mend)
          _arguments -S -s \
            '(-C)-C+[The folder of the build, as for Ninja\: where it is left out, the one in which you run it]:DIR:_files' \
            '(--dry-run)--dry-run[Prints the same, and changes nothing]' \
            '(--all)--all[Has Ninja make those anew, too, that may be well]' \
            '(-v --verbose)-v[Says which file or value a refusal is of, and why; also that LOG is missing, or locked]' \
            '(-v --verbose)--verbose[Says which file or value a refusal is of, and why; also that LOG is missing, or locked]' \
            '(- *)-h[Print help]' \
            '(- *)--help[Print help]' \
            ':LOG:_files' && ret=0
          ;;
        record)
          _arguments -S -s \
            '(--log-version)--log-version=[5, 6 or 7\: the version of LOG; auto\: the one that its first line names; 4 or 5 where it is left out]:VERSION:(5 6 7 auto)' \
            '(-v --verbose)-v[Says which file or value a refusal is of, and why; also that LOG is missing, or locked]' \
            '(-v --verbose)--verbose[Says which file or value a refusal is of, and why; also that LOG is missing, or locked]' \
            '(- *)-h[Print help]' \
            '(- *)--help[Print help]' \
            ':LOG:_files' ':START: ' ':END: ' ':MTIME: ' ':NAME: ' ':COMMAND: ' && ret=0
          ;;
        recompact)
          _arguments -S -s \
            '(--log-version)--log-version=[5, 6 or 7\: the version of LOG; auto\: the one that its first line names; 4 or 5 where it is left out]:VERSION:(5 6 7 auto)' \
            '(-v --verbose)-v[Says which file or value a refusal is of, and why; also that LOG is missing, or locked]' \
            '(-v --verbose)--verbose[Says which file or value a refusal is of, and why; also that LOG is missing, or locked]' \
            '(- *)-h[Print help]' \
            '(- *)--help[Print help]' \
            ':LOG:_files' ':KEEP:_files' && ret=0
          ;;
        restat)
          _arguments -S -s \
            '(--log-version)--log-version=[5, 6 or 7\: the version of LOG; auto\: the one that its first line names; 4 or 5 where it is left out]:VERSION:(5 6 7 auto)' \
            '(-v --verbose)-v[Says which file or value a refusal is of, and why; also that LOG is missing, or locked]' \
            '(-v --verbose)--verbose[Says which file or value a refusal is of, and why; also that LOG is missing, or locked]' \
            '(- *)-h[Print help]' \
            '(- *)--help[Print help]' \
            ':LOG:_files' ':TIMES:_files' && ret=0
          ;;
        prune)
          _arguments -S -s \
            '(--log-version)--log-version=[5, 6 or 7\: the version of LOG; auto\: the one that its first line names, as where it is left out]:VERSION:(5 6 7 auto)' \
            '(-v --verbose)-v[Says which file or value a refusal is of, and why; also that LOG is missing, or locked]' \
            '(-v --verbose)--verbose[Says which file or value a refusal is of, and why; also that LOG is missing, or locked]' \
            '(- *)-h[Print help]' \
            '(- *)--help[Print help]' \
            ':LOG:_files' ':TARGETS:_files' && ret=0
          ;;
        retime)
          _arguments -S -s \
            '(--log-version)--log-version=[5, 6 or 7\: the version of LOG; auto\: the one that its first line names, as where it is left out]:VERSION:(5 6 7 auto)' \
            '(-v --verbose)-v[Says which file or value a refusal is of, and why; also that LOG is missing, or locked]' \
            '(-v --verbose)--verbose[Says which file or value a refusal is of, and why; also that LOG is missing, or locked]' \
            '(- *)-h[Print help]' \
            '(- *)--help[Print help]' \
            ':LOG:_files' && ret=0
          ;;
        repair)
          _arguments -S -s \
            '(--log-version)--log-version=[5, 6 or 7\: the version of LOG; auto\: the one that its first line names, as where it is left out]:VERSION:(5 6 7 auto)' \
            '(--missing-ok)--missing-ok[Takes a LOG that is missing for an empty one]' \
            '(-v --verbose)-v[Says which file or value a refusal is of, and why; also that LOG is missing, or locked]' \
            '(-v --verbose)--verbose[Says which file or value a refusal is of, and why; also that LOG is missing, or locked]' \
            '(- *)-h[Print help]' \
            '(- *)--help[Print help]' \
            ':LOG:_files' && ret=0
          ;;
        replay)
          _arguments -S -s \
            '(-v --verbose)-v[Says which file or value a refusal is of, and why; also that LOG is missing, or locked]' \
            '(-v --verbose)--verbose[Says which file or value a refusal is of, and why; also that LOG is missing, or locked]' \
            '(- *)-h[Print help]' \
            '(- *)--help[Print help]' \
            ':SCRIPT:_files' && ret=0
          ;;
        apply)
          _arguments -S -s \
            '(--log-version)--log-version=[5, 6 or 7\: the version of LOG; auto\: the one that its first line names, as where it is left out]:VERSION:(5 6 7 auto)' \
            '(-v --verbose)-v[Says which file or value a refusal is of, and why; also that LOG is missing, or locked]' \
            '(-v --verbose)--verbose[Says which file or value a refusal is of, and why; also that LOG is missing, or locked]' \
            '(- *)-h[Print help]' \
            '(- *)--help[Print help]' \
            ':LOG:_files' ':SCRIPT:_files' && ret=0
          ;;
      esac
      ;;
  esac
  return ret
}

_nlog "$@"
