# Completion of the words of nlog for bash: `. completions/nlog.bash`, or as a file `nlog` where bash-completion looks for it.
# completions/make.py makes it.

# What an option takes: its words, or files or folders; it takes no value where this fails.
_nlog_takes() {
    case $1 in
        show:--log-version | check:--log-version | hash:--log-version | hash-file:--log-version | record:--log-version | recompact:--log-version | restat:--log-version | prune:--log-version | retime:--log-version | repair:--log-version | apply:--log-version) printf %s '5 6 7 auto' ;;
        entries:--log-version | damage:--log-version | doubt:--log-version | builds:--log-version | summary:--log-version | compare:--log-version | trace:--log-version | picture:--log-version) printf %s 'auto' ;;
        summary:--build | summary:-n | summary:--lines | summary:--jobs | compare:-n | compare:--lines | compare:--at-least | trace:--build | picture:--build) printf %s '' ;;
        summary:--kind) printf %s 'extension folder top work' ;;
        summary:--graph | picture:--graph) printf %s '-f' ;;
        mend:-C) printf %s '-d' ;;
        *) return 1 ;;
    esac
}

# The options of a command.
_nlog_options() {
    case $1 in
        show) printf %s '--log-version -v --verbose -h --help' ;;
        check) printf %s '--log-version -v --verbose -h --help' ;;
        hash) printf %s '--log-version -v --verbose -h --help' ;;
        entries) printf %s '--log-version --missing-ok -v --verbose -h --help' ;;
        damage) printf %s '--log-version --missing-ok -v --verbose -h --help' ;;
        doubt) printf %s '--log-version -v --verbose -h --help' ;;
        builds) printf %s '--log-version --missing-ok --tabs -v --verbose -h --help' ;;
        summary) printf %s '--log-version --missing-ok --build --all --kind -n --lines --graph --jobs --tabs -v --verbose -h --help' ;;
        compare) printf %s '--log-version --missing-ok -n --lines --at-least --tabs -v --verbose -h --help' ;;
        trace) printf %s '--log-version --missing-ok --build --all -v --verbose -h --help' ;;
        picture) printf %s '--log-version --missing-ok --build --all --graph -v --verbose -h --help' ;;
        hash-file) printf %s '--log-version -v --verbose -h --help' ;;
        mend) printf %s '-C --dry-run --all -v --verbose -h --help' ;;
        record) printf %s '--log-version -v --verbose -h --help' ;;
        recompact) printf %s '--log-version -v --verbose -h --help' ;;
        restat) printf %s '--log-version -v --verbose -h --help' ;;
        prune) printf %s '--log-version -v --verbose -h --help' ;;
        retime) printf %s '--log-version -v --verbose -h --help' ;;
        repair) printf %s '--log-version --missing-ok -v --verbose -h --help' ;;
        replay) printf %s '-v --verbose -h --help' ;;
        apply) printf %s '--log-version -v --verbose -h --help' ;;
    esac
}

# Sets COMPREPLY by what a value may be.
_nlog_reply() {
    case $1 in
        -f | -d)
            compopt -o filenames 2> /dev/null
            mapfile -t COMPREPLY < <(compgen "$1" -- "$2")
            ;;
        *) mapfile -t COMPREPLY < <(compgen -W "$1" -- "$2") ;;
    esac
}

_nlog() {
    local word=${COMP_WORDS[COMP_CWORD]} command=${COMP_WORDS[1]} values=0 dashes='' at takes
    COMPREPLY=()
    if ((COMP_CWORD == 1)); then
        _nlog_reply 'show check hash entries damage doubt builds summary compare trace picture hash-file mend record recompact restat prune retime repair replay apply help -h --help -V --version' "$word"
        return
    fi
    # How many values stand before the word, without that of an option. Behind `--` each word is one.
    for ((at = 2; at < COMP_CWORD; at++)); do
        if [[ ! $dashes && ${COMP_WORDS[at]} == -- ]]; then
            dashes=yes
        elif [[ ! $dashes ]] && takes=$(_nlog_takes "$command:${COMP_WORDS[at]}"); then
            # Bash has the `=` of `--log-version=7` as a word of its own.
            [[ ${COMP_WORDS[at + 1]} == '=' ]] && at=$((at + 1))
            if ((++at >= COMP_CWORD)); then
                _nlog_reply "$takes" "$word"
                return
            fi
        elif [[ $dashes || ${COMP_WORDS[at]} != -?* ]]; then
            values=$((values + 1))
        fi
    done
    if [[ ! $dashes && $word == -* ]]; then
        _nlog_reply "$(_nlog_options "$command")" "$word"
        return
    fi
    case $command:$values in
        show:0 | check:0 | entries:0 | damage:0 | doubt:0 | builds:0 | summary:0 | compare:0 | compare:1 | trace:0 | picture:0 | hash-file:0 | mend:0 | record:0 | recompact:0 | recompact:1 | restat:0 | restat:1 | prune:0 | prune:1 | retime:0 | repair:0 | replay:0 | apply:0 | apply:1) _nlog_reply -f "$word" ;;
        help:0) _nlog_reply 'show check hash entries damage doubt builds summary compare trace picture hash-file mend record recompact restat prune retime repair replay apply help' "$word" ;;
    esac
}

complete -F _nlog nlog
