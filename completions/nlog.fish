# Completion of the words of nlog for fish. completions/make.py makes it.

# Whether the word is a value that is a file: the command, and how many values stand before it. Behind `--` each word is one.
function __nlog_takes_file
    set -l words (commandline -opc)
    set -l command $words[2]
    set -e words[1..2]
    set -l values 0
    set -l is_of_option no
    set -l is_behind no
    for word in $words
        if test $is_of_option = yes
            set is_of_option no
        else if test $is_behind = no -a "$word" = --
            set is_behind yes
        else if test $is_behind = no; and contains -- $word --at-least --build --graph --jobs --kind --lines --log-version -C -n
            set is_of_option yes
        else if test $is_behind = yes; or not string match -qr -- '^-.' $word
            set values (math $values + 1)
        end
    end
    contains -- $command:$values show:0 check:0 entries:0 damage:0 doubt:0 builds:0 summary:0 compare:0 compare:1 trace:0 picture:0 hash-file:0 mend:0 record:0 recompact:0 recompact:1 restat:0 restat:1 prune:0 prune:1 retime:0 repair:0 replay:0 apply:0 apply:1
end

function __nlog_has_command
    test (count (commandline -opc)) -gt 1
end

function __nlog_is
    set -l words (commandline -opc)
    contains -- $words[2] $argv
end

complete -c nlog -f
complete -c nlog -n __nlog_takes_file -F
complete -c nlog -n 'not __nlog_has_command' -a show -d 'Prints the last entry of each output, in the order in which the outputs first appear'
complete -c nlog -n 'not __nlog_has_command' -a check -d 'Prints what a log holds: version, total, unique, skipped, torn, due'
complete -c nlog -n 'not __nlog_has_command' -a hash -d 'Prints the hash of a command as a log holds it, in hexadecimal'
complete -c nlog -n 'not __nlog_has_command' -a entries -d 'Prints each entry, older ones included, in the order of the file'
complete -c nlog -n 'not __nlog_has_command' -a damage -d 'Prints a line for each line that is no entry; status 3 where there is one'
complete -c nlog -n 'not __nlog_has_command' -a doubt -d 'Prints the outputs whose files aren\'t as a log says; status 3 where there is one'
complete -c nlog -n 'not __nlog_has_command' -a builds -d 'Prints a line for each build that a log tells of: what it ran, and how long'
complete -c nlog -n 'not __nlog_has_command' -a summary -d 'Prints how long a build took, how much ran at a time, and its slowest commands'
complete -c nlog -n 'not __nlog_has_command' -a compare -d 'Prints which commands are new, gone, changed, slower and faster in another log'
complete -c nlog -n 'not __nlog_has_command' -a trace -d 'Prints a build as JSON for a trace viewer: a lane for what ran beside others'
complete -c nlog -n 'not __nlog_has_command' -a picture -d 'Draws a build as SVG: a bar for each command, and how many ran at a time'
complete -c nlog -n 'not __nlog_has_command' -a hash-file -d 'Prints the hash of a command that stands in a file: of each of its bytes'
complete -c nlog -n 'not __nlog_has_command' -a mend -d 'Has Ninja make each output anew that a log can\'t vouch for; run it after a crash'
complete -c nlog -n 'not __nlog_has_command' -a record -d 'Adds one entry to a log; prints nothing'
complete -c nlog -n 'not __nlog_has_command' -a recompact -d 'Rewrites a log with the last entry of each output that KEEP names; prints nothing'
complete -c nlog -n 'not __nlog_has_command' -a restat -d 'Rewrites a log with the time stamps that TIMES gives; prints nothing'
complete -c nlog -n 'not __nlog_has_command' -a prune -d 'Rewrites a log with the last entry of each output that a build has; prints nothing'
complete -c nlog -n 'not __nlog_has_command' -a retime -d 'Rewrites a log with the time stamps that the outputs\' files have; prints nothing'
complete -c nlog -n 'not __nlog_has_command' -a repair -d 'Rewrites a log with the last entry of each output; prints nothing'
complete -c nlog -n 'not __nlog_has_command' -a replay -d 'Runs the events of a script on a log in memory, and prints the replies and that log'
complete -c nlog -n 'not __nlog_has_command' -a apply -d 'Answers lines that ask for changes and entries, one after another, on one open log'
complete -c nlog -n 'not __nlog_has_command' -a help -d 'Print this message or the help of the given subcommand(s)'
complete -c nlog -n '__nlog_is help; and test (count (commandline -opc)) -eq 2' -a 'show check hash entries damage doubt builds summary compare trace picture hash-file mend record recompact restat prune retime repair replay apply help'
complete -c nlog -n 'not __nlog_has_command' -s h -l help -d 'Print help'
complete -c nlog -n 'not __nlog_has_command' -s V -l version -d 'Print version'
complete -c nlog -n '__nlog_is show' -l log-version -x -a '5 6 7 auto' -d '5, 6 or 7: the version of LOG; auto: the one that its first line names; 4 or 5 where it is left out'
complete -c nlog -n '__nlog_is show' -s v -l verbose -d 'Says which file or value a refusal is of, and why; also that LOG is missing, or locked'
complete -c nlog -n '__nlog_is show' -s h -l help -d 'Print help'
complete -c nlog -n '__nlog_is check' -l log-version -x -a '5 6 7 auto' -d '5, 6 or 7: the version of LOG; auto: the one that its first line names; 4 or 5 where it is left out'
complete -c nlog -n '__nlog_is check' -s v -l verbose -d 'Says which file or value a refusal is of, and why; also that LOG is missing, or locked'
complete -c nlog -n '__nlog_is check' -s h -l help -d 'Print help'
complete -c nlog -n '__nlog_is hash' -l log-version -x -a '5 6 7 auto' -d '5, 6 or 7: the version of the logs that hold the hash; auto: 5, as where it is left out'
complete -c nlog -n '__nlog_is hash' -s v -l verbose -d 'Says which file or value a refusal is of, and why; also that LOG is missing, or locked'
complete -c nlog -n '__nlog_is hash' -s h -l help -d 'Print help'
complete -c nlog -n '__nlog_is entries' -l log-version -x -a 'auto' -d 'auto alone: the version that LOG\'s first line names, as where it is left out'
complete -c nlog -n '__nlog_is entries' -l missing-ok -d 'Takes a LOG that is missing for an empty one'
complete -c nlog -n '__nlog_is entries' -s v -l verbose -d 'Says which file or value a refusal is of, and why; also that LOG is missing, or locked'
complete -c nlog -n '__nlog_is entries' -s h -l help -d 'Print help'
complete -c nlog -n '__nlog_is damage' -l log-version -x -a 'auto' -d 'auto alone: the version that LOG\'s first line names, as where it is left out'
complete -c nlog -n '__nlog_is damage' -l missing-ok -d 'Takes a LOG that is missing for an empty one'
complete -c nlog -n '__nlog_is damage' -s v -l verbose -d 'Says which file or value a refusal is of, and why; also that LOG is missing, or locked'
complete -c nlog -n '__nlog_is damage' -s h -l help -d 'Print help'
complete -c nlog -n '__nlog_is doubt' -l log-version -x -a 'auto' -d 'auto alone: the version that LOG\'s first line names, as where it is left out'
complete -c nlog -n '__nlog_is doubt' -s v -l verbose -d 'Says which file or value a refusal is of, and why; also that LOG is missing, or locked'
complete -c nlog -n '__nlog_is doubt' -s h -l help -d 'Print help'
complete -c nlog -n '__nlog_is builds' -l log-version -x -a 'auto' -d 'auto alone: the version that LOG\'s first line names, as where it is left out'
complete -c nlog -n '__nlog_is builds' -l missing-ok -d 'Takes a LOG that is missing for an empty one'
complete -c nlog -n '__nlog_is builds' -l tabs -d 'Puts a tab between fields at a terminal too, in place of columns'
complete -c nlog -n '__nlog_is builds' -s v -l verbose -d 'Says which file or value a refusal is of, and why; also that LOG is missing, or locked'
complete -c nlog -n '__nlog_is builds' -s h -l help -d 'Print help'
complete -c nlog -n '__nlog_is summary' -l log-version -x -a 'auto' -d 'auto alone: the version that LOG\'s first line names, as where it is left out'
complete -c nlog -n '__nlog_is summary' -l missing-ok -d 'Takes a LOG that is missing for an empty one'
complete -c nlog -n '__nlog_is summary' -l build -x -d 'The number of a build in `builds`; left out, the last that made more than `build.ninja`'
complete -c nlog -n '__nlog_is summary' -l all -d 'Tells of all builds, one after another, with the last entry of each output alone'
complete -c nlog -n '__nlog_is summary' -l kind -x -a 'extension folder top work' -d 'What a kind goes by: extension, folder, top (the first folder), or work (what its command does); left out, extension, or work at a terminal'
complete -c nlog -n '__nlog_is summary' -s n -l lines -x -d 'How many lines a list has at most: 10 where it is left out, 0 for none'
complete -c nlog -n '__nlog_is summary' -l graph -r -F -d 'What `ninja -t graph` prints: the critical path is told too; `-` is standard input'
complete -c nlog -n '__nlog_is summary' -l jobs -x -d 'Numbers with commas: estimates by the graph how long the build takes with so many commands at a time'
complete -c nlog -n '__nlog_is summary' -l tabs -d 'Puts a tab between fields at a terminal too, in place of columns'
complete -c nlog -n '__nlog_is summary' -s v -l verbose -d 'Says which file or value a refusal is of, and why; also that LOG is missing, or locked'
complete -c nlog -n '__nlog_is summary' -s h -l help -d 'Print help'
complete -c nlog -n '__nlog_is compare' -l log-version -x -a 'auto' -d 'auto alone: the version that LOG\'s first line names, as where it is left out'
complete -c nlog -n '__nlog_is compare' -l missing-ok -d 'Takes a LOG that is missing for an empty one'
complete -c nlog -n '__nlog_is compare' -s n -l lines -x -d 'How many lines a list has at most: 10 where it is left out, 0 for none'
complete -c nlog -n '__nlog_is compare' -l at-least -x -d 'A command whose times differ by less than MS milliseconds is `same`'
complete -c nlog -n '__nlog_is compare' -l tabs -d 'Puts a tab between fields at a terminal too, in place of columns'
complete -c nlog -n '__nlog_is compare' -s v -l verbose -d 'Says which file or value a refusal is of, and why; also that LOG is missing, or locked'
complete -c nlog -n '__nlog_is compare' -s h -l help -d 'Print help'
complete -c nlog -n '__nlog_is trace' -l log-version -x -a 'auto' -d 'auto alone: the version that LOG\'s first line names, as where it is left out'
complete -c nlog -n '__nlog_is trace' -l missing-ok -d 'Takes a LOG that is missing for an empty one'
complete -c nlog -n '__nlog_is trace' -l build -x -d 'The number of a build in `builds`; left out, the last that made more than `build.ninja`'
complete -c nlog -n '__nlog_is trace' -l all -d 'Tells of all builds, one after another, with the last entry of each output alone'
complete -c nlog -n '__nlog_is trace' -s v -l verbose -d 'Says which file or value a refusal is of, and why; also that LOG is missing, or locked'
complete -c nlog -n '__nlog_is trace' -s h -l help -d 'Print help'
complete -c nlog -n '__nlog_is picture' -l log-version -x -a 'auto' -d 'auto alone: the version that LOG\'s first line names, as where it is left out'
complete -c nlog -n '__nlog_is picture' -l missing-ok -d 'Takes a LOG that is missing for an empty one'
complete -c nlog -n '__nlog_is picture' -l build -x -d 'The number of a build in `builds`; left out, the last that made more than `build.ninja`'
complete -c nlog -n '__nlog_is picture' -l all -d 'Tells of all builds, one after another, with the last entry of each output alone'
complete -c nlog -n '__nlog_is picture' -l graph -r -F -d 'What `ninja -t graph` prints: the critical path has an outline; `-` is standard input'
complete -c nlog -n '__nlog_is picture' -s v -l verbose -d 'Says which file or value a refusal is of, and why; also that LOG is missing, or locked'
complete -c nlog -n '__nlog_is picture' -s h -l help -d 'Print help'
complete -c nlog -n '__nlog_is hash-file' -l log-version -x -a '5 6 7 auto' -d '5, 6 or 7: the version of the logs that hold the hash; auto: 5, as where it is left out'
complete -c nlog -n '__nlog_is hash-file' -s v -l verbose -d 'Says which file or value a refusal is of, and why; also that LOG is missing, or locked'
complete -c nlog -n '__nlog_is hash-file' -s h -l help -d 'Print help'
complete -c nlog -n '__nlog_is mend' -s C -r -F -d 'The folder of the build, as for Ninja: where it is left out, the one in which you run it'
complete -c nlog -n '__nlog_is mend' -l dry-run -d 'Prints the same, and changes nothing'
complete -c nlog -n '__nlog_is mend' -l all -d 'Has Ninja make those anew, too, that may be well'
complete -c nlog -n '__nlog_is mend' -s v -l verbose -d 'Says which file or value a refusal is of, and why; also that LOG is missing, or locked'
complete -c nlog -n '__nlog_is mend' -s h -l help -d 'Print help'
complete -c nlog -n '__nlog_is record' -l log-version -x -a '5 6 7 auto' -d '5, 6 or 7: the version of LOG; auto: the one that its first line names; 4 or 5 where it is left out'
complete -c nlog -n '__nlog_is record' -s v -l verbose -d 'Says which file or value a refusal is of, and why; also that LOG is missing, or locked'
complete -c nlog -n '__nlog_is record' -s h -l help -d 'Print help'
complete -c nlog -n '__nlog_is recompact' -l log-version -x -a '5 6 7 auto' -d '5, 6 or 7: the version of LOG; auto: the one that its first line names; 4 or 5 where it is left out'
complete -c nlog -n '__nlog_is recompact' -s v -l verbose -d 'Says which file or value a refusal is of, and why; also that LOG is missing, or locked'
complete -c nlog -n '__nlog_is recompact' -s h -l help -d 'Print help'
complete -c nlog -n '__nlog_is restat' -l log-version -x -a '5 6 7 auto' -d '5, 6 or 7: the version of LOG; auto: the one that its first line names; 4 or 5 where it is left out'
complete -c nlog -n '__nlog_is restat' -s v -l verbose -d 'Says which file or value a refusal is of, and why; also that LOG is missing, or locked'
complete -c nlog -n '__nlog_is restat' -s h -l help -d 'Print help'
complete -c nlog -n '__nlog_is prune' -l log-version -x -a '5 6 7 auto' -d '5, 6 or 7: the version of LOG; auto: the one that its first line names, as where it is left out'
complete -c nlog -n '__nlog_is prune' -s v -l verbose -d 'Says which file or value a refusal is of, and why; also that LOG is missing, or locked'
complete -c nlog -n '__nlog_is prune' -s h -l help -d 'Print help'
complete -c nlog -n '__nlog_is retime' -l log-version -x -a '5 6 7 auto' -d '5, 6 or 7: the version of LOG; auto: the one that its first line names, as where it is left out'
complete -c nlog -n '__nlog_is retime' -s v -l verbose -d 'Says which file or value a refusal is of, and why; also that LOG is missing, or locked'
complete -c nlog -n '__nlog_is retime' -s h -l help -d 'Print help'
complete -c nlog -n '__nlog_is repair' -l log-version -x -a '5 6 7 auto' -d '5, 6 or 7: the version of LOG; auto: the one that its first line names, as where it is left out'
complete -c nlog -n '__nlog_is repair' -l missing-ok -d 'Takes a LOG that is missing for an empty one'
complete -c nlog -n '__nlog_is repair' -s v -l verbose -d 'Says which file or value a refusal is of, and why; also that LOG is missing, or locked'
complete -c nlog -n '__nlog_is repair' -s h -l help -d 'Print help'
complete -c nlog -n '__nlog_is replay' -s v -l verbose -d 'Says which file or value a refusal is of, and why; also that LOG is missing, or locked'
complete -c nlog -n '__nlog_is replay' -s h -l help -d 'Print help'
complete -c nlog -n '__nlog_is apply' -l log-version -x -a '5 6 7 auto' -d '5, 6 or 7: the version of LOG; auto: the one that its first line names, as where it is left out'
complete -c nlog -n '__nlog_is apply' -s v -l verbose -d 'Says which file or value a refusal is of, and why; also that LOG is missing, or locked'
complete -c nlog -n '__nlog_is apply' -s h -l help -d 'Print help'
