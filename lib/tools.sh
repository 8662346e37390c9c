# For the scripts that make nlog for a processor: its names, and the tools that make code for it. They read this file with their name in said_by.
# shellcheck shell=sh disable=SC2034,SC2154

# The processors of which nlog is proved and built.
all_targets="x86_64 aarch64"

# take_tools TARGET: sets triple, which is Rattle's name of it, debian, which is Debian's, and the commands cc, ar, nm, objcopy, objdump and strip.
# The toolchain runs on x86-64, and so do the tools without a prefix. CC=COMMAND takes that compiler.
take_tools() {
    case $1 in
        x86_64) debian=amd64 tools='' cc=${CC:-cc} ;;
        aarch64) debian=arm64 tools=aarch64-linux-gnu- cc=${CC:-aarch64-linux-gnu-gcc} ;;
        *)
            echo "$said_by: --target is x86_64 or aarch64" >&2
            exit 2
            ;;
    esac
    triple=$1-unknown-linux-gnu
    ar=${tools}ar nm=${tools}nm objcopy=${tools}objcopy objdump=${tools}objdump strip=${tools}strip
}

# need COMMAND..: ends the script in one line where one isn't there. A compiler may have flags behind its name.
need() {
    for it in "$@"; do
        command -v "${it%% *}" > /dev/null || { echo "$said_by: ${it%% *} isn't there" >&2; exit 1; }
    done
}

# need_rt: the same of the toolchain.
need_rt() {
    command -v rt > /dev/null && return
    echo "$said_by: rt isn't there: the command of the Rattle toolchain, which proves and compiles nlog; README.md says what to do without it" >&2
    exit 1
}

# take_words [--target TARGET] TO: sets to and target, and takes that target's tools and rt. Other words end the script by its usage.
take_words() {
    target=x86_64
    if [ "${1-}" = --target ] && [ $# -eq 3 ]; then
        target=$2
        shift 2
    fi
    if [ $# -ne 1 ] || [ "${1#-}" != "$1" ]; then
        echo "$usage" >&2
        exit 2
    fi
    to=$1
    if [ ! -d "$(dirname "$to")" ]; then
        echo "$said_by: $(dirname "$to") isn't there, the folder of $to" >&2
        exit 1
    fi
    take_tools "$target"
    need_rt
}
