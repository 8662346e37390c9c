# What the try.sh of each folder beside this file shares. It is sourced by bash, behind these lines:
#
#   here    the folder of that try.sh
#   name    what it tries, as its last line has it
#   parts   what it runs unless NLOG_PARTS names some
#   suites  those of Debian in whose lists it looks for sources
top=$(cd "$here/../.." && pwd)
room=$(mktemp -d)
# Another user's builds are tried, too.
chmod 755 "$room"
trap 'rm -rf "$room"' EXIT
passed=0
failed=0

end() {
    echo "integrations/$name: $passed passed, $failed failed"
    exit $((failed > 0))
}

skip() {
    echo "skipped: $1"
    end
}

check() { # name, status
    if [[ $2 == 0 ]]; then passed=$((passed + 1)) && echo "ok: $1"; else failed=$((failed + 1)) && echo "FAILED: $1"; fi
}

wants() { [[ " ${NLOG_PARTS-$parts} " == *" $1 "* ]]; }

# Ends where a command isn't there that the trial needs.
needs() {
    for it in "$@"; do command -v "$it" > /dev/null || skip "$it isn't there"; done
}

# Makes the library, unless it is named.
make_library() {
    if [[ -z ${NLOG_LIBS-} ]]; then
        command -v rt > /dev/null || skip "the library isn't there: NLOG_LIBS names none, and rt, which makes it, isn't there"
        "$top/lib/archive.sh" "$room/libnlog.a" > "$room/archive" 2>&1 || { tail -n 20 "$room/archive" && skip "the library couldn't be made"; }
        NLOG_CFLAGS="-I$top/include" NLOG_LIBS="$room/libnlog.a -pthread"
    fi
    export NLOG_CFLAGS NLOG_LIBS
}

# The package manager, over lists and a cache in the room alone.
apt() {
    "$1" -o Dir::State="$room/apt/state" -o Dir::State::status=/dev/null -o Dir::Cache="$room/apt/cache" -o Dir::Etc::SourceList="$room/apt/sources.list" \
        -o Dir::Etc::SourceParts=/dev/null -o Dir::Etc::PreferencesParts=/dev/null -o APT::Sandbox::User= "${@:2}"
}

# Fetches a package's source of a version that begins so, and lays it out as this folder: with Debian's changes, or by `tar` as its authors have it.
fetch() { # package, version, folder [, tar]
    local keyring=/usr/share/keyrings/debian-archive-keyring.gpg mirror=${NLOG_MIRROR:-http://deb.debian.org/debian} full
    for it in apt-get apt-cache dpkg-source "$keyring"; do
        [[ -e $it ]] || command -v "$it" > /dev/null || skip "$3 isn't there, and it can't be fetched: $it isn't there"
    done
    if [[ ! -e $room/apt/sources.list ]]; then
        mkdir -p "$room/apt/state/lists/partial" "$room/apt/cache/archives/partial"
        for suite in $suites; do echo "deb-src [signed-by=$keyring] $mirror $suite main"; done > "$room/apt/sources.list"
        apt apt-get update > "$room/apt/log" 2>&1 || { tail -n 3 "$room/apt/log" && skip "the lists of $mirror couldn't be fetched"; }
    fi
    full=$(apt apt-cache showsrc "$1" 2> /dev/null | sed -n 's/^Version: //p' | grep -F -m 1 "$2-")
    [[ -n $full ]] || skip "$3 isn't there, and $mirror has no $1 $2, or can't be reached"
    mkdir -p "$room/fetched" "$(dirname "$3")"
    (cd "$room/fetched" && apt apt-get -q source --download-only ${4:+--tar-only} "$1=$full" > "$room/apt/log" 2>&1) || { tail -n 3 "$room/apt/log" && skip "$1 $full couldn't be fetched"; }
    lay_out "$1" "$full" "${4-}" > "$room/apt/log" 2>&1 || { tail -n 3 "$room/apt/log" && skip "$1 $full couldn't be laid out"; }
    mv "$room/laid" "$3"
}

lay_out() { # package, full version, `tar` or nothing
    if [[ -n $3 ]]; then
        mkdir "$room/laid" && tar -x -f "$room/fetched/$1_${2%-*}.orig.tar."* -C "$room/laid" --strip-components=1
    else
        dpkg-source --no-check -x "$room/fetched/$1_${2#*:}.dsc" "$room/laid"
    fi
}

# A script of the folder, on the two `programs`, whose last line is `N passed, M failed`.
part() { # name, words
    local status last
    wants "$1" || return
    echo "== $1.py"
    python3 "$here/$1.py" "${programs[@]}" "${@:2}" 2>&1 | tee "$room/part"
    status=${PIPESTATUS[0]}
    last=$(tail -n 1 "$room/part")
    if [[ $last =~ ^([0-9]+)\ passed,\ ([0-9]+)\ failed$ ]]; then
        passed=$((passed + BASH_REMATCH[1]))
        failed=$((failed + BASH_REMATCH[2]))
        ((status == 0 || BASH_REMATCH[2] > 0)) && return
    fi
    check "$1.py ended with status $status" 1
}
