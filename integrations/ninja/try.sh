#!/usr/bin/env bash
# Builds Ninja as it is and with the patches of this folder, and tries the two beside each other: README.md says what is tried.
#
#   integrations/ninja/try.sh VERSION [FOLDER]
#
# VERSION is 1.11.1 or 1.13.2. The sources are FOLDER/ninja-VERSION and, for 1.13.2, FOLDER/googletest; what isn't there is fetched from Debian,
# by the package manager with lists of its own, into FOLDER, or where none is named into a folder that goes with the trial.
#
#   NLOG_CFLAGS, NLOG_LIBS    the library to take, as the compiler is told of it; else lib/archive.sh makes it, which wants rt
#   NLOG_MIRROR               the mirror (http://deb.debian.org/debian)
#   NLOG_PARTS                which of steps, without, cmake, tests, faults, differ, stale, cost are run (all but steps and cmake)
#   NLOG_PROJECTS, NLOG_SEED  how many projects differ.py makes (300), and from which seed it and stale.py go (one by the clock)
#   NLOG_STATES               how many outputs stale.py looks at (20000)
#   NLOG_EDGES, NLOG_ROUNDS   the size of what cost.py builds (10000), and how often (9)
#   NLOG_COMMANDS             how many commands of 100 ms it builds by the clock (40)
#
# Needs a C++ compiler, python3 and patch; to fetch, apt-get, dpkg-source and Debian's keyring; strace, and the right to mount, for the faults;
# script for Ninja's output tests; cmake for that part. Where it can't do its work it prints a line `skipped: why`, and ends with status 0.
set -uo pipefail

version=${1-} folder=${2-}
case $version in 1.11.1 | 1.13.2) ;; *) sed -n '2,/^$/s/^# \{0,1\}//p' "$0" | head -n 18 >&2; exit 2 ;; esac

here=$(cd "$(dirname "$0")" && pwd)
name="ninja $version" parts="without tests faults differ stale cost" suites="bookworm sid"
. "$here/../shared.sh"

needs "${CXX:-c++}" python3 patch
make_library

sources=${folder:-$room/sources}
[[ -e $sources/ninja-$version ]] || fetch ninja-build "$version" "$sources/ninja-$version"
if [[ $version == 1.13.2 && -e /usr/src/googletest/googletest/src/gtest-all.cc ]]; then
    export GTEST_SOURCE_DIR=/usr/src/googletest
elif [[ $version == 1.13.2 ]]; then
    [[ -e $sources/googletest ]] || fetch googletest 1.12.1 "$sources/googletest"
    GTEST_SOURCE_DIR=$(cd "$sources/googletest" && pwd)
    export GTEST_SOURCE_DIR
fi

lay_out_ninja() { cp -r "$sources/ninja-$version" "$room/$1"; }

# Applies patches to a folder, in order.
apply() { # folder, patches
    local to=$room/$1
    shift
    for it in "$@"; do patch -s -d "$to" -p1 < "$it" || return; done
}

# Ninja builds itself, by the machine's one where it is there. The configure.py of 1.11.1 wants a module that newer Pythons have no more.
mkdir "$room/python"
echo 'from shlex import quote' > "$room/python/pipes.py"
build() { # folder, a word for configure.py or none, targets
    cd "$room/$1" || return
    if command -v ninja > /dev/null; then
        PYTHONPATH=$room/python ./configure.py ${2:+"$2"} && ninja -j "${NLOG_JOBS:-2}" "${@:3}"
    else
        PYTHONPATH=$room/python ./configure.py --bootstrap ${2:+"$2"} && ./ninja -j "${NLOG_JOBS:-2}" "${@:3}"
    fi
}

# Builds Ninja and its tests.
check_build() { # folder, what is said of it
    (build "$1" "" ninja ninja_test) > "$room/$1.build" 2>&1
    status=$?
    ((status == 0)) || tail -n 20 "$room/$1.build"
    check "$2 Ninja $version is built" "$status"
}

# Ninja's own tests: how many ran, where all of them passed. They write files of one name into the folder of temporary files.
own_tests() { # plain or patched
    local count
    cd "$room/$1" || return
    ulimit -n 2000 2> /dev/null
    TMPDIR=$room ./ninja_test > "$room/$1.tests" 2>&1 || { tail -n 5 "$room/$1.tests" && return 1; }
    count=$(tr '\r' '\n' < "$room/$1.tests" | sed -n -e 's/^\[\([0-9]*\)\/\1\].*/\1/p' -e 's/^\[  PASSED  \] \([0-9]*\) tests.*/\1/p' | tail -n 1)
    echo "$1: $count tests of ninja_test passed"
    [[ -n $count ]]
}
patches=("$here/$version"/*.patch)
lay_out_ninja plain && check_build plain plain
# Each step builds and passes its tests, or the last one is built alone.
lay_out_ninja patched
if wants steps; then
    for at in "${!patches[@]}"; do
        apply patched "${patches[at]}"
        check_build patched "step $((at + 1)) of ${#patches[@]}:"
        (own_tests patched)
        check "step $((at + 1)): ninja_test" $?
    done
else
    apply patched "${patches[@]}" && check_build patched patched
fi
((failed == 0)) || end

# Whether the objects of two folders are the same, but for what a debugger is told.
same_objects() { # folder, folder below the room
    local count=0
    for it in "$room/$1"/*.o; do
        objcopy --strip-debug "$it" "$room/one.o" && objcopy --strip-debug "$room/$2/${it##*/}" "$room/other.o" || return
        cmp "$room/one.o" "$room/other.o" || return
        count=$((count + 1))
    done
    echo "$1: $count objects are those of $2"
    ((count > 20))
}
lay_out_without() { [[ -e $room/without ]] || { lay_out_ninja without && apply without "${patches[@]}"; }; }

# What is patched and built without the library has the objects of plain Ninja.
without() {
    lay_out_without
    (build without --without-nlog ninja) > "$room/without.build" 2>&1 || { tail -n 20 "$room/without.build" && return 1; }
    same_objects without/build plain/build
}
if wants without; then
    (without)
    check "--without-nlog builds plain Ninja" $?
fi

# The same by CMake's switch; and Ninja on the library by CMake. An assert would have its line and the path of its file in the object.
by_cmake() { # folder, flags
    cd "$room/$1" && cmake -S . -B by_cmake -DBUILD_TESTING=OFF -DCMAKE_CXX_FLAGS="-DNDEBUG -ffile-prefix-map=$room/$1=." "${@:2}" && cmake --build by_cmake -j "${NLOG_JOBS:-2}" --target ninja
}
cmake_without() {
    lay_out_without
    for it in "plain" "without -DNINJA_WITHOUT_NLOG=ON"; do
        # shellcheck disable=SC2086
        (by_cmake $it) > "$room/cmake.build" 2>&1 || { tail -n 20 "$room/cmake.build" && return 1; }
    done
    local objects=by_cmake/CMakeFiles/libninja.dir/src
    same_objects without/$objects plain/$objects
}
cmake_with() {
    (by_cmake patched -DNLOG_CFLAGS="$NLOG_CFLAGS" -DNLOG_LIBS="$NLOG_LIBS") > "$room/cmake.build" 2>&1 || { tail -n 20 "$room/cmake.build" && return 1; }
    mkdir "$room/made" && cd "$room/made" && printf 'rule c\n  command = touch $out\nbuild a: c\n' > build.ninja && "$room/patched/by_cmake/ninja" && [[ -e .ninja_log ]] || return
    ! NINJA_LOG_SYNC=1 "$room/patched/by_cmake/ninja"
}
if wants cmake && ! command -v cmake > /dev/null; then
    echo "skipped: cmake: it isn't there"
elif wants cmake; then
    (cmake_without)
    check "-DNINJA_WITHOUT_NLOG=ON builds plain Ninja" $?
    (cmake_with)
    check "CMake builds Ninja on the library" $?
fi

# Some of these race with a command that sleeps for 0.3 s, so a busy machine may have to try again.
output_tests() {
    cd "$room/$1" || return
    for turn in 1 2 3; do
        env -u NINJA_STATUS python3 misc/output_test.py > "$room/$1.output" 2>&1 && break
        tail -n 20 "$room/$1.output"
        echo "$1: turn $turn of output_test.py failed"
        ((turn < 3)) || return
    done
    sed -n "s/^Ran \([0-9]*\) tests.*/$1: \1 tests of output_test.py passed/p" "$room/$1.output"
    grep -q '^Ran [1-9]' "$room/$1.output"
}
if wants tests; then
    for it in plain patched; do (own_tests "$it"); check "$it: ninja_test" $?; done
    if command -v script > /dev/null; then
        for it in plain patched; do (output_tests "$it"); check "$it: misc/output_test.py" $?; done
    else
        echo "skipped: misc/output_test.py: script isn't there"
    fi
fi

programs=("$room/plain/ninja" "$room/patched/ninja")
part faults
part differ "${NLOG_PROJECTS:-300}" ${NLOG_SEED:+"$NLOG_SEED"}
part stale "${NLOG_STATES:-20000}" ${NLOG_SEED:+"$NLOG_SEED"}
part cost "${NLOG_EDGES:-10000}" "${NLOG_ROUNDS:-9}" "${NLOG_COMMANDS:-40}"
end
