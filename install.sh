#!/bin/sh
# Proves and builds nlog, and puts the program, its page, its completions, and the library for C below PREFIX, or below DESTDIR/PREFIX.
set -eu

usage="usage: ./install.sh PREFIX
puts PREFIX/bin/nlog, PREFIX/share/man/man1/nlog.1, completions for bash, zsh and fish below PREFIX/share, and where cc, ar and objcopy are there
PREFIX/lib/libnlog.a, PREFIX/lib/libnlog.so.0 with its links, PREFIX/include/nlog.h, PREFIX/lib/pkgconfig/nlog.pc,
PREFIX/lib/cmake/nlog with nlog-config.cmake and nlog-config-version.cmake, PREFIX/share/man/man3/nlog.3 and a link to it of the name of each call
PREFIX is a folder, as /usr/local; with DESTDIR=FOLDER all is put below FOLDER, from where a package takes it to PREFIX, which begins with /
LIBDIR=lib64 puts the libraries, and what pkg-config and CMake read, below PREFIX/lib64 in place of PREFIX/lib
NLOG_PROGRAM=FILE puts that program, and proves and builds none; NLOG_TARGET=aarch64 has the library made for ARM64"

if [ $# -ne 1 ]; then
    echo "$usage" >&2
    exit 2
fi
case $1 in
    -h | --help)
        echo "$usage"
        exit 0
        ;;
    '' | -*)
        echo "$usage" >&2
        exit 2
        ;;
esac

top=$(cd "$(dirname "$0")" && pwd)
root=${DESTDIR-}
prefix=$1
libdir=${LIBDIR-lib}
case $libdir in
    '' | /* | ../* | */../* | */..)
        echo "install.sh: LIBDIR is a folder below PREFIX, as lib64" >&2
        exit 2
        ;;
esac
case $root$prefix in
    "$prefix" | "$root"/*) ;;
    *)
        echo "install.sh: with DESTDIR, PREFIX begins with /" >&2
        exit 2
        ;;
esac

# Puts a file in the place of another at once, so that a program that runs stays whole.
put() {
    cp "$2" "$3.new"
    chmod "$1" "$3.new"
    mv -f "$3.new" "$3"
}

if ! command -v rt > /dev/null; then
    echo "install.sh: rt isn't there: the command of the Rattle toolchain, which proves and compiles nlog; README.md says what to do without it" >&2
    exit 1
fi

program=${NLOG_PROGRAM-}
if [ -z "$program" ]; then
    echo "install.sh: proving and building nlog, which takes minutes the first time"
    (cd "$top/crates/nlog" && rt run -- --version)
    program=$top/crates/nlog/out/nlog
fi

to=$root$prefix
bash=share/bash-completion/completions zsh=share/zsh/site-functions fish=share/fish/vendor_completions.d
mkdir -p "$to/bin" "$to/share/man/man1" "$to/$bash" "$to/$zsh" "$to/$fish"
put 755 "$program" "$to/bin/nlog"
put 644 "$top/man/nlog.1" "$to/share/man/man1/nlog.1"
put 644 "$top/completions/nlog.bash" "$to/$bash/nlog"
put 644 "$top/completions/nlog.zsh" "$to/$zsh/_nlog"
put 644 "$top/completions/nlog.fish" "$to/$fish/nlog.fish"
echo "install.sh: $to/bin/nlog, $to/share/man/man1/nlog.1, $to/$bash/nlog, $to/$zsh/_nlog and $to/$fish/nlog.fish are there"

if ! command -v cc > /dev/null || ! command -v ar > /dev/null || ! command -v objcopy > /dev/null; then
    echo "install.sh: the library for C is left out: cc, ar or objcopy isn't there"
    exit 0
fi

room=$(mktemp -d)
trap 'rm -rf "$room"' EXIT
"$top/lib/archive.sh" --target "${NLOG_TARGET:-x86_64}" "$room/libnlog.a"
mkdir -p "$to/$libdir/pkgconfig" "$to/$libdir/cmake/nlog" "$to/include" "$to/share/man/man3"
number=$(sed -n 's/^#define NLOG_VERSION //p' "$top/include/nlog.h")
version=$((number / 1000000)).$((number / 1000 % 1000)).$((number % 1000))
[ -n "$root" ] || prefix=$(cd "$prefix" && pwd)
# The quotes are for a prefix with a space.
cat > "$room/nlog.pc" << END
prefix=$prefix
libdir=\${prefix}/$libdir
includedir=\${prefix}/include

Name: nlog
Description: Ninja's build log, read and written
Version: $version
Cflags: -I"\${includedir}"
Libs: -L"\${libdir}" -lnlog
END
# For CMake: the targets lie where this file does, wherever that is.
cat > "$room/nlog-config.cmake" << END
# The library nlog: nlog::nlog is the shared object, nlog::static the archive, which needs nothing but the C library.
get_filename_component(nlog_LIBDIR "\${CMAKE_CURRENT_LIST_DIR}/../.." ABSOLUTE)
get_filename_component(nlog_PREFIX "\${nlog_LIBDIR}/$(echo "$libdir" | sed 's|[^/][^/]*|..|g')" ABSOLUTE)
if(NOT TARGET nlog::nlog)
  add_library(nlog::nlog SHARED IMPORTED)
  set_target_properties(nlog::nlog PROPERTIES
    IMPORTED_LOCATION "\${nlog_LIBDIR}/libnlog.so.$version"
    IMPORTED_SONAME "libnlog.so.$((number / 1000000))"
    INTERFACE_INCLUDE_DIRECTORIES "\${nlog_PREFIX}/include")
  add_library(nlog::static STATIC IMPORTED)
  set_target_properties(nlog::static PROPERTIES
    IMPORTED_LOCATION "\${nlog_LIBDIR}/libnlog.a"
    IMPORTED_LINK_INTERFACE_LANGUAGES "C"
    INTERFACE_INCLUDE_DIRECTORIES "\${nlog_PREFIX}/include")
endif()
END
# Until 1.0.0 a version of another second number may change a call.
cat > "$room/nlog-config-version.cmake" << END
set(PACKAGE_VERSION "$version")
set(PACKAGE_VERSION_COMPATIBLE FALSE)
set(PACKAGE_VERSION_EXACT FALSE)
if(PACKAGE_FIND_VERSION VERSION_EQUAL PACKAGE_VERSION)
  set(PACKAGE_VERSION_COMPATIBLE TRUE)
  set(PACKAGE_VERSION_EXACT TRUE)
elseif(PACKAGE_FIND_VERSION VERSION_LESS PACKAGE_VERSION AND NOT PACKAGE_FIND_VERSION VERSION_LESS "${version%.*}")
  set(PACKAGE_VERSION_COMPATIBLE TRUE)
endif()
if(CMAKE_SIZEOF_VOID_P AND NOT CMAKE_SIZEOF_VOID_P EQUAL 8)
  set(PACKAGE_VERSION_UNSUITABLE TRUE)
endif()
END
for file in nlog-config.cmake nlog-config-version.cmake; do
    put 644 "$room/$file" "$to/$libdir/cmake/nlog/$file"
done
put 644 "$room/libnlog.a" "$to/$libdir/libnlog.a"
for file in "$room"/libnlog.so*; do
    name=$(basename "$file")
    if [ -L "$file" ]; then
        ln -sf "$(readlink "$file")" "$to/$libdir/$name.new"
        mv -f "$to/$libdir/$name.new" "$to/$libdir/$name"
    else
        put 755 "$file" "$to/$libdir/$name"
    fi
done
put 644 "$top/include/nlog.h" "$to/include/nlog.h"
put 644 "$room/nlog.pc" "$to/$libdir/pkgconfig/nlog.pc"
put 644 "$top/man/nlog.3" "$to/share/man/man3/nlog.3"
# nlog(3) by the name of each call.
echo ".so man3/nlog.3" > "$room/page"
for name in $(sed -n 's/^[a-z].*[ *]\(nlog_[a-z0-9_]*\)(.*/\1/p' "$top/include/nlog.h"); do
    put 644 "$room/page" "$to/share/man/man3/$name.3"
done
echo "install.sh: $to/$libdir/libnlog.a, $to/$libdir/libnlog.so.0, $to/include/nlog.h, $to/$libdir/pkgconfig/nlog.pc, $to/$libdir/cmake/nlog and nlog(3) are there"
