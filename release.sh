#!/usr/bin/env bash
# Makes what a machine without the toolchain takes: for each processor an archive that unpacks anywhere, and Debian packages.
set -euo pipefail

usage="usage: ./release.sh [--target TARGET].. TO
proves and builds nlog for x86_64 and aarch64, or for each TARGET that is named, and puts into the folder TO
nlog-VERSION-linux-TARGET.tar.gz, one folder with bin, lib, include and share, which may lie anywhere; for x86_64 lib/musl too, where musl-gcc is there,
the packages nlog, libnlog0 and libnlog-dev for the processor, where dpkg-deb is there, and SHA256SUMS of all these
The program is one static file. Archives and packages have share/doc/nlog/RELEASE: what they need, what was proved, and by which kit.
What lib/proved.sh kept is not proved again. DEBFULLNAME and DEBEMAIL name who maintains the packages"

targets=()
while [[ ${1-} == --target && $# -gt 1 ]]; do
    targets+=("$2")
    shift 2
done
if [[ $# -ne 1 || $1 == '' || $1 == -* ]]; then
    [[ $# -eq 1 && ($1 == -h || $1 == --help) ]] && echo "$usage" && exit 0
    echo "$usage" >&2
    exit 2
fi

top=$(cd "$(dirname "$0")" && pwd)
said_by=release.sh
# shellcheck source=lib/tools.sh
. "$top/lib/tools.sh"
# shellcheck disable=SC2154
[[ ${#targets[@]} -gt 0 ]] || read -ra targets <<< "$all_targets"
# Each processor has its own compiler.
unset CC
need_rt
for target in "${targets[@]}"; do
    take_tools "$target"
    need "$cc" "$ar" "$nm" "$objcopy" "$objdump" "$strip"
done
need sha256sum tar gzip

room=$(mktemp -d)
trap 'rm -rf "$room"' EXIT
umask 022
mkdir -p "$1"
to=$(cd "$1" && pwd)

version=$(sed -n 's/^\.TH NLOG 1 [^ ]* "nlog \([0-9.]*\)".*/\1/p' "$top/man/nlog.1")
number=$(sed -n 's/^#define NLOG_VERSION \([0-9]*\)$/\1/p' "$top/include/nlog.h")
library=$((number / 1000000)).$((number / 1000 % 1000)).$((number % 1000))
kit=$(rt version)
commit=$(git -C "$top" rev-parse HEAD 2> /dev/null || echo "not known")
[[ -z $(git -C "$top" status --porcelain -uno 2> /dev/null || true) ]] || commit="$commit, changed"
# Files of the same sources have the same dates.
SOURCE_DATE_EPOCH=$(git -C "$top" log -1 --format=%ct 2> /dev/null || date +%s)
export SOURCE_DATE_EPOCH
maintainer="${DEBFULLNAME:-nobody} <${DEBEMAIL:-nobody@localhost}>"
made=()

# Prints the sums of these files of a folder, as RELEASE has them.
sums() {
    (cd "$1" && sha256sum "${@:2}" | sed 's/^/    /')
}

# Prints what a release for a processor says of itself: of the files in a folder as ./install.sh lays them out.
release() {
    local tree=$1 glibc on needs musl=''
    [[ ! -d $tree/lib/musl ]] || musl="lib/musl has both for musl. "
    # The newest version of the C library that the shared library asks a name of.
    glibc=$("$objdump" -T "$tree/lib/libnlog.so.$library" | sed -n 's/.*[( ]GLIBC_\([0-9.]*\)[) ].*/\1/p' | sort -V | tail -n 1)
    case $target in
        x86_64) on=x86-64 needs="a processor of level v2, as all since 2009 are" ;;
        aarch64) on=ARM64 needs="no more than each ARM64 processor has" ;;
    esac
    cat << END
nlog $version for Linux on $on

bin/nlog is one static file: it needs no C library and no other file, so it runs on Alpine too. It
needs $needs.

lib/libnlog.so.$library is the library for C, version $library. It needs the GNU C library $glibc or later,
and so does what is linked with lib/libnlog.a. ${musl}include/nlog.h and nlog(3) say what each
call does.

What was proved: each function of bin/nlog meets its contract, is safe and ends. The main one says:

$(sed -n 's/^> /    /p' "$top/docs/PROMISES.md")

PROMISES.md has the rest, what is tested only, and what is trusted. Of the library, crates/nl_c was
proved. Its C, which writes files, is tested and not proved.

The proof is of commit
    $commit
by the prover and compiler of
    $kit
and for this processor. The prover said of the program's own crate, over those below it, of which it
proved each, and of the library's:
    $(cat "$top/crates/nlog/out/$target/verdict")
    $(cat "$top/crates/nl_c/out/$target/verdict")

The program was linked by
    $($cc --version | head -n 1)
with the GNU C library of that compiler, which is under the LGPL 2.1 or later. The archive
nlog-$version-linux-$target.tar.gz has all else of the program in lib/nlog/nlog.o, so that you can link
it with another version of that: cc -static -o nlog nlog.o

No licence has been chosen for nlog yet.

The sha256 sums of these files:
$(sums "$tree" bin/nlog lib/libnlog.a "lib/libnlog.so.$library" include/nlog.h)
END
}

pack() { # the folder, of which all is packed, and the archive
    local how=(--sort=name --owner=0 --group=0 --numeric-owner --mtime="@$SOURCE_DATE_EPOCH")
    tar --create "${how[@]}" --directory "$(dirname "$1")" "$(basename "$1")" | gzip -9n > "$2.new"
    mv -f "$2.new" "$2"
    made+=("$(basename "$2")")
    echo "release.sh: $2 is there"
}

# package NAME VERSION SECTION DEPENDS: makes a Debian package of the files of its folder, whose description is its input.
package() {
    local name=$1 its=$2 root=$here/$1 doc=$here/$1/usr/share/doc/$1
    mkdir -p "$root/DEBIAN" "$doc"
    cat > "$doc/copyright" << END
nlog: Ninja's build log, read and written

No licence has been chosen for nlog yet.

The program /usr/bin/nlog holds parts of the GNU C Library, which is under the
GNU Lesser General Public License, version 2.1 or later. Its text is in
/usr/share/common-licenses/LGPL-2.1. The archive nlog-$version-linux-$target.tar.gz
has all else of the program as lib/nlog/nlog.o, to link it with another.
END
    cat > "$room/changelog" << END
$1 ($its) unstable; urgency=medium

  * The changes of this version are in CHANGELOG.md of the sources.

 -- $maintainer  $(date -uR -d "@$SOURCE_DATE_EPOCH")
END
    gzip -9nc "$room/changelog" > "$doc/changelog.gz"
    find "$root/usr/share/man" -type f -exec gzip -9n {} + 2> /dev/null || true
    {
        echo "Package: $1"
        echo "Version: $its"
        echo "Architecture: $debian"
        echo "Maintainer: $maintainer"
        echo "Installed-Size: $(du -sk "$root/usr" | cut -f 1)"
        [[ -z $4 ]] || echo "Depends: $4"
        echo "Section: $3"
        echo "Priority: optional"
        cat
    } > "$root/DEBIAN/control"
    (cd "$root" && find usr -type f -exec md5sum {} + | sort -k 2) > "$root/DEBIAN/md5sums"
    dpkg-deb --root-owner-group --build "$root" "$room/$1.deb" > "$room/said" || { cat "$room/said" >&2; exit 1; }
    mv -f "$room/$1.deb" "$to/$1_${its}_$debian.deb"
    made+=("$1_${its}_$debian.deb")
    echo "release.sh: $to/$1_${its}_$debian.deb is there"
}

# Has a package take files from the tree, below another folder if two are named.
take() {
    mkdir -p "$here/$1/usr/${3:-$2}"
    cp -a "$here/all/usr/$2/." "$here/$1/usr/${3:-$2}"
}

packages() {
    local glibc
    glibc=$("$objdump" -T "$tree/lib/libnlog.so.$library" | sed -n 's/.*[( ]GLIBC_\([0-9.]*\)[) ].*/\1/p' | sort -V | tail -n 1)
    take nlog bin
    take nlog share/man/man1
    take nlog share/bash-completion
    take nlog share/zsh/site-functions share/zsh/vendor-completions
    take nlog share/fish
    take nlog share/doc/nlog
    gzip -9n "$here/nlog/usr/share/doc/nlog/CHANGELOG.md"
    package nlog "$version" devel '' << END
Description: Ninja's build log, read, checked and repaired
 The program nlog prints, checks and repairs the build log of Ninja, and records
 to it so that no crash can spoil it.
 .
 /usr/share/doc/nlog/RELEASE says what was proved of it.
END
    mkdir -p "$here/libnlog0/usr/lib" "$here/libnlog0/DEBIAN"
    cp -a "$tree/lib/libnlog.so.$library" "$tree/lib/libnlog.so.${library%%.*}" "$here/libnlog0/usr/lib"
    chmod 644 "$here/libnlog0/usr/lib/libnlog.so.$library"
    echo "activate-noawait ldconfig" > "$here/libnlog0/DEBIAN/triggers"
    echo "libnlog ${library%%.*} libnlog0 (>= $library)" > "$here/libnlog0/DEBIAN/shlibs"
    package libnlog0 "$library" libs "libc6 (>= $glibc)" << END
Description: Ninja's build log for programs in C: the shared library
 A library that reads the build log of Ninja, and records to it so that no crash
 can spoil it.
 .
 This is what a program wants that was built with it.
END
    take libnlog-dev include
    take libnlog-dev lib
    rm -rf "$here"/libnlog-dev/usr/lib/libnlog.so.* "$here"/libnlog-dev/usr/lib/{nlog,musl}
    take libnlog-dev share/man/man3
    for page in "$here"/libnlog-dev/usr/share/man/man3/nlog_*; do
        ln -sf nlog.3.gz "$page.gz" && rm "$page"
    done
    package libnlog-dev "$library" libdevel "libnlog0 (= $library)" << END
Description: Ninja's build log for programs in C: what they are built with
 A library that reads the build log of Ninja, and records to it so that no crash
 can spoil it.
 .
 This has the header, the archive, the pages, and the files of pkg-config and
 CMake.
END
}

for target in "${targets[@]}"; do
    take_tools "$target"
    here=$room/$target
    tree=$here/all/usr
    name=nlog-$version-linux-$target
    mkdir -p "$here"
    NLOG_OBJECT=$here/program.o "$top/lib/program.sh" --target "$target" "$here/program"
    NLOG_TARGET=$target NLOG_PROGRAM=$here/program DESTDIR=$here/all "$top/install.sh" /usr > "$room/said"
    "$strip" --strip-unneeded "$tree/lib/libnlog.so.$library"
    "$strip" --strip-debug "$tree/lib/libnlog.a"
    # musl's compiler is for the processor of this machine.
    if [[ $target == x86_64 ]] && command -v musl-gcc > /dev/null; then
        mkdir "$tree/lib/musl"
        CC=musl-gcc "$top/lib/archive.sh" "$tree/lib/musl/libnlog.a"
        "$strip" --strip-unneeded "$tree/lib/musl/libnlog.so.$library"
        "$strip" --strip-debug "$tree/lib/musl/libnlog.a"
    elif [[ $target == x86_64 ]]; then
        echo "release.sh: skipped: the library over musl: musl-gcc isn't there"
    fi
    mkdir -p "$tree/lib/nlog" "$tree/share/doc/nlog/docs"
    cp "$here/program.o" "$tree/lib/nlog/nlog.o"
    cp "$top/README.md" "$top/CHANGELOG.md" "$tree/share/doc/nlog"
    cp "$top"/docs/*.md "$top"/docs/*.svg "$tree/share/doc/nlog/docs"
    release "$tree" > "$tree/share/doc/nlog/RELEASE"

    # The archive: pkg-config's flags go by where its file lies, and it escapes each space of that itself.
    cp -r "$tree" "$here/$name"
    # shellcheck disable=SC2016
    sed -i -e 's|^prefix=.*|prefix=${pcfiledir}/../..|' -e '/^\(Cflags\|Libs\):/s/"//g' "$here/$name/lib/pkgconfig/nlog.pc"
    pack "$here/$name" "$to/$name.tar.gz"

    if command -v dpkg-deb > /dev/null; then
        packages
    else
        echo "release.sh: skipped: the Debian packages: dpkg-deb isn't there"
    fi
done
(cd "$to" && sha256sum "${made[@]}" > SHA256SUMS.new && mv -f SHA256SUMS.new SHA256SUMS)
echo "release.sh: $to/SHA256SUMS is there"
