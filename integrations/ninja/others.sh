#!/usr/bin/env bash
# Builds the Ninjas that trials of the program take beside the machine's own:
#
#   integrations/ninja/others.sh FOLDER
#
# FOLDER/ninja-VERSION/ninja is then each, 1.12.1 and 1.13.2, and NLOG_NINJAS=FOLDER names them. Their sources are fetched as those of try.sh are,
# and the same is wanted for it. Where it can't do its work it prints a line `skipped: why`, and ends with status 0.
set -uo pipefail

if (($# != 1)); then sed -n '2,/^set/s/^# \{0,1\}//p' "$0" >&2; exit 2; fi

here=$(cd "$(dirname "$0")" && pwd)
name="ninja others" parts="" suites="trixie sid"
. "$here/../shared.sh"

needs "${CXX:-c++}" python3
for version in 1.12.1 1.13.2; do
    fetch ninja-build "$version" "$room/ninja-$version" tar
    (cd "$room/ninja-$version" && ./configure.py --bootstrap) > "$room/build" 2>&1
    status=$?
    ((status == 0)) || tail -n 20 "$room/build"
    mkdir -p "$1/ninja-$version" && cp "$room/ninja-$version/ninja" "$1/ninja-$version/" || status=1
    check "Ninja $version is built" "$status"
done
end
