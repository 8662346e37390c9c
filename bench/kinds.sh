#!/usr/bin/env bash
# Makes a log of each kind, and compares on each of them, in turn: the native
# program, `nlog show`, `nlog check`, and Ninja's own load of the log (`ninja -n` on a manifest of one edge).
#
#   kinds.sh FOLDER ROUNDS [KIND ..]
#
# FOLDER, which takes up to 2 GB, has the programs `native_show` and `nlog`.
set -euo pipefail
if [ $# -lt 2 ]; then
    echo "usage: bench/kinds.sh FOLDER ROUNDS [KIND ..]" >&2
    exit 2
fi
here=$(cd "$(dirname "$0")" && pwd)
folder=$(cd "$1" && pwd)
rounds=$2
shift 2

declare -A logs=(
    [tree]="--entries 1000000 --outputs 300000"
    [distinct]="--entries 1000000 --outputs 1000000"
    [hundred]="--entries 1000000 --outputs 100"
    [long]="--entries 1000000 --outputs 300000 --names long"
    [short]="--entries 1000000 --outputs 300000 --names short"
    [10000]="--entries 10000 --outputs 3000"
    [100000]="--entries 100000 --outputs 30000"
    [10000000]="--entries 10000000 --outputs 3000000"
)
kinds=("$@")
[ $# -gt 0 ] || kinds=(tree distinct hundred long short 10000 100000 10000000)

for kind in "${kinds[@]}"; do
    build="$folder/$kind"
    mkdir -p "$build"
    # shellcheck disable=SC2086
    [ -s "$build/.ninja_log" ] || python3 "$here/gen_log.py" ${logs[$kind]} > "$build/.ninja_log"
    printf 'rule c\n  command = :\nbuild out: c\n' > "$build/build.ninja"
    cmp <("$folder/native_show" < "$build/.ninja_log") <("$folder/nlog" show < "$build/.ninja_log")
    commands=(native="$folder/native_show" show="$folder/nlog show" check="$folder/nlog check")
    if command -v ninja > /dev/null; then
        commands+=(ninja="ninja -n -C $build")
    fi
    echo "$kind"
    python3 "$here/show.py" -n "$rounds" "$build/.ninja_log" "${commands[@]}"
done
