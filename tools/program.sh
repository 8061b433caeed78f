#!/bin/sh
# Prints which file is a program of crates/: the proved one if it is built, and otherwise the unproved one that bench/unproved.sh keeps, which it says.
# sh tools/program.sh CRATE WHO, where WHO is the script that runs it.
top=$(cd "$(dirname "$0")/.." && pwd)
proved=$top/crates/$1/out/$1
if [ -x "$proved" ]; then
    echo "$proved"
    exit
fi
echo "$2: the proved program is not built (rt run in crates/$1 builds it), so this run is not of the proved build" >&2
WITH_TESTS=1 exec sh "$top/bench/unproved.sh" "$1" --kept </dev/null
