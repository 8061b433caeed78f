#!/bin/sh
# Counts the steps of the longest call of each kind, and its time, by bench/steps/longest.c over a library that counts them, and prints tables. From the top of the
# repository: sh bench/longest.sh FOLDER [RUNS [BEFORE]]. The library isn't proved; it is made in FOLDER if it isn't there, and what was measured is kept there as
# `calls`. RUNS runs in turns, 3 if no number is given, with real-time priority if that is allowed. BEFORE is such a file of another library.
set -eu
cd "$(dirname "$0")/.."
out=$1
runs=${2:-3}
mkdir -p "$out"
[ -f "$out/library.a" ] || COUNT_STEPS=1 sh c/unproved.sh "$out/library.a"
python3 bench/steps/count.py kinds "$out/kinds.h"
${CC:-cc} -O2 -std=c11 -D_GNU_SOURCE -Wall -Wextra -Wconversion -Werror -I c/include -I "$out" -o "$out/longest" bench/steps/longest.c "$out/library.a" -lpthread
priority=
! chrt -f 10 true 2>/dev/null || priority='chrt -f 10'

# once CELLS SHARED MUTATORS TRACERS MOST ROUNDS: a line for each kind of call, behind these words but the last
once() {
    $priority "$out/longest" "$@" >"$out/told"
    sed "s/^/$1 $2 $3 $4 $5;/" "$out/told" >>"$out/calls"
}

: >"$out/calls"
left=$runs
while [ "$left" -gt 0 ]; do
    for cells in 65536 1048576; do
        once $cells 0 1 1 1024 6
        once $cells 0 4 1 1024 6
        once $cells 1 4 1 1024 6
    done
    once 16777216 0 1 1 1024 2
    once 16777216 0 4 1 1024 8
    once 16777216 0 1 1 64 2
    left=$((left - 1))
done
python3 bench/steps/tables.py "$out/calls" ${3:-}
