#!/bin/sh
# Times binary trees in C over managed_heap beside the same work over Boehm's collector and in Go, compares their texts, and prints one table. From the top of
# the repository: chrt -f 10 sh bench/trees.sh [RUNS [ARCHIVE]]. Medians of so many runs in turns, 5 if no number is given. Without the library's archive it is
# proved and built. DEPTH in the environment is 16 if it isn't given. A peer that can't be built is left out with a word.
set -eu
cd "$(dirname "$0")/.."
runs=${1:-5}
archive=${2:-}
depth=${DEPTH:-16}
cells=1048576
folder=${TMPDIR:-/tmp}/trees.$$
mkdir "$folder"
trap 'rm -rf "$folder"' EXIT

g++ -std=c++20 -O2 -o "$folder/measure" bench/measure.cpp
LIBRARY=$archive sh c/install.sh "$folder/library" >/dev/null
cc -O2 -I c/include -o "$folder/ours" bench/trees/trees.c "$folder/library/lib/libmanaged_heap.a" -lpthread
g++ -std=c++20 -O2 -pthread -o "$folder/boehm" bench/trees/trees.cpp -lgc 2>/dev/null || echo 'boehm left out: bench/trees/trees.cpp is built where there is libgc'
{ command -v go >/dev/null 2>&1 && go build -o "$folder/go" bench/trees/trees.go 2>/dev/null; } || echo 'go left out: bench/trees/trees.go is built where there is Go'

# One run: a program's name, how many workers, and the command. Its text has to be that of all others.
once() {
    key=$1.$2
    shift 2
    "$folder/measure" "$folder/$key" "$@" >"$folder/text"
    [ -f "$folder/first" ] || cp "$folder/text" "$folder/first"
    cmp "$folder/text" "$folder/first"
}

median() {
    sort -n -k "$1" "$folder/$2" | awk -v column="$1" '{ found[NR] = $column } END { print found[int((NR + 1) / 2)] }'
}

# The cells of a line: milliseconds by the clock and of all processors, and MB, of each program.
line() {
    for name in tracers-0 tracers-1 boehm incremental go; do
        if [ -f "$folder/$name.$1" ]; then
            awk -v clock="$(median 1 "$name.$1")" -v cpu="$(median 2 "$name.$1")" -v kb="$(median 3 "$name.$1")" 'BEGIN {
                printf " %.0f (%.0f) | %.0f |", clock / 1e3, cpu / 1e3, kb / 1024 }'
        else
            printf ' | |'
        fi
    done
}

left=$runs
while [ "$left" -gt 0 ]; do
    for workers in 1 2 4; do
        for tracers in 0 1; do once tracers-$tracers $workers "$folder/ours" "$depth" $workers $tracers $cells; done
        [ ! -x "$folder/boehm" ] || once boehm $workers "$folder/boehm" "$depth" $workers
        [ ! -x "$folder/boehm" ] || once incremental $workers env GC_ENABLE_INCREMENTAL=1 "$folder/boehm" "$depth" $workers
        [ ! -x "$folder/go" ] || once go $workers "$folder/go" "$depth" $workers
    done
    left=$((left - 1))
done
echo "| Workers | managed_heap, no tracer, ms | MB | a tracer, ms | MB | Boehm, ms | MB | Boehm, incremental, ms | MB | Go, ms | MB |"
echo "|---|---|---|---|---|---|---|---|---|---|---|"
for workers in 1 2 4; do echo "| $workers |$(line $workers)"; done
