#!/bin/sh
# Times a queue and a map that threads share beside the same work over Boehm's collector and in Go, compares their texts, and prints one table. From the top of the
# repository: chrt -f 10 sh bench/sharing.sh [RUNS [PROGRAM]]. Medians of so many runs in turns, 5 if no number is given. Without the program bench_heaps it is
# proved and built. ROUNDS in the environment, 2,000,000 if it isn't given, says how often each thread does what it does; what a run of no rounds takes is taken off.
# Each runs in two modes, of which the one counts that is faster by the clock: ours without a tracer and with one, Boehm's collector with as many threads that mark
# as it takes by itself and with one, Go with its limit of memory alone and with its usual pace besides. All heaps have one size: ours has 1,048,576 cells of 33 bytes
# for the queue, and 262,144 of 145 for the map; those of the others begin with that, and that of Boehm's collector may grow. A peer that can't be built is left out with a word.
set -eu
cd "$(dirname "$0")/.."
runs=${1:-5}
program=${2:-}
rounds=${ROUNDS:-2000000}
folder=${TMPDIR:-/tmp}/sharing.$$
mkdir "$folder"
trap 'rm -rf "$folder"' EXIT

[ -n "$program" ] || { (cd crates/bench_heaps && rt run >/dev/null 2>&1) && program=crates/bench_heaps/out/bench_heaps; }
g++ -std=c++20 -O2 -o "$folder/measure" bench/measure.cpp
g++ -std=c++20 -O2 -pthread -o "$folder/boehm" bench/sharing/structures.cpp -lgc 2>/dev/null || echo 'boehm left out: bench/sharing/structures.cpp is built where there is libgc'
{ command -v go >/dev/null 2>&1 && go build -o "$folder/go" bench/sharing/structures.go 2>/dev/null; } || echo 'go left out: bench/sharing/structures.go is built where there is Go 1.19 or later'

# One run: a program's name and mode, the structure, the threads, the rounds, and the command. Its text has to be that of all others.
once() {
    key=$1.$2.$3.$4.$5
    first=$3.$4.$5.text
    shift 5
    "$folder/measure" "$folder/$key" "$@" >"$folder/text"
    [ -f "$folder/$first" ] || cp "$folder/text" "$folder/$first"
    cmp "$folder/text" "$folder/$first"
}

# All programs in both modes, each with the rounds that are asked for and with none.
each() {
    for count in "$rounds" 0; do
        for mode in 0 1; do
            once ours $mode "$1" "$2" "$count" "$program" "$1" --workers "$2" --rounds "$count" --cells "$3" --tracers $mode
            if [ -x "$folder/boehm" ]; then
                marks=
                [ $mode = 0 ] || marks=GC_MARKERS=1
                once boehm $mode "$1" "$2" "$count" env $marks "$folder/boehm" "$1" "$2" "$count" "$4"
            fi
            [ ! -x "$folder/go" ] || once go $mode "$1" "$2" "$count" "$folder/go" "$1" "$2" "$count" "$4" $mode
        done
    done
}

median() {
    sort -n -k "$1" "$folder/$2" | awk -v column="$1" '{ found[NR] = $column } END { print found[int((NR + 1) / 2)] }'
}

# A cell for each program, of its faster mode: millions of operations a second by the clock, nanoseconds of processor time an operation, and MB.
# A round has two operations on the queue, and one on the map.
line() {
    per=1
    [ "$1" = map ] || per=2
    for name in ours boehm go; do
        for mode in 0 1; do
            [ -f "$folder/$name.$mode.$1.$2.$rounds" ] || continue
            key=$name.$mode.$1.$2
            echo "$(($(median 1 "$key.$rounds") - $(median 1 "$key.0"))) $(($(median 2 "$key.$rounds") - $(median 2 "$key.0"))) $(median 3 "$key.$rounds") $mode"
        done | sort -n | awk -v count=$((rounds * $2 * per)) 'NR == 1 { printf " %.2f (%.0f; mode %d) | %.0f |", count / $1, $2 * 1e3 / count, $4, $3 / 1024 } END { if (!NR) printf " | |" }'
    done
}

left=$runs
while [ "$left" -gt 0 ]; do
    for threads in 1 2 4; do
        each queue $threads 1048576 33
        each map $threads 262144 36
    done
    left=$((left - 1))
done
echo '| Structure | Threads | shared_heap, million operations a second (ns of processor time each) | MB | Boehm | MB | Go | MB |'
echo '|---|---|---|---|---|---|---|---|'
for structure in queue map; do
    for threads in 1 2 4; do echo "| $structure | $threads |$(line $structure $threads)"; done
done
