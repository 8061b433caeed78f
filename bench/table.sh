#!/bin/sh
# Times the steps, operations and collections of bench_steps beside the same steps on bare atomic words, and prints the ratio of each.
# From the top of the repository: chrt -f 10 sh bench/table.sh [RUNS [FOLDER]]. The least time of so many runs counts, 40 if no number is given.
# The program is taken from the folder, or proved and built.
# What a run takes besides what is measured, as the making and closing of heaps, is timed by itself and taken off. A collection is timed by the program,
# since the heap that it finds takes longer to make.
set -eu
cd "$(dirname "$0")/.."
runs=${1:-40}
built=${2:-}
folder=${TMPDIR:-/tmp}/bench.$$
mkdir "$folder"
trap 'rm -rf "$folder"' EXIT

[ -n "$built" ] || (cd crates/bench_steps && rt run >/dev/null 2>&1)
program=${built:-crates/bench_steps/out}/bench_steps

# A kind of work of the program, and the same loops in C++.
build() {
    kind=$1
    bare=$folder/$1
    g++ -O2 -o "$bare" "$2"
}

# The nanoseconds of one run of a command.
once() {
    before=$(date +%s%N)
    "$@" >/dev/null
    after=$(date +%s%N)
    echo $((after - before))
}

# The lesser of two numbers, of which the first may be missing.
lesser() {
    if [ -z "$1" ] || [ "$2" -lt "$1" ]; then echo "$2"; else echo "$1"; fi
}

# A line of the table: its name, what is done, its rounds, what is taken off, its rounds, and the operations of a round.
line() {
    ours='' ours_off='' theirs='' theirs_off=''
    run=0
    while [ "$run" -lt "$runs" ]; do
        ours=$(lesser "$ours" "$(once "$program" "$kind" "$2" "$3")")
        theirs=$(lesser "$theirs" "$(once "$bare" "$2" "$3")")
        ours_off=$(lesser "$ours_off" "$(once "$program" "$kind" "$4" "$5")")
        theirs_off=$(lesser "$theirs_off" "$(once "$bare" "$4" "$5")")
        run=$((run + 1))
    done
    awk -v name="$1" -v ours=$((ours - ours_off)) -v theirs=$((theirs - theirs_off)) -v count=$(($3 * $6)) 'BEGIN {
        printf "%-28s %8.2f %8.2f %8.2f\n", name, ours / count, theirs / count, ours / theirs }'
}

# A line of collections: its name, what the heap holds, its cells, and how many collections there are in a run, of which the fastest counts.
stop() {
    ours='' theirs=''
    run=0
    while [ "$run" -lt "$runs" ]; do
        ours=$(lesser "$ours" "$("$program" "$kind" "$2" "$3" "$4")")
        theirs=$(lesser "$theirs" "$("$bare" "$2" "$3" "$4")")
        run=$((run + 1))
    done
    awk -v name="$1" -v ours="$ours" -v theirs="$theirs" 'BEGIN { printf "%-28s %8d %8d %8.2f\n", name, ours, theirs, ours / theirs }'
}

printf '%-28s %8s %8s %8s\n' 'operation' 'table' 'bare' 'ratio'
build table bench/atomics.cpp
line 'load of the count' load 60000000 load 0 1
line 'load of a card' look 30000000 load 0 1
line 'store of a card' store 5000000 load 0 1
line 'fetch of the count' fetch 3000000 load 0 2
line 'cell made, typed steps' make 100 open 100 4096
build operations bench/operations.cpp
line 'new cell' make 100 open 100 4096
line 'store with its card' publish 2000000 publish 0 1
line 'store without a card' hide 2000000 hide 0 1
line 'object traced' trace 100 mesh 100 4096
line 'clean card passed over' look 100000 look 0 256
line 'block swept' sweep 10000 drain 10000 64
build cycles bench/cycles.cpp
stop 'stop, 64 cells, empty' empty 64 10000
stop 'stop, 64 cells, live' live 64 1000
stop 'stop, 64 cells, dead' dead 64 1000
stop 'stop, 65536 cells, empty' empty 65536 100
stop 'stop, 65536 cells, live' live 65536 10
stop 'stop, 65536 cells, dead' dead 65536 10
