#!/bin/sh
# How long the work `pauses` of crates/bench_heaps stands still, and how long its transactions take: marking beside the workers, and in stops alone, in turns; beside the same
# work over Boehm's collector, in Go and in Java. From the top of the repository: chrt -f 10 sh bench/pauses.sh [RUNS [PROGRAM]] prints two tables, 5 runs if no
# number is given. Without a program, ours is proved and built. A peer that can't be built is left out with a word, and so is one that finds no memory.
# SIZES in the environment has CELLS/WORKERS/CYCLES, the last of which is how often a run uses up the free cells, and TRACERS how many tracers ours has.
# LIBRARY is the archive for C and Rust, if not the proved one; their stops are those before their first mutator is done. WAYS are the two of ours, PEERS all others.
# Every heap has 48 bytes for each cell, which an object takes in ours, in Boehm's and in Go. PERCENT has how much of it Boehm's gets, if the live set doesn't fit.
set -eu
cd "$(dirname "$0")/.."
runs=${1:-5}
program=${2:-}
sizes=${SIZES:-65536/4/50 1048576/1/10 1048576/4/20 4194304/4/10}
tracers_of=${TRACERS:-0 1}
percent=${PERCENT:-100 107 125 200 400 800}
ways=${WAYS:-beside stops}
peers=" ${PEERS:-c rust boehm go java} "
live=60
folder=${TMPDIR:-/tmp}/pauses.$$
mkdir "$folder"
trap 'rm -rf "$folder"' EXIT

[ -n "$program" ] || (cd crates/bench_heaps && rt run >/dev/null 2>&1)
program=${program:-crates/bench_heaps/out/bench_heaps}
archive=${LIBRARY:-crates/managed_heap_c/out/libmanaged_heap_c.a}
{ [ -f "$archive" ] && cc -std=gnu11 -O2 -pthread -I c/include -o "$folder/c" bench/pauses/pauses.c "$archive"; } || echo 'C left out: bench/pauses/pauses.c is built where the library is, or LIBRARY names it' >&2
mkdir "$folder/library"
{ [ -f "$archive" ] && command -v cargo >/dev/null 2>&1 && cp "$archive" "$folder/library/libmanaged_heap.a" && MANAGED_HEAP_LIB=$folder/library CARGO_TARGET_DIR=$folder/target \
    cargo build --quiet --release --offline --manifest-path rust/managed_heap/Cargo.toml --example pauses && cp "$folder/target/release/examples/pauses" "$folder/rust"; } ||
    echo 'Rust left out: bench/pauses/pauses.rs is built where the library and cargo are, or LIBRARY names it' >&2
g++ -std=c++20 -O2 -pthread -o "$folder/boehm" bench/pauses/pauses.cpp -lgc 2>/dev/null || echo 'boehm left out: bench/pauses/pauses.cpp is built where there is libgc' >&2
{ command -v go >/dev/null 2>&1 && go build -o "$folder/go" bench/pauses/pauses.go 2>/dev/null; } || echo 'go left out: bench/pauses/pauses.go is built where there is Go' >&2
{ command -v javac >/dev/null 2>&1 && javac -d "$folder/java" bench/pauses/Pauses.java 2>/dev/null; } || echo 'java left out: bench/pauses/Pauses.java is built where there is Java' >&2

# How many orders are replaced: an order has 16 objects, and each of them takes a free cell.
transactions() { echo $(($1 * (100 - live) / 100 / 16 * cycles)); }

# A line of numbers from what a program told: rate, stops, mean, longest, the latencies of transactions, cycles, traced by mutators and by tracers, left to
# the stops, scanned again in them, floated, and kept. A peer tells the first eight.
numbers() {
    awk '{ for (k = 1; k < NF; k++) if ($(k + 1) ~ /^[0-9]+$/) found[$k] = $(k + 1) }
        END { print found["rate"] + 0, found["stops"] + 0, found["mean"] + 0, found["longest"] + 0, found["p50"] + 0, found["p99"] + 0, found["p999"] + 0,
            found["slowest"] + 0, found["cycles"] + 0, found["mutators"] + 0, found["tracers"] + 0, found["left"] + 0, found["rescanned"] + 0, found["floated"] + 0, found["kept"] + 0 }'
}

# The stops of Java's collector while the transactions went on, with the time until all threads stood, as the log of safepoints tells them.
from_log() {
    sed -n 's/^\[\([0-9.]*\)s\].* Safepoint "\([A-Za-z0-9]*\)".* Total: \([0-9]*\) ns$/\1 \2 \3/p' "$2" |
        awk -v began="$(sed -n 's/began //p' "$1")" -v ended="$(sed -n 's/ended //p' "$1")" '$2 ~ /^(G1|Z|Shenandoah)/ && 1000 * $1 >= began && 1000 * $1 <= ended {
            count++; sum += $3; if ($3 > most) most = $3 }
            END { if (count) printf "stops %d mean %d longest %d\n", count, sum / count / 1000, most / 1000 }'
    cat "$1"
}

# The middle one of a column of the runs of a row, and their sum.
median() { sort -n -k "$2,$2" "$folder/$1" | awk -v column="$2" '{ found[NR] = $column } END { print found[int((NR + 1) / 2)] + 0 }'; }
sum() { awk -v column="$2" '{ sum += $column } END { print sum + 0 }' "$folder/$1"; }

ours() {
    # shellcheck disable=SC2086
    "$program" pauses --cells "$1" --live $live --workers "$2" --tracers "$3" --transactions "$(transactions "$1")" $([ "$4" = stops ] && echo --stops) >"$folder/told"
    numbers <"$folder/told" >>"$folder/$4-$3.$1.$2"
}

# The library, by the calls for C or for Rust.
calls_of() {
    "$folder/$1" "$2" $live "$3" "$4" "$(transactions "$2")" >"$folder/told"
    numbers <"$folder/told" >>"$folder/$1-$4.$2.$3"
}

# Boehm's collector, in the smallest heap in which it finds room, and in a larger one from where it doesn't any more.
boehm() {
    key=$1.$2.$3
    [ -f "$folder/$key.shares" ] || echo "$percent" >"$folder/$key.shares"
    for share in $(cat "$folder/$key.shares"); do
        if "$folder/boehm" "$2" $live "$3" "$(transactions "$2")" "$1" "$share" >"$folder/told" 2>/dev/null; then
            rest=" $percent "
            echo "$share ${rest#* "$share" }" >"$folder/$key.shares"
            numbers <"$folder/told" >>"$folder/$key"
            return
        fi
    done
    echo >"$folder/$key.shares"
    echo "$1 found no memory with $2 cells and $3 workers" >&2
}

go_peer() {
    "$folder/go" "$1" $live "$2" "$(transactions "$1")" >"$folder/told"
    numbers <"$folder/told" >>"$folder/go.$1.$2"
}

java_peer() {
    rm -f "$folder/log"
    heap=$(($2 * 48 / 1024))k
    if timeout 60 java -Xms"$heap" -Xmx"$heap" -XX:MaxDirectMemorySize=1g -XX:+Use"$4" -Xlog:safepoint:"$folder/log" -cp "$folder/java" Pauses \
        "$2" $live "$3" "$(transactions "$2")" 100000 >"$folder/told" 2>/dev/null; then
        from_log "$folder/told" "$folder/log" | numbers >>"$folder/$1.$2.$3"
    else
        echo "$1 found no memory with $2 cells and $3 workers" >&2
    fi
}

# has FILE: whether this peer was built and is wanted.
has() { [ -e "$folder/$1" ] && [ "$peers" != "${peers#* "$1" }" ]; }

round() {
    for tracers in $tracers_of; do
        for way in $ways; do ours "$1" "$2" "$tracers" "$way"; done
        for language in c rust; do ! has $language || calls_of $language "$1" "$2" "$tracers"; done
    done
    ! has boehm || boehm stop "$1" "$2"
    ! has boehm || boehm incremental "$1" "$2"
    ! has go || go_peer "$1" "$2"
    # three megabytes, which is what 65,536 cells take, aren't enough for Java
    { has java && [ "$1" -ge 262144 ]; } || return 0
    java_peer G1 "$1" "$2" G1GC
    java_peer Z "$1" "$2" ZGC
    java_peer Shenandoah "$1" "$2" ShenandoahGC
}

each() {
    for size in $sizes; do
        cycles=${size##*/} size=${size%/*}
        "$@" "${size%/*}" "${size#*/}"
    done
}

# A line of the first table: a row's name, and the file of its runs. The stops are those of all runs, all else is medians. Microseconds.
line() {
    [ -s "$folder/$2" ] || return 0
    awk -v rate="$(median "$2" 1)" -v stops="$(sum "$2" 2)" -v mean="$(median "$2" 3)" -v longest="$(median "$2" 4)" -v half="$(median "$2" 5)" \
        -v p99="$(median "$2" 6)" -v p999="$(median "$2" 7)" -v slowest="$(median "$2" 8)" -v name="$1" 'BEGIN {
        printf "| %s | %d | %d | %d | %d | %.1f | %.0f | %.0f | %.0f |\n", name, rate, stops, mean, longest, half / 1000, p99 / 1000, p999 / 1000, slowest / 1000 }'
}

pauses_lines() {
    for way in $ways; do
        for tracers in $tracers_of; do line "$1 | $2 | $way, $tracers" "$way-$tracers.$1.$2"; done
    done
    for tracers in $tracers_of; do line "$1 | $2 | C, $tracers" "c-$tracers.$1.$2"; done
    for tracers in $tracers_of; do line "$1 | $2 | Rust, $tracers" "rust-$tracers.$1.$2"; done
    for mode in stop incremental; do
        [ ! -s "$folder/$mode.$1.$2" ] || line "$1 | $2 | Boehm, $mode, $(cut -d ' ' -f 1 "$folder/$mode.$1.$2.shares") %" "$mode.$1.$2"
    done
    line "$1 | $2 | Go" "go.$1.$2"
    for name in G1 Z Shenandoah; do line "$1 | $2 | $name" "$name.$1.$2"; done
}

work_lines() {
    for tracers in $tracers_of; do
        key=beside-$tracers.$1.$2
        echo "| $1 | $2 | $tracers | $(median "$key" 9) | $(median "$key" 10) | $(median "$key" 11) | $(median "$key" 12) | $(median "$key" 13) | $(median "$key" 14) |"
    done
}

# What the library's stops traced, with helpers: what was kept and not traced beside the program.
calls_lines() {
    for language in c rust; do
        for tracers in $tracers_of; do
            key=$language-$tracers.$1.$2
            [ ! -s "$folder/$key" ] || awk -v row="| $1 | $2 | $language, $tracers" '{ part[NR] = 100 * ($15 - $10 - $11) / $15; cycles[NR] = $9; k = NR
                for (; k > 1 && part[k - 1] > part[k]; k--) { x = part[k]; part[k] = part[k - 1]; part[k - 1] = x } }
                END { printf "%s | %d | %.2f |\n", row, cycles[1], part[int((NR + 1) / 2)] }' "$folder/$key"
        done
    done
}

left=$runs
while [ "$left" -gt 0 ]; do
    each round
    left=$((left - 1))
done

echo "$live % of the cells live, $runs runs of cells / workers / how often the free cells are used up: $sizes; $(nproc) processors, load $(cut -d ' ' -f 1 /proc/loadavg) at the end. Microseconds."
echo
echo "| Cells | Workers | Program | Orders a second | Stops | Mean stop | Longest | Transaction, p50 | p99 | p99.9 | Slowest |"
echo "|---|---|---|---|---|---|---|---|---|---|---|"
each pauses_lines
case " $ways " in *" beside "*)
    echo
    echo "| Cells | Workers | Tracers | Cycles | Traced by mutators | By tracers | Left to the stops | Scanned again | Floated |"
    echo "|---|---|---|---|---|---|---|---|---|"
    each work_lines
    ;;
esac
if [ -e "$folder/c" ] || [ -e "$folder/rust" ]; then
    echo
    echo "| Cells | Workers | Program | Cycles | Traced in the stops, per cent of what was kept |"
    echo "|---|---|---|---|---|"
    each calls_lines
fi
