#!/bin/sh
# Plays the same scripts with gcplay and with the peers that are found, and prints the tables of bench/README.md: the medians of several runs in turns.
# From the top of the repository: chrt -f 10 sh bench/runs.sh [RUNS [PROGRAM]], 5 runs if no number is given. Without a program, gcplay is proved and built.
# The floor is measured only with one worker and no tracer, since its policy is an older one where threads wait for each other.
set -eu
cd "$(dirname "$0")/.."
runs=${1:-5}
program=${2:-}
. bench/parts.sh
. bench/scripts.sh
find_program
build_peers

orders >"$folder/orders"
load >"$folder/load"
live >"$folder/live"
objects 2000000 >"$folder/objects"
stores >"$folder/stores"
reads >"$folder/reads"
survivors >"$folder/survivors"

peers='plain boehm incremental go java'

# What a program took for a script with some words, in milliseconds (of column 1 or 2), or nothing if it isn't there.
took() {
    column=$1 name=$2
    shift 2
    [ -f "$folder/$name.$1.$(shift && echo "$*" | tr -d ' ')" ] || return 0
    median "$column" "$name" "$@" | awk '{ printf "%.1f", $1 / 1e3 }'
}

# The cells of a line: what each of these programs took.
cells() {
    column=$1 names=$2
    shift 2
    for each in $names; do printf ' %s |' "$(took "$column" "$each" "$@")"; done
}

# One worker and no tracer, so that no thread waits for another: processor time, and the ratio to the floor's.
alone_table() {
    echo "| Script | Commands | gcplay, processor ms | Floor | gcplay to the floor | gcplay, ns a command | Plain | Boehm | Boehm, incremental | Go | Java | gcplay, MB |"
    echo "|---|---|---|---|---|---|---|---|---|---|---|---|"
    for script in $all; do
        set -- "$script" --cells 65536 --workers 1 --tracers 0
        in_turns "$runs" "gcplay floor $peers" "$@"
        commands=$(commands_in "$folder/$script")
        awk -v script="$script" -v commands="$commands" -v ours="$(median 2 gcplay "$@")" -v floor="$(median 2 floor "$@")" 'BEGIN {
            printf "| `%s` | %d | %.1f | %.1f | %.2f | %.1f |", script, commands, ours / 1e3, floor / 1e3, ours / floor, 1e3 * ours / commands }'
        cells 2 "$peers" "$@"
        awk -v kb="$(median 3 gcplay "$@")" 'BEGIN { printf " %.1f |\n", kb / 1024 }'
    done
}

# The mean over the scripts of a million commands and more, and the greatest.
means_line() {
    for script in $all; do
        set -- "$script" --cells 65536 --workers 1 --tracers 0
        [ "$(commands_in "$folder/$script")" -lt 1000000 ] || echo "$(median 2 gcplay "$@") $(median 2 floor "$@")"
    done | awk '{ ratio = $1 / $2; sum += log(ratio); if (ratio > most) most = ratio }
        END { printf "gcplay to the floor: %.2f in the geometric mean of %d scripts, %.2f at most.\n", exp(sum / NR), NR, most }'
}

# Four workers each, by the clock; gcplay with its default of one tracer, and with none.
four_table() {
    echo "| Script | gcplay, a tracer, clock ms | gcplay, no tracer | Plain | Boehm | Boehm, incremental | Go | Java |"
    echo "|---|---|---|---|---|---|---|---|"
    for script in orders live stores reads; do
        in_turns "$runs" "gcplay" "$script" --cells 65536 --workers 4 --tracers 1
        in_turns "$runs" "gcplay $peers" "$script" --cells 65536 --workers 4 --tracers 0
        printf '| `%s` |' "$script"
        cells 1 gcplay "$script" --cells 65536 --workers 4 --tracers 1
        cells 1 "gcplay $peers" "$script" --cells 65536 --workers 4 --tracers 0
        echo
    done
}

# gcplay over workers and tracers.
threads_table() {
    echo "| Workers | Tracers | \`orders\`, clock ms | processor ms | \`live\`, clock ms | processor ms |"
    echo "|---|---|---|---|---|---|"
    for workers in 1 2 4 8; do
        for tracers in 0 1 2; do
            printf '| %s | %s |' "$workers" "$tracers"
            for script in 'orders 4096' 'live 65536'; do
                set -- "${script% *}" --cells "${script#* }" --workers "$workers" --tracers "$tracers"
                in_turns "$runs" gcplay "$@"
                cells 1 gcplay "$@"
                cells 2 gcplay "$@"
            done
            echo
        done
    done
}

# Start and end: a play of one command, by the clock.
one_line() {
    printf 'gcscript 1\nwarehouse\nnew x 1\n' >"$folder/one"
    for cells in 64 65536; do in_turns "$runs" gcplay one --cells "$cells" --workers 1 --tracers 0; done
    echo "A play of one command takes $(took 1 gcplay one --cells 64 --workers 1 --tracers 0) ms by the clock in 64 cells, and $(took 1 gcplay one --cells 65536 --workers 1 --tracers 0) in 65,536."
}

all='orders live objects stores reads load survivors'
alone_table
echo
means_line
echo
four_table
echo
threads_table
echo
one_line
