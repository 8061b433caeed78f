#!/bin/sh
# How the cost of a command grows with each size, the others fixed: nanoseconds of processor time a command of gcplay, and in brackets of the floor if one
# thread runs, the medians of several runs in turns. From the top of the repository: chrt -f 10 sh bench/growth.sh [RUNS [PROGRAM]], 5 runs if no number is given.
set -eu
cd "$(dirname "$0")/.."
runs=${1:-5}
program=${2:-}
. bench/parts.sh
. bench/scripts.sh
find_program
build_floor

# A cell: the value of the size that grows, the programs, a script and the words.
cell() {
    value=$1 names=$2
    shift 2
    in_turns "$runs" "$names" "$@"
    commands=$(commands_in "$folder/$1")
    printf '%s%s: %s' "$between" "$value" "$(median 2 gcplay "$@" | awk -v n="$commands" '{ printf "%.1f", 1e3 * $1 / n }')"
    [ "$names" = gcplay ] || printf ' (%s)' "$(median 2 floor "$@" | awk -v n="$commands" '{ printf "%.1f", 1e3 * $1 / n }')"
    between='; '
}

# A line begins with the size and the script.
begin() {
    printf '| %s | %s | ' "$1" "$2"
    between=''
}

echo "| Size | Script | Values: gcplay, ns a command (floor) |"
echo "|---|---|---|"
both='gcplay floor'
objects 2000000 >"$folder/objects"
begin cells '`objects`, 1 worker'
for cells in 64 256 1024 4096 16384 65536; do cell "$cells" "$both" objects --cells "$cells" --workers 1 --tracers 0; done
echo ' |'
begin objects '`new`, 4,096 cells, 1 worker'
for count in 10000 30000 100000 300000 1000000 2000000; do
    objects "$count" >"$folder/objects$count"
    cell "$count" "$both" "objects$count" --cells 4096 --workers 1 --tracers 0
done
echo ' |'
begin workers 'as many warehouses, 320,000 objects in all'
for workers in 1 2 4 8 16 32; do
    shares "$workers" >"$folder/shares$workers"
    cell "$workers" gcplay "shares$workers" --cells 65536 --workers "$workers" --tracers 0
done
echo ' |'
live >"$folder/live"
begin tracers '`live`, 1 worker'
for tracers in 0 1 2 4 8; do cell "$tracers" gcplay live --cells 65536 --workers 1 --tracers "$tracers"; done
echo ' |'
begin packets '`live`, 1 worker'
for packets in 2 8 32 64 256 1024; do cell "$packets" "$both" live --cells 65536 --packets "$packets" --workers 1 --tracers 0; done
echo ' |'
begin entries '`live`, 1 worker'
for entries in 2 8 32 128 512; do cell "$entries" "$both" live --cells 65536 --entries "$entries" --workers 1 --tracers 0; done
echo ' |'
