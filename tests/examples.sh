#!/bin/sh
# Plays each script of examples/ that has an answer beside it, and compares: NAME.gc, with the options in NAME.args, a word a line, and what stands in NAME.out.
# Besides it plays one with an option that isn't taken. From the top of the repository: sh tests/examples.sh [FOLDER], by ./play of that folder, if named.
cd "$(dirname "$0")/.." || exit 1
top=${1:-$PWD}
work=$(mktemp -d) || exit 1
trap 'rm -rf "$work"' EXIT

# look NAME STATUS ANSWER SCRIPT OPTIONS..: plays a script, and says whether it was answered so.
look() {
    name=$1 wanted=$2 answer=$3 found=0
    shift 3
    "$top/play" "$@" >"$work/$name.out" 2>"$work/$name.said" || found=$?
    if [ $found -eq "$wanted" ] && cmp -s "$answer" "$work/$name.out"; then
        echo "as told: $name"
        return
    fi
    echo "DIFFERS: $name (status $found, where $wanted is wanted)"
    cat "$work/$name.out"
    tail -n 20 "$work/$name.said"
    : >"$work/wrong"
}

# The status is 3 if the heap is full.
echo "usage: gcplay command [options]" >"$work/usage"
look usage 1 "$work/usage" examples/first.gc --cells 65
for answer in examples/*.out; do
    name=$(basename "$answer" .out)
    status=0 options=""
    if grep -q '^full' "$answer"; then status=3; fi
    if [ -e "examples/$name.args" ]; then options=$(cat "examples/$name.args"); fi
    look "$name" $status "$answer" "examples/$name.gc" $options
done

# With --trace each cycle is told besides. This script makes 40,001 objects in 4,096 cells and then collects, so there are nine cycles before the last, which is exact.
if command -v cc >/dev/null; then
    look traced 0 examples/collects.out examples/collects.gc --trace
    awk -F '[ =]' '/^play: cycle=/ { n++; if ($3 != n) wrong = 1; exact = $NF } END { exit wrong || n < 10 || !exact }' "$work/traced.said" || {
        echo "DIFFERS: the cycles of traced"
        grep ^play: "$work/traced.said"
        : >"$work/wrong"
    }
fi
[ ! -e "$work/wrong" ]
