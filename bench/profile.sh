#!/bin/sh
# Where the time goes, with one worker and no tracer: for each script how many steps on words the floor takes for a command, which are those of the
# heap; how many instructions gcplay and the floor take; and the functions of gcplay that take a fiftieth or more of them.
# From the top of the repository: sh bench/profile.sh [PROGRAM]. It wants valgrind.
set -eu
cd "$(dirname "$0")/.."
program=${1:-}
. bench/parts.sh
. bench/scripts.sh
find_program
build_floor

# Counts a program's instructions for a script.
count() {
    valgrind --tool=callgrind --callgrind-out-file="$folder/counted.$1.$3" "$2" run --cells 65536 --workers 1 --tracers 0 <"$folder/$3" >/dev/null 2>&1
    callgrind_annotate --threshold=99 "$folder/counted.$1.$3" >"$folder/told.$1.$3" 2>/dev/null
    awk '/PROGRAM TOTALS/ { gsub(",", "", $1); print $1 }' "$folder/told.$1.$3"
}

g++ -std=c++20 -O2 -pthread -DCOUNTED -o "$folder/counted" bench/floor/play.cpp
echo "| Script | Loads a command | Stores | Fetches |"
echo "|---|---|---|---|"
for script in orders load live objects stores reads survivors; do
    if [ "$script" = objects ]; then objects 2000000 >"$folder/objects"; else "$script" >"$folder/$script"; fi
    "$folder/counted" run --cells 65536 --workers 1 --tracers 0 <"$folder/$script" 2>"$folder/steps" >/dev/null
    awk -v script="$script" -v commands="$(commands_in "$folder/$script")" '{
        printf "| %s | %.2f | %.2f | %.3f |\n", script, $1 / commands, $2 / commands, $3 / commands }' "$folder/steps"
done
echo
echo "| Script | gcplay, instructions a command | Floor | Ratio | Functions of gcplay |"
echo "|---|---|---|---|---|"
for script in orders load live objects stores reads survivors; do
    ours=$(count gcplay "$program" "$script")
    theirs=$(count floor "$folder/floor" "$script")
    functions=$(awk '/file:function/ { on = 1; next }
        on && /%\)/ { line = $0; sub(/^[^(]*\( */, "", line); share = line; sub(/%.*/, "", share)
            if (share + 0 < 2) next
            sub(/^[^)]*\) */, "", line); sub(/ \[.*/, "", line); sub(/::<#.*/, "", line); sub(/^[^:]*:/, "", line)
            printf "%s%% `%s`, ", share, line }' "$folder/told.gcplay.$script")
    awk -v script="$script" -v commands="$(commands_in "$folder/$script")" -v ours="$ours" -v theirs="$theirs" -v functions="${functions%, }" 'BEGIN {
        printf "| %s | %.0f | %.0f | %.2f | %s |\n", script, ours / commands, theirs / commands, ours / theirs, functions }'
done
