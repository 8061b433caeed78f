#!/bin/sh
# Counts what marking and cleaning come to in runs of several cycles, by bench/steps/work.c over a library that counts its steps, beside the bound that is proved, and
# prints a table. From the top of the repository: sh bench/work.sh FOLDER. The library isn't proved; it is made in FOLDER if it isn't there.
set -eu
cd "$(dirname "$0")/.."
out=$1
mkdir -p "$out"
[ -f "$out/library.a" ] || COUNT_STEPS=1 sh c/unproved.sh "$out/library.a"
python3 bench/steps/count.py kinds "$out/kinds.h"
${CC:-cc} -O2 -std=c11 -D_GNU_SOURCE -Wall -Wextra -Wconversion -Werror -I c/include -I "$out" -o "$out/work" bench/steps/work.c "$out/library.a" -lpthread
echo '| Cells | Mutators | Tracers | Cycles | Stores | Popped | Cards cleaned | References read | Marks tried | All four | Bound, packets found | Bound |'
echo '|---|---|---|---|---|---|---|---|---|---|---|---|'
for cells in 16384 65536 262144 1048576 4194304; do
    for of in '1 0' '1 1' '4 0' '4 1'; do
        # shellcheck disable=SC2086
        "$out/work" $cells $of 10
    done
done
