#!/bin/sh
# Plays a script by a build that tells each cycle on standard error: ./play SCRIPT --trace [OPTIONS]. The text on standard output is that of `gcplay run`.
#
# The build is unproved and kept (tools/kept.sh): in front of each step a function in C is called (bench/unproved_cycles.c), which sees the moves of PHASE and counts
# steps. It isn't optimized, and calls take time, so the milliseconds are those of this build. KIT names the kit's folder.
set -eu
top=$(cd "$(dirname "$0")/.." && pwd)
. "$top/bench/unproved_kit.sh"

# compile FILE
compile() (
    work=$(mktemp -d)
    trap 'rm -rf "$work"' EXIT
    hand_over_crate gcplay
    "$kit/toolchain/bin/clang" -O0 -fintegrated-cc1 -x ir -S -emit-llvm "$work/module.bc" -o "$work/module.ll" 2>/dev/null
    python3 "$top/bench/steps/count.py" calls "$work/module.ll" "$work/module.ll"
    python3 "$top/bench/steps/count.py" kinds "$work/kinds.h"
    "$kit/toolchain/bin/clang" --target="$(uname -m)-unknown-linux-gnu" -ffunction-sections -fdata-sections -fintegrated-cc1 -O0 -fPIE -c -x ir "$work/module.ll" -o "$work/module.o"
    cc -O2 -pie -Wall -I "$work" -Wl,--gc-sections -o "$1" "$top/bench/unproved_cycles.c" "$work/module.o" "$kit/c/liblibc_c.a" "$kit/c/libos_c.a" -lpthread
)

want kit python3 cc
build_once gcplay.cycles compile </dev/null
for option; do
    shift
    [ "$option" = --trace ] || set -- "$@" "$option"
done
exec "$built" run "$@"
