#!/bin/sh
# Builds the library for C over the crates below as `rt ci` left them proved: crates/managed_heap_c/out/libmanaged_heap_c.a. It proves the crate itself.
# `rt ci` proves this crate, but builds no library of it, and `rt lib` builds only over crates that it proved itself; if it has, `rt lib` is run.
# From the top of the repository: sh tests/library.sh. KIT names the folder of the kit.
set -eu
cd "$(dirname "$0")/../crates/managed_heap_c"
kit=${KIT:-/opt/rattle}
if [ -e ../managed_heap/out/rlib/stamp ]; then exec rt lib; fi
words="--extern std=$kit/rlibs/std.rlib -L dependency=$kit/rlibs"
for name in $(sed -n 's/#.*//; s/^managed_heap_c staticlib: *//p' ../../crates.txt); do
    words="$words --extern $name=$PWD/../$name/out/rlib/$name.rlib"
done
for folder in ../*/out/rlib; do words="$words -L dependency=$PWD/$folder"; done
mkdir -p out
exec "$kit/bin/rattle" build --crate-name managed_heap_c src/lib.rt $words --crate-type staticlib --links managed_heap_c= --jobs 4 \
    --antt-project "$kit/rattle/logic/antt-project.json" --logic-built "$kit/logic_built" \
    --toolchain "$kit/toolchain" --backend llvm -o out/libmanaged_heap_c.a
