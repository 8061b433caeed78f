#!/bin/sh
# Builds the C programs over the library and over Boehm's collector, runs them, then runs them under the sanitizers that the compiler has, and prints a line
# for each run. Ends with status 1 if an answer was wrong.
#
#     sh examples/c/run.sh             everything but the long run
#     sh examples/c/run.sh --quick     neither over Boehm's collector nor under the sanitizers
#     sh examples/c/run.sh --long      besides, 10^9 objects in 65,536 cells
#
# With MH_TRACE=1 in the environment each cycle of each program is written to standard error as a line.
# The library is the one that c/install.sh installs: it is proved and built if it isn't there. LIBRARY names another archive, KIT the folder of the kit.
# Each run has a bound, 60 to 600 seconds; on a slow machine BOUND=SECONDS raises all that are less.
here=$(cd "$(dirname "$0")" && pwd)
top=$(cd "$here/../.." && pwd)
work=$(mktemp -d)
trap 'rm -rf "$work"' EXIT
bad=0
warnings="-std=c11 -D_GNU_SOURCE -Wall -Wextra -Wconversion -Werror"
sh "$top/c/install.sh" "$work/prefix" || exit 1
library="-I$work/prefix/include $work/prefix/lib/libmanaged_heap.a"
libraries="$library"

fail() {
    echo "WRONG: $*"
    bad=1
}

# build NAME OUT FLAGS..
build() {
    name=$1 out=$2
    shift 2
    cc -O2 $warnings -DMH_TRACED "$@" -o "$work/$out" "$here/$name.c" $libraries -lpthread || fail "$name is not built"
}

# The seconds that a run has, for these.
bound() { if [ "${BOUND:-0}" -gt "$1" ]; then echo "$BOUND"; else echo "$1"; fi; }

# How a run ended, by the status of timeout.
ended() { if [ "$1" -eq 124 ]; then echo "ran out of time (BOUND=SECONDS gives more)"; else echo "ended with status $1"; fi; }

# run SECONDS PROGRAM WORDS..
run() {
    seconds=$1 program=$2
    shift 2
    [ -x "$work/$program" ] || return
    timeout "$(bound "$seconds")" "$work/$program" "$@" || fail "$program $* $(ended $?)"
}

programs="binary_trees gcbench rewriter fuzz fills_up edges billion speed queue map counter torture order places weak_table cleaner misuse abandon cycles hidden helped timeline weak_map"
for name in $programs; do build "$name" "$name"; done
for name in misuse fuzz speed abandon; do build "$name" "$name.guarded" -DMH_CHECKED; done

echo "== trees on 1, 2, 4 threads beside 0, 1, 2 tracers, and terms"
for threads in 1 2 4; do
    for tracers in 0 1 2; do
        run 300 binary_trees 16 $threads $tracers 524288
    done
done
run 300 binary_trees 16 1
run 300 gcbench 16
run 300 rewriter 7 20

echo "== full heaps, calls at the edge, and calls at random"
run 60 edges
for threads in 1 2 4; do run 120 fills_up $threads; done
run 300 fuzz 1000000 1 1 0 5
run 300 fuzz 800000 4 3 0 1
run 300 fuzz 1000000 1 1 1 5
run 300 fuzz 800000 4 3 1 1

echo "== one handle used by two, and calls that exchange its word"
run 60 misuse
run 60 misuse.guarded 500000 4
run 300 fuzz.guarded 300000 4 3 1

echo "== handles that are left in the midst, and what is told of cycles"
run 120 abandon 120
run 120 abandon 120 1
run 120 abandon.guarded 60 1
run 120 cycles 4 300000 16384 1
run 120 cycles 2 300000 16384 0
run 60 helped
run 60 helped 3000 65536
if command -v python3 >"$work/log"; then
    run 120 timeline 3 300000 65536 1 >"$work/trace"
    if python3 "$top/tests/trace_events.py" <"$work/trace"; then echo "timeline: $(grep -c '"the cycle ends"' "$work/trace") cycles, each with its stop"; else fail "the trace of timeline"; fi
fi

echo "== objects that a store hides from the tracers"
for tracers in 0 1; do run 120 hidden 65536 40 $tracers 3; done

echo "== threads that share objects"
for tracers in 0 2; do
    run 300 queue 1 1 3000 64 $tracers
    run 300 queue 2 2 3000 128 $tracers
    run 300 map 4 3000 64 1024 $tracers
    run 300 counter 4 4000 $tracers
    run 300 torture 4 4000 512 $tracers 1
done
run 300 order 20000
run 300 order 20000 2
run 300 queue 4 4 500 512 1
run 300 map 8 1500 512 2048 1
run 300 map 4 20000 300 1024 2 1
run 300 torture 4 60000 1024 1 1 5
run 300 torture 2 8000 256 1 2
run 300 torture 8 1500 1024 0 3
run 300 places 4 5000 320
run 300 weak_table 200000
run 300 cleaner 4 20000 640
run 300 cleaner 1 20000 128
run 300 weak_map 4 40000 512
run 300 weak_map 1 20000 256 2
run 300 weak_map 8 5000 1024 3
if timeout "$(bound 300)" "$work/places" 1 1 320 1 >"$work/log"; then fail "a place is used after its object was forgotten, and nobody notices"; else tail -n 1 "$work/log"; fi

echo "== many objects in few cells, and what a call takes"
run 300 billion 20 65536
run 300 speed 10
run 300 speed.guarded 10

case ${1:-} in
    --quick) kinds="" collectors="" ;;
    *) kinds="address,undefined thread" collectors=both ;;
esac

if [ -z "$collectors" ]; then
    echo "== without Boehm's collector and the sanitizers"
elif cc -o "$work/gc_there" -x c - -lgc 2>"$work/log" <<'END'
#include <gc.h>
int main(void) { GC_INIT(); return 0; }
END
then
    echo "== the same over Boehm's collector"
    libraries=-lgc
    for name in binary_trees gcbench rewriter billion speed queue map counter; do build "$name" "$name.boehm" -DOVER_BOEHM; done
    for threads in 1 2 4; do run 300 binary_trees.boehm 16 $threads; done
    run 300 gcbench.boehm 16
    run 300 rewriter.boehm 7 20
    run 300 billion.boehm 20
    run 300 speed.boehm 10
    run 300 queue.boehm 2 2 100000 128
    run 300 map.boehm 4 50000 64 1024
    run 300 counter.boehm 4 20000
    libraries="$library"
else
    echo "== no libgc here: the same over Boehm's collector is left out (Debian: libgc-dev)"
fi

if command -v cargo >"$work/log" 2>&1; then
    echo "== from Rust"
    MANAGED_HEAP_PREFIX=$work/prefix CARGO_TARGET_DIR=$work/target timeout "$(bound 300)" cargo run --offline --quiet --release --manifest-path "$top/rust/managed_heap/Cargo.toml" --example queues || fail "the Rust program $(ended $?)"
else
    echo "== no cargo here: the program in Rust is left out"
fi

for kind in $kinds; do
    if echo 'int main(void) { return 0; }' | cc -fsanitize=$kind -o "$work/there" -x c - 2>"$work/log" && "$work/there"; then
        echo "== under -fsanitize=$kind"
        for name in binary_trees gcbench rewriter fuzz fills_up edges queue map counter torture order places weak_table cleaner weak_map abandon cycles; do build "$name" "$name.checked" -g -fsanitize=$kind -fno-sanitize-recover=all; done
        run 600 binary_trees.checked 10 2 1 16384
        run 600 gcbench.checked 10
        run 600 rewriter.checked 5 5
        run 600 fuzz.checked 300000 1 4
        run 600 fuzz.checked 300000 4 5
        run 600 fills_up.checked 4
        run 600 edges.checked
        run 600 fuzz.checked 300000 1 4 1
        run 600 fuzz.checked 300000 4 5 1
        run 600 queue.checked 2 2 500 128 1
        run 600 map.checked 4 1000 64 1024 1
        run 600 counter.checked 4 500 1
        run 600 torture.checked 4 1000 512 1 4
        run 600 order.checked 300 1
        run 600 places.checked 4 1500 320
        run 600 weak_table.checked 5000
        run 600 cleaner.checked 4 3000 640
        run 600 weak_map.checked 4 3000 512
        for rule in 2 3; do
            if timeout "$(bound 300)" "$work/places.checked" 1 1 320 $rule >"$work/log" 2>&1; then fail "what is freed is used, and -fsanitize=$kind doesn't notice"; fi
        done
        run 300 abandon.checked 36
        run 300 abandon.checked 36 1
        run 300 cycles.checked 4 30000 16384 1
    else
        echo "== no -fsanitize=$kind here"
    fi
done

if [ "${1:-}" = --long ]; then
    echo "== 10^9 objects in 65,536 cells"
    run 3600 billion 1000 65536
fi

[ $bad = 0 ] && echo "all answers right"
exit $bad
