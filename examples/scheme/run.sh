#!/bin/sh
# Builds the interpreter over the library and over Boehm's collector, runs the tests of the language and the programs with one thread and with four, and
# compares what they print with what is known. Ends with status 1 if something differs.
#
#     sh examples/scheme/run.sh            each program once with one thread and once with four, and those of futures with more
#     sh examples/scheme/run.sh --times    besides, how long each takes: medians of five in turns, real-time priority if allowed
#
# The library is the proved one if it is built, and otherwise one that c/unproved.sh makes. LIBRARY names another archive. CELLS is the size of the heap.
# Each run has 300 seconds, or BOUND.
here=$(cd "$(dirname "$0")" && pwd)
top=$(cd "$here/../.." && pwd)
work=$(mktemp -d)
trap 'rm -rf "$work"' EXIT
bad=0
cells=${CELLS:-524288}
warnings="-std=c99 -Wall -Wextra -pedantic -Wconversion -Werror"
programs="browse ctak deriv destruct fib nqueens primes spectral tak"
with_futures="pfib pmap pqueens pwords"
sources=$(ls "$here"/*.c | grep -v /heap_)
export LIBRARY="${LIBRARY:-$top/crates/managed_heap_c/out/libmanaged_heap_c.a}"
if [ ! -f "$LIBRARY" ]; then
    echo "== the library isn't built here: an unproved one is made"
    LIBRARY=$work/unproved.a
    sh "$top/c/unproved.sh" "$LIBRARY" || exit 1
fi
sh "$top/c/install.sh" "$work/prefix" || exit 1

fail() {
    echo "WRONG: $*"
    bad=1
}

# build COMPILER OUT FLAGS..: over the library; over_boehm OUT: over Boehm's collector.
build() {
    compiler=$1 out=$2
    shift 2
    "$compiler" -O2 $warnings -DMH_TRACED "$@" -I "$work/prefix/include" -o "$work/$out" $sources "$here/heap_managed.c" \
        "$work/prefix/lib/libmanaged_heap.a" -lpthread -lm || fail "$out isn't built by $compiler"
}
over_boehm() { cc -O2 $warnings -DOVER_BOEHM -o "$work/$1" $sources "$here/heap_boehm.c" -lgc -lpthread -lm || fail "$1 isn't built"; }

# known NAME WHAT: whether the program printed what is known.
known() {
    if cmp -s "$work/out" "$here/programs/$1.out"; then echo "$2: $1"; else fail "$2: $1" && diff "$work/out" "$here/programs/$1.out"; fi
}

# compare BINARY THREADS NAMES..
compare() {
    binary=$1 threads=$2
    shift 2
    for name in "$@"; do
        (cd "$here/programs" && timeout "${BOUND:-300}" "$work/$binary" --cells "$cells" --threads "$threads" "$name.scm" >"$work/out" 2>&1)
        [ $? -ne 124 ] || fail "$name ran out of time (BOUND=SECONDS gives more)"
        known "$name" "$binary, threads $threads"
    done
}

# fills BINARY THREADS: a heap that gets full while the program is read from the standard input.
fills() {
    timeout "${BOUND:-300}" "$work/$1" --cells 16384 --threads "$2" <"$here/programs/full.scm" >"$work/out" 2>&1
    [ $? -ne 124 ] || fail "full ran out of time (BOUND=SECONDS gives more)"
    known full "$1, threads $2"
}

# has_sanitizer FLAGS
has_sanitizer() { echo 'int main(void) { return 0; }' | cc "$1" -o "$work/there" -x c - 2>"$work/log" && "$work/there"; }

echo "== over managed_heap"
build cc scheme
for threads in 1 4; do
    fills scheme $threads
    compare scheme $threads language futures weak strings $programs $with_futures
done
for threads in 2 3 8 32; do compare scheme $threads futures weak pwords; done

if cc -o "$work/gc_there" -x c - -lgc 2>"$work/log" <<'END2'
#include <gc.h>
int main(void) { GC_INIT(); return 0; }
END2
then
    echo "== over Boehm's collector"
    both="scheme scheme.boehm"
    over_boehm scheme.boehm
    # Not weak: a collector that scans the stack conservatively may keep what nobody has any more.
    for threads in 1 4; do compare scheme.boehm $threads language futures $programs $with_futures; done
else
    both=scheme
    echo "== no libgc here: the same over Boehm's collector is left out (Debian: libgc-dev)"
fi

for compiler in gcc clang; do
    command -v $compiler >"$work/log" || { echo "== no $compiler here"; continue; }
    build $compiler "scheme.$compiler"
    compare "scheme.$compiler" 1 language
    compare "scheme.$compiler" 4 futures
done

if has_sanitizer -fsanitize=address,undefined; then
    echo "== under -fsanitize=address,undefined"
    build cc scheme.checked -g -fsanitize=address,undefined -fno-sanitize-recover=all
    for threads in 1 4; do
        fills scheme.checked $threads
        compare scheme.checked $threads language nqueens spectral
        all=$cells cells=24576
        compare scheme.checked $threads futures weak strings pwords
        cells=$all
    done
else
    echo "== no -fsanitize=address,undefined here"
fi

if has_sanitizer -fsanitize=thread; then
    echo "== under -fsanitize=thread"
    build cc scheme.raced -g -fsanitize=thread
    fills scheme.raced 4
    all=$cells cells=24576
    compare scheme.raced 4 futures weak strings $with_futures
    cells=$all
else
    echo "== no -fsanitize=thread here"
fi

# seconds BINARY THREADS NAME: of a processor, with one thread, and else by the clock, once.
seconds() {
    (cd "$here/programs" && LC_ALL=C bash -c 'TIMEFORMAT="%R %U %S"; time "$@" >/dev/null 2>&1' - \
        $first "$work/$1" --cells "$cells" --threads "$2" "$3.scm") 2>&1 |
        awk -v threads="$2" '{ printf "%.3f\n", (threads > 1 ? $1 : $2 + $3) }'
}

# row NAME THREADS..: the medians for each number of threads, over one collector and the other.
row() {
    name=$1
    shift
    for turn in 1 2 3 4 5; do
        for threads in "$@"; do for binary in $both; do seconds $binary $threads "$name" >>"$work/$name.$threads.$binary"; done; done
    done
    printf '%-10s' "$name"
    for threads in "$@"; do for binary in $both; do printf ' %s' "$(sort -n "$work/$name.$threads.$binary" | sed -n 3p)"; done; done
    echo
}

if [ "$1" = --times ]; then
    if chrt -f 10 true 2>"$work/log"; then first="chrt -f 10"; else first=""; fi
    echo "== medians of five, $cells cells, over $both: seconds of a processor with one thread"
    for name in $programs; do row "$name" 1; done
    row empty 1
    echo "== seconds of a processor with one thread, and by the clock with four"
    for name in $with_futures; do row "$name" 1 4; done
fi

[ $bad = 0 ] && echo "all answers right"
exit $bad
