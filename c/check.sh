#!/bin/sh
# Compiles the headers by themselves under each compiler that is there, installs the library into a folder of its own, builds by what pkg-config says two programs
# of docs/EMBEDDING_C.md, one there in C++, examples/c/edges.c and the programs of examples/cpp, has a file in C and one in C++ open worlds beside each other, and
# runs the tests of rust/managed_heap. It says what is wrong, and at the end whether all is right.
#
#     sh c/check.sh                the proved library
#     LIBRARY=ARCHIVE sh c/check.sh
set -u
top=$(cd "$(dirname "$0")/.." && pwd)
work=$(mktemp -d)
trap 'rm -rf "$work"' EXIT
bad=0
fail() {
    echo "WRONG: $*"
    bad=1
}

printf '#include "managed_heap.h"\nint main(void) { mh_world w = {0}; return mh_close(&w) == MH_GIVEN_BACK ? 0 : 1; }\n' >"$work/alone.c"
sed 's/{0}/{}/' "$work/alone.c" >"$work/alone.cpp"
compile() {
    command -v "$1" >/dev/null || { echo "no $1 here"; return; }
    for checked in "" -DMH_CHECKED -DMH_TRACED; do
        "$1" -std="$2" -Wall -Wextra -pedantic -Wconversion -Werror $checked -I "$top/c/include" -c "$work/alone.$3" -o "$work/alone.o" || fail "the header isn't $2 for $1 $checked"
    done
}
for compiler in gcc clang; do for standard in c99 c11 gnu17; do compile $compiler $standard c; done; done
for compiler in g++ clang++; do for standard in c++11 c++17; do compile $compiler $standard cpp; done; done
printf '#include "managed_heap.hpp"\nint main() { mh::world w; mh::mutator m; return w.take(m) == mh::status::empty ? 0 : 1; }\n' >"$work/alone.cpp"
for compiler in g++ clang++; do for standard in c++17 c++20; do compile $compiler $standard cpp; done; done

sh "$top/c/install.sh" "$work/prefix" || fail "it isn't installed"
export PKG_CONFIG_PATH="$work/prefix/lib/pkgconfig"
if command -v pkg-config >/dev/null; then flags=$(pkg-config --cflags --libs managed_heap); else flags="-I$work/prefix/include -L$work/prefix/lib -lmanaged_heap -lpthread"; fi
{
    printf '#include "managed_heap.h"\n#include <stdio.h>\nint main(void) {\n'
    sed -n '/^## A first program/,/^## Calls/s/^    //p' "$top/docs/EMBEDDING_C.md"
    printf 'printf("%%u\\n", (unsigned)value);\nreturn 0;\n}\n'
} >"$work/first.c"
cc -std=c99 -o "$work/first" "$work/first.c" $flags && [ "$("$work/first")" = 7 ] || fail "the first program of docs/EMBEDDING_C.md"
sed -n '/^### Weak references/,/^## From C++/s/^    //p' "$top/docs/EMBEDDING_C.md" >"$work/weak.c"
cc -std=c99 -o "$work/weak" "$work/weak.c" $flags && [ "$("$work/weak")" = "object 0 is dead
object 1 is alive" ] || fail "the program of docs/EMBEDDING_C.md with weak references"
cc -std=c99 -o "$work/edges" -D_GNU_SOURCE -I "$top/examples/c" "$top/examples/c/edges.c" $flags && "$work/edges" || fail "the program at the edges"

{
    printf '#include "managed_heap.hpp"\n#include <stdio.h>\nint main() {\nmh_sizes sizes = {64, 1, 1, 0, 0, 0, 0};\n'
    sed -n '/^## From C++/,/^## Tracers/s/^    //p' "$top/docs/EMBEDDING_C.md" | grep -v '^#include'
    printf 'uint32_t value = 0;\nmh::must(list.value(value));\nprintf("%%u\\n", (unsigned)value);\nreturn 0;\n}\n'
} >"$work/from.cpp"
c++ -std=c++17 -o "$work/from" "$work/from.cpp" $flags && [ "$("$work/from")" = 9 ] || fail "the program of docs/EMBEDDING_C.md in C++"
PREFIX="$work/prefix" sh "$top/examples/cpp/run.sh" --quick || fail "the programs in C++"

# Worlds that files of a program open without names have names apart.
cat >"$work/one.c" <<'END'
#include "managed_heap.h"
int refused(mh_mutator *m);
int main(void) {
    mh_sizes sizes = {.cells = 64, .fields = 1, .mutators = 1};
    mh_world world = {0};
    mh_mutator m = {0};
    if (mh_open(&sizes, &world) || mh_take_mutator(&world, &m) || refused(&m)) return 1;
    return mh_give_back(&world, &m) || mh_close(&world);
}
END
cat >"$work/two.cpp" <<'END'
#include "managed_heap.h"
extern "C" int refused(mh_mutator *m) {
    mh_sizes sizes = {};
    sizes.cells = 64, sizes.fields = 1, sizes.mutators = 1;
    mh_world world = {};
    mh_mutator own = {};
    if (mh_open(&sizes, &world) || mh_take_mutator(&world, &own)) return 1;
    int is_refused = mh_give_back(&world, m) == MH_REFUSED;
    return mh_give_back(&world, &own) || mh_close(&world) || !is_refused;
}
END
cc -c "$work/one.c" -I "$work/prefix/include" -o "$work/one.o" && c++ -o "$work/two" "$work/one.o" "$work/two.cpp" $flags && "$work/two" || fail "two worlds without names"

if command -v cargo >/dev/null; then
    MANAGED_HEAP_LIB="$work/prefix/lib" CARGO_TARGET_DIR="$work/target" cargo test --offline --quiet --manifest-path "$top/rust/managed_heap/Cargo.toml" >"$work/said" 2>&1 || { cat "$work/said"; fail "the tests of the crate"; }
else
    echo "no cargo here"
fi

[ $bad = 0 ] && echo "all right: the header, what is installed, and the crate over it"
exit $bad
