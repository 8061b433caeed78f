#!/bin/sh
# Builds the C++ programs with each compiler that is there and runs them, and then under the sanitizers that the compiler has. Ends with status 1 if an answer was
# wrong.
#
#     sh examples/cpp/run.sh
#     sh examples/cpp/run.sh --quick     not under the sanitizers
#
# The library is the one that c/install.sh installs: it is proved and built if it isn't there. LIBRARY names another archive, KIT the folder of the kit. PREFIX
# names a folder where it is installed already.
here=$(cd "$(dirname "$0")" && pwd)
top=$(cd "$here/../.." && pwd)
work=$(mktemp -d)
trap 'rm -rf "$work"' EXIT
bad=0
prefix=${PREFIX:-$work/prefix}
[ -n "${PREFIX:-}" ] || sh "$top/c/install.sh" "$prefix" || exit 1

fail() {
    echo "WRONG: $*"
    bad=1
}

# try COMPILER NAME FLAGS..: builds a program and runs it.
try() {
    compiler=$1 name=$2
    shift 2
    rm -f "$work/program"
    "$compiler" -std=c++17 -O2 -Wall -Wextra -pedantic -Wconversion -Wshadow -Werror -DMH_TRACED "$@" -I "$prefix/include" -o "$work/program" "$here/$name.cpp" "$prefix/lib/libmanaged_heap.a" -lpthread || { fail "$name is not built by $compiler $*"; return; }
    timeout "${BOUND:-300}" "$work/program" || fail "$name ended with status $? ($compiler $*)"
}

for compiler in g++ clang++; do
    command -v $compiler >/dev/null || { echo "== no $compiler here"; continue; }
    echo "== by $compiler"
    try $compiler structures
    for checked in "" -DMH_CHECKED; do
        try $compiler symbols -fno-exceptions $checked
        try $compiler wrong_use -fno-exceptions $checked
    done
done

case ${1:-} in --quick) kinds="" ;; *) kinds="address,undefined thread" ;; esac
for kind in $kinds; do
    if echo 'int main() {}' | c++ -fsanitize=$kind -o "$work/there" -x c++ - 2>/dev/null && "$work/there"; then
        echo "== under -fsanitize=$kind"
        for name in structures symbols wrong_use; do try c++ $name -g -fsanitize=$kind -fno-sanitize-recover=all; done
    else
        echo "== no -fsanitize=$kind here"
    fi
done

[ $bad = 0 ] && echo "all answers right"
exit $bad
