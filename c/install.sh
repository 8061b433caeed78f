#!/bin/sh
# Installs the headers, the library and what pkg-config reads:
#
#     sh c/install.sh PREFIX
#     cc program.c $(PKG_CONFIG_PATH=PREFIX/lib/pkgconfig pkg-config --cflags --libs managed_heap)
#
# The library is one archive, which needs no other but libpthread. It is the proved one: `rt lib` in crates/managed_heap_c makes it if it isn't there, which
# proves the crates below it too, in an hour or more if none of them is. LIBRARY names another archive, as one of c/unproved.sh. KIT names the kit's folder.
set -eu
[ $# -eq 1 ] || { echo "usage: sh c/install.sh PREFIX" >&2; exit 1; }
top=$(cd "$(dirname "$0")/.." && pwd)
kit=${KIT:-/opt/rattle}
mkdir -p "$1/include" "$1/lib/pkgconfig"
prefix=$(cd "$1" && pwd)
library=${LIBRARY:-$top/crates/managed_heap_c/out/libmanaged_heap_c.a}
if [ ! -f "$library" ]; then
    [ -z "${LIBRARY:-}" ] || { echo "install: there is no $library" >&2; exit 1; }
    (cd "$top/crates/managed_heap_c" && rt lib)
fi

# What takes memory from the C program is in an archive of the kit.
to=$prefix/lib/libmanaged_heap.a
work=$(mktemp -d)
trap 'rm -rf "$work"' EXIT
cp "$library" "$work/one.a"
if ! nm "$work/one.a" 2>/dev/null | grep -q ' T rattle_alloc$'; then
    (cd "$work" && mkdir of_kit && cd of_kit && ar x "$kit/c/liblibc_c.a" && ar rs ../one.a ./*.o 2>/dev/null)
fi
cp "$work/one.a" "$to"
cp "$top/c/include/managed_heap.h" "$top/c/include/managed_heap.hpp" "$prefix/include/"
cat >"$prefix/lib/pkgconfig/managed_heap.pc" <<END
prefix=$prefix
libdir=\${prefix}/lib
includedir=\${prefix}/include

Name: managed_heap
Description: A heap of small objects that threads share and that collects its own garbage
Version: $(sed -n 's/^#define MH_VERSION "\(.*\)"/\1/p' "$top/c/include/managed_heap.h")
Libs: -L\${libdir} -lmanaged_heap -lpthread
Cflags: -I\${includedir}
END
echo "installed: $prefix/include/managed_heap.h and managed_heap.hpp, $to and $prefix/lib/pkgconfig/managed_heap.pc"
