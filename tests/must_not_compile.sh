#!/usr/bin/env bash
# Tries the edits crates/*/must-not-compile/*.edit, or those of the crate that is named, each on a copy: they must not compile.
# The compiler has to refuse each by its rules of ownership: what is borrowed, moved, private, or of another seal (a type).
# An edit has the form of those in must-fail. `rt must-fail` cannot try these, since it wants the edited text to compile.
set -eu
top=$(cd "$(dirname "$0")/.." && pwd)
copy=$(mktemp -d)
trap 'rm -rf "$copy"' EXIT

# The crates of this repository that a crate stands on, at any depth, and itself.
below() {
    python3 - "$top/crates.txt" "$1" <<'END'
import sys
stands_on = {}
for line in open(sys.argv[1]):
    name, mark, names = line.split("#")[0].partition(":")
    if mark:
        stands_on[name.split()[0]] = names.split()
found, left = set(), [sys.argv[2]]
while left:
    name = left.pop()
    if name in stands_on and name not in found:
        found.add(name)
        left += stands_on[name]
print("\n".join(name for name in stands_on if name in found))
END
}

# Compiles the crate in this folder, with its tests if it has some.
compile() {
    if grep -rq '#\[test\]' src; then rt try --test; else rt check --only ""; fi 2>&1
}

# Copies a crate with those that it stands on, without proofs' work.
copy_crates() {
    rm -rf "${copy:?}"/*
    cp "$top/HANDLES" "$copy"
    mkdir "$copy/crates"
    below "$1" | while read -r name; do
        grep "^$name:" "$top/crates.txt" >> "$copy/crates.txt"
        mkdir "$copy/crates/$name"
        for part in src specs proofs; do
            if [ -d "$top/crates/$name/$part" ]; then cp -r "$top/crates/$name/$part" "$copy/crates/$name"; fi
        done
    done
}

failed=0
for edit in "$top"/crates/${1:-*}/must-not-compile/*.edit; do
    crate=$(basename "$(dirname "$(dirname "$edit")")")
    cd "$top"
    copy_crates "$crate"
    cd "$copy/crates/$crate"
    python3 - "$edit" <<'END'
import sys
lines = open(sys.argv[1]).read().splitlines()
file, old, new = (line.split(": ", 1)[1] for line in lines)
text = open(file).read()
assert text.count(old) == 1, "the old text stands there once"
open(file, "w").write(text.replace(old, new))
END
    if compile | grep -E 'error\[(borrow-e0597|borrow-e0382|private-field|mismatched-types)\]'; then
        echo "$crate, $(basename "$edit"): refused, as it must be"
    else
        echo "$crate, $(basename "$edit"): NOT REFUSED"
        failed=1
    fi
done
exit $failed
