#!/bin/sh
# Runs each program of docs/EMBEDDING.md as it stands there, over the line of crates.txt that the page gives, by `rt try`, and compares what it writes with the
# indented lines below it. From the top of the repository: sh tests/embedding.sh [STEP..], all steps if none is named. It wants the kit, and some minutes.
# With PROVE=1 each program is proved besides, over what is proved of the crates below.
set -eu
cd "$(dirname "$0")/.."
page=docs/EMBEDDING.md
folder=${FOLDER:-${TMPDIR:-/tmp}/embedding.$$}
mkdir -p "$folder/crates/first_hour/src"
[ -n "${FOLDER:-}" ] || trap 'rm -rf "$folder"' EXIT

# The crates that the program stands on, with their lines.
: >"$folder/crates.txt"
left=$(sed -n 's/^    first_hour: //p' "$page")
while [ -n "$left" ]; do
    name=${left%% *}
    left=${left#"$name"}
    left=${left# }
    [ -d "crates/$name" ] && [ ! -d "$folder/crates/$name" ] || continue
    grep "^$name:" crates.txt >>"$folder/crates.txt"
    left="$left $(sed -n "s/#.*//; s/^$name: *//p" crates.txt)"
    left=${left# }
    mkdir -p "$folder/crates/$name"
    for part in src specs proofs; do
        if [ -d "crates/$name/$part" ]; then cp -R "crates/$name/$part" "$folder/crates/$name/"; fi
    done
done
cp HANDLES "$folder/HANDLES"
sed -n 's/^    \(first_hour: .*\)$/\1/p' "$page" >>"$folder/crates.txt"

# The programs, and what each writes.
awk -v folder="$folder" '
/^```rust$/ { step++; inside = 1; next }
/^```$/ { if (inside) { inside = 0; after = 1 } next }
inside { print >(folder "/" step ".rt"); next }
after && /^    / { print substr($0, 5) >(folder "/" step ".text"); after = 2; next }
after == 2 || (after && NF) { after = 0 }' "$page"

wrong=0
for program in "$folder"/*.rt; do
    step=$(basename "$program" .rt)
    case " ${*:-$step} " in *" $step "*) ;; *) continue ;; esac
    cp "$program" "$folder/crates/first_hour/src/main.rt"
    (cd "$folder/crates/first_hour" && rt try >"$folder/found" 2>"$folder/errors") || true
    # rt tells what it did in lines of its own, after the program.
    head -n "$(wc -l <"$folder/$step.text")" "$folder/found" | cmp -s - "$folder/$step.text" || {
        echo "step $step of $page: it wrote"
        cat "$folder/found"
        tail -5 "$folder/errors"
        wrong=1
    }
    if [ -n "${PROVE:-}" ]; then
        (cd "$folder/crates/first_hour" && rt check >"$folder/proved" 2>&1) || { tail -5 "$folder/proved"; wrong=1; }
    fi
done
[ $wrong = 0 ] && echo "all right: the programs of $page"
exit $wrong
