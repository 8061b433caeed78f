#!/bin/sh
# Compares the documents with the repository, and pages with each other: each file in docs/check/ is a check, whose head says what it compares.
# The programs of docs/EMBEDDING.md are run by tests/embedding.sh.
# From the top of the repository: sh docs/check.sh [CHECK..], all checks if none is named. It prints all that differs, and ends with status 1 if
# something does; if all agrees it says so on standard error, and ends with 0.
set -eu
export LC_ALL=C
cd "$(dirname "$0")/.."
folder=${TMPDIR:-/tmp}/docs.$$
mkdir "$folder"
trap 'rm -rf "$folder"' EXIT

# What a check prints differs, and one that ends with another status than 0 is itself wrong.
run() {
    mkdir "$folder/$1"
    case $2 in *.py) set -- "$1" "$2" python3 ;; *) set -- "$1" "$2" sh ;; esac
    "$3" "$2" "$folder/$1" >"$folder/$1.found" 2>&1 || echo "$2: status $?" >>"$folder/$1.found"
}

# The checks run beside each other.
for check in docs/check/*; do
    name=$(basename "${check%.*}")
    case " ${*:-$name} " in *" $name "*) run "$name" "$check" & ;; esac
done
wait
! cat "$folder"/*.found | grep . || exit 1
echo "docs/check.sh: all agrees" >&2
