# Pages agree with what they tell: docs/SCHEDULES.md quotes conditions as docs/STEPS.md has them, docs/EMBEDDING.md says what each program writes, pages that
# walk through the definitions of a clause name the files that it needs, and pictures are those of their tables.
set -eu

grep -oE 'part [0-9]+[^:.]*: \*[^*]*\*' docs/SCHEDULES.md | sed 's/.*: \*//; s/\*$//' | sort -u | while read -r part; do
    grep -qF -e "$part" docs/STEPS.md || echo "docs/SCHEDULES.md: not in docs/STEPS.md: $part"
done

awk '
/^```rust$/ { if (open) print "docs/EMBEDDING.md: nothing is told of what the program writes that ends in line " ended; inside = 1; next }
/^```$/ { if (inside) { inside = 0; open = 1; ended = FNR } next }
!inside && /^    / { open = 0 }
END { if (open) print "docs/EMBEDDING.md: nothing is told of what the program writes that ends in line " ended }' docs/EMBEDDING.md

grep -l '^<!-- closure: ' docs/*.md | xargs python3 docs/closure.py || true
python3 bench/figures.py --check || true
python3 tests/shown.py | grep -v ' named, ' | sed 's|^|docs/SHOWN.md: |' || true
