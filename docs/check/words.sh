# Words that the field doesn't use stand nowhere, each with what is used instead; names in backquotes and programs aren't looked at. README.md has 1,200 words
# at most, docs/ 32,000 in all without the borders of tables, and docs/GLOSSARY.md a word a row. $1: a folder to write in.
set -eu

cat >"$1/discarded" <<'WORDS'
(a|an|any|each|its|no|one) front|fronts|front of (a|the|its) (text|bytes|list|log|run|output)@prefix
want of@out of memory, or without
put(s|ting)? (it |them |a cell |cells )?off@deferred
as right as@equivalent to
so of (it|less|more|nothing)@a sentence that names what holds
may trace|knows that the world@tracer, has stopped the world
in front@before, at the start, or leading
None comes@None is answered
by the book@correctly
where memory is there@where there is memory
mend(s|ed|ing)?@remedy
(go|goes|went) round@wrap around
dear@expensive
(go|goes) by@split by, use, or depend on
WORDS
cut -d@ -f1 "$1/discarded" | tr '\n' '|' | sed 's/|$//' >"$1/any"
for text in README.md CONTRIBUTING.md docs/*.md bench/README.md bench/results/*.md tests/README.md tests/bodies/README.md crates/*/README.md; do
    awk '/^ *```/ { inside = !inside } { print inside || /^    [^ -]/ ? "" : $0 }' "$text" | sed 's/`[^`]*`/``/g' >"$1/prose"
    grep -qwiE -e "$(cat "$1/any")" "$1/prose" || continue
    while IFS=@ read -r discarded used; do
        grep -nowiE -e "$discarded" "$1/prose" | sed "s|^|$text:|; s|\$| ($used)|"
    done <"$1/discarded"
done

[ "$(wc -w <README.md)" -le 1200 ] || echo "README.md: more than 1,200 words"
[ "$(cat docs/*.md | sed 's/|/ /g; s/---*/ /g' | LC_ALL=C.UTF-8 wc -w)" -le 32000 ] || echo "docs: more than 32,000 words"
awk -F'|' '/^\|/ && $2 ~ /[,;]/ { print "docs/GLOSSARY.md: more than one word in a row:" $2 }' docs/GLOSSARY.md
