# Each commit that a page names is one of the repository's, if its history is there.
set -eu

[ "$(git rev-parse --is-shallow-repository 2>/dev/null)" = false ] || exit 0
grep -owE '[0-9a-f]{7}' README.md docs/*.md bench/README.md bench/results/*.md | grep -E ':.*[a-f]' | sort -u | while IFS=: read -r page commit; do
    git cat-file -e "$commit^{commit}" 2>/dev/null || echo "$page: no commit $commit"
done
