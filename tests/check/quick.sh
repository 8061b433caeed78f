# The parts of ./check --quick, which proves nothing: all of it runs over unproved builds, in a clean copy. The crates' tests run beside the other parts.
# Those of test_sharing take many minutes unproved, so the whole check alone has them.
with_tests=$(grep -rl '^ *#\[test\]' crates/*/src | cut -d/ -f2 | sort -u | grep -vx test_sharing)

begin_tests() {
    mkdir "$work/tests"
    printf '%s\n' $with_tests | xargs -P 2 -I NAME sh -c 'cd crates/NAME && rt try --test --seconds 300 >"$1/NAME" 2>&1; echo $? >"$1/NAME.status"' sh "$work/tests" &
    tests=$!
}

# Whether the tests of a crate passed, and what was said of them.
tested() {
    while [ ! -f "$work/tests/$1.status" ] && kill -0 $tests; do sleep 1; done
    cat "$work/tests/$1"
    return "$(cat "$work/tests/$1.status")"
}

# The unproved program and library, which are compiled if these sources weren't yet.
compile() {
    program=$(WITH_TESTS=1 sh bench/unproved.sh gcplay --kept) && LIBRARY=$(sh c/unproved.sh --kept)
}

[ -n "$is_listed" ] || begin_tests
part "docs/check.sh" documents
part "tests/shown.py" python3 tests/shown.py
part "a clean copy" clean_copy
part "an unproved program and library" compile
export LIBRARY
part "./play" sh tests/examples.sh "$work/clone"
part "./schedules" "$work/clone/schedules"
needs chromium "tests/page.py" python3 tests/page.py
part "tests/plays.py" env SCRIPTS=1 python3 tests/plays.py 1 "$program"
part "tests/mutants.py" python3 tests/mutants.py 100 "$program"
part "tests/words.py" python3 tests/words.py 30 "$program"
part "tests/ends.py" env EVERY=8 python3 tests/ends.py "$program"
needs cc "c/check.sh" sh c/check.sh
needs cc "examples/c/run.sh" sh examples/c/run.sh --quick
needs cc "examples/scheme/run.sh" sh examples/scheme/run.sh --quick
for each in $with_tests; do part "tests of $each, by rt try" tested "$each"; done
[ -n "$is_listed" ] || echo "nothing was proved: ./check does that"
