# The parts of ./check. The gate says of each crate that it passed.
gcplay=crates/gcplay/out/gcplay trees=crates/bench_heaps/out/bench_heaps library=crates/managed_heap_c/out/libmanaged_heap_c.a
states=crates/schedule_states/out/schedule_states

part "docs/check.sh" documents
part "tests/shown.py" python3 tests/shown.py
part "a clean copy" clean_copy
part "./play of the clean copy" sh tests/examples.sh "$work/clone"

if begin "rt ci"; then
    { gate 2>&1; echo $? >"$work/ended"; } | python3 tests/check/gate.py "$work/gate"
    found=$(cat "$work/ended")
    counts=$(tail -n 1 "$work/gate" | sed -n 's/^\([0-9]*\) passed, \([0-9]*\) failed.*/\1 \2/p')
    count "rt ci" $found ${counts:-0 1}
    [ $found -eq 0 ] || tail -n 40 "$work/gate" | sed 's/^/    | /'
fi

needs "$gcplay" "./play" sh tests/examples.sh
needs "$gcplay" "./schedules" ./schedules
needs "$states chromium" "tests/page.py" python3 tests/page.py
needs "$gcplay" "tests/plays.py" env SCRIPTS=1 python3 tests/plays.py 1
needs "$gcplay" "tests/mutants.py" python3 tests/mutants.py 100
needs "$gcplay" "tests/words.py" python3 tests/words.py 30
needs "$gcplay" "tests/ends.py" env EVERY=8 python3 tests/ends.py
needs "$gcplay cc" "tests/memory.py" env EVERY=3 python3 tests/memory.py
needs "$gcplay cc" "tests/streams.py" env EVERY=5 python3 tests/streams.py
needs "$trees" "tests/trees.py" env EVERY=8 python3 tests/trees.py
part "tests/must_not_compile.sh" tests/must_not_compile.sh job_pool
part "tests/wrong_bodies.py" python3 tests/wrong_bodies.py load_gen
part "tests/embedding.sh" sh tests/embedding.sh
part "tests/library.sh" sh tests/library.sh
needs "$library cc" "examples/c/run.sh" sh examples/c/run.sh
needs "$library cc" "examples/cpp/run.sh" sh examples/cpp/run.sh
needs "$library cc" "examples/scheme/run.sh" sh examples/scheme/run.sh
