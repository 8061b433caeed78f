#!/usr/bin/env python3
"""Runs `bench_heaps trees` at every depth, with several workers and tracers, in heaps that are too small, and with wrong words.

From the top of the repository: `python3 tests/trees.py [PROGRAM]`, by default the program that `rt run` builds in `crates/bench_heaps`. What is written
has to be what the formula says: a tree of depth d has 2 ^ (d + 1) - 1 nodes, and of depth d there are 2 ^ (n - d + 4) trees where the kept one has depth n.
The status of the script is 0 if nothing was wrong.
"""

import itertools
import os
import subprocess
import sys

BOUND = float(os.environ.get("BOUND", "120"))
EVERY = int(os.environ.get("EVERY", "1"))
USAGE = b"usage: bench_heaps trees [--depth n] [--cells n] [--workers k] [--tracers t]\n"


def nodes(depth):
    return 2 ** (depth + 1) - 1


def counts(depth):
    lines = [f"stretch tree of depth {depth + 1}\t check: {nodes(depth + 1)}"]
    for short in range(4, depth + 1, 2):
        trees = 2 ** (depth - short + 4)
        lines.append(f"{trees}\t trees of depth {short}\t check: {trees * nodes(short)}")
    lines.append(f"long lived tree of depth {depth}\t check: {nodes(depth)}")
    return "".join(line + "\n" for line in lines).encode()


def words(**options):
    return [word for name, value in options.items() for word in (f"--{name}", str(value))]


def full_of(section):
    return f"full section {section}\n".encode()


def rows():
    """The words, the status, and the texts that may be written."""
    for depth, workers, tracers in itertools.product(range(4, 13), (1, 2, 4), (0, 1, 2)):
        yield words(depth=depth, cells=65_536, workers=workers, tracers=tracers), 0, [counts(depth)]
    for workers, tracers in itertools.product((1, 2, 4, 32), (0, 1, 2, 8)):
        # A tree of depth 9, which stretches the heap, and then a kept one of depth 8 and a tree of a worker each.
        yield words(depth=8, cells=65_536 if workers == 32 else 4_096, workers=workers, tracers=tracers), 0, [counts(8)]
    for workers, tracers in itertools.product((1, 2, 4), (0, 1, 2)):
        # The first worker makes the tree that stretches the heap, of 127 nodes.
        yield words(depth=5, cells=64, workers=workers, tracers=tracers), 3, [full_of(1)]
        # The trees of 2,047 and 1,023 nodes have room, and those of all workers beside the second have not.
        yield words(depth=10, cells=1_024, workers=workers, tracers=tracers), 3, [full_of(1)]
    for wrong in (["--depth", "3"], ["--depth", "14"], ["--cells", "63"], ["--cells", "100"], ["--cells", "65600"], ["--workers", "0"], ["--workers", "33"],
                  ["--tracers", "9"], ["--tracers", "+1"], ["--depth"], ["--"], ["6"], ["--depth", "6", "--depth", "6"], ["--deep", "6"]):
        yield wrong, 1, [USAGE]


def main():
    program = sys.argv[1] if len(sys.argv) > 1 else "crates/bench_heaps/out/bench_heaps"
    wrong, done = 0, 0
    for given, status, texts in itertools.islice(rows(), 0, None, EVERY):
        try:
            ended = subprocess.run([program, "trees", *given], stdin=subprocess.DEVNULL, stdout=subprocess.PIPE, timeout=BOUND)
            found = ended.returncode, ended.stdout
        except subprocess.TimeoutExpired:
            found = "no answer", b""
        done += 1
        if found[0] != status or found[1] not in texts:
            wrong += 1
            print(f"WRONG {' '.join(given)}: {found}", flush=True)
    print(f"{done} runs, {wrong} wrong")
    sys.exit(1 if wrong else 0)


if __name__ == "__main__":
    main()
