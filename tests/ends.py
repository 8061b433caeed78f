"""Dumps of the examples and of scripts that the program makes, and their listing and census, beside plain heaps: python3 tests/ends.py [PROGRAM].

A script is read by `language.py` and played by `plain.py`, which never frees; what it leaves is the dump that the program has to write, with
any number of workers and tracers. Of that dump `dumps.py` tells the listing and the census. The status is 0 where nothing was wrong.
"""

import glob
import itertools
import os
import subprocess
import sys

import dumps
import language
import plain

TOP = os.path.join(os.path.dirname(os.path.abspath(__file__)), "..")
BOUND = int(os.environ.get("BOUND", "120"))
EVERY = int(os.environ.get("EVERY", "1"))
THREADS = ((1, 0), (4, 2))
NUMBERS, SIZES = range(1, 41), (1, 7, 64, 500)


def answer(program, words, source):
    done = subprocess.run([program, *words], input=source, stdout=subprocess.PIPE, timeout=BOUND)
    return done.returncode, done.stdout


def scripts(program):
    """Each script with its name: the examples, and those that `load` would play."""
    for path in sorted(glob.glob(os.path.join(TOP, "examples", "*.gc"))):
        with open(path, "rb") as source:
            yield os.path.basename(path), source.read()
    for number in NUMBERS:
        for size in SIZES:
            words = ["gen", "--number", str(number), "--size", str(size)]
            yield " ".join(words), answer(program, words, b"")[1]


def wrong(program, source):
    """What is written of the script's end, other than its plain heaps say; how many runs were made stands first."""
    end = dumps.of(plain.Play(language.read(source)))
    runs = [["dump", "--workers", str(workers), "--tracers", str(tracers)] for workers, tracers in THREADS]
    found = [words for words in runs if answer(program, words, source) != (0, end)]
    found += [[command] for command in ("undump", "census") if answer(program, [command], end) != (0, dumps.told(command, end))]
    return len(runs) + 2, found


def main():
    program = sys.argv[1] if len(sys.argv) > 1 else os.path.join(TOP, "crates", "gcplay", "out", "gcplay")
    played, made, failed = 0, 0, 0
    for name, source in itertools.islice(scripts(program), 0, None, EVERY):
        runs, found = wrong(program, source)
        played, made, failed = played + 1, made + runs, failed + len(found)
        for words in found:
            print(f"WRONG {name}: {' '.join(words)}")
    print(f"{played} scripts, {made} runs, {failed} wrong")
    sys.exit(1 if failed or not played else 0)


if __name__ == "__main__":
    main()
