#!/usr/bin/env python3
"""Draws command lines, right ones and wrong ones, and compares what the program writes with what the words ask for.

From the top of the repository: `python3 tests/words.py COUNT [PROGRAM [FIRST]]`. What words ask for is worked out here by the rules of
docs/SCRIPTS.md and docs/FORMATS.md alone, and so is the script that `gen` makes. The source is one that fits the first word.
"""

import collections
import os
import random
import re
import subprocess
import sys

import batches
import dumps
import language
from cases import FIRST, USAGE, example, expected
from disturbed import BOUND, PROGRAM, each
from plain import Play

HEAP = {"cells": (64, 65536), "workers": (1, 32), "tracers": (0, 8), "packets": (2, 1024), "entries": (2, 512)}
MADE = {"number": (0, 4294967295), "size": (1, 20000)}
RUNNERS = {"runners": (1, 8)}
OPTIONS = {"run": HEAP, "gen": MADE, "load": HEAP | MADE, "convert": {}, "schedule": {}, "dump": HEAP, "undump": {}, "census": {}, "batch": HEAP | RUNNERS}
FLAGS = {"run": ("place",)}
FIRST_DUMP = dumps.of(Play(language.read(FIRST)))
SOURCES = {"schedule": example("published", "gs"), "undump": FIRST_DUMP, "census": FIRST_DUMP, "batch": batches.of([FIRST, FIRST])}
TOLD = {"schedule": (0, example("published", "out"))} | {name: expected(name, SOURCES.get(name, FIRST)) for name in ("convert", "dump", "undump", "census", "batch")}


def value_of(name, text, least, most):
    """The number of an option, or None if its value is refused."""
    if not re.fullmatch(rb"[0-9]+", text) or not least <= int(text) <= most:
        return None
    return None if name == "cells" and int(text) % 64 else int(text)


def asked(words):
    """The command and its options, or None if the words ask for nothing."""
    command = words[0].decode(errors="replace") if words else ""
    if command not in OPTIONS:
        return None
    found, rest = {}, list(words[1:])
    while rest:
        word = rest.pop(0)
        name, equals, text = word[2:].partition(b"=")
        name = name.decode(errors="replace")
        if not word.startswith(b"--") or name in found:
            return None
        if name in FLAGS.get(command, ()) and not equals:
            found[name] = True
        elif name in OPTIONS[command] and (equals or rest):
            found[name] = value_of(name, text if equals else rest.pop(0), *OPTIONS[command][name])
            if found[name] is None:
                return None
        else:
            return None
    return (command, found) if command not in ("gen", "load") or {"number", "size"} <= set(found) else None


def made(number, size):
    """The script of `gen`: four warehouses, each with so many lines, of which most are drawn."""
    state, lines = number, ["gcscript 1"]
    letters = "abcdefgh"

    def draw():
        nonlocal state
        state = (state * 6364136223846793005 + 1442695040888963407) % 2**64
        return state >> 33

    for _ in range(4):
        lines.append("warehouse")
        for line in range(size):
            if line % 64 < 8:
                lines.append(f"nil {letters[line % 64]}")
                continue
            drawn = draw()
            if line % 64 == 63:
                lines.append(f"say s {letters[drawn % 8]}")
                continue
            give, read, field, value = letters[drawn // 8 % 8], letters[drawn // 64 % 8], drawn // 512 % 4, drawn // 2048 % 1000
            forms = [f"new {give} {value}"] * 3 + [f"let {give} {read}"] + [f"set {give} {field} {read}"] * 3 + [f"get {give} {read} {field}"]
            lines.append(forms[drawn % 8])
    return "\n".join(lines).encode() + b"\n"


def loaded(number, size):
    """The five lines of `load`."""
    play = Play(language.read(made(number, size)))
    left = play.reachable()
    lines = sum(len(player.lines) for player in play.players)
    return f"commands {play.clock}\nobjects {len(play.news)}\nlines {lines}\nsurvivors {len(left)}\ntotal {sum(t.value for t in left)}\n".encode()


def source_of(words):
    return SOURCES.get(words[0].decode(errors="replace") if words else "", FIRST)


def is_right(words, status, text):
    """Whether this is the answer to the words, with the source that fits them."""
    wanted = asked(words)
    if wanted is None:
        return (status, text) == (1, USAGE)
    command, options = wanted
    if command in TOLD:
        return (status, text) == TOLD[command]
    if command == "gen":
        return (status, text) == (0, made(options["number"], options["size"]))
    if command == "load":
        short = options.get("cells", 4096) < 256
        return (status, text) == (0, loaded(options["number"], options["size"])) or short and status == 3
    front = Play(language.read(FIRST)).text().encode()
    if "place" not in options:
        return (status, text) == (0, front)
    found = re.fullmatch(re.escape(front) + rb"placed 1\n1 0 ([0-9]+)\n", text)
    return status == 0 and found is not None and int(found[1]) < options.get("cells", 4096)


def drawn_value(draw, name):
    """A value, in its range or close to it, or no number."""
    least, most = (HEAP | MADE | RUNNERS).get(name, (0, 9))
    right = [least, most, draw.randint(least, min(most, least + 500))]
    wrong = [least - 1, most + 1, 2**32, 2**64, 10**30, "", "x", "+1", "0x40", "1 ", "64.0", "--place", "\u0661", "\xff"]
    if name == "cells":
        right = [64 * draw.randint(1, 1024), 64, 65536]
        wrong += [65, 63, 0, 65537]
    if name == "size":
        right[1] = 600
    value = str(draw.choice(right if draw.random() < 0.9 else wrong))
    return ("0" * draw.choice((0, 0, 0, 1, 40)) + value).encode()


def drawn_words(number):
    """The words of this number."""
    draw = random.Random(number)
    command = draw.choice(("run", "run", "batch", "dump") + tuple(OPTIONS))
    names = [name for name in OPTIONS[command] if name in ("number", "size") or draw.random() < 0.4]
    draw.shuffle(names)
    words = [command.encode()]
    for name in names:
        value = drawn_value(draw, name)
        words += [b"--%s=%s" % (name.encode(), value)] if draw.random() < 0.5 else [b"--" + name.encode(), value]
    if draw.random() < (0.3 if command == "run" else 0.02):
        words.insert(draw.randint(1, len(words)), b"--place")
    if draw.random() < 0.3:
        place = draw.randint(0, len(words))
        words[place : place + draw.randint(0, 1)] = [draw.choice(ODD)] if draw.random() < 0.8 else []
    return words


ODD = (b"--", b"-", b"", b"--help", b"--version", b"-h", b"help", b"run", b"gen", b"--cells=64", b"--cells", b"--place", b"--place=", b"--place=1")
ODD += (b"--runners", b"--runners=1", b"dump", b"undump", b"census", b"batch", b"schedule", b"--number=1", b"--size", b"7", b"--Cells=64", b"--cell=64", b"--tracers==1", b"-tracers=1", b"\xff", b"--cells=\xc3", b"x" * 70_000)


def try_words(program, number):
    """The sort of the answer, and the words if it was wrong."""
    words = drawn_words(number)
    done = subprocess.run([program.encode()] + words, input=source_of(words), stdout=subprocess.PIPE, timeout=BOUND)
    sort = f"{words[0].decode(errors='replace') if asked(words) else 'refused'}: status {done.returncode}"
    return sort, None if is_right(words, done.returncode, done.stdout) else (number, [word[:100] for word in words], done.returncode)


def main():
    count = int(sys.argv[1])
    program = os.path.abspath(sys.argv[2] if len(sys.argv) > 2 else PROGRAM)
    first = int(sys.argv[3]) if len(sys.argv) > 3 else 0
    sorts, wrongs = collections.Counter(), 0
    for sort, wrong in each(lambda number: try_words(program, number), range(first, first + count)):
        sorts[sort] += 1
        wrongs += wrong is not None
        if wrong:
            print("WRONG", wrong, flush=True)
    for sort, times in sorted(sorts.items()):
        print(f"{sort}: {times}")
    print(f"{count} command lines, {wrongs} wrong")
    sys.exit(1 if wrongs else 0)


if __name__ == "__main__":
    main()
