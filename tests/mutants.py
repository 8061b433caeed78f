#!/usr/bin/env python3
"""Changes inputs at random, so that most have a fault, and compares what every command that reads writes with the judges beside this file.

From the top of the repository: `python3 tests/mutants.py COUNT [PROGRAM [FIRST]]`. Changes are drawn from numbers, FIRST and so on. Of
each number there are a script for `run`, `convert` and `dump`, in which words and lines are lost, doubled, swapped, and put in from a list
that has each greatest number and the number after it, and a dump, a batch and a schedule of `inputs.py`.
"""

import collections
import os
import random
import subprocess
import sys

import batches
import dumps
import inputs
import language
import schedules
from cases import CHURN, FIRST, FULL, SEASONS, TWO, expected
from disturbed import BOUND, PROGRAM, each
from verdict import Case

BASES = (FIRST, TWO, SEASONS, CHURN, FULL, b"gcscript 2\nfields 16\nwarehouse\nnew a 1\n", b"gcscript 1\n")
NUMBERS = (
    b"0 1 3 4 15 16 17 63 64 00000000000000000000000000000000000000001 32767 65536 65537 666666 666667 1000000 1000001 2000000 2000001 "
    b"4294967295 4294967296 18446744073709551616 99999999999999999999999999999999999 -1 +1 1x 0x1"
).split()
WORDS = (
    b"a x item abcdefghijklmnop abcdefghijklmnopq A _a a_ a-b 9a "
    b"12345678901234567890123456789012 123456789012345678901234567890123 new let nil set get cat put say sum repeat end collect "
    b"season catalogue warehouse fields gcscript #"
).split()
LINES = (
    b"catalogue", b"warehouse", b"season", b"end", b"repeat 2", b"repeat 0", b"fields 4", b"collect", b"", b"   ", b"# x", b"new a 1",
    b"nil b", b"let a b", b"get a a 0", b"cat a item", b"say a a", b"sum a a 0 65536", b"repeat 2000000", b"repeat 65536", b"gcscript 1",
    b"put a 4294967295", b"set a 3 a", b" new  a   1 ", b"warehouse x", b"\nend", b"x" * 200,
)


def change_words(draw, line):
    words = line.split(b" ")
    place = draw.randrange(len(words))
    numbers = [i for i, word in enumerate(words) if word.isdigit()]
    kind = draw.randrange(4)
    if numbers and draw.random() < 0.4:
        words[draw.choice(numbers)] = draw.choice(NUMBERS)
    elif kind == 0:
        words[place] = draw.choice(WORDS)
    elif kind == 1:
        words.insert(place, draw.choice(WORDS))
    elif kind == 2:
        del words[place]
    else:
        other = draw.randrange(len(words))
        words[place], words[other] = words[other], words[place]
    return b" ".join(words)


def change_lines(draw, lines):
    place = draw.randrange(len(lines))
    kind = draw.randrange(6)
    if kind == 0:
        lines.insert(place, draw.choice(LINES))
    elif kind == 1:
        del lines[place]
    elif kind == 2:
        lines[place:place] = [lines[place]] * draw.choice((1, 2, 31, 32, 33, 62, 63, 64))
    elif kind == 3:
        lines[place:place] = [b"new n%d 0" % i for i in range(draw.choice((29, 30, 31, 32, 33)))]
    else:
        lines[place] = change_words(draw, lines[place])
    return lines or [b""]


def change_bytes(draw, source):
    place = draw.randrange(len(source) + 1)
    return source[:place] + bytes([draw.choice((0, 9, 10, 13, 32, 35, 126, 127, 128, 255, draw.randrange(256)))]) + source[place + draw.randrange(2):]


def mutant(number):
    """The changed script of this number."""
    draw = random.Random(number)
    lines = draw.choice(BASES).split(b"\n")
    for _ in range(draw.choice((1, 1, 1, 2, 3, 6))):
        lines = change_lines(draw, lines)
    source = b"\n".join(lines)
    return change_bytes(draw, source) if draw.random() < 0.15 else source


def answer(program, words, source):
    done = subprocess.run([program] + words, input=source, stdout=subprocess.PIPE, timeout=BOUND)
    return done.returncode, done.stdout


def sort_of(status, text):
    """How an answer is counted: by its fault, or by its status."""
    return b" ".join(text.split()[:2]).decode() if status == 2 else f"status {status}"


def why_not_played(source, cells, status, text):
    """What is wrong with an answer to `run` on one worker."""
    try:
        return Case(source).why_wrong(status, text.decode(), cells, 1, False)
    except language.Fault as fault:
        return None if (status, text) == (2, f"{fault}\n".encode()) else f"{text!r} and not {fault}"


def try_run(program, number):
    source, cells = mutant(number), random.Random(number).choice((64, 128, 4096))
    status, text = answer(program, ["run", "--cells", str(cells), "--workers", "1"], source)
    return sort_of(status, text), why_not_played(source, cells, status, text)


def try_dump(program, number):
    """A dump is that of the plain play; if there is none, the answer is that of `run`."""
    source, cells = mutant(number), random.Random(number).choice((64, 128, 4096))
    status, text = answer(program, ["dump", "--cells", str(cells), "--workers", "1"], source)
    if status != 0:
        return sort_of(status, text), why_not_played(source, cells, status, text)
    case = Case(source)
    is_right = text == dumps.of(case.play) and case.full_in_order(cells) is None
    return sort_of(status, text), None if is_right else "another dump"


def try_told(command, make):
    """What `expected` says of a made input is compared with what the command writes."""
    def work(program, number):
        source = make(number)
        found, wanted = answer(program, [command], source), expected(command, source)
        return sort_of(*found), None if found == wanted else f"{found} and not {wanted}"

    return work


def try_batch(program, number):
    """Each job of a batch is judged as a play of its own."""
    draw, source = random.Random(number), inputs.batch(number)
    cells = draw.choice((64, 4096))
    words = ["batch", "--cells", str(cells), "--workers", "1", "--runners", str(draw.randint(1, 8))]
    status, text = answer(program, words, source)
    try:
        scripts = batches.read(source)
    except language.Fault as fault:
        return sort_of(status, text), None if (status, text) == (2, f"{fault}\n".encode()) else f"{text!r} and not {fault}"
    jobs = batches.jobs(text)
    if status != 0 or jobs is None or len(jobs) != len(scripts):
        return sort_of(status, text), f"status {status}, {text!r}"
    whys = [why_not_played(script, cells, *job) for script, job in zip(scripts, jobs)]
    return sort_of(status, text), next((f"job {job}: {why}" for job, why in enumerate(whys) if why), None)


def try_schedule(program, number):
    """Where an event is refused, what stands before it is accepted."""
    source = inputs.schedule(number)
    status, text = answer(program, ["schedule"], source)
    why, line = schedules.why_wrong(source, status, text.decode())
    if why is None and line is not None:
        before = schedules.front(source, line)
        status_before, text_before = answer(program, ["schedule"], before)
        why, _ = schedules.why_wrong(before, status_before, text_before.decode())
        why = why or (None if status_before == 0 else f"refused at line {line}, and before it status {status_before}")
    return sort_of(status, text), why


WAYS = {
    "run": try_run,
    "convert": try_told("convert", mutant),
    "dump": try_dump,
    "undump": try_told("undump", inputs.dump),
    "census": try_told("census", inputs.dump),
    "batch": try_batch,
    "schedule": try_schedule,
}


def try_number(program, number):
    """For each command the sort of its answer and what was wrong with it."""
    return [(command, number) + way(program, number) for command, way in WAYS.items()]


def main():
    count = int(sys.argv[1])
    program = os.path.abspath(sys.argv[2] if len(sys.argv) > 2 else PROGRAM)
    first = int(sys.argv[3]) if len(sys.argv) > 3 else 0
    sorts, wrongs = collections.Counter(), 0
    for told in each(lambda number: try_number(program, number), range(first, first + count)):
        for command, number, sort, why in told:
            sorts[f"{command}: {sort}"] += 1
            wrongs += why is not None
            if why:
                print(f"WRONG {command} {number}: {why}", flush=True)
    for sort, times in sorted(sorts.items()):
        print(f"{sort}: {times}")
    print(f"{count} inputs of each sort, {sum(sorts.values())} runs, {wrongs} wrong")
    sys.exit(1 if wrongs else 0)


if __name__ == "__main__":
    main()
