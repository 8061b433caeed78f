#!/usr/bin/env python3
"""Lets reads and writes fail, come in parts, be interrupted and end early, over the runs of `cases.py`, and judges status and text.

From the top of the repository: `python3 tests/streams.py [PROGRAM]`. The status of the script is 0 if each answer was right.
"""

import collections
import itertools
import os
import subprocess
import sys
import threading

import batches
import schedules
from cases import CHURN, EVERY, FIRST, SEASONS, TANGLED, TWO, Run, example, runs
from disturbed import BOUND, Disturbed, each

# How many bytes the program gathers before it hands them on.
GATHERED = 65_536
PARTS = (1, 4, 4096)
READS = (1, 10, 4096)


class Judge:
    """Counts the answers of each sort, and tells the wrong ones."""

    def __init__(self):
        self.counts = collections.Counter()
        self.wrong = 0
        self.lock = threading.Lock()

    def take(self, sort, run, is_right, what):
        with self.lock:
            self.counts[sort] += 1
            self.wrong += not is_right
        if not is_right:
            print(f"WRONG {sort}: {' '.join(run.words)}: {what}", flush=True)


def same(run, answer):
    return answer[:2] == (run.status, run.text)


def in_parts(judge, disturbed, run):
    """Reads and writes that move a few bytes at a time change nothing; nor do 64 interruptions of each."""
    for read, write in itertools.product(READS, PARTS):
        answer = disturbed.answer(run.words, run.source, read_bytes=read, write_bytes=write)
        judge.take("reads and writes in parts", run, same(run, answer), answer)
    answer = disturbed.answer(run.words, run.source, interrupts=64, write_bytes=4)
    judge.take("64 interruptions of each call", run, same(run, answer), answer)
    answer = disturbed.answer(run.words, run.source, interrupts=100_000)
    judge.take("calls interrupted for ever", run, answer[:2] == (4 if run.reads else 5, b""), answer)


def reads_that_fail(judge, disturbed, run):
    """A read that fails gives the status 4 and no text; a command without a source doesn't read."""
    for size in (READS if len(run.source) < 400 else READS[1:]):
        calls = len(run.source) // size + (len(run.source) % size > 0) + 1 if run.reads else 0
        for call in range(1, calls + 2):
            answer = disturbed.answer(run.words, run.source, read_bytes=size, read_fails=call)
            if call <= calls:
                judge.take("a read fails", run, answer == (4, b"", True), (size, call, answer))
            else:
                judge.take("no read is left to fail", run, same(run, answer) and not answer[2], (size, call, answer))


def buffers(run):
    """What the program hands on together: lines of up to 65,536 bytes, and what is left at its end."""
    gathered = b""
    for piece in run.pieces():
        if gathered and len(gathered) + len(piece) > GATHERED:
            yield gathered
            gathered = b""
        gathered += piece
    yield gathered


def writes_that_fail(judge, disturbed, run):
    """A write that fails, or takes nothing, gives the status 5 and a front of the text: what the writes before took."""
    for size in PARTS:
        taken = [buffer[i : i + size] for buffer in buffers(run) for i in range(0, len(buffer), size)]
        for call in range(1, len(taken) + 2):
            answer = disturbed.answer(run.words, run.source, write_bytes=size, write_fails=call, write_zero=call % 2)
            if call <= len(taken):
                front = b"".join(taken[: call - 1])
                judge.take("a write fails or takes nothing", run, answer == (5, front, True), (size, call, answer))
            else:
                judge.take("no write is left to fail", run, same(run, answer) and not answer[2], (size, call, answer))


def rooms(judge, disturbed, run):
    """A sink with room for so many bytes has exactly these, and the status is 5 unless all had room."""
    for room in range(len(run.text) + 1):
        answer = disturbed.answer(run.words, run.source, write_room=room)
        front = run.text[:room]
        status = run.status if room == len(run.text) else 5
        judge.take("a sink with room for so many bytes", run, answer[:2] == (status, front), (room, answer))


def status_of(words, source, sink):
    """The status if the standard streams are these descriptors, which are closed after; None is a stream that is closed before."""
    closed = (" <&-" if source is None else "") + (" >&-" if sink is None else "")
    shell = ["sh", "-c", '"$0" "$@"' + closed]
    try:
        return subprocess.run(shell + words, stdin=source, stdout=sink, timeout=BOUND).returncode
    finally:
        for descriptor in (source, sink):
            if descriptor is not None:
                os.close(descriptor)


def piped(source):
    """A descriptor that gives these bytes."""
    reader, writer = os.pipe()
    os.write(writer, source)
    os.close(writer)
    return reader


def unread():
    """A descriptor to write to whose reader is gone."""
    reader, writer = os.pipe()
    os.close(reader)
    return writer


def files_that_fail(judge, program, run):
    """Standard streams that are full, closed, without a reader, a folder, or only written."""
    words = [program] + run.words
    for name, sink in (("/dev/full", os.open("/dev/full", os.O_WRONLY)), ("a pipe without a reader", unread()), ("a closed sink", None)):
        judge.take(name, run, status_of(words, piped(run.source), sink) == 5, "")
    for name, source in (
        ("a closed source", None),
        ("a folder as source", os.open("/", os.O_RDONLY)),
        ("a source that is only written", os.open(os.devnull, os.O_WRONLY)),
    ):
        status = status_of(words, source, os.open(os.devnull, os.O_WRONLY))
        judge.take(name, run, status == (4 if run.reads else run.status), status)


# What a source without an end comes to if all its bytes are zero; a dump's first bytes are told before its length.
ENDLESS = {
    "run": b"11 TooLong\n",
    "convert": b"11 TooLong\n",
    "dump": b"11 TooLong\n",
    "schedule": b"26 TooLong\n",
    "undump": b"32 BadMagic\n",
    "census": b"32 BadMagic\n",
    "batch": b"44 BatchTooLong\n",
}


def endless(judge, program):
    """A source without an end is too long, whatever its bytes are."""
    for command, text in ENDLESS.items():
        with open("/dev/zero", "rb") as source:
            done = subprocess.run([program, command], stdin=source, stdout=subprocess.PIPE, timeout=BOUND)
        judge.take("a source without an end", Run([command], b"", 2, text), (done.returncode, done.stdout) == (2, text), done)


# Each command that reads, and the sources that are cut for it.
CUT = [(command, source) for command in ("run", "convert", "dump") for source in (FIRST, TWO, SEASONS, CHURN)]
CUT += [(command, TANGLED) for command in ("undump", "census")] + [("batch", batches.of([FIRST, b"", TWO]))]


def cut(judge, disturbed, command, source, size):
    run = Run([command], source[:size])
    answer = disturbed.answer([command], run.source, read_bytes=7)
    judge.take("an input cut after a byte", run, same(run, answer), (size, answer))


def cut_schedule(judge, disturbed, source, size):
    """What stands before a cut of an accepted schedule is accepted, unless the cut left a fault, or an event with a shorter number."""
    status, text, _ = disturbed.answer(["schedule"], source[:size], read_bytes=7)
    why, refused = schedules.why_wrong(source[:size], status, text.decode())
    shorter = source[size : size + 1].isdigit() and refused == source[:size].count(b"\n") + 1
    judge.take("a schedule cut after a byte", Run(["schedule"], b"", 0, b""), why is None and (status != 7 or shorter), (size, why))


def main():
    judge, disturbed = Judge(), Disturbed()
    ways = (in_parts, reads_that_fail, writes_that_fail, rooms)
    each(lambda item: item[0](judge, disturbed, item[1]), list(itertools.product(ways, runs())))
    each(lambda run: files_that_fail(judge, disturbed.program, run), runs())
    endless(judge, disturbed.program)
    cuts = [(command, source, size) for command, source in CUT for size in range(len(source) + 1)][::EVERY]
    each(lambda item: cut(judge, disturbed, *item), cuts)
    accepted = example("published", "gs")
    each(lambda size: cut_schedule(judge, disturbed, accepted, size), range(len(accepted) + 1)[::EVERY])
    for sort, count in sorted(judge.counts.items()):
        print(f"{sort}: {count}")
    print(f"{sum(judge.counts.values())} runs, {judge.wrong} wrong")
    sys.exit(1 if judge.wrong else 0)


if __name__ == "__main__":
    main()
