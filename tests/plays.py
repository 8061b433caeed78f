#!/usr/bin/env python3
"""Plays made scripts at every extreme of the options, and judges each answer by a play without a collector.

From the top of the repository: `python3 tests/plays.py MINUTES [PROGRAM [FIRST]]`. Scripts are made from the numbers FIRST, FIRST + 1
and so on. A shape is played by `run`, by `dump`, or by `batch`, with the script as two jobs among others; what `dump` wrote is listed and
counted. Eight scripts are played side by side, in the time of one processor at most. What goes wrong is kept as a file with its words, and
the last lines are the counts; the status is 0 where nothing went wrong.
"""

import collections
import concurrent.futures
import itertools
import os
import random
import resource
import subprocess
import sys
import tempfile
import time

import batches
import dumps
import generate
from disturbed import BOUND, PROGRAM
from verdict import Case

JOBS = 8
SCRIPTS = float(os.environ.get("SCRIPTS", "inf"))
CELLS = (64, 128, 4096, 65536, "tight")
WORKERS = (1, 2, 4, 32)
TRACERS = (0, 1, 8)
PACKETS = (2, 3, 64, 1024)
ENTRIES = (2, 3, 32, 512)
PROCESSORS = sorted(os.sched_getaffinity(0))


def shapes(draw):
    """Every shape once, in a drawn order, and so on without an end."""
    every = list(itertools.product(CELLS, WORKERS, TRACERS, PACKETS, ENTRIES))
    while True:
        draw.shuffle(every)
        yield from every


def tight(case):
    """The fewest cells that hold what is reachable at once if the sections play in order."""
    most = case.peaks[-1][0] + 1 if case.peaks else 1
    return min(65536, max(64, -(-most // 64) * 64))


def words_of(command, shape, cells, further):
    _, workers, tracers, packets, entries = shape
    words = ["--cells", cells, "--workers", workers, "--tracers", tracers, "--packets", packets, "--entries", entries]
    return [command] + [str(word) for word in words] + further


def answer(program, words, source, processors):
    """The status and the text, or no status if the play took longer than the bound."""
    os.sched_setaffinity(0, processors)
    try:
        done = subprocess.run([program] + words, input=source, stdout=subprocess.PIPE, timeout=BOUND)
    except subprocess.TimeoutExpired:
        return None, b""
    finally:
        os.sched_setaffinity(0, PROCESSORS)
    return done.returncode, done.stdout


class Tally:
    """What was played, and what came out."""

    def __init__(self, folder):
        self.folder = folder
        self.counts = collections.Counter()
        self.shapes = collections.Counter()
        self.longest = (0, "")

    def keep(self, number, source, words, text, why):
        """Keeps what went wrong."""
        self.counts["wrong"] += 1
        name = os.path.join(self.folder, f"{number}.{self.counts['wrong']}")
        for end, content in ((".gc", source), (".text", text), (".words", (" ".join(words) + "\n" + why + "\n").encode())):
            with open(name + end, "wb") as file:
                file.write(content)
        print(f"WRONG {name}: {why}: {' '.join(words)}", flush=True)

    def add(self, other):
        self.counts.update(other.counts)
        self.shapes.update(other.shapes)
        self.longest = max(self.longest, other.longest)

    def lines(self):
        yield from (f"{name} {count}" for name, count in sorted(self.counts.items()))
        yield f"{len(self.shapes)} shapes, each played {min(self.shapes.values())} to {max(self.shapes.values())} times"
        yield f"longest play {self.longest[0]:.1f} s: {self.longest[1]}"


OTHER = Case(b"gcscript 1\nwarehouse\nrepeat 70\nnew x 1\nend\nsay a x\n")


class Way:
    """A command that plays a script: its further words, its source, and what is wrong with its answer."""

    def __init__(self, draw, program, case, shape, cells):
        self.command = draw.choice(("run", "run", "run", "dump", "batch"))
        self.program, self.case, self.shape, self.cells = program, case, shape, cells
        self.placed = self.command == "run" and draw.random() < 0.3
        self.further = ["--place"] if self.placed else ["--runners", str(draw.randint(1, 8))] if self.command == "batch" else []
        self.source = batches.of([case.source, OTHER.source, b"", case.source]) if self.command == "batch" else case.source

    def words(self):
        return words_of(self.command, self.shape, self.cells, self.further)

    def why_not_played(self, case, status, text):
        return case.why_wrong(status, text.decode(), self.cells, self.shape[1], self.placed)

    def why_wrong(self, status, text):
        if self.command == "batch":
            return self.why_not_done(status, batches.jobs(text))
        if self.command == "dump" and status == 0:
            return self.why_not_dumped(text)
        return self.why_not_played(self.case, status, text)

    def why_not_done(self, status, jobs):
        """Each job of a batch is judged as a play of its own."""
        if status != 0 or jobs is None or len(jobs) != 4 or jobs[2] != (2, b"2 BadHeader\n"):
            return f"status {status}, and other jobs"
        for job, case in ((0, self.case), (1, OTHER), (3, self.case)):
            why = self.why_not_played(case, *jobs[job])
            if why:
                return f"job {job}: {why}"
        return None

    def why_not_dumped(self, dump):
        """A dump is that of the plain play, and is listed and counted."""
        in_order = self.shape[1] == 1 or self.case.one_by_one
        if in_order and self.case.full_in_order(self.cells) is not None:
            return "not full, but more objects were reachable than there are cells"
        if dump != dumps.of(self.case.play):
            return "another dump"
        for command in ("undump", "census"):
            if answer(self.program, [command], dump, PROCESSORS) != (0, dumps.told(command, dump)):
                return f"another text of {command}"
        return None


def play(tally, program, number, case, shape, draw):
    way = Way(draw, program, case, shape, tight(case) if shape[0] == "tight" else shape[0])
    words = way.words()
    began = time.monotonic()
    status, text = answer(program, words, way.source, draw.sample(PROCESSORS, draw.randint(1, len(PROCESSORS))))
    taken = time.monotonic() - began
    tally.longest = max(tally.longest, (taken, f"script {number}, {' '.join(words)}"))
    tally.shapes[shape] += 1
    tally.counts["plays"] += 1
    tally.counts[f"plays of {way.command} with status {status}"] += 1
    tally.counts["plays with cells told"] += way.placed and status == 0
    tally.counts["plays as tight as can be, done"] += shape[0] == "tight" and status == 0
    tally.counts["commands executed"] += case.play.clock if status == 0 else 0
    why = f"longer than {BOUND} s" if status is None else way.why_wrong(status, text)
    if why:
        tally.keep(number, way.source, words, text, why)


def rest_if_ahead(began):
    """Sleeps if this process and its plays took more than their share of one processor so far."""
    used = sum(sum(resource.getrusage(who)[:2]) for who in (resource.RUSAGE_SELF, resource.RUSAGE_CHILDREN))
    time.sleep(min(60, max(0, JOBS * used - (time.monotonic() - began))))


def play_scripts(program, folder, number, minutes):
    """Plays every JOBS-th script from this number on, for so many minutes, and no more than SCRIPTS."""
    began = told = time.monotonic()
    draw = random.Random(number)
    tally = Tally(folder)
    order = shapes(draw)
    while tally.counts["scripts"] < SCRIPTS and time.monotonic() < began + 60 * minutes:
        case = Case(generate.script(number, number % 16 == 15))
        tally.counts["scripts"] += 1
        for shape in itertools.islice(order, 4 if case.play.clock > 50_000 else 24):
            play(tally, program, number, case, shape, draw)
        rest_if_ahead(began)
        if time.monotonic() > told + 300:
            told = time.monotonic()
            print(f"{int(told - began)} s, script {number}: {tally.counts['plays']} plays, {tally.counts['wrong']} wrong", flush=True)
        number += JOBS
    return tally


def main():
    minutes = float(sys.argv[1])
    program = os.path.abspath(sys.argv[2] if len(sys.argv) > 2 else PROGRAM)
    first = int(sys.argv[3]) if len(sys.argv) > 3 else 0
    all_plays = Tally(tempfile.mkdtemp(prefix="plays."))
    with concurrent.futures.ProcessPoolExecutor(JOBS) as pool:
        jobs = [pool.submit(play_scripts, program, all_plays.folder, first + job, minutes) for job in range(JOBS)]
        for job in jobs:
            all_plays.add(job.result())
    print("\n".join(all_plays.lines()))
    sys.exit(1 if all_plays.counts["wrong"] else 0)


if __name__ == "__main__":
    main()
