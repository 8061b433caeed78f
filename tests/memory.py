#!/usr/bin/env python3
"""Refuses memory and threads: in each run of `cases.py` each allocation in turn, and each together with all later ones.

From the top of the repository: `python3 tests/memory.py [PROGRAM]`. If each refusal was of one of these kinds, as the run itself
tells (`faults.c`), it has to end as it ends undisturbed:

- A thread's start: `pthread_create`, or the block that a thread is handed, which is known by the place that asks for it: undisturbed,
  `pthread_create` is handed a block of that place. The caller then does that thread's work itself.
- The growth of a list that was asked for again at once, and given. So does `collect` of the kit's `Vec` (`grow_by_hint`): it asks for room for
  as many items as the iterator says are left, which may be too many; if that is refused, it asks for room for one. Both are rounded up, mostly
  to the same room. That it was asked for again shows in the thread's next request: it is for the same block, not larger, by the same call of the
  function that grows the list, and the frames of its callers are as they were.

Otherwise it has to end with the status 6 and nothing written; but a batch may be done, and tell the status 6 of jobs that wrote nothing. If no
more was asked for than was given, a run has to end as it ends undisturbed. The status of the script is 0 if there was no third
kind, and each command, and each way, had something refused.
"""

import collections
import itertools
import sys

import batches
from cases import runs
from disturbed import Disturbed, each

WAYS = (
    ("one allocation", lambda n: {"alloc_fails": n}),
    ("each allocation from one on", lambda n: {"alloc_fails": n, "alloc_on": 1}),
    ("one thread", lambda n: {"thread_fails": n}),
    ("each thread from one on", lambda n: {"thread_fails": n, "thread_on": 1}),
)


def lost_jobs(run, status, text):
    """Whether a batch is done in which jobs ended with the status 6, and every other job as it ends if nothing is refused."""
    if run.words[0] != "batch" or (status, run.status) != (0, 0):
        return False
    found, wanted = batches.jobs(text), batches.jobs(run.text)
    return found is not None and len(found) == len(wanted) and all(job in ((6, b""), other) for job, other in zip(found, wanted))


def refusals(told, starts):
    """How many refusals were of threads' starts, how many of growths that were asked for again at once, and how many of neither."""
    lines = told.split(b"\n")
    refused = [line[2:] for line in lines if line.startswith(b"x")]
    begun = sum(place == b"" or place in starts for place in refused)
    again = sum(line.startswith(b"a ") and line[2:] not in starts for line in lines)
    return begun, again, len(refused) - begun - again


def kind(run, status, text, told, starts):
    begun, again, others = refusals(told, starts)
    if (status, text) == (run.status, run.text) and others == 0:
        return "the whole answer, " + " and ".join(["a thread's start refused"] * (begun > 0) + ["a growth asked for again"] * (again > 0))
    if (status, text) == (6, b"") and others > 0:
        return "status 6 and nothing written"
    if lost_jobs(run, status, text) and text != run.text and others > 0:
        return "the whole batch, with jobs of the status 6"
    return "a third kind"


def places_of_starts(disturbed, run):
    """The places that ask for a block which a thread is handed, if nothing is refused."""
    lines = disturbed.told(run.words, run.source)[2].split(b"\n")
    return {line[2:] for line in lines if line.startswith(b"t ")}


def refuse_in_turn(disturbed, run, way, starts):
    """How many runs ended in which way, until a run asked for no more than was given."""
    kinds = collections.Counter()
    for n in itertools.count(1):
        status, text, told = disturbed.told(run.words, run.source, **way(n))
        if b"x" not in told:
            if (status, text) != (run.status, run.text):
                kinds["a third kind"] += 1
            return kinds
        sort = kind(run, status, text, told, starts)
        kinds[sort] += 1
        if sort == "a third kind":
            print(f"WRONG {' '.join(run.words)}, call {n}: status {status}, {text!r}, told {told!r}", flush=True)


def main():
    disturbed = Disturbed()
    starts = set().union(*each(lambda run: places_of_starts(disturbed, run), runs()))
    everything = [(run, name, way) for name, way in WAYS for run in runs()]
    found = each(lambda item: refuse_in_turn(disturbed, item[0], item[2], starts), everything)
    total = collections.Counter()
    idle = []
    for name, _ in WAYS:
        kinds = sum((kinds for (_, other, _), kinds in zip(everything, found) if other == name), collections.Counter())
        idle += [] if kinds else [name]
        print(f"{name}: " + ", ".join(f"{count} {kind}" for kind, count in sorted(kinds.items())))
        total += kinds
    commands = collections.Counter()
    for (run, _, _), kinds in zip(everything, found):
        commands[run.words[0]] += sum(kinds.values())
    print("runs by command: " + ", ".join(f"{command} {count}" for command, count in sorted(commands.items())))
    print(f"{sum(total.values())} runs: " + ", ".join(f"{count} {kind}" for kind, count in sorted(total.items())))
    print(f"{total['a third kind']} of a third kind")
    idle += [command for command, count in commands.items() if not count]
    for name in idle:
        print(f"NOTHING REFUSED: {name}")
    sys.exit(1 if total["a third kind"] or idle else 0)


if __name__ == "__main__":
    main()
