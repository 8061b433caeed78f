#!/usr/bin/env python3
"""The minimum mutator utilisation of a cycle whose timeline `bench_heaps pauses --timeline` wrote: for each length of a window the least share of it in which
workers run the program, wherever in the cycle the window lies (Cheng and Blelloch, PLDI 2001).

    python3 bench/utilisation.py FILE [CYCLE]

prints a row for each length: of the worker that has least, and of all workers together. It needs Python's own library alone.
"""
import bisect
import sys

import timeline

WINDOWS = [1, 2, 5, 10, 20, 50]


def busy(intervals):
    """How long a worker hasn't run the program until a time, as a function; and where that bends."""
    edges, sums, total = [0.0], [0.0], 0.0
    for _, low, high in sorted(intervals, key=lambda it: it[1]):
        edges += [low, high]
        total += high - low
        sums += [sums[-1], total]

    def until(at):
        k = bisect.bisect_right(edges, at)
        if k == len(edges):
            return sums[-1]
        low, high = edges[k - 1], edges[k]
        return sums[k - 1] + (sums[k] - sums[k - 1]) * ((at - low) / (high - low) if high > low else 0)

    return until, edges


def least(workers, start, end, window):
    """The least share of a window in which these workers run the program. A window with the least begins or ends where a worker's time bends."""
    curves = [busy(it) for it in workers]
    bends = [at for _, edges in curves for at in edges]
    begins = [at for edge in bends for at in (edge, edge - window) if start <= at <= end - window]
    used = lambda at: sum(until(at + window) - until(at) for until, _ in curves) / len(curves)
    return 1 - max(map(used, begins)) / window


def utilisation(lanes, start, end, windows=WINDOWS):
    """For each window of the cycle: the worker with the least, and all workers."""
    workers = [it for name, it in lanes.items() if name.startswith("worker")]
    return [(w, min(least([it], start, end, w) for it in workers), least(workers, start, end, w)) for w in windows]


def main():
    lanes = timeline.read(sys.argv[1])
    start, _, end = timeline.cycle_of(lanes, int(sys.argv[2]) if len(sys.argv) > 2 else None)
    print("| Window, ms | The worker with least | All workers |\n|---|---|---|")
    for window, one, together in utilisation(lanes, start, end):
        print(f"| {window} | {100 * one:.0f} % | {100 * together:.0f} % |")


if __name__ == "__main__":
    main()
