#!/usr/bin/env python3
"""Draws one cycle of a run of `bench_heaps pauses` as a picture: a lane for each thread, and below it the same lanes around the stop that ends the cycle.

    bench_heaps pauses --timeline .. >FILE; python3 bench/timeline.py FILE [CYCLE] >PICTURE.svg

CYCLE is the number of the stop that ends it, from 1; the middle one if none is given. It needs Python's own library alone. bench/figures.py draws the cycle
whose timeline lies in bench/results.
"""
import sys

import drawing
from drawing import rect, text

COLOURS = {"running": "#e4e4e4", "paying": "#e69f00", "tracing": "#009e73", "tending": "#cc79a7", "waiting": "#56b4e9", "collecting": "#d55e00"}
WORDS = {
    "running": "runs the program, or rests",
    "paying": "marks, to pay for a cache",
    "tracing": "marks as a tracer",
    "tending": "finds nothing to trace: cleans cards, or helps the stop",
    "waiting": "is in a call for over 0.1 ms: waits for the stop's end, and helps",
    "collecting": "asks for the stop, and ends the cycle in it",
}
SHORT = {
    "running": "runs", "paying": "marks to pay", "tracing": "marks", "tending": "cleans cards, helps", "waiting": "waits, helps", "collecting": "ends the cycle",
}
WIDTH, LEFT, RIGHT, LANE, GAP, BAND = 800, 92, 16, 26, 8, 20
BINS = WIDTH - LEFT - RIGHT


def read(name):
    """The intervals of each thread, as (what, from, to) in milliseconds, by the thread's name."""
    lanes = {}
    for line in open(name, encoding="utf-8"):
        words = line.split()
        if len(words) == 5 and words[0] in ("worker", "tracer") and words[2] in COLOURS:
            lanes.setdefault(f"{words[0]} {int(words[1]) + 1}", []).append((words[2], int(words[3]) / 1e6, int(words[4]) / 1e6))
    return dict(sorted(lanes.items(), key=lambda it: (it[0][0] != "w", it[0])))


def cycle_of(lanes, chosen=None):
    """When a cycle begins, when its stop is asked for, and when that ends: the cycle of this number, or the middle one."""
    stops = sorted((low, high) for it in lanes.values() for what, low, high in it if what == "collecting")
    at = chosen - 1 if chosen else len(stops) // 2
    if not 0 <= at < len(stops):
        sys.exit(f"timeline: a cycle from 1 to {len(stops)}")
    return (stops[at - 1][1] if at else 0.0, *stops[at])


def marking_from(lanes, start, end):
    """When a thread is first seen to mark."""
    return min((low for it in lanes.values() for what, low, _ in it if what in ("paying", "tracing") and start <= low < end), default=end)


def shares(intervals, start, end):
    """For each bin, how much of it each thing takes."""
    width = (end - start) / BINS
    found = [{} for _ in range(BINS)]
    for what, low, high in intervals:
        low, high = max(low, start), min(high, end)
        at = int((low - start) / width)
        while low < high and at < BINS:
            edge = min(high, start + (at + 1) * width)
            found[at][what] = found[at].get(what, 0) + max(0, edge - low) / width
            low, at = edge, at + 1
    return found


def heights_of(column):
    return tuple((what, round(min(1, column[what]) * LANE)) for what in COLOURS if column.get(what, 0) * LANE >= 0.5)


def runs_of(values):
    """Neighbours that are alike, as (first, count, value)."""
    out = []
    for at, value in enumerate(values):
        if out and out[-1][2] == value:
            out[-1] = (out[-1][0], out[-1][1] + 1, value)
        else:
            out.append((at, 1, value))
    return out


def labels(name, columns):
    """Each thing that a thread does, in words where it does it longest, if they have room there."""
    main = [max(COLOURS, key=lambda it: column.get(it, 0) if it != "running" else 1 - sum(column.values())) for column in columns]
    for what, words in SHORT.items():
        words = "rests" if what == "running" and name.startswith("tracer") else words
        first, count, _ = max((it for it in runs_of(main) if it[2] == what), key=lambda it: it[1], default=(0, 0, what))
        if count > 6.5 * len(words):
            yield LEFT + first + count / 2, words


def lane(name, intervals, start, end, y):
    """One thread. In each column the height of a colour is its share of that time, from the bottom up."""
    parts = [text(LEFT - 8, y + LANE - 8, name, "end", 13), rect(LEFT, y, BINS, LANE, COLOURS["running"])]
    columns = shares(intervals, start, end)
    for first, count, heights in runs_of([heights_of(it) for it in columns]):
        bottom = y + LANE
        for what, height in heights:
            height = min(height, bottom - y)
            bottom -= height
            parts.append(rect(LEFT + first, bottom, count, height, COLOURS[what]))
    return parts + [text(x, y + LANE - 6, words, size=11) for x, words in labels(name, columns)]


def band(phases, start, end, y, below):
    """The phases by name over the lanes, with a line through the lanes where one ends."""
    parts, place = [], lambda at: LEFT + BINS * (at - start) / (end - start)
    for low, high, words in phases:
        left, right = place(max(low, start)), place(min(high, end))
        if right - left > 7 * len(words):
            parts.append(text((left + right) / 2, y + 14, words))
        if high < end:
            parts.append(f'<path d="M{right:.1f} {y}V{below}" stroke="#222" stroke-dasharray="3 2"/>')
    return parts


def ticks(start, end, y):
    length = end - start
    step, at, parts = max(s for s in (0.01, 0.02, 0.05, 0.1, 0.2, 0.5, 1, 2, 5, 10, 20, 50, 100, 200, 500) if s <= max(0.01, length / 5)), 0.0, []
    while at <= length:
        x = LEFT + round(at / length * BINS)
        parts += [f'<path d="M{x} {y - GAP}v6" stroke="#222"/>', text(x, y + 14, f"{at:g}")]
        at = round(at + step, 6)
    return parts + [text(LEFT - 8, y + 14, "ms", "end")]


def panel(title, lanes, phases, start, end, y):
    """All lanes from one time to another, the phases above and a scale in milliseconds below."""
    below = y + 22 + BAND + len(lanes) * (LANE + GAP)
    parts, at = [text(LEFT, y + 14, title, "start", 13)], y + 22 + BAND
    for name, intervals in lanes.items():
        parts += lane(name, intervals, start, end, at)
        at += LANE + GAP
    return parts + band(phases, start, end, y + 22, below - GAP) + ticks(start, end, below), below + 26


def legend(y):
    parts, x = [], 16
    for what, words in WORDS.items():
        wide = 40 + 6.6 * len(words)
        if x + wide > WIDTH:
            x, y = 16, y + 22
        parts += [rect(x, y - 11, 14, 14, COLOURS[what]), text(x + 20, y, words, "start", 13)]
        x += round(wide)
    return parts + [text(16, y + 22, "In each column the height of a colour is its share of that time.", "start", 13)], y + 38


def picture(lanes, start, asked, end):
    marking = marking_from(lanes, start, end)
    phases = [(start, marking, "phase Idle"), (marking, asked, "Marking"), (asked, end, "the stop: Drain, then Sweep"), (end, end + 1, "Idle")]
    parts, y = legend(24)
    above, y = panel(f"A cycle of {end - start:.0f} ms, from the end of a stop to the end of the next", lanes, phases, start, end, y)
    around = (end - asked) / 4
    below, y = panel(f"Its last {end - asked + around:.1f} ms, with the stop of {end - asked:.2f} ms", lanes, phases, asked - around, end + around, y + 8)
    return drawing.page(WIDTH, y, parts + above + below)


def main():
    lanes = read(sys.argv[1])
    print(picture(lanes, *cycle_of(lanes, int(sys.argv[2]) if len(sys.argv) > 2 else None)), end="")


if __name__ == "__main__":
    main()
