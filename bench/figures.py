#!/usr/bin/env python3
"""Draws tables of bench/README.md and bench/results, and a timeline that lies there, as pictures under docs/figures.

From the top of the repository: python3 bench/figures.py writes the pictures, and python3 bench/figures.py --check
says whether those that are there are the ones that it would write. It needs Python's own library alone.
"""
import pathlib
import re
import sys

import drawing
import timeline
from utilisation import WINDOWS, utilisation

TOP = pathlib.Path(__file__).resolve().parent.parent
SERIES = "bench/results/2026-11-30-pauses.md"
CALLS = "bench/results/2026-12-pauses-c.md"
WORK = "bench/results/2026-12-work.md"
CYCLE = TOP / "bench/results/2026-11-30-cycle.txt"


def tables(name):
    """The tables of a document: for each its header's cells, and its rows as lists of cells."""
    found, rows = [], []
    for line in (TOP / name).read_text().splitlines() + [""]:
        if line.startswith("|"):
            rows.append([cell.strip() for cell in line.strip().strip("|").split("|")])
        elif rows:
            found.append((rows[0], rows[2:]))
            rows = []
    return found


def table(name, *columns):
    """The rows of the one table of a document whose header has all these cells."""
    fitting = [t for t in tables(name) if all(c in t[0] for c in columns)]
    if len(fitting) != 1:
        sys.exit(f"figures: {name} has {len(fitting)} tables with the columns {', '.join(columns)}")
    return fitting[0]


def number(cell):
    """The first number of a cell."""
    return float(re.search(r"-?\d[\d,]*(\.\d+)?", cell).group().replace(",", ""))


def series(name, label, columns):
    """What a table has in these columns, each with the labels of its rows."""
    header, rows = table(name, label, *columns)
    at = header.index(label)
    labels = [row[at].split(":")[0].strip("`") for row in rows]
    return labels, [(c, [number(row[header.index(c)]) for row in rows]) for c in columns]


def to_floor():
    labels, lines = series("bench/README.md", "Script", ["gcplay to the floor"])
    rows = [(label, value, 0) for label, value in zip(labels, lines[0][1])]
    return drawing.bars("Processor time of gcplay, one worker", "times that of the same steps in C++", [("", rows)], (1, "the same steps in C++"))


def speed_up():
    """How many times as fast as one worker, without tracers."""
    header, rows = table("bench/README.md", "Workers", "Tracers", "`orders`, clock ms", "`live`, clock ms")
    rows = [row for row in rows if row[1] == "0"]
    times = [(name, [number(row[header.index(f"`{name}`, clock ms")]) for row in rows]) for name in ("orders", "live")]
    lines = [(name, [values[0] / v for v in values]) for name, values in times]
    ideal = ("ideal on 4 processors", [min(4, int(row[0])) for row in rows])
    parts = [drawing.text(320, 22, "Speed-up by workers, by the clock, without tracers", size=15)]
    labels, box = [row[0] for row in rows], (60, 64, 490, 286)
    return drawing.page(640, 340, parts + drawing.curves("times as fast as one worker", "workers", labels, lines, box, dashed=ideal))


# The programs of the series of pauses: how a row begins there, what a picture calls it, and whether it is ours.
PROGRAMS = [
    ("beside, 1", "this one, one tracer", 0), ("stops, 1", "this one, marking in stops", 0), ("Boehm, stop", "Boehm, stop the world", 1),
    ("Boehm, incremental", "Boehm, incremental", 1), ("Go", "Go", 1), ("G1", "G1", 1), ("Z", "ZGC", 1), ("Shenandoah", "Shenandoah", 1),
]


# The same of the series from C.
CALLERS = [
    ("C, 0", "from C, no tracer", 0), ("C, 1", "from C, one tracer", 0), ("C, 2", "from C, two tracers", 0),
    ("beside, 1", "from Rattle, one tracer", 0), *[it for it in PROGRAMS if it[2]],
]


def pauses_of(*columns, series=SERIES, programs=PROGRAMS):
    """For each pair of cells and workers its heading, and what each program has there in these columns of the table of pauses."""
    header, rows = table(series, "Program", "Mean stop")
    cells, workers, program = (header.index(it) for it in ("Cells", "Workers", "Program"))
    found = {}
    for row in rows:
        for begin, name, colour in programs:
            if row[program].startswith(begin):
                found.setdefault((row[cells], row[workers]), []).append((name, [number(row[header.index(it)]) for it in columns], colour))
    return [(f"{int(size[0]):,} cells, {size[1]} worker{'s' * (size[1] != '1')}", rows) for size, rows in found.items()]


def pauses():
    """The mean and the longest stop of ours and of the peers."""
    of_size = lambda rows: [(name, (mean / 1000, longest / 1000), colour) for name, (mean, longest), colour in rows]
    groups = [(size, of_size(rows)) for size, rows in pauses_of("Mean stop", "Longest")]
    return drawing.ranges("Stops: the mean, and the longest of a run", "milliseconds", groups, ("mean", "longest (median of five runs)"))


def pauses_from_c():
    """The same of the series from C."""
    groups = [(size, [(name, (mean / 1000, longest / 1000), colour) for name, (mean, longest), colour in rows])
              for size, rows in pauses_of("Mean stop", "Longest", series=CALLS, programs=CALLERS)]
    return drawing.ranges("Stops from C: the mean, and the longest of a run", "milliseconds", groups, ("mean", "longest (median of three runs)"))


def pauses_rate():
    """How many orders were replaced in a second."""
    groups = [(size, [(name, round(rate / 1000), colour) for name, (rate,), colour in rows]) for size, rows in pauses_of("Orders a second")]
    return drawing.bars("Throughput", "thousands of transactions a second", groups)


def longest_call():
    """The steps and the microseconds of the longest call, by the cells of the heap."""
    labels, lines = series("bench/results/2026-11-longest.md", "Cells", ["Steps, before", "Steps", "µs, before", "µs"])
    parts = [drawing.text(380, 22, "The longest call, before and since collections go on in pieces", size=15)]
    for title, at, right in (("steps", 0, 290), ("microseconds, one mutator", 2, 640)):
        pair = [("before", lines[at][1]), ("now", lines[at + 1][1])]
        parts += drawing.curves(title, "cells", labels, pair, (right - 230, 64, right, 286), log=True)
    return drawing.page(720, 340, parts)


def cycle_work():
    """What marking and cleaning come to for each cell in a cycle, beside the bound that is proved, by the cells of the heap: four mutators and a tracer."""
    header, rows = table(WORK, "Cells", "All four", "Bound")
    rows = [row for row in rows if (row[1], row[2]) == ("4", "1")]
    lines = [(told, [number(row[header.index(it)]) for row in rows])
             for it, told in (("Bound", "bound"), ("Bound, packets found", "bound, if packets are found"), ("All four", "counted"))]
    parts = [drawing.text(340, 22, "Objects popped, cards cleaned, references read and marks tried", size=15)]
    panel = drawing.curves("for each cell in a cycle", "cells", [f"{int(row[0]):,}" for row in rows], lines, (60, 64, 490, 286), log=True)
    return drawing.page(700, 340, parts + panel)


def mutator_utilisation():
    """The minimum mutator utilisation of the cycle of the picture `cycle`, and what it can be at most by the longest stop where all is marked in stops."""
    lanes = timeline.read(CYCLE)
    start, _, end = timeline.cycle_of(lanes)
    lines = [("this one", [100 * together for _, _, together in utilisation(lanes, start, end)])]
    rows = {name: longest / 1000 for name, (longest,), _ in pauses_of("Longest")[2][1]}
    for name, told in (("this one, marking in stops", "marking in stops, at most"), ("Boehm, stop the world", "Boehm, at most")):
        lines.append((told, [max(0, 100 - 100 * rows[name] / w) for w in WINDOWS]))
    parts = [drawing.text(340, 22, "Minimum mutator utilisation", size=15)]
    panel = drawing.curves("per cent of a window", "length of the window, ms", [f"{w}" for w in WINDOWS], lines, (60, 64, 500, 286))
    return drawing.page(690, 340, parts + panel)


def cycle():
    lanes = timeline.read(CYCLE)
    return timeline.picture(lanes, *timeline.cycle_of(lanes))


FIGURES = {
    "cycle": cycle, "cycle_work": cycle_work, "longest_call": longest_call, "mutator_utilisation": mutator_utilisation, "to_floor": to_floor, "speed_up": speed_up, "pauses": pauses,
    "pauses_from_c": pauses_from_c, "pauses_rate": pauses_rate,
}


def main():
    check = sys.argv[1:] == ["--check"]
    stale = []
    for name, draw in FIGURES.items():
        path = TOP / "docs" / "figures" / f"{name}.svg"
        picture = draw()
        if check:
            if not path.is_file() or path.read_text() != picture:
                stale.append(path.name)
        else:
            path.parent.mkdir(exist_ok=True)
            path.write_text(picture)
    if stale:
        sys.exit("figures: not those of the tables: " + ", ".join(stale))


if __name__ == "__main__":
    main()
