"""Figures that were measured stand on several pages alike: those of README.md, docs/PERFORMANCE.md and docs/PAUSES.md are those of the tables of
bench/README.md and of the series of pauses in bench/results, and what docs/PAUSES.md works out from that series is right."""
import re
import sys

sys.path.insert(0, "docs")
from pages import figures, label, number, rows_of, says, text_of  # noqa: E402
import timeline  # noqa: E402
from utilisation import utilisation  # noqa: E402

BENCH, PAUSES, PERFORMANCE = "bench/README.md", "docs/PAUSES.md", "docs/PERFORMANCE.md"
SERIES = "bench/results/2026-11-30-pauses.md"
CALLS = "bench/results/2026-12-pauses-c.md"
LARGE = ["orders", "live", "objects", "stores", "reads"]
FRONT = ("4194304", "4")

# Of each row of a series: orders a second, the mean and the longest stop, and the slowest transaction.
COLUMNS = ["Cells", "Workers", "Program", "Orders a second", "Mean stop", "Longest", "Slowest"]
STOPS, CALLED = ({tuple(row[:3]): [float(it) for it in row[3:]] for row in rows_of(series, *COLUMNS)} for series in (SERIES, CALLS))
ALONE = {label(row[0]): row[1:] for row in rows_of(BENCH, "Script", "gcplay, ns a command", "gcplay to the floor", "gcplay, processor ms", "Floor", "Go")}
THREADS = {tuple(row[:2]): [float(it) for it in row[2:]] for row in rows_of(BENCH, "Workers", "Tracers", "`orders`, clock ms", "`live`, clock ms")}


def milliseconds(micros):
    return float(f"{micros / 1000:.0f}" if micros >= 10000 else f"{micros / 1000:.1f}" if micros >= 1000 else f"{micros / 1000:.2f}")


def row(program, size=FRONT, series=STOPS):
    """The row of a program; Boehm's names how large its heap was, too."""
    return next(it for key, it in series.items() if key[:2] == size and key[2].startswith(program))


# The rows of the table of README.md that are of the series, with the program's name there.
FRONT_ROWS = {
    "this one from C, one tracer": "C, 1",
    "this one from Rust, one tracer": "Rust, 1",
    "this one from Rattle, one tracer": "beside, 1",
    "Boehm, stop the world": "Boehm, stop",
    "Go 1.19": "Go",
    "G1 (Java 17)": "G1",
    "ZGC (Java 17)": "Z",
}


def check_front():
    """The table of pauses in README.md: four workers in the largest heap."""
    table = rows_of("README.md", "Collector", "Mean pause, ms", "Longest pause, ms", "Slowest transaction, ms", "Transactions a second")
    told = {name: [number(it) for it in cells] for name, *cells in table if name in FRONT_ROWS}
    for name, program in FRONT_ROWS.items():
        rate, mean, longest, slowest = row(program, series=CALLED)
        right = [*map(milliseconds, (mean, longest, slowest)), 1000 * round(rate / 1000)]
        if told.get(name) != right:
            print(f"README.md: {name}: {told.get(name)}, where {CALLS} has {right}")


def check_speed():
    """The speed that README.md tells."""
    ratios = [number(ALONE[it][2]) / number(ALONE[it][3]) for it in LARGE]
    mean = 1.0
    for it in ratios:
        mean *= it ** (1 / len(ratios))
    series = re.search(r"The other four have ([\d.]+), ([\d.]+), ([\d.]+) and ([\d.]+)", text_of(BENCH))
    means = sorted([mean, *map(float, series.groups())])
    says("ratios to the floor", "README.md", r"([\d.]+) to ([\d.]+) times its processor time", min(ratios), max(ratios), near=0.0051)
    says("means of the series", "README.md", r"was ([\d.]+) to ([\d.]+) in five series, with the median at (\d\.\d+)", means[0], means[4], means[2], near=0.0051)
    says("ratios to the floor", PERFORMANCE, r"([\d.]+) in the geometric mean and ([\d.]+) at most", mean, max(ratios), near=0.0051)
    gain = THREADS["1", "0"][0] / THREADS["4", "1"][0]
    says("gain by workers", "README.md", r"Four workers play a script ([\d.]+) times as fast", gain, near=0.05)
    gains = [THREADS["1", "0"][k] / THREADS["4", tracers][k] for k in (0, 1) for tracers in "01"]
    says("gain by workers", PERFORMANCE, r"`orders` ([\d.]+) times as fast as one and with a tracer ([\d.]+) times, `live` ([\d.]+) and ([\d.]+)", *gains, near=0.05)


def ratio(stops, beside):
    return f"1/{stops / beside:.0f}" if stops / beside >= 9.95 else f"1/{stops / beside:.1f}"


def lost(stops, beside):
    share = round(100 * (1 - beside / stops))
    return f"{share} %" if share > 0 else "none"


def check_ratios():
    """The table of docs/PAUSES.md that divides rows of the series."""
    for cells, workers, tracers, mean, longest, rate in rows_of(PAUSES, "Cells", "Workers", "Tracers", "Mean", "Longest", "Throughput lost"):
        beside, stops = (row(f"{way}, {tracers}", (cells, workers)) for way in ("beside", "stops"))
        right = [ratio(stops[1], beside[1]), ratio(stops[2], beside[2]), lost(stops[0], beside[0])]
        if [mean, longest, rate] != right:
            print(f"{PAUSES}: {cells} cells, {workers} workers, {tracers} tracers: {mean}, {longest}, {rate}, where it is {', '.join(right)}")


def check_against():
    """What docs/PAUSES.md says against the collector, and of its gain by workers."""
    sizes = list(dict.fromkeys(key[:2] for key in STOPS))
    more = [row("Boehm, stop", size)[0] / row(f"beside, {t}", size)[0] for size in sizes for t in "01"]
    says("orders of Boehm's", PAUSES, r"replaces ([\d.]+) to ([\d.]+) times as many orders", min(more), max(more), near=0.05)
    shorter = [(size, t) for size in sizes for t in "01" if row(f"beside, {t}", size)[2] < row("Boehm, stop", size)[2]]
    says("rows in which ours stops shorter", PAUSES, r"In all (\w+) comparisons our longest stop was shorter", len(shorter))
    faster = row("stops, 0", ("1048576", "1"))[1] / row("stops, 0", ("1048576", "4"))[1]
    says("gain by workers in stops", PAUSES, r"four workers mark everything ([\d.]+) times as fast as one", faster, near=0.05)


def check_lengths():
    """The table of docs/PAUSES.md that has stops of both ways beside each other, with four workers and no tracer."""
    for cells, *told in rows_of(PAUSES, "Cells", "Mean, beside", "Mean, in stops", "Longest, beside", "Longest, in stops"):
        right = [milliseconds(row(f"{way}, 0", (cells, "4"))[at]) for at in (1, 2) for way in ("beside", "stops")]
        if [number(it) for it in told] != right:
            print(f"{PAUSES}: {cells} cells: {told}, where {SERIES} has {right}")


def check_utilisation():
    """The table of docs/PAUSES.md that is of the cycle in bench/results."""
    lanes = timeline.read(figures.CYCLE)
    start, _, end = timeline.cycle_of(lanes)
    right = [[f"{window}", f"{100 * one:.0f} %", f"{100 * together:.0f} %"] for window, one, together in utilisation(lanes, start, end)]
    if rows_of(PAUSES, "Window, ms", "The worker with least", "All workers") != right:
        print(f"{PAUSES}: the mutator utilisation isn't that of {figures.CYCLE}: {right}")


def main():
    for check in (check_front, check_speed, check_ratios, check_against, check_lengths, check_utilisation):
        check()


if __name__ == "__main__":
    main()
