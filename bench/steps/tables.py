"""Prints tables of what bench/longest.sh measured: how many steps the longest call of each kind took, beside the number that is proved, and how long the longest was.

    python3 bench/steps/tables.py CALLS [BEFORE]

Steps are the most of all runs, times medians of each run's longest: of a mutator alone, and behind it of four. BEFORE are the calls of another library.
"""
import collections
import statistics
import sys

# Where objects are shared, a call that leaves or looks for a cell stores the roots that lag, 32 at most.
FIELDS, SLOTS, BLOCK, PACKETS, LAG = 2, 16, 64, 64, 32
SIZES = [2**16, 2**20, 2**24]
USUAL = 1024


def stretch(cells):
    """How many blocks a sweeper takes at a time."""
    return max(1, min(cells // (BLOCK * 16), 128))


def stretches(cells, most):
    return max(most // stretch(cells), 1)


def clearing(cells, most):
    return stretches(cells, most) * (2 + stretch(cells)) + 3


def sweeping(cells, most):
    return stretches(cells, most) * (2 + 4 * stretch(cells)) + 1


# A search for a packet to read from, one for a packet with room, one for an empty or half empty packet that the full one goes back for, and what the searches of a call
# and a packet that is taken take at most beside each marked cell's part: StepBounds.antt of packet_pools. The packets' entries go with the cells.
POOL = 1 + PACKETS
INPUT, OUTPUT = 2 * POOL + 1, 2 * POOL + 1 + 4 * PACKETS + 3
SPARE = 2 * POOL + 3 + 3
RECYCLE = 1 + 6 * PACKETS


def entries(cells):
    """How many cells a packet has room for."""
    return min(max(cells // 2048, 32), 512)


def aside(cells):
    """What the cells of a packet put aside for the next search, at most; and a cell's part."""
    room = max(1, min(entries(cells) // 2, SPARE))
    part = -(-SPARE // room)
    return part * room, part


def searching(cells):
    return SPARE - 3 + 5 * PACKETS + aside(cells)[0]


def follow(cells):
    return 3 + aside(cells)[1]


def scan(cells):
    return FIELDS * follow(cells)


def tracing(cells, objects):
    share = 2 + OUTPUT
    each = INPUT + 3 + 1 + 1 + scan(cells) + aside(cells)[0]
    return objects * each + objects // 64 * (share + searching(cells)) + searching(cells) + aside(cells)[0] + share + INPUT + 3 + 1 + INPUT + 9


def seeing(cells, most):
    return OUTPUT + INPUT + most * follow(cells) + searching(cells) + 3 + RECYCLE


def cleaning(cells, most):
    return OUTPUT + INPUT + 5 * most + 16 * most * scan(cells) + searching(cells) + 3 + RECYCLE


def passing(cells, looks):
    """The next cards are drawn, looked at and cleaned, with one packet for all."""
    return OUTPUT + looks * (3 + 16 * scan(cells) + 4) + searching(cells) + 3


def paying(cells):
    """A payment scans 32 roots of two sections, passes at most 1,024 cards early in a cycle, traces at most 1,024 objects and looks at as many cards, in eight rounds."""
    section = OUTPUT + INPUT + 32 * follow(cells) + searching(cells) + 3
    rounds = passing(cells, 1024) + 7 * passing(cells, 0) + 8 * tracing(cells, 0)
    return 2 * section + cleaning(cells, 1024) + tracing(cells, 1024) + rounds + 5


def refilling(cells, most):
    return 3 * min(most, cells // BLOCK) + paying(cells) + 17 + LAG


def making(cells, _most):
    """An object is made after a search of all blocks and a payment, or isn't, after both."""
    return 3 * (cells // BLOCK) + paying(cells) + max(FIELDS + 17, 19) + LAG


def turning(cells, most):
    """A turn traces 64 objects and passes 1,024 cards, whatever the heap's size, and takes five steps besides."""
    return tracing(cells, 64) + 3 + passing(cells, 1024) + 5


# What is proved of a call: a number of steps, or one by the cells and by what a step does at most.
PROVED = {
    "set": 4, "get": 2, "put": 2, "copy": 1, "forget": 1, "value": 1, "is_nil": 0, "same": 0, "root": 2, "exchange": 3, "exchange_value": 1, "spill": 1, "fill": 2,
    "forget_slots": SLOTS, "place": 0, "number": 1, "enter": 5, "enter: stopped": 10, "leave": 5 + LAG, "safe_point": 2, "safe_point: stopped": 6 + LAG,
    "make": 5 + FIELDS, "make_cached": 5 + FIELDS, "make_cached: no cache": 2, "make_cached: stopped": 6 + LAG, "make: searched": making, "make: none": making, "refill": refilling,
    "refill: not yet": lambda cells, most: 3 * min(most, cells // BLOCK) + 11 + LAG,
    "collect: asks": 6 + LAG, "collect: waits": 2, "collect: begins": 5, "collect: roots": seeing, "collect: traces": lambda cells, most: RECYCLE + tracing(cells, most),
    "collect: looks": lambda cells, most: most + 3, "collect: cleans": cleaning, "collect: clears": clearing, "collect: sweeps": sweeping,
    "collect: counts": lambda cells, most: most, "collect: ends": 17, "trace_turn": turning,
}


def read(path):
    """Of each run's words, cells, shared, mutators, tracers and what a step does, and of each kind of call: its steps and its times."""
    steps, nanos = collections.defaultdict(int), collections.defaultdict(list)
    for line in open(path, encoding="utf-8"):
        words, call, _, _, took, time, *_ = line.split(";")
        key = (*map(int, words.split()), call)
        steps[key] = max(steps[key], int(took))
        nanos[key].append(int(time))
    return steps, {key: statistics.median(it) / 1000 for key, it in nanos.items()}


def proved(call, cells, most):
    it = PROVED.get(call)
    return "" if it is None else f"{it(cells, most) if callable(it) else it:,}"


def grows(call, cells):
    """Whether the bound depends on how much a step does."""
    return proved(call, cells, 1) != proved(call, cells, USUAL)


def most_steps(steps, call, cells, most):
    found = [it for key, it in steps.items() if key[0] == cells and key[4:] == (most, call)]
    return f"{max(found):,}" if found else ""


def micros(it):
    return f"{it:,.0f}" if it >= 10 else f"{it:.1f}"


def times(nanos, call, cells, most):
    """The longest of one mutator, and of four."""
    found = [nanos.get((cells, 0, count, 1, most, call)) for count in (1, 4)]
    return " / ".join(micros(it) for it in found if it is not None)


def row(*cells):
    print("| " + " | ".join(cells) + " |")


def header(*cells):
    print()
    row(*cells)
    print("|" + "---|" * len(cells))


def kinds(steps):
    return [it for it in dict.fromkeys(key[5] for key in steps) if it not in ("collections", "nothing")]


def constant(steps):
    """The calls whose bound is a number, whatever the cells."""
    header("Call", "Steps at most, proved", "measured")
    for call in kinds(steps):
        if isinstance(PROVED.get(call), int):
            row(f"`{call}`", str(PROVED[call]), str(max(it for key, it in steps.items() if key[5] == call)))


def growing(steps, nanos):
    """The other calls, by the cells."""
    header("Call", "Steps at most, proved", *(f"measured, {it:,} cells" for it in SIZES), *(f"µs, {it:,} cells" for it in SIZES))
    for call in kinds(steps):
        if not isinstance(PROVED.get(call), int):
            bounds = list(dict.fromkeys(proved(call, it, USUAL) for it in SIZES))
            row(f"`{call}`", "; ".join(bounds), *(most_steps(steps, call, it, USUAL) for it in SIZES), *(times(nanos, call, it, USUAL) for it in SIZES))
    row("nothing", "0", *["0"] * len(SIZES), *(times(nanos, "nothing", it, USUAL) for it in SIZES))


def by_most(steps, nanos):
    """What steps take in the largest heap by what each does at most."""
    cells = SIZES[-1]
    amounts = sorted({key[4] for key in steps if key[0] == cells})
    header("Call", *(f"{it:,}: {what}" for it in amounts for what in ("proved", "measured", "µs")))
    for call in kinds(steps):
        if grows(call, cells):
            row(f"`{call}`", *(cell for it in amounts for cell in (proved(call, cells, it), most_steps(steps, call, cells, it), times(nanos, call, cells, it))))


def longest(found, cells):
    """The call with the most steps, its steps, and the longest time of the calls whose bound is no mere number, and of nothing."""
    steps, nanos = found
    usual = USUAL if any(key[0] == cells and key[4] == USUAL for key in steps) else max(key[4] for key in steps if key[0] == cells)
    most = {key[5]: it for key, it in sorted(steps.items(), key=lambda it: it[1]) if key[0] == cells and key[4] == usual}
    call = max(most, key=most.get)
    spans = [[it for key, it in nanos.items() if key[:5] == (cells, 0, count, 1, usual) and key[5] in kinds(steps) and not isinstance(PROVED.get(key[5]), int)] for count in (1, 4)]
    return f"`{call}`", f"{most[call]:,}", " / ".join(micros(max(it)) for it in spans if it), times(nanos, "nothing", cells, usual)


def before_and_after(now, before):
    header("Cells", *(f"{it}{when}" for when in (", before", "") for it in ("Call", "Steps", "µs", "Nothing, µs")))
    for cells in SIZES:
        row(f"{cells:,}", *longest(before, cells), *longest(now, cells))


def main():
    now = read(sys.argv[1])
    constant(now[0])
    growing(*now)
    by_most(*now)
    if len(sys.argv) > 2:
        before_and_after(now, read(sys.argv[2]))


main()
