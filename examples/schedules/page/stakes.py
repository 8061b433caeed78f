"""Why an event is refused: the part of the rule, what would be lost, and the objects in question, with the ways that lead to them."""
import os

from draw import CARD, Drawn
from steps import asked

LETTERS = {"f": "free", "u": "unpublished", "v": "unpublished, marked", "w": "white", "g": "grey", "b": "black"}
CARDS = {"c": "clean", "d": "dirty", "k": "being cleaned", "x": "dirty, being cleaned"}
MOST = 12  # objects that are told
HERE = os.path.dirname(os.path.abspath(__file__))
CELL_AT = {"push": 1, "read_field": 0, "set_mark": 0, "read_own": 0, "read_value": 0, "read_ident": 0, "read_weak": 0, "store_new": 0}


def read_losses():
    """What would be lost, by kind and part."""
    with open(os.path.join(HERE, "losses.txt"), encoding="utf-8") as it:
        rows = [line.strip().partition(": ") for line in it if line.strip() and not line.startswith("#")]
    return {tuple(map(int, row[0].split())): row[2] for row in rows}


def in_hand(seat, layout, d):
    """Each cell that a seat has in hand, and how."""
    found = [(seat[it], f"seat {seat['number']} has it in hand: {how}") for it, how in [("value", "loaded, and not marked yet"), ("fresh", "marked, and not pushed yet"), ("popped", "popped, and not scanned yet")] if seat[it] is not None]
    if seat["scan"] is not None and seat["next"] < layout.fields:
        found.append((seat["scan"], f"seat {seat['number']} scans it, and has a field left"))
    return found + [(c, f"seat {seat['number']} cleans its card, and it is left to scan") for c in d.left(seat["cleaning"]) if c in d.grey and d.colour(c) == "g"]


def of_event(step, words, seat, d):
    """The cells that the event itself names: the one that it takes, and those of the variables that it stores in or from."""
    cells = [int(words[CELL_AT[step]])] if step in CELL_AT else []
    variables = {"store_root": words[:1], "store_field": words[:1] + words[2:], "store_value": words[:1]}.get(step, [])
    cells += [seat["env"][int(v)] - 1 for v in variables if v != "-" and int(v) < len(seat["env"])]
    return [(c, "the event is about it") for c in cells if 0 <= c < d.layout.cells]


def of_phase(to, d):
    """What a move of the phase would pass over: cells in packets, white roots, cells on dirty cards."""
    found = [(c, f"it waits in packet {p} ({place})") for p, (place, cells) in enumerate(d.packet_rows) for c in cells]
    if to == 3:
        found += [(c, f"variable {v} of section {section} names it, and it isn't marked") for section, v, c in d.root_names() if d.colour(c) in "wu"]
        found += [(c, "its card is dirty") for c in range(d.layout.cells) if d.cards[c // CARD] and d.colour(c) == "g"]
    return found


def ways(c, d):
    """What names a cell: variables, registers, and fields of objects."""
    found = [f"variable {v} of section {section}" for section, v, to in d.root_names() if to == c]
    found += [f"the register of seat {seat['number']}" for seat in d.seats if seat["got"] - 1 == c]
    owed = {seat["owes"]: seat["number"] for seat in d.seats if seat["owes"] is not None}
    for holder in range(d.layout.cells):
        if d.colour(holder) == "f":
            continue
        for field, to in enumerate(d.object(holder)[3]):
            if to == c:
                k = holder // CARD
                owes = f", owed by seat {owed[k]}" if k in owed else ""
                found.append(f"field {field} of {LETTERS[d.colour(holder)]} cell {holder} (card {k}: {CARDS[d.card(k)]}{owes})")
    return found


def objects(seat, step, words, rule, d):
    """The objects in question, each once, with the first reason."""
    found = []
    if seat is not None:
        found = of_event(step, words, seat, d) + in_hand(seat, d.layout, d)
        if seat["owes"] is not None:
            found += [(c, f"it is on card {seat['owes']}, which seat {seat['number']} owes") for c in range(d.layout.cells) if c // CARD == seat["owes"] and d.colour(c) != "f"]
    if rule[1] == 30:
        found += of_phase(int(words[0]), d) + [it for other in d.seats for it in in_hand(other, d.layout, d)]
    first = {}
    for c, why in found:
        first.setdefault(c, why)
    return first


def refusal(layout, state, words, rule, steps):
    """All that is told of a refused event."""
    number, name, parameters = int(words[0]), words[1], words[2:]
    d = Drawn(layout, state[2], state[3])
    seat = d.seats[number] if number < len(d.seats) else None
    told = []
    for c, why in objects(seat, name, parameters, rule, d).items():
        told.append({"cell": c, "why": why, "colour": LETTERS[d.colour(c)], "ways": ways(c, d)})
    lost = read_losses()
    return {
        "rule": rule[1], "part": rule[2], "asks": asked(steps[name], rule[2], parameters),
        "lost": lost.get((rule[1], rule[2])) or lost[0, min(rule[2], 1)], "objects": told[:MOST],
    }
