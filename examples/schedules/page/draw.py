"""What a page shows of a state: each thing under a key of its own, so that a page keeps of each event only what changed."""
from steps import PHASES, POOLS

FLAG = 1 << 32
BLOCK, CARD = 64, 16


def has(words, cell):
    """Whether a cell's bit is set in the words of the blocks."""
    return words[cell // BLOCK] >> cell % BLOCK & 1 == 1


def cells_of(word, block):
    """The cells of a block whose bits are set."""
    return [BLOCK * block + bit for bit in range(BLOCK) if word >> bit & 1]


class Drawn:
    """A state, cut into its regions."""

    def __init__(self, layout, words, seats):
        self.layout, self.words, self.seats = layout, words, seats
        for name in layout.at:
            setattr(self, name, layout.cut(words, name))
        self.packet_rows = [self.packet(p) for p in range(layout.packets)]
        self.made = {c for seat in seats if seat["cache"] for c in self.made_by(seat["cache"])}
        self.grey = self.waiting()

    def made_by(self, cache):
        """The cells that a seat made and hasn't published, and the one that it is making."""
        making = [cache["making"]] if cache["making"] is not None else []
        return cells_of(cache["used"], cache["block"]) + making

    def packet(self, p):
        """Where a packet is, and the cells in it; None where its holder doesn't know its length."""
        length = self.heads[p]
        place = ""
        for q, name in enumerate(POOLS):
            if self.pools[q * self.layout.groups + p // 64] >> p % 64 & 1:
                place = name
        for seat in self.seats:
            for held, known, _ in seat["held"]:
                if held == p:
                    place, length = f"seat {seat['number']}", known if known is not None else length
        begin = p * self.layout.entries
        return [place, [it - 1 for it in self.entries[begin : begin + length]]]

    def waiting(self):
        """The cells that wait: in a packet, in a seat's hand, or on a card that is dirty or being cleaned."""
        found = {c for _, entries in self.packet_rows for c in entries}
        for seat in self.seats:
            found |= {seat[it] for it in ("popped", "fresh") if seat[it] is not None}
            if seat["scan"] is not None and seat["next"] < self.layout.fields:
                found.add(seat["scan"])
            found |= set(self.left(seat["cleaning"]))
        return found | {c for c in range(self.layout.cells) if self.cards[c // CARD]}

    def left(self, cleaning):
        """The cells of a card in cleaning that are left to scan: all, while it isn't known which are marked."""
        if cleaning is None:
            return []
        if cleaning["known"]:
            return cells_of(cleaning["left"], cleaning["card"] * CARD // BLOCK)
        return range(cleaning["card"] * CARD, cleaning["card"] * CARD + CARD)

    def colour(self, c):
        """The letter of a cell: free, unpublished (v if marked), white, grey, black."""
        if not has(self.allocs, c):
            return ("v" if has(self.marks, c) else "u") if c in self.made else "f"
        if not has(self.marks, c):
            return "w"
        return "g" if c in self.grey else "b"

    def card(self, k):
        """The letter of a card: clean, dirty, being cleaned, or both."""
        cleaned = any(seat["cleaning"] and seat["cleaning"]["card"] == k for seat in self.seats)
        return ("x" if cleaned else "d") if self.cards[k] else ("k" if cleaned else "c")

    def object(self, c):
        """The section and number of a cell's object, its value and its references."""
        begin = c * self.layout.fields
        identity = self.identities[c]
        return [identity >> 32, identity & FLAG - 1, self.values[c], [it - 1 for it in self.fields[begin : begin + self.layout.fields]]]

    def root_names(self):
        """Each variable that isn't nil: its section, its number, and the cell."""
        return [[at // 32, at % 32, it - 1] for at, it in enumerate(self.roots) if it]

    def counted(self, word):
        return [word & FLAG - 1, word >> 32]


def standing(seat):
    """How a seat stands to the world."""
    if seat["spent"]:
        return "was joined into another"
    if seat["knows"]:
        return "has stopped the world" + (", and is alone" if seat["alone"] else ", and isn't alone")
    if seat["raised"]:
        return "asks for a stop"
    if seat["active"]:
        return "runs"
    if seat["counted"]:
        return "is counted, and has to leave"
    if seat["helping"]:
        return "helps" if seat["admitted"] else "is counted as a helper, and has to leave"
    return "is outside"


def named(cells):
    return ", ".join(f"cell {c}" for c in cells) if cells else "no cell"


def making_of(cache):
    """What a seat knows of the block in which it makes cells."""
    told = [f"block {cache['block']}"]
    told.append("its free cells aren't read" if cache["unread"] else f"{bin(cache['free']).count('1')} cells free")
    if cache["used"]:
        told.append("made and unpublished: " + named(cells_of(cache["used"], cache["block"])))
    if cache["making"] is not None:
        told.append(f"making cell {cache['making']}, part {cache['part']} next")
    return ", ".join(told)


def cleaning_of(cleaning):
    """What a seat knows of the card that it cleared."""
    told = f"card {cleaning['card']}"
    if not cleaning["known"]:
        return told + ", its marked cells unknown"
    told += ", left to scan: " + named(cells_of(cleaning["left"], cleaning["card"] * CARD // BLOCK))
    return told + (", to be dirtied again" if cleaning["redirty"] else "")


def facts(seat):
    """What a seat knows and has in hand, each as a name and words."""
    block, word = seat["block"], lambda held: "unread" if held is None else str(held)
    told = [
        ("phase read", None if seat["phase_seen"] is None else PHASES[seat["phase_seen"]]),
        ("season read", None if seat["season_seen"] is None else str(seat["season_seen"])),
        ("variables", ", ".join(f"{v}: cell {r - 1}" for v, r in enumerate(seat["env"]) if r)),
        ("register", f"cell {seat['got'] - 1}" if seat["got"] else None),
        ("owes", None if seat["owes"] is None else f"card {seat['owes']}"),
        ("makes cells in", making_of(seat["cache"]) if seat["cache"] else None),
        ("packets in hand", ", ".join(f"packet {p}, length {word(n)}{'' if kept else ', head behind'}" for p, n, kept in seat["held"])),
        ("reservation", "out" if seat["reserved"] else None),
        ("credit", "out" if seat["credit"] else None),
        ("value", None if seat["value"] is None else f"cell {seat['value']}, not marked yet"),
        ("fresh", None if seat["fresh"] is None else f"cell {seat['fresh']}, marked and not pushed yet"),
        ("popped", None if seat["popped"] is None else f"cell {seat['popped']}{', seen unpublished' if seat['clear'] else ''}"),
        ("scan", None if seat["scan"] is None else f"cell {seat['scan']}, field {seat['next']} next"),
        ("cleaning", cleaning_of(seat["cleaning"]) if seat["cleaning"] else None),
        ("block in hand", f"{block['block']}, of the stretch to {block['until'] - 1}" if block else None),
        ("help", "opened" if seat["opened"] else None),
        ("drain", "exact" if seat["exact"] else None),
        ("objects made", str(seat["made"]) if seat["made"] else None),
    ]
    return [[name, it] for name, it in told if it]


def view(layout, words, seats):
    """All that is shown of a state."""
    d = Drawn(layout, words, seats)
    shown = {
        "WORLD": d.counted(d.single[0]), "PHASE": d.single[1], "EMPTY": d.single[2], "NEXTCARD": d.single[3], "NEXTBLOCK": d.single[4],
        "HELP": d.counted(d.help[0]), "SEASON": d.help[1], "owners": d.owners, "roots": d.root_names(), "packets": d.packet_rows,
        "colours": "".join(map(d.colour, range(layout.cells))), "cards": "".join(map(d.card, range(layout.cells // CARD))),
    }
    for seat in seats:
        shown[f"seat{seat['number']}"] = {"standing": standing(seat), "section": seat["section"], "got": seat["got"] - 1, "facts": facts(seat)}
    for c, letter in enumerate(shown["colours"]):
        if letter != "f":
            shown[f"cell{c}"] = d.object(c)
    return shown


def changes(before, after):
    """What changed; a key that is gone is None."""
    gone = {key: None for key in before if key not in after}
    return {**gone, **{key: it for key, it in after.items() if key not in before or before[key] != it}}
