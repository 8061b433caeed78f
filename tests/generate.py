"""Makes scripts from numbers: the same number gives the same script, which has no fault.

A script is drawn around a number of objects that are to be reachable at once, often just below, at or above a number of cells.
Each warehouse is made of pieces: chains, fans, objects that a store hides from marking, rings, objects lost at once,
collections, and commands drawn one by one.
"""

import random

ROOMS = (20, 60, 63, 64, 65, 70, 100, 127, 128, 129, 200, 1000, 4000, 4095, 4096, 4097, 9000)
WIDE_ROOMS = ROOMS + (30000, 65535, 65536, 65537)
LETTERS = "abcdefghijklmnopqrstuvwxyz"


class Part:
    """Lines of one section, and the names that are known there."""

    def __init__(self, draw, fields, catalogue):
        self.draw = draw
        self.fields = fields
        self.catalogue = catalogue
        self.lines = []
        self.known = []
        self.prints = 0
        self.commands = 0
        self.times = 1

    def say(self, text):
        self.lines.append(text)
        word = text.split()[0]
        if word not in ("repeat", "end", "season"):
            self.commands += self.times
        if word in ("say", "sum"):
            self.prints += self.times

    def give(self, line):
        """A line that gives its name something."""
        name = line.split()[1]
        self.say(line)
        if name not in self.known:
            self.known.append(name)

    def repeat(self, times):
        self.say(f"repeat {times}")
        self.times = times

    def end(self):
        self.say("end")
        self.times = 1

    def field(self):
        return self.draw.randrange(self.fields)

    def value(self):
        return self.draw.choice((0, 1, 7, 4294967295, self.draw.randrange(1000)))


def chain(part, size):
    """A chain of so many objects, walked, and cut or dropped at times."""
    draw, field = part.draw, part.field()
    part.give("nil head")
    part.give("nil node")
    part.repeat(size)
    part.give(f"new node {part.value()}")
    part.say(f"set node {field} head")
    part.give("let head node")
    part.end()
    if not part.catalogue:
        part.say(f"sum chain head {field} {draw.choice((0, 1, size, 65536))}")
    if draw.random() < 0.4:
        part.repeat(draw.randrange(size + 1))
        part.give(f"get node node {field}")
        part.end()
        part.give("nil cut")
        part.say(f"set node {field} cut")
    if draw.random() < 0.5:
        part.give("nil head")


def fan(part, size):
    """A tree in which each object holds as many as it can, level by level along its first fields."""
    part.give(f"new root {part.value()}")
    part.give("let place root")
    made = 1
    while made < size and len(part.lines) < 3000:
        for field in range(part.fields):
            part.give(f"new leaf {part.value()}")
            part.say(f"set place {field} leaf")
            made += 1
            if made >= size:
                break
        part.give(f"get place place {part.draw.randrange(min(2, part.fields))}")
    if not part.catalogue:
        part.say("sum fan root 0 65536")


def hidden(part, size):
    """One object, that two boxes hand to and fro, so that a field loses it as another gets it."""
    for name, value in (("box", 1), ("case", 2), ("gem", 3)):
        part.give(f"new {name} {value}")
    part.give("nil none")
    first, second = part.field(), part.field()
    part.say(f"set box {first} gem")
    part.give("nil gem")
    part.repeat(part.draw.choice((1, 10, size, 300)))
    for here, there in (("box", "case"), ("case", "box")):
        one, other = (first, second) if here == "box" else (second, first)
        part.give(f"get gem {here} {one}")
        part.say(f"set {there} {other} gem")
        part.say(f"set {here} {one} none")
        part.give("nil gem")
        part.give(f"new junk {part.value()}")
    part.end()
    part.give(f"get gem box {first}")
    if not part.catalogue:
        part.say("say gem gem")


def ring(part, size):
    """A ring that is turned, in which each round puts a new object in an old one's place."""
    field = part.field()
    part.give("new first 1")
    part.give("let last first")
    part.repeat(size)
    part.give("new next 2")
    part.say(f"set last {field} next")
    part.give("let last next")
    part.end()
    part.say(f"set last {field} first")
    part.repeat(part.draw.choice((1, size, 2 * size, 500)))
    part.give(f"get old last {field}")
    part.give(f"get after old {field}")
    part.give(f"new next {part.value()}")
    part.say(f"set next {field} after")
    part.say(f"set last {field} next")
    part.give("let last next")
    part.end()
    part.give("nil first")
    part.give("nil old")
    if not part.catalogue:
        part.say(f"sum ring last {field} {part.draw.choice((size, 65536))}")


def lost(part, size):
    """Objects of which each is lost as the next comes."""
    part.repeat(part.draw.choice((size, 100, 1000, 5000)))
    part.give(f"new junk {part.value()}")
    if part.draw.random() < 0.5:
        part.say(f"set junk {part.field()} junk")
    part.end()


def collections(part, size):
    """Precise collections between objects that are lost."""
    if part.catalogue:
        return
    part.give("new kept 9")
    part.repeat(part.draw.choice((1, 3, 20)))
    part.give(f"new more {part.value()}")
    part.say(f"set more {part.field()} kept")
    if part.draw.random() < 0.7:
        part.give("let kept more")
    part.say("collect")
    part.end()
    part.say(f"sum kept kept {part.field()} 100")


def drawn_line(part, names, foreign):
    """One command, drawn."""
    draw = part.draw
    give, read, other = draw.choice(names), draw.choice(part.known), draw.choice(part.known)
    kind = draw.choice(("new", "new", "new", "let", "nil", "set", "set", "set", "get", "get", "cat", "put", "say", "sum"))
    if kind == "new":
        part.give(f"new {give} {part.value()}")
    elif kind == "let":
        part.give(f"let {give} {read}")
    elif kind == "nil":
        part.give(f"nil {give}")
    elif kind == "set":
        part.say(f"set {read} {part.field()} {other}")
    elif kind == "get":
        part.give(f"get {give} {read} {part.field()}")
    elif kind == "put":
        part.say(f"put {read} {part.value()}")
    elif part.catalogue:
        part.give(f"nil {give}")
    elif kind == "cat" and foreign:
        part.give(f"cat {give} {draw.choice(foreign)}")
    elif kind == "say" or kind == "cat":
        part.say(f"say {draw.choice(('s', '#', '~' * 32, '1'))} {read}")
    else:
        part.say(f"sum t {read} {part.field()} {draw.choice((0, 1, 2, 5, 100, 65536))}")


def drawn(part, size, foreign):
    """Commands drawn one by one, some of them in repeats."""
    draw = part.draw
    names = [letter * draw.choice((1, 1, 2, 16)) for letter in draw.sample(LETTERS, draw.randrange(1, 7))]
    part.give(f"new {names[0]} {part.value()}")
    for _ in range(draw.choice((1, 3, 10))):
        times = draw.choice((0, 1, 1, 2, 10, 100))
        if part.prints + times * 20 > 1500:
            times = 1
        part.repeat(times)
        for _ in range(draw.randrange(1, min(20, 3 + size))):
            drawn_line(part, names, foreign)
        part.end()
    if draw.random() < 0.5:
        for name in part.known:
            part.give(f"nil {name}")


PIECES = (chain, chain, fan, hidden, hidden, ring, lost, collections, drawn, drawn)


def make_section(draw, fields, seasons, room, foreign):
    """The lines of a section; `foreign` are the catalogue's names, and None if this is the catalogue."""
    part = Part(draw, fields, foreign is None)
    for season in range(seasons):
        if season:
            part.say("season")
        for _ in range(draw.choice((0, 1, 1, 2, 3))):
            size = draw.choice((1, 2, draw.randrange(1, room + 1), room))
            piece = draw.choice(PIECES)
            if len(part.known) > 20:
                break
            if piece is drawn:
                drawn(part, size, foreign)
            else:
                piece(part, size)
        if foreign and draw.random() < 0.7:
            name = draw.choice(foreign)
            part.give(f"cat item {name}")
            part.say("set item 0 item")
            part.give("new order 5")
            part.say(f"set order {part.field()} item")
            part.say("sum item item 0 1000")
    return part


def spoil(draw, lines):
    """The same script with spaces, notes, and zeros in front of numbers."""
    spoiled = [lines[0]]
    for line in lines[1:]:
        if draw.random() < 0.1:
            spoiled.append(draw.choice(("", "# a note", "   ", "#")))
        if draw.random() < 0.1:
            line = "  " + line.replace(" ", "   ") + " "
        spoiled.append(line)
    return spoiled


def script(number, wide):
    """The script of this number; a wide one may need as many cells as a heap can have."""
    draw = random.Random(number)
    version = draw.choice((1, 2, 3, 3))
    fields = 4 if version == 1 else draw.choice((1, 2, 4, 15, 16))
    warehouses = draw.choice((1, 1, 2, 3, 4, 8, 31, 32))
    room = draw.choice(WIDE_ROOMS if wide else ROOMS)
    seasons = draw.choice((1, 2, 3, 10, 64)) if version == 3 else 1
    share = max(1, room // draw.choice((1, warehouses, warehouses + 1)))
    sections = []
    foreign = []
    if draw.random() < 0.6:
        catalogue = make_section(draw, fields, draw.randrange(1, seasons + 1), draw.choice((1, 4, share)), None)
        foreign = catalogue.known
        sections.append((["catalogue"], catalogue))
    budget = 300_000
    for _ in range(warehouses):
        part = make_section(draw, fields, draw.randrange(1, seasons + 1), share, foreign)
        if part.commands <= budget:
            budget -= part.commands
            sections.append((["warehouse"], part))
    lines = [f"gcscript {version}"] + ([f"fields {fields}"] if version > 1 else [])
    for head, part in sections:
        lines += head + part.lines
    if draw.random() < 0.3:
        lines = spoil(draw, lines)
    return ("\n".join(lines) + draw.choice(("\n", ""))).encode()
