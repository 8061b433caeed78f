"""The states that a schedule goes through, as the program `schedule_states` writes them: rows of JSON, each a name and numbers."""
import json
import os
import subprocess

from steps import TOP, meaning_of_fault

VARIABLES = 32
SINGLE = ["WORLD", "PHASE", "EMPTY", "NEXTCARD", "NEXTBLOCK", "NAMED", "LAST", "RESCANNED", "TRACED", "FREE", "DONE"]


class Unshown(Exception):
    """Why a schedule has no states."""


def program():
    """The proved program if it is built, otherwise an unproved one, which tools/program.sh compiles once and keeps."""
    found = subprocess.run(["sh", os.path.join(TOP, "tools", "program.sh"), "schedule_states", "schedules"], stdout=subprocess.PIPE, text=True, check=False)
    if found.returncode:
        raise SystemExit(found.returncode)
    return found.stdout.strip()


def rows_of(paths):
    """The rows of each file, or why there are none."""
    file, told = program(), []
    for path in paths:
        with open(path, "rb") as it:
            ran = subprocess.run([file], stdin=it, capture_output=True, text=True, check=False)
        told.append(rows(ran.stdout, ran.returncode))
    return told


def rows(text, status):
    if status == 2:
        number, name, *place = text.split()
        return Unshown(f"{' '.join(place)}{': ' if place else ''}{name}: {meaning_of_fault(number)}")
    if status == 3:
        name, number, most = json.loads(text)
        return Unshown(f"{name} to draw: {number}, where at most {most} are drawn")
    if status not in (0, 7):
        return Unshown(f"the program ended with status {status}: {text[-200:]}")
    return [json.loads(line) for line in text.splitlines()]


class Layout:
    """Where each region of words begins (docs/STEPS.md, Words)."""

    def __init__(self, shape):
        self.cells, self.packets, self.entries, self.sections, self.fields, self.seats = shape
        groups = (self.packets + 63) // 64
        regions = [
            ("single", len(SINGLE)), ("positions", self.sections), ("roots", VARIABLES * self.sections), ("owners", self.cells // 64),
            ("allocs", self.cells // 64), ("marks", self.cells // 64), ("cards", self.cells // 16), ("heads", self.packets),
            ("entries", self.packets * self.entries), ("identities", self.cells), ("values", self.cells), ("fields", self.cells * self.fields),
            ("pools", 4 * groups), ("help", 2),
        ]
        self.at, begin = {}, 0
        for name, many in regions:
            self.at[name] = (begin, begin + many)
            begin += many
        self.groups = groups

    def cut(self, words, name):
        begin, end = self.at[name]
        return words[begin:end]

    def name_of(self, index):
        """A word by its index, as a reader calls it."""
        for name, (begin, end) in self.at.items():
            if begin <= index < end:
                return self.called(name, index - begin)
        return "no word"

    def called(self, region, n):
        several = {
            "single": lambda: SINGLE[n],
            "positions": lambda: f"the position of section {n}",
            "roots": lambda: f"variable {n % VARIABLES} of section {n // VARIABLES}",
            "owners": lambda: f"the owner of block {n}",
            "allocs": lambda: f"the allocation bits of block {n}",
            "marks": lambda: f"the mark bits of block {n}",
            "cards": lambda: f"card {n}",
            "heads": lambda: f"the length of packet {n}",
            "entries": lambda: f"entry {n % self.entries} of packet {n // self.entries}",
            "identities": lambda: f"the identity of cell {n}",
            "values": lambda: f"the value of cell {n}",
            "fields": lambda: f"field {n % self.fields} of cell {n // self.fields}",
            "pools": lambda: f"packets {64 * (n % self.groups)} and on of the {['empty', 'low', 'high', 'deferred'][n // self.groups]} pool",
            "help": lambda: ["HELP", "SEASON"][n],
        }
        return several[region]()


def optional(number):
    """A number that may be missing: 0, or the number and 1."""
    return number - 1 if number else None


def seat_of(rows_of_seat):
    """The record of a seat by the names of `crates/mark_core/src/seat.rt`, of its eight rows."""
    found = {row[0]: row[1:] for row in rows_of_seat}
    names = "number section counted active raised knows helping admitted opened alone exact phase_seen seen season made spent".split()
    seat = dict(zip(names, found["seat"]))
    seat["section"], seat["phase_seen"] = optional(seat["section"]), optional(seat["phase_seen"])
    seat["season_seen"] = seat.pop("season") if seat.pop("seen") else None
    slots = found["packets"]
    seat["held"] = [(slots[at] - 1, optional(slots[at + 1]), slots[at + 2]) for at in range(0, len(slots), 3) if slots[at]]
    hand = found["hand"]
    seat.update(reserved=hand[0], credit=hand[1], popped=optional(hand[2]), clear=hand[3], scan=optional(hand[4]), next=hand[5])
    seat.update(value=optional(hand[6]), fresh=optional(hand[7]), owes=optional(hand[8]), got=hand[9], env=found["variables"])
    seat["cleaning"] = dict(zip(["card", "known", "left", "published", "redirty"], [found["cleaning"][0] - 1, *found["cleaning"][1:]])) if found["cleaning"][0] else None
    cache = found["cache"]
    seat["cache"] = dict(zip(["block", "unread", "free", "used", "making", "part", "last"], [cache[0] - 1, *cache[1:4], optional(cache[4]), cache[5], optional(cache[6])])) if cache[0] else None
    block = found["block"]
    names = ["block", "until", "alloc_read", "alloc", "mark_read", "mark", "stored"]
    seat["block"] = dict(zip(names, [block[0] - 1, *block[1:]])) if block[0] else None
    return seat


def states_of(all_rows):
    """The layout, each state as (line, index of the word, words, seats), the first of line 0, and how it ends: None, or the line, rule and part."""
    layout, states, end = Layout(all_rows[0][1:]), [(0, None, None, [])], None
    for row in all_rows[1:]:
        if row[0] == "event":
            states.append((row[1], row[2], None, []))
        elif row[0] == "refused":
            end = tuple(row[1:])
        elif row[0] == "words":
            states[-1] = states[-1][:2] + (row[1:], [])
        elif row[0] == "seat":
            states[-1][3].append([row])
        elif row[0] != "accepted":
            states[-1][3][-1].append(row)
    return layout, [(line, at, words, [seat_of(it) for it in seats]) for line, at, words, seats in states], end
