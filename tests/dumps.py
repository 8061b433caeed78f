"""Dumps, their records and their census by the rules of docs/FORMATS.md, on their own: nothing here is taken from the program."""

import collections
import struct

from language import Fault

MAGIC = b"gcdump 1"
MOST = (16, 33, 65_536)
NUMBERS = 2_000_000


def numbers(found):
    """These numbers as a dump has them."""
    return struct.pack(f">{len(found)}I", *found)


def of(play):
    """The dump of what a play without a collector leaves."""
    things = sorted(play.reachable(), key=lambda thing: (thing.section, thing.number))
    references = {thing: k for k, thing in enumerate(things, 1)}
    references[None] = 0
    found = [play.script.fields, len(play.players), len(things)]
    for player in play.players:
        named = [references[thing] for thing in player.env.values()]
        found += named + [0] * (32 - len(named))
    for thing in things:
        found += [thing.section, thing.number, thing.value] + [references[other] for other in thing.fields]
    return MAGIC + numbers(found)


class Dump:
    """What a dump tells, or the `Fault` that bytes have which are none."""

    def __init__(self, source):
        self.take_head(source)
        self.take_length(source)
        found = struct.unpack(f">{len(source) // 4 - 5}I", source[20:])
        size = 3 + self.fields
        self.roots = found[: 32 * self.sections]
        rest = found[32 * self.sections :]
        self.records = [rest[size * k : size * (k + 1)] for k in range(self.count)]
        self.check_records()
        self.check_references()

    def take_head(self, source):
        if len(source) < 20:
            raise Fault("31 Cut needed 20")
        if source[:8] != MAGIC:
            raise Fault("32 BadMagic")
        self.fields, self.sections, self.count = sizes = struct.unpack(">3I", source[8:20])
        if 0 in sizes[:2] or any(size > most for size, most in zip(sizes, MOST)):
            raise Fault("33 BadShape")

    def take_length(self, source):
        length = 20 + 128 * self.sections + self.count * (12 + 4 * self.fields)
        if len(source) < length:
            raise Fault(f"31 Cut needed {length}")
        if len(source) > length:
            raise Fault("34 TooMuch")

    def check_records(self):
        before = (-1, 0)
        for k, (section, number, *_) in enumerate(self.records):
            if section >= self.sections or number >= NUMBERS or (section, number) <= before:
                raise Fault(f"36 BadRecord record {k}")
            before = (section, number)

    def check_references(self):
        for i, reference in enumerate(self.roots):
            if not self.may_refer(i // 32, reference):
                raise Fault(f"35 BadRoot index {i}")
        for k, record in enumerate(self.records):
            for i, reference in enumerate(record[3:]):
                if not self.may_refer(record[0], reference):
                    raise Fault(f"37 BadRef record {k} field {i}")

    def may_refer(self, section, reference):
        return reference == 0 or reference <= self.count and self.records[reference - 1][0] in (0, section)

    def listed(self):
        """What `undump` writes."""
        lines = [f"sections {self.sections} fields {self.fields} records {self.count}\n"]
        lines += [f"{section} {number} {value}\n" for section, number, value, *_ in self.records]
        return "".join(lines)

    def levels(self):
        """The records of each level: those that variables name, then those that a field of the level before names first."""
        seen, level = set(), {reference for reference in self.roots if reference}
        while level:
            yield level
            seen |= level
            level = {other for k in level for other in self.records[k - 1][3:] if other} - seen

    def census(self):
        """What `census` writes."""
        counts = [len(level) for level in self.levels()]
        lines = [f"levels {len(counts)}\n"] + [f"level {n} {count}\n" for n, count in enumerate(counts)]
        lines.append(f"unreached {self.count - sum(counts)}\n")
        for section in range(self.sections):
            values = [record[2] for record in self.records if record[0] == section]
            lines.append(f"section {section} {len(values)} {sum(values)}\n")
        values = collections.Counter(record[2] for record in self.records)
        lines += [f"value {value} {count}\n" for value, count in sorted(values.items())]
        return "".join(lines)


def told(command, source):
    """What `undump` or `census` writes of a dump; a `Fault` if it is none."""
    dump = Dump(source)
    return (dump.listed() if command == "undump" else dump.census()).encode()
