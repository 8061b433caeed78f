"""Plays a script over a heap without a collector, in which each object stays, and tells when each was reachable last.

The sections are played one after another, season by season. The clock counts their commands. Whenever a reference to an object
is lost, the object is stamped with the clock; in the end each object that nothing refers to any more hands its stamp on to
what it refers to, where that is later. So `stamp` is the command that made the object unreachable.
"""

ALIVE = 1 << 60


class Thing:
    """An object: its section and number, its value and fields, the command that made it, and the one that lost it."""

    __slots__ = ("section", "number", "value", "fields", "made", "stamp")

    def __init__(self, section, number, value, fields, made):
        self.section = section
        self.number = number
        self.value = value
        self.fields = [None] * fields
        self.made = made
        self.stamp = -1


class Player:
    """A section as far as it was played."""

    def __init__(self, index, names):
        self.index = index
        self.env = dict.fromkeys(names)
        self.things = []
        self.lines = []
        self.dropped = 0
        self.done = 0


def walk(thing, field, limit):
    """How many objects a walk visits, and the sum of their values; a ring is walked once and its rounds are counted."""
    seen, values = {}, []
    while thing is not None and len(values) < limit and id(thing) not in seen:
        seen[id(thing)] = len(values)
        values.append(thing.value)
        thing = thing.fields[field]
    count, total = len(values), sum(values)
    if thing is not None and count < limit:
        ring = values[seen[id(thing)]:]
        rounds, rest = divmod(limit - count, len(ring))
        total += rounds * sum(ring) + sum(ring[:rest])
        count = limit
    return count, total


class Play:
    """A play of a script; with `stops`, as far as these positions only."""

    def __init__(self, script, stops=None):
        self.script = script
        self.stops = stops
        self.clock = 0
        self.news = []
        self.turns = []
        self.players = [Player(i, s.names) for i, s in enumerate(script.sections)]
        for season in range(script.seasons()):
            for player, section in zip(self.players, script.sections):
                before = player.done
                if season < len(section.parts):
                    self.play_part(player, section.parts[season])
                self.turns.append((season, player.index, before, player.done, self.clock))

    def play_part(self, player, part):
        for times, block in part:
            for _ in range(times if block else 0):
                if self.stops is None:
                    self.play_block(player, block)
                else:
                    self.play_block(player, block[: max(0, self.stops[player.index] - player.done)])

    def play_block(self, player, block):
        """Does each command of the block."""
        env, catalogue, section = player.env, self.players[0].env, player.index
        clock = self.clock
        for command in block:
            op = command[0]
            if op == "new":
                old = env[command[1]]
                thing = Thing(section, len(player.things), command[2], self.script.fields, clock)
                player.things.append(thing)
                self.news.append((clock, section, player.done + clock - self.clock))
                env[command[1]] = thing
                if old is not None:
                    old.stamp = clock
            elif op in ("let", "nil", "get", "cat"):
                old = env[command[1]]
                if op == "let":
                    env[command[1]] = env[command[2]]
                elif op == "nil":
                    env[command[1]] = None
                elif op == "cat":
                    env[command[1]] = catalogue[command[2]]
                else:
                    base = env[command[2]]
                    env[command[1]] = None if base is None else base.fields[command[3]]
                if old is not None:
                    old.stamp = clock
            elif op == "set":
                base = env[command[1]]
                if base is not None:
                    if base.section == section:
                        old = base.fields[command[2]]
                        base.fields[command[2]] = env[command[3]]
                        if old is not None:
                            old.stamp = clock
                    else:
                        player.dropped += 1
            elif op == "put":
                base = env[command[1]]
                if base is not None:
                    if base.section == section:
                        base.value = command[2]
                    else:
                        player.dropped += 1
            elif op == "say":
                base = env[command[2]]
                player.lines.append(f"{command[1]} {'nil' if base is None else base.value}\n")
            elif op == "sum":
                count, total = walk(env[command[2]], command[3], command[4])
                player.lines.append(f"{command[1]} {count} {total}\n")
            clock += 1
        player.done += clock - self.clock
        self.clock = clock

    def reachable(self):
        """The objects that some section's name leads to, at the end of what was played."""
        seen, left = set(), []
        for player in self.players:
            left.extend(thing for thing in player.env.values() if thing is not None)
        while left:
            thing = left.pop()
            if thing not in seen:
                seen.add(thing)
                left.extend(other for other in thing.fields if other is not None)
        return seen

    def text(self):
        """What `run` writes without `--place`."""
        pieces = []
        for player in self.players[1:]:
            pieces.append(f"warehouse {player.index}\n")
            pieces.extend(player.lines)
            pieces.append(f"dropped {player.dropped}\n")
        left = sorted(self.reachable(), key=lambda thing: (thing.section, thing.number))
        pieces.append(f"survivors {len(left)}\n")
        pieces.extend(f"{thing.section} {thing.number} {thing.value}\n" for thing in left)
        return "".join(pieces)

    def close_stamps(self):
        """Hands stamps on, so that each object's stamp is the command that made it unreachable; `ALIVE` for survivors."""
        things = [thing for player in self.players for thing in player.things]
        for thing in self.reachable():
            thing.stamp = ALIVE
        for first in sorted(things, key=lambda thing: -thing.stamp):
            left = [first]
            while left:
                thing = left.pop()
                for other in thing.fields:
                    if other is not None and other.stamp < thing.stamp:
                        other.stamp = thing.stamp
                        left.append(other)
        return things

    def needs(self):
        """For each `new` in order the reachable objects just before it, if that is more than before any earlier one."""
        lost = sorted(thing.stamp for thing in self.close_stamps())
        peaks, most, gone = [], -1, 0
        for made, (clock, section, position) in enumerate(self.news):
            while gone < len(lost) and lost[gone] < clock:
                gone += 1
            if made - gone > most:
                most = made - gone
                peaks.append((most, clock, section, position))
        return peaks
