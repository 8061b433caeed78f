"""Judges what a play wrote, against the play without a collector."""

import bisect

import language
from plain import Play


class Case:
    """A script, its plain play, and what follows from it."""

    def __init__(self, source):
        self.source = source
        self.script = language.read(source)
        self.play = Play(self.script)
        self.text = self.play.text()
        self.peaks = self.play.needs()
        self.one_by_one = sum(any(block for part in section.parts for _, block in part) for section in self.script.sections[1:]) <= 1
        self.ends = [[0] for _ in self.script.sections]
        for _, index, _, done, _ in self.play.turns:
            self.ends[index].append(done)

    def command_at(self, section, position):
        """The word of the executed command at this position of a section, and the season of its part, counted from 0."""
        for season, part in enumerate(self.script.sections[section].parts):
            for times, block in part:
                if position < times * len(block):
                    return block[position % len(block)][0], season
                position -= times * len(block)
        return None, None

    def full_in_order(self, cells):
        """The text of a heap that was found full if the sections play one after another; None if it never is."""
        found = bisect.bisect_left([peak[0] for peak in self.peaks], cells)
        if found == len(self.peaks):
            return None
        _, clock, section, position = self.peaks[found]
        positions = [0] * len(self.ends)
        for _, index, _, done, end in self.play.turns:
            if end > clock:
                break
            positions[index] = done
        positions[section] = position
        return full_text(section, positions)

    def why_not_full(self, cells, text):
        """What is wrong with the text of a full heap; None if its positions fill every cell."""
        lines = [line.split() for line in text.splitlines()]
        section, positions = int(lines[0][2]), [int(line[2]) for line in lines[1:]]
        if text != full_text(section, positions) or len(positions) != len(self.ends):
            return "the text of a full heap has another form"
        word, season = self.command_at(section, positions[section])
        if word != "new":
            return "the next command is no new"
        for index, position in enumerate(positions):
            ends = self.ends[index]
            least = ends[season + 1] if index == 0 and section > 0 else ends[season]
            most = ends[season] if index > 0 and section == 0 else ends[season + 1]
            if not least <= position <= most:
                return f"section {index} can't be at {position} in season {season + 1}"
        count = len(Play(self.script, positions).reachable())
        return None if count == cells else f"{count} objects are reachable in {cells} cells"

    def why_not_placed(self, cells, text, in_order):
        """What is wrong with the lines that follow `placed`; None if no object was put in a reachable one's cell."""
        things = [thing for player in self.play.players for thing in player.things]
        lines = text.splitlines()
        if lines[0] != f"placed {len(things)}" or len(lines) != len(things) + 1:
            return "another number of objects was placed"
        latest, survivors = {}, set()
        for (thing, line) in sorted(zip(things, lines[1:]), key=lambda pair: pair[0].made):
            section, number, cell = (int(word) for word in line.split())
            if (section, number) != (thing.section, thing.number) or cell >= cells:
                return f"line {line}"
            key = cell if in_order else (section, cell)
            if latest.get(key, -1) >= thing.made:
                return f"object {number} of section {section} lies where one was reachable"
            latest[key] = max(latest.get(key, -1), thing.stamp)
            if thing.stamp > self.play.clock:
                if cell in survivors:
                    return f"two survivors lie in cell {cell}"
                survivors.add(cell)
        return None

    def why_wrong(self, status, text, cells, workers, placed):
        """What is wrong with an answer; None if nothing is."""
        in_order = workers == 1 or self.one_by_one
        full = self.full_in_order(cells) if in_order else None
        if status == 3:
            if in_order:
                return None if text == full else "full, but not where it has to be"
            return self.why_not_full(cells, text)
        if status != 0:
            return f"status {status}"
        if full is not None:
            return "not full, but more objects were reachable than there are cells"
        if not text.startswith(self.text):
            return "another text"
        rest = text[len(self.text):]
        if not placed:
            return None if rest == "" else "more text"
        return self.why_not_placed(cells, rest, in_order)


def full_text(section, positions):
    return f"full section {section}\n" + "".join(f"position {i} {p}\n" for i, p in enumerate(positions))
