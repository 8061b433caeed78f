"""Says which part of which rule a refused schedule breaks, in the words of the tables of docs/STEPS.md. ./schedules uses it.

    python3 docs/reasons.py SCHEDULE.gs LINE KIND PART

It ends with status 1 if the tables don't have that part.
"""
import os
import re
import sys

TOP = os.path.dirname(os.path.dirname(os.path.abspath(__file__)))
sys.path[:0] = [os.path.join(TOP, "docs"), os.path.join(TOP, "bench")]
import figures  # noqa: E402

PAGE = "docs/STEPS.md"
STEP, CONDITION = "Kind and step", "Condition, part by part, and why"


def parts_of(condition):
    """The parts of a condition by their numbers: `1: a tracer. 2: it doesn't hold p`, also `1 and 2 as above`."""
    found = {}
    for numbers, words in re.findall(r"(?:^|(?<=\. ))(\d(?: and \d)*):? (.*?)(?=\. \d(?: and \d)*:|$)", condition):
        found.update((int(it), words.strip(" .")) for it in numbers.split(" and "))
    return found


def rows():
    """The name, the kind and the parts of each step, table by table, in order."""
    for header, lines in figures.tables(PAGE):
        if STEP in header and CONDITION in header:
            for cells in lines:
                kind, name = re.match(r"(\d+) `(\w+)`", cells[header.index(STEP)]).groups()
                yield name, int(kind), parts_of(cells[header.index(CONDITION)])


def asked_of_move(phase):
    """What part 2 of a move to this phase asks, by the phase's number."""
    words = dict(row for header, lines in figures.tables(PAGE) if header[1:2] == ["Word"] for row in ((it[1], it[-1]) for it in lines))
    name = dict(re.findall(r"(\d) (\w+)", words["PHASE"]))[phase]
    header, lines = figures.table(PAGE, "To", "Part 2")
    asked = {row[0]: row[header.index("Part 2")] for row in lines}
    return f"of the move to {name}: {asked[name]}"


def reason(name, part, parameters=("0",)):
    """The words of this part of a step's condition; what is said by another step's row stands there."""
    known = list(rows())
    at = [it[0] for it in known].index(name)
    words = known[at][2][part]
    above = re.fullmatch(r"as (?:part (\d) )?above", words)
    if above:
        return reason(known[at - 1][0], int(above[1] or part))
    if words == "as for a field":
        return reason(name.replace("Value", "Field"), part)
    if words == "as for a variable":
        return reason("StoreRoot", part)
    return asked_of_move(parameters[0]) if words == "what this move asks, below" else words


def main():
    schedule, line, kind, part = sys.argv[1:]
    with open(schedule, encoding="ascii") as it:
        event = it.read().splitlines()[int(line) - 1].split()
    name = "".join(it.capitalize() for it in event[1].split("_"))
    try:
        if (name, int(kind)) not in [it[:2] for it in rows()]:
            raise KeyError(name)
        print(reason(name, int(part), event[2:]))
    except (KeyError, ValueError):
        sys.exit(f"reasons: {PAGE} has no part {part} of kind {kind} with the step {name}")


if __name__ == "__main__":
    main()
