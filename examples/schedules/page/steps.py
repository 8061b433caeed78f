"""The kinds of step as docs/STEPS.md tells them: of each its operation, the parts of its condition, and its effect; and its parameters, as docs/SCHEDULES.md does."""
import os
import re
import sys

TOP = os.path.dirname(os.path.dirname(os.path.dirname(os.path.dirname(os.path.abspath(__file__)))))
sys.path[:0] = [os.path.join(TOP, "docs"), os.path.join(TOP, "bench")]
import figures  # noqa: E402
import reasons  # noqa: E402

BY_MOVE = "what this move asks, below"
SCHEDULES = "docs/SCHEDULES.md"
PHASES = ["Idle", "Marking", "Drain", "Sweep", "Clear", "Full"]
POOLS = ["empty", "low", "high", "deferred"]


def plain(text):
    return re.sub(r"\s+", " ", text.replace("`", "").replace("**", "")).strip()


def in_schedules(name):
    """The name of a step as schedules have it: `store_root` of `StoreRoot`."""
    return re.sub(r"(?<!^)(?=[A-Z])", "_", name).lower()


def parts_of(name, condition):
    """The parts of a step's condition in words; part 2 of kind 30 stays as it is, since it depends on the move."""
    found = {}
    for part, words in reasons.parts_of(condition).items():
        found[part] = plain(words if words == BY_MOVE else reasons.reason(name, part))
    return found


def read_parameters():
    """The names of each step's parameters, by its name in schedules."""
    header, rows = figures.table(SCHEDULES, "In STEPS", "Steps, with their parameters")
    return {name: parameters for row in rows for name, *parameters in map(str.split, re.findall(r"`([^`]+)`", row[1]))}


def meaning_of_fault(number):
    """What a fault of a schedule means, by its number."""
    for header, rows in figures.tables(SCHEDULES):
        if header == ["Text", "Meaning"]:
            for text, meaning in rows:
                if text.startswith(f"`{number} "):
                    return plain(meaning)
    return ""


def given(name, parameters, words):
    """An event's parameters, each with its name, and in words where the number alone doesn't say it."""
    told = []
    for parameter, word in zip(parameters, words):
        meant = ""
        if parameter == "r":
            meant = f" (cell {int(word) - 1})" if int(word) else " (nil)"
        elif parameter == "q":
            meant = f" ({POOLS[int(word)]})" if int(word) < len(POOLS) else ""
        elif (name, parameter) == ("store_phase", "p"):
            meant = f" ({PHASES[int(word)]})"
        elif parameter in ("deferred", "down"):
            meant = f" ({['no', 'yes'][int(word)]})"
        told.append(f"{parameter} = {word}{meant}")
    return told


def read_steps():
    """The kinds by the names of their steps in schedules."""
    steps, parameters = {}, read_parameters()
    for header, lines in figures.tables(reasons.PAGE):
        if reasons.STEP not in header or reasons.CONDITION not in header:
            continue
        for row in lines:
            cells = dict(zip(header, row))
            kind, name = re.match(r"(\d+) `(\w+)`", cells[reasons.STEP]).groups()
            steps[in_schedules(name)] = {
                "kind": int(kind), "name": name, "operation": plain(cells["Operation, word"]), "effect": plain(cells["Effect"]),
                "parts": sorted(parts_of(name, cells[reasons.CONDITION]).items()), "parameters": parameters.get(in_schedules(name), []),
            }
    return steps


def asked(step, part, parameters):
    """The part of a condition that an event with these parameters breaks."""
    if part == 0:
        return "there is such a seat, and it wasn't joined into another"
    return plain(reasons.reason(step["name"], part, parameters or ["0"]))
