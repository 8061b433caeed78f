"""Schedules by the rules of docs/SCHEDULES.md, on their own: nothing here is taken from the program.

`read` gives the events of a schedule, or raises its `Fault`. Which events are allowed isn't worked out here. It is known of the examples
of the documents; of every other schedule `why_wrong` judges what holds whatever the rules are: what is accepted has all events, and what
is refused is refused at one of its events, by the rule of that event's step.
"""

import re

from language import Fault

NUMBER = re.compile(r"[0-9]+\Z")
MOST = 4_194_304
EVENTS = 100_000
SHAPE = ((64, 65_536), (2, 1_024), (2, 512), (1, 33), (1, 16), (1, 41))

# The greatest number of each sort of parameter: small numbers, numbers, words, false or true, phases.
GREATEST = {"s": 255, "n": 4_294_967_295, "w": 18_446_744_073_709_551_615, "b": 1, "p": 5}

# The rule of each step and the sorts of its parameters; o is a small number or none.
STEPS = {
    "reserve": (1, ""), "take": (2, "sn"), "give": (3, "nb"), "credit": (4, ""), "push": (5, "nn"), "pop": (6, "n"), "look": (7, "sn"),
    "read_count": (8, ""), "read_alloc": (9, "n"), "read_field": (10, "ns"), "read_root": (10, "ns"), "set_mark": (11, "n"),
    "dirty_card": (12, "n"), "clear_card": (13, "n"), "read_marks": (14, "n"), "read_card": (15, "n"), "read_phase": (16, ""),
    "read_own": (17, "ns"), "read_value": (17, "n"), "read_ident": (17, "n"), "read_cat": (17, "s"), "store_field": (18, "sso"),
    "store_value": (18, "sn"), "store_root": (19, "sw"), "claim_block": (20, "n"), "release_block": (21, ""), "read_free": (22, ""),
    "store_new": (23, "nsw"), "publish_cells": (24, ""), "enter_step": (25, ""), "leave_step": (26, ""), "raise_step": (27, ""),
    "observe": (28, ""), "drop_step": (29, ""), "store_phase": (30, "p"), "split": (31, ""), "join": (32, "n"), "next_block": (33, ""),
    "next_of_cards": (33, ""), "read_block_marks": (34, ""), "store_alloc": (35, ""), "clear_marks": (36, ""), "wipe_card": (37, "n"),
    "store_position": (38, "n"), "store_named": (38, ""), "reset": (38, "s"), "add_stat": (39, "snb"), "read_stat": (40, "s"),
    "store_length": (41, "n"), "read_length": (42, "n"), "open_step": (43, ""), "join_help_step": (44, ""), "leave_help_step": (45, ""),
    "close_step": (46, ""), "see_help": (47, ""), "read_season": (48, ""), "next_season": (49, ""), "read_weak": (54, "n"),
    "check_card": (55, "n"),
}


def is_of(sort, word):
    if sort == "o":
        return word == "-" or is_of("s", word)
    return NUMBER.match(word) is not None and int(word) <= GREATEST[sort]


def check_shape(words):
    """Raises the fault of a line that has to be the shape."""
    if len(words) != 7 or words[0] != "shape" or not all(NUMBER.match(word) for word in words[1:]):
        raise Fault("23 BadShape")
    numbers = [int(word) for word in words[1:]]
    if numbers[0] % 64 or not all(least <= number <= most for number, (least, most) in zip(numbers, SHAPE)):
        raise Fault("23 BadShape")


def is_event(words):
    if len(words) < 2 or not is_of("n", words[0]) or words[1] not in STEPS:
        return False
    sorts = STEPS[words[1]][1]
    return len(words) == 2 + len(sorts) and all(map(is_of, sorts, words[2:]))


def read(source):
    """The events of a schedule, each its line and the words of its step."""
    if len(source) > MOST:
        raise Fault("26 TooLong")
    foreign = re.search(rb"[^\n -~]", source)
    if foreign:
        raise Fault(f"21 NotAscii offset {foreign.start()}")
    lines = [[word for word in text.split(" ") if word] for text in source.decode().split("\n")]
    if lines[0] != ["gcschedule", "1"]:
        raise Fault("22 BadHeader")
    lines = [(line, words) for line, words in enumerate(lines[1:], 2) if words and not words[0].startswith("#")]
    check_shape(lines[0][1] if lines else [])
    for number, (line, words) in enumerate(lines[1:], 1):
        if not is_event(words):
            raise Fault(f"24 BadEvent line {line}")
        if number > EVENTS:
            raise Fault(f"25 TooManyEvents line {line}")
    return [(line, words[1:]) for line, words in lines[1:]]


def end_of(count):
    """What is told of so many accepted events, as a pattern."""
    return rf"accepted {count}\nphase [0-5]\nempty [0-9]+\nmarked [0-9]+\nused [0-9]+\nclosed (yes|no)\n"


def front(source, line):
    """What stands before a line."""
    return b"".join(source.splitlines(keepends=True)[: line - 1])


def why_wrong(source, status, text):
    """What is wrong with an answer as far as it can be told, and the line that was refused, if one was."""
    try:
        events = read(source)
    except Fault as fault:
        return None if (status, text) == (2, f"{fault}\n") else f"{text!r} and not {fault}", None
    if status == 0:
        return None if re.fullmatch(end_of(len(events)), text) else f"{text!r} of {len(events)} events", None
    refused = re.fullmatch(r"refused line ([0-9]+) rule ([0-9]+) part [0-9]+\n", text)
    if status != 7 or refused is None:
        return f"status {status}, {text!r}", None
    line, rule = int(refused[1]), int(refused[2])
    rules = [STEPS[words[0]][0] for place, words in events if place == line]
    return None if rules == [rule] else f"{text!r}, where the rules are {rules}", line
