"""Dumps, batches and schedules that are changed at random, so that most have a fault; the same number gives the same input."""

import random
import struct

import batches
import dumps
import language
from cases import CHURN, FIRST, FULL, SEASONS, TANGLED, TWO, example
from plain import Play

DUMPS = [dumps.of(Play(language.read(script))) for script in (FIRST, TWO, SEASONS, CHURN, b"gcscript 2\nfields 16\n")] + [TANGLED]
EDGES = (0, 1, 2, 3, 4, 5, 16, 17, 33, 34, 65_536, 65_537, 1_999_999, 2_000_000, 2**31, 2**32 - 1)

SCHEDULES = [example(name, "gs") for name in ("published", "two_helpers", "precise", "overflow", "deferred", "hidden_cell_lost")]
WORDS = "0 1 2 3 4 5 6 63 64 65 255 256 4294967295 4294967296 18446744073709551615 18446744073709551616 - -1 x 00000000000000000000001 #".split()
STEPS = "take give push pop read_root store_root store_new store_phase reserve credit leave_step enter_step observe split shape".split()


def draw_number(draw, place):
    """Sizes stay close to what they were, so that not every dump is cut short or too long."""
    return draw.choice(EDGES if place > 2 or draw.random() < 0.3 else EDGES[:7])


def dump(number):
    """The changed dump of this number."""
    draw = random.Random(number)
    source = bytearray(draw.choice(DUMPS))
    for _ in range(draw.choice((0, 1, 1, 1, 2, 3))):
        last = (len(source) - 8) // 4 - 1
        place = draw.choice((draw.randrange(3), draw.randint(0, last), draw.randint(0, last), last - draw.randrange(24), last - draw.randrange(24)))
        source[8 + 4 * place : 12 + 4 * place] = struct.pack(">I", draw_number(draw, place))
    if draw.random() < 0.1:
        source[draw.randrange(len(source))] ^= 1 << draw.randrange(8)
    if draw.random() < 0.15:
        del source[draw.randrange(len(source)) :]
    return bytes(source) + draw.choice((b"", b"", b"", b"", b"", b"\0", b"\0\0\0\0"))


def drawn_scripts(draw):
    """A few scripts, or as many as a batch may have, or one more."""
    count = draw.choice((0, 1, 2, 3, 5, 63, 64, 65)) if draw.random() < 0.3 else draw.choice((1, 2, 3))
    choice = (FIRST, b"", b"gcscript 1\n", b"gcscript 9\n", b"job 0\n") + ((TWO, SEASONS, CHURN, FULL) if count < 6 else ())
    return [draw.choice(choice) for _ in range(count)]


def batch(number):
    """The changed batch of this number."""
    draw = random.Random(number)
    source = batches.of(drawn_scripts(draw))
    for _ in range(draw.choice((0, 0, 1, 1, 2))):
        places = [i for i in range(len(source)) if source.startswith(b"job ", i)] or [0]
        place = draw.choice(places) + draw.choice((0, 3, 4, 4, 5, 6))
        source = source[:place] + draw.choice((b"", b"0", b"1", b" ", b"+", b"\n", b"x", b"99999999", b"0" * 40)) + source[place + draw.randrange(2) :]
    if draw.random() < 0.15:
        source = source[: draw.randrange(len(source) + 1)]
    return source


def change_event(draw, line):
    words = line.split(" ")
    place = draw.randrange(len(words))
    kind = draw.randrange(5)
    if kind == 0:
        words.insert(place, draw.choice(WORDS))
    elif kind == 1:
        del words[place]
    elif kind == 2:
        words[min(1, len(words) - 1)] = draw.choice(STEPS)
    else:
        words[place] = draw.choice(WORDS)
    return " ".join(words)


def schedule(number):
    """The changed schedule of this number."""
    draw = random.Random(number)
    lines = draw.choice(SCHEDULES).decode().split("\n")
    for _ in range(draw.choice((0, 1, 1, 2, 3))):
        place = draw.randrange(len(lines))
        kind = draw.randrange(4)
        if kind == 0:
            del lines[place]
        elif kind == 1:
            lines[place:place] = [lines[place]] * draw.choice((1, 2))
        elif kind == 2:
            other = draw.randrange(len(lines))
            lines[place], lines[other] = lines[other], lines[place]
        else:
            lines[place] = change_event(draw, lines[place])
        lines = lines or [""]
    source = "\n".join(lines).encode()
    if draw.random() < 0.05:
        place = draw.randrange(len(source) + 1)
        source = source[:place] + bytes([draw.choice((0, 9, 13, 31, 127, 128, 255))]) + source[place:]
    return source
