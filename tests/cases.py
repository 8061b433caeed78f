"""The runs that `memory.py` and `streams.py` disturb: words, a source, and the answer that the plain play asks for.

A command that is added to the program gets its lines here, with the answer worked out by hand or by the judges beside this file
(`language` and `plain`, `dumps`, `batches`). What is told of a schedule stands in the examples of the documents.
"""

import os

import batches
import dumps
import language
from plain import Play

FIRST = b"gcscript 1\nwarehouse\nnew x 5\nsay a x\n"

TWO = b"""gcscript 2
fields 2
catalogue
new item 40
warehouse
cat a item
repeat 3
new b 7
set b 1 a
end
sum s b 1 9
put a 3
warehouse
nil c
say n c
"""

SEASONS = b"""gcscript 3
fields 1
catalogue
new a 1
season
new a 2
warehouse
cat x a
say p x
season
cat y a
say q x
say r y
collect
warehouse
new z 4
set z 0 z
season
sum t z 0 5
"""

# Each of three warehouses makes more objects than the heap has cells, and keeps the last two.
CHURN = b"gcscript 1\n" + 3 * b"warehouse\nnew a 1\nrepeat 200\nnew b 2\nset b 0 a\nlet a b\nnil c\nset a 0 c\nend\ncollect\nsay v a\n"

FULL = b"gcscript 1\nwarehouse\nnil x\nrepeat 65\nnew y 1\nset y 0 x\nlet x y\nend\n"
FULL_TEXT = b"full section 1\nposition 0 0\nposition 1 193\n"

# Two fields, a record of the catalogue that warehouse 2 refers to, and two records that no variable leads to.
TANGLED = dumps.MAGIC + dumps.numbers([2, 3, 4] + 64 * [0] + [2] + 31 * [0] + [0, 7, 1, 0, 0, 2, 0, 2, 1, 0, 2, 3, 5, 4, 3, 2, 9, 5, 3, 1])

USAGE = b"usage: gcplay command [options]\n"

# Of the runs, and of what else is tried in turn, each so many is taken.
EVERY = int(os.environ.get("EVERY", "1"))

GENERATED = b"gcscript 1\n" + 4 * b"warehouse\nnil a\nnil b\nnil c\nnil d\nnil e\nnil f\nnil g\nnil h\n"
LOADED = b"commands 32\nobjects 0\nlines 0\nsurvivors 0\ntotal 0\n"

NARROW = ["--cells", "64", "--workers", "2", "--tracers", "1", "--packets", "2", "--entries", "2"]


EXAMPLES = os.path.join(os.path.dirname(os.path.abspath(__file__)), "..", "examples", "schedules")


def example(name, end):
    """A schedule of the documents (`gs`), or what is told of it (`out`)."""
    verdict = "accepted" if os.path.exists(os.path.join(EXAMPLES, "accepted", f"{name}.gs")) else "refused"
    with open(os.path.join(EXAMPLES, verdict, f"{name}.{end}"), "rb") as file:
        return file.read()


class Run:
    """Words and a source; whether the words read it; the status and the text that have to come."""

    def __init__(self, words, source=b"", status=None, text=None):
        self.words = words
        self.source = source
        self.reads = words[0] in READERS and text != USAGE
        if text is None:
            self.status, self.text = expected(words[0], source)
        else:
            self.status, self.text = status, text

    def pieces(self):
        """The text as it is handed to the sink: line by line, but for a dump."""
        if self.status == 0 and self.words[0] == "dump":
            return dump_pieces(self.text)
        return self.text.splitlines(keepends=True)


def dump_pieces(text):
    """The head, the sizes, the variables of each section, and each record."""
    dump = dumps.Dump(text)
    sizes = [8, 12] + dump.sections * [128] + dump.count * [12 + 4 * dump.fields]
    return [text[sum(sizes[:i]) : sum(sizes[: i + 1])] for i in range(len(sizes))]


READERS = ("run", "convert", "schedule", "dump", "undump", "census", "batch")


def answered(command, source):
    """The text of a command that is done, if the cells are enough; a `Fault` if the source has one."""
    if command == "convert":
        return language.converted(source)
    if command in ("undump", "census"):
        return dumps.told(command, source)
    if command == "batch":
        return batches.written([expected("run", script) for script in batches.read(source)])
    play = Play(language.read(source))
    return dumps.of(play) if command == "dump" else play.text().encode()


def expected(command, source):
    """What a command that reads has to answer, if the cells are enough."""
    try:
        return 0, answered(command, source)
    except language.Fault as fault:
        return 2, f"{fault}\n".encode()


def every_run():
    return [
        Run(["run"], FIRST),
        Run(["run"] + NARROW, FIRST),
        Run(["run", "--place", "--workers", "1"], FIRST, 0, Play(language.read(FIRST)).text().encode() + b"placed 1\n1 0 0\n"),
        Run(["run"], TWO),
        Run(["run"] + NARROW, TWO),
        Run(["run", "--workers", "1", "--tracers", "0"], SEASONS),
        Run(["run"] + NARROW, SEASONS),
        Run(["run"] + NARROW, CHURN),
        Run(["run", "--cells", "64", "--workers", "32", "--tracers", "8"], CHURN),
        Run(["run", "--cells", "64"], FULL, 3, FULL_TEXT),
        Run(["run"], b"gcscript 1\nwarehouse\nset x 0 x\n"),
        Run(["run"], b"gcscript 1\nwarehouse\nrepeat 2000000\nnew x 1\nnew x 1\nend\n"),
        Run(["run", "--cells", "65"], FIRST, 1, USAGE),
        Run(["bad"], FIRST, 1, USAGE),
        Run(["convert"], FIRST),
        Run(["convert"], SEASONS),
        Run(["convert"], b"gcscript 4\n"),
        Run(["gen", "--number", "1", "--size", "8"], b"", 0, GENERATED),
        Run(["load", "--number", "1", "--size", "8"], b"", 0, LOADED),
        Run(["load", "--number", "1", "--size", "8"] + NARROW, b"", 0, LOADED),
        Run(["schedule"], example("published", "gs"), 0, example("published", "out")),
        Run(["schedule"], example("two_helpers", "gs"), 0, example("two_helpers", "out")),
        Run(["schedule"], example("hidden_cell_lost", "gs"), 7, example("hidden_cell_lost", "out")),
        Run(["schedule"], b"gcschedule 1\nshape 64 2 2 1 1 1\n\n0 take 0\n", 2, b"24 BadEvent line 4\n"),
        Run(["dump"], FIRST),
        Run(["dump"] + NARROW, SEASONS),
        Run(["dump", "--cells", "64", "--workers", "32", "--tracers", "8"], CHURN),
        Run(["dump", "--cells", "64"], FULL, 3, FULL_TEXT),
        Run(["dump"], b"gcscript 1\nwarehouse\nset x 0 x\n"),
        Run(["undump"], dumps.of(Play(language.read(FIRST)))),
        Run(["undump"], TANGLED),
        Run(["undump"], TANGLED[:-1]),
        Run(["census"], dumps.of(Play(language.read(FIRST)))),
        Run(["census"], TANGLED),
        Run(["census"], TANGLED + b"\0"),
        Run(["batch"], batches.of([FIRST, b"", TWO])),
        Run(["batch", "--runners", "8"] + NARROW, batches.of([SEASONS, CHURN, FIRST])),
        Run(["batch", "--runners=1", "--cells=64"], batches.of([FULL]), 0, batches.written([(3, FULL_TEXT)])),
        Run(["batch"], batches.of([FIRST])[:-1]),
    ]


def runs():
    """All of them, or each EVERY-th alone, for a short look."""
    return every_run()[::EVERY]
