"""Sizes as pages, definitions, Rust and C++ tell them, worked out for a shape. A name stands for a number of the shape, or for a formula that is told of it."""
import re

NOTES = re.compile(r" as usize|\b(?:shape|sh|of)\.| sh\b(?!\.)|(?<=\d)_(?=\d)")
CALL = re.compile(r"\b(\w+)\(shape\)")


class Formulas(dict):
    """What names stand for: numbers, or formulas that are worked out as they are asked for."""

    def __init__(self, numbers, told):
        super().__init__(numbers)
        self.told = told

    def __missing__(self, name):
        self[name] = value(self.told[name], self)
        return self[name]


def value(text, known):
    """The number that a formula says, if these names are known; the name of a function of the shape begins with of_."""
    text = NOTES.sub("", CALL.sub(r"of_\1", text)).replace("×", "*").replace("/", "//")
    return eval(text, {"__builtins__": {}}, known)
