"""The words of a heap as the two tables of docs/STEPS.md tell them, for the checks that compare code and definitions with these tables."""
import re

from formulas import value
from pages import rows_of

PAGE = "docs/STEPS.md"


def singles():
    """The single words with their indices."""
    return {word: int(index) for index, word in rows_of(PAGE, "Index", "Word")}


def numbers():
    """Words with the numbers that steps take; the positions' is the first of theirs."""
    found = {word: int(told) for word, told in rows_of(PAGE, "Word", "Number") if told}
    [first] = [told for word, told in rows_of(PAGE, "Words", "What each holds") if word == "`positions`"]
    return {**found, "positions": int(re.search(r"its number is (\d+) and", first)[1])}


def regions():
    """The regions behind that of the single words: the words of each, and its size as a formula."""
    return [(region, re.findall(r"\w+", words), size) for region, words, size in rows_of(PAGE, "Region", "Words", "How many")]


def plain(name):
    return name.replace("_", "").lower()


def compare(where, found, expected):
    for it in sorted({*found, *expected}, key=str):
        if found.get(it) != expected.get(it):
            print(f"{where}: {it}: {found.get(it)}, where {PAGE} has {expected.get(it)}")


def places():
    """Each word with its region and its index there; a word that stands for many has index 0."""
    found = {word: (0, index) for word, index in singles().items()}
    for region, words, _ in regions():
        found.update({word: (int(region), at) for at, word in enumerate(words)})
    return found


def bases(shape):
    """Where each region begins, and behind the last how many words there are."""
    begin, found = len(singles()), {}
    for region, _, size in regions():
        found[int(region)] = begin
        begin += value(size, shape)
    return {**found, "all": begin}
