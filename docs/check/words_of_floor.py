"""The C++ that is timed beside the collector has the words of its heaps where docs/STEPS.md says; and docs/CYCLE.md and docs/PERFORMANCE.md name words of its
tables."""
import re
import sys

sys.path.insert(0, "docs")
from formulas import Formulas  # noqa: E402
from heap_table import PAGE, bases, compare, places, plain, regions, singles  # noqa: E402
from pages import rows_of, text_of  # noqa: E402

FLOOR, ATOMICS = "bench/floor/words.hpp", "bench/atomics.cpp"
# Regions by other names than those of the page.
OTHERS = {"dirty": "cards", "references": "fields"}
SHAPE = {"cells": 640, "packets": 131, "entries": 5, "sections": 3, "fields": 7, "slots": 0}


def begins(shape):
    """Where each region begins, by its first word in lower case."""
    found = bases(shape)
    return {plain(words[0]): found[int(region)] for region, words, _ in regions()} | {"all": found["all"]}


def constants(page):
    """Named numbers of a file, and formulas, by their names."""
    lines = re.findall(r"^constexpr uint64_t (.*);$", text_of(page), re.M)
    return dict(re.findall(r"k(\w+) = ([^,\n]+)", "\n".join(lines)))


def check_singles(page):
    there = {plain(name): int(it) for name, it in constants(page).items() if plain(name) in map(plain, singles())}
    compare(page, there, {plain(it): at for it, at in singles().items() if plain(it) in there})


def floor_begins():
    """Where the heap of the floor has each of its words, by the formulas there."""
    text = text_of(FLOOR)
    names = re.search(r"^    uint64_t (blocks, .*);$", text, re.M)[1].split(", ")
    told = {f"k{name}": it for name, it in constants(FLOOR).items()}
    for name, formula in re.findall(r"^        (\w+) = (.*);$", text, re.M):
        told[f"of_{name}"] = re.sub(rf"(?<!of\.)\b({'|'.join(names)})\b", r"of_\1", formula)
    known = Formulas(SHAPE, told)
    return {"positions": known["kPositions"], **{OTHERS.get(name, name): known[f"of_{name}"] for name in names}}


def check_floor():
    """The heap of the floor, whose sections have no slots."""
    expected = begins(SHAPE)
    expected |= {"season": expected["help"] + 1, "count": expected.pop("all")}
    found = floor_begins()
    compare(FLOOR, {it: found.get(it) for it in expected}, expected)


def check_atomics():
    """The loops over bare words, of one shape; some regions have no name there."""
    told = {f"k{name}": it for name, it in constants(ATOMICS).items()}
    known = Formulas({}, told)
    shape = {**SHAPE, **{name: known[f"k{name.title()}"] for name in SHAPE if name != "slots"}}
    expected = begins(shape)
    expected |= {"season": expected["help"] + 1, "words": expected["all"]}
    there = {OTHERS.get(it.lower(), it.lower()): known[f"k{it}"] for it in constants(ATOMICS) if it.title() not in map(str.title, SHAPE)}
    compare(ATOMICS, {it: at for it, at in there.items() if it in expected}, {it: at for it, at in expected.items() if it in there})


def check_pages():
    """The words that other pages name are those of the tables, and a line of 64 bytes has the first eight."""
    for row in rows_of("docs/CYCLE.md", "Word", "What it counts, and when it rises"):
        for word in row[0].split(", "):
            if word not in places():
                print(f"docs/CYCLE.md: {word} isn't a word of {PAGE}")
    first, rest = re.search(r"Words side by side\.\*\* (.*?) share one line of 64 bytes; (.*?) share the next", text_of("docs/PERFORMANCE.md")).groups()
    named = {it: singles()[it] // 8 for it in re.findall(r"[A-Z]{2,}", first + " " + rest)}
    compare("docs/PERFORMANCE.md", {it: 0 if it in first else 1 for it in named}, named)


def main():
    for page in (FLOOR, ATOMICS):
        check_singles(page)
    check_floor()
    check_atomics()
    check_pages()


if __name__ == "__main__":
    main()
