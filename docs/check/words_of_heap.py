"""The words of a heap stand in the order of the two tables in docs/STEPS.md, with these sizes and numbers, in the code and the definitions of mark_core."""
import re
import sys

sys.path.insert(0, "docs")
from formulas import Formulas, value  # noqa: E402
from heap_table import PAGE, bases, compare, numbers, places, plain, regions, singles  # noqa: E402
from pages import rows_of, says, text_of  # noqa: E402

SPECS, CODE = "crates/mark_core/specs/", "crates/mark_core/src/"
LAYOUT = SPECS + "Layout.antt"
SHAPES = [
    {"cells": 640, "packets": 131, "entries": 5, "sections": 3, "fields": 7, "slots": 1},
    {"cells": 128, "packets": 2, "entries": 17, "sections": 29, "fields": 13, "slots": 23},
]
# Words by other names than those of the page, in lower case and without underscores.
NUMBERS = {"cardcounter": "NEXTCARD", "blockcounter": "NEXTBLOCK", "namednumber": "NAMED", "namedsection": "NAMED", "firstposition": "positions"}
PLACES = {"entry": "entries", "identity": "identities", "slot": "roots"}


def named(found):
    """The same by the names of the page: a single word is in capitals there."""
    known = {plain(it): it for it in singles()} | NUMBERS
    return {known.get(plain(name), name): int(it) for name, it in found}


def first_words():
    """The first word of each region, with the region's number."""
    return {plain(words[0]): int(region) for region, words, _ in regions()}


def check_table():
    """Indices and regions are counted, and a number says where its word stands."""
    compare(f"{PAGE}, index", dict(enumerate(singles())), {index: word for word, index in singles().items()})
    compare(f"{PAGE}, region", dict(enumerate(first_words(), 1)), {region: word for word, region in first_words().items()})
    at, number = singles(), numbers()
    for word in number.keys() - {"NAMED", "positions"}:
        index = at["NEXTCARD"] + number[word] + (number[word] >= number["LAST"])
        compare(f"{PAGE}, the word of number {number[word]}", {word: index}, {word: at[word]})
    compare(f"{PAGE}, number", {it: number[it] for it in ("NAMED", "positions")}, {"NAMED": number["DONE"] + 1, "positions": number["DONE"] + 2})
    says("counters of Reset", PAGE, r"store 0, counter (\d+) to (\d+) ", number["NEXTCARD"], number["FREE"])
    says("statistics of AddStat", PAGE, r"subtract, statistic (\d+) to (\d+) ", number["LAST"], number["DONE"])


def check_numbers():
    """The numbers of counters, of statistics and of what follows them."""
    page = SPECS + "Numbers.antt"
    told = re.findall(r"^(\w+?)(?:_count)? = (\d+)$", text_of(page), re.M)
    compare(page, named(it for it in told if plain(it[0]) in NUMBERS or it[0].upper() in singles()), numbers())
    page = CODE + "numbers.rt"
    told = re.findall(r"^pub const (\w+): u8 = (\d+);$", text_of(page), re.M)
    compare(page, named(it for it in told if it[0] not in ("POOLS", "VARIABLES") and not it[0].endswith("_POOL")), numbers())


def check_pools():
    [told] = [it for word, it in rows_of(PAGE, "Words", "What each holds") if word == "`pools`"]
    expected = {name: number for number, name in re.findall(r"(\d) (\w+)", told.partition("Pools:")[2])}
    for page, pattern in ((CODE + "numbers.rt", r"(\w+)_POOL: u8 = (\d+);"), (SPECS + "Numbers.antt", r"(\w+)_pool_number = (\d+)")):
        compare(page, {name.lower(): number for name, number in re.findall(pattern, text_of(page))}, expected)


def check_record():
    """The record of all words in their order, and where each is read and put."""
    text = text_of(LAYOUT)
    record = re.findall(r"^  pub (\w+) : ", text.partition("pub record Words")[2].partition("\n\n")[0], re.M)
    compare(f"{LAYOUT}: Words", dict(enumerate(map(plain, record))), dict(enumerate(map(plain, places()))))
    for what, pattern in (("words_of", r"(\w+) = slice_index ws (\w+)_word;"), ("put_word", r"(\w+) = one 0 (\w+)_word w\.\1;")):
        found = {plain(name): plain(word) for name, word in re.findall(pattern, text)}
        compare(f"{LAYOUT}: {what}", found, {plain(it): plain(it) for it in singles()})
    expected = {plain(name): place for name, place in places().items() if place[0]}
    for what, pattern in (("words_of", r"^ +(\w+) = (?:slice_index \()?r (\d+)\)? ?(\d*);$"), ("put_word", r"^ +(\w+) = (?:many|one) (\d+) (\d*) ?w\.\1;$")):
        found = {plain(name): (int(region), int(at or 0)) for name, region, at in re.findall(pattern, text, re.M)}
        compare(f"{LAYOUT}: {what}", found, expected)


def check_sizes():
    """The definitions of indices and of the sizes of regions."""
    compare(LAYOUT, named(re.findall(r"^(\w+)_word = (\d+)$", text_of(LAYOUT), re.M)), singles())
    text = "\n".join(text_of(f"{SPECS}{it}.antt") for it in ("Layout", "Numbers", "Cards"))
    told = dict(re.findall(r"^(\w+)(?: sh)? = (.+)$", text, re.M))
    sizes = re.search(r"^region_sizes sh =\n    (.*) ∷ \[\]$", text, re.M)[1].split(" ∷ ")
    for shape in SHAPES:
        found = dict(enumerate(value(it, Formulas(shape, told)) for it in sizes))
        compare(f"{LAYOUT}: size of region", found, dict(enumerate([len(singles()), *(value(size, shape) for _, _, size in regions())])))


def check_note():
    """The names of regions in the note above their sizes."""
    note = re.search(r"-- the lengths of the regions: (.*\n.*)", text_of(LAYOUT))[1].replace("\n--", "")
    told = re.findall(r"(\d+) ([^,]+)", note.replace("allocation bits", "allocs").replace("mark bits", "marks"))
    expected = {region: word for word, region in first_words().items()} | {0: "the single words", len(regions()): "the help and the season word"}
    compare(f"{LAYOUT}: note", {int(region): it for region, it in told}, expected)


def check_places():
    """The place of each word that a step touches."""
    page = SPECS + "Places.antt"
    told = re.findall(r"^the_(\w+) = \((\d+), (\w+)\)$", text_of(page), re.M)
    single = {plain(name.removesuffix("_count")): (int(region), plain(at).removesuffix("word")) for name, region, at in told}
    own = {it: place for it, place in places().items() if place <= (0, singles()["NAMED"]) or (place[0] and it.isupper())}
    compare(page, single, {plain(it): (region, str(at) if region else plain(it)) for it, (region, at) in own.items()})
    many = {name: int(region) for name, region in re.findall(r"^(\w+)_at .*= \((\d+), .*\)$", text_of(page), re.M)}
    compare(page, many, {name: places()[PLACES.get(name, name + "s")][0] for name in many})
    for word in places().keys() - {PLACES.get(name, name + "s") for name in many}:
        if not word.isupper():
            print(f"{page}: no place of {word}")


def check_code():
    """The indices in the code, and the clauses that say where regions begin."""
    page = CODE + "layout.rt"
    told = re.findall(r"^pub const (\w+): usize = (\d+);$", text_of(page), re.M)
    expected = {it: at for it, at in singles().items() if at <= singles()["NAMED"]} | {"SINGLE_WORDS": len(singles())}
    compare(page, named(told), expected)
    compare(page, heads(), first_words())


def heads():
    """The functions of the code that say where a region begins, with the region."""
    clause = r"ensures \{ result ≡ region_base \(region_sizes shape\.now\) (\d+) \}"
    told = re.findall(rf"^pub fn (\w+)\(.*\n(?:    requires .*\n)?    {clause}", text_of(CODE + "layout.rt"), re.M)
    return {name: int(region) for name, region in told}


def check_begins():
    """Where regions begin by the formulas of the code."""
    text = "\n".join(text_of(f"{CODE}{it}.rt") for it in ("layout", "numbers", "cards"))
    told = dict(re.findall(r"^pub const (\w+): \w+ = (\w+);$", text, re.M))
    bodies = re.findall(r"^pub fn (\w+)\(shape: &Shape\) -> \w+\n(?:    .*\n)*?\{\n    (.*)\n\}", text, re.M)
    told.update((f"of_{name}", body) for name, body in bodies)
    for shape in SHAPES:
        known = Formulas(shape, told)
        found = {region: known[f"of_{name}"] for name, region in heads().items()}
        compare(f"{CODE}layout.rt: begin of region", {**found, "all": known["of_total_words"]}, bases(shape))


def check_bases():
    """The bases that are worked out once, by their clauses and by the calls that make them."""
    page = CODE + "bases.rt"
    begun = re.findall(r"ghost (\w+)_begin: \{ \1 ≡ region_base \(region_sizes shape\) (\d+) \}", text_of(page))
    compare(page, {name: int(region) for name, region in begun}, first_words())
    made = dict(re.findall(r"^ +(\w+): layout::(\w+)\(shape\),$", text_of(page), re.M))
    compare(page, made, {name: name for name in [*first_words(), "slots", "pool_words"]})


def main():
    for check in (check_table, check_numbers, check_pools, check_record, check_sizes, check_note, check_places, check_code, check_begins, check_bases):
        check()


if __name__ == "__main__":
    main()
