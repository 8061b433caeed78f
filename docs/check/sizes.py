"""The sizes of a world are those that `IsShape` in crates/mark_core/specs/Shapes.antt allows, wherever they stand: in the libraries, in the header for C, in the
crate for Rust, and on pages. A world has a section for each mutator and one more, and at most as many tracers as seats are left."""
import re
import sys

sys.path.insert(0, "docs")
from pages import stands, text_of  # noqa: E402

CORE, OWN, SHARED, FOR_C = (f"crates/{it}/" for it in ("mark_core", "managed_heap", "shared_heap", "managed_heap_c"))
PAGE, PAGE_C, HEADER, RUST = "docs/EMBEDDING.md", "docs/EMBEDDING_C.md", "c/include/managed_heap.h", "rust/managed_heap/src/"
WORLD = ["cells", "fields", "mutators", "tracers", "slots", "packets", "entries"]
LOWEST = ["fields", "mutators", "packets", "entries"]
SPENT = "has made @most objects"

# The words in which sizes stand: in which file, and of which sizes.
PLACES = [
    (CORE + "src/kinds.rt", " @least to @most..\n    pub NAME: u32,", ["cells", "packets", "entries", "sections", "fields", "objects", "slots", "stretch"]),
    (CORE + "README.md", "@least to @most NAME", ["cells", "packets", "entries", "sections", "fields", "slots"]),
    (CORE + "README.md", "NAME in multiples of @step", ["cells"]),
    (CORE + "README.md", "a number of the shape from @least to @most.", ["objects"]),
    (CORE + "README.md", "stretches of @least to @most blocks", ["stretch"]),
    (CORE + "README.md", "at most @most NAME", ["seats"]),
    ("README.md", "The library takes @least to @most NAME", ["cells"]),
    ("README.md", "a section makes at most @most NAME", ["objects"]),
    (OWN + "README.md", "at most @most NAME", ["cells"]),
    (OWN + "README.md", " @most NAME and ", ["mutators"]),
    (OWN + "README.md", " @most NAME, fixed when it opens", ["tracers"]),
    (OWN + "README.md", SPENT, ["objects"]),
    (OWN + "src/lib.rt", "as the world's sizes say, @least to @most.", ["fields"]),
    (OWN + "src/lib.rt", SPENT, ["objects"]),
    (OWN + "specs/Lending.antt", "NAME = @most;", ["objects"]),
    (SHARED + "README.md", "@least to @most NAME", ["cells", "mutators", "tracers", "slots"]),
    (SHARED + "README.md", "@least to @most references an object", ["fields"]),
    (SHARED + "specs/Lending.antt", "NAME = @most;", ["objects"]),
    (FOR_C + "specs/Sizing.antt", "packets = @packets; entries = usual_..", ["room"]),
    ("crates/seat_turns/src/refused.rt", SPENT, ["objects"]),
    ("crates/seat_steps/src/came.rt", SPENT, ["objects"]),
    (PAGE, "threads share: @least to @most NAME, a multiple of @step.", ["cells"]),
    (PAGE, "bits and @least to @most references", ["fields"]),
    (PAGE, "| Mutators | @least to @most,", ["mutators"]),
    (PAGE, "| Tracers | @least to @most threads", ["tracers"]),
    (PAGE, "| Packets | @packets, each with room for a @partth of the cells, but @least to @most;", ["room"]),
    (PAGE, SPENT, ["objects"]),
    (PAGE, "| Roots | @most NAME a mutator", ["variables"]),
    (PAGE_C, "besides the @most NAME,", ["variables"]),
    (PAGE_C, "`sizes.NAME` for each mutator, @least to @most.", ["slots"]),
    (PAGE_C, "| Heap | @least to @most NAME, a multiple of @step.", ["cells"]),
    (PAGE_C, "bits and @least to @most references", ["fields"]),
    (PAGE_C, "| Roots | @most NAME of each", ["variables"]),
    (PAGE_C, "up to @most NAME more", ["slots"]),
    (PAGE_C, "| Threads | @least to @most NAME", ["mutators"]),
    (PAGE_C, "and @least to @most NAME, each", ["tracers"]),
    (PAGE_C, "A world has @least to @most NAME", ["tracers"]),
    (HEADER, "Sizes of a world: NAME @least to @most, a multiple of @step;", ["cells"]),
    (HEADER, "; references in an object @least to @most;", ["fields"]),
    (HEADER, "; NAME @least to @most;", ["mutators", "tracers"]),
    (HEADER, "the NAME of a mutator, @least to @most in a shared world", ["slots"]),
    (HEADER, SPENT, ["objects"]),
    (HEADER, "MH_VARIABLES = @most ", ["variables"]),
    (RUST + "error.rs", SPENT, ["objects"]),
    (RUST + "world.rs", "So many NAME, @least to @most in multiples of @step:", ["cells"]),
    (RUST + "world.rs", ", @least to @most..\n    pub fn NAME(", ["fields", "mutators", "tracers", "slots"]),
    ("docs/SCHEDULES.md", "| NAME | @least | @most |", ["packets", "entries", "sections", "fields", "seats"]),
    ("crates/schedule_check/specs/Schedule.antt", "is_between @least @most s.NAME", ["packets", "entries", "sections", "fields"]),
    ("docs/STEPS.md", "(`NAME`, @least to @most)", ["slots", "stretch"]),
    ("docs/FORMATS.md", "the fields of an object (@least to @most),", ["fields"]),
    ("docs/FORMATS.md", "the NAME (@least to @most),", ["sections"]),
]


def places_of(sizes):
    """Where the sizes of the libraries' worlds stand."""
    specs, code = OWN + "specs/Sizing.antt", OWN + "src/sizes.rt"
    several = [it for it in sizes if it not in ("packets", "entries", "cells")]
    return [
        (specs, "pub NAME : (@least ≤ s.NAME) × (s.NAME ≤ @most)", LOWEST),
        (specs, "pub NAME : s.NAME ≤ @most", sorted(set(sizes) - {"cells", *LOWEST})),
        (specs, "(block_cells ≤ s.NAME) × (s.NAME ≤ @most) × (s.NAME % block_cells ≡ 0)", ["cells"]),
        (specs, "usual_entries cells = min (max (cells / @part) @least) @most", ["room"]),
        (code, "(cells / @part).max(@least).min(@most)", ["room"]),
        (code, "room for.. a @partth of the.. cells, but @least at least and @most at", ["room"]),
        (code, " packets: @packets,", ["room"]),
        (code, "packets = @packets; entries = usual cells", ["room"]),
        (code, "@least <= self.NAME", LOWEST),
        (code, "self.NAME <= @most", sizes),
        (code, "heap of so many NAME, @least to @most, a multiple of @step.", ["cells"]),
        (code, "/// With this many.., @least to @most..\n    pub fn NAME(self", several),
        (code, "With this many NAME, @least to @most, each", ["packets"]),
        (code, "room for this many cells, @least to @most,", ["entries"]),
    ]


def sizes():
    """The numbers of each size, by its name, from the definitions of the core."""
    text = text_of(CORE + "specs/Shapes.antt").partition("record IsShape")[2].partition("\n\n")[0]
    numbers = dict(re.findall(r"^(\w+) = (\d+)$", text_of(CORE + "specs/Numbers.antt") + text_of(CORE + "specs/Cards.antt"), re.M))
    read = lambda it: int(numbers.get(it, it))
    found = {name: {"least": 0, "most": read(most)} for name, most in re.findall(r"shape\.(\w+) ≤ (\w+)", text)}
    for least, name in re.findall(r"\((\w+) ≤ shape\.(\w+)\)", text):
        found[name]["least"] = read(least)
    found["cells"]["step"] = read(re.search(r"shape\.cells % (\w+) ≡ 0", text)[1])
    sections, seats = found["sections"]["most"], read("most_seats")
    found["seats"] = {"least": 1, "most": seats}
    found["variables"] = {"most": read("section_variables")}
    found["mutators"] = {"least": 1, "most": sections - 1}
    found["tracers"] = {"least": 0, "most": seats - sections}
    return found


def room():
    """How many packets a world has if nobody says, and how many entries a packet has then."""
    part, least, most = re.search(r"min \(max \(cells / (\d+)\) (\d+)\) (\d+)", text_of(OWN + "specs/Sizing.antt")).groups()
    packets = re.search(r"packets = (\d+); entries = usual cells", text_of(OWN + "src/sizes.rt"))[1]
    return {"part": int(part), "least": int(least), "most": int(most), "packets": int(packets)}


def members(page, pattern):
    """The fields of a struct in their order."""
    inside = re.search(pattern, text_of(page), re.S)[1]
    return re.findall(r"^ +(?:pub )?(?:uint\d+_t )?(\w+)(?:: u\d+,|;)", inside, re.M)


def check_structs():
    """What C hands over, and what it reads, has the same fields in the same order on both sides."""
    for name in ("sizes", "numbers"):
        here = members(FOR_C + "src/sizes.rt", rf"pub struct C{name.title()} \{{(.*?)\n\}}")
        for page, head in [(HEADER, f"typedef struct mh_{name}"), (RUST + "library.rs", f"struct Raw{name.title()}")]:
            there = members(page, rf"{head} \{{(.*?)\n\}}")
            if there != here or not here:
                print(f"{page}: {head}: {there}, where {FOR_C}src/sizes.rt has {here}")


def main():
    found = {**sizes(), "room": room()}
    for page, told, names in PLACES + places_of(WORLD):
        for name in names:
            stands(name, page, told.replace("NAME", name), found[name])
    check_structs()


if __name__ == "__main__":
    main()
