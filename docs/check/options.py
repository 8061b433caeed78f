"""The options of gcplay have the ranges, steps and usual numbers of the table in docs/SCRIPTS.md wherever these stand: in code, definitions, tests, programs in
C++ and other pages. docs/check/commands.py compares which command has which option."""
import re
import sys

sys.path[:0] = ["docs", "tests"]
import words  # noqa: E402
from pages import rows_of, stands, text_of  # noqa: E402

WORDS, MEANING = "crates/command_words/specs/Words.antt", "crates/command_words/specs/Commands.antt"
CHOICE = "crates/command_words/src/choice.rt"
RANGES, FIELDS, LIMITS = "crates/play_end/specs/Answers.antt", "crates/play_end/src/options.rt", "crates/play_end/README.md"
PLAY = "cells workers tracers packets entries"

# The words in which the numbers of options stand: in which file, and of which options.
PLACES = [
    (WORDS, 'chosen @least @most (Some @usual) (given (codes "--NAME") all)', f"{PLAY} runners"),
    (WORDS, 'chosen @least @most None (given (codes "--NAME") all)', "number size"),
    (WORDS, "-- @least to @most, ..and @usual if none are given\nabbrev pub NAME ", f"{PLAY} runners"),
    (WORDS, " @least to @most\nabbrev pub NAME ", "size"),
    (WORDS, "a multiple of @step, ..\nabbrev pub NAME ", "cells"),
    (WORDS, "NAME all = ..(λ n. if n % @step == 0 ", "cells"),
    (CHOICE, 'chosen(matches, "NAME", @least, @most, Some(@usual))', f"{PLAY} runners"),
    (CHOICE, 'chosen(matches, "NAME", @least, @most, None)', "number size"),
    (CHOICE, "if NAME % @step == 0 ", "cells"),
    (CHOICE, "a multiple of @step.\nfn NAME(", "cells"),
    (MEANING, "(@least ≤ NAME) × (NAME ≤ @most)", "size runners"),
    (RANGES, "pub NAME : (@least ≤ o.NAME) × (o.NAME ≤ @most)", "cells workers packets entries"),
    (RANGES, "pub NAME : o.NAME ≤ @most", "tracers"),
    (RANGES, "o.NAME % @step ≡ 0", "cells"),
    (FIELDS, " @least to @most..\n    pub NAME: u32", PLAY),
    (FIELDS, "a multiple of @step.\n    pub NAME: u32", "cells"),
    (FIELDS, "\n    NAME: @usual,", PLAY),
    (LIMITS, "@least to @most NAME", PLAY),
    (LIMITS, "NAME in multiples of @step", "cells"),
    ("README.md", "program's heap has @least to @most NAME", "cells"),
    ("crates/job_pool/src/run.rt", "so many NAME, which are @least to @most.", "runners"),
    ("crates/job_pool/src/run.rt", "(@least ≤ NAME) × (NAME ≤ @most)", "runners"),
    ("crates/play_words/src/commands/batch.rt", "(@least ≤ NAME) × (NAME ≤ @most)", "runners"),
    ("crates/load_gen/README.md", "A NAME is @least to @most lines", "size"),
    ("crates/load_gen/src/text.rt", "NAME ≤ @most", "size"),
    ("crates/play_words/src/commands/generate.rt", "NAME ≤ @most", "size"),
    ("crates/play_words/src/commands/load.rt", "NAME ≤ @most", "size"),
    ("bench/peers/text.hpp", " NAME = @usual", PLAY),
    ("tests/words.py", 'name == "NAME" and int(text) % @step', "cells"),
]

# Where options are named, and how: all of them, or those of a play.
NAMES = [(WORDS, r'given \(codes "--(\w+)"\)'), (CHOICE, r'matches, "(\w+)"')]
NAMES_OF_PLAY = [(FIELDS, r"pub (\w+): u32"), (RANGES, r"pub \w+ : .*\bo\.(\w+)"), ("bench/peers/text.hpp", r'take\("--(\w+)"')]


def options():
    """The numbers of each option with a value, by its name."""
    found = {}
    for told, limits, usual in rows_of("docs/SCRIPTS.md", "Option", "Range", "Without it"):
        named = [int(it.replace(",", "")) for it in re.findall(r"\d[\d,]*\b", f"{limits} {usual}")]
        keys = ["least", "most"] + ["step"] * ("multiple" in limits) + ["usual"] * (usual[0].isdigit())
        if limits:
            found[re.match(r"`--(\w+)", told)[1]] = dict(zip(keys, named))
    return found


def check_names(names, places, flags):
    for page, pattern in places:
        for name in sorted(names ^ (set(re.findall(pattern, text_of(page))) - flags)):
            print(f"{page}: {name} stands in this file or in docs/SCRIPTS.md, and not in both")


def check_drawn(found):
    """The ranges from which tests/words.py draws."""
    for drawn in words.OPTIONS.values():
        for name, limits in drawn.items():
            if name not in found or limits != (found[name]["least"], found[name]["most"]):
                print(f"tests/words.py: {name}: {limits}")


def main():
    found = options()
    for page, told, names in PLACES:
        for name in names.split():
            stands(name, page, told.replace("NAME", name), found.get(name, {}))
    check_names(set(found), NAMES, {"place"})
    check_names(set(PLAY.split()), NAMES_OF_PLAY, set())
    check_drawn(found)


if __name__ == "__main__":
    main()
