"""What ./play --help prints: how a script is played, the options and their ranges, and the commands of gcplay, from the lines and tables of docs/SCRIPTS.md."""
import os
import re
import sys
import textwrap

TOP = os.path.dirname(os.path.dirname(os.path.abspath(__file__)))
os.chdir(TOP)
sys.path.insert(0, "docs")
from pages import rows_of, text_of  # noqa: E402

PAGE = "docs/SCRIPTS.md"


def plain(cell):
    """A cell without its links and marks."""
    return re.sub(r" \(\[[^)]*\)\)", "", cell).replace("`", "")


def option(told, limits, usual):
    name, _, what = plain(told).partition(", ")
    return name, "; ".join(it for it in (what, limits, usual if usual == "needed" else f"{usual} if it isn't given" if limits else "") if it)


def print_rows(rows, width):
    for name, words in rows:
        lines = textwrap.wrap(words, 118 - width)
        print(f"  {name:{width}}{lines[0]}")
        for line in lines[1:]:
            print(" " * (width + 2) + line)


def main():
    usages = dict(re.findall(r"^    gcplay (\w+)(.*)$", text_of(PAGE), re.M))
    played = re.findall(r"--(\w+)", usages["run"])
    options = [option(*row) for row in rows_of(PAGE, "Option", "Range", "Without it")]
    print("usage: ./play SCRIPT [OPTIONS]\n\nPlays a script of mutations on a heap that collects garbage. Options:")
    print_rows([it for it in options if it[0].split()[0][2:] in played], 16)
    print_rows([("--trace", "writes a line for each cycle to standard error, by an unproved build; an option of ./play alone")], 16)
    print("\nOther commands are those of the program, crates/gcplay/out/gcplay; sh bench/unproved.sh gcplay FILE makes an unproved one:")
    for names, reads, writes in rows_of(PAGE, "Command", "Reads", "Writes"):
        print_rows([(plain(names), f"reads {plain(reads)}, writes {plain(writes)}")], 16)
        print_rows([("", usages[plain(names)].strip())] if plain(names) in usages else [], 16)
    print("\nOptions of these commands alone:")
    print_rows([it for it in options if it[0].split()[0][2:] not in played], 16)
    print("\nA status other than 0, and all else: docs/SCRIPTS.md")


if __name__ == "__main__":
    main()
