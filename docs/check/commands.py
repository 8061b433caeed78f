"""Each command of gcplay has the options that the lines of usage in docs/SCRIPTS.md say, wherever they stand: in code and definitions of the command line, in
tests and on other pages. What stands in no brackets there is needed, and what has no value is a flag; the table of options agrees."""
import re
import sys

sys.path[:0] = ["docs", "tests"]
import words  # noqa: E402
from pages import rows_of, text_of  # noqa: E402

PAGE, FORMATS = "docs/SCRIPTS.md", "docs/FORMATS.md"
PROGRAM = "crates/command_words/src/program.rt"
PARSING, WORDS = "crates/command_words/specs/Parsing.antt", "crates/command_words/specs/Words.antt"


def usage(page):
    """The names in the lines of usage of a page, by the command; `as run` stands for those of run in docs/SCRIPTS.md."""
    found, run = {}, set(re.findall(r"--(\w+)", re.search(r"^    gcplay run .*$", text_of(PAGE), re.M)[0]))
    for command, told in re.findall(r"^    gcplay (\w+)(.*)$", text_of(page), re.M):
        rest, _, without = told.partition("[as run, without --")
        found[command] = set(re.findall(r"--(\w+)", rest)) | (run - {without.partition("]")[0]} if without else set())
    return found


def of_page():
    """All commands with their options: a command that has no line of usage has none."""
    lines = usage(PAGE)
    names = [name for row in rows_of(PAGE, "Command", "Reads", "Writes") for name in re.findall(r"`(\w+)`", row[0])]
    return {name: lines.get(name, set()) for name in names}


def of_program():
    rows = re.findall(r'name: "(\w+)",\s+options: &\[(.*?)\]', text_of(PROGRAM), re.S)
    return {name: set(re.findall(r'"(\w+)"', told)) for name, told in rows}


def listed(page, told):
    """The names in a list of a file of definitions, with those of the lists that it goes on with."""
    names = set(re.findall(r'codes "(?:--)?(\w+)"', told))
    for other in re.findall(r"\b\w+_(?:options|names)\b", told):
        names |= listed(page, re.search(rf"^{other} = (.*)$", text_of(page), re.M)[1])
    return names


def of_parsing():
    return {name: listed(PARSING, told) for name, told in re.findall(r'\(codes "(\w+)", (.*?)\)$', text_of(PARSING), re.M)}


def of_words():
    """By `by_name`: the list that its command allows."""
    text, found = text_of(WORDS), {}
    for name, told in re.findall(r'bytes_eq name \(codes "(\w+)"\) then (.*)$', text, re.M):
        allowing = told if "allowing" in told else re.search(rf"^{told.split()[0]} all = (.*)$", text, re.M)[1]
        found[name] = listed(WORDS, re.match(r"allowing (\(.*?\) all|\w+ all|\[\])", allowing)[1])
    return found


def of_tests():
    return {name: set(told) | set(words.FLAGS.get(name, ())) for name, told in words.OPTIONS.items()}


def compare(where, found, expected):
    for name in sorted(set(found) | set(expected)):
        if found.get(name) != expected.get(name):
            there, wanted = (sorted(it[name]) if name in it else "no such command" for it in (found, expected))
            print(f"{where}: {name}: {there}, where {PAGE} has {wanted}")


def kinds():
    """The flags, and the options that are needed: by the lines of usage, the table, the code and the definitions."""
    usages, table = "\n".join(re.findall(r"^    gcplay .*$", text_of(PAGE), re.M)), rows_of(PAGE, "Option", "Range", "Without it")
    flags, needed = set(re.findall(r"\[--(\w+)\]", usages)), set(re.findall(r" --(\w+) \w+(?!\])", usages))
    yield "table", {re.match(r"`--(\w+)", row[0])[1] for row in table if not row[1]}, flags
    yield "table", {re.match(r"`--(\w+)", row[0])[1] for row in table if row[2] == "needed"}, needed
    yield PROGRAM, set(re.findall(r'name == "(\w+)"', text_of(PROGRAM))), flags | needed
    yield PARSING, set(re.findall(r'bytes_eq name \(codes "(\w+)"\)', text_of(PARSING))), flags | needed
    yield WORDS, set(re.findall(r'is_set \(given \(codes "--(\w+)"\)', text_of(WORDS))), flags


def main():
    expected = of_page()
    for where, found in [(PROGRAM, of_program()), (PARSING, of_parsing()), (WORDS, of_words()), ("tests/words.py", of_tests())]:
        compare(where, found, expected)
    told = usage(FORMATS)
    compare(FORMATS, told, {name: expected[name] for name in told if name in expected})
    for where, found, wanted in kinds():
        if found != wanted:
            print(f"{where}: flags or needed options: {sorted(found)}, where the lines of usage in {PAGE} have {sorted(wanted)}")


if __name__ == "__main__":
    main()
