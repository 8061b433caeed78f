"""Looks for what docs/SHOWN.md names: python3 tests/shown.py. The status is 1 if a test, an edit, a body or a case isn't there."""
import glob
import os
import re
import sys

TOP = os.path.dirname(os.path.dirname(os.path.abspath(__file__)))


def texts(pattern):
    """The texts of these files."""
    for path in glob.glob(os.path.join(TOP, pattern), recursive=True):
        with open(path, encoding="utf-8") as it:
            yield it.read()


def has_test(crate, name):
    """Whether the crate has a test of this name."""
    head = re.compile(r"#\[test\]\s+(?:#\[[^\]]*\]\s+)*fn " + re.escape(name) + r"\(")
    return any(head.search(text) for text in texts(f"crates/{crate}/src/**/*.rt"))


def has_body(crate, what):
    """Whether the crate has a wrong body with this first line."""
    firsts = (part.strip().split("\n")[0] for text in texts(f"tests/bodies/{crate}.txt") for part in text.split("\n\n"))
    return what in firsts


def has_case(crate, file, line):
    """Whether the file of cases has this line; where `; ` ends lines, too, it is one of these."""
    return any(line in re.split("\n|; ", text) for text in texts(f"crates/{crate}/src/tests/{file}"))


def is_there(kind, rest):
    """Whether what is named is there."""
    what = ""
    if kind in ("body", "case"):
        rest, _, what = rest.partition(": ")
    crate, _, name = rest.partition(" ")
    if kind == "test":
        return has_test(crate, name)
    if kind == "body":
        return has_body(crate, what)
    if kind == "case":
        return has_case(crate, name, what)
    folder = {"edit": "must-fail", "ownership": "must-not-compile"}[kind]
    return os.path.exists(os.path.join(TOP, "crates", crate, folder, f"{name}.edit"))


def main():
    with open(os.path.join(TOP, "docs", "SHOWN.md"), encoding="utf-8") as it:
        rows = it.read().partition("\n## ")[2].split("\n")
    named = [span for row in rows for span in re.findall(r"`((?:test|edit|body|ownership|case) [^`]*)`", row)]
    missing = [span for span in named if not is_there(*span.split(" ", 1))]
    bare = [row for row in rows if row.startswith("| ") and "`" not in row.split("|")[2] and not row.startswith("| Promised")]
    for span in missing:
        print(f"isn't there: {span}")
    for row in bare:
        print(f"nothing shows it: {row}")
    print(f"{len(named)} named, {len(missing)} missing")
    sys.exit(1 if missing or bare or not named else 0)


if __name__ == "__main__":
    main()
