"""Names in backquotes stand in the sources, and in the crates and files in which a page says that they stand; paths lead to files.

A name is said to stand in a crate by `name` of `crate`, in `crate` or (`crate`); in a file by `name` in `path`, of `path` or (`path`), by `path` (`name`) or
`path`: `name`, or in the row of a file in the tables that walk through the definitions of a clause.
"""
import glob
import os
import re
import sys

sys.path.insert(0, "docs")
from pages import all_pages  # noqa: E402

NAME = r"`[A-Za-z_][A-Za-z_0-9:-]*`"
NAMES = rf"(?:{NAME}(?:, and |, | and | or ))*{NAME}"
PATH = r"`[A-Za-z_0-9./-]+\.(?:rt|antt|cpp|hpp|h|edit|txt)`"
LOCAL = r"`[A-Za-z_:]+`"
WORD = re.compile(r"[A-Za-z_0-9]+")

NAMED = re.compile(r"`([A-Za-z_][A-Za-z_0-9:]*)`")
LED_TO = re.compile(r"`([A-Za-z_./-]*/[A-Za-z_.]*\.(?:rt|antt|md|sh|cpp|edit))`")
IN_CRATE = re.compile(rf"((?:{LOCAL}(?:, and |, | and ))*{LOCAL}) (?:\(|in |of )`([a-z_]+)`")
IN_FILE = re.compile(rf"({NAMES})(?:,? in |,? of |,? \(|, by )({PATH})")
OF_FILE = re.compile(rf"({PATH})(?: \(|: )({NAMES})")
ROW = re.compile(r"^\| (`[^`]*`) \|(.*`.*)")


def read(path):
    with open(path, encoding="utf-8") as it:
        return it.read()


def sources():
    """The files of the crates, without what is built."""
    found = []
    for at, folders, names in os.walk("crates"):
        folders[:] = [it for it in folders if it != "out"]
        found += [os.path.join(at, name) for name in names]
    return sorted(found)


FILES = sources()
WORDS = {path: set(WORD.findall(read(path))) for path in FILES if path.endswith((".rt", ".antt", ".edit"))}
ALL = set().union(*WORDS.values(), *(WORD.findall(read(path)) for path in glob.glob("examples/c/*.h") + glob.glob("c/include/*.h*")))


def words_of(path):
    if path not in WORDS:
        WORDS[path] = set(WORD.findall(read(path)))
    return WORDS[path]


def last_of(name):
    return name.split("::")[-1]


def is_known(name):
    """Whether some source has the name, or it is that of a crate or of a file of definitions."""
    return name in ALL or os.path.exists(f"crates/{name}") or any(re.search(rf"/{re.escape(name)}[^/]*\.antt$", path) for path in FILES)


def check_known(page, text):
    if page == "tests/README.md":  # it names what scripts read from the environment
        return
    for name in sorted({last_of(it) for it in NAMED.findall(text)}):
        if not is_known(name):
            yield f"{page}: {name}"


def places(page, path):
    """The files that a path on this page may mean."""
    near = [it for it in (path, f"crates/{path}", os.path.join(os.path.dirname(page), path)) if os.path.isfile(it)]
    return near + [it for it in FILES if it.endswith("/" + path)]


def check_paths(page, text):
    for path in sorted(set(LED_TO.findall(text))):
        if "CRATE" not in path and not os.path.exists(path) and not places(page, path):
            yield f"{page}: {path}"


def check_crates(page, text):
    for told, crate in sorted(set(IN_CRATE.findall(text))):
        if not os.path.isdir(f"crates/{crate}"):
            continue
        parts = (f"crates/{crate}/src/", f"crates/{crate}/specs/")
        there = set().union(*(WORDS[path] for path in WORDS if path.startswith(parts)))
        for name in re.findall(r"`([A-Za-z_:]*)`", told):
            if last_of(name) not in there:
                yield f"{page}: {last_of(name)} isn't in {crate}"


def told_of_files(text):
    """Names with the path in which they are said to stand."""
    yield from IN_FILE.findall(text)
    for path, told in OF_FILE.findall(text):
        yield told, path
    if re.search(r"^<!-- closure: ", text, re.M):
        for line in text.split("\n"):
            row = ROW.match(line)
            if row:
                yield row[2], row[1]


def check_files(page, text):
    for told, path in sorted(set(told_of_files(text))):
        path = path.strip("`")
        for name in re.findall(r"`([^`]*)`", told):
            name = last_of(name)
            if not os.path.isdir(f"crates/{name}") and not any(all(part in words_of(it) for part in WORD.findall(name)) for it in places(page, path)):
                yield f"{page}: {name} isn't in {path}"


def main():
    for page in all_pages():
        text = read(page)
        for check in (check_known, check_paths, check_crates, check_files):
            for wrong in check(page, text):
                print(wrong)


if __name__ == "__main__":
    main()
