"""Looks for definitions and lemmas that nothing cites: python3 docs/unused.py [FOLDER]. It goes by text, and prints each with its file; the status is 1 where there is one.

What a function's proof is made of is cited by the function's name, so files in folders with small letters below proofs/ are left out, as are rows, which are
computed where they stand (files whose names end in Rows), and what README and the documents name: the laws that are there to be read.
"""
import collections
import os
import re
import sys

TOP = os.path.abspath(sys.argv[1] if len(sys.argv) > 1 else os.path.join(os.path.dirname(__file__), ".."))
NAME = re.compile(r"[^\s(){}\[\];,.:=λ→×≡∷⊎`]+")
HEAD = re.compile(r"(?:(?:abbrev|data|opaque|pub|record) )*([^\s(){}:]+) (?:\(|:)")


def files(folder, *endings):
    """The files of the repository below a folder that end so, without what is built."""
    for at, folders, names in os.walk(os.path.join(TOP, folder)):
        folders[:] = [it for it in folders if it not in ("out", ".git")]
        for name in names:
            if name.endswith(endings):
                yield os.path.join(at, name)


def read(path):
    with open(path, encoding="utf-8") as it:
        return it.read()


def is_looked_at(path):
    """Whether the file's definitions are to be cited: specs, and lemmas that belong to no function."""
    parts = os.path.relpath(path, TOP).split(os.sep)
    if parts[2] == "specs":
        return True
    inner = parts[3:]
    return parts[2] == "proofs" and inner[0][0].isupper() and not inner[-1].endswith(("Rows.antt", "Lib.antt"))


def defined(text):
    """The names that a file defines, but for rows, which are proved by computing: each stands at the margin before its type."""
    heads = [HEAD.match(line) for line in text.split("\n") if not line.startswith((" ", "--", "use ", "mod ", "pub mod "))]
    names = dict.fromkeys(head[1] for head in heads if head)
    return [name for name in names if f"\n{name} = refl" not in text]


def heads(text):
    """How many lines begin with each word, or have it behind words of small letters alone: those that define it, or go on with its definition."""
    found = collections.Counter()
    for line in text.split("\n"):
        words = set()
        for word in line.split(" "):
            words.add(word)
            if not re.fullmatch("[a-z]+", word):
                break
        found.update(words)
    return found


def main():
    counts = collections.Counter()
    texts = {}
    for path in files("crates", ".rt", ".antt"):
        texts[path] = re.sub(r"^--.*$|^use .*$|^ghost use .*$|^\s*//.*$", "", read(path), flags=re.M)
        counts.update(NAME.findall(texts[path]))
    pages = " ".join(read(path) for path in [*files("docs", ".md"), *files("crates", "README.md"), os.path.join(TOP, "README.md")])
    named = set(re.findall(r"[\w'-]+", pages))
    left = 0
    for path, text in sorted(texts.items()):
        if not path.endswith(".antt") or not is_looked_at(path):
            continue
        own = heads(text)
        for name in defined(text):
            if counts[name] <= own[name] and name not in named:
                print(f"{os.path.relpath(path, TOP)}: {name}")
                left += 1
    print(f"{left} without a user", file=sys.stderr)
    sys.exit(1 if left else 0)


if __name__ == "__main__":
    main()
