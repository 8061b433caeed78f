"""Each edit of the gate and each wrong body quotes code that stands where it says, once; and tests/bodies/README.md has as many bodies of each crate as there
are."""
import glob
import os
import re
import sys

sys.path.insert(0, "tests")
import wrong_bodies  # noqa: E402

PAGE = "tests/bodies/README.md"


def check_edits():
    for path in sorted(glob.glob("crates/*/must-fail/*.edit")):
        with open(path, encoding="utf-8") as it:
            lines = it.read().split("\n")
        file = ""
        for line in lines:
            word, _, text = line.partition(": ")
            if word == "file":
                with open(os.path.join(path.split("/must-fail/")[0], text), encoding="utf-8") as it:
                    file = it.read()
            elif word == "old" and file.count(text) != 1:
                yield f"{path}: stands {file.count(text)} times: {text.strip()}"


def check_body(crate, body):
    try:
        if body.texts(os.path.join("crates", crate)) is None:
            yield f"tests/bodies/{crate}.txt: quotes what doesn't stand there once: {body.what}"
    except FileNotFoundError as wrong:
        yield f"tests/bodies/{crate}.txt: no file {wrong.filename}: {body.what}"


def told_counts():
    """How many bodies the table of this page tells of each crate."""
    with open(PAGE, encoding="utf-8") as it:
        part = it.read()
    found = {}
    for row in re.findall(r"^\| (`[^|]*`) \| ([\d, ]+) \|", part, re.M):
        found.update(zip(re.findall(r"`(\w+)`", row[0]), (int(it) for it in row[1].split(","))))
    return found


def main():
    for wrong in check_edits():
        print(wrong)
    told = told_counts()
    crates = sorted(os.path.basename(it)[: -len(".txt")] for it in glob.glob("tests/bodies/*.txt"))
    for crate in crates:
        bodies = wrong_bodies.read_bodies(crate)
        for body in bodies:
            for wrong in check_body(crate, body):
                print(wrong)
        if told.get(crate) != len(bodies):
            print(f"{PAGE}: {told.get(crate)} bodies of {crate}, and there are {len(bodies)}")
    for crate in sorted(set(told) - set(crates)):
        print(f"{PAGE}: bodies of {crate}, and there are none")


if __name__ == "__main__":
    main()
