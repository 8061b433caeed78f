"""The pages of the repository, and numbers in their prose and tables, for the checks in docs/check/ that compare them."""
import functools
import glob
import re
import sys

sys.path.insert(0, "bench")
import figures  # noqa: E402

WORDS = {"six": 6, "seven": 7, "eight": 8, "nine": 9, "sixteen": 16, "seventeen": 17, "eighteen": 18, "nineteen": 19, "twenty": 20, "fifty-five": 55, "fifty-six": 56, "fifty-seven": 57}

table = figures.table
tables = figures.tables
number = figures.number


def all_pages():
    """The documents for readers, those of crates last."""
    folders = ["docs/*.md", "bench/README.md", "bench/results/*.md", "tests/README.md", "tests/bodies/README.md", "crates/*/README.md"]
    return ["README.md", "CONTRIBUTING.md", "CHANGELOG.md", *(page for it in folders for page in sorted(glob.glob(it)))]


@functools.lru_cache(maxsize=None)
def text_of(page):
    with open(page, encoding="utf-8") as it:
        return it.read()


def value(told):
    """The number that digits or a word say."""
    told = told.lower()
    return WORDS[told] if told in WORDS else float(told.replace(",", ""))


def says(what, page, pattern, *expected, near=0.0):
    """Tells where a page doesn't have these numbers, each as near as this, wherever it has this pattern; and where it nowhere has it."""
    found = re.findall(pattern, text_of(page))
    if not found:
        print(f"{page}: {what} isn't told as {pattern}")
    for groups in found:
        told = groups if isinstance(groups, tuple) else (groups,)
        for it, number_there in zip(told, expected):
            try:
                right = abs(value(it) - number_there) <= near
            except ValueError:
                right = False
            if not right:
                print(f"{page}: {what}: {it}, where it is {number_there:g}")


def rows_of(page, *columns):
    """The rows of the one table with these columns, each as the cells of these columns."""
    header, rows = table(page, *columns)
    return [[row[header.index(it)] for it in columns] for row in rows]


def label(cell):
    """What a row is of: a script's name without what is told of it."""
    return cell.split(":")[0].strip("`* ")


def stands(what, page, words, numbers):
    """As `says`, of words in which @least stands for the number of this name, and .. for any words of a line."""
    parts = re.split(r"@(\w+?)(?=\W|th\b|$)", words)
    pattern = "".join(r"(\d(?:[\d,_]*\d)?)" if at % 2 else re.escape(it).replace(r"\.\.", ".*") for at, it in enumerate(parts))
    if re.search(pattern, text_of(page)):
        says(what, page, pattern, *(numbers.get(it, float("nan")) for it in parts[1::2]))
    else:
        print(f"{page}: {what} isn't told as: {words.strip()}".replace("\n", " / "))
