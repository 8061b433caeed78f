"""Numbers that count what is in the repository are right on each page: kinds and forms of step, commands, edits, wrong bodies, lines, and the sums of the gate's
seconds. How often each test outside the gate ran stands in docs/TESTED.md alone."""
import glob
import os
import re
import subprocess
import sys

sys.path[:0] = ["docs", "tests"]
import wrong_bodies  # noqa: E402
from pages import all_pages, number, rows_of, says, text_of  # noqa: E402


def check_edits():
    edits = glob.glob("crates/*/must-fail/*.edit")
    crates = len({it.split("/")[1] for it in edits})
    says("edits", "docs/STRENGTH.md", r"The gate tries (\d+) of them", len(edits))
    for page, pattern in [
        ("README.md", r"(\S+) crates have mutants, in `must-fail/`"),
        ("docs/STRENGTH.md", r"`must-fail/` of (\S+) crates"),
        ("docs/STRENGTH.md", r"so only (\S+) crates have edits"),
    ]:
        says("crates with edits", page, pattern, crates)


def check_bodies():
    names = [os.path.basename(it)[: -len(".txt")] for it in glob.glob("tests/bodies/*.txt")]
    says("wrong bodies", "docs/STRENGTH.md", r"All others, some ([\d,]+),", sum(len(wrong_bodies.read_bodies(it)) for it in names), near=50)


def check_steps():
    told = re.findall(r"^kind_of .* = (\d+)$", text_of("crates/mark_core/specs/Kinds.antt"), re.M)
    kinds, forms = len(set(told)), len(told)
    for page, pattern in [
        ("README.md", r"(\S+) kinds of step"),
        ("docs/ARCHITECTURE.md", r"(\S+) kinds of step, soundness"),
        ("docs/INTERLEAVINGS.md", r"for the (\S+) kinds of step"),
        ("docs/STEPS.md", r"# The (\S+) kinds of step"),
        ("docs/STEPS.md", r"forms in (\d+) kinds"),
        ("docs/GLOSSARY.md", r"one of (\d+) numbered sorts of step"),
        ("crates/mark_core/README.md", r"and (\S+) kinds of step"),
        ("crates/mark_core/src/kinds.rt", r"There are (\S+) kinds, "),
    ]:
        says("kinds of step", page, pattern, kinds)
    says("forms of step", "docs/STEPS.md", r"There are (\d+) forms", forms)
    says("forms of step", "docs/GLOSSARY.md", r"one of the (\d+) variants", forms)


def check_commands():
    commands = len(re.findall(r"^    [A-Z]\w*(?:\(.*\))?,$", text_of("crates/command_words/src/asked.rt"), re.M))
    says("commands", "README.md", r"the (\S+) commands, with examples", commands)
    says("commands", "docs/ARCHITECTURE.md", r"`play_words`: all (\S+) commands", commands)


def lines_of(*paths):
    return sum(text_of(it).count("\n") for it in paths)


def check_lines():
    page, core = "docs/DECISIONS.md", "crates/mark_core/src"
    says("lines of mark_core", page, r"`mark_core` \(some ([\d,]+) lines", lines_of(*glob.glob(core + "/**/*.rt", recursive=True)), near=50)
    says("lines of managed_heap", page, r"`managed_heap` has some ([\d,]+) lines", lines_of(*glob.glob("crates/managed_heap/src/*.rt")), near=50)


def check_closures():
    """How many lines the definitions of a clause have, in words before the table of its files."""
    for page, pattern in [("docs/HEADLINE.md", r"clause needs are some ([\d,]+) lines"), ("docs/INTERLEAVINGS.md", r"law needs some ([\d,]+) lines")]:
        shown = subprocess.run(["python3", "docs/closure.py", "--show", page], capture_output=True, text=True, check=True).stdout
        says("lines of the definitions", page, pattern, int(re.search(r"files, (\d+) lines", shown)[1]), near=10)


def check_gate():
    page = "bench/results/2026-11-gate.md"
    rows = rows_of(page, "Proof", "Tests", "Edits", "Seconds for these")
    sums = [round(sum(number(row[at]) for row in rows if row[at]) / 60) for at in (0, 1, 3)]
    says("minutes of the gate", page, r"That is (\d+) processor minutes for proofs, (\d+) for tests and (\d+) for edits", *sums)
    says("minutes of the gate", "docs/STRENGTH.md", r"(\d+) for proofs, (\d+) for tests, (\d+) for edits", *sums)


def check_runs():
    for row in rows_of("docs/TESTED.md", "Runs", "Run on"):
        for page in all_pages():
            if "," in row[0] and page != "docs/TESTED.md" and re.search(rf"\b{row[0]}\b", text_of(page)):
                print(f"{page}: {row[0]} runs are told, which docs/TESTED.md alone tells")


def main():
    for check in (check_edits, check_bodies, check_steps, check_commands, check_lines, check_closures, check_gate, check_runs):
        check()


if __name__ == "__main__":
    main()
