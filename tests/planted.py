"""Plants faults in the collector, and tells which programs in C notice them: python3 tests/planted.py [FAULT..], or all faults.

Each fault is a change of some lines that a proof would refuse. It is put into a copy of the repository, from which c/unproved.sh makes the library, and the programs
of examples/c run over that. A program notices the fault if it ends by itself with another status than 0, or crashes: one that has to be stopped after BOUND seconds,
120 if it isn't set, where it wants some two without a fault, doesn't. First all of them run over the library without a fault, where each has to pass. ROUNDS says how
often each runs, 3 times if it isn't set, with the seeds 1, 2 and so on if it takes one.

It prints a row for each program, with what one of its runs said. The status is 1 if a program fails without a fault, or one that has to notice a fault each time
doesn't. It wants the kit and a C compiler, and takes two processor minutes a fault.
"""
import os
import re
import shutil
import subprocess
import sys
import tempfile

TOP = os.path.dirname(os.path.dirname(os.path.abspath(__file__)))
ROUNDS = int(os.environ.get("ROUNDS", "3"))
SECONDS = int(os.environ.get("BOUND", "120"))

# The programs, each with its words: sizes at which cycles mark beside the program. SEED is another number in each run.
PROGRAMS = {
    "hidden": "65536 40",
    "hidden, a tracer": "65536 40 1",
    "map": "4 20000 300 1024 2",
    "torture": "4 60000 1024 1 SEED",
    "fuzz": "600000 1 SEED",
    "fuzz, 4 threads": "800000 4 SEED",
    "fuzz, shared": "600000 1 SEED 1",
    "fuzz, shared, 4 threads": "800000 4 SEED 1",
    "cycles": "4 300000 16384 1",
    "binary_trees": "16 2 0 524288",
    "queue": "2 2 3000 128 2",
    "counter": "4 4000 2",
    "places": "4 5000 320",
    "weak_table": "20000",
    "weak_map": "4 20000 512",
    "cleaner": "4 20000 640",
    "rewriter": "7 20",
    "gcbench": "14",
}

HIDDEN, FUZZ, SHARED = ["hidden", "hidden, a tracer"], ["fuzz", "fuzz, 4 threads"], ["fuzz, shared", "fuzz, shared, 4 threads"]


class Fault:
    """What it does, the changes that plant it, and the programs that have to notice it. A change is a file below crates, the function, a line in it, and what
    stands there in its place."""

    def __init__(self, what, noticed_by, *changes):
        self.what, self.noticed_by, self.changes = what, noticed_by, changes

    def plant(self, crates):
        for file, function, old, new in self.changes:
            path = os.path.join(crates, file)
            with open(path, encoding="utf-8") as it:
                text = it.read()
            start = text.index(f"fn {function}")
            end = text.find("\n}\n", start)
            if text.count(old, start, end) != 1:
                sys.exit(f"{file}, {function}: not once: {old.strip()}")
            with open(path, "w", encoding="utf-8") as it:
                it.write(text[:start] + text[start:end].replace(old, new) + text[end:])


FAULTS = {
    "card": Fault(
        "the barrier leaves the card out",
        [*HIDDEN, "map", "torture", *FUZZ, *SHARED, "cycles"],
        ("card_clean/src/barrier.rt", "pay_card", "        heap.dirty_card(seat, card);", "        let _ = card;"),
    ),
    "root": Fault(
        "variable 2 of each mutator isn't marked",
        [*HIDDEN, "map", "torture", *FUZZ, *SHARED],
        ("card_clean/src/roots.rt", "mark_root", "if word != 0 {", "if word != 0 && v != 2 {"),
        ("tracer/src/roots.rt", "scan_root", "if word == 0 {", "if word == 0 || variable == 2 {"),
    ),
    "slot": Fault(
        "slot 0 of each mutator isn't marked",
        ["map", "torture", *SHARED],
        ("card_clean/src/roots.rt", "mark_slot", "if word != 0 {", "if word != 0 && k != 0 {"),
    ),
    "weak": Fault(
        "an upgrade doesn't look at the allocation bit",
        ["fuzz, shared, 4 threads", "weak_table", "weak_map", "cleaner"],
        ("mark_core/src/steps/mutator.rt", "weak_reference", "if bits::has_bit(old, c.number() % BLOCK_CELLS) ||", "if old == old ||"),
    ),
    "sweep": Fault(
        "the sweep begins after one step of the drain with helpers, and one without",
        [*HIDDEN, "map", "torture", *FUZZ, *SHARED, "binary_trees"],
        ("seat_steps/src/sharing.rt", "share", "if popped != most {", "if popped <= most {"),
        ("seat_steps/src/sharing.rt", "empty", "if popped == most {", "if popped > most {"),
        ("seat_steps/src/sharing.rt", "empty", "if !finds_no_work_shared(&self.heap, &mut self.seat) {", "if !finds_no_work_shared(&self.heap, &mut self.seat) && most == 0 {"),
        ("seat_steps/src/steps.rt", "trace", "if popped != most {", "if popped <= most {"),
        ("seat_steps/src/steps.rt", "look", "if !finds_all_marked(&self.heap, &mut self.seat) {", "if !finds_all_marked(&self.heap, &mut self.seat) && most == 0 {"),
    ),
}


def build_library(work, fault):
    """The archive of a copy with the fault, or of the repository as it is."""
    copy = os.path.join(work, "copy")
    shutil.rmtree(copy, ignore_errors=True)
    shutil.copytree(TOP, copy, symlinks=True, ignore=shutil.ignore_patterns("out", ".git", "target"))
    if fault:
        fault.plant(os.path.join(copy, "crates"))
    archive = os.path.join(work, "library.a")
    subprocess.run(["sh", "c/unproved.sh", archive], cwd=copy, env=dict(os.environ, WITHOUT_TESTS="1"), check=True)
    return archive


def build_programs(work, archive):
    for name in {it.partition(",")[0] for it in PROGRAMS}:
        source = os.path.join(TOP, "examples", "c", f"{name}.c")
        flags = ["-O2", "-std=c11", "-D_GNU_SOURCE", "-I", os.path.join(TOP, "c", "include")]
        subprocess.run(["cc", *flags, "-o", os.path.join(work, name), source, archive, "-lpthread"], check=True)


def run(work, program, seed):
    """What a run came to: nothing if it passed, None if it didn't end, else what it says last, or how it ended."""
    command = [os.path.join(work, program.partition(",")[0]), *PROGRAMS[program].replace("SEED", str(seed)).split()]
    try:
        ran = subprocess.run(command, stdout=subprocess.PIPE, stderr=subprocess.STDOUT, text=True, errors="replace", timeout=SECONDS)
    except subprocess.TimeoutExpired:
        return None
    said = ran.stdout.strip().split("\n")[-1]
    return "" if ran.returncode == 0 else f"killed by signal {-ran.returncode}" if ran.returncode < 0 else re.sub(r"^\S*/examples", "examples", said)


def try_fault(work, name):
    """Runs all programs over the library with this fault, and prints which notice it. How many answers weren't as they have to be."""
    fault = FAULTS.get(name)
    build_programs(work, build_library(work, fault))
    wrong = 0
    print(f"{fault.what if fault else 'no fault'}:", flush=True)
    for program in PROGRAMS:
        said = [run(work, program, round + 1) for round in range(ROUNDS)]
        times = sum(bool(it) for it in said)
        endless = f", {said.count(None)} without an end" if None in said else ""
        print(f"    {program} ({PROGRAMS[program]}): {times} of {ROUNDS}{endless}{next((': ' + it for it in said if it), '')}", flush=True)
        has_to = fault and program in fault.noticed_by
        bad = times < ROUNDS if has_to else not fault and any(it != "" for it in said)
        if bad:
            print("    WRONG: it " + ("has to notice" if fault else "has to pass"), flush=True)
        wrong += bad
    return wrong


def main():
    with tempfile.TemporaryDirectory() as work:
        return sum(try_fault(work, name) for name in ["", *(sys.argv[1:] or FAULTS)])


if __name__ == "__main__":
    sys.exit(1 if main() else 0)
