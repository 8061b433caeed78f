"""Reads what the gate `rt ci` says, and tells how far it is. What fails is told at once.

    rt ci 2>&1 | python3 tests/check/gate.py LOG

LOG is the file to which all that the gate says goes. How long the rest takes is estimated by what each crate cost once (bench/results/2026-11-gate.md).
"""
import os
import re
import sys
import threading
import time

sys.path[:0] = ["docs", "bench"]
from pages import table, text_of  # noqa: E402

COSTS = "bench/results/2026-11-gate.md"


def crates():
    return re.findall(r"^(\w+)(?: staticlib)?:", text_of("crates.txt"), re.M)


def costs():
    """Processor seconds of each crate's proof, and of its tests and edits; a crate that isn't in the table is taken for a mean one."""
    header, rows = table(COSTS, "Crate", "Proof")
    proofs, others = {}, {}
    for cells in rows:
        row = dict(zip(header, cells))
        name = re.findall(r"`(\w+)`", row["Crate"])[-1]
        for found, keys in ((proofs, ["Proof"]), (others, ["Tests", "Seconds for these"])):
            found[name] = found.get(name, 0) + sum(int(row[key] or 0) for key in keys)
    mean = sum(proofs.values()) / len(proofs)
    return {it: proofs.get(it, mean) for it in crates()}, {it: others.get(it, 0) for it in crates()}


def whole_minutes():
    """What a run from nothing took by the clock."""
    return int(re.search(r"(\d+) minutes of wall clock", text_of(COSTS))[1])


class Progress:
    def __init__(self):
        self.proofs, self.others = costs()
        self.whole = sum(self.proofs.values()) + sum(self.others.values())
        self.began = time.monotonic()
        self.left, self.done, self.proved = self.whole, 0, 0
        self.folders, self.starts = {}, {}

    def look(self):
        """Takes note of when the work on a crate began: its folder out is made anew then."""
        while True:
            for name in self.proofs:
                try:
                    folder = os.stat(f"crates/{name}/out").st_ino
                except OSError:
                    folder = None
                if folder != self.folders.get(name, folder):
                    self.starts[name] = time.monotonic()
                self.folders[name] = folder
            time.sleep(1)

    def minutes_left(self):
        """By the table; once a tenth was done in this run, by its pace."""
        left = whole_minutes() * self.left / self.whole
        pace = (time.monotonic() - self.began) / 60 / (whole_minutes() * self.done / self.whole) if self.done > self.whole / 10 else 1
        return round(left * pace)

    def tell(self, what):
        print(f"{self.proved} of {len(self.proofs)}, {what}; {round((time.monotonic() - self.began) / 60)} minutes so far, some {self.minutes_left()} to go", flush=True)

    def see(self, line):
        """Tells what a line of the gate says of a crate."""
        found = re.match(r"rt: (\w+)(: its tests are)? (proved|is kept|NOT PROVED)", line)
        if not found or found[1] not in self.proofs:
            return
        name, is_tests, how = found[1], bool(found[2]), found[3]
        cost = (self.others if is_tests else self.proofs)[name]
        self.left -= cost
        self.done += cost * (how == "proved")
        self.proved += (not is_tests) and how != "NOT PROVED"
        seconds = f", {round(time.monotonic() - self.starts[name])} s" if name in self.starts and how == "proved" and not is_tests else ""
        self.tell(f"{'the tests of ' if is_tests else ''}{name} {'kept from an earlier run' if how == 'is kept' else how}{seconds}")


def main():
    progress, said = Progress(), []
    threading.Thread(target=progress.look, daemon=True).start()
    sys.stdin.reconfigure(errors="replace")
    with open(sys.argv[1], "w", encoding="utf-8") as log:
        for line in sys.stdin:
            log.write(line)
            log.flush()
            said = [] if line.startswith("== ") else said + [line]
            if re.search(r"NOT |FAILED|BAD EDIT", line):
                shown = said[-40:] if "NOT PROVED" in line else [line]
                print("".join(f"    | {it}" for it in shown if not it.endswith(": proved\n")), end="", flush=True)
                said = []
            progress.see(line)


if __name__ == "__main__":
    main()
