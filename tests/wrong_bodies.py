"""Tries wrong bodies: python3 tests/wrong_bodies.py [CRATE..], or of all crates that have some.

A wrong body is a change to one function that its contract has to refuse. Those of a crate stand in tests/bodies/CRATE.txt, a few lines each, with an
empty line between two:

    searches only to the end
    function: alloc_cache::searching::claim_among
    file: src/searching.rt
    old: the text of one line, which stands in that function once, or once in the file, outside it
    new: what stands there in its place

More lines old and new may follow. A line `free: REASON` says that the body is right too, or free on purpose, and a line `test: CRATE NAME` that no
clause can refuse it and which test does: it isn't tried here, but has to be a change that can be made, and the test has to be there. All others are put into a copy of the crate, at
most one a function at a time, and `rt check` tells which functions it still proves. Refused is a body of which the check names a goal that it doesn't prove. If a proof
fails only because a name in it is gone, that is told as `by names`: it says nothing of a clause. A change of a definition in specs/ is for a law: it is tried alone, and
refused if a lemma that the law's proof rests on isn't proved any more. A body that doesn't compile is an error of its file, and ends the run. The status is 1
if a body got through that isn't free, or one couldn't be judged. The crate and those below are best proved before, by `rt check` in the crate's folder:
what that left is copied.
"""
import os
import re
import shutil
import subprocess
import sys
import tempfile

import shown

TOP = os.path.dirname(os.path.dirname(os.path.abspath(__file__)))
BODIES = os.path.join(TOP, "tests", "bodies")
NAME_GONE = r"has no field|is not in scope|has no `"


class Body:
    """One wrong body: what it does, of which function, and what it changes."""

    def __init__(self, lines):
        self.what, self.function, self.free, self.test, self.changes = lines[0], "", "", "", []
        file = old = ""
        for line in lines[1:]:
            word, _, text = line.partition(": ")
            if word == "function":
                self.function = text
            elif word == "free":
                self.free = text
            elif word == "test":
                self.test = text
            elif word == "file":
                file = text
            elif word == "old":
                old = text
            elif word == "new":
                self.changes.append((file, old, text))
            else:
                sys.exit(f"{self.what}: {line}")

    def is_of_specs(self):
        """Whether it changes a definition, which other functions see too."""
        return any(file.startswith("specs/") for file, _, _ in self.changes)

    def places_in(self, text, old):
        """Where this text stands below the head of a function of that name, or where it does at all if it stands there nowhere."""
        name = self.function.split("::")[-1]
        ends = [it.end() for it in re.finditer(re.escape(old), text)]
        inside = [end for end in ends if re.findall(r"\bfn (\w+)", text[:end])[-1:] == [name]]
        return [end - len(old) for end in inside or ends]

    def texts(self, folder):
        """The files that it changes, with the change, or None if an old text doesn't stand in its function once."""
        texts = {}
        for file, old, new in self.changes:
            if file not in texts:
                with open(os.path.join(folder, file), encoding="utf-8") as it:
                    texts[file] = it.read()
            places = self.places_in(texts[file], old)
            if len(places) != 1:
                return None
            texts[file] = texts[file][: places[0]] + new + texts[file][places[0] + len(old) :]
        return texts


def read_bodies(crate):
    with open(os.path.join(BODIES, f"{crate}.txt"), encoding="utf-8") as it:
        blocks = it.read().strip().split("\n\n")
    return [Body(block.split("\n")) for block in blocks]


def crates_below(crate):
    """The crate and those of this repository that it stands on, and these stand on."""
    with open(os.path.join(TOP, "crates.txt"), encoding="utf-8") as it:
        lines = [line.partition("#")[0] for line in it]
    named = {name.split()[0]: below.split() for name, below in (line.split(":", 1) for line in lines if ":" in line)}
    found, left = [], [crate]
    while left:
        name = left.pop()
        if name in named and name not in found:
            found.append(name)
            left += named[name]
    return [name for name in named if name in found]


def copy_crates(crate, to):
    """Copies the crates with what checks left of them."""
    for file in ("HANDLES", "crates.txt"):
        shutil.copy(os.path.join(TOP, file), to)
    names = crates_below(crate)
    with open(os.path.join(to, "crates.txt"), encoding="utf-8") as it:
        lines = [line for line in it if line.split(":")[0].split(" ")[0] in names]
    with open(os.path.join(to, "crates.txt"), "w", encoding="utf-8") as it:
        it.writelines(lines)
    for name in names:
        # (of those below what was built is enough)
        left = shutil.ignore_patterns("must-fail", *(["incremental"] if name != crate else []))
        shutil.copytree(os.path.join(TOP, "crates", name), os.path.join(to, "crates", name), symlinks=True, ignore=left)


def check(folder):
    """What a check of the crate in this folder prints, a message of several lines as one."""
    ran = subprocess.run(["rt", "check", "--jobs", "1"], cwd=folder, stdout=subprocess.PIPE, stderr=subprocess.STDOUT, text=True, errors="replace")
    return re.sub(r"\n +(?=\S)", " ", ran.stdout)


def apply_some(bodies, folder, most):
    """Puts in as many as go together, at most one a function and so many in all. Which those are, and which are left."""
    done, left = [], []
    for body in bodies:
        goes_beside = not done or not any(it.is_of_specs() for it in [body, *done])
        is_free = len(done) < most and goes_beside and body.function not in [it.function for it in done]
        texts = body.texts(folder) if is_free else None
        if texts is None:
            left.append(body)
            continue
        for file, text in texts.items():
            with open(os.path.join(folder, file), "w", encoding="utf-8") as it:
                it.write(text)
        done.append(body)
    return done, left


def compile_fault(said):
    """What the compiler says if the crate doesn't compile, or nothing."""
    return next((it for it in said if re.match(r"(\./)?src/\S+\.rt:\d+:\d+: error", it)), "")


def reasons_of(body, said):
    """The goals of the function that weren't proved, or what else is wrong in its proof, and whether a name alone was missing."""
    path = body.function.split("::", 1)[1].replace("::", "/")
    line = next((it for it in said if it.startswith(f"fn {body.function}: ")), "")
    goals = re.findall(r"`([^`]+)`", line.partition("did not prove")[2].partition("; it calls")[0])
    names = False
    for it in said:
        found = re.match(rf"\./proofs/{re.escape(path)}/\S+ error: (?:`([^`]+)`)?(.*)", it)
        if found and re.search(NAME_GONE + "|was not admitted", it):
            names = True
        elif found:
            goals.append(found[1] or found[2].strip())
    return list(dict.fromkeys(goals)), names


def refused_lemma(name, said):
    """The lemma whose own proof is refused and on which this one rests, with its file; nothing if there is none, or a name alone is gone in it."""
    rests = {}
    for it in said:
        found = re.match(r"\./proofs/\S+ error: \d+ declarations? that depends? on `([^`]+)`.*not checked: (.*)", it)
        rests.update(dict.fromkeys(re.sub(r" \(via [^)]*\)", "", found[2]).split(", "), found[1]) if found else {})
    while name in rests:
        name = rests.pop(name)
    own = next((it for it in said if re.match(rf"\./proofs/\S+ error: `{re.escape(name)}`: ", it)), "")
    return "" if not own or re.search(NAME_GONE, own) else f"{name} in {own.split(':')[0].lstrip('./')}"


def law_refused(body, said):
    """The lemma that no longer holds if a definition was changed, and on which the proof of the law rests."""
    proof = f"./proofs/{body.function.split('::', 1)[1].replace('::', '/')}/"
    rests = next((re.search(r"depends? on `([^`]+)`", it) for it in said if it.startswith(proof) and "not checked" in it), None)
    return refused_lemma(rests[1], said) if rests else ""


def unproved_closure(body, said):
    """A closure of the function that wasn't proved, with its goals."""
    module, _, name = body.function.rpartition("::")
    inside = f"fn {module}::fn::{name}::"
    line = next((it for it in said if it.startswith(inside) and "did not prove" in it), "")
    return line[len(inside) :]


def judge(body, said):
    """What became of a body: refused, with the goals; refused by names alone; proved; or unknown."""
    line = next((it for it in said if it.startswith(f"fn {body.function}: ")), "")
    if line.partition(": ")[2].startswith("proved"):
        return "free" if body.free else "PROVED", body.free
    if not line:
        return "UNKNOWN", "no function of that name, or no check"
    goals, names = reasons_of(body, said)
    lemma = law_refused(body, said) if body.is_of_specs() else ""
    if lemma:
        return "refused", f"the lemma {lemma}"
    if goals:
        return "refused", ", ".join(goals)
    if names:
        return "by names", "a name in its proof is gone"
    if "the borrow checker does not cover" in line:
        return "NO BODY", line.partition(": ")[2]
    if re.search("which (is|are) not proved|which has no proof", line) and "did not prove" not in line:
        closure = unproved_closure(body, said)
        return ("refused", closure) if closure else ("again", "")
    return "UNKNOWN", line.partition(": ")[2]


def try_some(crate, bodies, most, copy):
    """Tries as many bodies as go together in this copy, and so many at most. What became of each of these, and those that are left."""
    folder = os.path.join(copy, "crates", crate)
    for body in bodies:
        if body.texts(folder) is None:
            sys.exit(f"{crate}, {body.what}: an old text doesn't stand once in {body.function}")
    done, left = apply_some(bodies, folder, most)
    said = check(folder).split("\n")
    take_back(done, crate, folder)
    fault = compile_fault(said)
    judged = [(body, "NO BODY", fault) if fault else (body, *judge(body, said)) for body in done]
    return judged, left


def take_back(bodies, crate, folder):
    """Makes the files that these bodies changed what they were."""
    for file in {file for body in bodies for file, _, _ in body.changes}:
        shutil.copy(os.path.join(TOP, "crates", crate, file), os.path.join(folder, file))


def look_at(crate, body):
    """What is told of a body that a test refuses, and whether something is missing."""
    other, _, name = body.test.partition(" ")
    if body.texts(os.path.join(TOP, "crates", crate)) is None:
        return "UNKNOWN", "an old text doesn't stand once in the function"
    return ("by a test", body.test) if shown.has_test(other, name) else ("UNKNOWN", f"no test {body.test}")


def try_all(crate, bodies, copy):
    """Tries these bodies of a crate in a copy of it, and prints what became of each. How many weren't refused."""
    left, most, wrong = bodies, len(bodies), 0
    while left:
        judged, left = try_some(crate, left, most, copy)
        # (which of several doesn't compile is seen if each is tried alone)
        if any(came == "NO BODY" for _, came, _ in judged):
            most = 1
        for body, came, why in judged:
            if came in ("again", "NO BODY") and len(judged) > 1:
                left.append(body)
                continue
            if came == "NO BODY":
                sys.exit(f"{crate}, {body.what}: it doesn't compile: {why}")
            print(f"{crate}: {came}: {body.what} ({body.function}): {why}", flush=True)
            wrong += came not in ("refused", "by names", "free")
    return wrong


def try_crate(crate):
    """Tries all bodies of a crate, and prints what became of each. How many weren't refused."""
    bodies, wrong = read_bodies(crate), 0
    for body in (it for it in bodies if it.test):
        came, why = look_at(crate, body)
        print(f"{crate}: {came}: {body.what} ({body.function}): {why}", flush=True)
        wrong += came == "UNKNOWN"
    # (in one copy, so that crates below whose libraries aren't there are built once)
    with tempfile.TemporaryDirectory() as copy:
        copy_crates(crate, copy)
        return wrong + try_all(crate, [it for it in bodies if not it.test], copy)


if __name__ == "__main__":
    crates = sys.argv[1:] or sorted(it[:-4] for it in os.listdir(BODIES))
    sys.exit(1 if sum(try_crate(it) for it in crates) else 0)
