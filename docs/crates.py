#!/usr/bin/env python3
"""Prints the list of the crates and the picture of which crate stands on which, as docs/ARCHITECTURE.md has them, made from crates.txt.

A line of crates.txt that begins with ## names a group, and one that begins with # tells the job of the crate below it. From the top of the repository:
python3 docs/crates.py prints both, and python3 docs/crates.py --check tells where the page has another.
"""
import dataclasses
import difflib
import glob
import re
import sys

PAGE = "docs/ARCHITECTURE.md"
LINE = re.compile(r"(\w+)[^:]*:(.*)")


@dataclasses.dataclass
class Crate:
    name: str
    group: str
    job: str
    named: list


def crates():
    """The crates in the order of crates.txt, by their names."""
    found, group, job = {}, "", ""
    with open("crates.txt", encoding="utf-8") as it:
        for line in it:
            line, _, told = line.strip().partition("#")
            if told.startswith("#"):
                group = told[1:].strip()
            elif told:
                job = told.strip()
            elif line:
                name, named = LINE.fullmatch(line).groups()
                found[name], job = Crate(name, group, job, named.split()), ""
    return found


def stands_on(found, name, other):
    """Whether a crate names another, or one that it names stands on the other."""
    named = found[name].named if name in found else []
    return other in named or any(stands_on(found, it, other) for it in named)


def nearest(found, crate):
    """The crates that this one names and on which no other of these stands."""
    return [it for it in crate.named if not any(stands_on(found, other, it) for other in crate.named)]


def by_group(found):
    """The groups in their order, each with its crates."""
    groups = {}
    for crate in found.values():
        groups.setdefault(crate.group, []).append(crate)
    return groups


def listed(found):
    """The crates by groups, each with its job."""
    for group, members in by_group(found).items():
        yield from (f"**{group}**", "")
        yield from (f"- `{it.name}`: {it.job}" for it in members)
        yield ""


def picture(found):
    """The crates, each before those that it names; crates of the kit stand in brackets."""
    width = max(map(len, found))
    for members in reversed(list(by_group(found).values())):
        for crate in reversed(members):
            told = " ".join(it if it in found else f"({it})" for it in nearest(found, crate))
            yield f"    {crate.name:{width}}  {told}".rstrip()
        yield ""


def wrong_lines(found):
    """Crates without a group or a job, those that stand above one that they name, and folders of crates/ that are no crate's."""
    for folder in sorted(glob.glob("crates/*/src")):
        if folder.split("/")[1] not in found:
            yield f"crates.txt: no line for {folder}"
    seen = set()
    for crate in found.values():
        if not (crate.group and crate.job):
            yield f"crates.txt: {crate.name} has no group or no job"
        for it in crate.named:
            if it in found and it not in seen:
                yield f"crates.txt: {crate.name} stands above {it}, which it names"
        seen.add(crate.name)


def section(heading):
    """The lines of a section of the page behind its first paragraph."""
    with open(PAGE, encoding="utf-8") as it:
        text = it.read().partition(f"\n## {heading}\n\n")[2].partition("\n## ")[0]
    return text.partition("\n\n")[2].strip("\n").split("\n")


def differences(found):
    """Lines of the page that stand for something else than crates.txt, those that are lacking, and lines in another order."""
    for heading, made in (("The crates", listed(found)), ("How the crates stand on each other", picture(found))):
        there, made = section(heading), "\n".join(made).strip("\n").split("\n")
        for line in difflib.ndiff(made, there):
            if line[0] in "+-":
                yield f"{PAGE}: {heading}: {'not of docs/crates.py' if line[0] == '+' else 'lacks'}: {line[2:].strip()}"


def main():
    found = crates()
    if "--check" not in sys.argv:
        print("\n".join([*listed(found), *picture(found)]))
        return
    for wrong in [*wrong_lines(found), *differences(found)]:
        print(wrong)


if __name__ == "__main__":
    main()
