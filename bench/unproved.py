"""What LLVM is handed of an unproved build, made what it is handed of a proved one: without the tests of sums and indices and without the fills of fresh memory,
and with the marks `#[inline]` of the sources, which an unproved build leaves out. bench/unproved_kit.sh uses it.

    python3 bench/unproved.py FROM.ll TO.ll KIT
"""
import pathlib
import re
import sys

MARKED = re.compile(r"#\[inline(?:\((always|never)\))?\](?:\s*#\[[^\]]*\])*\s*(?:pub(?:\([a-z]+\))? )?(?:const )?(?:unsafe )?fn (\w+)")
DEFINED = re.compile(r'^(define internal [^@\n]*@"([^"]+)"\([^\n]*\)) (#\d+[^\n]*)$', re.M)
DROPPED = [r'\n  call void @"rattle-llvm-checks::[^\n]*', r"\n  call void @llvm\.memset\.p0\.i64\(ptr [^,]*, i8 -86,[^\n]*"]
ATTRIBUTES = [" sanitize_address", ' "frame-pointer"="all"', ' "probe-stack"="inline-asm"', ' "stack-probe-size"="3072"']


def marks(kit):
    """For each crate and function that is marked in its sources: alwaysinline or noinline."""
    found = {}
    top = pathlib.Path(__file__).resolve().parent.parent
    crates = list((top / "crates").iterdir()) + [pathlib.Path(kit, "rattle", name) for name in ("core", "atomic_table", "std_alloc", "std")]
    for crate in crates:
        for file in sorted(crate.glob("src/**/*.rt")):
            for how, name in MARKED.findall(file.read_text(encoding="utf-8", errors="replace")):
                found[crate.name, name] = "noinline" if how == "never" else "alwaysinline"
    # A proved build has these in their callers, too.
    for name in ("store_new", "dirty_card"):
        found["gc_table", name] = "alwaysinline"
    return found


def main():
    source, made, kit = sys.argv[1:]
    text = pathlib.Path(source).read_text()
    for each in DROPPED:
        text = re.sub(each, "", text)
    for each in ATTRIBUTES:
        text = text.replace(each, "")
    text = re.sub(r"= \{ +\}", "= { nounwind }", text)
    marked = marks(kit)

    def with_mark(found):
        path = re.sub(r"::<.*$", "", found[2]).split("::")
        mark = marked.get((path[0], path[-1]))
        return f"{found[1]} {mark} {found[3]}" if mark else found[0]

    pathlib.Path(made).write_text(DEFINED.sub(with_mark, text))


main()
