"""Writes what an unproved build of the library is made of: a program whose main hands C the exports of managed_heap_c as function pointers, and the functions
in C that call them, by the names that the header has.

    python3 c/unproved.py LIB.rt HEADER.h MAIN.rt CALLS.c
"""

import re
import sys

EXPORT = re.compile(r'pub extern "C" fn (mhl_\w+)\(([^)]*)\) -> u32', re.S)
PROTOTYPE = re.compile(r"^mh_status (mhl_\w+)\((.*)\);$", re.M)


def types_of(parameters):
    """The types of an export's parameters, each with what it borrows for a lifetime of its own."""
    types = [it.partition(": ")[2].strip() for it in parameters.split(",") if it.strip()]
    return [it.replace("&", f"&'a{k} ", 1) for k, it in enumerate(types)]


def pointer(types):
    lifetimes = ", ".join(re.findall(r"'a\d+", " ".join(types)))
    return f"for<{lifetimes}> fn({', '.join(types)}) -> u32"


def main_of(sources, modules):
    """The crate's own files as a program: its modules, its exports, and a main that hands them over."""
    exports = [it for text in (sources, modules) for it in EXPORT.findall(text)]
    rows = [(name, types_of(parameters)) for name, parameters in exports]
    fields = "".join(f"    {name}: {pointer(types)},\n" for name, types in rows)
    words = {name: ", ".join(f"p{k}" for k in range(len(types))) for name, types in rows}
    calls = "".join(f"        {name}: |{words[name]}| {name}({words[name]}),\n" for name, _ in rows)
    taken = [name for name, _ in EXPORT.findall(modules)]
    return (
        sources.replace("use calls::{", "".join(place_of(name) for name in taken) + TYPES + "use calls::{", 1)
        + f"\n#[derive(Drop)]\n#[repr(C)]\npub struct Exports {{\n{fields}}}\n"
        + "\nunsafe extern \"C\" {\n    fn take_exports(exports: *const u8);\n}\n"
        + f"\nfn main(_rt: HostRuntime) {{\n    let exports = Exports {{\n{calls}    }};\n"
        + "    unsafe { take_exports(&exports as *const Exports as *const u8) };\n}\n"
    ), [name for name, _ in rows]


def calls_of(header, names):
    """The functions in C, which the program's main fills in before the program's own main begins."""
    prototypes = dict(PROTOTYPE.findall(header))
    fields = "".join(f"    mh_status (*{name})({prototypes[name]});\n" for name in names)
    bodies = ""
    for name in names:
        words = ", ".join(re.findall(r"(\w+)(?:,|$)", prototypes[name]))
        bodies += f"mh_status {name}({prototypes[name]}) {{ return exports.{name}({words}); }}\n"
    return (
        '#include "managed_heap.h"\n#include <signal.h>\n'
        + f"static struct {{\n{fields}}} exports;\n{bodies}"
        + "int rattle_main(int count, char **words);\n"
        + "void take_exports(const unsigned char *given) { exports = *(const __typeof__(exports) *)(const void *)given; }\n"
        + "__attribute__((constructor)) static void begin(void) {\n"
        + "    static char name[] = \"unproved\";\n    char *words[] = {name, 0};\n    struct sigaction pipe;\n"
        + "    sigaction(SIGPIPE, 0, &pipe);\n    rattle_main(1, words);\n    sigaction(SIGPIPE, &pipe, 0);\n}\n"
    )


def place_of(name):
    return f"use {MODULES[name]}::{name};\n"


# The module of each export that isn't in the root, and the types of their parameters.
MODULES = {}
TYPES = "use course::CCourse;\nuse handles::TracerHandle;\nuse looking::CObject;\nuse seat_turns::Weak;\nuse slots::TracerSlot;\nuse stamps::CStamp;\nuse work::CWork;\n"


def main():
    root, header, main_file, calls_file = sys.argv[1:]
    folder = root.rpartition("/")[0]
    sources = open(root, encoding="utf-8").read()
    modules = ""
    for module in re.findall(r"^mod (\w+);$", sources, re.M):
        text = open(f"{folder}/{module}.rt", encoding="utf-8").read()
        MODULES.update((name, module) for name, _ in EXPORT.findall(text))
        modules += text
    program, names = main_of(sources, modules)
    open(main_file, "w", encoding="utf-8").write(program)
    open(calls_file, "w", encoding="utf-8").write(calls_of(open(header, encoding="utf-8").read(), names))


main()
