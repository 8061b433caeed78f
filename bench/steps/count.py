"""Makes what LLVM is handed of an unproved build count the steps that each thread takes: one atomic operation on a word of a heap is one step, and all of them go
through the functions of gc_table whose names end in _told. The counts stand in mh_steps_taken, a number for each kind of step, each thread's own.

    python3 bench/steps/count.py count FROM.ll TO.ll     the module that counts
    python3 bench/steps/count.py calls FROM.ll TO.ll     the module that calls mh_step in front of each step, with it
    python3 bench/steps/count.py kinds KINDS.h           the kinds, in order, for C: an enum, and their names
"""
import pathlib
import re
import sys

KINDS = pathlib.Path(__file__).resolve().parent.parent.parent / "crates/mark_core/src/kinds.rt"
# How many kinds of step the counts have room for.
ROOM = 128
TOLD = re.compile(r'(define internal [^@\n]*@"gc_table::seat::Heap::(\w+)_told::<[^\n]*ptr [^%\n]*(%a\d+)\) [^\n]*\{\nstart:\n)')
COUNTS = f"@mh_steps_taken = thread_local global [{ROOM} x i64] zeroinitializer\n"
COUNT = f"""  %step.kind = load i8, ptr {{step}}
  %step.number = zext i8 %step.kind to i64
  %step.at = getelementptr [{ROOM} x i64], ptr @mh_steps_taken, i64 0, i64 %step.number
  %step.before = load i64, ptr %step.at
  %step.after = add i64 %step.before, 1
  store i64 %step.after, ptr %step.at
"""
CALLED = "declare void @mh_step(ptr)\n"
CALL = "  call void @mh_step(ptr {step})\n"


def kinds():
    text = re.search(r"pub enum Step \{(.*?)^\}", KINDS.read_text(), re.S | re.M)[1]
    return re.findall(r"^    ([A-Z]\w+)", text, re.M)


def put_in(source, made, head, body):
    """Writes the module with this head, and this body in front of each step."""
    text = pathlib.Path(source).read_text()
    operations = {it[1] for it in TOLD.findall(text)}
    if operations != {"take", "store"}:
        sys.exit(f"steps: the operations of the table are {', '.join(sorted(operations))}")
    at = text.index("\ndefine ") + 1
    text = TOLD.sub(lambda it: it[1] + body.format(step=it[3]), text[:at] + head + text[at:])
    pathlib.Path(made).write_text(text)


def tell(made):
    names = kinds()
    if len(names) > ROOM:
        sys.exit(f"steps: more than {ROOM} kinds of step")
    lines = [f"enum kind {{ {', '.join(names)}, KINDS, ROOM = {ROOM} }};", "static const char *const kind_names[KINDS] = {" + ", ".join(f'"{it}"' for it in names) + "};"]
    pathlib.Path(made).write_text("\n".join(lines) + "\n")


if __name__ == "__main__":
    if sys.argv[1] == "count":
        put_in(*sys.argv[2:], COUNTS, COUNT)
    elif sys.argv[1] == "calls":
        put_in(*sys.argv[2:], CALLED, CALL)
    else:
        tell(*sys.argv[2:])
