#!/usr/bin/env python3
"""Opens the page of `./schedules --page` in a browser, and compares what stands there with what the core says: python3 tests/page.py

It goes through an accepted and a refused schedule, event by event by keyboard, and compares at each event the words, the bits of marks and allocation, cards, roots,
fields and packets with the rows of `schedule_states`, which are read here anew; the refusal is compared with the answer that stands beside the schedule. It reaches
events by slider and click too, and makes the page of what is no schedule, of one that is too large, and of a file that can't be written.
"""
import json
import os
import re
import subprocess
import sys
import tempfile

import browser

TOP = os.path.dirname(os.path.dirname(os.path.abspath(__file__)))
FOLDER = os.path.join(TOP, "examples", "schedules")
sys.path.insert(0, os.path.join(FOLDER, "page"))
import states  # noqa: E402

PHASES = ["Idle", "Marking", "Drain", "Sweep", "Clear", "Full"]
SEEN = """JSON.stringify({
    words: Object.fromEntries([...document.querySelectorAll('[data-word]')].map(it => [it.dataset.word, it.textContent])),
    letters: [...document.querySelectorAll('[data-at]')].map(it => it.textContent).join(''),
    cards: [...document.querySelectorAll('[data-card]')].map(it => it.dataset.state),
    roots: [...document.querySelectorAll('[data-root]')].map(it => [it.dataset.root, Number(it.dataset.to)]),
    nodes: [...document.querySelectorAll('[data-cell]')].map(it => Number(it.dataset.cell)),
    edges: document.querySelectorAll('#graph .edge.field').length,
    packets: [...document.querySelectorAll('[data-packet]')].map(it => it.textContent),
    kind: (document.getElementById('kind') || {}).textContent, at: document.getElementById('at').textContent,
})"""

wrong = []


def same(what, here, there):
    if here != there:
        wrong.append(f"{what}: {here!r}, where the core has {there!r}")


def cut(shape, words):
    """The regions of words, by the table of docs/STEPS.md."""
    cells, packets, entries, sections, fields, _ = shape
    sizes = [("single", 11), ("positions", sections), ("roots", 32 * sections), ("owners", cells // 64), ("allocs", cells // 64), ("marks", cells // 64)]
    sizes += [("cards", cells // 16), ("heads", packets), ("entries", packets * entries), ("identities", cells), ("values", cells), ("fields", cells * fields)]
    sizes += [("pools", 4 * ((packets + 63) // 64)), ("help", 2)]
    found = {}
    for name, many in sizes:
        found[name], words = words[:many], words[many:]
    same("words of the state", len(words), 0)
    return found


def compare(name, shape, words, seen):
    """What the page shows of a state, and the words of the state."""
    core = cut(shape, words)
    world, phase, empty, card, block = core["single"][:5]
    shown = seen["words"]
    same(f"{name}: WORLD", [int(re.match(r"\d+", shown["WORLD"])[0]), "flag" in shown["WORLD"]], [world % 2**32, world >= 2**32])
    same(f"{name}: PHASE", shown["PHASE"], PHASES[phase])
    same(f"{name}: EMPTY", int(shown["EMPTY"].split(",")[0]), empty)
    same(f"{name}: counters", [int(shown["NEXTCARD"]), int(shown["NEXTBLOCK"]), int(shown["SEASON"].split(",")[0])], [card, block, core["help"][1]])
    bits = lambda region: [word >> bit & 1 for word in core[region] for bit in range(64)]
    allocated, marked = bits("allocs"), bits("marks")
    same(f"{name}: allocation bits", [int(letter in "WGB") for letter in seen["letters"]], allocated)
    same(f"{name}: mark bits", [int(letter in "GBV") for letter in seen["letters"]], [int(m) for m in marked])
    same(f"{name}: cards", [int("dirty" in it) for it in seen["cards"]], core["cards"])
    roots = [[f"s{at // 32} v{at % 32}", it - 1] for at, it in enumerate(core["roots"]) if it]
    same(f"{name}: roots", [it for it in seen["roots"] if it[0].startswith("s")], roots)
    nodes = [c for c, letter in enumerate(seen["letters"]) if letter != "."]
    same(f"{name}: cells in the picture", sorted(seen["nodes"]), nodes)
    fields = shape[4]
    arrows = sum(1 for c in nodes for to in core["fields"][c * fields : (c + 1) * fields] if to - 1 in nodes)
    same(f"{name}: references", seen["edges"], arrows)
    for q, pool in enumerate(["empty", "low", "high", "deferred"]):
        there = [p for p in range(shape[1]) if core["pools"][q] >> p & 1]
        same(f"{name}: the {pool} pool", [p for p, told in enumerate(seen["packets"]) if told.startswith(f"in the {pool} pool")], there)


def waiting(name, seen):
    """What waits is grey: a cell in a packet, and each marked one on a card that isn't clean."""
    packed = {int(c) for told in seen["packets"] for c in re.findall(r"cell (\d+)", told)}
    same(f"{name}: cells in packets", [seen["letters"][c] for c in packed if seen["letters"][c] not in "GV"], [])
    black = [c for c, letter in enumerate(seen["letters"]) if letter == "B" and "dirty" in seen["cards"][c // 16]]
    same(f"{name}: black cells on dirty cards", black, [])


def answer(name):
    """What stands beside a schedule of the examples."""
    for folder in ("accepted", "refused"):
        path = os.path.join(FOLDER, folder, name + ".out")
        if os.path.exists(path):
            with open(path, encoding="ascii") as it:
                return os.path.join(FOLDER, folder, name + ".gs"), it.read()
    raise FileNotFoundError(name)


def step_through(page, name, rows, told):
    """Goes through a schedule by the right arrow."""
    shape, words = rows[0][1:], [row[1:] for row in rows if row[0] == "words"]
    page.ask(f"location.hash = '{name}/0'")
    page.ask("new Promise(done => setTimeout(done, 50))")
    for n, state in enumerate(words):
        seen = json.loads(page.ask(SEEN))
        same(f"{name}: event", seen["at"].split(" of ")[0], f"event {n}")
        compare(f"{name}, event {n}", shape, state, seen)
        waiting(f"{name}, event {n}", seen)
        page.press("ArrowRight")
    refusal = page.ask("(it => it && [it.dataset.rule, it.dataset.part].join(' '))(document.querySelector('.refusal'))")
    told = re.match(r"refused line (\d+) rule (\d+) part (\d+)", told)
    same(f"{name}: refusal", refusal, f"{told[2]} {told[3]}" if told else None)
    if told:
        seen = json.loads(page.ask(SEEN))
        same(f"{name}: line", page.ask("document.querySelector('.what').textContent.match(/line (\\d+)/)[1]"), told[1])
        same(f"{name}: kind", seen["kind"].split()[0], told[2])
        same(f"{name}: part that fails", page.ask("document.querySelector('.failed').textContent.split(':')[0]"), told[3])
        same(f"{name}: what would be lost", page.ask("document.getElementById('lost').textContent.length > 40"), True)
        compare(f"{name}, refused", shape, words[-1], seen)


def reach(page, name, many):
    """Events by slider, keys and click."""
    at = "Number(document.getElementById('slider').value)"
    page.ask("(it => { it.value = 3; it.dispatchEvent(new Event('input')); })(document.getElementById('slider'))")
    same(f"{name}: by the slider", page.ask(at), 3)
    for key, there in [("ArrowLeft", 2), ("PageDown", 12), ("PageUp", 2), ("Home", 0), ("End", many)]:
        page.press(key)
        same(f"{name}: by {key}", page.ask(at), there)
    page.ask("document.getElementById('event-list').children[5].firstChild.click()")
    same(f"{name}: by a click on an event", page.ask(at), 5)
    x, y = page.ask("(it => { it.scrollIntoView({block: 'center'}); const b = it.getBoundingClientRect(); return [b.left + b.width * 0.999, b.top + b.height / 2]; })(document.querySelector('.lane svg'))")
    page.click(x, y)
    same(f"{name}: by a click on a lane", page.ask(at), many)


def pages(work):
    """Goes through the page of two schedules."""
    names, target = ["precise", "hidden_cell_lost"], os.path.join(work, "page.html")
    told = {name: answer(name) for name in names}
    subprocess.run([os.path.join(TOP, "schedules"), "--page", target, names[0], told[names[1]][0]], check=True, stdout=subprocess.DEVNULL)
    rows = states.rows_of([told[name][0] for name in names])
    for width in (1200, 360):
        with browser.Browser(width) as page:
            page.open(f"file://{target}#{names[0]}/0")
            for name, it in zip(names, rows):
                step_through(page, name, it, told[name][1])
                reach(page, name, sum(row[0] == "event" for row in it) + ("refused" in told[name][1]))
            same("what comes from the network", page.ask("performance.getEntriesByType('resource').length"), 0)
            same(f"the width at {width}", page.ask("document.documentElement.scrollWidth <= innerWidth"), True)
            same("what the scripts throw", page.thrown, [])


def exercise(work):
    """The three ways to lose an object that docs/SCHEDULES.md tells, each with the rule that forbids it."""
    with open(answer("hidden_cell_found")[0], encoding="ascii") as it:
        text = it.read()
    with open(os.path.join(TOP, "docs", "SCHEDULES.md"), encoding="utf-8") as it:
        told = re.findall(r"^\|([^|]*)\| rule (\d+) part (\d+) \|$", it.read().partition("## See it step by step")[2].partition("\n## ")[0], re.M)
    root, card, push = ("1 store_root 1 0\n", "1 dirty_card 0\n", "2 push 0 1\n")
    edits = [text.replace(root, "").replace(card, root + card), text.replace(push, "2 store_length 0\n2 give 0 0\n"), text.replace(push, push + "2 leave_step\n")]
    same("ways to lose an object", len(told), len(edits))
    for n, (edit, (change, rule, part)) in enumerate(zip(edits, told)):
        path = os.path.join(work, f"lost{n}.gs")
        with open(path, "w", encoding="ascii") as it:
            it.write(edit)
        same(f"to lose an object,{change}", states.rows_of([path])[0][-1][2:], [int(rule), int(part)])


def refused_use(work):
    """Pages that aren't written, and why."""
    foreign, large, good = (os.path.join(work, it) for it in ("foreign.gs", "large.gs", "good.gs"))
    for path, text in [(foreign, "shape 64 2 2 2 1 3\n0 raise_step\n0 fly\n"), (large, "shape 65536 2 2 2 1 3\n"), (good, "shape 64 2 2 2 1 3\n")]:
        with open(path, "w", encoding="ascii") as it:
            it.write("gcschedule 1\n" + text)
    target = os.path.join(work, "none.html")
    for what, given, wanted in [
        ("no schedule", [target, foreign], "line 4: BadEvent"),
        ("too large", [target, large], "too many cells to draw: 65536, where at most 128 are drawn"),
        ("no folder", [os.path.join(work, "nowhere", "page.html"), good], "can't be written"),
        ("no file", [target, os.path.join(work, "nothing.gs")], "there is no file"),
        ("no page", [good], "usage"),
    ]:
        ran = subprocess.run([os.path.join(TOP, "schedules"), "--page", *given], capture_output=True, text=True, check=False)
        same(f"{what}: what is said", wanted in ran.stderr, True)
        same(f"{what}: the status", ran.returncode != 0, True)
        same(f"{what}: no page", os.path.exists(target), False)


def main():
    if not browser.PROGRAM:
        sys.exit("tests/page.py: there is no chromium")
    with tempfile.TemporaryDirectory() as work:
        exercise(work)
        refused_use(work)
        pages(work)
    for it in wrong[:20]:
        print(f"tests/page.py: {it}")
    print(f"{len(wrong)} wrong")
    return 1 if wrong else 0


if __name__ == "__main__":
    sys.exit(main())
