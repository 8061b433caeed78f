#!/usr/bin/env python3
"""Writes a page that plays schedules step by step: ./schedules --page FILE.html [NAME..]

A NAME is a file, or the name of a schedule of examples/schedules; without one the page has all of these. Every state on it is written by the program
`schedule_states`, which runs the schedule on the core; the page has all that it needs, and nothing comes from the network.
"""
import glob
import json
import os
import re
import sys

import states
from draw import changes, view
from stakes import refusal
from steps import TOP, given, read_steps

HERE = os.path.dirname(os.path.abspath(__file__))
FOLDER = os.path.join(TOP, "examples", "schedules")


def stop(told, status=1):
    print(f"schedules: {told}", file=sys.stderr)
    sys.exit(status)


def found(name):
    """The file of a name."""
    for path in [name, *(os.path.join(FOLDER, it, name + ".gs") for it in ("accepted", "refused"))]:
        if os.path.isfile(path):
            return path
    return stop(f"there is no file {name}")


def events_of(text):
    """Each event by its line: its words, and the comment that stands above it."""
    events, notes, fresh = {}, [], True
    for number, line in enumerate(text.split("\n"), 1):
        words = line.split(" ")
        words = [word for word in words if word]
        if number > 1 and words and words[0].startswith("#"):
            notes = notes + [line.strip("# ")] if fresh else [line.strip("# ")]
            fresh = True
        elif number > 1 and words:
            events[number] = (words, " ".join(notes))
            fresh = False
    return events


def told_of(words, at, layout, note, steps):
    """What a page tells of an event, beside the table of steps."""
    word = layout.name_of(at) if at is not None else ""
    parameters = given(words[1], steps[words[1]]["parameters"], words[2:])
    return {"seat": int(words[0]), "step": words[1], "text": " ".join(words[1:]), "note": note, "word": word, "given": parameters}


def shown(path, rows, steps):
    """All that the page has of one schedule."""
    with open(path, encoding="ascii") as it:
        text = it.read()
    events, (layout, all_states, end) = events_of(text), states.states_of(rows)
    views = [view(layout, words, seats) for _, _, words, seats in all_states]
    shape = dict(zip(["cells", "packets", "entries", "sections", "fields", "seats"], rows[0][1:]))
    title = next((it.strip("# ") for it in text.split("\n") if it.startswith("#")), "")
    turns = [{"line": 0, "changes": views[0], "note": title}]
    for (line, at, _, _), before, after in zip(all_states[1:], views, views[1:]):
        words, note = events[line]
        turns.append({"line": line, **told_of(words, at, layout, note, steps), "changes": changes(before, after)})
    if end:
        words, note = events[end[0]]
        why = refusal(layout, all_states[-1], words, end, steps)
        turns.append({"line": end[0], **told_of(words, None, layout, note, steps), "changes": {}, "refused": why})
    return {"name": os.path.basename(path).removesuffix(".gs"), "title": title, "shape": shape, "turns": turns}


def written(schedules, steps):
    """The page of these schedules."""
    parts = {}
    for name in ("page.html", "page.css", "page.js", "heap.js"):
        with open(os.path.join(HERE, name), encoding="utf-8") as it:
            parts[name] = it.read()
    data = json.dumps({"steps": steps, "schedules": schedules}, separators=(",", ":")).replace("</", "<\\/")
    inside = {"STYLE": parts["page.css"], "DATA": data, "HEAP": parts["heap.js"], "SCRIPT": parts["page.js"]}
    return re.sub(r"/\*(STYLE|DATA|HEAP|SCRIPT)\*/", lambda it: inside[it[1]], parts["page.html"])


def write(page, target):
    """Writes the whole page, or none."""
    part = target + ".part"
    try:
        with open(part, "w", encoding="utf-8") as it:
            it.write(page)
        os.replace(part, target)
    finally:
        if os.path.exists(part):
            os.remove(part)


def main(target, *names):
    paths = [os.path.abspath(found(it)) for it in names] or sorted(glob.glob(os.path.join(FOLDER, "*", "*.gs")))
    target = os.path.abspath(target)
    kept = os.path.exists(target) and (os.path.isdir(target) or not os.access(target, os.W_OK))
    if kept or not os.access(os.path.dirname(target), os.W_OK):
        stop(f"the page {target} can't be written")
    all_rows = states.rows_of(paths)
    for path, rows in zip(paths, all_rows):
        if isinstance(rows, states.Unshown):
            stop(f"{path}: {rows}; no page is written", 2)
    os.chdir(TOP)
    steps = read_steps()
    page = written([shown(path, rows, steps) for path, rows in zip(paths, all_rows)], steps)
    try:
        write(page, target)
    except OSError as fault:
        stop(f"the page {target} can't be written: {fault.strerror}")
    print(f"{target}: {len(paths)} schedule{'s' if len(paths) > 1 else ''}")


if __name__ == "__main__":
    if len(sys.argv) < 2 or not re.search(r"\.html?$", sys.argv[1]):
        stop("usage: ./schedules --page FILE.html [NAME..]")
    main(*sys.argv[1:])
