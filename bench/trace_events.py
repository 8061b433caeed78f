"""Writes a timeline of `bench_heaps pauses` as a trace that Chrome's and Perfetto's viewers show: the Trace Event format, as JSON.

    bench_heaps pauses --timeline .. >FILE; python3 bench/trace_events.py FILE >TRACE.json

Each thread has a lane with what it does; an instant stands where a stop is asked for, and one where it ends.
"""
import json
import sys

import timeline


def events_of(lanes):
    """All events, in the order of time; what ends comes before what begins at the same time."""
    found = []
    for lane, intervals in enumerate(lanes.values()):
        for what, low, high in (it for it in intervals if it[1] < it[2]):
            found.append((low * 1000, 1, {"name": what, "ph": "B", "tid": lane}))
            found.append((high * 1000, 0, {"name": what, "ph": "E", "tid": lane}))
            if what == "collecting":
                found.append((low * 1000, 2, {"name": "a stop is asked for", "ph": "i", "s": "g", "tid": lane}))
                found.append((high * 1000, 2, {"name": "the cycle ends", "ph": "i", "s": "g", "tid": lane}))
    return [dict(event, ts=round(at, 3), pid=1) for at, _, event in sorted(found, key=lambda it: it[:2])]


def main():
    lanes = timeline.read(sys.argv[1])
    names = [{"name": "thread_name", "ph": "M", "pid": 1, "tid": lane, "args": {"name": name}} for lane, name in enumerate(lanes)]
    json.dump({"displayTimeUnit": "ms", "traceEvents": names + events_of(lanes)}, sys.stdout)


if __name__ == "__main__":
    main()
