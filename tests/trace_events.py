"""Checks a trace in the Trace Event format, as Chrome's and Perfetto's viewers read it: python3 tests/trace_events.py <TRACE.

Times don't go back; in each lane what begins ends, one within the other; instants and counters have what the viewers ask for; cycles begin and end, and each lane
has a name. It tells the first fault, with status 1.
"""
import json
import sys


def fault_of(trace):
    """What is wrong with it, or nothing."""
    last, doing, named, instants, counters = 0, {}, set(), set(), set()
    for event in trace["traceEvents"]:
        kind, name, lane = event["ph"], event["name"], (event["pid"], event["tid"])
        if kind == "M":
            named.add(lane)
            continue
        if event["ts"] < last:
            return f"{name} at {event['ts']}, behind {last}"
        last = event["ts"]
        if lane not in named:
            return f"lane {lane} has no name"
        if kind == "B":
            doing.setdefault(lane, []).append(name)
        elif kind == "E":
            if not doing.get(lane) or doing[lane].pop() != name:
                return f"{name} ends in lane {lane} and didn't begin"
        elif kind == "i":
            if event["s"] not in ("g", "p", "t"):
                return f"{name} has the scope {event['s']}"
            instants.add(name)
        elif kind == "C":
            if not all(isinstance(it, (int, float)) and it >= 0 for it in event["args"].values()):
                return f"{name} counts {event['args']}"
            counters.add(name)
        else:
            return f"{name} is of the kind {kind}"
    for lane, names in doing.items():
        if names:
            return f"{names} in lane {lane} have no end"
    missing = {"a stop is asked for", "the cycle ends"} - instants
    return f"there is no instant {missing}" if missing else ""


def main():
    fault = fault_of(json.load(sys.stdin))
    if fault:
        print(fault)
        sys.exit(1)


main()
