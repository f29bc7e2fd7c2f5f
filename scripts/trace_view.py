#!/usr/bin/env python3
"""Turns a trace into the JSON that trace viewers such as Perfetto read: a track for each object, an event for each simulated one.

    scripts/trace_view.py <examples/idle_loop.trace >trace.json

The trace comes on standard input, as `trace on` makes a run report it; other lines of the report are passed over. A tick is shown as a
nanosecond. An event has its slot and its entries as arguments, numbered in order.
"""
import json
import re
import sys

HEAD = re.compile(r"@(\d+) (\S+) (\d+)")
ENTRIES = {"served", "retired", "trapped", "line", "slept", "hit", "miss", "refused"}


def events(lines):
    """The events of a trace: tick, path, slot, and the entries."""
    event = None
    for line in lines:
        line = line.rstrip("\n")
        head = HEAD.fullmatch(line)
        if head:
            if event:
                yield event
            event = (int(head[1]), head[2], int(head[3]), [])
        elif event and line.split(" ")[0] in ENTRIES:
            event[3].append(line)
        elif event:
            yield event
            event = None
    if event:
        yield event


def shown(event, track):
    """An event as viewers have it: at a moment of its object's track, named by what it noted."""
    tick, _, slot, entries = event
    name = " ".join(dict.fromkeys(entry.split(" ")[0] for entry in entries)) or f"slot {slot}"
    arguments = {"slot": slot, **{str(place): entry for place, entry in enumerate(entries)}}
    return {"name": name, "ph": "i", "s": "t", "ts": tick / 1000, "pid": 0, "tid": track, "args": arguments}


def items(lines):
    """The items of the JSON: each track's name where it is met first, and the events."""
    tracks = {}
    for event in events(lines):
        path = event[1]
        if path not in tracks:
            tracks[path] = len(tracks)
            yield {"name": "thread_name", "ph": "M", "pid": 0, "tid": tracks[path], "args": {"name": path}}
        yield shown(event, tracks[path])


def main():
    sys.stdout.write('{"displayTimeUnit":"ns","traceEvents":[')
    for place, item in enumerate(items(sys.stdin)):
        sys.stdout.write((",\n" if place else "\n") + json.dumps(item, separators=(",", ":")))
    sys.stdout.write("\n]}\n")


if __name__ == "__main__":
    sys.exit(main())
