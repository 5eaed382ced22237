"""The tracks of a trace, as Trace Event JSON: a group for each task, over the steps."""
import json

from step_spans import Spans, is_owned, rows_of, what, why

STEP = 1000  # microseconds: a trace doesn't say when its steps were made
TRACKS = 1000  # more than the tracks of a task
# The tracks of a task: what boosts it, what it waits for, and from the last on what it owns.
BOOSTED, WAITS, OWNS = 1, 2, 3
TITLES = {BOOSTED: "boosted", WAITS: "waits"}


def event(kind, task, track, name, **fields):
    return {"ph": kind, "pid": task, "tid": task * TRACKS + track, "name": name, **fields}


def times_of(span):
    return {"ts": span.first * STEP, "dur": (span.past - span.first) * STEP}


class Tracks:
    """The events of the spans of a window."""

    def __init__(self, spans):
        self.spans, self.bars = spans, spans.bars
        rows = rows_of(bar for bar in self.bars if is_owned(bar))
        self.tracks = [OWNS + next(rows) if is_owned(bar) else WAITS for bar in self.bars]

    def events(self):
        for level in self.spans.levels:
            yield from self.level(level)
        for place, bar in enumerate(self.bars):
            yield from self.bar(place, bar)
        if self.spans.levels:
            yield from self.names()

    def level(self, level):
        """Yields the counter of a priority and, if it is a boost, the slice that says why."""
        yield event("C", level.task, BOOSTED, "priority", ts=level.first * STEP,
                    args={"priority": level.prio})
        if level.boost:
            yield event("X", level.task, BOOSTED, why(level), **times_of(level),
                        args={"base": level.base})

    def bar(self, place, bar):
        """Yields a slice, and from a wait the flow to what the owner has."""
        track, ts = self.tracks[place], bar.first * STEP
        yield event("X", bar.task, track, what(bar), **times_of(bar), args={"owner": bar.owner})
        if not is_owned(bar):
            flow = {"ts": ts, "cat": "waits", "id": place}
            yield event("s", bar.task, track, "waits for", **flow)
            yield event("f", bar.owner, self.tracks[bar.by], "waits for", bp="e", **flow)

    def names(self):
        """Yields the names and the places of the tasks, and of the tracks that they use."""
        used = {task: set() for task in self.spans.tasks}
        for level in self.spans.levels:
            used[level.task].update([BOOSTED] if level.boost else [])
        for bar, track in zip(self.bars, self.tracks):
            used[bar.task].add(track)
        for task, tracks_used in used.items():
            yield event("M", task, BOOSTED, "process_name", args={"name": f"task {task}"})
            yield event("M", task, BOOSTED, "process_sort_index", args={"sort_index": task})
            for track in sorted(tracks_used):
                title = {"name": TITLES.get(track, "owns")}
                yield event("M", task, track, "thread_name", args=title)
                yield event("M", task, track, "thread_sort_index", args={"sort_index": track})


def tracks(trace, window):
    """Yields the parts of a file, an event a line."""
    events = Tracks(Spans(trace, window)).events()
    lines = (json.dumps(one, separators=(",", ":")) for one in events)
    yield '{"displayTimeUnit":"ms","traceEvents":[\n'
    yield next(lines, "")
    for line in lines:
        yield f",\n{line}"
    yield "\n]}\n"
