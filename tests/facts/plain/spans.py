#!/usr/bin/env python3
"""Reads a text of facts, and writes the spans within a window of time, as docs/ROWS.md says.

    spans.py [FROM TO] < run.facts > run.spans

It is written to be compared with 'Spans' of that page, and looks at all threads and mutexes after
each line. The status is 0, or 2 if the text isn't valid: then no span is written, and the first
invalid line is named on standard error.
"""
import itertools
import sys

from lines import Invalid, demand, line_of, lines_of
from world import World

ALWAYS = 0, 2**64 - 1
KINDS = "gets", "owns", "waits", "inverted", "stalled"


def held(world, wait_line):
    """Returns what holds now: by kind and thread or mutex, the numbers that say it."""
    found = {}
    for t in world.level:
        found["gets", t] = world.gets(t), world.level[t]
        if t in world.awaits:
            found["waits", t] = (world.awaits[t],)
        runner = world.runner(t)
        if world.is_inverted(t):
            found["inverted", t] = wait_line[t], world.blame(t), runner
        if world.is_stalled(t):
            found["stalled", t] = wait_line[t], world.blocked[runner], runner
    found.update((("owns", m), (t,)) for m, t in world.owner.items())
    return found


def numbers_of(kind, it, said, line):
    """Returns the numbers of a span of a thread or a mutex, but for its times."""
    if kind == "gets":
        return it, *said
    if kind == "owns":
        return *said, it, line
    if kind == "waits":
        return it, *said, line
    return said


class Spans:
    """Goes through lines in order. `after` has the number of each line, the clock after it, and
    what holds then."""

    def __init__(self):
        self.world, self.number, self.wait_line = World(), 1, {}
        self.after = [(1, 0, {})]

    def read(self, text):
        """Goes on by one line."""
        self.number, world = self.number + 1, self.world
        demand(not world.has_ended, "nothing follows the end")
        line = line_of(text)
        world.refuse(line)
        world.time_passes(line)
        world.apply(line)
        if line.what == "waits":
            self.wait_line[line.thread] = self.number
        self.after.append((self.number, world.clock, held(world, self.wait_line)))

    def of(self, kind, it):
        """Yields the spans of a thread or a mutex: the longest runs of lines after which the same
        holds. The last one lasts to the end."""
        begun = None
        for said, lines in itertools.groupby(self.after, lambda after: after[2].get((kind, it))):
            number, clock, _ = next(lines)
            if begun:
                yield *begun, clock
            begun = said and (numbers_of(kind, it, said, number), clock)
        if begun:
            yield *begun, self.world.clock

    def rows(self, since, until):
        """Yields the spans of a window."""
        for kind in KINDS:
            for it in self.world.mutexes if kind == "owns" else self.world.level:
                for numbers, begin, end in self.of(kind, it):
                    begin, end = max(begin, since), min(end, until)
                    if begin < end:
                        yield kind, *numbers, begin, end


def answer(data, since=ALWAYS[0], until=ALWAYS[1]):
    """Returns what to write to standard output and to standard error, and the status."""
    lines, found = lines_of(data), Spans()
    try:
        demand(lines[:1] == [b"facts 1"], "the first line is: facts 1")
        for text in lines[1:]:
            found.read(text)
    except Invalid as why:
        return "", f"pim-findings: line {found.number}: {why}\n", 2
    return "".join(f"{' '.join(map(str, row))}\n" for row in found.rows(since, until)), "", 0


def main():
    if len(sys.argv) not in (1, 3):
        is_help = sys.argv[1:] in (["-h"], ["--help"])
        print(__doc__.strip(), file=sys.stdout if is_help else sys.stderr)
        return 0 if is_help else 2
    out, err, status = answer(sys.stdin.buffer.read(), *map(int, sys.argv[1:] or ALWAYS))
    sys.stdout.write(out)
    sys.stderr.write(err)
    return status


if __name__ == "__main__":
    sys.exit(main())
