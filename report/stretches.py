"""What the lanes of the page show: stretches of time, which rows have only as sums.

Spans have when each wait was inverted, what each thread got, and what it owned. When it was on a
CPU is in the facts: each stay is from a line to another.
"""
from array import array
from collections import defaultdict


class Stretches:
    """`late`, `owns` and `levels` are those of the spans. By thread, `stays` has begin and end."""

    def __init__(self, facts, spans):
        self.late, self.owns, self.levels = spans.late, spans.owns, spans.levels
        self.stays, self.on = defaultdict(lambda: array("Q")), {}
        if facts.has_switches():
            self.read_stays(facts.lines[1:])

    def read_stays(self, lines):
        now = 0
        for line in lines:
            if line[:1] > b"9":
                continue
            words = line.split(b" ", 3)
            now = max(now, int(words[0]))
            if words[2:3] == [b"on"]:
                self.on[int(words[1])] = now
            elif words[2:3] == [b"off"]:
                self.put_off(int(words[1]), now)
            elif words[1] == b"lost":
                self.put_all_off(now)
        self.put_all_off(now)

    def put_off(self, thread, now):
        if thread in self.on:
            self.stays[thread].extend((self.on.pop(thread), now))

    def put_all_off(self, now):
        for thread in list(self.on):
            self.put_off(thread, now)
