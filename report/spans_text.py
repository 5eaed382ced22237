"""Spans, as docs/ROWS.md defines them: what `pim-findings --spans` writes of a text of facts."""
from array import array
from collections import defaultdict

WORDS = "gets", "owns", "waits", "inverted", "stalled"


class Spans:
    """`late` has by the line of a wait when it was inverted: (from, until, mutex, runner). By
    thread, `owns` has from, until, mutex and line, and `levels` from when on it gets what, and its
    level. A thread has its declared level before the first of these."""

    def __init__(self):
        self.late = defaultdict(list)
        self.owns, self.levels = (defaultdict(lambda: array("Q")) for _ in range(2))

    @classmethod
    def read(cls, text):
        spans, said = cls(), {}
        for line in text.splitlines():
            word, _, rest = line.partition(" ")
            if word in ("waits", "stalled"):  # rows have these
                continue
            first, second, third, begin, until = map(int, rest.split())
            if word == "owns":
                spans.owns[first].extend((begin, until, second, third))
            elif word == "inverted":
                spans.late[first].append((begin, until, second, third))
            elif said.get(first) != (second, third):  # in time: something else lasted no time
                said[first] = second, third
                spans.levels[first].extend((begin, second, third))
        return spans
