"""Where the waits for futexes begin and end in a text of the kernel's events, for plain_facts_of_kernel.py. It looks
through all lines after each of them, and reads valid texts alone."""
from collections import namedtuple

HEAD = 6
OUTCOMES = {0: "woken", -110: "timed out"}  # ETIMEDOUT
CHANGED = -11                               # EAGAIN
CALLS = "wait", "lock", "lock2", "trylock", "unlock"
Line = namedtuple("Line", "time task what words")


def level_of(word):
    """Returns the level of a kernel's priority: 100 of SCHED_DEADLINE, 0 of the policies below SCHED_FIFO."""
    priority = int(word)
    return 100 if priority < 0 else max(0, 99 - priority)


class Text:
    """The lines of a text, without the head, the names and the end."""

    def __init__(self, text):
        rows = [line.split() for line in text.splitlines()]
        head, rows = rows[:HEAD], rows[HEAD:]
        self.ended = int(head[4][1])
        self.lines = []
        for row in rows:
            time = int(row[1] if row[0] == "end" else row[0])
            self.ended = time
            if row[0] != "end" and row[3] != "name":
                self.lines.append(Line(time, int(row[2]), row[3], row[4:]))

    def own(self, begin):
        """Returns the places of the lines of the task of a line, behind it."""
        return [at for at in range(begin + 1, len(self.lines)) if self.lines[at].task == self.lines[begin].task]

    def end_of(self, begin):
        """Returns the place of the line that ends a wait, which is behind all lines if none does, and how it ends:
        "woken" .., or None if it lasts or its return is missing. Returns None if it was no wait."""
        for at in self.own(begin):
            line = self.lines[at]
            if line.what in CALLS:
                return at, None
            if line.what == "return":
                result = int(line.words[0])
                ends = OUTCOMES.get(min(result, 0), "interrupted")
                return None if result == CHANGED else (at, ends)
            if line.what == "switch" and line.words[1] in ("X", "Z"):
                return at, "interrupted"
        return len(self.lines), None
