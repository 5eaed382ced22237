"""Rows, as docs/ROWS.md defines them: what pim-findings writes of a text of facts."""
from collections import namedtuple

UNKNOWN, GIVEN, TIMED_OUT, FAILED = range(4)  # how a wait for an object ended

Part = namedtuple("Part", "mutex runner gets time")     # of a row `inverted`
Stall = namedtuple("Stall", "object runner time")       # of a row `stalled`
Meanwhile = namedtuple("Meanwhile", "thread level time")
Ran = namedtuple("Ran", "line until thread begin lasted level gets")
Section = namedtuple("Section", "thread mutex level count longest line used")
Nest = namedtuple("Nest", "thread outer inner count taken line")


class Wait:
    """A wait for a mutex. The levels and the owner are those as it began."""
    NUMBERS = ("line", "until", "thread", "mutex", "begin", "lasted", "level", "gets", "owner",
               "owner_level", "taken", "inverted", "lower", "stalled")
    __slots__ = (*NUMBERS, "parts", "stalls", "meanwhile")

    def __init__(self, numbers):
        (self.line, self.until, self.thread, self.mutex, self.begin, self.lasted, self.level,
         self.gets, self.owner, self.owner_level, self.taken, self.inverted, self.lower,
         self.stalled) = numbers
        self.parts = self.stalls = self.meanwhile = ()

    @property
    def end(self):
        return self.begin + self.lasted

    @property
    def worst_part(self):
        """Returns the part that held it up longest."""
        return self.parts[0] if len(self.parts) == 1 else max(
            self.parts, key=lambda part: part.time)

    @property
    def worst_stall(self):
        return max(self.stalls, key=lambda stall: stall.time)

    @property
    def threads(self):
        """Returns all threads that rows name for it."""
        found = {self.thread, self.owner, *(part.runner for part in self.parts)}
        found.update(stall.runner for stall in self.stalls)
        found.update(one.thread for one in self.meanwhile)
        return found - {0}


BlockedNumbers = namedtuple(
    "BlockedNumbers", "line until thread object begin lasted level ended by by_level")


class Blocked(BlockedNumbers):
    """A wait for what isn't a mutex."""
    __slots__ = ()

    @property
    def end(self):
        return self.begin + self.lasted


class Rows:
    """The rows of a text."""

    def __init__(self):
        self.waits, self.blocked, self.ran, self.sections, self.nests = [], [], [], [], []
        self.deadlocks, self.lines, self.ended = [], 0, 0

    @classmethod
    def read(cls, text):
        rows = cls()
        kinds = {"blocked": (Blocked._make, rows.blocked), "ran": (Ran._make, rows.ran),
                 "section": (Section._make, rows.sections), "nests": (Nest._make, rows.nests),
                 "wait": (Wait, rows.waits), "deadlock": (list, rows.deadlocks)}
        parts = {"inverted": (Part._make, "parts"), "stalled": (Stall._make, "stalls"),
                 "meanwhile": (Meanwhile._make, "meanwhile")}
        for line in text.splitlines():
            word, *numbers = line.split(" ")
            numbers = map(int, numbers)
            if word in kinds:
                make, into = kinds[word]
                into.append(make(numbers))
            elif word in parts:
                make, name = parts[word]
                next(numbers)  # the line of the wait, which is the last one
                wait = rows.waits[-1]
                if not getattr(wait, name):
                    setattr(wait, name, [])
                getattr(wait, name).append(make(numbers))
            else:
                rows.lines, rows.ended, *_ = numbers
        return rows

    def open_waits(self):
        """Returns by thread the wait that lasts to the end."""
        return {wait.thread: wait for wait in self.waits if not wait.until}
