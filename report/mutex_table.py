"""A table of all mutexes: how often each was locked, for how long, and who waited for it."""
from collections import defaultdict, namedtuple

Use = namedtuple("Use", "mutex locks contended mean longest waits p99 total callers")
Caller = namedtuple("Caller", "place waits total")


class MutexTable:
    """It is of all rows, and of the mutexes that are chosen."""

    def __init__(self, recording):
        self.recording, self.facts = recording, recording.facts
        self.sections, self.waits = defaultdict(list), defaultdict(list)
        for one in recording.all_rows.sections:
            self.sections[one.mutex].append(one)
        for wait in recording.all_rows.waits:
            self.waits[wait.mutex].append(wait)

    def all(self):
        """Returns the uses of each mutex, the one with most time of waits first."""
        numbers = filter(self.recording.choice.has_mutex, {**self.sections, **self.waits})
        return sorted(map(self.use, numbers), key=lambda use: (-use.total, -use.locks, use.mutex))

    def use(self, mutex):
        waits, sections = self.waits[mutex], self.sections[mutex]
        locks, lasted = sum(one.count for one in sections), sorted(wait.lasted for wait in waits)
        granted = sum(self.is_granted(wait) for wait in waits)
        return Use(
            mutex, locks, granted, self.held(mutex) // max(1, locks),
            max((one.longest for one in sections), default=0), len(waits),
            lasted[-(-99 * len(lasted) // 100) - 1] if lasted else 0, sum(lasted),
            self.callers(waits))

    def is_granted(self, wait):
        return bool(wait.until) and self.facts.word(wait.until) == b"granted"

    def held(self, mutex):
        """Returns for how long a mutex was owned."""
        lines, owners = self.facts.owners_of(mutex)
        times = [*map(self.facts.clock, lines[1:]), self.recording.all_rows.ended]
        return sum(times[at] - times[at - 1] for at in range(1, len(times)) if owners[at])

    def callers(self, waits):
        """Returns by place how many waits began there, and their sum, the greatest first."""
        found = defaultdict(list)
        for wait in waits:
            found[self.recording.where(wait.line)].append(wait.lasted)
        callers = [Caller(place, len(lasted), sum(lasted)) for place, lasted in found.items()]
        return sorted(callers, key=lambda one: (-one.total, one.place))
