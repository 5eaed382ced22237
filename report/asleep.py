"""For how long a thread slept while it owned a mutex: in nanosleep, at a page fault, for a disk.

A thread sleeps from an `off asleep` to its next `on` or `off ready`. Where it does something first,
or events are lost, it isn't known when it woke: that sleep doesn't count, and neither does one as
it awaits a mutex or is blocked at an object, which rows say. Only the kernel's events have this.
"""
import re
from bisect import bisect_left, bisect_right

from words import duration

SAYS = re.compile(rb"(?m)^(\d+) (?:lost|(\d+) (?:(off asleep)|(on|off ready)|"
                  rb"(waits|blocks)|granted|took|gave-up|released|resumes))(?: |$)")


class Sleeps:
    """`of` has by thread when its sleeps began and ended."""

    def __init__(self, facts, ended):
        self.of, self.since = {}, {}
        if b" off asleep" in facts.data:
            self.read(facts.data)
            for thread in list(self.since):
                self.end(thread, ended)

    def read(self, data):
        now, waiting = 0, set()
        for time, thread, asleep, wakes, waits in SAYS.findall(data):
            time = int(time)
            now = time if time > now else now
            if wakes:
                if thread in self.since:
                    self.end(thread, now)
                continue
            self.since.pop(thread, None)
            if not thread:  # it is a `lost`
                self.since.clear()
            elif asleep and thread not in waiting:
                self.since[thread] = now
            elif waits:
                waiting.add(thread)
            elif not asleep:
                waiting.discard(thread)

    def end(self, thread, now):
        begin = self.since.pop(thread)
        if begin < now:
            begins, ends = self.of.setdefault(int(thread), ([], []))
            begins.append(begin)
            ends.append(now)

    def between(self, thread, begin, end):
        """Returns for how long a thread slept between two times."""
        begins, ends = self.of.get(thread, ((), ()))
        first, last = bisect_right(ends, begin), bisect_left(begins, end)
        return sum(min(until, end) - max(since, begin)
                   for since, until in zip(begins[first:last], ends[first:last]))


class Asleep:
    """What threads that were waited for slept, by the waits for their mutexes."""

    def __init__(self, recording):
        self.recording, self.facts, self.names = recording, recording.facts, recording.names
        self.ended = recording.all_rows.ended
        self.sleeps = Sleeps(self.facts, self.ended)

    def owner(self, wait):
        """Returns the thread that had to run, and its mutex, or (0, 0)."""
        if not wait.parts:
            return wait.owner, wait.mutex
        way = self.recording.way(wait, wait.worst_part.runner)
        return way[-1][::-1] if way else (0, 0)

    def owned(self, wait):
        """Returns from when to when the thread that had to run owned its mutex."""
        thread, mutex = self.owner(wait)
        lines, owners = self.facts.owners_of(mutex)
        at = owners.index(thread, bisect_right(lines, wait.line) - 1)
        return [self.facts.clock(line) for line in lines[at:at + 2]] + [self.ended] * (
            at + 1 == len(lines))

    def during(self, wait):
        """Returns for how long the thread that had to run slept during a wait, as an owner."""
        thread, _ = self.owner(wait) if self.sleeps.of else (0, 0)
        if not thread or not self.sleeps.between(thread, wait.begin, wait.end):
            return 0
        begin, end = self.owned(wait)
        return self.sleeps.between(thread, max(begin, wait.begin), min(end, wait.end))

    def said(self, wait):
        """Says for how long it owned the mutex, and slept."""
        thread, mutex = self.owner(wait)
        begin, end = self.owned(wait)
        slept = duration(self.sleeps.between(thread, begin, end))
        return (f"{self.names.thread(thread)} owned {self.names.mutex(mutex)} for"
                f" {duration(end - begin)}, {slept} of them asleep")
