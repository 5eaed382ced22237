"""A recording: its facts, the rows that follow, and what both are called."""
import functools
from bisect import bisect_left, bisect_right
from graphlib import CycleError, TopologicalSorter
from heapq import nlargest

from choice import Choice
from mutex_table import MutexTable
from names import Names
from words import place_and_function, without_function


# What is looked for of a way: how long it may be, and how many grants and waits are tried.
LONGEST, MOST_GRANTS, MOST_WAITS = 100, 50, 20


class Recording:
    """`rows` are those that are chosen; `all_rows` are all. It `began` so many nanoseconds after
    1970, if that is known."""

    def __init__(self, facts, rows, thread=None, mutex=None, since=0, began=None):
        self.facts, self.all_rows, self.names, self.began = facts, rows, Names(facts), began
        self.choice = Choice(self, thread, mutex, since)
        self.rows = rows if self.choice.is_all else self.choice.of(rows)
        self.waits_of = self.by_thread(rows.waits)

    @staticmethod
    def by_thread(waits):
        """Returns by thread its waits in the order of their lines, and these lines."""
        found = {}
        for wait in sorted(waits, key=lambda wait: wait.line):
            ones, lines = found.setdefault(wait.thread, ([], []))
            ones.append(wait)
            lines.append(wait.line)
        return found

    def level_of(self, wait):
        """Returns the highest level that a thread had while it waited for a mutex."""
        changes, level = self.facts.levels.get(wait.thread), wait.level
        if not changes:
            return level
        at = bisect_right(changes, (wait.line, 101))
        while at < len(changes) and not 0 < wait.until < changes[at][0]:
            level, at = max(level, changes[at][1]), at + 1
        return level

    def wait_at(self, thread, line):
        """Returns the wait for a mutex that a thread is in after a line, or None."""
        waits, lines = self.waits_of.get(thread, ((), ()))
        wait = waits[at - 1] if (at := bisect_right(lines, line)) else None
        return wait if wait and (wait.until > line or not wait.until) else None

    def gave_up(self, wait):
        """Returns whether a wait for a mutex ended without it, and doesn't go on at that time."""
        if not wait.until or self.facts.word(wait.until) != b"gave-up":
            return False
        waits, lines = self.waits_of[wait.thread]
        later = waits[bisect_right(lines, wait.line):][:1]
        return not any((one.mutex, one.begin) == (wait.mutex, wait.end) for one in later)

    @functools.cached_property
    def has_cycle(self):
        """Returns whether mutexes were asked for in a cycle: each by an owner of the one before."""
        before = {}
        for nest in self.all_rows.nests:
            before.setdefault(nest.inner, set()).add(nest.outer)
        try:
            TopologicalSorter(before).prepare()
        except CycleError:
            return True
        return False

    def cycle_before(self, wait):
        """Returns the waits of the deadlock that the end of a wait ended, that one first, or []."""
        if wait.owner != wait.thread and not self.has_cycle:
            return []
        line, cycle = wait.until - 1, [wait]
        while len(cycle) < LONGEST:
            owner = self.facts.owner(cycle[-1].mutex, line)
            if owner == wait.thread:
                return cycle
            following = self.wait_at(owner, line)
            if not following or following in cycle:
                return []
            cycle.append(following)
        return []

    def mutex_table(self):
        """Returns how often and for how long each mutex was owned and waited for."""
        return MutexTable(self).all()

    def where(self, line):
        """Returns the place of a line as 'mix.c:17 (high)', or an empty text."""
        return place_and_function(self.facts.place(line))

    def callers(self, line):
        return [place_and_function(place) for place in self.facts.places(line)[1:]]

    def at_place(self, line, is_short=False):
        """Returns ' at mix.c:17 (high)' of a line, or nothing."""
        where = self.where(line)
        return f" at {without_function(where) if is_short else where}" if where else ""

    def way(self, wait, runner):
        """Returns the (mutex, owner) that led from a wait to its runner, as they were at some time.

        There is none if that takes too many attempts.
        """
        if wait.owner == runner:  # which needs no more lines
            return [(wait.mutex, runner)]
        return self.way_from([wait], runner, wait.line, wait.until or self.all_rows.lines + 1)

    def way_from(self, waits, runner, line, until):
        """Returns the way from some waits on, which last from after a line to before another.

        Owners change: it is looked for then, and after each grant of the last mutex.
        """
        grants = self.facts.grants(waits[-1].mutex, line, until)
        for begin in [line, *grants][:MOST_GRANTS]:
            owners = [(wait.mutex, self.facts.owner(wait.mutex, begin)) for wait in waits]
            last, threads = owners[-1][1], [wait.thread for wait in waits]
            is_way = [owner for _, owner in owners[:-1]] == threads[1:] and last not in threads
            if is_way and last == runner:
                return owners
            found = is_way and self.way_beyond(waits, last, runner, (begin, until))
            if found:
                return found
        return []

    def way_beyond(self, waits, last, runner, lines):
        """Returns the way from some waits on, if the last owner waits between two lines."""
        begin, until = lines
        if not last or len(waits) == LONGEST:
            return []
        for wait in self.waits_between(last, begin, until):
            end = min(until, wait.until or until)
            found = self.way_from([*waits, wait], runner, max(begin, wait.line), end)
            if found:
                return found
        return []

    def waits_between(self, thread, line, until):
        """Returns the longest waits of a thread that are there at some line of these.

        They are in the order of their lines, for a thread waits for one mutex at a time.
        """
        waits, lines = self.waits_of.get(thread, ((), ()))
        first, last = bisect_right(lines, line), bisect_left(lines, until)
        if first and not 0 < waits[first - 1].until <= line:
            first -= 1
        return nlargest(MOST_WAITS, waits[first:last], key=lambda wait: wait.lasted)
