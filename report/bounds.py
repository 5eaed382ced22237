"""How long lower threads can block each thread, from the sections that were recorded.

docs/FINDINGS.md defines them, and says what they assume. A section counts with what its thread
used, without the time for which that thread was on no CPU.
"""
from collections import defaultdict, namedtuple

Bound = namedtuple("Bound", "thread level inherit protect waited")
# The most for which a mutex was used below a level, by which thread, and the most by another one.
Most = namedtuple("Most", "used thread other")
NONE = Most(0, 0, 0)


class Bounds:
    def __init__(self, facts, rows):
        self.users, self.used_at = defaultdict(dict), defaultdict(set)
        self.own, self.levels_of = defaultdict(set), defaultdict(set)
        self.waited, self.inner, self.of_level = defaultdict(int), defaultdict(set), {}
        for thread in facts.threads:
            level = facts.highest(thread)
            if 1 <= level <= 99:
                self.of_level.setdefault(level, []).append(thread)
        for one in rows.sections:
            self.users[one.mutex][one.thread, one.level] = one.used
        for wait in rows.waits:
            self.users[wait.mutex].setdefault((wait.thread, wait.level), 0)
            if wait.lower > self.waited[wait.thread]:
                self.waited[wait.thread] = wait.lower
        for mutex, users in self.users.items():
            for thread, level in users:
                self.used_at[level].add(mutex)
                self.own[thread].add(mutex)
                self.levels_of[thread].add(level)
        for nest in rows.nests:
            self.inner[nest.outer].add(nest.inner)

    def reached(self, mutexes, known=()):
        """Returns these mutexes, and what was asked for while one that is reached was owned.

        What is reached from those that are known isn't looked at again.
        """
        found = set(mutexes).difference(known)
        todo = list(found)
        while todo:
            more = self.inner[todo.pop()].difference(found, known)
            found |= more
            todo += more
        return found

    def levels(self, levels):
        """Yields each level, the highest first, and what is used by threads below it.

        That is by thread what it used most, and by mutex its `Most`; and the mutexes used at the
        level or above. It is of what these lead to. From level to level more mutexes count, and
        only those are looked at that were used at a level between.
        """
        reached, mutexes, at_level, used_by = {}, {}, set(), {}
        left = sorted(self.used_at)
        for level in sorted(levels, reverse=True):
            changed = set()
            while left and left[-1] >= level:
                changed |= self.used_at[left.pop()]
            at_level |= changed
            for mutex in self.reached(changed, reached):
                reached[mutex] = self.greatest(mutex)
                changed.add(mutex)
                for key, used in self.users[mutex].items():
                    used_by[key] = max(used_by.get(key, 0), used)
            threads = {}
            for (thread, at), used in used_by.items():
                if at < level:
                    threads[thread] = max(threads.get(thread, 0), used)
            for mutex in changed:
                while reached[mutex][-1][0] >= level:
                    reached[mutex].pop()
                mutexes[mutex] = reached[mutex][-1][1]
            yield level, threads, mutexes, at_level

    def greatest(self, mutex):
        """Returns levels, ascending, each with the `Most` of a mutex at it and below."""
        found, (used, thread, other) = [(-1, NONE)], NONE
        for (one, level), more in sorted(self.users[mutex].items(), key=lambda use: use[0][1]):
            if one == thread:
                used = max(used, more)
            elif more > used:
                used, thread, other = more, one, used
            else:
                other = max(other, more)
            found.append((level, Most(used, thread, other)))
        return found

    def changes(self, thread, level, threads, mutexes):
        """Returns what differs for a thread that used mutexes at a lower level of its own, too.

        What leads from its mutexes is added, and what it used itself isn't counted.
        """
        beyond = self.reached(self.own[thread], mutexes)
        by_thread = {thread: 0}
        by_mutex = {mutex: most.other if most.thread == thread else most.used
                    for mutex in self.own[thread] - beyond for most in (mutexes[mutex],)}
        for mutex in beyond:
            uses = [(one, used) for (one, at), used in self.users[mutex].items()
                    if at < level and one != thread]
            by_mutex[mutex] = max((used for _, used in uses), default=0)
            for one, used in uses:
                by_thread[one] = max(by_thread.get(one, threads.get(one, 0)), used)
        return by_thread, by_mutex

    def at(self, level, threads, mutexes, at_level):
        """Yields the bounds of the threads of a level."""
        sums = sum(threads.values()), sum(most.used for most in mutexes.values())
        ranked = sorted(at_level, key=mutexes.get, reverse=True)
        usual = min(sums), mutexes[ranked[0]].used if ranked else 0
        for thread in self.of_level[level]:
            found = usual
            if self.levels_of[thread] - {level}:
                found = self.own_bounds(thread, level, (threads, mutexes), sums, ranked, at_level)
            yield Bound(thread, level, *found, self.waited[thread])

    def own_bounds(self, thread, level, usual, sums, ranked, at_level):
        """Returns the two bounds of a thread by what differs for it from what is usual."""
        by_thread, by_mutex = self.changes(thread, level, *usual)
        threads, mutexes = usual
        inherit = min(
            sums[0] + sum(used - threads.get(one, 0) for one, used in by_thread.items()),
            sums[1] + sum(used - mutexes.get(one, NONE).used for one, used in by_mutex.items()))
        rest = next((mutexes[mutex].used for mutex in ranked if mutex not in by_mutex), 0)
        return inherit, max([rest, *(used for mutex, used in by_mutex.items()
                                     if mutex in self.own[thread] or mutex in at_level)])

    def all(self):
        """Returns the bounds of real-time threads that can be blocked, the most urgent first."""
        found = [one for parts in self.levels(self.of_level) for one in self.at(*parts)]
        return [one for one in found if one.inherit]
