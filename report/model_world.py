"""The world of some facts as a lock manager has it: docs/TEXT.md, 'A trace of a recording'."""
from bisect import bisect_left

from facts_world import FactsWorld


def hand_overs(facts, rows):
    """Returns by the line of a release the thread that owns the mutex next, if it waited then."""
    found = {}
    for wait in rows.waits:
        if not wait.until or facts.words(wait.until)[2] != b"granted":
            continue
        lines, _ = facts.owners_of(wait.mutex)
        release = lines[bisect_left(lines, wait.until) - 1]
        if release > wait.line:
            found[release] = wait.thread
    return found


class ModelWorld(FactsWorld):
    """A mutex is handed over as it is released. A wait for a free mutex, or one that would close a
    cycle of waits, is `out`: nothing depends on it."""

    def __init__(self, facts, handed):
        super().__init__(facts)
        self.handed, self.out = handed, {}

    def take(self, other, threads, mutexes):
        """Has what another world has of these threads and mutexes, and nothing else."""
        self.now = other.now
        for name, kept in (("level", threads), ("gets", threads), ("awaits", threads),
                           ("out", threads), ("owner", mutexes), ("locked", mutexes),
                           ("ceiling", mutexes)):
            values = getattr(other, name)
            setattr(self, name, {one: values[one] for one in values if one in kept})
        for mutex, thread in self.owner.items():
            self.owned[thread].add(mutex)
            if mutex in other.waiting:
                self.waiting[mutex] = dict(other.waiting[mutex])

    def apply(self, number, line):
        super().apply(number, line)
        for thread, mutex in list(self.out.items()):
            if mutex in self.owner and not self.closes_cycle(thread, mutex):
                del self.out[thread]
                self.wait(number, thread, mutex)

    def closes_cycle(self, thread, mutex):
        return thread in self.chains([self.owner[mutex]])

    # ---- lines

    def waits(self, number, thread, words):
        mutex = int(words[3])
        if mutex not in self.owner:
            self.out[thread] = mutex
        elif self.closes_cycle(thread, mutex):
            self.refuse(thread, mutex)
        else:
            self.wait(number, thread, mutex)

    def priority(self, number, thread, words):
        if thread in self.level:
            super().priority(number, thread, words)

    def set_ceiling(self, _, thread, words):
        mutex = int(words[3])
        if mutex in self.ceiling:
            self.ceiling[mutex] = int(words[4])
            if mutex in self.owner:
                self.changed(self.owner[mutex])

    # ---- what they change

    def refuse(self, thread, mutex):
        self.out[thread] = mutex

    def stop_waiting(self, thread):
        self.out.pop(thread, None)
        super().stop_waiting(thread)

    def own(self, number, thread, mutex):
        if self.owner.get(mutex) != thread:
            super().own(number, thread, mutex)

    def disown(self, number, thread, mutex):
        if number in self.handed:
            self.hand_over(number, thread, mutex, self.handed[number])
        else:
            self.free(number, thread, mutex)

    def hand_over(self, number, thread, mutex, new):
        FactsWorld.disown(self, number, thread, mutex)
        FactsWorld.stop_waiting(self, new)
        FactsWorld.own(self, number, new, mutex)

    def free(self, number, thread, mutex):
        FactsWorld.disown(self, number, thread, mutex)
        for one in list(self.waiting.get(mutex, ())):
            FactsWorld.stop_waiting(self, one)
            self.out[one] = mutex
