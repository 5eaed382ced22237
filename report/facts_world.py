"""Which thread owns and awaits what after some lines of facts, and what each thread gets.

What a line can't have changed isn't looked at again: a line costs some work for each thread that
waits, directly or not, for one that the named thread waits for.
"""
from collections import defaultdict


class FactsWorld:
    """`gets` has what each thread gets. `owned` has by thread its mutexes, and `waiting` by mutex
    the threads that await it, as they began to."""

    def __init__(self, facts):
        self.facts, self.now = facts, 0
        self.level = {number: one.level for number, one in facts.threads.items()}
        self.ceiling = {number: one.ceiling for number, one in facts.mutexes.items()}
        self.gets = dict(self.level)
        self.protects, self.inherits = (
            {number for number, one in facts.mutexes.items() if one.protocol == protocol}
            for protocol in ("protect", "inherit"))
        self.owner, self.locked, self.awaits = {}, {}, {}
        self.owned, self.waiting = defaultdict(set), defaultdict(dict)
        self.acts = {b"granted": self.granted, b"took": self.granted, b"waits": self.waits,
                     b"gave-up": self.gave_up, b"released": self.released,
                     b"priority": self.priority, b"ceiling": self.set_ceiling}

    def apply(self, number, line):
        """What a line says happens. Nothing does by a declaration."""
        if line[:1] > b"9":
            return
        words = line.split(b" ", 5)
        self.now = max(self.now, int(words[0]))
        if len(words) > 2 and words[2] in self.acts:
            self.acts[words[2]](number, int(words[1]), words)

    # ---- lines

    def granted(self, number, thread, words):
        mutex = int(words[3])
        self.locked[mutex] = self.locked.get(mutex, 0) + 1
        if self.locked[mutex] == 1:
            self.stop_waiting(thread)
            self.own(number, thread, mutex)

    def waits(self, number, thread, words):
        self.wait(number, thread, int(words[3]))

    def gave_up(self, _, thread, words):
        self.stop_waiting(thread)

    def released(self, number, thread, words):
        mutex = int(words[3])
        self.locked[mutex] -= 1
        if not self.locked[mutex]:
            self.disown(number, thread, mutex)

    def priority(self, _, thread, words):
        self.level[thread] = int(words[3])
        self.changed(thread)

    def set_ceiling(self, _, thread, words):
        mutex = int(words[3])
        self.ceiling[mutex] = int(words[4])
        self.changed(self.owner.get(mutex, thread))

    # ---- what they change

    def own(self, _, thread, mutex):
        self.owner[mutex] = thread
        self.owned[thread].add(mutex)
        self.changed(thread)

    def disown(self, _, thread, mutex):
        del self.owner[mutex]
        self.owned[thread].remove(mutex)
        self.changed(thread)

    def wait(self, _, thread, mutex):
        self.awaits[thread] = mutex
        self.waiting[mutex][thread] = None
        self.changed(thread)

    def stop_waiting(self, thread):
        if thread in self.awaits:
            mutex = self.awaits.pop(thread)
            del self.waiting[mutex][thread]
            if not self.waiting[mutex]:
                del self.waiting[mutex]
            self.changed(thread, self.owner.get(mutex, thread))

    def changed(self, *threads):
        """What these threads own, await or are has changed. Returns those that may get something
        else, or get it for something else: they, and all that they wait for."""
        if self.are_alone(threads):
            self.gets[threads[0]] = self.own_of(threads[0])
            return threads
        found = self.chains(threads)
        for one in found:
            self.gets[one] = self.gets_of(one)
        return found

    def are_alone(self, threads):
        """Returns whether this is one thread, which awaits nothing and for which none waits."""
        is_one = len(threads) == 1 and threads[0] not in self.awaits
        return is_one and self.waiting.keys().isdisjoint(self.owned.get(threads[0], ()))

    def chains(self, threads):
        """Returns these threads and all that they wait for, directly or not."""
        found = {}
        for thread in threads:
            while thread is not None and thread not in found:
                found[thread] = None
                thread = self.blocker(thread)
        return found

    # ---- what a thread gets, as docs/ROWS.md defines it

    def own_of(self, thread):
        best = self.level[thread]
        for mutex in self.owned.get(thread, ()):
            if mutex in self.protects and self.ceiling[mutex] > best:
                best = self.ceiling[mutex]
        return best

    def blocker(self, thread):
        return self.owner.get(self.awaits.get(thread))

    def gets_of(self, thread):
        best, seen, todo = 0, {thread}, [thread]
        while todo:
            one = todo.pop()
            best = max(best, self.own_of(one))
            for mutex in self.owned.get(one, ()):
                if mutex in self.inherits and mutex in self.waiting:
                    more = [waiter for waiter in self.waiting[mutex] if waiter not in seen]
                    seen.update(more)
                    todo += more
        return best

    def first_of(self, mutex):
        """Returns the first of those that await a mutex: what gets most, and has waited longest."""
        return max(self.waiting[mutex], key=self.gets.get)
