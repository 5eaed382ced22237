"""Which mutexes a thread owned each time that it asked for one while it owned another.

Two threads that take two mutexes in opposite orders can't deadlock if both own a third one, the
gate, meanwhile.
"""
OF_MUTEX = b"granted", b"took", b"released", b"waits", b"gave-up"


class Gates:
    """`of` has by (thread, outer, inner) what the thread owned at each of these requests."""

    def __init__(self, facts, pairs):
        self.pairs, self.owned, self.awaits, self.of = pairs, {}, {}, {}
        for line in facts.lines:
            words = line.split(b" ", 4)
            if words[2:3] and words[2] in OF_MUTEX and line[:1] <= b"9":
                self.step(int(words[1]), words[2], int(words[3]))

    def step(self, thread, what, mutex):
        owned = self.owned.setdefault(thread, {})
        is_awaited = self.awaits.get(thread) == mutex
        if what == b"waits" or (what == b"granted" and not is_awaited and mutex not in owned):
            self.ask(thread, mutex, owned)
        self.awaits[thread] = mutex if what == b"waits" else None
        if what in (b"granted", b"took"):
            owned[mutex] = owned.get(mutex, 0) + 1
        elif what == b"released":
            owned[mutex] -= 1
            if not owned[mutex]:
                del owned[mutex]

    def ask(self, thread, inner, owned):
        for outer in owned:
            if (outer, inner) in self.pairs:
                others = {*owned} - {outer, inner}
                self.of[thread, outer, inner] = others & self.of.get((thread, outer, inner), others)

    def are_apart(self, one, other):
        """Returns whether two rows `nests` of two threads are never at one time."""
        first, second = (self.of.get((nest.thread, nest.outer, nest.inner), set())
                         for nest in (one, other))
        return bool(first & second)
