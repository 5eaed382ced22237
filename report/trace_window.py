"""The part of a recording that a trace is made of, and what is numbered in it."""
from model_world import ModelWorld
from program import Fault

MOST_TASKS = MOST_MUTEXES = 256
MOST_STEPS = 65_536
MOST_LEVELS = 99


class TooLarge(Exception):
    """A trace has no room for a window. A window that ends before this time has."""

    def __init__(self, what, time):
        super().__init__(what, time)
        self.what, self.time = what, time


def priorities_of(levels):
    """Returns the priority of each level: itself, if that leaves all apart, or one more, or else
    its place among them. As it is, level 0 is priority 1, and level 100 is 99."""
    if len(levels) > MOST_LEVELS:
        raise Fault(f"a trace has no room for more than {MOST_LEVELS} levels")
    if not {0, 1} <= levels and not {99, 100} <= levels:
        return {level: min(max(level, 1), 99) for level in levels}
    if not levels & {99, 100}:
        return {level: level + 1 for level in levels}
    return {level: place for place, level in enumerate(sorted(levels), 1)}


class Window:
    """`lines` are those of the times from one to another, and `begin` is the world before them.
    `tasks` and `mutexes` have the numbers of the threads and mutexes that these lines need."""

    def __init__(self, facts, handed, since, until):
        self.facts, self.begin, self.lines = facts, ModelWorld(facts, handed), []
        self.threads, self.needed = set(), set()
        self.read(since, until)
        self.tasks = self.numbers(facts.threads, self.threads)
        self.mutexes = self.numbers(facts.mutexes, self.needed)
        levels = {level for thread in self.tasks
                  for level in (facts.threads[thread].level,
                                *(level for _, level in facts.levels.get(thread, ())))}
        levels |= {level for mutex in self.mutexes if mutex in self.begin.protects
                   for level in (facts.mutexes[mutex].ceiling,
                                 *(level for _, level in facts.ceilings.get(mutex, ())))}
        self.priorities = priorities_of(levels)

    def read(self, since, until):
        clock, is_begun = 0, False
        for number, line in enumerate(self.facts.lines[1:], 2):
            if line[:1] > b"9":
                continue
            clock = max(clock, int(line.split(b" ", 1)[0]))
            if clock > until:
                break
            if clock < since:
                self.begin.apply(number, line)
                continue
            if not is_begun:
                is_begun = True
                self.need_waits(clock)
            self.lines.append((number, clock))
            self.need_of(line.split(b" ", 4), clock)

    @staticmethod
    def numbers(declared, needed):
        """Returns numbers from 1 on, in the order of the declarations."""
        return {one: number for number, one in enumerate(filter(needed.__contains__, declared), 1)}

    # ---- what the lines need

    def need_waits(self, clock):
        """The waits that last as the window begins."""
        for waits in (self.begin.awaits, self.begin.out):
            for thread, mutex in waits.items():
                self.need(thread, mutex, clock)

    def need_of(self, words, clock):
        """What a line names, if it is one of a thread that owns or awaits the mutex."""
        if words[2:3] and words[2] in (b"granted", b"took", b"waits", b"gave-up", b"released"):
            self.need(int(words[1]), int(words[3]), clock)

    def need(self, thread, mutex, clock):
        """A thread and a mutex, its owner as the window begins, and the PROTECT ones of both."""
        self.needed.add(mutex)
        for one in {thread, self.begin.owner.get(mutex, thread)} - self.threads:
            self.threads.add(one)
            self.needed |= self.begin.protects.intersection(self.begin.owned.get(one, ()))
        self.refuse_too_many(clock)

    def refuse_too_many(self, clock):
        for kind, found, most in (("threads", self.threads, MOST_TASKS),
                                  ("mutexes", self.needed, MOST_MUTEXES)):
            if len(found) > most:
                raise TooLarge(f"{most} {kind}", clock)
