"""What tasks and mutexes are after each step of a trace, by the report of pim.

Who owns and who waits follows from the replies, and the report has the priorities. What boosts a
task is found by comparing: a ceiling, or the first waiter, of one of its mutexes has its priority.
"""
from bisect import insort
from collections import namedtuple

# What gives a task its priority: a waiter for one of its mutexes, or that mutex's ceiling.
Boost = namedtuple("Boost", "mutex waiter")
NOBODY = 0, 0, None


class State:
    """What the tasks and mutexes are after a step. Both are numbered from 1."""

    def __init__(self, declarations):
        self.bases, self.prios, self.owned, self.waits = {}, {}, {}, {}
        self.owners, self.ceilings, self.inherits = {}, {}, set()
        # By mutex, for each task that waits for it: what puts the first one first.
        self.queues = {}
        for line in declarations:
            kind, number, *words = line.split()
            declare = self.task if kind == "task" else self.mutex
            declare(int(number), *words)
        # Tasks and mutexes that may be other than when these sets were last cleared.
        self.changed, self.moved = set(self.bases), set()

    def task(self, number, base):
        self.bases[number] = self.prios[number] = int(base)
        self.owned[number] = []

    def mutex(self, number, protocol, detail=None):
        self.queues[number] = {}
        if protocol == "inherit":
            self.inherits.add(number)
        if protocol == "protect":
            self.ceilings[number] = int(detail)

    # ---- a step

    def make(self, number, request, reply, levels):
        """Changes what a step changed: by the reply, and by the report's lines of priorities."""
        actor, operation, *numbers = request.split()
        self.follow(number, int(actor), operation, [*map(int, numbers)], reply.split()[0])
        for line in levels.splitlines():
            _, task, _, prio, *_ = line.split()
            self.set_priority(int(task), int(prio))

    def follow(self, number, actor, operation, numbers, reply):
        """Changes owners, waits, bases and ceilings. Other replies change none."""
        if reply == "granted":
            self.own(actor, numbers[0])
        elif reply == "queued":
            self.wait(actor, numbers[0], number)
        elif reply in ("freed", "handed"):
            self.hand_on(numbers[0])
        elif reply == "released":
            for mutex in self.owned[actor][:]:
                self.hand_on(mutex)
        elif reply == "withdrawn":
            self.leave(numbers[0])
        elif reply == "set" and operation == "base":
            self.bases[numbers[0]] = numbers[1]
            self.changed.add(numbers[0])
        elif reply == "set":
            self.ceilings[numbers[0]] = numbers[1]
            self.touch(numbers[0])

    def own(self, task, mutex):
        """Makes a task the owner of a mutex. An owner that locks it again owns it already."""
        if self.owners.get(mutex) != task:
            self.owners[mutex] = task
            insort(self.owned[task], mutex)
            self.changed.add(task)
            self.moved.add(mutex)

    def wait(self, task, mutex, ticket):
        self.waits[task] = mutex
        self.queues[mutex][task] = -self.prios[task], ticket, task
        self.changed.add(task)
        self.touch(mutex)

    def leave(self, task):
        """Ends the wait of a task."""
        mutex = self.waits.pop(task)
        del self.queues[mutex][task]
        self.changed.add(task)
        self.touch(mutex)

    def hand_on(self, mutex):
        """Gives a mutex to its first waiter, or leaves it free."""
        owner, first = self.owners.pop(mutex), self.first(mutex)
        self.owned[owner].remove(mutex)
        self.changed.add(owner)
        self.moved.add(mutex)
        if first:
            self.leave(first)
            self.own(first, mutex)

    def set_priority(self, task, prio):
        self.prios[task] = prio
        self.changed.add(task)
        if task in self.waits:
            mutex = self.waits[task]
            _, ticket, _ = self.queues[mutex][task]
            self.queues[mutex][task] = -prio, ticket, task
            self.touch(mutex)

    def touch(self, mutex):
        """Notes that another boost may come from a mutex."""
        if mutex in self.owners:
            self.changed.add(self.owners[mutex])

    # ---- what follows

    def first(self, mutex):
        """Returns the first waiter of a mutex, or None."""
        return min(self.queues[mutex].values(), default=NOBODY)[2]

    def boost(self, task):
        """Returns what gives a task another priority than its base, or None."""
        prio, owned = self.prios[task], self.owned[task]
        if prio == self.bases[task]:
            return None
        for mutex in owned:
            if self.ceilings.get(mutex) == prio:
                return Boost(mutex, None)
        firsts = ((mutex, self.first(mutex)) for mutex in owned if mutex in self.inherits)
        return next(Boost(mutex, first) for mutex, first in firsts
                    if first and self.prios[first] == prio)
