"""The steps of pim that make a world of facts, each with the reply that pim should give."""
from model_world import ModelWorld


class Steps(ModelWorld):
    """`steps` are those of the state at first and of the lines since. `tasks` and `numbers` have
    the numbers of threads and mutexes, and `priority_of` the priority of a level."""

    def __init__(self, begin, window):
        super().__init__(begin.facts, begin.handed)
        self.take(begin, window.tasks, window.mutexes)
        self.tasks, self.numbers = window.tasks, window.mutexes
        self.priority_of, self.steps, self.verb = window.priorities, [], "lock"
        for mutex, thread in self.owner.items():
            self.lock(thread, mutex, "granted")
        for mutex, threads in self.waiting.items():
            for thread in threads:
                self.lock(thread, mutex, "queued")

    # ---- lines

    def granted(self, number, thread, words):
        self.verb = "try" if words[2] == b"took" else "lock"
        super().granted(number, thread, words)
        self.verb = "lock"

    def priority(self, number, thread, words):
        level = int(words[3])
        if self.level.get(thread, level) != level:
            self.set_base(thread, level)
        super().priority(number, thread, words)

    def set_ceiling(self, number, thread, words):
        """Only a mutex's owner sets its ceiling. If that waits, it leaves its queue meanwhile, and
        so do those after it, so that the order stays."""
        mutex, level = int(words[3]), int(words[4])
        if self.ceiling.get(mutex, level) != level:
            owner, left = self.owner.get(mutex), []
            if owner in self.awaits:
                queue = list(self.waiting[self.awaits[owner]])
                left = queue[queue.index(owner):]
            self.leave(left)
            request = f"ceil {self.numbers[mutex]} {self.priority_of[level]}"
            self.step(owner or self.idle(thread), request, "set")
            self.rejoin(left)
        super().set_ceiling(number, thread, words)

    # ---- what they change

    def refuse(self, thread, mutex):
        self.step(thread, f"lock {self.numbers[mutex]}", "refused deadlock")
        super().refuse(thread, mutex)

    def wait(self, number, thread, mutex):
        super().wait(number, thread, mutex)
        self.lock(thread, mutex, "queued")

    def stop_waiting(self, thread):
        if thread in self.awaits:
            self.leave([thread])
        super().stop_waiting(thread)

    def own(self, number, thread, mutex):
        if self.owner.get(mutex) != thread:
            self.lock(thread, mutex, "granted", self.verb)
        super().own(number, thread, mutex)

    def hand_over(self, number, thread, mutex, new):
        """pim hands over to the first waiter. If another one has the mutex next, all but that one
        leave the queue before, and join it again after."""
        is_first = self.first_of(mutex) == new
        left = [] if is_first else [one for one in self.waiting[mutex] if one != new]
        self.leave(left)
        self.step(thread, f"unlock {self.numbers[mutex]}", f"handed {self.tasks[new]}")
        super().hand_over(number, thread, mutex, new)
        self.rejoin(left)

    def free(self, number, thread, mutex):
        """None of those that wait has the mutex next. They join the queue when it has an owner."""
        self.leave(self.waiting.get(mutex, ()))
        self.step(thread, f"unlock {self.numbers[mutex]}", "freed")
        super().free(number, thread, mutex)

    # ---- steps

    def step(self, thread, words, reply):
        self.steps.append(f"{self.tasks[thread]} {words} = {reply}")

    def lock(self, thread, mutex, reply, verb="lock"):
        """A request. pim refuses one above the ceiling: the thread has a lower base meanwhile."""
        is_above = mutex in self.protects and self.level[thread] > self.ceiling[mutex]
        if is_above:
            self.step(thread, f"base {self.tasks[thread]} 1", "set")
        self.step(thread, f"{verb} {self.numbers[mutex]}", reply)
        if is_above:
            self.set_base(thread, self.level[thread])

    def set_base(self, thread, level):
        words = f"base {self.tasks[thread]} {self.priority_of[level]}"
        self.step(self.idle(thread), words, "set")

    def idle(self, thread):
        """Returns the thread, or one that has a number and doesn't wait. No cycle: there is one."""
        return next(one for one in (thread, *self.tasks)
                    if one in self.tasks and one not in self.awaits)

    def leave(self, threads):
        for thread in threads:
            self.step(thread, f"cancel {self.tasks[thread]}", "withdrawn")

    def rejoin(self, threads):
        for thread in threads:
            self.lock(thread, self.awaits[thread], "queued")
