"""A model of what Linux and glibc do with a trace: the kernel's rt-mutex (kernel/locking/rtmutex.c) with its waiter
trees, pi_waiters, pi_top_task and chain walk, and glibc's PROTECT mutexes. Each known difference from POSIX is a habit,
which the model has only if it is asked for. Without habits it is the walk with the differences mended.

It knows texts of version 1 whose steps name tasks and mutexes that are declared.
"""
from compare import Done

HABITS = {
    "stop": "kernel: a walk stops, or stops requeueing, at an owner whose highest waiter waits for another mutex",
    "toptask": "kernel: who is handed a mutex with waiters gets no pi_top_task, so that a change of its own priority "
               "forgets these waiters",
    "pitree": "kernel: a waiter that becomes a mutex's first enters the owner's pi_waiters by a priority that it had",
    "raise": "glibc: a task that waits for a PROTECT mutex is raised to its ceiling before it owns it",
    "leak": "glibc: a lock of a PROTECT mutex that times out leaves the task raised",
    "owntry": "glibc: a try of its owner is answered EDEADLK, in place of EBUSY",
    "queue": "choice: waiters of NONE and PROTECT mutexes are ordered by their own priority when they began to wait",
    "pichain": "choice: a deadlock through NONE or PROTECT mutexes isn't detected",
    "tie": "choice: a waiter whose priority changes goes behind those of equal priority",
}


class Walk:
    def __init__(self, text, habits=frozenset()):
        words = [line.split() for line in text.lines[1:]]
        self.text, self.habits = text, habits
        self.base = [0] + [int(line[2]) for line in words if line[0] == "task"]
        mutexes = [line[2:] for line in words if line[0] == "mutex"]
        self.kind = [None] + [line[0] for line in mutexes]
        self.ceiling = [0] + [int(line[1]) if line[0] == "protect" else 0 for line in mutexes]
        tasks, count = len(self.base), len(self.kind)
        self.owner, self.wait = [None] * count, [None] * tasks
        self.ticket, self.tickets = [0] * tasks, 0
        self.leaked = [0] * tasks
        self.prio, self.set = list(self.base), list(self.base)  # in force; as set by the last call
        self.plain = [[] for _ in self.kind]                     # waiters of other mutexes
        self.key = [0] * tasks                                   # and by what they are ordered
        self.tree = [[] for _ in self.kind]                      # lock->waiters
        self.tree_prio, self.pi_prio = [0] * tasks, [0] * tasks  # waiter->tree.prio, waiter->pi_tree.prio
        self.pi = [[] for _ in self.base]                        # task->pi_waiters
        self.top_task = [None] * tasks                           # task->pi_top_task

    # ---- priorities

    def own(self, t):
        """The priority that is set for the task: its base, and what glibc makes of ceilings."""
        owned = [self.ceiling[m] for m, owner in enumerate(self.owner) if owner == t]
        waited = [self.ceiling[self.wait[t]]] if self.wait[t] and "raise" in self.habits else []
        return max([self.base[t], self.leaked[t], *owned, *waited])

    def in_force(self, t):
        """rt_effective_prio: by pi_top_task, whatever pi_waiters say."""
        top = self.top_task[t]
        self.prio[t] = max(self.own(t), self.prio[top] if top else 0)

    def set_own(self, t):
        """sched_setscheduler, which glibc calls if the task's own priority changes."""
        if self.own(t) != self.set[t]:
            self.set[t] = self.own(t)
            self.in_force(t)
            lock = self.blocked_on(t)
            if lock and self.tree_prio[t] != self.prio[t]:
                self.walk(t, False, None, lock, None, t)

    def adjust_prio(self, t):
        """rt_mutex_adjust_prio"""
        self.top_task[t] = self.pi[t][0] if self.pi[t] else None
        self.in_force(t)

    # ---- trees

    def blocked_on(self, t):
        return self.wait[t] if self.wait[t] and self.kind[self.wait[t]] == "inherit" else None

    def top(self, m):
        return self.tree[m][0] if self.tree[m] else None

    def enqueue(self, tree, prios, t):
        """Behind those of equal priority; or by ticket, where that is mended."""
        by_ticket = "tie" not in self.habits

        def is_behind(other):
            equal = prios[other] == prios[t] and by_ticket
            return prios[other] < prios[t] or (equal and self.ticket[other] > self.ticket[t])
        tree.insert(next((i for i, other in enumerate(tree) if is_behind(other)), len(tree)), t)

    def enqueue_top(self, owner, m):
        """The first waiter enters the owner's pi_waiters, in remove_waiter and try_to_take_rt_mutex."""
        top = self.top(m)
        if "pitree" not in self.habits:
            self.pi_prio[top] = self.tree_prio[top]
        self.enqueue(self.pi[owner], self.pi_prio, top)

    # ---- the walk

    def walk(self, task, detect, orig_lock, next_lock, top_waiter, top_task):
        """rt_mutex_adjust_prio_chain. Returns whether it found a deadlock."""
        requeue = True
        while True:
            lock = self.blocked_on(task)
            if not lock or lock != next_lock:
                return False
            if top_waiter and not self.pi[task]:
                return False
            if top_waiter and "stop" in self.habits and top_waiter != self.pi[task][0]:
                if not detect:
                    return False
                requeue = False
            if self.tree_prio[task] == self.prio[task]:
                if not detect:
                    return False
                requeue = False
            owner = self.owner[lock]
            if lock == orig_lock or owner == top_task:
                return True
            waiter = self.requeue(task, lock, owner) if requeue else task
            next_lock, top_waiter = self.blocked_on(owner), self.top(lock)
            if not next_lock or (requeue and not detect and waiter != top_waiter):
                return False
            task = owner

    def requeue(self, waiter, lock, owner):
        """Steps [7] to [11] of the walk."""
        before = self.top(lock)
        self.tree[lock].remove(waiter)
        self.tree_prio[waiter] = self.prio[waiter]
        self.enqueue(self.tree[lock], self.tree_prio, waiter)
        if waiter != self.top(lock) and before != waiter:
            return waiter
        self.pi[owner].remove(before)
        waiter = self.top(lock)
        self.pi_prio[waiter] = self.tree_prio[waiter]
        self.enqueue(self.pi[owner], self.pi_prio, waiter)
        self.adjust_prio(owner)
        return waiter

    def block(self, t, m):
        """task_blocks_on_rt_mutex. Returns whether it found a deadlock."""
        owner, before = self.owner[m], self.top(m)
        self.tree_prio[t] = self.pi_prio[t] = self.prio[t]
        self.enqueue(self.tree[m], self.tree_prio, t)
        self.wait[t] = m
        if self.top(m) == t:
            if before:
                self.pi[owner].remove(before)
            self.enqueue(self.pi[owner], self.pi_prio, t)
            self.adjust_prio(owner)
        next_lock = self.blocked_on(owner)
        return bool(next_lock) and self.walk(owner, True, m, next_lock, t, t)

    def remove(self, t, m):
        """remove_waiter"""
        owner, was_top = self.owner[m], self.top(m) == t
        self.tree[m].remove(t)
        self.wait[t] = None
        if not was_top:
            return
        self.pi[owner].remove(t)
        if self.tree[m]:
            self.enqueue_top(owner, m)
        self.adjust_prio(owner)
        next_lock = self.blocked_on(owner)
        if next_lock:
            self.walk(owner, False, m, next_lock, None, t)

    # ---- the steps

    def reaches(self, m, t, kinds):
        """Whether the chain from the mutex, through mutexes of these kinds, reaches the task."""
        seen = set()
        while m and m not in seen and self.kind[m] in kinds:
            if self.owner[m] == t:
                return True
            seen.add(m)
            m = self.wait[self.owner[m]]
        return False

    def lock(self, t, m):
        own_chain = self.owner[m] and self.owner[m] != t and self.reaches(m, t, ("inherit",))
        kinds = ("inherit",) if "pichain" in self.habits else ("none", "inherit", "protect")
        if self.owner[m] == t:
            return "refused deadlock"
        if own_chain:
            self.block(t, m)
            self.remove(t, m)
            return "refused deadlock"
        if "pichain" not in self.habits and self.owner[m] and self.reaches(m, t, kinds):
            return "refused deadlock"
        if self.kind[m] == "protect" and self.base[t] > self.ceiling[m]:
            return "refused ceiling"
        if not self.owner[m]:
            self.owner[m] = t
            self.set_own(t)
            return "granted"
        self.ticket[t] = self.tickets = self.tickets + 1
        if self.kind[m] == "inherit":
            self.block(t, m)
        else:
            self.wait[t] = m
            self.set_own(t)
            self.key[t] = self.own(t)
            self.plain[m].append(t)
        return "queued"

    def try_lock(self, t, m):
        if self.owner[m] == t and self.kind[m] != "none" and "owntry" in self.habits:
            return "refused deadlock"
        if self.kind[m] == "protect" and self.base[t] > self.ceiling[m]:
            return "refused ceiling"
        if self.owner[m]:
            if self.kind[m] == "protect" and self.ceiling[m] > self.own(t):
                self.in_force(t)  # glibc raises and lowers it
            return "refused busy"
        self.owner[m] = t
        self.set_own(t)
        return "granted"

    def next_plain(self, m):
        """The waiter of a NONE or PROTECT mutex that is next: the first of the highest priority."""
        by = self.key if "queue" in self.habits else self.prio
        order = self.plain[m] if "queue" in self.habits else sorted(self.plain[m], key=lambda t: self.ticket[t])
        return max(order, key=lambda t: by[t], default=None)

    def unlock(self, t, m):
        if self.owner[m] != t:
            return "refused not-owner"
        heir = self.tree[m].pop(0) if self.tree[m] else self.next_plain(m)
        self.owner[m] = None
        if self.kind[m] == "inherit" and heir:
            self.pi[t].remove(heir)
            self.adjust_prio(t)
        elif heir:
            self.plain[m].remove(heir)
        self.set_own(t)
        if not heir:
            return "freed"
        self.wait[heir], self.owner[m] = None, heir
        if self.kind[m] == "inherit" and self.tree[m]:
            self.enqueue_top(heir, m)
            if "toptask" not in self.habits:
                self.adjust_prio(heir)
        self.set_own(heir)
        return f"handed {heir}"

    def release(self, t):
        owned = [m for m, owner in enumerate(self.owner) if owner == t]
        for m in owned:
            self.unlock(t, m)
        return f"released {len(owned)}"

    def cancel(self, t):
        m = self.wait[t]
        if not m:
            return "refused not-waiting"
        if self.kind[m] == "inherit":
            self.remove(t, m)  # the signal ends the wait,
            self.block(t, m)   # the restarted call waits once more,
            self.remove(t, m)  # and its time has run out
        else:
            self.plain[m].remove(t)
            if self.kind[m] == "protect" and "leak" in self.habits:
                self.leaked[t] = max(self.leaked[t], self.ceiling[m])
            self.wait[t] = None
            self.set_own(t)
        return "withdrawn"

    def set_base(self, t, priority):
        self.base[t] = priority
        self.set_own(t)
        return "set"

    def step(self, words):
        actor, request, numbers = int(words[0]), words[1], [int(word) for word in words[2:]]
        if self.wait[actor] and (request != "cancel" or numbers[0] != actor):
            return "refused waiting"
        if request in ("lock", "try", "unlock", "release"):
            call = {"lock": self.lock, "try": self.try_lock, "unlock": self.unlock, "release": self.release}[request]
            return call(actor, *numbers)
        return self.cancel(*numbers) if request == "cancel" else self.set_base(*numbers)

    def run(self):
        """Returns what each step does, as a report has it but for the reasons."""
        steps = []
        for line in self.text.steps:
            before = list(self.prio)
            reply = self.step(line.split())
            changes = {t: p for t, p in enumerate(self.prio) if t and p != before[t]}
            steps.append(Done(reply, changes, {}, []))
        return steps
