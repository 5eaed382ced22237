"""Who owns and awaits what after some lines, which line may follow, and what a thread gets.

That is docs/FACTS.md, 'Which line may follow', and docs/ROWS.md, 'After a line', in their order
and with their numbers. Each value is computed anew whenever it is needed.
"""
from lines import INHERIT, PROTECT, demand

MOST_THREADS = 65536
# What only an idle thread does. One that waits may be granted the mutex that it awaits.
ACTS = "granted", "took", "waits", "released", "blocks"


class World:
    """After some lines. A table lacks what isn't declared, and what isn't the case."""

    def __init__(self):
        self.level, self.runs = {}, {}  # by thread its own level, and the one the kernel runs it at
        self.mutexes = {}               # by mutex the line that declares it
        self.ceiling = {}               # by PROTECT mutex
        self.objects = set()
        self.awaits, self.blocked = {}, {}  # by thread the mutex and the object it waits for
        self.owner, self.depth = {}, {}     # by mutex its owner, and how often it is locked
        self.on, self.cpu = {}, {}      # by CPU the thread on it; by thread the CPU it was last on
        self.off = {}                   # by thread that is off whether it could run
        self.clock, self.has_ended = 0, False

    # ---- which line may follow

    def refuse(self, line):
        """Raises why a line may not follow."""
        if line.what in ("thread", "mutex", "object"):
            return self.refuse_declaration(line)
        self.refuse_undeclared(line)
        awaited = self.awaits.get(line.thread)
        if line.what in ACTS:
            is_granted = line.what == "granted" and awaited == line.mutex
            demand(awaited is None or is_granted, "its thread waits for a mutex")
            demand(line.thread not in self.blocked, "its thread is blocked")
        if line.mutex is not None:
            return self.refuse_of_mutex(line, awaited, self.owner.get(line.mutex))
        if line.what == "resumes":
            is_there = self.blocked.get(line.thread) == line.object
            demand(is_there, "its thread isn't blocked at its object")
            demand(line.by != line.thread, "its thread can't end its own wait")
        if line.what == "on":
            demand(not self.is_on(line.thread), "its thread is on a CPU")
            demand(line.cpu not in self.on, "another thread is on its CPU")

    def refuse_declaration(self, line):
        declared = {"thread": self.level, "mutex": self.mutexes, "object": self.objects}[line.what]
        number = getattr(line, line.what)
        demand(number not in declared, f"its {line.what} is declared already")
        if line.what == "thread":
            has_room = len(self.level) < MOST_THREADS
            demand(has_room, f"a text has at most {MOST_THREADS} threads")

    def refuse_undeclared(self, line):
        """Raises which number of a line isn't declared."""
        for number, declared, its in ((line.thread, self.level, "its thread"),
                                      (line.mutex, self.mutexes, "its mutex"),
                                      (line.object, self.objects, "its object"),
                                      (line.by, self.level, "the thread that ended it")):
            demand(number is None or number in declared, f"{its} isn't declared")

    def refuse_of_mutex(self, line, awaited, owner):
        """Raises why a line of a declared mutex may not follow."""
        is_recursive = self.mutexes[line.mutex].recursive
        if line.what in ("granted", "took"):
            demand(owner in (None, line.thread), "another thread owns its mutex")
            may_lock = owner is None or is_recursive
            demand(may_lock, "its thread owns its mutex, which isn't recursive")
        elif line.what == "waits":
            may_wait = owner != line.thread or not is_recursive
            demand(may_wait, "its thread owns its mutex, which is recursive")
        elif line.what == "gave-up":
            demand(awaited == line.mutex, "its thread doesn't wait for its mutex")
        elif line.what == "released":
            demand(owner == line.thread, "its thread doesn't own its mutex")
        elif line.what == "ceiling":
            demand(line.mutex in self.ceiling, "its mutex isn't a protect one")

    # ---- what a line changes

    def time_passes(self, line):
        """The clock goes on to a line. Returns the stretch of the line before."""
        before, self.clock = self.clock, max(self.clock, line.time or 0)
        return self.clock - before

    def apply(self, line):
        """What a line says happens."""
        t, m = line.thread, line.mutex
        if line.what in ("thread", "priority"):
            self.level[t] = line.level
        elif line.what == "runs":
            self.runs[t] = line.level
        elif line.what == "object":
            self.objects.add(line.object)
        elif line.what == "blocks":
            self.blocked[t] = line.object
        elif line.what == "resumes":
            del self.blocked[t]
        elif line.what in ("on", "off"):
            self.switch(line)
        elif line.what == "lost":
            for known in (self.runs, self.on, self.cpu, self.off):
                known.clear()
        elif line.what == "end":
            self.has_ended = True
        elif m is not None:
            self.apply_to_mutex(line, t, m)

    def apply_to_mutex(self, line, t, m):
        if line.what == "mutex":
            self.mutexes[m] = line
            if line.protocol == PROTECT:
                self.ceiling[m] = line.level
        elif line.what in ("granted", "took"):
            self.awaits.pop(t, None)
            self.owner[m], self.depth[m] = t, self.depth.get(m, 0) + 1
        elif line.what == "waits":
            self.awaits[t] = m
        elif line.what == "gave-up":
            del self.awaits[t]
        elif line.what == "released":
            self.depth[m] -= 1
            if self.depth[m] == 0:
                del self.owner[m], self.depth[m]
        elif line.what == "ceiling":
            self.ceiling[m] = line.level

    def switch(self, line):
        """A thread is on a CPU from now on, or on none."""
        t = line.thread
        if self.is_on(t):
            del self.on[self.cpu[t]]
        if line.what == "off":
            self.off[t] = line.ready
        else:
            self.off.pop(t, None)
            self.on[line.cpu], self.cpu[t] = t, line.cpu

    def is_on(self, t):
        """Returns whether t is on a CPU."""
        return self.on.get(self.cpu.get(t)) == t

    # ---- what a thread gets, and which thread has to run for its wait to end

    def own(self, t):
        """1. The greatest of its level and the ceilings of the PROTECT mutexes that it owns."""
        owned = [m for m, owner in self.owner.items() if owner == t]
        return max([self.level[t], *(self.ceiling[m] for m in owned if m in self.ceiling)])

    def blocker(self, t):
        """2. The owner of the mutex that t awaits, or None."""
        return self.owner.get(self.awaits.get(t))

    def heir(self, t):
        """2. The same, if that mutex is an INHERIT one."""
        awaited = self.mutexes.get(self.awaits.get(t))
        return self.blocker(t) if awaited and awaited.protocol == INHERIT else None

    def hops(self, hop, t):
        """Returns t, the thread that a hop from t leads to, and so on: by at most N hops."""
        chain = [t]
        while len(chain) <= len(self.level) and hop(chain[-1]) is not None:
            chain.append(hop(chain[-1]))
        return chain

    def gets(self, t):
        """3. The greatest own of all threads from which t can be reached by heir."""
        return max(self.own(u) for u in self.level if t in self.hops(self.heir, u))

    def way(self, t):
        """4. t, its blocker, the blocker of that .."""
        return self.hops(self.blocker, t)

    def runner(self, t):
        """5. The thread at which the way of t ends. None if that is t, or if it has no end."""
        last = self.way(t)[-1]
        return None if last == t or self.blocker(last) is not None else last

    def is_stalled(self, t):
        """6. Its runner is blocked at an object."""
        return self.runner(t) in self.blocked

    def is_inverted(self, t):
        """7. Its runner isn't blocked, and gets less than t gets."""
        runner = self.runner(t)
        return self.could_run(runner) and self.gets(runner) < self.gets(t)

    def is_lower(self, t):
        """8. Its runner isn't blocked, and its level is below what t gets."""
        runner = self.runner(t)
        return self.could_run(runner) and self.level[runner] < self.gets(t)

    def could_run(self, runner):
        """Returns whether there is this runner, and it isn't blocked."""
        return runner is not None and runner not in self.blocked

    def blame(self, t):
        """9. If t is inverted, the first mutex on its way whose owner gets less than t gets."""
        gets = self.gets(t)
        return next(self.awaits[u] for u in self.way(t) if self.gets(self.blocker(u)) < gets)

    def meanwhile(self, t):
        """10. If t is inverted, the thread that runs in place of its runner, and its level.

        The runner is ready. The other thread is on its CPU, and isn't t; it runs below what t gets.
        Returns None if no thread does.
        """
        runner = self.runner(t)
        u = self.on.get(self.cpu.get(runner)) if self.off.get(runner) else None
        if u in (None, t):
            return None
        level = self.runs.get(u, self.gets(u))
        return (u, level) if level < self.gets(t) else None

    def cycles(self):
        """Returns the cycles of threads that wait for each other, each from its lowest one on."""
        lowest = [t for t in sorted(self.awaits)
                  if t in self.way(t)[1:] and t == min(self.way(t))]
        return [list(dict.fromkeys(self.way(t))) for t in lowest]
