#!/usr/bin/env python3
"""Writes a text of facts of any length: threads that lock, wait, block, and are switched.

    bench/facts.py [OPTION ..] NAME > run.facts

The text is valid by docs/FACTS.md, and a seed gives the same text each time. A line with a time is
a fact. An option changes one number of the text that is named:

  idle      64 threads lock 256 mutexes, and nobody ever waits
  half      the same, and half of the threads wait
  one       63 of 64 threads wait for one mutex, which is handed on
  switches  as half, with three switches after each fact, on 4 CPUs
  many      1,000 threads lock 4,096 mutexes, and half of the threads wait
  objects   64 threads, of which 24 are blocked at 16 objects and 8 wait for mutexes
  anywhere  as half, but each thread locks any mutex, and not only 16 of them
"""
import argparse
import random
import sys
from collections import namedtuple

# `waiting` and `blocked` are how many threads wait for mutexes and for objects at a time, if
# enough of them can. A thread locks `reach` mutexes, some of which others lock, too. `apart` are
# how many of the threads and mutexes no later fact names: one of these threads owns these mutexes,
# and the others wait for the first of them.
Shape = namedtuple("Shape", "threads mutexes waiting reach blocked objects switches cpus protocols"
                            " apart")
HALF = Shape(64, 256, 32, 16, 0, 0, 0, 4, "none inherit protect", (0, 0))
TEXTS = {
    "idle": HALF._replace(waiting=0),
    "half": HALF,
    "one": HALF._replace(mutexes=1, waiting=63, protocols="none"),
    "switches": HALF._replace(switches=3),
    "many": HALF._replace(threads=1000, mutexes=4096, waiting=500),
    "objects": HALF._replace(waiting=8, blocked=24, objects=16),
    "anywhere": HALF._replace(reach=256),
}
MOST_OWNED = 3     # by one thread, but for mutexes that are apart
LINES_AT_ONCE = 20000
PLACES = (" control.c:41", " planner.c:88(plan)", " bus.c:120 main.c:14", "", "", "")


class Scene:
    """The threads of a text. They ask for mutexes in ascending order, so there is no deadlock."""

    def __init__(self, shape, seed):
        self.shape, self.draw = shape, random.Random(seed).random
        self.clock, self.lines, self.facts = 0, ["facts 1"], 0
        self.threads, self.mutexes = shape.threads - shape.apart[0], shape.mutexes - shape.apart[1]
        self.reach = min(shape.reach, self.mutexes)
        self.idle = list(range(1, self.threads + 1))
        self.levels = [0] + [1 + 7 * t % 97 for t in range(1, shape.threads + 1)]
        # By thread, ascending; a mutex that is locked twice is there twice.
        self.owned = [[] for _ in range(self.threads + 1)]
        self.owner, self.waiters = [0] * (self.mutexes + 1), [[] for _ in range(self.mutexes + 1)]
        self.waiting, self.freed = 0, []  # how many threads; mutexes that some may still await
        self.blocked = []                 # threads and their objects
        self.on, self.cpu = [0] * shape.cpus, [-1] * (self.threads + 1)
        self.protect, self.recursive = [], set()
        self.declare()

    def pick(self, count):
        """Returns a random number below this one."""
        return int(self.draw() * count)

    # ---- the lines before the first fact

    def declare(self):
        shape, protocols = self.shape, self.shape.protocols.split()
        for t in range(1, shape.threads + 1):
            self.lines.append(f"thread {t} {self.levels[t]} worker_{t}")
        for m in range(1, shape.mutexes + 1):
            protocol, recursive = protocols[m % len(protocols)], ""
            if protocol == "protect":
                self.protect += [m] * (m <= self.mutexes)
                protocol = f"protect {60 + m % 40}"
            if m % 8 == 0:
                self.recursive.add(m)
                recursive = "recursive "
            self.lines.append(f"mutex {m} {recursive}{protocol} lock_{m}@pool.c:{m}")
        kinds = "semaphore", "condition", "futex", "barrier", "rwlock", "thread"
        for x in range(1, shape.objects + 1):
            self.lines.append(f"object {x} {kinds[x % len(kinds)]} queue_{x}")
        self.set_apart()

    def set_apart(self):
        first, mutexes = self.threads + 1, range(self.mutexes + 1, self.shape.mutexes + 1)
        if first <= self.shape.threads:
            self.lines += [f"0 {first} took {m}" for m in mutexes]
            for t in range(first + 1, self.shape.threads + 1):
                self.lines += [f"0 {t} waits {mutexes[0]}"] if mutexes else []

    # ---- facts

    def fact(self, text):
        """Adds a fact: all that is after its time."""
        self.clock += 40 + self.pick(3000)
        self.lines.append(f"{self.clock} {text}")
        self.facts += 1

    def step(self):
        """Adds a fact, or two, of a random thread, or none."""
        chosen = self.draw()
        if self.freed and chosen < 0.6:
            return self.grant_to_a_waiter(self.freed.pop(0))
        if self.blocked and (chosen < 0.05 or len(self.blocked) > self.shape.blocked):
            return self.resume()
        if not self.idle:
            return None
        at = self.pick(len(self.idle))
        t, chosen = self.idle[at], self.draw()
        if chosen < 0.03:
            return self.odd_fact(t)
        if chosen < 0.3 and len(self.blocked) < self.shape.blocked:
            return self.block(at, t)
        if self.owned[t] and (chosen < 0.5 or len(self.owned[t]) >= MOST_OWNED):
            return self.release(t)
        return self.ask(at, t)

    def release(self, t):
        m = self.owned[t].pop()
        self.fact(f"{t} released {m}")
        if m not in self.owned[t]:
            self.owner[m] = 0
            if self.waiters[m]:
                self.freed.append(m)

    def grant_to_a_waiter(self, m):
        """A mutex that was freed goes to one of those that still await it, if it is still free."""
        if self.owner[m] or not self.waiters[m]:
            return
        t = self.waiters[m].pop(self.pick(len(self.waiters[m])))
        self.waiting -= 1
        self.idle.append(t)
        self.own(t, m, "granted")

    def own(self, t, m, how):
        self.fact(f"{t} {how} {m}{PLACES[self.pick(6)]}")
        self.owner[m] = t
        self.owned[t].append(m)

    def ask(self, at, t):
        """A thread asks for a mutex above those that it owns."""
        first = t * (self.mutexes - self.reach) // self.threads
        above, last = self.owned[t][-1] if self.owned[t] else first, first + self.reach
        if above == last:
            return
        lacks = self.waiting < self.shape.waiting
        for _ in range(6):
            m = above + 1 + self.pick(last - above)
            if lacks == bool(self.owner[m]):
                break
        if not self.owner[m]:
            self.own(t, m, "took" if self.draw() < 0.05 else "granted")
        elif lacks:
            self.fact(f"{t} waits {m}{PLACES[self.pick(6)]}")
            self.waiters[m].append(t)
            self.waiting += 1
            self.become_busy(at)

    def become_busy(self, at):
        self.idle[at] = self.idle[-1]
        self.idle.pop()

    def odd_fact(self, t):
        """What is rare: a thread locks again, gives up, or has another level; a new ceiling."""
        chosen, owned = self.draw(), self.owned[t]
        m = 1 + self.pick(self.mutexes)
        if chosen < 0.3 and owned and owned[-1] in self.recursive:
            return self.own(t, owned[-1], "granted")
        if chosen < 0.5 and self.waiters[m] and self.mutexes > 1:
            t = self.waiters[m].pop()
            self.fact(f"{t} gave-up {m}")
            self.waiting -= 1
            return self.idle.append(t)
        if chosen < 0.7 and self.protect:
            m = self.protect[self.pick(len(self.protect))]
            return self.fact(f"{t} ceiling {m} {60 + self.pick(40)}")
        return self.fact(f"{t} priority {self.levels[t] + self.pick(3)}")

    # ---- objects and CPUs

    def block(self, at, t):
        x = 1 + self.pick(self.shape.objects)
        self.fact(f"{t} blocks {x}{PLACES[self.pick(6)]}")
        self.blocked.append((t, x))
        self.become_busy(at)

    def resume(self):
        t, x = self.blocked.pop(self.pick(len(self.blocked)))
        other = 1 + (t + self.pick(self.threads - 1)) % self.threads
        how = ("", f" by {other}", f" by {other}", " timed-out", " failed")[self.pick(5)]
        self.fact(f"{t} resumes {x}{how}")
        self.idle.append(t)

    def switch(self):
        """Another thread is on a CPU, if one is picked that is on none."""
        cpu, t = self.pick(len(self.on)), 1 + self.pick(self.threads)
        there = self.on[cpu]
        if there:
            self.fact(f"{there} off {'ready' if self.draw() < 0.7 else 'asleep'}")
            self.cpu[there] = -1
        self.on[cpu] = 0 if self.cpu[t] >= 0 else t
        if self.on[cpu]:
            self.cpu[t] = cpu
            self.fact(f"{t} on {cpu}")
            if self.draw() < 0.02:
                self.fact(f"{t} runs {self.levels[t] + self.pick(3)}")


def write(file, shape, facts, seed=1):
    """Writes a text of so many facts, and of those that are apart."""
    scene = Scene(shape, seed)
    while scene.facts < facts:
        before = scene.facts
        scene.step()
        if scene.facts > before:
            for _ in range(shape.switches):
                scene.switch()
        if len(scene.lines) >= LINES_AT_ONCE:
            put(file, scene, facts)
    put(file, scene, facts)
    file.write(b"%d end\n" % scene.clock)


def put(file, scene, facts):
    """Writes the lines so far, without the facts that are too many."""
    too_many = max(0, scene.facts - facts)
    lines = scene.lines[:len(scene.lines) - too_many]
    file.write("\n".join([*lines, ""]).encode())
    scene.lines.clear()


def main():
    parser = argparse.ArgumentParser(description=__doc__,
                                     formatter_class=argparse.RawDescriptionHelpFormatter)
    parser.add_argument("name", metavar="NAME", choices=TEXTS, help=f"one of {', '.join(TEXTS)}")
    parser.add_argument("--facts", type=int, default=3_000_000, metavar="N")
    parser.add_argument("--seed", type=int, default=1, metavar="S")
    numbers = "threads mutexes waiting reach blocked objects switches cpus"
    for field in numbers.split():
        parser.add_argument(f"--{field}", type=int, metavar="N")
    parser.add_argument("--protocols", metavar="'WORD ..'", help="of the mutexes in turn")
    given = parser.parse_args()
    changed = {name: value for name, value in vars(given).items()
               if name in Shape._fields and value is not None}
    write(sys.stdout.buffer, TEXTS[given.name]._replace(**changed), given.facts, given.seed)


if __name__ == "__main__":
    main()
