"""Traces of any size, the same at each run, for the scripts that measure and for tests/program/test_judge.py.

Each has a number of tasks (2 to 256) and of steps. A longer trace starts with the steps of a
shorter one, so the difference of their times is the time of the further steps.
"""
import random


def start(tasks, steps):
    """Returns the version line alone, to measure the start of the program."""
    return "pim 1\n"


def free(tasks, steps):
    """Returns a trace of tasks that lock and unlock free mutexes, half of them INHERIT."""
    draw, owned, lines = random.Random(1), {}, []
    free_ones = list(range(1, tasks + 1))
    while len(lines) < steps:
        task = draw.randint(1, tasks)
        if task in owned and draw.random() < 0.5:
            mutex = owned[task].pop()
            free_ones.append(mutex)
            lines.append(f"{task} unlock {mutex}")
            if not owned[task]:
                del owned[task]
        elif free_ones:
            mutex = free_ones.pop(draw.randrange(len(free_ones)))
            owned.setdefault(task, []).append(mutex)
            lines.append(f"{task} lock {mutex}")
    protocols = ["inherit" if mutex % 2 else "none" for mutex in range(tasks)]
    return text(some_bases(draw, tasks), protocols, lines[:steps])


def wide(tasks, steps):
    """Returns a trace with all tasks but one in the queue of one INHERIT mutex.

    They are handed the mutex, withdraw and queue again, and are raised and lowered.
    """
    draw = random.Random(2)
    declared = some_bases(draw, tasks)
    bases = dict(enumerate(declared, 1))
    owner, queue = 1, list(range(2, tasks + 1))  # in the order of their tickets
    lines = [f"{task} lock 1" for task in range(1, tasks + 1)]
    while len(lines) < steps:
        task = draw.choice(queue)
        chosen = draw.random()
        if chosen < 0.15:
            bases[task] = draw.randint(1, 99)
            lines.append(f"{owner} base {task} {bases[task]}")
            continue
        if chosen < 0.25:
            task, owner = owner, max(queue, key=bases.get)  # the first of the highest
            lines.append(f"{task} unlock 1")
        else:
            lines.append(f"{task} cancel {task}")
        lines.append(f"{task} lock 1")
        queue = [waiter for waiter in queue if waiter not in (task, owner)] + [task]
    return text(declared, ["inherit"], lines[:steps])


def mixed(tasks, steps, seed=3):
    """Returns a trace of all protocols and steps. Tasks mostly unlock what they own and don't wait."""
    draw = random.Random(seed)
    bases = some_bases(draw, tasks)
    guess = Guess(bases, {mutex: draw.randint(60, 99) for mutex in range(4, tasks + 1, 4)})
    kinds = ["inherit", "none", "inherit"] * tasks
    for mutex, ceiling in guess.ceilings.items():
        kinds[mutex] = f"protect {ceiling}"
    lines = []
    while len(lines) < steps:
        line = some_step(draw, guess, tasks)
        lines += [line] if line else []
    return text(bases, kinds[1 : tasks + 1], lines)


def second(tasks, steps, seed=4):
    """Returns a trace of all protocols and steps of version 2, with new ceilings and relocks.

    Each second mutex is a PROTECT one. Mostly its owner sets its ceiling, or any task if it is
    free. Each fourth is recursive: its owner locks it again, and keeps it when it unlocks it.
    """
    draw = random.Random(seed)
    bases = some_bases(draw, tasks)
    guess = Guess(bases, {mutex: draw.randint(60, 99) for mutex in range(2, tasks + 1, 2)})
    guess.recursive = set(range(1, tasks + 1, 4))
    kinds = ["", "inherit recursive", "", "inherit", "", "inherit recursive", "", "none"] * tasks
    for mutex, ceiling in guess.ceilings.items():
        kinds[mutex] = f"protect {ceiling}"
    lines = []
    while len(lines) < steps:
        chosen = draw.random()
        some = some_ceiling if chosen < 0.1 else some_relock if chosen < 0.2 else some_step
        line = some(draw, guess, tasks)
        lines += [line] if line else []
    return text(bases, kinds[1 : tasks + 1], lines, version=2)


class Guess:
    """Who owns what and who waits, by base priorities alone. A wrong guess is one more refusal."""

    def __init__(self, bases, ceilings):
        self.bases, self.ceilings = dict(enumerate(bases, 1)), ceilings
        self.owner, self.waits = {}, {}
        self.recursive, self.counts = set(), {}  # the counts above one

    def may_have(self, task, mutex):
        return self.bases[task] <= self.ceilings.get(mutex, 99)

    def reaches(self, task, mutex):
        while mutex in self.owner and self.owner[mutex] != task:
            mutex = self.waits.get(self.owner[mutex])
        return mutex in self.owner

    def lock(self, task, mutex):
        if self.reaches(task, mutex) or not self.may_have(task, mutex):
            return
        if mutex in self.owner:
            self.waits[task] = mutex
        else:
            self.owner[mutex] = task

    def unlock(self, mutex):
        """The owner keeps a mutex that it has locked more often."""
        if self.counts.get(mutex, 1) == 1:
            return self.hand_over(mutex)
        self.counts[mutex] -= 1

    def hand_over(self, mutex):
        del self.owner[mutex]
        self.counts.pop(mutex, None)
        queue = [task for task, waited_for in self.waits.items() if waited_for == mutex]
        if queue:
            self.owner[mutex] = max(queue, key=self.bases.get)
            del self.waits[self.owner[mutex]]


def some_step(draw, guess, tasks):
    """Returns a step line, or None if the chosen task goes on waiting."""
    task, mutex, chosen = draw.randint(1, tasks), draw.randint(1, tasks), draw.random()
    if task in guess.waits:
        if chosen < 0.2:
            del guess.waits[task]
            return f"{task} cancel {task}"
        return f"{task} lock {mutex}" if chosen < 0.25 else None
    if chosen < 0.45:
        guess.lock(task, mutex)
        return f"{task} lock {mutex}"
    if chosen < 0.7 and guess.owner:
        mutex = draw.choice(list(guess.owner))
        task = guess.owner[mutex]
        if task not in guess.waits:
            guess.unlock(mutex)
        return f"{task} unlock {mutex}"
    if chosen < 0.8:
        prio = draw.randint(1, 104)
        guess.bases[mutex] = prio if prio <= 99 else guess.bases[mutex]
        return f"{task} base {mutex} {prio}"
    if chosen < 0.87:
        if guess.may_have(task, mutex):
            guess.owner.setdefault(mutex, task)
        return f"{task} try {mutex}"
    if chosen < 0.9:
        for owned in [owned for owned, owner in guess.owner.items() if owner == task]:
            guess.hand_over(owned)
        return f"{task} release"
    if chosen < 0.91:
        return f"{tasks + draw.randint(0, 1)} unlock {tasks + draw.randint(0, 1)}"
    return f"{task} cancel {task}"


def some_ceiling(draw, guess, tasks):
    """Returns a ceil line, or None if the chosen task goes on waiting."""
    mutex = draw.randrange(2, tasks + 1, 2) if draw.random() < 0.95 else draw.randint(1, tasks + 1)
    task = draw.randint(1, tasks)
    owner = guess.owner.get(mutex, task)
    task = owner if draw.random() < 0.9 else task
    if task in guess.waits:
        return None
    ceiling = draw.randint(50, 101) if draw.random() < 0.9 else draw.randint(1, 49)
    if mutex in guess.ceilings and ceiling <= 99 and task == owner:
        guess.ceilings[mutex] = ceiling
    return f"{task} ceil {mutex} {ceiling}"


def some_relock(draw, guess, tasks):
    """Returns a line that locks an owned recursive mutex again, or None if there is none to lock."""
    owned = [mutex for mutex in guess.owner if mutex in guess.recursive]
    mutex = draw.choice(owned) if owned else 0
    task = guess.owner.get(mutex)
    if task is None or task in guess.waits:
        return None
    guess.counts[mutex] = guess.counts.get(mutex, 1) + 1
    return f"{task} {'try' if draw.random() < 0.3 else 'lock'} {mutex}"


def chain(tasks, steps):
    """Returns a trace of one chain of all tasks. Priorities rise and fall along the whole chain."""
    lines = [f"{task} lock {task}" for task in range(1, tasks)]
    lines += [f"{task} lock {task - 1}" for task in range(2, tasks + 1)]
    again = [f"1 base {tasks} 99", f"{tasks} cancel {tasks}"]
    again += [f"{tasks} lock {tasks - 1}", f"1 base {tasks} 50"]
    lines += again * (steps // len(again))
    return text([1 + task % 40 for task in range(tasks)], ["inherit"] * (tasks - 1), lines[:steps])


def some_bases(draw, tasks):
    return [draw.randint(1, 99) for _ in range(tasks)]


def text(bases, protocols, lines, version=1):
    declared = [f"task {number} {base}" for number, base in enumerate(bases, 1)]
    declared += [f"mutex {number} {protocol}" for number, protocol in enumerate(protocols, 1)]
    return "\n".join([f"pim {version}", *declared, *lines]) + "\n"


TEXTS = {make.__name__: make for make in (start, free, wide, mixed, chain, second)}
