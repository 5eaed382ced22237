"""Reads what the program storm printed, and asks pim what each priority should have been.

At a stop nothing moves, so the priorities follow from who owns and who waits. A text is made of
that: each owner locks what it owns, and then each waiter what it waits for. What pim reports of the
text's last state is what should be.
"""
import re
from collections import namedtuple

import compare

# A thread at a stop: its own priority, the one in force, the mutex that it waits for or None, and
# those that it owns. One that isn't told owns nothing, waits for nothing, and executes at its base.
Thread = namedtuple("Thread", "base priority wait owns")
# A thread that executes at another priority than it should: the smallest text in which it should,
# and a line that says so of its task there.
Wrong = namedtuple("Wrong", "thread is_above text line")


def thread_of(line):
    """Returns the number and the state of a thread's line."""
    form = r"thread (\d+) base (\d+) at (-?\d+)(?: waits (\d+))?((?: owns \d+)*)"
    found = re.fullmatch(form, line)
    if not found:
        raise compare.Fault(f"the storm's line can't be read: {line}")
    number, base, priority = map(int, found.groups()[:3])
    owns = tuple(map(int, re.findall(r"\d+", found[5])))
    return number, Thread(base, priority, int(found[4]) if found[4] else None, owns)


def text_of(threads, mutexes):
    """Returns a text whose last state this is, and the task of each thread."""
    tasks = {number: task for task, number in enumerate(sorted(threads), 1)}
    used = sorted({m for it in threads.values() for m in (*it.owns, it.wait) if m})
    names = {m: name for name, m in enumerate(used, 1)}
    lines = ["pim 1", *(f"task {tasks[n]} {threads[n].base}" for n in sorted(threads))]
    lines += [f"mutex {names[m]} {mutexes[m]}" for m in used]
    lines += [f"{tasks[n]} lock {names[m]}" for n in sorted(threads) for m in threads[n].owns]
    lines += [f"{tasks[n]} lock {names[it.wait]}" for n, it in sorted(threads.items()) if it.wait]
    return "\n".join(lines) + "\n", tasks


def judged(pim, threads, mutexes):
    """Returns what each thread should execute at, and why, by pim's report."""
    source, tasks = text_of(threads, mutexes)
    text = compare.Text(source)
    steps = compare.reported(pim, text)
    owned = sum(len(it.owns) for it in threads.values())
    replies = ["granted"] * owned + ["queued"] * (len(steps) - owned)
    if [step.reply for step in steps] != replies:
        raise compare.Fault(f"the state of a stop isn't one of a run: {text.bare()}")
    right, why = dict(text.bases), dict.fromkeys(text.bases, "base")
    for step in steps:
        right.update(step.changes)
        why.update(step.reasons)
    return {number: (right[task], why[task]) for number, task in tasks.items()}


def without(threads, numbers):
    """Returns the state that lacks these threads, and what they owned."""
    gone = {m for number in numbers for m in threads[number].owns}
    return {number: it._replace(wait=None if it.wait in gone else it.wait)
            for number, it in threads.items() if number not in numbers}


def smaller(threads, number):
    """Generates states that lack threads other than this one, or a mutex that nobody waits for."""
    others = [other for other in threads if other != number]
    for size in (16, 4, 1):
        for at in range(0, len(others), size):
            yield without(threads, others[at:at + size])
    awaited = {it.wait for it in threads.values()}
    for owner, it in threads.items():
        for m in set(it.owns) - awaited:
            yield {**threads, owner: it._replace(owns=tuple(o for o in it.owns if o != m))}


def smallest(pim, threads, mutexes, number):
    """Returns the smallest state found in which pim says the same of this thread."""
    should, found = judged(pim, threads, mutexes)[number][0], threads
    while found:
        threads = found
        found = next((it for it in smaller(threads, number)
                      if judged(pim, it, mutexes)[number][0] == should), None)
    return threads


def wrong_of(pim, threads, mutexes):
    """Returns what is wrong at a stop."""
    owned = {m for it in threads.values() for m in it.owns}
    lost = [number for number, it in threads.items() if it.wait and it.wait not in owned]
    if lost:
        raise compare.Fault(f"thread {lost[0]} waits for a mutex that nobody owns")
    found = []
    for number, (should, _) in judged(pim, threads, mutexes).items():
        if threads[number].priority == should:
            continue
        small = smallest(pim, threads, mutexes, number)
        source, tasks = text_of(small, mutexes)
        why = judged(pim, small, mutexes)[number][1]
        real = threads[number].priority
        line = f"task {tasks[number]} executes at {real}, should at {should} ({why})"
        found.append(Wrong(number, real > should, source, line))
    return found


class Storm:
    """Takes the lines of a storm, one after the other, and counts what is wrong."""

    def __init__(self, pim, tell=print):
        self.pim, self.tell, self.system, self.ending = pim, tell, None, None
        self.mutexes, self.threads, self.stop = {}, {}, 0
        self.wrong_stops = self.above = self.below = 0

    def take(self, line):
        words = line.split()
        if self.system is None:
            self.system = line
        elif words[:1] == ["mutex"]:
            self.mutexes[int(words[1])] = " ".join(words[2:])
        elif words[:1] == ["thread"]:
            number, thread = thread_of(line)
            self.threads[number] = thread
        elif words[:1] == ["stop"]:
            self.judge()
            self.stop = int(words[1])
        elif words[:1] == ["stopped"]:
            self.judge()
            self.ending = line
        else:
            raise compare.Fault(f"the storm said: {line}")

    def judge(self):
        """Compares the stop whose threads are all known."""
        found = wrong_of(self.pim, self.threads, self.mutexes) if self.threads else []
        self.threads = {}
        self.wrong_stops += bool(found)
        for it in found:
            self.above += it.is_above
            self.below += not it.is_above
            self.tell(f"stop {self.stop}, thread {it.thread}:")
            for line in [*it.text.splitlines(), it.line]:
                self.tell(f"    {line}")

    def end(self):
        """Says what was seen. A storm that didn't end is a fault."""
        if not self.ending:
            raise compare.Fault("the storm didn't end")
        self.tell(self.system)
        self.tell(self.ending)
        self.tell(f"{self.stop} stops: {self.wrong_stops} with a wrong priority,"
                  f" {self.above} threads above, {self.below} below")
        return 1 if self.wrong_stops else 0
