#!/usr/bin/env python3
"""Reads a text of facts, and writes the rows that follow from it, as docs/ROWS.md says.

    rows.py < run.facts > run.rows

It is written to be compared with that page, and looks at all threads after each line: a text of a
thousand lines takes seconds. The status is 1 if a wait was inverted or there is a deadlock at the
end, else 0. It is 2 if the text isn't valid: then no row is written, and the first invalid line is
named on standard error.
"""
import sys
from collections import Counter

from lines import Invalid, demand, line_of, lines_of
from world import World


class Wait:
    """A wait for a mutex. `grant` is the line by which its owner came to own it, or 0."""

    def __init__(self, line, number, world, grant):
        t, owner = line.thread, world.owner.get(line.mutex, 0)
        self.thread, self.mutex = t, line.mutex
        self.number, self.began = number, world.clock
        self.then = world.level[t], world.gets(t), owner, world.level.get(owner, 0), grant
        # For how long: by blame, runner and what that gets; by object and runner; by thread and
        # its level.
        self.lower, self.inverted, self.stalled, self.meanwhile = 0, Counter(), Counter(), Counter()

    def goes_on(self, world, stretch):
        """Time passes."""
        t, runner = self.thread, world.runner(self.thread)
        if world.is_lower(t):
            self.lower += stretch
        if world.is_stalled(t):
            self.stalled[world.blocked[runner], runner] += stretch
        if world.is_inverted(t):
            self.inverted[world.blame(t), runner, world.gets(runner)] += stretch
            meanwhile = world.meanwhile(t)
            if meanwhile:
                self.meanwhile[meanwhile] += stretch

    def rows(self, until, clock):
        """Yields its rows."""
        sums = sum(self.inverted.values()), self.lower, sum(self.stalled.values())
        yield ("wait", self.number, until, self.thread, self.mutex, self.began,
               clock - self.began, *self.then, *sums)
        for word in ("inverted", "stalled", "meanwhile"):
            for key, time in sorted(getattr(self, word).items()):
                yield word, self.number, *key, time


class Ownership:
    """From the line by which a thread came to own a mutex on. `level` is its own level then."""

    def __init__(self, line, number, world):
        self.thread, self.level = line.thread, world.level[line.thread]
        self.number, self.began, self.used = number, world.clock, 0


class Section:
    """The ownerships of a mutex by a thread of one level. `line` is where the longest begins."""

    def __init__(self):
        self.count, self.longest, self.line, self.used = 0, -1, 0, 0

    def add(self, ownership, clock):
        self.count += 1
        lasted = clock - ownership.began
        if lasted > self.longest:
            self.longest, self.line = lasted, ownership.number
        self.used = max(self.used, ownership.used)


class Rows:
    """Goes through lines in order. Keeps the rows of what has ended, and what hasn't."""

    def __init__(self):
        self.world, self.number, self.rows = World(), 1, []
        self.waits, self.blocks = {}, {}  # by thread; of a block its line, number, begin and level
        self.owned, self.sections = {}, {}  # by mutex; by thread, mutex and level
        self.nests = {}  # by thread, outer and inner how many, where taken, and the line
        self.other = {}  # by thread that the kernel runs at another level both, line and begin
        self.waits_in_all = self.inverted = 0

    def read(self, text):
        """Goes on by one line."""
        self.number, world = self.number + 1, self.world
        demand(not world.has_ended, "nothing follows the end")
        line = line_of(text)
        world.refuse(line)
        self.pass_to(line)
        awaited, owner = world.awaits.get(line.thread), world.owner.get(line.mutex)
        asks = line.what == "waits" or line.what == "granted" and awaited is None
        if asks and owner != line.thread:
            self.nest(line)
        world.apply(line)
        if line.what in ("granted", "took") and owner is None:
            self.owned[line.mutex] = Ownership(line, self.number, world)
        if line.what in ("granted", "gave-up") and awaited is not None:
            self.end_wait(line.thread, self.number)
        self.begin_or_end(line)
        self.compare()

    def pass_to(self, line):
        """The clock goes on to a line."""
        stretch = self.world.time_passes(line)
        if stretch == 0:
            return
        for wait in self.waits.values():
            wait.goes_on(self.world, stretch)
        for ownership in self.owned.values():
            ownership.used += 0 if ownership.thread in self.world.off else stretch

    def begin_or_end(self, line):
        """Begins a wait or a block, or ends an ownership or a block, if the line says it."""
        world, t, m = self.world, line.thread, line.mutex
        if line.what == "waits":
            grant = self.owned[m].number if m in self.owned else 0
            self.waits[t] = Wait(line, self.number, world, grant)
        elif line.what == "released" and m not in world.owner:
            self.end_ownership(m)
        elif line.what == "blocks":
            self.blocks[t] = line, self.number, world.clock, world.level[t]
        elif line.what == "resumes":
            self.end_block(t, self.number, line.ended, line.by or 0)

    def end_wait(self, thread, until):
        wait = self.waits.pop(thread)
        self.waits_in_all += 1
        self.inverted += bool(wait.inverted)
        self.rows += wait.rows(until, self.world.clock)

    def end_block(self, thread, until, ended=0, by=0):
        line, number, began, level = self.blocks.pop(thread)
        lasted = self.world.clock - began
        self.rows.append(("blocked", number, until, thread, line.object, began, lasted, level,
                          ended, by, self.world.level.get(by, 0)))

    def end_ownership(self, mutex):
        ownership = self.owned.pop(mutex)
        key = ownership.thread, mutex, ownership.level
        self.sections.setdefault(key, Section()).add(ownership, self.world.clock)

    def nest(self, line):
        """A thread asks for a mutex: that is nested in each mutex that it owns."""
        for outer, ownership in self.owned.items():
            if ownership.thread == line.thread:
                key = line.thread, outer, line.mutex
                self.nests.setdefault(key, [0, ownership.number, self.number])[0] += 1

    def compare(self):
        """Begins and ends what says that the kernel runs a thread at another level than it gets."""
        for thread in sorted({*self.other, *self.world.runs}):
            both = self.world.runs.get(thread), self.world.gets(thread)
            now = both if both[0] not in (None, both[1]) else None
            if thread in self.other and self.other[thread][0] != now:
                self.end_ran(thread, self.number)
            if now and thread not in self.other:
                self.other[thread] = now, self.number, self.world.clock

    def end_ran(self, thread, until):
        both, number, began = self.other.pop(thread)
        lasted = self.world.clock - began
        if lasted > 0:
            self.rows.append(("ran", number, until, thread, began, lasted, *both))

    def end(self):
        """The text has ended. Returns all rows, and the status."""
        for ending, lasting in ((self.end_wait, self.waits), (self.end_block, self.blocks),
                                (self.end_ran, self.other)):
            for thread in sorted(lasting):
                ending(thread, 0)
        for mutex in sorted(self.owned, key=lambda mutex: self.owned[mutex].number):
            self.end_ownership(mutex)
        for key, one in sorted(self.sections.items()):
            self.rows.append(("section", *key, one.count, one.longest, one.line, one.used))
        self.rows += [("nests", *key, *self.nests[key]) for key in sorted(self.nests)]
        cycles = self.world.cycles()
        self.rows += [("deadlock", *cycle) for cycle in cycles]
        self.rows.append(("end", self.number, self.world.clock, self.waits_in_all, self.inverted,
                          len(cycles)))
        return self.rows, int(bool(self.inverted or cycles))


def answer(data):
    """Returns what to write to standard output and to standard error, and the status."""
    lines, found = lines_of(data), Rows()
    try:
        demand(lines[:1] == [b"facts 1"], "the first line is: facts 1")
        for text in lines[1:]:
            found.read(text)
    except Invalid as why:
        return "", f"pim-findings: line {found.number}: {why}\n", 2
    rows, status = found.end()
    return "".join(f"{' '.join(map(str, row))}\n" for row in rows), "", status


def main():
    if sys.argv[1:]:
        is_help = sys.argv[1:] in (["-h"], ["--help"])
        print(__doc__.strip(), file=sys.stdout if is_help else sys.stderr)
        return 0 if is_help else 2
    out, err, status = answer(sys.stdin.buffer.read())
    sys.stdout.write(out)
    sys.stderr.write(err)
    return status


if __name__ == "__main__":
    sys.exit(main())
