"""Findings of waits for mutexes: held up, stalled, bounded and plain ones."""
from bisect import bisect_left

from asleep import Asleep
from finding import TOLERANCE, findings_of, first_of
from gave_up import GaveUp
from words import duration

BOUNDS = {"inherit": "bounds it by inheritance", "protect": "bounds it by its ceiling"}


class MutexWaits:
    def __init__(self, recording):
        self.recording, self.facts, self.names = recording, recording.facts, recording.names
        self.waits, self.dead = recording.rows.waits, self.find_dead()
        self.given_up = {wait.line: wait for wait in self.waits if recording.gave_up(wait)}
        self.asleep = Asleep(recording)
        self.late_waits = [
            wait for wait in self.without_links() if wait.line not in self.given_up]

    def findings(self):
        told = {*self.dead, *self.given_up, *(wait.line for wait in self.late_waits)}
        rest = [wait for wait in self.waits if wait.line not in told]
        stalled = [wait for wait in rest if wait.level and not wait.inverted and (
            wait.stalled or self.asleep.during(wait) > TOLERANCE)]
        lines = {wait.line for wait in stalled}
        rest = [wait for wait in rest if wait.line not in lines]
        bounded = [wait for wait in rest if wait.lower and not wait.inverted]
        plain = [wait for wait in rest if not wait.lower or wait.inverted]
        yield from self.late()
        yield from GaveUp(self).findings()
        yield from self.stalled(stalled)
        yield from self.bounded(bounded)
        yield from self.plain(plain)

    def find_dead(self):
        """Returns by line the waits at the end that are in a deadlock, or lead into one."""
        last = self.recording.all_rows.open_waits()
        dead = {thread for cycle in self.recording.all_rows.deadlocks for thread in cycle}
        found, more = {}, [last[thread] for thread in dead]
        while more:
            found.update((wait.line, wait) for wait in more)
            dead.update(wait.thread for wait in more)
            more = [wait for wait in last.values() if wait.owner in dead and wait.line not in found]
        return found

    # ---- held up

    def without_links(self):
        """Returns the inverted waits without the links of chains.

        A link is the wait of a thread that is no more urgent than the thread that held it up, and
        was only raised by another wait, which is a finding itself.
        """
        late = [wait for wait in self.waits if wait.inverted]
        own = {wait.line: wait for wait in late
               if any(part.gets < wait.level for part in wait.parts)}
        if len(own) == len(late):
            return late
        ends = {}
        for wait in sorted(own.values(), key=lambda wait: wait.begin):
            for runner in {part.runner for part in wait.parts}:
                begins, until = ends.setdefault(runner, ([], []))
                begins.append(wait.begin)
                until.append(max(wait.end, until[-1] if until else 0))

        def is_link(wait):
            for part in wait.parts:
                begins, until = ends.get(part.runner, ([], []))
                before = bisect_left(begins, wait.end)
                if before and until[before - 1] > wait.begin:
                    return True
            return False

        return [wait for wait in late if wait.line in own or not is_link(wait)]

    def late(self):
        """Waits that are inverted: the thread that had to run wasn't urgent enough."""
        return findings_of(self.recording, "late", self.late_waits, lambda wait: wait.inverted,
                           self.late_details, self.blamed_of, self.advice)

    @staticmethod
    def blamed_of(wait):
        return wait.worst_part.mutex

    def late_details(self, found):
        group, worst = found.waits, found.waits[0]
        found.by, found.why = self.runners(group), self.reason(worst)
        found.meanwhile = sorted(worst.meanwhile, key=lambda one: -one.time)
        if worst.stalled:
            found.lines.append(f"for {duration(worst.stalled)} of it {self.held(worst)}")
        if self.asleep.during(worst) > TOLERANCE:
            found.lines.append(self.asleep.said(worst) + ", which no protocol shortens")

    @staticmethod
    def runners(group):
        """Returns the runners of some inverted waits, that of the longest part first."""
        longest = {}
        for wait in group:
            for part in wait.parts:
                had = longest.get(part.runner)
                if had is None or part.time > had.time:
                    longest[part.runner] = part
        parts = sorted(longest.values(), key=lambda part: -part.time)
        return [(part.runner, part.gets) for part in parts]

    def reason(self, wait):
        """Says why nothing, or too little, was passed on in a wait."""
        blamed, runner, gets, _ = wait.worst_part
        mutex, name = self.facts.mutexes[blamed], self.names.mutex(blamed)
        if mutex.protocol == "protect":
            ceiling = self.facts.ceiling(blamed, wait.line)
            passes = (f"the ceiling of {name} is {ceiling}, below the {wait.gets} of"
                      f" {self.names.thread(wait.thread)}" if ceiling < wait.gets else
                      f"the ceiling of {name} became too low for {self.names.thread(wait.thread)}")
        else:
            passes = (f"{name} is {self.names.protocol(blamed)} and passes nothing on:"
                      f" {self.names.thread(runner)} stayed at {gets}")
        way = self.recording.way(wait, runner)
        if len(way) < 2:
            return passes
        chain = ", which ".join(
            f"waited for {self.names.mutex(mutex)} of {self.names.thread(owner)}"
            for mutex, owner in way)
        return f"{self.names.thread(wait.thread)} {chain}; {passes}"

    def advice(self, group):
        """Says what to write at the mutexes that are to blame for some inverted waits."""
        blamed = list(dict.fromkeys(map(self.blamed_of, group)))
        first, origin = blamed[0], self.names.origin(blamed[0])
        mutex, name = self.facts.mutexes[first], f"{self.names.mutex(first)}{origin}"
        comma = "," if origin else ""
        if mutex.protocol == "protect":
            return f"raise the ceiling of {name}{comma} to {max(wait.gets for wait in group)}"
        if len(blamed) > 1 and mutex.place:
            return f"make the {len(blamed)} mutexes{origin[1:]} PTHREAD_PRIO_INHERIT"
        return f"make {name}{comma} PTHREAD_PRIO_INHERIT"

    # ---- the others

    def stalled(self, waits):
        """Waits whose runner waited for something else, or slept, meanwhile."""
        def size_of(wait):
            return wait.stalled + self.asleep.during(wait)

        return findings_of(self.recording, "stalled", waits, size_of, self.stalled_details)

    def stalled_details(self, found):
        worst = found.waits[0]
        stalls = sorted(((wait, stall) for wait in found.waits for stall in wait.stalls),
                        key=lambda one: -one[1].time)
        found.by = first_of((stall.runner, self.facts.level(stall.runner, wait.line))
                            for wait, stall in stalls) or found.by
        if self.asleep.during(worst) > TOLERANCE:
            found.lines.append(self.asleep.said(worst))
        found.why, found.advice = self.idle(worst)

    def idle(self, wait):
        """Says what the runner of a wait did in place of running, and what to do."""
        if wait.stalled < self.asleep.during(wait):
            mutex = self.names.mutex(wait.mutex)
            return (f"{self.names.thread(wait.owner)} slept while it owned {mutex}",
                    f"don't sleep, or read and write files, while owning {mutex}")
        what = self.names.the_object(wait.worst_stall.object)
        held = self.held_mutex(wait) or "a mutex"
        return self.held(wait), f"don't wait for {what} while owning {held}"

    def held_mutex(self, wait):
        """Returns the mutex that the runner of a stalled wait held, or an empty text."""
        way = self.recording.way(wait, wait.worst_stall.runner)
        return self.names.mutex(way[-1][0]) if way else ""

    def held(self, wait):
        """Says what the runner of a stalled wait did."""
        stall, held = wait.worst_stall, self.held_mutex(wait)
        holding = f" held {held} while it" if held else ""
        return (f"{self.names.thread(stall.runner)}{holding} waited for"
                f" {self.names.the_object(stall.object)}")

    def bounded(self, waits):
        """Waits for lower threads that a protocol bounds."""
        def details(found):
            found.why = self.bound(found.waits[0])

        return findings_of(self.recording, "bounded", waits, lambda wait: wait.lower, details)

    def bound(self, wait):
        """Says what bounds a wait for a lower thread."""
        how = BOUNDS.get(self.facts.mutexes[wait.mutex].protocol,
                         "passes nothing on, but its owner was urgent enough by another one")
        return f"{self.names.mutex(wait.mutex)} {how}"

    def plain(self, waits):
        """Waits for threads that are as urgent, or more, and links of chains."""
        def details(found):
            found.why = self.plainly(found.waits[0])

        return findings_of(self.recording, "wait", waits, lambda wait: wait.lasted, details)

    @staticmethod
    def plainly(wait):
        """Says why a plain wait took time."""
        return ("it is a part of how another thread was held up" if wait.inverted
                else "the thread that it waited for was no less urgent" if wait.owner
                else "the mutex was free: its next owner was quicker")
