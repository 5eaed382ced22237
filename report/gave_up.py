"""Findings of waits for mutexes that ended without the mutex, as those with a time-out do.

Such a wait is bounded by its time-out, also if nothing raised the owner, and also in a deadlock.
"""
from finding import TOLERANCE, findings_of
from words import duration, moment


class GaveUp:
    def __init__(self, mutex_waits):
        self.waits, self.recording = mutex_waits, mutex_waits.recording
        self.names = self.recording.names

    def findings(self):
        dead, rest = [], []
        for wait in self.waits.given_up.values():
            (dead if self.recording.cycle_before(wait) else rest).append(wait)
        for waits, details in (dead, self.of_deadlock), (rest, self.of_wait):
            yield from findings_of(self.recording, "gave-up", waits, lambda wait: wait.lasted,
                                   details, self.blamed)

    @staticmethod
    def blamed(wait):
        return wait.worst_part.mutex if wait.parts else 0

    def of_deadlock(self, found):
        cycle = self.recording.cycle_before(found.waits[0])
        found.mutexes = sorted({wait.mutex for wait in cycle})
        begin = max(wait.begin for wait in cycle)
        owners = [*(wait.thread for wait in cycle[1:]), cycle[0].thread]
        way = ", which ".join(
            f"waited for {self.names.mutex(wait.mutex)} of {self.names.thread(owner)}"
            for wait, owner in zip(cycle, owners))
        found.why = (f"it ended a deadlock of {duration(cycle[0].end - begin)}, from"
                     f" {moment(begin)} on: {self.names.thread(cycle[0].thread)} {way}")
        found.advice = (f"lock {self.names.mutexes(found.mutexes)} in one order everywhere"
                        if len(cycle) > 1 else "don't lock it again, or make it recursive")

    def of_wait(self, found):
        group, worst = found.waits, found.waits[0]
        if worst.inverted:
            found.by = self.waits.runners([wait for wait in group if wait.parts])
            found.why = self.waits.reason(worst)
            found.advice = self.waits.advice(group)
        elif worst.stalled or self.waits.asleep.during(worst) > TOLERANCE:
            found.why, found.advice = self.waits.idle(worst)
        else:
            found.why = self.waits.bound(worst) if worst.lower else self.waits.plainly(worst)
