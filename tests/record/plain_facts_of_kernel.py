"""What the kernel did, for plain_facts_of_log.py: of the text of LOG.kernel a list of facts, in order. It looks through
all lines for each of them."""
from collections import namedtuple

from tests.record import plain_futex_waits
from tests.record.logs import reader

kernel_text = reader.kernel_text
RUNS, ON, READY, ASLEEP, WAKE, LOST = "runs", "on", "off ready", "off asleep", "wake", "lost"
FUTEX, FUTEX_ENDS, LOCK, LOCK_FAILS = "blocks", "resumes", "waits", "gave-up"
MOST_CPU, BOOST = 65535, "boost"
# `task` is None of LOST. `value` is a level, a CPU, a number of events, the address of a futex, or the record of a call
# for a mutex.
Fact = namedtuple("Fact", "time what task value by how", defaults=(None, None))
# `slept` is the first line by which its task sleeps, `record` that of the log for a wait for a mutex, or None.
Wait = namedtuple("Wait", "task begin slept end address outcome by began until record")


def level_of(priority):
    return plain_futex_waits.level_of(str(priority))


class Waits(plain_futex_waits.Text):
    """The waits for futexes at all levels, by the places of the lines that begin and end them."""

    def all(self):
        for begin, line in enumerate(self.lines):
            found = self.end_of(begin) if line.what in ("wait", "lock", "lock2") and line.task else None
            if found is None:
                continue
            end, outcome = found
            asleep = [at for at in self.own(begin)
                      if at < end and self.lines[at].what == "switch" and self.lines[at].words[1] in ("S", "D")]
            if not asleep:
                continue
            wakes = [self.lines[at] for at in range(asleep[0], end) if self.lines[at].what == "wake"]
            wakers = [wake.task for wake in wakes if int(wake.words[0]) == line.task != wake.task]
            by = wakers[-1] if outcome == "woken" and wakers else None
            is_open = end == len(self.lines)
            until = self.ended if is_open else self.lines[end].time
            yield Wait(line.task, begin, asleep[0], None if is_open else end, int(line.words[0], 16), outcome, by,
                       line.time, until, None)


class Kernel:
    """A recording of the kernel's events, from a time on. `logged` has the times (task, begin, end) in which the log
    has waits. `record_of` returns the log's record of a call for a mutex, by task, address and time."""

    def __init__(self, data, began, logged, record_of):
        text = data.decode("latin-1")
        text = text[:text.rindex("\n") + 1]
        self.began = kernel_text.KernelText(data).head.began if began is None else began
        kept = [line for number, line in enumerate(text.splitlines())
                if number < plain_futex_waits.HEAD or line.startswith("end") or line.split(" ")[3] == "name"
                or int(line.split(" ")[0]) >= self.began]
        whole = kernel_text.KernelText("".join(f"{line}\n" for line in kept).encode())
        assert whole.faults in ([], ["the end is missing: the recorder was killed, or goes on"]), whole.faults
        self.events = [event for event in whole.events if event.what != "name"]
        times = [event.time for event in whole.events]
        self.is_whole = whole.end is not None
        self.ended = max([whole.head.began, *times, *([whole.end[0]] if whole.end else [])])
        self.last = max([whole.head.began, *times])
        self.names = {event.values[0]: event.values[1] for event in whole.events if event.what == "name"}
        self.losses = sorted((event.values[1], event.time, event.values[0]) for event in whole.lost())
        waits = Waits("".join(f"{line}\n" for line in kept))
        waits.ended = self.ended
        found = (wait._replace(record=self.record_at(wait, waits.lines, record_of)) for wait in waits.all())
        self.waits = [wait for wait in found if self.is_kept(wait, logged)]

    @staticmethod
    def record_at(wait, lines, record_of):
        is_lock = lines[wait.begin].what != "wait"
        return record_of(wait.task, wait.address, lines[wait.slept].time) if is_lock else None

    def is_kept(self, wait, logged):
        """Returns whether nothing was lost in a wait, and the log hasn't one of the same time, if it is for a futex."""
        times = [(begin, end) for begin, end, _ in self.losses]
        times += [(begin, end) for task, begin, end in logged if task == wait.task and wait.record is None]
        return not any(begin <= wait.until and wait.began <= end for begin, end in times)

    def shown(self):
        """Returns by task the level at which it is first seen to run, in order."""
        levels = {}
        for event in self.events:
            if event.what == "switch":
                priority, _, other, its = event.values
                levels.setdefault(event.task, level_of(priority))
                levels.setdefault(other, level_of(its))
        levels.pop(0, None)
        return levels

    def leaves(self, at):
        """Returns whether the task that a switch puts on a CPU is seen to leave it, before anything is lost."""
        event = self.events[at]
        switches = (other for other in self.events[at + 1:] if (other.what, other.cpu) == ("switch", event.cpu))
        behind = next(switches, None)
        if behind is None or behind.task != event.values[2] or event.cpu > MOST_CPU:
            return False
        return not any(begin < behind.time and (event.time <= begin or event.time < end)
                       for begin, end, _ in self.losses)

    def facts(self):
        left = list(self.losses)
        for at, event in enumerate(self.events):
            while left and left[0][0] < event.time:
                yield from self.lost(left.pop(0))
            if not any(begin < event.time < end for begin, end, _ in self.losses):
                yield from self.facts_of(at, event)
        for loss in left:
            yield from self.lost(loss)

    @staticmethod
    def lost(loss):
        begin, _, count = loss
        if count:
            yield Fact(begin, LOST, None, count)

    def facts_of(self, at, event):
        for wait in self.waits:
            if wait.end == at and wait.record:
                if wait.outcome in ("timed out", "interrupted"):
                    yield Fact(event.time, LOCK_FAILS, wait.task, wait.record)
            elif wait.end == at:
                how = {"timed out": "timed-out", "interrupted": "failed"}.get(wait.outcome)
                yield Fact(event.time, FUTEX_ENDS, wait.task, wait.address, wait.by, how)
        if event.what == "switch":
            priority, state, other, its = event.values
            yield Fact(event.time, RUNS, event.task, level_of(priority))
            yield Fact(event.time, READY if state.startswith("R") else ASLEEP, event.task, None)
            yield Fact(event.time, RUNS, other, level_of(its))
            if self.leaves(at):
                yield Fact(event.time, ON, other, event.cpu)
        elif event.what == "setprio":
            yield Fact(event.time, RUNS, event.values[0], level_of(event.values[2]), how=BOOST)
        elif event.what == "wake":
            yield Fact(event.time, WAKE, event.values[0], None)
        for wait in self.waits:
            if wait.slept == at and wait.record:
                yield Fact(event.time, LOCK, wait.task, wait.record)
            elif wait.begin == at and not wait.record:
                yield Fact(event.time, FUTEX, wait.task, wait.address)
