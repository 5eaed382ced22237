"""From which step to which a task has a priority, owns a mutex, or waits for one."""
from collections import namedtuple

# A task has a priority, and a boost or None, after the steps from `first` to before `past`.
Level = namedtuple("Level", "task prio base boost first past")
# It owns a mutex, or waits for it. `by` is the place of the bar of the owner at first.
Bar = namedtuple("Bar", "task mutex owner by first past")
# It made a step, and has this priority after it.
Mark = namedtuple("Mark", "task prio step is_refused")


def is_owned(bar):
    """Returns whether the task owns the mutex. Otherwise it waits for it."""
    return bar.task == bar.owner


def what(bar):
    return f"{'owns' if is_owned(bar) else 'waits for'} mutex {bar.mutex}"


def why(level):
    """Says why a boosted task has its priority."""
    mutex, waiter = level.boost
    giver = f"task {waiter} waits for mutex {mutex}" if waiter else f"the ceiling of mutex {mutex}"
    return f"task {level.task} at {level.prio}: {giver}"


def rows_of(bars):
    """Yields the row of each bar among those of its task: the first one in which there is room."""
    ends = {}
    for bar in bars:
        of_task = ends.setdefault(bar.task, [])
        free = (row for row, end in enumerate(of_task) if end <= bar.first)
        row = next(free, len(of_task))
        of_task[row:row + 1] = [bar.past]
        yield row


class Spans:
    """What is the same over several steps of a window, in the order in which it begins."""

    def __init__(self, trace, window):
        self.tasks = range(1, trace.tasks + 1)
        # The first step, and the first one after the last: where what goes on ends.
        self.past = min(trace.last, window.last) + 1
        self.first = min(window.first, self.past)
        self.levels, self.bars, self.marks = [], [], []
        self.step, self.current = None, {}  # what goes on, and its place in the lists
        for moment in trace.moments(window):
            self.take(moment)

    def take(self, moment):
        """Notes what changed. The owners come first, as waits have the places of their bars."""
        self.step, state = moment.step, moment.state
        for mutex in sorted(state.moved):
            owner = state.owners.get(mutex)
            bar = Bar(owner, mutex, owner, len(self.bars), self.step, self.past)
            self.change(self.bars, ("owns", mutex), owner, bar)
        for task in sorted(state.changed):
            level = state.prios[task], state.bases[task], state.boost(task)
            span = Level(task, *level, self.step, self.past)
            self.change(self.levels, ("has", task), level, span)
            self.take_wait(task, state)
        if moment.request:
            actor = int(moment.request.split()[0])
            is_refused = moment.reply.startswith("refused")
            self.marks.append(Mark(actor, state.prios.get(actor), self.step, is_refused))

    def take_wait(self, task, state):
        mutex = state.waits.get(task)
        by, owner = self.current["owns", mutex] if mutex else (None, None)
        bar = Bar(task, mutex, owner, by, self.step, self.past)
        self.change(self.bars, ("waits", task), mutex, bar)

    def change(self, spans, key, now, span):
        """Ends what goes on by a key, if something else or nothing does now, and begins that."""
        place, before = self.current.get(key, (None, None))
        if now == before:
            return
        if before:
            spans[place] = spans[place]._replace(past=self.step)
        self.current[key] = len(spans), now
        if now:
            spans.append(span)
