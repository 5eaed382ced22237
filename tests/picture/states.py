"""The state after each step of a trace, from its text and the report on it.

Who owns and who waits follows from the replies; the priorities are those of the report. Which
reason a priority has, and who is first in a queue, is worked out from scratch.
"""
import copy
import dataclasses


@dataclasses.dataclass
class State:
    """What the tasks and the mutexes are after a step; both are numbered from 1."""

    base: dict
    protocol: dict
    prio: dict = dataclasses.field(default_factory=dict)
    owner: dict = dataclasses.field(default_factory=dict)
    waits: dict = dataclasses.field(default_factory=dict)
    tickets: dict = dataclasses.field(default_factory=dict)

    def owned(self, task):
        return sorted(mutex for mutex, owner in self.owner.items() if owner == task)

    def first(self, mutex):
        """Returns the first waiter of a mutex, or None."""
        queue = [task for task, waited in self.waits.items() if waited == mutex]
        return min(queue, key=lambda task: (-self.prio[task], self.tickets[task]), default=None)

    def reason(self, task):
        """Returns why the task has its priority, in the words of a report."""
        prio, owned = self.prio[task], self.owned(task)
        if prio == self.base[task]:
            return "base"
        for mutex in owned:
            if self.protocol[mutex] == f"protect {prio}":
                return f"ceiling {mutex}"
        for mutex in owned:
            first = self.first(mutex)
            if self.protocol[mutex].startswith("inherit") and first and self.prio[first] == prio:
                return f"waiter {first} mutex {mutex}"
        raise ValueError(f"task {task} has no reason to be at {prio}")


def hand_on(state, mutex):
    """Gives the mutex to the first of its queue, or leaves it free."""
    del state.owner[mutex]
    first = state.first(mutex)
    if first:
        state.owner[mutex] = first
        del state.waits[first]


def make(state, words, reply, number):
    """Changes owners, waits, bases and ceilings as the reply says."""
    actor, op, *numbers = words
    kind = reply.split()[0]
    if kind == "granted":
        state.owner[int(numbers[0])] = int(actor)
    elif kind == "queued":
        state.waits[int(actor)] = int(numbers[0])
        state.tickets[int(actor)] = number
    elif kind in ("freed", "handed"):
        hand_on(state, int(numbers[0]))
    elif kind == "released":
        for mutex in state.owned(int(actor)):
            hand_on(state, mutex)
    elif kind == "withdrawn":
        del state.waits[int(numbers[0])]
    elif kind == "set" and op == "base":
        state.base[int(numbers[0])] = int(numbers[1])
    elif kind == "set":
        state.protocol[int(numbers[0])] = f"protect {numbers[1]}"


def declared(text):
    """Returns the state before the first step, and the step lines without the recorded replies."""
    state, steps = State({}, {}), []
    for line in text.splitlines()[1:]:
        kind, number, *others = line.split(" = ")[0].split()
        if kind == "task":
            state.base[int(number)] = int(others[0])
        elif kind == "mutex":
            state.protocol[int(number)] = " ".join(others)
        else:
            steps.append([kind, number, *others])
    state.prio = dict(state.base)
    return state, steps


def states(text, report):
    """Yields for each step of the report, and first for none, its words, its reply and the state.

    It is the state after the step, and is changed by the next step.
    """
    state, steps = declared(text)
    yield None, None, state
    shown = []
    for line in report.splitlines()[:-1]:
        if line.startswith("  "):
            shown[-1][1].append(line.split())
        else:
            shown.append((line.split(" but ")[0].split(" ", 1)[1], []))
    for number, (words, (reply, changes)) in enumerate(zip(steps, shown), 1):
        make(state, words, reply, number)
        for _, task, _, prio, *_ in changes:
            state.prio[int(task)] = int(prio)
        for _, task, _, _, *reason in changes:
            if state.reason(int(task)) != " ".join(reason):
                raise ValueError(f"step {number}: task {task} has another reason than {reason}")
        yield words, reply, state


def kept(text, report):
    """Returns copies of what `states` yields."""
    return [(words, reply, copy.deepcopy(state)) for words, reply, state in states(text, report)]
