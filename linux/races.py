"""A model of the kernel's walk on several CPUs: rt_mutex_adjust_prio_chain and its callers, in
steps that are whole under the locks which they hold: pi_lock of a task, wait_lock of a mutex. It
performs some calls in every order of their steps.

In it, the changes of mended/README.md are made. What the first one adds can be left out:
"""
from collections import namedtuple

import compare
from walk import Walk as Sequential

PARTS = {
    "stop": "the walk goes on past an owner whose highest waiter waits for another mutex ([3])",
    "released": "it goes on if the mutex that it began with has no owner any more ([3])",
    "inline": "it goes on past a waiter that has its task's priority, if it changed that ([3])",
    "deadlock": "it passes on what it has changed before it reports a deadlock ([6])",
}
# For each part, calls that leave a wrong priority without it: the priorities of tasks, how many
# mutexes there are, what is done before, and the calls, which several CPUs perform.
Schedule = namedtuple("Schedule", "priorities mutexes before calls")
SCHEDULES = {
    "stop": Schedule("10 20 60 90", 3, "1 lock 1; 2 lock 2; 2 lock 3; 2 lock 1; 3 lock 3; 4 lock 2",
                     ["1 base 4 30"]),
    # A, B, C, E, X, and the owner of L3. L0 is mutex 4, E waits for mutex 5.
    "released": Schedule("5 6 50 30 70 1", 5,
                         "6 lock 3; 1 lock 2; 2 lock 1; 2 lock 5; 3 lock 4; "
                         "1 lock 3; 2 lock 2; 3 lock 1; 4 lock 5",
                         ["5 lock 4", "3 cancel 3; 3 unlock 4"]),
    "inline": Schedule("10 40 20", 2, "1 lock 1; 1 lock 2; 2 lock 1",
                       ["1 base 2 60", "1 base 2 40", "3 lock 2"]),
    # D, C, B, T, X.
    "deadlock": Schedule("90 20 21 22 5", 5,
                         "2 lock 1; 3 lock 2; 4 lock 3; 5 lock 4; 2 lock 5; "
                         "4 lock 4; 3 lock 3; 2 lock 2; 1 lock 1",
                         ["1 base 1 30", "5 lock 5"]),
}
DONE = ("done",)
# A walk between two hops; `then` is its caller's next step.
Walk = namedtuple("Walk", "task next_lock top_waiter requeue detect orig_lock orig_waiter top_task"
                          " is_deadlock then")
# How many states there are; how many ends, which differ in priorities, owners or waiters; and the
# wrong ones of these, each with the steps that lead there.
Found = namedtuple("Found", "states ends wrong")


def text_of(schedule):
    """Returns what is done before the calls, as a text."""
    tasks = [f"task {t} {it}" for t, it in enumerate(schedule.priorities.split(), 1)]
    mutexes = [f"mutex {m} inherit" for m in range(1, schedule.mutexes + 1)]
    return compare.Text("\n".join(["pim 1", *tasks, *mutexes, *schedule.before.split("; ")]))


class State:
    """Tasks and mutexes at one moment, and the locks that are held from one step to the next."""
    NAMES = ("own", "prio", "wait", "tree_prio", "pi_prio", "top_task", "pi", "owner", "tree",
             "pi_lock", "wait_lock")

    @classmethod
    def after(cls, text):
        """Returns the state in which a text ends."""
        walk, new = Sequential(text), cls()
        walk.run()
        for name in cls.NAMES[1:7]:
            setattr(new, name, list(getattr(walk, name)))
        new.own, new.owner = list(walk.base), list(walk.owner)
        new.pi, new.tree = [tuple(it) for it in walk.pi], [tuple(it) for it in walk.tree]
        new.pi_lock, new.wait_lock = [False] * len(new.own), [False] * len(new.owner)
        return new

    def copy(self):
        new = State()
        for name in self.NAMES:
            setattr(new, name, list(getattr(self, name)))
        return new

    def key(self):
        return tuple(tuple(getattr(self, name)) for name in self.NAMES)

    def top(self, m):
        return self.tree[m][0] if self.tree[m] else None

    def should(self):
        """Returns the priorities by the definition: the highest of one's own and of those that
        wait for what one owns."""
        now, before = list(self.own), None
        while now != before:
            before, now = now, list(self.own)
            for m, owner in enumerate(self.owner):
                if owner:
                    now[owner] = max([now[owner], *(before[t] for t in self.tree[m])])
        return now


def placed(tree, prios, t):
    """Returns a tree with a task, behind those of equal priority."""
    at = next((i for i, other in enumerate(tree) if prios[other] < prios[t]), len(tree))
    return tree[:at] + (t,) + tree[at:]


def without(tree, t):
    return tuple(other for other in tree if other != t)


class Model:
    """The steps. Each changes the state that it is given, and returns its actor's next step, or
    None if it must wait for a lock."""

    def __init__(self, lacks=()):
        self.lacks = frozenset(lacks)

    # ---- priorities

    def boost(self, s, t):
        """rt_mutex_adjust_prio, what it reads. Others' steps may come before it writes."""
        top = s.pi[t][0] if s.pi[t] else None
        return top, s.prio[top] if top else 0

    def write(self, s, t, boost):
        s.top_task[t], prio = boost
        s.prio[t] = max(s.own[t], prio)

    def enter_pi(self, s, owner, waiter):
        s.pi_prio[waiter] = s.tree_prio[waiter]
        s.pi[owner] = placed(s.pi[owner], s.pi_prio, waiter)

    # ---- the walk

    def walk(self, s, it):
        """[1], and the owner of orig_lock, whose wait_lock isn't held in [3]."""
        if s.pi_lock[it.task]:
            return None
        s.pi_lock[it.task] = True
        return "exits", it, it.orig_waiter is not None and s.owner[it.orig_lock] is None

    def exits(self, s, it, is_released):
        """[2] to [5]"""
        task, m = it.task, s.wait[it.task]
        s.pi_lock[task] = False
        is_over = (m is None or m != it.next_lock or (it.top_waiter and not s.pi[task])
                   or (is_released and "released" in self.lacks)
                   or (it.is_deadlock and task == it.orig_waiter))
        detect, requeue = it.detect and not is_released, it.requeue
        if "stop" in self.lacks and it.top_waiter and not is_over:
            requeue &= s.pi[task][0] == it.top_waiter
        if "inline" in self.lacks:
            requeue &= s.tree_prio[task] != s.prio[task]
        if is_over or not (requeue or detect):
            return self.ended(it)
        if s.wait_lock[m]:
            return "retry", it, m
        return self.requeue(s, it._replace(detect=detect, requeue=requeue), m)

    def retry(self, s, it, m):
        return None if s.wait_lock[m] else ("walk", it)

    def requeue(self, s, it, m):
        """[6] to [9]"""
        if m == it.orig_lock or s.owner[m] == it.top_task:
            it = it._replace(is_deadlock=True, detect=False)
            if not it.requeue or "deadlock" in self.lacks:
                return self.ended(it)
        before = s.top(m)
        if it.requeue and s.tree_prio[it.task] != s.prio[it.task]:
            s.tree_prio[it.task] = s.prio[it.task]
            s.tree[m] = placed(without(s.tree[m], it.task), s.tree_prio, it.task)
        if s.owner[m] is None:
            return it.then
        s.wait_lock[m] = True
        return "owner_of", it, m, before

    def owner_of(self, s, it, m, before):
        """[10], and [11] but for the priority"""
        owner, boost = s.owner[m], None
        if s.pi_lock[owner]:
            return None
        s.pi_lock[owner] = True
        if it.requeue and it.task in (before, s.top(m)):
            s.pi[owner] = without(s.pi[owner], before)
            self.enter_pi(s, owner, s.top(m))
            boost = self.boost(s, owner)
        return "hop", it, m, boost

    def hop(self, s, it, m, boost):
        """[11] to [13]"""
        owner, is_changed = s.owner[m], boost is not None
        before = s.prio[owner]
        if boost:
            self.write(s, owner, boost)
        s.pi_lock[owner] = s.wait_lock[m] = False
        if "inline" not in self.lacks:
            is_changed = s.prio[owner] != before
            it = it._replace(requeue=is_changed)
        if s.wait[owner] is None or not (it.detect or is_changed):
            return self.ended(it)
        return "walk", it._replace(task=owner, next_lock=s.wait[owner], top_waiter=s.top(m))

    def ended(self, it):
        """Who would wait for itself leaves."""
        is_refused = it.is_deadlock and it.orig_waiter
        return ("leave", it.orig_waiter, it.orig_lock) if is_refused else it.then

    # ---- the calls

    def base(self, s, t, priority):
        """sched_setscheduler, what it reads"""
        if s.pi_lock[t]:
            return None
        s.pi_lock[t] = True
        return "set", t, priority, s.prio[s.top_task[t]] if s.top_task[t] else 0

    def set(self, s, t, priority, boost):
        s.own[t], s.prio[t] = priority, max(priority, boost)
        s.pi_lock[t] = False
        return "adjust", t

    def adjust(self, s, t):
        """rt_mutex_adjust_pi"""
        if s.pi_lock[t]:
            return None
        if s.wait[t] is None or ("inline" in self.lacks and s.tree_prio[t] == s.prio[t]):
            return DONE
        return "walk", Walk(t, s.wait[t], None, True, False, None, None, t, False, DONE)

    def lock(self, s, t, m):
        """task_blocks_on_rt_mutex, or the mutex is taken"""
        if s.wait_lock[m] or s.pi_lock[t]:
            return None
        before = s.top(m)
        if s.owner[m] is None and (before is None or s.tree_prio[before] < s.prio[t]):
            return self.take(s, t, m)
        if s.owner[m] == t:
            return DONE
        s.wait[t], s.tree_prio[t], s.pi_prio[t] = m, s.prio[t], s.prio[t]
        s.tree[m] = placed(s.tree[m], s.tree_prio, t)
        if s.owner[m] is None:
            return "sleep", t, m
        s.wait_lock[m] = True
        return "block", t, m, before

    def block(self, s, t, m, before):
        owner, boost = s.owner[m], None
        if s.pi_lock[owner]:
            return None
        s.pi_lock[owner] = True
        if s.top(m) == t:
            s.pi[owner] = without(s.pi[owner], before)
            self.enter_pi(s, owner, t)
            boost = self.boost(s, owner)
        return "blocked", t, m, boost

    def blocked(self, s, t, m, boost):
        owner, then = s.owner[m], ("sleep", t, m)
        if boost:
            self.write(s, owner, boost)
        s.pi_lock[owner] = s.wait_lock[m] = False
        if s.wait[owner] is None:
            return then
        return "walk", Walk(owner, s.wait[owner], t, True, True, m, t, t, False, then)

    def sleep(self, s, t, m):
        """A waiter sleeps until it can take the mutex."""
        if s.wait_lock[m] or s.pi_lock[t] or s.owner[m] is not None or s.top(m) != t:
            return None
        return self.take(s, t, m)

    def take(self, s, t, m):
        """try_to_take_rt_mutex"""
        s.tree[m], s.wait[t], s.owner[m] = without(s.tree[m], t), None, t
        if not s.tree[m]:
            return DONE
        self.enter_pi(s, t, s.top(m))
        s.pi_lock[t] = s.wait_lock[m] = True
        return "adjusted", m, t, t, self.boost(s, t)

    def cancel(self, s, t):
        """A wait ends, by its time or a signal."""
        m = s.wait[t]
        return DONE if m is None else self.sleep(s, t, m) or self.leave(s, t, m)

    def leave(self, s, t, m):
        """remove_waiter"""
        if s.wait_lock[m] or s.pi_lock[t]:
            return None
        was_top = s.top(m) == t
        s.tree[m], s.wait[t] = without(s.tree[m], t), None
        if s.owner[m] is None or not was_top:
            return DONE
        s.wait_lock[m] = True
        return "left", t, m

    def left(self, s, t, m):
        owner = s.owner[m]
        if s.pi_lock[owner]:
            return None
        s.pi_lock[owner] = True
        s.pi[owner] = without(s.pi[owner], t)
        if s.tree[m]:
            self.enter_pi(s, owner, s.top(m))
        return "adjusted", m, owner, t, self.boost(s, owner)

    def unlock(self, s, t, m):
        """mark_wakeup_next_waiter"""
        if s.wait_lock[m] or s.pi_lock[t]:
            return None
        if s.owner[m] != t:
            return DONE
        if not s.tree[m]:
            s.owner[m] = None
            return DONE
        s.pi[t] = without(s.pi[t], s.top(m))
        s.pi_lock[t] = s.wait_lock[m] = True
        return "unlocked", m, t, self.boost(s, t)

    def unlocked(self, s, m, t, boost):
        self.write(s, t, boost)
        s.pi_lock[t] = s.wait_lock[m] = False
        s.owner[m] = None
        return DONE

    def adjusted(self, s, m, owner, top_task, boost):
        """The owner of a mutex is adjusted. A walk begins if it waits itself."""
        self.write(s, owner, boost)
        s.pi_lock[owner] = s.wait_lock[m] = False
        if s.wait[owner] is None:
            return DONE
        return "walk", Walk(owner, s.wait[owner], None, True, False, m, None, top_task, False, DONE)


# ---- the orders of the steps

def step_of(words):
    """Returns the first step of a call, which is written as in a text."""
    actor, request, *numbers = words.split()
    numbers = tuple(map(int, numbers))
    return (request, *numbers) if request in ("base", "cancel") else (request, int(actor), *numbers)


def start(text, calls):
    """Returns the state after a text, and its actors: who performs calls, and those who wait. Each
    has a step, and the calls that come behind it."""
    s = State.after(text)
    rests = [tuple(step_of(words) for words in its.split("; ")) for its in calls]
    waits = {t: ("sleep", t, m) for t, m in enumerate(s.wait) if m}
    actors = [(waits.pop(its[0][1], DONE) if its[0][0] != "base" else DONE, its) for its in rests]
    return s, tuple(actors + [(step, ()) for step in waits.values()])


def nexts(model, s, actors):
    """Generates each step that can come next, with the state and the actors behind it."""
    for k, (step, calls) in enumerate(actors):
        others = [(step, calls)] if step != DONE else []
        if calls and (step == DONE or (step[0] == "sleep" and calls[0][0] == "cancel")):
            others.append((calls[0], calls[1:]))
        for (name, *arguments), rest in others:
            new = s.copy()
            then = getattr(model, name)(new, *arguments)
            if then:
                yield (name, *arguments), new, (*actors[:k], (then, rest), *actors[k + 1:])


def explore(text, calls, lacks=(), most=100000):
    """Performs calls after a text, in every order of their steps. What lacks parts is the walk.

    Returns what it found, or None if there are more states than that."""
    model, (s, actors) = Model(lacks), start(text, calls)
    known, ends, wrong = {(s.key(), actors)}, set(), {}
    stack = [(None, nexts(model, s, actors))]
    while stack:
        step, s, actors = next(stack[-1][1], (None, None, None))
        if not step:
            stack.pop()
            continue
        if (s.key(), actors) in known:
            continue
        known.add((s.key(), actors))
        if len(known) > most:
            return None
        stack.append((step, nexts(model, s, actors)))
        if not any(nexts(model, s, actors)):
            end = tuple(s.prio), tuple(s.owner), tuple(s.tree)
            ends.add(end)
            if s.prio != s.should() or any(it[0] not in ("done", "sleep") for it, _ in actors):
                wrong.setdefault(end, (s, [it for it, _ in stack[1:]]))
    return Found(len(known), len(ends), list(wrong.values()))
