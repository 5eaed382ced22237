"""Random small programs, and what pim-record would write of them: threads that lock, try, wait for
and release a few mutexes of all protocols, change priorities, and fork.

Each thread is a Python generator that stops between any two things that it does. A scheduler goes
on with one of them at random. So other records may come between a deed and its record, as in a
real recording. The same seed gives the same program.
"""
import random
from itertools import count

from tests.record.logs import reader

NONE, INHERIT, PROTECT = 0x04, 0x24, 0x44
NORMAL, RECURSIVE, ERRORCHECK = 0, 1, 2
LOCK, TRYLOCK, TIMEDLOCK, CONDITION, CEILING = 0, 1, 2, 4, 5
NOT_PERMITTED, BUSY, INVALID, DEADLOCK, TIMED_OUT = 1, 16, 22, 35, 110
OTHER, FIFO, DEADLINE, KEPT = 0, 1, 6, 15
DEADLINE_LEVEL = 100
PROCESS, CHILD_PROCESS, FIRST_TASK = 100, 300, 100
BEGAN, SECOND = 1000, 1_000_000_000
MOST_RECORDS = 500  # a thread has one chunk


class Mutex:
    """A mutex of a program, and who really owns it."""

    def __init__(self, choose, address):
        self.address = address
        self.protocol = choose.choice((NONE, NONE, INHERIT, INHERIT, PROTECT))
        self.kind = choose.choice((NORMAL, NORMAL, NORMAL, RECURSIVE, ERRORCHECK))
        is_robust = self.protocol == NONE and choose.random() < 0.2
        self.robust = reader.ROBUST if is_robust else 0
        self.shared = reader.SHARED if choose.random() < 0.1 else 0
        self.ceiling = choose.choice((20, 50, 90))
        self.owner, self.depth = None, 0
        self.word = 0            # the task that it names as its owner
        self.is_orphan = False   # whether its owner has died
        self.calls = 0           # how many threads are in a call of it

    def detail(self, is_init=False):
        """Returns what a record says of it. Only INIT says whether a robust one is shared."""
        shared = self.shared if is_init or not self.robust else 0
        ceiling = self.ceiling << 8 if self.protocol == PROTECT else 0
        return self.protocol | self.kind | self.robust | shared | ceiling

    def begin_again(self, choose):
        """Another mutex is initialised in the same memory, which processes share as before."""
        self.__dict__.update(Mutex(choose, self.address).__dict__, shared=self.shared)

    def copy(self, choose, parent, child):
        """Returns the mutex of a forked process: the child owns what its parent owned."""
        twin = Mutex(choose, self.address)
        twin.__dict__.update(self.__dict__)
        if self.owner is parent:
            twin.owner = child
        return twin


class Thread:
    """A thread of a program."""

    def __init__(self, number, process, task, level):
        self.number, self.process, self.task, self.level = number, process, task, level
        self.self = 0x7000 + 16 * number  # its pthread_t
        self.has_begun = False            # whether it has a record
        self.owned = []
        self.goes = None                  # its generator, or None if it has ended


def priority(level):
    """Returns the detail of a priority."""
    if level == 0:
        return OTHER
    return DEADLINE if level == DEADLINE_LEVEL else FIFO | level << 8


class Program:
    """A program as it runs, and the records of its log: rows of log_of, each with its time."""

    def __init__(self, seed):
        self.choose, self.now, self.records = random.Random(seed), BEGAN, []
        self.threads, self.numbers, self.places = [], count(1), count(0x40_0000, 16)
        self.is_slow = self.chance(0.15)
        self.names_owners = not self.chance(0.05)     # else there is no REQUEST
        self.lag = self.choose.choice((0, 0.2, 0.5))  # how often other records come between
        mutexes = range(self.choose.randint(1, 3))
        self.mutexes = {PROCESS: [Mutex(self.choose, 0x5000 + 64 * at) for at in mutexes]}
        for _ in range(self.choose.randint(2, 5)):
            self.begin(PROCESS)

    def chance(self, share):
        return self.choose.random() < share

    def begin(self, process):
        """Returns a new thread. It may have the task of one that has ended."""
        number = next(self.numbers)
        dead = [one.task for one in self.threads if one.goes is None and one.process == process]
        task = dead[0] if dead and self.chance(0.5) else FIRST_TASK + number - 1
        level = self.choose.choice((0, 0, 10, 20, 30, 30, 40, 60, DEADLINE_LEVEL))
        thread = Thread(number, process, task, level)
        thread.goes = self.life(thread)
        self.threads.append(thread)
        return thread

    def run(self):
        """Lets threads go on at random until all have ended, or the program is killed."""
        for _ in range(self.choose.choice((20, 60, 120, 250))):
            alive = [thread for thread in self.threads if thread.goes]
            if not alive or len(self.records) > MOST_RECORDS:
                break
            self.pass_time()
            thread = self.choose.choice(alive)
            if next(thread.goes, "ended") == "ended":
                thread.goes = None

    def pass_time(self):
        """Lets time go by. It may stand still, or be longer than a record can say of a call."""
        is_long = self.is_slow and self.chance(0.05)
        usual = self.choose.choice((0, 1, 10, 100, 1000, 100_000))
        odd = self.choose.choice((0, reader.SATURATED % SECOND))
        self.now += self.choose.randint(1, 6) * SECOND + odd if is_long else usual

    def put(self, thread, event, target=0, value=0, detail=0, how=0, time=None):
        """Puts a record. A thread's first one is THREAD."""
        time = self.now if time is None else time
        if not thread.has_begun:
            thread.has_begun = True
            detail = KEPT if self.chance(0.05) else priority(thread.level)
            self.put(thread, reader.THREAD, thread.self, detail=detail, time=time)
        self.records.append(((thread.number, event, target, value, detail, how), time))

    def put_call(self, event, thread, mutex, call, value=0, time=None):
        self.put(thread, event, mutex.address, value, mutex.detail(), call, time)

    def late(self):
        """Stops between a deed and its record, or not."""
        if self.chance(self.lag):
            yield

    # ---- what a thread does

    def life(self, thread):
        for _ in range(self.choose.randint(3, 14)):
            yield from self.deed(thread)
            yield
        while thread.owned and not self.chance(0.1):
            yield from self.unlock(thread, thread.owned[-1])
        becomes_another = self.chance(0.2)
        if becomes_another:
            self.put(thread, reader.EXEC)
        if becomes_another and self.chance(0.3):
            self.put(thread, reader.EXEC_FAILED)
        if not becomes_another:
            self.put(thread, reader.EXIT)
        for mutex in thread.owned:
            if mutex.robust:
                mutex.owner, mutex.is_orphan = None, True

    def deed(self, thread):
        if thread.owned and self.chance(0.5):
            return self.unlock(thread, self.choose.choice(thread.owned))
        mutex = self.choose.choice(self.mutexes[thread.process])
        usual = self.unlock if mutex in thread.owned else self.lock
        deeds = [usual] * 8 + [self.trylock, self.timedlock, self.timedlock, self.condition,
                               self.set_level, self.set_ceiling, self.unlock_of_another,
                               self.begin_mutex, self.load, self.fork]
        return self.choose.choice(deeds)(thread, mutex)

    def lock(self, thread, mutex):
        return self.call(thread, mutex, LOCK)

    def trylock(self, thread, mutex):
        return self.call(thread, mutex, TRYLOCK)

    def timedlock(self, thread, mutex):
        return self.call(thread, mutex, TIMEDLOCK)

    def call(self, thread, mutex, call):
        """A lock: what the recorder does first, and then what the system does."""
        mutex.calls += 1
        began, detail, word = self.now, mutex.detail(), mutex.word
        is_relock = mutex.owner is thread and mutex.kind == RECURSIVE
        is_request = mutex.owner and call != TRYLOCK and not is_relock
        yield from self.late()
        if is_request and self.names_owners:
            self.put(thread, reader.REQUEST, mutex.address, word, detail, call, began)
            yield
        error = yield from self.outcome(thread, mutex, call)
        took = min(self.now - began, reader.SATURATED)
        if error:
            self.put(thread, reader.FAILED, mutex.address, took, how=error)
        elif is_relock:
            mutex.depth += 1
            self.put_call(reader.GRANTED, thread, mutex, call, took)
        else:
            yield from self.take(thread, mutex, call, began)
        mutex.calls -= 1

    def outcome(self, thread, mutex, call):
        """Waits while the mutex is owned. Returns 0 if the thread gets it, or else the error."""
        if mutex.protocol == PROTECT and thread.level > mutex.ceiling:
            return INVALID
        if mutex.owner is thread and mutex.kind == RECURSIVE:
            return 0
        if mutex.owner is thread and mutex.kind == ERRORCHECK and call != TRYLOCK:
            return DEADLOCK
        while mutex.owner:
            if call == TRYLOCK:
                return BUSY
            if call == TIMEDLOCK and self.chance(0.3):
                return TIMED_OUT
            yield
        return 0

    def take(self, thread, mutex, call, began):
        """The thread has the mutex. Then it writes who it is, and reads the clock; and then comes
        the record."""
        mutex.owner, mutex.depth, mutex.word = thread, 1, 0
        died, mutex.is_orphan = reader.OWNER_DIED if mutex.is_orphan else 0, False
        thread.owned.append(mutex)
        yield from self.late()
        mutex.word, time = thread.task, self.now
        took = 0 if call == CONDITION else min(time - began, reader.SATURATED)
        yield from self.late()
        self.put_call(reader.GRANTED, thread, mutex, call | died, took, time)

    def unlock(self, thread, mutex, how=LOCK):
        mutex.calls += 1
        self.put_call(reader.RELEASE, thread, mutex, how)
        yield from self.late()
        mutex.depth -= 1
        if mutex.depth == 0:
            mutex.owner, mutex.word = None, 0
            thread.owned.remove(mutex)
        mutex.calls -= 1

    def condition(self, thread, mutex):
        """An owner waits at a condition variable. The wait may be refused."""
        if mutex not in thread.owned or mutex.depth > 1 or mutex.protocol == PROTECT:
            return
        self.put(thread, reader.CONDITION, 0x9000)
        if self.chance(0.2):
            self.put_call(reader.RELEASE, thread, mutex, CONDITION)
            yield
            self.put(thread, reader.RELEASE_FAILED, mutex.address, how=INVALID)
            return
        yield from self.unlock(thread, mutex, CONDITION)
        mutex.calls += 1
        yield
        while mutex.owner or self.chance(0.5):
            yield
        yield from self.take(thread, mutex, CONDITION, self.now)
        mutex.calls -= 1

    def unlock_of_another(self, thread, mutex):
        """It is refused, or the mutex is free all the same."""
        owner = mutex.owner
        if owner in (None, thread):
            return
        self.put_call(reader.RELEASE, thread, mutex, LOCK)
        is_simple = mutex.kind == NORMAL and mutex.protocol == NONE and not mutex.calls
        if is_simple and owner.process == thread.process:
            owner.owned.remove(mutex)
            mutex.owner, mutex.word, mutex.depth = None, 0, 0
        else:
            self.put(thread, reader.RELEASE_FAILED, mutex.address, how=NOT_PERMITTED)
        yield

    def begin_mutex(self, thread, mutex):
        """A mutex that nobody uses is destroyed or forgotten, and another is there, by an INIT or not. One that is
        used isn't destroyed."""
        if mutex.owner or mutex.calls or self.chance(0.5):
            yield from self.destroy_in_vain(thread, mutex)
            return
        if self.chance(0.7):
            self.put(thread, reader.DESTROY, mutex.address)
        mutex.begin_again(self.choose)
        if self.chance(0.7):
            self.put(thread, reader.INIT, mutex.address, detail=mutex.detail(is_init=True))
            self.put(thread, reader.PLACE, next(self.places))
        yield

    def destroy_in_vain(self, thread, mutex):
        if mutex.calls or self.chance(0.5):
            return
        self.put(thread, reader.DESTROY, mutex.address)
        yield from self.late()
        self.put(thread, reader.DESTROY_FAILED, mutex.address, how=BUSY)

    def set_level(self, thread, _mutex):
        """The priority of a thread is set, by its pthread_t or its task."""
        others = [one for one in self.threads if one.process == thread.process and one.has_begun]
        other = self.choose.choice(others or [thread])
        is_kept = 0 < other.level < DEADLINE_LEVEL and self.chance(0.5)
        levels = (10, 20, 40, 70) if is_kept else (0, 10, 20, 40, 70, DEADLINE_LEVEL)
        other.level = self.choose.choice(levels)
        detail = KEPT | other.level << 8 if is_kept else priority(other.level)
        target, value = (other.self, 0) if self.chance(0.8) else (0, other.task)
        yield from self.late()
        self.put(thread, reader.PRIORITY, target, value, detail)

    def set_ceiling(self, thread, mutex):
        if mutex.protocol != PROTECT or mutex.owner is thread:
            return
        mutex.calls += 1
        if mutex.owner and self.names_owners:
            self.put_call(reader.REQUEST, thread, mutex, CEILING, mutex.word)
        while mutex.owner:
            yield
        mutex.ceiling = self.choose.choice((20, 50, 90))
        detail = mutex.detail() & ~reader.TYPE
        yield from self.late()
        self.put(thread, reader.CEILING, mutex.address, detail=detail)
        mutex.calls -= 1

    def load(self, thread, _mutex):
        """A file is loaded near the mutexes. Its name is empty."""
        self.put(thread, reader.MODULE, self.choose.choice((0x4f00, 0x5010)), detail=self.choose.choice((0, 1)))
        yield

    def fork(self, thread, _mutex):
        """The child is a thread of another process. There is one child at most."""
        if CHILD_PROCESS in self.mutexes or self.chance(0.7):
            return
        self.put(thread, reader.FORK)
        number, child = len(self.records), self.begin(CHILD_PROCESS)
        child.self = thread.self
        copies = [one if one.shared else one.copy(self.choose, thread, child)
                  for one in self.mutexes[thread.process]]
        self.mutexes[CHILD_PROCESS] = copies
        child.owned = [one for one in copies if one.owner is child]
        self.put(child, reader.CHILD, number, thread.number)
        yield
