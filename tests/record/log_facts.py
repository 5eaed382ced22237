"""What happened to each thread of a log, by record/FORMAT.md: who was granted, awaited and released
which mutex. tests/record/plain_facts_of_log.py makes facts of it, which tests/record/test_to_facts.py compares
with those of pim-facts.
"""
import bisect
from collections import defaultdict, namedtuple

from tests.record.plain_joined_logs import part_of
from tests.record.logs import reader

GRANTED, WAITS, GAVE_UP = "granted", "waits", "gave up"
RELEASED, PRIORITY, CEILING = "released", "priority", "ceiling"
# What happened to a thread. `level` is of PRIORITY and CEILING, `owner` of WAITS: the thread that
# owned the mutex then, or None if no record says it. `time` is in nanoseconds, `record` the number
# of the record that says it, or behind which it was added.
Fact = namedtuple("Fact", "time thread what mutex level owner record", defaults=(None,) * 4)
# A mutex of a log. `process` is None if it is shared, `init` the number of its INIT, or None,
# `first` that of its first record, and `part` which of several logs has it.
Mutex = namedtuple("Mutex", "process address init first part")

POLICY, FIFO, RR, DEADLINE, KEPT = 15, 1, 2, 6, 15
OTHER_LEVEL, DEADLINE_LEVEL = 0, 100
PROTECT = 0x40
TRYLOCK, CALL = 1, 0x7F
TIMED_OUT, NOT_RECOVERABLE = 110, 131  # ETIMEDOUT, ENOTRECOVERABLE


def level_of(detail, before):
    """Returns the level that a priority's detail gives to a thread that had this level."""
    policy, priority = detail & POLICY, detail >> 8
    if policy in (FIFO, RR):
        return priority
    if policy == DEADLINE:
        return DEADLINE_LEVEL
    if policy == KEPT:
        return priority if OTHER_LEVEL < before < DEADLINE_LEVEL else before
    return OTHER_LEVEL


def detail_of(record):
    """Returns the detail of a record's mutex, or 0 where it isn't known."""
    has_detail = record.event in reader.WITH_DETAIL and record.detail & reader.DETAIL_KNOWN
    return record.detail if has_detail else 0


def ceiling_of(record):
    """Returns the ceiling in a record of a PROTECT mutex, or None."""
    detail = detail_of(record)
    return detail >> 8 if detail & reader.PROTOCOL == PROTECT else None


def kind_of(detail):
    """Returns what of a detail is the same as long as a mutex is there, or None where it isn't
    known. Only the INIT of a robust mutex says whether it is shared."""
    if not detail or detail & reader.PROTOCOL == reader.PROTOCOL:
        return None
    is_shared = not detail & reader.ROBUST and detail & reader.SHARED
    return detail & (reader.TYPE | reader.ROBUST | reader.PROTOCOL), is_shared


class Mutexes:
    """Which mutex each record is of, and of which kind each is."""

    def __init__(self, records):
        self.own, self.shared = {}, {}  # the mutex at a process, or a log, and an address
        self.of = {}                    # by a record's number
        self.details = {}               # by mutex the first detail that is known
        last, self.failed = {}, set()   # the numbers of DESTROYs that failed
        for record in records:
            before = last.get(record.chunk.thread)
            is_answer = record.event == reader.DESTROY_FAILED and before is not None
            if is_answer and (before.event, before.object) == (reader.DESTROY, record.object):
                self.failed.add(before.number)
            last[record.chunk.thread] = record
        for record in records:
            if record.event in reader.OF_MUTEX:
                mutex = self.of[record.number] = self.named(record)
                if detail_of(record):
                    self.details.setdefault(mutex, record.detail)
                if record.event == reader.DESTROY and record.number not in self.failed:
                    self.forget(record)

    def forget(self, record):
        """The mutex of a record is destroyed: the next record of the address is of another."""
        process = record.chunk.process
        if self.own.pop((process, record.object), None) is None:
            self.shared.pop((part_of(process), record.object), None)

    def is_another(self, mutex, record):
        """Returns whether a record is of another mutex than the one that is at its address."""
        if record.event in (reader.INIT, reader.CEILING):
            return record.event == reader.INIT
        was, now = (kind_of(detail) for detail in (self.details.get(mutex, 0), detail_of(record)))
        return None not in (was, now) and was != now

    def named(self, record):
        """Returns the mutex of the next record."""
        process, address = record.chunk.process, record.object
        part = part_of(process)
        there = self.own.get((process, address)) or self.shared.get((part, address))
        if there and not self.is_another(there, record):
            return there
        is_shared = detail_of(record) & reader.SHARED
        init = record.number if record.event == reader.INIT else None
        mutex = Mutex(None if is_shared else process, address, init, record.number, part)
        if is_shared:
            self.own.pop((process, address), None)
            self.shared[part, address] = mutex
        else:
            self.own[process, address] = mutex
        return mutex

    def protocol(self, mutex):
        return reader.PROTOCOLS[self.details.get(mutex, 0) & reader.PROTOCOL]

    def first_ceilings(self):
        """Returns by PROTECT mutex the first ceiling that a record says, which it had before."""
        return {mutex: detail >> 8 for mutex, detail in self.details.items()
                if detail & reader.PROTOCOL == PROTECT}

    def is_recursive(self, mutex):
        return self.details.get(mutex, 0) & reader.TYPE == reader.RECURSIVE


class Log:
    """The records of a log, and what is asked of those around a record."""

    def __init__(self, records):
        self.records, self.mutexes = records, Mutexes(records)
        self.next_of, self.last_of = {}, {}  # by number the next, the last record of its thread
        self.identity = {}                   # by thread its process and task
        self.first_level = {}                # by thread the level of its THREAD
        self.begins = defaultdict(list)      # by task its THREADs
        self.grants = defaultdict(list)      # by mutex its GRANTEDs
        self.numbers = defaultdict(list)     # by mutex the numbers of those
        self.latest = defaultdict(list)      # by mutex the latest time up to each of those
        last = {}
        for record in records:
            thread = record.chunk.thread
            if thread in last:
                self.next_of[last[thread].number] = record
                self.last_of[record.number] = last[thread]
            self.identity[thread] = record.chunk.process, record.chunk.task
            last[thread] = record
            self.note(record, thread)

    def note(self, record, thread):
        if record.event == reader.THREAD:
            self.begins[record.chunk.task].append(record)
            self.first_level.setdefault(thread, level_of(record.detail, OTHER_LEVEL))
        elif record.event == reader.GRANTED:
            mutex = self.mutexes.of[record.number]
            before = self.latest[mutex][-1] if self.latest[mutex] else 0
            self.grants[mutex].append(record)
            self.numbers[mutex].append(record.number)
            self.latest[mutex].append(max(before, record.time))

    def fails(self, record):
        """Returns whether a RELEASE_FAILED of its mutex follows a RELEASE."""
        after = self.next_of.get(record.number)
        if after is None or after.event != reader.RELEASE_FAILED:
            return False
        return after.object == record.object

    @staticmethod
    def took(record):
        """Returns how long the call took that ends with a record, in ns, or None if it isn't
        known: it took 2^32 - 1 or longer, or is the relock of a wait."""
        is_relock = record.how & CALL == reader.CALL_CONDITION and record.event == reader.GRANTED
        return None if is_relock or record.value == reader.SATURATED else record.value

    def had_begun(self, grant, request):
        """Returns whether the call of a GRANTED may have begun as an earlier REQUEST was made. A
        call whose begin isn't known began behind the last record of its thread."""
        took, last = self.took(grant), self.last_of.get(grant.number)
        if took is None:
            return last is None or last.number < request.number
        return grant.time - took <= request.time

    def next_grant(self, record):
        """Returns the first GRANTED of a record's mutex behind it, or None."""
        mutex = self.mutexes.of[record.number]
        at = bisect.bisect_right(self.numbers[mutex], record.number)
        return self.grants[mutex][at] if at < len(self.grants[mutex]) else None

    def grants_since(self, mutex, time, end):
        """Returns the GRANTEDs of a mutex after a time, before the record of this number."""
        begin = bisect.bisect_right(self.latest[mutex], time)  # none before it is later
        behind = bisect.bisect_left(self.numbers[mutex], end)
        return [grant for grant in self.grants[mutex][begin:behind] if grant.time > time]

    def named(self, request):
        """Returns the thread that a REQUEST names as the owner, or None if there is none: the last
        with the task that began before, or else that of the next GRANTED, if it has the task. It is
        of the mutex's process, unless the mutex is shared."""
        number, grant, thread = request.number, self.next_grant(request), None
        for begin in self.begins.get(request.value, ()):
            if begin.number < number:
                thread = begin.chunk.thread
        process = self.mutexes.of[number].process
        if thread is not None and process in (None, self.identity[thread][0]):
            return thread
        is_next = grant is not None and grant.chunk.task == request.value
        return grant.chunk.thread if is_next else None


class World:
    """Who owns and awaits what up to a record. `told` returns the facts of the next one."""

    def __init__(self, log):
        self.log, self.mutexes = log, log.mutexes
        self.owner, self.depth, self.last_owner = {}, {}, {}  # by mutex
        self.ceiling = log.mutexes.first_ceilings()           # by mutex
        self.awaits, self.own = {}, {}      # by thread a mutex of another, of its own
        self.level = dict(log.first_level)  # by thread
        self.selves, self.tasks = {}, {}    # threads by process and pthread_t, by task
        self.creates, self.begun = {}, set()  # by process and pthread_t the CREATE of one to begin; CREATEs of others
        self.rows = {reader.THREAD: self.thread, reader.CREATE: self.create, reader.PRIORITY: self.priority,
                     reader.CEILING: self.changed_ceiling, reader.REQUEST: self.request,
                     reader.GRANTED: self.granted, reader.FAILED: self.failed,
                     reader.RELEASE: self.release}

    def told(self, record):
        """Returns the facts of a record."""
        row = self.rows.get(record.event)
        facts = row(record) if row else []
        return [fact._replace(time=record.time, record=record.number) for fact in facts]

    # ---- threads and priorities

    def thread(self, record):
        process, task, thread = record.chunk.process, record.chunk.task, record.chunk.thread
        self.selves[process, record.object] = self.tasks[task] = thread
        return self.has_level(thread, self.level_at_begin(record))

    def create(self, record):
        if record.number not in self.begun:
            self.creates[record.chunk.process, record.object] = record
        return []

    def level_at_begin(self, record):
        """Returns the level of a THREAD: if the recorder didn't ask for it, that of its CREATE."""
        own = record.chunk.process, record.object
        create = self.creates.pop(own, None)
        if record.detail & POLICY != KEPT:
            return level_of(record.detail, OTHER_LEVEL)
        if create is None:
            create = next((it for it in self.log.records if it.number > record.number and it.event == reader.CREATE
                           and (it.chunk.process, it.object) == own), None)
            self.begun.add(create and create.number)
        if create is None:
            return OTHER_LEVEL
        is_creators = create.detail & POLICY == KEPT
        return self.level[create.chunk.thread] if is_creators else level_of(create.detail, OTHER_LEVEL)

    def priority(self, record):
        if record.object:
            thread = self.selves.get((record.chunk.process, record.object))
        else:
            thread = self.tasks.get(record.value)
        if thread is None:
            return []
        return self.has_level(thread, level_of(record.detail, self.level[thread]))

    def has_level(self, thread, level):
        self.level[thread] = level
        return [Fact(None, thread, PRIORITY, level=level)]

    # ---- mutexes

    def of(self, record):
        """Returns the thread and the mutex of a record, and the owner of that, or None."""
        mutex = self.mutexes.of[record.number]
        return record.chunk.thread, mutex, self.owner.get(mutex)

    def other_ceiling(self, record):
        """A record says another ceiling of a PROTECT mutex than was known."""
        thread, mutex, _ = self.of(record)
        ceiling, known = ceiling_of(record), self.ceiling.get(mutex)
        if None in (ceiling, known) or known == ceiling:
            return []
        self.ceiling[mutex] = ceiling
        return [Fact(None, thread, CEILING, mutex, ceiling)]

    def changed_ceiling(self, record):
        """A thread has changed a ceiling. If it waited to do so, that is over."""
        thread, mutex, _ = self.of(record)
        facts = self.goes_on(thread) if self.awaits.get(thread) == mutex else []
        return facts + self.other_ceiling(record)

    def goes_on(self, thread, but=None):
        """A thread that does something else doesn't wait any more."""
        mutex = self.awaits.get(thread)
        if mutex is None or mutex == but:
            return []
        del self.awaits[thread]
        return [Fact(None, thread, GAVE_UP, mutex)]

    def begin_to_wait(self, thread, mutex, owner):
        self.awaits[thread] = mutex
        return [Fact(None, thread, WAITS, mutex, owner=owner)]

    def request(self, record):
        thread, mutex, owner = self.of(record)
        if self.awaits.get(thread) == mutex:
            return []
        if owner == thread:
            return self.request_own(record)
        facts = self.other_ceiling(record) + self.goes_on(thread)
        if self.was_refused(record):
            return facts
        return facts + self.begin_to_wait(thread, mutex, self.owner_at(record))

    def was_refused(self, request):
        """Returns whether the call of a REQUEST was refused, so that it didn't wait."""
        answer = self.log.next_of.get(request.number)
        while answer is not None and answer.event == reader.FRAME:
            answer = self.log.next_of.get(answer.number)
        is_failed = answer is not None and answer.event == reader.FAILED
        if not is_failed or answer.how in (TIMED_OUT, NOT_RECOVERABLE):
            return False
        return self.mutexes.of[answer.number] == self.mutexes.of[request.number]

    def request_own(self, record):
        """A thread asks for a mutex that it owns. It waits for itself from then on, or no more if that is recursive."""
        thread, mutex, _ = self.of(record)
        if self.mutexes.is_recursive(mutex):
            return self.end_own(thread)
        self.own[thread] = mutex
        return [Fact(None, thread, WAITS, mutex, owner=thread)]

    def end_own(self, thread):
        """A call of a thread has ended, so that it doesn't wait for itself."""
        if thread not in self.own:
            return []
        return [Fact(None, thread, GAVE_UP, self.own.pop(thread), owner=thread)]

    def owner_at(self, request):
        """Returns who owned the mutex of a REQUEST as it was made, or None."""
        thread, mutex, owner = self.of(request)
        if request.value:
            return first_other(thread, self.log.named(request), owner)
        grant, last_owner = self.log.next_grant(request), self.last_owner.get(mutex)
        if grant is None:
            return first_other(thread, owner, last_owner)
        following = grant.chunk.thread
        if self.log.had_begun(grant, request):
            return first_other(thread, owner, following, last_owner)
        return first_other(thread, owner, last_owner, following)

    def granted(self, record):
        thread, mutex, owner = self.of(record)
        facts = self.end_own(thread)
        if owner == thread:
            self.depth[mutex] += self.mutexes.is_recursive(mutex)
            return facts
        facts += self.other_ceiling(record) + self.goes_on(thread, mutex)
        self.awaits.pop(thread, None)
        if owner is not None:
            facts.append(self.lose(owner, mutex))
        self.owner[mutex], self.depth[mutex] = thread, 1
        return [*facts, Fact(None, thread, GRANTED, mutex)]

    def lose(self, thread, mutex):
        del self.owner[mutex]
        self.last_owner[mutex] = thread
        return Fact(None, thread, RELEASED, mutex)

    def failed(self, record):
        thread, mutex, _ = self.of(record)
        if self.awaits.get(thread) != mutex:
            return self.end_own(thread)
        return self.end_own(thread) + self.goes_on(thread)

    def release(self, record):
        thread, mutex, owner = self.of(record)
        if owner != thread:
            return []
        if record.how & CALL == reader.CALL_CONDITION and self.log.fails(record):
            return []
        self.depth[mutex] -= 1
        if self.depth[mutex]:
            return []
        return [*self.goes_on(thread), self.lose(thread, mutex)]

    def added(self, thread, mutex, after):
        """Returns the facts of a request that the log lacks, behind a record."""
        owner = self.owner.get(mutex)
        if thread in self.awaits or owner == thread:
            return []
        owner = first_other(thread, owner, self.last_owner.get(mutex))
        fact, = self.begin_to_wait(thread, mutex, owner)
        return [fact._replace(time=after.time, record=after.number)]


def first_other(thread, *others):
    """Returns the first of some threads that there is, and that isn't this one, or None."""
    return next((other for other in others if other not in (None, thread)), None)


# ---- the requests that the log lacks

Moment = namedtuple("Moment", "number time thread")


class Ownership:
    """From a grant to a release, which is None if the thread owns the mutex still."""

    def __init__(self, granted):
        self.granted, self.released = granted, None

    def lasts_at(self, time, end):
        """Returns whether it lasts at a time, by the records before one."""
        granted, released = self.granted, self.released
        has_ended = released and released.time <= time and released.number < end
        return granted.time <= time and granted.number < end and not has_ended


def ownerships(facts):
    """Returns by mutex its ownerships, in order."""
    found = defaultdict(list)
    for fact in facts:
        moment = Moment(fact.record, fact.time, fact.thread)
        if fact.what == GRANTED:
            found[fact.mutex].append(Ownership(moment))
        elif fact.what == RELEASED:
            found[fact.mutex][-1].released = moment
    return found


def missing_requests(log, owned):
    """Returns by the number of a record the threads and mutexes of the requests that belong behind
    it. `owned` has the ownerships of each mutex."""
    asked, found = {}, defaultdict(list)
    for record in log.records:
        thread, mutex = record.chunk.thread, log.mutexes.of.get(record.number)
        if record.event == reader.REQUEST:
            asked[thread] = mutex
        elif record.event in (reader.GRANTED, reader.FAILED):
            is_answer = asked.pop(thread, None) == mutex
            after = None if is_answer else begin_of_wait(log, record, owned[mutex])
            if after:
                found[after].append((thread, mutex))
    return found


def may_have_waited(log, record):
    """Returns whether the call that ends with a record may have waited."""
    if log.took(record) == 0:
        return False
    if record.event == reader.FAILED:
        return record.how == TIMED_OUT
    return record.how & CALL not in (TRYLOCK, reader.CALL_CONDITION)


def begin_of_wait(log, record, owned):
    """Returns the number of the record behind which the call waited that ends with a record: a
    GRANTED by another thread since the call began, or a later record of its own thread. None: it
    didn't wait."""
    if not may_have_waited(log, record):
        return None
    took, own, end = log.took(record), log.last_of.get(record.number), record.number
    latest = record.time - (reader.SATURATED if took is None else took)
    since = [Moment(one.number, one.time, one.chunk.thread)
             for one in log.grants_since(log.mutexes.of[end], latest, end)]
    if took is None:
        since += [one.granted for one in owned if one.lasts_at(latest, end)]
    first = min(since, default=None)
    if first is None or first.thread == record.chunk.thread:
        return None
    return max(first.number, own.number if own else 0)


# ---- all facts

def told(log, missing):
    """Returns the facts of a log with these missing requests."""
    world, facts = World(log), []
    for record in log.records:
        facts += world.told(record)
        for thread, mutex in missing.get(record.number, ()):
            facts += world.added(thread, mutex, record)
    return facts


def missing_of(log):
    """Returns the requests that a log lacks, by the number of the record before each."""
    return missing_requests(log, ownerships(told(log, {})))


def facts_of(log):
    """Returns the facts of a log."""
    return told(log, missing_of(log))
