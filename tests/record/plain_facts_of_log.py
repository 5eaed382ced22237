"""The facts of a log as text, as record/facts writes them: a second implementation.

It takes what happened from log_facts.py, and puts it into an order in which the lines may follow each other. For
each fact it looks through those before it and behind it.
"""
import re
import struct
from collections import namedtuple

from tests.record import log_facts
from tests.record import plain_facts_of_kernel as plain_kernel
from tests.record import plain_other_waits
from tests.record.plain_joined_logs import Joined, are_alike, part_of
from tests.record.logs import reader

MOST_LEVEL, MOST_TIME, LAST_THREAD, MOST_THREADS = 100, 10**19 - 1, 2**32 - 2, 65536
NAME_BYTES, INIT_BYTES, MOST_PLACES = 64, 48, 16
ENDED_AT = 72  # in the header
MODULE_BYTES, MOST_PARENTS, MOST_NUMBER = 1 << 24, 16, 8192
NOT_PLACES = "by", "failed", "of", "timed-out"
BLOCKS, RESUMES, UNKNOWN, OTHER = "blocks", "resumes", "unknown", "other"
OF_MUTEX = log_facts.WAITS, log_facts.GAVE_UP, log_facts.RELEASED, log_facts.GRANTED
SAID_BY = {log_facts.WAITS: reader.REQUEST, log_facts.GRANTED: reader.GRANTED, log_facts.GAVE_UP: reader.FAILED,
           log_facts.RELEASED: reader.RELEASE}
KINDS = {2: "rwlock", 3: "rwlock", 6: "condition"}
NUMBERED, UNNUMBERED = (re.compile(start + rb" 0x([0-9a-f]{1,16}) (.*)", re.DOTALL)
                        for start in (rb"([1-9][0-9]{0,3})", rb"(-)"))
LIBRARIES = "libgomp.so.1", "libiomp5.so", "libjack.so.0", "libomp.so", "libomp.so.5"  # which call futexes themselves
UNSEEN = (("left_out", "call", "that the recorder couldn't see whole"),
          ("dropped", "early record", "that {} dropped for later ones"),
          ("unplaced", "record", "for whose {} the log had no room"))
UNKNOWN_OF_MUTEXES = ((1, "kinds of mutexes"), (2, "ceilings of mutexes"),
                      (4, "requests for mutexes, whose owners weren't known"))


def visible(text):
    """Returns bytes as a word."""
    return "".join(chr(byte) if 32 < byte < 127 else "_" for byte in text)


# ---- names

class Names:
    """What threads, places and addresses of a log are called. `places` are the bytes of LOG.places, of each of several
    logs, if it is of several."""

    def __init__(self, whole, log, places):
        self.whole, self.log, self.is_joined = whole, log, isinstance(whole, Joined)
        self.threads, self.modules, self.parents = {}, [], {}
        self.numbered, self.by_address = {}, {}
        self.read_records()
        for part, text in enumerate(places if self.is_joined else [places]):
            for line in text.split(b"\n"):
                self.read_line(part, line)

    def read_records(self):
        selves, process_of = {}, {}
        for record in self.log.records:
            process = record.chunk.process
            process_of[record.chunk.thread] = process
            if record.event == reader.THREAD:
                selves[process, record.object] = record.chunk.thread
            elif record.event == reader.NAME:
                self.threads[selves.get((process, record.object))] = visible(record.text[:NAME_BYTES])
            elif record.event == reader.MODULE:
                self.modules.append((record.object, process, record.text.rsplit(b"/", 1)[-1],
                                     reader.bytes_of(record) or MODULE_BYTES))
            elif record.event == reader.CHILD and record.value in process_of:
                self.parents.setdefault(process, process_of[record.value])

    def read_line(self, part, line):
        for form in (NUMBERED, UNNUMBERED):
            found = form.fullmatch(line)
            text = found[3].replace(b" (", b"(") if found else b""
            word = visible(text[:NAME_BYTES])
            if found and found[3].decode("latin-1") in NOT_PLACES:
                word = "_" + word
            if word and found[1] == b"-":
                self.by_address[part, int(found[2], 16)] = word
            elif word and int(found[1]) <= MOST_NUMBER:
                self.numbered[(part, int(found[1])) if self.is_joined else int(found[1])] = word

    def module(self, process, address):
        """Returns the begin and the name of the nearest file at an address of a process, or of any if that is None."""
        processes = [process]
        while len(processes) <= MOST_PARENTS and processes[-1] in self.parents:
            processes.append(self.parents[processes[-1]])
        there = [one for one in self.modules if process is None or one[1] in processes]
        nearest = max((one for one in there if one[0] <= address), key=lambda one: one[0], default=None)
        return nearest if nearest and address - nearest[0] < nearest[3] else None

    def file_at(self, process, address):
        module = self.module(process, address)
        if module is None:
            return f"{address:#x}"
        return f"{visible(module[2])}+{address - module[0]:#x}"[-NAME_BYTES:]

    def address(self, process, address, part=None):
        part = part_of(process) if part is None else part
        return self.by_address.get((part, address)) or self.file_at(process, address)

    def place(self, record):
        """Returns the word of a record's place, or None."""
        address = self.whole.place_of(record)
        if not address:
            return None
        return self.numbered.get(record.place) or self.file_at(record.chunk.process, (address - 1) % 2**64)

    def places(self, record):
        """Returns the words of a record's place and of its callers."""
        words = [self.place(record)] if record else [None]
        while words[0] and len(words) < MOST_PLACES and record.event in reader.FOLLOWED_BY_FRAME:
            record = self.log.next_of.get(record.number)
            if record is None or record.event != reader.FRAME:
                break
            words.append(self.place(record) or "-")
        return words if words[0] else []

    def mutex(self, mutex):
        place, after = None, self.log.next_of.get(mutex.init)
        if after is not None and after.event == reader.PLACE and after.object:
            process = after.chunk.process
            place = self.by_address.get((part_of(process), after.object)) or self.file_at(process, after.object - 1)
        name = self.address(mutex.process, mutex.address, mutex.part).replace("@", "_")
        if place is None:
            return name
        place = place[:INIT_BYTES]
        return f"{name[:NAME_BYTES - 1 - len(place)]}@{place}"


def numbers_of(log, others):
    """Returns by thread its number in the text: that in the kernel, unless an earlier thread has it. Other tasks have
    theirs."""
    tasks, numbers, taken = {task for _, task in log.identity.values()}, {}, set()
    free = (number for number in range(1, LAST_THREAD) if number not in tasks)
    for thread, (_, task) in sorted(log.identity.items()):
        numbers[thread] = next(free) if task in taken or not 0 < task <= LAST_THREAD else task
        taken.add(task)
    taken = tasks | {*numbers.values()}
    for task in others:
        if 0 < task <= LAST_THREAD and task not in taken and len(numbers) + 1 < MOST_THREADS:
            numbers[OTHER, task] = task
    taken |= {*numbers.values()}
    numbers[UNKNOWN] = next(number for number in range(LAST_THREAD, 0, -1) if number not in taken)
    return numbers


# ---- waits for what isn't a mutex

Block = namedtuple("Block", "begin behind end thread object how gift")


class Blocks(plain_other_waits.Waits):
    """All waits for objects, whatever the level of their threads."""

    def block_at(self, begin):
        record, kind = self.records[begin], plain_other_waits.kind_of(self.records[begin])
        found = self.end_of(begin, kind)
        if kind is None or found is None:
            return None
        end, outcome = found
        gift = self.ender(begin, end, kind) if outcome == plain_other_waits.GIVEN else None
        if outcome == plain_other_waits.GIVEN and gift is None and kind == plain_other_waits.KINDS[4]:
            return None
        thread, behind = record.chunk.thread, record
        following = next((one for one in self.records[begin + 1:] if one.chunk.thread == thread), None)
        if record.event == reader.CONDITION and following and following.event == reader.RELEASE \
                and following.how & log_facts.CALL == reader.CALL_CONDITION:
            behind = following
        number = 6 if record.event == reader.CONDITION else record.detail
        word = KINDS.get(number) or reader.KINDS[number]
        how = {"timed out": "timed-out", plain_other_waits.FAILED: "failed"}.get(outcome)
        return Block(record, behind.number, None if end is None else self.records[end].number, thread,
                     (record.chunk.process, word, record.object), how, None if gift is None else self.records[gift])

    def all(self):
        begins = [at for at, record in enumerate(self.records) if record.event in (reader.WAIT, reader.CONDITION)]
        return [block for block in map(self.block_at, begins) if block]


# ---- facts in order

class Fact:
    """What happened. `said` is the record whose place it has, or None."""

    def __init__(self, record, thread, what, mutex=None, said=None, owner=None, level=None, is_named=False, how=None):
        self.record, self.time, self.thread, self.what, self.mutex = record, record.time, thread, what, mutex
        self.said, self.owner, self.level, self.is_named, self.how = said, owner, level, is_named, how
        self.is_early = self.is_done = False

    @property
    def is_own(self):
        return self.owner == self.thread


def is_request_of(log, fact):
    record = fact.record
    return record.event == reader.REQUEST and record.chunk.thread == fact.thread \
        and log.mutexes.of[record.number] == fact.mutex


def facts_of(log, blocks):
    """Returns the facts of a log in the order of its records."""
    records = {record.number: record for record in log.records}
    told, added = {}, {}
    for one in log_facts.facts_of(log):
        record = records[one.record]
        fact = Fact(record, one.thread, one.what, one.mutex, owner=one.owner, level=one.level)
        is_its = record.chunk.thread == one.thread and record.event == SAID_BY.get(one.what)
        fact.said = record if is_its else None
        if one.what == log_facts.WAITS and not is_request_of(log, fact):
            fact.said = next(other for other in log.records
                             if other.number > one.record and other.chunk.thread == one.thread)
            added.setdefault(one.record, []).append(fact)
            continue
        fact.is_named = one.what == log_facts.WAITS and record.value != 0 and not fact.is_own
        told.setdefault(one.record, []).append(fact)
    facts = []
    for record in log.records:
        number = record.number
        facts += [Fact(record, block.thread, RESUMES, block.object, block.gift,
                       block.gift and block.gift.chunk.thread, how=block.how) for block in blocks if block.end == number]
        facts += told.get(number, [])
        facts += [Fact(record, block.thread, BLOCKS, block.object, block.begin) for block in blocks
                  if block.behind == number]
        facts += added.get(number, [])
    return facts


class Writer:
    """Writes the lines of facts, and keeps who owns and awaits what by the lines so far."""

    def __init__(self, whole, places, kernel):
        self.whole, self.log = whole, log_facts.Log(whole.records)
        self.names = Names(whole, self.log, places)
        blocks = Blocks(self.log.records).all() if whole.head.version >= reader.KINDS_SINCE else []
        self.mutexes = numbered(self.log.mutexes.of.values())
        self.facts = facts_of(self.log, blocks)
        self.headers_ended = [struct.unpack_from("<Q", log.data, ENDED_AT)[0]
                              for log in getattr(whole, "logs", [whole]) if log.data]
        self.began = whole.head.began
        self.ended = max([self.began, *self.headers_ended, *(one.time for one in self.log.records)])
        self.kernel, self.kernel_facts = None, []
        tasks = [task for _, task in self.log.identity.values()]
        self.shared = {task for task in tasks if tasks.count(task) > 1}
        self.tasks = {task: thread for thread, (_, task) in sorted(self.log.identity.items())
                      if task not in self.shared}
        if kernel is not None:
            self.read_kernel(kernel)
        others = [task for task in (self.kernel.shown() if self.kernel else ())
                  if task not in self.tasks and task not in self.shared]
        self.numbers = numbers_of(self.log, others)
        self.tasks.update({task: (OTHER, task) for task in others if (OTHER, task) in self.numbers})
        waits = [wait for wait in self.kernel.waits if wait.task in self.shown and not wait.record] if self.kernel else []
        futexes = [wait.address for wait in sorted(waits, key=lambda wait: wait.begin)]
        self.objects = numbered([*(block.object for block in blocks), *futexes])
        self.runs, self.on = {}, {}       # by thread its level in the kernel, its CPU
        self.lines, self.now, self.at = ["facts 1"], 0, 0
        self.owner, self.awaits, self.blocked = {}, {}, {}
        self.of_kernel = set()             # threads that wait for a mutex by the kernel's events alone
        self.early, self.ceiling = {}, {}  # by mutex a release that is still to come; the last ceiling
        self.ceilings = set()              # all that a mutex has, or had
        self.to_come = {}                  # by thread the end of its wait for an object, or None
        self.owned_before, self.is_unknown_declared = set(), False
        self.level = {thread: clamped(self.log.first_level.get(thread, 0)) for thread in self.log.identity}

    def read_kernel(self, data):
        """Reads the kernel's events. Without a log, the recording begins as they do."""
        is_alone = not self.whole.records and self.whole.head.process is None
        kernel = plain_kernel.Kernel(data, None if is_alone else self.began, list(self.logged()), self.record_of)
        if is_alone:
            self.began = self.ended = kernel.began
        self.kernel, self.kernel_facts = kernel, list(kernel.facts())
        is_ended = any(self.headers_ended) and kernel.last > 0
        self.ended = max(self.ended, kernel.last if is_ended else kernel.ended)
        self.shown = {*self.tasks, *kernel.shown()} - self.shared

    def record_of(self, task, address, slept):
        """Returns the record of a call in which a task slept, if it is for a mutex: the next one of its thread, or its
        last one."""
        records = [record for record in self.log.records if record.chunk.thread == self.tasks.get(task)]
        behind = [record for record in records if record.time >= slept]
        found = [*behind[:1], *records[-1:]][:1]
        of_address = [record for record in found if record.object == address and record.number in self.log.mutexes.of]
        return of_address[0] if of_address else None

    def logged(self):
        """Yields the task, the begin and the end of each wait in the log."""
        first = {thread: task for task, thread in self.tasks.items()}
        for at, fact in enumerate(self.facts):
            if fact.what not in (log_facts.WAITS, BLOCKS) or fact.thread not in first:
                continue
            behind = (other.time for other in self.facts[at + 1:] if other.thread == fact.thread and other.what in
                      (log_facts.WAITS, BLOCKS, log_facts.GRANTED, log_facts.GAVE_UP, RESUMES))
            yield first[fact.thread], fact.time, next(behind, 2**64)

    # ---- lines

    def since(self, time):
        return min(max(0, time - self.began), MOST_TIME)

    def put(self, thread, what, *words, said=None):
        words = [self.now, self.numbers[thread], what, *words, *self.names.places(said)]
        self.lines.append(" ".join(map(str, words)))

    def declare(self):
        for thread in sorted(self.log.identity):
            name = self.names.threads.get(thread) or "-"
            self.lines.append(f"thread {self.numbers[thread]} {self.level[thread]} {name}")
        for task, thread in self.tasks.items():
            if isinstance(thread, tuple):
                name = visible(self.kernel.names.get(task, "").encode()[:NAME_BYTES])
                self.level[thread] = self.kernel.shown()[task]
                self.lines.append(f"thread {self.numbers[thread]} {self.level[thread]} {name or '-'}")
        ceilings = self.log.mutexes.first_ceilings()
        for mutex, number in self.mutexes.items():
            words = ["mutex", number, *(["recursive"] if self.log.mutexes.is_recursive(mutex) else []),
                     self.log.mutexes.protocol(mutex)]
            if mutex in ceilings:
                self.ceiling[mutex] = clamped(ceilings[mutex])
                self.ceilings.add(self.ceiling[mutex])
                words.append(self.ceiling[mutex])
            self.lines.append(" ".join(map(str, [*words, self.names.mutex(mutex)])))
        for thing, number in self.objects.items():
            if isinstance(thing, int):
                self.lines.append(f"object {number} futex {self.names.address(0, thing)}")
                continue
            process, kind, address = thing
            self.lines.append(f"object {number} {kind} {self.names.address(process, address)}")
        known = 7 if self.whole.head.known is None else self.whole.head.known
        self.lines += [f"unseen {what}" for bit, what in UNKNOWN_OF_MUTEXES if not known & bit]
        for field, what, why in UNSEEN:
            count = getattr(self.whole.head, field)
            if count:
                said = {"dropped": "was" if count == 1 else "were", "unplaced": "place" if count == 1 else "places"}
                self.lines.append(f"unseen {count} {what}{'s' if count > 1 else ''} {why.format(said.get(field))}")
        loaded = {name[:NAME_BYTES] for _, _, name, _ in self.names.modules}
        self.lines += [f"unseen waits by futexes of {name}" for name in LIBRARIES if name.encode() in loaded]
        if self.kernel and not self.kernel.is_whole:
            self.lines.append("unseen the rest of the kernel's events, which aren't whole")

    # ---- what comes behind

    def behind(self, what, **fields):
        """Returns the place of the next fact of these kinds with these fields."""
        for at in range(self.at + 1, len(self.facts)):
            fact = self.facts[at]
            if fact.what in what and all(getattr(fact, name) == value for name, value in fields.items()):
                return at
        return len(self.facts)

    def late_grant(self, fact):
        """Returns the grant of the owner that a wait names, if it is told late, or None."""
        grant = self.behind((log_facts.GRANTED,), mutex=fact.mutex)
        if grant == len(self.facts) or self.facts[grant].thread != fact.owner \
                or self.behind(OF_MUTEX, thread=fact.owner) != grant:
            return None
        has_begun = self.log.had_begun(self.facts[grant].record, fact.record)
        return self.facts[grant] if has_begun else None

    def is_missing(self, fact):
        """Returns whether neither the grant of the owner that a wait names nor its release is in the log."""
        asks = self.behind((log_facts.WAITS, log_facts.GRANTED), thread=fact.owner, mutex=fact.mutex)
        is_asking = asks < len(self.facts) and asks <= self.behind((log_facts.GRANTED,), mutex=fact.mutex)
        return fact.is_named and not is_asking and fact.owner not in self.awaits \
            and (fact.owner, fact.mutex) not in self.owned_before

    def is_early(self, fact):
        """Returns whether a later wait shows that a mutex was released only after it."""
        until = min(self.behind(OF_MUTEX, thread=fact.thread), self.behind((log_facts.GRANTED,), mutex=fact.mutex))
        wait = self.behind((log_facts.WAITS,), mutex=fact.mutex, owner=fact.thread, is_named=True)
        if wait >= until or wait == len(self.facts):
            return False
        here, self.at = self.at, wait
        is_late = self.late_grant(self.facts[wait]) is not None
        self.at = here
        return not is_late

    # ---- what a thread stops before it does something else

    def catch_up(self, thread=None, mutex=None):
        """Releases that were told early come now: those of a thread, and that of a mutex."""
        for of, fact in list(self.early.items()):
            if fact.thread == thread or of == mutex:
                del self.early[of]
                self.lose(fact.thread, of, fact.said)

    def give_up(self, thread, said=None):
        if thread in self.awaits:
            self.put(thread, "gave-up", self.mutexes[self.awaits.pop(thread)[0]], said=said)

    def resume(self, thread):
        if thread in self.blocked:
            self.put(thread, "resumes", self.objects[self.blocked.pop(thread)])

    def lose(self, thread, mutex, said=None):
        awaited, blocked, before = self.awaits.get(thread), self.blocked.get(thread), self.own(thread)
        self.give_up(thread)
        self.resume(thread)
        self.put(thread, "released", self.mutexes[mutex], said=said)
        del self.owner[mutex]
        if awaited is not None:
            self.awaits[thread] = awaited
            self.put(thread, "waits", self.mutexes[awaited[0]])
        if blocked is not None:
            self.blocked[thread] = blocked
            self.put(thread, "blocks", self.objects[blocked])
        self.follow(thread, before)

    # ---- facts

    def grant(self, thread, mutex, fact=None):
        self.catch_up(thread, None)
        self.catch_up(None, mutex)
        if mutex in self.owner:
            self.lose(self.owner[mutex], mutex)
        self.resume(thread)
        if self.awaits.get(thread, (mutex,))[0] != mutex:
            self.give_up(thread)
        is_try = fact is not None and fact.record.how & log_facts.CALL == log_facts.TRYLOCK
        word = "took" if is_try and thread not in self.awaits else "granted"
        self.put(thread, word, self.mutexes[mutex], said=fact and fact.said)
        before = self.own(thread)
        self.owner[mutex] = thread
        self.awaits.pop(thread, None)
        self.follow(thread, before)
        self.owned_before.add((thread, mutex))

    def mend(self, fact):
        """A request found a mutex owned that is free by the lines so far."""
        owner, mutex = fact.owner, fact.mutex
        if owner is None:
            if not self.is_unknown_declared:
                self.lines.append(f"thread {self.numbers[UNKNOWN]} 0 -")
            self.is_unknown_declared = True
            self.grant(UNKNOWN, mutex)
            return
        if owner in self.blocked or self.awaits.get(owner, (mutex,))[0] != mutex:
            return
        late = self.late_grant(fact)
        if late:
            now, late.is_done = self.now, True
            self.now = min(now, self.since(late.time))
            self.grant(owner, mutex, late)
            self.now = now
        elif self.is_missing(fact):
            self.grant(owner, mutex)

    def waits(self, fact):
        thread, mutex = fact.thread, fact.mutex
        self.catch_up(thread)
        is_told = thread in self.of_kernel and thread in self.awaits and self.awaits[thread][0] == mutex
        self.of_kernel.discard(thread)
        if is_told and not fact.is_own:
            return
        self.give_up(thread)
        self.resume(thread)
        if mutex not in self.owner and not fact.is_own:
            self.mend(fact)
        if self.owner.get(mutex) == thread and self.log.mutexes.is_recursive(mutex):
            return
        self.put(thread, "waits", self.mutexes[mutex], said=fact.said)
        self.awaits[thread] = mutex, fact.is_own

    def gave_up(self, fact):
        self.catch_up(fact.thread)
        if self.awaits.get(fact.thread) == (fact.mutex, fact.is_own):
            self.give_up(fact.thread, fact.said)

    def released(self, fact):
        self.catch_up(fact.thread)
        if self.owner.get(fact.mutex) != fact.thread:
            return
        if self.is_early(fact):
            self.early[fact.mutex] = fact
        else:
            self.lose(fact.thread, fact.mutex, fact.said)

    def granted(self, fact):
        if not fact.is_done:
            self.grant(fact.thread, fact.mutex, fact)

    def blocks(self, fact):
        self.catch_up(fact.thread)
        self.give_up(fact.thread)
        self.resume(fact.thread)
        self.put(fact.thread, "blocks", self.objects[fact.mutex], said=fact.said)
        self.blocked[fact.thread] = fact.mutex
        ends = self.behind((BLOCKS, RESUMES), thread=fact.thread)
        is_end = ends < len(self.facts) and self.facts[ends].what == RESUMES
        self.to_come[fact.thread] = self.facts[ends] if is_end else None

    def resumes(self, fact):
        if self.blocked.get(fact.thread) != fact.mutex:
            return
        del self.blocked[fact.thread]
        by = ["by", self.numbers[fact.owner]] if fact.owner else []
        self.put(fact.thread, "resumes", self.objects[fact.mutex], *by, *([fact.how] if fact.how else []),
                 said=fact.said)

    def priority(self, fact):
        level, before = clamped(fact.level), self.own(fact.thread)
        if self.level[fact.thread] == level:
            return
        self.level[fact.thread] = level
        self.put(fact.thread, "priority", level)
        self.follow(fact.thread, before)

    # ---- what the kernel did

    def own(self, thread):
        """Returns the greatest of a thread's level and the ceilings of what it owns."""
        owned = [mutex for mutex, owner in self.owner.items() if owner == thread]
        return max([self.level.get(thread, 0), *(self.ceiling.get(mutex, 0) for mutex in owned)])

    def follow(self, thread, before):
        """The kernel follows where a thread's own level changes, unless the thread has a boost."""
        after, runs = self.own(thread), self.runs.get(thread)
        if after != before and runs is not None and (runs == before or runs < after):
            self.runs_at(thread, after)

    def set_unseen(self, thread, fact):
        """A level without a boost, of a thread that ran at its own one, is its own from now on, unless it is a ceiling."""
        ran = None if isinstance(thread, tuple) or fact.how == plain_kernel.BOOST else self.runs.get(thread)
        if ran is not None and ran == self.own(thread) != fact.value and fact.value not in self.ceilings:
            self.level[thread] = fact.value
            self.put(thread, "priority", fact.value)

    def runs_at(self, thread, level):
        if isinstance(thread, tuple):
            if self.level[thread] != level:
                self.level[thread] = level
                self.put(thread, "priority", level)
        elif self.runs.get(thread) != level:
            self.runs[thread] = level
            self.put(thread, "runs", level)

    def kernel_until(self, time):
        """Writes what the kernel did before a time."""
        while self.kernel_facts and self.kernel_facts[0].time < time:
            fact = self.kernel_facts.pop(0)
            self.now, thread = self.since(fact.time), self.tasks.get(fact.task)
            if fact.what == plain_kernel.LOST:
                self.lines.append(f"{self.now} lost {min(fact.value, MOST_TIME)}")
                self.runs, self.on = {}, {}
            elif thread is not None and self.numbers[thread] <= LAST_THREAD:
                self.kernel_fact(fact, thread)

    def kernel_fact(self, fact, thread):
        if fact.what == plain_kernel.RUNS:
            first = next((one.time for one in self.log.records if one.chunk.thread == thread), 0)
            awaited = self.awaits.get(thread, (None,))[0]
            if fact.time >= first and self.ceiling.get(awaited) != fact.value:
                self.set_unseen(thread, fact)
                self.runs_at(thread, fact.value)
        elif fact.what == plain_kernel.ON:
            if thread not in self.on and fact.value not in self.on.values():
                self.on[thread] = fact.value
                self.put(thread, "on", fact.value)
        elif fact.what in (plain_kernel.READY, plain_kernel.ASLEEP):
            self.on.pop(thread, None)
            self.put(thread, fact.what)
        elif fact.what == plain_kernel.WAKE and thread not in self.on:
            self.put(thread, plain_kernel.READY)
        elif fact.what == plain_kernel.FUTEX:
            self.catch_up(thread)
            if thread not in self.awaits and thread not in self.blocked:
                self.blocked[thread] = fact.value
                self.put(thread, "blocks", self.objects[fact.value])
        elif fact.what == plain_kernel.FUTEX_ENDS and self.blocked.get(thread) == fact.value:
            del self.blocked[thread]
            by = self.tasks.get(fact.by)
            words = ["by", self.numbers[by]] if by is not None else [fact.how] if fact.how else []
            self.put(thread, "resumes", self.objects[fact.value], *words)
        elif fact.what == plain_kernel.LOCK:
            self.waits_by_kernel(thread, fact.value)
        elif fact.what == plain_kernel.LOCK_FAILS and thread in self.of_kernel and thread in self.awaits:
            if self.awaits[thread][0] == self.log.mutexes.of[fact.value.number]:
                self.give_up(thread)

    def waits_by_kernel(self, thread, record):
        """A thread sleeps in the call for a mutex of which this is the record. What it was blocked at has ended."""
        mutex = self.log.mutexes.of[record.number]
        self.catch_up(thread)
        if thread in self.awaits or self.owner.get(mutex) == thread:
            return
        if thread in self.blocked and self.to_come.get(thread):
            self.resumes(self.to_come[thread])
        self.resume(thread)
        self.put(thread, "waits", self.mutexes[mutex], said=record)
        self.awaits[thread] = mutex, False
        self.of_kernel.add(thread)

    def has_ceiling(self, fact):
        level = clamped(fact.level)
        if self.ceiling[fact.mutex] == level:
            return
        owner = self.owner.get(fact.mutex)
        before = self.own(owner)
        self.put(fact.thread, "ceiling", self.mutexes[fact.mutex], level)
        self.ceiling[fact.mutex] = level
        self.ceilings.add(level)
        self.follow(owner, before)

    def all(self):
        """Returns the lines."""
        self.declare()
        rows = {log_facts.WAITS: self.waits, log_facts.GAVE_UP: self.gave_up, log_facts.RELEASED: self.released,
                log_facts.GRANTED: self.granted, log_facts.PRIORITY: self.priority,
                log_facts.CEILING: self.has_ceiling, BLOCKS: self.blocks, RESUMES: self.resumes}
        for self.at, fact in enumerate(self.facts):
            if not fact.is_done:
                self.kernel_until(fact.time)
            self.now = self.since(fact.time)
            rows[fact.what](fact)
        self.kernel_until(2**64)
        self.now = self.since(self.ended)
        for thread in sorted(self.log.identity):
            self.catch_up(thread)
        if self.whole.head.first_lost:
            self.lines.append(f"{self.now} lost {min(self.whole.missing, MOST_TIME)}")
        return [*self.lines, f"{self.now} end"]


class NoLog:
    """In place of a log: what is asked of one without records."""
    records, data = (), b""
    head = reader.Head(*([None] * len(reader.Head._fields)))._replace(began=0, version=0)


NO_LOG = NoLog()


def clamped(level):
    return min(level, MOST_LEVEL)


def numbered(things):
    return {thing: number for number, thing in enumerate(dict.fromkeys(things), 1)}


def text_of(data, places=b"", kernel=None, others=()):
    """Returns the text of a log's bytes, which are None where there are the kernel's events alone. `others` are the
    logs of programs that it started, each with the bytes of its places, by their names."""
    whole = NO_LOG if data is None else reader.Log(data)
    logs = [(reader.Log(log), text) for log, text in others]
    logs = sorted((one for one in logs if are_alike(one[0].head, whole.head)), key=lambda one: one[0].head.began)
    if logs:
        whole, places = Joined([whole, *(log for log, _ in logs)]), [places, *(text for _, text in logs)]
    return "".join(f"{line}\n" for line in Writer(whole, places, kernel).all())
