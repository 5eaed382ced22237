"""record/generate, whose logs are what was asked for."""
import pathlib
import struct

from tests.cases import Case
from tests.record.logs import broken, reader, setUpModule
from tests.shared.checks import ROOT, answer, difference

GENERATE = str(ROOT / "record/out/generate")
THREADS, MUTEXES, RECORDS, PERCENT = 40, 200, 20000, 20
OPTIONS = ["-n", RECORDS, "-t", THREADS, "-m", MUTEXES, "-c", PERCENT]
FEW = (["-t", 1, "-m", 1], ["-t", 1, "-m", 3, "-c", 100], ["-t", 3, "-m", 1, "-c", 100],
       ["-t", 300, "-m", 5, "-c", 0], ["-t", 2, "-m", 2, "-c", 50, "-n", 1])
REFUSED = {"no threads": ["-t", "0"], "no mutexes": ["-m", "0"], "no records": ["-n", "0"],
           "too many threads": ["-t", "100001"], "too many mutexes": ["-m", "100001"],
           "too many waits": ["-c", "101"], "a word": ["-n", "many"],
           "a part of a number": ["-m", "3x"], "a number with a sign": ["-m", "+3"],
           "an unknown option": ["-x"], "two logs": ["other"]}
NONE, INHERIT, PROTECT_90 = 0x04, 0x24, 0x5A44
MEGABYTE = 1 << 20


def generate(path, *options):
    """Returns why no log was written, or None."""
    status, out, err = answer([GENERATE, *map(str, options), str(path)])
    return f"status {status}: {err.decode()}" if status or out or err else None


class Waits:
    """Goes through a log, and notes where a REQUEST names another owner, where a thread that waits
    does something else, and where a mutex goes to another than its waiter of the highest priority
    who waits longest."""

    def __init__(self, log):
        self.reader, self.faults = reader, []
        self.priority, self.owner, self.waiting = {}, {}, {}
        self.released, self.awaited = None, {}
        self.most_owned = 0
        for record in log.records:
            thread = record.chunk.thread
            self.pass_on(record)
            if self.awaited.get(thread):
                got = record.event, record.object
                self.expect(record, got, (reader.GRANTED, self.awaited.pop(thread)))
            self.go(record, thread)

    def go(self, record, thread):
        reader, mutex = self.reader, record.object
        if record.event == reader.THREAD:
            self.priority[thread] = record.detail >> 8
        elif record.event == reader.REQUEST:
            self.expect(record, record.value, self.owner.get(mutex))
            rank = -self.priority[thread], record.number, thread
            self.waiting.setdefault(mutex, []).append(rank)
            self.awaited[thread] = mutex
        elif record.event == reader.GRANTED:
            self.owner[mutex] = record.chunk.task
            owned = list(self.owner.values()).count(record.chunk.task)
            self.most_owned = max(self.most_owned, owned)
        elif record.event == reader.RELEASE:
            self.expect(record, self.owner.pop(mutex, None), record.chunk.task)
            self.released = mutex if self.waiting.get(mutex) else None

    def pass_on(self, record):
        """The record behind a RELEASE grants the mutex to its top waiter, if it has one."""
        if self.released is None:
            return
        top = min(self.waiting[self.released])
        self.waiting[self.released].remove(top)
        got = record.event, record.object, record.chunk.thread
        self.expect(record, got, (self.reader.GRANTED, self.released, top[2]))
        self.released = None

    def expect(self, record, got, wanted):
        if got != wanted:
            self.faults.append(f"record {record.number}: {got} in place of {wanted}")


def numbers_of(log):
    """Returns threads, mutexes, how many of them are locked, whether there are enough records, and
    whether as many locks wait as was asked for."""
    events = [record.event for record in log.records]
    granted, requests = events.count(reader.GRANTED), events.count(reader.REQUEST)
    enough = RECORDS <= log.head.next_number - 1 <= RECORDS + 4 * THREADS
    near = abs(100 * requests / granted - PERCENT) <= 2
    locked = {record.object for record in log.records if record.event == reader.GRANTED}
    return events.count(reader.THREAD), events.count(reader.INIT), len(locked), enough, near


def kinds_of(log):
    """Returns how many threads are SCHED_OTHER, how many priorities the others have, how many
    mutexes each protocol has, and whether all but the first thread were created as they are."""
    threads, mutexes, created = ([record.detail for record in log.records if record.event == event]
                                 for event in (reader.THREAD, reader.INIT, reader.CREATE))
    protocols = [mutexes.count(detail) for detail in (NONE, INHERIT, PROTECT_90)]
    priorities = {detail for detail in threads if detail & 15 == 1}
    return threads.count(0), len(priorities), protocols, created == threads[1:]


def words_of(log):
    """Returns the names of the threads, the processes, and whether each place is in the code."""
    names = [record.text.decode() for record in log.records if record.event == reader.NAME]
    places = [record.object for record in log.records if record.event == reader.PLACE]
    in_code = all(0x400000 <= place < 0x410000 for place in places)
    return names, {record.chunk.process for record in log.records}, in_code


def unfilled(log):
    """Returns the chunks that have room, though the thread has a later one, or None."""
    last, counts = {}, {}
    for record in log.raw:
        chunk = record.chunk
        last[chunk.thread] = max(last.get(chunk.thread, 0), chunk.index)
        counts[chunk] = counts.get(chunk, 0) + 1
    return [chunk.at for chunk, count in counts.items()
            if count < 511 and chunk.index < last[chunk.thread]] or None


class Generate(Case):
    def test_a_log_of_each_option_keeps_the_laws(self):
        """A log of each option keeps the laws, and has what was asked for."""
        path = pathlib.Path(self.folder, "run")
        fault = generate(path, *OPTIONS)
        self.check("a log is generated", fault)
        if fault:
            return
        log = reader.Log(reader.used_bytes(path))
        self.check("a generated log keeps the laws", broken(log) or next(iter(log.faults), None))
        self.check("a generated log has what its options ask for",
                   difference(numbers_of(log), (THREADS, MUTEXES, MUTEXES, True, True)))
        self.check("the threads and mutexes of a generated log",
                   difference(kinds_of(log), (10, 30, [67, 67, 66], True)))
        names = [f"worker-{number}" for number in range(THREADS)]
        self.check("the names and places of a generated log",
                   difference(words_of(log), (names, {1000}, True)))
        self.check("the chunks of a generated log are filled", unfilled(log))
        head = log.head
        got = head.known, head.process, head.parent, head.command, head.next_thread
        self.check("the header of a generated log",
                   difference(got, (7, 1000, 999, ["generated"], THREADS + 1)))
        with open(path, "rb") as file:
            times_and_length = struct.unpack("<QQI", file.read(68)[48:])
        wanted = 1_000_000_000, 1_700_000_000 * 10**9, len(b"generated\0")
        self.equal("when a generated log began", times_and_length, wanted)
        numbers = [record.number for record in log.raw]
        self.check("a generated log has each number",
                   None if numbers == list(range(1, head.next_number)) else "numbers are missing")
        waits = Waits(log)
        self.check("a thread of a generated log owns two mutexes at most",
                   difference((waits.most_owned,), (2,)))
        self.check("a mutex of a generated log goes to its top waiter", next(iter(waits.faults), None))
        left = [mutex for mutex, waiting in waits.waiting.items() if waiting] + list(waits.owner)
        self.check("nobody owns or waits at the end of a generated log", left or None)
        ends = [(record.event, record.how) for record in log.records[-THREADS:]]
        wanted = [(reader.EXIT, 0)] * (THREADS - 1) + [(reader.END, 1)]
        self.equal("each thread of a generated log ends", (ends,), (wanted,))
        self.same(path, pathlib.Path(self.folder, "other"))

    def same(self, path, other):
        """The same options give the same bytes, and another seed gives others."""
        generate(other, *OPTIONS)
        is_same = path.read_bytes() == other.read_bytes()
        self.check("the same options generate the same log", None if is_same else "other bytes")
        generate(other, *OPTIONS, "-s", 2)
        is_same = path.read_bytes() == other.read_bytes()
        self.check("another seed generates another log", "the same bytes" if is_same else None)
        room, used = other.stat().st_size // MEGABYTE, other.stat().st_blocks * 512 // MEGABYTE
        self.check("a generated log has room for 256 MB, and takes what it uses",
                   None if room == 256 and used < 8 else f"{room} MB, {used} used")

    def test_few_threads_or_mutexes(self):
        """A log of few threads or mutexes is made, and so is one in which all locks wait."""
        for options in FEW:
            path = pathlib.Path(self.folder, "few")
            fault = generate(path, "-n", 3000, *options)
            self.check(f"generate {' '.join(map(str, options))}",
                       fault or broken(reader.Log(reader.used_bytes(path))))
        fault = generate(path, "-n", 3000, "-t", 4, "-c", 0)
        log = reader.Log(reader.used_bytes(path))
        waits = [record.number for record in log.records if record.event == reader.REQUEST]
        self.check("no lock of a generated log waits", fault or waits or None)

    def test_what_cannot_be_generated_is_refused(self):
        """What can't be generated is refused with a line, and no log is written."""
        path = pathlib.Path(self.folder, "none")
        cases = {name: [*arguments, path] for name, arguments in REFUSED.items()}
        cases |= {"no log": [], "a folder": [self.folder]}
        for name, arguments in cases.items():
            status, out, err = answer([GENERATE, *map(str, arguments)])
            got = status, out, err != b"", path.exists()
            self.equal(f"generate refuses {name}", got, (2, b"", True, False))
