"""The laws of record/FORMAT.md: logs by hand that keep them, and logs that break one, of which
pim-log says just that.
"""
import pathlib
import struct
import tempfile

from tests.cases import Case
from tests.shared.checks import ROOT, answer, difference
from tests.record.logs import log_of, reader, setUpModule

THREAD, NAME, CREATE, EXIT, PRIORITY, FORK, CHILD, EXEC, EXEC_FAILED, END = range(1, 11)
MODULE, PLACE, TEXT = range(11, 14)
INIT, DESTROY, DESTROY_FAILED, CEILING, REQUEST, GRANTED, FAILED = range(16, 23)
RELEASE, RELEASE_FAILED, CONDITION, WAITS, WAITED, GIVE = range(23, 29)
SEMAPHORE, READ, WRITE, BARRIER, JOIN, SIGNAL = range(1, 7)
INHERIT, RECURSIVE, ROBUST, SHARED = 0x24, 0x25, 0x34, 0xA4
MUTEX, WAIT, OWNER_DIED, SATURATED = 0x5000, 4, 0x80, 2**32 - 1


def log_of_three(rows, processes=None, missing=0, times=None):
    """Returns a log of three threads, in which `missing` numbers follow that no record has.

    Each thread is of process 100, unless `processes` has another. Record n is of the time 1000 + 10 n, or of the nth of
    the times.
    """
    return log_of(rows, 3, times, processes=processes, numbers=len(rows) + 1 + missing)


def start(*threads):
    return [(thread, THREAD, 0, 0, 0, 0) for thread in threads]


def lock(thread, detail=INHERIT, how=0, value=0):
    return [(thread, GRANTED, MUTEX, value, detail, how)]


def unlock(thread, detail=INHERIT, how=0):
    return [(thread, RELEASE, MUTEX, 0, detail, how)]


def failed(thread, event, how):
    return [(thread, event, MUTEX, 0, 0, how)]


def request(thread, how=0):
    return [(thread, REQUEST, MUTEX, 101, INHERIT, how)]


def waits(thread, kind=SEMAPHORE):
    return [(thread, WAITS, 0x7000, 0, kind, 0)]


def waited(thread, kind=SEMAPHORE, took=10, error=0, target=0x7000):
    return [(thread, WAITED, target, took, kind, error)]


PLACED = [(1, PLACE, 0x1234, 0, 0, 0)]
WAITING = [(1, CONDITION, 0x6000, 0, 0, 0)] + unlock(1, how=WAIT)
FORKED = [(1, FORK, 0, 0, 0, 0)] + start(2)
BOTH = start(1, 2)
KEPT = {
    "a text that is cut at the thread's end": start(1) + [(1, NAME, 0, 3, 0, 0)],
    "a created thread and its place": start(1) + [(1, CREATE, 0x99, 0, 15, 0)] + PLACED,
    "an owner that died": BOTH + lock(1, ROBUST) + lock(2, ROBUST, OWNER_DIED) + unlock(2, ROBUST),
    "a recursive mutex": start(1) + lock(1, RECURSIVE) * 2 + unlock(1, RECURSIVE) * 2,
    "a mutex whose kind isn't known": start(1) + lock(1, 0) * 2 + unlock(1, 0) * 2,
    "a wait": start(1) + lock(1) + WAITING + lock(1, how=WAIT) + unlock(1),
    "a wait that is refused":
        start(1) + lock(1) + WAITING + failed(1, RELEASE_FAILED, 1) + unlock(1),
    "a release of another's mutex that fails":
        BOTH + lock(1) + unlock(2) + failed(2, RELEASE_FAILED, 1) + unlock(1),
    "a release by the owner that fails":
        BOTH + lock(1) + unlock(1) + failed(1, RELEASE_FAILED, 1) + lock(2) + unlock(2),
    "a mutex that is initialised again":
        BOTH + lock(1) + [(2, INIT, MUTEX, 0, INHERIT, 0), (2, PLACE, 1, 0, 0, 0)] + lock(2),
    "a call that times out": BOTH + request(1, 2) + [(1, FAILED, MUTEX, 10, 0, 110)],
    "a call of five seconds": BOTH + request(1) + lock(1, value=SATURATED),
    "a later call without a request":
        BOTH + request(1) + lock(1, value=10) + unlock(1) + lock(1, value=3),
    "a request whose owner died": BOTH + request(1) + lock(1, INHERIT, OWNER_DIED, 10),
    "a wait for a semaphore, and a post": BOTH + waits(1) + [(2, GIVE, 0x7000, 0, SEMAPHORE, 0)] + waited(1, took=20),
    "a wait that times out": start(1) + waits(1, WRITE) + waited(1, WRITE, error=110),
    "a wait of five seconds": start(1) + waits(1, JOIN) + waited(1, JOIN, took=SATURATED),
    "a wait that doesn't end": start(1) + waits(1, BARRIER) + waits(1) + waited(1),
    "a thread that is killed as it waits": start(1) + waits(1, READ),
    "a signal, and a broadcast": start(1) + [(1, GIVE, 0x6000, 0, SIGNAL, 0), (1, GIVE, 0x6000, 0, SIGNAL, 1)],
    "a thread's status": start(1) + [(1, END, 0, 3, 0, 1)],
    "a thread's exit": start(1) + [(1, EXIT, 0, 0, 0, 0)],
}
BROKEN = {
    "a created thread without a place": (start(1) + [(1, CREATE, 0x99, 0, 15, 0)] + lock(1),
                                         "record 3: a PLACE, and nothing else, comes behind INIT"
                                         " and CREATE"),
    "a text that is cut": (start(1) + [(1, NAME, 0, 3, 0, 0)] + lock(1),
                           "record 2: its text has 0 bytes of 3"),
    "an unlock behind CONDITION": (start(1) + lock(1) + WAITING[:1] + unlock(1),
                                   "record 4: the release of a wait, and nothing else, comes"
                                   " behind CONDITION"),
    "an owner that waits, refused": (BOTH + lock(1) + WAITING + failed(1, RELEASE_FAILED, 1)
                                     + lock(2), "record 7: mutex 0x5000 has two owners, t1, t2"),
    "an owner whose release by another fails":
        (BOTH + lock(1) + unlock(2) + failed(2, RELEASE_FAILED, 1) + lock(2),
         "record 6: mutex 0x5000 has two owners, t1, t2"),
    "a second owner, which stays one": (BOTH + lock(1) + lock(2) + unlock(2),
                                        "record 4: mutex 0x5000 has two owners, t1, t2"),
    "an unlock by another": (BOTH + lock(1) + unlock(2) + lock(2),
                             "record 4: the program unlocks mutex 0x5000, which its thread"
                             " doesn't own"),
    "an answer that began later": (BOTH + request(1) + lock(1, value=5),
                                   "record 4: its call began at another time than request 3"),
    "a release with a value": (start(1) + lock(1) + [(1, RELEASE, MUTEX, 1, INHERIT, 0)],
                               "record 3: its field value isn't 0"),
    "an end of no wait": (start(1) + waited(1), "record 2: its thread doesn't wait"),
    "an end of a wait that has ended": (start(1) + waits(1) + waited(1) + waited(1), "record 4: its thread doesn't wait"),
    "an end of another's wait": (BOTH + waits(1) + waited(2), "record 4: its thread doesn't wait"),
    "an end of a wait for something else": (start(1) + waits(1) + waited(1, target=0x7040),
                                            "record 3: its wait 2 is for something else"),
    "an end of a wait of another kind": (start(1) + waits(1, READ) + waited(1, WRITE),
                                         "record 3: its wait 2 is for something else"),
    "an end of the wait before": (start(1) + waits(1) + waits(1, BARRIER) + waited(1),
                                  "record 4: its wait 3 is for something else"),
    "a wait that began later": (start(1) + waits(1) + waited(1, took=9),
                                "record 3: its call began at another time than wait 2"),
    "a wait with a value": (start(1) + [(1, WAITS, 0x7000, 1, 1, 0)], "record 2: its field value isn't 0"),
    "a wait with an error": (start(1) + [(1, WAITS, 0x7000, 0, 1, 4)], "record 2: its field how isn't 0"),
    "a gift with a value": (start(1) + [(1, GIVE, 0x7000, 1, 1, 0)], "record 2: its field value isn't 0"),
    "an end with an object": (start(1) + [(1, END, 1, 0, 0, 0)],
                              "record 2: its field object isn't 0"),
    "an exit with a detail": (start(1) + [(1, EXIT, 0, 0, 1, 0)],
                              "record 2: its field detail isn't 0"),
    "an exit with a call": (start(1) + [(1, EXIT, 0, 0, 0, 1)],
                            "record 2: its field how isn't 0"),
}
DETAILS = {"bit 3": 0x2C, "two protocols": 0x64, "a ceiling without PROTECT": 0x1124,
           "no kind": 0x20}


def verdict(data):
    """Returns what pim-log --check says of a log."""
    checker = reader.Checker(reader.Log(data))
    return checker.run() + checker.remarks


class Laws(Case):
    def test_laws_that_are_kept_and_broken(self):
        for name, rows in KEPT.items():
            self.equal(f"a law is kept: {name}", (verdict(log_of_three(rows)),), ([],))
        for name, (rows, wanted) in BROKEN.items():
            said = verdict(log_of_three(rows))
            self.equal(f"just one law is broken: {name}", (said,), ([wanted],))

    def told(self, name, row, wanted):
        """Checks that pim-log says this of the second record."""
        said = verdict(log_of_three(start(1) + [row]))
        self.check(name, None if f"record 2: {wanted}" in said else said or "nothing is said")

    def test_a_field_is_one_that_there_is(self):
        """A field of each event that has one is one of those that there are."""
        for event in (REQUEST, GRANTED, RELEASE, INIT, CEILING):
            for name, detail in DETAILS.items():
                self.told(f"event {event} has no detail with {name}",
                          (1, event, MUTEX, 0, detail, 0), f"a mutex has no detail {detail:#x}")
        for event in (THREAD, CREATE, PRIORITY):
            self.told(f"event {event} has no policy 4", (1, event, 1, 0, 4, 0),
                      "there is no policy 4")
        for event, calls in ((REQUEST, (5, 6)), (GRANTED, (5, 6)), (RELEASE, (1, 2, 3, 5, 6))):
            for how in (*calls, 6 | OWNER_DIED):
                self.told(f"event {event} has no call {how}", (1, event, MUTEX, 0, INHERIT, how),
                          f"there is no call {how}")
        for event, kinds in ((WAITS, (0, 6, 7)), (WAITED, (0, 6, 0x101)), (GIVE, (0, 3, 4, 5, 7))):
            for kind in kinds:
                self.told(f"event {event} has no kind {kind}", (1, event, 0x7000, 0, kind, 0), f"there is no kind {kind}")
        for kind, how in ((SEMAPHORE, 1), (READ, 1), (SIGNAL, 2)):
            self.told(f"nothing of kind {kind} is given to {how}", (1, GIVE, 0x7000, 0, kind, how),
                      f"nothing is given to {how}")
        for event in (EXEC_FAILED, DESTROY_FAILED, FAILED, RELEASE_FAILED):
            self.told(f"event {event} has an error", (1, event, 0, 0, 0, 0),
                      "it failed without an error")

    def test_earlier_versions_have_waits_for_mutexes_alone(self):
        """A log of an earlier version has no waits but those for mutexes."""
        for event in (WAITS, WAITED, GIVE):
            data = log_of_three(start(1) + [(1, event, 0x7000, 0, SEMAPHORE, 0)])
            struct.pack_into("<I", data, 8, 2)
            said = verdict(data)
            self.equal(f"version 2 has no event {event}", (said,), ([f"record 2: there is no event {event}"],))
        dropped = log_of_three(start(1) + waited(1))
        struct.pack_into("<QQ", dropped, 232, 1, 900)
        self.equal("a wait may have been dropped", (verdict(dropped),), ([],))

    def test_only_a_request_of_version_4_is_of_a_change_of_a_ceiling(self):
        for version, event, wanted in ((4, REQUEST, []), (3, REQUEST, ["there is no call 5"]), (4, GRANTED, ["there is no call 5"])):
            data = log_of(start(1) + [(1, event, MUTEX, 0, INHERIT, 5)], 1, places=[1])
            struct.pack_into("<I", data, 8, version)
            self.equal(f"event {event} of version {version} with call 5", (verdict(data),),
                       ([f"record 2: {why}" for why in wanted],))

    def test_a_child_owns_what_its_fork_owned(self):
        """A child owns what the thread of its fork owned, but for what is shared."""
        born = FORKED + [(2, CHILD, 3, 1, 0, 0)]
        freed = "the program unlocks mutex 0x5000, which its thread doesn't own"
        twice = start(1) + lock(1, RECURSIVE) * 2 + FORKED + [(2, CHILD, 4, 1, 0, 0)]
        others = start(1, 3) + lock(3) + FORKED + [(2, CHILD, 4, 1, 0, 0)]
        cases = {
            "its own": (start(1) + lock(1) + born + unlock(2) + unlock(1), []),
            "twice locked": (twice + unlock(2, RECURSIVE) * 2, []),
            "shared": (start(1) + lock(1, SHARED) + born + unlock(2, SHARED), [f"record 6: {freed}"]),
            "another thread's": (others + unlock(2), [f"record 7: {freed}"]),
            "of another parent": (start(1) + lock(1) + FORKED + [(2, CHILD, 3, 3, 0, 0)],
                                  ["record 5: there is no such fork"]),
        }
        for name, (rows, wanted) in cases.items():
            said = verdict(log_of_three(rows, processes={2: 200}))
            self.equal(f"a child and a mutex, {name}", (said,), (wanted,))

    def test_numbers_and_times(self):
        """Numbers may be missing of each thread that was killed, times may be the same, and the chunks
        of a thread name one."""
        said = [verdict(log_of_three(start(1, 2, 3), missing=count)) for count in (3, 4)]
        self.check("a number may be missing for each thread",
                   difference(said, ([], ["4 numbers are missing"])))
        said = verdict(log_of_three(start(1, 2), missing=-1))
        self.check("a number is below the next",
                   difference((said,), (["record 2: its number isn't below 2"],)))
        lost = log_of_three(start(1, 2), missing=5)
        struct.pack_into("<QQ", lost, 208, 6, 2)
        self.check("numbers behind the first lost one may be missing",
                   difference((verdict(lost),), ([],)))
        same = log_of_three(start(1) + lock(1))
        struct.pack_into("<Q", same, 4096 + 64 + 8, 1010)
        self.equal("two records of a thread have a time", (verdict(same),), ([],))
        for at, value, wanted in ((8, 100, []), (8, 101, ["thread 1: its chunks name several"]),
                                  (12, 101, ["thread 1: its chunks name several"])):
            data = log_of_three(start(1) + [(2, EXIT, 0, 0, 0, 0)])
            struct.pack_into("<8sIIIIQ", data, 4096 + 16384, b"pimChunk", 100, 100, 1, 1, 0)
            struct.pack_into("<I", data, 4096 + 16384 + at, value)
            said = verdict(data)
            self.equal(f"two chunks of a thread, {at} is {value}", (said,), (wanted,))

    def test_check_counts_what_is_broken(self):
        """pim-log --check says how many there are, and its status whether a law is broken."""
        cut, posix = BROKEN["a text that is cut"], BROKEN["an unlock by another"]
        cases = {"keeps the laws": (KEPT["a wait"], 0,
                                    ["0 faults in 6 records of 1 threads and 1 mutexes"]),
                 "breaks one": (cut[0], 1,
                                [cut[1], "1 faults in 3 records of 1 threads and 1 mutexes"]),
                 "does what POSIX doesn't define":
                     (posix[0], 0, [posix[1], "0 faults in 5 records of 2 threads and 1 mutexes"]),
                 "has a text": (start(1) + [(1, NAME, 0, 2, 0, 0), (1, TEXT, 0, 0, 0, 2)], 0,
                                ["0 faults in 2 records of 1 threads and 0 mutexes"]),
                 "was full": (BOTH, 0, ["0 faults in 1 records of 1 threads and 0 mutexes",
                                        "the log was full: 1 records are missing, from 2 on"])}
        for name, (rows, *wanted) in cases.items():
            with tempfile.TemporaryDirectory() as folder:
                path, data = pathlib.Path(folder, "run"), log_of_three(rows)
                struct.pack_into("<QQ", data, 208, *((1, 2) if name == "was full" else (0, 0)))
                path.write_bytes(data)
                status, out, _ = answer([str(ROOT / "record/pim-log"), "--check", str(path)])
            got = status, out.decode().splitlines()
            self.equal(f"pim-log --check of a log that {name}", got, wanted)
