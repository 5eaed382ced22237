"""Logs by hand of which the report must say whose a mutex was: what a REQUEST names, where its
record may come before the GRANTED of the owner, and calls that lasted for longer than a record can
say.
"""
import pathlib

from tests.cases import Case
from tests.record.logs import setUpModule
from tests.shared.checks import difference
from tests.record.test_laws import (CHILD, CONDITION, FORK, GRANTED, INHERIT, INIT, MUTEX, RELEASE,
                                    REQUEST, SATURATED, SHARED, THREAD, WAIT, log_of_three)
from tests.record.test_report import Report

NONE, OTHER, FIFO_10, FIFO_40, FIFO_80 = 4, 0, 0x0A01, 0x2801, 0x5001
HIGH, LOW, MIDDLE = 1, 2, 3  # tasks 100, 101, 102
SECOND = 1_000_000_000
UNKNOWN, NOBODY = 2**32 - 2, 0  # an owner that the log doesn't know; the mutex is free as the wait begins


def begin(thread, detail):
    return [(thread, THREAD, thread, 0, detail, 0)]


def granted(thread, took=1, how=0, detail=NONE):
    return [(thread, GRANTED, MUTEX, took, detail, how)]


def released(thread, how=0, detail=NONE):
    return [(thread, RELEASE, MUTEX, 0, detail, how)]


def once(thread, detail=NONE):
    return granted(thread, detail=detail) + released(thread, detail=detail)


def asks(names, detail=NONE):
    """High asks for the mutex of the task that it names, or 0, and gets it 10 ns later for each record between."""
    return [(HIGH, REQUEST, MUTEX, names, detail, 0)]


def relocked(thread):
    """The wait of a thread at a condition variable has returned, and it waits there again."""
    return granted(thread, 0, WAIT) + [(thread, CONDITION, 0x6000, 0, 0, 0)] + released(thread, WAIT)


BOTH = begin(HIGH, FIFO_80) + begin(LOW, FIFO_10)
ALL = BOTH + begin(MIDDLE, FIFO_40)
# The waits of high, at 80, in each log by hand: how many ns, of whom, at which level, and whether they were inverted.
OWNERS = {
    "an owner that has its GRANTED behind the REQUEST":
        (BOTH + once(HIGH) + asks(101) + relocked(LOW) + once(HIGH), [(40, 101, 10, True)]),
    "an owner whose first record, and whose call, is behind the REQUEST":
        (begin(HIGH, FIFO_80) + once(HIGH) + asks(101) + begin(LOW, FIFO_10) + once(LOW) + once(HIGH),
         [(40, NOBODY, 0, True)]),
    "an owner that hasn't written who it is yet, and whose call began behind the REQUEST":
        (BOTH + once(HIGH) + asks(0) + once(LOW) + once(HIGH), [(30, NOBODY, 0, True)]),
    "an owner that hasn't written who it is yet, whose call had begun":
        (ALL + once(LOW) + asks(0) + granted(MIDDLE, took=15) + released(MIDDLE) + once(HIGH),
         [(30, 102, 40, True)]),
    "an owner that had released the mutex, which a third thread steals":
        (ALL + once(LOW) + asks(0) + once(MIDDLE) + once(HIGH), [(30, NOBODY, 0, True)]),
    "an owner of the log, where the REQUEST names none":
        (ALL + once(LOW) + granted(MIDDLE) + asks(0) + released(MIDDLE) + once(LOW) + once(HIGH),
         [(40, 102, 40, True)]),
    "an owner that had released the mutex, and none is named":
        (BOTH + once(LOW) + asks(0) + once(HIGH), [(10, NOBODY, 0, False)]),
    "an owner of the log, where the REQUEST names another":
        (ALL + once(LOW) + granted(MIDDLE) + asks(101) + released(MIDDLE) + once(HIGH),
         [(20, 102, 40, True)]),
    "no thread but the one that waits":
        (begin(HIGH, FIFO_80) + once(HIGH) + asks(0) + once(HIGH), [(10, UNKNOWN, 0, True)]),
    "a thread that isn't in the log":
        (begin(HIGH, FIFO_80) + once(HIGH, SHARED) + asks(999, SHARED) + once(HIGH, SHARED),
         [(10, UNKNOWN, 0, False)]),
    "no thread but the one that waits, of an INHERIT mutex":
        (begin(HIGH, FIFO_80) + once(HIGH, INHERIT) + asks(0, INHERIT) + once(HIGH, INHERIT),
         [(10, UNKNOWN, 0, False)]),
    "no thread but the one that waits, at SCHED_OTHER":
        (begin(HIGH, OTHER) + once(HIGH) + asks(0) + once(HIGH), [(10, UNKNOWN, 0, False)]),
}
# Calls of high that took longer than a record can say: the records, their times in seconds, and the waits of high. The
# last record but one is the GRANTED of that call, so that it began before 10 - 4.294967295 s.
LONG = {
    "a call of ten seconds that found the mutex free":
        (BOTH + granted(LOW) + released(LOW), (1, 1, 1, 9.5), [(9_000_000_000, 101, 10, True)]),
    "a long call for a mutex that had been free since":
        (BOTH + once(LOW), (1, 1, 1, 2), []),
    "a long call, and an owner since it began":
        (ALL + once(LOW) + once(MIDDLE), (1, 1, 1, 1, 2, 6, 9),
         [(4_000_000_000, 102, 40, True)]),
    "a long call behind a record of its thread":
        (BOTH + granted(LOW) + [(HIGH, INIT, 0x7000, 0, NONE, 0)] + released(LOW), (1, 1, 1, 2, 9.5),
         [(8_000_000_000, 101, 10, True)]),
}


def waits(found):
    """Returns how long each wait was, of whom, at which level, and whether it was inverted."""
    return [(wait["lasted"], wait["owner"], wait["owner_level"], wait["inverted"] > 0) for wait in found.found["waits"]]


def once_long():
    return granted(HIGH, SATURATED) + released(HIGH)


class Owners(Case):
    def tell(self, folder, name, data, wanted):
        """Checks the waits that are found in a log."""
        log = pathlib.Path(folder, "hand")
        log.write_bytes(data)
        found = Report(log)
        self.check(f"whose a mutex was: {name}", found.fault() or difference(waits(found), wanted))

    def forked(self, folder):
        """A child's copy of a mutex names the thread of its parent, which isn't the owner."""
        rows = begin(LOW, FIFO_10) + granted(LOW) + [(LOW, FORK, 0, 0, 0, 0)] + begin(HIGH, FIFO_80) \
            + [(HIGH, CHILD, 3, LOW, 0, 0)] + asks(101) + once(HIGH)
        self.tell(folder, "a child's copy of its parent's", log_of_three(rows, processes={1: 200}), [(10, UNKNOWN, 0, True)])

    def test_whose_a_mutex_was(self):
        for name, (rows, wanted) in OWNERS.items():
            self.tell(self.folder, name, log_of_three(rows), wanted)
        for name, (rows, seconds, wanted) in LONG.items():
            times = [int(second * SECOND) for second in (*seconds, 10, 11)]
            self.tell(self.folder, name, log_of_three(rows + once_long(), times=times), wanted)
        self.forked(self.folder)
