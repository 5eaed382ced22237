"""Logs of random programs, some of them damaged. The same seed gives the same log. Those of odd
seeds have places: of seeds 1, 5, 9 .. in version 2, of 3, 7, 11 .. in version 4."""
import random

from tests.record.random_program import FIRST_TASK, PROCESS, Program
from tests.record.logs import log_of, number_by_time, reader, share

ALL_KNOWN, KINDS, OWNERS = 7, 1, 4  # what the recorder may know of mutexes
VALUE, DETAIL = 3, 4        # the fields of a row that damages change
PLACES = [0x401000 + 16 * number for number in range(40)]


# ---- damages: they change a list of rows, each with its time

def drop(choose, records):
    records[choose.randrange(len(records))] = None, 0


def swap(choose, records):
    """Two records of different threads have each other's numbers."""
    at = choose.randrange(len(records) - 1)
    (one, _), (other, _) = records[at:at + 2]
    if one and other and one[0] != other[0]:
        records[at:at + 2] = records[at + 1], records[at]


def rename(choose, records):
    """A REQUEST names another owner, or none."""
    change(choose, records, reader.REQUEST, (0, FIRST_TASK, FIRST_TASK + 1))


def lengthen(choose, records):
    """A call took another time, or longer than a record can say."""
    change(choose, records, reader.GRANTED, (reader.SATURATED, 0, 50, 5000))


def change(choose, records, event, values):
    """The value of a record of this event is another."""
    places = [at for at, (row, _) in enumerate(records) if row and row[1] == event]
    if places:
        at = choose.choice(places)
        row, time = records[at]
        records[at] = (*row[:VALUE], choose.choice(values), *row[VALUE + 1:]), time


DAMAGES = (drop, drop, swap, swap, rename, lengthen)


def without_kinds(choose, records, header):
    """The recorder knew no kinds of mutexes: only INIT and CEILING have one."""
    header["known"] &= ~KINDS
    for at, (row, time) in enumerate(records):
        if row[1] in (reader.REQUEST, reader.GRANTED, reader.RELEASE):
            records[at] = (*row[:DETAIL], 0, *row[DETAIL + 1:]), time


def full(choose, records, header):
    """The log had no room for a record: that one and those behind it don't count."""
    header["first"], header["lost"] = choose.randint(1, len(records)), 1


VARIANTS = (without_kinds, full)


def placed(row, number):
    """Returns a row whose call has the number of a place, or none if that is 0."""
    if row is None or row[1] not in reader.WITH_PLACE:
        return row
    thread, event, target, *rest = row
    return (thread, event, target | number << reader.PLACE_SHIFT, *rest)


class RandomLog:
    """The log of the random program with a seed."""

    def __init__(self, seed):
        program, self.seed = Program(seed), seed
        program.run()
        choose, self.records, self.threads = program.choose, program.records, program.threads
        self.header = {"known": ALL_KNOWN if program.names_owners else ALL_KNOWN & ~OWNERS}
        if self.records and choose.random() < 0.1:
            choose.choice(VARIANTS)(choose, self.records, self.header)
        is_damaged = len(self.records) > 1 and choose.random() < 0.3
        for _ in range(choose.randint(1, 4) if is_damaged else 0):
            choose.choice(DAMAGES)(choose, self.records)

    def data(self):
        """Returns the log's bytes."""
        header = dict(self.header)
        rows, times = [row for row, _ in self.records], [time for _, time in self.records]
        if self.seed % 2:
            rows = [placed(row, (at + self.seed) % (len(PLACES) + 1)) for at, row in enumerate(rows)]
            header.update(places=PLACES)
        tasks = {thread.number: thread.task for thread in self.threads}
        processes = {thread.number: thread.process for thread in self.threads}
        data = log_of(rows, len(self.threads), times, tasks, processes, process=PROCESS, **header)
        if self.seed % 4 == 3:
            choose, count = random.Random(self.seed), len(self.threads)
            share(data, [(choose.randrange(1, thread), thread) for thread in range(2, count + 1) if choose.random() < 0.5])
        if self.seed % 8 == 3:
            number_by_time(data)
        return bytes(data)
