"""Where the waits for what isn't a mutex begin and end in a log, and what ended each, for plain_facts_of_log.py. It looks
through all records for each wait."""
from tests.record.logs import reader

TIMED_OUT = 110  # ETIMEDOUT
GIVEN, FAILED = "given", "failed"
KINDS = {1: "semaphore", 2: "read lock", 3: "write lock", 4: "barrier", 5: "thread", 6: "condition variable"}
LOCKS = "read lock", "write lock"


def kind_of(record):
    """Returns what a record of a wait or a gift is of, or None."""
    return KINDS[6] if record.event == reader.CONDITION else KINDS.get(record.detail)


def same_kind(one, other):
    return one == other or one in LOCKS and other in LOCKS


class Waits:
    """The records of a log in order, and what is asked of them."""

    def __init__(self, records):
        self.records = [record for record in records if record.event != reader.TEXT]

    def end_of(self, begin, kind):
        """Returns the place of the record that ends a wait, and how it ended: None, GIVEN .. The place is None if it
        lasts at the end. Returns None if it never began, or if another takes its place."""
        at_condition = kind == KINDS[6]
        for at in range(begin + 1, len(self.records)):
            record = self.records[at]
            if record.chunk.thread != self.records[begin].chunk.thread:
                continue
            if record.event == reader.WAITED:
                return at, {0: GIVEN, TIMED_OUT: "timed out"}.get(record.how, FAILED)
            if record.event == reader.EXIT or (record.event == reader.FAILED and at_condition):
                return at, FAILED
            is_relock = record.event == reader.GRANTED and record.how & 127 == reader.CALL_CONDITION
            if is_relock and at_condition:
                return at, GIVEN
            is_refused = record.event == reader.RELEASE_FAILED and at_condition
            if is_refused or record.event in (reader.WAIT, reader.CONDITION):
                return None
        return None, None

    def gives(self, record, begin, kind):
        """Returns whether a record is a gift of what a wait is for, by another thread."""
        wait = self.records[begin]
        if record.chunk.thread == wait.chunk.thread:
            return False
        if (record.chunk.process, record.object) != (wait.chunk.process, wait.object):
            return False
        if record.event == reader.THREAD:
            return kind == KINDS[5]
        is_gift = record.event == reader.GIVE or (record.event == reader.WAIT and kind_of(record) == KINDS[4])
        return is_gift and same_kind(kind_of(record), kind)

    def ender(self, begin, end, kind):
        """Returns the place of the gift that ended a wait, or None."""
        first = 0 if kind == KINDS[5] else begin + 1
        places = [at for at in range(first, end) if self.gives(self.records[at], begin, kind)]
        return places[-1] if places else None
