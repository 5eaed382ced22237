"""Several logs as one, as record/facts/join.c makes it: a second implementation for tests/record/plain_facts_of_log.py.

A process is the pair of the log's place among the others and the kernel's number. A place is such a pair, too.
"""
from tests.record.logs import reader

MOST_PLACE = 65535


def part_of(process):
    """Returns of which of several logs a process is."""
    return process[0] if isinstance(process, tuple) else 0


class Joined:
    """The records of several logs, each a reader.Log, in the order of the clocks of these."""

    def __init__(self, logs):
        self.logs, self.threads, self.executed, self.first_place = logs, {}, {}, []
        used = 0
        for log in logs:
            self.first_place.append(used)
            used += max((number for number, address in enumerate(log.places, 1) if address), default=0)
        self.unplaced = 0
        self.records = [self.renumbered(number, *one) for number, one in enumerate(self.in_order(), 1)]
        self.missing = sum(log.missing for log in logs)
        self.head = self.sum_of([log.head for log in logs])

    def in_order(self):
        """Returns the records, each with the place of its log. A log's clock is the latest time so far."""
        keys = []
        for part, log in enumerate(self.logs):
            clock = log.head.began
            for at, record in enumerate(log.records):
                clock = max(clock, record.time)
                keys.append((clock, part, at))
        return [(part, self.logs[part].records[at]) for _, part, at in sorted(keys)]

    def thread_of(self, part, chunk):
        """Returns the number of a thread: that of the one which became its program, in an earlier log."""
        key = part, chunk.thread
        if key not in self.threads:
            number = len(set(self.threads.values())) + 1
            is_first = chunk.task == chunk.process
            self.threads[key] = self.executed.get(chunk.process, number) if is_first else number
        return self.threads[key]

    def renumbered(self, number, part, record):
        chunk, place, value = record.chunk, record.place, record.value
        thread = self.thread_of(part, chunk)
        if chunk.task == chunk.process:
            self.executed.pop(chunk.process, None)
            if record.event == reader.EXEC:
                self.executed[chunk.process] = thread
        if record.event == reader.CHILD:
            value = self.threads.get((part, value), 0)
        if place and place <= len(self.logs[part].places):
            has_room = self.first_place[part] + place <= MOST_PLACE
            self.unplaced += bool(not has_room and any(self.logs[part].places[place - 1:]))
            place = (part, place) if has_room else None
        else:
            place = (part, place) if place else None
        chunk = chunk._replace(process=(part, chunk.process), thread=thread)
        return record._replace(number=number, chunk=chunk, place=place, value=value)

    def place_of(self, record):
        """Returns the address of a record's place, or None."""
        if not record.place:
            return None
        part, number = record.place
        return self.logs[part].place_of(record._replace(place=number))

    def sum_of(self, heads):
        known = heads[0].known
        for head in heads:
            known &= head.known
        sums = {name: sum(getattr(head, name) for head in heads) for name in ("left_out", "dropped", "unplaced")}
        sums["unplaced"] += self.unplaced
        return heads[0]._replace(known=known, first_lost=min(self.missing, 1), **sums)


def are_alike(head, first):
    """Returns whether a log can be joined to the first one: it is of its version, which isn't 1."""
    return head.version == first.version > 1
