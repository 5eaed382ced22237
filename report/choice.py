"""What of a recording is shown: by threads, by mutexes, and from a time on."""
from program import Fault
from rows_text import Rows


class Unknown(Fault):
    """A name that no thread, or no mutex and no object, has."""


class Choice:
    """The names, as the options have them, or None, and a time in nanoseconds."""

    def __init__(self, recording, thread=None, mutex=None, since=0):
        self.facts, names, self.since = recording.facts, recording.names, since
        self.thread, self.mutex = thread, mutex
        self.threads = thread and self.numbers(self.facts.threads, names.thread, thread)
        self.mutexes = mutex and self.numbers(self.facts.mutexes, names.mutex, mutex)
        self.objects = mutex and self.numbers(self.facts.objects, names.object, mutex)
        if thread and not self.threads:
            raise Unknown(f"there is no thread {thread}")
        if mutex and not (self.mutexes or self.objects):
            raise Unknown(f"there is no mutex or other object {mutex}")

    @staticmethod
    def numbers(known, name_of, wanted):
        """Returns the numbers of what has a name, or is shown as it, or has this number."""
        return {number for number, one in known.items()
                if wanted in (one.name, name_of(number), str(number))}

    @property
    def is_all(self):
        return not (self.thread or self.mutex or self.since)

    def has_thread(self, *threads):
        return not self.thread or not self.threads.isdisjoint(threads)

    def has_mutex(self, *mutexes):
        return not self.mutex or not self.mutexes.isdisjoint(mutexes)

    def of(self, rows):
        """Returns the rows that are chosen."""
        chosen = Rows()
        chosen.lines, chosen.ended = rows.lines, rows.ended
        chosen.waits = [one for one in rows.waits if self.has_wait(one)]
        chosen.blocked = [one for one in rows.blocked if self.has_blocked(one)]
        chosen.ran = [one for one in rows.ran if one.begin + one.lasted >= self.since
                      and self.has_thread(one.thread) and not self.mutex]
        chosen.sections = [one for one in rows.sections if self.has_thread(one.thread)
                           and self.has_mutex(one.mutex) and not self.since]
        pairs = {frozenset((one.outer, one.inner)) for one in rows.nests if self.has_nest(one)}
        chosen.nests = [one for one in rows.nests if frozenset((one.outer, one.inner)) in pairs]
        waits = rows.open_waits()
        chosen.deadlocks = [cycle for cycle in rows.deadlocks if self.has_thread(*cycle)
                            and self.has_mutex(*(waits[thread].mutex for thread in cycle))]
        return chosen

    def has_wait(self, wait):
        mutexes = wait.mutex, *(part.mutex for part in wait.parts)
        has_both = self.has_thread(*wait.threads) and self.has_mutex(*mutexes)
        return wait.end >= self.since and has_both

    def has_blocked(self, wait):
        is_object = not self.mutex or wait.object in self.objects
        return wait.end >= self.since and self.has_thread(wait.thread, wait.by) and is_object

    def has_nest(self, nest):
        is_later = self.facts.time(nest.line) >= self.since
        return is_later and self.has_thread(nest.thread) and self.has_mutex(nest.outer, nest.inner)

    def said(self):
        """Returns the choice in words, or an empty text."""
        parts = [f"thread {self.thread}" * bool(self.thread),
                 f"{self.mutex}" * bool(self.mutex),
                 f"what lasted at {self.since / 10**9:.6f} s or later" * bool(self.since)]
        parts = [part for part in parts if part]
        return f"Shown: only {' and '.join(parts)}." if parts else ""
