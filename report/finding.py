"""A finding: what is said of similar waits, or of a deadlock, in each form of the report."""
from dataclasses import dataclass, field

# The kinds, the most urgent first, and what each is called.
KINDS = {
    "deadlock": "deadlock",
    "late": "held up",
    "ran": "ran at another level",
    "gave-up": "gave up",
    "stalled": "worth a look",
    "look": "worth a look",
    "orders": "can deadlock",
    "bounded": "bounded",
    "wait": "plain wait",
    "other": "other wait",
}
BAD = "deadlock", "late", "ran"          # they make the status 1
LOOK = "gave-up", "stalled", "look", "orders"
TOLERANCE = 50_000  # nanoseconds for which the kernel may run a thread at another level


@dataclass
class Finding:
    kind: str
    who: list = field(default_factory=list)        # (thread, level), the worst first
    by: list = field(default_factory=list)         # (thread, level) of those it waited for
    what: str = ""                                 # the mutex or object, in words
    protocol: str = ""
    where: str = ""                                # the place of the worst wait
    callers: list = field(default_factory=list)
    taken: str = ""                                # where the owner took it, or ended the wait
    times: int = 0
    worst: int = 0
    total: int = 0
    since: int = 0                                 # when the worst one began
    lasted: int = 0                                # how long that took in all
    why: str = ""
    advice: str = ""
    meanwhile: list = field(default_factory=list)  # (thread, level, time) of the worst one
    lines: list = field(default_factory=list)      # further sentences
    waits: list = field(default_factory=list)      # rows, the worst first
    mutexes: list = field(default_factory=list)
    spots: list = field(default_factory=list)      # (thread, from, lasted), if no waits say where


def distinct(pairs):
    """Returns threads with levels, each thread once, with its highest level."""
    found = {}
    for thread, level in pairs:
        found[thread] = max(level, found.get(thread, 0))
    return list(found.items())


def first_of(pairs):
    """Returns threads with levels, each thread once, with its first level."""
    found = {}
    for thread, level in pairs:
        found.setdefault(thread, level)
    return list(found.items())


def similar(recording, waits, blamed_of, size_of):
    """Returns groups of waits for mutexes, in each the worst first.

    Waits are similar at one place, or without a place by threads whose names differ in a number;
    for mutexes that come from one place; and if what is to blame comes from one place.
    """
    groups, facts = {}, recording.facts

    origins = {mutex.number: (mutex.protocol, mutex.place or mutex.number)
               for mutex in facts.mutexes.values()}
    for wait in waits:
        where = facts.place(wait.line) or recording.names.stems[wait.thread]
        key = where, origins[wait.mutex], origins.get(blamed_of(wait))
        groups.setdefault(key, []).append(wait)
    return [sorted(group, key=size_of, reverse=True) for group in groups.values()]


class MutexFinding:
    """A finding of similar waits for mutexes. Its words are found once one of them is read: there
    may be thousands of findings, of which the text has ten of each kind."""
    WORDS = ("by", "what", "mutexes", "protocol", "where", "callers", "taken", "why", "advice",
             "meanwhile", "lines")
    spots = ()

    def __init__(self, recording, kind, group, size_of, details, advise=None):
        worst = group[0]
        self.recording, self.kind, self.waits = recording, kind, group
        self.details, self.advise = details, advise
        self.who = distinct((wait.thread, recording.level_of(wait)) for wait in group)
        self.times, self.worst, self.total = len(group), size_of(worst), sum(map(size_of, group))
        self.since, self.lasted = worst.begin, worst.lasted

    def __getattr__(self, name):
        if name not in self.WORDS:
            raise AttributeError(name)
        if name == "advice" and self.advise:  # the first sentences need that of all
            self.advice = self.advise(self.waits)
            return self.advice
        recording, worst = self.recording, self.waits[0]
        self.by = distinct((one.owner, one.owner_level) for one in self.waits if one.owner)
        self.mutexes = list(dict.fromkeys(wait.mutex for wait in self.waits))
        self.what = recording.names.mutexes(self.mutexes)
        self.protocol = recording.facts.mutexes[worst.mutex].protocol
        self.where, self.callers = recording.where(worst.line), recording.callers(worst.line)
        self.taken = recording.where(worst.taken)
        self.why, self.meanwhile, self.lines = "", [], []
        self.advice = self.advise(self.waits) if self.advise else ""
        self.details(self)
        return self.__dict__[name]


def findings_of(recording, kind, waits, size_of, details, blamed_of=lambda wait: 0, advise=None):
    """Yields the findings of similar waits. `details` puts why it is so, and what to do, unless
    `advise` says that of the waits."""
    for group in similar(recording, waits, blamed_of, size_of):
        yield MutexFinding(recording, kind, group, size_of, details, advise)
