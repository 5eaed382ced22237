"""All that a report says of a recording, in words: each form of the report only lays it out.

No time is computed here but sums and maxima of rows.
"""
from bounds import Bounds
from finding import BAD, KINDS, LOOK
from mutex_waits import MutexWaits
from other_findings import OtherFindings
from words import count, date, duration, moment


class Findings:
    """The findings of a recording, in the order in which they are shown."""

    def __init__(self, recording):
        self.recording, self.facts, self.rows = recording, recording.facts, recording.rows
        self.names = recording.names
        waits = MutexWaits(recording)
        self.others = OtherFindings(recording, waits.dead)
        self.all = [*waits.findings(), *self.others.findings()]
        self.all.sort(key=lambda one: (-one.worst, -max(level for _, level in one.who)))
        self.of_kind = {kind: [] for kind in KINDS}
        for one in self.all:
            self.of_kind[one.kind].append(one)
        self.all = self.of(*KINDS)

    def of(self, *kinds):
        return [one for kind in kinds for one in self.of_kind[kind]]

    @property
    def lacks_much(self):
        """Returns whether so much is missing that nothing can be taken for good news."""
        return self.facts.missing_percent >= 1

    @property
    def status(self):
        return 1 if self.of(*BAD) or self.lacks_much else 0

    @property
    def state(self):
        """Returns how bad it is, in a word."""
        return "bad" if self.status else "look" if self.of(*LOOK) else "good"

    def size(self):
        """Returns what was recorded, in a line."""
        facts, rows, began = self.facts, self.recording.all_rows, self.recording.began
        since = f" from {date(began)} on" if began else ""
        return (f"{duration(rows.ended)}{since}, {count(len(facts.threads), 'thread')}, "
                f"{count(len(facts.mutexes), 'mutex', 'mutexes')}, {count(facts.count, 'fact')}, "
                f"{count(len(rows.waits), 'wait for a mutex', 'waits for mutexes')}")

    def owned(self):
        """Returns the longest section of each mutex that was waited for, the longest first."""
        waited, best = {wait.mutex for wait in self.rows.waits}, {}
        for section in self.rows.sections:
            had = best.get(section.mutex)
            if section.mutex in waited and (had is None or section.longest > had.longest):
                best[section.mutex] = section
        return sorted(best.values(), key=lambda section: -section.longest)

    def bounds(self):
        """Returns for how long lower threads can block each of the chosen threads."""
        choice = self.recording.choice
        if choice.mutex or choice.since:
            return []
        found = Bounds(self.facts, self.recording.all_rows).all()
        return [one for one in found if choice.has_thread(one.thread)]

    def unseen(self):
        """Returns what this report can't say, in sentences."""
        said = [f"The recorder couldn't see: {' '.join(words)}." for words in self.facts.unseen]
        if self.facts.lost:
            lost = self.facts.missing
            said.append(f"{count(lost, 'event')} {'was' if lost == 1 else 'were'} lost, from"
                        f" {moment(self.facts.lost[0].time)} on: what happened then isn't known.")
        if not self.facts.has_end:
            said.append("The recording has no end: its last time counts as the end.")
        if not self.facts.has_switches():
            said.append("Which threads had a CPU: the recording says nothing of it.")
        if not self.facts.objects:
            said.append("Waits for semaphores, condition variables and the like: the recording has"
                        " none.")
        if not self.facts.unseen:
            said.append("What the recorder can't see, as spin locks.")
        return said
