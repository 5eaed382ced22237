"""Findings of deadlocks, opposite orders, waits for what isn't a mutex, and what the kernel ran."""
from finding import TOLERANCE, Finding, distinct
from gates import Gates
from rows_text import FAILED, TIMED_OUT
from words import moment

# What ends a wait for an object of a kind, as it was done and as it is done.
GIVES = {"semaphore": ("posted it", "posts"), "rwlock": ("unlocked it", "unlocks"),
         "barrier": ("came to it", "comes to the barrier"), "thread": ("ended", "ends"),
         "condition": ("signalled it", "signals"), "futex": ("woke it", "wakes it")}


class OtherFindings:
    def __init__(self, recording, dead_waits):
        self.recording, self.facts, self.names = recording, recording.facts, recording.names
        self.rows, self.dead_waits = recording.rows, dead_waits

    def findings(self):
        yield from self.deadlocks()
        yield from self.orders()
        yield from self.others()
        yield from self.ran()

    # ---- deadlocks and orders

    def deadlocks(self):
        last = self.recording.all_rows.open_waits()
        for cycle in self.rows.deadlocks:
            waits = [last[thread] for thread in cycle]
            mutexes, since = [wait.mutex for wait in waits], max(wait.begin for wait in waits)
            is_alone, ending = len(cycle) == 1, self.rows.ended - since
            owners = [*cycle[1:], cycle[0]]
            yield Finding(
                kind="deadlock", who=[(wait.thread, wait.level) for wait in waits],
                by=[(owner, last[owner].level) for owner in owners],
                what=self.names.mutexes(mutexes), mutexes=mutexes, waits=waits, times=1,
                protocol=self.facts.mutexes[mutexes[0]].protocol,
                where=self.recording.where(waits[-1].line),
                taken=self.recording.where(waits[-1].taken),
                since=since, worst=ending, total=ending, lasted=ending,
                lines=[*map(self.dead_line, waits, owners), *self.behind(waits)],
                why=("it waits for a mutex of its own, which isn't recursive" if is_alone
                     else "each waits for a mutex that the next one owns; no protocol prevents it"),
                advice=("don't lock it again, or make it recursive" if is_alone
                        else f"lock {self.names.mutexes(mutexes)} in one order everywhere"))

    def dead_line(self, wait, owner):
        """Says for which mutex a thread of a deadlock waits, and who owns it."""
        taken = self.recording.where(wait.taken) if owner == wait.owner else ""
        return (f"{self.names.at(wait.thread, wait.level)} waits for"
                f" {self.names.mutex(wait.mutex)}{self.recording.at_place(wait.line)}, owned by"
                f" {self.names.thread(owner)}" + (f", taken at {taken}" if taken else ""))

    def behind(self, waits):
        """Says who else waits for the threads of the only deadlock."""
        others = [(wait.thread, wait.level) for wait in self.dead_waits.values()
                  if wait not in waits]
        if not others or len(self.recording.all_rows.deadlocks) > 1:
            return []
        verb, whom = "waits" if len(others) == 1 else "wait", "it" if len(waits) == 1 else "them"
        return [f"{self.names.threads(others)} {verb} for {whom}"]

    def orders(self):
        """Two mutexes for which two threads asked in opposite orders: they can deadlock, unless
        both owned a third one each time."""
        pairs = {}
        for nest in self.rows.nests:
            pairs.setdefault((nest.outer, nest.inner), []).append(nest)
        last = self.recording.all_rows.open_waits()
        dead = [{last[thread].mutex for thread in cycle}
                for cycle in self.recording.all_rows.deadlocks]
        opposite = {pair for pair in pairs if pair[::-1] in pairs}
        gates = Gates(self.facts, opposite) if opposite else None
        for outer, inner in filter(opposite.__contains__, pairs):
            ones, others = pairs[outer, inner], pairs[inner, outer]
            both = next(((one, other) for one in ones for other in others
                         if one.thread != other.thread and not gates.are_apart(one, other)), None)
            if both and outer < inner and {outer, inner} not in dead:
                yield self.order(both, [*ones, *others])

    def order(self, both, nests):
        names, mutexes = self.names, [both[0].outer, both[0].inner]
        lines = [f"{names.thread(nest.thread)} took {names.mutex(nest.outer)}"
                 f"{self.recording.at_place(nest.taken)}, then asked for {names.mutex(nest.inner)}"
                 f"{self.recording.at_place(nest.line)}" for nest in both]
        spots = []
        for nest in both:
            begin, end = self.facts.time(nest.taken), self.facts.time(nest.line)
            spots.append((nest.thread, begin, max(0, end - begin)))
        what = names.mutexes(mutexes)
        return Finding(
            kind="orders", mutexes=mutexes, what=what, lines=lines, why="; ".join(lines),
            who=distinct((nest.thread, self.facts.level(nest.thread, nest.line)) for nest in nests),
            protocol=self.facts.mutexes[mutexes[0]].protocol, since=spots[0][1],
            where=self.recording.where(both[0].line), taken=self.recording.where(both[1].line),
            times=sum(nest.count for nest in nests), spots=spots,
            advice=f"lock {what} in one order everywhere")

    # ---- other waits

    def others(self):
        """Waits for what isn't a mutex, of real-time threads, or of all if none is one."""
        groups, is_real_time = {}, self.has_real_time()
        for wait in self.rows.blocked:
            if wait.level or not is_real_time:
                where = self.facts.place(wait.line) or self.names.stems[wait.thread]
                groups.setdefault((where, self.names.object(wait.object)), []).append(wait)
        for (_, what), group in groups.items():
            kind = self.facts.objects[group[0].object].kind
            by_lower = [wait for wait in group if wait.by and wait.by_level < wait.level]
            # A thread that waits for the end of another one has no deadline meanwhile.
            look = by_lower if kind != "thread" else []
            lines = {wait.line for wait in look}
            others = [wait for wait in group if wait.line not in lines]
            for part, is_look in ((look, True), (others, False)):
                if part:
                    yield self.other(sorted(part, key=lambda wait: -wait.lasted), what, is_look)

    def has_real_time(self):
        """Returns whether a thread that waited, or owned a mutex, was a real-time one then."""
        rows = self.recording.all_rows
        return any(one.level for one in (*rows.blocked, *rows.waits, *rows.sections))

    def other(self, group, what, is_look):
        worst, does = group[0], GIVES[self.facts.objects[group[0].object].kind][1]
        by = self.names.thread(worst.by) if is_look else ""
        return Finding(
            kind="look" if is_look else "other", what=what, waits=group, times=len(group),
            who=distinct((wait.thread, wait.level) for wait in group),
            by=distinct((wait.by, wait.by_level) for wait in group if wait.by),
            where=self.recording.where(worst.line), callers=self.recording.callers(worst.line),
            taken=self.recording.where(worst.until) if worst.by else "", since=worst.begin,
            worst=worst.lasted, total=sum(wait.lasted for wait in group), lasted=worst.lasted,
            why=self.ending(worst) + "; nothing passes a priority on here" * is_look,
            advice=(f"keep short what {by} does before it {does}, or run it at {worst.level}"
                    " meanwhile") * is_look)

    def ending(self, wait):
        """Says how a wait for an object ended."""
        if not wait.until:
            return "it lasts to the end"
        if wait.by:
            return f"{self.names.at(wait.by, wait.by_level)} {self.gave(wait)}"
        return {TIMED_OUT: "its time was over", FAILED: "it failed"}.get(wait.ended, "")

    def gave(self, wait):
        return GIVES[self.facts.objects[wait.object].kind][0]

    # ---- the kernel

    def ran(self):
        """Threads that the kernel ran at another level than they get, for longer than tolerated."""
        groups = {}
        for ran in self.rows.ran:
            if ran.lasted > TOLERANCE:
                groups.setdefault((ran.thread, ran.gets > ran.level), []).append(ran)
        for (thread, _), group in groups.items():
            group.sort(key=lambda ran: -ran.lasted)
            worst = group[0]
            yield Finding(
                kind="ran", who=[(thread, worst.gets)], times=len(group), worst=worst.lasted,
                total=sum(ran.lasted for ran in group), since=worst.begin, lasted=worst.lasted,
                waits=group, why=f"the kernel ran it at {worst.level}, from {moment(worst.begin)}"
                f" on; by its mutexes it gets {worst.gets}")
