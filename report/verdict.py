"""The first sentences of a report: what matters, the worst of it, and what to do."""
from finding import LOOK
from words import count, duration, listed, moment, shares, upper_first, without_function


class Verdict:
    def __init__(self, findings):
        self.findings, self.names = findings, findings.names
        self.facts, self.recording = findings.facts, findings.recording

    def sentences(self):
        return [*self.of_loss(), *self.of_findings()]

    def of_loss(self):
        """Says first that much is missing, and what helps."""
        if not self.findings.lacks_much:
            return []
        return [f"{self.facts.missing_percent} % of the events are missing, from"
                f" {moment(self.facts.lost[0].time)} on: record with a greater --size, or with"
                " --last."]

    def of_findings(self):
        found = self.findings
        dead, late, ran = found.of("deadlock"), found.of("late"), found.of("ran")
        if dead:
            return self.of_deadlock(dead, late)
        if late:
            return self.of_late(late)
        if ran:
            return self.of_ran(ran)
        look = found.of(*LOOK)
        lines = self.of_calm(look)
        return [*lines, *(f"{upper_first(one.advice)}." for one in look[:1] if one.advice)]

    @staticmethod
    def short(place):
        """Returns ' at mix.c:17' of 'mix.c:17 (high)', or nothing."""
        return f" at {without_function(place)}" if place else ""

    def of_deadlock(self, dead, late):
        first = dead[0]
        who = self.names.threads(first.who, levels=False)
        waits = "waits for itself" if len(first.who) == 1 else "wait for each other"
        lines = [f"Deadlock: {who} {waits} since {moment(first.since)}."]
        if late:
            lines += self.of_late(late)[:1]
        else:
            said = [f"{self.names.thread(wait.thread)} {'waits ' * (not at)}for"
                    f" {self.names.mutex(wait.mutex)}{self.recording.at_place(wait.line, True)}"
                    for at, wait in enumerate(first.waits)]
            lines.append(f"{listed(said)}.")
        return [*lines, f"{upper_first(first.advice)}."]

    def of_ran(self, ran):
        worst = ran[0]
        thread, gets = worst.who[0]
        row = worst.waits[0]
        who = self.names.threads([one.who[0] for one in ran], levels=False)
        whose = "its mutexes give" if len(ran) == 1 else "their mutexes give"
        return [f"{who} ran at {self.which_level(ran)} level than {whose}.",
                f"Worst: {self.names.thread(thread)}, which gets {gets}, ran at {row.level} from"
                f" {moment(row.begin)} on for {duration(row.lasted)}.",
                "Look at the kernel: it gave another priority than the mutexes say."]

    @staticmethod
    def which_level(ran):
        found = {row.level < row.gets for one in ran for row in one.waits}
        return "another" if len(found) > 1 else "a lower" if True in found else "a higher"

    def waiter(self, wait):
        """Returns the thread that waited for a mutex, with its highest level meanwhile."""
        return self.names.at(wait.thread, self.recording.level_of(wait))

    def of_late(self, late):
        who = list(dict.fromkeys(thread for found in late for thread, _ in found.who))
        blamed = dict.fromkeys(part.mutex for found in late for wait in found.waits
                               for part in wait.parts)
        threads = self.names.thread(who[0]) if len(who) == 1 else count(len(who), "thread")
        lines = [f"{threads} ran late because of {self.blamed(blamed)}."]
        found = late[0]
        worst = found.waits[0]
        named = f" ({self.names.mutex(worst.mutex)})" if len(blamed) > 1 else ""
        part = worst.worst_part
        line = (f"Worst: {self.waiter(worst)} waited {duration(worst.lasted)}"
                f"{self.short(found.where)}{named} for {self.names.at(part.runner, part.gets)}")
        if found.meanwhile:
            parts = [(self.names.at(one.thread, one.level), one.time) for one in found.meanwhile]
            line += f", while {shares(parts, 1)}"
        return [*lines, f"{line}.", self.to_do(late, blamed)]

    def blamed(self, blamed):
        mutexes = self.names.mutexes(blamed)
        if mutexes.startswith(f"{len(blamed)} mutexes"):
            return mutexes
        if len(blamed) > 1:
            return f"{count(len(blamed), 'mutex', 'mutexes')}: {mutexes}"
        return mutexes if mutexes.startswith("mutex") else f"mutex {mutexes}"

    def to_do(self, late, blamed):
        """Returns what prevents all that was late, as far as it is one thing."""
        first = late[0].advice
        if len({one.advice for one in late}) == 1:
            return f"{upper_first(first)}."
        mutexes = [self.facts.mutexes[number] for number in blamed]
        is_none = all(mutex.protocol == "none" for mutex in mutexes)
        if is_none and len({mutex.place for mutex in mutexes}) == 1 and mutexes[0].place:
            origin = self.names.origin(mutexes[0].number)[1:]
            return f"Make the {len(mutexes)} mutexes{origin} PTHREAD_PRIO_INHERIT."
        if is_none and len(mutexes) <= 3:
            said = [self.names.mutex(mutex.number)
                    + (f" ({mutex.place.split('(')[0]})" if mutex.place else "")
                    for mutex in mutexes]
            return f"Make {listed(said)} PTHREAD_PRIO_INHERIT."
        more = len({one.advice for one in late}) - 1
        return f"{upper_first(first)}; the report has {more} more."

    # ---- nothing bad

    def of_calm(self, look):
        waits = self.recording.rows.waits
        calm = "In the rest" if self.findings.lacks_much else "Nothing to worry about:"
        if look and look[0].kind == "gave-up":
            lines = ["No wait was unbounded, and no deadlock lasts."]
        elif look:
            lines = ["No priority inversion, and no deadlock."]
        elif not waits:
            return [f"{calm} no thread waited for a mutex."]
        else:
            lines = [f"{calm} no thread was held up for longer than a protocol allows."]
        bounded = self.findings.of("bounded")
        if bounded:
            worst = bounded[0].waits[0]
            by = f" for {self.names.at(worst.owner, worst.owner_level)}" if worst.owner else ""
            lines.append(
                f"The longest wait for a lower thread: {self.waiter(worst)},"
                f" {duration(worst.lower)}{by} at {self.names.mutex(worst.mutex)}.")
        elif waits and not look:
            worst = max(waits, key=lambda wait: wait.lasted)
            lines.append(
                f"The longest wait: {self.waiter(worst)},"
                f" {duration(worst.lasted)} at {self.names.mutex(worst.mutex)}; nobody waited for"
                " a lower thread.")
        return lines + [f"Worth a look: {self.to_look_at(one)}." for one in look[:1]]

    def to_look_at(self, found):
        if found.kind == "orders":
            return (f"{found.what} are locked in both orders, so that"
                    f" {self.names.threads(found.who, levels=False)} can deadlock")
        worst = found.waits[0]
        if found.kind == "gave-up":
            return (f"{self.waiter(worst)} waited {duration(worst.lasted)}"
                    f"{self.short(found.where)} for {self.names.mutex(worst.mutex)}, and gave up:"
                    f" {found.why}")
        if found.kind == "stalled":
            return (f"{self.waiter(worst)} waited {duration(worst.lasted)}"
                    f"{self.short(found.where)} for {self.names.mutex(worst.mutex)}, for"
                    f" {duration(found.worst)} of it because {found.why}")
        who, gave = self.names.at(worst.thread, worst.level), self.findings.others.gave(worst)
        return (f"{who} waited {duration(worst.lasted)}{self.short(found.where)} for {found.what},"
                f" until {self.names.at(worst.by, worst.by_level)} {gave}")
