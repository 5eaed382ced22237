"""Reads, prints and checks the events that pim-record --kernel records. FORMAT.md has the form."""
import re
from collections import Counter, namedtuple

MAGIC = b"pim-kernel "
VERSIONS, CLOCK = (1, 2), b"mono"  # the clock of the log

NUMBER, SIGNED = rb"(?:0|[1-9][0-9]{0,19})", rb"(?:0|-?[1-9][0-9]{0,19})"
PRIORITY = rb"(?:-1|0|[1-9][0-9]?|1[0-3][0-9]|140)"
ADDRESS, SHARING = rb"0x[0-9a-f]{1,16}", rb"(?:private|shared)"
STATE = rb"(?:[RSDTtXZPI]\+?|0x[0-9a-f]{1,16})"
NAME = rb"(?:[!-\[\]-~]|\\x[0-9a-f]{2}){0,16}"
HEAD = (rb"pim-kernel ([12])", rb"kernel ([!-~]+) ([!-~]+)", rb"clock ([!-~]+)",
        *(word + rb" (" + NUMBER + rb")" for word in (b"process", b"began", b"cpus")))
CALLS = ("lock", "lock2", "unlock", "trylock", "wait")
SINCE_2 = ("wait", "wake")
FIELDS = {"switch": (PRIORITY, STATE, NUMBER, PRIORITY), "setprio": (NUMBER, PRIORITY, PRIORITY),
          "return": (SIGNED,), "wake": (NUMBER,), "name": (NUMBER, NAME), "lost": (NUMBER, NUMBER),
          **dict.fromkeys(CALLS, (ADDRESS, SHARING))}
PATTERNS = {what: re.compile(b" ".join((NUMBER, NUMBER, NUMBER, what.encode(), *fields)))
            for what, fields in FIELDS.items()}
END = re.compile(rb"end (" + NUMBER + rb") (" + NUMBER + rb") (" + NUMBER + rb")")
NOT_COUNTED = ("name", "lost")

Head = namedtuple("Head", "version release machine clock process began cpus")
Event = namedtuple("Event", "line time cpu task what values")


class NotAKernelText(Exception):
    """Says why a file can't be read."""


def read_head(lines):
    """Returns the head, or raises NotAKernelText."""
    if not lines[0].startswith(MAGIC):
        raise NotAKernelText("it isn't a recording of the kernel's events")
    if not re.fullmatch(HEAD[0], lines[0]):
        raise NotAKernelText(f"its version isn't {' or '.join(map(str, VERSIONS))}, which this reader knows")
    found = [re.fullmatch(form, line) for form, line in zip(HEAD, lines)]
    if len(found) < len(HEAD) or None in found:
        raise NotAKernelText("its head isn't whole")
    version, release, machine, clock, *numbers = [word.decode() for match in found for word in match.groups()]
    return Head(int(version), release, machine, clock, *map(int, numbers))


def event_of(version, number, line):
    """Returns the event of a line, or None where the line has no form of that version."""
    parts = line.split(b" ")
    what = parts[3].decode("latin-1") if len(parts) > 3 else ""
    if what not in PATTERNS or not PATTERNS[what].fullmatch(line) or version == 1 and what in SINCE_2:
        return None
    time, cpu, task = map(int, parts[:3])
    numbers = (NUMBER, SIGNED, PRIORITY)
    fields = zip(FIELDS[what], parts[4:])
    values = tuple(int(word) if form in numbers else word.decode() for form, word in fields)
    return Event(number, time, cpu, task, what, values)


class KernelText:
    """The events of a recording in the order of the file, and the faults that reading it found."""

    def __init__(self, data):
        *lines, rest = data.split(b"\n")
        self.head = read_head(lines or [rest])
        self.faults, self.events, self.end = [], [], None
        for number, line in enumerate(lines[len(HEAD):], len(HEAD) + 1):
            self.read_line(number, line)
        if rest:
            self.faults.append("the last line isn't whole")
        if self.end is None:
            self.faults.append("the end is missing: the recorder was killed, or goes on")

    def read_line(self, number, line):
        event, end = event_of(self.head.version, number, line), END.fullmatch(line)
        if self.end is not None:
            self.faults.append(f"line {number}: it follows the end")
        elif end:
            self.end = tuple(map(int, end.groups()))
        elif event:
            self.events.append(event)
        else:
            self.faults.append(f"line {number}: it has no form of version {self.head.version}")

    def counted(self):
        return [event for event in self.events if event.what not in NOT_COUNTED]

    def lost(self):
        return [event for event in self.events if event.what == "lost"]


# ---- the laws ----

class Checker:
    """Goes through a recording from line to line, and notes which laws it breaks."""

    def __init__(self, text):
        self.text, self.faults = text, list(text.faults)
        self.last_time = text.head.began
        self.calling = {}     # by task: its call that hasn't returned
        self.running = {}     # by CPU: the recorded task that a switch began
        self.recorded = {it.task for it in text.counted() if it.what not in ("switch", "wake")}
        self.stretches = sorted(((it.values[1], it.time) for it in text.lost()), reverse=True)
        self.lost_until = 0

    def fault(self, event, why):
        self.faults.append(f"line {event.line}: {why}")

    def run(self):
        head = self.text.head
        if head.clock.encode() != CLOCK:
            self.faults.append(f"the clock {head.clock} isn't that of the log")
        for event in self.text.events:
            self.order(event)
            if event.what == "lost":
                self.lose(event)
            elif self.is_within_a_loss(event.time):
                self.forget()
            elif event.what == "switch":
                self.switch(event)
            elif event.what == "wake":
                self.wake(event)
            elif event.what != "name":
                self.run_by(event)
                self.call(event)
        if self.text.end:
            self.count()
        return self.faults

    def order(self, event):
        if event.time < self.last_time:
            self.fault(event, "its time is before that of what is above")
        self.last_time = event.time
        if event.cpu >= self.text.head.cpus:
            self.fault(event, f"there is no CPU {event.cpu}")

    def lose(self, event):
        count, begin = event.values
        if count == 0 or not self.text.head.began <= begin <= event.time:
            self.fault(event, "there is no such stretch")
        self.forget()

    def is_within_a_loss(self, time):
        """Returns whether the time is within a stretch, whose line comes at its end."""
        while self.stretches and self.stretches[-1][0] < time:
            self.lost_until = max(self.lost_until, self.stretches.pop()[1])
        return time < self.lost_until

    def forget(self):
        self.calling.clear()
        self.running.clear()

    def switch(self, event):
        if event.values[1][0] in "XZ":
            self.calling.pop(event.task, None)
        self.running.pop(event.cpu, None)
        if event.values[2] in self.recorded:  # of others, the next switch may not be there
            self.running[event.cpu] = event.values[2]

    def wake(self, event):
        woken, = event.values
        if self.calling.get(woken) != "wait":
            self.fault(event, f"task {woken} doesn't wait")

    def run_by(self, event):
        if self.running.get(event.cpu, event.task) != event.task:
            self.fault(event, f"task {event.task} isn't the one that runs on CPU {event.cpu}")

    def call(self, event):
        if event.what in CALLS:
            if event.task in self.calling:
                self.fault(event, f"task {event.task} has a call that hasn't returned")
            self.calling[event.task] = event.what
        elif event.what == "return":
            if event.task not in self.calling:
                self.fault(event, f"task {event.task} returns from no call")
            self.calling.pop(event.task, None)

    def count(self):
        time, events, lost = self.text.end
        there = len(self.text.counted())
        if time < self.last_time:
            self.faults.append("the end is before what is above")
        if events != there:
            self.faults.append(f"the end counts {events} events, and there are {there}")
        told = sum(event.values[0] for event in self.text.lost())
        if lost != told:
            self.faults.append(f"the end counts {lost} lost events, and the lines {told}")


def check(text):
    """Prints the laws that a recording breaks, and what was lost. Returns the status."""
    faults, head, events = Checker(text).run(), text.head, text.counted()
    for line in faults:
        print(line)
    for event in text.lost():
        begin, end = seconds(head, event.values[1]), seconds(head, event.time)
        print(f"CPU {event.cpu}: {event.values[0]} events were lost, from {begin} to {end}")
    counts = Counter(event.what for event in events)
    switches, priorities, wakes = counts["switch"], counts["setprio"], counts["wake"]
    tasks, lost = len({event.task for event in events}), sum(it.values[0] for it in text.lost())
    print(f"{len(faults)} faults in {len(events)} events of {tasks} tasks: {switches} switches,"
          f" {priorities} set priorities, {len(events) - switches - priorities - wakes} of futex,"
          f" {wakes} wakes; {lost} lost; clock {head.clock}")
    return 1 if faults else 0


# ---- printing ----

def seconds(head, time):
    return f"{(time - head.began) / 1e9:.9f}"


def priority_word(priority):
    """Returns the POSIX priority of a kernel's priority, or the class if it has none."""
    if priority < 0:
        return "deadline"
    return str(99 - priority) if priority < 99 else "other"


def line_of(event, head, names):
    """Returns the line of an event: seconds, CPU, task, event, and what belongs to it."""
    called = lambda task: f"{names.get(task, '')}[{task}]"
    start = f"{seconds(head, event.time)} cpu{event.cpu}"
    if event.what == "lost":
        return f"{start} lost events={event.values[0]} from={seconds(head, event.values[1])}"
    start += f" {called(event.task)} {event.what}"
    if event.what == "switch":
        prio, state, following, next_prio = event.values
        return (f"{start} priority={priority_word(prio)} state={state} next={called(following)}"
                f" next-priority={priority_word(next_prio)}")
    if event.what == "setprio":
        task, old, new = event.values
        return f"{start} task={called(task)} old={priority_word(old)} new={priority_word(new)}"
    if event.what == "return":
        return f"{start} result={event.values[0]}"
    if event.what == "wake":
        return f"{start} task={called(event.values[0])}"
    what = "word" if event.what == "wait" else "mutex"
    return f"{start} {what}={event.values[0]} {event.values[1]}"


def show(text):
    head, names = text.head, {}
    print(f"# process {head.process}, Linux {head.release} {head.machine}, {head.cpus} CPUs,"
          f" clock {head.clock}")
    for event in text.events:
        if event.what == "name":
            names[event.values[0]] = event.values[1]
        else:
            print(line_of(event, head, names))
