"""A recording as tracks over time: Trace Event JSON, which ui.perfetto.dev opens.

A group of tracks is a process of that format, and a track is a thread of it. What lasted no time
isn't there. Rows and spans say what lasted. Only why a thread was boosted, and at which level it
ran, is found in the facts here.
"""
import functools
import json
import pathlib
from collections import defaultdict

from facts_world import FactsWorld
from pack import parts_of, rows_of
from program import Fault
from rows_text import FAILED, GIVEN, TIMED_OUT
from words import place_and_function

BOOSTED, WAITS, OWNS = 1, 2, 3  # the order of the tracks of a thread
ENDS = {TIMED_OUT: "timed out", FAILED: "failed"}


class Lasting(FactsWorld):
    """`boosts` has by thread (begin, end, what it gets, its level, mutex, the waiter or 0), and
    `ran` by CPU (begin, end, thread, level)."""

    def __init__(self, facts):
        self.boosts, self.boosted = defaultdict(list), {}
        self.ran, self.running, self.kernel = defaultdict(list), {}, {}
        super().__init__(facts)
        self.acts.update({b"runs": self.runs, b"on": self.put_on, b"off": self.put_off})
        for number, line in enumerate(facts.lines[1:], 2):
            self.apply(number, line)
            if b" lost " in line and line.split(b" ", 2)[1] == b"lost":
                self.lost()
        self.lost()
        for thread in list(self.boosted):
            self.end_boost(thread)

    # ---- what boosts a thread

    def changed(self, *threads):
        for one in super().changed(*threads):
            self.look_at_level(one)

    def look_at_level(self, thread):
        why = self.reason_of(thread)
        if self.boosted.get(thread, (0, None))[1] != why:
            self.end_boost(thread)
            if why:
                self.boosted[thread] = self.now, why
        self.look_at_cpu(thread)

    def reason_of(self, thread):
        """Returns what a thread gets, its level, the first mutex that gives it that, and the first
        that awaits it, or 0 if it is the ceiling. It is None if nothing boosts the thread."""
        gets, level = self.gets[thread], self.level[thread]
        if gets == level:
            return None
        owned = sorted(self.owned[thread])
        for mutex in owned:
            if mutex in self.protects and self.ceiling[mutex] == gets:
                return gets, level, mutex, 0
        for mutex in owned:
            if mutex in self.inherits and mutex in self.waiting:
                waiter = self.first_of(mutex)
                if self.gets[waiter] == gets:
                    return gets, level, mutex, waiter
        return None

    def end_boost(self, thread):
        if thread in self.boosted:
            begin, why = self.boosted.pop(thread)
            if begin < self.now:
                self.boosts[thread].append((begin, self.now, *why))

    # ---- CPUs

    def level_on(self, thread):
        return self.kernel.get(thread, self.gets[thread])

    def runs(self, _, thread, words):
        self.kernel[thread] = int(words[3])
        self.look_at_cpu(thread)

    def put_on(self, _, thread, words):
        self.running[thread] = self.now, int(words[3]), self.level_on(thread)

    def put_off(self, _, thread, words):
        if thread in self.running:
            begin, cpu, level = self.running.pop(thread)
            if begin < self.now:
                self.ran[cpu].append((begin, self.now, thread, level))

    def look_at_cpu(self, thread):
        """A stay on a CPU is one of a level."""
        if thread in self.running and self.running[thread][2] != self.level_on(thread):
            begin, cpu, level = self.running[thread]
            if begin < self.now:
                self.ran[cpu].append((begin, self.now, thread, level))
            self.running[thread] = self.now, cpu, self.level_on(thread)

    def lost(self):
        """Which thread is on a CPU, and at which level, isn't known from here on."""
        for thread in list(self.running):
            self.put_off(0, thread, ())
        self.kernel.clear()


def microseconds(time):
    whole, rest = divmod(time, 1000)
    return f"{whole}.{rest:03}" if rest else str(whole)


@functools.lru_cache(maxsize=None)
def quoted(text):
    return json.dumps(text)


def fields(**values):
    """Returns the arguments of an event, but for those that are empty."""
    return ",".join(f'"{key.replace("_", " ")}":{quoted(value)}'
                    for key, value in values.items() if value != "")


class Tracks:
    """The events of a recording."""

    def __init__(self, recording, spans):
        self.facts, self.names, self.rows = recording.facts, recording.names, recording.all_rows
        self.where, self.spans = recording.where, spans
        self.lasting = Lasting(recording.facts)
        self.group = {thread: at for at, thread in enumerate(self.facts.threads, 1)}
        self.cpus, self.tracks = len(self.group) + 1, 0
        self.flows = defaultdict(list)  # by the line of a grant the waits for that owner
        for wait in self.rows.waits:
            self.flows[wait.taken].append(wait)
        self.waits, self.blocked = defaultdict(list), defaultdict(list)
        for into, rows in ((self.waits, self.rows.waits), (self.blocked, self.rows.blocked)):
            for row in rows:
                into[row.thread].append(row)
        self.ends = {}  # of flows, by the line of a wait: where the owner's slice is

    def lines(self):
        yield '{"displayTimeUnit":"ms","traceEvents":[\n'
        first = True
        for event in self.events():
            yield event if first else f",\n{event}"
            first = False
        yield "\n]}\n"

    def events(self):
        if self.lasting.ran:
            yield from self.called("process", self.cpus, self.cpus, "CPUs", 0)
        for cpu in sorted(self.lasting.ran):
            yield from self.cpu(cpu)
        for thread, group in self.group.items():
            yield from self.called("process", group, group, self.names.thread(thread), group)
            yield from self.priorities(thread, group)
            yield from self.boosts(thread, group)
            yield from self.owns(thread, group)
        for thread, group in self.group.items():
            yield from self.waiting(thread, group)

    # ---- events

    @staticmethod
    def called(what, group, track, name, place):
        begin = f'{{"ph":"M","pid":{group},"tid":{track},"name":"{what}_'
        yield f'{begin}name","args":{{"name":{quoted(name)}}}}}'
        yield f'{begin}sort_index","args":{{"sort_index":{place}}}}}'

    def track(self, group, name, place):
        """Returns a new track, and the events that name it. No track has the number of a group."""
        self.tracks += 1
        number = self.cpus + self.tracks
        return number, self.called("thread", group, number, name, place)

    @staticmethod
    def slice(group, track, name, stretch, args):
        begin, end = stretch
        return (f'{{"ph":"X","pid":{group},"tid":{track},"name":{quoted(name)},'
                f'"ts":{microseconds(begin)},"dur":{microseconds(end - begin)},"args":{{{args}}}}}')

    # ---- tracks

    def cpu(self, cpu):
        track, named = self.track(self.cpus, f"CPU {cpu}", cpu + 1)
        yield from named
        for begin, end, thread, level in self.lasting.ran[cpu]:
            name = self.names.thread(thread)
            yield self.slice(self.cpus, track, name, (begin, end), f'"level":{level}')

    def priorities(self, thread, group):
        """What a thread gets, as a counter."""
        changes = [(0, self.facts.threads[thread].level)]
        for time, gets, _ in parts_of(self.spans.levels.get(thread, ()), 3):
            if time == changes[-1][0]:
                changes.pop()
            if not changes or changes[-1][1] != gets:
                changes.append((time, gets))
        for time, gets in changes:
            yield (f'{{"ph":"C","pid":{group},"tid":{group},"name":"priority",'
                   f'"ts":{microseconds(time)},"args":{{"priority":{gets}}}}}')

    def boosts(self, thread, group):
        boosts, name = self.lasting.boosts.get(thread), self.names.thread(thread)
        if not boosts:
            return
        track, named = self.track(group, "boosted", BOOSTED)
        yield from named
        for begin, end, gets, level, mutex, waiter in boosts:
            why = f"{self.names.thread(waiter)} waits for {self.mutex(mutex)}" if waiter else (
                f"the ceiling of {self.mutex(mutex)}")
            yield self.slice(group, track, f"{name} at {gets}: {why}", (begin, end),
                             f'"base":{level}')

    def owns(self, thread, group):
        """A slice is on the first track that is free. Flows end there."""
        owns = sorted(own for own in parts_of(self.spans.owns.get(thread, ()), 4))
        rows, tracks = rows_of([own[:2] for own in owns]), []
        for (begin, end, mutex, line), row in zip(owns, rows):
            if row == len(tracks):
                track, named = self.track(group, "owns", OWNS + row)
                tracks.append(track)
                yield from named
            for wait in self.flows.pop(line, ()):
                if begin <= wait.begin < end:
                    self.ends[wait.line] = group, tracks[row]
            yield self.slice(group, tracks[row], f"owns {self.mutex(mutex)}", (begin, end),
                             fields(at=self.where(line)))

    def waiting(self, thread, group):
        """Waits for mutexes and other objects, of which a thread has one at a time."""
        items = [(wait.begin, wait.end, wait) for wait in self.waits.get(thread, ()) if wait.lasted]
        blocked = [wait for wait in self.blocked.get(thread, ()) if wait.lasted]
        if not items and not blocked:
            return
        track, named = self.track(group, "waits", WAITS)
        yield from named
        for begin, end, wait in items:
            yield from self.wait(group, track, (begin, end), wait)
        for wait in blocked:
            by = f"by {self.names.at(wait.by, wait.by_level)}" if wait.ended == GIVEN else ""
            args = fields(at=self.where(wait.line), ended=by or ENDS.get(wait.ended, ""))
            yield self.slice(group, track, f"blocked at {self.names.object(wait.object)}",
                             (wait.begin, wait.end), args)

    def wait(self, group, track, stretch, wait):
        owner = self.names.at(wait.owner, wait.owner_level) if wait.owner else "none"
        args = fields(owner=owner, at=self.where(wait.line), taken_at=self.where(wait.taken))
        yield self.slice(group, track, f"waits for {self.mutex(wait.mutex)}", stretch, args)
        for begin, end, mutex, runner in self.spans.late.get(wait.line, ()):
            yield self.slice(group, track, f"inverted: held up by {self.names.thread(runner)}",
                             (begin, end), fields(mutex=self.names.mutex(mutex)))
        if wait.line in self.ends:
            yield self.flow("s", group, track, wait, "")
            yield self.flow("f", *self.ends[wait.line], wait, '"bp":"e",')

    @staticmethod
    def flow(kind, group, track, wait, binding):
        return (f'{{"ph":"{kind}","pid":{group},"tid":{track},"name":"waits for",'
                f'"ts":{microseconds(wait.begin)},{binding}"cat":"waits","id":{wait.line}}}')

    def mutex(self, number):
        """Returns 'map_lock from map.c:12', if it is known where a mutex was initialised."""
        place = self.facts.mutexes[number].place
        return f"{self.names.mutex(number)}{f' from {place_and_function(place)}' * bool(place)}"


def write_perfetto(file, recording, spans):
    try:
        with pathlib.Path(file).open("w", encoding="utf-8") as out:
            out.writelines(Tracks(recording, spans).lines())
    except OSError as fault:
        raise Fault(f"{file}: {fault.strerror}") from fault
